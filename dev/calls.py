"""The table of docs/PROVED.md that has what the public calls give. dev/book.py puts it there.

A call is a public function of a crate of the program, or a method of a type there, with a clause by which its result has to meet a
condition of this project or to be a value that it defines. A row has the calls with the same definitions and the same laws: those that name
one of these definitions and begin with `one_` or `each_`, or that are listed here for the call. There is a row for a call that is listed here,
or about which such a law says that there is at most one answer, and for a function of whose definitions the book prints one.
"""
import re
from functools import cache

from reader import codes, crate_of
from specs import BELOW, CRATES, Imports, Spec, resolved, short, spec_path, without_comments

HEAD = "| Calls | Definitions | Laws |"
PROGRAM = "scrub_cli"
# What many calls say beside their answer: names of clauses, and conditions that say what each value of a type keeps.
BESIDE, KEPT = ("takings", "takings_now", "reads", "whole"), ("IsLocator", "IsLocatorIndex", "IsOfImage", "ArePlanned")


# Laws about a part of what a call gives, and methods that have a row without a law; and laws that don't say that there is one answer.
MORE = {
    "Batch::digests": [],
    "read_frame": ["bytes_besides_the_payload", "no_frame_begins_another"],
    "Matcher::feed": ["one_frame"],
    "frame_stands": ["one_frame_stands"],
    "claimed_frame": ["a_claim_is_of_one_frame"],
    "choose": ["choice_by_conditions"],
    "Front::superblocks": ["one_answer_for_lost_blocks"],
    "read_runs": ["runs_and_states_apart"],
    "Spares::of": [],
    "list_sizes": ["one_sizes_listing"],
}
OTHERS = ("each_byte_is_judged", "one_manifest_holds_the_same", "one_answer_in_every_schedule")
BEGIN, END = (f"<!-- The table of calls {where}. -->" for where in ("begins", "ends"))


@cache
def spec_of(path):
    return Spec(path)


def is_condition(place):
    """Whether a definition is a condition on something, by its type."""
    path, name = place
    text = spec_of(path).definitions.get(name, "")
    record = rf" *pub record {name} [({{].*?: Type 0 where$"
    return name[0].isupper() and re.match(rf"{record}|.*?\bType 0\n{name} ", text, re.M | re.S) is not None


def definitions(text, imports):
    """The definitions of this project that a text names: pairs of a file and a name."""
    places = [(module.split("."), name) for module, name in resolved(text, imports, {})[1]]
    return [(spec_path(parts[1], ".".join(parts[3:])), name) for parts, name in places
            if parts[0] == "Rattle" and parts[1] in CRATES and parts[3] != "declared" and name not in KEPT]


class Function:
    """A public function: its name, with that of its type if it is a method, and which definitions its clauses name."""

    def __init__(self, path, name, comment, contract, imports):
        self.path, self.name = path, name
        self.comment = " ".join(line.strip()[3:].strip() for line in comment.splitlines() if line.strip().startswith("///"))
        clauses = re.findall(r"ensures (\w*) ?\{(.*?)\}(?= ensures| requires| ?$)", re.sub(r"\s+", " ", contract))
        every = [definitions(part, imports) for clause, part in clauses if clause not in BESIDE]
        self.clauses = [[one for one in found if is_condition(one)] or [one for one in found if one[1][0].islower()] for found in every]
        self.places = dict.fromkeys(one for found in self.clauses for one in found)

    def is_law(self):
        return self.comment.startswith("A law: ")

    def link(self):
        return f"[`{self.name}`](../crates/{short(self.path)})"


def functions_of(path):
    """The public functions and methods of a file."""
    lines = path.read_text(encoding="utf-8").splitlines()
    imports = Imports("\n".join(line for line in lines if re.match(r" *ghost use", line)))
    of = ""
    for place, line in enumerate(lines):
        if found := re.match(r"impl(?:<.*>)? (\w+)", line):
            of = found[1]
        elif found := re.match(r"( *)pub fn (\w+)", line):
            begin = place
            while re.match(r" *(///|#\[)", lines[begin - 1]):
                begin -= 1
            end = next(k for k in range(place, len(lines)) if lines[k].startswith(found[1] + "{") or lines[k].endswith(";") or k + 1 == len(lines))
            contract = without_comments("\n".join(lines[place:end]), "//")
            yield Function(path, f"{of}::{found[2]}" if found[1] else found[2], "\n".join(lines[begin:place]), contract, imports)


def exported(crate):
    """The names that a crate exports."""
    lib = next((path for path in codes() if crate_of(path) == crate and path.name == "lib.rt"), None)
    lists = re.findall(r"(?m)^pub use [\w:]+::(?:\{([^}]*)\}|(\w+));", codes()[lib].text) if lib else []
    return [name.strip() for names, one in lists for name in (names or one).split(",")]


def program_crates():
    """The crates that the program is built from, lowest first."""
    found = {PROGRAM}
    for crate in reversed(CRATES):
        found |= set(BELOW[crate]) if crate in found else set()
    return [crate for crate in CRATES if crate in found]


def table(place_of):
    """The rows of the table. `place_of` gives where the book prints a definition, or None."""
    crates = program_crates()
    every = [one for path in codes() if crate_of(path) in crates for one in functions_of(path)]
    laws = [one for one in every if one.is_law()]
    names = {crate: exported(crate) for crate in crates}
    rows = {}
    for call in every:
        more = MORE.get(call.name, [])
        about = [law for law in laws if law.name.startswith(("one_", "each_")) and law.name not in OTHERS and call.places.keys() & law.places.keys()]
        about += [law for law in laws if law.name in more and law not in about]
        is_one = any(law.name.startswith("one_") for law in about)
        is_listed = call.name in MORE or is_one or "::" not in call.name and any(place_of(*place) for place in call.places)
        if call.is_law() or not call.places or call.name.split("::")[0] not in names[crate_of(call.path)] or not is_listed:
            continue
        named = ", ".join(f"[`{one}`]({place_of(path, one) or f'../crates/{short(path)}'})" for path, one in call.places)
        rows.setdefault((named, ", ".join(law.link() for law in about)), []).append(call.link())
    return [HEAD, "|---|---|---|", *(f"| {', '.join(links)} | {named} | {laws} |" for (named, laws), links in rows.items())]


def replaced(text, place_of):
    """PROVED with the table made anew, and what is wrong."""
    before, begin, rest = text.partition(BEGIN)
    _, end, after = rest.partition(END)
    if not end:
        return text, [f"docs/PROVED.md hasn't the lines {BEGIN} and {END}"]
    rows = table(place_of)
    faults = [f"{name} of dev/calls.py has no row" for name in MORE if not any(f"[`{name}`](" in row for row in rows)]
    return "\n".join([before + begin, "", *rows, "", end + after]), faults
