#!/usr/bin/env python3
"""Makes what the documents say of commands, options and statuses: in docs/REPORT.md the tables of options and of the statuses 0 and 1,
and the completions for three shells in release/completions/. README.md has the version of the newest entry of CHANGELOG.md.

Which command takes which options, and what its statuses mean, is in tables in this file; the sentences of the help are in
crates/scrub_args/src/help_texts.rt. tests/test_help.py compares the help of the program, and its version, with both. In the tables a word
of the program is in backquotes, in the help in single quotes.
"""
import re
import sys
from typing import NamedTuple

import completions
from pages import TOP, run_tool

REPORT, README, CHANGELOG = (TOP / name for name in ("docs/REPORT.md", "README.md", "CHANGELOG.md"))
HELP = TOP / "crates/scrub_args/src/help_texts.rt"
SHELLS = TOP / "release/completions"


def help_texts():
    """The texts of the help by their names in the source, as the program has them."""
    found = re.findall(r'const (\w+): &str =\s*"((?:[^"\\]|\\.)*)";', HELP.read_text(encoding="utf-8"), re.S)
    return {name: re.sub(r"\\\n\s*", "", text).replace('\\"', '"') for name, text in found}


TEXTS = help_texts()


class Option(NamedTuple):
    """An option or an argument: its value, of which a flag has none, its sentence in the help, what REPORT.md adds, and whether it may be
    repeated."""
    value: str
    help: str
    report: str = ""
    is_repeated: bool = False


class Command(NamedTuple):
    """A command: what the statuses 0 and 1 mean, how it takes the sizes, and its options in the order of the help. `sizes` is True if they
    have to be given, False if they may be left out, None if they can't be given. `images` has the names of its images."""
    ok: str
    not_ok: str = ""
    sizes: bool | None = False
    own: tuple = ()
    required: tuple = ()
    takes_map: bool = True
    images: tuple = ("IMAGE",)
    takes_pages: bool = True


SIZES = ("--page", "--pages", "--extents")

OPTIONS = {
    "--page": Option("BYTES", TEXTS["PAGE_HELP"], "together or, except for {given}, [not at all](#sizes-that-are-left-out)"),
    "--pages": Option("COUNT", TEXTS["PAGES_HELP"]),
    "--extents": Option("COUNT", TEXTS["EXTENTS_HELP"]),
    "--workers": Option("COUNT", TEXTS["WORKERS_HELP"], "workers only scan. Loading an image of 4 MiB or more, checking locators and making "
                        "the texts use up to one thread per processor"),
    "--id": Option("ID", TEXTS["ID_HELP"], "the digits in either case"),
    "--partial": Option("", TEXTS["PARTIAL_HELP"], "[which files and lines](#all-shards)"),
    "--run": Option("EXTENT:OFFSET", TEXTS["RUN_HELP"], "may be repeated: [what it says](#runs-that-are-given)", True),
    "--reset": Option("EXTENT", TEXTS["RESET_HELP"], "may be repeated: of [`manifest`](#the-manifest) and of [`compare`](#two-images)", True),
    "--accept": Option("LINE", TEXTS["ACCEPT_HELP"], "may be [repeated](#what-reclaimable-prints)", True),
    "--last": Option("G", TEXTS["LAST_HELP"], "[what it says](#the-last-superblock)"),
    "--extent": Option("NUMBER", TEXTS["EXTENT_HELP"]),
    "--pointer": Option("BYTES", TEXTS["POINTER_HELP"]),
    "--map": Option("FILE", TEXTS["MAP_HELP"], "[the rules](#a-map-of-what-couldnt-be-read)"),
    "IMAGE": Option("", TEXTS["IMAGE_HELP"]),
    "BEFORE": Option("", TEXTS["BEFORE_HELP"]),
    "AFTER": Option("", TEXTS["AFTER_IMAGE_HELP"]),
    "EXTENT:PAGE": Option("", TEXTS["BAD_PAGES_HELP"], "", True),
}

WORKERS = ("--workers",)
WHOLE = "the {} is whole all the same"
COMMANDS = {
    "summary": Command("the verdict is `sound`", "else; " + WHOLE.format("text"), own=("--workers", "--last")),
    "scan": Command("`clean` is true", "it is false", own=WORKERS),
    "shard": Command("all bytes are written, and the error stream has no line; the disk may have other faults",
        "all bytes are written, but a newer superblock or entry may be lost, or there is a tie; or nothing is written, as there is no such "
        "shard or a payload is lost", own=("--workers", "--id", "--run"), required=("--id",)),
    "shards": Command("the archive has each shard, and the error stream has no line",
        "the archive is written, and the error stream has lines", own=("--workers", "--partial", "--run")),
    "index": Command("clean", "findings; " + WHOLE.format("index"), True, WORKERS),
    "locators": Command("clean", "findings; " + WHOLE.format("list"), own=WORKERS),
    "manifest": Command("there is a superblock or `--run`, no run is lost or hidden, each locator is sound, and the error stream has no line",
        "else; " + WHOLE.format("text"), True, ("--workers", "--reset", "--run")),
    "runs": Command("each page of the disk can be read", "a page can't be read: a run with bytes of it isn't listed", True, WORKERS),
    "reclaimable": Command("no line begins with `doubt`; there may be nothing to reclaim, and the disk may have other faults",
        "a line begins with `doubt`", True, ("--workers", "--accept", "--last")),
    "compare": Command("the last line is `safe`", "it is `unsafe`; " + WHOLE.format("text"), True, ("--workers", "--reset"),
        images=("BEFORE", "AFTER")),
    "superblocks": Command("every line is a `record`, and one of them `counts`", "anything else, including no line at all"),
    "sizes": Command("there is a record, all have the same sizes, and no byte is lost", "anything else", None, takes_pages=False),
    "items": Command("every item is a `chunk`, `sealed` or not, or padding", "an item is `torn`, `noise` or `lost`",
        own=("--extent", "--pointer"), required=("--extent",)),
    "demo": Command("the report is printed", sizes=None, takes_map=False, images=(), takes_pages=False),
}


def options_of(command):
    """The options of a command in the order of the help, without those for help itself."""
    return (*(SIZES if command.sizes is not None else ()), *command.own, *("--map",) * command.takes_map)


def required_of(command):
    """Those that have to be given."""
    return (*(SIZES if command.sizes else ()), *command.required)


def arguments_of(command):
    return (*command.images, *("EXTENT:PAGE",) * command.takes_pages)


def plain(text):
    """A text as the help has it: words of the output in single quotes, options as they are."""
    return re.sub("`(--[^`]*)`", r"\1", text).replace("`", "'")


def written_option(name, mark):
    """An option with its value, if it isn't a flag."""
    return name + f"{mark}{OPTIONS[name].value}" * (OPTIONS[name].value != "")


def help_of(name, command):
    """The sentence of an option in the help of a command."""
    return TEXTS["FREE_PAGE_HELP"] if name == "--page" and command.sizes is False else OPTIONS[name].help


def about(name):
    """The sentence of a command in the help."""
    return TEXTS[f"{name.upper()}_ABOUT"]


def listed(names):
    """Names with a comma between them, and `and` before the last."""
    names = [f"`{name}`" for name in names]
    return ", ".join(names[:-1]) + " and " * (len(names) > 1) + names[-1]


def takers(option):
    """Which commands take an option, in words."""
    without = [name for name, one in COMMANDS.items() if option not in options_of(one)]
    return "all but " + listed(without) if len(without) < 3 else listed(name for name in COMMANDS if name not in without)


def version():
    """The newest version in the changelog, and its day."""
    return re.search(r"^## ([0-9.]+), ([0-9-]+)$", CHANGELOG.read_text(encoding="utf-8"), re.M).groups()


def option_table():
    rows = ["| Option | Commands | More |", "|---|---|---|"]
    given = listed(name for name, one in COMMANDS.items() if one.sizes)
    for name, option in OPTIONS.items():
        if name.startswith("--") and name not in SIZES[1:]:
            names = SIZES if name == SIZES[0] else (name,)
            written = ", ".join(f"`{written_option(one, ' ')}`" for one in names)
            rows.append(f"| {written} | {takers(name)} | {option.report.format(given=given)} |")
    return rows


def status_table():
    rows = ["| Command | Status 0 | Status 1 |", "|---|---|---|"]
    return rows + [f"| `{name}` | {command.ok} | {command.not_ok or '-'} |" for name, command in COMMANDS.items()]


def replace_table(text, rows, faults, name):
    """A page with the table replaced that has the head of these rows."""
    lines = text.split("\n")
    if rows[0] not in lines:
        faults.append(f"{name} has no table {rows[0]}")
        return text
    first = lines.index(rows[0])
    last = next(number for number in range(first, len(lines)) if not lines[number].startswith("|"))
    return "\n".join(lines[:first] + rows + lines[last:])


def made_report(faults):
    text = replace_table(REPORT.read_text(encoding="utf-8"), option_table(), faults, "docs/REPORT.md")
    return replace_table(text, status_table(), faults, "docs/REPORT.md")


def made_readme(faults):
    text, count = re.subn(r"^shardscrub [0-9.]+$", f"shardscrub {version()[0]}", README.read_text(encoding="utf-8"), flags=re.M)
    if count == 0:
        faults.append("README.md doesn't show the version")
    return text


def completed():
    """What the completions are made from. Of a sentence with several parts they show the first."""
    return [completions.Completed(name, about(name), tuple(
        completions.Taken(option, OPTIONS[option].value, OPTIONS[option].help.partition(". ")[0], OPTIONS[option].is_repeated)
        for option in options_of(one)), one.images, one.takes_pages) for name, one in COMMANDS.items()]


def made():
    faults = []
    shells = {"shardscrub.bash": completions.bash, "_shardscrub": completions.zsh, "shardscrub.fish": completions.fish}
    return {REPORT: made_report(faults), README: made_readme(faults),
            **{SHELLS / name: written(completed()) for name, written in shells.items()}}, faults


if __name__ == "__main__":
    sys.exit(run_tool("dev/options.py", __doc__, made))
