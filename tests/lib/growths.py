"""Refuses each growth of single calls, in turn, and says how the calls end; and accounts for all public functions that take memory.

The program of the crate scrub_refused_memory makes one call on small values. It prints `right` with status 0 for the right answer,
`out of memory` with status 4, or `wrong` with status 1 for anything else. Growths for the call's values are skipped; a run before
counts them.
"""
import re
import subprocess
from collections import Counter

from lib.program import TOP
from lib.system import refusing, refusing_of_others

PROGRAM = TOP / "crates/scrub_refused_memory/out/scrub_refused_memory"
RIGHT = (0, b"right\n", b"")
REFUSED = (4, b"out of memory\n", b"")
# No program makes so many allocations.
NONE_REFUSED = 10**9
# What the program has to print if it makes all calls.
LISTED = TOP / "crates/scrub_refused_memory/stdout"
# Calls without a growth. Every other call has at least one.
WITHOUT_GROWTH = {"ExtentQueue::split"}
# These look as if they took memory, but take none: an empty list, the contents of a list, a fault of another kind.
TAKING_NONE = {"Batch::new", "Workspace::new", "WorkerCore::new", "Geometry::new", "fill", "write_out"}
# Functions that no command makes, each with the call that makes it.
WITHIN_CALLS = {"Entry::copy": "merge", "LocatorIndex::of": "orphans", "scan_by_one": "scrub_in_order"}
# Functions that are tried in whole runs alone, each with a command line of tests/test_memory.py that makes it.
IN_RUNS = {
    "Batch::append": "locators with a spare",
    "Batch::end": "locators with a spare",
    "Batch::digests": "locators with a spare",
    "read_extent": "compare",
    "unreadable_pages": "scan",
    "load_in_parts": "locators by several readers",
    "load_extent": "items",
    "read_map": "scan with a map",
    "RescueMap::lost_blocks": "scan with a map",
    "read_locators": "scan",
    "choose_with_pages": "superblocks",
    "Plan::with_resets": "manifest with resets",
    "Plan::listing": "manifest by given runs",
    "Front::read": "sizes",
    "Front::superblocks": "sizes",
    "scan_extents_in": "scan",
    "rescan": "compare",
    "push_item_line": "scan",
    "claimed_frame": "scan",
    "RunWriter::new": "index of several findings",
    "RunWriter::append": "index of several findings",
    "RunWriter::finish": "index of several findings",
    "merge_by_threads": "scan",
    "liveness_by": "scan",
    "LocatorIndex::by_threads": "summary",
    "twins_by_threads": "scan",
    "Spares::of": "locators with a spare",
    "Spares::among": "reclaimable",
    "Copies::of": "locators with a loose copy",
    "name_shard": "locators",
    "payload_at": "scan",
    "read_all_runs": "scan",
    "check_named": "locators",
    "draw_named": "scan",
    "scan_by": "scan",
    "scan_chosen": "summary",
    "scan_listed": "manifest by given runs",
    "scan_as_reset": "compare",
    "scan_with_remarks": "manifest",
    "find_runs": "runs",
    "run_at": "manifest by given runs",
    "judged_of": "locators",
    "drawn_scan": "scan",
    "liveness_and_twins": "summary",
    "liveness_and_twins_by": "scan",
    "id_text": "locators",
    "owner_text": "locators",
    "append_line": "locators",
    "list_locators": "locators",
    "superblock_remarks": "manifest with a remark",
    "append_retired": "manifest",
    "append_runs": "manifest",
    "append_text": "manifest",
    "append_form": "manifest",
    "append_place": "manifest",
    "list_manifest": "manifest",
    "list_runs": "runs",
    "find_sizes": "shard without sizes",
    "list_sizes": "sizes",
    "list_summary": "summary",
    "list_superblocks": "superblocks",
    "choice_doubts": "reclaimable",
    "page_doubts": "reclaimable",
    "lost_runs": "reclaimable",
    "append_doubt_text": "reclaimable with another generation",
    "barred_extents": "reclaimable",
    "ExtentSet::of": "reclaimable",
    "candidates_by": "reclaimable",
    "list_reclaimable": "reclaimable",
    "compare": "compare",
    "read_shard": "shard",
    "read_shards": "shards",
}
# The crates whose public functions are in this account.
LIBRARIES = ["sha_lanes"] + [
    f"scrub_{name}"
    for name in ("disk", "map", "frame", "super", "scan", "run", "merge", "check", "loose", "book", "pool", "found", "report", "listings",
                 "reclaim", "compare", "shard")
]
# A public function: its indentation, its name, and its signature up to the clauses or the body.
FUNCTION = re.compile(r"^( *)pub fn (\w+)(.*?)(?=\n *(?:requires|ensures|\{)| \{)", re.MULTILINE | re.DOTALL)
# The type of the methods that follow.
IMPL = re.compile(r"^impl(?:<.*?>)? (\w+)", re.MULTILINE)
TAKES_MEMORY = re.compile(r"alloc: Global|OutOfMemory|AllocError|Fault>|StepRefused")


def sweep(library, call, before, all_later):
    """How the runs with a refused growth ended, and whether the run without a refusal is right."""
    ends, refused = Counter(), before
    while True:
        refused += 1
        got, met = refusing(PROGRAM, f"{call} answered", library, refused, all_later)
        if met < refused:
            return ends, got == RIGHT
        ends["refused" if got == REFUSED else "right" if got == RIGHT else "wrong"] += 1


def taking_memory(source, is_public):
    """Yields the public functions of a source file that take memory, by their signatures. A method has its type's name too."""
    types = [(found.start(), found[1]) for found in IMPL.finditer(source)]
    for found in FUNCTION.finditer(source):
        indent, name, signature = found.groups()
        owner = [named for place, named in types if place < found.start()][-1] if indent else None
        if TAKES_MEMORY.search(signature) and is_public(owner or name):
            yield f"{owner}::{name}" if owner else name


def public_functions():
    """The public functions of the libraries that take memory. `lib.rt` makes a name or its module public."""
    for library in LIBRARIES:
        folder = TOP / "crates" / library / "src"
        root = (folder / "lib.rt").read_text()
        names = set(re.findall(r"\w+", " ".join(re.findall(r"^pub use ([^;]*);", root, re.MULTILINE))))
        for path in sorted(folder.rglob("*.rt")):
            is_open = f"pub mod {path.stem};" in root
            yield from taking_memory(path.read_text(), lambda name: is_open or name in names)


def account(command_lines):
    """Yields what is wrong with the account of the public functions that take memory. Each of them is a call, or made within one, or
    made by one of these command lines, or takes none after all, and no two of these."""
    functions, made = set(public_functions()), {call.split()[0] for call in listed()}
    kinds = {"a call": made, "within a call": WITHIN_CALLS, "in whole runs": IN_RUNS, "taking none": TAKING_NONE}
    for name in sorted(functions):
        found = [kind for kind, names in kinds.items() if name in names]
        if len(found) != 1:
            yield f"{name} is {' and '.join(found) or 'not tried'}"
    for kind, names in kinds.items():
        yield from (f"{name}, {kind}, is no such function" for name in sorted(names) if name not in functions)
    yield from (f"{name} is within {call}, which is no call" for name, call in WITHIN_CALLS.items() if call not in made)
    yield from (f"{name} is in {line}, which is no command line" for name, line in IN_RUNS.items() if line not in command_lines)


def listed():
    """The words of each call, as they are listed."""
    return [line.removesuffix(" right") for line in LISTED.read_text().splitlines()]


def calls():
    """The words of each call that the program makes."""
    return subprocess.run([PROGRAM, "calls"], capture_output=True, text=True, check=True).stdout.splitlines()


def starts_workers(call):
    """Whether a call's second word is a number of workers, and isn't 0."""
    _, _, second = call.partition(" ")
    return second.isdecimal() and second != "0"


def tried(library, call):
    """Whether all runs of a call ended rightly, and how they ended.

    A call with a refused growth has to run out of memory or give the right answer all the same: a request may be repeated, or work
    done without a thread that can't start. If all later growths are refused too, it has to run out of memory. The run that meets
    no refusal has to be right.
    """
    got, before = refusing(PROGRAM, f"{call} made", library, NONE_REFUSED)
    one, one_right = sweep(library, call, before, False)
    all_later, all_right = sweep(library, call, before, True)
    growths, growths_then = sum(one.values()), sum(all_later.values())
    wrong = one["wrong"] + all_later["wrong"] + all_later["right"]
    are_met = growths == growths_then == 0 if call in WITHOUT_GROWTH else growths > 0 and growths_then > 0
    is_right = got == RIGHT and one_right and all_right and wrong == 0 and are_met
    return is_right, f"values {got}; one growth refused: {dict(one)}; all later ones too: {dict(all_later)}"


def tried_by_workers(library, call):
    """Whether a call ended out of memory if each growth of its workers was refused, and how it ended."""
    got, refused = refusing(PROGRAM, f"{call} answered", library, NONE_REFUSED, all_others=True)
    return got == REFUSED and refused > 0, f"{got}, {refused} growths refused"


def ended_workers(library, call):
    """Whether all threads that a call started had ended when it answered, with each growth of theirs refused in turn, and how the call
    ended. A run that meets no refusal has to be right."""
    ends, left = Counter(), 0
    for refused, got, counts in refusing_of_others(PROGRAM, f"{call} answered", library):
        if not counts:
            return False, f"{got}, without counts"
        left += counts.left + (counts.threads == 0)
        ends["right" if got == RIGHT else "refused" if refused and got == REFUSED else "wrong"] += 1
    is_right = left == ends["wrong"] == 0 and ends["refused"] > 0
    return is_right, f"one growth of the workers refused, or none: {dict(ends)}; threads left: {left}"
