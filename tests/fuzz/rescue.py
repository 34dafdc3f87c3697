#!/usr/bin/env python3
"""Takes dead nodes' disks by act/rescue, as tests/test_rescue.py does, on more disks and others: with the generation of the node's log and
without it, and with the list of the last runs. Each archive is compared with what the node had.

Prints a line for each kind of damage: how many shards are right, missing and wrong, how many came back that the node had deleted, and on
how many disks the status was 0. The last line is 'N passed, M failed': a disk fails with status 0 and another archive, or a fault. Exit
status: 0 if all passed, 1 if something failed, 2 if the arguments are wrong, 70 if there is no program of these sources.
"""
import argparse
import sys
import tempfile
from collections import Counter
from pathlib import Path

sys.path.insert(0, str(Path(__file__).resolve().parent.parent))
from lib.program import choose_program
from lib.rescues import KINDS, Rescuer, deads, judged

WORDS = ("right", "missing", "wrong", "deleted")
MODES = ("no log", "the log", "the log and its list")


def tried(rescuer, kind, mode, count, first):
    """The counts of so many disks of a kind, and how many failed."""
    counts, failed = Counter(), 0
    for dead in deads(kind, count, first):
        found = rescuer.ask(dead.drive, None if mode == "no log" else dead.last, dead.runs or None if mode.endswith("list") else None)
        files = found.files or {}
        counts.update(judged(dead.right, files))
        counts["status 0"] += found.status == 0
        if found.status > 1 or found.status == 0 and files != dead.files():
            failed += 1
            print(f"FAILED: {kind}, {mode}: {'; '.join(found.lines)[:500]}", flush=True)
    return counts, failed


def main():
    parser = argparse.ArgumentParser(prog="tests/fuzz/rescue.py", description=__doc__.partition("\n\n")[0],
                                     epilog=__doc__.partition("\n\n")[2], formatter_class=argparse.RawDescriptionHelpFormatter)
    for name, value, what in (("--disks", 400, "how many disks, dealt to the kinds"), ("--seed", 0, "others for each seed")):
        parser.add_argument(name, type=int, default=value, metavar="N", help=f"{what} (default: {value})")
    parser.add_argument("--program", metavar="P", help="the program (default: that of ./shardscrub)")
    given = parser.parse_args()
    program = choose_program(parser, given.program)
    outcomes = Counter()
    with tempfile.TemporaryDirectory() as room:
        rescuer = Rescuer(program, room)
        for mode in MODES:
            total = Counter()
            for number, kind in enumerate(KINDS):
                count = given.disks // len(KINDS) + (number < given.disks % len(KINDS))
                counts, failed = tried(rescuer, kind, mode, count, given.seed * 1_000_003)
                outcomes.update(passed=count - failed, failed=failed)
                total.update(counts)
                print(f"{mode}, {kind}, {count} disks:", ", ".join(f"{word} {counts[word]}" for word in (*WORDS, "status 0")), flush=True)
            print(f"{mode}, all:", ", ".join(f"{word} {total[word]}" for word in (*WORDS, "status 0")), flush=True)
    print(f"{outcomes['passed']} passed, {outcomes['failed']} failed")
    return int(outcomes["failed"] > 0)


if __name__ == "__main__":
    sys.exit(main())
