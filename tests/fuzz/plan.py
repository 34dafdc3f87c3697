#!/usr/bin/env python3
"""Plans reclamations by act/plan on made-up disks, makes them, and judges what becomes of the disks, as tests/test_plan.py does, on more
disks and others. On some of them what is written is interrupted, and of its sectors only some are on the disk.

Prints a line for each failure, how often each case came up, and how many plans were refused, by the first word of the answer. The last
line is 'N passed, M failed'. Exit status: 0 if all passed, 1 if something failed, 2 if the arguments are wrong, 70 if there is no program
of these sources.
"""
import argparse
import os
import sys
import tempfile
from collections import Counter
from pathlib import Path

sys.path.insert(0, str(Path(__file__).resolve().parent.parent))
from lib.node import Broken, Engine
from lib.planning import Planner, plan_on
from lib.program import choose_program


def print_counts(seen):
    """A line for all that came up, and one for what was refused, as parts of all plans."""
    whole = seen["done"] + sum(count for kind, count in seen.items() if kind.startswith("refused: "))
    print("plans:", ", ".join(f"{kind} {count}" for kind, count in sorted(seen.items()) if not kind.startswith("refused: ")))
    print(f"of {whole} refused:", ", ".join(f"{kind.removeprefix('refused: ')} {count} ({count / whole:.1%})"
                                            for kind, count in sorted(seen.items()) if kind.startswith("refused: ")))


def main():
    parser = argparse.ArgumentParser(prog="tests/fuzz/plan.py", description=__doc__.partition("\n\n")[0],
                                     epilog=__doc__.partition("\n\n")[2], formatter_class=argparse.RawDescriptionHelpFormatter)
    for name, value, what in (("--disks", 1000, "on how many disks reclamations are planned and made"),
                              ("--interrupted", 1000, "on how many of them writes are interrupted"), ("--seed", 2, "others for each seed")):
        parser.add_argument(name, type=int, default=value, metavar="N", help=f"{what} (default: {value})")
    parser.add_argument("--program", metavar="P", help="the program (default: that of ./shardscrub)")
    given = parser.parse_args()
    program = choose_program(parser, given.program)
    os.environ["SHARDSCRUB"] = str(program)
    outcomes, seen = Counter(), Counter()
    with tempfile.TemporaryDirectory() as room:
        engine, planner = Engine(program, room), Planner(room)
        for turn in range(max(given.disks, given.interrupted)):
            for is_wanted, interrupts in ((turn < given.disks, False), (turn < given.interrupted, True)):
                if is_wanted:
                    try:
                        plan_on(engine, planner, given.seed * 1_000_003 + turn, seen, interrupts)
                        outcomes["passed"] += 1
                    except Broken as why:
                        outcomes["failed"] += 1
                        print("FAILED:", str(why)[:2000], flush=True)
    if seen:
        print_counts(seen)
    print(f"{outcomes['passed']} passed, {outcomes['failed']} failed")
    return int(outcomes["failed"] > 0)


if __name__ == "__main__":
    sys.exit(main())
