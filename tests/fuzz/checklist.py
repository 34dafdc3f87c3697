#!/usr/bin/env python3
"""Walks the checklist of docs/RECLAIMING.md on made-up disks, makes mistakes, and holds the laws of acting and those of `compare`, as
tests/test_checklist.py and tests/test_compare.py do, on more disks and others.

Prints a line for each failure, and how often each case came up. The last line is 'N passed, M failed'. The error stream says how long
it will take, and from time to time how long it still takes. Exit status: 0 if all passed, 1 if something failed, 2 if the arguments are
wrong, 70 if there is no program of these sources.
"""
import argparse
import os
import sys
import tempfile
import time
from collections import Counter
from functools import partial
from pathlib import Path

sys.path.insert(0, str(Path(__file__).resolve().parent.parent))
from lib.faults import Script
from lib.laws import hold_compare_laws_on, hold_laws_on
from lib.mistakes import MISTAKES
from lib.node import Broken, Engine
from lib.outcomes import DEAD_END, NEEDED, judge_mistake
from lib.program import choose_program
from lib.reclaims import walk_by_command
from lib.trials import row, trials
from lib.walk import walk_honestly

# What is left out of a walk beside each of these mistakes.
RULES = NEEDED | dict([DEAD_END])
# About how many seconds of one processor each of these takes: the laws on a disk or a pair, a walk, a mistake on a disk, and what
# `--table` tries beside a mistake.
LAW, WALK, MISTAKE, BESIDE = .12, .15, .25, .05
# So many seconds are between two lines on what is left.
BETWEEN = 15


def print_rows(engine, one, seed, found, tries):
    print(row(one.name, found), flush=True)
    if (rule := RULES.get(one.name)) is not None:
        print(row(f"    without {rule}", trials(engine, one, seed, tries, (rule,))), flush=True)


def check_mistake(engine, one, given):
    found = trials(engine, one, given.seed, given.tries)
    if given.table:
        print_rows(engine, one, given.seed, found, given.tries)
    judge_mistake(one, found)


def checks(engine, given, seen):
    """Each check, with its seconds and as a function. A table comes first."""
    seeds = range(given.seed * 1_000_003, (given.seed + 1) * 1_000_003)
    laws = [(LAW, partial(hold, engine, seed, seen)) for hold in (hold_laws_on, hold_compare_laws_on) for seed in seeds[:given.laws]]
    command = partial(walk_by_command, Script(engine.program), engine, os.path.dirname(engine.name)) if engine.program else lambda *_: None
    walks = [(WALK, partial(walk_honestly, engine, seed, seen, command)) for seed in seeds[:given.disks]]
    mistakes = [(given.tries * (MISTAKE + BESIDE * given.table), partial(check_mistake, engine, one, given))
                for one in MISTAKES if given.tries]
    return mistakes + laws + walks if given.table else laws + walks + mistakes


def minutes(seconds):
    return f"about {seconds / 60:.0f} minutes" if seconds > 90 else f"about {seconds:.0f} seconds"


def in_turn(all_checks):
    """Yields each check as a function, and says how long all take and what is left."""
    def say(text):
        print(f"tests/fuzz/checklist.py: {text}", file=sys.stderr, flush=True)

    whole = sum(seconds for seconds, _ in all_checks)
    say(f"this takes {minutes(whole)} of one processor")
    done, begun = 0, time.monotonic()
    said = begun
    for number, (seconds, check) in enumerate(all_checks):
        now = time.monotonic()
        if now - said > BETWEEN:
            said = now
            say(f"{number} of {len(all_checks)} checks done, {minutes((now - begun) * (whole - done) / done)} left")
        yield check
        done += seconds


def main():
    parser = argparse.ArgumentParser(prog="tests/fuzz/checklist.py", description=__doc__.partition("\n\n")[0],
                                     epilog=__doc__.partition("\n\n")[2], formatter_class=argparse.RawDescriptionHelpFormatter)
    for name, value, what in (("--disks", 200, "how many disks are walked"),
                              ("--laws", 400, "on how many disks, and on how many pairs of images, the laws are held"),
                              ("--tries", 4, "on how many disks each mistake is made"), ("--seed", 2, "others for each seed")):
        parser.add_argument(name, type=int, default=value, metavar="N", help=f"{what} (default: {value})")
    parser.add_argument("--table", action="store_true", help="print first, for each mistake as it goes, which box stops it, how often, and "
                        "how often bytes were lost by then (!)")
    parser.add_argument("--program", metavar="P", help="the program (default: that of ./shardscrub)")
    parser.add_argument("--no-program", action="store_true", help="the slow reference prints the answers")
    given = parser.parse_args()
    program = None if given.no_program else choose_program(parser, given.program)
    outcomes, seen = Counter(), Counter()
    with tempfile.TemporaryDirectory() as room:
        engine = Engine(program, room)
        for check in in_turn(checks(engine, given, seen)):
            try:
                check()
                outcomes["passed"] += 1
            except Broken as why:
                outcomes["failed"] += 1
                print("FAILED:", str(why)[:2000], flush=True)
    print(f"{given.laws} disks and pairs for the laws, {given.disks} walked, {len(MISTAKES)} kinds of mistakes, {engine.calls} calls:",
          dict(sorted(seen.items())))
    print(f"{outcomes['passed']} passed, {outcomes['failed']} failed")
    return int(outcomes["failed"] > 0)


if __name__ == "__main__":
    sys.exit(main())
