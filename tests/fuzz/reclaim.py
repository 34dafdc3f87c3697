#!/usr/bin/env python3
"""Walks act/reclaim on made-up disks, as tests/test_reclaim.py does, on more disks and others: at any step something happens, and then it
is called again. Makes two walks one after the other, between which something rots. Takes rules out of the script, and sees what finds it.

Prints a line for each failure, how often each case came up, and with --rules what each rule was found by. The last line is 'N passed, M
failed'. Exit status: 0 if all passed, 1 if something failed, 2 if the arguments are wrong, 70 if there is no program of these sources.
"""
import argparse
import sys
import tempfile
import time
from collections import Counter
from functools import partial
from pathlib import Path

sys.path.insert(0, str(Path(__file__).resolve().parent.parent))
from lib.faults import Script
from lib.node import Broken, Engine
from lib.program import choose_program
from lib.reclaims import KINDS, trial, two_walks
from lib.rules import RULES, found_by


def checks(given, script, engine, seen):
    """Each check as a function of the folder for it."""
    begin = given.seed * 1_000_003
    for k in range(given.trials):
        yield partial(trial, script, engine, seed=begin + k, seen=seen, kind=given.only, is_real=k < given.real * given.trials)
    for k in range(given.disks):
        yield lambda room, k=k: seen.update(["two walks: something was lost"] * two_walks(script, engine, room, begin + k, seen))


def arguments():
    parser = argparse.ArgumentParser(prog="tests/fuzz/reclaim.py", description=__doc__.partition("\n\n")[0],
                                     epilog=__doc__.partition("\n\n")[2], formatter_class=argparse.RawDescriptionHelpFormatter)
    for name, value, what in (("--trials", 400, "on how many disks something happens"),
                              ("--disks", 100, "on how many disks two walks are made"),
                              ("--rules", 0, "on how many disks of each kind a rule is missed, for each that is taken out"),
                              ("--seed", 2, "others for each seed")):
        parser.add_argument(name, type=int, default=value, metavar="N", help=f"{what} (default: {value})")
    parser.add_argument("--only", choices=KINDS, metavar="KIND", help=f"what a trial is for: {', '.join(KINDS)}")
    parser.add_argument("--real", type=float, default=0, metavar="SHARE", help="on which part of them the scripts below it are real")
    parser.add_argument("--program", metavar="P", help="the program (default: that of ./shardscrub)")
    given = parser.parse_args()
    return given, choose_program(parser, given.program)


def main():
    given, program = arguments()
    outcomes, seen, begun = Counter(), Counter(), time.monotonic()
    with tempfile.TemporaryDirectory() as room:
        script, engine = Script(program), Engine(program, room)
        for check in checks(given, script, engine, seen):
            try:
                check(room=room)
                outcomes["passed"] += 1
            except Broken as why:
                outcomes["failed"] += 1
                print("FAILED:", str(why), flush=True)
        for rule in RULES if given.rules else ():
            how = found_by(rule, program, engine, room, given.rules, range(given.seed * 1_000_003, given.seed * 1_000_003 + given.rules))
            outcomes["passed" if how else "failed"] += 1
            print(f"without {rule}: {how or 'nobody finds it'}", flush=True)
    for case, count in sorted(seen.items()):
        print(f"{count:8} {case}")
    print(f"{time.monotonic() - begun:.0f} seconds")
    print(f"{outcomes['passed']} passed, {outcomes['failed']} failed")
    return int(outcomes["failed"] > 0)


if __name__ == "__main__":
    sys.exit(main())
