#!/usr/bin/env python3
"""Compares the program with the slow reference, reference/shardscrub.py, on made-up disks, byte for byte, and `compare` on made-up
pairs of images; and what it prints of a shard with its own manifest and report.

A process stops at its first difference. It leaves the image or both, the map and both outputs in the folder shardscrub-difference, in the
system's folder for temporary files. The last lines say how often each kind of line came up, and 'N passed, M failed', which
counts disks and pairs. Exit status: 0 if nothing differs, 1 if something does, 2 if the arguments are wrong, 70 if there is no program of
these sources.
"""
import argparse
import shutil
import sys
import tempfile
from collections import Counter
from concurrent.futures import ProcessPoolExecutor
from pathlib import Path

sys.path.insert(0, str(Path(__file__).resolve().parent.parent))
from lib.comparison import COMMANDS, compared, compared_pair
from lib.program import choose_program

DIFFERENCE = Path(tempfile.gettempdir(), "shardscrub-difference")


def leave(folder, call, found, what):
    """Keeps the files of a difference, and prints what differs."""
    shutil.rmtree(DIFFERENCE, ignore_errors=True)
    shutil.copytree(folder, DIFFERENCE)
    (DIFFERENCE / "right").write_bytes(call.right[1])
    (DIFFERENCE / "printed").write_bytes(found[1])
    print(f"{what}: status {found[0]}, right {call.right[0]}")
    print(f"error stream {found[2]!r}, right {call.right[2]!r}")
    print("arguments:", call.line().replace(str(folder), str(DIFFERENCE)))


def difference(program, disk, commands):
    """The first call whose answer is wrong, the answer, and what is wrong; or None. Other commands are taken to answer rightly."""
    found = []
    for call in disk.calls:
        found.append(call.found(program) if call.command in commands else call.right)
        if found[-1] != call.right:
            return call, found[-1], f"{call.command} differs"
    broken = ((call, answer, f"a law is broken: {law}") for call, answer, law, is_kept in disk.laws(found) if not is_kept)
    return next(broken, None)


def compare(program, seed, disks, pairs, commands):
    """Compares the disks and the pairs of these turns up to the first that differs: how many were the same, how many not, and what was
    seen. Without a program it only counts."""
    seen, same = Counter(), 0
    for make, turn in [*((compared, turn) for turn in disks), *((compared_pair, turn) for turn in pairs)]:
        with tempfile.TemporaryDirectory() as folder:
            made = make(seed, turn, folder)
            seen += made.seen
            wrong = difference(program, made, commands) if program else None
            if wrong:
                leave(folder, *wrong)
                print(f"seed {seed}, turn {turn} of the {'disks' if make == compared else 'pairs'}", flush=True)
                return same, 1, seen
        same += 1
    return same, 0, seen


def commands_of(text):
    found = text.split(",")
    if not set(found) <= {*COMMANDS, "compare"}:
        raise argparse.ArgumentTypeError(f"the commands are {','.join([*COMMANDS, 'compare'])}")
    return found


def turns_of(count, jobs):
    """The turns of each process."""
    return [range(first, count, jobs) for first in range(jobs)]


def main():
    parser = argparse.ArgumentParser(prog="tests/fuzz/against_reference.py", description=__doc__.partition("\n\n")[0],
                                     epilog=__doc__.partition("\n\n")[2], formatter_class=argparse.RawDescriptionHelpFormatter)
    parser.add_argument("--count", type=int, default=300, metavar="N", help="how many disks (default: 300)")
    parser.add_argument("--pairs", type=int, default=300, metavar="N", help="how many pairs of images (default: 300)")
    parser.add_argument("--seed", type=int, default=2, metavar="S", help="others for each seed (default: 2; the tests have 1)")
    parser.add_argument("--jobs", type=int, default=1, metavar="N", help="how many processes compare (default: 1)")
    parser.add_argument("--commands", type=commands_of, default=[*COMMANDS, "compare"], metavar="A,B,..", help="only these commands")
    parser.add_argument("--program", metavar="P", help="the program (default: that of ./shardscrub)")
    parser.add_argument("--no-program", action="store_true", help="compare nothing, and count what the disks have")
    given = parser.parse_args()
    if min(given.count, given.pairs) < 0 or given.jobs < 1:
        parser.error("--count and --pairs are at least 0, and --jobs is at least 1")
    program = None if given.no_program else choose_program(parser, given.program)
    disks, pairs = (turns_of(count, given.jobs) for count in (given.count, given.pairs))
    with ProcessPoolExecutor(given.jobs) as pool:
        several = [[value] * given.jobs for value in (program, given.seed, given.commands)]
        done = list(pool.map(compare, several[0], several[1], disks, pairs, several[2]))
    seen = sum((counts for _, _, counts in done), Counter())
    print(f"{given.count} disks, {given.pairs} pairs:", ", ".join(f"{kind} {count}" for kind, count in sorted(seen.items())))
    same, differ = (sum(numbers) for numbers in list(zip(*done))[:2])
    print(f"{same} passed, {differ} failed")
    return int(differ != 0)


if __name__ == "__main__":
    sys.exit(main())
