#!/usr/bin/env python3
"""Measures `shardscrub` on made-up disks, beside sha256sum, and beside an earlier program if one is named. No test does this.

The kinds of disks:

large     payloads of 64 KiB to 1 MiB in extents of 4 MiB, a superblock, and four runs that name each chunk once; the same with every
          second chunk sealed; with payloads of 500 to 4,000 bytes, and a run for each 64 MiB; and in extents of 64 MiB, to show
          whether a worker takes memory for an extent.
small     payloads of 100 bytes in extents of 8 MiB, shards of one chunk with random identifiers, and as many runs as needed. The
          runs take 77 bytes for each chunk of 138, so 512 MiB have 2.4 million chunks. The same on a quarter of the size, to show
          how time grows. 65,536 extents of 4 pages of 64 bytes, full of chunks without an owner. Extents of one page of 64 KiB, to
          show how much a worker takes for pages. One extent full of payloads of 100 bytes, and the others empty. Last,
          examples/several-findings.img, which has every kind of item, is scanned by 7 workers many times.
damaged   payloads of 64 KiB to 1 MiB that fill pages of 64 KiB, no superblock; every tenth chunk has a wrong last byte, and every
          50th page is unreadable. A disk that was never written: all zero. All zero except for a superblock.
hostile   disks and files that are made to cost much (tests/bench/hostile.py), each beside a clean one of the same size.
copies    `manifest` of a disk as the first one of `large`, and of one with a lost payload, of which copies are looked for at each byte;
          and of extents that make this search dear (tests/bench/hostile.py), beside one without a frame.
items     `items` of an extent of 64 MiB full of frames, and of one with heads without frames. These have limits: a share of
          sha256sum's time, and of memory.
growth    only if it is asked for: disks of a shape with 1, 2, 4 and 8 times the items, whatever --mib says. `Of the first one's` stays near
          the number in the disk's name, or below, if the time is linear, and is its square if it is quadratic.

All programs read the same file in turn. A table shows the least time and the most memory of each. sha256sum hashes the whole file;
its time is scaled to the bytes that the program has to hash. Loading is `items` of an extent with the write pointer 0, which prints
nothing. The first answer has to have the right counts, and all others have to be the same, byte for byte.

The goals, which are no promises: per hashed byte at most 1.2 of sha256sum's time on large chunks; on small ones 2 without workers
and less with 3; zeros at the speed of loading; at most 400 bytes an item besides the image. Exit status: 0 if all answers are right
and within the limits, 1 if one isn't, 2 if the arguments are wrong, 70 if there is no program of these sources.
"""
import argparse
import os
import sys
import tempfile
from functools import partial
from pathlib import Path

sys.path.insert(0, str(Path(__file__).resolve().parent.parent))
from lib.disks import make_image
from lib.program import TOP, choose_program

import hostile
import kinds
from measure import HEADS, Measured, Subject, WrongAnswer, apart, digest_of, measured, print_heads, print_row, taken

# The greatest right memory of `items`, as a share of the image.
MOST_MEMORY = 1.7
SEVERAL = ["--page", "64", "--pages", "16", "--extents", "5", str(TOP / "examples/several-findings.img"), "3:1"]


def scans(*makers):
    """Groups of one disk each, which is scanned."""
    return [[Subject(make.__name__.replace("_", "-"), make)] for make in makers]


# For each kind its groups of disks. The disks of a group are compared with the first one.
KINDS = {
    "large": scans(kinds.large, kinds.half_sealed, kinds.middle, kinds.long_extents),
    "small": scans(kinds.small_quarter, kinds.small, kinds.small_extents, kinds.one_page, kinds.one_full),
    "damaged": scans(kinds.damage, kinds.zeros, kinds.unwritten),
    "hostile": [[Subject(name, make) for name, make in group.items()] for group in hostile.GROUPS]
               + [[Subject(name, make, "sizes") for name, make in hostile.FILES.items()]],
    "copies": [[Subject("no payload lost", kinds.no_payload_lost, "manifest"), Subject("one payload lost", kinds.one_payload_lost, "manifest")],
               [Subject(name, make, "manifest") for name, make in hostile.SEARCHED.items()]],
    "items": [[Subject("frames end to end", kinds.frames_end_to_end, "items", 0.95)],
              [Subject("heads without frames", kinds.heads_without_frames, "items", 0.5)]],
    "growth": [[Subject(f"{name} x{times}", partial(make, times=times)) for times in kinds.TIMES] for name, make in kinds.SHAPES.items()],
}
# Those that are measured if none is named.
USUAL = [kind for kind in KINDS if kind != "growth"]


def compare(programs, folder, group, given):
    """Prints the rows of a group, and returns whether all answers are right and within the limits."""
    disks = [Measured(subject, folder, given.mib) for subject in group]
    try:
        for _ in range(given.turns):
            for disk in disks:
                disk.turn(programs, given.workers)
    except WrongAnswer as why:
        print(why, flush=True)
        return False
    first = taken(next(iter(disks[0].runs.values())))[0] if len(disks) > 1 else None
    for disk in disks:
        for row in disk.rows(first):
            print_row(*row)
        os.remove(disk.path)
    return all(disk.is_within(MOST_MEMORY) for disk in disks)


def repeat(program, folder, runs):
    """Whether this many runs with 7 workers give the same answer as a run without workers."""
    answer, right = f"{folder}/answer", None
    for workers in ["0"] + ["7"] * runs:
        status = measured([program, "scan", "--workers", workers, *SEVERAL], answer).status
        found = status, digest_of(answer)
        right = right or found
        if found != right or status != 1:
            print(f"several-findings.img: another answer with {workers} workers")
            return False
    print(f"\n{runs} scans of several-findings.img with 7 workers gave the same answer as one without workers")
    return True


def make_all(folder, chosen, mib):
    """Makes the images in a folder, and prints the command line for each."""
    for subject in (subject for group in chosen for subject in group):
        path = f"{folder}/{subject.name.replace(' ', '-')}.img"
        made = apart(make_image, path, subject.make, mib)
        print(" ".join(subject.words(made, path, 0)), flush=True)


def numbers(word):
    """The numbers of workers in an argument."""
    found = [int(part) for part in word.split(",")]
    if any(not 0 <= n <= 64 for n in found) or len(set(found)) < len(found):
        raise ValueError
    return found


def arguments():
    parser = argparse.ArgumentParser(prog="tests/bench/disks.py", description=__doc__.partition("\n\n")[0],
                                     epilog=__doc__.partition("\n\n")[2], formatter_class=argparse.RawDescriptionHelpFormatter)
    parser.add_argument("--kind", action="append", choices=KINDS, help="only disks of this kind; may be repeated (default: all but growth)")
    parser.add_argument("--only", action="append", metavar="DISK", help="only this disk, by its name in the table; may be repeated")
    parser.add_argument("--workers", type=numbers, default=[0, 1, 3], metavar="N,..", help="how many workers: each 0 to 64 (default: 0,1,3)")
    parser.add_argument("--mib", type=int, default=512, help="size of the disks: a multiple of 64 from 192 to 704 (default: 512)")
    parser.add_argument("--turns", type=int, default=3, help="how often each program runs (default: 3)")
    parser.add_argument("--runs", type=int, default=2000, help="how often 7 workers scan the example (default: 2000)")
    parser.add_argument("--make", metavar="FOLDER", help="make the disks in this folder, and measure nothing")
    parser.add_argument("--program", metavar="P", help="the program (default: that of ./shardscrub)")
    parser.add_argument("earlier", nargs="*", help="other programs to measure beside it")
    given = parser.parse_args()
    if not 192 <= given.mib <= 704 or given.mib % 64 or given.turns < 1 or given.runs < 0:
        parser.error("--mib is a multiple of 64 from 192 to 704, --turns at least 1, and --runs at least 0")
    for name in given.earlier:
        if not os.access(name, os.X_OK):
            parser.error(f"there is no such program: {name}")
    return parser, given


def main():
    parser, given = arguments()
    groups = [group for kind in given.kind or (KINDS if given.only else USUAL) for group in KINDS[kind]]
    if given.only:
        groups = [some for group in groups if (some := [subject for subject in group if subject.name in given.only])]
    if not groups:
        parser.error("there is no such disk")
    if given.make:
        make_all(given.make, groups, given.mib)
        return 0
    this = choose_program(parser, given.program)
    programs = {"this": this, **{name: Path(name).resolve() for name in given.earlier}}
    print_heads(*HEADS)
    with tempfile.TemporaryDirectory(prefix="shardscrub-bench-") as folder:
        right = [compare(programs, folder, group, given) for group in groups]
        if not given.only and "small" in (given.kind or USUAL):
            right.append(repeat(this, folder, given.runs))
    return int(not all(right))


if __name__ == "__main__":
    sys.exit(main())
