"""One map in place of several: what a disk lacks that was restored from a rescue, and is rescued itself. And the disk that
reference/shardscrub.py reads, without having all of it in memory. The scripts in act/ import this.

A byte is rescued in the one map only if it is in all maps. The rules of a map are those of docs/REPORT.md, and the reference
reads it: a byte that no block covers isn't rescued.
"""
import argparse
import mmap
import os
import stat
import sys
from functools import reduce
from pathlib import Path

sys.path.insert(0, str(Path(__file__).resolve().parent.parent / "reference"))
import shardscrub  # noqa: E402
from shardscrub import MapFault, read_map  # noqa: E402

# The first byte, and the byte after the last one.
Range = tuple[int, int]


def blocks_of(name: str) -> list[tuple[int, int, bytes]]:
    """The blocks of a map, each with its first byte, the byte after its last one, and its status. A pipe isn't waited for."""
    mode = os.stat(name).st_mode
    if not (stat.S_ISREG(mode) or stat.S_ISBLK(mode)):
        raise OSError(f"map cannot be opened: {name}")
    with open(name, "rb") as file:
        text = file.read()
    try:
        return read_map(text)
    except MapFault as fault:
        raise ValueError(f"map refused: {name}: line {fault}") from None


def common(ones: list[Range], others: list[Range]) -> list[Range]:
    """What two lists of ascending ranges have both."""
    found, i, j = [], 0, 0
    while i < len(ones) and j < len(others):
        begin, end = max(ones[i][0], others[j][0]), min(ones[i][1], others[j][1])
        if begin < end:
            found.append((begin, end))
        if ones[i][1] <= others[j][1]:
            i += 1
        else:
            j += 1
    return found


def text_of(rescued: list[Range], stop: int) -> str:
    """A map up to this byte, in which these ranges are rescued."""
    lines, at = ["# Mapfile. A byte is rescued in it if it is in all maps that it was made of.", "0x00000000     +               1"], 0
    for begin, end in rescued:
        if at < begin:
            lines.append(f"0x{at:08X}  0x{begin - at:08X}  -")
        lines.append(f"0x{begin:08X}  0x{end - begin:08X}  +")
        at = end
    if at < stop:
        lines.append(f"0x{at:08X}  0x{stop - at:08X}  -")
    return "".join(line + "\n" for line in lines)


def one_map(names: list[str], folder: str) -> str | None:
    """The name of one map for all of these, or None if there are none. Of several maps it is made as FOLDER/one.map, whole or not at
    all. A ValueError says which line of which file no map has, an OSError which file can't be read or written."""
    if len(names) < 2:
        return names[0] if names else None
    maps = [blocks_of(name) for name in names]
    rescued = reduce(common, ([(begin, end) for begin, end, status in blocks if status == b"+"] for blocks in maps))
    text = text_of(rescued, max((end for blocks in maps for _, end, _ in blocks), default=0))
    made = os.path.join(folder, "one.map")
    with open(f"{made}.part", "w", encoding="ascii") as file:
        file.write(text)
        file.flush()
        os.fsync(file.fileno())
    os.replace(f"{made}.part", made)
    return made


READ = shardscrub.opened


def mapped(name: str, what: str) -> bytes | mmap.mmap:
    """The bytes of the image, which are read where they are looked at. A map is read as the reference does it, and what is neither a
    file nor a block device is refused so."""
    try:
        mode = os.stat(name).st_mode
        if what == "image" and (stat.S_ISREG(mode) or stat.S_ISBLK(mode)):
            with open(name, "rb") as file:
                size = file.seek(0, 2)
                return mmap.mmap(file.fileno(), size, access=mmap.ACCESS_READ) if size else b""
    except OSError:
        pass
    return READ(name, what)


def disk_of(given: argparse.Namespace) -> shardscrub.Image:
    """The disk that arguments name, which have page, pages, extents, map, image and unreadable. A shardscrub.Fault says why there is
    none."""
    shardscrub.opened = mapped
    return shardscrub.disk_of(argparse.Namespace(**vars(given), command="runs"))
