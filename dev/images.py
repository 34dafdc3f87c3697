#!/usr/bin/env python3
"""Makes the images of examples/, with the layouts of docs/FORMAT.md, and two maps of GNU ddrescue. It knows only the layout of bytes;
examples/README.md has what the program prints for each image."""
import sys
from pathlib import Path

sys.path.insert(0, str(Path(__file__).resolve().parent.parent / "tests"))
from lib.disks import MAGIC, Disk, frame, locator, run, sealed_frame, shard, uuid
from lib.worked import LOOSE, behind_a_damaged_frame
from pages import TOP, run_tool

FOLDER = TOP / "examples"
PAGE = 64


def one_chunk():
    disk = Disk(4, 3)
    disk.chunk(1, 0, uuid(0x11), b"abc")
    return disk


def one_shard():
    disk = Disk(4, 3)
    chunk = disk.chunk(1, 0, uuid(0x11), b"abc")
    disk.superblock(0, 1, disk.chunk(2, 0, uuid(0x22), run((shard(1), [chunk]))))
    return disk


def no_superblock():
    """The disk with one shard. One bit of the record's generation is changed."""
    disk = one_shard()
    disk.spoil(0, 11)
    return disk


def tie():
    """The disk with one shard. Another superblock of the same generation names no run."""
    disk = one_shard()
    disk.superblock(2, 1)
    return disk


def collision():
    """A chunk of 66 bytes, and a new one at the page boundary. A crash lost the last two bytes of the first.

    The UUID of the first ends with the two bytes of the magic. The second begins with the same two bytes.
    """
    disk = Disk(4, 3)
    disk.chunk(1, 0, b"\x33" * 14 + MAGIC, b"x" * 28)
    chunk = disk.chunk(1, 64, uuid(0x11), b"abc")
    disk.superblock(0, 1, disk.chunk(2, 0, uuid(0x22), run((shard(1), [chunk]))))
    return disk


def lost_run():
    """The newer of two runs has a flipped bit. It only deletes shard 1."""
    disk = Disk(4, 4)
    chunk = disk.chunk(1, 0, uuid(0x11), b"abc")
    older = disk.chunk(3, 0, uuid(0x33), run((shard(1), [chunk])))
    newer = disk.chunk(2, 0, uuid(0x22), run((shard(1), [])))
    disk.superblock(0, 1, newer, older)
    disk.spoil(2, 22 + 8)
    return disk


def retired_extent():
    """The disk with one shard, and a retired third extent. It has a chunk without its end, and bytes that are no chunk."""
    disk = Disk(4, 4)
    chunk = disk.chunk(1, 0, uuid(0x11), b"abc")
    index_run = disk.chunk(2, 0, uuid(0x22), run((shard(1), [chunk])))
    disk.chunk(3, 0, uuid(0x44), b"z" * 150)
    disk.put(3, PAGE, b"\xff" * 3 * PAGE)
    disk.superblock(0, 1, index_run, retired=[3])
    return disk


def twins():
    """One chunk that was written twice; both shards name the second copy."""
    disk = Disk(4, 3)
    disk.chunk(1, 0, uuid(0x11), b"abc")
    copy = disk.chunk(1, 41, uuid(0x11), b"abc")
    disk.superblock(0, 1, disk.chunk(2, 0, uuid(0x22), run((shard(1), [copy]), (shard(2), [copy]))))
    return disk


def several_findings():
    """Four shards: one rewritten, one on page 1 of extent 3, one that lost its end in a crash, and one deleted."""
    disk = Disk(16, 5)
    before = disk.chunk(1, 0, uuid(0xA0), b"the first shard, before it was written anew" * 2)
    page_1 = disk.chunk(3, 58, uuid(0xB0), b"the second shard" * 6)
    torn = disk.chunk(3, 192, uuid(0xC0), b"the third shard" * 5)
    deleted = disk.chunk(2, 0, uuid(0xD0), b"the fourth shard"), disk.chunk(2, 54, uuid(0xD1), b"and its second chunk")
    older = run((shard(1), [before]), (shard(2), [page_1]), (shard(3), [torn]), (shard(4), deleted))
    older = disk.chunk(4, 0, uuid(0xE0), older)
    disk.superblock(0, 6, older)
    anew = [disk.chunk(1, 124, uuid(0xA1), b"the first shard"), disk.chunk(3, 0, uuid(0xA2), b", written anew at 12")]
    newer = disk.chunk(4, 446, uuid(0xE1), run((shard(1), anew), (shard(4), [])))
    disk.superblock(8, 7, newer, older)
    disk.put(3, 256, bytes(64))
    return disk


def later_shard(disk, begin):
    """One shard and a superblock; then a run that binds a second shard, at this byte of extent 3. Returns both runs.

    The only chunk of the second shard was written to extent 1 before that superblock. The run was written after it.
    """
    disk.chunk(1, 0, uuid(0xA0), b"the first shard, before it was written anew")
    only = disk.chunk(1, 81, uuid(0xB0), b"the second shard")
    anew = disk.chunk(2, 0, uuid(0xA1), b"the first shard")
    older = disk.chunk(3, 0, uuid(0xE0), run((shard(1), [anew])))
    disk.superblock(0, 1, older)
    return disk.chunk(3, begin, uuid(0xE1), run((shard(2), [only]))), older


def later_run():
    """The run of the second shard was written, but no superblock names it yet."""
    disk = Disk(8, 4)
    later_shard(disk, 192)
    return disk


def flipped_bit():
    """A newer superblock on page 4 names that run. The last bit of its first write pointer is flipped."""
    disk = Disk(8, 4)
    disk.superblock(4, 2, *later_shard(disk, 192))
    disk.spoil(0, 4 * PAGE + 29)
    return disk


def failing():
    """The same disk before any damage, with pages of 512 bytes."""
    disk = Disk(4, 4, 512)
    disk.superblock(2, 2, *later_shard(disk, 512))
    return disk


# The sectors that the drive of that disk can't read: the page of the newer superblock, and that of the later run.
UNREADABLE = (2, 13)


def rescued():
    """The copy that GNU ddrescue makes of that disk. It has zeros instead of the sectors that couldn't be read."""
    disk = failing()
    for sector in UNREADABLE:
        disk.bytes[512 * sector:512 * (sector + 1)] = bytes(512)
    return disk


def formatted_twice():
    """The disk with one shard, formatted again with other sizes. Of the new format only page 1 was written."""
    disk = Disk(3, 2, 128)
    disk.bytes[:] = one_shard().bytes
    disk.superblock(1, 1)
    return disk


def reclaimed_before():
    """Extent 1 was reset and then partly written again. Parts of extents 2, 3 and 4 may be reclaimed.

    Two chunks have to be kept. Two shards name the one in extent 2. The one in extent 4 is an index run of the superblock.
    """
    disk = Disk(8, 5)
    disk.chunk(1, 0, uuid(0xA0), b"what was here before the extent was reset, " * 5)
    disk.reset(1)
    first = disk.chunk(1, 0, uuid(0xA1), b"the first shard")
    disk.chunk(2, 0, uuid(0xB0), b"a shard that was deleted" * 3)
    both = disk.chunk(2, 110, uuid(0xB1), b"what two shards have")
    gone = disk.chunk(3, 0, uuid(0xC0), b"another that was deleted")
    disk.chunk(4, 0, uuid(0xE0), run((shard(1), [first]), (shard(2), [gone])))
    newer = run((shard(2), [both]), (shard(3), [both]))
    older = disk.chunk(1, 53, uuid(0xE1), run((shard(1), [first])))
    disk.superblock(0, 1, disk.chunk(4, 232, uuid(0xE2), newer), older)
    return disk


def blocks(*lines):
    """The blocks of a map of GNU ddrescue, from positions and sizes in sectors of 512 bytes and the status of each."""
    return "".join(f"0x{512 * place:08X}  0x{512 * size:08X}  {status}\n" for place, size, status in lines)


READ_AND_NOT = blocks((0, 2, "+"), (2, 1, "-"), (3, 10, "+"), (13, 1, "-"), (14, 2, "+"))


def rotted_disk():
    """Shard 1 names a chunk of `abc` in extent 1, in which a byte has changed. Extent 2 has an old copy under another UUID, and
    garbage. Returns the disk and the locator of its run."""
    disk = Disk(8, 4)
    disk.chunk(1, 0, uuid(0x11), b"abX")
    disk.chunk(2, 0, uuid(0x44), b"abc")
    disk.chunk(2, 41, uuid(0x55), bytes(100))
    return disk, disk.chunk(3, 0, uuid(0xAA), run((shard(1), [locator(1, 0, uuid(0x11), b"abc")])))


def rotted():
    """The last copy is in an extent that could be reset."""
    disk, index_run = rotted_disk()
    disk.superblock(0, 1, index_run)
    return disk


def copied():
    """The old copy was copied after the run, and no entry names the new one."""
    disk, index_run = rotted_disk()
    disk.chunk(3, 155, uuid(0x44), b"abc")
    disk.superblock(0, 2, index_run)
    return disk


def behind():
    return behind_a_damaged_frame()


def of_worked(name):
    """An image of five extents that the tests share."""
    disk = Disk(8, 5)
    disk.bytes[:] = LOOSE[name]
    return disk


def tail():
    """Shard 1's chunk was moved out of extent 1, which was reset, and has rotted. The whole one is past the pointer of extent 1."""
    return of_worked("tail")


def part():
    """The same disk after extent 1 was written again, up to the middle of an old chunk before the whole one."""
    return of_worked("part")


def crowded():
    """The same with frames over frames between them."""
    return of_worked("crowded")


def two_copies():
    """Shard 1's chunk, after the run, has rotted. Extents 1 and 2 have an old copy each, and garbage."""
    disk = Disk(8, 4)
    for extent in (1, 2):
        disk.chunk(extent, 0, uuid(0x44), b"abc")
        disk.chunk(extent, 41, uuid(0x55), bytes(100))
    disk.chunk(3, 155, uuid(0x11), b"abX")
    disk.superblock(0, 1, disk.chunk(3, 0, uuid(0xAA), run((shard(1), [locator(3, 155, uuid(0x11), b"abc")]))))
    return disk


def less():
    """Shard 1's chunk is sealed, and garbage lies after it. Extent 2 has garbage alone."""
    disk = Disk(8, 4)
    chunk = disk.chunk(1, 0, uuid(0x11), b"abc", sealed_frame)
    disk.chunk(1, 75, uuid(0x55), bytes(100))
    disk.chunk(2, 0, uuid(0x66), bytes(26))
    disk.superblock(0, 1, disk.chunk(3, 0, uuid(0xAA), run((shard(1), [chunk]))))
    return disk


def full():
    """The same disk with a byte of noise after the run."""
    disk = less()
    disk.put(3, 155, b"x")
    disk.pointers[2] = 156
    disk.superblock(0, 1, locator(3, 0, uuid(0xAA), run((shard(1), [locator(1, 0, uuid(0x11), b"abc")]))))
    return disk


def to_move_disk():
    """Shard 1's chunk has garbage after it. In extent 2 a chunk of 66 bytes has lost the last two in a crash, at the page
    boundary. Its UUID ended with the two bytes of the magic. Returns the disk and the locator of its run."""
    disk = Disk(8, 4)
    chunk = disk.chunk(1, 0, uuid(0x11), b"abc")
    disk.chunk(1, 41, uuid(0x55), bytes(100))
    disk.put(2, 0, frame(b"\x33" * 14 + MAGIC, b"x" * 28)[:PAGE])
    disk.pointers[1] = PAGE
    return disk, disk.chunk(3, 0, uuid(0xAA), run((shard(1), [chunk])))


def to_move():
    """The chunk can be moved, but not into extent 2."""
    disk, index_run = to_move_disk()
    disk.superblock(0, 1, index_run)
    return disk


def moved(extent, offset, payload=b"abc"):
    """The same disk after shard 1's chunk was copied to this place, and a new run and superblock were written. The superblock of
    before is still there."""
    disk, index_run = to_move_disk()
    disk.superblock(0, 1, index_run)
    disk.chunk(extent, offset, uuid(0x11), payload)
    entry = shard(1), [locator(extent, offset, uuid(0x11), b"abc")]
    disk.superblock(3, 2, disk.chunk(3, disk.pointers[2], uuid(0xBB), run(entry)), index_run)
    return disk


def damaged_copy():
    """A byte changed while the chunk was copied."""
    return moved(3, 155, b"abX")


def completed():
    """The chunk was copied to the page boundary after the torn one, and completes it."""
    return moved(2, PAGE)


def dead_node():
    """Shard 1 was written, and then written anew, with shard 2. A bit of the newer superblock's generation has flipped, and one of shard
    2's first chunk."""
    disk = Disk(8, 4)
    first = disk.chunk(1, 0, uuid(0x11), b"abc")
    older = disk.chunk(3, 0, uuid(0xAA), run((shard(1), [first])))
    disk.superblock(0, 1, older)
    anew, lost = disk.chunk(1, 41, uuid(0x22), b"de"), disk.chunk(1, 81, uuid(0x33), b"f")
    third = disk.chunk(2, 0, uuid(0x44), b"ghi")
    newer = disk.chunk(2, 41, uuid(0xBB), run((shard(1), [anew]), (shard(2), [lost, third])))
    disk.superblock(3, 2, newer, older)
    disk.spoil(0, 200)
    disk.spoil(1, 103)
    return disk


def failing_map():
    """The readable sectors of the failing disk, for the test mode of GNU ddrescue."""
    return "# The sectors that can be read (+), and those that can't (-)\n0x00000000     ?\n" + READ_AND_NOT


def rescued_map():
    """The map that GNU ddrescue writes for its copy of the failing disk, without the lines of its command and times."""
    return ("# Mapfile. Created by GNU ddrescue version 1.27\n"
            "# Finished\n"
            "# current_pos  current_status  current_pass\n"
            "0x00001800     +               1\n"
            "#      pos        size  status\n") + READ_AND_NOT


IMAGES = (one_chunk, one_shard, no_superblock, tie, collision, lost_run, retired_extent, twins,
          several_findings, later_run, flipped_bit, failing, rescued, formatted_twice, reclaimed_before, rotted, copied,
          behind, tail, part, crowded, two_copies, less, full, to_move, damaged_copy, completed, dead_node)
MAPS = (failing_map, rescued_map)


def made():
    files = {FOLDER / f"{image.__name__.replace('_', '-')}.img": bytes(image().bytes) for image in IMAGES}
    files |= {FOLDER / make.__name__.replace("_", "."): make() for make in MAPS}
    others = [path for path in FOLDER.iterdir() if path.suffix in (".img", ".map") and path not in files]
    return files, [f"{path.relative_to(TOP)} isn't made by dev/images.py" for path in others]


if __name__ == "__main__":
    sys.exit(run_tool("dev/images.py", __doc__, made))
