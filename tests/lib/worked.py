"""The worked disks: small ones that are made by hand, and that several modules of tests share; and the worked images of `compare`. What
is found on them is in the tests.

A disk with unreadable pages is a tuple: the disk, and the words of these pages.
"""
from lib.disks import Disk, be, frame, locator, record, run, sealed_frame, shard, uuid


ONES, TWOS, THREES, FOURS, FIVES = map(uuid, (0x11, 0x22, 0x33, 0x44, 0x55))
# A UUID that ends in the magic of a frame.
ENDS_IN_MAGIC = be(1, 0x33) * 14 + b"\xc5\x5e"
# The payload of a run that deletes the shard; and the same with the last bit of its digest flipped.
DELETED = run((shard(1), []))
BROKEN = DELETED[:-1] + bytes([DELETED[-1] ^ 1])


def abc(extent, offset, name=ONES):
    """The locator of a chunk of `abc`."""
    return locator(extent, offset, name, b"abc")


def finish(disk, pointers, runs, generation=1, retired=None, page=0):
    """Puts a superblock on the disk, and returns the disk."""
    disk.pointers = list(pointers)
    disk.superblock(page, generation, *runs, retired=retired)
    return disk


def put_run(disk, extent, offset, name, *locators, number=1):
    """Puts the run of one shard."""
    return disk.chunk(extent, offset, name, run((shard(number), list(locators))))


def abc_and_its_run(disk):
    """Puts `abc` in extent 1, and the run of one shard that names it in extent 2. Returns the run's locator."""
    disk.chunk(1, 0, ONES, b"abc")
    return put_run(disk, 2, 0, TWOS, abc(1, 0))


def one_shard(*bad, times=1, retired=None):
    """`abc` in extent 1, and the run that names it in extent 2, which the superblock names so many times."""
    disk = Disk(4, 3)
    named = abc_and_its_run(disk)
    finish(disk, [41, 155], [named] * times, retired=retired)
    return (disk, *bad) if bad else disk


def broken_and_retired():
    """The disk with one shard has a fourth extent, which is retired. It is full of FF, and its page 0 is unreadable."""
    disk = Disk(4, 4)
    named = abc_and_its_run(disk)
    disk.put(3, 0, b"\xff" * 256)
    return finish(disk, [41, 155, 0], [named], retired=[3]), "3:0"


def second_of_two(*numbers):
    """`abc` twice in extent 1, and a run of these shards, which name the second."""
    disk = Disk(4, 3)
    disk.chunk(1, 0, ONES, b"abc")
    disk.chunk(1, 41, ONES, b"abc")
    named = disk.chunk(2, 0, TWOS, run(*((shard(number), [abc(1, 41)]) for number in numbers)))
    return finish(disk, [82, disk.pointers[1]], [named])


def two_runs(newest, between=0):
    """`abc` in extent 1, the newest run and maybe others in extent 2, and the oldest run in extent 3."""
    disk = Disk(4, 4)
    disk.chunk(1, 0, ONES, b"abc")
    runs = [disk.chunk(2, 0, TWOS, newest), *(put_run(disk, 2, 95, THREES, abc(1, 0)) for _ in range(between))]
    runs.append(put_run(disk, 3, 0, FOURS if between else THREES, abc(1, 0)))
    return finish(disk, [41, disk.pointers[1], 155], runs)


def deleted_in_the_newest_run():
    """Two older runs have the shard."""
    return two_runs(DELETED, 1)


def broken_newest_run():
    return two_runs(BROKEN)


def two_superblocks(generation, is_broken=False):
    """The disk with one shard. Its superblock has generation 7, and a second one, on page 2, has this generation and its pointer of
    extent 1 at 0. If that is broken, the last bit of its last byte is flipped."""
    disk = Disk(4, 3)
    named = abc_and_its_run(disk)
    finish(disk, [41, 155], [named], 7)
    finish(disk, [0, 155], [named], generation, page=2)
    if is_broken:
        disk.spoil(0, 192 + 61)
    return disk


def torn_frame():
    """A frame of 98 bytes in extent 1, whose page 1 is unreadable."""
    disk = Disk(4, 3)
    disk.chunk(1, 0, ONES, b"x" * 60)
    return finish(disk, [98, 0], []), "1:1"


def both_forms():
    """A plain and a sealed chunk of `abc` in extent 1, and in extent 2 the run of one shard that names both."""
    disk = Disk(4, 3)
    plain, sealed = disk.chunk(1, 0, ONES, b"abc"), disk.chunk(1, 41, TWOS, b"abc", sealed_frame)
    return finish(disk, [116, 215], [put_run(disk, 2, 0, THREES, plain, sealed)])


def sealed_run():
    """The disk with one shard, whose run is sealed."""
    disk = Disk(4, 3)
    chunk = disk.chunk(1, 0, ONES, b"abc")
    return finish(disk, [41, 189], [disk.chunk(2, 0, TWOS, run((shard(1), [chunk])), sealed_frame)])


def past_the_pointer():
    """`abc` in extent 1, past the pointer."""
    disk = Disk(4, 3)
    disk.chunk(1, 0, ONES, b"abc")
    return finish(disk, [0, 0], [])


def overwritten_end():
    """`abc`, at 64 of extent 1, overwrites the last two bytes of the frame of 66 bytes before it, whose UUID ends in them."""
    disk = Disk(4, 3)
    disk.chunk(1, 0, ENDS_IN_MAGIC, b"x" * 28)
    disk.chunk(1, 64, ONES, b"abc")
    return finish(disk, [105, 155], [put_run(disk, 2, 0, TWOS, abc(1, 64))])


def collision():
    """Extent 2 has a frame of 258 bytes at 0; its last two bytes are the magic of the frame of `abc` at 256."""
    disk = Disk(8, 4, 256)
    disk.chunk(2, 0, ENDS_IN_MAGIC, b"x" * 220)
    disk.chunk(2, 256, ONES, b"abc")
    return disk


def nine_locators():
    """No two locators of the shard have the same status. Page 1 of extent 1 is unreadable."""
    disk = collision()
    disk.chunk(1, 0, ONES, b"abc")
    sound = abc(1, 0)
    nine = [abc(4, 0), abc(1, 600), abc(1, 300), abc(1, 41), abc(1, 0, TWOS), sound[:8] + be(4, 4) + sound[12:],
            sound[:28] + bytes(32), abc(2, 256), sound]
    return finish(disk, [512, 297, 635], [put_run(disk, 3, 0, TWOS, *nine)]), "1:1"


def many_shards(is_halved=False):
    """Each of extents 1 to 38 has `abc`, under a UUID of its own, and extent 39 the run of 38 shards, each of one of these chunks. If
    the disk is halved, each of the 38 extents has a second chunk of `abc`, which nothing names."""
    disk, entries = Disk(64, 40), []
    for number in range(1, 39):
        entries.append((shard(number), [disk.chunk(number, 0, uuid(number), b"abc")]))
        if is_halved:
            disk.chunk(number, 41, uuid(number), b"abc")
    disk.superblock(0, 1, disk.chunk(39, 0, uuid(0xF0), run(*entries)))
    return disk


def two_generations():
    """A disk with pages of 1,024 bytes, 2 to an extent, and its eight runs, newest first. The newest run names a chunk in extent 3, the
    next one a chunk in extent 1. Generation 7, on page 1, lists all runs but the newest. Page 0 is for generations 6 and 8."""
    disk = Disk(2, 4, 1024)
    kept = disk.chunk(1, 0, ONES, b"abc")
    new = disk.chunk(3, 0, FOURS, b"new")
    entries = [(shard(1), [new]), (shard(2), [kept]), *((shard(number), []) for number in range(3, 9))]
    runs = []
    for number, entry in enumerate(entries):
        runs.append(disk.chunk(2, disk.pointers[1], uuid(0xA0 + number), run(entry)))
    disk.superblock(1, 7, *runs[1:])
    return disk, runs


def torn_newest():
    """Of generation 8, of 550 bytes, the second sector arrived over generation 6, of 490 bytes."""
    disk, runs = two_generations()
    disk.superblock(0, 8, *runs)
    second = bytes(disk.bytes[512:550])
    disk.bytes[0:disk.page] = bytes(disk.page)
    disk.superblock(0, 6, *runs[1:])
    disk.put(0, 512, second)
    return disk


def whole_newest():
    disk, runs = two_generations()
    disk.superblock(0, 8, *runs)
    return disk


def shorter_over_longer():
    """Generation 6 lists no run, and the rest of generation 5 is behind it."""
    disk, runs = two_generations()
    disk.superblock(0, 5, *runs[1:])
    disk.superblock(0, 6)
    return disk


def byte_after_the_superblock():
    """Generations 6 and 7 are whole, and a byte is past the pointer of extent 1."""
    disk, runs = two_generations()
    disk.superblock(0, 6, *runs[1:])
    disk.put(1, 41, b"x")
    return disk


def behind_a_damaged_frame(is_second_lost=False):
    """Extent 1 has a frame whose last bytes are others, and directly after it the last whole copy of the first shard's chunk, at which no
    item begins. The chunk that the shard names, in extent 2, has rotted; maybe that of the second shard, too."""
    disk = Disk(8, 4)
    copy = frame(ONES, b"abc")
    damaged = frame(THREES, bytes(20))[:-1] + b"x"
    disk.put(1, 0, damaged + copy)
    disk.chunk(2, 0, ONES, b"abX")
    disk.chunk(2, 41, TWOS, b"dX" if is_second_lost else b"de")
    entries = (shard(1), [abc(2, 0)]), (shard(2), [locator(2, 41, TWOS, b"de")])
    named = disk.chunk(3, 0, uuid(0xAA), run(*entries))
    return finish(disk, [len(damaged + copy), 81, disk.pointers[2]], [named])


# The images of compare: pages of 64 bytes, 8 to an extent, 4 extents. Extent 1 has the chunk `abc` of shard 1 and garbage; extent 2
# has `de` of shard 2, an old chunk `xyz` that nobody names, and an old tail of 30 bytes; extent 3 has the run.

PAGE, PAGES, EXTENTS = 64, 8, 4
SIZE = PAGE * PAGES
ABC, DE, XYZ, REST = frame(uuid(0x11), b"abc"), frame(uuid(0x22), b"de"), frame(uuid(0x33), b"xyz"), frame(uuid(0x55), bytes(100))
TAIL = b"ABCDEFGHIJKLMNOPQRSTUVWXYZ1234"
POINTERS = 179, 81, 232
# Where a second superblock begins: on page 3 of extent 0.
SECOND = 3 * PAGE


def abc_at(extent, offset):
    """The locator of `abc` at this place."""
    return locator(extent, offset, uuid(0x11), b"abc")


def superblock(generation, pointers, *runs, retired=None):
    return record(PAGE, PAGES, EXTENTS, pointers, runs, generation, retired)


def written(old, *writes):
    """The image after writes, each an extent, an offset and bytes."""
    raw = bytearray(old)
    for extent, offset, text in writes:
        at = extent * SIZE + offset
        raw[at:at + len(text)] = text
    return bytes(raw)


OLD_RUN = run((shard(1), [abc_at(1, 0)]), (shard(2), [locator(2, 0, uuid(0x22), b"de")]))
OLD = locator(3, 0, uuid(0xAA), OLD_RUN)
FIRST = written(bytes(SIZE * EXTENTS), (1, 0, ABC + REST), (2, 0, DE + XYZ), (2, 250, TAIL), (3, 0, frame(uuid(0xAA), OLD_RUN)),
                (0, 0, superblock(1, POINTERS, OLD)))


def new_run(extent, offset):
    """The run after `abc` was copied to this place."""
    return run((shard(1), [abc_at(extent, offset)]))


def new_locator(extent, offset, at):
    """The locator of that run, which is at offset `at` of the same extent."""
    return locator(extent, at, uuid(0xBB), new_run(extent, offset))


def raised(extent, end):
    """The pointers with another one for an extent."""
    return [end if x == extent else w for x, w in enumerate(POINTERS, 1)]


def moved(extent, offset, copy=ABC, runs=None):
    """The first image after `abc` was copied, its new run was written behind the copy, and a superblock names the run."""
    at = offset + len(copy)
    text = frame(uuid(0xBB), new_run(extent, offset))
    named = [new_locator(extent, offset, at), OLD] if runs is None else runs
    return written(FIRST, (extent, offset, copy), (extent, at, text),
                   (0, SECOND, superblock(2, raised(extent, at + len(text)), *named)))


def over_an_old_chunk():
    """`abc` is copied over `xyz`, and its run to the room of extent 3."""
    text, named = new_run(2, 40), locator(3, 232, uuid(0xBB), new_run(2, 40))
    return written(FIRST, (2, 40, ABC), (3, 232, frame(uuid(0xBB), text)), (0, SECOND, superblock(2, (179, 81, 387), named, OLD)))


def rotted():
    """The chunk that shard 1 names has another last byte. An old chunk in extent 2 still has its payload."""
    text = run((shard(1), [abc_at(1, 0)]))
    return written(bytes(SIZE * EXTENTS), (1, 0, frame(uuid(0x11), b"abX")), (2, 0, frame(uuid(0x44), b"abc") + REST),
                   (3, 0, frame(uuid(0xAA), text)), (0, 0, superblock(1, (41, 179, 155), locator(3, 0, uuid(0xAA), text))))


NEW = new_locator(3, 232, 273)
SEVENTH = moved(3, 232)
IMAGES = {
    "1": FIRST,
    # To the room of extent 3, and then the reset of extent 1, or that of extent 2.
    "7": SEVENTH,
    "8": written(SEVENTH, (0, 0, superblock(3, (0, 81, 428), NEW, OLD))),
    "other": written(SEVENTH, (0, 0, superblock(3, (179, 0, 428), NEW, OLD))),
    "damaged": moved(3, 232, ABC[:23] + b"X" + ABC[24:]),
    # The run isn't in the superblock.
    "forgot": moved(3, 232, runs=[OLD]),
    # Over a part of the old tail; and with a byte more, past the pointer.
    "tail": moved(2, 81),
    "late": written(moved(2, 81), (2, 278, b"!")),
    "over": over_an_old_chunk(),
    "rotted": rotted(),
}


# The images of loose copies: pages of 64 bytes, 8 to an extent, mostly 5 extents. The chunk `abc` of shard 1 was moved to extent 2, and has
# rotted there. Extent 4 has an old chunk, and then `de` of shard 2. Extent 3 has the run.

OLD_CHUNK = frame(THREES, bytes(31))
AS = uuid(0xAA)
BOTH_SHARDS = run((shard(1), [abc(2, 0)]), (shard(2), [locator(4, 69, TWOS, b"de")]))
BOTH_LOCATOR = locator(3, 0, AS, BOTH_SHARDS)
MOVED_AND_ROTTED = (2, 0, frame(ONES, b"abX")), (4, 0, OLD_CHUNK + DE), (3, 0, frame(AS, BOTH_SHARDS))


def image_of(extents, *writes):
    """An image of this many extents after writes, each an extent, an offset and bytes."""
    return written(bytes(SIZE * extents), *writes)


def superblock_of_five(generation, first, third, *runs):
    """A superblock with these pointers of extents 1 and 3."""
    return record(PAGE, PAGES, 5, (first, 41, third, 109), runs, generation)


def past_a_reset(*more):
    """Extent 1 was reset after the move, and nothing was written to it again but this."""
    return image_of(5, *MOVED_AND_ROTTED, (1, 0, ABC), (0, 0, superblock_of_five(7, 0, 232, BOTH_LOCATOR)), *more)


def over_the_copy():
    """`de` and a run that names it are written over the copy of `abc`."""
    text = run((shard(2), [locator(1, 0, TWOS, b"de")]))
    named = locator(1, 40, uuid(0xCC), text)
    return past_a_reset((1, 0, DE + frame(uuid(0xCC), text)), (0, 256, superblock_of_five(8, 78 + len(text), 232, named, BOTH_LOCATOR)))


# Extent 1 was written again, up to the middle of an old chunk. `abc` is behind that.
PART = *MOVED_AND_ROTTED, (1, 0, OLD_CHUNK + b"123456789." + ABC), (0, 0, superblock_of_five(7, 69, 232, BOTH_LOCATOR))
# `abc` is copied as it is to the room of extent 3.
COPIED_BACK = *PART, (3, 232, ABC)
# 32 of these 50 begin a frame with a payload of 116 bytes.
HEAP = (b"\xc5\x5e" + be(4, 116) + b"..") * 50


def heaped():
    """Frames over frames come before `abc`."""
    return image_of(5, *MOVED_AND_ROTTED, (1, 0, OLD_CHUNK + HEAP + ABC), (0, 0, superblock_of_five(7, 69, 232, BOTH_LOCATOR)))


def of_one_run(run_extent, locator_extent, pointers, *writes):
    """Four extents, and a run that names `abc` at the beginning of an extent."""
    text = run((shard(1), [abc(locator_extent, 0)]))
    ends = [38 + len(text) if x == run_extent else w for x, w in enumerate(pointers, 1)]
    return image_of(4, *writes, (run_extent, 0, frame(AS, text)), (0, 0, superblock(1, ends, locator(run_extent, 0, AS, text))))


LOOSE = {
    "tail": past_a_reset(),
    "over": over_the_copy(),
    "part": image_of(5, *PART),
    "copied": image_of(5, *COPIED_BACK, (0, 256, superblock_of_five(8, 69, 273, BOTH_LOCATOR))),
    "gone": image_of(5, *COPIED_BACK, (0, 0, superblock_of_five(9, 0, 273, BOTH_LOCATOR))),
    "crowded": heaped(),
    # `abc` is directly behind a frame whose last byte is another one.
    "behind": of_one_run(3, 2, (99, 41, 0), (1, 0, frame(THREES, bytes(20))[:-1] + b"x" + ABC), (2, 0, frame(ONES, b"abX"))),
    # The extent of a chunk that a run names was reset.
    "wrong": of_one_run(2, 1, (0, 0, 0), (1, 0, ABC)),
}
