"""Rows of the corpus on what is in an extent, and the disks that are looked at with each page unreadable in turn."""
from itertools import product

from lib import worked
from lib.corpus.rows import GREATEST, altered, row
from lib.disks import CLOSING_MARK, DIGEST, MAGIC, ROUND_PAYLOAD, ROUND_SEALED, SEALED_MAGIC, Disk, be, frame, head, sealed_frame
from lib.worked import FIVES, ONES, THREES, TWOS, finish, one_shard, put_run


# Extents for tilings

def extent_of(*parts, pages=4, page=64):
    """The bytes of an extent with these parts, each at its offset; later ones are written over earlier ones."""
    text = bytearray(page * pages)
    for offset, part in parts:
        text[offset:offset + len(part)] = part
    assert len(text) == page * pages
    return bytes(text)


def heads(*more, count=8, magic=MAGIC, around=ROUND_PAYLOAD):
    """An extent of eight pages with these further parts. Each of the first pages begins with the head of a frame that would end with
    the extent."""
    return extent_of(*((64 * number, head(ONES, 512 - 64 * number - around, magic)) for number in range(count)), *more, pages=8)


def sealed_heads():
    """Seven heads of sealed frames. The bytes at their end are there, but no digest is that of its payload."""
    return heads((494, ONES + CLOSING_MARK), count=7, magic=SEALED_MAGIC, around=ROUND_SEALED)


def frames_of_a_page(pages, changed=()):
    """The parts of an extent whose pages have 128 bytes, and are each a frame: two sealed ones, then a plain one, and so on. In frames
    of these numbers a byte of the payload was changed."""
    frames = [frame(TWOS, be(1, n) * 90) if n % 3 == 2 else sealed_frame(ONES, be(1, n) * 56) for n in range(pages)]
    return [(128 * n, text) for n, text in enumerate(frames)] + [(128 * n + 70, b"changed") for n in changed]


def put_touching(disk, extent, changed):
    """Puts twenty frames of 67 to 301 bytes that touch, all sealed but each fourth. In the one of this number a byte of the payload
    was changed. Returns their locators."""
    named, offset = [], 0
    for number in range(20):
        name, form = (TWOS, frame) if number % 4 == 3 else (ONES, sealed_frame)
        named.append(disk.chunk(extent, offset, name, be(1, number) * (29 + number * 83 % 201), form))
        if number == changed:
            disk.put(extent, offset + 60, b"changed")
        offset = disk.pointers[extent - 1]
    return named


def disk_of(contents, pointers=None, page=64):
    """A disk whose extents from 1 on have these bytes. Without pointers it has no superblock."""
    disk = Disk(len(contents[0]) // page, len(contents) + 1, page)
    for extent, text in enumerate(contents, 1):
        disk.put(extent, 0, text)
    return disk if pointers is None else finish(disk, pointers, [])


def below(pointer, *parts):
    """A disk of three extents. Extent 1 has these parts and this pointer, and extent 2 has nothing."""
    return disk_of([extent_of(*parts), b""], [pointer, 0])


# The numbers of pages of an extent whose pages are each a frame, and of the frames in it that were changed. Plain frames have no seal.
CHANGED = [
    (1, []), (1, [0]), *((2, some) for some in ([], [0], [1], [0, 1])), *((4, some) for some in ([], [0], [1], [3], [1, 3])),
    *((48, [some]) for some in (0, 1, 3, 24, 46)), (48, []), (48, [2, 47]), (48, [6, 7]), (48, [4, 45]),
    (48, [0, 1, 3, 4, 6, 7, 9, 10, 12, 13, 15, 16, 18, 19, 21, 22]),
]


def wrong_seals():
    """Wrong seals among right ones: with and without a page that can't be read, and then heads of both forms, eight times on a disk."""
    for pages, changed in CHANGED:
        yield disk_of([extent_of(*frames_of_a_page(pages, changed), pages=pages, page=128)], [128 * pages], 128)
    for changed in range(21):
        disk = Disk(64, 2)
        put_touching(disk, 1, changed)
        yield finish(disk, disk.pointers, [])
    for page in (64, 128):
        disk, bad = Disk(4096 // page, 41, page), []
        for first in range(1, 41, 5):
            for extent, part in product((first, first + 1), frames_of_a_page(16, [first // 5])):
                disk.put(extent, *part)
            put_touching(disk, first + 2, first // 5)
            disk.put(first + 3, 0, heads())
            disk.put(first + 4, 0, sealed_heads())
            disk.pointers[first - 1:first + 1] = [2048, 2048]
            disk.pointers[first + 2:first + 4] = [512, 512]
            bad.append(f"{first + 1}:11")
        yield finish(disk, disk.pointers, [])
        yield disk, *bad


@row
def shards_of_frames_with_wrong_seals():
    """One shard names each frame, though some seals are wrong, and another one names each with a wrong digest."""
    disk = Disk(64, 6)
    named = [one for extent, changed in ((1, None), (2, 5), (3, 6)) for one in put_touching(disk, extent, changed)]
    runs = [put_run(disk, 4, 0, FIVES, *named), put_run(disk, 5, 0, FIVES, *(altered(one, digest=bytes(DIGEST)) for one in named), number=2)]
    yield finish(disk, disk.pointers, runs)


# The parts of disks that are looked at whole and with each page unreadable in turn.
TWO_FRAMES = [(0, frame(ONES, b"x" * 12)), (50, frame(ONES, b"abc"))]
TWO_LARGE_PAGES = extent_of((0, frame(ONES, b"abc")), (44, frame(TWOS, b"")), (128, frame(THREES, b"abc")), pages=2, page=128)
TILED = {
    "two frames": lambda: below(91, *TWO_FRAMES),
    "a frame without payload": lambda: below(38, (0, frame(ONES, b""))),
    **{f"abc below {pointer}": lambda pointer=pointer: below(pointer, (0, frame(ONES, b"abc"))) for pointer in (41, 40, 1)},
    "a head of the greatest length": lambda: disk_of([extent_of((0, head(ONES, GREATEST))), b""]),
    "large pages": lambda: disk_of([TWO_LARGE_PAGES, b""], [169, 0], page=128),
    "eight heads": lambda: disk_of([heads()]),
    "four extents of zeros": lambda: Disk(4, 4),
    "deleted in the newest run": worked.deleted_in_the_newest_run,
    "a broken newest run": worked.broken_newest_run,
    "a run with unreadable pages": lambda: one_shard("2:2", "2:3"),
    "a disk without its superblock": lambda: one_shard("0:0", "0:1", "0:2", "0:3"),
}
EACH_PAGE = {
    "zeros": lambda: Disk(4, 3),
    "one shard": one_shard,
    "a chunk past the pointer": worked.past_the_pointer,
    "a torn frame": worked.torn_frame,
    "half garbage": lambda: worked.second_of_two(1),
    "an overwritten end": worked.overwritten_end,
    "twins and a shared chunk": lambda: worked.second_of_two(1, 2),
    "a run that is named twice": lambda: one_shard(times=2),
    "two superblocks of one generation": lambda: worked.two_superblocks(7),
    "two superblocks": lambda: worked.two_superblocks(8),
    "a broken newer superblock": lambda: worked.two_superblocks(8, True),
    "nine locators": worked.nine_locators,
    **TILED,
}


@row
def worked_disks():
    for make in EACH_PAGE.values():
        yield make()


@row
def many_shards():
    yield worked.many_shards()


@row
def chunks_and_a_run_of_both_forms():
    yield worked.both_forms()
    yield worked.sealed_run()
    yield worked.sealed_run(), "0:3"


@row
def extents_and_pages_of_one_shard():
    """Retired ones, and pages of extent 0."""
    for retired in ([1], [2], [1, 2]):
        yield one_shard(retired=retired)
    for page in ("0:3", "1:0"):
        yield one_shard(), page
    yield one_shard(times=2), "0:3"
    yield worked.two_superblocks(6)
    for numbers in ([1], [1, 2]):
        yield worked.second_of_two(*numbers), "0:3"
