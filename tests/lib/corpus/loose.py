"""Rows of the corpus on loose copies at any byte, on what is no copy, on the rooms and doubts beside them, and on crowded extents."""
from lib import worked
from lib.corpus.rows import accepting, row
from lib.disks import MAGIC, Disk, digest, frame, locator, sealed_frame, shard, uuid
from lib.worked import FIVES, FOURS, HEAP, ONES, TWOS, abc, finish, put_run

ABC, SEALED = frame(FOURS, b"abc"), sealed_frame(FOURS, b"abc")


def rotted(*copies, pointers=(41, 0, 0), retired=None):
    """A chunk of `abc` that has rotted is in extent 1, and extent 4 has the run that names it. Each of the copies is an extent, an offset and
    bytes. The pointers are those of the first extents."""
    disk = Disk(8, 5)
    disk.chunk(1, 0, ONES, b"abX")
    named = put_run(disk, 4, 0, uuid(0xAA), abc(1, 0))
    for extent, offset, text in copies:
        disk.put(extent, offset, text)
    return finish(disk, [*pointers, 155], [named], retired=retired)


def with_garbage(*copies, pointers=(41, 179, 0)):
    """Extent 2 has a chunk that nothing names, and would be listed."""
    return rotted((2, 0, frame(FIVES, bytes(141))), *copies, pointers=pointers)


@row
def copies_at_any_byte():
    for offset in (0, 1, 63, 64, 300, 471):
        yield rotted((2, offset, ABC))


@row
def copies_wherever_a_pointer_is():
    """One that an item begins at, and that ends at or below the pointer, is a spare."""
    for pointer in (0, 64, 104, 105, 512):
        yield rotted((2, 64, ABC), pointers=(41, pointer, 0))
    yield rotted((2, 10, ABC), (2, 0, b"x"), pointers=(41, 64, 0))


@row
def copies_in_each_extent():
    """Within a chunk; in the extents of the locator and of the run; a sealed one; several, of which the first by its place is named; a spare,
    which comes first; one over the bound of two extents, and one in a retired extent, which are none; and one on a page that can't be read."""
    yield rotted((2, 0, frame(TWOS, b"x" * 9 + ABC + b"y")), pointers=(41, 89, 0))
    for copies in ([(1, 41, ABC[:20]), (1, 61, ABC)], [(4, 200, ABC)], [(3, 7, SEALED)],
                   [(3, 9, ABC), (2, 470, frame(FIVES, b"abc")), (2, 407, SEALED[:62]), (3, 100, frame(ONES, b"abc"))]):
        yield rotted(*copies)
    yield rotted((2, 0, ABC), (3, 0, frame(FIVES, b"abc")), pointers=(41, 0, 41))
    disk = rotted()
    disk.bytes[3 * 512 - 20:3 * 512 + 21] = ABC
    yield disk
    yield rotted((2, 0, ABC), retired=[2])
    for page in range(4):
        yield rotted((2, 100, ABC)), f"2:{page}"


@row
def what_is_no_copy():
    """Another payload, length, end or magic; a seal of other bytes, no mark, half of a frame; one in extent 0."""
    for text in (frame(FOURS, b"abd"), frame(FOURS, b"abc\0"), ABC[:-1] + b"x", b"\xc5\x5d" + ABC[2:], SEALED.replace(b"abc", b"abC"),
                 SEALED[:-1] + b"x", ABC[:30]):
        yield rotted((2, 30, text))
    yield rotted((2, 471, b"x"), (0, 300, ABC))


@row
def copies_that_nothing_asks_for():
    """A locator is sound, another one is of no bytes. Then the lost payload is that of a run: a copy of it is named, but nothing is read from
    it; and nothing is listed."""
    disk = Disk(8, 4)
    sound, empty = disk.chunk(1, 0, ONES, b"abc"), disk.chunk(1, 41, TWOS, b"")
    disk.put(1, 41, frame(FIVES, b""))
    disk.put(2, 9, ABC)
    disk.put(2, 100, frame(TWOS, b""))
    yield finish(disk, [79, 0, 215], [put_run(disk, 3, 0, uuid(0xAA), sound, empty)])
    for extent, offset, pointer in ((1, 64, 0), (1, 50, 179)):
        disk = Disk(8, 3)
        if pointer:
            disk.chunk(1, 0, FIVES, bytes(141))
        disk.put(extent, offset, frame(FOURS, worked.DELETED))
        yield finish(disk, [pointer, 0], [locator(2, 0, ONES, worked.DELETED)])


@row
def rooms_and_copies():
    """An extent with a copy has no room, also where there are several; and the last copies are in what is listed. Without a candidate nothing
    can go, so there is neither a doubt nor a room."""
    for copies in ([], [(3, 300, ABC)], [(4, 155, ABC)], [(3, 300, ABC), (2, 50, ABC)], [(2, 60, SEALED)]):
        yield with_garbage(*copies)
    line = f"loose 2 50 3 {'-'.join('4' * size for size in (8, 4, 4, 4, 12))} shard {shard(1).hex()} 41"
    yield with_garbage((2, 100, SEALED), (2, 50, ABC)), accepting(line + "0", "loose 2 50 3")
    yield rotted((2, 50, ABC), (3, 0, HEAP))


@row
def doubts_in_their_order():
    """Spares come first, then loose copies by their named locators, crowded extents, and tails."""
    disk = Disk(8, 6)
    disk.chunk(1, 0, ONES, b"abX")
    disk.chunk(2, 0, FIVES, bytes(141))
    disk.chunk(2, 179, FOURS, b"spare")
    for extent, offset, text in ((2, 80, frame(FOURS, b"de")), (2, 30, ABC), (2, 500, b"x"), (3, 69, HEAP + ABC)):
        disk.put(extent, offset, text)
    disk.chunk(3, 0, FIVES, bytes(31))
    named = put_run(disk, 4, 0, uuid(0xAA), abc(1, 0), locator(1, 9, TWOS, b"de"), abc(5, 500), locator(5, 0, TWOS, b"spare"))
    yield finish(disk, [41, 222, 69, disk.pointers[3], 0], [named])


# Crowded extents

def overlapping(lengths, end=470):
    """Frames that all end at one byte, as they have one UUID, with payloads of these lengths; the longest comes first. Each head lies
    in the payload of the one before it."""
    text = bytearray(end)
    for length in sorted(lengths, reverse=True):
        begin = end - 38 - length
        text[begin:begin + 22] = frame(TWOS, bytes(length))[:22]
    text[end - 16:] = TWOS
    return bytes(text)


@row
def extents_that_are_nearly_crowded():
    """A copy of `abc` is the last frame of extent 2. With it the payloads are a byte less than four times 512 bytes, as many, and one more;
    then as many, and a plain, a sealed or a forged frame more, or what is none. At last the longest frame begins on a page that can't be read."""
    for length in (94, 95, 96):
        yield rotted((2, 0, overlapping([400, 370, 340, 310, 280, 250, length])), (2, 471, ABC))
    most = overlapping([350, 325, 300, 275, 250, 225, 200, 120])
    forged = sealed_frame(FIVES, b"x").replace(digest(b"x"), bytes(32))
    for more in (b"", frame(FIVES, b"x"), sealed_frame(FIVES, b"x"), forged, frame(FIVES, b""), frame(FIVES, b"x")[:-1] + b"y", MAGIC + FIVES):
        yield rotted((2, 0, more + most[len(more):]), (2, 471, ABC))
    for pages in ([], ["2:0"]):
        yield rotted((2, 0, overlapping([420, 380, 350, 320, 290, 250, 95])), (2, 471, ABC)), *pages


@row
def crowded_extents():
    """One changes nothing in another. While a payload is gone it has no room; then it has one again, also with a spare."""
    yield rotted((2, 0, HEAP), (3, 471, ABC))
    for copies in ([], [(1, 0, frame(ONES, b"abc"))], [(4, 155, ABC)]):
        yield with_garbage((3, 0, HEAP), *copies)


# Pairs of images, where copies go, come and change.
NONE, COPY, IN_RESET, BOTH = with_garbage(), with_garbage((3, 5, ABC)), with_garbage((2, 50, ABC)), with_garbage((2, 50, ABC), (3, 5, ABC))
IS_SPARE = rotted((2, 0, frame(FIVES, bytes(141))), (3, 0, ABC), pointers=(41, 179, 41))
BESIDE = rotted((2, 0, ABC), (3, 5, ABC), pointers=(41, 41, 0))
PAIRS = {
    **{f"loose: last words {name}": (before, after, "") for name, before, after in (
        ("none, loose", NONE, COPY), ("none, spare", NONE, IS_SPARE), ("loose, none", COPY, NONE), ("loose, spare", COPY, IS_SPARE),
        ("spare, loose", IS_SPARE, COPY), ("spare, none", IS_SPARE, NONE))},
    "loose: a copy in an extent to reset": (IN_RESET, IN_RESET, "", "--reset 2"),
    "loose: a copy in an extent to reset, and another": (BOTH, BOTH, "--reset 2", "--reset 2 --reset 3"),
    "loose: a spare that becomes a loose copy": (BESIDE, BESIDE, "--reset 2"),
    "loose: what is written beside it makes its extent crowded": (
        with_garbage((3, 471, ABC)), with_garbage((3, 471, ABC), (3, 0, HEAP), pointers=(41, 179, 400)), ""),
}
