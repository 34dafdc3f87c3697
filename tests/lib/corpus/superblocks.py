"""Rows of the corpus on extent 0: which superblock counts, and what else is on its pages."""
from lib import worked
from lib.corpus.rows import FIRST, LASTS, THIRD, Made, altered, in_turn, row, two_chunks
from lib.disks import DIGEST, Disk, frame, locator, record, run, shard, uuid, with_digest
from lib.worked import FOURS, ONES, TWOS, abc, finish


# Which superblock counts, and what else is on the pages of extent 0

def of_one_chunk():
    """A shard of one chunk. The superblock with generation 7 is on pages 0 and 1."""
    disk = Made()
    return disk.finish((shard(1), [disk.chunk(1, 0, ONES, FIRST)]))


@row
def the_superblock_that_counts():
    """The newest one; on a tie that on the lowest page."""
    disk, first, second = two_chunks()
    for named in (first, second):
        disk.put_run((shard(1), [named]))
    second_run, first_run = disk.runs
    for pages in ([(0, 7, first_run), (8, 6, second_run)], [(0, 6, first_run), (8, 7, second_run)], [(0, 7, first_run), (8, 7, second_run)]):
        for page, generation, named in pages:
            disk.superblock(page, generation, named)
        yield disk


@row
def superblocks_in_doubt():
    """Without a page of the only one, a torn one, and ties of two and of three, of which one names no run."""
    for page in ("0:0", "0:1"):
        yield of_one_chunk(), page
    disk = of_one_chunk()
    disk.superblock(8, 8, *disk.runs)
    disk.put(0, 9 * 64, bytes(64))
    yield disk
    disk = of_one_chunk()
    disk.superblock(8, 7)
    yield disk
    disk.superblock(11, 7, *disk.runs)
    yield disk


@row
def no_superblock():
    disk = Disk(16, 6)
    disk.chunk(1, 0, ONES, FIRST)
    disk.put(0, 3 * 64, b"SSB1")
    yield disk, "0:1"
    yield Disk(4, 3), *LASTS
    disk = Disk(4, 3)
    disk.put(0, 64, b"SSB1")
    yield disk, "0:2", *LASTS


@row
def what_is_said_of_superblocks_runs_and_shards():
    """Superblocks by their pages, whatever is wrong with them; then the tie, and then what is said of the shard or the runs."""
    disk = Made()
    chunk, good = disk.rotted(1, 0, FIRST), disk.chunk(2, 0, TWOS, FIRST[::-1])
    disk.put_run(*in_turn([good], [chunk], [good]))
    disk.lose_run((shard(9), [good]))
    disk.finish((shard(3), [good]))
    disk.put(0, 7 * 64, b"SSB2")
    disk.superblock(8, 7, *disk.runs)
    disk.put(0, 14 * 64, b"SSB1")
    yield disk, "0:13", "0:6", f"shard --id {shard(4).hex()}"
    disk = Made()
    disk.lose_run()
    disk.finish((shard(1), [disk.chunk(1, 0, ONES, FIRST)]))
    yield disk, "0:9"
    disk.superblock(8, 7)
    yield disk
    yield disk, "0:13"


@row
def what_else_is_wrong_with_a_disk():
    """A torn chunk, noise, a tail, unreadable pages, twins, a damaged superblock, a broken shard, and a lost run that is older."""
    disk, first, second = two_chunks()
    disk.put(1, 64, frame(uuid(0x12), THIRD)[:40])
    disk.put(1, 128, b"noise")
    disk.pointers[0] = 192
    disk.put(1, 300, b"tail")
    disk.chunk(2, 64, TWOS, THIRD)
    disk.put(0, 512, b"SSB1")
    gone = disk.rotted(3, 0, THIRD)
    disk.lose_run((shard(1), [second]))
    disk.finish(*in_turn([first, second], [gone, altered(gone, name=FOURS, digest=b"x" * 32)]))
    yield disk, "0:15", "1:15", "4:3"


def with_superblocks(*writes):
    """The disk with one shard, whose superblock of generation 7 is on pages 0 and 1 of 8, with other bytes of extent 0: at a page those of
    a superblock with the same runs and this generation, or of a text."""
    disk = Disk(8, 3)
    named = worked.abc_and_its_run(disk)
    finish(disk, [41, 155], [named], 7)
    for page, text in writes:
        if isinstance(text, int):
            finish(disk, [41, 155], [named], text, page=page)
        else:
            disk.put(0, page * 64, text)
    return disk


# Superblocks and bytes of extent 0 in the order of writing: of a superblock its page, its generation and how many runs it lists; of bytes
# the offset and the bytes. Then unreadable pages. A superblock without runs has 66 bytes, so it ends in the second byte of its second page;
# with one run it has 126, with two 186.
ONE, LETTERS = locator(1, 0, ONES, run()), locator(1, 0, b"SSB1" * 4, run())
EXTENT_0 = [
    [[(0, 1, [])]], [[(0, 1, []), (66, b"x")]], [[(0, 1, []), (127, b"x")]], [[(0, 1, []), (128, b"x")]], [[(0, b"x"), (1, 1, [])]],
    # Letters of a kind that begin no record.
    [[(0, 1, []), (128, b"SSB2"), (190, b"x")]], [[(0, 1, []), (68, b"SSB1")]], [[(0, 1, [LETTERS])]],
    # Longer records that are overwritten by shorter ones.
    [[(0, 1, [ONE, ONE]), (0, 2, [])]], [[(0, 1, [ONE]), (2, 2, [ONE]), (0, 3, []), (2, 4, [])]],
    # An unreadable page behind a record, and one in it; a record whose first page is zeros, and one in the last page of another.
    [[(0, 1, []), (128, b"x")], "0:2"], [[(0, 1, [ONE])], "0:1"], [[(0, 1, [ONE]), (0, bytes(64)), (4, 2, [])]], [[(0, 1, []), (1, 2, [])]],
]


@row
def bytes_that_no_record_holds():
    for parts, *pages in EXTENT_0:
        disk = Disk(8, 3)
        for part in parts:
            if len(part) == 3:
                disk.superblock(*part[:2], *part[2])
            else:
                disk.put(0, *part)
        yield disk, *pages


@row
def records_and_stray_bytes_on_one_page():
    """Pages of 256 bytes, on which a record of 66 bytes has room. A page has up to two lines, its record's first."""
    for offset in (None, 66, 255, 256):
        disk = Disk(2, 3, 256)
        disk.superblock(0, 1)
        if offset:
            disk.put(0, offset, b"x")
        yield disk
    for page in (0, 1):
        disk.superblock(page, 1)
        disk.put(0, page * 256 + 100, frame(ONES, b""))
    yield disk


def plain(generation, *runs, pages=4):
    """A record of the first kind: 66 bytes, and 60 for each run."""
    return record(64, pages, 3, [41, 155], runs, generation)


def listing(generation, retired=(), *runs, pages=4):
    """A record of the second kind."""
    return record(64, pages, 3, [41, 155], runs, generation, list(retired))


def nested():
    """A record of generation 5 (186 bytes). Its locators contain a record of generation 9 (66 bytes), which begins at byte 64."""
    inner = record(64, 4, 3, [3, 4], [], 9)
    text = bytes(30) + inner + bytes(24)
    return plain(5, text[:60], text[60:])


def changed(text, *places, sealed=True):
    """A record or a run with other bytes at these places. If it is sealed, its digest is that of its bytes."""
    text = bytearray(text)
    for place, byte in places:
        text[place] = byte
    return with_digest(bytes(text[:-DIGEST])) if sealed else bytes(text)


# The last bit of the generation of a record on page 2, and a record of 186 bytes. Then the parts of extent 0, of four pages, each at its
# offset, and unreadable pages.
FLIPPED, LONG = (139, b"\x09"), plain(5, abc(1, 0), abc(2, 0))
RECORDS = [
    [[(0, plain(7)), (128, plain(8))]], [[(0, plain(7)), (128, plain(7))]],
    [[(0, plain(7)), (128, listing(8))]], [[(0, plain(7)), (128, listing(7))]],
    [[(0, plain(7)), (128, plain(8)), FLIPPED]], [[(0, plain(7)), (128, listing(8)), FLIPPED]], [[(0, plain(7)), (128, plain(8))], "0:2"],
    [[(64, LONG)], "0:0"], [[(64, LONG)], "0:3"], [[(64, LONG)], "0:0", "0:3"],
    [[(0, plain(1, abc(1, 0)))], "0:0", "0:1", "0:2", "0:3"],
    [[(0, listing(4, [], abc(1, 0)))]], [[(0, listing(4, [], abc(1, 0))), (191, b"\x01")]],
    [[(0, nested())]], [[(192, b"SSB1")]], [[(192, plain(1, abc(1, 0)))]], [[(0, plain(1, abc(1, 0)))]],
]


@row
def records_on_the_pages_of_extent_0():
    """Of both kinds; over three pages; inside the locators of another; and beyond the end of the extent and of the image."""
    for parts, *pages in RECORDS:
        disk = Disk(4, 3)
        for place, text in parts:
            disk.bytes[place:place + len(text)] = text
        yield disk, *pages
    disk = Disk(2, 3)
    disk.put(0, 0, plain(1, abc(1, 0)))
    yield disk
    del disk.bytes[125:]
    yield disk


@row
def records_with_forged_bytes():
    """Of the magic, of each size, of the number of runs, of a pointer, of the digest; and of the second kind with a forged first byte, last
    byte, and both, of each size, of the number of runs and of that of retired extents. They are alone, and then before a record that counts."""
    naming, retiring = plain(1, locator(2, 0, TWOS, run((shard(1), [abc(1, 0)]))), pages=64), listing(7, [1], pages=64)
    forged = [changed(naming, place) for place in ((3, 0x32), (15, 0x80), (19, 8), (23, 2), (25, 0), (28, 0x10))]
    forged.append(changed(naming, (125, naming[125] ^ 1), sealed=False))
    for first, last in ((12, 15), (16, 19), (20, 23), (24, 25), (26, 27)):
        forged += [changed(retiring, *places) for places in ([(first, 0xFF)], [(last, 0xFE)], [(first, 0xFF), (last, 0xFF)])]
    disk = Disk(64, 3)
    for number, text in enumerate(forged):
        disk.put(0, 128 * number, text)
    yield disk
    for whole in (naming, retiring):
        disk.put(0, 62 * 64, whole)
        yield disk


@row
def records_of_32_and_33_runs():
    for runs in (32, 33):
        disk = Disk(64, 3)
        disk.put(0, 0, record(64, 64, 3, [41, 155], [abc(1, 0)] * runs))
        yield disk


@row
def retired_extents():
    """One of three; all but two of a hundred; all. And a record of the second kind on a later page."""
    for end in (6, 103):
        disk, retired = Disk(16, 104), list(range(3, end))
        yield finish(disk, [41, 155, *[0] * 101], [worked.abc_and_its_run(disk)], retired=retired)
    for generation in (7, 8):
        yield finish(finish(Disk(4, 3), [41, 155], [], 7), [0, 155], [], generation, [1], 2)


@row
def superblocks_that_were_torn_or_are_shorter():
    for make in (worked.torn_newest, worked.whole_newest, worked.shorter_over_longer, worked.byte_after_the_superblock):
        yield make(), *LASTS


# Disks of which a line of `manifest`, `shard` and `shards` says something about superblocks, or none does.
REMARKED = [
    # Sound disks: with an older superblock, with stray bytes, and with a page of another extent that can't be read.
    (with_superblocks(),), (with_superblocks((4, 6)),), (with_superblocks((7, b"x")),), (with_superblocks(), "1:5"),
    # A page that can't be read, and several.
    (with_superblocks(), "0:5"), (with_superblocks(), "0:7", "0:2"),
    # A damaged record of either kind; a newer superblock, a page of which can't be read.
    (with_superblocks((4, b"SSB1")),), (with_superblocks((3, b"SSB2")),), (with_superblocks((4, 8)), "0:5"),
    # A tie, and all at once.
    (with_superblocks((4, 7)),), (with_superblocks((4, 7), (6, b"SSB1")), "0:3", "0:7"),
]


@row
def remarks_on_superblocks():
    for disk, *pages in REMARKED:
        yield disk, *pages
