"""Rows of the corpus on copies of what has rotted, on extents that may be reclaimed and their rooms, and on doubts that are accepted."""
from lib import worked
from lib.corpus.rows import LASTS, accepting, in_turn, row
from lib.disks import MAGIC, Disk, frame, locator, run, sealed_frame, shard
from lib.worked import FIVES, FOURS, ONES, THREES, TWOS, abc, finish, one_shard, put_run


# Extents that may be reclaimed, and copies of what has rotted in them

def rotted_and_copy(is_sealed=False):
    """Extent 1 has a chunk in which `abc` has rotted, and extent 2 a copy of the whole one, with garbage after it."""
    disk = Disk(8, 4)
    disk.chunk(1, 0, ONES, b"abX")
    disk.chunk(2, 75 if is_sealed else 41, FIVES, bytes(100))
    copy = disk.chunk(2, 0, FOURS, b"abc", sealed_frame if is_sealed else frame)
    return disk, copy


SPARE = f"spare 2 0 3 {'-'.join('4' * size for size in (8, 4, 4, 4, 12))} shard {shard(1).hex()} 41"


@row
def a_rotted_chunk_and_its_copy():
    """Of both forms, which nothing names; then a second copy is behind the run, and then a second shard names the copy."""
    for is_sealed in (False, True):
        disk, _ = rotted_and_copy(is_sealed)
        named = put_run(disk, 3, 0, FIVES, abc(1, 0))
        finish(disk, [41, 213 if is_sealed else 179, 155], [named])
        yield disk, f"reclaimable --accept '{SPARE}'", f"reclaimable --accept '{SPARE[:-1]}2'", "manifest --reset 2"
    disk, _ = rotted_and_copy()
    named = put_run(disk, 3, 0, FIVES, abc(1, 0))
    disk.chunk(3, 155, FOURS, b"abc")
    yield finish(disk, [41, 179, 196], [named], generation=2), "manifest --reset 2"
    disk, copy = rotted_and_copy()
    yield finish(disk, [41, 179, 232], [disk.chunk(3, 0, FIVES, run(*in_turn([abc(1, 0)], [copy])))])


@row
def an_empty_chunk_of_another_uuid():
    """Extent 2 has garbage."""
    disk = Disk(8, 4)
    chunk = disk.chunk(1, 0, ONES, b"")
    disk.chunk(1, 0, TWOS, b"")
    disk.chunk(2, 0, FIVES, bytes(26))
    yield finish(disk, [38, 64, 155], [put_run(disk, 3, 0, FIVES, chunk)])


@row
def a_sealed_chunk_to_move():
    """Garbage is after it and in extent 2. In extent 3 there may be a byte of noise after the run."""
    for has_noise in (False, True):
        disk = Disk(8, 4)
        chunk = disk.chunk(1, 0, ONES, b"abc", sealed_frame)
        disk.chunk(1, 75, FIVES, bytes(100))
        disk.chunk(2, 0, FIVES, bytes(26))
        named = put_run(disk, 3, 0, FIVES, chunk)
        if has_noise:
            disk.put(3, 155, b"x")
        yield finish(disk, [213, 64, 155 + has_noise], [named])


@row
def resets_of_extents_with_chunks_and_runs():
    """The first shard has a chunk of `abc` in extent 1, and one in extent 3 before the run; the second shard one in extent 1. Extent 2
    has garbage. Then a retired extent is reset, and that of locators of each status."""
    disk = Disk(8, 4)
    one, other = disk.chunk(1, 0, ONES, b"abc"), disk.chunk(3, 0, FOURS, b"abc")
    second = disk.chunk(1, 41, TWOS, b"de")
    disk.chunk(2, 0, FIVES, bytes(26))
    named = disk.chunk(3, 41, FIVES, run(*in_turn([one, other], [second])))
    resets = ("manifest --reset 2", "manifest --reset 1 --reset 2", "manifest --reset 1 --reset 3", "manifest --reset 3 --reset 0")
    yield finish(disk, [81, 64, 333], [named]), *resets
    yield *worked.broken_and_retired(), "manifest --reset 3"
    yield *worked.nine_locators(), "manifest --reset 1 --reset 2"


# The length of the payload behind `abc` in extent 3, its pointer, a place with other bytes, an unreadable page, and the offset of a locator
# of a chunk that isn't there; 0 is that of `abc`.
ROOMS = [
    (100, 179, (0, b""), None, 0),
    # The pointer is a multiple of the page size; or it isn't, and after padding the room begins at the next page bound.
    (100, 192, (0, b""), None, 0), (100, 194, (0, b""), None, 0),
    # A byte between the pointer and that bound isn't zero; bytes after the place don't matter.
    (100, 194, (255, b"\xff"), None, 0), (100, 194, (256, b"\xff"), None, 0), (100, 179, (179, b"\xff"), None, 0),
    # Noise, and a torn item.
    (100, 192, (179, b"\xff"), None, 0), (100, 192, (179, MAGIC), None, 0),
    # A page past the pointer, and one before it, can't be read.
    (100, 179, (0, b""), 7, 0), (100, 256, (0, b""), 3, 0),
    # 38 bytes, 37 bytes and no byte are left.
    (395, 474, (0, b""), None, 0), (396, 475, (0, b""), None, 0), (395, 490, (0, b""), None, 0),
    # A locator of the extent is past the pointer, or out of range.
    (100, 179, (0, b""), None, 200), (100, 179, (0, b""), None, 480),
]


@row
def the_room_of_an_extent():
    """Extent 1 has a chunk that nothing names, extent 2 the run, and extent 3 `abc` and a chunk after it, both named."""
    for length, pointer, (place, text), bad, name in ROOMS:
        disk = Disk(8, 4)
        disk.chunk(1, 0, FOURS, bytes(26))
        locators = disk.chunk(3, 0, ONES, b"abc"), disk.chunk(3, 41, THREES, bytes(length)), abc(3, name)
        runs = [put_run(disk, 2, 0, TWOS, *locators)]
        disk.put(3, place, text)
        yield finish(disk, [64, 275, pointer], runs), *[f"3:{bad}"] * (bad is not None)


@row
def a_run_to_keep_has_a_line_for_each_owner():
    """Extent 2 has a chunk that nothing names, and after it a run that the superblock names twice."""
    disk = Disk(4, 3)
    disk.chunk(2, 0, ONES, b"x" * 60)
    named = disk.chunk(2, 98, TWOS, run((shard(1), [])))
    yield finish(disk, [0, 193], [named, named])


@row
def lines_that_are_accepted_one_by_one():
    """Doubts of a superblock, of bytes past a pointer, and of pages there that can't be read."""
    damaged, stray = "superblock-damaged 2", "superblock-stray 3"
    yield worked.two_superblocks(8, True), accepting(damaged), accepting(damaged, stray)
    yield worked.past_the_pointer(), accepting("tail-lost 1 0 38"), accepting("tail 1 0 38")
    yield one_shard(), "1:0", "1:1", "1:3", accepting("tail 1 0 1"), accepting("tail-lost 1 3 3"), accepting("tail-lost 1 0 1", "tail-lost 1 3 3")


def all_that_can_be_accepted():
    """A disk of generation 7 with each doubt that can be accepted; page 3 of extent 5 has to be unreadable. The chunks of both shards in
    extent 1 have rotted; extent 2 has a copy of the first one, and behind a byte of noise a whole chunk of the second one, extent 3 the run,
    extent 4 a tail, extent 6 frames over frames."""
    disk = Disk(8, 7)
    disk.chunk(1, 0, ONES, b"abX")
    disk.chunk(1, 41, TWOS, b"dX")
    disk.chunk(2, 0, FOURS, b"abc")
    disk.put(2, 41, b"x" + frame(TWOS, b"de"))
    disk.put(6, 0, worked.HEAP)
    named = disk.chunk(3, 0, FIVES, run(*in_turn([abc(1, 0)], [locator(1, 41, TWOS, b"de")])))
    disk.put(4, 100, b"x")
    disk.put(0, 4 * 64, b"SSB1")
    disk.put(0, 5 * 64, b"x")
    return finish(disk, [81, 128, 232, 0, 0, 400], [named], 7)


LOOSE = f"loose 2 42 2 {'-'.join('2' * size for size in (8, 4, 4, 4, 12))} shard {shard(2).hex()} 40"
COPIES = accepting(SPARE, LOOSE, "crowded 6")
OTHER_COPIES = accepting(LOOSE, "tail 4 100 2", "crowded 6", SPARE)
EACH = "crowded 6", "tail-lost 5 3 3", SPARE, "superblock-stray 5", LOOSE, "tail 4 100 1", "superblock-damaged 4"
@row
def the_last_generation_beside_lines():
    """It accepts four kinds of doubts, and neither a spare nor a loose copy, nor a crowded extent. Another one accepts nothing."""
    yield all_that_can_be_accepted(), "5:3", *LASTS, f"{COPIES} --last 7", f"{OTHER_COPIES} --last=+7", f"{accepting(*EACH)} --last 8", \
        accepting(*EACH)
    for last in ("007", "00000000000000000000000000000007", "+0" + str(2 ** 64 - 1)):
        yield worked.byte_after_the_superblock(), f"reclaimable --last {last}"


@row
def the_last_generation_beside_what_cant_be_accepted():
    """Two superblocks have the greatest generation, and name a run past a pointer."""
    disk = Disk(8, 3)
    disk.put(2, 100, b"x")
    disk.put(0, 4 * 64, b"SSB2")
    disk.put(0, 5 * 64, b"x")
    for page in (0, 2):
        finish(disk, [0, 0], [locator(1, 0, ONES, worked.DELETED)], 7, page=page)
    yield disk, "0:7", "1:3", *LASTS


@row
def lines_that_stand_for_no_doubt():
    """They may be a line, and have no effect."""
    lines = "tail ", "superblock-stray 3", "superblock-damaged -", "spare 2 0 3", "loose 1", "crowded 1", "tail-lost  ", "tail 2 0 1092 x"
    yield worked.byte_after_the_superblock(), *map(accepting, lines), accepting(*lines)


@row
def lines_that_are_refused():
    """A kind, an empty text, another first word, and a line with the word `doubt`. The first of several is told, before a refused image."""
    kinds = ["superblock-damaged", "superblock-stray", "spare", "loose", "crowded", "tail", "tail-lost"]
    bars = ["no-superblock", "tie", "last", "superblock-lost", "run-lost", "last 7 8", "superblock-lost 1", "run-lost 0 unreadable", "tie "]
    others = ["", " ", " tail 1 0 1", "Tail 1 0 1", "tails 1 0 1", "doubt tail 1 0 1", "accepted tail 1 0 1", "spare\t1", "tail\n1"]
    yield one_shard(), *map(accepting, (*kinds, *bars, *others)), accepting("tail 1 0 1", "spare", "tie"), accepting("tie", "spare") + " --last 7"


@row
def copies_behind_a_damaged_frame():
    for is_second_lost in (False, True):
        yield worked.behind_a_damaged_frame(is_second_lost), "reclaimable --last 1"
