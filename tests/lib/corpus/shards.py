"""Rows of the corpus on shards: where their payloads come from, and which of their entries counts."""
import hashlib
import random

from lib import worked
from lib.corpus.rows import FIRST, FORMS, GREATEST, SECOND, THIRD, Made, altered, in_turn, row, two_chunks
from lib.disks import Disk, be, frame, locator, run, sealed_frame, shard, uuid
from lib.worked import ENDS_IN_MAGIC, FIVES, FOURS, ONES, THREES, TWOS, abc, finish, put_run


# Payloads at the places of their locators

@row
def payloads_of_whole_chunks():
    """In the order of the entry, neither that of their places nor that of their UUIDs, some twice and of both forms; each byte, frames and
    a run as payloads; no bytes at all; and hidden ones, inside of another chunk."""
    disk, every = Made(64), bytes(range(256))
    first, second, third = (disk.chunk(1, disk.pointers[0], name, payload) for name, payload in ((THREES, FIRST), (TWOS, SECOND), (ONES, THIRD)))
    sealed, plain = disk.chunk(2, 0, ONES, every, sealed_frame), disk.chunk(2, 400, TWOS, every[::-1])
    frames, runs = (disk.chunk(3, disk.pointers[2], ONES, payload) for payload in (
        frame(THREES, FIRST) + sealed_frame(FOURS, SECOND), run((shard(2), []))))
    inner, other, nothing = frame(TWOS, FIRST), sealed_frame(THREES, SECOND), frame(FIVES, b"")
    disk.chunk(4, 0, ONES, b"--" + inner + other + nothing)
    hidden = [locator(4, 24, TWOS, FIRST), locator(4, 24 + len(inner), THREES, SECOND), locator(4, 24 + len(inner + other), FIVES, b"")]
    empty, no_bytes = disk.chunk(4, 512, ONES, b""), disk.chunk(4, 576, THREES, b"", sealed_frame)
    yield disk.finish(*in_turn([third, first, second, first], [sealed, plain], [frames, runs], hidden, [empty],
                               [first, empty, no_bytes, hidden[2], first], [hidden[2], no_bytes], [second, first]))


@row
def chunks_hidden_by_what_was_written_before_them():
    """By the collision: a crash lost the end of a chunk, and what was written there looks like its end. Or the page is unreadable on which
    the chunk before it begins, so the items have noise there."""
    disk = Made()
    disk.chunk(1, 0, ENDS_IN_MAGIC, b"x" * 28)
    before, behind = disk.chunk(2, 0, ONES, THIRD), disk.chunk(2, 84, TWOS, SECOND)
    disk.finish(*in_turn([disk.chunk(1, 64, ONES, FIRST)], [behind], [behind, before]))
    yield disk
    yield disk, "2:0"


@row
def shards_of_64_locators():
    """Of good chunks in some order; and with a lost payload at the numbers 9, 10 and 63, which are always said in two digits."""
    disk = Made(64)
    chunks = [disk.chunk(1, disk.pointers[0], uuid(number), bytes([number]) * (number % 3)) for number in range(1, 22)]
    yield disk.finish((shard(1), [chunks[5 * place % 21] for place in range(64)]))
    for number in (9, 10, 63):
        disk = Made(64)
        named = [disk.chunk(2, 0, TWOS, SECOND)] * 64
        named[number] = disk.rotted(1, 0, FIRST)
        yield disk.finish((shard(1), named))


@row
def the_first_lost_payload_of_a_shard():
    """At each place of an entry, and at several."""
    for bad in ([0], [1], [2], [1, 2], [2, 3], [0, 3]):
        disk = Made()
        chunks = [disk.chunk(1 + k, 0, uuid(0x11 + k), FIRST[k:]) for k in range(4)]
        for k in bad:
            disk.rot(1 + k, 0)
        yield disk.finish(*in_turn(chunks, [chunk for k, chunk in enumerate(chunks) if k not in bad]))


# Payloads from other places

@row
def spares_of_payloads_that_are_lost_in_each_way():
    """Each shard has one locator: of a chunk that has rotted, in extents that aren't there, out of its extent, in extent 0, in a retired
    extent, past the pointer by a byte or as a whole, on an unreadable page. First nothing else has its payload, then a plain chunk, then a
    sealed one."""
    payloads = [FIRST + be(1, k) for k in range(12)]
    for form in (None, *FORMS):
        disk = Made(32, 7)
        take = iter(payloads)
        named = [disk.rotted(1, 0, next(take)), disk.chunk(1, 256, THREES, next(take)), disk.chunk(1, 383, THREES, next(take))]
        disk.pointers[0] = 512
        named += [locator(e, o, ONES, next(take)) for e, o in ((7, 0), (GREATEST, 0), (1, 2048 - 55), (1, 2048), (1, GREATEST), (0, 960))]
        named += [disk.chunk(2, 0, ONES, next(take)), disk.chunk(3, 0, ONES, next(take)), disk.chunk(4, 0, ONES, next(take))]
        disk.pointers[2:4] = 55, 0
        disk.rot(4, 0)
        if form:
            for k, payload in enumerate(payloads):
                disk.chunk(5, 128 * k, uuid(0x60 + k), payload, form)
        disk.put(0, 960, frame(ONES, payloads[8]))
        disk.finish(*in_turn(*([one] for one in named)), retired=[2])
        for pages in (["1:5", "1:7"], ["1:6", "1:4", "5:0", "5:31"]):
            yield disk, *pages


@row
def spares_anywhere():
    """One that another shard names, one at the place of the locator under another UUID, several, behind a chunk and behind zeros."""
    disk = Made()
    rotted, owned = disk.rotted(1, 0, FIRST), disk.chunk(2, 0, TWOS, SECOND)
    other = disk.rotted(1, 64, SECOND)
    disk.chunk(1, 128, ONES, THIRD)
    for extent, offset, payload, form in ((2, 128, FIRST, sealed_frame), (3, 0, SECOND, frame), (3, 52, FIRST, frame)):
        disk.chunk(extent, offset, FOURS, payload, form)
    yield disk.finish(*in_turn([rotted], [other, owned], [locator(1, 128, FIVES, THIRD)]))


@row
def what_is_no_spare():
    """Other bytes of that length; a longer payload that begins with the bytes; a chunk that has rotted, was cut off, or is in a retired
    extent; the right digest with another length; an empty chunk for another digest; and no bytes with a length."""
    disk = Made()
    chunk, empty = disk.rotted(1, 0, FIRST), disk.chunk(1, 64, THREES, b"")
    disk.chunk(2, 0, TWOS, FIRST[::-1])
    disk.chunk(2, 64, TWOS, FIRST + b"x")
    disk.chunk(2, 128, TWOS, FIRST)
    disk.rot(2, 128)
    disk.chunk(2, 192, TWOS, FIRST, sealed_frame)
    disk.spoil(2, 192 + 60)
    disk.put(3, 0, frame(THREES, FIRST)[:-1])
    disk.chunk(4, 0, FOURS, FIRST)
    wrong = altered(empty, digest=hashlib.sha256(b"x").digest())
    disk.put_run(*in_turn([chunk], [altered(chunk, length=len(FIRST) + 1)], [empty, wrong], [altered(empty, length=1)]))
    yield disk.finish(retired=[4])
    yield disk.finish()


@row
def loose_copies():
    """Within a chunk, behind a damaged one, across a pointer, past it, and several."""
    garbage = frame(THREES, bytes(20))
    for form in FORMS:
        copy = form(TWOS, FIRST)
        for text, pointer in ((frame(FOURS, b"--" + copy), 155), (garbage[:-1] + b"x" + copy, 200), (copy, 30), (copy, 0),
                              (bytes(301) + copy + copy, 0)):
            disk = Made()
            disk.put(2, 0, text)
            disk.pointers[1] = pointer
            yield disk.finish((shard(1), [disk.rotted(1, 0, FIRST)]))


@row
def payloads_from_loose_copies():
    """One after another, in the order of the entry; none of them is a copy of another locator. At last a crowded extent has no copy."""
    disk = Made()
    chunks = [disk.chunk(1, 64 * k, ONES, payload) for k, payload in enumerate((FIRST, SECOND, THIRD))]
    disk.pointers[0] = 0
    disk.put(2, 7, frame(TWOS, FIRST))
    yield disk.finish(*in_turn([chunks[2], chunks[0], chunks[1]], [chunks[1]]))
    disk.rot(1, 64)
    yield disk
    disk.put(1, 0, bytes(512))
    disk.put(2, 0, worked.HEAP + worked.HEAP + frame(TWOS, FIRST))
    yield disk
    disk.put(3, 100, frame(TWOS, FIRST))
    yield disk


@row
def empty_payloads_are_never_lost():
    """Whatever the status of the locator, and though it has no spare, however many empty chunks there are."""
    disk = Made()
    empty, _ = disk.chunk(1, 0, ONES, b""), disk.chunk(2, 0, TWOS, b"", sealed_frame)
    first, retired = disk.chunk(2, 72, THREES, FIRST), disk.chunk(4, 0, FOURS, b"")
    nowhere = [locator(e, o, name, b"") for e, o, name in ((1, 0, TWOS), (2, 72, THREES), (1, 500, ONES), (6, 0, ONES), (0, 0, ONES))]
    disk.finish(*in_turn([first, nowhere[0], first], [*nowhere, retired], [empty]), retired=[4])
    yield disk
    yield disk, "1:0"


# Locators of the disk of pieces.
PIECES = {
    "abc": abc(1, 0),
    "de": locator(1, 41, TWOS, b"de"),
    # The chunk is sealed, or has no payload.
    "sealed": locator(1, 81, THREES, b"sealed"),
    "empty": locator(1, 159, FOURS, b""),
    # The chunk has rotted, and there is a plain copy under another UUID; or it is past the pointer, and there is a sealed copy.
    "rotted": locator(1, 197, ONES, b"fgh"),
    "past": locator(1, 600, ONES, b"ijkl"),
    # There is no chunk of this content; it has the wrong UUID for the chunk without a payload; or no bytes have this digest.
    "lost": locator(1, 700, ONES, b"lost"),
    "other-empty": locator(1, 159, TWOS, b""),
    "lost-empty": altered(locator(1, 159, FOURS, b""), digest=b"x" * 32),
}
ENTRIES = ("abc de", "de abc", "abc de abc", "sealed", "empty", "de empty sealed abc", "rotted", "past", "past abc rotted", "lost abc",
           "abc lost", "abc rotted lost de lost", "other-empty", "empty other-empty abc other-empty", "empty lost-empty lost", "")


@row
def entries_of_pieces():
    """The chunks of the pieces are in extent 1, and copies in extent 2. Each entry is a shard of the run in extent 3."""
    disk = Made(64, 4)
    for extent, offset, name, payload, form in ((1, 0, ONES, b"abc", frame), (1, 41, TWOS, b"de", frame), (1, 81, THREES, b"sealed", sealed_frame),
                                                (1, 159, FOURS, b"", frame), (1, 197, ONES, b"fgX", frame), (2, 0, TWOS, b"fgh", frame),
                                                (2, 41, THREES, b"ijkl", sealed_frame)):
        disk.chunk(extent, offset, name, payload, form)
    yield disk.finish(*in_turn(*([PIECES[word] for word in words.split()] for words in ENTRIES)))


@row
def payloads_from_everywhere():
    """A sound locator, a hidden one, and one with a spare; a rotted chunk with a copy behind the run."""
    disk = Made()
    chunk = disk.rotted(1, 0, FIRST)
    disk.chunk(2, 0, TWOS, frame(THREES, SECOND))
    disk.chunk(3, 0, THREES, FIRST, sealed_frame)
    sound = disk.chunk(4, 0, FOURS, THIRD)
    yield disk.finish((shard(1), [chunk, sound, locator(2, 22, THREES, SECOND)]))
    disk = Disk(4, 3)
    disk.chunk(1, 0, ONES, b"abX")
    named = put_run(disk, 2, 0, TWOS, abc(1, 0))
    disk.chunk(2, 155, FOURS, b"abc")
    yield finish(disk, [41, 196], [named])


# Entries of several runs

@row
def the_newest_entry_counts():
    """Of shard 1 a newer one, of shard 2 one that is lost over a whole one, of shard 3 the only one; shard 4 is deleted, shard 5 was deleted
    and written again, shard 6 only a lost run has, and of shards 3 and 7 a lost run may have a newer entry."""
    disk = Made(32)
    first, second = disk.chunk(1, 0, ONES, FIRST), disk.chunk(2, 0, TWOS, SECOND)
    gone = disk.rotted(3, 0, THIRD)
    disk.put_run(*((shard(number), [first]) for number in (1, 2, 3, 4, 5, 7, 8)))
    disk.lose_run((shard(6), [first]), (shard(7), [second]))
    disk.put_run((shard(4), []), (shard(5), []))
    disk.lose_run((shard(4), [first]))
    disk.put_run((shard(0), [second]))
    yield disk.finish((shard(1), [second]), (shard(2), [gone]), (shard(5), [second]), (shard(8), [second, second]), (b"\xff" * 16, [first]))


def lost_run_of_no_run(disk):
    disk.runs[0] = disk.chunk(4, 0, uuid(0xEE), b"RUN1 is only how this begins")


def lost_run_past_the_pointer(disk):
    disk.pointers[3] -= 1


def lost_run_out_of_range(disk):
    disk.runs[0] = locator(6, 0, uuid(0xEE), b"a run")


def lost_run_that_another_chunk_holds(disk):
    """A spare of a run isn't read in its place."""
    disk.chunk(3, 0, uuid(0xEF), run((shard(1), [disk.chunk(2, 0, TWOS, SECOND)])))
    disk.rot(4, 0)


@row
def lost_runs():
    """A lost run is newer than the shard's entry. Then a still newer run has an entry."""
    for spoil, retired, *pages in ((lambda disk: disk.rot(4, 0), None), (lost_run_of_no_run, None), (lost_run_past_the_pointer, None),
                                   (lambda disk: None, [4]), (lambda disk: None, None, "4:1"), (lost_run_out_of_range, None),
                                   (lost_run_that_another_chunk_holds, None)):
        disk, first, second = two_chunks()
        disk.put_run((shard(1), [first]))
        disk.runs.insert(0, disk.chunk(4, 0, uuid(0xEE), run((shard(1), [second]))))
        spoil(disk)
        yield disk.finish(retired=retired), *pages
        disk.put_run((shard(1), [second, first]))
        yield disk.finish(retired=retired), *pages


@row
def a_hidden_run_is_read():
    disk, first, second = two_chunks()
    disk.put_run((shard(1), [first]))
    payload = run((shard(1), [second]))
    disk.chunk(4, 0, uuid(0xEE), frame(uuid(0xEF), payload))
    disk.runs.insert(0, locator(4, 22, uuid(0xEF), payload))
    yield disk.finish()
    disk = worked.collision()
    disk.chunk(1, 0, ONES, b"abc")
    yield finish(disk, [41, 411, 0], [put_run(disk, 2, 256, TWOS, abc(1, 0))])


@row
def shards_that_may_have_a_newer_entry():
    """With a spare, with a lost payload, without bytes."""
    disk, first, second = two_chunks()
    disk.chunk(3, 0, THREES, FIRST)
    disk.rot(1, 0)
    disk.rot(2, 0)
    disk.put_run(*in_turn([first], [first, second], [disk.chunk(4, 0, ONES, b"")]))
    disk.lose_run()
    yield disk.finish()


@row
def identifiers():
    """Those that differ in one byte from that of the one shard, the smallest and the greatest; no runs; a run without entries."""
    disk, first, second = two_chunks()
    name = bytes(range(16))
    others = bytes(16), b"\xff" * 16, name[::-1], b"\x01" + name[1:], name[:-1] + b"\x0e", name[:-1] + b"\x10"
    disk.finish((name, [first]))
    yield disk, *(f"shard --id {other.hex()}" for other in others)
    disk.spoil(0, 11)
    yield disk, f"shard --id {name.hex()}"
    yield Made().finish()
    yield Made().finish((name, [])), f"shard --id {name.hex()}"
    disk = Made()
    disk.put_run()
    yield disk.finish()
    disk, first, second = two_chunks()
    names = [bytes(16), shard(1), shard(256), name, b"\x10" + bytes(15), b"\xff" * 16]
    disk.put_run(*((name, [first]) for name in names[::2]))
    yield disk.finish(*((name, [second]) for name in names[1::2]))


@row
def lines_of_each_kind():
    """Lost runs by their numbers, and shards by their identifiers, whatever is said of them."""
    disk = Made()
    chunk, good = disk.rotted(1, 0, SECOND), disk.chunk(2, 0, TWOS, FIRST)
    disk.put_run(*in_turn([good], [good, chunk], [good], [chunk]))
    disk.lose_run((shard(9), [good]))
    disk.put_run((shard(3), [good, good]))
    disk.runs.insert(0, locator(6, 0, uuid(0xEE), b"a run"))
    disk.runs.insert(0, disk.chunk(4, 0, uuid(0xE9), run((shard(5), [chunk]), (shard(6), [good]))))
    yield disk.finish()


@row
def files_of_lengths_beside_a_block_of_an_archive():
    disk = Made(256, 4)
    lengths = (0, 1, 511, 512, 513, 1023, 1024, 1025)
    yield disk.finish(*((shard(n), [disk.chunk(1, disk.pointers[0], uuid(n % 256), bytes([n % 256]) * n)]) for n in lengths))


@row
def disks_by_chance():
    """With each kind of wrong thing on some of them."""
    for seed in range(12):
        choice, disk = random.Random(seed), Disk(64, 6)
        chunks = [disk.chunk(e, disk.pointers[e - 1], choice.randbytes(16), choice.randbytes(choice.choice([0, 3, 60, 512])),
                             choice.choice(FORMS)) for e in (1, 2, 3) for _ in range(6)]
        runs = [run(*((shard(n), choice.choices(chunks, k=choice.randrange(5))) for n in sorted(choice.sample(range(20), 7))))
                for _ in range(2)]
        named = [disk.chunk(5 - k, 0, uuid(0xE0 + k), payload) for k, payload in enumerate(runs)]
        for extent in choice.sample(range(1, 6), choice.randrange(3)):
            disk.spoil(extent, choice.randrange(400))
        disk.superblock(0, 7, *named)
        yield disk, *(f"{choice.randrange(1, 6)}:{choice.randrange(8)}" for _ in range(choice.randrange(3)))
