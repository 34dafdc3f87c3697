"""Rows of the corpus on the payloads of index runs."""
from lib import worked
from lib.corpus.rows import row
from lib.disks import Disk, be, locator, run, shard, uuid, with_digest
from lib.worked import ONES, TWOS, abc, finish, one_shard


# Payloads of index runs

def run_head(entries):
    """The magic of a run, and how many entries it claims."""
    return b"RUN1" + be(4, entries)


def entry(name, claimed, *locators):
    """An entry of the shard with this number or identifier, and how many locators it claims."""
    return (name if isinstance(name, bytes) else shard(name)) + be(1, claimed) + b"".join(locators)


def runs_on_a_disk(*payloads):
    """`abc` twice in extent 1, and these payloads in extents 2 and 3, which the superblock names as runs, newest first."""
    disk = Disk(4, 4, 4096)
    named = [disk.chunk(2 + number, 0, uuid(0x22 + number), payload) for number, payload in enumerate(payloads)]
    for offset in (0, 41):
        disk.chunk(1, offset, ONES, b"abc")
    disk.superblock(0, 1, *named)
    return disk


AT_0, AT_41 = abc(1, 0), abc(1, 41)
# Entries without locators, of identifiers that differ in their last two bytes. Identifiers in the order of their bytes.
LOW, MIDDLE, HIGH = (entry(b"\x7f" * 14 + bytes(last), 0) for last in ((0, 2), (1, 1), (1, 2)))
RISING = [*map(shard, (1, 2, 0x7F, 0x80, 0xFF)), b"\x7f" + b"\xff" * 15, b"\x80" + bytes(15)]


@row
def runs_with_identifiers_in_order():
    """In a run, and in the index, which has those of two runs; and with each pair exchanged."""
    yield runs_on_a_disk(run(*((name, [AT_0]) for name in RISING)))
    yield runs_on_a_disk(*(run(*((name, [AT_0]) for name in RISING[first::2])) for first in (0, 1)))
    for one, other in zip(RISING, RISING[1:]):
        yield runs_on_a_disk(run((other, [AT_0]), (one, [AT_0])))


@row
def runs_that_delete_shards_of_older_ones():
    """Deleted shards beside others with similar identifiers. Then shards of no locator, of one and of two."""
    kept = [b"\x7f" * 14 + bytes(last) for last in ((0, 1), (0, 3), (1, 0), (1, 3))]
    older = run(*((name, [AT_0]) for name in sorted([*(name[:16] for name in (LOW, MIDDLE, HIGH)), *kept])))
    yield runs_on_a_disk(with_digest(run_head(3) + LOW + MIDDLE + HIGH), older)
    three = with_digest(run_head(3) + entry(1, 0) + entry(2, 1, AT_0) + entry(3, 2, AT_0, AT_41))
    yield runs_on_a_disk(three, run(*((shard(number), [AT_41]) for number in range(1, 5))))


# The bytes of the frame of a run with one locator, and how many such runs are in a row.
RUN_FRAME, IN_A_ROW = 155, 32


def runs_in_a_row(own_shards):
    """From the first run on, the locator of every fifth one is a byte off, and every seventh payload isn't a run. They are all of one
    shard, or each has its own."""
    disk, named = Disk(256, 3), []
    for number in range(IN_A_ROW):
        payload = bytes(117) if number % 7 == 0 else run((shard(number if own_shards else 1), [abc(1, number)]))
        at = number * RUN_FRAME
        disk.chunk(2, at, TWOS, payload)
        named.append(locator(2, at + (number % 5 == 0), TWOS, payload))
    return finish(disk, [0, IN_A_ROW * RUN_FRAME], named)


@row
def runs_that_are_read_or_lost():
    for own_shards in (False, True):
        yield runs_in_a_row(own_shards)
    disk = Disk(2, 3, 1024)
    yield finish(disk, [41, 155], [worked.abc_and_its_run(disk)] * 32)
    for page in ("2:0", "2:1", "2:2"):
        yield one_shard(page)
