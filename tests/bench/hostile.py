"""Makes disks and files that are made to cost much.

The first disks have an extent of 64 MiB in pages of 1,024 bytes. Smaller pages can't make an extent of that size, so it has the
most pages. Each of its 65,536 pages begins with a head that claims a chunk up to the write pointer. A scanner that hashed each
claimed chunk would hash 2 TiB.

no far end             the extent ends with the UUID of no head;
one far end            it ends with the UUID of all heads, so the first head's chunk is whole, and takes the whole extent;
a page before it lost  the same, and the page before the last is unreadable, so no chunk before it is whole;
two pages lost         the same, and a page in the middle is unreadable too.

The next disks have heads of sealed chunks. All heads have the UUID at the end of the extent, which has a closing mark too, and
all digests are wrong. Only hashing its payload shows whether such a chunk is whole. So for each head everything after it is
hashed: that is the price of the sealed form. It grows with the square of the number of pages, so these extents have only 2 and
4 MiB, in pages of 4,096 bytes. An extent of 64 MiB would take 256 times as long as one of 4 MiB.

The last disks have extents of 8 MiB in pages of 4,096 bytes. In the payload of a chunk of 4 MB begin other chunks, which are no
items. An index run names one of them 6,400 times, or 200 of them 32 times each. Each place is hashed.

Then there are disks for `manifest` whose first extent has 64 MiB in pages of 1,024 bytes, all past the write pointer. A payload is lost,
and frames of its length are looked for at each byte.

no frame                  the extent has other bytes;
a frame at each 5th byte  each has a payload of 312,670 bytes. Together these are far more than four times the extent, so it is crowded,
                          and nothing is hashed; 4 TB would be;
four over each other      frames of 16,384 bytes, one at each 4,096th byte. Their payloads are a little less than four times the extent,
                          so it isn't crowded, and each is hashed.

The files for `sizes` have 64 MiB. One of them has a superblock and zeros, for comparison:

forged records   the most bytes to hash. The head of a record is wherever one may begin: at each multiple of 64 in the first
                 4 MiB, and then of 128, 256, 512 and 1,024, since the page size grows with the extent. All fields are right,
                 and all digests are wrong. The letters of a head are neither a write pointer nor the number of an extent, so
                 the pointers and retired extents of a record end at the next head. Its 32 locators and its digest overlap
                 the heads after it. A record reaches to the next head and 1,952 bytes more: 196,573 records and 415 MiB.
forged pointers  heads at the same places. Each claims as many extents as its place allows, by powers of two. The first wrong
                 pointer is the next head. If the pointers end before it, the record has to be hashed.
"""
from collections.abc import Callable
from typing import NamedTuple

from lib.disks import (CLOSING_MARK, DIGEST, HEAD, KIB, LOCATOR, MAGIC, MIB, ROUND_PAYLOAD, ROUND_SEALED, SEALED_MAGIC, DiskFile, be, fields,
                       frame, head, locator, record, record_head)

from kinds import LEAST_LARGE, MOST_LARGE

MOST_LOCATORS = 64
MOST_PAGES = 1 << 16
FIRST = 64 * MIB  # the bytes that `sizes` looks at
RECORD_HEAD, MOST_RUN_BYTES = 28, 32 * 60
ALL_HEADS = b"\x11" * 16
NO_HEAD = b"\xff" * 16
PAGES = 1 << 16


def clean(file, page, pages):
    """An extent full of chunks of 64 KiB to 1 MiB. None is named, so all of it may be reclaimed."""
    disk = DiskFile(file, page, pages, 2)
    disk.fill(1, LEAST_LARGE, MOST_LARGE)
    disk.put_superblock([])
    return disk.made(live=0, orphans=disk.chunks, candidates=1)


def plain_heads(file, page, pages, end, lost):
    """Each page begins with a head that claims a chunk up to the write pointer. The extent ends with the bytes `end`.

    The filler isn't zero and has no magic. The last page is never lost.
    """
    disk = DiskFile(file, page, pages, 2)
    disk.next_extent()
    for number in range(pages):
        begun = head(ALL_HEADS, disk.extent_bytes - number * page - ROUND_PAYLOAD)
        disk.file.write(begun + b"x" * (page - len(begun)))
    disk.file.seek(-len(end), 1)
    disk.file.write(end)
    disk.pointers[-1] = disk.extent_bytes
    disk.put_superblock([])
    # If the far end is the heads', the first chunk without a lost page is whole, and takes all bytes after it.
    chunks = int(end == ALL_HEADS)
    before = max(lost, default=-1) + 1 if chunks else pages
    disk.hashed += chunks * (disk.extent_bytes - before * page - ROUND_PAYLOAD)
    return disk.made([(1, number) for number in lost], status=int(before > 0), clean=before == 0, torn=before - len(lost),
                     lost=len(lost), chunk=chunks, orphans=chunks, live=0, candidates=int(not lost))


def sealed_heads(file, page, pages):
    """Each page begins with the head of a sealed chunk up to the write pointer. Its far end is right, its digest is wrong."""
    disk = DiskFile(file, page, pages, 2)
    disk.next_extent()
    for number in range(pages):
        size = disk.extent_bytes - number * page - ROUND_SEALED
        begun = head(ALL_HEADS, size, SEALED_MAGIC) + bytes(DIGEST)
        disk.file.write(begun + b"x" * (page - len(begun)))
        disk.hashed += size
    disk.file.seek(-18, 1)
    disk.file.write(ALL_HEADS + CLOSING_MARK)
    disk.pointers[-1] = disk.extent_bytes
    disk.put_superblock([])
    return disk.made(status=1, clean=False, torn=pages, live=0, candidates=1)


def hidden_places(file, page, pages, count, times):
    """A chunk, with a chunk in its payload, with a chunk in that one's payload, and so on. All but the first are named."""
    disk = DiskFile(file, page, pages, 3)
    disk.next_extent()
    payload, locators = disk.chance.randbytes(4_000_000), []
    for depth in range(count, 0, -1):
        uuid = disk.chance.randbytes(16)
        locators.append(locator(1, depth * HEAD, uuid, payload))
        disk.hashed += len(payload)
        payload = frame(uuid, payload)
    disk.put(payload)
    named, shards = disk.put_runs(locators * times, 1, MOST_LOCATORS)
    disk.put_superblock(named)
    return disk.made(status=1, clean=False, shards=shards, hidden=count * times, orphans=1, live=disk.pointers[1])


# A frame with a payload of this length begins with each repetition: its length is the last two bytes and the first two of the next one.
EACH_FIFTH, FIFTH_LENGTH = MAGIC + b"." + be(2, 4), 312_670
# Frames of 16 KiB, each 4 KiB behind the one before it.
QUARTER = 4 * KIB
FOUR_LENGTH = 4 * QUARTER - ROUND_PAYLOAD
FOUR_OVER = head(ALL_HEADS, FOUR_LENGTH) + b"x" * (QUARTER - ROUND_PAYLOAD) + ALL_HEADS


def searched(file, page, pages, text, length, hashed):
    """An extent that has these bytes again and again, past its pointer. A run in the next extent names a payload of this length, which
    isn't there. So many bytes of payloads with that length are in frames that have to be hashed."""
    disk = DiskFile(file, page, pages, 3)
    disk.next_extent()
    disk.file.write((text * (disk.extent_bytes // len(text) + 1))[:disk.extent_bytes])
    named, _ = disk.put_runs([LOCATOR.pack(1, 0, length, NO_HEAD, bytes(DIGEST))], 1, 1)
    disk.put_superblock(named)
    disk.hashed += hashed
    return disk.made() | {"right": {"status": 1, "none": 1}}


def places():
    """Yields the ascending offsets where a record may begin, each with the least page size whose extents reach past it."""
    page = 64
    for offset in range(0, FIRST, 64):
        while offset + RECORD_HEAD + MOST_RUN_BYTES + DIGEST > page * MOST_PAGES and page < KIB:
            page *= 2
        if offset % page == 0:
            yield offset, page


def forged_records(file):
    """Writes the longest record with right fields wherever one may begin. Returns how many bytes have to be hashed for them."""
    found = list(places())
    hashed = 0
    for (offset, page), (after, _) in zip(found, [*found[1:], (FIRST, None)]):
        words = (after - offset - RECORD_HEAD) // 4
        least = after + MOST_RUN_BYTES + DIGEST
        pages = -(-least // page)
        if pages > MOST_PAGES:
            continue
        # Half of the words are pointers and half are retired extents. Only pointers would need too many extents.
        extents = min((words + 1) // 2, (1 << 32) // (page * pages) - 1) + 1
        retired = min(words - (extents - 1), extents - 1)
        file.seek(offset)
        file.write(record_head(page, pages, extents, 32, retired=retired) + bytes(4 * (extents - 1)) + fields(range(1, retired + 1)))
        hashed += RECORD_HEAD + 4 * (extents - 1 + retired) + MOST_RUN_BYTES
    return hashed


def forged_pointers(file):
    """Writes a head with as many extents as possible wherever a record may begin. Returns how many bytes have to be hashed."""
    found = list(places())
    hashed = 0
    for (offset, page), (after, _) in zip(found, [*found[1:], (FIRST, None)]):
        extents = 1 << 15
        while extents > 2:
            least = offset + RECORD_HEAD + 4 * (extents - 1) + DIGEST
            pages = -(-least // page)
            if pages <= MOST_PAGES and page * pages * extents <= 1 << 32:
                break
            extents //= 2
        file.seek(offset)
        file.write(record_head(page, pages, extents, 0, retired=0))
        if least - DIGEST <= after and least <= FIRST:
            hashed += least - DIGEST - offset
    return hashed


def one_record(file):
    text = record(KIB, MOST_PAGES, 2, [0], [], retired=[])
    file.write(text)
    return len(text) - DIGEST


class HostileDisk(NamedTuple):
    """Makes a disk: the function that does, and what it is given."""
    kind: Callable
    given: tuple

    def __call__(self, file, _):
        return self.kind(file, *self.given)


class FileForSizes(NamedTuple):
    """Makes a file for `sizes`: the function that writes its records, and the right status and output."""
    write: Callable
    status: int
    text: str

    def __call__(self, file, _):
        file.truncate(FIRST)
        hashed = self.write(file)
        file.truncate(FIRST)
        return {"sizes": [], "unreadable": [], "hashed": hashed, "bytes": FIRST, "right": {"status": self.status, "text": self.text}}


# For each page size and number of pages, the disks that are compared with a clean extent of that size.
SIZES = (
    (KIB, PAGES, {
        "no far end": (plain_heads, NO_HEAD, []),
        "one far end": (plain_heads, ALL_HEADS, []),
        "a page before it lost": (plain_heads, ALL_HEADS, [PAGES - 2]),
        "two pages lost": (plain_heads, ALL_HEADS, [PAGES // 2, PAGES - 2]),
    }),
    (4 * KIB, 512, {"sealed heads in 2 MiB": (sealed_heads,)}),
    (4 * KIB, 1024, {"sealed heads in 4 MiB": (sealed_heads,)}),
    (4 * KIB, 2048, {
        "one place, named 6,400 times": (hidden_places, 1, 6400),
        "200 places, each named 32 times": (hidden_places, 200, 32),
    }),
)
# Groups of disks by name, each with the clean one first.
GROUPS = [{f"clean, {page * pages // MIB} MiB": HostileDisk(clean, (page, pages)),
           **{name: HostileDisk(kind, (page, pages, *given)) for name, (kind, *given) in disks.items()}}
          for page, pages, disks in SIZES]
# The same for `manifest`.
SEARCHED = {name: HostileDisk(searched, (KIB, PAGES, *given)) for name, given in {
    "no frame": (b"x", FOUR_LENGTH, 0),
    "a frame at each 5th byte": (EACH_FIFTH, FIFTH_LENGTH, 0),
    "four over each other": (FOUR_OVER, FOUR_LENGTH, (KIB * PAGES // QUARTER - 3) * FOUR_LENGTH),
}.items()}
FILES = {
    "one record": FileForSizes(one_record, 0, "0 SSB2 1 1024 65536 2\n"),
    "forged records": FileForSizes(forged_records, 1, ""),
    "forged pointers": FileForSizes(forged_pointers, 1, ""),
}
