"""Makes disks to measure: large ones, also with a lost payload, many small chunks, damage, zeros, and two extents for `items`. MIB is the
size of a disk. Then disks of several shapes, each with 1, 2, 4 and 8 times the items, whose size follows from that."""
import os

from lib.disks import HEAD, KIB, MIB, ROUND_PAYLOAD, Disk, DiskFile, frame, head, locator, run, shard, uuid

LEAST_LARGE, MOST_LARGE = 64 * KIB, MIB
SMALL_PAYLOAD = 100
MOST_RUNS = 32
ENTRY = 17 + 60  # bytes that a shard of one chunk takes in a run
# The bytes per page, pages per extent and extents of the disks for `items`, and the bytes of a frame there.
ITEMS_DISK, FRAME = (4096, 16384, 2), 65536


def named(file, mib, extent_mib, runs, least, most, shard=8, half_sealed=False):
    """A clean disk full of chunks. Each chunk is named once."""
    disk = DiskFile(file, 4 * KIB, extent_mib * MIB // (4 * KIB), mib // extent_mib)
    locators = disk.fill(disk.extents - 1 - runs, least, most, half_sealed)
    listed, shards = disk.put_runs(locators, runs, shard)
    disk.put_superblock(listed)
    return disk.made(shards=shards)


def large(file, mib, extent_mib=4, runs=4):
    return named(file, mib, extent_mib, runs, LEAST_LARGE, MOST_LARGE)


def no_payload_lost(file, mib):
    return large(file, mib) | {"right": {"status": 0, "none": 0}}


def one_payload_lost(file, mib):
    """The same, but a bit of the first chunk is flipped."""
    made, place = large(file, mib), 4 * MIB + HEAD
    file.seek(place)
    byte = file.read(1)[0]
    file.seek(place)
    file.write(bytes([byte ^ 1]))
    return made | {"right": {"status": 1, "none": 1}}


def half_sealed(file, mib):
    return named(file, mib, 4, 4, LEAST_LARGE, MOST_LARGE, half_sealed=True)


def middle(file, mib):
    return named(file, mib, 4, mib // 64, 500, 4000)


def small(file, mib):
    extents = mib // 8
    each = 8 * MIB // (SMALL_PAYLOAD + ROUND_PAYLOAD) * ENTRY
    runs = next(runs for runs in range(1, extents) if (extents - 1 - runs) * each <= runs * (8 * MIB - KIB))
    assert runs <= MOST_RUNS
    return named(file, mib, 8, runs, SMALL_PAYLOAD, SMALL_PAYLOAD, shard=1)


def small_quarter(file, mib):
    return small(file, mib // 4)


def small_extents(file, _):
    disk = DiskFile(file, 64, 4, 1 << 16)
    disk.fill(disk.extents - 1, 3, 30)
    return disk.made(status=1, clean=False, orphans=disk.chunks, live=0)


def damage(file, mib):
    disk = DiskFile(file, 64 * KIB, 64, mib // 4)
    unreadable = [divmod(page, disk.pages) for page in range(49, disk.pages * disk.extents, 50)]
    whole, hashed = 0, 0
    for extent in range(1, disk.extents):
        disk.next_extent()
        while pages := (disk.extent_bytes - disk.offset) // disk.page:
            size = min(pages, disk.chance.randint(1, MOST_LARGE // disk.page)) * disk.page
            begun = disk.offset
            disk.put(disk.chance.randbytes(size - ROUND_PAYLOAD))
            spoilt = disk.chunks % 10 == 0
            if spoilt:
                disk.file.seek(extent * disk.extent_bytes + disk.offset - 1)
                last = disk.file.read(1)[0]
                disk.file.seek(-1, os.SEEK_CUR)
                disk.file.write(bytes([last ^ 1]))
            touched = any(e == extent and begun <= page * disk.page < disk.offset for e, page in unreadable)
            if not (spoilt or touched):
                whole += 1
                hashed += size - ROUND_PAYLOAD
    disk.hashed = hashed
    lost = sum(extent > 0 for extent, _ in unreadable)
    made = disk.made(unreadable, status=1, clean=False, chunk=whole, orphans=whole, live=0, lost=lost)
    # The items after the first page of a broken chunk depend on its random bytes.
    del made["right"]["torn"], made["right"]["noise"]
    return made


def zeros(file, mib):
    disk = DiskFile(file, 4 * KIB, KIB, mib // 4)
    return disk.made(status=1, clean=False, pad=disk.pages * (disk.extents - 1))


def unwritten(file, mib):
    disk = DiskFile(file, 4 * KIB, KIB, mib // 4)
    disk.put_superblock([])
    return disk.made(pad=0)


def long_extents(file, mib):
    return large(file, mib, extent_mib=64, runs=1)


def one_page(file, mib):
    disk = DiskFile(file, 64 * KIB, 1, mib * 16)
    disk.fill(disk.extents - 1, 50_000, 64_000)
    disk.put_superblock([])
    return disk.made(live=0, orphans=disk.chunks, candidates=disk.extents - 1)


def one_full(file, mib):
    disk = DiskFile(file, 4 * KIB, KIB, mib // 4)
    disk.fill(1, SMALL_PAYLOAD, SMALL_PAYLOAD)
    disk.put_superblock([])
    return disk.made(live=0, orphans=disk.chunks, candidates=1)


def frames_end_to_end(file, _):
    """An extent full of frames of 65,536 bytes."""
    disk = DiskFile(file, *ITEMS_DISK)
    disk.next_extent()
    for _ in range(disk.extent_bytes // FRAME):
        disk.put(disk.chance.randbytes(FRAME - ROUND_PAYLOAD))
    return disk.made() | {"right": {"status": 0, "chunk": disk.chunks, "items": disk.chunks}}


def heads_without_frames(file, _):
    """Each page of an extent begins with a head that claims a frame up to the write pointer.

    The extent's last 16 bytes are the UUID of no head, so there is no frame, and every page is torn. A scanner that read or
    hashed what each head claims would read the extent 8,192 times. The filler isn't zero, so no part of a page looks like
    padding, and it has no magic.
    """
    disk = DiskFile(file, *ITEMS_DISK)
    disk.next_extent()
    for page in range(disk.pages):
        begun = head(page.to_bytes(16, "big"), disk.extent_bytes - page * disk.page - ROUND_PAYLOAD)
        end = b"\xff" * 16 if page == disk.pages - 1 else b""
        file.write(begun + b"x" * (disk.page - len(begun) - len(end)) + end)
    return disk.made() | {"right": {"status": 1, "torn": disk.pages, "items": disk.pages}}


# Growth

TIMES = (1, 2, 4, 8)
LOCATORS, PAGE = 61, 4096


def put(file, *texts, runs=(), **right):
    """A disk whose extents from 1 on begin with these bytes, as large as the longest one needs. What is hashed isn't counted."""
    disk = Disk(-(-max(map(len, texts)) // PAGE), len(texts) + 1, PAGE)
    for extent, text in enumerate(texts, 1):
        disk.put(extent, 0, text)
        disk.pointers[extent - 1] = len(text)
    disk.superblock(0, 1, *runs)
    file.write(disk.bytes)
    return {"sizes": disk.geometry(), "bytes": len(disk.bytes), "unreadable": [], "hashed": 0, "right": right}


def run_frame(extent, number, entries):
    """The first bytes of an extent with only a run, and the run's locator."""
    name, payload = uuid(0x70 + number), run(*entries)
    return frame(name, payload), locator(extent, 0, name, payload)


def two_runs(file, _, times):
    """Two runs with many locators a shard. Half of the shards are in both."""
    shards = 600 * times
    named = [locator(1, 0, uuid(0x11), b"abc")] * LOCATORS
    entries = [[(shard(number), named) for number in range(first, first + shards)] for first in (0, shards // 2)]
    (first, first_at), (second, second_at) = run_frame(2, 0, entries[1]), run_frame(3, 1, entries[0])
    return put(file, frame(uuid(0x11), b"abc"), first, second, runs=[first_at, second_at], status=1, shards=shards + shards // 2, chunk=3)


def side_by_side(file, _, times, is_hidden=False):
    """Chunks side by side, each named by a shard; or in the payload of another chunk, so that each place is looked at."""
    count = 40_000 * times
    names = [shard(number) for number in range(count)]
    parts = [frame(one, b"abc") for one in names]
    entries = [(one, [locator(1, place * len(part) + 22 * is_hidden, one, b"abc")])
               for place, (one, part) in enumerate(zip(names, parts))]
    text = b"".join(parts)
    index_run, at = run_frame(2, 0, entries)
    return put(file, frame(uuid(0x22), text) if is_hidden else text, index_run, runs=[at], status=int(is_hidden), shards=count,
               hidden=count * is_hidden, chunk=2 if is_hidden else count + 1)


def hidden(file, _, times):
    return side_by_side(file, _, times, True)


def orphans(file, _, times):
    """An extent of short chunks without an owner."""
    count = 100_000 * times
    return put(file, b"".join(frame(shard(number), b"abc") for number in range(count)), status=0, chunk=count, orphans=count)


def extents(file, _, times, count=8_192, each=6):
    """Extents of 5 pages of 64 bytes, each with so many chunks without an owner; up to 8 fit in."""
    disk = DiskFile(file, 64, 5, count * times)
    for _ in range(disk.extents - 1):
        disk.next_extent()
        for _ in range(each):
            disk.put(b"")
    return disk.made(status=1, clean=False, orphans=disk.chunks, live=0)


def full_extents(file, _, times):
    """As many such extents as there can be, with more and more chunks."""
    return extents(file, _, 1, 65_536, times)


SHAPES = {make.__name__.replace("_", " "): make for make in (two_runs, side_by_side, hidden, orphans, extents, full_extents)}
