"""Writes locators, frames, index runs, superblocks and disks, as docs/FORMAT.md lays them out.

It knows only the layout of bytes. reference/shardscrub.py judges them, and the two share no code.
"""
import os
import random
import struct
from hashlib import sha256

KIB, MIB = 1 << 10, 1 << 20
MAGIC = b"\xc5\x5e"
SEALED_MAGIC = b"\xc5\x5f"
CLOSING_MARK = b"\x3a\xa3"
DIGEST = 32
# The bytes of a frame before and after its payload.
HEAD, FOOT = 22, 16
ROUND_PAYLOAD = HEAD + FOOT
ROUND_SEALED = ROUND_PAYLOAD + DIGEST + len(CLOSING_MARK)
# The extent, the offset, the payload's length, its UUID and its digest.
LOCATOR = struct.Struct(">III16s32s")


def be(size, number):
    return number.to_bytes(size, "big")


def uuid(byte):
    """The UUID that has this byte sixteen times."""
    return be(1, byte) * 16


def shard(number):
    """The identifier with this number."""
    return be(16, number)


def digest(text):
    return sha256(text).digest()


def with_digest(body):
    """The body, followed by its digest, as in records and runs."""
    return body + digest(body)


# Frames and locators

def head(name, length, magic=MAGIC):
    return magic + name + be(4, length)


def frame(name, payload):
    return head(name, len(payload)) + payload + name


def sealed_frame(name, payload):
    return head(name, len(payload), SEALED_MAGIC) + digest(payload) + payload + name + CLOSING_MARK


def locator(extent, offset, name, payload):
    return LOCATOR.pack(extent, offset, len(payload), name, digest(payload))


# Runs and superblocks

def run(*entries):
    """The payload of an index run. The entries are pairs of an identifier and a list of locators, by ascending identifier."""
    text = (identifier + be(1, len(locators)) + b"".join(locators) for identifier, locators in entries)
    return with_digest(b"RUN1" + be(4, len(entries)) + b"".join(text))


def record_head(page, pages, extents, runs, generation=1, retired=None):
    """The first bytes of a record with these numbers of runs and, if it is of the second kind, of retired extents."""
    kind, count = (b"SSB1", b"") if retired is None else (b"SSB2", be(2, retired))
    return kind + struct.pack(">QIIIH", generation, page, pages, extents, runs) + count


def fields(numbers):
    return struct.pack(f">{len(numbers)}I", *numbers)


def record(page, pages, extents, pointers, runs, generation=1, retired=None):
    """A record with these write pointers and locators of runs, newest first. With a list of retired extents, even an empty one,
    it is of the second kind."""
    listed = fields(pointers) + fields(retired or []) + b"".join(runs)
    count = None if retired is None else len(retired)
    return with_digest(record_head(page, pages, extents, len(runs), generation, count) + listed)


def geometry(page, pages, extents):
    """The options with the sizes of a disk."""
    return ["--page", str(page), "--pages", str(pages), "--extents", str(extents)]


# Disks

class Disk:
    """The bytes of a disk, all zero at first."""

    def __init__(self, pages, extents, page=64):
        self.page, self.pages, self.extents = page, pages, extents
        self.bytes = bytearray(page * pages * extents)
        self.pointers = [0] * (extents - 1)

    def geometry(self):
        return geometry(self.page, self.pages, self.extents)

    def put(self, extent, offset, text):
        place = extent * self.page * self.pages + offset
        assert offset + len(text) <= self.page * self.pages
        self.bytes[place:place + len(text)] = text

    def chunk(self, extent, offset, name, payload, form=frame):
        """Writes a chunk, moves the write pointer to its end, and returns its locator."""
        text = form(name, payload)
        self.put(extent, offset, text)
        self.pointers[extent - 1] = max(self.pointers[extent - 1], offset + len(text))
        return locator(extent, offset, name, payload)

    def superblock(self, page, generation, *runs, retired=None):
        """Writes a record with the current write pointers and the locators of the runs, newest first."""
        text = record(self.page, self.pages, self.extents, self.pointers, runs, generation, retired)
        self.put(0, page * self.page, text)

    def spoil(self, extent, offset):
        """Changes a bit of this byte."""
        self.bytes[extent * self.page * self.pages + offset] ^= 1

    def reset(self, extent):
        """Moves the write pointer of the extent to 0. The bytes stay."""
        self.pointers[extent - 1] = 0


class DiskFile:
    """A disk that is written to a file: frame after frame from extent 1 on, and extent 0 last. UUIDs and payloads are random,
    and the same each time."""

    def __init__(self, file, page, pages, extents):
        self.file, self.page, self.pages, self.extents = file, page, pages, extents
        self.extent_bytes = page * pages
        self.chance = random.Random(1)
        self.pointers = []
        self.offset = self.extent_bytes
        self.chunks = self.sealed_chunks = self.hashed = 0

    def next_extent(self):
        self.pointers.append(0)
        self.offset = 0
        self.file.seek(len(self.pointers) * self.extent_bytes)

    def room(self):
        """The longest payload that still fits into the extent, in a frame of either form; below 0 if none fits."""
        return self.extent_bytes - self.offset - ROUND_SEALED

    def put(self, payload, sealed=False):
        """Writes the payload in a frame with a new UUID after the last frame, and returns its locator."""
        name = self.chance.randbytes(16)
        text = sealed_frame(name, payload) if sealed else frame(name, payload)
        self.file.write(text)
        named = locator(len(self.pointers), self.offset, name, payload)
        self.offset += len(text)
        self.pointers[-1] = self.offset
        self.chunks += 1
        self.sealed_chunks += sealed
        self.hashed += len(payload)
        return named

    def fill(self, count, least, most, half_sealed=False):
        """Fills the next extents with payloads of `least` to `most` bytes, and returns the locators of all chunks."""
        locators = []
        for _ in range(count):
            self.next_extent()
            while self.room() >= least:
                size = min(self.room(), self.chance.randint(least, most))
                locators.append(self.put(self.chance.randbytes(size), half_sealed and self.chunks % 2 == 1))
        return locators

    def put_runs(self, locators, runs, most):
        """Names the chunks, in shards of up to `most` chunks from anywhere on the disk, with random identifiers.

        Writes `runs` runs of similar size, each into its own extent. Returns their locators and the number of shards.
        """
        self.chance.shuffle(locators)
        shards = []
        while locators:
            size = min(len(locators), self.chance.randint(1, most))
            shards.append((self.chance.randbytes(16), locators[-size:]))
            del locators[-size:]
        named = []
        for first in range(runs):
            payload = run(*sorted(shards[first::runs]))
            self.hashed += len(payload) - DIGEST
            self.next_extent()
            named.append(self.put(payload))
        return named, len(shards)

    def put_superblock(self, runs):
        """Writes a superblock of generation 1 on page 0. Extents without a chunk have the pointer 0."""
        pointers = self.pointers + [0] * (self.extents - 1 - len(self.pointers))
        text = record(self.page, self.pages, self.extents, pointers, runs)
        self.hashed += len(text) - DIGEST
        self.file.seek(0)
        self.file.write(text)

    def made(self, unreadable=(), **right):
        """What is known about the finished image: its arguments, how many bytes have to be hashed, and the right answer.

        The answer is that of a clean disk with all chunks named, except for the given counts.
        """
        self.file.truncate(self.extents * self.extent_bytes)
        lists = dict.fromkeys("broken candidates dangling doubtful hidden orphans shared twins".split(), 0)
        chunks = {"chunk": self.chunks - self.sealed_chunks, "sealed": self.sealed_chunks, "torn": 0, "noise": 0, "lost": 0}
        whole = {"status": 0, "clean": True, "shards": 0, "live": sum(self.pointers)}
        return {"sizes": geometry(self.page, self.pages, self.extents),
                "unreadable": [f"{extent}:{page}" for extent, page in unreadable], "hashed": self.hashed,
                "bytes": self.extents * self.extent_bytes, "right": lists | chunks | whole | right}


def make_image(path, kind, *given):
    """Makes a disk of this kind in the file, and returns what is known about it."""
    with open(path, "w+b") as file:
        made = kind(file, *given)
        file.flush()
        os.fsync(file.fileno())
    assert os.path.getsize(path) == made["bytes"]
    return made
