"""What the rows of the corpus are made with: a disk of several runs, changed locators, entries, and words of further calls."""
from lib.disks import Disk, be, frame, run, sealed_frame, shard, uuid
from lib.worked import ONES, TWOS


FIRST, SECOND, THIRD = b"the first payload", b"the second one", b"and the third, which is longer than the others"
FORMS = frame, sealed_frame
GREATEST = 2 ** 32 - 1
ROWS = {}


def row(make):
    """Adds a row to the corpus. Its name is that of the function, with blanks."""
    ROWS[make.__name__.replace("_", " ")] = make
    return make


class Made(Disk):
    """A disk with its runs in the last extent, the oldest first, and its superblock, of generation 7, on page 0."""

    def __init__(self, pages=16, extents=6):
        super().__init__(pages, extents)
        self.runs = []

    def put_run(self, *entries):
        """Writes a run behind the others, and returns where its chunk begins."""
        begin = self.pointers[-1]
        self.runs.insert(0, self.chunk(self.extents - 1, begin, uuid(0xE0 + len(self.runs)), run(*entries)))
        return begin

    def lose_run(self, *entries):
        """Writes a run, and changes a byte of it."""
        self.rot(self.extents - 1, self.put_run(*entries))

    def finish(self, *entries, retired=None):
        """Writes a run with these entries if there are any, and then the superblock."""
        if entries:
            self.put_run(*entries)
        self.superblock(0, 7, *self.runs, retired=retired)
        return self

    def rot(self, extent, offset):
        """Changes the first byte of the payload of a plain chunk."""
        self.spoil(extent, offset + 22)

    def rotted(self, extent, offset, payload):
        """Writes a chunk that has rotted, and returns its locator."""
        named = self.chunk(extent, offset, uuid(0x11), payload)
        self.rot(extent, offset)
        return named


def in_turn(*entries):
    """An entry for each of these lists of locators. The identifiers rise from 1 on."""
    return [(shard(number), locators) for number, locators in enumerate(entries, 1)]


def altered(named, length=None, name=None, digest=None):
    """The locator with another length, another UUID or another digest."""
    length = named[8:12] if length is None else be(4, length)
    return named[:8] + length + (name or named[12:28]) + (digest or named[28:])


def two_chunks():
    """A disk with two chunks, and their locators."""
    disk = Made()
    return disk, disk.chunk(1, 0, ONES, FIRST), disk.chunk(2, 0, TWOS, SECOND)


def accepting(*lines):
    """The words that accept these lines."""
    return "reclaimable " + " ".join(f"--accept '{line}'" for line in lines)


# Words of `reclaimable` and `summary`: generations for --last, alone and beside lines.
LASTS = [f"{command} --last {last}" for last in (0, 6, 7, 8, 2 ** 64 - 1) for command in ("reclaimable", "summary")]
