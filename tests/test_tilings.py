"""What is in an extent: the items below its write pointer, its tail and its unreadable pages. Under each pointer they are compared with the
slow reference; some, and the tails, with lines written by hand from docs/FORMAT.md and docs/REPORT.md. Other disks are in the corpus.
"""
import json

from lib.corpus.extents import TILED, TWO_FRAMES, below, disk_of, extent_of, frames_of_a_page, heads, sealed_heads
from lib.disks import DIGEST, frame, head, record_head, sealed_frame
from lib.worked import ENDS_IN_MAGIC, ONES, TWOS, many_shards
from test_corpus import CorpusCase
from test_system import answer

ABC, SEALED_ABC, EMPTY = frame(ONES, b"abc"), sealed_frame(ONES, b"abc"), frame(ONES, b"")
ABC_LINE = "chunk 0 41 11111111-1111-1111-1111-111111111111 3"
# The bytes of a record without pointers and runs.
RECORD = len(record_head(64, 4, 3, 0)) + DIGEST
# One worker scans all extents, and keeps its memory from one to the next.
SCAN = ["scan", "--workers", "0"]

# The parts of extents of four pages.
PARTS = [
    [],
    [(0, ABC)],
    TWO_FRAMES,
    [(0, EMPTY)],
    # Frames over two and over three pages, and between them the collision.
    [(0, frame(ONES, b"x" * 60))],
    [(0, frame(ENDS_IN_MAGIC, b"x" * 28)), (64, ABC)],
    [(0, frame(TWOS, b"x" * 117))],
    # Gaps between frames.
    [(0, ABC), (44, frame(TWOS, b"")), (128, ABC)],
    [(0, SEALED_ABC)],
    # Frames of both forms end to end, and the same with a wrong seal.
    [(0, SEALED_ABC), (75, frame(TWOS, b"abc"))],
    [(0, SEALED_ABC), (75, frame(TWOS, b"abc")), (56, b"d")],
    # The closing mark prevents the collision.
    [(0, sealed_frame(ENDS_IN_MAGIC, b"x" * 58)), (128, ABC)],
]
# Extents of eight pages: heads whose far end doesn't agree with them, heads whose far end does, and heads of sealed frames.
OF_HEADS = [heads(), heads((496, ONES)), sealed_heads()]


def extents_of(made):
    """The bytes of each extent of a disk."""
    disk = made[0] if isinstance(made, tuple) else made
    size = disk.page * disk.pages
    return [(disk.page, bytes(disk.bytes[extent * size:(extent + 1) * size])) for extent in range(disk.extents)]


class Tilings(CorpusCase):
    def contents(self):
        """The page size and the bytes of each extent, each pair once."""
        found = [(64, extent_of(*parts)) for parts in PARTS] + [(64, text) for text in OF_HEADS]
        return list(dict.fromkeys([*found, *(one for make in TILED.values() for one in extents_of(make()))]))

    def under_each_pointer(self, page, text, *lists):
        """Scans disks whose extents all have these bytes. Each extent has another pointer, from 0 on to the end. Each list has the
        unreadable pages of all extents."""
        most = (len(text) - RECORD) // 4
        for first in range(0, len(text) + 1, most):
            pointers = range(first, min(first + most, len(text) + 1))
            extents = range(1, len(pointers) + 1)
            _, image, *_ = self.put(disk_of([text] * len(pointers), pointers, page))
            for bad in lists:
                self.compare([*SCAN, *image, *(f"{extent}:{number}" for extent in extents for number in bad)])

    def test_each_pointer_with_each_page_unreadable(self):
        for page, text in self.contents():
            self.under_each_pointer(page, text, [], *([number] for number in range(len(text) // page)))

    def test_each_pointer_among_wrong_seals(self):
        for changed in ([], [4], [3, 6]):
            self.under_each_pointer(128, extent_of(*frames_of_a_page(8, changed), pages=8, page=128), [])

    def test_a_disk_of_forty_extents(self):
        """What is found in an extent depends on its own pages and pointer alone, so each can have an unreadable page in one scan. The
        superblock is on pages 0 to 4."""
        _, image, *_ = self.put(many_shards())
        for bad in ([], *([f"0:{page}"] for page in range(5)), *([f"{extent}:{page}" for extent in range(page < 5, 40)] for page in range(64))):
            self.compare([*SCAN, *image, *bad])

    def test_items_under_a_pointer(self):
        """Some pointers, on the whole disk and with each page unreadable in turns."""
        for page, text in self.contents():
            _, image, *_ = self.put(disk_of([text], page=page))
            for turn, pointer in enumerate(range(0, len(text) + 1, 23)):
                number = turn % (len(text) // page + 1)
                self.compare(["items", "--extent", "1", "--pointer", str(pointer), *image, *[f"1:{number - 1}"] * (number > 0)])


# The parts of an extent, its unreadable pages, its pointer, and the lines of its items.
SEALED = [
    ([(0, SEALED_ABC)], [], 75, ["sealed 0 75 11111111-1111-1111-1111-111111111111 3"]),
    ([(0, SEALED_ABC)], [], 74, ["torn 0 64", "noise 64 74"]),
    # Its payload is changed.
    ([(0, SEALED_ABC), (56, b"d")], [], 75, ["torn 0 64", "noise 64 75"]),
    ([(0, SEALED_ABC)], [1], 75, ["torn 0 64", "lost 64 75"]),
    # Frames of both forms end to end.
    ([(0, ABC), (41, sealed_frame(TWOS, b"abc"))], [], 116, [ABC_LINE, "sealed 41 116 22222222-2222-2222-2222-222222222222 3"]),
    # The closing mark prevents the collision.
    ([(0, sealed_frame(ENDS_IN_MAGIC, b"x" * 58)), (128, ABC)], [], 169, [
        "torn 0 64", "noise 64 128", "chunk 128 169 11111111-1111-1111-1111-111111111111 3"]),
]
PADS = ["pad 64 128", "pad 128 192", "pad 192 256"]
# The length that a head of the zero UUID claims at the start of an extent of zeros, and the lines of the whole extent.
CLAIMS = [
    (218, ["chunk 0 256 00000000-0000-0000-0000-000000000000 218"]),
    (219, ["torn 0 64", *PADS]),
    (0, ["chunk 0 38 00000000-0000-0000-0000-000000000000 0", "pad 38 64", *PADS]),
]


class Items(CorpusCase):
    """The lines of an extent, by hand."""

    def listed(self, text, pointer, lines, bad=()):
        """Checks the lines of extent 1 of a disk without a superblock."""
        words = ["--extent", "1", "--pointer", str(pointer), *self.put(disk_of([text]))[1], *(f"1:{page}" for page in bad)]
        is_good = not any(line.startswith(("torn ", "noise ", "lost ")) for line in lines)
        self.same(f"the items under {pointer} without {bad}", answer("items", *words),
                  (0 if is_good else 1, "".join(f"{line}\n" for line in lines).encode(), b""))

    def test_sealed_frames_are_whole_or_torn(self):
        for parts, bad, pointer, lines in SEALED:
            self.listed(extent_of(*parts), pointer, lines, bad)

    def test_an_item_of_each_kind_has_its_line(self):
        """Page 1 up to byte 98: zeros, a frame that is cut off, a byte that begins no frame, and bytes that can't be read."""
        self.listed(extent_of((0, ABC)), 41, [ABC_LINE])
        for part, bad, line in ((b"", [], "pad 64 98"), (ABC, [], "torn 64 98"), (b"x", [], "noise 64 98"), (ABC, [1], "lost 64 98")):
            self.listed(extent_of((64, part)), 98, ["pad 0 64", line], bad)

    def test_each_of_eight_heads_that_claim_the_rest_of_an_extent_is_torn(self):
        lines = ["torn 0 64", "torn 64 128", "torn 128 192", "torn 192 256", "torn 256 320", "torn 320 384", "torn 384 448", "torn 448 512"]
        self.listed(heads(), 512, lines)

    def test_a_head_of_the_zero_uuid_claims_a_chunk_up_to_the_last_byte(self):
        for length, lines in CLAIMS:
            self.listed(extent_of((0, head(bytes(16), length))), 256, lines)


class Findings(CorpusCase):
    def found(self, parts, pointer, bad, items, tail=0, first=None):
        """Checks what a scan of extent 1 finds with these unreadable pages, and that one of extent 2 finds nothing."""
        _, image, *_ = self.put(below(pointer, *parts))
        _, out, _ = answer(*SCAN, *image, *(f"1:{page}" for page in bad))
        rows = [[row[key] for key in ("extent", "pointer", "items", "tail", "tail_at", "bad")] for row in json.loads(out)["extents"]]
        right = [[1, pointer, items, tail, first, bad], [2, 0, [], 0, None, []]]
        self.same(f"the findings under {pointer} without {bad}", rows, right)

    def test_the_bytes_of_abc_past_the_pointer_are_the_tail(self):
        for pointer, items, tail, first in ((41, [ABC_LINE], 0, None), (40, ["torn 0 40"], 1, 40), (1, ["noise 0 1"], 37, 1),
                                            (0, [], 38, 0)):
            self.found([(0, ABC)], pointer, [], items, tail, first)

    def test_a_tail_begins_after_an_unreadable_page(self):
        """Three bytes of pages 2 and 3 aren't zero."""
        parts = [(0, ABC), (64, b"\7" * 64), (130, b"\7\0\11"), (255, b"\7")]
        self.found(parts, 41, [1], [ABC_LINE], 3, 130)

    def test_a_sealed_frame_one_byte_too_long_leaves_that_byte_as_a_tail(self):
        self.found([(0, SEALED_ABC)], 74, [], ["torn 0 64", "noise 64 74"], 1, 74)

    def test_unreadable_pages_on_both_sides_of_the_pointer(self):
        parts = [(0, frame(ONES, b"x" * 60))]
        for bad, pointer, end in (([1], 98, 98), ([1, 3], 98, 98), ([1, 2], 128, 128)):
            self.found(parts, pointer, bad, ["torn 0 64", f"lost 64 {end}"])
