"""Images some of whose bytes can't be read. A page is lost just if a read of it alone fails: each answer has to be, byte for byte,
the one on the same image with these pages named in the arguments, and that of reference/shardscrub.py.

An image of 4 MiB or more is read by a thread for each processor, 256 KiB at once if it is large enough. If such a read fails, its
pages are read again one by one. A page of 65,536 bytes may take several reads, each of which may fail.
"""
import os
import random
from pathlib import Path

from lib import disks
from lib.cases import RoomCase, add_tests
from lib.disks import DIGEST, HEAD, KIB, MIB, ROUND_SEALED, Disk, locator, sealed_frame, shard, uuid
from lib.system import FAILING_READS, run_failing
from reference.shardscrub import answered

BLOCK = 256 * KIB
# With more processors than these no more threads load.
MOST_READERS = 64


def filled(page, pages, extents, superblocks):
    """A disk with chunks of all sizes, named by the shards of a run, and with superblocks on these pages. Its last three extents
    are empty. Without a superblock each page of the other extents counts in the report."""
    c, disk, entries = random.Random(1), Disk(pages, extents, page), []
    size, room = page * pages, max(120 * KIB, 6 * page)
    for extent in range(1, extents - 4):
        place = 0
        while size - place > room:
            payload = c.randbytes(c.choice([0, 3, 100, page - 38, page, 5 * page, 70 * KIB]))
            chunk = uuid(0) if c.random() < .1 else c.randbytes(16)
            named = disk.chunk(extent, place, chunk, payload, c.choice([disks.frame, disks.sealed_frame]))
            entries.append((shard(len(entries)), [named]))
            place = -(-disk.pointers[extent - 1] // page) * page if c.random() < .3 else disk.pointers[extent - 1]
    payload = disks.run(*entries)
    disk.chunk(extents - 4, 0, uuid(0x77), payload)
    for generation, at in enumerate(superblocks, 1):
        disk.superblock(at, generation, locator(extents - 4, 0, uuid(0x77), payload))
    return disk


class Image:
    """A disk in a file."""

    def __init__(self, room, page, pages, extents, superblocks):
        disk = filled(page, pages, extents, superblocks)
        self.page, self.pages, self.extents, self.sizes = page, pages, extents, disk.geometry()
        self.path = str(room / f"image-{page}-{pages}-{extents}")
        Path(self.path).write_bytes(disk.bytes)

    def all_pages(self):
        return self.pages * self.extents

    def names(self, pages):
        """The words for pages that are counted from the front of the disk."""
        return [f"{page // self.pages}:{page % self.pages}" for page in sorted(pages)]

    def ranges(self, pages):
        return [(page * self.page, (page + 1) * self.page) for page in sorted(pages)]


def some_in_each_part(image, readers):
    """A page in the part of each reader, the first and the last page of each part, and those beside them."""
    stride = -(-image.all_pages() // readers)
    near = [number * stride + by for number in range(readers + 1) for by in (-2, -1, 0, 1, stride // 3)]
    return {page for page in near if 0 <= page < image.all_pages()}


# Pages by the number of pages in a block: one in a block's middle; several in one block; blocks that follow one another.
FAILURES = {
    "one in the middle of a block": lambda block: {5 * block + block // 2},
    "two in one block": lambda block: {7 * block + 3, 7 * block + block - 9},
    "two neighbours": lambda block: {9 * block + 20, 9 * block + 21},
    "the first and the last of a block": lambda block: {11 * block, 12 * block - 1},
    "the last of a block and the first of the next one": lambda block: {14 * block - 1, 14 * block},
    "a whole block": lambda block: set(range(16 * block, 17 * block)),
    "all but one of a block": lambda block: set(range(18 * block, 19 * block)) - {18 * block + 5},
}


class FailingCase(RoomCase):
    """Tests with the C library whose reads fail."""

    @classmethod
    def setUpClass(cls):
        super().setUpClass()
        cls.library = FAILING_READS.made(cls.room)

    def named(self, image, pages, command):
        """The right answer: that of the reference on the image with these pages named. The program has to give it too, and another
        one if they aren't named."""
        words = [*command, *image.sizes, image.path]
        right = answered([*words, *image.names(pages)])
        self.same(f"{len(pages)} pages named", self.answer(words + image.names(pages), image, [])[0], right)
        self.true("no page named", self.answer(words, image, [])[0] != right)
        return right

    def answer(self, words, image, ranges, touched=False, processors=None, block=None, **limits):
        return run_failing(self.program, words, self.library, image.path, block or image.page, ranges, touched, processors,
                                 **limits)


class Reads(FailingCase):
    @classmethod
    def setUpClass(cls):
        super().setUpClass()
        # Reads of 256 KiB; and one that is read by several threads, but by smaller reads.
        cls.large, cls.small = Image(cls.room, 4096, 256, 24, []), Image(cls.room, 512, 1024, 20, [3, 300])
        every = sorted(os.sched_getaffinity(0))
        cls.processors = [set(every[:1]), set(every)] if len(every) > 1 else [set(every)]

    def check(self, image, pages, ranges=None, command=("scan",)):
        """Compares a run in which reads of these pages fail with one in which they are named."""
        right = self.named(image, pages, command)
        for processors in self.processors:
            for touched in (False, True):
                words = [*command, "--workers", str(len(processors) - 1), *image.sizes, image.path]
                got, counts = self.answer(words, image, ranges or image.ranges(pages), touched, processors)
                what = f"{'touched' if touched else 'begun'} on {len(processors)} processors"
                self.same(what, got, right)
                self.true(f"{what}: each page fails alone", counts and counts.failed_short >= len(pages), counts)
                self.true(f"{what}: the threads", counts and counts.threads == min(len(processors), MOST_READERS), counts)
                self.true(f"{what}: a block fails", counts and (counts.failed_long > 0 or not touched), counts)

    def check_of_large(self, pages_of):
        self.check(self.large, pages_of(BLOCK // self.large.page))

    def test_some_in_each_part(self):
        self.check(self.large, some_in_each_part(self.large, len(self.processors[-1])))

    def test_some_in_each_part_of_a_disk_with_smaller_blocks(self):
        self.check(self.small, some_in_each_part(self.small, len(self.processors[-1])))

    def test_pages_of_zeros(self):
        """They are lost, and not zero."""
        first = (self.large.extents - 2) * self.large.pages
        self.check(self.large, {first + 3, first + 200})

    def test_the_superblocks(self):
        self.check(self.small, {300})
        self.check(self.small, {3, 300}, command=("locators",))

    def check_one_extent(self, command, extent):
        """The answer is right though no byte of the other extents can be read, and none is asked for."""
        image = self.small
        size = image.page * image.pages
        others = [(begin, end) for begin, end in ((0, extent * size), ((extent + 1) * size, image.extents * size)) if begin < end]
        words = [*command, *image.sizes, image.path]
        self.same("the answer", self.answer(words, image, others, touched=True), (answered(words), (0, 0, 1)))

    def test_only_extent_0_for_superblocks(self):
        self.check_one_extent(["superblocks"], 0)

    def test_only_one_extent_for_items(self):
        for extent in (0, 1, self.small.extents - 1):
            self.check_one_extent(["items", "--extent", str(extent)], extent)

    def test_pages_of_one_extent(self):
        """They are lost, in a read of the whole extent and alone."""
        image, command = self.small, ["items", "--extent", "2"]
        pages = {2 * image.pages, 2 * image.pages + 5, 3 * image.pages - 1}
        right = self.named(image, pages, command)
        for touched in (False, True):
            got, counts = self.answer([*command, *image.sizes, image.path], image, image.ranges(pages), touched)
            self.same("the answer", got, right)
            self.true("each page fails alone", counts and counts.failed_short >= len(pages), counts)

    def test_the_last_page(self):
        self.check(self.large, {self.large.all_pages() - 1})

    def test_a_sector_of_a_page(self):
        """A page is lost as a whole."""
        page = 5 * BLOCK // self.large.page + 7
        begin = page * self.large.page + 1024
        self.check(self.large, {page}, [(begin, begin + 512)])

    def test_every_page(self):
        image = self.small
        self.check(image, set(range(image.all_pages())), [(0, image.page * image.all_pages())])

    def test_the_byte_behind_the_last_page(self):
        """If it can't be read, the image is taken as if it weren't there."""
        image, size = self.small, self.small.page * self.small.all_pages()
        right = answered(["scan", *image.sizes, image.path])
        with open(image.path, "ab") as file:
            file.write(b"x")
        self.addCleanup(os.truncate, image.path, size)
        for ranges, wanted in (([(size, size + 1)], right), ([], TOO_LONG)):
            got, _ = self.answer(["scan", *image.sizes, image.path], image, ranges)
            self.same(f"{len(ranges)} bytes can't be read", got, wanted)

    def test_sizes(self):
        """`sizes` reads blocks of 512 bytes. One that can't be read is lost, as by a map."""
        image, size = self.small, 512
        for blocks in ({0}, {3}, {299, 300}):
            text = "0 +\n" + "".join(f"{block * size} {size} {'-' if block in blocks else '+'}\n" for block in range(2 * MIB // size))
            text += f"{2 * MIB} {image.page * image.all_pages() - 2 * MIB} +\n"
            path = self.room / "map"
            path.write_text(text)
            right = answered(["sizes", "--map", str(path), image.path])
            ranges = [(block * size, (block + 1) * size) for block in blocks]
            for touched in (False, True):
                got, _ = self.answer(["sizes", image.path], image, ranges, touched, block=size)
                self.same(f"blocks {sorted(blocks)}", got, right)


# Pages of 65,536 bytes, of which one read asks for four if nothing was read of them yet. From this page on one reader reads four;
# of three the first one ends behind two of them.
LARGE, FOUR, PAGE = 65536, 4, 84
SECTOR = 512
TOO_LONG = (3, b"", b"shardscrub: image too long\n")


def sectors(page, *places, size=SECTOR):
    """Ranges of this size that begin at these places, counted from the front of a page."""
    return [(page * LARGE + place, page * LARGE + place + size) for place in places]


def met(ranges):
    """The pages that have a byte in one of these ranges."""
    return {page for begin, end in ranges for page in range(begin // LARGE, -(-end // LARGE))}


# Ranges that can't be read, by the first page of a read of four.
PARTS_OF_PAGES = {
    "the first sector of a page": lambda page: sectors(page + 1, 0),
    "a sector in the middle of a page": lambda page: sectors(page + 2, 20 * KIB),
    "the last sector of a page": lambda page: sectors(page + 1, LARGE - SECTOR),
    "the last sector of four pages": lambda page: sectors(page + 3, LARGE - SECTOR),
    "one byte of a page": lambda page: sectors(page, 40_001, size=1),
    "several sectors of a page": lambda page: sectors(page + 1, 0, 4096, 33_000, LARGE - SECTOR),
    "a sector over the bound of two pages": lambda page: sectors(page + 2, -100),
    "a sector over the bound of two reads": lambda page: sectors(page + FOUR, -SECTOR // 2),
    "a sector of the first page and one of the third": lambda page: sectors(page, 8192) + sectors(page + 2, 8192),
    "a sector of all but the third page": lambda page: sectors(page, 0) + sectors(page + 1, 50_000) + sectors(page + 3, 4096),
    "a sector of each of four pages": lambda page: [each for number in range(FOUR) for each in sectors(page + number, 512 * number)],
    "a whole page": lambda page: sectors(page + 1, 0, size=LARGE),
}


class LargePages(FailingCase):
    """Pages of 65,536 bytes: exactly those with a failed read of their own are lost, though other reads, of the same page or of
    several, gave bytes."""

    @classmethod
    def setUpClass(cls):
        super().setUpClass()
        cls.image = Image(cls.room, LARGE, 16, 16, [])

    def runs(self, words, ranges):
        """Runs whose reads end at a range or fail as a whole, and give all bytes or 4,096 at most, with one reader and with three."""
        for readers, most, touched in ((1, None, False), (3, None, True), (3, 4096, False), (1, 4096, True)):
            what = f"{readers} readers, {most or 'all'} bytes a read, {'touched' if touched else 'begun'}"
            yield what, *self.answer(words, self.image, ranges, touched, told=readers, most=most)

    def check(self, ranges_of):
        """The answer is the one with just the pages named that have a byte in a range."""
        words = ["scan", *self.image.sizes, self.image.path]
        ranges = ranges_of(PAGE)
        right = self.named(self.image, met(ranges), ["scan"])
        for what, got, counts in self.runs(words, ranges):
            self.same(what, got, right)
            self.true(f"{what}: a read of each page fails", counts and counts.failed_short >= len(met(ranges)), counts)

    def test_pages_of_one_extent(self):
        """Commands that load one extent lose the same pages."""
        first = 2 * self.image.pages
        ranges = sectors(first + 1, 30_000) + sectors(first + 7, -100)
        command = ["items", "--extent", "2"]
        right = self.named(self.image, met(ranges), command)
        for what, got, _ in self.runs([*command, *self.image.sizes, self.image.path], ranges):
            self.same(what, got, right)

    def test_a_failed_read_of_four_pages_costs_none_and_one_of_a_page_costs_it(self):
        """Each of the four is read alone then. If the next read fails too, that costs the first one."""
        words = ["scan", *self.image.sizes, self.image.path]
        for times in range(FOUR + 2):
            lost = range(PAGE, PAGE + max(0, times - 1))
            ranges = [(PAGE * LARGE, (PAGE + FOUR) * LARGE)]
            got, counts = self.answer(words, self.image, ranges, touched=True, told=1, times=times)
            self.same(f"{times} reads fail", got, answered([*words, *self.image.names(lost)]))
            self.same(f"{times} reads fail, by their size", counts and counts[:2], (min(times, 1), max(0, times - 1)))

    def test_a_byte_behind_the_last_page_is_too_long_whatever_is_lost(self):
        """Whether pages are named, can't be read, or both: only if that byte can't be read there is an answer."""
        image, size = self.image, LARGE * self.image.all_pages()
        ranges = sectors(PAGE + 1, 20 * KIB)
        words, lost, last = ["scan", *image.sizes, image.path], image.names(met(ranges)), image.names([image.all_pages() - 1])
        with open(image.path, "ab") as file:
            file.write(b"x")
        self.addCleanup(os.truncate, image.path, size)
        for what, named, failing in (("none named", [], []), ("a page named", lost, []), ("the last page named", last, []),
                                     ("every page named", image.names(range(image.all_pages())), []),
                                     ("a page lost", [], ranges), ("the page named and lost", lost, ranges),
                                     ("a page named, another lost", last, ranges)):
            for how, got, _ in self.runs([*words, *named], failing):
                self.same(f"{what}, {how}", got, TOO_LONG)
        behind = [(size, size + 1)]
        for how, got, _ in self.runs([*words, *last], ranges + behind):
            self.same(f"the byte can't be read, {how}", got, answered([*words[:-1], self.cut(size), *lost, *last]))

    def cut(self, size):
        """The same image without what is behind its last page."""
        path = self.room / "cut"
        path.write_bytes(Path(self.image.path).read_bytes()[:size])
        return str(path)


class Interrupted(FailingCase):
    """A read that a signal interrupts is tried again. Only after eight tries it failed."""

    TRIES = 8

    @classmethod
    def setUpClass(cls):
        super().setUpClass()
        cls.image = Image(cls.room, LARGE, 16, 16, [])

    def test_a_page_is_lost_after_eight_tries(self):
        """A read of four pages is tried first, then each page of them."""
        words, ranges = ["scan", *self.image.sizes, self.image.path], [(PAGE * LARGE, (PAGE + FOUR) * LARGE)]
        for times in (1, 7, 8, 15, 16, 23, 24):
            lost = range(PAGE, PAGE + max(0, times // self.TRIES - 1))
            got, counts = self.answer(words, self.image, ranges, touched=True, told=1, times=times, interrupted=True)
            self.same(f"{times} interruptions", got, answered([*words, *self.image.names(lost)]))
            tries = (min(times, self.TRIES), max(0, times - self.TRIES))
            self.same(f"{times} interruptions, by the size of the read", counts and counts[:2], tries)

    def test_reads_that_are_always_interrupted_end(self):
        """They are as lost as those that fail."""
        ranges = sectors(PAGE + 1, 20 * KIB)
        got, _ = self.answer(["scan", *self.image.sizes, self.image.path], self.image, ranges, touched=True, interrupted=True)
        self.same("always", got, self.named(self.image, met(ranges), ["scan"]))


def numbered(size, _):
    """Bytes of which no two pages side by side are equal."""
    return bytearray((bytes(range(251)) * (size // 251 + 1))[:size])


def with_zeros(size, page, is_zero):
    """Such bytes, but some pages are zero."""
    raw = numbered(size, page)
    for number in filter(is_zero, range(size // page)):
        raw[number * page:(number + 1) * page] = bytes(page)
    return raw


def sparse(size, page):
    """Two of three pages are zero, but some of these have a last byte."""
    raw = with_zeros(size, page, lambda number: number % 3 > 0)
    raw[10 * page - 1::10 * page] = numbered(size, page)[10 * page - 1::10 * page]
    return raw


def part_zero(size, page):
    """One of three pages is zero."""
    return with_zeros(size, page, lambda number: number % 3 == 0)


def all_zero(size, _):
    return bytes(size)


# A named page. Each image has it.
NAMED = "1:2"
READERS = (1, 2, 3, 7, 64)


class Parted(RoomCase):
    """Images that one reader loads, or several, each its own part. Each extent from 1 on is one sealed frame, so that the answer shows
    whether any byte of it is wrong; and the superblock that counts is on the last pages of extent 0."""

    @classmethod
    def setUpClass(cls):
        super().setUpClass()
        cls.library = FAILING_READS.made(cls.room)

    def image(self, page, pages, kind):
        """An image of four extents with bytes of a kind, but for what is around the payloads. The next runs are told its sizes."""
        disk, size = Disk(pages, 4, page), page * pages
        raw, begin = kind(4 * size, page), HEAD + DIGEST
        for extent in (1, 2, 3):
            payload = bytes(raw[extent * size + begin:extent * size + begin + size - ROUND_SEALED])
            disk.chunk(extent, 0, uuid(extent), payload, sealed_frame)
        disk.superblock(0, 1)
        disk.superblock(pages - 2, 2)
        self.page, self.sizes, self.path = page, disk.geometry(), str(self.room / "parted")
        return bytes(disk.bytes)

    def write(self, raw):
        Path(self.path).write_bytes(raw)

    def scan(self, *pages, ranges=(), **limits):
        words = ["scan", *self.sizes, self.path, *pages]
        return run_failing(self.program, words, self.library, self.path, self.page, ranges, True, **limits)

    def right(self, *pages):
        return answered(["scan", *self.sizes, self.path, *pages])

    def check(self, right, readers, most, *pages):
        got, counts = self.scan(*pages, told=readers, most=most)
        self.same(f"{readers} readers, {most or 'any number of'} bytes a read", got, right)
        self.true(f"{readers} readers", counts and counts.threads == readers, counts)

    def check_one_reader(self, kind, lengths):
        """Four extents of 64 pages of 64 bytes have one reader, however many processors there are."""
        raw = self.image(64, 64, kind)
        for length in lengths:
            self.write(raw[:length])
            right = self.right(NAMED)
            for most in (1, 40, 64, 4096, 65536):
                self.check(right, 1, most, NAMED)

    def check_readers(self, kind, lengths, mosts):
        """4 MiB, so that each processor is a reader."""
        raw = self.image(512, 2048, kind)
        for length in lengths:
            self.write(raw[:length])
            right = self.right(NAMED)
            for readers in READERS:
                self.check(right, readers, None, NAMED)
        self.write(raw[:lengths[-1]])
        right = self.right(NAMED)
        for most in mosts:
            for readers in READERS[::2]:
                self.check(right, readers, most, NAMED)

    def test_one_reader(self):
        self.check_one_reader(numbered, (16384, 16383, 10000, 63, 0))

    def test_one_reader_of_pages_of_zeros_between_others(self):
        self.check_one_reader(sparse, (16384, 10000))

    def test_one_reader_of_zeros(self):
        self.check_one_reader(all_zero, (16384,))

    def test_several_readers(self):
        self.check_readers(numbered, (4 * MIB, 4 * MIB - 1, 63, 0, 2_500_000), (500, 512, 4096, 65536))

    def test_several_readers_of_few_bytes_by_single_ones(self):
        """With 64 readers the first two have some of them."""
        self.write(self.image(512, 2048, numbered)[:100_000])
        self.check(self.right(), 64, 1)

    def test_several_readers_of_pages_of_zeros_between_others(self):
        self.check_readers(sparse, (4 * MIB, 2_500_000), (40,))

    def test_several_readers_of_zeros(self):
        self.check_readers(all_zero, (4 * MIB,), (65536,))

    def test_several_blocks_of_a_reader(self):
        """A block has 65,536 pages at most. So one reader has three blocks, of which the last is smaller, and each of two has two."""
        self.write(self.image(64, 35_000, part_zero))
        right = self.right()
        for readers in (1, 2):
            self.check(right, readers, None)

    def test_a_failed_read_of_several_pages_costs_none_and_one_of_a_page_costs_it(self):
        """A read asks for four pages. If it fails once, each of them is read alone; if the next read fails too, that costs a page."""
        self.write(self.image(64, 64, numbered))
        for first, name in ((12, "0:12"), (140, "2:12")):
            for times, lost in ((1, []), (2, [name])):
                got, counts = self.scan(NAMED, ranges=[(first * 64, (first + 4) * 64)], times=times)
                self.same(f"{times} reads of page {name} fail", got, self.right(NAMED, *lost))
                self.same(f"{times} reads of page {name} fail, by their size", counts and counts[:2], (1, times - 1))

    def test_a_byte_behind_the_last_page_is_too_long_for_any_number_of_readers(self):
        self.write(self.image(512, 2048, numbered) + b"x")
        for readers in READERS:
            self.check(TOO_LONG, readers, None)

    def test_reads_that_always_fail_load_no_page(self):
        """Nor does a byte behind the last page count then."""
        raw = self.image(64, 64, numbered)
        self.write(raw)
        right = self.right(*(f"{extent}:{page}" for extent in range(4) for page in range(64)))
        self.write(raw + b"x")
        got, _ = self.scan(ranges=[(0, len(raw) + 1)])
        self.same("no page is loaded", got, right)


add_tests(Reads, Reads.check_of_large, FAILURES.items())
add_tests(LargePages, LargePages.check, PARTS_OF_PAGES.items())
