"""What single parts of the program find, on small images made by hand: which bytes a map lacks, records of any sizes, which superblock
counts, and which payloads are index runs. What is right was written by hand, from docs/FORMAT.md and docs/REPORT.md; of maps and of records
of any sizes it is what reference/shardscrub.py answers.
"""
import json

from lib.corpus.runs import AT_0, HIGH, LOW, MIDDLE, entry, run_head, runs_on_a_disk
from lib.corpus.superblocks import changed, listing, plain
from lib.disks import be, fields, record, record_head, with_digest
from lib.system import FAILING_READS, run_failing
from reference.shardscrub import answered
from test_answers import NO_SHARDS, SMALL, AnswerCase, abc, disk_with

# The start of a map, before its blocks.
STATE = "0x0 + 1\n"

# A map as ddrescue writes it, of a disk of 1,474,560 bytes whose bytes up to 0x117000 were read.
FLOPPY = """\
# Mapfile. Created by GNU ddrescue version 1.27
# Command line: ddrescue -d -c18 /dev/fd0 fdimage mapfile
# Start time:   2015-07-21 09:37:44
# Current time: 2015-07-21 09:38:19
# Copying non-tried blocks... Pass 1 (forwards)
# current_pos  current_status  current_pass
0x00120000     ?               1
#      pos        size  status
0x00000000  0x00117000  +
0x00117000  0x00000200  -
0x00117200  0x00001000  /
0x00118200  0x00007E00  *
0x00120000  0x00048000  ?
"""

# The blocks of maps: of three pages of 64 bytes, and of three blocks of 512 bytes.
OF_PAGES = [
    "", "0 128 +", "0 127 +", "0 129 +", "1 191 +", "2 188 +", "0 64 +\n128 64 +", "0 63 +\n63 65 +", "0 64 -\n64 64 +",
    "0 64 ?\n64 64 *\n128 64 /", "0 96 +\n96 0 -\n96 96 +", "0 9999 +", "0 9223372036854775807 +", "9223372036854775807 0 +",
    "0x0 0X40 +\n0100 64 +\n0200 0100 +", "0 0xC0 +", "0 0Xbf +", "# a\r\n\r\n\t0\t 64 +\r\n # b\n64 64 - \r\n128 64 +\r",
]
OF_BLOCKS = [
    "", "0 1024 +", "0 1023 +", "0 1025 +", "1 1535 +", "2 1532 +", "0 512 +\n1024 512 +", "0 511 +\n511 513 +",
    "0 1 +\n2 1 +\n512 1023 +", "0 513 +\n515 1 +\n1025 511 +", "0 768 -\n768 768 +", "0 768 +\n768 0 -\n768 768 +", "0 9999 +",
    "9223372036854775807 0 +",
]
# Before and behind the first byte that one of these maps lacks of a block.
ENDS = 0, 1, 2, 512, 513, 514, 1023, 1024, 1025, 1026, 1534, 1535, 1536

# Texts, most of which are no maps.
TEXTS = [
    "", "\n", "# nothing", "# nothing\n", "0\n", "0 X\n", "0 + 1 2\n", "0 + 0x1\n",
    "0 + 9223372036854775808\n", "0 +\r\r\n", "0xg +\n", "0 +\n0 4 F\n", "0 +\n0 4\n", "0 +\n0 4 + 1\n",
    "0 +\n0 4 ++\n", "0 +\n08 4 +\n", "0 +\n0x 4 +\n", "0 +\n+1 4 +\n", "0 +\n-1 4 +\n",
    "0 +\n1 4294967296x +\n", "0 +\n\n# c\n0 8 +\n7 1 +\nnothing\n", "0 +\n9223372036854775808 0 +\n",
    "0 +\n18446744073709551616 0 +\n", "0 +\n9223372036854775807 1 +\n", "0 +\n1 9223372036854775807 +\n",
    "0 +", " 0x7FFFFFFFFFFFFFFF G 009 \r\n\n0 0 -\n0 0 +\n5 1 /",
]


class Beside(AnswerCase):
    """Answers on `disk.img` and `disk.map`, beside the reference."""

    def words(self, line):
        """The words of a line, with the paths of the files."""
        return [str(self.room / word) if word.endswith((".img", ".map")) else word for word in line.split()]

    def compare(self, line):
        words = self.words(line)
        self.same(line, self.answer(words), answered(words))


class Maps(Beside):
    def test_a_map_that_ddrescue_wrote_is_read(self):
        """400 pages of 4,096 bytes. Those from page 279 on weren't rescued whole: pages 79 to 199 of extent 1."""
        self.given(text=FLOPPY.encode())
        with open(self.room / "disk.img", "wb") as file:
            file.truncate(400 * 4096)
        words = "--page 4096 --pages 200 --extents 2 --map disk.map disk.img"
        pads, lost = ([f"{word} {4096 * page} {4096 * page + 4096}\n" for page in range(200)] for word in ("pad", "lost"))
        self.check(f"items --extent 0 {words}", 0, "".join(pads))
        self.check(f"items --extent 1 {words}", 1, "".join(pads[:79] + lost[79:]))

    def test_a_map_lacks_the_pages_that_were_not_rescued_whole(self):
        for blocks in OF_PAGES:
            self.given(bytes(384), (STATE + blocks).encode())
            self.compare("items --extent 0 --page 64 --pages 3 --extents 2 --map disk.map disk.img")

    def test_a_block_is_lost_if_the_image_has_the_first_byte_that_the_map_lacks(self):
        for blocks in OF_BLOCKS:
            for end in ENDS:
                self.given(bytes(end), (STATE + blocks).encode())
                self.compare("sizes --map disk.map disk.img")

    def test_a_text_that_is_not_a_map_is_refused_at_its_line(self):
        for text in TEXTS:
            self.given(text=text.encode())
            self.compare("sizes --map disk.map missing.img")


# The parts of records before their digests. Pages of 64 bytes, eight pages an extent and two extents: generation 3, nothing written.
SMALL_PAGES = record_head(64, 8, 2, 0, generation=3) + fields([0])
# Pages of 512 bytes, two pages an extent and two extents: generation 9, no retired extent, nothing written.
LARGE_PAGES = record_head(512, 2, 2, 0, generation=9, retired=0) + fields([0])
# A disk that was formatted twice: a record at byte 64, and one of other sizes at byte 512. Three others aren't records: the first bytes
# of one at 256, one at 704 that isn't on a boundary of its pages, and one at 1,024 that is past its own extent 0.
FORMATTED_TWICE = disk_with((64, with_digest(SMALL_PAGES)), (256, SMALL_PAGES), (512, with_digest(LARGE_PAGES)),
                            (704, with_digest(LARGE_PAGES)), (1024, with_digest(SMALL_PAGES)), size=2048)
# The length of the file, and the blocks of its map.
MAPPED = [
    *((2048, blocks) for blocks in ("512 1536 +", "0 511 +\n512 1536 +", "0 2048 +", "0 512 +\n1024 512 +")),
    *((700, blocks) for blocks in ("0 512 +", "0 699 +", "0 700 +")), (512, "0 512 +"), (0, ""),
    *((668, blocks) for blocks in ("", "0x0 0x29C +", "0x0 0x29B +", "0x0 0x29C +\n0x29C 0x64 -", "0 0x29B +\n0x29B 1 -\n0x29C 0x64 +",
                                   "0 0x29C +\n0x300 0x400 +", "0 511 +\n512 156 +")),
]


class Sizes(Beside):
    """Records of any sizes in an image. Records and lost bytes are listed by their first byte."""

    def run_with(self, ranges, **limits):
        path = str(self.room / "disk.img")
        answer, _ = run_failing(self.program, ["sizes", path], self.library, path, 512, ranges, True, **limits)
        return answer

    @classmethod
    def setUpClass(cls):
        super().setUpClass()
        cls.library = FAILING_READS.made(cls.room)

    def test_each_record_has_its_own_sizes(self):
        self.given(FORMATTED_TWICE)
        self.check("sizes disk.img", 1, "64 SSB1 3 64 8 2\n512 SSB2 9 512 2 2\n")

    def test_a_record_ends_with_the_image_or_is_cut_off(self):
        """By reads of 100 bytes at most, too."""
        for size in (0, 125, 126, 575, 576, 1024):
            self.given(FORMATTED_TWICE[:size])
            self.compare("sizes disk.img")
            self.same(f"{size} bytes by reads of 100", self.run_with([], most=100), answered(self.words("sizes disk.img")))

    def test_a_failed_read_loses_its_block(self):
        """As a map does that lacks it."""
        for first, end in ((0, 512), (512, 1024), (512, 1536), (1536, 2048)):
            self.given(FORMATTED_TWICE, f"{STATE}0 {first} +\n{first} {end - first} -\n{end} {2048 - end} +\n".encode())
            right = answered(self.words("sizes --map disk.map disk.img"))
            self.same(f"reads from {first} to {end} fail", self.run_with([(first, end)]), right)

    def test_a_block_is_lost_if_it_lacks_a_byte_before_the_end(self):
        for size, blocks in MAPPED:
            self.given(FORMATTED_TWICE[:size], f"0 +\n{blocks}".encode())
            self.compare("sizes --map disk.map disk.img")


# The record of the second kind that lists extent 1 and names no run: 72 bytes.
RETIRING = listing(7, [1])


class PartCase(AnswerCase):
    def report(self, pages="", sizes=SMALL):
        """What a scan by the caller alone reports."""
        _, out, _ = self.answer(f"scan --workers 0 {sizes} disk.img{pages}")
        return json.loads(out)


class Records(PartCase):
    """A record is taken as one only if each of its bytes may be. If not, its first page is damaged and the next ones are stray. Other forged
    bytes are in the corpus."""

    def is_none(self, text):
        self.given(disk_with((0, text)))
        pages = range(1, -(-len(text) // 64))
        self.check(f"superblocks {SMALL} disk.img", 1, "damaged 0 SSB2\n" + "".join(f"stray {page}\n" for page in pages))

    def is_one(self, text, line):
        self.given(disk_with((0, text)))
        self.check(f"superblocks {SMALL} disk.img", 0, f"record 0 {line} counts\n")

    def test_retired_extents_rise_and_are_on_the_disk(self):
        """At last the record has one of them, and says that it has 255."""
        for retired in ([2, 1], [1, 1], [0], [3], [1, 2, 2]):
            self.is_none(record(64, 4, 3, [41, 155], [], 7, retired))
        self.is_none(changed(RETIRING, (27, 255)))

    def test_retired_extents_are_read(self):
        """One, and none: the others have their pointers."""
        for retired, pointers in (([1], {2: 155}), ([], {1: 41, 2: 155})):
            self.is_one(record(64, 4, 3, [41, 155], [], 7, retired), "SSB2 7")
            report = self.report()
            self.same("the superblock", report["super"], {"bad": [], "generation": 7, "page": 0, "records": 1, "tie": False})
            self.same("retired extents, pointers and runs",
                      (report["retired"], {row["extent"]: row["pointer"] for row in report["extents"]}, report["runs"]), (retired, pointers, []))


# Records of generation 1, with a run and without, and one of generation 7. Then those of generations 7 and 8, of both kinds, for page 2.
NAMED, EMPTY, FIRST = plain(1, abc(1, 0)), record(64, 4, 3, [0, 0], []), plain(7)
EQUAL, NEWER = (record(64, 4, 3, [0, 155], [], generation) for generation in (7, 8))
EQUAL_LISTING, NEWER_LISTING = (record(64, 4, 3, [0, 155], [], generation, []) for generation in (7, 8))
# The parts of extent 0, and its unreadable pages. Then the page and the generation of the superblock that counts, the number of records,
# whether there is a tie, the pointers, and the places of the runs.
CHOSEN = [
    ([], [], None, 0, False, [256, 256], []),
    ([(0, NAMED)], [0, 1, 2, 3], None, 0, False, [256, 256], []),
    ([(0, NAMED)], [], (0, 1), 1, False, [41, 155], [(1, 0)]),
    ([(0, EMPTY)], [], (0, 1), 1, False, [0, 0], []),
    ([(0, FIRST), (128, EQUAL)], [], (0, 7), 2, True, [41, 155], []),
    ([(0, FIRST), (128, NEWER)], [], (2, 8), 2, False, [0, 155], []),
    # A byte of the generation is changed.
    ([(0, FIRST), (128, NEWER), (132, b"\x01")], [], (0, 7), 1, False, [41, 155], []),
    ([(0, FIRST), (128, EQUAL_LISTING)], [], (0, 7), 2, True, [41, 155], []),
    ([(0, FIRST), (128, NEWER_LISTING)], [], (2, 8), 2, False, [0, 155], []),
]


class Chosen(PartCase):
    def test_the_newest_readable_record_counts_or_that_on_the_lowest_page(self):
        """Its pointers are those of the extents, and its runs are read. Without it each pointer is at the end of its extent."""
        for parts, bad, newest, records, tie, pointers, runs in CHOSEN:
            self.given(disk_with(*parts))
            report = self.report("".join(f" 0:{page}" for page in bad))
            page, generation = newest or (None, None)
            self.same("the superblock", report["super"], {"bad": bad, "generation": generation, "page": page, "records": records, "tie": tie})
            self.same("extents and pointers", [(row["extent"], row["pointer"]) for row in report["extents"]], list(enumerate(pointers, 1)))
            self.same("runs", [(row["extent"], row["offset"]) for row in report["runs"]], runs)


# The chunks in extent 1 of a disk of runs.
TWO = entry(1, 1, AT_0) + entry(2, 1, AT_0)
# What payloads that aren't runs have before their digests. No memory could hold as many entries as the first claims.
NO_RUNS = {
    "the greatest count": run_head((1 << 32) - 1),
    "65 locators": run_head(1) + entry(1, 65, *[AT_0] * 65),
    "one of 64 locators missing": run_head(1) + entry(1, 64, *[AT_0] * 63),
    "another magic": b"RUN2" + be(4, 2) + TWO,
    "a count one less": run_head(1) + TWO,
    "a count one more": run_head(3) + TWO,
    "a count far too great": run_head(0xFF000002) + TWO,
    "two equal identifiers": run_head(2) + entry(1, 1, AT_0) * 2,
    "falling identifiers": run_head(2) + entry(1, 1, AT_0) + entry(0, 1, AT_0),
    "a first entry that claims no locator": run_head(2) + entry(1, 0, AT_0) + entry(2, 1, AT_0),
    "a last entry that claims two": run_head(2) + entry(1, 1, AT_0) + entry(2, 2, AT_0),
    "the first two similar identifiers swapped": run_head(3) + MIDDLE + LOW + HIGH,
    "the last two similar identifiers swapped": run_head(3) + LOW + HIGH + MIDDLE,
}
# The run of one shard with the chunk of `abc` at the start of extent 1; the digest is by another program.
OF_ONE = bytes.fromhex(
    "52554e310000000100000000000000000000000000000001010000000100000000000000031111111111111111111111"
    "1111111111ba7816bf8f01cfea414140de5dae2223b00361a396177a9cb410ff61f20015adb49d3acdf7599e0e611b32"
    "f179ab8ab68ea53e82e649da20c0f99481d0110e8d")


class Payloads(PartCase):
    """A payload is taken as an index run only if each of its bytes may be."""

    SIZES = "--page 4096 --pages 4 --extents 4"

    def read(self, payload):
        """Writes a disk whose superblock names this payload as a run. Returns how many entries it has, or its state if it isn't read."""
        self.given(bytes(runs_on_a_disk(payload).bytes))
        row, = self.report(sizes=self.SIZES)["runs"]
        return row["entries"] if row["state"] == "read" else row["state"]

    def test_the_runs_of_one_shard_and_of_none_are_read_and_printed(self):
        for payload, entries in ((OF_ONE, 1), (NO_SHARDS, 0)):
            self.same("its entries", self.read(payload), entries)
            self.same("the index", self.answer(f"index {self.SIZES} disk.img")[1], payload)

    def test_a_payload_that_is_not_a_run_is_refused(self):
        sound = with_digest(run_head(2) + TWO)
        self.same("its length", len(sound), 194)
        self.same("two entries", self.read(sound), 2)
        self.same("64 locators", self.read(with_digest(run_head(1) + entry(1, 64, *[AT_0] * 64))), 1)
        for what, body in NO_RUNS.items():
            self.same(what, self.read(with_digest(body)), "not_a_run")

    def test_a_run_ends_with_its_digest(self):
        self.same("its length", len(OF_ONE), 117)
        for what, payload in (("another digest", changed(OF_ONE, (116, OF_ONE[116] ^ 1), sealed=False)),
                              ("the digest of other bytes", changed(OF_ONE, (40, OF_ONE[40] ^ 1), sealed=False)),
                              ("a byte missing", OF_ONE[:116]), ("nothing", b""), ("a byte after the digest", OF_ONE + b"\0"),
                              ("a byte in front of it", with_digest(OF_ONE[:85] + b"\0"))):
            self.same(what, self.read(payload), "not_a_run")
