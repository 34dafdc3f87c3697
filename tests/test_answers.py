"""Whole runs on small disks made by hand: arguments and files in, both streams and a status out. What is right was written by hand,
from docs/FORMAT.md, docs/REPORT.md and docs/shardscrub.1; the reports are the published ones.

The disks have three extents of four pages of 64 bytes: extent 1 begins at byte 256, extent 2 at byte 512.
"""
import os
import resource
import signal
import socket
import subprocess

from lib.cases import RoomCase
from lib.disks import Disk, be, digest, frame, head, locator, record, run, shard, uuid
from lib.system import FAILING_READS, FULL_OUTPUT, run_failing, run_full

SECONDS = 60
SMALL = "--page 64 --pages 4 --extents 3"
ID = f"{1:032}"
ONES, TWOS = uuid(0x11), uuid(0x22)
# A UUID that ends in the magic of a frame.
ENDS_IN_MAGIC = be(1, 0x33) * 14 + b"\xc5\x5e"
ABC, ABC_LINE = frame(ONES, b"abc"), "chunk 0 41 11111111-1111-1111-1111-111111111111 3\n"
SHA_ABC = digest(b"abc").hex()

# The published reports.
FIRST = '{"bad":[],"extent":1,"items":["chunk 0 41 11111111-1111-1111-1111-111111111111 3"],"live":41,"pointer":41,"tail":0,"tail_at":null}'
RUN = ('{"bad":[],"extent":2,"items":["chunk 0 155 22222222-2222-2222-2222-222222222222 117"],"live":155,"pointer":155,"tail":0,'
       '"tail_at":null}')
SUPER = '"super":{"bad":[],"generation":1,"page":0,"records":1,"tie":false}'
ONE_SHARD = ('{"broken":[],"candidates":[],"clean":true,"dangling":[],"doubtful":[],"extents":[' + FIRST + "," + RUN + '],"geometry":'
             '{"extents":3,"page":64,"pages":4},"hidden":[],"orphans":[],"retired":[],"runs":[{"entries":1,"extent":2,"offset":0,'
             '"state":"read"}],"shards":1,"shared":[],' + SUPER + ',"twins":[]}\n')
PADS = '"items":["pad 0 64","pad 64 128","pad 128 192","pad 192 256"],"live":0,"pointer":256,"tail":0,"tail_at":null}'
ZEROS = ('{"broken":[],"candidates":[],"clean":false,"dangling":[],"doubtful":[],"extents":[{"bad":[],"extent":1,' + PADS +
         ',{"bad":[],"extent":2,' + PADS + '],"geometry":{"extents":3,"page":64,"pages":4},"hidden":[],"orphans":[],"retired":[],'
         '"runs":[],"shards":0,"shared":[],"super":{"bad":[],"generation":null,"page":null,"records":0,"tie":false},"twins":[]}\n')
COLLISION = ('{"broken":[],"candidates":[],"clean":false,"dangling":[],"doubtful":[],"extents":[{"bad":[],"extent":1,"items":["chunk 0 66 '
             '33333333-3333-3333-3333-33333333c55e 28","noise 66 105"],"live":0,"pointer":105,"tail":0,"tail_at":null},' + RUN +
             '],"geometry":{"extents":3,"page":64,"pages":4},"hidden":[{"extent":1,"length":3,"offset":64,"owner":"shard ' + ID +
             '","uuid":"11111111-1111-1111-1111-111111111111"}],"orphans":[{"extent":1,"length":28,"offset":0,"uuid":'
             '"33333333-3333-3333-3333-33333333c55e"}],"retired":[],"runs":[{"entries":1,"extent":2,"offset":0,"state":"read"}],'
             '"shards":1,"shared":[],' + SUPER + ',"twins":[]}\n')
TWINS = ('{"broken":[],"candidates":[{"extent":1,"free":41,"keep":[41]}],"clean":false,"dangling":[],"doubtful":[],"extents":[{"bad":[],'
         '"extent":1,"items":["chunk 0 41 11111111-1111-1111-1111-111111111111 3","chunk 41 82 11111111-1111-1111-1111-111111111111 3"],'
         '"live":41,"pointer":82,"tail":0,"tail_at":null},{"bad":[],"extent":2,"items":["chunk 0 232 22222222-2222-2222-2222-222222222222'
         ' 194"],"live":232,"pointer":232,"tail":0,"tail_at":null}],"geometry":{"extents":3,"page":64,"pages":4},"hidden":[],"orphans":'
         '[{"extent":1,"length":3,"offset":0,"uuid":"11111111-1111-1111-1111-111111111111"}],"retired":[],"runs":[{"entries":2,'
         '"extent":2,"offset":0,"state":"read"}],"shards":2,"shared":[{"count":2,"extent":1,"offset":41}],' + SUPER +
         ',"twins":[{"extent":1,"length":3,"offset":0,"uuid":"11111111-1111-1111-1111-111111111111"},{"extent":1,"length":3,"offset":41,'
         '"uuid":"11111111-1111-1111-1111-111111111111"}]}\n')
NO_SHARDS = bytes.fromhex("52554e31000000009a611d9fb71761fb2e2299e2f7e346c4ea61d8e25297404aeb68d54d2eefb796")


def disk_with(*frames, size=768):
    """Zeros with these bytes at their places."""
    raw = bytearray(size)
    for place, text in frames:
        raw[place:place + len(text)] = text
    return bytes(raw)


def abc(extent, offset, name=ONES):
    """The locator of a chunk of `abc`."""
    return locator(extent, offset, name, b"abc")


def with_run(chunks, *entries, more=()):
    """A disk with chunks in extent 1, an index run of these entries at the start of extent 2, further chunks behind it, and a
    superblock that names the run."""
    disk = Disk(4, 3)
    for offset, name, payload in chunks:
        disk.chunk(1, offset, name, payload)
    named = disk.chunk(2, 0, TWOS, run(*entries))
    for offset, name, payload in more:
        disk.chunk(2, offset, name, payload)
    disk.superblock(0, 1, named)
    return bytes(disk.bytes)


def one_shard():
    return with_run([(0, ONES, b"abc")], (shard(1), [abc(1, 0)]))


class AnswerCase(RoomCase):
    """Runs in a folder with `disk.img` and `disk.map`."""

    def given(self, raw=b"", text=b""):
        (self.room / "disk.img").write_bytes(raw)
        (self.room / "disk.map").write_bytes(text)

    def answer(self, words, **more):
        words = words.split() if isinstance(words, str) else words
        streams = {"stdin": subprocess.DEVNULL, "stdout": subprocess.PIPE, "stderr": subprocess.PIPE, **more}
        done = subprocess.run([self.program, *words], cwd=self.room, timeout=SECONDS, **streams)
        return done.returncode, done.stdout, done.stderr

    def check(self, words, status, out=b"", error=b""):
        out, error = (text.encode() if isinstance(text, str) else text for text in (out, error))
        self.same(words if isinstance(words, str) else " ".join(words), self.answer(words), (status, out, error))

    def refused(self, words, status, text):
        self.check(words, status, "", f"shardscrub: {text}\n")


class Items(AnswerCase):
    def items(self, words, status, lines, sizes=SMALL):
        self.check(f"items {sizes} --extent {words}", status, lines)

    def test_a_chunk_below_byte_41(self):
        self.given(disk_with((256, ABC)))
        self.items("1 --pointer 41 disk.img", 0, ABC_LINE)

    def test_the_order_of_options_does_not_matter(self):
        """In any order, before and after the image, with a blank or an equals sign before their values."""
        self.given(disk_with((256, ABC)))
        for words in ("--pointer 41 --extent 1 --extents 3 --pages 4 --page 64 disk.img",
                      "--extent 1 --page 64 --pointer 41 --pages 4 --extents 3 disk.img",
                      "--extents=3 --pointer=41 --page=64 --extent=1 --pages=4 disk.img",
                      "--pages=4 --page 64 --extent 1 --extents=3 --pointer 41 disk.img",
                      "disk.img --extent 1 --pages 4 --extents 3 --pointer 41 --page 64",
                      "--extent 1 --pages 4 disk.img --pointer=41 --extents 3 --page 64"):
            self.check(f"items {words}", 0, ABC_LINE)

    def test_without_a_pointer_the_whole_extent_is_listed(self):
        self.given(disk_with((256, ABC)))
        self.items("1 disk.img", 0, ABC_LINE + "pad 41 64\npad 64 128\npad 128 192\npad 192 256\n")
        self.items("0 disk.img", 0, "pad 0 64\npad 64 128\npad 128 192\npad 192 256\n")

    def test_the_chunk_of_abc_under_smaller_pointers(self):
        self.given(disk_with((256, ABC)))
        for pointer, status, line in ((40, 1, "torn 0 40\n"), (1, 1, "noise 0 1\n"), (0, 0, "")):
            self.items(f"1 --pointer {pointer} disk.img", status, line)

    def test_a_frame_over_an_unreadable_page(self):
        self.given(disk_with((256, frame(ONES, b"x" * 60))))
        self.items("1 --pointer 98 disk.img 1:1", 1, "torn 0 64\nlost 64 98\n")

    def test_the_collision_hides_the_chunk_at_the_page_bound(self):
        self.given(disk_with((256, frame(ENDS_IN_MAGIC, b"x" * 28)), (320, ABC)))
        self.items("1 --pointer 105 disk.img", 1, "chunk 0 66 33333333-3333-3333-3333-33333333c55e 28\nnoise 66 105\n")

    def test_two_frames_end_to_end(self):
        self.given(disk_with((256, frame(ONES, b"x" * 12)), (306, ABC)))
        self.items("1 --pointer 91 disk.img", 0, "chunk 0 50 11111111-1111-1111-1111-111111111111 12\n"
                   "chunk 50 91 11111111-1111-1111-1111-111111111111 3\n")

    def test_a_frame_of_no_payload(self):
        self.given(disk_with((256, frame(ONES, b""))))
        self.items("1 --pointer 38 disk.img", 0, "chunk 0 38 11111111-1111-1111-1111-111111111111 0\n")

    def test_a_head_that_claims_the_greatest_length(self):
        self.given(disk_with((256, head(ONES, (1 << 32) - 1))))
        self.items("1 --pointer 256 disk.img", 1, "torn 0 64\npad 64 128\npad 128 192\npad 192 256\n")

    def test_damage_between_frames_hides_the_one_before_the_page_bound(self):
        self.given(disk_with((256, ABC), (300, frame(TWOS, b"")), (384, frame(uuid(0x33), b"abc"))))
        self.items("1 --pointer 169 disk.img", 1, ABC_LINE + "noise 41 128\nchunk 128 169 33333333-3333-3333-3333-333333333333 3\n",
                   "--page 128 --pages 2 --extents 3")

    def test_pages_after_the_end_of_a_short_image_are_lost(self):
        self.given(disk_with((512, frame(TWOS, b"x" * 117)))[:668])
        self.items("2 --pointer 155 disk.img", 1, "torn 0 64\nnoise 64 128\nlost 128 155\n")

    def test_a_page_whose_read_fails_is_lost(self):
        """Only the first page of extent 1 has the chunk."""
        self.given(disk_with((256, ABC)))
        library, path = FAILING_READS.made(self.room), str(self.room / "disk.img")
        words = ["items", *SMALL.split(), "--extent", "1", "--pointer", "41", path]
        for page, status, line in ((3, 0, ABC_LINE), (4, 1, "lost 0 41\n"), (5, 0, ABC_LINE)):
            got, _ = run_failing(self.program, words, library, path, 64, [(64 * page, 64 * page + 64)], False)
            self.same(f"page {page}", got, (status, line.encode(), b""))

    def test_files_of_several_lengths(self):
        for length, words, wanted in ((768, "1 --pointer 41", (0, ABC_LINE)), (768, "0 --pointer 64", (0, "pad 0 64\n")),
                                      (300, "1 --pointer 41", (1, "lost 0 41\n")), (320, "1 --pointer 41", (0, ABC_LINE)),
                                      (769, "1", (3, "", "shardscrub: image too long\n"))):
            self.given(disk_with((256, ABC), size=769)[:length])
            self.check(f"items {SMALL} --extent {words} disk.img", *wanted)

    def test_a_page_with_a_byte_that_the_map_lacks_is_lost(self):
        """Extent 1 begins at byte 256, and its first page ends at 320."""
        for text, status, line in ((b"0 +\n0 0x300 +\n", 0, ABC_LINE), (b"# a comment\n0 + 1\n\n256 64 +", 0, ABC_LINE),
                                   (b"0 ?\n0 256 -\n0x100 0x40 +\r\n", 0, ABC_LINE), (b"0 +\n257 63 +\n", 1, "lost 0 41\n"),
                                   (b"0 +\n256 63 +\n319 1 -\n", 1, "lost 0 41\n"), (b"0 +\n", 1, "lost 0 41\n")):
            self.given(disk_with((256, ABC)), text)
            self.items("1 --pointer 41 --map disk.map disk.img", status, line)

    def test_many_pages_many_items_and_a_long_name(self):
        """Eight pages are given as unreadable; then an extent has 130 items, and the name of its image 72 bytes."""
        self.given(bytes(768))
        self.items("1 disk.img 1:0 1:1 1:2 1:3 0:0 0:3 2:0 2:3", 1, "lost 0 64\nlost 64 128\nlost 128 192\nlost 192 256\n")
        folder = self.room / "a-folder-whose-name-has-many-more-bytes-than-the-name-of-a-disk"
        folder.mkdir()
        (folder / "disk.img").write_bytes(bytes(16640))
        lines = "".join(f"pad {page * 64} {page * 64 + 64}\n" for page in range(130))
        self.items(f"1 {folder.name}/disk.img", 0, lines, "--page 64 --pages 130 --extents 2")


class Faults(AnswerCase):
    def test_the_first_line_of_a_map_that_breaks_a_rule(self):
        for text, line in ((b"", 1), (b"# a comment\n", 2), (b"0 +\n0 08 +\n0 x", 2), (b"0 +\n0 8 +\n7 1 +\n", 3)):
            self.given(bytes(769), text)
            for command in (f"scan {SMALL}", f"superblocks {SMALL}", "sizes"):
                self.refused(f"{command} --map disk.map other.img", 2, f"map refused: line {line}")

    def test_sizes_out_of_the_limits(self):
        for page, pages, extents, fault in ((60, 4, 3, "PageSize"), (96, 4, 3, "PageSize"), (4294967295, 4, 3, "PageSize"),
                                            (64, 0, 3, "Pages"), (64, 4, 1, "Extents"), (65536, 65536, 2, "ExtentBytes"),
                                            (65536, 1024, 65, "TotalBytes")):
            self.refused(f"items --page {page} --pages {pages} --extents {extents} --extent 1 disk.img", 2, f"geometry refused: {fault}")

    def test_sizes_within_the_limits(self):
        """A small disk, and one of 4 GiB with extents of 64 MiB, of which the empty file has no byte."""
        self.given()
        for page, pages, extents in ((64, 4, 3), (65536, 1024, 64)):
            words = f"items --page {page} --pages {pages} --extents {extents} --extent {extents - 1}"
            lines = "".join(f"lost {page * number} {page * (number + 1)}\n" for number in range(pages))
            for pointer in ("", f" --pointer {page * pages}"):
                self.check(f"{words}{pointer} disk.img", 1, lines)
            self.refused(f"{words} --pointer {page * pages + 1} disk.img", 2, "pointer out of range")

    def test_places_outside_the_disk(self):
        self.given(bytes(768))
        for words, text in (("--extent 3 disk.img", "extent out of range"), ("--extent 1 --pointer 257 disk.img", "pointer out of range"),
                            ("--extent 1 disk.img 1:4", "bad page refused: 1:4"), ("--extent 1 disk.img 3:0", "bad page refused: 3:0"),
                            ("--extent 1 disk.img 1:x", "bad page refused: 1:x"), ("--extent 1 disk.img 2:3 1:x 1:4", "bad page refused: 1:x")):
            self.refused(f"items {SMALL} {words}", 2, text)

    def test_pairs(self):
        """Two numbers in decimal digits; leading zeros are ignored, a sign or a blank is refused."""
        self.given(bytes(768))
        for pair in ("", ":", "1", "1:", ":1", "1:x", "+1:2", "1:+2", "1 :2", "1:2:3", "4294967296:0", "0:4294967296"):
            self.refused(["items", *SMALL.split(), "--extent", "1", "disk.img", pair], 2, f"bad page refused: {pair}")
        self.check(f"items {SMALL} --extent 1 --pointer 128 disk.img 001:0001", 1, "pad 0 64\nlost 64 128\n")

    def test_identifiers(self):
        """32 hexadecimal digits, in either case."""
        name = bytes(range(8)) + bytes(range(0xf8, 0x100))
        self.given(with_run([(0, ONES, b"abc")], (name, [abc(1, 0)])))
        for text in ("0001020304050607f8f9fafbfcfdfeff", "0001020304050607F8F9FAFBFCFDFEFF", "0001020304050607F8f9FaFbFcFdFeFf"):
            self.check(f"shard --id {text} disk.img", 0, "abc")
        for text in ("", "00", "0001020304050607f8f9fafbfcfdfef", "0001020304050607f8f9fafbfcfdfeff0",
                     "0001020304050607f8f9fafbfcfdfeff00", "0x01020304050607f8f9fafbfcfdfeff", "0001020304050607f8f9fafbfcfdfe g",
                     " 0001020304050607f8f9fafbfcfdfeff", "00010203-0405-0607-f8f9-fafbfcfdfeff"):
            self.refused(["shard", "--id", text, "disk.img"], 2, f"shard refused: {text}")

    def test_the_first_of_several_faults(self):
        """Each case also has the faults of all cases below it."""
        self.given(bytes(769))
        for words, status, text in (("--page 60 --extent 3 --pointer 257 other.img 1:4", 2, "geometry refused: PageSize"),
                                    ("--page 64 --extent 3 --pointer 257 other.img 1:4", 2, "extent out of range"),
                                    ("--page 64 --extent 1 --pointer 257 other.img 1:4", 2, "pointer out of range"),
                                    ("--page 64 --extent 1 --pointer 41 --map other.map other.img 1:4", 2, "bad page refused: 1:4"),
                                    ("--page 64 --extent 1 --pointer 41 --map other.map other.img 1:3", 3,
                                     "map cannot be opened: other.map"),
                                    ("--page 64 --extent 1 --pointer 41 --map disk.map other.img 1:3", 2, "map refused: line 1"),
                                    ("--page 64 --extent 1 --pointer 41 other.img 1:3", 3, "image cannot be opened: other.img"),
                                    ("--page 64 --extent 1 --pointer 41 disk.img 1:3", 3, "image too long")):
            self.refused(f"items --pages 4 --extents 3 {words}", status, text)
        for words, status, text in ((f"scan {SMALL.replace('64', '60')} other.img 1:x 3:0", 2, "geometry refused: PageSize"),
                                    (f"index {SMALL} other.img 1:0 3:0", 2, "bad page refused: 3:0"),
                                    (f"scan {SMALL} other.img 1:0", 3, "image cannot be opened: other.img"),
                                    (f"index {SMALL} disk.img 1:0", 3, "image too long"),
                                    (f"locators {SMALL} disk.img 1:0", 3, "image too long")):
            self.refused(words, status, text)

    def test_the_place_of_a_refused_identifier(self):
        """With sizes and without: each case also has the faults of all cases below it."""
        self.given(bytes(769))
        name = "0123456789abcdefABCDEF0123456789"
        for words, status, text in (("--page 60 --pages 4 --extents 3 --id 0 other.img 1:4", 2, "geometry refused: PageSize"),
                                    (f"{SMALL} --id 0 other.img 1:4", 2, "shard refused: 0"),
                                    (f"{SMALL} --id {name} other.img 1:4", 2, "bad page refused: 1:4"),
                                    (f"{SMALL} --id {name} other.img 1:3", 3, "image cannot be opened: other.img"),
                                    (f"{SMALL} --id {name} disk.img 1:3", 3, "image too long"),
                                    ("--id 0 --map disk.map other.img 1:4", 2, "map refused: line 1"),
                                    ("--id 0 other.img 1:4", 3, "image cannot be opened: other.img"),
                                    ("--id 0 disk.img 1:4", 2, "sizes not found: run shardscrub sizes")):
            self.refused(f"shard {words}", status, text)

    def test_without_sizes(self):
        """The order of faults is: the map, the image, the sizes, and then extent and pages."""
        self.given(bytes(768))
        for words in ("scan disk.img 9:9", "items --extent 3 disk.img 9:9"):
            self.refused(words, 2, "sizes not found: run shardscrub sizes")
        self.given(one_shard())
        self.refused("scan other.img 9:9", 3, "image cannot be opened: other.img")
        self.refused("scan disk.img 9:9", 2, "bad page refused: 9:9")
        self.refused("items --extent 3 disk.img 9:9", 2, "extent out of range")

    def test_sizes_that_are_not_certain(self):
        """There is a record, but a byte of the first 64 MiB is lost. If no record is left, or none was there, the sizes aren't found."""
        text = ("sizes not certain: records were found, but bytes of the first 64 MiB can't be read; give --page, --pages and "
                "--extents (shardscrub sizes lists them)")
        found = one_shard()
        two = disk_with((0, found[:256]), (640, record(128, 8, 2, [0], [])))
        for raw, lost, what in ((found, 767, text), (found, 512, text), (found, 0, "sizes not found: run shardscrub sizes"),
                                (bytes(768), 767, "sizes not found: run shardscrub sizes"), (two, 512, text)):
            before = f"0 {lost} +\n" if lost else ""
            self.given(raw, f"0 +\n{before}{lost} 1 -\n{lost + 1} 768 +\n".encode())
            for words in ("scan", "locators", "summary", "shards", f"shard --id {ID}", "superblocks", "items --extent 1"):
                self.refused(f"{words} --map disk.map disk.img 1:0", 2, what)
        self.given(two)
        self.refused("scan disk.img", 2, "sizes not found: run shardscrub sizes")

    def test_sizes_without_a_record(self):
        """A line says that there is none, unless bytes are lost: then it isn't known."""
        said = "shardscrub: no superblock record in the first 64 MiB\n"
        for raw, text, wanted in ((bytes(768), None, (1, "", said)), (b"", None, (1, "", said)), (one_shard()[256:], None, (1, "", said)),
                                  (bytes(768), b"0 +\n0 768 +\n", (1, "", said)),
                                  (bytes(768), b"0 +\n0 767 +\n", (1, "lost 512 1024\n", "")),
                                  (one_shard(), None, (0, "0 SSB1 1 64 4 3\n", ""))):
            self.given(raw, text or b"")
            self.check("sizes disk.img" if text is None else "sizes --map disk.map disk.img", *wanted)

    def test_an_extent_that_can_not_be_reset(self):
        """It is reported before pages and files. Each case also has the faults of all cases below it. Extent 0 can't be reset."""
        self.given(bytes(769))
        for words, status, text in (("--page 60 --pages 4 --extents 3 --reset 3 other.img 3:0", 2, "geometry refused: PageSize"),
                                    (f"{SMALL} --reset 1 --reset 3 other.img 3:0", 2, "extent out of range"),
                                    (f"{SMALL} --reset 2 --reset 0 other.img 3:0", 2, "extent out of range"),
                                    (f"{SMALL} --reset=-0 other.img 3:0", 2, "extent out of range"),
                                    (f"{SMALL} --reset 4294967295 other.img 3:0", 2, "extent out of range"),
                                    (f"{SMALL} --reset 2 --reset 1 other.img 3:0", 2, "bad page refused: 3:0"),
                                    (f"{SMALL} --reset 2 other.img 2:0", 3, "image cannot be opened: other.img")):
            self.refused(f"manifest {words}", status, text)

    def test_a_file_is_read_as_a_map(self):
        self.given(text=b"0 +\n0 1 x\n")
        self.refused("sizes --map disk.map missing.img", 2, "map refused: line 2")
        self.given(text=b"0 +\n0 1 +\n")
        self.refused("sizes --map disk.map missing.img", 3, "image cannot be opened: missing.img")
        (self.room / "disk.map").unlink()
        self.refused("sizes --map disk.map missing.img", 3, "map cannot be opened: disk.map")

    def test_what_is_not_opened(self):
        """Neither as an image nor as a map: folders, character devices, sockets, what isn't there, and no name."""
        with socket.socket(socket.AF_UNIX) as bound:
            bound.bind(str(self.room / "socket"))
            for name in (".", "/dev/null", "no-such-folder/disk.img", "socket", ""):
                self.refused(["sizes", name], 3, f"image cannot be opened: {name}")
                self.refused(["sizes", "--map", name, "disk.img"], 3, f"map cannot be opened: {name}")

    def test_a_fault_of_the_error_stream_is_ignored(self):
        def limit():
            signal.signal(signal.SIGXFSZ, signal.SIG_IGN)
            resource.setrlimit(resource.RLIMIT_FSIZE, (4, 4))

        path = self.room / "error"
        with open("/dev/full", "wb") as full, open(path, "wb") as error:
            self.same("neither output", self.answer("", stdout=full, stderr=full)[0], 3)
            self.same("four bytes", (self.answer("", stdout=full, stderr=error, preexec_fn=limit)[0], path.read_bytes()), (3, b"shar"))
            self.same("refused", self.answer("repair", stderr=full)[:2], (2, b""))


class Disks(AnswerCase):
    def listed(self, command, status, lines, words="", error=""):
        self.check(f"{command} {SMALL} disk.img{words}", status, lines, error)

    def test_the_demo(self):
        for words in ("", "demo"):
            self.check(words, 0, ONE_SHARD)

    def test_one_shard(self):
        payload = run((shard(1), [abc(1, 0)]))
        self.true("117 bytes", len(payload) == 117)
        self.given(one_shard())
        self.listed("scan", 0, ONE_SHARD)
        self.listed("index", 0, payload)

    def test_the_number_of_workers_does_not_matter(self):
        self.given(one_shard())
        for words in (f"--workers 0 {SMALL} disk.img", f"{SMALL} disk.img --workers=3", "--page 64 --workers 64 --pages 4 --extents 3 disk.img"):
            self.check(f"scan {words}", 0, ONE_SHARD)
            self.check(f"locators {words}", 0, self.RUN_LINE + self.SHARD_LINE + "sound\n")

    RUN_LINE = "run 0 2 0 117 22222222-2222-2222-2222-222222222222 sound\n"
    SHARD_LINE = f"shard {ID} 1 0 3 11111111-1111-1111-1111-111111111111 "

    def test_the_bytes_of_a_shard(self):
        self.given(one_shard())
        other = f"{2:032}"
        self.check(f"shard --id {ID} disk.img", 0, "abc")
        self.check(f"shard {SMALL} --workers 0 --id {ID} disk.img 1:3", 0, "abc")
        self.refused(f"shard --id {other} disk.img", 1, "no such shard")
        self.refused(f"shard --id {ID} disk.img 1:0", 1, "payload lost: 00")

    def test_the_manifest(self):
        self.given(one_shard())
        begun = f"retired\nruns lost 0 hidden 0\nshard {ID} 00 3 {SHA_ABC} "
        self.listed("manifest", 0, begun + "sound plain\ntotal 1 1\n")
        self.listed("manifest", 1, begun + "unreadable 1 0 11111111-1111-1111-1111-111111111111 none\ntotal 1 1\n", " --workers 3 1:0")
        self.listed("manifest", 1, "no-superblock\n", " 0:0", "shardscrub: superblock lost: 0\n")

    def test_the_manifest_as_if_extents_had_been_reset(self):
        """The chunk of the shard is in extent 1, and another one of the same payload is after the run in extent 2. With the pointer
        of extent 1 at 0 the shard's locator dangles and has that spare; with the pointer of extent 2 at 0 the run is lost."""
        self.given(with_run([(0, ONES, b"abc")], (shard(1), [abc(1, 0)]), more=[(155, TWOS, b"abc")]))
        begun = f"retired\nruns lost 0 hidden 0\nshard {ID} 00 3 {SHA_ABC} "
        spare = begun + "past_pointer 1 0 11111111-1111-1111-1111-111111111111 spare\ntotal 1 1\n"
        lost = "retired\nruns lost 1 hidden 0\ntotal 0 0\n"
        for words, status, lines in (("", 0, begun + "sound plain\ntotal 1 1\n"), (" --reset 1", 1, spare), (" --reset +1", 1, spare),
                                     (" --reset=1 --reset 1 --workers 0", 1, spare), (" --reset 2", 1, lost),
                                     (" --reset 2 --reset 1 --workers 2", 1, lost), (" --reset=2 --reset 1 --reset 2 --reset +1", 1, lost)):
            self.listed("manifest", status, lines, words)

    def test_the_summary(self):
        """The numbers were counted by hand: a chunk of 41 bytes and an index run of 155 bytes, each with a sound locator."""
        self.given(one_shard())
        numbers = ("page_bytes 64 extent_pages 4 extents 3 retired_extents 0 superblocks 1 superblock_generation 1 superblock_tie 0 "
                   "superblocks_damaged 0 superblocks_stray 0 unreadable_pages 0 runs 1 runs_lost 0 shards 1 shards_broken 0 "
                   "shards_doubtful 0 locators 2 locators_hidden 0 locators_dangling 0 spares 0 loose_copies 0 chunks 2 chunk_bytes 196 "
                   "live_chunks 2 live_bytes 196 orphans 0 orphan_bytes 0 twins 0 shared_places 0 torn_items 0 noise_items 0 lost_items 0 tails 0 "
                   "tail_bytes 0 candidates 0 candidate_bytes 0 chunks_to_move 0").split()
        text = "verdict sound\n" + "".join(f"{name} {number}\n" for name, number in zip(numbers[::2], numbers[1::2]))
        for words in (f"{SMALL} disk.img", f"{SMALL} --workers 0 disk.img", "disk.img"):
            self.check(f"summary {words}", 0, text)

    def test_the_locators_of_a_disk_with_an_unreadable_page(self):
        """A locator that dangles is listed with its reason. What only a lost run had isn't listed."""
        self.given(one_shard())
        self.listed("locators", 1, self.RUN_LINE + self.SHARD_LINE + "unreadable\n", " 1:0")
        self.listed("locators", 1, self.RUN_LINE.replace("sound", "unreadable"), " 2:2")
        self.listed("locators", 1, "", " 0:0")

    def test_the_spares_of_a_locator_of_another_chunk(self):
        """After the line of a locator that dangles comes the first chunk with its payload, even at its own place, and how many there
        are."""
        self.given(with_run([(0, TWOS, b"abc"), (41, ONES, b"abc")], (shard(1), [abc(1, 0)])))
        self.listed("locators", 1, self.RUN_LINE + self.SHARD_LINE + "wrong_uuid\nspare 1 0 3 22222222-2222-2222-2222-222222222222 2\n")

    def test_a_spare_that_a_reset_might_take(self):
        """Only a chunk that nothing names, in an extent that may be reclaimed, has the payload of a locator past a pointer."""
        self.given(with_run([(0, ONES, b"abc")], (shard(1), [abc(2, 200)])))
        line = f"spare 1 0 3 11111111-1111-1111-1111-111111111111 shard {ID} 41"
        words = ["reclaimable", *SMALL.split(), "disk.img"]
        self.check(words, 1, f"doubt {line}\n")
        self.check([*words, "--accept", line], 0, f"accepted {line}\nreclaim 1 41\nlast-room 1 41 215\n")

    def test_the_superblocks_and_the_sizes(self):
        """One superblock record on pages 0 and 1 of extent 0."""
        self.given(one_shard(), b"0 +\n0 600 +\n")
        self.listed("superblocks", 0, "record 0 SSB1 1 counts\n")
        self.listed("superblocks", 1, "record 0 SSB1 1 counts\nlost 3\n", " 0:3")
        self.check("superblocks --page 128 --pages 2 --extents 3 disk.img", 1, "damaged 0 SSB1\n")
        self.check("sizes disk.img", 0, "0 SSB1 1 64 4 3\n")
        self.check("sizes --map disk.map disk.img", 1, "0 SSB1 1 64 4 3\nlost 512 1024\n")

    def test_what_may_be_reclaimed(self):
        """There is nothing to reclaim. A lost page of extent 0 is a doubt that can't be accepted."""
        self.given(one_shard())
        for words, status, lines in (("", 0, ""), (" 0:3", 1, "doubt superblock-lost 3\n"),
                                     (" --last=1 0:3", 1, "doubt superblock-lost 3\n"),
                                     (" 1:0", 1, "doubt tail-lost 1 0 0\n"), (" 1:1 1:2", 1, "doubt tail-lost 1 1 2\n"),
                                     (" 1:1 --last 2", 1, "doubt last 1 2\ndoubt tail-lost 1 1 1\n"),
                                     (" 1:1 --last 1", 0, "accepted tail-lost 1 1 1\n")):
            self.listed("reclaimable", status, lines, words)

    def test_zeros(self):
        self.given(bytes(768))
        for command, out in (("scan", ZEROS), ("locators", ""), ("superblocks", ""), ("index", NO_SHARDS)):
            self.listed(command, 1, out)

    def test_an_empty_file_is_a_disk_of_lost_pages(self):
        self.given()
        self.listed("scan", 1, ZEROS.replace("pad", "lost").replace('"bad":[]', '"bad":[0,1,2,3]'))

    def test_a_chunk_at_which_no_item_begins_is_hidden(self):
        """The index keeps the shard whose chunk is hidden."""
        self.given(with_run([(0, ENDS_IN_MAGIC, b"x" * 28), (64, ONES, b"abc")], (shard(1), [abc(1, 64)])))
        self.listed("scan", 1, COLLISION)
        self.listed("locators", 1, self.RUN_LINE + self.SHARD_LINE.replace(" 1 0 3 ", " 1 64 3 ") + "hidden\n")
        self.listed("index", 1, run((shard(1), [abc(1, 64)])))

    def test_twins_and_a_shared_place(self):
        entries = [(shard(number), [abc(1, 41)]) for number in (1, 2)]
        self.given(with_run([(0, ONES, b"abc"), (41, ONES, b"abc")], *entries))
        line = self.SHARD_LINE.replace(" 1 0 3 ", " 1 41 3 ") + "sound\n"
        self.listed("scan", 1, TWINS)
        self.listed("locators", 1, self.RUN_LINE.replace("117", "194") + line + line.replace(ID, f"{2:032}"))
        self.listed("index", 1, run(*entries))

    def test_an_unreadable_page_of_extent_0_leaves_no_candidate(self):
        """The report differs from that of the last disk above only in the page and the candidate."""
        entries = [(shard(number), [abc(1, 41)]) for number in (1, 2)]
        self.given(with_run([(0, ONES, b"abc"), (41, ONES, b"abc")], *entries))
        report = TWINS
        for old, new in (('{"extent":1,"free":41,"keep":[41]}', ""), ('"super":{"bad":[]', '"super":{"bad":[3]')):
            self.same(f"{old} is there", report.count(old), 1)
            report = report.replace(old, new)
        self.listed("scan", 1, report, " 0:3")
        self.listed("index", 1, run(*entries), " 0:3")


# What each help has.
HELP = {
    "--help": ["Usage: shardscrub [COMMAND]", "\n  summary ", "\n  scan ", "\n  shard ", "\n  shards ", "\n  index ", "\n  locators ",
               "\n  manifest ", "\n  reclaimable ", "\n  compare ", "\n  superblocks ", "\n  sizes ", "\n  items ", "\n  demo ", "Exit status",
               "\n  shardscrub summary examples/one-shard.img", "--extent 1 --pointer 41 examples/one-shard.img"],
    "demo --help": ["Usage: shardscrub demo", "Exit status", "\n  shardscrub demo\n"],
    "items --help": ["Usage: shardscrub items", "--page <BYTES>", "power of two, 64 to 65536", "1 to 65536", "67108864 bytes",
                     "2 to 65536", "4294967296 bytes", "--pointer <BYTES>", "--map <FILE>", "[EXTENT:PAGE]...", "\n  sealed ",
                     "Exit status", "--extent 1 --pointer 41 examples/one-shard.img"],
    "scan --help": ["Usage: shardscrub scan", "--extents <COUNT>", "[EXTENT:PAGE]...", "\n  candidates ", "\n  orphans ",
                    "\n  doubtful ", "not clean", "\n  super ", "\n  dangling ", "'torn', 'noise' or 'lost'", "Exit status",
                    "\n  shardscrub scan examples/one-shard.img"],
    "index --help": ["Usage: shardscrub index", "--extents <COUNT>", "[EXTENT:PAGE]...", "hidden", "a repair", "Exit status",
                     "\n  shardscrub index --page 64 --pages 4 --extents 3 examples/one-shard.img"],
    "locators --help": ["Usage: shardscrub locators", "--extents <COUNT>", "[EXTENT:PAGE]...",
                        "OWNER EXTENT OFFSET LENGTH UUID STATUS", "\n  spare EXTENT OFFSET LENGTH UUID COUNT\n",
                        "\n  loose EXTENT OFFSET LENGTH UUID COUNT\n", "\n  STATUS ",
                        "wrong_digest", "Exit status", "\n  shardscrub locators examples/one-shard.img",
                        "\n  shard 00000000000000000000000000000001 1 0 3 11111111-1111-1111-1111-111111111111 sound\n"],
    "manifest --help": ["Usage: shardscrub manifest", "--workers <COUNT>", "--reset <EXTENT>", "[EXTENT:PAGE]...",
                        "\n  retired EXTENT .. ", "\n  runs lost L hidden H ",
                        "\n  shard ID NUMBER LENGTH DIGEST sound FORM\n",
                        "\n  shard ID NUMBER LENGTH DIGEST STATUS EXTENT OFFSET UUID COPY\n", "\n  superblock lost: PAGE ", "\n  tie ", "Exit status",
                        "\n  shardscrub manifest --page 64 --pages 4 --extents 3 examples/one-shard.img"],
    "shard --help": ["Usage: shardscrub shard", "--workers <COUNT>", "--id <ID>", "Without --page, --pages and --extents",
                     "[EXTENT:PAGE]...", "\n  no such shard ", "\n  payload lost: NUMBER ", "\n  superblock lost: PAGE ", "\n  tie ",
                     "a newer entry may be lost", "Exit status",
                     "\n  shardscrub shard --id 00000000000000000000000000000001 examples/one-shard.img > restored"],
    "shards --help": ["Usage: shardscrub shards", "--workers <COUNT>", "Without --page, --pages and --extents", "[EXTENT:PAGE]...",
                      "\n  no superblock ", "\n  superblock lost: PAGE ", "\n  tie ", "\n  run lost: NUMBER STATE ", "\n  payload lost: ID NUMBER ",
                      "\n  a newer entry may be lost: ID ", "Exit status", "\n  shardscrub shards examples/one-shard.img > shards.tar"],
    "summary --help": ["Usage: shardscrub summary", "--workers <COUNT>", "--last <G>", "[EXTENT:PAGE]...", "\n  verdict WORD ",
                       "\n  candidates candidate_bytes chunks_to_move\n", "Exit status",
                       "\n  shardscrub summary examples/one-shard.img", "\n  verdict sound\n"],
    "superblocks --help": ["Usage: shardscrub superblocks", "--map <FILE>", "record PAGE KIND GENERATION STATE", "stray PAGE",
                           "Exit status", "\n  record 0 SSB1 1 counts\n"],
    "reclaimable --help": ["Usage: shardscrub reclaimable", "--accept <LINE>", "--last <G>", "\n  doubt last COUNTS G ",
                           "\n  doubt spare EXTENT OFFSET LENGTH UUID OWNER BYTES\n", "\n  doubt loose EXTENT OFFSET LENGTH UUID OWNER BYTES\n",
                           "\n  doubt crowded EXTENT ", "doubt tail EXTENT OFFSET BYTES",
                           "move EXTENT OFFSET LENGTH UUID OWNER BYTES", "\n  room EXTENT OFFSET BYTES ",
                           "\n  last-room EXTENT OFFSET BYTES ", "Exit status"],
    "compare --help": ["Usage: shardscrub compare", "--workers <COUNT>", "--reset <EXTENT>", "<BEFORE> <AFTER> [EXTENT:PAGE]...",
                       "\n  doubt before D, doubt after D ", "\n  generation BEFORE AFTER ", "\n  pointer EXTENT BEFORE AFTER ",
                       "\n  written EXTENT OFFSET ", "\n  named OWNER EXTENT OFFSET LENGTH UUID STATUS\n", "\n  lost LINE, new LINE ",
                       "\n  spare LINE ", "\n  loose LINE ", "\n  safe BEFORE AFTER ", "Exit status",
                       "\n  shardscrub compare --page 64 --pages 4 --extents 3 examples/one-shard.img examples/one-shard.img",
                       "\n  safe 1 1\n"],
    "sizes --help": ["Usage: shardscrub sizes", "--map <FILE>", "OFFSET KIND GENERATION PAGE PAGES EXTENTS", "lost FROM TO",
                     "Exit status", "\n  0 SSB1 1 64 4 3\n"],
}


class Arguments(AnswerCase):
    def said(self, words, *parts):
        """What is refused ends with status 2 and a text with these parts."""
        status, out, error = self.answer(words)
        what = " ".join(words) if isinstance(words, list) else words
        self.same(what, (status, out, error[:7]), (2, b"", b"error: "))
        for part in parts:
            self.true(f"{what}: the message has {part}", part.encode() in error, error)

    def test_invalid_arguments(self):
        for words in ("repair", "demo 1", "items", f"items {SMALL} --extent 1", f"items {SMALL} disk.img",
                      f"items {SMALL} --extent x disk.img", f"items {SMALL} --extent 4294967296 disk.img", f"scan {SMALL} --workers 65 disk.img",
                      f"index {SMALL}", f"locators {SMALL}", f"shard {SMALL} disk.img", f"shard --page 64 --id {ID} disk.img",
                      f"locators {SMALL} --extent 1 disk.img", f"superblocks {SMALL} --workers 1 disk.img",
                      f"reclaimable {SMALL} --accept tail disk.img", "sizes --page 64 disk.img", "sizes disk.img 1:0"):
            self.said(words)

    def test_a_refusal_says_what_is_wrong(self):
        for words, part in (("repair", "'repair'"), ("items --page 64 --pages 4 --extent 1 x", "--extents <COUNT>"),
                            (f"items {SMALL} --extent 1", "<IMAGE>"),
                            ("items --page 64 --pages 4 --extents 4294967296 --extent 1 x", "4294967296 is not in 0..=4294967295"),
                            ("items --page 64 --pages 0x4 --extents 3 --extent 1 x", "'0x4'"),
                            (f"scan {SMALL} --workers 65 x", "65 is not in 0..=64"), (f"items {SMALL} --extent 1 --workers 2 x", "--workers"),
                            (f"scan {SMALL}", "<IMAGE>"), (f"locators {SMALL} --extent 1 x", "--extent"),
                            (f"locators {SMALL} --workers 65 x", "65 is not in 0..=64"), (f"locators {SMALL}", "<IMAGE>"),
                            (f"reclaimable {SMALL} --accept tail --accept tie x", "invalid value 'tail' for '--accept <LINE>'"),
                            (f"manifest {SMALL} --reset x disk.img", "invalid value 'x' for '--reset <EXTENT>'"),
                            (f"manifest {SMALL} --reset 1 --reset 4294967296 disk.img", "4294967296 is not in 0..=4294967295"),
                            (f"locators {SMALL} --reset 1 disk.img", "--reset"), ("sizes --map disk.map", "<IMAGE>"),
                            ("demo --version", "--version"), ("version", "'version'"), ("sizes x --map a --map b", "--map")):
            self.said(words, part)

    def test_sizes_together_or_not_at_all(self):
        self.given(one_shard())
        for words, status in (("scan disk.img", 0), ("summary disk.img", 0), ("locators disk.img 1:3", 1)):
            self.same(words, self.answer(words)[::2], (status, b""))
        for words in ("scan --page 64 disk.img", "summary --page 64 --pages 4 disk.img", "superblocks --extents 3 disk.img",
                      "items --extent 1 --pages 4 --extents 3 disk.img"):
            self.said(words, "together or not at all")
        for words in ("index disk.img", "manifest disk.img", "reclaimable disk.img"):
            self.said(words, "--pages <COUNT>")

    def test_the_help(self):
        """It goes to the error stream, with status 0."""
        for words, parts in HELP.items():
            status, out, error = self.answer(words)
            self.same(words, (status, out), (0, b""))
            for part in parts:
                self.true(f"{words} has {part}", part.encode() in error, error)
        self.same("-h", self.answer("-h"), self.answer("--help"))

    def test_the_version(self):
        self.given()
        version = self.answer("--version")
        self.true("it is a version", version[0] == 0 and version[1].startswith(b"shardscrub ") and version[2] == b"", version)
        for words in ("-V", "--version demo"):
            self.same(words, self.answer(words), version)


class Outputs(AnswerCase):
    """An output that takes some bytes of a report, and then no more."""

    def check_each_number_of_bytes(self, words):
        library = FULL_OUTPUT.made(self.room)
        for room in range(len(ONE_SHARD) + 1):
            for fails in (True, False):
                status, out, error = run_full(self.program, words, library, room, fails)
                is_whole = room == len(ONE_SHARD)
                wanted = (0, b"") if is_whole else (3, f"shardscrub: output failed after {room} bytes\n".encode())
                self.same(f"{room} bytes, {'a fault' if fails else 'then 0'}", (status, error, out), (*wanted, ONE_SHARD[:room].encode()))

    def test_the_demo(self):
        self.check_each_number_of_bytes(["demo"])

    def test_a_scan(self):
        self.given(one_shard())
        self.check_each_number_of_bytes(["scan", *SMALL.split(), str(self.room / "disk.img")])

    def test_a_file_of_limited_size(self):
        path = self.room / "out"

        def limit(room):
            signal.signal(signal.SIGXFSZ, signal.SIG_IGN)
            resource.setrlimit(resource.RLIMIT_FSIZE, (room, room))

        for room in (0, 1, 10, len(ONE_SHARD) - 1):
            with open(path, "wb") as out:
                status, _, error = self.answer("demo", stdout=out, preexec_fn=lambda: limit(room))
            wanted = (3, f"shardscrub: output failed after {room} bytes\n".encode(), ONE_SHARD[:room].encode())
            self.same(f"{room} bytes", (status, error, path.read_bytes()), wanted)
        os.remove(path)
