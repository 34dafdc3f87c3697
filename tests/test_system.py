"""What the built program does with the system: files of all kinds, block devices, maps, arguments, both streams, system calls and
threads.

No contract can say what a file gives or what a stream takes, so no proof can replace these tests. Answers on images have to be
those of reference/shardscrub.py. Tests that need `strace` or a loop device are skipped if there is none; that block devices are opened is
tried without one, too.
"""
import os
import random
import resource
import shutil
import signal
import stat
import subprocess
import tempfile
from pathlib import Path
from typing import NamedTuple

from lib import disks
from lib.cases import RoomCase, add_tests
from lib.disks import Disk, frame, geometry, locator, record, shard, uuid
from lib.program import TOP, need, program
from lib.system import TOLD_KINDS, need_traces, opened, run_told, state, suspects, traced
from reference.shardscrub import Image, answered, broken_shards, items, read_map, scrub, shard_of, sizes, told

SECONDS = 300
MAP_SECONDS = 10
ONE_SHARD = str(TOP / "examples/one-shard.img")
SMALL = ["--page", "64", "--pages", "4", "--extents", "3"]
SEVERAL = ["--page", "64", "--pages", "16", "--extents", "5"]
SEVERAL_IMAGE = TOP / "examples/several-findings.img"
# The shard of the example of one shard. The other examples have one of that name, too.
SHARD_1 = ["--id", f"{1:032}"]
ON_IMAGE = (["scan", *SEVERAL], ["index", *SEVERAL], ["locators", *SEVERAL], ["superblocks", *SEVERAL], ["summary", *SEVERAL],
            ["manifest", *SEVERAL], ["reclaimable", *SEVERAL], ["items", *SEVERAL, "--extent", "3"],
            ["shard", *SEVERAL, *SHARD_1], ["shards", *SEVERAL], ["sizes"])
# Commands that find the sizes if they are left out.
UNSIZED = (["scan"], ["locators"], ["superblocks"], ["summary"], ["items", "--extent", "3"], ["shard", *SHARD_1], ["shards"])


def answer(*words, **more):
    """The status and both outputs of a run; None if it doesn't end."""
    given = {"stdin": subprocess.DEVNULL, "capture_output": True, "timeout": SECONDS, **more}
    try:
        run = subprocess.run([program(), *words], **given)
    except subprocess.TimeoutExpired:
        return None
    return run.returncode, run.stdout, run.stderr


def written(path, parts, size):
    """Makes a sparse file of `size` bytes, with parts at their places. Returns its name."""
    with open(path, "wb") as file:
        file.truncate(size)
        for place, part in parts:
            file.seek(place)
            file.write(part)
    return str(path)


def listed(lines, good):
    """The answer that prints these lines."""
    return 0 if good else 1, lines.encode(), b""


def items_of(raw, p, n, e, extent, pointer):
    """The answer of `items` by the reference."""
    return listed(*items(Image(raw, p, n, e, []), extent, pointer))


def shard_answer(found, name):
    """The answer of `shard` by the reference."""
    printed, wrong = shard_of(found, bytes.fromhex(name))
    return (0, printed, b"") if wrong is None else (1, printed, f"shardscrub: {wrong}\n".encode())


def some_shards(found):
    """The first shard of a disk, the last one, one in the middle, a broken one, and one that isn't there."""
    named = list(found.shard_map)
    some = [*named[:1], *named[-1:], *named[len(named) // 2:][:1], *broken_shards(found.checked)[:1]]
    return {*(identifier.hex() for identifier in some), "f" * 32}


def sizes_of(path, blocks=None):
    """The answer of `sizes` by the reference. It needs only the first 64 MiB."""
    with open(path, "rb") as file:
        lines, is_good, said = sizes(file.read(1 << 26), blocks)
    status, printed, _ = listed(lines, is_good)
    return status, printed, "".join(map(told, said)).encode()


class DiskCase(RoomCase):
    def check_disk(self, path, p, n, e, workers=(0, 1, 3, 64)):
        """Compares all answers on a disk with those of the reference. Scans run with several numbers of workers."""
        found, words = scrub(Image(Path(path).read_bytes(), p, n, e, [])), [*geometry(p, n, e), str(path)]
        last = str(found.choice["generation"] or 0)
        for command, *own in (["reclaimable", "--last", last], ["scan"]):
            right = answered([command, *own, *words])
            for number in workers:
                self.same(f"{command} with {number} workers", answer(command, *own, *words, "--workers", str(number)), right)
        for command in ("superblocks", "index", "locators"):
            self.same(command, answer(command, *words), answered([command, *words]))
        self.same("sizes", answer("sizes", path), sizes_of(path))
        for name in sorted(some_shards(found)):
            right = shard_answer(found, name)
            for number in workers:
                got = answer("shard", *words, "--workers", str(number), "--id", name)
                self.same(f"shard {name} with {number} workers", got, right)


class Files(DiskCase):
    """What the program reads from a file."""

    def test_large_pages(self):
        """Pages of 65,536 bytes, 4 MiB, and a chunk near the end. It is read from its place, not from the front."""
        p, n, e = 65536, 16, 4
        payload = random.Random(1).randbytes(70_000)
        chunk = frame(uuid(0x33), payload)
        place = p * n - len(chunk)
        parts = [(0, record(p, n, e, [0, 0, p * n], [])), (3 * p * n, b"\x01"), (3 * p * n + place, chunk)]
        path = written(self.room / "large-pages", parts, p * n * e)
        raw = Path(path).read_bytes()
        self.same("items", answer("items", *geometry(p, n, e), "--extent", "3", path), items_of(raw, p, n, e, 3, p * n))
        self.check_disk(path, p, n, e)

    def test_four_gibibytes(self):
        """The largest disk. Its last extent is read from its place, and a byte at 2^32 makes the image too long."""
        p, n, e = 65536, 1024, 64
        path = written(self.room / "largest", [((e - 1) * p * n, frame(uuid(0x44), b"abc"))], p * n * e)
        words = ["items", *geometry(p, n, e), "--extent", str(e - 1), "--pointer", "41", path]
        self.same("the last extent", answer(*words), (0, b"chunk 0 41 44444444-4444-4444-4444-444444444444 3\n", b""))
        os.truncate(path, p * n * e + 1)
        self.same("a byte more", answer(*words), (3, b"", b"shardscrub: image too long\n"))
        os.remove(path)

    def test_reads_that_fail(self):
        """A file that opens, but its reads fail. Its bytes are lost, never zeros."""
        words = ["items", *SMALL, "--extent", "1", "/proc/self/mem"]
        self.same("items", answer(*words), (1, b"lost 0 64\nlost 64 128\nlost 128 192\nlost 192 256\n", b""))
        status, out, error = answer("sizes", "/proc/self/mem")
        self.same("sizes", (status, out[:7], error), (1, b"lost 0 ", b""))

    def check_refusal(self, name):
        """What is neither a regular file nor a block device isn't opened."""
        refusal = (3, b"", f"shardscrub: image cannot be opened: {name}\n".encode())
        self.same("scan", answer("scan", *SMALL, name), refusal)
        self.same("sizes", answer("sizes", name), refusal)

    def test_a_folder_is_refused(self):
        self.check_refusal(str(self.room))

    def test_a_character_device_is_refused(self):
        self.check_refusal("/dev/null")

    def test_a_fifo_is_refused(self):
        os.mkfifo(self.room / "pipe")
        self.check_refusal(str(self.room / "pipe"))

    def test_no_file_is_refused(self):
        self.check_refusal(str(self.room / "nothing"))

    def test_a_link_to_a_file_is_read(self):
        link = self.room / "link"
        link.symlink_to(ONE_SHARD)
        self.same("scan", answer("scan", *SMALL, link), answer("scan", *SMALL, ONE_SHARD))

    def test_a_file_that_is_cut_short(self):
        """The example of one shard, cut to 668 bytes. The run is lost with its last pages."""
        path = self.room / "cut-short"
        path.write_bytes(Path(ONE_SHARD).read_bytes()[:668])
        self.check_disk(path, 64, 4, 3)

    def test_sizes_of_short_files(self):
        """Files of many lengths: without a record, with a record cut short, and with a whole record at the end."""
        small = record(64, 4, 3, [0, 0], [])
        for size in (0, 1, 63, 64, len(small) - 1, len(small), len(small) + 1, 511, 512, 513):
            path = written(self.room / "length", [(0, small[:size])], size)
            self.same(f"{size} bytes", answer("sizes", path), sizes_of(path))
        path = written(self.room / "cut", [(1024, small), (1280, small)], 1280 + len(small) - 1)
        self.same("a file that ends in a record", answer("sizes", path), sizes_of(path))

    def test_sizes_above_4_gib(self):
        """The record at 64 MiB isn't found: sizes looks only at the bytes before it."""
        largest, last = record(1024, 65536, 64, [0] * 63, []), (1 << 26) - 1024
        path = written(self.room / "long", [(0, largest), (last, largest), (1 << 26, largest)], (1 << 32) + 1)
        self.same("as the reference", answer("sizes", path), sizes_of(path))
        lines = f"0 SSB1 1 1024 65536 64\n{last} SSB1 1 1024 65536 64\n".encode()
        self.same("lines", answer("sizes", path), (0, lines, b""))
        os.remove(path)


COMMANDS = (["scan"], ["index"], ["locators"], ["shards"], ["summary"], ["manifest"], ["reclaimable"], ["superblocks"],
            ["items", "--extent", "2"], ["shard", *SHARD_1])


class Maps(RoomCase):
    """Maps of GNU ddrescue as files."""
    TEXT = b"# a comment\xff\n\n0x0 ?\n0 0x80 +\n0x80 64 -\n0300 576 +\n"

    def given_map(self, text):
        path = self.room / "map"
        path.write_bytes(text)
        return str(path)

    def check_form(self, form):
        """A map gives the same answers as pairs."""
        path, pairs = self.given_map(form), ["0:2"]
        for command in COMMANDS:
            right = answer(*command, *SMALL, ONE_SHARD, *pairs)
            self.same(command[0], answer(*command, *SMALL, "--map", path, ONE_SHARD), right)
            self.same(f"{command[0]}, and a pair", answer(*command, *SMALL, "--map", path, ONE_SHARD, "2:0"),
                      answer(*command, *SMALL, ONE_SHARD, *pairs, "2:0"))
        self.same("sizes", answer("sizes", "--map", path, ONE_SHARD), sizes_of(ONE_SHARD, read_map(form)))

    def test_a_map(self):
        self.check_form(self.TEXT)

    def test_a_file_that_ends_within_a_block(self):
        """For `sizes` only bytes before the end of the file count. It has 768 bytes."""
        for text in (b"0 +\n0 768 +\n", b"0 +\n0 767 +\n", b"0 +\n0 768 +\n768 64 -\n", b"0 +\n0 767 +\n768 64 +\n"):
            right = sizes_of(ONE_SHARD, read_map(text))
            self.same(f"{text!r}", answer("sizes", "--map", self.given_map(text), ONE_SHARD), right)

    def test_carriage_returns(self):
        self.check_form(self.TEXT.replace(b"\n", b"\r\n"))

    def test_no_last_line_feed(self):
        self.check_form(self.TEXT[:-1])

    def test_tabs(self):
        self.check_form(self.TEXT.replace(b" ", b"\t "))

    def test_blocks_past_the_end(self):
        self.check_form(self.TEXT + b"768 0 -\n99999999 1 *\n")

    def test_a_map_of_the_whole_image(self):
        path = self.given_map(b"0 ?\n0 768 +\n")
        self.same("scan", answer("scan", *SMALL, "--map", path, ONE_SHARD), answer("scan", *SMALL, ONE_SHARD))

    def test_a_link_to_a_map(self):
        link = self.room / "link-to-map"
        link.symlink_to(self.given_map(b"0 ?\n0 768 +\n"))
        self.same("scan", answer("scan", *SMALL, "--map", link, ONE_SHARD), answer("scan", *SMALL, ONE_SHARD))

    def check_refusal(self, name):
        """What is neither a regular file nor a block device is no map. A file with a failing read is no map either."""
        refusal = (3, b"", f"shardscrub: map cannot be opened: {name}\n".encode())
        for command in COMMANDS:
            self.same(command[0], answer(*command, *SMALL, "--map", name, "/nothing/here"), refusal)
        self.same("sizes", answer("sizes", "--map", name, "/nothing/here"), refusal)

    def test_a_folder_is_refused(self):
        self.check_refusal(str(self.room))

    def test_a_character_device_is_refused(self):
        self.check_refusal("/dev/null")

    def test_a_fifo_is_refused(self):
        os.mkfifo(self.room / "pipe")
        self.check_refusal(str(self.room / "pipe"))

    def test_no_file_is_refused(self):
        self.check_refusal(str(self.room / "no-map"))

    def test_a_failing_read_is_refused(self):
        self.check_refusal("/proc/self/mem")

    def test_a_wrong_pair_comes_before_the_map(self):
        refusal = (2, b"", b"shardscrub: bad page refused: 3:0\n")
        self.same("scan", answer("scan", *SMALL, "--map", str(self.room), ONE_SHARD, "3:0"), refusal)

    def test_wrong_lines_are_refused(self):
        """The refusal has the number of the first wrong line, and comes before the image is opened."""
        state = b"0 ?\n"
        for text, line in [
            (b"", 1), (b"\n", 2), (b"# a", 2), (b"# a\n\n", 3), (b"0\n", 1), (b"0 x\n", 1), (b"0 + 1 2\n", 1), (b"0 + 0x1\n", 1),
            (b"-1 +\n", 1), (b"\xff\n", 1), (state + b"0 1\n", 2), (state + b"0 1 F\n", 2), (state + b"0 08 +\n", 2),
            (state + b"0x 1 +\n", 2), (state + b"+0 1 +\n", 2), (state + b"0 1 + 1\n", 2), (state + b"0 1 + #\n", 2),
            (state + b"0 9223372036854775807 +\n9223372036854775807 1 +\n", 3), (state + b"9223372036854775808 0 +\n", 2),
            (state + b"0x7FFFFFFFFFFFFFFF 1 +\n", 2), (state + b"8 8 +\n# a\n15 1 +\nx\n", 4), (state + b"0 1 +\r\r\n", 2),
            (state + b"0 99999999999999999999999999 +\n", 2), (state + b"0 1 +\n\n0 1 +\n", 4), (state + b"0,1 +\n", 2),
        ]:
            path = self.given_map(text)
            refusal = (2, b"", f"shardscrub: map refused: line {line}\n".encode())
            self.same(f"{text!r}", answer("scan", *SMALL, "--map", path, "/nothing/here"), refusal)
            self.same(f"{text!r}, sizes", answer("sizes", "--map", path, "/nothing/here"), refusal)

    def check_long_map(self, last, right):
        """A map of a million lines is read in seconds of a processor, however many other programs there are."""
        lines = [b"0x00000000     ?"] + [b"0x%08X  0x00000200  +" % (512 * i) for i in range(1_000_000 - 1)]
        path = self.given_map(b"\n".join([*lines[:-1], last or lines[-2]]))
        before = os.times()
        self.same("scan", answer("scan", *SMALL, "--map", path, ONE_SHARD), right)
        after = os.times()
        took = after.children_user + after.children_system - before.children_user - before.children_system
        self.true(f"in {MAP_SECONDS} seconds", took < MAP_SECONDS, took)

    def test_a_million_lines(self):
        self.check_long_map(b"0x%08X  0x00000200  +" % (512 * 999_998), answer("scan", *SMALL, ONE_SHARD))

    def test_a_million_lines_with_a_wrong_last_one(self):
        self.check_long_map(None, (2, b"", b"shardscrub: map refused: line 1000000\n"))


class LargeDisks(DiskCase):
    def test_65536_items(self):
        """65,536 items in an extent: an answer of over a MiB."""
        p, n, e = 64, 65536, 2
        path = written(self.room / "items", [(p * n + 64 * i, b"\x01") for i in range(0, n, 3)], p * n * e)
        raw = Path(path).read_bytes()
        self.same("items", answer("items", *geometry(p, n, e), "--extent", "1", path), items_of(raw, p, n, e, 1, p * n))

    def test_65535_extents(self):
        """The most extents, of one page each."""
        p, n, e = 64, 1, 65536
        chunk = frame(uuid(0x55), b"abc")
        path = written(self.room / "extents", [(x * p, chunk) for x in range(1, e)], p * n * e)
        self.check_disk(path, p, n, e, (0, 3, 64))

    def test_3000_candidates(self):
        p, n, e = 64, 256, 3001
        chunk = frame(uuid(0x55), b"abc")
        parts = [(0, record(p, n, e, [41] * (e - 1), []))] + [(x * p * n, chunk) for x in range(1, e)]
        path = written(self.room / "candidates", parts, p * n * e)
        self.check_disk(path, p, n, e, (0, 3, 64))

    def test_50000_shards(self):
        """50,000 shards of one chunk each, in one run. Every thousandth chunk is damaged."""
        p, n, e = 4096, 2048, 3
        c = random.Random(2)
        parts, entries, place = [], [], 0
        for number in range(50_000):
            name, payload = c.randbytes(16), c.randbytes(c.randrange(100))
            chunk = frame(name, payload)
            entries.append((c.randbytes(16), [locator(1, place, name, payload)]))
            parts.append((p * n + place, chunk if number % 1000 else chunk[:-1] + bytes([chunk[-1] ^ 1])))
            place += len(chunk)
        run, name = disks.run(*sorted(entries)), c.randbytes(16)
        chunk = frame(name, run)
        parts += [(2 * p * n, chunk), (0, record(p, n, e, [place, len(chunk)], [locator(2, 0, name, run)]))]
        path = written(self.room / "shards", parts, p * n * e)
        self.check_disk(path, p, n, e, (0, 3, 64))


class Stage(NamedTuple):
    """A fault: the part of the arguments that has it, the words that lead to it, the status, and its line."""
    part: str
    words: list
    status: int
    text: str


class Faults(RoomCase):
    """The order in which faults are found. Each comes before all later ones, whether these apply or not."""
    # The faults of what a command alone takes, in their order, and the right words.
    OWN = {"manifest": ([Stage("reset", ["--reset", "3"], 2, "extent out of range")], {"reset": ["--reset", "1"]}),
           "items": ([Stage("extent", ["--extent", "3"], 2, "extent out of range"),
                      Stage("pointer", ["--pointer", "257"], 2, "pointer out of range")],
                     {"extent": ["--extent", "1"], "pointer": []}),
           "shard": ([Stage("id", ["--id", "x"], 2, "shard refused: x")], {"id": SHARD_1})}

    def files(self):
        """The stages of the map; of an image that isn't there, that is too long, and that has no sizes; and the right words."""
        raw = Path(ONE_SHARD).read_bytes()
        for name, text in (("longer", raw + b"x"), ("map", b"0 ?\n0 4096 +\n"), ("no-map", b"0 ?\n0 1 x\n")):
            (self.room / name).write_bytes(text)
        map_stages = [Stage("map", ["--map", "/nothing/map"], 3, "map cannot be opened: /nothing/map"),
                      Stage("map", ["--map", str(self.room / "no-map")], 2, "map refused: line 2")]
        no_image = Stage("image", ["/nothing/image"], 3, "image cannot be opened: /nothing/image")
        too_long = Stage("image", [str(self.room / "longer")], 3, "image too long")
        no_sizes = Stage("image", [str(TOP / "examples/no-superblock.img")], 2, "sizes not found: run shardscrub sizes")
        return map_stages, no_image, too_long, no_sizes, {"map": ["--map", str(self.room / "map")], "image": [ONE_SHARD]}

    def check_order(self, command, stages, right):
        """Runs the command with the faults from each stage on, and then without any."""
        for number, stage in enumerate(stages):
            later = {}
            for other in reversed(stages[number:]):
                later[other.part] = other.words
            words = [command, *(word for part in right for word in later.get(part, right[part]))]
            self.same(" ".join(words), answer(*words), (stage.status, b"", f"shardscrub: {stage.text}\n".encode()))
        words = [command, *(word for part in right for word in right[part])]
        self.same(" ".join(words), answer(*words), answered(words))

    def check_with_sizes(self, command):
        own, given = self.OWN.get(command, ([], {}))
        map_stages, no_image, too_long, _, files = self.files()
        stages = [Stage("sizes", geometry(60, 4, 3), 2, "geometry refused: PageSize"), *own,
                  Stage("pairs", ["0:3", "1:4", "3:0"], 2, "bad page refused: 1:4"), *map_stages, no_image, too_long]
        self.check_order(command, stages, {"sizes": SMALL, **given, **files, "pairs": ["0:3"]})

    def check_without_sizes(self, command):
        own, given = self.OWN.get(command, ([], {}))
        map_stages, no_image, too_long, no_sizes, files = self.files()
        stages = [*map_stages, no_image, no_sizes, *own, Stage("pairs", ["0:3", "1:4"], 2, "bad page refused: 1:4"), too_long]
        self.check_order(command, stages, {**given, **files, "pairs": ["0:3"]})

    def test_refused_arguments_come_first(self):
        """Whatever else is wrong."""
        wrong = [*geometry(60, 4, 3), "--map", "/nothing/map", "/nothing/image", "9:9"]
        for words, part in ((["shard", *wrong], b"--id"), (["shard", "--id", "x", "--id", "y", *wrong], b"--id"),
                            (["shard", "--id", "x", *wrong[2:]], b"--page "), (["items", *wrong], b"--extent"),
                            (["shard", "--id", "x", "--workers", "65", *wrong], b"65")):
            status, out, error = answer(*words)
            self.same(" ".join(words), (status, out), (2, b""))
            self.true(f"{' '.join(words)}: the message has {part}", error.startswith(b"error: ") and part in error, error)


add_tests(Faults, Faults.check_with_sizes, [(f"{command[0]} with sizes", command[0]) for command in COMMANDS])
add_tests(Faults, Faults.check_without_sizes, [(f"{command} without sizes", command)
                                               for command in ("scan", "summary", "locators", "shards", "superblocks", "items", "shard")])


class Words(RoomCase):
    """Arguments, refusals and help."""

    def test_twelve_pairs(self):
        pairs = [(x, g) for x in range(3) for g in range(4)]
        words = ["scan", *SMALL, ONE_SHARD, *(f"{x}:{g}" for x, g in pairs)]
        self.same("scan", answer(*words), answered(words))

    def test_names_of_images(self):
        """The program gets all arguments as they were typed, and names in UTF-8 of any kind."""
        right = answer("scan", *SMALL, ONE_SHARD)
        for name in ["a name with spaces", "n" * 255, "Datenträger", "-dash"]:
            path = self.room / name
            shutil.copy(ONE_SHARD, path)
            self.same(f"an image named {name[:20]}", answer("scan", *SMALL, path), right)

    def test_an_argument_that_is_not_utf_8(self):
        refusal = (2, b"", b"shardscrub: a word is not UTF-8\n")
        self.same("scan", answer("scan", *SMALL, os.fsencode(self.room) + b"/\xff"), refusal)

    def test_the_demo(self):
        self.same("no arguments", answer(), answer("demo"))
        self.same("the demo", answer(), answer("scan", *SMALL, ONE_SHARD))

    def test_refusals(self):
        """Each refusal has its status, its whole text and no output."""
        for words, status, text in [
            (["items", *geometry(60, 4, 3), "--extent", "1", "x"], 2, "geometry refused: PageSize"),
            (["scan", *geometry(64, 0, 3), "x"], 2, "geometry refused: Pages"),
            (["scan", *geometry(64, 4, 1), "x"], 2, "geometry refused: Extents"),
            (["scan", *geometry(65536, 65536, 2), "x"], 2, "geometry refused: ExtentBytes"),
            (["scan", *geometry(65536, 1024, 65), "x"], 2, "geometry refused: TotalBytes"),
            (["items", *SMALL, "--extent", "3", "x"], 2, "extent out of range"),
            (["items", *SMALL, "--extent", "1", "--pointer", "257", "x"], 2, "pointer out of range"),
            (["items", *SMALL, "--extent", "1", "x", "1:4"], 2, "bad page refused: 1:4"),
            (["scan", *SMALL, "x", "1:x"], 2, "bad page refused: 1:x"),
            (["scan", *SMALL, "/nothing/here"], 3, "image cannot be opened: /nothing/here"),
            (["superblocks", *SMALL, "x", "1:4"], 2, "bad page refused: 1:4"),
            (["reclaimable", *geometry(64, 4, 1), "x"], 2, "geometry refused: Extents"),
            (["sizes", "/nothing/here"], 3, "image cannot be opened: /nothing/here"),
            (["shard", *geometry(60, 4, 3), *SHARD_1, "x"], 2, "geometry refused: PageSize"),
            (["shard", *SMALL, "--id", "1", "x"], 2, "shard refused: 1"),
            (["shard", *SMALL, "--id", "", "x"], 2, "shard refused: "),
            (["shard", *SMALL, "--id", "0" * 31 + "g", "x"], 2, f"shard refused: {'0' * 31}g"),
            (["shard", *SMALL, *SHARD_1, "x", "1:4"], 2, "bad page refused: 1:4"),
            (["shard", *SMALL, *SHARD_1, "/nothing/here"], 3, "image cannot be opened: /nothing/here"),
            (["shard", *SMALL, "--id", "0" * 32, ONE_SHARD], 1, "no such shard"),
            (["shard", *SMALL, *SHARD_1, ONE_SHARD, "1:0"], 1, "payload lost: 00"),
        ]:
            self.same(f"{words[0]}: {text}", answer(*words), (status, b"", f"shardscrub: {text}\n".encode()))

    def test_refused_words(self):
        """The message of a refused word has the word."""
        for words, part in [
            (["scan", *SMALL, "--workers", "65", ONE_SHARD], b"65"),
            (["superblocks", *SMALL, "--workers", "1", ONE_SHARD], b"--workers"),
            (["reclaimable", *SMALL, "--accept", "tie", ONE_SHARD], b"tie"),
            (["scan", *SMALL, "--accept", "tail 1 0 1", ONE_SHARD], b"--accept"),
            (["scan", *SMALL, "--last", "1", ONE_SHARD], b"--last"),
            (["scan", *SMALL, *SHARD_1, ONE_SHARD], b"--id"),
            (["shard", *SMALL, ONE_SHARD], b"--id"),
            (["shard", ONE_SHARD], b"--id"),
            (["shard", *SMALL, ONE_SHARD, "--id"], b"--id"),
            (["shard", *SMALL, *SHARD_1, *SHARD_1, ONE_SHARD], b"--id"),
            (["shard", *SMALL, "--id", "-1", ONE_SHARD], b"-1"),
            (["shard", *SMALL, *SHARD_1], b"IMAGE"),
            (["shard", *SMALL, *SHARD_1, "--workers", "65", ONE_SHARD], b"65"),
            (["shard", *SMALL, *SHARD_1, "--reset", "1", ONE_SHARD], b"--reset"),
            (["shard", *SMALL, *SHARD_1, "--extent", "1", ONE_SHARD], b"--extent"),
            (["shard", *SMALL[:2], *SHARD_1, ONE_SHARD], b"--pages"),
            (["shard", *SMALL[2:], *SHARD_1, ONE_SHARD], b"--page "),
            (["sizes", *SMALL, ONE_SHARD], b"--page"),
            (["sizes", ONE_SHARD, "0:1"], b"0:1"),
            (["sizes"], b"IMAGE"),
        ]:
            self.check_refused_words(words, part)

    def check_refused_words(self, words, part):
        status, out, error = answer(*words)
        self.same(" ".join(words), (status, out), (2, b""))
        self.true(f"{' '.join(words)}: the message has {part}", part in error and len(error) > 16, error)

    def test_help(self):
        for words in [["--help"]] + [[command[0], "--help"] for command in ON_IMAGE]:
            status, out, error = answer(*words)
            self.same(" ".join(words), (status, out, len(error) > 500 and error.endswith(b"\n")), (0, b"", True))


class Streams(RoomCase):
    """Outputs that fail. Then nothing but that is said, also of a shard of which a newer entry may be lost."""
    SCAN = ["scan", *SMALL, ONE_SHARD]
    SHARD = ["shard", *SMALL, *SHARD_1, ONE_SHARD]
    DOUBTFUL = ["shard", *geometry(64, 4, 4), *SHARD_1, str(TOP / "examples/lost-run.img")]
    DOUBT = b"shardscrub: a newer entry may be lost\n"

    def answer_to(self, out, words, **more):
        """The status and the error stream of a run with this output."""
        found = answer(*words, capture_output=False, stdout=out, stderr=subprocess.PIPE, **more)
        return found and (found[0], found[2])

    def answer_to_full(self, words):
        with open("/dev/full", "wb") as full:
            return self.answer_to(full, words)

    def answer_without_reader(self, words):
        reader, writer = os.pipe()
        os.close(reader)
        found = self.answer_to(writer, words)
        os.close(writer)
        return found

    def test_a_full_output(self):
        for words in (self.SCAN, self.SHARD, self.DOUBTFUL):
            self.same(" ".join(words), self.answer_to_full(words), (3, b"shardscrub: output failed after 0 bytes\n"))

    def test_an_output_without_a_reader(self):
        for words in (self.SCAN, self.SHARD, self.DOUBTFUL):
            self.same(" ".join(words), self.answer_without_reader(words), (3, b"shardscrub: output failed after 0 bytes\n"))

    def test_nothing_to_write_cannot_fail(self):
        """A shard without bytes, with its chunk and without, sure and doubtful; a lost payload; and no shard."""
        disk = Disk(8, 4)
        disk.chunk(1, 0, uuid(0x11), b"")
        entries = ((shard(1), [locator(1, 0, uuid(0x11), b"")]), (shard(2), [locator(1, 0, uuid(0x12), b"de")]),
                   (shard(4), [locator(1, 0, uuid(0x12), b"")]))
        older = disk.chunk(2, 0, uuid(0x22), disks.run(*entries))
        for newer, runs in ((b"", [older]), (self.DOUBT, [locator(3, 0, uuid(0x33), b"lost"), older])):
            disk.superblock(0, 1, *runs)
            path = written(self.room / "nothing", [(0, bytes(disk.bytes))], len(disk.bytes))
            empty = (1 if newer else 0, newer)
            for number, right in ((1, empty), (2, (1, b"shardscrub: payload lost: 00\n")),
                                  (3, (1, b"shardscrub: no such shard\n")), (4, empty)):
                words = ["shard", *disk.geometry(), "--id", shard(number).hex(), path]
                self.same(f"shard {number} of {len(runs)} runs", answer(*words), (right[0], b"", right[1]))
                self.same(f"shard {number} of {len(runs)} runs, full", self.answer_to_full(words), right)
                self.same(f"shard {number} of {len(runs)} runs, no reader", self.answer_without_reader(words), right)

    def check_each_number_of_bytes(self, words, wanted):
        """The output fails after each number of bytes, and then not at all. The limit of this process is that of the program, which
        ignores the signal as this process does."""
        path, limits = self.room / "short", resource.getrlimit(resource.RLIMIT_FSIZE)
        self.same("the signal", signal.getsignal(signal.SIGXFSZ), signal.SIG_IGN)
        status, whole, error = wanted
        for size in range(len(whole) + 1):
            with open(path, "wb") as out:
                resource.setrlimit(resource.RLIMIT_FSIZE, (size, limits[1]))
                try:
                    found = self.answer_to(out, words, restore_signals=False)
                finally:
                    resource.setrlimit(resource.RLIMIT_FSIZE, limits)
            right = (3, f"shardscrub: output failed after {size} bytes\n".encode()) if size < len(whole) else (status, error)
            self.same(f"{size} bytes", (found, path.read_bytes()), (right, whole[:size]))

    def test_a_report_that_fails_after_each_number_of_bytes(self):
        wanted = answered(self.SCAN)
        self.true("the report is long enough", len(wanted[1]) > 500, len(wanted[1]))
        self.check_each_number_of_bytes(self.SCAN, wanted)

    def test_a_shard_that_fails_after_each_number_of_bytes(self):
        several = ["shard", *SEVERAL, *SHARD_1, str(SEVERAL_IMAGE)]
        self.check_each_number_of_bytes(several, (0, b"the first shard, written anew at 12", b""))

    def test_a_doubtful_shard_that_fails_after_each_number_of_bytes(self):
        self.check_each_number_of_bytes(self.DOUBTFUL, (1, b"abc", self.DOUBT))

    def test_an_error_stream_that_fails(self):
        """The bytes and the status are the same."""
        for words, right in ((self.DOUBTFUL, (1, b"abc")), (["shard", *SMALL, "--id", "0" * 32, ONE_SHARD], (1, b""))):
            with open("/dev/full", "wb") as full:
                status, out, _ = answer(*words, capture_output=False, stdout=subprocess.PIPE, stderr=full)
            self.same(" ".join(words), (status, out), right)


class Calls(RoomCase):
    """What the program asks of the system."""

    def setUp(self):
        need_traces()

    def test_a_report_is_written_at_once(self):
        _, calls = traced(self.room, "scan", *SMALL, ONE_SHARD)
        self.same("writes", sum(name in ("write", "writev") and given.startswith("1, ") for name, given, _ in calls), 1)

    def check_changes_nothing(self, runs):
        """Traces these runs with an answer, a refusal and an output that fails. Files are opened only for reading, and in the
        image's folder only the named ones. Only the streams 1 and 2 are written. No other call may change anything. Image, map
        and folder are the same afterwards."""
        folder = tempfile.TemporaryDirectory(dir=self.room)
        self.addCleanup(folder.cleanup)
        kept = folder.name
        raw = SEVERAL_IMAGE.read_bytes()
        for name, text in [("image", raw), ("longer", raw + b"\0"), ("map", b"0 ?\n0 5000 +\n"), ("no-map", b"0 ?\n0 1 x\n"),
                           ("whole", f"0 ?\n0 {len(raw)} +\n".encode())]:
            Path(kept, name).write_bytes(text)
        for words, files in runs:
            for stream in (subprocess.PIPE, "/dev/full"):
                out = stream if stream == subprocess.PIPE else os.open(stream, os.O_WRONLY)
                where = {"cwd": kept, "capture_output": False, "stdout": out, "stderr": subprocess.PIPE}
                before = state(kept)
                found, calls = traced(self.room, *words, **where)
                right = answer(*words, **where)
                after = state(kept)
                what = f"{' '.join(words)!r} to {'a pipe' if stream == subprocess.PIPE else stream}"
                self.same(f"{what}, calls that may change something", suspects(calls), [])
                self.same(f"{what}, files that are opened", opened(calls), files)
                self.true(f"{what}, files before and after", after == before)
                self.same(f"{what}, answer", found, right)
                if out != subprocess.PIPE:
                    os.close(out)

    def test_no_image(self):
        self.check_changes_nothing([([], []), (["--help"], []), (["repair"], [])])

    def test_compare_changes_nothing(self):
        """It opens the map, then the earlier image, then the later one."""
        command, runs = ["compare", *SEVERAL, "--reset", "2"], []
        for given in ([], ["--map", "map"]):
            for before, after in (("image", "image"), ("image", "longer"), ("image", "nothing"), ("longer", "image"), ("nothing", "image")):
                files = [name for name in [before, *[after] * (before == "image")] if name != "nothing"]
                runs.append(([*command, *given, before, after], [*given[1:], *files]))
        self.check_changes_nothing([*runs, ([*command, "--map", "no-map", "image", "image"], ["no-map"])])

    def check_left_out(self, command):
        """Sizes that are left out are found in the same files from which the pages are loaded: map and image are opened once. So it is
        if the image is too long, if no sizes are found in it, because the map lacks bytes or there is no record, or if a page is refused
        once they are found."""
        runs = [([*command, *given, name, *pages], [*given[1:], name])
                for given in ([], ["--map", "whole"], ["--map", "map"]) for name in ("image", "longer", "whole")
                for pages in ([], ["2:1"], ["9:9"])]
        self.check_changes_nothing([*runs, ([*command, "--map", "no-map", "image"], ["no-map"]), ([*command, "--map", "map", "nothing"], ["map"])])

    def check_command(self, command):
        runs = []
        for given in ([], ["--map", "map"]):
            runs += [([*command, *given, name], [*given[1:], name]) for name in ("image", "longer")]
            runs.append(([*command, *given, "nothing"], given[1:]))
        self.check_changes_nothing([*runs, ([*command, "--map", "no-map", "image"], ["no-map"])])


add_tests(Calls, Calls.check_command, [(f"{command[0]} changes nothing", command) for command in ON_IMAGE])
add_tests(Calls, Calls.check_left_out, [(f"{command[0]} opens each file once", command) for command in UNSIZED])


class Threads(RoomCase):
    """`--workers N` starts N threads, and a command that doesn't scan the disk starts none. All threads of a run are counted, so
    `scan` and `index` start two more, which find the twins and make the index. The disk has no superblock, so there are no runs
    and locators for other threads to check."""
    DISK = [*SMALL, str(TOP / "examples/no-superblock.img")]

    def setUp(self):
        need_traces()

    def started(self, *words):
        """How many threads a run starts, without the main thread."""
        _, calls = traced(self.room, *words)
        return sum(name in ("clone", "clone3") and gave.isdigit() for name, _, gave in calls)

    def check_workers(self, command, others, disk=DISK):
        for number in (0, 1, 3, 64):
            self.same(f"{number} workers", self.started(command, "--workers", str(number), *disk), number + others)
        self.same("without the option", self.started(command, *disk), 1 + others)

    def test_scan(self):
        self.check_workers("scan", 2)

    def test_index(self):
        self.check_workers("index", 2)

    def test_locators(self):
        self.check_workers("locators", 0)

    def test_reclaimable(self):
        self.check_workers("reclaimable", 0)

    def test_shard(self):
        """Of a shard that is there: its run and its chunk are sound."""
        self.check_workers("shard", 0, [*SMALL, *SHARD_1, ONE_SHARD])

    def test_items(self):
        self.same("threads", self.started("items", "--extent", "1", *self.DISK), 0)

    def test_superblocks(self):
        self.same("threads", self.started("superblocks", *self.DISK), 0)

    def test_sizes(self):
        self.same("threads", self.started("sizes", self.DISK[-1]), 0)

    def test_the_demo(self):
        self.same("threads", self.started(), 2 + 2)


class Devices(RoomCase):
    """Block devices: loop devices over files, which are always removed again. They could be written to."""

    def setUp(self):
        need("losetup")
        folder = tempfile.TemporaryDirectory(dir=self.room)
        self.addCleanup(folder.cleanup)
        self.kept = folder.name

    def device(self, name, text):
        """A block device with these bytes, and the file beneath it. The test is skipped if no device can be made."""
        path = os.path.join(self.kept, name)
        Path(path).write_bytes(text)
        run = subprocess.run(["losetup", "--find", "--show", path], stdin=subprocess.DEVNULL, capture_output=True, timeout=SECONDS)
        if run.returncode != 0:
            self.skipTest(f"no loop device can be made: {run.stderr.decode(errors='replace').strip()}")
        made = run.stdout.decode().strip()
        self.addCleanup(subprocess.run, ["losetup", "--detach", made], check=True, timeout=SECONDS)
        return made, path

    def device_for_map(self):
        lines = b"0 ?\n0 4096 +\n4096 512 -\n# "
        return self.device("map", lines + b"x" * (511 - len(lines)) + b"\n")

    def runs(self, map_file):
        short, long = geometry(64, 16, 4), geometry(64, 16, 6)
        return [*ON_IMAGE, ["scan", *short], ["scan", *long], ["items", *long, "--extent", "5"], ["scan", *SEVERAL, "--map", map_file]]

    def test_a_device_as_an_image(self):
        """Each command answers on a block device as on the file, and changes neither."""
        device, image = self.device("image", SEVERAL_IMAGE.read_bytes())
        _, map_file = self.device_for_map()

        def current():
            stats = os.stat(device)
            return Path(device).read_bytes(), stats.st_mtime_ns, stats.st_ctime_ns, state(self.kept)

        before = current()
        for words in self.runs(map_file):
            self.same(" ".join(words), answer(*words, device), answer(*words, image))
        self.true("the device before and after", current() == before)

    def test_calls_on_a_device(self):
        need_traces()
        device, image = self.device("image", SEVERAL_IMAGE.read_bytes())
        _, map_file = self.device_for_map()
        for words in self.runs(map_file):
            found, calls = traced(self.room, *words, device)
            self.same(f"{' '.join(words)}, calls that may change something", (found, suspects(calls)), (answer(*words, image), []))

    def test_a_device_as_a_map(self):
        device, image = self.device("image", SEVERAL_IMAGE.read_bytes())
        map_device, map_file = self.device_for_map()
        for command in ON_IMAGE:
            right = answer(*command, "--map", map_file, image)
            self.same(command[0], answer(*command, "--map", map_device, device), right)


class ToldDevices(RoomCase):
    """Files that a C library of the tests tells to be block devices, or of another kind, where no loop device can be made."""
    KINDS = {"a folder": stat.S_IFDIR, "a character device": stat.S_IFCHR, "a fifo": stat.S_IFIFO, "a socket": stat.S_IFSOCK,
             "a link": stat.S_IFLNK, "of no kind": 0}

    @classmethod
    def setUpClass(cls):
        super().setUpClass()
        cls.library = TOLD_KINDS.made(cls.room)
        cls.image, cls.map_file = str(cls.room / "image"), str(cls.room / "map")
        Path(cls.image).write_bytes(SEVERAL_IMAGE.read_bytes())
        Path(cls.map_file).write_bytes(b"0 ?\n0 4096 +\n4096 512 -\n")

    def told(self, kind, words, *files):
        """The answer of a run in which these files are told to be of this kind."""
        got, count = run_told(self.program, words, self.library, kind, *files)
        self.true(f"{' '.join(words)}: each file is told to be of the kind", count >= len(files), count)
        return got

    def test_what_is_told_to_be_a_block_device_is_an_image(self):
        """Each command answers as on the file."""
        short, long = geometry(64, 16, 4), geometry(64, 16, 6)
        for words in (*ON_IMAGE, ["scan", *short], ["scan", *long], ["items", *long, "--extent", "5"]):
            self.same(" ".join(words), self.told(stat.S_IFBLK, [*words, self.image], self.image), answer(*words, self.image))

    def test_what_is_told_to_be_a_block_device_is_a_second_image(self):
        words, second = ["compare", *SEVERAL, self.image], str(self.room / "second")
        Path(second).write_bytes(Path(self.image).read_bytes())
        self.same("compare", self.told(stat.S_IFBLK, [*words, second], self.image, second), answer(*words, second))

    def test_what_is_told_to_be_a_block_device_is_a_map(self):
        for command in ON_IMAGE:
            words = [*command, "--map", self.map_file, self.image]
            for files in ([self.map_file], [self.map_file, self.image]):
                self.same(f"{command[0]}, {len(files)} told", self.told(stat.S_IFBLK, words, *files), answer(*words))

    def test_what_is_told_to_be_neither_a_file_nor_a_block_device_is_refused(self):
        for what, kind in self.KINDS.items():
            refusal = (3, b"", f"shardscrub: image cannot be opened: {self.image}\n".encode())
            for words in ON_IMAGE:
                self.same(f"{words[0]}, {what}", self.told(kind, [*words, self.image], self.image), refusal)
            refusal = (3, b"", f"shardscrub: map cannot be opened: {self.map_file}\n".encode())
            words = ["scan", *SEVERAL, "--map", self.map_file, self.image]
            self.same(f"a map, {what}", self.told(kind, words, self.map_file), refusal)
