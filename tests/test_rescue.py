"""A dead node's disk: `act/rescue`, the maps of several rescues, and what is left of what the node had.

Worked disks have a right answer that was written by hand; on made-up ones a node has worked, and what it had is known.
tests/fuzz/rescue.py has more of these.
"""
import os
import random
import resource
import shutil
import signal
import subprocess
import sys
import tempfile
import time
from pathlib import Path

from lib.cases import Case, RoomCase, add_tests
from lib.disks import Disk, run, shard, uuid
from lib.program import TOP, need
from lib.rescues import KINDS, PLACES, Rescuer, deads, judged
from reference.shardscrub import Image, lost_by_map, read_map, records_of, uuid_text

sys.path.insert(0, str(TOP / "act"))
from maps import one_map  # noqa: E402

RESCUE, SECONDS = TOP / "act/rescue", 60
STATE = "0x0 + 1"


# Several maps

def map_of(choice):
    """A map, with gaps, blocks without a byte, and numbers of all three kinds."""
    lines, at = ["# a map", STATE], choice.choice([0, 0, 5])
    for _ in range(choice.randrange(9)):
        at += choice.choice([0, 0, 0, 1, 70])
        size = choice.choice([0, 1, 3, 60, 64, 64, 128, 200])
        lines.append(f"{choice.choice(['{0}', '0x{0:X}', '0{0:o}']).format(at)}\t{size} {choice.choice('+++?*/-')}")
        at += size
    return "\n".join(lines) + choice.choice(["\n", "", "\r\n"])


def lost(text, size, count):
    return set(lost_by_map(read_map(text.encode()), size, count))


class Maps(Case):
    """A byte is rescued in the one map only if it is in all of them, as the reference reads maps."""

    def setUp(self):
        folder = tempfile.TemporaryDirectory(prefix="shardscrub-test-")
        self.addCleanup(folder.cleanup)
        self.room = Path(folder.name)

    def made(self, *texts):
        names = []
        for number, text in enumerate(texts):
            names.append(str(self.room / f"{number}.map"))
            (self.room / f"{number}.map").write_text(text, newline="")
        return names

    def test_what_any_of_them_lacks_is_lacking(self):
        choice = random.Random(5)
        for turn in range(150):
            texts = [map_of(choice) for _ in range(choice.choice([2, 2, 3, 4]))]
            with open(one_map(self.made(*texts), str(self.room)), encoding="ascii") as file:
                found = file.read()
            for size, count in ((1, 900), (64, 16)):
                self.same(f"turn {turn}, pieces of {size} bytes", lost(found, size, count),
                          set.union(*(lost(text, size, count) for text in texts)))

    def test_none_and_one(self):
        self.same("none", one_map([], str(self.room)), None)
        self.same("one isn't read", one_map(["no-such"], str(self.room)), "no-such")

    def test_ddrescuelog_finds_the_same(self):
        need("ddrescuelog")
        choice = random.Random(6)
        for turn in range(40):
            # ddrescuelog takes no gaps, no empty blocks and only what it writes itself.
            texts = []
            for _ in range(2):
                lines, at = ["0x0 + 1"], 0
                for _ in range(choice.randint(1, 8)):
                    size = 64 * choice.randint(1, 4)
                    lines.append(f"0x{at:X} 0x{size:X} {choice.choice('++-')}")
                    at += size
                texts.append("\n".join([*lines, f"0x{at:X} 0x{9999 * 64 - at:X} -"]) + "\n")
            names = self.made(*texts)
            wanted = subprocess.run(["ddrescuelog", "--and-mapfile", names[1], names[0]], capture_output=True, text=True, check=True).stdout
            found = one_map(names, str(self.room))
            with open(found, encoding="ascii") as file:
                self.same(f"turn {turn}", lost(file.read(), 64, 9999), lost(wanted, 64, 9999))
            shown = subprocess.run(["ddrescuelog", "--show-status", found], capture_output=True, check=False)
            self.same("its own state", shown.returncode, 0)

    def test_what_is_no_map_is_refused(self):
        good = STATE + "\n0 64 +\n"
        for bad, line in (("", 1), (STATE + "\n0 64 +\n63 1 +\n", 3), ("one\n", 1), (STATE + "\n0 64\n", 2)):
            names = self.made(good, bad)
            with self.assertRaises(ValueError) as raised:
                one_map(names, str(self.room))
            self.same("the text", str(raised.exception), f"map refused: {names[1]}: line {line}")
        for name in ("/dev/null", str(self.room), str(self.room / "no-such")):
            with self.assertRaises(OSError) as raised:
                one_map([*self.made(good), name], str(self.room))
            self.true("it is named", name in str(raised.exception), raised.exception)
        self.same("nothing is left", [one.name for one in self.room.glob("one.map*")], [])


# Worked disks

PAGE, PAGES, EXTENTS = 64, 16, 5
SIZES = ["--page=64", "--pages=16", "--extents=5"]
S1, S2, S3 = (shard(number).hex() for number in (1, 2, 3))
COUNTS = "source 1: superblock 2 on page 8, which counts: 2 of 2 runs"
MENDED = "source 1: superblock 2 on page 8, mended by its digest: 2 of 2 runs"
BEHIND = "source 1: superblock 2 on page 8, damaged, 1 of its 2 runs, and behind them superblock 1 on page 0, which counts: "


class Two:
    """A disk with two superblocks. By the older one on page 0 shard 1 is `abc` and shard 3 `gone`; by the newer one on page 8 shard 1 is
    `de`, shard 2 `fghi` in two chunks, and shard 3 is deleted."""
    OLDER, NEWER = {S1: b"abc", S3: b"gone"}, {S1: b"de", S2: b"fghi"}

    def __init__(self, retired=None):
        disk = self.disk = Disk(PAGES, EXTENTS)
        one, gone = disk.chunk(1, 0, uuid(1), b"abc"), disk.chunk(1, 41, uuid(2), b"gone")
        self.old = disk.chunk(3, 0, uuid(0xA0), run((shard(1), [one]), (shard(3), [gone])))
        disk.superblock(0, 1, self.old)
        new = disk.chunk(1, 83, uuid(3), b"de"), disk.chunk(1, 123, uuid(4), b"f"), disk.chunk(2, 0, uuid(5), b"ghi")
        self.new = disk.chunk(4, 0, uuid(0xB0), run((shard(1), [new[0]]), (shard(2), [*new[1:]]), (shard(3), [])))
        self.before = bytes(disk.bytes)
        disk.superblock(8, 2, self.new, self.old, retired=retired)
        self.length = records_of(Image(bytes(disk.bytes), PAGE, PAGES, EXTENTS))[8].length

    def flip(self, *offsets):
        """Flips a bit of each of these bytes of the newer superblock."""
        for offset in offsets:
            self.disk.spoil(0, 8 * PAGE + offset)
        return self

    def record(self):
        return bytes(self.disk.bytes[8 * PAGE:8 * PAGE + self.length])


def lines_of_runs(*locators):
    """The lines `run` of `locators`."""
    fields = [(*(int.from_bytes(c[at:at + 4], "big") for at in (0, 4, 8)), uuid_text(c[12:28])) for c in locators]
    return "".join(f"run {k} {e} {o} {length} {name} sound\n" for k, (e, o, length, name) in enumerate(fields))


class RescueCase(RoomCase):
    @classmethod
    def setUpClass(cls):
        super().setUpClass()
        cls.rescuer = Rescuer(cls.program, cls.room)

    def setUp(self):
        self.image, self.folder = self.room / "image", self.room / "out"
        shutil.rmtree(self.folder, ignore_errors=True)

    def call(self, *words, **given):
        return subprocess.run([sys.executable, RESCUE, *map(str, words)], stdin=subprocess.DEVNULL, capture_output=True, text=True,
                              timeout=SECONDS, cwd=self.room, env={**os.environ, "SHARDSCRUB": self.program}, check=False, **given)

    def check(self, what, disk, words, status, files, *lines):
        """The status, the files of the archive, and lines that are printed, by an image that isn't written."""
        self.setUp()
        self.image.write_bytes(disk)
        found = self.rescuer.call(*SIZES, *words, self.image, self.folder)
        self.same(f"{what}: {found.lines}", (found.status, found.files), (status, files))
        for line in lines:
            self.true(f"{what}: {line}", line in found.lines, found.lines)
        self.same("the image", self.image.read_bytes(), bytes(disk))
        self.same("what is printed is kept", self.kept("sources"), found.lines)

    def kept(self, name):
        return (self.folder / name).read_text().splitlines()


class Sources(RescueCase):
    """Which source is taken."""

    def test_the_log(self):
        two = Two()
        self.check("the newest", two.disk.bytes, ["--last=2"], 0, Two.NEWER, COUNTS)
        self.check("an older one", two.disk.bytes, ["--last=1"], 1, Two.OLDER, "source 1: superblock 1 on page 0, older: 1 of 1 runs",
                   "doubt: superblock 2 on page 8 lists other runs")
        self.same("what differs", self.kept("differs"), [f"{S1} a b", f"{S2} - a", f"{S3} a -"])
        self.check("none of it", two.disk.bytes, ["--last=3"], 1, Two.NEWER, "source 1: a guess, the order of act/order: 2 of 2 runs",
                   "doubt: it is a guess")
        self.check("no log", two.disk.bytes, [], 1, Two.NEWER, COUNTS,
                   "doubt: no --last says that it is the last one")

    def test_a_tie(self):
        two = Two()
        two.disk.put(0, 0, two.record())
        self.check("twins", two.disk.bytes, ["--last=2"], 0, Two.NEWER)
        two.disk.superblock(0, 2, two.old)
        self.check("others", two.disk.bytes, ["--last=2"], 1, Two.OLDER, "source 1: superblock 2 on page 0, which counts: 1 of 1 runs",
                   "source 2: superblock 2 on page 8, older: 2 of 2 runs", "doubt: superblock 2 on page 8 lists other runs")

    def test_one_bit_is_mended(self):
        """The digest shows which one, wherever it is. A page of which the first letters are wrong isn't `damaged`, but `stray`."""
        for offset in range(Two().length):
            if offset % 3 == 0 or offset < 30:
                self.check(f"byte {offset}", Two().flip(offset).disk.bytes, ["--last=2"] * (offset % 2), 1, Two.NEWER,
                           MENDED, "doubt: a write that ended early may look like it")

    def test_a_head_is_mended_by_the_log(self):
        two = Two().flip(0, 3, 5, 9, 13, 20)
        self.check("with it", two.disk.bytes, ["--last=2"], 1, Two.NEWER, MENDED)
        self.check("without it", two.disk.bytes, [], 1, Two.OLDER, "source 1: superblock 1 on page 0, which counts: 1 of 1 runs")

    def test_a_damaged_list(self):
        """Two bits are wrong. The list is whole if they are elsewhere; else the runs of the superblock that counts come behind it."""
        listed = Two().length - 32 - 120
        self.check("a pointer", Two().flip(27, 31).disk.bytes, [], 1, Two.NEWER,
                   "source 1: superblock 2 on page 8, damaged, its list is whole: 2 of 2 runs")
        self.check("the second run", Two().flip(listed + 70, listed + 90).disk.bytes, [], 1, Two.NEWER,
                   f"{BEHIND}2 of 3 runs")
        self.check("the first run", Two().flip(listed + 10, listed + 20).disk.bytes, [], 1, Two.OLDER,
                   f"{BEHIND}1 of 2 runs")

    def test_zeros(self):
        """Nothing shows that there was a newer one, but the log does. The guess is right here."""
        self.check("no log", Two().before, [], 1, Two.OLDER, "source 1: superblock 1 on page 0, which counts: 1 of 1 runs")
        self.check("the log", Two().before, ["--last=2"], 1, Two.NEWER, "source 1: a guess, the order of act/order: 2 of 2 runs",
                   "source 2: superblock 1 on page 0, which counts: 1 of 1 runs")

    def test_no_superblock(self):
        disk = bytearray(Two().disk.bytes)
        disk[:PAGE * PAGES] = bytes(PAGE * PAGES)
        self.check("a guess", disk, [], 1, Two.NEWER, "source 1: a guess, the order of act/order: 2 of 2 runs")
        self.image.write_bytes(disk[:3 * PAGE * PAGES] + bytes(2 * PAGE * PAGES))
        shutil.rmtree(self.folder)
        done = self.call(*SIZES, self.image, self.folder)
        self.same("nothing to go by", (done.returncode, done.stdout, self.folder.exists()), (1, "", False))
        self.true("that is said", "nothing says which shards there were" in done.stderr, done.stderr)

    def test_a_list_that_is_kept(self):
        two, listed = Two(), self.room / "listed"
        newer, older = lines_of_runs(two.new, two.old), lines_of_runs(two.old)
        listed.write_text(f"a line of the log\n{newer}shard and others\n")
        self.check("newer", two.before, [f"--runs={listed}"], 1, Two.NEWER, f"source 1: the list of {listed}: 2 of 2 runs",
                   "doubt: nothing on the disk shows that it has the last runs")
        self.check("of the superblock that counts", two.disk.bytes, [f"--runs={listed}", "--last=2"], 0, Two.NEWER)
        listed.write_text(older)
        self.check("older", two.disk.bytes, [f"--runs={listed}"], 1, Two.NEWER, COUNTS,
                   f"source 2: the list of {listed}: 1 of 1 runs")
        listed.write_text(lines_of_runs(two.new[:20] + bytes(8) + two.new[28:], two.old))
        self.check("a run of it isn't there", two.before, [f"--runs={listed}"], 1, Two.OLDER,
                   f"source 1: the list of {listed}: 1 of 2 runs")
        self.true("what is missing", f"shard {S1}: a newer entry may be lost" in self.kept("missing"), self.kept("missing"))
        for text, why in (("run 0 3 0\n", "line 1"), (older.replace("run 0", "run 1"), "the numbers of its runs"), ("", "no line `run`"),
                          ("x\nrun 0 3 0 4 x sound\n", "line 2")):
            listed.write_text(text)
            done = self.call(*SIZES, f"--runs={listed}", self.image, self.room / "other")
            self.same(why, (done.returncode, why in done.stderr, (self.room / "other").exists()), (2, True, False))

    def test_retired_extents(self):
        """What is in them comes by --run, and is marked: a payload, and a run with all that it names."""
        for retired, more in (([2], [f"{S2} 01"]), ([1, 2], [f"{S1} 00", f"{S2} 00", f"{S2} 01"]), ([4], None), ([1, 2, 4], None),
                              ([3], [])):
            self.check(f"retired {retired}", Two(retired).disk.bytes, ["--last=2"], 0, Two.NEWER)
            if more is not None:
                self.same("what is marked", self.kept("retired") if more else [], more)
        two = Two([2])
        two.disk.spoil(2, 23)
        self.check("a chunk has rotted there", two.disk.bytes, ["--last=2"], 1, {S1: b"de", f"{S2}.00": b"f"})
        self.same("why", self.kept("missing"), [f"payload {S2} 01: 3 bytes, retired in extent 2 at 0"])

    def test_another_one_is_taken(self):
        two = Two()
        self.check("the second", two.before, ["--last=2", "--take=2"], 1, Two.OLDER, "taken: source 2", "doubt: it isn't the first source")
        self.same("the manifest of the first is there", (self.folder / "1.manifest").exists(), True)
        done = self.call(*SIZES, "--take=3", "--last=2", self.image, self.room / "third")
        self.same("there is no third", (done.returncode, done.stderr), (2, "act/rescue: there is no source 3: the last one is 2\n"))

    def check_torn(self, count):
        """Only some sectors of the newest superblock arrive, where there were zeros or an older one. The one that counts until then is
        taken, and by the log it is certain."""
        for under in (bytes(4 * PAGE), None):
            two = Two()
            text = two.record() + bytes(-two.length % PAGE)
            if under is None:
                older = Two()
                older.disk.superblock(8, 0, older.old, older.old, older.old)
                under = bytes(older.disk.bytes[8 * PAGE:8 * PAGE + len(text)])
            disk = bytearray(two.before)
            disk[8 * PAGE:8 * PAGE + len(text)] = text[:count * PAGE] + under[count * PAGE:len(text)]
            for words, status in ((["--last=1"], 0), ([], 1)):
                self.check(f"{count} sectors, {words}", disk, words, status, Two.OLDER,
                           "source 1: superblock 1 on page 0, which counts: 1 of 1 runs")


add_tests(Sources, Sources.check_torn, [(f"torn after {count} sectors", count) for count in (1, 2)])


# What is left in the folder

class Folders(RescueCase):
    def test_a_name_that_is_taken(self):
        self.image.write_bytes(Two().disk.bytes)
        self.folder.mkdir()
        done = self.call(*SIZES, self.image, self.folder)
        self.same("the folder", (done.returncode, done.stderr), (3, f"act/rescue: {self.folder} is there already\n"))
        part = self.room / "left.part"
        part.mkdir()
        done = self.call(*SIZES, self.image, self.room / "left")
        self.same("of a call that was killed", (done.returncode, "remove it" in done.stderr, part.is_dir()), (3, True, True))

    def test_a_full_disk_leaves_no_folder(self):
        self.image.write_bytes(Two().disk.bytes)
        done = self.call(*SIZES, self.image, self.folder, preexec_fn=lambda: resource.setrlimit(resource.RLIMIT_FSIZE, (1000, 1000)))
        self.same("status", (done.returncode, done.stdout), (3, ""))
        self.same("what is left", [path.name for path in self.room.glob("out*")], [])

    def test_a_signal_leaves_no_folder(self):
        self.image.write_bytes(Two().disk.bytes)
        slow = self.room / "slow"
        slow.write_text(f"#!/bin/sh\n[ \"$1\" != manifest ] || exec sleep 30\nexec '{self.program}' \"$@\"\n")
        slow.chmod(0o755)
        for number in (signal.SIGTERM, signal.SIGINT, signal.SIGHUP):
            running = subprocess.Popen([sys.executable, RESCUE, *SIZES, self.image, self.folder], stdin=subprocess.DEVNULL,
                                       stdout=subprocess.DEVNULL, env={**os.environ, "SHARDSCRUB": str(slow)})
            while not Path(f"{self.folder}.part").exists():
                time.sleep(.01)
            time.sleep(.2)
            running.send_signal(number)
            self.same("status", running.wait(SECONDS), 128 + number)
            self.same("what is left", [path.name for path in self.room.glob("out*")], [])

    def test_wrong_words(self):
        self.image.write_bytes(Two().disk.bytes)
        for words, status in (([], 2), ([self.image], 2), (["--page=64", self.image, "o"], 2), (["--last=x", self.image, "o"], 2),
                              ([*SIZES, "no-such", "o"], 3), ([*SIZES, "/dev/null", "o"], 3),
                              (["--page=65", *SIZES[1:], self.image, "o"], 2),
                              ([*SIZES, self.image, "o", "9:9"], 2), ([*SIZES, "--map=no-such", self.image, "o"], 3),
                              ([*SIZES, f"--map={self.image}", self.image, "o"], 2), ([*SIZES, self.image, "no/such"], 3),
                              (["--page=64", "--pages=4", "--extents=3", self.image, "o"], 3)):
            done = self.call(*words)
            self.same(f"{words}: {done.stderr}", (done.returncode, done.stdout, done.stderr.count("Traceback")), (status, "", 0))
            self.true("why", "act/rescue" in done.stderr, done.stderr)
        self.same("nothing is left", [path.name for path in self.room.glob("o") or self.room.glob("o.part")], [])
        done = self.call("--help")
        self.same("help", (done.returncode, done.stdout.startswith("usage: act/rescue [--page P ")), (0, True))

    def test_sizes_that_are_left_out(self):
        two = Two()
        self.image.write_bytes(two.disk.bytes)
        self.same("they are found", self.call("--last=2", self.image, self.folder).returncode, 0)
        self.image.write_bytes(bytes(PAGE * PAGES) + two.disk.bytes[PAGE * PAGES:])
        done = self.call(self.image, self.room / "other")
        self.same("they aren't", (done.returncode, "the sizes aren't certain" in done.stderr), (2, True))

    def test_several_maps(self):
        """One lacks the page of a chunk, the other one that of the newer superblock. It is the same as if the pages are given."""
        two = Two()
        rows = {"one": (2 * PAGE * PAGES, PAGE), "two": (8 * PAGE, 3 * PAGE)}
        for name, (begin, size) in rows.items():
            (self.room / name).write_text(f"{STATE}\n0 {begin} +\n{begin} {size} -\n{begin + size} {len(two.disk.bytes)} +\n")
        self.image.write_bytes(two.disk.bytes)
        found = [self.call(*SIZES, *words, self.image, self.room / name, *pages) for name, words, pages in (
            ("mapped", [f"--map={self.room}/one", f"--map={self.room}/two"], []), ("paged", [], ["2:0", "0:8", "0:9", "0:10"]))]
        self.same("the status", [(done.returncode, done.stderr) for done in found], [(1, "")] * 2)
        self.same("what is printed", found[0].stdout, found[1].stdout)
        self.same("the archive", (self.room / "mapped/all.tar").read_bytes(), (self.room / "paged/all.tar").read_bytes())
        self.true("both are seen", "a guess" in found[0].stdout and f"{S2} 01" in (self.room / "mapped/missing").read_text())


# Made-up disks

# How many disks of each kind, and how many of a thousand shards that the node had are right at least, without the log and with it.
EACH = 6
LEAST = {"none": (950, 950), **{f"bit in {place}": (900, 900) for place in PLACES}, "torn": (950, 950), "noise": (600, 600),
         "zeros": (500, 800), "unreadable": (800, 800), "older format": (0, 950)}


class MadeUp(RescueCase):
    def check_kind(self, kind):
        """Status 0 only with what the node had. Without a superblock that was whole and is the last one of the log there is no status 0."""
        for is_logged in (False, True):
            counts = dict.fromkeys(("right", "missing", "wrong", "deleted"), 0)
            for number, dead in enumerate(deads(kind, EACH)):
                found = self.rescuer.ask(dead.drive, dead.last if is_logged else None)
                for word, count in judged(dead.right, found.files).items():
                    counts[word] += count
                what = f"{kind} {number}: {found.lines}"
                self.true(what, found.status == 1 or found.status == 0 and is_logged and kind in ("none", "torn"), found.status)
                if found.status == 0:
                    self.same(what, found.files, dead.files())
            known = counts["right"] + counts["missing"] + counts["wrong"]
            self.true(f"{kind}: enough is right", counts["right"] * 1000 >= known * LEAST[kind][is_logged], counts)


add_tests(MadeUp, MadeUp.check_kind, [(kind, kind) for kind in KINDS])
