"""Index runs that are found by their bytes, and answers by runs that are given: `runs`, and `--run` of `shard`, `shards` and `manifest`; the
parts of broken shards, `shards --partial`; and the order of `act/order`.

What is right of the worked images was written by hand, from docs/REPORT.md; reference/shardscrub.py has to give the same. The laws are tried
on drives on which a node has worked, with the program alone.
"""
import io
import os
import random
import shlex
import subprocess
import sys
import tarfile
from hashlib import sha256

from lib.cases import RoomCase, add_tests
from lib.disks import Disk, frame, geometry, locator, record, run, sealed_frame, shard, uuid
from lib.drives import worked
from lib.node import Full
from lib.program import TOP, need
from lib.rescues import loaded
from lib.worked import FOURS, ONES, THREES, TWOS, written
from reference.shardscrub import Image, answered, loose_frames, scrub, superblock_remarks, tile

SECONDS = 60
PAGE, PAGES, EXTENTS = 64, 8, 4
SIZE = PAGE * PAGES
AS, BS = uuid(0xAA), uuid(0xBB)
UA, UB = ("-".join(digit * size for size in (8, 4, 4, 4, 12)) for digit in "ab")
S1, S2 = shard(1).hex(), shard(2).hex()

# Shard 1 was `abc`; then it was written anew, and shard 2.
OLDER = run((shard(1), [locator(1, 0, ONES, b"abc")]))
NEWER = run((shard(1), [locator(1, 41, TWOS, b"de")]), (shard(2), [locator(1, 81, THREES, b"f"), locator(2, 0, FOURS, b"ghi")]))
OLD, NEW = locator(3, 0, AS, OLDER), locator(2, 41, BS, NEWER)
CHUNKS = ((1, 0, frame(ONES, b"abc") + frame(TWOS, b"de") + frame(THREES, b"f")), (2, 0, frame(FOURS, b"ghi") + frame(BS, NEWER)),
          (3, 0, frame(AS, OLDER)))
RECORDS = ((0, 0, record(PAGE, PAGES, EXTENTS, (41, 0, 155), [OLD])),
           (0, 192, record(PAGE, PAGES, EXTENTS, (120, 333, 155), [NEW, OLD], 2)))


def image_of(*writes):
    return written(bytes(SIZE * EXTENTS), *writes)


IMAGES = {
    "whole": image_of(*CHUNKS, *RECORDS),
    # A byte of the newer record's generation: the first superblock counts again.
    "rotten": image_of(*CHUNKS, *RECORDS, (0, 200, b"X")),
    # Extent 0 is zeros.
    "none": image_of(*CHUNKS),
    # The byte of `f`.
    "broken": image_of(*CHUNKS, *RECORDS, (1, 103, b"X")),
    # The chunk before the newer run is damaged, and extent 0 is zeros.
    "before": image_of(*CHUNKS, (2, 22, b"X"), (2, 38, b"X")),
}
NEWEST_FIRST, OLDEST_FIRST = "--run=2:41 --run=3:0", "--run=3:0 --run=2:41"
FOUND = f"run 2 41 254 {UB} 2{{}}\nrun 3 0 117 {UA} 1{{}}\ntotal 2\n"
DIGESTS = {text: sha256(text).hexdigest() for text in (b"de", b"f", b"ghi")}
BY_THESE = (f"retired\nruns lost 0 hidden 0\nshard {S1} 00 2 {DIGESTS[b'de']} sound plain\nshard {S2} 00 1 {DIGESTS[b'f']} sound plain\n"
            f"shard {S2} 01 3 {DIGESTS[b'ghi']} sound plain\ntotal 2 3\n")


def files_of(archive):
    """The names and the bytes of the files of an archive, in their order, as Python's tarfile reads them."""
    with tarfile.open(fileobj=io.BytesIO(archive)) as tar:
        return [(one.name, tar.extractfile(one).read()) for one in tar]


class RunsCase(RoomCase):
    """Each answer is that of the program, by the caller alone and by workers, and of the reference."""

    def ran(self, words, workers="0"):
        done = subprocess.run([self.program, *words, "--workers", workers], stdin=subprocess.DEVNULL, capture_output=True, timeout=SECONDS)
        return done.returncode, done.stdout, done.stderr

    def answer(self, line, sizes=(PAGE, PAGES, EXTENTS)):
        """What the program says to a line of words, whose first is the command; a word may be an image of the folder. The reference says
        the same, and so do workers."""
        command, *words = shlex.split(line)
        words = [command, *geometry(*sizes), *(str(self.room / one) if (self.room / one).is_file() else one for one in words)]
        found = self.ran(words)
        self.same(f"{line}, 3 workers", self.ran(words, "3"), found)
        self.same(f"{line}, by the reference", answered(words), found)
        return found

    def check(self, line, status, text, error="", sizes=(PAGE, PAGES, EXTENTS)):
        right = status, text if isinstance(text, bytes) else text.encode(), "".join(f"shardscrub: {one}\n" for one in error.splitlines()).encode()
        self.same(line, self.answer(line, sizes), right)

    def check_files(self, line, status, files, error=""):
        """The same of an archive with these files."""
        found = self.answer(line)
        self.same(line, (found[0], files_of(found[1]), found[2].decode()),
                  (status, files, "".join(f"shardscrub: {one}\n" for one in error.splitlines())))

    def put(self, **images):
        for name, image in images.items():
            (self.room / name).write_bytes(image)


class Worked(RunsCase):
    @classmethod
    def setUpClass(cls):
        super().setUpClass()
        cls.put(cls, **IMAGES)

    def test_the_newest_superblock_is_rotten(self):
        """The answer of before is what shard 1 was. The record on page 3 listed both runs."""
        self.check("runs rotten", 0, FOUND.format(" 230", " 38 290"))
        self.check_files("shards rotten", 1, [(S1, b"abc")], "superblock lost: 3")
        self.check_files(f"shards rotten {NEWEST_FIRST}", 0, [(S1, b"de"), (S2, b"fghi")])
        self.check(f"manifest rotten {NEWEST_FIRST}", 0, BY_THESE)

    def test_the_own_list_gives_the_same_manifest(self):
        for line in ("manifest whole", f"manifest whole {NEWEST_FIRST}"):
            self.check(line, 0, BY_THESE)
        self.same("its digest", sha256(BY_THESE.encode()).hexdigest(), "8f705083eab748c32b3c5e46b9a63781a31e1292b7ca172cfaa0dc694ba2fb02")

    def test_no_superblock_at_all(self):
        self.check("runs none", 0, FOUND.format("", ""))
        self.check(f"shard none --id {S1} {NEWEST_FIRST}", 0, b"de")
        self.check(f"shard none --id {S1} {OLDEST_FIRST}", 0, b"abc")

    def test_a_run_that_is_in_no_tiling(self):
        """The chunk of `ghi` is damaged, so that the next item begins at a page bound, behind the head of the run."""
        tiled = tile(Image(IMAGES["before"], PAGE, PAGES, EXTENTS), 2, SIZE)
        self.same("the items", [(item.kind, item.start) for item in tiled][:3], [("torn", 0), ("noise", 64), ("noise", 128)])
        self.check("runs before", 0, FOUND.format("", ""))

    def test_a_broken_shard(self):
        self.check_files("shards broken --partial", 1, [(S1, b"de"), (f"{S2}.01", b"ghi")], f"payload lost: {S2} 00")
        self.check_files(f"shards before --partial {NEWEST_FIRST}", 1, [(S1, b"de"), (f"{S2}.00", b"f")], f"payload lost: {S2} 01")
        self.check_files("shards broken", 1, [(S1, b"de")], f"payload lost: {S2} 00")
        self.check_files("shards whole --partial", 0, [(S1, b"de"), (S2, b"fghi")])

    def test_what_is_refused(self):
        for word in ("3:512", "0:0", "4:0", "3", "3:", ":0", "+3:0", "3:0:0", "3,0", "3:4294967296", "", "3: 0"):
            self.check(f"shards none --run '{word}'", 2, "", f"run refused: {word}")
        self.check(f"shard none --id {S1} --run=3:0 --run=2:40", 2, "", "run not found: 2:40")
        self.check("manifest none --run=2:0", 2, "", "run not found: 2:0")

    def test_the_order_of_faults(self):
        """Sizes, the shard's identifier, runs, pages, the image; and then runs that aren't there."""
        self.check("shard no-such --id 1 --run=9:9 9:9", 2, "", "shard refused: 1")
        self.check(f"shard no-such --id {S1} --run=9:9 9:9", 2, "", "run refused: 9:9")
        self.check(f"shard no-such --id {S1} --run=2:40 9:9", 2, "", "bad page refused: 9:9")
        self.check(f"shard no-such --id {S1} --run=2:40", 3, "", "image cannot be opened: no-such")
        self.check(f"shard none --id {S1} --run=2:40", 2, "", "run not found: 2:40")
        self.check(f"shard none --id {shard(9).hex()} --run=2:40", 2, "", "run not found: 2:40")

    def test_resets_and_runs_are_not_given_together(self):
        words = ["manifest", *geometry(PAGE, PAGES, EXTENTS), "--run=3:0", "--reset=1", str(self.room / "none")]
        done = subprocess.run([self.program, *words], stdin=subprocess.DEVNULL, capture_output=True, timeout=SECONDS)
        self.same("the status and the output", (done.returncode, done.stdout), (2, b""))
        self.true("both are named", b"--run" in done.stderr and b"--reset" in done.stderr, done.stderr)

    def test_a_run_that_is_given_twice_counts_once(self):
        self.check(f"manifest none {NEWEST_FIRST} --run=2:41 --run=03:00", 0, BY_THESE)


class Found(RunsCase):
    """Runs among bytes of other kinds."""

    def listed(self, name, image, *pages):
        self.put(**{name: image})
        status, text, _ = self.answer(" ".join(["runs", name, *pages]))
        return status, text.decode()

    def test_a_run_within_a_whole_payload_is_none(self):
        """Whoever stores a shard could put one there. It can be given all the same."""
        inside = frame(AS, OLDER)
        image = image_of((1, 0, frame(ONES, b"abc")), (2, 0, frame(TWOS, b"--" + inside + b"--")))
        self.same("in a chunk", self.listed("inside", image), (0, "total 0\n"))
        self.check(f"shard inside --id {S1} --run=2:24", 0, b"abc")
        damaged = written(image, (2, 0, b"X"))
        self.same("in a damaged one", self.listed("damaged", damaged), (0, f"run 2 24 117 {UA} 1\ntotal 1\n"))

    def test_a_sealed_frame(self):
        image = image_of((3, 7, sealed_frame(AS, OLDER)))
        self.same("sealed", self.listed("sealed", image), (0, f"run 3 7 117 {UA} 1\ntotal 1\n"))
        self.same("with another digest", self.listed("unsealed", written(image, (3, 30, b"\0\0"))), (0, "total 0\n"))

    def test_forged_heads(self):
        """A head that claims bytes of the run, or all up to the end, hides it only if its frame is there."""
        long = frame(uuid(0xC5), bytes(8))[:22]
        image = image_of((2, 0, long * 3), (2, 66, frame(AS, OLDER)))
        self.same("heads without an end", self.listed("heads", image), (0, f"run 2 66 117 {UA} 1\ntotal 1\n"))
        over = frame(uuid(0xC5), bytes(100))
        begun = image_of((2, 0, over[:50]), (2, 50, frame(AS, OLDER)), (2, 122, over[122:]))
        self.same("a frame around the head of a run", self.listed("over", begun)[1].splitlines()[-1], "total 0")

    def test_a_run_that_ends_with_the_extent(self):
        at = SIZE - len(frame(AS, OLDER))
        self.same("at the end", self.listed("end", image_of((3, at, frame(AS, OLDER)))), (0, f"run 3 {at} 117 {UA} 1\ntotal 1\n"))
        self.same("past the end", self.listed("past", image_of((2, at + 1, frame(AS, OLDER)))), (0, "total 0\n"))

    def test_unreadable_pages(self):
        """A page of a run, a page of a locator in extent 0, and a page without either."""
        self.same("of a run", self.listed("whole", IMAGES["whole"], "3:1"), (1, f"run 2 41 254 {UB} 2 230\ntotal 1\n"))
        self.same("of the last byte of a locator", self.listed("whole", IMAGES["whole"], "0:4"), (1, FOUND.format("", " 38")))
        self.same("of no run", self.listed("whole", IMAGES["whole"], "1:7"), (1, FOUND.format(" 230", " 38 290")))

    def test_a_locator_in_any_bytes_of_extent_0(self):
        """Of other sizes, damaged, over a page bound, or twice over itself."""
        image = image_of(*CHUNKS, (0, 37, OLD), (0, 452, NEW))
        self.same("anywhere", self.listed("anywhere", image), (0, FOUND.format(" 452", " 37")))
        self.same("but for its last byte", self.listed("cut", written(image, (0, 511, b"?"))), (0, FOUND.format("", " 37")))

    def test_more_runs_than_a_record_lists(self):
        disk = Disk(128, 3)
        named = disk.chunk(1, 0, ONES, b"abc")
        places = []
        for number in range(40):
            places.append(disk.pointers[1])
            disk.chunk(2, disk.pointers[1], uuid(number), run((shard(number), [named])))
        self.put(many=bytes(disk.bytes))
        sizes = 64, 128, 3
        status, text, _ = self.answer("runs many", sizes)
        self.same("all are found", (status, [line.split()[2] for line in text.decode().splitlines()[:-1]]), (0, list(map(str, places))))
        given = " ".join(f"--run=2:{at}" for at in places)
        status, archive, error = self.answer(f"shards many {given}", sizes)
        self.same("all are given", (status, files_of(archive), error), (0, [(shard(number).hex(), b"abc") for number in range(40)], b""))


class Parts(RunsCase):
    """Shards that lack some of their payloads."""
    PAYLOADS = [b"first", b"", b"third!", b"4"]

    def made(self, lost):
        """A disk with a shard of four chunks, of which these have rotted, between two whole ones."""
        disk = Disk(PAGES, EXTENTS)
        at, named = 0, []
        for number, payload in enumerate([*self.PAYLOADS, b"other"]):
            named.append(disk.chunk(1, at, uuid(number + 1), payload))
            at = disk.pointers[0]
        entries = (shard(1), [named[4]]), (shard(2), named[:4]), (shard(3), [named[4]])
        place = disk.chunk(2, 0, AS, run(*entries))
        disk.superblock(0, 1, place)
        begins = [0, 43, 81, 125]
        for number in lost:
            disk.spoil(1, begins[number] + 2)
        return bytes(disk.bytes)

    def check_lost(self, lost):
        self.put(parts=self.made(lost))
        gone = [number for number in lost if self.PAYLOADS[number]]
        files = [(f"{S2}.{number:02}", payload) for number, payload in enumerate(self.PAYLOADS) if number not in gone]
        files = files if gone else [(S2, b"".join(self.PAYLOADS))]
        said = "\n".join(f"payload lost: {S2} {number:02}" for number in gone)
        self.check_files("shards parts --partial", 1 if gone else 0, [(S1, b"other"), *files, (shard(3).hex(), b"other")], said)
        self.check_files("shards parts", 1 if gone else 0, [(S1, b"other"), *([] if gone else files), (shard(3).hex(), b"other")],
                         said.split("\n")[0])

    def test_gnu_tar_reads_the_parts(self):
        need("tar")
        self.put(parts=self.made([0]))
        archive = self.answer("shards parts --partial")[1]
        listed = subprocess.run(["tar", "tf", "-"], input=archive, capture_output=True, check=True).stdout.decode().split()
        self.same("the files", listed, [S1, f"{S2}.01", f"{S2}.02", f"{S2}.03", shard(3).hex()])
        whole = subprocess.run(["tar", "tf", "-", "--exclude=*.*"], input=archive, capture_output=True, check=True).stdout.decode().split()
        self.same("the whole shards", whole, [S1, shard(3).hex()])

    def test_a_newer_entry_may_be_lost(self):
        """Of a broken shard that is said, too, behind its lines. Without --partial it isn't."""
        disk = Disk(PAGES, EXTENTS)
        first, second = disk.chunk(1, 0, ONES, b"abc"), disk.chunk(1, 41, TWOS, b"de")
        places = [disk.chunk(2, 0, BS, run((shard(9), [first]))), disk.chunk(3, 0, AS, run((shard(1), [first, second])))]
        disk.superblock(0, 1, *places)
        disk.spoil(2, 30)
        disk.spoil(1, 22)
        self.put(parts=bytes(disk.bytes))
        said = f"run lost: 0 wrong_digest\npayload lost: {S1} 00"
        self.check_files("shards parts", 1, [], said)
        self.check_files("shards parts --partial", 1, [(f"{S1}.01", b"de")], f"{said}\na newer entry may be lost: {S1}")


add_tests(Parts, Parts.check_lost, [("lost " + "".join(map(str, lost)) if lost else "none lost", lost) for lost in
                                    ([n for n in range(4) if bits >> n & 1] for bits in range(16))])


# Laws, on drives on which a node has worked

def rotten(choice, drive):
    """Flips some bits outside extent 0."""
    for _ in range(choice.choice([0, 0, 1, 2, 5])):
        drive.raw[choice.randrange(drive.size, len(drive.raw))] ^= 1 << choice.randrange(8)


def places_of(runs):
    return [f"{one['extent']}:{one['offset']}" for one in runs]


def shards_of(manifest):
    """What a manifest says of each shard's locators: length and digest, and whether the payload is at its place."""
    found = {}
    for words in map(str.split, manifest.decode().splitlines()):
        if words[0] == "shard":
            found.setdefault(words[1], []).append((words[3], words[4], words[5] in ("sound", "hidden")))
    return found


class Laws(RoomCase):
    """The program alone, by runs that are given, beside what it says by the superblock that counts."""

    def ran(self, command, drive, *words):
        path = self.room / "image"
        path.write_bytes(drive.raw)
        done = subprocess.run([self.program, command, *geometry(drive.page, drive.pages, drive.extents), *words, str(path)],
                              stdin=subprocess.DEVNULL, capture_output=True, timeout=SECONDS)
        return done.returncode, done.stdout, done.stderr

    def check(self, seed):
        choice = random.Random(seed)
        try:
            drive, node = worked(choice)
            node.superblock()
        except Full:
            return
        rotten(choice, drive)
        found = scrub(drive.image())
        own = [word for place in places_of(found.choice["runs"]) for word in ("--run", place)]
        if not own or found.lost_run_count() or superblock_remarks(drive.image()):
            return
        crowded = loose_frames(drive.image(), range(1, drive.extents))[1]
        today, then = (dict(files_of(self.ran("shards", drive, *words)[1])) for words in ((), own))
        lines, others = (shards_of(self.ran("manifest", drive, *words)[1]) for words in ((), own))
        self.same("the manifest has the same shards, lengths and digests",
                  {name: [part[:2] for part in parts] for name, parts in lines.items()},
                  {name: [part[:2] for part in parts] for name, parts in others.items()})
        self.true("what is at its place today is there then",
                  all(not old[2] or new[2] for name in lines for old, new in zip(lines[name], others[name])))
        if not crowded:
            self.same("each shard of today, with the same bytes", {name: then.get(name) for name in today}, today)
            if not found.choice["retired"]:
                self.same("the whole answer, if nothing is retired", self.ran("shards", drive, *own), self.ran("shards", drive))
        self.check_places(drive)

    def check_places(self, drive):
        """Each place that `runs` prints can be given. A payload is lost by all of them exactly if no frame has it."""
        places = [f"--run={words[1]}:{words[2]}" for words in map(str.split, self.ran("runs", drive)[1].decode().splitlines()) if words[0] == "run"]
        if places:
            status, archive, error = self.ran("shards", drive, *places, "--partial")
            self.true("each can be given", status in (0, 1), error)
            lines = [line for line in self.ran("manifest", drive, *places)[1].decode().splitlines() if line.startswith("shard ")]
            names = {name for name, _ in files_of(archive)}
            for words in map(str.split, lines):
                of_part, of_shard = f"{words[1]}.{words[2]}", words[1]
                is_lost = f"payload lost: {words[1]} {words[2]}\n".encode() in error
                self.true(f"{' '.join(words)}: it has one place", [of_part in names, of_shard in names, is_lost].count(True) == 1)


add_tests(Laws, Laws.check, [(f"drive {seed:03}", seed) for seed in range(120)])


def by_counting_anew(order, image):
    """The order that act/order had before: the newer runs among those that are left are counted for each choice."""
    runs = [*order.runs_of(image)]
    ends, left = order.ends_of(image, runs), set(range(len(runs)))
    newer = [[set() for _ in runs] for _ in range(2)]
    for of_rule, older in zip(newer, (order.certainly_older(runs, ends), order.older_by_place(runs, ends))):
        for number in left:
            for other in older(number, left):
                of_rule[other].add(number)
    gone = [sum(ends[order.place_of(c)] is None for c in one.locators) for one in runs]
    while left:
        best = min(left, key=lambda k: (*(len(of_rule[k] & left) for of_rule in newer), gone[k], -runs[k].extent, -runs[k].start))
        left.remove(best)
        yield runs[best]


class Order(RoomCase):
    """`act/order` prints words that the program takes, each run once."""

    def check(self, seed):
        choice = random.Random(seed)
        try:
            drive, node = worked(choice)
            node.superblock()
        except Full:
            return
        drive.raw[:drive.size] = bytes(drive.size)
        path, sizes = self.room / "image", geometry(drive.page, drive.pages, drive.extents)
        path.write_bytes(drive.raw)
        ran = [subprocess.run(words, stdin=subprocess.DEVNULL, capture_output=True, timeout=SECONDS)
               for words in ([sys.executable, TOP / "act/order", *sizes, path], [self.program, "runs", *sizes, path])]
        words = ran[0].stdout.decode().split()
        listed = [f"--run={line.split()[1]}:{line.split()[2]}" for line in ran[1].stdout.decode().splitlines() if line.startswith("run ")]
        self.same("each run once", (ran[0].returncode, ran[0].stderr, sorted(words)), (0, b"", sorted(listed)))

    def test_an_overwritten_chunk_makes_a_run_older(self):
        """The run that comes first by place names a chunk over which the other one's chunk lies."""
        disk = Disk(PAGES, EXTENTS)
        old = disk.chunk(1, 0, ONES, b"abc")
        disk.chunk(2, 0, AS, run((shard(1), [old])))
        new = disk.chunk(1, 0, TWOS, b"anew")
        disk.chunk(2, 155, BS, run((shard(1), [new])))
        disk.put(2, 0, bytes(disk.bytes[2 * SIZE:2 * SIZE + 155]))
        swapped = Disk(PAGES, EXTENTS)
        swapped.put(1, 0, frame(TWOS, b"anew"))
        swapped.put(2, 0, frame(BS, run((shard(1), [new]))))
        swapped.put(2, 155, frame(AS, run((shard(1), [old]))))
        for name, made, right in (("after", disk, "2:155 2:0"), ("before", swapped, "2:0 2:155")):
            path = self.room / name
            path.write_bytes(made.bytes)
            done = subprocess.run([sys.executable, TOP / "act/order", *made.geometry(), path], stdin=subprocess.DEVNULL, capture_output=True)
            self.same(name, done.stdout.decode().split(), [f"--run={place}" for place in right.split()])

    def test_the_choice_is_that_of_before(self):
        """Until each run is chosen, those that are newer are counted anew."""
        order = loaded("order")
        for seed in range(300):
            choice = random.Random(f"order {seed}")
            try:
                drive, node = worked(choice)
                node.superblock()
            except Full:
                continue
            rotten(choice, drive)
            image = drive.image()
            self.same(f"drive {seed}", [run[:2] for run in order.in_order(image)], [run[:2] for run in by_counting_anew(order, image)])

    def test_a_sealed_chunk_lies_over_all_of_its_bytes(self):
        """Only its last 34 bytes lie over the chunk that a run names and that is gone."""
        disk = Disk(PAGES, EXTENTS)
        gone = disk.chunk(1, 60, ONES, b"abc")
        disk.chunk(2, 155, AS, run((shard(1), [gone])))
        disk.chunk(2, 0, BS, run((shard(2), [disk.chunk(1, 0, TWOS, b"d", sealed_frame)])))
        (self.room / "sealed").write_bytes(disk.bytes)
        done = self.order(*disk.geometry(), self.room / "sealed")
        self.same("the order", done.stdout.split(), ["--run=2:0", "--run=2:155"])

    def order(self, *words):
        return subprocess.run([sys.executable, TOP / "act/order", *words], stdin=subprocess.DEVNULL, capture_output=True, text=True, timeout=SECONDS)

    def test_maps(self):
        """The pages that the maps lack are those that are given else. The run at 2:41 has a byte on page 1."""
        (self.room / "whole").write_bytes(IMAGES["whole"])
        sizes, begin = geometry(PAGE, PAGES, EXTENTS), 2 * SIZE + PAGE
        for name, at in (("one", begin), ("two", begin + 2048)):
            (self.room / name).write_text(f"0x0 + 1\n0 {at} +\n{at} 64 -\n{at + 64} {4 * SIZE} +\n")
        first = self.order(*sizes, "--map", self.room / "one", self.room / "whole")
        self.same("one", (first.returncode, first.stdout, first.stderr), (0, "--run=3:0\n", ""))
        both = self.order(*sizes, "--map", self.room / "two", "--map", self.room / "one", self.room / "whole")
        self.same("two", (both.returncode, both.stdout, both.stderr), (0, "--run=3:0\n", ""))
        bad = self.order(*sizes, "--map", self.room / "whole", "--map", self.room / "one", self.room / "whole")
        self.same("what is no map", (bad.returncode, bad.stdout, bad.stderr), (2, "", f"act/order: map refused: {self.room / 'whole'}: line 1\n"))

    def test_what_is_no_image(self):
        pipe = self.room / "pipe"
        os.mkfifo(pipe)
        for name in ("no-such", "/dev/null", str(pipe), str(self.room)):
            done = self.order(*geometry(PAGE, PAGES, EXTENTS), name)
            self.same(name, (done.returncode, done.stdout, done.stderr), (3, "", f"shardscrub: image cannot be opened: {name}\n"))

    def test_help(self):
        done = self.order("--help")
        self.same("help", (done.returncode, done.stdout.startswith("usage: act/order --page P --pages N --extents E [--map FILE]... IMAGE")),
                  (0, True))

    def test_what_the_reference_refuses(self):
        done = subprocess.run([sys.executable, TOP / "act/order", *geometry(60, 8, 4), "no-such"], stdin=subprocess.DEVNULL, capture_output=True)
        self.same("the fault", (done.returncode, done.stdout, done.stderr), (2, b"", b"shardscrub: geometry refused: PageSize\n"))


add_tests(Order, Order.check, [(f"drive {seed:03}", seed) for seed in range(40)])
