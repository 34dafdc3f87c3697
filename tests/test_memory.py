"""Refuses each allocation of whole runs in turn, and each growth of single calls, and checks how they end.

For each command line, the program runs with its first allocation refused, then with its second, and so on until a run meets no
refusal, which has to give the right answer. Every other run has to end out of memory: with status 4, no output and the error message
for it. The whole right answer is right too, since some refused requests are repeated. Then all later allocations are refused as
well, and the run has to end out of memory. `STEPS` has the command line with too many allocations to refuse each.

Of runs with workers, and of single calls with workers, each allocation of the started threads is refused in turn, too. Then each of
these threads has to end before the answer, though it lingers once its work is done.

Single calls are those of the crate scrub_refused_memory, if `rt` has built its program here. Each public function of a library that
takes an allocator, or can answer out of memory, has to be a call there, or to be made by one of the command lines.
"""
import os
import shlex
import unittest

from lib import growths
from lib.cases import Case, RoomCase, add_tests
from lib.disks import Disk, locator, run, shard, uuid
from lib.program import TOP
from lib.system import ALLOCATIONS, refusing, refusing_of_others
from lib.worked import behind_a_damaged_frame
from reference.shardscrub import answered

SMALL = "--page 64 --pages 4 --extents 3 examples/one-shard.img"
SEVERAL = "--page 64 --pages 16 --extents 5 examples/several-findings.img 3:1"
RECLAIMED = "--page 64 --pages 8 --extents 5 examples/reclaimed-before.img"
COPIED = "--page 64 --pages 8 --extents 4 examples/rotted.img examples/copied.img"
DEAD = "--page 64 --pages 8 --extents 4 examples/dead-node.img"
RESCUED = "--page 512 --pages 4 --extents 4 --map examples/rescued.map examples/rescued.img"
# Disks that the tests make: see `retiring`, `large`, `many` and `behind_a_damaged_frame`.
ROOM = "ROOM/"
RETIRING = f"--page 64 --pages 4 --extents 4 {ROOM}retiring.img"
LARGE = f"--page 65536 --pages 32 --extents 2 {ROOM}large.img"
BEHIND = f"--page 64 --pages 8 --extents 4 {ROOM}behind.img"
LOOSE = f"loose 1 58 3 11111111-1111-1111-1111-111111111111 shard {1:032} 41"
MANY = f"--workers 0 --page 512 --pages 1200 --extents 6 {ROOM}many.img"
SHARD = "shard --id " + "0" * 31
COMMAND_LINES = {
    "no words": "",
    "scan": f"scan {SMALL}",
    "scan without workers": f"scan --workers 0 {SMALL}",
    "index with 2 workers": f"index --workers 2 {SMALL}",
    "scan of several findings": f"scan {SEVERAL}",
    "scan of several findings with 2 workers": f"scan --workers 2 {SEVERAL}",
    "index of several findings": f"index {SEVERAL}",
    "items": "items --page 64 --pages 4 --extents 3 --extent 1 examples/one-chunk.img",
    "locators": f"locators {SEVERAL}",
    "locators with 2 workers": f"locators --workers 2 {SEVERAL}",
    "shards": f"shards --workers 2 {SEVERAL}",
    "partial archive": f"shards --partial --workers 0 {DEAD}",
    "archive by given runs": f"shards --workers 2 --run 2:41 --run 3:0 {DEAD}",
    "shard by a given run": f"{SHARD}1 --workers 0 --run 3:0 {DEAD}",
    "manifest by given runs": f"manifest --workers 0 --run 2:41 --run 3:0 {DEAD}",
    "runs": f"runs --workers 2 {DEAD}",
    "runs without workers": f"runs --workers 0 {SEVERAL}",
    "no such run": f"shards --run 3:1 {DEAD}",
    "shards with a spare": f"shards --workers 0 {RETIRING}",
    "locators with a spare": f"locators --workers 0 {RETIRING}",
    "superblocks": f"superblocks {SEVERAL}",
    "superblocks of the second kind": f"superblocks {RETIRING}",
    "reclaimable": f"reclaimable {SEVERAL}",
    "reclaimable with the last generation": f"reclaimable --workers 2 --last 1 {RECLAIMED}",
    "reclaimable with another generation": f"reclaimable --workers 0 --last 2 {RECLAIMED}",
    "reclaimable with a tail accepted": f"reclaimable --workers 2 --accept 'tail 1 208 45' {RECLAIMED}",
    "locators with a loose copy": f"locators --workers 0 {BEHIND}",
    "manifest with a loose copy": f"manifest --workers 2 --reset 2 {BEHIND}",
    "reclaimable with a loose copy": f"reclaimable --workers 0 {BEHIND}",
    "reclaimable with a loose copy accepted": f"reclaimable --workers 2 --accept '{LOOSE}' {BEHIND}",
    "shard with a loose copy": f"{SHARD}1 --workers 0 {BEHIND}",
    "compare with a loose copy": f"compare --workers 0 --reset 1 {BEHIND} {ROOM}behind.img",
    "manifest with a remark": f"manifest --workers 0 {SMALL} 0:3",
    "shard with remarks": f"{SHARD}1 --workers 0 {SMALL} 0:2 0:3",
    "shards with remarks": f"shards --workers 0 {SMALL} 0:2 0:3",
    "compare": f"compare --workers 2 --reset 2 {COPIED}",
    "compare without workers": f"compare --workers 0 --reset 1 {COPIED}",
    "refused line": f"reclaimable --accept 'tie 1' {RECLAIMED}",
    "manifest": f"manifest {SEVERAL}",
    "manifest with a map": f"manifest --workers 0 {RESCUED}",
    "manifest with resets": f"manifest --workers 2 --reset 1 {RETIRING}",
    "summary": f"summary {SEVERAL}",
    "summary with a map": f"summary --workers 0 {RESCUED}",
    "summary with 2 workers": f"summary --workers 2 {RETIRING}",
    "summary with the last generation": f"summary --workers 0 --last 1 {RECLAIMED}",
    "sizes": "sizes examples/several-findings.img",
    "sizes with a map": "sizes --map examples/rescued.map examples/rescued.img",
    "scan with a map": f"scan {RESCUED}",
    "locators with a map": f"locators --workers 0 {RESCUED}",
    "superblocks with a map": f"superblocks {RESCUED}",
    "reclaimable with a map": f"reclaimable --workers 0 {RESCUED}",
    "items with a map": f"items --extent 3 {RESCUED}",
    "locators by several readers": f"locators --workers 0 {LARGE}",
    "scan of many items": f"scan {MANY}",
    "summary of many items": f"summary {MANY}",
    "shard": f"{SHARD}1 {SMALL}",
    "shard without workers": f"{SHARD}1 --workers 0 {SEVERAL}",
    "shard without sizes": f"{SHARD}2 examples/several-findings.img",
    "shard with a map": f"{SHARD}1 --workers 2 {RESCUED}",
    "hidden shard": f"{SHARD}1 --page 64 --pages 4 --extents 3 examples/collision.img",
    "shard with a spare": f"{SHARD}1 --workers 0 --page 64 --pages 8 --extents 4 examples/rotted.img",
    "doubtful shard": f"{SHARD}1 --page 64 --pages 4 --extents 4 examples/lost-run.img",
    "lost payload": f"{SHARD}3 --workers 2 {SEVERAL}",
    "no such shard": f"{SHARD}4 --workers 0 {SEVERAL}",
    "refused shard": f"{SHARD} {SMALL}",
    "help": "scan --help",
    "refused words": "scan --workers 65",
}
# A report has several allocations for each item, so that only each 97th is refused.
STEPS = {f"scan {MANY}": 97}
# Those to which reference/shardscrub.py has no answer.
WITHOUT_REFERENCE = {"", "scan --help", "scan --workers 65"}
# Those in which a worker that scans, or a reader of the image, takes memory on a thread of its own.
WITH_THREADS = ["scan", "index with 2 workers", "locators", "locators with 2 workers", "reclaimable",
                "reclaimable with the last generation", "manifest", "manifest with resets", "summary", "summary with 2 workers",
                "locators by several readers", "scan of many items", "summary of many items",
                "shard", "shards", "lost payload", "archive by given runs", "runs"]
# Those in which each allocation of such a thread is refused. With many items there are thousands, so these aren't among them.
WITH_WORKERS = [name for name in WITH_THREADS if "many items" not in name]
OUT_OF_MEMORY = (4, b"", b"shardscrub: out of memory\n")


def retiring():
    """A disk with a superblock of the second kind, which retires extent 3. Extent 1 has a chunk in which `abc` has rotted, a chunk of
    `de` and a copy of `abc`: three payloads of one block each, which are hashed side by side. The run of one shard in extent 2 names
    the first two."""
    disk = Disk(4, 4)
    disk.chunk(1, 0, uuid(0x11), b"abX")
    sound = disk.chunk(1, 41, uuid(0x33), b"de")
    disk.chunk(1, 81, uuid(0x44), b"abc")
    named = disk.chunk(2, 0, uuid(0x22), run((shard(1), [locator(1, 0, uuid(0x11), b"abc"), sound])))
    disk.superblock(0, 1, named, retired=[3])
    return disk


def large():
    """A disk of 4 MiB: from that size on each processor has a reader. Extent 1 begins with `abc`."""
    disk = Disk(32, 2, page=65536)
    disk.chunk(1, 0, uuid(0x11), b"abc")
    return disk


def many():
    """A disk with so many items and entries that threads merge its run, sort its chunks and its locators, and make the report's text.
    Extents 1 to 4 have 1,024 chunks each. The run in extent 5 has 16,384 shards: each fourth one is a chunk, the others are deleted."""
    disk = Disk(1200, 6, page=512)
    entries = [(shard(number), []) for number in range(16384)]
    for number in range(4096):
        extent, place, name = number // 1024 + 1, number % 1024 * 41, shard(number + 1)
        entries[4 * number] = (shard(4 * number), [disk.chunk(extent, place, name, b"abc")])
    disk.superblock(0, 1, disk.chunk(5, 0, uuid(0x22), run(*entries)))
    return disk


def right(words):
    """The right answer of a run in the repository's folder."""
    return answered([str(TOP / word) if word.startswith("examples/") else word for word in shlex.split(words)])


class LibraryCase(RoomCase):
    """Tests with the C library that refuses."""

    @classmethod
    def setUpClass(cls):
        super().setUpClass()
        cls.library = ALLOCATIONS.made(cls.room)


class Runs(LibraryCase):
    @classmethod
    def setUpClass(cls):
        super().setUpClass()
        (cls.room / "retiring.img").write_bytes(retiring().bytes)
        (cls.room / "large.img").write_bytes(large().bytes)
        (cls.room / "many.img").write_bytes(many().bytes)
        (cls.room / "behind.img").write_bytes(behind_a_damaged_frame().bytes)

    def refusing(self, words, refused, **which):
        return refusing(self.program, words.replace(ROOM, f"{self.room}/"), self.library, refused, **which)

    def check(self, words):
        whole, _ = self.refusing(words, 0)
        if words not in WITHOUT_REFERENCE:
            self.same("the answer", whole, right(words.replace(ROOM, f"{self.room}/")))
        refused, step = 0, STEPS.get(words, 1)
        while True:
            refused += step
            got, met = self.refusing(words, refused)
            if met < refused:
                self.same("without a refusal", got, whole)
                break
            self.true(f"allocation {refused} refused", got in (OUT_OF_MEMORY, whole), got)
            # A run that ended out of memory at once has no later ones.
            if met > refused or got != OUT_OF_MEMORY:
                got, met = self.refusing(words, refused, all_later=True)
                # How many there are depends on which thread takes what.
                wanted = OUT_OF_MEMORY if met >= refused else whole
                self.same(f"allocation {refused} and all later ones refused", got, wanted)
        self.true("there are allocations", refused > step)

    def need_readers(self, words):
        """Skips the test of several readers where there is one: a reader for each processor."""
        if words.endswith(LARGE) and len(os.sched_getaffinity(0)) == 1:
            raise unittest.SkipTest("with one processor there is one reader")

    def check_threads(self, words):
        """Each allocation of all threads except the first one is refused. By then that one has scanned all extents, or loaded its part,
        and still the run has to end out of memory."""
        self.need_readers(words)
        got, refused = self.refusing(words, growths.NONE_REFUSED, all_others=True)
        self.same("the answer", got, OUT_OF_MEMORY)
        self.true("allocations are refused", refused > 0)

    def check_ends(self, words):
        """Each allocation of the threads but the first one is refused in turn: none of those that were started is left when the
        answer is written."""
        self.need_readers(words)
        words = words.replace(ROOM, f"{self.room}/")
        whole, ends = refusing(self.program, words, self.library, 0)[0], set()
        for refused, got, counts in refusing_of_others(self.program, words, self.library):
            what = f"allocation {refused} of the threads refused" if refused else "without a refusal"
            self.true(what, got == whole or refused and got == OUT_OF_MEMORY, got)
            self.true(f"{what}: threads are started, and have ended before the answer", counts and counts.threads > 0 == counts.left, counts)
            ends.add(got)
        self.true("some are out of memory", OUT_OF_MEMORY in ends, ends)


add_tests(Runs, Runs.check, COMMAND_LINES.items())
add_tests(Runs, Runs.check_threads, [(f"threads of {name}", COMMAND_LINES[name]) for name in WITH_THREADS])
add_tests(Runs, Runs.check_ends, [(f"threads end of {name}", COMMAND_LINES[name]) for name in WITH_WORKERS])


class Account(Case):
    def test_each_public_function_that_takes_memory_is_tried(self):
        self.same("the account", list(growths.account(COMMAND_LINES)), [])


class Growths(LibraryCase):
    """Single calls. `load_tests` adds a test for each, and for each with workers one more."""

    @classmethod
    def setUpClass(cls):
        if not growths.PROGRAM.is_file():
            raise unittest.SkipTest("the program of crates/scrub_refused_memory isn't built; rt ci builds it")
        super().setUpClass()

    def test_the_calls_are_those_of_the_account(self):
        self.same("the calls", growths.calls(), growths.listed())

    def check_call(self, call):
        self.true(call, *growths.tried(self.library, call))

    def check_workers(self, call):
        """Each growth of the workers is refused. By then the caller has scanned all extents, and still the call has to run out of
        memory."""
        self.true(call, *growths.tried_by_workers(self.library, call))

    def check_ends(self, call):
        """Each growth of the workers is refused in turn: all that were started have ended before the call answers."""
        self.true(call, *growths.ended_workers(self.library, call))


def load_tests(loader, tests, _):
    """Adds the tests of the calls that the built program makes."""
    if not growths.PROGRAM.is_file():
        return tests
    calls = growths.calls()
    add_tests(Growths, Growths.check_call, [(f"call {call}", call) for call in calls])
    with_workers = list(filter(growths.starts_workers, calls))
    add_tests(Growths, Growths.check_workers, [(f"workers {call}", call) for call in with_workers])
    add_tests(Growths, Growths.check_ends, [(f"workers end {call}", call) for call in with_workers])
    return unittest.TestSuite(map(loader.loadTestsFromTestCase, (Runs, Account, Growths)))
