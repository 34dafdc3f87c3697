"""Whole scrubs: the reports and indexes of worked disks, disks from files that are cut short or whose reads fail, runs as threads read
them, and disks with more of one thing than in any example. What is right was written by hand, from docs/FORMAT.md and docs/REPORT.md.

A body that answers out of memory for a long list meets every contract, so each list is made long by one of these disks.
"""
import json
import os
import struct
from functools import partial
from itertools import product

from lib import worked
from lib.cases import RoomCase
from lib.corpus.runs import IN_A_ROW, RUN_FRAME, runs_in_a_row
from lib.disks import Disk, be, frame, geometry, locator, record, run, sealed_frame, shard, uuid, with_digest
from lib.system import ALLOCATIONS, FAILING_READS, run_counted, run_failing
from lib.worked import ONES, TWOS, abc, finish
from reference.shardscrub import answered
from test_answers import NO_SHARDS, ONE_SHARD
from test_corpus import CorpusCase
from test_system import answer, written

S1, OWNER = shard(1).hex(), f"shard {shard(1).hex()}"
U1, U2, U3 = ("-".join(digit * size for size in (8, 4, 4, 4, 12)) for digit in "123")
MAGIC_END = "33333333-3333-3333-3333-33333333c55e"
ABC = frame(ONES, b"abc")
# The SHA-256 of `abc`, as FIPS 180-4 gives it.
ABC_DIGEST = "ba7816bf8f01cfea414140de5dae2223b00361a396177a9cb410ff61f20015ad"
SMALL = geometry(64, 4, 3)
PADS = ["pad 64 128", "pad 128 192", "pad 192 256"]


def extent(number, items, live, pointer, bad=(), tail=0, tail_at=None):
    """An extent in a report."""
    return {"bad": list(bad), "extent": number, "items": items, "live": live, "pointer": pointer, "tail": tail, "tail_at": tail_at}


def at(number, offset, length, name):
    """A place in a report."""
    return {"extent": number, "length": length, "offset": offset, "uuid": name}


def a_run(entries, number, offset=0, state="read"):
    return {"entries": entries, "extent": number, "offset": offset, "state": state}


def counted(generation, page, records, tie=False, bad=()):
    """The superblock in a report."""
    return {"bad": list(bad), "generation": generation, "page": page, "records": records, "tie": tie}


def runs_of_a_superblock():
    """A superblock with all of the 32 runs that it can have."""
    disk = Disk(2, 3, 1024)
    return finish(disk, [41, 155], [worked.abc_and_its_run(disk)] * 32)


FIRST, SECOND = extent(1, [f"chunk 0 41 {U1} 3"], 41, 41), extent(2, [f"chunk 0 155 {U2} 117"], 155, 155)
DANGLING = [at(number, offset, length, name) | {"owner": OWNER, "reason": reason} for number, offset, length, name, reason in (
    (4, 0, 3, U1, "out_of_range"), (1, 600, 3, U1, "past_pointer"), (1, 300, 3, U1, "unreadable"), (1, 41, 3, U1, "no_frame"),
    (1, 0, 3, U2, "wrong_uuid"), (1, 0, 4, U1, "wrong_length"), (1, 0, 3, U1, "wrong_digest"))]

# A disk, the status of its scrub, parts of its report, and its index if it isn't that of the one shard with the chunk in extent 1.
REPORTS = {
    "bytes past a pointer are a tail": (worked.past_the_pointer, 0, {
        "extents": [extent(1, [], 0, 0, tail=38, tail_at=0), extent(2, [], 0, 0)], "candidates": []}, NO_SHARDS),
    "a frame with an unreadable page is torn and lost": (worked.torn_frame, 1, {
        "extents": [extent(1, ["torn 0 64", "lost 64 98"], 0, 98, bad=[1]), extent(2, [], 0, 0)], "candidates": []}, NO_SHARDS),
    "a run with a wrong digest leaves doubt": (worked.broken_newest_run, 1, {
        "candidates": [], "doubtful": [S1], "runs": [a_run(None, 2, state="not_a_run"), a_run(1, 3)], "shards": 1}, None),
    "without extent 0 all chunks are orphans": (lambda: worked.one_shard("0:0", "0:1", "0:2", "0:3"), 1, {
        "candidates": [], "orphans": [at(1, 0, 3, U1), at(2, 0, 117, U2)], "super": counted(None, None, 0, bad=range(4)),
        "extents": [extent(1, [f"chunk 0 41 {U1} 3", "pad 41 64", *PADS], 0, 256),
                    extent(2, [f"chunk 0 155 {U2} 117", "pad 155 192", "pad 192 256"], 0, 256)]}, NO_SHARDS),
    "a run that is named twice is at a shared place": (lambda: worked.one_shard(times=2), 1, {
        "runs": [a_run(1, 2)] * 2, "shards": 1, "shared": [{"count": 2, "extent": 2, "offset": 0}]}, None),
    "all 32 runs of a superblock are read": (runs_of_a_superblock, 1, {
        "runs": [a_run(1, 2)] * 32, "shards": 1, "shared": [{"count": 32, "extent": 2, "offset": 0}]}, None),
    "a run with unreadable pages is lost": (lambda: worked.one_shard("2:2", "2:3"), 1, {
        "extents": [extent(1, [f"chunk 0 41 {U1} 3"], 0, 41),
                    extent(2, ["torn 0 64", "noise 64 128", "lost 128 155"], 0, 155, bad=[2, 3])],
        "orphans": [at(1, 0, 3, U1)], "runs": [a_run(None, 2, state="unreadable")], "shards": 0, "candidates": []}, NO_SHARDS),
    "of two superblocks of one generation the first counts": (lambda: worked.two_superblocks(7), 1, {
        "candidates": [], "super": counted(7, 0, 2, tie=True)}, None),
    "the newer superblock counts": (lambda: worked.two_superblocks(8), 1, {
        "extents": [extent(1, [], 0, 0, tail=38, tail_at=0), SECOND], "super": counted(8, 2, 2)}, NO_SHARDS),
    "unless it is broken": (lambda: worked.two_superblocks(8, is_broken=True), 0, {"super": counted(7, 0, 1)}, None),
    "the chunk of a shard that the newest run deletes is an orphan": (worked.deleted_in_the_newest_run, 0, {
        "candidates": [{"extent": 1, "free": 41, "keep": []}], "orphans": [at(1, 0, 3, U1)],
        "runs": [a_run(1, 2), a_run(1, 2, 95), a_run(1, 3)], "shards": 0}, NO_SHARDS),
    "a shard whose locators dangle is broken": (worked.nine_locators, 1, {
        "broken": [S1], "candidates": [], "dangling": DANGLING, "hidden": [at(2, 256, 3, U1) | {"owner": OWNER}],
        "extents": [extent(1, [f"chunk 0 41 {U1} 3", "pad 41 256", "lost 256 512"], 41, 512, bad=[1]),
                    extent(2, [f"chunk 0 258 {MAGIC_END} 220", "noise 258 297"], 0, 297),
                    extent(3, [f"chunk 0 635 {U2} 597"], 635, 635)],
        "orphans": [at(2, 0, 220, MAGIC_END)], "shards": 1}, NO_SHARDS),
    "the content of a retired extent is ignored": (worked.broken_and_retired, 0, {
        "clean": True, "extents": [FIRST, SECOND], "retired": [3], "runs": [a_run(1, 2)]}, None),
    "a locator into a retired extent dangles": (lambda: worked.one_shard(retired=[1]), 1, {
        "broken": [S1], "dangling": [at(1, 0, 3, U1) | {"owner": OWNER, "reason": "retired"}], "extents": [SECOND], "orphans": [],
        "retired": [1], "runs": [a_run(1, 2)]}, NO_SHARDS),
    "nothing is scanned if all extents are retired": (lambda: worked.one_shard(retired=[1, 2]), 1, {
        "candidates": [], "dangling": [at(2, 0, 117, U2) | {"owner": "run 0", "reason": "retired"}], "extents": [], "retired": [1, 2],
        "runs": [a_run(None, 2, state="retired")], "shards": 0}, NO_SHARDS),
}

# Disks on which each locator is sound, and all chunks but the runs are `abc`, in extent 1. How many locators each disk has, the live bytes
# of each extent, the offsets of the `abc` that are orphans, and of those that are twins, the shared places, and the candidates.
HALF_LIVE = [{"extent": 1, "free": 41, "keep": [41]}]
LISTS = {
    "one shard": (worked.one_shard, 2, [41, 155], [], [], [], []),
    "a run that is named twice is live once": (
        lambda: worked.one_shard(times=2), 3, [41, 155], [], [], [{"count": 2, "extent": 2, "offset": 0}], []),
    "no locator names extent 1": (
        worked.deleted_in_the_newest_run, 3, [0, 250, 155], [0], [], [], [{"extent": 1, "free": 41, "keep": []}]),
    "half of extent 1 is live": (lambda: worked.second_of_two(1), 2, [41, 155], [0], [0, 41], [], HALF_LIVE),
    "twins and a shared place": (
        lambda: worked.second_of_two(1, 2), 3, [41, 232], [0], [0, 41], [{"count": 2, "extent": 1, "offset": 41}], HALF_LIVE),
}


class Reports(CorpusCase):
    """The report and the index of a disk."""

    def report(self, what, made, status, workers="2"):
        """Puts a disk, and returns its report and the words for its sizes, its file and its unreadable pages."""
        _, image, bad, _ = self.put(made)
        found, report, error = answer("scan", "--workers", workers, *image, *bad)
        self.same(f"{what}: the status", (found, error), (status, b""))
        return json.loads(report), [*image, *bad]

    def test_worked_disks(self):
        for what, (make, status, parts, index) in REPORTS.items():
            report, words = self.report(what, make(), status)
            for key, part in parts.items():
                self.same(f"{what}: {key}", report[key], part)
            self.same(f"{what}: the index", answer("index", *words), (status, index or run((shard(1), [abc(1, 0)])), b""))

    def listed(self, what, make, count, live, orphans, twins, shared, candidates):
        """Compares the lists of a disk. With an unreadable page of extent 0 it has no candidate."""
        report, words = self.report(what, make(), int(bool(shared)))
        self.same(f"{what}: live bytes", [row["live"] for row in report["extents"]], live)
        for key, right in {"orphans": [at(1, offset, 3, U1) for offset in orphans], "twins": [at(1, offset, 3, U1) for offset in twins],
                           "shared": shared, "candidates": candidates, "broken": [], "dangling": [], "hidden": []}.items():
            self.same(f"{what}: {key}", report[key], right)
        _, lines, _ = answer("locators", *words)
        self.same(f"{what}: the statuses", [line.split()[-1] for line in lines.decode().splitlines()], ["sound"] * count)
        report, _ = self.report(f"{what}: in doubt", (make(), "0:3"), 1)
        self.same(f"{what}: in doubt", report["candidates"], [])

    def test_lists_of_worked_disks(self):
        for what, row in LISTS.items():
            self.listed(what, *row)

    def test_live_bytes_of_both_forms(self):
        """A chunk takes 41 bytes if it is plain, and 75 if it is sealed."""
        self.listed("chunks of both forms", worked.both_forms, 3, [116, 215], [], [], [], [])
        found = answer("manifest", *SMALL, self.room / "disk.img")
        lines = "".join(f"shard {S1} {number} 3 {ABC_DIGEST} sound {form}\n" for number, form in (("00", "plain"), ("01", "sealed")))
        self.same("the forms", found, (0, f"retired\nruns lost 0 hidden 0\n{lines}total 1 2\n".encode(), b""))
        self.listed("a sealed run", worked.sealed_run, 2, [41, 189], [], [], [], [])

    def test_a_record_of_the_second_kind_on_a_later_page(self):
        """If it has the generation of the first, that counts; otherwise the newer one does, whatever its kind."""
        for generation, status, superblock, pages, retired in (
                (7, 1, counted(7, 0, 2, tie=True), "record 0 SSB1 7 tie\nrecord 2 SSB2 7 tie\n", []),
                (8, 0, counted(8, 2, 2), "record 0 SSB1 7 older\nrecord 2 SSB2 8 counts\n", [1])):
            disk = finish(finish(Disk(4, 3), [41, 155], [], 7), [0, 155], [], generation, [1], 2)
            report, words = self.report(f"generation {generation}", disk, status)
            self.same(f"generation {generation}", (report["super"], report["retired"]), (superblock, retired))
            self.same(f"generation {generation}: the pages", answer("superblocks", *words), (status, pages.encode(), b""))


def fifty_shards():
    """Each of fifty shards has 64 locators of the one chunk in extent 1. Returns the payload of the run, too."""
    disk = Disk(64, 3, 4096)
    chunk = disk.chunk(1, 0, ONES, b"abc")
    payload = run(*((shard(number), [chunk] * 64) for number in range(1, 51)))
    return finish(disk, [41, 192_928], [disk.chunk(2, 0, TWOS, payload)]), payload


class FiftyShards(CorpusCase):
    def test_a_chunk_of_fifty_shards_leaves_nothing_to_reclaim(self):
        disk, payload = fifty_shards()
        _, image, *_ = self.put(disk)
        _, out, _ = self.compare(["scan", *image], "03")
        report = json.loads(out)
        self.same("payload", len(payload), 192_890)
        self.same("shards", report["shards"], 50)
        self.same("shared", report["shared"], [{"count": 3200, "extent": 1, "offset": 0}])
        self.same("clean", (report["candidates"], report["orphans"], report["clean"]), ([], [], False))
        self.same("live", [row["live"] for row in report["extents"]], [41, 192_928])
        self.same("index", answer("index", *image), (1, payload, b""))

    def test_each_of_3201_locators_is_sound_and_in_its_place(self):
        """That of the run comes first, and then 64 of each shard."""
        lines = [f"run 0 2 0 192890 {U2} sound\n"]
        for number in range(1, 51):
            lines += [f"shard {number:032x} 1 0 3 {U1} sound\n"] * 64
        self.same("lines", len(lines), 3_201)
        self.same("locators", answer("locators", *self.put(fifty_shards()[0])[1]), (1, "".join(lines).encode(), b""))


def state_in_a_row(number):
    return "no_frame" if number % 5 == 0 else "not_a_run" if number % 7 == 0 else "read"


class Runs(CorpusCase):
    """Index runs as one thread reads them, and as one on each processor does."""

    def setUp(self):
        every = sorted(os.sched_getaffinity(0))
        self.processors = [set(every[:number]) for number in range(1, len(every) + 1)][:IN_A_ROW]

    def test_each_of_32_runs_is_read_or_lost_at_its_place(self):
        """They are of one shard, or of as many shards. Then each shard that is read has its own locator; nothing is in extent 1."""
        states = [(2, number * RUN_FRAME + (number % 5 == 0), state_in_a_row(number)) for number in range(IN_A_ROW)]
        read = [number for number, (_, _, state) in enumerate(states) if state == "read"]
        for own_shards, processors in product((False, True), (self.processors[0], self.processors[-1])):
            _, image, *_ = self.put(runs_in_a_row(own_shards))
            limit = {"preexec_fn": partial(os.sched_setaffinity, 0, processors)}
            _, out, _ = self.compare(["scan", *image], "03", **limit)
            found = [(row["extent"], row["offset"], row["state"], row["entries"]) for row in json.loads(out)["runs"]]
            self.same(f"states, {len(processors)} processors", found, [(*one, 1 if one[2] == "read" else None) for one in states])
            for command in ("locators", "index"):
                self.compare([command, *image], **limit)
            _, out, _ = self.compare(["manifest", *image], **limit)
            lines = [line.split() for line in out.decode().splitlines() if line.startswith("shard ")]
            right = [(shard(number).hex(), str(number)) for number in read] if own_shards else [(S1, str(read[0]))]
            self.same("shards", (len(read), [(line[1], line[7]) for line in lines]), (21, right))

    def test_one_thread_reads_the_runs_of_worked_disks(self):
        limit = {"preexec_fn": partial(os.sched_setaffinity, 0, self.processors[0])}
        for make in (lambda: Disk(4, 3), worked.one_shard, lambda: worked.one_shard("2:2"), lambda: worked.one_shard(times=2),
                     worked.broken_newest_run, worked.deleted_in_the_newest_run):
            _, image, bad, _ = self.put(make())
            for command in ("scan", "locators", "index", "manifest"):
                self.compare([command, *image, *bad], "03", **limit)

    def test_several_threads_read_32_runs(self):
        """Nothing else in this command starts threads, since no run has the shard."""
        library = ALLOCATIONS.made(self.room)
        _, image, *_ = self.put(runs_in_a_row(False))
        for processors in self.processors:
            _, found = run_counted(self.program, ["shard", "--id", "f" * 32, "--workers", "0", *image], library, processors=processors)
            is_right = found is not None and (found.threads > 0) == (len(processors) > 1)
            self.true(f"{len(processors)} processors", is_right, found)


class Loaded(RoomCase):
    """The disk with one shard, from a file that is cut short or whose reads fail."""

    @classmethod
    def setUpClass(cls):
        super().setUpClass()
        cls.raw, cls.path = bytes(worked.one_shard().bytes), str(cls.room / "disk.img")

    def setUp(self):
        with open(self.path, "wb") as file:
            file.write(self.raw)
        self.scan = ["scan", *SMALL, self.path]

    def without(self, pages):
        """The right answer on the whole disk with these pages unreadable, counted from the first page of extent 0."""
        return answered([*self.scan, *(f"{page // 4}:{page % 4}" for page in pages)])

    def test_a_file_that_is_cut_short_has_the_whole_pages_before_the_cut(self):
        """At each length."""
        right = [self.without(range(whole, 12)) for whole in range(13)]
        self.same("the whole disk", right[12], (0, ONE_SHARD.encode(), b""))
        for length in range(768, -1, -1):
            os.truncate(self.path, length)
            self.same(f"{length} bytes", answer(*self.scan), right[length // 64])

    def test_a_read_that_fails_makes_its_own_page_unreadable(self):
        """Either the first read of the page, or the second one, for the 24 bytes that the first one left."""
        library = FAILING_READS.made(self.room)
        for page in range(12):
            for begin in (64 * page, 64 * page + 40):
                got, counts = run_failing(self.program, self.scan, library, self.path, 64, [(begin, 64 * page + 64)], False)
                self.same(f"from byte {begin}", got, self.without([page]))
                self.true(f"from byte {begin}: a read fails", counts and counts.failed_short > 0, counts)

    def test_a_last_read_that_fails_is_no_fault(self):
        """It is that of a byte past the end of the disk."""
        library = FAILING_READS.made(self.room)
        got, counts = run_failing(self.program, self.scan, library, self.path, 64, [(768, 769)], False)
        self.same("the report", got, (0, ONE_SHARD.encode(), b""))
        self.true("a read fails", counts and counts.failed_short > 0, counts)

    def test_the_sizes_of_a_disk_are_those_of_its_superblock(self):
        """The bytes of the superblock are all there, lack the first one, or are zeros."""
        text = self.room / "disk.map"
        refused = 2, b"", b"shardscrub: sizes not found: run shardscrub sizes\n"
        for what, raw, block, right in (("all", self.raw, "0 768", (0, ONE_SHARD.encode(), b"")),
                                        ("without a byte", self.raw, "1 767", refused), ("zeros", bytes(768), "0 768", refused)):
            (self.room / "other.img").write_bytes(raw)
            text.write_text(f"0 +\n{block} +\n")
            self.same(what, answer("scan", "--map", text, self.room / "other.img"), right)


# A locator's extent, its offset, and the rest of its fields; and an entry with one locator, after the shard's number and a count.
LOCATOR, ENTRY = struct.Struct(">II52s"), struct.Struct(">12xIBII52s")
# The rest of the fields is the same for each chunk of `abc`. Its digest is computed once.
ABC_BEHIND = abc(1, 0)[8:]


def of_1(places):
    """The payload of the run of shards of one chunk of `abc`, each at one of these places of extent 1."""
    text = b"".join(ENTRY.pack(number, 1, 1, place, ABC_BEHIND) for number, place in enumerate(places))
    return with_digest(b"RUN1" + be(4, len(places)) + text)


def of_64(shards):
    """The payload of the run of so many shards, each of 64 chunks of `abc`, one after another in extent 1."""
    chunks = [LOCATOR.pack(1, 41 * number, ABC_BEHIND) for number in range(64 * shards)]
    return run(*((shard(number), chunks[64 * number:64 * number + 64]) for number in range(shards)))


# How many shards name one place each.
SHARDS = 200_000
# Of places at which no item begins there are six on each page, from its second byte on.
BETWEEN = [number // 6 * 256 + number % 6 * 41 + 1 for number in range(SHARDS)]


def lines(text, values):
    """A list of a report: the text for each value."""
    return f"[{','.join(map(text, values))}]"


class Large(RoomCase):
    """Whole disks with more of one thing than in any example. Most have chunks of `abc` in extent 1 and their run in extent 2."""

    def made(self, page, pages, chunks, payload, pointer=None, form=frame):
        """Writes a disk of three extents with these bytes in extent 1 and a run of this payload in extent 2. Returns its words."""
        size, text = page * pages, form(TWOS, payload)
        superblock = record(page, pages, 3, [pointer or len(chunks), len(text)], [locator(2, 0, TWOS, payload)])
        path = written(self.room / "large.img", [(0, superblock), (size, chunks), (2 * size, text)], 3 * size)
        return [*geometry(page, pages, 3), path]

    def listed(self, what, words, status, right):
        """Runs a command, and compares the whole output."""
        found = answer(*words)
        self.true(what, found == (status, right, b""), (found[0], len(found[1]), found[1][-200:], found[2]))

    def reported(self, words, status, **parts):
        """Scans a disk, and checks that the report has these texts as its values."""
        found, report, error = answer("scan", *words)
        self.same("the status", (found, error), (status, b""))
        for key, text in parts.items():
            begin = report.find(f'"{key}":'.encode()) + len(key) + 3
            end = begin + len(text)
            is_right = report.startswith(text.encode(), begin) and report[end:end + 1] in (b",", b"}")
            self.true(key, is_right, (len(report), report[begin:begin + 200]))
        return report

    def shards_of(self, chunks, places):
        """Writes the disk whose shards each name the `abc` at one of these places."""
        return self.made(256, 65_536, chunks, of_1(places), 8_600_000)

    @staticmethod
    def owned(reason):
        """The list of the shards that name a place between items, with this text behind each owner."""
        return lines(lambda number: f'{{"extent":1,"length":3,"offset":{BETWEEN[number]},"owner":"shard {number:032x}",{reason}'
                                    f'"uuid":"{U1}"}}', range(SHARDS))

    def test_each_of_200000_places_without_a_chunk_breaks_a_shard(self):
        broken, dangling = lines(lambda number: f'"{number:032x}"', range(SHARDS)), self.owned('"reason":"no_frame",')
        self.reported(self.shards_of(b"", BETWEEN), 1, dangling=dangling, broken=broken, hidden="[]", shared="[]", shards="200000")

    def test_each_of_200000_hidden_chunks_is_found(self):
        """Six chunks on each page are inside of an item of noise."""
        chunks = (b"\0" + ABC * 6 + bytes(9)) * (SHARDS // 6) + b"\0" + ABC * (SHARDS % 6)
        words = self.shards_of(chunks, BETWEEN)
        self.reported(words, 1, hidden=self.owned(""), dangling="[]", broken="[]", shared="[]", shards="200000")

    def test_each_of_100000_chunks_that_two_shards_name_is_shared(self):
        words = self.shards_of(ABC * (SHARDS // 2), [number // 2 * 41 for number in range(SHARDS)])
        shared = lines(lambda number: f'{{"count":2,"extent":1,"offset":{41 * number}}}', range(SHARDS // 2))
        self.reported(words, 1, shared=shared, hidden="[]", dangling="[]", broken="[]", shards="200000")

    def test_two_hundred_thousand_named_twins(self):
        payload = of_64(3_125)
        words = self.made(256, 65_536, ABC * 200_000, payload)
        twins = lines(lambda number: f'{{"extent":1,"length":3,"offset":{41 * number},"uuid":"{U1}"}}', range(200_000))
        report = self.reported(words, 0, twins=twins, shards="3125", orphans="[]", shared="[]", clean="true")
        self.true("all is live", b'"live":8200000,"pointer":8200000,' in report)
        self.true("the length of the run", len(payload) == 40 + 3_125 * 17 + 200_000 * 60)
        self.listed("the index", ["index", *words], 0, payload)

    def test_each_of_100032_locators_has_its_lines(self):
        """Of 200,064 chunks the first half is named, so that the extent can be reclaimed, and half of its bytes are freed."""
        words = self.made(256, 65_536, ABC * 200_064, of_64(1_563))
        named = [(41 * number, f"shard {number // 64:032x}") for number in range(100_032)]
        listed = "".join(f"{owner} 1 {place} 3 {U1} sound\n" for place, owner in named)
        self.listed("locators", ["locators", *words], 0, f"run 0 2 0 6028531 {U2} sound\n{listed}".encode())
        listed = "".join(f"move 1 {place} 3 {U1} {owner} 41\n" for place, owner in named)
        room = "room 2 6028569 10748647\nlast-room 1 8202624 8574592\n"
        self.listed("what may be reclaimed", ["reclaimable", *words], 0, f"reclaim 1 4101312\n{listed}{room}".encode())

    def test_half_of_many_chunks_are_garbage(self):
        """12,480 of 25,000 chunks are named."""
        words = self.made(64, 16_384, ABC * 25_000, of_64(195))
        places = [f'{{"extent":1,"length":3,"offset":{41 * number},"uuid":"{U1}"}}' for number in range(25_000)]
        kept = lines(str, range(0, 41 * 12_480, 41))
        self.reported(words, 0, orphans=lines(str, places[12_480:]), twins=lines(str, places),
                      candidates=f'[{{"extent":1,"free":{41 * 12_520},"keep":{kept}}}]')
        listed = "".join(f"shard {number // 64:032x} 1 {41 * number} 3 {U1} sound\n" for number in range(12_480))
        self.listed("locators", ["locators", *words], 0, f"run 0 2 0 752155 {U2} sound\n{listed}".encode())

    def test_many_extents_may_be_reclaimed(self):
        """2,000 extents have a page of zeros below the pointer."""
        path = written(self.room / "large.img", [(0, record(64, 128, 2_001, [64] * 2_000, []))], 64 * 128 * 2_001)
        candidates = lines(lambda number: f'{{"extent":{number},"free":64,"keep":[]}}', range(1, 2_001))
        extents = lines(lambda number: f'{{"bad":[],"extent":{number},"items":["pad 0 64"],"live":0,"pointer":64,"tail":0,'
                                       '"tail_at":null}', range(1, 2_001))
        self.reported([*geometry(64, 128, 2_001), path], 0, candidates=candidates, extents=extents)

    def test_many_shards_are_written_bound_and_named(self):
        """Two runs have the same 40,000 shards, and between them is a lost one."""
        payload = of_1([0] * 40_000)
        page, pages, end = 256, 16_384, len(frame(TWOS, payload))
        size, texts = page * pages, (frame(TWOS, payload), frame(uuid(0x33), payload))
        runs = [locator(2, 0, TWOS, payload), locator(1, 300, ONES, payload), locator(3, 0, uuid(0x33), payload)]
        parts = [(0, record(page, pages, 4, [41, end, end], runs)), (size, ABC), (2 * size, texts[0]), (3 * size, texts[1])]
        words = [*geometry(page, pages, 4), written(self.room / "large.img", parts, 4 * size)]
        self.listed("the index", ["index", *words], 1, payload)
        of_runs = (f"run 0 2 0 3080040 {U2} sound\nrun 1 1 300 3080040 {U1} past_pointer\nspare 2 0 3080040 {U2} 2\n"
                   f"run 2 3 0 3080040 {U3} sound\n")
        listed = "".join(f"shard {number:032x} 1 0 3 {U1} sound\n" for number in range(40_000))
        self.listed("locators", ["locators", *words], 1, (of_runs + listed).encode())

    def test_each_page_of_a_blank_extent_is_an_item(self):
        path = written(self.room / "large.img", [], 64 * 65_536 * 2)
        words = ["items", *geometry(64, 65_536, 2), "--extent", "1", "--pointer", "4194304", path]
        self.listed("items", words, 0, "".join(f"pad {64 * page} {64 * page + 64}\n" for page in range(65_536)).encode())

    def test_many_named_pages_are_unreadable(self):
        """100,000 words name 4,096 pages."""
        path = written(self.room / "large.img", [], 64 * 4_096 * 2)
        words = [*geometry(64, 4_096, 2), path, *(f"1:{number % 4_096}" for number in range(100_000))]
        items = lines(lambda page: f'"lost {64 * page} {64 * page + 64}"', range(4_096))
        self.reported(words, 1, extents=f'[{{"bad":{lines(str, range(4_096))},"extent":1,"items":{items},"live":0,"pointer":262144,'
                                        '"tail":0,"tail_at":null}]')

    def test_a_sealed_run_of_a_mebibyte_is_read(self):
        payload = of_64(272)
        self.true("its length", len(payload) == 1_049_144)
        words = self.made(256, 8_192, ABC * 17_408, payload, form=sealed_frame)
        self.reported(words, 0, clean="true", shards="272", runs='[{"entries":272,"extent":2,"offset":0,"state":"read"}]')
        self.listed("the index", ["index", *words], 0, payload)
