"""The status of each locator on worked disks, on both sides of each limit; which locators a disk names; and which of its index runs are
read. What is right was written by hand, from docs/FORMAT.md and docs/REPORT.md.
"""
import json
from uuid import UUID

from lib import worked
from lib.cases import RoomCase
from lib.disks import LOCATOR, Disk, be, digest, frame, record, sealed_frame, shard
from lib.worked import ENDS_IN_MAGIC, ONES, TWOS, abc, finish, one_shard, put_run
from test_system import answer

S1 = shard(1).hex()
U1, U2, U3, U4 = ("-".join(digit * size for size in (8, 4, 4, 4, 12)) for digit in "1234")
ABC, SEALED_ABC = frame(ONES, b"abc"), sealed_frame(ONES, b"abc")
# Payloads of frames of 64 and of 129 bytes. The last byte of the second frame is the first of page 2.
SHORT, LONG = b"x" * 26, b"x" * 91
# UUIDs with another first byte, and with another last byte.
OTHER_FIRST, OTHER_LAST = b"\x10" + ONES[1:], ONES[:-1] + b"\x10"
# A UUID that lacks only the last byte of the magic at its end.
OTHERWISE = ENDS_IN_MAGIC[:-1] + b"\x5f"


def locator(extent, offset, name=ONES, payload=b"abc", length=None):
    """The locator of a chunk, maybe with another length."""
    return LOCATOR.pack(extent, offset, len(payload) if length is None else length, name, digest(payload))


def line_of(named, status):
    """The line of the shard's locator with this status."""
    extent, offset, length, name, _ = LOCATOR.unpack(named)
    return f"shard {S1} {extent} {offset} {length} {UUID(bytes=name)} {status}"


def changed(named, *places):
    """The locator with a flipped bit at each of these places."""
    text = bytearray(named)
    for place in places:
        text[place] ^= 1
    return bytes(text)


# The place of the digest in a locator.
DIGEST = LOCATOR.size - 32
# Frames of disks of four extents, each with its extent and its offset; the pointer of extent 1, where 256 is the end of the extent; and the
# unreadable pages. Extent 3 is below its pointer, and the run is in extent 2. Then locators and their statuses.
STATUSES = {
    "a chunk in extent 0 or past the last extent": ([(0, 0, ABC), (1, 0, ABC), (3, 0, ABC)], 256, [], [
        (locator(0, 0), "out_of_range"), (locator(1, 0), "sound"), (locator(3, 0), "sound"), (locator(4, 0), "out_of_range")]),
    "a frame that would end one byte past the extent": ([(1, 192, frame(ONES, SHORT))], 256, [], [
        (locator(1, 192, ONES, SHORT), "sound"), (locator(1, 192, ONES, SHORT, 27), "out_of_range"),
        (locator(1, 192, ONES, SHORT, (1 << 32) - 1), "out_of_range")]),
    "a frame that ends at the pointer": ([(1, 0, ABC)], 41, [], [
        (locator(1, 0), "sound"), (locator(1, 0, OTHER_FIRST), "wrong_uuid"), (locator(1, 0, OTHER_LAST), "wrong_uuid")]),
    "a frame that ends one byte past the pointer": ([(1, 0, ABC)], 40, [], [(locator(1, 0), "past_pointer")]),
    "a frame whose first page is unreadable": ([(1, 0, frame(ONES, LONG))], 256, ["1:0"], [(locator(1, 0, ONES, LONG), "unreadable")]),
    "a frame whose second page is unreadable": ([(1, 0, frame(ONES, LONG))], 256, ["1:1"], [(locator(1, 0, ONES, LONG), "unreadable")]),
    "a frame with one byte on its last page": ([(1, 0, frame(ONES, LONG))], 256, ["1:2"], [(locator(1, 0, ONES, LONG), "unreadable")]),
    "a frame before an unreadable page": ([(1, 0, frame(ONES, LONG))], 256, ["1:3"], [(locator(1, 0, ONES, LONG), "sound")]),
    "a frame that ends with its page is read without the next": ([(1, 0, frame(ONES, SHORT))], 256, ["1:1"], [
        (locator(1, 0, ONES, SHORT), "sound"), (locator(1, 0, ONES, SHORT, 27), "unreadable")]),
    "a frame that ends with the last byte of the last extent": ([(3, 192, frame(ONES, SHORT))], 256, [], [
        (locator(3, 192, ONES, SHORT), "sound"), (locator(3, 192, ONES, SHORT, 27), "out_of_range")]),
    "that frame, with the last page unreadable": ([(3, 192, frame(ONES, SHORT))], 256, ["3:3"], [
        (locator(3, 192, ONES, SHORT), "unreadable")]),
    "one byte after the start of a frame": ([(1, 0, ABC)], 256, [], [(locator(1, 0), "sound"), (locator(1, 1), "no_frame")]),
    "a length of one byte less or more": ([(1, 0, ABC)], 256, [], [
        (locator(1, 0, length=2), "wrong_length"), (locator(1, 0, length=4), "wrong_length")]),
}
# Two pages are unreadable. Each locator has the faults of all below it.
FAULTS = [(1, 0, ABC)], 130, ["1:1", "1:2"], [
    (LOCATOR.pack(1, offset, 2, name, bytes(32)), status) for offset, name, status in (
        (217, TWOS, "out_of_range"), (91, TWOS, "past_pointer"), (90, TWOS, "unreadable"), (1, TWOS, "no_frame"), (0, TWOS, "wrong_uuid"),
        (0, ONES, "wrong_length"))]


def naming(named, frames, pointer):
    """A disk of four extents with these frames. The run in extent 2 names this locator alone. Page 0 is free."""
    disk = Disk(4, 4)
    for place in frames:
        disk.put(*place)
    return finish(disk, [pointer, 155, 256], [put_run(disk, 2, 0, TWOS, named)], page=1)


class StatusCase(RoomCase):
    def put(self, made):
        """Writes a disk, maybe with unreadable pages. Returns the words for its sizes, its file and these pages."""
        disk, *bad = made if isinstance(made, tuple) else (made,)
        path = self.room / "disk.img"
        path.write_bytes(disk.bytes)
        return [*disk.geometry(), str(path), *bad]

    def report(self, words):
        """What a scan by the caller alone reports."""
        _, out, _ = answer("scan", "--workers", "0", *words)
        return json.loads(out)


class Statuses(StatusCase):
    def has(self, what, disk, bad, named, status):
        """Checks the line of the shard's only locator. After it may come the line of a copy."""
        _, out, error = answer("locators", *self.put((disk, *bad)))
        lines = [line for line in out.decode().splitlines() if line.startswith("shard ")]
        self.same(what, (lines, error), ([line_of(named, status)], b""))

    def check(self, what, frames, pointer, bad, cases):
        for named, status in cases:
            self.has(f"{what}, {line_of(named, status)}", naming(named, frames, pointer), bad, named, status)

    def test_each_locator_has_the_status_of_its_fault(self):
        for what, row in STATUSES.items():
            self.check(what, *row)

    def test_the_first_of_several_faults_is_the_status(self):
        self.check("several faults", *FAULTS)

    def test_one_changed_byte_makes_a_digest_wrong(self):
        for place in (0, 31):
            self.check(f"byte {place}", [(1, 0, ABC)], 41, [], [(changed(abc(1, 0), DIGEST + place), "wrong_digest")])

    def test_a_chunk_is_hidden_by_a_frame_whose_uuid_ends_in_its_magic(self):
        """`abc` overwrites the last two bytes of the frame before it."""
        for name, chunk, overwritten in ((ENDS_IN_MAGIC, "hidden", "sound"), (OTHERWISE, "sound", "no_frame")):
            frames = [(1, 0, frame(name, b"x" * 28)), (1, 64, ABC)]
            self.check("overwritten", frames, 105, [], [(abc(1, 64), chunk), (locator(1, 0, name, b"x" * 28), overwritten)])

    def test_frames_stand_up_to_the_pointer(self):
        """On the disk of the collision, with `abc` in extent 1."""
        long = locator(2, 0, ENDS_IN_MAGIC, b"x" * 220)
        for named, first, second, status in ((abc(1, 0), 512, 297, "sound"), (abc(1, 0), 41, 297, "sound"), (abc(1, 0), 40, 297, "past_pointer"),
                                             (abc(1, 41), 512, 297, "no_frame"), (long, 512, 297, "sound"), (long, 512, 258, "sound"),
                                             (long, 512, 257, "past_pointer"), (abc(2, 256), 512, 512, "hidden"),
                                             (abc(2, 256), 512, 297, "hidden"), (abc(2, 256), 512, 296, "past_pointer")):
            disk = worked.collision()
            disk.put(1, 0, ABC)
            disk = finish(disk, [first, second, 155], [put_run(disk, 3, 0, TWOS, named)])
            self.has(f"under {first} and {second}", disk, ["1:1"], named, status)

    def test_a_frame_with_a_byte_on_an_unreadable_page_does_not_stand(self):
        """Frames of 41 bytes. The first ends with page 0. Of the others the last byte, part of the head, or all bytes are on page 1."""
        for offset, status in ((215, "hidden"), (216, "unreadable"), (240, "unreadable"), (300, "unreadable")):
            disk, named = Disk(8, 4, 256), abc(1, offset)
            disk.put(1, offset, ABC)
            disk = finish(disk, [512, 0, 155], [put_run(disk, 3, 0, TWOS, named)])
            self.has(f"at {offset}", disk, ["1:1"], named, status)

    def test_range_and_pointer_are_checked_by_the_size_of_a_plain_frame(self):
        """A sealed frame of 75 bytes."""
        for pointer, offset, status in ((75, 0, "sound"), (75, 1, "no_frame"), (74, 0, "no_frame"), (60, 0, "no_frame"), (40, 0, "past_pointer")):
            self.check(f"under {pointer}", [(1, 0, SEALED_ABC)], pointer, [], [(abc(1, offset), status)])

    def test_a_sealed_frame_with_an_unreadable_end_is_no_frame(self):
        self.check("page 1", [(1, 0, SEALED_ABC)], 75, ["1:1"], [(abc(1, 0), "no_frame")])

    def test_a_chunk_over_the_end_of_a_sealed_frame_is_sound(self):
        frames = [(1, 0, sealed_frame(ENDS_IN_MAGIC, b"x" * 58)), (1, 128, ABC)]
        self.check("over the end", frames, 169, [], [(abc(1, 128), "sound")])

    def test_out_of_range_comes_before_retired_and_retired_before_the_rest(self):
        """Extent 1 is retired. The run is at the start of extent 2."""
        for named, status in ((abc(1, 216), "out_of_range"), (abc(1, 215), "retired"), (abc(1, 0), "retired"), (abc(2, 0), "wrong_uuid"),
                              (abc(2, 200), "past_pointer"), (abc(3, 0), "out_of_range")):
            disk = Disk(4, 3)
            disk.put(1, 0, ABC)
            runs = [put_run(disk, 2, 0, TWOS, named)]
            self.same("the length of the record", len(record(64, 4, 3, [41, 155], runs, 1, [1])), 132)
            self.has("retired", finish(disk, [41, 155], runs, retired=[1]), [], named, status)


class Named(StatusCase):
    """Which locators a disk names, and whether its one shard is known and in doubt."""

    def check(self, made, lines, shards, doubtful=()):
        words = self.put(made)
        _, out, error = answer("locators", *words)
        self.same("locators", (out.decode().splitlines(), error), (lines, b""))
        report = self.report(words)
        self.same("the shard", (report["shards"], report["doubtful"]), (shards, list(doubtful)))

    def test_the_locator_of_a_run_is_named_before_those_of_its_shard(self):
        self.check(one_shard(), [f"run 0 2 0 117 {U2} sound", f"shard {S1} 1 0 3 {U1} sound"], 1)

    def test_the_locator_of_a_lost_run_is_named(self):
        self.check(one_shard("2:0"), [f"run 0 2 0 117 {U2} unreadable"], 0)

    def test_a_shard_that_the_newest_run_deletes_is_not_bound(self):
        lines = [f"run 0 2 0 57 {U2} sound", f"run 1 2 95 117 {U3} sound", f"run 2 3 0 117 {U4} sound"]
        self.check(worked.deleted_in_the_newest_run(), lines, 0)

    def test_a_shard_after_a_broken_run_is_bound_and_doubtful(self):
        lines = [f"run 0 2 0 57 {U2} sound", f"run 1 3 0 117 {U3} sound", f"shard {S1} 1 0 3 {U1} sound"]
        self.check(worked.broken_newest_run(), lines, 1, [S1])

    def test_a_run_that_is_named_twice_binds_its_shard_once(self):
        lines = [f"run 0 2 0 117 {U2} sound", f"run 1 2 0 117 {U2} sound", f"shard {S1} 1 0 3 {U1} sound"]
        self.check(one_shard(times=2), lines, 1)


# What a run has: the chunk of the one shard, or that it was deleted.
BINDS = f"retired\nruns lost 0 hidden 0\nshard {S1} 00 3 {digest(b'abc').hex()} sound plain\ntotal 1 1\n"
DELETES = "retired\nruns lost 0 hidden 0\ntotal 0 0\n"
# A disk, and its runs, newest first: the place of each, its state, and what it has.
RUNS = {
    "one shard": (one_shard, [(2, 0, "read", BINDS)]),
    "no superblock": (lambda: Disk(4, 3), []),
    "three runs are read": (worked.deleted_in_the_newest_run, [(2, 0, "read", DELETES), (2, 95, "read", BINDS), (3, 0, "read", BINDS)]),
    "a run with a wrong digest is lost, and the older one is read": (worked.broken_newest_run, [
        (2, 0, "not_a_run", None), (3, 0, "read", BINDS)]),
    "a run that is named twice": (lambda: one_shard(times=2), [(2, 0, "read", BINDS)] * 2),
    "the last pages of a run are unreadable": (lambda: one_shard("2:2", "2:3"), [(2, 0, "unreadable", None)]),
}


class Runs(StatusCase):
    def states(self, words, *wanted):
        """Checks the places of the runs, their states, and how many entries each has if it was read."""
        found = [(row["extent"], row["offset"], row["state"], row["entries"]) for row in self.report(words)["runs"]]
        self.same("runs", found, [(*row, 1 if row[2] == "read" else None) for row in wanted])

    def test_runs_of_worked_disks_are_read_or_lost(self):
        """What a run has is the manifest by it alone."""
        for what, (make, runs) in RUNS.items():
            words = self.put(make())
            self.states(words, *(row[:3] for row in runs))
            for extent, offset, state, text in runs:
                right = (0, text.encode(), b"") if text else (2, b"", f"shardscrub: run not found: {extent}:{offset}\n".encode())
                self.same(f"{what}, {extent}:{offset}, {state}", answer("manifest", "--run", f"{extent}:{offset}", *words), right)

    def test_a_run_is_lost_with_the_status_of_its_locator(self):
        """Under this write pointer of extent 2."""
        disk = Disk(4, 3)
        named = worked.abc_and_its_run(disk)
        for pointer, one, place, state in ((155, be(4, 3) + named[4:], (3, 0), "out_of_range"),
                                           (155, named[:4] + be(4, 1) + named[8:], (2, 1), "past_pointer"),
                                           (156, named[:4] + be(4, 1) + named[8:], (2, 1), "no_frame"),
                                           (155, named[:12] + ONES + named[28:], (2, 0), "wrong_uuid"),
                                           (155, named[:8] + be(4, 116) + named[12:], (2, 0), "wrong_length"),
                                           (155, changed(named, DIGEST + 31), (2, 0), "wrong_digest")):
            self.states(self.put(finish(disk, [41, pointer], [one])), (*place, state))

    def test_a_run_is_lost_if_its_payload_is_not_a_run(self):
        disk = Disk(4, 3)
        self.states(self.put(finish(disk, [41, 0], [disk.chunk(1, 0, ONES, b"abc")])), (1, 0, "not_a_run"))

    def test_a_hidden_run_is_read(self):
        """It names a chunk where the frame is that hides it."""
        disk = Disk(4, 3)
        disk.chunk(1, 0, ENDS_IN_MAGIC, b"x" * 28)
        words = self.put(finish(disk, [219, 0], [put_run(disk, 1, 64, TWOS, abc(1, 0))]))
        self.states(words, (1, 64, "read"))
        lines = f"run 0 1 64 117 {U2} hidden\nshard {S1} 1 0 3 {U1} wrong_uuid\n"
        self.same("locators", answer("locators", *words), (1, lines.encode(), b""))
