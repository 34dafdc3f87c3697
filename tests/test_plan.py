"""act/plan and act/put: the worked examples of a reclamation, plans on made-up disks, interruptions, slips in the script that `compare` stops,
and what act/put refuses. tests/fuzz/plan.py has more disks."""
import os
import random
import re
import shutil
import signal
import subprocess
import sys
import time
from collections import Counter
from functools import partial
from hashlib import sha256
from pathlib import Path
from unittest import mock

from lib.cases import RoomCase, add_tests
from lib.disks import frame, geometry, locator, record, run, shard, uuid
from lib.node import Drive, Engine, require
from lib.planning import CALLS, SCRIPT, Planner, Words, is_right, judge, plan_on, planned_drive, put, reclaim, write_of
from lib.program import PUT_TOOLS, TOP, need

SEED, DISKS, INTERRUPTED, BY_BOTH = 1, 400, 200, 24
PLAN, PUT = TOP / "act/plan", TOP / "act/put"
SECONDS = 120
SHELLS = ("dash", "bash")


def seed_of(turn):
    return SEED * 1_000_003 + turn


# Worked disks

class Sized:
    """Disks of these sizes, each made by what is written to it: an extent, an offset and bytes, one over the other."""

    def __init__(self, page, pages, extents):
        self.page, self.pages, self.extents = page, pages, extents

    def disk(self, *writes):
        size = self.page * self.pages
        text = bytearray(size * self.extents)
        for extent, offset, some in writes:
            text[extent * size + offset:extent * size + offset + len(some)] = some
        return bytes(text)

    def record(self, generation, pointers, *runs):
        return record(self.page, self.pages, self.extents, pointers, runs, generation)

    def words(self):
        return geometry(self.page, self.pages, self.extents)


def abc_at(extent, offset):
    """The locator of the chunk `abc` there."""
    return locator(extent, offset, uuid(0x11), b"abc")


def named_by_digest(payload):
    """The UUID of the chunk of a run that act/plan writes."""
    return sha256(payload).digest()[:16]


U1, UA, S1 = "-".join("1" * n for n in (8, 4, 4, 4, 12)), "-".join("a" * n for n in (8, 4, 4, 4, 12)), shard(1).hex()
ABC, DE, REST = frame(uuid(0x11), b"abc"), frame(uuid(0x22), b"de"), frame(uuid(0x55), bytes(100))
ROT = frame(uuid(0x11), b"abX")
EIGHT, WIDE = Sized(64, 8, 4), Sized(64, 16, 4)
# A chunk that moves with its shard's entry.
OLD_RUN = run((shard(1), [abc_at(1, 0)]), (shard(2), [locator(2, 0, uuid(0x22), b"de")]))
OLD = locator(3, 0, uuid(0xAA), OLD_RUN)
ON_FIRST = (1, 0, ABC + REST), (2, 0, DE), (3, 0, frame(uuid(0xAA), OLD_RUN)), (0, 192, EIGHT.record(2, (179, 40, 232), OLD))
NEW_RUN = run((shard(1), [abc_at(2, 195)]))
NEW = locator(2, 40, named_by_digest(NEW_RUN), NEW_RUN)
COPIES = (2, 40, frame(named_by_digest(NEW_RUN), NEW_RUN)), (2, 195, ABC)
DONE = (0, 0, EIGHT.record(3, (0, 236, 232), NEW, OLD))
# Nothing to copy, a run that moves, a last copy, the last generation.
OTHER_RUN = run((shard(1), [abc_at(2, 0)]))
OTHER = locator(3, 0, uuid(0xAA), OTHER_RUN)
RUN_CHUNK = frame(uuid(0xAA), OTHER_RUN)
IN_FIRST = (0, 0, EIGHT.record(7, (431, 41, 0), locator(1, 0, uuid(0xAA), OTHER_RUN)))
# No room, no page.
FULL, NARROW = Sized(64, 4, 3), Sized(64, 4, 4)
FULL_RUN = run((shard(1), [abc_at(1, 0)]))
FULL_CHUNKS = frame(uuid(0xAA), FULL_RUN) + frame(uuid(0x44), bytes(20))
# 32 runs, the newest of which deletes shard 2.
MANY = Sized(1024, 4, 4)
MANY_RUNS = [run((shard(1), [abc_at(1, 0)]), (shard(2), []))] + [run((shard(i), [])) for i in range(2, 33)]
MANY_CHUNKS = [frame(uuid(0x80 + k), text) for k, text in enumerate(MANY_RUNS)]
MANY_LISTED = [locator(3, len(b"".join(MANY_CHUNKS[:k])), uuid(0x80 + k), text) for k, text in enumerate(MANY_RUNS)]
MANY_END = len(b"".join(MANY_CHUNKS))
MERGED = run((shard(1), [abc_at(3, 3272)]))
ON_MANY = (1, 0, ABC + REST), (2, 0, DE), (3, 0, b"".join(MANY_CHUNKS)), (0, 0, MANY.record(7, (179, 40, MANY_END), *MANY_LISTED))

# The same with a run in extent 1 that is the spare of a lost payload of shard 33.
SPARED_RUNS = [run((shard(1), [abc_at(1, 0)]), (shard(33), [locator(2, 200, uuid(0x77), MANY_RUNS[5])])), *MANY_RUNS[1:5], *MANY_RUNS[6:]]
SPARED_CHUNKS = [frame(uuid(0xC0 + k), text) for k, text in enumerate(SPARED_RUNS)]
SPARED_LISTED = [locator(3, len(b"".join(SPARED_CHUNKS[:k])), uuid(0xC0 + k), text) for k, text in enumerate(SPARED_RUNS)]
SPARED_LISTED.append(locator(1, len(ABC), uuid(0x85), MANY_RUNS[5]))
ON_SPARED = ((1, 0, ABC + MANY_CHUNKS[5] + REST), (2, 0, DE), (3, 0, b"".join(SPARED_CHUNKS)),
             (0, 0, MANY.record(7, (len(ABC + MANY_CHUNKS[5] + REST), 40, len(b"".join(SPARED_CHUNKS))), *SPARED_LISTED)))

# Each disk by its name.
WORKED = {
    "first": (EIGHT, ON_FIRST),
    "half": (EIGHT, [*ON_FIRST, COPIES[1]]),
    "rotten": (EIGHT, [*ON_FIRST, *COPIES, (2, 62, b"X")]),
    "copied": (EIGHT, [*ON_FIRST, *COPIES]),
    "done": (EIGHT, [*ON_FIRST, *COPIES, DONE]),
    "torn": (EIGHT, [*ON_FIRST, *COPIES, (0, 0, DONE[2][:100])]),
    "garbage": (EIGHT, [(1, 0, REST), (2, 0, ABC), (3, 0, RUN_CHUNK), (0, 0, EIGHT.record(6, (138, 41, 155), OTHER, OTHER)),
                        (0, 256, EIGHT.record(7, (138, 41, 155), OTHER))]),
    "runs": (EIGHT, [(1, 0, RUN_CHUNK + REST + REST), (2, 0, ABC), IN_FIRST]),
    "runs-copied": (EIGHT, [(1, 0, RUN_CHUNK + REST + REST), (2, 0, ABC + RUN_CHUNK), IN_FIRST]),
    "spare": (EIGHT, [(1, 0, REST + ABC), (2, 0, ROT), (3, 0, RUN_CHUNK), (0, 0, EIGHT.record(7, (179, 41, 155), OTHER))]),
    "newest": (EIGHT, [(1, 0, REST), (2, 0, ABC), (3, 0, RUN_CHUNK), (0, 0, EIGHT.record(2 ** 64 - 1, (138, 41, 155), OTHER))]),
    "full": (FULL, [(1, 0, ABC + REST), (2, 0, FULL_CHUNKS), (0, 0, FULL.record(7, (179, 213), locator(2, 0, uuid(0xAA), FULL_RUN)))]),
    "narrow": (NARROW, [(1, 0, REST), (2, 0, ABC), (3, 0, RUN_CHUNK), (0, 0, NARROW.record(7, (138, 41, 155), OTHER))]),
    "many": (MANY, ON_MANY),
    "spared": (MANY, ON_SPARED),
    "merged": (MANY, [(1, 0, ABC + REST), (2, 0, DE), (3, 0, b"".join(MANY_CHUNKS) + frame(named_by_digest(MERGED), MERGED) + ABC), ON_MANY[-1],
                      (0, 2048, MANY.record(8, (0, 40, 3313), locator(3, 3117, named_by_digest(MERGED), MERGED)))]),
}

# Lines that are printed.
WRITE_RUN = ("write 2 40 c55eb3ea5fec569b53c172b1e2c8b9262b120000007552554e310000000100000000000000000000000000000001010000000200000"
             "0c30000000311111111111111111111111111111111ba7816bf8f01cfea414140de5dae2223b00361a396177a9cb410ff61f20015adf564e0b893"
             "3d172e1eb69604715868677dead5b902c39eb3da167bc679def785b3ea5fec569b53c172b1e2c8b9262b12\n")
WRITE_SUPERBLOCK = ("write 0 0 535342310000000000000003000000400000000800000004000200000000000000ec000000e8000000020000002800000075b3ea5f"
                    "ec569b53c172b1e2c8b9262b12b3ea5fec569b53c172b1e2c8b9262b12891ddbe72b643da60460efe743442a030000000300000000000000"
                    "c2aaaaaaaaaaaaaaaaaaaaaaaaaaaaaaaafccb6b1944cf3f71ea75f76c1cde22305e01d1a0ef9723c38f595951cc68b2cd7f7de6349e44b1"
                    "d52b2ebdc6e10f1dc05a99d36e280538b41e1e62f936f958280000\n")
WRITE_OVER_6 = ("write 0 0 535342310000000000000008000000400000000800000004000100000000000000290000009b000000030000000000000075aaaaaaaaaa"
                "aaaaaaaaaaaaaaaaaaaaaa7f9bc39dc4473387c7f9a1667f97bccceffc87fdcaa8f685711ea8011730bcc48fd710b823dc11a2902acc7110d9f6"
                "edc9152234d5412cace24f5f9391f9aded" + "0" * 124 + "\n")
WRITE_MOVED = ("write 0 192 535342310000000000000008000000400000000800000004000100000000000000c400000000000000020000002900000075aaaaaaaa"
               "aaaaaaaaaaaaaaaaaaaaaaaa7f9bc39dc4473387c7f9a1667f97bccceffc87fdcaa8f685711ea8011730bcc44aaa9ba8fce04d38ce90fd62d7c41"
               "7e1db89ad98fae1a6d2ac430e668d204a8c" + "0" * 124 + "\n")
WRITE_MERGED = ("write 3 3117 c55e21ca3a2c614d762e2133669331fdc3030000007552554e3100000001000000000000000000000000000000010100000003"
                "00000cc80000000311111111111111111111111111111111ba7816bf8f01cfea414140de5dae2223b00361a396177a9cb410ff61f20015adb09c"
                "541ffd28ece6d1fed88ae8ce7bc84dd0fb0e641d9babf06f347fb4d5510421ca3a2c614d762e2133669331fdc303\n")
SPARE = f"spare 1 138 3 {U1} shard {S1} 41"


class WorkedCase(RoomCase):
    """In the folder there is a file for each worked disk, with its name."""

    @classmethod
    def setUpClass(cls):
        super().setUpClass()
        for name, (sized, writes) in WORKED.items():
            (cls.room / name).write_bytes(sized.disk(*writes))
        cls.given = {**os.environ, "SHARDSCRUB": cls.program}

    def run_in_room(self, *words, **more):
        """The status, the output and the error stream of a command."""
        streams = {"stdin": subprocess.DEVNULL} if "input" not in more else {}
        done = subprocess.run(words, cwd=self.room, env=self.given, capture_output=True, text=True, timeout=SECONDS, **streams, **more)
        return done.returncode, done.stdout, done.stderr

    def plan(self, name, *words, script=PLAN):
        return self.run_in_room(sys.executable, script, *WORKED[name][0].words(), *words, name)

    def file(self, name):
        return (self.room / name).read_bytes()


class Examples(WorkedCase):
    """Each answer to the byte."""

    def check(self, name, words, status, lines):
        self.same(f"plan {name} {' '.join(words)}", self.plan(name, *words), (status, lines, ""))

    def check_command(self, command, name, words, status, lines):
        found = self.run_in_room(self.program, command, *WORKED[name][0].words(), *words)
        self.same(f"{command} {words}", found, (status, lines, ""))

    def test_a_chunk_moves_with_its_shards_entry(self):
        listed = f"reclaim 1 138\nmove 1 0 3 {U1} shard {S1} 41\nroom 2 40 472\nroom 3 232 280\nlast-room 1 179 333\n"
        self.check_command("reclaimable", "first", ["--last", "2", "first"], 0, listed)
        self.check("first", ["--last", "2", "--reset", "1"], 0, WRITE_RUN + "copy 1 0 2 195 41\n")

    def test_a_part_of_it_is_written(self):
        for name in ("half", "rotten"):
            self.check(name, ["--last", "2", "--reset", "1"], 0, WRITE_RUN)

    def test_all_of_it_is_written(self):
        for name in ("copied", "torn"):
            self.check(name, ["--last", "2", "--reset", "1"], 0, WRITE_SUPERBLOCK)

    def test_the_superblock_is_written(self):
        self.check_command("compare", "first", ["first", "done", "--reset", "1"], 0, "safe 2 3\n")
        self.check_command("compare", "first", ["first", "done"], 1, "pointer 1 179 0\nunsafe\n")
        self.check("done", ["--last", "2", "--reset", "1"], 1, "doubt last 3 2\ndoubt tail 1 0 73\n")
        self.check("done", ["--last", "3", "--reset", "1"], 1, "unlisted 1\n")

    def test_refused(self):
        self.check("first", ["--last", "2", "--reset", "3", "--reset", "1"], 1, "unlisted 3\n")
        self.check("first", ["--last", "3", "--reset", "1"], 1, "doubt last 2 3\n")

    def test_an_extent_that_is_given_twice_counts_once(self):
        self.check("first", ["--last", "2", "--reset", "1", "--reset", "1"], 0, WRITE_RUN + "copy 1 0 2 195 41\n")

    def test_nothing_to_copy(self):
        self.check("garbage", ["--last", "7", "--reset", "1"], 0, WRITE_OVER_6)

    def test_the_rest_of_an_older_record(self):
        """The new superblock takes pages 0 to 2. An older record begins on page 2, and goes up to the end of page 4, its last one. The next
        one isn't touched."""
        older, oldest = WIDE.record(5, (138, 41, 155), OTHER, OTHER), WIDE.record(4, (138, 41, 155))
        on = (1, 0, REST), (2, 0, ABC), (3, 0, RUN_CHUNK), (0, 128, older), (0, 320, oldest)
        (self.room / "overlapping").write_bytes(WIDE.disk(*on, (0, 448, WIDE.record(7, (138, 41, 155), OTHER)), (0, 640, oldest)))
        superblock = WIDE.record(8, (0, 41, 155), OTHER)
        _, lines, _ = self.run_in_room(self.program, "superblocks", *WIDE.words(), "overlapping")
        self.same("superblocks", lines, "record 2 SSB1 5 older\nrecord 5 SSB1 4 older\nrecord 7 SSB1 7 counts\nrecord 10 SSB1 4 older\n")
        found = self.run_in_room(sys.executable, PLAN, *WIDE.words(), "--last", "7", "--reset", "1", "overlapping")
        self.same("plan", found, (0, f"write 0 0 {superblock.ljust(320, bytes(1)).hex()}\n", ""))

    def test_a_run_moves(self):
        listed = f"reclaim 1 276\nmove 1 0 117 {UA} run 0 155\nroom 2 41 471\nroom 3 0 512\nlast-room 1 431 81\n"
        self.check_command("reclaimable", "runs", ["--last", "7", "runs"], 0, listed)
        self.check("runs", ["--last", "7", "--reset", "1"], 0, "copy 1 0 2 41 155\n")
        self.check("runs-copied", ["--last", "7", "--reset", "1"], 0, WRITE_MOVED)

    def test_a_last_copy(self):
        self.check("spare", ["--last", "7", "--reset", "1"], 1, f"doubt {SPARE}\n")
        self.check("spare", ["--last", "7", "--reset", "1", "--accept", SPARE], 0, "copy 1 138 3 155 41\n")

    def test_no_generation(self):
        self.check("newest", ["--last", str(2 ** 64 - 1), "--reset", "1"], 1, "no-generation\n")

    def test_no_room(self):
        self.check("full", ["--last", "7", "--reset", "1"], 1, "no-room 155\n")

    def test_no_page(self):
        self.check("narrow", ["--last", "7", "--reset", "1"], 1, "no-page 130\n")

    def test_32_runs(self):
        self.check("many", ["--last", "7", "--reset", "1"], 0, WRITE_MERGED + "copy 1 0 3 3272 41\n")
        self.check_command("compare", "many", ["many", "merged", "--reset", "1"], 0, "safe 7 8\n")

    def test_a_run_that_is_a_spare_is_copied_when_runs_are_merged(self):
        need(*PUT_TOOLS)
        words = [sys.executable, PLAN, *MANY.words(), "--last", "7", "--reset", "1", "image"]
        for name in ("image", "disk"):
            shutil.copy(self.room / "spared", self.room / name)
        for k in range(2):
            status, lines, _ = self.run_in_room(*words)
            self.same("plan", status, 0)
            self.true("the run is copied", k == 1 or f"copy 1 {len(ABC)} 3 " in lines, lines)
            self.same("put", self.run_in_room(PUT, "image", "disk", input=lines), (0, "", ""))
            shutil.copy(self.room / "disk", self.room / "image")
        self.check_command("compare", "spared", ["spared", "image", "--reset", "1"], 0, "safe 7 8\n")

    def test_a_reclamation_by_both_scripts(self):
        """What act/put writes is what was written by hand."""
        need(*PUT_TOOLS)
        for name, last, states in (("first", "2", ["copied", "done"]), ("runs", "7", ["runs-copied"]), ("many", "7", [None, "merged"])):
            shutil.copy(self.room / name, self.room / "disk")
            shutil.copy(self.room / name, self.room / "image")
            for state in states:
                _, lines, _ = self.run_in_room(sys.executable, PLAN, *WORKED[name][0].words(), "--last", last, "--reset", "1", "image")
                self.same("put", self.run_in_room(PUT, "image", "disk", input=lines), (0, "", ""))
                shutil.copy(self.room / "disk", self.room / "image")
                self.true(f"{name}, then {state}", state is None or self.file("disk") == self.file(state))


class Calls(WorkedCase):
    """The arguments, the faults of the program, and the folder of the copy."""

    WORDS = [*EIGHT.words(), "--last", "2", "--reset", "1", "first"]

    def call(self, *words, **given):
        with mock.patch.dict(self.given, given):
            return self.run_in_room(sys.executable, PLAN, *words)

    def test_wrong_words(self):
        for words, what in ((self.WORDS[2:], "the following arguments are required: --page"),
                            (self.WORDS[:-3] + ["first"], "the following arguments are required: --reset"),
                            (self.WORDS[:-2] + ["x", "first"], "argument --reset: 'x' is no number below 4294967296"),
                            (self.WORDS + ["--reset", "4"], "argument --reset: there is no extent 4 to reset"),
                            (self.WORDS + ["--reset", "0"], "argument --reset: there is no extent 0 to reset"),
                            (self.WORDS + ["--last", "18446744073709551616"],
                             "argument --last: '18446744073709551616' is no number below 18446744073709551616")):
            status, out, error = self.call(*words)
            self.same(what, (status, out, error.splitlines()[-1]), (2, "", f"act/plan: error: {what}"))
            self.true("usage", error.startswith("usage: act/plan --page P --pages N --extents E --last G "), error)

    def test_the_faults_of_the_program(self):
        for words in ([*self.WORDS[:-1], "no-such"], [*self.WORDS, "4:0"], ["--page", "65", *self.WORDS[2:]],
                      [*self.WORDS, "--map", "first"], [*self.WORDS, "--accept", "x"]):
            asked = [word for word in words if word not in ("--reset", "1")]
            right = self.run_in_room(self.program, "reclaimable", *asked)
            self.true("it is one", right[0] > 1 and right[2] != "", right)
            self.same(" ".join(words), self.call(*words), right)

    def test_a_line_that_reclaimable_has_not(self):
        """Nothing is accepted by it, however great its numbers are."""
        right = self.call(*self.WORDS)
        self.same("there is a plan", right[0], 0)
        for line in ("loose 1 2 3 x shard 1 99999999999999", f"loose 1 {'9' * 5000} 3 x shard 1 41", "loose 1 0 3 x shard 1 4294967295",
                     "loose 9 0 3 x shard 1 41", "loose 1 4294967295 3 x shard 1 41", "loose 1 0 3 x shard 1 40"):
            self.same(line[:60], self.call(*self.WORDS, "--accept", line), right)

    def test_several_maps(self):
        """Each lacks another page. The answer is that of both pages."""
        for name, at in (("one.map", 6 * EIGHT.page), ("two.map", 7 * EIGHT.page)):
            (self.room / name).write_text(f"0x0 + 1\n0 {at} +\n{at} {EIGHT.page} -\n{at + EIGHT.page} {2 ** 20} +\n")
        self.same("the maps", self.call(*self.WORDS, "--map", "one.map", "--map", "two.map"),
                  (1, "doubt superblock-lost 6\ndoubt superblock-lost 7\n", ""))
        self.same("what is no map", self.call(*self.WORDS, "--map", "one.map", "--map", "first"), (2, "", "act/plan: map refused: first: line 1\n"))

    def test_no_program(self):
        found = self.call(*self.WORDS, SHARDSCRUB="./no-such")
        self.same("SHARDSCRUB", found, (70, "", "act/plan: ./no-such can't be started: No such file or directory\n"))

    def test_the_program_on_the_path(self):
        """Without the variable it is the one on the path."""
        folder = self.room / "on the path"
        folder.mkdir()
        (folder / "shardscrub").write_text(f"#!/bin/sh\necho called >>'{self.room}/calls'\nexec '{self.program}' \"$@\"\n")
        (folder / "shardscrub").chmod(0o755)
        self.same("status", self.call(*self.WORDS, SHARDSCRUB="", PATH=f"{folder}:{os.environ['PATH']}")[0], 0)
        self.same("calls", self.file("calls"), b"called\n" * 5)

    def test_unreadable_pages_and_a_map(self):
        """They are given to each call: an extent with one isn't listed."""
        self.same("a page", self.call(*self.WORDS, "1:0"), (1, "unlisted 1\n", ""))
        (self.room / "map").write_text("0 ? 1\n0 512 +\n512 64 -\n576 1472 +\n")
        self.same("a map", self.call(*self.WORDS, "--map", "map"), (1, "unlisted 1\n", ""))

    def test_an_image_that_is_read_only(self):
        (self.room / "kept").write_bytes(self.file("first"))
        (self.room / "kept").chmod(0o444)
        self.same("plan", self.call(*self.WORDS[:-1], "kept"), (0, WRITE_RUN + "copy 1 0 2 195 41\n", ""))

    def test_the_image_stays_and_the_copy_goes(self):
        (self.room / "passing").mkdir()
        self.call(*self.WORDS, TMPDIR=str(self.room / "passing"))
        self.same("left", os.listdir(self.room / "passing"), [])
        self.same("the image", self.file("first"), EIGHT.disk(*ON_FIRST))

    def test_the_copy_goes_on_a_signal(self):
        folder = self.room / "interrupted"
        folder.mkdir()
        waiting = self.room / "waiting"
        waits = f"touch '{self.room}/waits'; exec sleep 100"
        waiting.write_text(f"#!/bin/sh\nif [ \"$1\" = compare ]; then {waits}; fi\nexec '{self.program}' \"$@\"\n")
        waiting.chmod(0o755)
        for number in (signal.SIGHUP, signal.SIGINT, signal.SIGTERM):
            (self.room / "waits").unlink(missing_ok=True)
            with mock.patch.dict(self.given, SHARDSCRUB=str(waiting), TMPDIR=str(folder)):
                # Whoever started the tests may have had the signal ignored.
                begun = subprocess.Popen([sys.executable, PLAN, *self.WORDS], cwd=self.room, env=self.given, stdin=subprocess.DEVNULL,
                                         stdout=subprocess.PIPE, stderr=subprocess.PIPE, text=True,
                                         preexec_fn=partial(signal.signal, number, signal.SIG_DFL))
            until = time.monotonic() + SECONDS
            while not (self.room / "waits").exists() and time.monotonic() < until:
                time.sleep(.01)
            self.same("the copy", len(os.listdir(folder)), 1)
            begun.send_signal(number)
            printed, error = begun.communicate(timeout=SECONDS)
            self.same(f"signal {number}", (begun.returncode, printed, error), (128 + number, "", ""))
            self.same("left", os.listdir(folder), [])

    def test_a_copy_that_fails(self):
        folder = self.room / "failing"
        folder.mkdir()
        (folder / "cp").write_text("#!/bin/sh\necho 'cp: no space' >&2\nexit 1\n")
        (folder / "cp").chmod(0o755)
        self.same("no space", self.call(*self.WORDS, PATH=f"{folder}:{os.environ['PATH']}"), (3, "", "cp: no space\n"))

    def test_an_output_that_fails(self):
        with open("/dev/full", "w", encoding="utf-8") as full:
            done = subprocess.run([sys.executable, PLAN, *self.WORDS], cwd=self.room, env=self.given, stdin=subprocess.DEVNULL, stdout=full,
                                  stderr=subprocess.PIPE, text=True, timeout=SECONDS, check=False)
        self.same("a full disk", (done.returncode, done.stderr), (4, "act/plan: the output failed: No space left on device\n"))


# Made-up disks

class PlanCase(RoomCase):
    @classmethod
    def setUpClass(cls):
        super().setUpClass()
        patch = mock.patch.dict(os.environ, SHARDSCRUB=cls.program)
        patch.start()
        cls.addClassCleanup(patch.stop)
        cls.engine, cls.planner = Engine(cls.program, cls.room), Planner(cls.room)


class Disks(PlanCase):
    """A plan is made, and done by the writer of the tests, sometimes in parts. `compare` says that nothing is lost, and the reference reads
    the payloads of all shards, also after the extents are erased. A refusal is the right one."""

    def check(self, turn):
        plan_on(self.engine, self.planner, seed_of(turn), Counter())


class Interrupted(PlanCase):
    """The same, but of what is written some sectors may be lost, several times."""

    def check(self, turn):
        plan_on(self.engine, self.planner, seed_of(turn), Counter(), interrupts=True)


class EachByte(PlanCase):
    """The plan of `first` is interrupted at each byte, and gone on from."""

    WORDS = Words(2, [], [1])

    def check(self, line, *made):
        """The writing of this line ends early, after these lines were made."""
        first = Drive(64, 8, 4, EIGHT.disk(*ON_FIRST))
        drive = first.copy()
        put(drive, made)
        extent, offset, text = write_of(drive, line)
        for count in range(len(text) + 1):
            disk = drive.copy()
            disk.write(extent, offset, text[:count])
            status, lines, _ = reclaim(self.planner, disk, self.WORDS, random.Random(count))
            with self.subTest(count):
                require(status == 1 and lines[0] == "doubt last 3 2", *lines)
                judge(self.engine, first, disk, self.WORDS, random.Random(count))

    def test_the_run(self):
        self.check(WRITE_RUN.strip())

    def test_the_copy(self):
        self.check("copy 1 0 2 195 41", WRITE_RUN.strip())

    def test_the_superblock(self):
        self.check(WRITE_SUPERBLOCK.strip(), WRITE_RUN.strip(), "copy 1 0 2 195 41")


class BothScripts(PlanCase):
    """The same by processes: act/plan and act/put on files."""

    def check(self, turn):
        need(*PUT_TOOLS)
        drive, words, listing, choice = planned_drive(self.engine, seed_of(turn))
        sizes, image, disk = geometry(drive.page, drive.pages, drive.extents), self.room / "image", self.room / "disk"
        options = [f"--last={words.last}", *(f"--accept={line}" for line in words.accepted), *(f"--reset={e}" for e in words.resets)]
        before = drive.copy()
        disk.write_bytes(drive.raw)
        for number in range(CALLS):
            image.write_bytes(disk.read_bytes())
            planned = subprocess.run([PLAN, *sizes, *options, image, *(f"{e}:{g}" for e, g in sorted(drive.unreadable))], timeout=SECONDS,
                                     stdin=subprocess.DEVNULL, capture_output=True, text=True, check=False)
            lines = planned.stdout.splitlines()
            if number == 0:
                self.true("the first answer", planned.stderr == "" and is_right(drive, words, listing, planned.returncode, lines), planned)
            if planned.returncode:
                break
            done = subprocess.run([PUT, *sizes, image, disk], input=planned.stdout, capture_output=True, text=True, timeout=SECONDS, check=False)
            self.same("put", (done.returncode, done.stdout, done.stderr), (0, "", ""))
        drive.raw[:] = disk.read_bytes()
        if number > 0:
            self.true("the last answer", f"doubt last {words.last + 1} {words.last}" in lines, lines)
            judge(self.engine, before, drive, words, choice)


# Slips

def with_two_owners():
    """Shards 1 and 3 have `abc`, and an older run gives shard 1 another chunk."""
    older = run((shard(1), [locator(2, 0, uuid(0x22), b"de")]))
    newer = run((shard(1), [abc_at(1, 138)]), (shard(3), [abc_at(1, 138)]))
    chunks = frame(uuid(0xAA), newer) + frame(uuid(0xBB), older)
    runs = locator(3, 0, uuid(0xAA), newer), locator(3, len(newer) + 38, uuid(0xBB), older)
    return WIDE.disk((1, 0, REST + ABC), (2, 0, DE), (3, 0, chunks), (0, 0, WIDE.record(1, (138, 0, 0))),
                        (0, 512, WIDE.record(2, (179, 40, len(chunks)), *runs)))


# What the script has, and what a slip makes of it.
SLIPS = {
    "a wrong place": ("places[piece] = Place(room.extent, room.start)", "places[piece] = Place(room.extent, room.start - 1)"),
    "a forgotten owner": ('resets and words[5] == "shard"})', 'resets and words[5] == "shard"})[1:]'),
    "a pointer": ("max(ends.get(place.extent, 0), place.offset + pieces[piece])", "max(ends.get(place.extent, 0), place.offset)"),
    "an old entry": ("newest.setdefault(identifier, locators)", "newest[identifier] = locators"),
    "a digest": ("payload = text + digest(text)", "payload = text + digest(text[:-1])"),
    "the superblock that counts is overwritten": ("        return 0\n    return record.stop", "        return record.first\n    return record.stop"),
    "an older superblock is taken for the one that counts": ('if word == "counts"]', 'if word == "older"]'),
    "a copy of the wrong chunk": ('return f"copy {source.extent} {source.offset} ', 'return f"copy {source.extent} 0 '),
    "a run in the wrong order": ("runs.insert(0, locator_of(", "runs.append(locator_of("),
    "the generation of before": ("record.generation + 1", "record.generation"),
    "an entry without its new place": ("return Locator(places.get(self.place, self.place), self.rest)", "return self"),
    "a copy that isn't there": ("return disk.read(place, len(text)) == text", "return True"),
    "the pointer of another extent": ("enumerate(record.pointers, 1)]", "enumerate(record.pointers)]"),
}


class Slips(RoomCase):
    """`compare` stops each slip of the script on the copy, and no line of a plan is printed."""

    @classmethod
    def setUpClass(cls):
        super().setUpClass()
        (cls.room / "disk").write_bytes(with_two_owners())
        # The script is called in another folder than its neighbours are in.
        cls.given = {**os.environ, "SHARDSCRUB": cls.program, "PYTHONPATH": str(TOP / "act")}

    def answer(self, script):
        words = [*WIDE.words(), "--last", "2", "--reset", "1", self.room / "disk"]
        done = subprocess.run([sys.executable, script, *words], env=self.given, stdin=subprocess.DEVNULL, capture_output=True, text=True,
                              timeout=SECONDS, check=False)
        return done.returncode, done.stdout, done.stderr

    def test_without_a_slip(self):
        status, lines, error = self.answer(PLAN)
        self.same("plan", (status, [line.split(" ")[0] for line in lines.splitlines()], error), (0, ["write", "copy"], ""))

    def check(self, slip):
        old, new = slip
        self.same("the text is there once", SCRIPT.count(old), 1)
        (self.room / "plan").write_text(SCRIPT.replace(old, new), encoding="utf-8")
        status, lines, error = self.answer(self.room / "plan")
        self.same("status and error stream", (status, error), (1, ""))
        self.true("the lines of compare", lines.splitlines()[-1].split(" ")[0] in ("unsafe", "safe"), lines)
        self.true("no line of a plan", not any(line.startswith(("copy ", "write ")) for line in lines.splitlines()), lines)


# The writes

class Put(WorkedCase):
    """act/put, under a shell."""

    SHELL = None

    def setUp(self):
        need(self.SHELL, *PUT_TOOLS)
        self.plan_text = WRITE_RUN + "copy 1 0 2 195 41\n"

    def put(self, lines, *words, **more):
        return self.run_in_room(self.SHELL, PUT, *words, input=lines, **more)

    def disk(self, name="first"):
        shutil.copy(self.room / name, self.room / "disk")
        return "disk"

    def refused(self, what, lines, *words, why="", disk="first"):
        """Nothing is written, and the error stream says why."""
        self.disk(disk)
        before = self.file("disk")
        status, out, error = self.put(lines, *(words or ("first", "disk")))
        self.same(f"{what}: status and output", (status, out), (1, ""))
        self.true(f"{what}: why", error.startswith("act/put: " if why else "") and error.endswith(f"{why}; nothing is written\n"), error)
        self.true(f"{what}: the disk", self.file("disk") == before)

    def test_a_file(self):
        self.disk()
        self.same("the pieces", self.put(self.plan_text, "first", "disk"), (0, "", ""))
        self.true("copied", self.file("disk") == self.file("copied"))
        self.same("the superblock", self.put(WRITE_SUPERBLOCK, "copied", "disk"), (0, "", ""))
        self.true("done", self.file("disk") == self.file("done"))

    def test_zeros_for_the_superblock(self):
        """The way back."""
        self.disk("done")
        _, zeros, _ = self.run_in_room("awk", '{ gsub(/./, "0", $4) } 1', input=WRITE_SUPERBLOCK)
        self.same("put", self.put(zeros, "done", "disk"), (0, "", ""))
        self.true("the superblock is gone", self.file("disk") == self.file("copied"))

    def test_a_loop_device(self):
        need("losetup")
        self.disk()
        status, device, error = self.run_in_room("losetup", "--find", "--show", "disk")
        if status:
            self.skipTest(f"no loop device can be made: {error.strip()}")
        device = device.strip()
        self.addCleanup(subprocess.run, ["losetup", "--detach", device], check=True, timeout=SECONDS)
        self.same("the pieces", self.put(self.plan_text, "first", device), (0, "", ""))
        self.same("refused", self.put(self.plan_text, "first", device)[0], 1)
        self.same("the superblock", self.put(WRITE_SUPERBLOCK, "copied", device), (0, "", ""))
        self.true("done", Path(device).read_bytes() == self.file("done"))
        self.true("done, in the file", self.file("disk") == self.file("done"))

    def test_a_write_that_fails(self):
        need("losetup")
        self.disk()
        status, device, error = self.run_in_room("losetup", "--find", "--show", "--read-only", "disk")
        if status:
            self.skipTest(f"no loop device can be made: {error.strip()}")
        self.addCleanup(subprocess.run, ["losetup", "--detach", device.strip()], check=True, timeout=SECONDS)
        status, out, error = self.put(self.plan_text, "first", device.strip())
        self.same("put", (status, out), (3, ""))
        self.true("why", error.splitlines()[-1].startswith("act/put: a write failed, and some may be on "), error)

    def test_check(self):
        self.disk()
        self.same("put", self.put(self.plan_text, "--check", "first", "disk"), (0, "", ""))
        self.true("nothing is written", self.file("disk") == self.file("first"))
        self.refused("a cut plan", self.plan_text[:-1], "--check", "first", "disk", why="the plan is cut: its last line has no end")

    def test_another_disk(self):
        for name in ("spare", "copied", "done"):
            self.refused(name, self.plan_text, disk=name)

    def test_a_disk_that_was_written_to(self):
        """Each byte is compared, also where the plan writes."""
        for at in (0, 1023, 1064, 2047):
            text = bytearray(self.file("first"))
            text[at] ^= 1
            (self.room / "changed").write_bytes(text)
            self.refused(f"byte {at}", self.plan_text, disk="changed")

    def test_a_disk_that_is_not_whole(self):
        (self.room / "short").write_bytes(self.file("first")[:-64])
        self.refused("a disk", self.plan_text, disk="short")
        self.refused("an image", self.plan_text, "short", "disk", why="short doesn't have as many bytes as the sizes give")

    def test_a_longer_disk(self):
        """The bytes after the last extent don't matter."""
        (self.room / "long").write_bytes(self.file("first") + b"x" * 512)
        self.disk("long")
        self.same("put", self.put(self.plan_text, "first", "disk"), (0, "", ""))
        self.true("copied", self.file("disk") == self.file("copied") + b"x" * 512)

    def test_no_files(self):
        self.refused("no image", self.plan_text, "no-such", "disk", why="no-such is no file")
        self.refused("no disk", self.plan_text, "first", "no-such", why="no-such is neither a block device nor a file")
        self.refused("a folder", self.plan_text, "first", ".", why=". is neither a block device nor a file")
        self.refused("one file", self.plan_text, "first", "./first", why="first and ./first are one file")

    def test_lines_that_are_no_plans(self):
        run_line, superblock = WRITE_RUN.strip(), WRITE_SUPERBLOCK.strip()
        for line in ("", "copy", "copy 1 0 2 195", "copy 1 0 2 195 41 7", "copy 1 0  2 195 41", " copy 1 0 2 195 41", "copy 1 0 2 195 41 ",
                     "copy 1 0 2 195 40", "copy 1 0 2 195 42", "copy 1 1 2 195 41", "copy 1 0 2 472 41", "copy 1 0 4 0 41", "copy 4 0 2 195 41",
                     "copy 0 192 2 195 41", "copy 1 0 0 0 41", "copy 1 00 2 195 41", "copy 1 0 2 195 041", "copy 1 0 2 -1 41", "copy 1 0 2 1e2 41",
                     "copy 1 0 2 99999999999 41", "Copy 1 0 2 195 41", "copy 1 0 2 195 41\r", "copy\t1 0 2 195 41", "#",
                     "copy 1 0 2 195 41\0", "move 1 0 2 195 41", "safe 2 3", "doubt last 3 2", "unlisted 1",
                     "no-room 155", run_line[:-1], run_line[:-2], run_line + "00", run_line + "0", run_line.upper(), run_line.replace("c55e", "c55f"),
                     run_line.replace("write 2 40", "write 0 64"), run_line.replace("write 2 40", "write 2 400"),
                     run_line.replace("write 2", "write 4"), run_line.replace("c55eb3", "c55eb4"), "write 2 40", "write 2 40 ", "write 2 40 c55",
                     superblock[:-2], superblock + "00", superblock.replace("write 0 0", "write 0 1"), superblock.replace("write 0 0", "write 0 384"),
                     superblock.replace("write 0 0", "write 1 0"), superblock.replace("53534231", "53534233"), "write 0 0 " + "01" * 64):
            self.refused(line, f"{line}\n", why="line 1 isn't a plan's")
        self.refused("a second line", "copy 1 0 2 195 41\nunsafe\n", why="line 2 isn't a plan's")
        self.refused("two superblocks", WRITE_SUPERBLOCK * 2, why="line 1 isn't a plan's")
        self.refused("a superblock with a piece", WRITE_SUPERBLOCK + "copy 1 0 2 195 41\n", why="line 1 isn't a plan's")

    def test_a_plan_that_is_cut(self):
        """At no byte is a part of a line taken."""
        self.refused("all of it", "", why="there is no plan")
        for text in (self.plan_text, WRITE_SUPERBLOCK):
            for count in sorted({*range(1, 24, 2), *range(24, len(text) - 20, 61), *range(len(text) - 20, len(text))} - {len(WRITE_RUN)}):
                self.refused(f"after {count} bytes", text[:count], why="the plan is cut: its last line has no end")
        for count in range(12, len(WRITE_SUPERBLOCK) - 1, 61):
            self.refused(f"with a line feed after {count} bytes", WRITE_SUPERBLOCK[:count] + "\n", why="line 1 isn't a plan's")

    def test_sizes(self):
        """Those of the image's records, or those that are given."""
        other = 0, 0, Sized(128, 4, 4).record(1, (0, 0, 0))
        (self.room / "two sizes").write_bytes(EIGHT.disk(*ON_FIRST, other))
        self.refused("two sizes", self.plan_text, "two sizes", "disk", disk="two sizes",
                     why="the sizes aren't certain: give --page, --pages and --extents")
        self.disk("two sizes")
        self.same("put", self.put(self.plan_text, *EIGHT.words(), "two sizes", "disk"), (0, "", ""))
        (self.room / "wanted").write_bytes(EIGHT.disk(*ON_FIRST, *COPIES, other))
        self.true("the disk", self.file("disk") == self.file("wanted"))
        self.refused("other sizes", self.plan_text, *Sized(64, 8, 5).words(), "first", "disk", why="first doesn't have as many bytes as the sizes give")

    def test_wrong_words(self):
        usage = "usage: act/put [--check] [--page P --pages N --extents E] IMAGE DISK <PLAN\n"
        for words in ([], ["first"], ["first", "disk", "more"], ["--chek", "first", "disk"], ["--page", "64", "first", "disk"],
                      ["--page", "x", "--pages", "8", "--extents", "4", "first", "disk"], ["--extents"]):
            self.same(" ".join(words), self.put(self.plan_text, *words), (2, "", usage))

    def test_help(self):
        """On the output, wherever it stands."""
        for words in (["--help"], ["-h"], ["--check", "--page", "64", "--help", "first"]):
            status, out, error = self.put("", *words)
            self.same(" ".join(words), (status, error), (0, ""))
            self.true("the usage and the statuses", "\nusage: act/put [--check] " in out and "\nExit status: 0; 1 " in out, out)

    def test_each_tool_that_is_not_there(self):
        """Its name is said, not that a line is wrong; and no other tool is needed than those that are looked for."""
        tools = re.search(r"^for tool in (.*); do$", PUT.read_text(encoding="utf-8"), re.M)[1].split()
        folder, shell = self.room / f"tools of {self.SHELL}", shutil.which(self.SHELL)
        folder.mkdir()
        for tool in tools:
            (folder / tool).symlink_to(shutil.which(tool))
        with mock.patch.dict(self.given, PATH=str(folder)), mock.patch.object(self, "SHELL", shell):
            for tool in tools:
                (folder / tool).rename(folder / "away")
                self.refused(tool, self.plan_text, why=f"{tool} isn't there, and act/put needs it")
                (folder / "away").rename(folder / tool)
            self.disk()
            self.same("put", self.put(self.plan_text, "first", "disk"), (0, "", ""))
        self.true("copied", self.file("disk") == self.file("copied"))

    def test_names_with_spaces(self):
        for name in ("an image", "a disk"):
            shutil.copy(self.room / "first", self.room / name)
        self.same("put", self.put(self.plan_text, "an image", "a disk"), (0, "", ""))
        self.true("copied", self.file("a disk") == self.file("copied"))

    def test_the_folder_goes(self):
        folder = self.room / f"passing of {self.SHELL}"
        folder.mkdir()
        with mock.patch.dict(self.given, TMPDIR=str(folder)):
            for lines in (self.plan_text, self.plan_text[:-1]):
                self.disk()
                self.put(lines, "first", "disk")
                self.same("left", os.listdir(folder), [])
            begun = subprocess.Popen([self.SHELL, PUT, "first", self.disk()], cwd=self.room, env=self.given, stdin=subprocess.PIPE,
                                     stdout=subprocess.PIPE, stderr=subprocess.PIPE, start_new_session=True)
            until = time.monotonic() + SECONDS
            while not [*folder.glob("*/plan")] and time.monotonic() < until:
                time.sleep(.01)
            os.killpg(begun.pid, signal.SIGTERM)
            begun.communicate(timeout=SECONDS)
        self.same("status", begun.returncode, 143)
        self.same("left after a signal", os.listdir(folder), [])


class PutInDash(Put):
    SHELL = "dash"


class PutInBash(Put):
    SHELL = "bash"


def load_tests(loader, tests, _):
    """Without the class that has no shell."""
    return type(tests)(suite for suite in tests if not any(type(one) is Put for one in suite))


add_tests(Disks, Disks.check, [(f"disk {turn:03}", turn) for turn in range(DISKS)])
add_tests(Interrupted, Interrupted.check, [(f"disk {turn:03}", turn) for turn in range(INTERRUPTED)])
add_tests(BothScripts, BothScripts.check, [(f"disk {turn:03}", turn) for turn in range(BY_BOTH)])
add_tests(Slips, Slips.check, list(SLIPS.items()))
