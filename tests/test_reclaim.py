"""act/reclaim: each stop with its lines, each step of a walk with an interruption, the erase, the way back, a second walk. On made-up disks
something happens at a step, and then it is called again; rules are taken out of the script one at a time, and a trial finds each.
tests/fuzz/reclaim.py has more disks."""
import fcntl
import json
import os
import random
import re
import shutil
import subprocess
import tempfile
import unittest
from collections import Counter
from pathlib import Path
from unittest.mock import patch

from lib.cases import RoomCase, add_tests
from lib.disks import geometry
from lib.faults import CACHE, KILLED, Disk, Process, Script, call
from lib.node import Drive, Engine
from lib.planning import any_drive, narrow, with_many_runs, words_for, write_of
from lib.program import PUT_TOOLS, TOP, need
from lib.reclaims import AGAIN, BACK, ENDS, KINDS, RESTORE, START, lost, parts, trial, two_walks
from lib.rules import RULES, found_by

# A rule that is taken out has to be found on one of so many disks.
SEED, DISKS, SECOND_WALKS, TRIES = 1, len(KINDS), 6, 25
# Of the bytes of its writes one in so many is the last one that is on the disk.
STRIDE = 11
# The disk of the single walks: extent 1 is reset, of which a chunk is copied, and a run is written for it.
SIZES, LAST, RESET = (64, 16, 5), 7, ["--reset=1", "--yes"]
SECONDS = 60


class ScriptCase(RoomCase):
    @classmethod
    def setUpClass(cls):
        super().setUpClass()
        cls.script, cls.engine = Script(cls.program), Engine(cls.program, cls.room)

    def setUp(self):
        CACHE.clear()
        self.folder = Path(tempfile.mkdtemp(dir=self.room))
        self.use(Drive(*SIZES, (TOP / "examples/several-findings.img").read_bytes()), LAST)

    def use(self, drive, last):
        self.disk, self.last, self.drive, self.kept = Disk(self.folder, drive, random.Random(1)), last, drive, self.folder / "kept"
        shutil.rmtree(self.kept, ignore_errors=True)

    def call(self, *words, last=None, work=None, sizes=True, **more):
        drive = self.drive
        sizes = geometry(drive.page, drive.pages, drive.extents) if sizes is True else sizes
        pairs = [f"{e}:{g}" for e, g in sorted(drive.unreadable)]
        given = [f"--last={self.last if last is None else last}", *sizes, f"--work={work or self.kept}", *words]
        return call(self.script, self.disk, [*given, self.disk.name, *pairs], **more)

    def has_lost(self):
        """Whether the disk lacks a payload that it had at first."""
        return lost(parts(self.drive), parts(self.disk.now()))

    def ended(self, ended, key, status=None):
        self.same("how it ends", (ended.key, ended.status), (key, self.status_of(key) if status is None else status))

    def status_of(self, key):
        return 0 if key == "done" else self.script.reclaim.STOPS[key].status


class Walks(ScriptCase):
    def test_a_call_without_reset_writes_nothing(self):
        before = self.disk.raw()
        os.chmod(self.disk.name, 0o444)
        ended = self.call(sizes=[])
        self.ended(ended, "done")
        self.same("what each extent gains", re.findall("^extent .*", ended.text, re.M),
                  ["extent 1: 124 bytes, 1 chunk of 53 bytes to copy", "extent 2: 112 bytes, nothing to copy"])
        self.same("the disk", self.disk.raw(), before)
        self.same("the folder", sorted(os.listdir(self.kept)), ["1.img", "1.img.sha256", "tmp"])

    def test_the_call_that_it_prints_resets_an_extent(self):
        words = re.search(r"^To reset extent 2: \S+ (.*)$", self.call().text, re.M)[1].split()
        ended = call(self.script, self.disk, [*words, "--yes"])
        self.ended(ended, "done")
        self.same("the judgement", self.engine.compare(self.drive, self.disk.now(), [2]), ("safe 7 8\n", True))

    def test_an_interruption_at_each_step(self):
        """After each of them the same words come to the same disk."""
        steps, goal = self.call(*RESET).steps, self.disk.raw()
        self.true("there are steps", len(steps) > 40 and {"page of put", "rename walk", "rename 7.img"} <= set(steps), steps)
        for number in range(1, len(steps) + 1):
            shutil.rmtree(self.kept)
            self.disk.begin(self.drive.raw)
            kind = ("kill", "power", "kill", "interrupt", "power", "full")[number % 6]
            ended = self.call(*RESET, happens={number: kind})
            self.true(f"{kind} before step {number}", ended.status != 0 or kind == "full", ended.text)
            self.same("what is lost", self.has_lost(), [])
            self.ended(self.call(*RESET), "done")
            self.same(f"the disk after {kind} before step {number}, {steps[number - 1]}", self.disk.raw(), goal)

    def test_each_byte_of_its_writes(self):
        """Wherever the writes ended, the same words come to the same disk. All of them take half a minute."""
        self.ended(self.call(*RESET), "done")
        walk, goal = json.loads((self.kept / "walk").read_text().partition("\n")[0]), self.disk.raw()
        *pieces, superblock = [write_of(self.drive, line) for line in (*walk["pieces"], walk["superblock"])]
        self.same("pieces", len(pieces), 2)
        states = []
        for order in (pieces, pieces[::-1], [*pieces, superblock]):
            drive = self.drive.copy()
            for extent, offset, text in order:
                for k in range(len(text)):
                    drive.write(extent, offset + k, text[k:k + 1])
                    states.append(bytes(drive.raw))
        for raw in [*dict.fromkeys(states)][::STRIDE]:
            for name in ("7.img", "now.img"):
                (self.kept / name).unlink(missing_ok=True)
            self.disk.begin(raw)
            self.ended(self.call(*RESET), "done")
            self.same("the disk", self.disk.raw(), goal)

    def test_a_file_is_erased(self):
        """Also by a later call, and after an interruption. Then there is no way back."""
        self.ended(self.call(*RESET), "done")
        self.same("a kill", self.call("--erase", happens={"fallocate ended 1": "kill"}).status, KILLED)
        self.ended(self.call("--erase"), "done")
        self.same("the extent", self.disk.now().read(1, 0, self.drive.size), bytes(self.drive.size))
        self.same("what is lost", self.has_lost(), [])
        self.ended(self.call("--back", "--yes"), "erase begun")

    def test_the_way_back(self):
        """Also after an interruption of it. The extents have their bytes and their pointers again."""
        self.ended(self.call(*RESET), "done")
        self.same("a kill", self.call("--back", "--yes", happens={"page of put 2": "kill"}).status, KILLED)
        self.ended(self.call(*RESET), "back begun")
        self.ended(self.call("--back", "--yes"), "done")
        self.same("the manifests", *(self.engine.manifest(one)[0] for one in (self.drive, self.disk.now())))
        self.ended(self.call(work=self.folder / "anew"), "done")

    def test_the_operator_types_the_next_generation(self):
        before = self.disk.raw()
        for typed in ("", "y\n", "7\n", "88\n"):
            self.ended(self.call(RESET[0], typed=typed), "no")
            self.same("the disk", self.disk.raw(), before)
        self.ended(self.call(RESET[0], typed="8\n"), "done")

    def test_statuses(self):
        self.same("an option that isn't there", self.call("--what").status, 2)
        for stop in self.script.reclaim.STOPS.values():
            self.true("a status", stop.status in (1, 2, 3, 130), stop)

    def test_a_second_call_while_one_runs(self):
        for happens in ({"fsync 1": "second"}, {"put 1": "second"}, {"rename 7.img 1": "second"}):
            self.ended(self.call(*RESET, happens=happens), "done")
            self.same("the second one", self.disk.second, "locked")
            shutil.rmtree(self.kept)
            self.disk.begin(self.drive.raw)

    def test_two_maps(self):
        """A page counts as read if it is in both maps. It is said that data lies in one that isn't."""
        for name, gap in (("one", 2 * 1024), ("other", 4 * 1024 - 64)):
            (self.folder / name).write_text(f"0x0 + 1\n0x0 0x{gap:x} +\n0x{gap:x} 0x40 -\n0x{gap + 64:x} 0x{5120 - gap - 64:x} +\n")
        maps = [f"--map={self.folder / name}" for name in ("one", "other")]
        ended = self.call(*maps)
        self.same("a page with data", re.search("^The map lacks pages that have data: (.*?)\\. ", ended.text, re.M)[1], "2:0")
        self.same("not extent 2", re.findall(r"^extent (\d): ", ended.text, re.M), ["1"])
        self.ended(self.call(*RESET, *maps[:1]), "done")
        self.ended(self.call(*RESET, *maps), "other words")

    def test_giving_the_disk_back_names_what_has_only_a_copy(self):
        """Its bytes may go once the node writes. `shard` gives them."""
        for seed in range(400):
            choice = random.Random(f"back {seed}")
            drive, last = any_drive(choice)
            words, listing = words_for(self.engine, drive, last, choice)
            copies = {line.split()[1] for line in self.engine.manifest(drive)[0].splitlines() if line.endswith((" loose", " spare"))}
            if copies and "reclaim " in listing and "doubt " not in listing:
                self.use(drive, last)
                ended = self.call(*(f"--accept={line}" for line in words.accepted), *(f"--reset={e}" for e in words.resets), "--yes")
                if ended.key == "done":
                    break
        said = re.search(r"First it writes anew (\S+(?:, [0-9a-f]{32})*), of which", ended.text)
        self.same("the shards", {*said[1].split(", ")}, copies)


# The stops

def stopped(*words, happens=None, last=LAST, **more):
    """A stop of the first call."""
    return lambda case: case.call(*(words or RESET), happens=happens or {}, last=last, **more)


def after_it(happens, *words, first=RESET, **more):
    """A stop of the call after one in which something happened, and which may have come to its end."""
    def make(case):
        case.call(*first, happens=happens)
        return case.call(*words, **{key: value(case) if callable(value) else value for key, value in more.items()})
    return make


def with_change(at, *words, then=RESET):
    """A stop once a byte has changed at this place, after a walk."""
    def make(case):
        case.call(*words)
        case.disk.write(at, bytes([case.disk.raw()[at] ^ 1]))
        return case.call(*then)
    return make


def flip(case, at, happens, *words):
    """A byte of the disk changes before a step."""
    with patch("lib.faults.rotting", lambda disk, kind: at):
        return case.call(*(words or RESET), happens={happens: "rot"})


def other_drive(kind, wanted, least=0):
    """The first reset of a drive of this kind that stops so. No seed below the least one has it."""
    def make(case):
        for seed in range(least, least + 100):
            choice = random.Random(f"stops {seed}")
            drive, last = kind(choice)
            words, _ = words_for(case.engine, drive, last, choice)
            case.use(drive, last)
            ended = case.call(*(f"--accept={line}" for line in words.accepted), *(f"--reset={e}" for e in words.resets), "--yes")
            if ended.key == wanted:
                break
        return ended
    return make


def patched(of, name, value, *words):
    """A stop with another function of the script."""
    def make(case):
        with patch.object(of(case), name, value):
            return case.call(*(words or RESET))
    return make


def locked(case):
    with open(case.disk.name, "rb") as file:
        fcntl.flock(file, fcntl.LOCK_EX)
        return case.call()


def spoilt(case):
    case.call(*RESET, happens={"put 1": "kill"})
    (case.kept / "1.img").unlink()
    return case.call(*RESET)


def resized(count, *words, sizes=()):
    def make(case):
        os.truncate(case.disk.name, count)
        return case.call(*words, sizes=sizes)
    return make


def emptied(case):
    case.disk.begin(bytes(len(case.drive.raw)))
    return case.call(sizes=[])


def without_gain(case):
    case.use(Drive(64, 4, 3, (TOP / "examples/one-shard.img").read_bytes()), 1)
    return case.call()


def lost_before(case):
    """A chunk in use rots between two walks."""
    case.call("--reset=2", "--yes")
    case.disk.write(1024 + 150, b"X")
    return case.call(last=8, work=case.folder / "next")


def not_back(case):
    case.call(*RESET)
    at = Path(case.kept / "1.img").read_bytes().index(b"RUN1")
    case.disk.write(at + 60, b"XX")
    return case.call("--back", "--yes")


def unsafe(walk, before, after, resets):
    return ["unsafe"] if after.endswith("now.img") else [f"safe {LAST} {LAST + 1}"] if resets else ["pointer 1 177 0", "unsafe"]


def unwritten(process, words, more):
    return subprocess.CompletedProcess(words, 0, "", "")


# A chunk in use that isn't copied, bytes beyond all pointers, and the chunk that is copied.
USED, UNUSED, COPIED = 4 * 1024 + 200, 3 * 1024 + 1000, 1024 + 150
STOPS = {
    "no-generation": stopped(last=2 ** 64 - 2), "locked": locked, "damaged": spoilt,
    "other words": after_it({"put 1": "kill"}, "--reset=2", "--yes"), "no walk": stopped("--back"), "sizes": emptied,
    "other sizes": stopped(sizes=geometry(64, 8, 10)), "short": resized(5000, sizes=geometry(*SIZES)), "longer": resized(6000),
    "space": patched(lambda case: case.script.held, "IMAGES", 2 ** 50), "first unreadable": stopped(happens={"read 1": "page"}),
    "unfinished": after_it({"put ended 1": "kill"}, *RESET, work=lambda case: case.folder / "anew"), "before": lost_before,
    "doubts": stopped(last=6), "nothing": without_gain, "unlisted": stopped("--reset=3", "--yes"),
    "no-room": other_drive(any_drive, "no-room"),
    "no-room, 32 runs": other_drive(with_many_runs, "no-room, 32 runs", 158), "no-page": other_drive(narrow, "no-page", 23),
    "plan": patched(lambda case: case.script.plan, "main", lambda: print("unsafe") or 1), "no": stopped("--reset=1"),
    "unreadable": stopped(happens={"read 2": "page"}), "newer": stopped(happens={"read 2": "node superblock anew"}),
    "lost": lambda case: flip(case, USED, "read 2"), "changed": lambda case: flip(case, UNUSED, "read 2"),
    "lost after": lambda case: flip(case, USED, "put ended 2"), "changed after": lambda case: flip(case, UNUSED, "put ended 2"),
    "put": stopped(happens={"put 1": "full", "put 2": "full"}), "failed": stopped(happens={"page of put 2": "full"}),
    "stays": patched(lambda case: Process, "put", unwritten), "judged": patched(lambda case: case.script.reclaim.Walk, "compare", unsafe),
    "erase": lambda case: flip(case, UNUSED, "fallocate ended 1", "--reset=1", "--erase", "--yes"),
    "no erase": stopped("--reset=1", "--erase", "--yes", happens={"fallocate 1": "full"}),
    "erase begun": after_it({}, "--back", first=["--reset=1", "--erase", "--yes"]),
    "back begun": lambda case: (case.call(*RESET), case.call("--back", "--yes", happens={"put 1": "kill"}), case.call(*RESET))[-1],
    "not back": not_back, "went back": lambda case: (case.call(*RESET), case.call("--back", "--yes"), case.call(*RESET))[-1],
    "refused": stopped("--accept=nonsense"), "fault": stopped(happens={"read 2": "full"}),
    "interrupted": stopped(happens={"put 1": "interrupt"}),
}


class Stops(ScriptCase):
    """Each row of the table, with its three lines and its status."""

    def check(self, key):
        ended = STOPS[key](self)
        self.ended(ended, key)
        said = ended.text.splitlines()[-3:]
        self.same("its lines", [re.match(r"act/reclaim: (\w+): .", line)[1] if line.startswith("act/reclaim: ") else line for line in said],
                  ["stopped", "do", "now"])
        self.true("no text lacks a word", not re.search(r"[{}]|\bNone\b", "".join(said)), said)

    def test_each_stop_is_tried_and_has_a_way_on(self):
        keys = set(self.script.reclaim.STOPS)
        self.same("stops without a test", keys - STOPS.keys(), {"busy"})
        others = {"damaged", "other words", "short", "longer", "space", "unfinished", "no", "no erase", "erase begun", "went back",
                  "refused", "plan"}
        self.same("stops of which the trials know no way on", keys - AGAIN - RESTORE - START - BACK - ENDS - others, set())


class Device(ScriptCase):
    """On a loop device, as programs."""

    def setUp(self):
        super().setUp()
        need("losetup")
        self.device = self.attach()
        if self.device is None:
            raise unittest.SkipTest("no loop device: be root")

    def attach(self):
        made = subprocess.run(["losetup", "--find", "--show", self.disk.name], capture_output=True, text=True, timeout=SECONDS)
        if made.returncode:
            return None
        self.addCleanup(subprocess.run, ["losetup", "--detach", made.stdout.strip()], check=True, timeout=SECONDS)
        return made.stdout.strip()

    def reclaim(self, *words):
        return subprocess.run([TOP / "act/reclaim", "--last=7", *geometry(*SIZES), f"--work={self.kept}", *words, self.device],
                              capture_output=True, text=True, stdin=subprocess.DEVNULL, timeout=SECONDS)

    def test_a_walk_with_an_erase(self):
        need(*PUT_TOOLS)
        done = self.reclaim(*RESET, "--erase")
        self.same("status", (done.returncode, done.stderr), (0, ""))
        self.same("the extent", self.disk.now().read(1, 0, 1024), bytes(1024))
        self.same("what is lost", self.has_lost(), [])

    def test_a_device_in_use(self):
        held = os.open(self.device, os.O_RDONLY | os.O_EXCL)
        self.addCleanup(os.close, held)
        done = self.reclaim(*RESET)
        self.same("status", done.returncode, self.status_of("busy"))
        self.true("why", f"act/reclaim: stopped: {self.device} is mounted or in use\n" in done.stderr, done.stderr)


class Trials(ScriptCase):
    """Something happens at a step."""

    def check(self, turn):
        trial(self.script, self.engine, self.room, SEED * 1_000_003 + turn, Counter(), KINDS[turn % len(KINDS)])


class SecondWalks(ScriptCase):
    """What rots between two walks is said."""

    def check(self, turn):
        two_walks(self.script, self.engine, self.room, SEED * 1_000_003 + turn, Counter())


class Rules(ScriptCase):
    """Without this rule of the script a trial fails."""

    def check(self, rule):
        text, *_ = RULES[rule]
        self.same("how often its text is there", sum((TOP / "act" / name).read_text().count(text) for name in ("held.py", "reclaim")), 1)
        self.true("a trial fails", found_by(rule, self.program, self.engine, self.room, TRIES))


add_tests(Stops, Stops.check, [(key, key) for key in STOPS])
add_tests(Trials, Trials.check, [(f"disk {turn:03}", turn) for turn in range(DISKS)])
add_tests(SecondWalks, SecondWalks.check, [(f"disk {turn:03}", turn) for turn in range(SECOND_WALKS)])
add_tests(Rules, Rules.check, [(rule, rule) for rule in RULES])
