"""The program for x86-64-v3 gives the same answers as the one that runs anywhere: on all calls of the examples, on made-up disks, and
on disks whose payloads have all lengths that hashing side by side treats otherwise. A processor without x86-64-v3 skips this. A
program that is missing is a failure.

With `tests/run --program P` the answers of P are compared too.
"""
import random
import shlex
import subprocess
import tempfile
import unittest
from pathlib import Path

from lib import disks
from lib.cases import RoomCase, add_tests
from lib.comparison import compared
from lib.disks import Disk, locator, shard, uuid
from lib.examples import Transcript
from lib.program import FASTER, GENERAL, find, has_v3, program
from reference.shardscrub import answered

SEED, DISKS = 3, 300
PARTS = ("out", "error", "status")
# An example has about one call, so fewer calls would be a fault of the test.
LEAST_CALLS = 140
# It keeps what each program answers to a call in a folder, and then answers as the first one does.
SCRIPT = """#!/bin/sh
folder=$(mktemp -d ROOM/XXXXXX)
printf '%s\\n' "$@" >"$folder/words"
number=0
for program in PROGRAMS; do
    "$program" "$@" >"$folder/$number.out" 2>"$folder/$number.error" </dev/null
    echo $? >"$folder/$number.status"
    number=$((number + 1))
done
for program in PROGRAMS; do exec "$program" "$@"; done
"""


class FasterCase(RoomCase):
    @classmethod
    def setUpClass(cls):
        if not has_v3():
            raise unittest.SkipTest("this processor lacks x86-64-v3, so the program for it isn't compared with the other one")
        super().setUpClass()

    def setUp(self):
        """Each of the programs once: that of the tests, the one that runs anywhere, and the one for x86-64-v3."""
        found = {name: find(name) for name in (GENERAL, FASTER)}
        for name, path in found.items():
            self.assertIsNotNone(path, f"there is no {name} of these sources: dev/build or release/make makes it")
        self.programs = list(dict.fromkeys([program(), *found.values()]))
        self.assertGreater(len(self.programs), 1)


class Examples(FasterCase):
    def test_each_call(self):
        calls = self.room / "calls"
        calls.mkdir()
        quoted = " ".join(shlex.quote(str(path)) for path in self.programs)
        transcript = Transcript(lambda: SCRIPT.replace("ROOM", shlex.quote(str(calls))).replace("PROGRAMS", quoted))
        self.addCleanup(transcript.close)
        transcript.up_to(len(transcript.examples) - 1)
        folders = sorted(calls.iterdir())
        self.true("the examples call the program", len(folders) >= LEAST_CALLS, len(folders))
        for folder in folders:
            words = " ".join((folder / "words").read_text().splitlines())
            first, *others = ([(folder / f"{number}.{part}").read_bytes() for part in PARTS] for number in range(len(self.programs)))
            for path, answer in zip(self.programs[1:], others):
                self.same(f"{path}: {words}", answer, first)


class MadeUp(FasterCase):
    def check(self, turn):
        with tempfile.TemporaryDirectory(dir=self.room) as folder:
            for call in compared(SEED, turn, folder).calls:
                for path in self.programs:
                    self.same(f"{path}: {call.line()}", call.found(path), call.right)


add_tests(MadeUp, MadeUp.check, [(f"disk {turn:03}", turn) for turn in range(DISKS)])


def all_lengths(c):
    """Each length of a payload up to 600 bytes: some blocks of SHA-256, and what is left."""
    return list(range(600))


def orders(c):
    """Lengths at which the number of blocks changes, in many orders."""
    near = [0, 1, 55, 56, 57, 63, 64, 65, 119, 120, 121, 183, 184, 200]
    return [length for _ in range(600) for length in c.sample(near, len(near))]


def long_and_short(c):
    """Long ones among short ones, so that some lanes end long before others; two are over a MiB."""
    lengths = [c.choice([0, 3, 64, 1000, 5000, 30_000, 60_000]) for _ in range(150)]
    return lengths[:50] + [1_200_000] + lengths[50:100] + [2 ** 20 + 1] + lengths[100:]


class Lengths(FasterCase):
    """Disks whose chunks have payloads of these lengths, in plain frames, in sealed ones, and in both. A shard names each chunk.
    Every 17th payload is damaged, and another chunk has it whole."""

    def check(self, lengths_of):
        c = random.Random(4)
        page, pages = 4096, 2048
        disk, entries = Disk(pages, 5, page), []
        forms = [[disks.frame], [disks.sealed_frame], [disks.frame, disks.sealed_frame]]
        for extent, some in enumerate(forms, 1):
            self.fill(c, disk, extent, lengths_of(c), some, entries)
        payload = disks.run(*entries)
        disk.chunk(4, 0, uuid(0x77), payload)
        disk.superblock(0, 1, locator(4, 0, uuid(0x77), payload))
        path = self.room / "image"
        path.write_bytes(disk.bytes)
        for command in ("scan", "index", "locators", "manifest"):
            words = [command, *disk.geometry(), str(path)]
            right = answered(words)
            for workers in ("0", "1", "3"):
                for name in self.programs:
                    done = subprocess.run([name, *words, "--workers", workers], stdin=subprocess.DEVNULL, capture_output=True)
                    self.same(f"{name}: {command} with {workers} workers", (done.returncode, done.stdout, done.stderr), right)

    def fill(self, c, disk, extent, lengths, forms, entries):
        place = 0
        for number, length in enumerate(lengths):
            name, payload = c.randbytes(16), c.randbytes(length)
            named = disk.chunk(extent, place, name, payload, c.choice(forms))
            entries.append((shard(len(entries)), [named]))
            place = disk.pointers[extent - 1]
            if length and number % 17 == 0:
                # A payload ends before the UUID and the mark behind it.
                disk.spoil(extent, place - disks.FOOT - len(disks.CLOSING_MARK) - 1)
                disk.chunk(extent, place, c.randbytes(16), payload, c.choice(forms))
                place = disk.pointers[extent - 1]


add_tests(Lengths, Lengths.check, [(make.__name__.replace("_", " "), make) for make in (all_lengths, orders, long_and_short)])
