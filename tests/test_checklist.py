"""Walks a reclamation on made-up disks, by act/reclaim or by the boxes of docs/RECLAIMING.md and a node's own tools, and makes mistakes on
the way, one at a time; or a copy rots meanwhile, a page or a superblock goes, a node writes, or the power fails. Leaves out boxes and rules,
one at a time, and sees that they are needed. Also holds the laws of spares, copies, resets, manifests and shards on pairs of images.
tests/fuzz/checklist.py does so on others, and prints which box stops what."""
import os
import select
import signal
import subprocess
import sys
from collections import Counter
from functools import partial

from lib.cases import Case, RoomCase, add_tests
from lib.faults import Script
from lib.laws import hold_laws_on
from lib.mistakes import MISTAKES
from lib.node import Engine
from lib.outcomes import DEAD_END, HARMLESS, NEEDED, TOO_LATE, UNSEEN, judge_mistake, judge_without
from lib.program import TOP
from lib.reclaims import walk_by_command
from lib.trials import trials
from lib.walk import walk_honestly

SEED, LAWS, WALKS, TRIES = 1, 200, 120, 2
# How long the first row of a table may take.
SECONDS = 100
BY_NAME = {one.name: one for one in MISTAKES}


def seed_of(turn):
    return SEED * 1_000_003 + turn


class EngineCase(RoomCase):
    @classmethod
    def setUpClass(cls):
        super().setUpClass()
        cls.engine = Engine(cls.program, cls.room)


class Laws(EngineCase):
    def check(self, turn):
        hold_laws_on(self.engine, seed_of(turn), Counter())


class Walks(EngineCase):
    """Each extent that the checklist allows is reset. All that the disk held is still there, and the copies of lost payloads. On most of
    the disks a chunk that was moved has rotted, and some have crowded extents."""

    @classmethod
    def setUpClass(cls):
        super().setUpClass()
        cls.script = Script(cls.program)

    def check(self, turn):
        walk_honestly(self.engine, seed_of(turn), Counter(), partial(walk_by_command, self.script, self.engine, self.room))


class Mistakes(EngineCase):
    """Each mistake is stopped by a box before bytes are lost, unless a list says otherwise."""

    def check(self, one):
        judge_mistake(one, trials(self.engine, one, SEED, TRIES))


class Needed(EngineCase):
    """Without this box or rule bytes are lost and no box stops it, or the walk can't begin again."""

    def check(self, name, rule):
        judge_without(BY_NAME[name], rule, trials(self.engine, BY_NAME[name], SEED, 2 * TRIES, (rule,)))

    def test_the_way_back_after_a_superblock_went(self):
        self.check(*DEAD_END)


class Table(RoomCase):
    """tests/fuzz/checklist.py, which prints a table."""

    def test_it_says_how_long_it_takes_and_prints_as_it_goes(self):
        """The first row comes through a pipe while there is more to do than anybody waits for."""
        words = ["--table", "--laws", "100000", "--disks", "0", "--tries", "1", "--program", self.program]
        begun = subprocess.Popen([sys.executable, TOP / "tests/fuzz/checklist.py", *words], stdin=subprocess.DEVNULL,
                                 stdout=subprocess.PIPE, stderr=subprocess.PIPE, text=True, start_new_session=True)
        with begun:
            has_come, _, _ = select.select([begun.stdout], [], [], SECONDS)
            row = begun.stdout.readline() if has_come else ""
            os.killpg(begun.pid, signal.SIGKILL)
            error = begun.stderr.read()
        self.true("the first row", row.startswith(f"{MISTAKES[0].name}: "), row)
        self.true("how long", error.startswith("tests/fuzz/checklist.py: this takes about ")
                  and " minutes of one processor\n" in error, error)


class Lists(Case):
    def test_the_lists_name_mistakes(self):
        for listed in (UNSEEN, TOO_LATE, HARMLESS, NEEDED, DEAD_END[:1]):
            self.same("no such mistake", sorted(set(listed) - set(BY_NAME)), [])
        self.same("two of one name", len(BY_NAME), len(MISTAKES))


add_tests(Laws, Laws.check, [(f"disk {turn:03}", turn) for turn in range(LAWS)])
add_tests(Walks, Walks.check, [(f"disk {turn:03}", turn) for turn in range(WALKS)])
add_tests(Mistakes, Mistakes.check, [(one.name, one) for one in MISTAKES])
add_tests(Needed, lambda self, pair: self.check(*pair), [(f"{rule} {name}", (name, rule)) for name, rule in NEEDED.items()])
