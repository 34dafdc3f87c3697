"""Rules of act/reclaim, each taken out by another text in the sources, and the trial that finds it: what happens there, and the seed."""
from collections import Counter

from lib.faults import Script
from lib.node import Broken
from lib.reclaims import KINDS, trial, two_walks

TWICE = "two walks"
# Of each rule: the text, the one in its place, what happens, and the seed of a trial that finds it.
RULES = {
    "a byte that nobody planned stops it": (
        "        if at is None:\n            return\n", "        if True:\n            return\n", "node run", 22),
    "the superblock comes after the pieces": ("if not left and not self.is_there(", "if not self.is_there(", "kill", 21),
    "the first image is made once": (
        'if not self.has("1.img"):\n            self.make_first', 'if True:\n            self.make_first', "kill", 2),
    "a call without --reset doesn't go on": (
        "if self.plan is not None and not (self.asked or is_later or given.back):", "if False:", "wrong words", 2),
    "a walk that has rotted isn't gone on with": (
        " if hashlib.sha256(text.encode()).hexdigest() == digest.strip() else None", "", "wrong words", 11),
    "a walk without its first image isn't gone on with": (
        ' or not self.has("1.img"):\n            raise', ":\n            raise", "wrong words", 2),
    "the words are those of the walk": ("        if are_other:\n", "        if False:\n", "wrong words", 2),
    "disk and folder are held alone": ("fcntl.LOCK_EX | fcntl.LOCK_NB", "fcntl.LOCK_SH | fcntl.LOCK_NB", "second", 2),
    "the way back ends with another image": (
        "            if not self.has_own_superblock():\n                break\n",
        "            if self.reached == 'backing' or not self.has_own_superblock():\n                break\n", "back", 14),
    "an older image isn't written over a newer superblock": (
        "        if counts is not None and counts > last + is_ours:\n            raise Stop",
        "        if False:\n            raise Stop", "node superblock anew", 15),
    "the operator agrees": ("sys.stdin.readline().strip() != str(number)", "False", "none", 2),
    "an image is flushed before it gets its name": (
        "            os.fsync(file.fileno())\n        os.chmod", "        os.chmod", "power", 3),
    "an erase that was interrupted looks at the rest": (
        "            self.require_same([(begin, stop, ZEROS) for begin, stop in extents])\n", "            pass\n", "erase", 14),
    "an erase asks what names the extents": (
        "            self.look()\n            lines = self.compare(self.path(\"7.img\"), self.path(\"now.img\"), resets)\n",
        "            self.image('now.img')\n            lines = ['safe {0} {0}'.format(self.given.last + 1)]\n", "erase", 5),
    "manifests are compared across walks": ('        self.look_back(self.path("first.img"))\n', "", TWICE, 8),
}


def without(rule):
    """What takes a rule out of the sources."""
    old, new, *_ = RULES[rule]
    return lambda text: text.replace(old, new)


def found_by(rule, program, engine, room, tries, seeds=()):
    """How it is found that the rule isn't there: what happens, the seed, and why it isn't right. None if no trial does: so many trials of
    what finds it, and those of all kinds on other disks."""
    *_, known_kind, known = RULES[rule]
    script = Script(program, without(rule))
    known_ones = [(known_kind, seed) for seed in range(known, known + tries)]
    for kind, seed in known_ones + [(kind, seed) for kind in KINDS for seed in seeds]:
        try:
            if kind == TWICE:
                two_walks(script, engine, room, seed, Counter())
            else:
                trial(script, engine, room, seed, Counter(), kind)
        except Broken as why:
            return f"{kind}, {seed}: {str(why).partition(chr(10))[0]}"
    return None
