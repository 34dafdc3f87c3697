"""Walks of act/reclaim on made-up disks, with what happens at their steps. Whatever happens, the call is made again until the walk is at
its end, or it stops with a line that says what to do, and that is done. No payload goes that the first image has, and the disk would have
without the script; the judge is the slow reference. See lib/faults.py."""
import os
import random
import re
import shutil
import tempfile
from pathlib import Path

from lib.disks import geometry
from lib.faults import BY_NODE, CACHE, ENDS_IT, HAPPENINGS, ROT, Disk, call, change
from lib.node import Broken, Node, open_doubts_in, require
from lib.planning import any_drive, payloads, words_for
from reference.shardscrub import choose, records_of

# What is to be done after a stop: the same call once more; the first image goes to another drive; the node writes a superblock, and a walk
# begins with that; the way back. After the others the walk is at its end.
AGAIN = {None, "interrupted", "fault", "program", "locked", "put", "failed", "busy"}
RESTORE = {"unreadable", "lost", "stays", "not back", "before"}
START = {"changed", "newer", "changed after"}
BACK = {"judged", "lost after", "back begun"}
ENDS = {"erase", "nothing", "doubts", "unlisted", "no-room", "no-room, 32 runs", "no-page", "no-generation", "other sizes", "sizes",
        "no walk", "first unreadable", "plan", "no erase"}
# Those that say that a payload may be only in the first image, or nothing of the disk.
SAY_SO = RESTORE | BACK | AGAIN | {"first unreadable", "erase", "newer", "no"}
# Refused before anything is written.
UNPLANNED = {"no-room", "no-room, 32 runs", "no-page", "unlisted", "doubts", "no-generation", "nothing", "other sizes", "sizes"}
# What a trial is for: nothing happens; wrong calls after an interruption; the way back, or an erase, once the walk is at its end; or what
# happens at a step.
KINDS = ("none", "wrong words", "back", "erase", *HAPPENINGS)
WRONG = ("last + 1", "last - 1", "pages", "extents", "other reset", "other disk", "dry", "walk", "1.img")
# How often one trial may go on.
MOST_TURNS = 7


def parts(drive):
    """The payload of each shard's part, by its identifier and number, as far as it can be had."""
    return {(one, k): part for one, some in payloads(drive).items() for k, part in enumerate(some) if part is not None}


def lost(before, after):
    """What the first one has and the second one hasn't."""
    return [key for key, part in before.items() if after.get(key) != part]


def used_again(drive, extents):
    """The disk as a node may soon have it: these extents are written over."""
    after = drive.copy()
    for e in extents:
        after.write(e, 0, random.Random(0).randbytes(drive.size))
    return after


def argv(drive, last, words, folder, *more, sizes=None):
    """The words of a call, of which the last one is the disk."""
    return [f"--last={last}", *geometry(*(sizes or (drive.page, drive.pages, drive.extents))),
            *(f"--accept={line}" for line in words.accepted), f"--work={folder}", *more, *(f"{e}:{g}" for e, g in sorted(drive.unreadable))]


class Trial:
    """One disk. `words` are those of a reset, `walk` those and how it is called; `is_late` says whether something happened after the last
    image that was judged, `has_rotted` whether bytes rotted or a page went."""

    def __init__(self, script, engine, room, seed, seen, kind=None, is_real=False):
        self.script, self.engine, self.seen, self.is_real = script, engine, seen, is_real
        self.choice = random.Random(f"reclaim {seed}")
        self.room = Path(room) / str(seed)
        self.room.mkdir()
        drive, self.last = any_drive(self.choice)
        self.disk = Disk(self.room, drive, self.choice)
        self.kind = kind or self.choice.choice([*KINDS, "kill", "power"])
        self.lines, self.number, self.sums, self.is_late, self.has_rotted, self.after = [], 0, {}, False, False, []

    # Calls

    def next_folder(self):
        self.number += 1
        self.folder = self.room / f"w{self.number}"

    def argv(self, *more, last=None, disk=None, sizes=None):
        """The words of a call."""
        last = self.last if last is None else last
        return argv(self.disk.drive, last, self.words, self.folder, *self.after, *more, disk or self.disk.name, sizes=sizes)

    def call(self, *more, happens=(), typed="", argv=None):
        """A call. It never changes a first image."""
        ended = call(self.script, self.disk, argv or self.argv(*more), happens, typed, self.is_real)
        self.is_late |= any(kind in (*ROT, *BY_NODE, "page") and is_after for kind, _, _, is_after in ended.happened)
        self.has_rotted |= any(kind in (*ROT, "page") for kind, *_ in ended.happened)
        self.lines.append(f"{argv or more} {dict(happens)} -> {ended.status} {ended.key} {ended.happened}\n{ended.text}")
        require(ended.status != 99 and "Traceback" not in ended.text, "it crashed")
        require(self.disk.second in (None, "locked", "busy"), "a second call:", self.disk.second)
        self.said = ended.text
        self.seen["calls"] += 1
        self.seen["steps"] += len(ended.steps)
        for name in sorted(self.room.glob("w*/1.img")):
            require(self.sums.setdefault(name, name.read_bytes()) == name.read_bytes(), "1.img has changed")
        require(all(name.exists() for name in self.sums), "1.img has gone")
        return ended

    def first(self):
        return self.disk.drive.copy((self.folder / "1.img").read_bytes())

    # The walk

    def choose(self):
        """Chooses what to reset, after a dry call, which has to write nothing and to list the extents of `reclaimable`."""
        drive, before = self.disk.now(), self.disk.raw()
        self.words, listing = words_for(self.engine, drive, self.last, self.choice)
        listed = [line.split()[1] for line in listing.splitlines() if line.startswith("reclaim ")]
        ended = self.call()
        require(self.disk.raw() == before, "a dry call wrote")
        is_open = bool(open_doubts_in(listing))
        require((ended.key == "done") == bool(listed and not is_open) or ended.key == "no-generation", "a dry call:", ended.key)
        require(ended.key != "done" or all(f"extent {e}: " in ended.text for e in listed), "a dry call lists other extents")
        self.resets = [f"--reset={e}" for e in self.words.resets]
        return ended.key

    def go(self):
        self.next_folder()
        if (key := self.choose()) != "done":
            self.seen[f"dry call: {key}"] += 1
            return
        if self.choice.random() < .5:
            self.next_folder()
        is_later = self.kind in ("back", "erase")
        self.erases = not is_later and self.choice.random() < .5
        self.walk = [*self.resets, *["--erase"] * self.erases, "--yes"]
        steps = self.undisturbed()
        if steps is None:
            return
        self.seen["walks"] += 1
        if self.kind == "none" or self.choice.random() < .1:
            self.say_no()
        happens = {self.some_step(steps): self.kind} if self.kind in HAPPENINGS else {}
        if self.kind == "wrong words":
            happens = {self.choice.randint(steps.index("renamed walk") + 1, len(steps)): "kill"}
        elif self.choice.random() < .25 and not is_later:
            happens[self.some_step(steps)] = self.choice.choice(HAPPENINGS)
        ended = self.call(*self.walk, happens=happens)
        self.seen[f"{'+'.join(sorted(one[0] for one in ended.happened)) or 'nothing'}: {ended.key or 'killed'}"] += 1
        self.settle(ended.key, ended.happened)

    def undisturbed(self):
        """The steps of the walk, made on a copy of all; None if it can't be made. It comes to its end, and nothing is lost."""
        kept = self.room / "kept" / "folder"
        if self.folder.exists():
            shutil.copytree(self.folder, kept)
        before = self.disk.raw()
        ended = self.call(*self.walk)
        if ended.key in UNPLANNED:
            self.seen[f"plan: {ended.key}"] += 1
            return None
        require(ended.key == "done", "an undisturbed walk ends with", ended.key)
        self.goal = self.disk.raw()
        self.check_done()
        judged, _ = self.engine.compare(self.first(), self.disk.now(), self.words.resets)
        require(self.erases or judged == f"safe {self.last} {self.last + 1}\n", "after an undisturbed walk compare prints", judged)
        self.sums.pop(self.folder / "1.img")
        shutil.rmtree(self.folder)
        if kept.exists():
            os.rename(kept, self.folder)
        self.disk.begin(before)
        return ended.steps

    def some_step(self, steps):
        """A step of the walk, mostly after a write."""
        puts = [number for number, name in enumerate(steps) if name == "put ended"]
        return self.choice.randint(self.choice.choice([1, 1, puts[0], puts[-1]] if puts else [1]), len(steps) + 2)

    def say_no(self):
        """The operator types something else."""
        before = self.disk.raw()
        ended = self.call(*self.walk[:-1], typed=self.choice.choice(["", "y\n", f"{self.last}\n"]))
        require((ended.status, ended.key) == (1, "no") and self.disk.raw() == before, "the operator says no:", ended.key)

    # What has to hold

    def check_done(self, late=()):
        """All that the first image had is on the disk, also when the extents are used again. What happened after the last image that was
        judged may have taken some of it."""
        gone = lost(parts(self.first()), parts(used_again(self.disk.now(), self.words.resets)))
        require(not gone or any(is_late for *_, is_late in late), "done, and", len(gone), "payloads are lost after", late)
        self.seen["done, then lost after the last image"] += bool(gone)

    def check_stop(self, key):
        """The script has made nothing worse than what happened to the disk by itself."""
        now, disk = self.disk.now(), self.disk
        had = parts(now.copy(disk.first))
        kept = {key: part for key, part in parts(now.copy(disk.shadow)).items() if had.get(key) == part}
        is_strict = key not in RESTORE | BACK and not self.has_rotted and not disk.by_node
        old, new = (choose(one.image()) for one in (now.copy(disk.first), now))
        pointers = zip(old["pointers"], new["pointers"]) if None not in (old["page"], new["page"]) else []
        reset = [e for e, (before, after) in enumerate(pointers, 1) if before > after == 0]
        gone = lost(kept, parts(used_again(now, reset) if is_strict else now))
        if gone and not is_strict and new["generation"] == self.last + 1:
            # The superblock of the walk names a copy that has rotted: that of before is still there.
            back = now.copy()
            back.write(0, new["page"] * now.page, bytes(records_of(now.image())[new["page"]].length))
            gone = lost(kept, parts(back))
        for at, text, step in disk.by_node:
            is_over = now.raw[at:at + len(text)] != disk.shadow[at:at + len(text)]
            require(not is_over or self.is_late or step == "page of put",
                    "stopped by", key, "and what a node wrote before", step, "is written over")
        require(not gone or disk.by_node or (self.folder / "erasing").exists(), "stopped by", key, "and", len(gone), "payloads are lost")
        if key in RESTORE and not self.has_rotted:
            by_node = parts(now.copy(disk.shadow)).keys() - had.keys()
            require(not by_node, "by the words of", key, "the node forgets", len(by_node), "payloads")
        if (self.folder / "1.img").exists() and not self.is_late and key not in SAY_SO:
            gone = lost(parts(self.first()), parts(now))
            require(not gone, "the words of", key, "don't say that", len(gone), "payloads are only in 1.img")

    # What is done after it

    def settle(self, key, happened, turn=0):
        """Does what the words say, until it is at its end."""
        require(turn < MOST_TURNS, "it comes to no end")
        if key == "done":
            self.check_done([one for one in happened if one[0] not in ENDS_IT])
            self.seen["at its end"] += 1
            if self.kind in ("back", "erase") and not turn:
                self.later()
            return
        if key is not None or (self.folder / "1.img").exists():
            self.check_stop(key)
        for keys, go_on in ((AGAIN, self.again), (BACK, self.back)):
            if key in keys:
                return go_on(key, happened, turn + 1)
        if key in RESTORE:
            self.restore(key)
        elif key in START:
            self.start_over(key)
        else:
            require(key in ENDS or key == "other words" and self.is_foreign, "nobody knows what to do after", key)

    is_foreign = False

    def again(self, key, happened, turn):
        for wrong in WRONG if self.kind == "wrong words" else self.choice.sample(WRONG, self.choice.randrange(2)):
            self.wrong_words(wrong)
        happens = {self.choice.randint(1, 60): self.choice.choice(HAPPENINGS)} if self.choice.random() < .35 else {}
        ended = self.call(*self.walk, happens=happens)
        self.seen[f"again after {key}{' with ' + ended.happened[0][0] if ended.happened else ''}: {ended.key}"] += 1
        is_alone = not (ended.happened or self.disk.foreign or self.disk.bad or self.is_foreign)
        require(not is_alone or ended.key == "done", "again after", happened, "it ends with", ended.key)
        require(not is_alone or self.erases or self.disk.raw() == self.goal, "again it comes to another disk")
        self.settle(ended.key, happened + ended.happened, turn)

    def back(self, key, happened, turn):
        step = self.choice.choice(["put 1", self.choice.randint(1, 30)])
        happens = {step: self.choice.choice(HAPPENINGS)} if self.choice.random() < .5 else {}
        ended = self.call("--back", happens=happens, typed=f"{self.last}\n" * 3)
        self.seen[f"back{' with ' + ended.happened[0][0] if ended.happened else ''}: {ended.key}"] += 1
        if ended.key in AGAIN:
            self.check_stop("lost after")
            return self.settle("judged", happened + ended.happened, turn)
        if ended.key != "done":
            return self.settle(ended.key, happened, turn)
        gone = lost(parts(self.first()), parts(self.disk.now()))
        require(not gone or any(is_late for *_, is_late in ended.happened), "went back, and", len(gone), "payloads are lost")
        return self.anew("went back", self.disk.raw())

    def restore(self, key):
        """The image that is named goes to another drive."""
        image, last = re.search(r"[Rr]estore (\S+) to another drive .*, --last=(\d+)|$", self.said).groups()
        require(image, "the words of", key, "name no image")
        self.last = int(last)
        self.anew(f"restored after {key}", Path(image).read_bytes())

    def start_over(self, key):
        """The node reads the disk and writes a superblock."""
        node = Node(self.disk.now(), self.choice)
        if self.is_foreign or choose(node.drive.image())["page"] is None:
            return
        node.resume()
        if node.generation < 2 ** 64 - 3 and node.superblock():
            self.last = node.generation
            self.anew(f"started over after {key}", bytes(node.drive.raw))

    def anew(self, why, raw):
        """Another walk comes to its end."""
        self.disk.begin(raw)
        self.is_late = self.has_rotted = self.erases = False
        self.next_folder()
        key = self.choose()
        if key != "done":
            self.seen[f"{why}: dry call {key}"] += 1
            require(key in ENDS, why, "and the dry call ends with", key)
            return
        ended = self.call(*self.resets, "--yes")
        self.seen[f"{why}: {ended.key}"] += 1
        require(ended.key == "done" or ended.key in UNPLANNED, why, "and then", ended.key)
        if ended.key == "done":
            self.check_done()

    def later(self):
        """A later call erases, or goes back, when something may have happened to the disk since the reset."""
        kinds = self.choice.choice([[]] * 8 + [*([one] for one in (*ROT[1:], "page", *BY_NODE[3:])), ["rot place", "rot source"]])
        for kind in kinds:
            change(self.disk, kind, "the end")
            self.has_rotted |= kind in (*ROT, "page")
        if self.kind == "back":
            return self.settle("judged", [("end", 0, "", False)], 1)
        before = self.disk.raw()
        step = self.choice.choice(["fallocate 1", "fallocate ended 1", self.choice.randint(1, 60)])
        ended = self.call("--erase", happens={step: self.choice.choice(ENDS_IT)} if self.choice.random() < .6 else {})
        self.seen[f"erased later after {kinds[0] if kinds else 'nothing'}: {ended.key}"] += 1
        if ended.happened and ended.key != "done":
            if (self.folder / "erasing").exists() and self.choice.random() < .7:
                change(self.disk, "node superblock anew", "between")
            is_again, ended = True, self.call("--erase")
        else:
            is_again = False
        stays = [self.disk.raw()[at:at + len(text)] == text for at, text, step in self.disk.by_node if step == "between"]
        require(all(stays), "the erase went on over what a node wrote")
        kinds = kinds or stays
        if ended.key == "done":
            return None if stays else self.check_done()
        require(kinds, "an undisturbed erase ends with", ended.key)
        require(is_again or self.disk.raw() == before, "a refused erase wrote:", ended.key)
        if str(kinds[0]).startswith("rot") and ended.key in ("lost after", "unreadable", "lost"):
            return self.settle(ended.key, [("end", 0, "", False)], 1)
        return None

    # Wrong calls in between

    def wrong_words(self, kind):
        """A wrong call has to be refused, and to write nothing."""
        drive, before = self.disk.drive, self.disk.raw()
        if kind == "other disk" and not (self.folder / "1.img").exists():
            # The walk would begin on that one.
            return
        other = self.room / "other"
        text = bytearray(self.disk.first)
        text[self.choice.randrange(len(text))] ^= 1
        other.write_bytes(text)
        argv = {"last + 1": lambda: self.argv(*self.walk, last=self.last + 1),
                "last - 1": lambda: self.argv(*self.walk, last=max(0, self.last - 1)),
                "pages": lambda: self.argv(*self.walk, sizes=(drive.page, drive.pages // 2, drive.extents)),
                "extents": lambda: self.argv(*self.walk, sizes=(drive.page, drive.pages, drive.extents - 1)),
                "other reset": lambda: self.argv(f"--reset={self.choice.randrange(1, drive.extents)}", "--yes"),
                "other disk": lambda: self.argv(*self.walk, disk=str(other)), "dry": self.argv}.get(kind, lambda: self.argv(*self.walk))()
        kept = self.spoil(kind)
        if kind in ("walk", "1.img") and kept is None:
            return
        ended = self.call(argv=argv)
        self.seen[f"wrong words, {kind}: {ended.key}"] += 1
        require(other.read_bytes() == text or ended.key == "done", kind, "wrote on another disk")
        if kept is not None:
            require(kind != "1.img" or not kept[0].exists(), "1.img was made anew from a disk with writes")
            kept[0].write_bytes(kept[1])
            self.sums.update({kept[0]: kept[1]} if kind == "1.img" else {})
        if kind == "other reset":
            self.is_foreign |= self.disk.raw() != before
            return
        require(self.disk.raw() == before, kind, "wrote")
        require(ended.key != "done" or kind in ("other disk", "dry") and self.is_unmade(), kind, "is done")

    def is_unmade(self):
        """Whether nothing is kept of the walk yet."""
        return not (self.folder / "walk").exists()

    def spoil(self, kind):
        """A digit of `walk` rots, or the first image goes. Returns the file, and what it had; None if it isn't there."""
        name = self.folder / kind
        if kind not in ("walk", "1.img") or not name.exists() or self.is_unmade():
            return None
        text = name.read_bytes()
        if kind == "1.img":
            name.unlink()
            self.sums.pop(name, None)
        else:
            places = [at for at, one in enumerate(text) if one in b"0123456789"]
            at = self.choice.choice(places)
            name.write_bytes(text[:at] + self.choice.choice([b"%d" % one for one in range(10) if one != text[at] - 48]) + text[at + 1:])
        return name, text


def walk_by_command(script, engine, room, drive, known, choice):
    """Resets some extents of a drive, while nothing else happens. Returns them and those that are given up, or None if it can't."""
    words, _ = words_for(engine, drive, known, choice)
    with tempfile.TemporaryDirectory(dir=room) as folder:
        disk = Disk(folder, drive, choice)
        options = [*(f"--reset={e}" for e in words.resets), "--yes", *["--erase"] * choice.randrange(2)]
        ended = call(script, disk, argv(drive, known, words, f"{folder}/walk", *options, disk.name))
        require(ended.key == "done" or ended.key in UNPLANNED, "an honest walk stops:", ended.text)
        drive.raw[:] = disk.raw()
    return (words.resets, {e for e in words.resets if f"crowded {e}" in words.accepted}) if ended.key == "done" else None


def trial(script, engine, room, seed, seen, kind=None, is_real=False):
    """One disk, with what happens. If it fails, its calls are in the message."""
    return tried(Trial(script, engine, room, seed, seen, kind, is_real), Trial.go, seed)


def two_walks(script, engine, room, seed, seen):
    """Two walks on one disk, one after the other, and between them something rots."""
    return tried(Trial(script, engine, room, seed, seen, "none"), go_twice, seed)


def tried(one, go, seed):
    CACHE.clear()
    try:
        return go(one)
    except Broken as why:
        raise Broken(f"trial {seed}, {one.kind}: {why}\n" + "\n".join(one.lines)[-4000:]) from None
    finally:
        shutil.rmtree(one.room, ignore_errors=True)


def go_twice(one):
    """Whether there was a first walk, after which something that the disk had was lost. The second walk has to say so, and to go on with
    what the first one left on another drive."""
    one.next_folder()
    one.erases = one.choice.random() < .5
    if one.choose() != "done" or one.call(*one.resets, *["--erase"] * one.erases, "--yes").key != "done":
        return False
    kept, left = one.disk.drive.copy((one.folder / "7.img").read_bytes()), one.disk.raw()
    if one.choice.random() < .3:
        # It is somewhere else, and named.
        one.folder = one.folder.rename(one.room.parent / f"{one.room.name} before")
        one.sums.clear()
        one.after = [f"--after={one.folder}"]
    for _ in range(one.choice.choice([1, 1, 2])):
        change(one.disk, one.choice.choice(["rot used", "rot used", "rot used", "rot superblock", "rot"]), "between")
    one.last += 1
    gone = lost(parts(kept), parts(one.disk.now()))
    one.next_folder()
    one.words = one.words._replace(accepted=[])
    key = one.call().key
    one.seen[f"second walk, {'something' if gone else 'nothing'} is lost: {key}"] += 1
    require(not gone or key not in ("done", "nothing"), len(gone), "payloads were lost between two walks, and nobody says so")
    is_newest = choose(one.disk.now().image())["generation"] == one.last
    require(not gone or key in ("before", "no-generation") or not is_newest, "lost between two walks, and then", key)
    if key == "before":
        one.anew("restored between two walks", left)
    return bool(gone)
