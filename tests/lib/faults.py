"""act/reclaim in a process of its own, in which each read of the disk, fsync, rename, command, file that is opened to be written, and page
that is written is a step. Before a step something may happen: the process is killed, the power fails, the folder is full, a byte rots, a
node writes. What comes of it is in lib/reclaims.py."""
import contextlib
import errno
import hashlib
import io
import os
import pickle
import subprocess
import sys
import traceback
import types
from pathlib import Path
from typing import NamedTuple

from lib.node import Full, Node, named_locators, place_of
from lib.planner import write_over
from lib.program import TOP
from reference.shardscrub import choose, records_of

KILLED = 137
ROT = ("rot", "rot place", "rot source", "rot superblock", "rot used")
BY_NODE = ("node chunk", "node run", "node superblock", "node run anew", "node superblock anew")
ENDS_IT = ("kill", "power", "interrupt", "full")
HAPPENINGS = (*ENDS_IT, "second", "page", *ROT, *BY_NODE)


class Script:
    """act/reclaim with the module below it, or with other bodies in place of some, and act/plan, as modules in this process."""

    def __init__(self, program, change=lambda text: text):
        os.environ["SHARDSCRUB"] = str(program)
        self.held, self.reclaim = module("held.py", "held", change), module("reclaim", "act_reclaim", change)
        self.plan = module("plan", "act_plan")
        self.read, self.say_stop = self.held.Held.read, self.reclaim.Walk.say_stop


def module(file, name, change=lambda text: text):
    path = TOP / "act" / file
    made = sys.modules[name] = types.ModuleType(name)
    made.__file__ = str(path)
    exec(compile(change(path.read_text(encoding="utf-8")), made.__file__, "exec"), made.__dict__)
    return made


class Instead:
    """A module with other functions in place of some."""

    def __init__(self, module, **functions):
        self.module = module
        self.__dict__.update(functions)

    def __getattr__(self, name):
        return getattr(self.module, name)


class Disk:
    """The disk of a trial, a file. `first` is what it had when the walk began, `shadow` what it would have without the script. `bad` has
    the pages that can't be read, `foreign` the bytes that something else has changed, `by_node` what a node wrote: the byte, the text, and
    before which step. `planned` has the lines of act/plan."""
    KEPT = ("first", "shadow", "bad", "foreign", "by_node", "planned", "second")

    def __init__(self, room, drive, choice):
        self.drive, self.choice, self.room = drive, choice, str(room)
        self.name = os.path.join(room, "disk")
        self.begin(drive.raw)

    def begin(self, raw):
        """A walk begins on a disk with these bytes."""
        write_over(self.name, raw)
        self.first, self.shadow = bytes(raw), bytearray(raw)
        self.bad, self.foreign, self.by_node, self.planned, self.second = set(), [], [], [], None

    def raw(self):
        return Path(self.name).read_bytes()

    def now(self):
        return self.drive.copy(self.raw())

    def write(self, at, text, is_by_script=False):
        with open(self.name, "r+b") as file:
            file.seek(at)
            file.write(text)
        if not is_by_script:
            self.shadow[at:at + len(text)] = text

    def place(self, line, image):
        """Where a line of act/plan writes, and what."""
        word, *words = line.split(" ")
        if word == "write":
            return int(words[0]) * self.drive.size + int(words[1]), bytes.fromhex(words[2])
        e, o, x, at, count = map(int, words)
        return x * self.drive.size + at, image[e * self.drive.size + o:e * self.drive.size + o + count]

    def pages(self, at, text):
        """These bytes page by page, in any order."""
        bounds = [at, *range(at - at % self.drive.page + self.drive.page, at + len(text), self.drive.page), at + len(text)]
        parts = [(begin, text[begin - at:stop - at]) for begin, stop in zip(bounds, bounds[1:])]
        return self.choice.sample(parts, len(parts))


class Ended(NamedTuple):
    """How a call ended: its status; the key of its stop, `done`, `usage`, or None if it was killed; what it printed; the names of its
    steps; what happened, with the number and the name of the step, and whether that was after the last image that was judged."""
    status: int
    key: str | None
    reached: str | None
    text: str
    steps: list
    happened: list


CACHE = {}


def asked(words, ask):
    """The answer of a command that only reads: asked once for the same words and the same bytes."""
    def known(word):
        return hashlib.sha256(Path(word).read_bytes()).digest() if not word.startswith("-") and os.path.isfile(word) else word

    key = hashlib.sha256(repr([words[0], *map(known, words[1:])]).encode()).digest()
    if key not in CACHE:
        done = ask()
        CACHE[key] = done.returncode, done.stdout, done.stderr or ""
    return subprocess.CompletedProcess(words, *CACHE[key])


class Process:
    """What is in place of the calls of the script in the forked process. `happens` has what happens, by the number of
    the step, or by its name and how often it came."""

    def __init__(self, script, disk, words, happens, is_real, report):
        self.script, self.disk, self.words, self.happens, self.is_real, self.report = script, disk, words, dict(happens), is_real, report
        self.choice, self.steps, self.happened, self.unsynced, self.renamed, self.stop = disk.choice, [], [], set(), [], (None, None)
        self.known = set(CACHE)

    def begin(self, typed):
        """Calls the script, and never comes back."""
        reclaim = self.script.reclaim
        for one in (reclaim, self.script.held):
            one.os, one.open = Instead(os, fsync=self.fsync, replace=self.replace), self.open
        self.script.held.subprocess = Instead(subprocess, run=self.run)
        reclaim.Walk.read = lambda walk, at, *more: self.read(walk, at, *more)
        reclaim.Walk.say_stop = lambda walk, stop: self.say_stop(walk, stop)
        sys.argv, sys.stdin, output = ["act/reclaim", *self.words], io.StringIO(typed), io.StringIO()
        with contextlib.redirect_stdout(output), contextlib.redirect_stderr(output):
            try:
                status = reclaim.main()
            except SystemExit as why:
                status = why.code
            except BaseException:
                status = 99
                traceback.print_exc(file=output)
        self.end(status, "done" if status == 0 else "usage" if status == 2 and not self.stop[0] else self.stop[0], output.getvalue())

    def end(self, status, key, text=""):
        """Says how it ended, and ends without another word."""
        kept = {name: getattr(self.disk, name) for name in Disk.KEPT}
        answers = {name: CACHE[name] for name in CACHE.keys() - self.known}
        with open(self.report, "wb") as file:
            pickle.dump(((status, key, self.stop[1], text, self.steps, self.happened), kept, answers), file)
        os._exit(status)

    def say_stop(self, walk, stop):
        self.stop = stop.key, walk.reached
        return self.script.say_stop(walk, stop)

    # The steps

    def step(self, name):
        self.steps.append(name)
        kind = self.happens.pop(len(self.steps), None) or self.happens.pop(f"{name} {self.steps.count(name)}", None)
        if kind is not None:
            self.happened.append((kind, len(self.steps), name))
            self.happen(kind)

    def happen(self, kind):
        if kind == "power":
            self.cut_power()
        if kind in ("kill", "power"):
            self.end(KILLED, None)
        if kind == "interrupt":
            raise KeyboardInterrupt
        if kind == "full":
            raise OSError(errno.ENOSPC, "No space left on device")
        if kind == "second":
            before = self.disk.raw()
            key = call(self.script, self.disk, self.words).key
            self.disk.second = key if self.disk.raw() == before else f"{key}, and it wrote"
        else:
            change(self.disk, kind, self.steps[-1])

    def cut_power(self):
        """Of the folder what wasn't flushed may be gone: the last renames, and bytes of files."""
        for old, new, kept in reversed(self.renamed):
            if self.choice.random() < .5 or not os.path.exists(new):
                break
            os.rename(new, old)
            if kept is not None:
                Path(new).write_bytes(kept)
        for name in filter(os.path.isfile, sorted(self.unsynced)):
            if self.choice.random() < .7:
                os.chmod(name, 0o644)
                os.truncate(name, self.choice.choice([0, self.choice.randrange(os.path.getsize(name) + 1)]))

    def fsync(self, file):
        self.step("fsync")
        name = os.readlink(f"/proc/self/fd/{file}")
        self.unsynced.discard(name)
        if os.path.isdir(name):
            self.renamed.clear()

    def replace(self, old, new):
        self.step("rename " + os.path.basename(new))
        kept = Path(new).read_bytes() if os.path.isfile(new) else None
        os.replace(old, new)
        self.renamed.append((old, new, kept))
        if os.path.abspath(old) in self.unsynced:
            self.unsynced.add(os.path.abspath(new))
        self.step("renamed " + os.path.basename(new))

    def open(self, name, mode="r", *more, **words):
        file = open(name, mode, *more, **words)
        if ("w" in mode or "+" in mode) and not isinstance(name, int):
            self.step("open " + os.path.basename(name))
            self.unsynced.add(os.path.abspath(name))
        return file

    def read(self, walk, at, buffer):
        self.step("read")
        if any(at <= page * self.disk.drive.page < at + len(buffer) for page in self.disk.bad):
            raise OSError(errno.EIO, "Input/output error")
        return self.script.read(walk, at, buffer)

    # The commands

    def run(self, words, **more):
        what = os.path.basename(words[0])
        what = what if what in ("plan", "put", "cp", "fallocate") else words[1]
        try:
            self.step(what)
        except OSError:
            return subprocess.CompletedProcess(words, {"put": 1, "cp": 1}.get(what, 3), "", "no space left")
        done = self.command(what, words, more)
        self.step(what + " ended")
        return done

    def command(self, what, words, more):
        if what == "fallocate":
            return self.erase(words)
        if what == "put":
            return self.put(words, more)
        if what == "cp":
            return subprocess.run(words, **more)
        done = asked(words, lambda: self.plan(words) if what == "plan" and not self.is_real else subprocess.run(words, **more))
        if what == "plan" and done.returncode == 0:
            self.disk.planned = list(dict.fromkeys([*self.disk.planned, *done.stdout.splitlines()]))
        return done

    def plan(self, words):
        """act/plan, in this process."""
        output, error, before = io.StringIO(), io.StringIO(), sys.argv
        sys.argv = words
        with contextlib.redirect_stdout(output), contextlib.redirect_stderr(error):
            try:
                status = self.script.plan.main()
            except SystemExit as why:
                status = why.code
        sys.argv = before
        return subprocess.CompletedProcess(words, status, output.getvalue(), error.getvalue())

    def put(self, words, more):
        """As act/put does: compares all, then writes, here page by page in any order."""
        image = Path(words[-2]).read_bytes()
        if self.disk.bad or image != self.disk.raw()[:len(image)]:
            return subprocess.CompletedProcess(words, 1, "", "act/put: refused; nothing is written")
        if self.is_real:
            return subprocess.run(words, **more)
        pages = [page for line in more["input"].splitlines() for page in self.disk.pages(*self.disk.place(line, image))]
        for at, text in self.choice.sample(pages, len(pages)):
            try:
                self.step("page of put")
            except OSError:
                return subprocess.CompletedProcess(words, 3, "", "act/put: a write failed")
            self.disk.write(at, text, True)
        return subprocess.CompletedProcess(words, 0, "", "")

    def erase(self, words):
        at, count = (int(word.partition("=")[2]) for word in words if word.startswith(("--offset=", "--length=")))
        for page, text in self.disk.pages(at, bytes(count)):
            if self.choice.random() < .1:
                self.step("erase page")
            self.disk.write(page, text, True)
        return subprocess.CompletedProcess(words, 0, "", "")


def call(script, disk, words, happens=(), typed="", is_real=False):
    """Calls act/reclaim, with what happens before some steps."""
    report = f"{disk.name}.{os.getpid()}.report"
    child = os.fork()
    if child == 0:
        Process(script, disk, words, happens, is_real, report).begin(typed)
    os.waitpid(child, 0)
    with open(report, "rb") as file:
        (status, key, reached, text, steps, happened), kept, answers = pickle.load(file)
    os.remove(report)
    disk.__dict__.update(kept)
    CACHE.update(answers)
    erases = steps.index("fallocate") if "fallocate" in steps else len(steps)
    judged = max((number for number, name in enumerate(steps[:erases], 1) if name == "read"), default=0)
    return Ended(status, key, reached, text, steps, [(*one, one[1] > judged) for one in happened])


# What happens to the disk

def change(disk, kind, step):
    """A page can't be read any more, a byte rots, or a node writes."""
    if kind == "page":
        disk.bad.add(disk.choice.randrange(disk.drive.extents * disk.drive.pages))
    elif kind in BY_NODE:
        write_by_node(disk, kind, step)
    elif (at := rotting(disk, kind)) is not None:
        disk.write(at, bytes([disk.raw()[at] ^ 1 << disk.choice.randrange(8)]))
        disk.foreign.append(at)


def rotting(disk, kind):
    """The byte that rots: of what is planned, of a chunk that is copied, of the superblock, of a chunk in use, or any."""
    choice, drive, now = disk.choice, disk.drive, disk.now()
    copies = [line.split(" ") for line in disk.planned if line.startswith("copy ")]
    if kind == "rot place" and disk.planned:
        at, text = disk.place(choice.choice(disk.planned), disk.first)
        return at + choice.randrange(len(text))
    if kind == "rot source" and copies:
        e, o, _, _, count = map(int, choice.choice(copies)[1:])
        return e * drive.size + o + choice.randrange(count)
    if kind == "rot superblock" and (page := choose(now.image())["page"]) is not None:
        return page * drive.page + choice.randrange(records_of(now.image())[page].length)
    used = [c for _, c, status in named_locators(now) if status == "sound"] if kind == "rot used" else []
    if used:
        c = choice.choice(used)
        e, o = place_of(c)
        return e * drive.size + o + choice.randrange(c["length"] + 38)
    return choice.randrange(len(drive.raw))


def write_by_node(disk, kind, step):
    """The node goes on from what it remembers, that of the first image, or from what is on the disk."""
    before, now = disk.raw(), disk.now()
    node = Node(now if kind.endswith(" anew") else now.copy(disk.first), disk.choice)
    if choose(node.drive.image())["page"] is None:
        return
    node.resume()
    node.drive = now
    try:
        node.bind(disk.choice.randbytes(16), [node.append(disk.choice.randbytes(disk.choice.randrange(1, 160)))])
        if "chunk" not in kind:
            node.flush()
    except Full:
        return
    if "superblock" in kind and not node.superblock():
        return
    for at, text in changes(before, now.raw):
        disk.write(at, text)
        disk.foreign.append(at)
        disk.by_node.append((at, text, step))


def changes(before, after):
    """Where the second one has other bytes, and which."""
    at = 0
    while at < len(before):
        if before[at] == after[at]:
            at += 1
            continue
        begin = at
        while at < len(before) and before[at] != after[at]:
            at += 1
        yield begin, bytes(after[begin:at])

