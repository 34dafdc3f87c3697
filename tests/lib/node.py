"""A disk in memory, the answers of a program or of the reference on it, and a storage node at work on it. lib/drives.py has drives on
which a node has worked."""
import os
import re
import subprocess

from lib.disks import frame, geometry, record, run, sealed_frame
from lib.planner import write_over
from reference import shardscrub as reference
from reference.shardscrub import BEST, FORMS, Image, choose, frame_at, manifest, records_of, refusal, scrub, sha, tile, write_locator


# The disk and the answers

class Drive:
    """The bytes of a disk, and its unreadable pages. What nobody reads from it: the payloads that its node wrote, its older bytes, what was
    written `later` than the last superblock; the page and generation of a superblock that an older format has `left`, and the manifest
    `known` to the node."""

    def __init__(self, page, pages, extents, raw=None, unreadable=(), payloads=()):
        self.page, self.pages, self.extents = page, pages, extents
        self.size = page * pages
        self.raw = bytearray(self.size * extents if raw is None else raw)
        self.unreadable = frozenset(unreadable)
        self.payloads, self.older, self.later, self.left, self.known = list(payloads), [], None, None, None

    def copy(self, raw=None):
        other = Drive(self.page, self.pages, self.extents, self.raw if raw is None else raw, self.unreadable, self.payloads)
        other.older, other.later, other.left, other.known = list(self.older), self.later, self.left, self.known
        return other

    def image(self):
        return Image(bytes(self.raw), self.page, self.pages, self.extents, self.unreadable)

    def read(self, extent, offset, count):
        return bytes(self.raw[extent * self.size + offset:extent * self.size + offset + count])

    def write(self, extent, offset, text):
        """Writes as `dd` does: past the end of an extent it goes on in the next one. The file doesn't become longer."""
        at = extent * self.size + offset
        if at < len(self.raw):
            self.raw[at:at + len(text)] = text[:len(self.raw) - at]

    def record(self, generation, pointers, retired, runs):
        """A record of this disk. Without retired extents it is of the first kind."""
        return record(self.page, self.pages, self.extents, pointers, [write_locator(c) for c in runs], generation, retired or None)


class Engine:
    """Prints the answers: a program, or the reference by itself."""

    def __init__(self, program, room):
        self.program, self.calls, self.file, self.written = program, 0, None, b""
        self.name = os.path.join(room, "image") if room else None

    def ask(self, drive, command, accepted=(), last=None):
        """The text that a command prints, and whether its status is 0. `last` is a generation for --last."""
        self.calls += 1
        if self.program is None:
            options = {"reclaimable": [accepted, last], "summary": [last]}.get(command, [])
            return getattr(reference, command)(drive.image(), *options)
        words = [word for text in accepted for word in ("--accept", text)]
        words += ["--last", str(last)] if last is not None else []
        done = self.run(drive, [command, *words])
        if done.returncode not in (0, 1) or done.stderr:
            raise RuntimeError(f"{done.args}: status {done.returncode}, {done.stderr.decode()}")
        return done.stdout.decode(), done.returncode == 0

    def compare(self, before, after, resets=()):
        """The text that `compare` prints of two drives, and whether its status is 0."""
        self.calls += 1
        if self.program is None:
            return reference.compare(before.image(), after.image(), resets)
        names = [os.path.join(os.path.dirname(self.name), name) for name in ("before", "after")]
        for name, drive in zip(names, (before, after)):
            write_over(name, drive.raw)
        pairs = [f"{e}:{g}" for e, g in sorted(after.unreadable)]
        words = ["compare", *geometry(before.page, before.pages, before.extents), *(f"--reset={e}" for e in resets), *names, *pairs]
        done = subprocess.run([self.program, *words], stdin=subprocess.DEVNULL, capture_output=True)
        if done.returncode not in (0, 1) or done.stderr:
            raise RuntimeError(f"{done.args}: status {done.returncode}, {done.stderr.decode()}")
        return done.stdout.decode(), done.returncode == 0

    def write(self, raw):
        """Writes the image, unless it is there already. A file that is cut to nothing before each time costs the system much."""
        if self.file is None:
            self.file = open(self.name, "wb", buffering=0)
        if len(raw) != len(self.written):
            self.file.truncate(len(raw))
        if raw != self.written:
            os.pwrite(self.file.fileno(), raw, 0)
            self.written = bytes(raw)

    def run(self, drive, words):
        """A run of the program on an image of the drive."""
        self.write(drive.raw)
        pairs = [f"{e}:{g}" for e, g in sorted(drive.unreadable)]
        return subprocess.run([self.program, *words, *geometry(drive.page, drive.pages, drive.extents), self.name, *pairs],
                              stdin=subprocess.DEVNULL, capture_output=True)

    def answer(self, drive, command, *words):
        """What the program prints of a drive, and the texts of the lines of its error stream. The status is 0 if there are none, or 1."""
        self.calls += 1
        done = self.run(drive, [command, *words])
        lines = done.stderr.decode().splitlines()
        if done.returncode not in ((1,) if lines else (0, 1)) or not all(line.startswith("shardscrub: ") for line in lines):
            raise RuntimeError(f"{done.args}: status {done.returncode}, {lines}")
        return done.stdout, [line.removeprefix("shardscrub: ") for line in lines], done.returncode == 0

    def manifest(self, drive, resets=()):
        """The manifest, whether its status is 0, and the remarks."""
        if self.program is None:
            return reference.manifest(drive.image(), resets)
        text, remarks, is_good = self.answer(drive, "manifest", *(f"--reset={e}" for e in resets))
        return text.decode(), is_good, remarks

    def shard(self, drive, identifier):
        """The bytes of a shard, and what is said of it, but the remarks on superblocks."""
        if self.program is None:
            printed, said = reference.shard(drive.image(), identifier)
        else:
            printed, said, _ = self.answer(drive, "shard", "--id", identifier.hex())
        return printed, [one for one in said if one != "tie" and not one.startswith("superblock lost: ")]


def doubts_in(text):
    """The doubts of a listing, each without its first word."""
    return [line.partition(" ")[2] for line in text.splitlines() if line.startswith(("doubt ", "accepted "))]


def open_doubts_in(text):
    """Those that aren't accepted."""
    return [line.partition(" ")[2] for line in text.splitlines() if line.startswith("doubt ")]


def acceptable(doubts):
    """The doubts whose lines can be accepted."""
    return [line for line in doubts if refusal(line) is None]


def lines_with(text, word):
    return [line.split() for line in text.splitlines() if line.startswith(word + " ")]


class Broken(AssertionError):
    """A law doesn't hold, or a box isn't as it should be."""


def require(condition, *words):
    if not condition:
        raise Broken(" ".join(map(str, words)))


def chunks_of(drive, extent, pointer):
    return {(i[1], i[2], i[0], i[3]) for i in tile(drive.image(), extent, pointer) if i[0] in ("chunk", "sealed")}


def all_accepted(engine, drive):
    text, _ = engine.ask(drive, "reclaimable")
    return engine.ask(drive, "reclaimable", acceptable(doubts_in(text)))


def named_locators(drive):
    """The named locators of a disk: their owners, the locators, and their statuses. The owner of a shard's is its identifier."""
    return [(c.shard or c.owner, c.locator, c.status) for c in scrub(drive.image()).checked]


def locator_of(extent, offset, name, payload):
    return {"extent": extent, "offset": offset, "length": len(payload), "uuid": name, "digest": sha(payload)}


def place_of(c):
    return c["extent"], c["offset"]


def run_of(entries):
    return run(*((identifier, [write_locator(c) for c in locators]) for identifier, locators in entries))


def bindings_of(drive):
    """For each identifier its entries, newest first, from the runs that are read."""
    found = {}
    for one in scrub(drive.image()).runs:
        for identifier, locators in one.entries or []:
            found.setdefault(identifier, []).append(locators)
    return found


def record_pages(drive, length):
    """The pages of extent 0 at which a record can begin that leaves the one that counts."""
    records = records_of(drive.image())
    counts = choose(drive.image())["page"]
    if counts is None:
        taken = range(0)
    else:
        taken = range(counts * drive.page, counts * drive.page + records[counts].length)
    return [g for g in range(drive.pages) if g * drive.page + length <= drive.size
            and (g * drive.page >= taken.stop or g * drive.page + length <= taken.start)]


def put_record(drive, text, begin, with_zeros=True):
    """Writes a record from this byte on, zeros up to the end of its last page, and the rest of the pages of each other record that it
    overwrites."""
    end = begin + len(text)
    others = [(g * drive.page, (g + (r.length - 1) // drive.page + 1) * drive.page)
              for g, r in records_of(drive.image()).items()]
    drive.write(0, begin, text + bytes(-end % drive.page) * with_zeros)
    for start, stop in others if with_zeros else []:
        if start < end and begin < stop:
            drive.write(0, start, bytes(max(0, begin - start)))
            drive.write(0, end, bytes(max(0, stop - end)))


def zero_record(drive, page):
    """Writes zeros over the pages of the record that begins on this page."""
    length = records_of(drive.image())[page].length
    drive.write(0, page * drive.page, bytes(length + -length % drive.page))


class Full(Exception):
    """There is no place left."""


def frames_in(drive, extent, pointer):
    """Each frame that begins at any byte of an extent and ends at or below the pointer: the byte, and its payload."""
    image = drive.image()
    starts = [found.start() for found in re.finditer(b"|".join(map(re.escape, FORMS)), drive.read(extent, 0, pointer))]
    return [(p, found[3]) for p in starts if (found := frame_at(image, extent, pointer, p))]


def loose_payloads(drive, given_up):
    """The lengths and digests of the payloads of the frames at any byte of the extents in use, but for those given up."""
    but = {*choose(drive.image())["retired"], *given_up}
    return {(len(p), sha(p)) for e in range(1, drive.extents) if e not in but for _, p in frames_in(drive, e, drive.size)}


def held(drive, given_up=()):
    """For each locator of each shard: its payload, or whether there is a spare of it, or else a copy at any byte of an extent in use, but for
    those given up. It may be in a crowded one."""
    image, chosen, loose = drive.image(), choose(drive.image()), None
    words = {}
    for line in manifest(image)[0].splitlines():
        if line.startswith("shard "):
            _, identifier, k, *_, last = line.split()
            words[identifier, int(k)] = last
    found = {}
    for owner, c, status in named_locators(drive):
        if isinstance(owner, bytes):
            k = len(found.setdefault(owner, []))
            word = words[owner.hex(), k]
            if status in ("sound", "hidden"):
                word = frame_at(image, c["extent"], chosen["pointers"][c["extent"] - 1], c["offset"])[3]
            elif word != "spare" and c["length"]:
                loose = loose_payloads(drive, given_up) if loose is None else loose
                word = "loose" if (c["length"], c["digest"]) in loose else "none"
            found[owner].append(word)
    return found


def is_held(before, after):
    """Whether a disk holds what it held. A copy may be new or a better one, or an entry may name it."""
    def is_good(old, new):
        return old == new or old in BEST and (BEST.index(old) < BEST.index(new) if new in BEST else old != "none")

    return before.keys() == after.keys() and all(
        len(parts) == len(after[identifier]) and all(map(is_good, parts, after[identifier])) for identifier, parts in before.items())


# Manifests

def is_risen(old, new):
    """Whether two lines of a manifest are the same, but that a last word may be greater."""
    *rest, last = old.split()
    *others, other = new.split()
    return old == new or rest == others and last in BEST and other in BEST and BEST.index(last) < BEST.index(other)


def are_risen(old, new):
    """Whether two manifests are the same, but that last words may be greater."""
    lines, others = old.splitlines(), new.splitlines()
    return len(lines) == len(others) and all(map(is_risen, lines, others))


# A node at work

class Node:
    """A storage node at work. It appends whole frames, and after each of its rounds writes a run and a superblock."""

    def __init__(self, drive, choice):
        self.drive, self.choice, self.generation = drive, choice, choice.choice([0, 6, 2 ** 40])
        self.retired, self.runs, self.shards, self.changed = [], [], {}, {}
        self.pointers = [0] * (drive.extents - 1)

    def used(self):
        return [e for e in range(1, self.drive.extents) if e not in self.retired]

    def append(self, payload, name=None, form=None, extent=None):
        """Writes a chunk behind what is written to an extent, and returns its locator."""
        c = self.choice
        name, form = name or c.randbytes(16), form or c.choice([frame, frame, sealed_frame])
        text = form(name, payload)
        some = [extent] if extent else c.sample(self.used(), len(self.used()))
        for e in some:
            at = self.pointers[e - 1]
            items = tile(self.drive.image(), e, at)
            if at % self.drive.page and items[-1][0] not in ("chunk", "sealed"):
                at += self.drive.page - at % self.drive.page
            pages = range(at // self.drive.page, (at + len(text) - 1) // self.drive.page + 1)
            if at + len(text) <= self.drive.size and not any((e, g) in self.drive.unreadable for g in pages):
                self.drive.write(e, at, text)
                self.pointers[e - 1] = at + len(text)
                self.drive.payloads.append(payload)
                return locator_of(e, at, name, payload)
        raise Full

    def payload(self):
        c = self.choice
        return c.randbytes(c.choice([0, 1, 3, 17, 26, 40, c.randrange(200)]))

    def step(self):
        c = self.choice
        identifiers = list(self.shards)
        kind = c.choice(["new", "new", "again", "again", "share", "delete", "copy", "garbage", "garbage", "crash", "pad"])
        one = c.choice(identifiers) if identifiers else None
        if kind == "new" or one is None:
            self.bind(c.choice([c.randbytes(16), bytes(15) + bytes([c.randrange(9)])]),
                      [self.append(self.payload()) for _ in range(c.choice([1, 1, 2, 3]))])
        elif kind == "again":
            self.bind(one, [self.append(self.payload()) if c.random() < .6 else old for old in self.shards[one]])
        elif kind == "share":
            self.bind(c.randbytes(16), [c.choice(self.shards[one]), self.append(self.payload())][:c.choice([1, 2])])
        elif kind == "delete":
            self.bind(one, [])
        elif kind == "copy":
            k = c.randrange(len(self.shards[one]))
            old = self.shards[one][k]
            here = frame_at(self.drive.image(), old["extent"], self.pointers[old["extent"] - 1], old["offset"])
            if here:
                new = self.append(here[3])
                self.bind(one, [*self.shards[one][:k], new, *self.shards[one][k + 1:]])
        elif kind == "garbage":
            self.append(c.randbytes(c.randrange(self.drive.size // 2)))
        elif kind == "crash":
            self.crash(c.choice(self.used()))
        else:
            self.pad(c.choice(self.used()))

    def pad(self, e):
        """Moves a pointer over some zeros."""
        at, count = self.pointers[e - 1], self.choice.randrange(1, 90)
        if self.drive.read(e, at, count) == bytes(count) and at + count <= self.drive.size:
            self.pointers[e - 1] += count

    def crash(self, e):
        """The beginning of a chunk, up to a page bound. The node goes on there."""
        at, page = self.pointers[e - 1], self.drive.page
        bound = at + page - at % page
        if bound < self.drive.size and bound - at > 24:
            payload = self.choice.randbytes(bound - at)
            self.drive.write(e, at, frame(self.choice.randbytes(14) + b"\xc5\x5e", payload)[:bound - at])
            self.pointers[e - 1] = bound

    def bind(self, identifier, locators):
        self.changed[identifier] = locators
        self.shards.pop(identifier, None)
        if locators:
            self.shards[identifier] = locators

    def flush(self):
        """Writes what has changed into a run, or everything if there are many runs."""
        if len(self.runs) >= self.choice.choice([3, 5]):
            self.runs, self.changed = [], dict(self.shards)
        if self.changed:
            self.runs.insert(0, self.append(run_of(sorted(self.changed.items()))))
            self.changed = {}

    def superblock(self):
        """Writes a superblock. False if there is no place for it."""
        self.generation += 1
        text = self.drive.record(self.generation, self.pointers, self.retired, self.runs)
        pages = record_pages(self.drive, len(text))
        if pages:
            self.drive.older.append(bytes(self.drive.raw))
            put_record(self.drive, text, self.choice.choice(pages) * self.drive.page)
        return bool(pages)

    def reset(self):
        """Resets an extent without a chunk in use."""
        taken = {c["extent"] for locators in [self.runs, *self.shards.values()] for c in locators}
        free = [e for e in self.used() if e not in taken and self.pointers[e - 1]]
        if free:
            self.pointers[self.choice.choice(free) - 1] = 0

    def resume(self):
        """Reads what a restart reads: the superblock that counts and its runs."""
        chosen = choose(self.drive.image())
        self.generation, self.pointers = chosen["generation"], list(chosen["pointers"])
        self.retired, self.runs = list(chosen["retired"]), list(chosen["runs"])
        self.shards = {i: entries[0] for i, entries in bindings_of(self.drive).items() if entries[0]}
        self.changed = {}

    def live_on(self, rounds):
        for _ in range(rounds):
            try:
                for _ in range(self.choice.randint(1, 5)):
                    self.step()
            except Full:
                pass
            if self.choice.random() < .3:
                self.reset()
            try:
                self.flush()
            except Full:
                self.resume()
                return
            if not self.superblock():
                self.generation -= 1
                self.resume()
                return
