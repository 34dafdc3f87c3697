"""Disks of dead nodes, with what happened to their newest superblock, what the node had, and what act/rescue takes.

The node has what the last superblock lists that was written whole. Each payload of that counts which a whole frame has anywhere.
"""
import random
import re
import shutil
import sys
import tarfile
import types
from pathlib import Path
from typing import NamedTuple
from unittest import mock

from lib.disks import geometry
from lib.drives import with_older_format, worked
from lib.node import Drive, Full, record_pages
from lib.program import TOP
from reference.shardscrub import FORMS, choose, frame_at, merge, read_run, records_of, sha, uuid_text

PLACES = ("letters", "generation", "counts", "pointers", "list", "digest")
KINDS = ("none", *(f"bit in {place}" for place in PLACES), "noise", "zeros", "unreadable", "torn", "older format")


class Dead(NamedTuple):
    """A dead node's disk: what happened to it, the generation of the node's last superblock, the runs that it lists and those of the one
    before, and the payloads of each shard that the node had, None for one that is lost."""
    kind: str
    drive: Drive
    last: int
    runs: list
    older_runs: list
    right: dict

    def files(self):
        """The files of a right archive."""
        files = {}
        for identifier, parts in self.right.items():
            if None in parts:
                files |= {f"{identifier.hex()}.{k:02}": one for k, one in enumerate(parts) if one is not None}
            else:
                files[identifier.hex()] = b"".join(parts)
        return files


# What the node had

def newest(drive):
    """The record that counts."""
    image = drive.image()
    return choose(image)["page"], records_of(image)[choose(image)["page"]]


def entries_of(drive, record):
    """The shard map by the runs of a record, whether their extents are retired or not."""
    image, runs = drive.image(), []
    for c in record.runs:
        frame = frame_at(image, c["extent"], drive.size, c["offset"])
        runs.append(read_run(frame.payload))
    return {identifier: locators for identifier, (locators, _) in merge(runs).items()}


def payloads_on(drive):
    """Each payload of a frame at any byte, by its length and digest."""
    image, found = drive.image(), {(0, sha(b"")): b""}
    for e in range(1, drive.extents):
        for one in re.finditer(b"|".join(map(re.escape, FORMS)), drive.read(e, 0, drive.size)):
            if frame := frame_at(image, e, drive.size, one.start()):
                found[len(frame.payload), sha(frame.payload)] = frame.payload
    return found


def right_of(drive, bound):
    there = payloads_on(drive)
    return {identifier: [there.get((c["length"], c["digest"])) for c in locators] for identifier, locators in bound.items()}


def run_lines(runs):
    """The lines `run` of `locators`."""
    return [f"run {k} {c['extent']} {c['offset']} {c['length']} {uuid_text(c['uuid'])} sound" for k, c in enumerate(runs)]


# What happened to the newest superblock

def places_in(drive, record):
    """The bytes of the parts of a record: from the first one on, up to the last one."""
    begin = 26 if record.kind == b"SSB1" else 28
    listed = record.length - 32 - 60 * len(record.runs)
    return {"letters": (0, 4), "generation": (4, 12), "counts": (24, begin), "pointers": (begin, begin + 4 * (drive.extents - 1)),
            "list": (listed, record.length - 32), "digest": (record.length - 32, record.length)}


def flip(choice, drive, place):
    page, record = newest(drive)
    first, stop = places_in(drive, record)[place]
    if first == stop:
        raise Full
    drive.raw[page * drive.page + choice.randrange(first, stop)] ^= 1 << choice.randrange(8)


def spoil(choice, drive, kind):
    """Noise in a sector of the newest superblock, zeros in its place, or pages of it that can't be read."""
    page, record = newest(drive)
    begin, pages = page * drive.page, -(-record.length // drive.page)
    if kind == "zeros":
        drive.write(0, begin, bytes(record.length))
    elif kind == "unreadable":
        some = choice.sample(range(page, page + pages), choice.randint(1, pages))
        drive.unreadable = frozenset({*drive.unreadable, *((0, g) for g in some)})
    else:
        unit = min(512, drive.page)
        at = choice.randrange(-(-record.length // unit)) * unit
        drive.write(0, begin + at, choice.randbytes(min(unit, record.length - at)))


def tear(choice, drive, text):
    """Writes a superblock of which only some sectors arrive: the first ones, or any."""
    pages = record_pages(drive, len(text))
    if not pages:
        raise Full
    unit = min(512, drive.page)
    begin, text = choice.choice(pages) * drive.page, text + bytes(-len(text) % drive.page)
    count = len(text) // unit
    some = range(choice.randrange(count)) if choice.random() < .6 else choice.sample(range(count), choice.randrange(count))
    for k in some:
        drive.write(0, begin + k * unit, text[k * unit:(k + 1) * unit])


def work_on(choice, node):
    """The node writes something, and a run of that."""
    try:
        for _ in range(choice.randint(1, 4)):
            node.step()
    except Full:
        pass
    node.flush()


def torn(choice, drive, node):
    """The node writes on, and dies while it writes its next superblock."""
    work_on(choice, node)
    node.generation += 1
    tear(choice, drive, drive.record(node.generation, node.pointers, node.retired, node.runs))


def rot(choice, drive):
    """Some bits outside of extent 0."""
    for _ in range(choice.choice([0, 0, 0, 1, 3])):
        drive.raw[choice.randrange(drive.size, len(drive.raw))] ^= 1 << choice.randrange(8)


def dead(seed, kind):
    """A disk to which this happened. Full if nothing came of the seed."""
    choice = random.Random(f"{kind} {seed}")
    if kind == "older format":
        drive, last = with_older_format(choice)
        before = drive.copy()
        drive.left = None
        before.write(0, newest(before)[0] * before.page, bytes(newest(before)[1].length))
        _, record = newest(before)
        return Dead(kind, drive, last, record.runs, [], right_of(drive, entries_of(before, record)))
    drive, node = worked(choice)
    node.superblock()
    older = newest(drive)[1].runs
    node.live_on(choice.choice([0, 0, 1]))
    work_on(choice, node)
    if not node.superblock():
        raise Full
    _, record = newest(drive)
    bound = entries_of(drive, record)
    if kind == "torn":
        torn(choice, drive, node)
    elif kind.startswith("bit in "):
        flip(choice, drive, kind.removeprefix("bit in "))
    elif kind != "none":
        spoil(choice, drive, kind)
    rot(choice, drive)
    return Dead(kind, drive, record.generation, record.runs, older, right_of(drive, bound))


def deads(kind, count, first=0):
    """So many disks of a kind."""
    while count:
        try:
            yield dead(first, kind)
            count -= 1
        except Full:
            pass
        first += 1


# What act/rescue takes

def loaded(name):
    """A script of act/ as a module."""
    script = types.ModuleType(name)
    script.__file__ = str(TOP / "act" / name)
    sys.path.insert(0, str(TOP / "act"))
    exec(compile((TOP / "act" / name).read_text(encoding="utf-8"), script.__file__, "exec"), script.__dict__)
    return script


class Rescued(NamedTuple):
    """The status, what was printed, and the files of the archive."""
    status: int
    lines: list
    files: dict | None


class Rescuer:
    """Calls act/rescue in this process, and act/order, too."""

    def __init__(self, program, room):
        self.room, self.script, order = Path(room), loaded("rescue"), loaded("order")
        sources = sys.modules["sources"]
        sources.program = lambda: str(program)
        sources.Disk.order = property(lambda disk: [
            sources.run_of(sources.shardscrub.run_at(disk.image, run.extent, run.start)) for run in order.in_order(disk.image)])

    def ask(self, drive, last=None, runs=None, take=1):
        image, folder, listed = self.room / "dead", self.room / "rescued", self.room / "listed"
        image.write_bytes(drive.raw)
        if runs is not None:
            listed.write_text("".join(line + "\n" for line in run_lines(runs)), encoding="ascii")
        shutil.rmtree(folder, ignore_errors=True)
        words = [*geometry(drive.page, drive.pages, drive.extents), "--take", take, *(["--last", last] if last is not None else []),
                 *(["--runs", listed] if runs is not None else [])]
        return self.call(*words, image, folder, *(f"{e}:{g}" for e, g in sorted(drive.unreadable)))

    def call(self, *words):
        """What becomes of a call with these words."""
        with mock.patch.object(sys, "argv", ["rescue", *map(str, words)]):
            given = self.script.arguments()
        try:
            with self.script.new_folder(given.folder) as folder:
                lines, status = self.script.rescue(given, folder)
        except self.script.Fault as why:
            return Rescued(why.args[0], [why.args[1]], None)
        return Rescued(status, lines, files_of(Path(given.folder) / "all.tar"))


def files_of(path):
    with tarfile.open(path) as tar:
        return {one.name: tar.extractfile(one).read() for one in tar}


def judged(right, files):
    """How many shards that the node had are right, missing and wrong, and how many the archive has that the node hadn't."""
    counts = dict.fromkeys(("right", "missing", "wrong", "deleted"), 0)
    found = {name.partition(".")[0]: True for name in files}
    for identifier, parts in right.items():
        name = identifier.hex()
        if None in parts:
            wanted = {f"{name}.{k:02}": one for k, one in enumerate(parts) if one is not None}
        else:
            wanted = {name: b"".join(parts)}
        own = {one: text for one, text in files.items() if one.partition(".")[0] == name}
        counts["right" if own == wanted else "wrong" if found.pop(name, False) else "missing"] += 1
        found.pop(name, None)
    counts["deleted"] += len(found)
    return counts
