"""Reclamations by act/plan on made-up disks. The script runs in this process, the drive is in memory, and a writer of the tests makes the
writes. What becomes of a disk is judged by `compare` of the program, and by the payloads that the slow reference reads."""
import random
from typing import NamedTuple

from lib.disks import digest, frame, locator, record as superblock, run
from lib.drives import (moved, with_a_last_generation, with_broken_shard_in_tail, with_copies_in_listed, with_later_run,
                        with_newest_damaged, with_older_format, worn)
from lib.made_up import made_disk
from lib.node import Drive, Full, Node, acceptable, lines_with, open_doubts_in, require, run_of
from lib.planner import SCRIPT, Planner, Words
from lib.walk import erased
from reference import shardscrub as reference

# No plan needs more calls than this, even if each of its writes is interrupted several times.
CALLS = 200
MOST_RUNS = 32


# The writer

def write_of(drive, line):
    """Where a line of a plan writes, an extent and an offset, and what."""
    word, *words = line.split(" ")
    if word == "copy":
        source, at, extent, offset, count = map(int, words)
        return extent, offset, drive.read(source, at, count)
    require(word == "write", "no line of a plan:", line)
    extent, offset, digits = words
    return int(extent), int(offset), bytes.fromhex(digits)


def put(drive, lines):
    """Makes the writes of these lines."""
    for extent, offset, text in [write_of(drive, line) for line in lines]:
        require(offset + len(text) <= drive.size, "past the end of extent", extent)
        drive.write(extent, offset, text)


def put_sectors(drive, lines, sector, choice):
    """An interruption: of what these lines write only some sectors are on the disk, in any order."""
    chance = choice.random()
    for extent, offset, text in [write_of(drive, line) for line in lines]:
        begin = 0
        while begin < len(text):
            stop = min(len(text), begin + sector - (extent * drive.size + offset + begin) % sector)
            if choice.random() < chance:
                drive.write(extent, offset + begin, text[begin:stop])
            begin = stop


def is_there(drive, line):
    extent, offset, text = write_of(drive, line)
    return drive.read(extent, offset, len(text)) == text


def is_superblock(lines):
    return len(lines) == 1 and lines[0].startswith("write 0 ")


def reclaim(planner, drive, words, choice, sector=None):
    """Does what act/plan says until it says no more, and returns the last status and lines, and the answers before. Some answers are made
    in part only, and the next one has to have the rest. With a sector, writes are interrupted."""
    answers, interrupted = [], False
    for _ in range(CALLS):
        status, lines = planner.ask(drive, words)
        if status or answers and is_superblock(answers[-1]) and not interrupted:
            return status, lines, answers
        if interrupted and is_superblock(answers[-1]):
            # The zeros after it may be fewer, as an older record that it goes over isn't one any more.
            require(lines[0].rstrip("0") == answers[-1][0].rstrip("0"), "another superblock after an interruption")
        answers.append(lines)
        interrupted = sector is not None and choice.random() < .6
        if interrupted:
            put_sectors(drive, lines, sector, choice)
        elif is_superblock(lines) or choice.random() < .6:
            put(drive, lines)
        else:
            put(drive, choice.sample(lines, choice.randint(1, len(lines))))
    require(False, "no end after", CALLS, "calls")


# What a plan has to be, by the reference and lib/disks.py

class Needed(NamedTuple):
    """What has to be written: the frames to copy, each a place with its bytes; the entries of the new run, or None; the runs of before that
    are kept."""
    frames: dict
    entries: list | None
    runs: list

    def counts(self):
        """The bytes of each piece. Those of a run are 78, 17 for each shard and 60 for each of its locators."""
        of_run = {} if self.entries is None else {None: 78 + sum(17 + 60 * len(locators) for _, locators in self.entries)}
        return {**self.frames, **of_run}


def needed(drive, words, listing):
    found, record = reference.scrub(drive.image()), counting_record(drive)
    moves = [one for one in lines_with(listing, "move") if int(one[1]) in words.resets]
    copies = [one[1:] for one in lines_with(listing, "accepted") if one[1] in ("spare", "loose") and int(one[2]) in words.resets]
    shards = {bytes.fromhex(one[6]) for one in moves if one[5] == "shard"}
    count = len(record.runs) + bool(shards)
    is_merged = count > MOST_RUNS or page_beside(drive, record.length + 60 * bool(shards)) is None
    frames = {(int(one[1]), int(one[2])): int(one[-1]) for one in moves + copies if one[5] == "shard" or not is_merged}
    entries = [(one, locators) for one, (locators, _) in sorted(found.shard_map.items()) if is_merged or one in shards]
    return Needed(frames, entries if is_merged or shards else None, [] if is_merged else record.runs)


def counting_record(drive):
    image = drive.image()
    return reference.records_of(image)[reference.choose(image)["page"]]


def page_beside(drive, length):
    """The page at which a superblock of so many bytes begins, or None."""
    first, pages = reference.choose(drive.image())["page"], -(-length // drive.page)
    stop = first - (-counting_record(drive).length // drive.page)
    return 0 if pages <= first else stop if stop + pages <= drive.pages else None


def rooms_in(words, listing):
    """The rooms in their order, each its extent, its place and its end."""
    rooms = lines_with(listing, "room") + lines_with(listing, "last-room")
    return [(int(e), int(at), int(at) + int(count)) for _, e, at, count in rooms if int(e) not in words.resets]


def wanted_plan(drive, words, listing):
    """The lines of the pieces, and a list of that of the superblock. If one of them has no place, the lines of the refusal, and none."""
    what, record = needed(drive, words, listing), counting_record(drive)
    counts, at, targets = what.counts(), {e: place for e, place, _ in rooms_in(words, listing)}, {}
    for piece in sorted(counts, key=lambda one: (-counts[one], one or (drive.extents, 0))):
        x = next((e for e, _, end in rooms_in(words, listing) if at[e] + counts[piece] <= end), None)
        if x is None:
            return [f"no-room {counts[piece]}"], []
        targets[piece] = x, at[x]
        at[x] += counts[piece]

    def at_new_place(c):
        e, o = targets.get((c["extent"], c["offset"]), (c["extent"], c["offset"]))
        return reference.write_locator({**c, "extent": e, "offset": o})

    lines, runs = [], [at_new_place(c) for c in what.runs]
    for piece, (x, o) in targets.items():
        if piece:
            lines.append(f"copy {piece[0]} {piece[1]} {x} {o} {counts[piece]}")
        else:
            payload = run(*((one, [at_new_place(c) for c in locators]) for one, locators in what.entries))
            name = digest(payload)[:16]
            lines.append(f"write {x} {o} {frame(name, payload).hex()}")
            runs.insert(0, locator(x, o, name, payload))
    written = {x for x, _ in targets.values()}
    pointers = [0 if e in words.resets else at[e] if e in written else w for e, w in enumerate(record.pointers, 1)]
    retired = record.retired if record.kind == b"SSB2" else None
    text = superblock(drive.page, drive.pages, drive.extents, pointers, runs, words.last + 1, retired)
    page = page_beside(drive, len(text))
    if page is None:
        return [f"no-page {len(text)}"], []
    return lines, [f"write 0 {page * drive.page} {with_zeros(drive, page, text).hex()}"]


def with_zeros(drive, page, text):
    """A superblock in whole pages, and zeros up to the end of each valid record that begins on one of them, but not up to the one that
    counts."""
    stop, counts = page - (-len(text) // drive.page), reference.choose(drive.image())["page"]
    for g, one in sorted(reference.records_of(drive.image()).items()):
        if page <= g < stop:
            stop = max(stop, g - (-one.length // drive.page))
    stop = min(stop, counts) if page < counts else stop
    return text.ljust((stop - page) * drive.page, bytes(1))


# What becomes of a disk

def payloads(drive):
    """The payloads of each shard, None for one that is lost."""
    found = reference.scrub(drive.image())
    return {identifier: reference.payloads_of(found, identifier) for identifier in found.shard_map}


def are_kept(before, after):
    """Whether each payload that there was is still there, and no other one."""
    return before.keys() == after.keys() and all(
        len(old) == len(after[one]) and all(a is None or a == b for a, b in zip(old, after[one])) for one, old in before.items())


def judge(engine, before, after, words, choice):
    """What has to be true after a reclamation."""
    text, _ = engine.compare(before, after, words.resets)
    require(text == f"safe {words.last} {words.last + 1}\n", "with --reset:", text)
    pointers = reference.choose(before.image())["pointers"]
    wanted = "".join(f"pointer {e} {pointers[e - 1]} 0\n" for e in sorted(set(words.resets)))
    text, _ = engine.compare(before, after)
    require(text == wanted + "unsafe\n", "without --reset:", text)
    held = payloads(before)
    for drive in after, erased(after, words.resets, choice):
        require(are_kept(held, payloads(drive)), "a payload is lost or another one")


# Disks

class Busy(Node):
    """A node that writes a run in each round, until there are 32. It never merges them."""

    def flush(self):
        if self.changed and len(self.runs) < MOST_RUNS:
            self.runs.insert(0, self.append(run_of(sorted(self.changed.items()))))
            self.changed = {}


def with_many_runs(choice):
    """A drive whose superblock lists 28 to 32 runs."""
    drive = Drive(choice.choice([256, 512]), 24, choice.choice([5, 6, 8]))
    node, count = Busy(drive, choice), choice.choice([28, 30, 31, 31, 32, 32, 32])
    node.live_on(2)
    while len(node.runs) < count:
        one = choice.choice([*node.shards, choice.randbytes(16), choice.randbytes(16)])
        parts = 0 if choice.random() < .2 else choice.choice([1, 1, 2])
        node.bind(one, [node.append(choice.randbytes(choice.randrange(60))) for _ in range(parts)])
        node.append(choice.randbytes(choice.randrange(200)))
        node.flush()
    if not node.superblock():
        raise Full
    return drive, node.generation


def narrow(choice):
    """A drive whose extent 0 has few pages."""
    drive = Drive(64, choice.choice([5, 6, 7, 8, 9, 10]), choice.choice([4, 5, 6]))
    node = Node(drive, choice)
    node.live_on(choice.randint(1, 4))
    node.resume()
    return drive, node.generation


def hostile(choice):
    """A made-up disk of any kind. Its last generation is the one that counts."""
    drive = made_disk(choice)
    return drive, reference.choose(drive.image())["generation"]


KINDS = [worn, moved, moved, with_copies_in_listed, with_copies_in_listed, with_many_runs, narrow, hostile, hostile]
# These have a doubt, or the plan goes over what was written after the last superblock.
OTHERS = [with_a_last_generation, with_broken_shard_in_tail, with_later_run, with_newest_damaged, with_older_format]


def any_drive(choice):
    """A drive, and the last generation that its node wrote."""
    while True:
        try:
            drive, last = choice.choice(OTHERS if choice.random() < .1 else KINDS)(choice)
            return drive, last or 0
        except Full:
            pass


def words_for(engine, drive, last, choice):
    """Words for a reclamation, and what `reclaimable` prints with them. Each line is accepted that can be, and one listed extent or several
    are reset. Sometimes one isn't listed."""
    text, _ = engine.ask(drive, "reclaimable", last=last)
    accepted = acceptable(open_doubts_in(text))
    listing, _ = engine.ask(drive, "reclaimable", accepted, last=last)
    listed = [int(words[1]) for words in lines_with(listing, "reclaim")]
    if not listed or choice.random() < .03:
        return Words(last, accepted, [choice.randrange(1, drive.extents)]), listing
    count = choice.choice([1, 1, 1, 2, len(listed)])
    return Words(last, accepted, choice.sample(listed, min(count, len(listed)))), listing


# One disk

def is_right(drive, words, listing, status, lines):
    """Whether this is the right first answer. Nothing is refused for want of room if one room has enough for all pieces."""
    listed = {int(one[1]) for one in lines_with(listing, "reclaim")}
    doubts = [line for line in listing.splitlines() if line.startswith("doubt ")]
    unlisted = [f"unlisted {e}" for e in sorted(set(words.resets) - listed)]
    refused = doubts or unlisted or ["no-generation"] * (words.last == 2 ** 64 - 1)
    if refused:
        return (status, lines) == (1, refused)
    pieces, record = wanted_plan(drive, words, listing)
    if record:
        return (status, lines) == (0, [line for line in pieces if not is_there(drive, line)] or record)
    largest = max((end - at for _, at, end in rooms_in(words, listing)), default=0)
    is_full = sum(needed(drive, words, listing).counts().values()) > largest
    return (status, lines) == (1, pieces) and (is_full or lines[0].startswith("no-page "))


def planned_drive(engine, seed):
    """A drive, words for a reclamation, what `reclaimable` prints with them, and what makes choices from there on."""
    choice = random.Random(f"plan {seed}")
    drive, last = any_drive(choice)
    return drive, *words_for(engine, drive, last, choice), choice


def plan_on(engine, planner, seed, seen, interrupts=False):
    """Plans a reclamation on one disk, makes it, and judges what becomes of it. Counts what came up."""
    drive, words, listing, choice = planned_drive(engine, seed)
    before, last = drive.copy(), words.last
    status, lines, answers = reclaim(planner, drive, words, choice, choice.choice([16, 64, 512]) if interrupts else None)
    first = (0, answers[0]) if answers else (status, lines)
    require(is_right(before, words, listing, *first), f"disk {seed}: the first answer: {first[0]}", *first[1])
    if not answers:
        seen[f"refused: {lines[0].split(' ')[0]}"] += 1
        return
    require(status == 1 and f"doubt last {last + 1} {last}" in lines, f"disk {seed}: after {len(answers)} answers:", *lines)
    try:
        judge(engine, before, drive, words, choice)
    except AssertionError as why:
        require(False, f"disk {seed}: {why}")
    count_seen(drive, words, listing, answers, seen)


def count_seen(drive, words, listing, answers, seen):
    """Counts what a plan had that was made."""
    first = answers[0]
    seen["done"] += 1
    seen["answers"] += len(answers)
    seen["with pieces"] += not is_superblock(first)
    seen["with a run"] += first[0].startswith("write ") and not is_superblock(first)
    seen["copies"] += sum(line.startswith("copy ") for line in first)
    seen["several extents"] += len(words.resets) > 1
    seen["one run in place of all"] += len(counting_record(drive).runs) == 1 and listing.count(" run ") > 1
    accepted = lines_with(listing, "accepted")
    for kind in ("spare", "loose"):
        seen[f"with a {kind} copied"] += any(one[1] == kind and int(one[2]) in words.resets for one in accepted)
