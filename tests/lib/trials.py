"""Walks through the checklist with a mistake, or with what happens to the disk meanwhile: which boxes stop them, and whether bytes are
lost."""
import collections
import functools
import random

from lib.drives import DRIVES, WRITTEN_AFTER
from lib.node import Engine, Full, all_accepted, held, is_held, lines_with, zero_record
from lib.own_tools import FIELDS
from lib.walk import Again, Stop, Walk, erased
from reference.shardscrub import choose, records_of, sha, write_locator


def truth(drive, given_up=()):
    """What a disk holds, also by a run that was written after its last superblock, and without a superblock of an older format. What some
    extents have besides is given up."""
    page, generation = drive.left or (None, None)
    if page in (records := records_of(drive.image())) and records[page].generation == generation:
        drive = drive.copy()
        zero_record(drive, page)
    if drive.later is None:
        return held(drive, given_up)
    chosen, (pointers, later) = choose(drive.image()), drive.later
    pointers = [0 if w == 0 else max(w, v) for w, v in zip(chosen["pointers"], pointers)]
    return held(superseded(drive, {**chosen, "pointers": pointers, "runs": [*later, *chosen["runs"]]}), given_up)


def superseded(drive, fields):
    """The disk with another superblock that counts."""
    after = drive.copy()
    after.write(0, 0, bytes(drive.size))
    text = drive.record(1, *(fields[key] for key in FIELDS[1:]))
    after.write(0, 0, text[:drive.size])
    return after


def expected(walk, before):
    """What the disk should hold, with what the node has written meanwhile."""
    if walk.node is None:
        return before
    payloads = {sha(payload): payload for payload in walk.drive.payloads}
    known = {write_locator(c): before[i][k] for i, locators in walk.first_shards.items() for k, c in enumerate(locators)}
    return {i: [known.get(write_locator(c), payloads.get(c["digest"])) for c in locators] for i, locators in walk.node.shards.items()}


@functools.lru_cache(maxsize=None)
def prepared(kind, seed):
    """A drive of this kind, the last generation that its node wrote, and what it holds; or None where nothing can be tried on it."""
    try:
        drive, known = DRIVES[kind](random.Random(seed))
    except Full:
        return None
    if choose(drive.image())["page"] is None:
        return None
    text, _ = all_accepted(Engine(None, None), drive)
    return (drive, known, truth(drive)) if lines_with(text, "move") or kind is not None or seed % 8 == 0 else None


def walk_with(walk):
    """Walks as far as the boxes let it. Returns the box that stops it, or None, and whether the walk begins again; or None if it has nothing
    to do, or no place for what it writes."""
    try:
        return (None, False) if walk.go() else None
    except Stop as stop:
        walk.leave(stop)
        return stop.box, stop.then is not None
    except Again:
        return None, True
    except Full:
        return None


def walk_again(walk):
    """Walks on the same disk until it is done, after what happened to it. Returns the last walk, and the boxes that stopped it."""
    boxes = []
    for _ in range(4):
        last, walk = walk, Walk(walk.engine, walk.drive, walk.known, walk.choice, without=walk.without, begun=walk.begun)
        walk.anew, walk.given_up, walk.kept, walk.still_runs = last.anew, last.given_up, last.kept, False
        box, again = walk_with(walk) or (None, False)
        boxes += [box] * (box is not None)
        if not again:
            break
    return walk, boxes


def trial(engine, one, seed, without=()):
    """Makes a mistake on a disk. Returns the boxes that stop it, and whether bytes are lost; or None where the mistake can't be made on this
    disk."""
    found = prepared(one.drive, seed)
    if found is None:
        return None
    (first, known, before), choice = found, random.Random(f"{seed} {one.name}")
    walk = Walk(engine, first.copy(), known, choice, one, without, one.drive in WRITTEN_AFTER)
    outcome = walk_with(walk)
    if outcome is None or not walk.slipped:
        return None
    box, again = outcome
    boxes = [box] if box is not None else []
    if one.begins_again and again:
        walk, more = walk_again(walk)
        boxes += more
    elif box is None and again or one.without and box == 1:
        return None
    if walk.given_up:
        before = truth(first, walk.given_up)
    before, after = ({i: parts for i, parts in held.items() if i not in walk.anew}
                     for held in (expected(walk, before), truth(at_the_end(walk, boxes, first, choice), walk.given_up)))
    return tuple(boxes), not is_held(before, after)


def at_the_end(walk, boxes, first, choice):
    """The disk with the superblock of its node. After a walk that no box stopped, its node uses the reset extents again."""
    after = walk.drive
    if walk.node is not None:
        after = superseded(after, {"pointers": walk.node.pointers, "retired": walk.node.retired, "runs": walk.node.runs})
    if not boxes:
        old, new = (choose(drive.image()) for drive in (first, walk.drive))
        pointers = zip(old["pointers"], new["pointers"])
        after = erased(after, {*walk.chosen, *(e for e, (v, w) in enumerate(pointers, 1) if v > w == 0 and e not in new["retired"])}, choice)
    return after


def trials(engine, one, seed, tries, without=()):
    """The outcomes of a mistake, with how often each came."""
    found = collections.Counter()
    for k in range(min(60 * tries, 600)):
        if found.total() == tries:
            break
        outcome = trial(engine, one, seed * 1_000_003 + k, without)
        if outcome is not None:
            found[outcome] += 1
    return found


def words_of(outcome):
    """The boxes that stop a mistake, or `none`; with `!` where bytes are lost by then."""
    boxes, is_lost = outcome
    return (" ".join(map(str, boxes)) or "none") + "!" * is_lost


def row(name, found):
    """A line with the outcomes of a mistake, and how often each came."""
    outcomes = sorted((words_of(outcome), count) for outcome, count in found.items())
    return f"{name}: {', '.join(f'{words} {count}x' for words, count in outcomes) or 'never made'}"
