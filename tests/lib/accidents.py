"""What happens to a disk between two boxes of the checklist, or while something is written: chunks rot, pages can't be read any more, a
superblock goes, a node writes, the power fails, an extent is erased. See lib/mistakes.py."""
from lib.disks import HEAD, frame
from lib.drives import DRIVES, worked
from lib.mistakes import flipped, mistake
from lib.node import Full, Node, locator_of, named_locators, place_of, put_record, record_pages, run_of
from lib.own_tools import FIELDS
from lib.walk import Again, Stop, Walk
from reference.shardscrub import choose, loose_of, scrub


def erase(walk, value):
    for e in walk.chosen:
        walk.drive.write(e, 0, bytes(walk.drive.size))
    return ()


def rot_copy(walk, value):
    parts = [part for part in walk.parts if part.target and part.count]
    if not parts:
        return None
    part = walk.choice.choice(parts)
    walk.drive.write(*part.target, flipped(walk, walk.drive.read(*part.target, part.count)))
    return ()


def rot_run(walk, value):
    if walk.run_part is None:
        return None
    target, count = walk.run_part.target, walk.run_part.count
    walk.drive.write(*target, flipped(walk, walk.drive.read(*target, count)))
    return ()


def rot_source(walk, value):
    """A chunk that was copied rots at its old place."""
    parts = [part for part in walk.parts if part.count]
    if not parts:
        return None
    part = walk.choice.choice(parts)
    walk.drive.write(*part.place, flipped(walk, walk.drive.read(*part.place, part.count)))
    return ()


def lose_superblock(walk, value):
    """The superblock that counts reads as zeros, or a bit of it is another one."""
    page = choose(walk.drive.image())["page"]
    if page is None:
        return None
    begin = page * walk.drive.page
    walk.drive.write(0, begin, walk.choice.choice([bytes(walk.drive.page), flipped(walk, walk.drive.read(0, begin, 26))]))
    return ()


def node_writes(what):
    """The node goes on from what it remembers, and writes a chunk, a run or a superblock."""
    def make(walk, value):
        node, before = walk.running, bytes(walk.drive.raw)
        try:
            if what == "chunk":
                node.append(walk.choice.randbytes(30))
            else:
                node.step()
                node.flush()
                if what == "superblock":
                    node.superblock()
        except Full:
            return None
        if walk.drive.raw == before:
            return None
        walk.node = node
        return ()
    return make


def lose_page(walk, value):
    """A page that could be read can't be read any more, mostly one of a chunk in use."""
    drive, c = walk.drive, walk.choice
    some = [(place["extent"], place["offset"] // drive.page) for _, place, status in named_locators(drive) if status == "sound"]
    lost = c.choice(some) if some and c.random() < .8 else (c.randrange(drive.extents), c.randrange(drive.pages))
    if lost in drive.unreadable:
        return None
    drive.unreadable |= {lost}
    drive.write(lost[0], lost[1] * drive.page, bytes(drive.page))
    return ()


def fail(walk, value=()):
    """The power fails."""
    walk.slipped = True
    raise Again


BETWEEN = {"after box 1": "before box 4", "after box 4": "before the copies", "after the copies": "before the superblock",
           "after the writes": "before box 7", "after box 7": "before box 8", "after box 8": "before box 9",
           "after box 9": "before the erase"}
for point, when in BETWEEN.items():
    for what in ("chunk", "run", "superblock"):
        mistake(f"the node writes a {what} {when}", point)(node_writes(what))
    mistake(f"the superblock that counts goes {when}", point, begins_again=True)(lose_superblock)
    mistake(f"the extent is erased {when}", point)(erase)
    mistake(f"a page becomes unreadable {when}", point, begins_again=True)(lose_page)
    mistake(f"the power fails {when}", point, begins_again=True)(fail)
for point in list(BETWEEN)[2:]:
    mistake(f"a copy rots {BETWEEN[point]}", point)(rot_copy)
    mistake(f"the run rots {BETWEEN[point]}", point)(rot_run)
    mistake(f"a chunk rots at its old place {BETWEEN[point]}", point, begins_again=True)(rot_source)


@mistake("a superblock of the same generation without the reset is written over it", "after the writes")
def _(walk, value):
    chosen = choose(walk.drive.image())
    pointers = [v if e in walk.chosen else w for e, (v, w) in enumerate(zip(walk.first_fields["pointers"], chosen["pointers"]), 1)]
    put_record(walk.drive, walk.drive.record(chosen["generation"], pointers, chosen["retired"], chosen["runs"]),
               chosen["page"] * walk.drive.page)
    return ()


@mistake("the superblock of before is written again", "after the writes")
def _(walk, value):
    fields = {**walk.first_fields, "generation": walk.generation + 2}
    text = walk.drive.record(*(fields[key] for key in FIELDS))
    pages = record_pages(walk.drive, len(text))
    if not pages:
        return None
    put_record(walk.drive, text, walk.choice.choice(pages) * walk.drive.page)
    return ()


@mistake("the first image is made anew before the superblock", "after the copies")
def _(walk, value):
    walk.first = walk.drive.copy()
    return ()


@mistake("the first image is made anew after the writes", "after the writes")
def _(walk, value):
    walk.first = walk.drive.copy()
    return ()


# The power fails while something is written

def power_fails(walk, value):
    """Only some sectors are on the disk of what was written since the last flush. The copies are flushed before the superblock."""
    before, copied, after = value
    old, new = walk.choice.choice([(before, copied), (copied, after)])
    if "flush" in walk.without:
        old, new = after[:walk.drive.size] + before[walk.drive.size:], after
    for k in range(0, len(old), 64):
        walk.drive.raw[k:k + 64] = walk.choice.choice([old, new])[k:k + 64]
    walk.known, walk.begun = walk.generation, walk.generation + 1
    fail(walk)


def superblock_torn(walk, value):
    """Only the first bytes of the superblock are written."""
    _, copied, after = value
    at, count = walk.written
    stop = at + walk.choice.randrange(1, min(count, 60))
    walk.drive.raw[:] = after[:stop] + copied[stop:]
    walk.known, walk.begun = walk.generation, walk.generation + 1
    fail(walk)


def taken_as_written(walk, value):
    """Its first bytes are written, and its generation is taken for the last one."""
    _, copied, after = value
    stop = walk.written[0] + walk.choice.randrange(1, 26)
    walk.drive.raw[:] = after[:stop] + copied[stop:]
    walk.known = walk.generation + 1
    fail(walk)


def written_unseen(walk, value):
    """The whole superblock is on the disk, and nobody knows."""
    walk.known, walk.begun = walk.generation, walk.generation + 1
    fail(walk)


mistake("the power fails, and some sectors are written", "power", begins_again=True)(power_fails)
mistake("the power fails while the superblock is written", "power", drive="grown", begins_again=True)(superblock_torn)
mistake("the power fails when the superblock has just been written", "power", begins_again=True)(written_unseen)
mistake("the power fails while the superblock is written, and its generation is given", "power", begins_again=True)(taken_as_written)


# Between two walks, and around them

@mistake("a chunk rots, and the power fails", "after the copies", begins_again=True)
def _(walk, value):
    """What rots between two walks is broken in the new first image, too."""
    moved = {part.place for part in walk.parts}
    some = [c for owner, c, status in named_locators(walk.drive)
            if isinstance(owner, bytes) and status == "sound" and c["length"] and place_of(c) not in moved]
    if not some:
        return None
    e, o = place_of(c := walk.choice.choice(some))
    walk.drive.write(e, o, flipped(walk, walk.drive.read(e, o, c["length"] + 38)))
    fail(walk)


def grown(choice):
    """A drive on which the last superblock has a shard that the one before lacks."""
    drive, node = worked(choice)
    node.superblock()
    node.bind(choice.randbytes(16), [node.append(choice.randbytes(30))])
    node.flush()
    if not node.superblock():
        raise Full
    return drive, node.generation


@mistake("the newest superblock goes, and the node still runs", "before box 1", drive="grown", begins_again=True)
def _(walk, value):
    walk.still_runs = True
    return lose_superblock(walk, value)


def with_hidden_run(choice):
    """A drive on which a node has written a run that lies in another chunk, so that a scan steps over it."""
    drive, node = worked(choice)
    node.bind(choice.randbytes(16), [node.append(choice.randbytes(30))])
    payload, name = run_of(sorted(node.changed.items())), choice.randbytes(16)
    around = node.append(frame(name, payload), form=frame)
    node.runs.insert(0, locator_of(around["extent"], around["offset"] + HEAD, name, payload))
    if not node.superblock():
        raise Full
    return drive, node.generation


DRIVES.update({"grown": grown, "hidden run": with_hidden_run})


@mistake("the node merges its runs, and one is hidden", "merge", drive="hidden run", begins_again=True)
def _(walk, value):
    return True


@mistake("the node writes over a loose copy once it has the disk back", "given back", drive="moved")
def _(walk, value):
    """The shards that have only copies are written anew first."""
    found = scrub(walk.drive.image())
    some = [(e, item) for c in found.checked if c.shard is not None for e, item in loose_of(found, c) if found.pointers[e - 1] <= item.start]
    walk.first = walk.drive.copy()
    kept = walk.kept_for_node()
    if not some or None in kept.values():
        return None
    if "giving back" not in walk.without:
        walk.write_entries(kept)
    pointers = choose(walk.drive.image())["pointers"]
    for e, item in some:
        if pointers[e - 1] <= item.start:
            walk.drive.write(e, item.start, bytes(item.stop - item.start))
    return ()


# What was on the disk before

for name, kind in (("a superblock of an older format has a greater generation", "older format"),
                   ("the generation is one of the greatest", "last generation"),
                   ("a chunk that was moved has rotted", "moved")):
    mistake(name, "never", drive=kind, begins_again=True)(None)


# The erase

@mistake("another extent is erased", "extents to erase")
def _(walk, extents):
    some = [e for e in range(1, walk.drive.extents) if e not in extents]
    return [walk.choice.choice(some)] if some else None


@mistake("another extent is erased than that of box 9", "erase")
def _(walk, extents):
    some = [e for e in range(1, walk.drive.extents) if e not in extents]
    return [walk.choice.choice(some)] if some else None


@mistake("the extents of three reclamations are erased at the end", "extents to erase")
def _(walk, extents):
    """Those of the first one may be rooms of the others."""
    for _ in range(2):
        later = Walk(walk.engine, walk.drive, walk.known, walk.choice, erases=False)
        try:
            if not later.go():
                return None
        except (Stop, Full, Again):
            return None
        walk.known = later.known
    return extents


@mistake("the node is back before the extent is erased", "extents to erase")
def _(walk, extents):
    """The disk was given back, and is taken off again for the erase."""
    node = walk.node = Node(walk.drive, walk.choice)
    node.resume()
    node.live_on(2)
    return extents
