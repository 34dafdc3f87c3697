"""Drives on which a node has worked, with what may have happened to them."""
from lib.anywhere import crowd, frame_bytes, loosen, rotted
from lib.disks import frame, sealed_frame
from lib.node import Drive, Full, Node, place_of, record_pages
from reference.shardscrub import (PLAIN, SEALED, candidates, choose, frame_at, manifest, read_locator, records_of, scrub,
                                  write_locator)


def fill_up(node):
    """Chunks without an owner fill the disk up to a few bytes."""
    for e in node.used():
        left = node.drive.size - node.pointers[e - 1]
        while left > 40:
            size = min(left - 38, node.choice.randrange(1, node.drive.size))
            try:
                node.append(node.choice.randbytes(size), form=frame, extent=e)
            except Full:
                break
            left = node.drive.size - node.pointers[e - 1]


def worked(choice):
    """A drive of a node that has worked for a while, and the node, before it writes its next superblock."""
    drive = Drive(choice.choice([64, 64, 128, 512]), choice.choice([16, 16, 24, 32]), choice.choice([4, 5, 6, 8]))
    node = Node(drive, choice)
    node.live_on(choice.randint(1, 5))
    if choice.random() < .25:
        node.retired = sorted(choice.sample(range(1, drive.extents), choice.choice([1, 1, 2])))
    if choice.random() < .2:
        fill_up(node)
    node.live_on(choice.randint(1, 3))
    if choice.random() < .2:
        fill_up(node)
    if choice.random() < .3:
        for e in node.used():
            node.pad(e)
    return drive, node


def worn(choice, chance=.5):
    """A drive of a node that has worked for a while, and the last generation that the node wrote."""
    drive, node = worked(choice)
    rotten = copied(node) if choice.random() < chance else []
    node.superblock()
    node.resume()
    for c in rotten:
        e, o = place_of(c)
        begin = o + (54 if drive.read(e, o, 2) == SEALED.magic else 22)
        drive.raw[e * drive.size + begin + choice.randrange(c["length"])] ^= 1
    damage(node)
    return drive, node.generation


def with_later_run(choice):
    """A drive on which a run that names an old chunk was written after the last superblock."""
    drive, node = worked(choice)
    chunk = node.append(choice.randbytes(30))
    node.superblock()
    node.bind(choice.randbytes(16), [chunk])
    node.flush()
    drive.later = (list(node.pointers), node.runs[:1])
    return drive, node.generation


def with_newest_damaged(choice):
    """A drive on which the newest superblock is damaged, and an older one counts."""
    drive, node = worked(choice)
    node.superblock()
    try:
        node.bind(choice.randbytes(16), [node.append(choice.randbytes(30))])
        node.flush()
    except Full:
        pass
    if node.superblock():
        drive.later = (list(node.pointers), list(node.runs))
        drive.raw[choose(drive.image())["page"] * drive.page + 5] ^= 1
    return drive, node.generation


def with_broken_shard_in_tail(choice):
    """A drive with a pointer that a node's fault made too small, so that a shard's chunk is in a tail."""
    drive, node = worked(choice)
    named = [c for locators in node.shards.values() for c in locators]
    if named:
        e, o = place_of(choice.choice(named))
        node.pointers[e - 1] = o
    node.superblock()
    return drive, node.generation


def with_older_format(choice):
    """A drive that was formatted again with the same sizes. A superblock of the older format is left, and its generation is greater than
    those of the node's."""
    drive, node = worked(choice)
    node.superblock()
    node.resume()
    pointers = choice.choice([node.pointers, [choice.randrange(drive.size + 1) for _ in node.pointers]])
    generation = node.generation + choice.choice([1, 7, 2 ** 20])
    text = drive.record(generation, pointers, [], [])
    free = [g for g in record_pages(drive, len(text)) if not any(drive.read(0, g * drive.page, -(-len(text) // drive.page) * drive.page))]
    if not free:
        raise Full
    drive.known, drive.left = manifest(drive.image())[0], (choice.choice(free), generation)
    drive.write(0, drive.left[0] * drive.page, text)
    return drive, node.generation


def move_out(node, x):
    """Copies the chunks in use of an extent as they are, and resets the extent. Returns the copies' locators. It isn't reset if a chunk in
    use has no place elsewhere, or is none any more."""
    moved = {}
    for identifier, locators in sorted(node.shards.items()):
        for c in locators:
            place = place_of(c)
            if place[0] == x and place not in moved and (here := frame_at(node.drive.image(), x, node.pointers[x - 1], place[1])):
                form = frame if here.form is PLAIN else sealed_frame
                others = [e for e in node.used() if e != x]
                for e in node.choice.sample(others, len(others)):
                    try:
                        moved[place] = node.append(here.payload, here.uuid, form, e)
                        break
                    except Full:
                        pass
    for identifier, locators in sorted(node.shards.items()):
        if any(place_of(c) in moved for c in locators):
            node.bind(identifier, [moved.get(place_of(c), c) for c in locators])
    if any(run["extent"] == x for run in node.runs):
        node.runs, node.changed = [], dict(node.shards)
    node.flush()
    if not any(c["extent"] == x for locators in [node.runs, *node.shards.values()] for c in locators):
        node.pointers[x - 1] = 0
    return list(moved.values())


def moved_and_rotted(c):
    """A drive of a node that moved chunks out of some extents, reset these, and mostly wrote on. Some of the moved chunks have rotted, and
    some bytes past pointers were erased. Also the node."""
    drive, node = worked(c)
    node.superblock()
    moved = []
    for _ in range(c.choice([1, 1, 2, 3])):
        moved += move_out(node, c.choice(node.used()))
        node.superblock()
    node.live_on(c.choice([0, 0, 1, 1, 2]))
    node.superblock()
    node.resume()
    named = [c for locators in node.shards.values() for c in locators]
    for one in c.sample(moved, min(len(moved), c.choice([0, 1, 1, 2, len(moved)]))):
        at = one["extent"] * drive.size + one["offset"]
        if one in named and one["length"]:
            text = frame_bytes(drive.raw, at, one["length"])
            drive.raw[at:at + len(text)] = rotted(c, text)
    if c.random() < .2:
        loosen(c, drive, [tuple(one.values()) for one in named], node.pointers)
    for _ in range(c.choice([0, 0, 0, 1, 1])):
        crowd(c, drive)
    if c.random() < .1:
        e, at = c.randrange(1, drive.extents), c.randrange(drive.size)
        drive.write(e, at, bytes(min(drive.size - at, c.randrange(1, 200))))
    if c.random() < .1:
        drive.unreadable = frozenset({(c.randrange(1, drive.extents), c.randrange(drive.pages)) for _ in range(c.choice([1, 1, 3]))})
    return drive, node


def moved(choice):
    """Such a drive, and the last generation that its node wrote."""
    while True:
        try:
            drive, node = moved_and_rotted(choice)
            return drive, node.generation
        except Full:
            pass


def with_copies_in_listed(choice):
    """Such a drive. Chunks have rotted whose copies are in extents that may be reclaimed, behind all that is live there."""
    drive, generation = moved(choice)
    found = scrub(drive.image())
    ends = {one.extent: max([0, *(item.stop for item in one.keep)]) for one in candidates(found)}
    whole = [c for c in found.checked if c.status == "sound" and c.shard is not None and c.locator["length"] > 0]
    for c in choice.sample(whole, min(len(whole), choice.choice([1, 1, 2]))):
        e, o = c.place()
        text = frame_bytes(drive.raw, e * drive.size + o, c.locator["length"])
        some = [x for x, end in ends.items() if x != e and end + len(text) <= drive.size]
        if some:
            x = choice.choice(some)
            drive.write(x, choice.randint(ends[x], drive.size - len(text)), text)
            drive.write(e, o, rotted(choice, text))
    if choice.random() < .4:
        crowd(choice, drive)
    return drive, generation


def with_loose_copies(choice):
    """One of these drives with a lost payload that has a loose copy."""
    drive, generation = choice.choice([moved, with_copies_in_listed])(choice)
    if not any(line.endswith(" loose") for line in manifest(drive.image())[0].splitlines()):
        raise Full
    return drive, generation


def with_a_last_generation(choice):
    """A drive whose superblock has one of the greatest generations that there are."""
    drive, node = worked(choice)
    node.generation = 2 ** 64 - choice.randint(2, 7)
    node.superblock()
    return drive, node.generation


DRIVES = {None: worn, "spare": lambda choice: worn(choice, 1), "later": with_later_run, "damaged": with_newest_damaged,
          "in tail": with_broken_shard_in_tail, "older format": with_older_format, "last generation": with_a_last_generation,
          "moved": with_loose_copies}
# Those whose node wrote something after its last superblock, as its log says.
WRITTEN_AFTER = {"later"}


def copied(node):
    """Writes some payloads again, in chunks that no entry names. Returns the locators of the first chunks, which will rot."""
    some = sorted({write_locator(c) for locators in node.shards.values() for c in locators if c["length"] > 34})
    rotten = []
    for c in map(read_locator, node.choice.sample(some, min(len(some), 2))):
        here = frame_at(node.drive.image(), c["extent"], node.pointers[c["extent"] - 1], c["offset"])
        try:
            node.append(here[3])
            node.append(node.choice.randbytes(node.drive.size // 3))
        except Full:
            pass
        rotten.append(c)
    return rotten


def damage(node):
    """Flipped bits, unreadable pages, remains behind pointers, and a damaged older superblock."""
    drive, c = node.drive, node.choice
    named = [place for locators in node.shards.values() for place in map(place_of, locators)]
    for e, o in c.sample(sorted(set(named)), min(len(set(named)), c.choice([0, 0, 1, 1, 2]))):
        drive.raw[e * drive.size + o + c.randrange(60)] ^= 1 << c.randrange(8)
    for _ in range(c.choice([0, 0, 1])):
        e = c.randrange(1, drive.extents)
        if node.pointers[e - 1] + 30 < drive.size:
            drive.write(e, c.randrange(node.pointers[e - 1], drive.size - 20), c.choice([b"old", b"\xc5\x5e", bytes(3) + b"x"]))
    runs = {c["extent"] for c in node.runs}
    some = [e for e in range(1, drive.extents) if e not in runs]
    if some and c.random() < .2:
        drive.unreadable = frozenset({(c.choice(some), c.randrange(drive.pages)) for _ in range(c.choice([1, 1, 3]))})
    older = [g for g, r in records_of(drive.image()).items() if r.generation != node.generation]
    if older and c.random() < .2:
        drive.raw[c.choice(older) * drive.page + 5] ^= 1
    if c.random() < .02:
        drive.unreadable |= {(0, drive.pages - 1)}
