"""The mistakes of a walk through the checklist, made one at a time: what a node's own tools write wrong in the copies, the runs and the
superblock, and the boxes that are left out. lib/asking.py has what is asked wrongly, lib/accidents.py what happens to the disk;
lib/outcomes.py says what may come of each."""
from lib.disks import frame, record, sealed_frame
from lib.node import bindings_of, chunks_of, named_locators, place_of
from reference.shardscrub import SEALED, choose, tile


class Mistake:
    """What a person does wrong, and at which point of a walk. `make` gets the walk and the right value, and returns the wrong one,
    or None where there is no such mistake here. `often` ones are made each time. With `begins_again` the walk goes on as the box says that
    stops it, until the disk is done."""

    def __init__(self, name, point, make, often=False, drive=None, without=(), begins_again=False):
        self.name, self.point, self.make = name, point, make
        self.often, self.drive, self.without, self.begins_again = often, drive, without, begins_again


MISTAKES = []


def mistake(name, point, **more):
    def add(make):
        MISTAKES.append(Mistake(name, point, make, **more))
        return make
    return add


def flipped(walk, text):
    at = walk.choice.randrange(len(text))
    return text[:at] + bytes([text[at] ^ 1 << walk.choice.randrange(8)]) + text[at + 1:]


def first_change(walk, entries, change):
    """The entries with another locator in the place of one that moved."""
    some = [(n, k) for n, (_, locators) in enumerate(entries) for k, c in enumerate(locators) if place_of(c) in walk.places.values()]
    n, k = walk.choice.choice(some)
    identifier, locators = entries[n]
    other = change(locators[k])
    return None if other is None else [*entries[:n], (identifier, [*locators[:k], other, *locators[k + 1:]]), *entries[n + 1:]]


def is_last_in_its_extent(walk):
    """Whether nothing is written behind the chunk that is being copied."""
    part = walk.parts[walk.current]
    later = [*walk.parts[walk.current + 1:], *filter(None, [walk.run_part])]
    return all(other.target[0] != part.target[0] for other in later)


def is_run(walk):
    return walk.parts[walk.current].place in map(place_of, walk.fields["runs"])


def parsed(text):
    """The form, UUID and payload of a frame."""
    sealed = text[:2] == SEALED.magic
    return sealed, text[2:18], text[54:-18] if sealed else text[22:-16]


# Copies

@mistake("a copy is forgotten", "copy")
def _(walk, text):
    return b""


@mistake("a copy is written some bytes too late", "place")
def _(walk, target):
    return target[0], target[1] + walk.choice.choice([1, 2, 7, walk.drive.page])


@mistake("a copy is written some bytes too early", "place")
def _(walk, target):
    count = walk.choice.choice([1, 2, 7])
    return (target[0], target[1] - count) if target[1] >= count else None


@mistake("a copy is cut at its end", "copy")
def _(walk, text):
    return text[:-walk.choice.choice([1, 2, 16, 18])]


@mistake("a copy lacks its first bytes", "copy")
def _(walk, text):
    return text[walk.choice.choice([1, 2, 22]):]


@mistake("a bit changes while it is copied", "copy")
def _(walk, text):
    return flipped(walk, text)


@mistake("another chunk is copied", "source")
def _(walk, place):
    part = walk.parts[walk.current]
    some = [start for start, stop, _, _ in chunks_of(walk.drive, place[0], walk.fields["pointers"][place[0] - 1]) if start != place[1]]
    return (place[0], walk.choice.choice(some)) if some and part.count else None


@mistake("the bytes are taken some bytes off", "source")
def _(walk, place):
    return place[0], place[1] + walk.choice.choice([1, -1, 22]) if place[1] else 1


@mistake("the bytes are taken from another extent", "source")
def _(walk, place):
    return walk.choice.choice([e for e in range(1, walk.drive.extents) if e != place[0]]), place[1]


def reframed(walk, text, form, name=None):
    sealed, old, payload = parsed(text)
    other = {(True, True): sealed_frame, (True, False): frame, (False, True): frame, (False, False): sealed_frame}[sealed, form]
    new = other(name or old, payload)
    at = walk.parts[walk.current].target[1]
    return new if is_last_in_its_extent(walk) and at + len(new) <= walk.drive.size else None


def is_of_shard(walk):
    place = walk.parts[walk.current].place
    return any(place_of(c) == place for _, locators in walk.entries for c in locators)


@mistake("a shard's chunk is framed anew in the other form", "copy")
def _(walk, text):
    return None if not is_of_shard(walk) else reframed(walk, text, False)


@mistake("a run's chunk is framed anew in the other form", "copy")
def _(walk, text):
    return reframed(walk, text, False) if is_run(walk) else None


@mistake("a chunk is framed anew under another UUID", "copy")
def _(walk, text):
    return reframed(walk, text, True, walk.choice.randbytes(16)) if is_of_shard(walk) or is_run(walk) else None


@mistake("only the payload is copied", "copy")
def _(walk, text):
    return parsed(text)[2] or None


@mistake("a copy goes into a wrong extent by a slip", "place")
def _(walk, target):
    return walk.choice.choice([e for e in range(1, walk.drive.extents) if e != target[0]]), target[1]


def next_place(walk, extent, count):
    """Where a copy could go behind what is written to this extent, or None."""
    at = walk.fields["pointers"][extent - 1]
    items = tile(walk.drive.image(), extent, at)
    if at % walk.drive.page and items[-1][0] not in ("chunk", "sealed"):
        at += walk.drive.page - at % walk.drive.page
    return (extent, at) if at + count <= walk.drive.size else None


def without_room(walk):
    roomy = {*walk.rooms, *walk.last_rooms, *walk.listed, *walk.fields["retired"]}
    return [e for e in range(1, walk.drive.extents) if e not in roomy]


@mistake("a copy goes into an extent without room, behind what is written there, and its entry names it", "target")
def _(walk, target):
    count = walk.parts[walk.current].count
    some = [place for e in without_room(walk) if (place := next_place(walk, e, count))]
    return walk.choice.choice(some) if some else None


@mistake("a copy goes into the extent that is reset", "target")
def _(walk, target):
    return next_place(walk, walk.parts[walk.current].place[0], walk.parts[walk.current].count)


@mistake("a copy goes into another extent that is reset with it", "target")
def _(walk, target):
    some = [e for e in walk.chosen if e != walk.parts[walk.current].place[0]]
    return next_place(walk, some[0], walk.parts[walk.current].count) if some else None


@mistake("a copy goes into a retired extent", "target")
def _(walk, target):
    return next_place(walk, walk.choice.choice(walk.fields["retired"]), walk.parts[walk.current].count) if walk.fields["retired"] else None


def in_use(walk, extents):
    chosen = choose(walk.drive.image())
    places = {place_of(c) for _, c, status in named_locators(walk.drive) if status == "sound"}
    return sorted((e, o) for e, o in places if e in extents and o + walk.parts[walk.current].count <= walk.drive.size)


@mistake("a copy goes over a chunk in use", "target")
def _(walk, target):
    some = in_use(walk, {e for e in range(1, walk.drive.extents) if e not in walk.chosen})
    return walk.choice.choice(some) if some else None


@mistake("a copy goes over another copy", "target")
def _(walk, target):
    return walk.parts[walk.current - 1].target if walk.current else None


@mistake("a copy goes to the pointer, not to OFFSET", "target")
def _(walk, target):
    pointer = walk.fields["pointers"][target[0] - 1]
    return (target[0], pointer) if walk.rooms.get(target[0], (pointer,))[0] == target[1] != pointer else None


@mistake("a copy begins some zeros behind OFFSET or behind the last copy", "target")
def _(walk, target):
    gap = walk.choice.choice([1, 5, 20])
    part, at = walk.parts[walk.current], target[1] + gap
    return (target[0], at) if is_last_in_its_extent(walk) and at % walk.drive.page and at + part.count <= walk.drive.size else None


@mistake("a copy begins at a page behind OFFSET", "target")
def _(walk, target):
    at = target[1] + walk.drive.page - target[1] % walk.drive.page
    part = walk.parts[walk.current]
    return (target[0], at) if is_last_in_its_extent(walk) and at + part.count <= walk.drive.size else None


@mistake("a copy goes past the end of its extent", "target")
def _(walk, target):
    part = walk.parts[walk.current]
    return (target[0], walk.drive.size - part.count // 2) if target[0] + 1 < walk.drive.extents else None


@mistake("a copy goes over what is left of a broken shard behind a pointer, in an extent without room", "target", drive="in tail")
def _(walk, target):
    part = walk.parts[walk.current]
    for owner, c, status in named_locators(walk.drive):
        e, o = place_of(c)
        if status == "past_pointer" and e not in walk.chosen and o + part.count <= walk.drive.size:
            if any(line.startswith(f"tail {e} ") and int(line.split()[2]) <= o for line in walk.doubts):
                return e, o
    return None


# Entries

def wrong(change):
    return lambda walk, entries: first_change(walk, entries, lambda c: change(walk, c))


mistake("an entry has a wrong extent", "entries")(
    wrong(lambda walk, c: {**c, "extent": walk.choice.choice([e for e in range(walk.drive.extents + 1) if e != c["extent"]])}))
mistake("an entry has a wrong offset", "entries")(
    wrong(lambda walk, c: {**c, "offset": max(0, c["offset"] + walk.choice.choice([-1, 1, 22, walk.drive.page]))} if c["offset"] else None))
mistake("an entry has a wrong length", "entries")(
    wrong(lambda walk, c: {**c, "length": c["length"] + walk.choice.choice([1, 38])}))
mistake("an entry has a wrong digest", "entries")(
    wrong(lambda walk, c: {**c, "digest": flipped(walk, c["digest"])}))
mistake("an entry has a wrong UUID", "entries")(
    wrong(lambda walk, c: {**c, "uuid": flipped(walk, c["uuid"])}))
mistake("an entry has the old place", "entries")(
    wrong(lambda walk, c: {**c, **dict(zip(("extent", "offset"), next(old for old, new in walk.places.items() if new == place_of(c))))}))


@mistake("an entry has the place of another copy", "entries")
def _(walk, entries):
    return first_change(walk, entries, lambda c: next(({**c, "extent": x, "offset": o} for x, o in walk.places.values()
                                                       if (x, o) != place_of(c)), None))


@mistake("an entry is written under an identifier that no shard has", "entries")
def _(walk, entries):
    return sorted([(walk.choice.randbytes(16), entries[0][1]), *entries[1:]])


@mistake("an entry is written under another shard's identifier", "entries")
def _(walk, entries):
    some = [i for i, all_of in bindings_of(walk.drive).items() if all_of[0] and i not in dict(entries)]
    return sorted([(walk.choice.choice(some), entries[0][1]), *entries[1:]]) if some else None


@mistake("the entries of two shards are exchanged", "entries")
def _(walk, entries):
    if len(entries) < 2 or [c["digest"] for c in entries[0][1]] == [c["digest"] for c in entries[1][1]]:
        return None
    return [(entries[0][0], entries[1][1]), (entries[1][0], entries[0][1]), *entries[2:]]


@mistake("the locators of an entry are in another order", "entries")
def _(walk, entries):
    some = [n for n, (_, cs) in enumerate(entries) if cs[0]["digest"] != cs[-1]["digest"]]
    return [(i, cs[::-1] if n == some[0] else cs) for n, (i, cs) in enumerate(entries)] if some else None


@mistake("an entry is made from an older run", "entries")
def _(walk, entries):
    bindings = bindings_of(walk.drive)
    for n, (i, cs) in enumerate(entries):
        for older in bindings[i][1:]:
            if [c["digest"] for c in older] != [c["digest"] for c in cs]:
                return [*entries[:n], (i, [walk.moved(c) for c in older]), *entries[n + 1:]]
    return None


@mistake("an entry of a shard without a move is added, from an older run", "entries")
def _(walk, entries):
    for i, (newest, *older) in bindings_of(walk.drive).items():
        for other in older:
            if i not in dict(entries) and [c["digest"] for c in other] != [c["digest"] for c in newest]:
                return sorted([*entries, (i, other)])
    return None


@mistake("an entry of a deleted shard is added, from an older run", "entries")
def _(walk, entries):
    for i, (newest, *older) in bindings_of(walk.drive).items():
        if not newest and any(older):
            return sorted([*entries, (i, next(filter(None, older)))])
    return None


@mistake("a shard's entry is forgotten", "entries")
def _(walk, entries):
    at = walk.choice.randrange(len(entries))
    return [*entries[:at], *entries[at + 1:]]


@mistake("a second owner's entry is forgotten", "entries")
def _(walk, entries):
    places = [place_of(c) for _, cs in entries for c in cs]
    some = [n for n, (_, cs) in enumerate(entries) if all(places.count(place_of(c)) > 1 for c in cs if place_of(c) in walk.places.values())]
    return [*entries[:some[0]], *entries[some[0] + 1:]] if some and len(entries) > 1 else None


@mistake("an entry has only the locators that moved", "entries")
def _(walk, entries):
    less = [(i, [c for c in cs if place_of(c) in walk.places.values()]) for i, cs in entries]
    return less if less != entries else None


@mistake("an entry has no locators", "entries")
def _(walk, entries):
    return [(entries[0][0], []), *entries[1:]]


# The run

@mistake("a run has a wrong digest", "run")
def _(walk, payload):
    return payload[:-1] + bytes([payload[-1] ^ 1])


@mistake("the entries of a run don't rise", "entries")
def _(walk, entries):
    return entries[::-1] if len(entries) > 1 else None


@mistake("the run isn't written", "frame of the run")
def _(walk, text):
    return b""


@mistake("the run is written over a copy", "target of the run")
def _(walk, target):
    return walk.parts[0].target


# The superblock

def moved_back(walk, c):
    """The locator with the place that it had before it moved, if it moved."""
    old = next((old for old, new in walk.places.items() if new == place_of(c)), None)
    return {**c, "extent": old[0], "offset": old[1]} if old else c


def field(key, change):
    def make(walk, fields):
        value = change(walk, fields[key])
        return None if value is None or value == fields[key] else {**fields, key: value}
    return make


def pointer(which, change):
    """The pointers with another one for an extent."""
    def make(walk, fields):
        some = [e for e in range(1, walk.drive.extents) if which(walk, e) and e not in fields["retired"]]
        if not some:
            return None
        e = walk.choice.choice(some)
        w = change(walk, fields["pointers"][e - 1], choose(walk.drive.image())["pointers"][e - 1])
        if w is None or not 0 <= w <= walk.drive.size or w == fields["pointers"][e - 1]:
            return None
        return {**fields, "pointers": [w if k == e else v for k, v in enumerate(fields["pointers"], 1)]}
    return make


def is_written(walk, e):
    return e in walk.ends


def is_other(walk, e):
    return e not in walk.ends and e not in walk.chosen


def holds_named(walk, e):
    return is_other(walk, e) and any(c["extent"] == e and status == "sound" for _, c, status in named_locators(walk.drive))


def pointer_mistake(name, which, change):
    mistake(f"the pointer of {name}", "superblock")(pointer(which, change))


pointer_mistake("an extent with copies is as before", is_written, lambda walk, w, old: old)
pointer_mistake("an extent with copies is too small", is_written, lambda walk, w, old: w - walk.choice.choice([1, 17]))
pointer_mistake("an extent with copies is too great", is_written, lambda walk, w, old: w + walk.choice.choice([1, 64, 200]))
pointer_mistake("an extent with named chunks is too small", holds_named,
                lambda walk, w, old: max(0, w - walk.choice.choice([1, 64, 1000])) if w else None)
pointer_mistake("another extent is 0", is_other, lambda walk, w, old: 0)
pointer_mistake("another extent is too great", is_other, lambda walk, w, old: w + walk.choice.choice([1, 64, 200]))
pointer_mistake("the extent to reset is as before", lambda walk, e: e in walk.chosen, lambda walk, w, old: old)
pointer_mistake("the extent to reset is too small, and not 0", lambda walk, e: e in walk.chosen, lambda walk, w, old: old - 1 if old else None)


def superblock_mistake(name, key, change):
    mistake(f"the superblock: {name}", "superblock")(field(key, change))


superblock_mistake("the new run is forgotten", "runs", lambda walk, runs: runs[1:] if walk.entries and runs else None)
superblock_mistake("the new run is put last", "runs", lambda walk, runs: [*runs[1:], runs[0]] if walk.entries and len(runs) > 1 else None)
superblock_mistake("two older runs are exchanged", "runs",
                   lambda walk, runs: [*runs[:-2], runs[-1], runs[-2]] if len(runs) > 1 + bool(walk.entries) else None)
superblock_mistake("an older run is forgotten", "runs", lambda walk, runs: runs[:-1] if len(runs) > bool(walk.entries) else None)
superblock_mistake("a run that moved has its old place", "runs", lambda walk, runs: [moved_back(walk, c) for c in runs])
superblock_mistake("the generation isn't raised", "generation", lambda walk, g: g - 1)
superblock_mistake("the generation is lower", "generation", lambda walk, g: g - 2 if g > 1 else None)
superblock_mistake("the generation is greater by more than 1", "generation", lambda walk, g: g + walk.choice.choice([1, 9, 2 ** 32]))
superblock_mistake("the retired extents are forgotten", "retired", lambda walk, retired: [] if retired else None)
superblock_mistake("one more extent is retired", "retired",
                   lambda walk, retired: sorted({*retired, walk.choice.randrange(1, walk.drive.extents)}))
mistake("the superblock: it has a wrong digest", "record")(flipped)
mistake("the superblock: it has the sizes of another disk", "record")(
    lambda walk, text: record(walk.drive.page, walk.drive.pages + 1, walk.drive.extents, [0] * (walk.drive.extents - 1), [], 99))
mistake("the superblock: it is written over the one that counts", "page")(lambda walk, at: choose(walk.drive.image())["page"] * walk.drive.page)
mistake("the superblock: it doesn't begin at a page", "page")(lambda walk, at: at + 8)
mistake("the superblock: it is written into another extent", "page")(
    lambda walk, at: walk.drive.size * walk.choice.randrange(1, walk.drive.extents) + at)
mistake("the superblock: what is left of an overwritten one isn't zeroed", "zeros")(lambda walk, value: False)
mistake("the superblock: it names no copy, and the extent is reset", "superblock")(
    lambda walk, fields: {**walk.first_fields, "generation": fields["generation"], "pointers": [
        0 if e in walk.chosen else w for e, w in enumerate(walk.first_fields["pointers"], 1)]} if walk.parts else None)
mistake("the superblock: another extent is reset, too", "superblock")(
    field("pointers", lambda walk, pointers: [0 if is_other(walk, e) and e not in walk.fields["retired"] else w
                                              for e, w in enumerate(pointers, 1)]))
mistake("box 7 is misread, and an older run was forgotten", "superblock", without=(7,), begins_again=True)(
    field("runs", lambda walk, runs: runs[:-1] if len(runs) > bool(walk.entries) else None))
mistake("something else is written with the superblock", "after the writes")(
    lambda walk, value: walk.drive.write(walk.choice.randrange(1, walk.drive.extents), walk.choice.randrange(walk.drive.size - 4), b"oops") or ())


# Boxes left out

mistake("the copies are left out, and named", "copies")(lambda walk, parts: [] if parts else None)
mistake("the run is left out", "entries of the run")(lambda walk, entries: [] if entries else None)
