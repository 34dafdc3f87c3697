"""Walks the boxes of docs/RECLAIMING.md on a made-up disk. The code plays the person, who does what each box says with what the commands
print; the node's own tools make the writes (lib/own_tools.py). A mistake may be made on the way, or something may happen to the disk; then
a box should stop the walk. lib/trials.py says what comes of it. Without a mistake act/reclaim walks, too (lib/reclaims.py has its faults).
"""
import random
import re

from lib.disks import frame
from lib.drives import moved, with_copies_in_listed, worn
from lib.node import (Full, Node, acceptable, bindings_of, doubts_in, held, is_held, lines_with, locator_of, named_locators,
                      open_doubts_in, put_record, record_pages, require, run_of, zero_record)
from lib.own_tools import FIELDS, OwnTools, Part
from reference.shardscrub import SEALED, choose, frame_at, records_of, rooms, scrub, sha

# How many of the walks without a mistake are made by act/reclaim.
BY_COMMAND = .5


class Stop(Exception):
    """A box stops the walk: its number, why, and what it says to do: to `begin again`, to `start over`, to `go back` first, to `restore` the
    first image to another drive, or nothing."""

    def __init__(self, box, why, then):
        super().__init__(f"box {box}: {why}")
        self.box, self.why, self.then = box, why, then


class Again(Exception):
    """The node wrote something, or the power failed, and the walk begins anew."""


class Walk(OwnTools):
    """One walk through the boxes. `slip` is where a mistake changes what is done. By the node's log `known` is the generation of the last
    superblock, later that of the last one whose writing has ended; `written_after` says whether something was written after it. `without`
    has the boxes and rules that are left out. `erases` says whether the extents are erased at the end. `begun` is the generation of the last
    superblock whose writing has begun. `still_runs` says whether the node has all in memory, `kept` has the last image of each superblock that a
    walk before has left. `anew` has the shards that the node wrote anew or deleted, `given_up` the crowded extents to reset, and
    `written` the place of the superblock in extent 0, and its bytes."""

    def __init__(self, engine, drive, known, choice, mistake=None, without=(), written_after=False, erases=True, begun=None):
        self.engine, self.drive, self.known, self.choice = engine, drive, known, choice
        self.mistake, self.written_after, self.erases, self.begun = mistake, written_after, erases, begun
        self.without = {*without, *(mistake.without if mistake else ())}
        self.slipped = mistake is not None and mistake.point == "never"
        self.node, self.still_runs, self.kept = None, False, {}
        self.generation, self.written, self.chosen, self.merged = None, None, [], None
        self.parts, self.run_part, self.entries = [], None, []
        self.owed, self.ends, self.places, self.anew, self.given_up = [], {}, {}, set(), set()

    def slip(self, point, value):
        """The value, or what a mistake at this point makes of it."""
        if self.mistake is not None and self.mistake.point == point and (self.mistake.often or not self.slipped):
            other = self.mistake.make(self, value)
            if other is not None:
                self.slipped = True
                return other
        return value

    def check(self, box, condition, why, rule=None, then="go back"):
        """Stops if the condition doesn't hold, unless the box or this rule is left out."""
        if not condition and box not in self.without and rule not in self.without:
            raise Stop(box, why, then)

    def go(self):
        """Resets some extents. Returns whether there was anything to do."""
        self.running = Node(self.drive, self.choice)
        if choose(self.drive.image())["page"] is not None:
            self.running.resume()
        self.first_shards = dict(self.running.shards)
        self.slip("before box 1", ())
        if self.slip("merge", False):
            self.let_node_merge()
        self.first = self.slip("first image", self.drive).copy()
        self.box_1()
        self.fields = self.first_fields = {key: choose(self.first.image())[key] for key in FIELDS}
        self.read_listing()
        if not self.choose_by_tools():
            return False
        self.slip("after box 1", ())
        self.ask_compare(4, self.first, (), self.generation, self.generation)
        self.kept[superblock_of(self.first)] = self.first
        self.slip("after box 4", ())
        self.write_by_tools()
        self.slip("after the writes", ())
        self.seventh = self.ask_compare(7, self.first, self.chosen, self.generation, self.generation + 1)
        self.kept[superblock_of(self.seventh)] = self.seventh
        self.slip("after box 7", ())
        self.box_8()
        self.slip("after box 8", ())
        if self.erases:
            self.box_9()
        self.slip("given back", ())
        return True

    def new_image(self, box):
        """An image of the disk. It has to be whole but for what the first one lacks. By the rule of before, the walk begins again with what
        can be read."""
        if self.drive.unreadable - self.first.unreadable:
            raise Stop(box, "a page can't be read any more", "begin again" if "restore" in self.without else "restore")
        return self.drive.copy()

    # The listing

    def listed_with(self, accepted):
        """What `reclaimable --last` prints of the first image with these lines accepted, and whether its status is 0."""
        return self.engine.ask(self.slip("image of box 1", self.first), "reclaimable", accepted, last=self.generation)

    def box_1(self):
        self.generation = self.slip("last generation", self.known)
        self.check(1, not self.slip("written after", self.written_after), "something was written after the last superblock", then=None)
        self.look_back()
        text, _ = self.listed_with(())
        self.settle_last(text)
        left = self.accepted = acceptable(open_doubts_in(text))
        self.listing, clear = self.listed_with(left)
        self.check(1, clear, "; ".join(open_doubts_in(self.listing)), then=None)
        self.doubts = doubts_in(self.listing)
        for words in [line.split() for line in left]:
            if words[0] == "spare":
                self.settle_copy(words, self.choice.choice(["name", "copy", "copy", "delete"]))
            if words[0] == "loose" and "loose copies" not in self.without:
                self.settle_copy(words, self.choice.choice(["write", "copy", "copy", "copy", "delete"]))
        if any(line.startswith("crowded ") for line in left):
            self.settle_crowded(self.choice.choice(["give up", "give up", "give up", "write", "delete"]))

    def look_back(self):
        """What a walk before left by this superblock has to be there still. Else that goes to another drive."""
        old = self.kept.get(superblock_of(self.first))
        if old and "images of before" not in self.without and re.search("^(lost|spare|loose) ", self.compare(old, self.first), re.M):
            self.first = old
            raise Stop(1, "the disk has lost something since the walk before", "restore")

    def let_node_merge(self):
        """The node merges its index runs, but those that its scan steps over."""
        runs = self.engine.manifest(self.drive)[0].splitlines()[0]
        self.check(1, runs == "runs lost 0 hidden 0", runs, "hidden runs", None)
        node, seen = Node(self.drive, self.choice), scrub(self.drive.image())
        node.resume()
        read = [dict(run.entries) for run, c in zip(seen.runs, seen.checked) if c.status == "sound" and run.entries]
        node.shards = {i: locators for entries in read[::-1] for i, locators in entries.items() if locators}
        node.runs, node.changed = [], dict(node.shards)
        self.write_by_node(node)
        raise Again

    def write_by_node(self, node):
        """The node writes what it has in memory, and a superblock."""
        node.flush()
        if not node.superblock():
            raise Full
        self.known = node.generation

    def settle_newer(self):
        """The newest superblock has gone. A node that still runs writes another one. By the rule of before, it is started again."""
        if "in memory" in self.without:
            if choose(self.drive.image())["page"] is None:
                raise Full
            self.running.resume()
        self.write_by_node(self.running)
        raise Again

    def settle_last(self, text):
        """If the superblock that counts has a greater generation than the log, its writing has ended unseen; or it may be left from an older
        format: the walk begins anew without it, if the manifest is then what the node knows. By the rule of before, the node writes a
        superblock."""
        counts = [words[2] for words in lines_with(text, "doubt") if words[1] == "last"]
        if not counts or counts[0] == "none" or int(counts[0]) < self.generation:
            return self.settle_newer() if counts and self.still_runs else None
        if int(counts[0]) == self.begun:
            self.known = self.begun
            raise Again
        if "older format" in self.without:
            self.write_entries({})
            raise Again
        trial = self.drive.copy()
        zero_record(trial, choose(trial.image())["page"])
        doubts = open_doubts_in(self.engine.ask(trial, "reclaimable", last=self.generation)[0])
        known = self.drive.known or self.engine.manifest(self.first)[0]
        self.check(1, not any(line.startswith("last ") for line in doubts), text, then=None)
        self.check(1, self.engine.manifest(trial)[0] == known, "the node knows something else", then=None)
        self.drive.raw[:], self.drive.left = trial.raw, None
        raise Again

    def settle_copy(self, words, way):
        """A spare or a loose copy is copied, or an entry names the spare; or the node writes the shard anew or deletes it."""
        word, extent, offset, length, uuid, _, identifier, count = words
        identifier, place = bytes.fromhex(identifier), (int(extent), int(offset))
        if way == "name":
            self.name_spare(identifier, place, bytes.fromhex(uuid.replace("-", "")), int(length))
            raise Again
        if way in ("write", "delete"):
            kept = self.kept_for_node() | ({identifier: b""} if way == "delete" else {})
            if None not in kept.values():
                self.write_entries(kept | ({identifier: None} if way == "delete" else {}))
                raise Again
        if place not in [part.place for part in self.owed]:
            self.owed.append(Part(place, int(count), word))

    def settle_crowded(self, way):
        """The node writes each shard anew that has lost a payload, or deletes it. Or what a crowded extent has is given up."""
        if way == "give up":
            return
        gone = {one: self.choice.randbytes(30) for one in self.with_last_word("none")}
        kept = {one: text for one, text in self.kept_for_node().items() if one not in gone}
        self.write_entries(gone | kept if way == "write" else dict.fromkeys(gone | kept))
        raise Again

    def with_last_word(self, word):
        """The shards with this last word in the manifest, at a payload that has bytes."""
        lines = [line.split() for line in self.engine.manifest(self.first)[0].splitlines()]
        return {bytes.fromhex(words[1]) for words in lines if words[0] == "shard" and words[-1] == word and words[3] != "0"}

    def bytes_of(self, identifier):
        """What `shard` writes of this shard: each payload that a locator asks for. None if one is lost."""
        text, said = self.engine.shard(self.first, identifier)
        if "".join(said).startswith("payload lost: "):
            return None
        at = 0
        for c in bindings_of(self.first)[identifier][0]:
            require(sha(text[at:at + c["length"]]) == c["digest"], "other bytes of shard", identifier.hex())
            at += c["length"]
        require(at == len(text), "more bytes of shard", identifier.hex())
        return text

    def kept_for_node(self):
        """The bytes of the shards that have loose copies, kept before the node writes, as it may write over these. None for those of which
        another payload is lost."""
        return {identifier: self.bytes_of(identifier) for identifier in self.with_last_word("loose")}

    def write_entries(self, entries):
        """The node writes these shards anew, or deletes those without bytes, and writes a superblock."""
        self.anew |= set(entries)
        node = Node(self.drive, self.choice)
        node.resume()
        for identifier, text in sorted(entries.items()):
            node.bind(identifier, [] if text is None else [node.append(text)])
        self.write_by_node(node)

    def name_spare(self, identifier, place, uuid, length):
        """Writes an entry in which the shard's dangling locators of this payload name the spare."""
        chosen = choose(self.first.image())
        payload = frame_at(self.first.image(), place[0], chosen["pointers"][place[0] - 1], place[1])[3]
        named = [(owner, c, status) for owner, c, status in named_locators(self.first) if owner == identifier]
        entry = [{**c, "extent": place[0], "offset": place[1], "uuid": uuid}
                 if status not in ("sound", "hidden") and (c["length"], c["digest"]) == (length, sha(payload)) else c
                 for _, c, status in named]
        payload = run_of([(identifier, entry)])
        rooms = [words[1:3] for word in ("room", "last-room") for words in lines_with(self.listing, word) if int(words[3]) >= len(payload) + 38]
        pages = record_pages(self.drive, len(self.drive.record(0, chosen["pointers"], chosen["retired"], [*chosen["runs"], entry[0]])))
        if not rooms or not pages:
            raise Full
        x, at = map(int, self.choice.choice(rooms))
        name = self.choice.randbytes(16)
        self.drive.write(x, at, frame(name, payload))
        pointers = list(chosen["pointers"])
        pointers[x - 1] = at + len(payload) + 38
        runs = [locator_of(x, at, name, payload), *chosen["runs"]]
        text = self.drive.record(self.generation + 1, pointers, chosen["retired"], runs)
        put_record(self.drive, text, self.choice.choice(pages) * self.drive.page)
        self.known = self.generation + 1

    # Which extents

    def read_listing(self):
        self.listed = {int(words[1]): [] for words in lines_with(self.listing, "reclaim")}
        for words in lines_with(self.listing, "move"):
            self.listed[int(words[1])].append(words)
        self.rooms, self.last_rooms = ({int(e): (int(at), int(at) + int(left)) for _, e, at, left in lines_with(self.listing, word)}
                                       for word in ("room", "last-room"))
        if "loose copies" in self.without and self.listed:
            for e, at in rooms(scrub(self.first.image())).items():
                (self.last_rooms if e in self.listed else self.rooms)[e] = (at, self.drive.size)

    def tries(self):
        """The extents that are tried, several at once or each alone, in any order."""
        extents = list(self.listed)
        self.choice.shuffle(extents)
        tries = [[e] for e in extents]
        if len(extents) > 1:
            tries.insert(0, extents[:self.choice.choice([1, 2, len(extents)])])
        return tries

    def set_chosen(self, some):
        self.chosen = some
        self.given_up |= {e for e in some if f"crowded {e}" in self.doubts}

    # The writes

    def ask_compare(self, box, before, resets, *generations):
        """Stops unless `compare` ends with these generations, on a new image."""
        now = self.new_image(box)
        first, second = self.slip(f"images of box {box}", [before, now])
        text = self.compare(first, second, self.slip(f"resets of box {box}", resets))
        self.check(box, text == "safe {} {}\n".format(*generations), text.replace("\n", "; "), f"compare of box {box}",
                   way_out(text, "start over") if box == 4 else "go back")
        return now

    def compare(self, before, after, resets=()):
        """What `compare` prints. By the rule of before, it doesn't know of loose copies."""
        text, _ = self.engine.compare(before, after, resets)
        if "loose copies" in self.without:
            lines = [line for line in text.splitlines() if not line.startswith("loose ")]
            if lines == ["unsafe"]:
                lines = ["safe {} {}".format(*(choose(drive.image())["generation"] for drive in (before, after)))]
            text = "".join(line + "\n" for line in lines)
        return text

    # The answers after the reset

    def box_8(self):
        wanted = [f"pointer {e} {self.first_fields['pointers'][e - 1]} 0" for e in sorted(self.chosen)]
        text = self.compare(*self.slip("images of box 8", [self.first, self.seventh]))
        *lines, _ = text.splitlines()
        self.check(8, lines == wanted, text.replace("\n", "; "))

    def box_9(self):
        """Erases the extents, if nothing was written since the reset."""
        extents = self.slip("extents to erase", self.chosen)
        now, counts = self.new_image(9), choose(self.seventh.image())["generation"]
        text = self.compare(*self.slip("images of box 9", [self.seventh, now]), extents)
        self.check(9, text == f"safe {counts} {counts}\n", text.replace("\n", "; "), then=way_out(text, "begin again"))
        self.slip("after box 9", ())
        self.drive.raw[:] = erased(self.drive, self.slip("erase", extents), self.choice).raw

    # What a box says to do

    def leave(self, stop):
        """Does what the box says that stopped the walk, before it begins again."""
        if stop.then == "restore":
            self.restore()
        if stop.then == "go back" and self.node is None and "way back" not in self.without:
            self.go_back()

    def restore(self):
        """The first image goes to another drive."""
        self.drive.raw[:], self.drive.unreadable, self.known = self.first.raw, self.first.unreadable, self.generation

    def go_back(self):
        """The superblock that was written becomes zeros, on a copy of the disk first: that of before has to count then, with the manifest of
        the first image. Else the first image goes to another drive, unless the walk ends here: then what its disk has lost is looked at."""
        trial = self.drive.copy()
        if self.written:
            at, count = self.written
            trial.write(0, at, bytes(count))
        doubts = open_doubts_in(self.engine.ask(trial, "reclaimable", last=self.generation)[0])
        counts = not any(line.startswith(("last ", "no-superblock")) for line in doubts)
        if counts and self.engine.manifest(trial)[0] == self.engine.manifest(self.first)[0]:
            self.drive.raw[:], self.known = trial.raw, self.generation
        elif self.mistake is None or self.mistake.begins_again:
            self.restore()


def superblock_of(drive):
    """The bytes of the superblock that counts."""
    page = choose(drive.image())["page"]
    return drive.read(0, page * drive.page, records_of(drive.image())[page].length) if page is not None else b""


def way_out(text, then):
    """What to do after this answer of `compare`: to go back if something was lost, or an older superblock counts now, or none."""
    return "go back" if any(line.startswith(("lost ", "generation ", "doubt after no-superblock")) for line in text.splitlines()) else then


def erased(drive, extents, choice):
    """The disk after the node has used the reset extents again."""
    after = drive.copy()
    for e in extents:
        after.write(e, 0, choice.choice([bytes(drive.size), choice.randbytes(drive.size)]))
    return after


# Without a mistake

def count_seen(walk, drive, seen):
    """Counts what came up on a walk that ended."""
    moves = [words for e in walk.chosen for words in walk.listed[e]]
    seen["walk by own tools: ended"] += 1
    seen["walk: extents reset"] += len(walk.chosen)
    seen["walk: several at once"] += len(walk.chosen) > 1
    seen["walk: erased"] += walk.erases
    seen["walk: copies"] += len(walk.parts)
    seen["walk: runs written"] += walk.run_part is not None
    seen["walk: runs merged"] += walk.merged is not None
    seen["walk: chunks shared"] += len(moves) - len({tuple(words[1:3]) for words in moves})
    seen["walk: sealed chunks copied"] += sum(drive.read(*part.place, 2) == SEALED.magic for part in walk.parts)
    seen["walk: runs moved"] += sum(words[5] == "run" for words in moves)
    seen["walk: copies into last rooms"] += sum(part.target[0] in walk.last_rooms for part in walk.parts)
    seen["walk: spares and loose copies copied"] += sum(part.place in [other.place for other in walk.owed] for part in walk.parts)
    seen["walk: crowded extents given up"] += len(walk.given_up)
    seen["walk: tails that --last accepts"] += any(line.startswith("tail ") for line in walk.doubts)


def walk_honestly(engine, seed, seen, command):
    """Resets what can be reset on one disk, by act/reclaim or by own tools, and lets the node go on between the resets. `command` resets some
    extents by act/reclaim, and returns these and those that are given up, or None if it can't."""
    choice = random.Random(f"honest {seed}")
    drive, known = choice.choice([worn, moved, with_copies_in_listed, with_copies_in_listed])(choice)
    for _ in range(12):
        before = drive.copy()
        reset = command(drive, known, choice) if choice.random() < BY_COMMAND else None
        if reset:
            seen["walk by act/reclaim: ended"] += 1
            known = judge_reset(before, drive, *reset, known + 1, choice)
            continue
        walk = Walk(engine, drive, known, choice, erases=choice.random() < .5)
        try:
            if not walk.go():
                seen["walk: nothing can be reset"] += 1
                break
        except Stop as stop:
            require(stop.box == 1, f"disk {seed}: an honest walk stops: {stop}")
            seen[f"walk: box 1: doubt {stop.why.split()[0]}"] += 1
            break
        except Full:
            seen["walk: no place for a run or a superblock"] += 1
            break
        except Again:
            seen["walk: a shard written anew or deleted" if walk.anew else "walk: a spare named by an entry"] += 1
            crowded = scrub(before.image()).crowded
            require(is_held(*({i: parts for i, parts in held(one, crowded).items() if i not in walk.anew} for one in (before, drive))),
                    f"disk {seed}: entries of the node")
            known = walk.known
            continue
        count_seen(walk, drive, seen)
        known = judge_reset(before, drive, walk.chosen, walk.given_up, walk.known, choice)


def judge_reset(before, drive, chosen, given_up, known, choice):
    """Nothing is lost, also once the extents are used again. The node may go on. Returns its last generation."""
    for after in drive, erased(drive, chosen, choice):
        require(is_held(held(before, given_up), held(after, given_up)), "after the reset of", chosen, "something is lost")
    if choice.random() < .5:
        return known
    node = Node(drive, choice)
    node.resume()
    node.live_on(1)
    return node.generation
