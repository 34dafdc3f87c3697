"""The writes of a reset by a node's own tools, in place of act/reclaim: each copy in any room that has space, runs and copies of
either form, runs merged two by two, the superblock on any page. Boxes 7 to 9 of the checklist look at what is on the disk, whatever wrote
it. A part of a walk; see lib/walk.py."""
from lib.disks import frame, sealed_frame
from lib.node import Full, bindings_of, locator_of, place_of, put_record, record_pages, run_of
from reference.shardscrub import choose, scrub

FIELDS = ("generation", "pointers", "retired", "runs")
GREATEST = 2 ** 64 - 1

class Part:
    """A chunk to copy: the place that a listing gives, its bytes, and the place of the copy. A run has no place before. `word` is the kind of
    the doubt that was accepted, if one was."""

    def __init__(self, place, count, word=None, target=None):
        self.place, self.count, self.word, self.target = place, count, word, target


class OwnTools:
    """What a walk does by these tools."""

    def choose_by_tools(self):
        """Chooses the extents to reset, and the places of the copies. False if nothing can be reset."""
        tries, free = self.tries(), [[e] for e in self.listed if not self.listed[e]]
        for some in tries:
            if self.find_places(some, self.rooms):
                return True
        for some in free:
            if self.find_places(some, {}):
                return True
        for some in [] if free else tries:
            if self.find_places(some, {x: room for x, room in self.last_rooms.items() if x not in some}):
                return True
        return False

    def find_places(self, some, rooms):
        """Whether the chunks of these extents and the runs fit into these rooms. If so, they are chosen."""
        moves = [words for e in some for words in self.listed[e]]
        places = {(int(w[1]), int(w[2])): int(w[7]) for w in moves}
        self.parts = [Part(place, count) for place, count in places.items()]
        self.parts += [Part(part.place, part.count, part.word) for part in self.owed
                       if part.place[0] in some and part.place not in places]
        shards = sorted({bytes.fromhex(w[6]) for w in moves if w[5] == "shard"})
        bindings = bindings_of(self.first)
        self.entries = [(i, bindings[i][0]) for i in shards if i in bindings]
        self.form = self.choice.choice([frame, sealed_frame])
        self.run_part = Part(None, len(self.form(bytes(16), run_of(self.entries)))) if self.entries else None
        self.merged = self.merge(bool(self.entries)) if self.parts else None
        self.merged_part = Part(None, len(self.form(bytes(16), run_of(self.merged[1])))) if self.merged else None
        left = {x: list(room) for x, room in rooms.items()}
        for part in filter(None, [*self.parts, self.run_part, self.merged_part]):
            here = [x for x, (at, end) in left.items() if at + part.count <= end]
            if not here:
                return False
            x = self.choice.choice(here)
            part.target = (x, left[x][0])
            left[x][0] += part.count
        runs = len(self.fields["runs"]) + bool(self.entries) - bool(self.merged)
        size = len(self.drive.record(0, self.fields["pointers"], self.fields["retired"], [locator_of(0, 0, bytes(16), b"")] * runs))
        if runs > 32 or not record_pages(self.drive, size):
            return False
        self.set_chosen(some)
        return True

    def merge(self, more):
        """If there are too many runs for a superblock, or by chance: two neighbours in its list as one run. The place of the newer one, and
        the entries of both."""
        runs = scrub(self.first.image()).runs
        some = [k for k in range(len(runs) - 1) if runs[k].entries and runs[k + 1].entries]
        if not some or len(runs) + more <= 32 and (self.mistake is not None or self.choice.random() < .8):
            return None
        k = self.choice.choice(some)
        return k, sorted({**dict(runs[k + 1].entries), **dict(runs[k].entries)}.items())

    def write_by_tools(self):
        """Writes all."""
        if self.generation == GREATEST:
            raise Full
        states = [bytes(self.drive.raw)]
        if self.parts:
            self.copy_by_tools()
            self.write_runs()
        self.slip("after the copies", ())
        states.append(bytes(self.drive.raw))
        self.write_superblock()
        self.slip("power", [*states, bytes(self.drive.raw)])

    def write_piece(self, target, text):
        self.drive.write(*self.slip("place", target), text)
        self.ends[target[0]] = max(self.ends.get(target[0], 0), target[1] + len(text))

    def copy_by_tools(self):
        self.places = {part.place: part.target for part in self.parts}
        for self.current, part in enumerate(self.slip("copies", self.parts)):
            source = self.slip("source", part.place)
            part.target = self.places[part.place] = self.slip("target", part.target)
            self.write_piece(part.target, self.slip("copy", self.drive.read(*source, part.count)))

    def moved(self, c):
        """The locator with the place of the copy."""
        extent, offset = self.places.get(place_of(c), place_of(c))
        return {**c, "extent": extent, "offset": offset}

    def write_runs(self):
        self.runs = [self.moved(c) for c in self.fields["runs"]]
        if self.merged:
            (k, entries), name = self.merged, self.choice.randbytes(16)
            self.write_piece(self.merged_part.target, self.form(name, run_of(entries)))
            self.runs[k:k + 2] = [locator_of(*self.merged_part.target, name, run_of(entries))]
        if self.slip("entries of the run", self.entries):
            entries = self.slip("entries", [(i, [self.moved(c) for c in locators]) for i, locators in self.entries])
            payload, name = self.slip("run", run_of(entries)), self.choice.randbytes(16)
            target = self.slip("target of the run", self.run_part.target)
            self.write_piece(target, self.slip("frame of the run", self.form(name, payload)))
            self.runs.insert(0, locator_of(*target, name, payload))

    def write_superblock(self):
        """Writes the superblock of the copies and the reset, as a mistake may change it."""
        pointers = [0 if e in self.chosen else self.ends.get(e, w) for e, w in enumerate(self.fields["pointers"], 1)]
        runs = self.runs if self.parts else self.fields["runs"]
        self.fields = self.slip("superblock", {**self.fields, "generation": self.generation + 1, "pointers": pointers, "runs": runs})
        text = self.slip("record", self.drive.record(*(self.fields[key] for key in FIELDS)))
        pages = record_pages(self.drive, len(text))
        if "beside the one that counts" in self.without:
            pages = [choose(self.drive.image())["page"]]
        at = self.slip("page", self.choice.choice(pages) * self.drive.page if pages else None)
        if at is None:
            raise Full
        before = choose(self.drive.image())
        put_record(self.drive, text, at, self.slip("zeros", True))
        self.begun = self.known = self.fields["generation"]
        self.written = (at, len(text) + -len(text) % self.drive.page)
        self.fields_before = before
