"""Makes up disks, arbitrary ones, those of a node that mostly works, and those of a node that moved chunks, reset extents and saw chunks
rot; and maps of GNU ddrescue. Some have copies of lost payloads at any byte, or frames over frames. It also makes up pairs of images for
`compare`: a disk, and the same disk after something was written to it: copies and their superblock as they should be or with a mistake,
resets, slips, chunks, runs and superblocks of a node, torn superblocks, rot. Some files are cut."""
from hashlib import sha256
from typing import NamedTuple

from lib.anywhere import crowd, loosen, overlapping
from lib.disks import DIGEST, LOCATOR, MAGIC, fields, frame, locator, record, record_head, run, sealed_frame, with_digest
from lib.drives import moved_and_rotted, worn
from lib.node import Drive, Full, Node, bindings_of, locator_of, named_locators, place_of, put_record, record_pages, run_of
from reference.shardscrub import PLAIN, choose, firm_doubts, frame_at, rooms, scrub, sha


# The parts of a locator.
PARTS = ("extent", "offset", "length", "uuid", "digest")


class Made:
    """An arbitrary disk. `c` makes all choices; `p`, `n` and `e` are the bytes per page, pages per extent and extents; `w` has how far
    each extent is written; `known` has the locators that may be named, and `identifiers` those of the shards that may name them."""

    def __init__(self, c):
        self.c = c
        self.p = c.choice([64, 64, 64, 128, 256])
        self.n = c.choice([1, 2, 4, 8, 8, 16, 16, 16])
        self.e = c.choice([2, 3, 4, 5, 6])
        self.size = self.p * self.n
        self.raw = bytearray(self.size * self.e)
        self.w = [0] * (self.e - 1)
        self.known = []
        self.records = []
        self.uuids = [c.randbytes(16) for _ in range(6)]

    def put(self, e, o, t):
        self.raw[e * self.size + o:e * self.size + o + len(t)] = t

    def uuid(self):
        c = self.c
        u = c.choice(self.uuids) if c.random() < .15 else c.randbytes(16)
        return u[:14] + MAGIC if c.random() < .1 else u

    def chunk(self, e, b, u=None):
        """Appends a chunk if it fits; sometimes at a page boundary. Sometimes a chunk ends two bytes past a boundary, and a new
        one begins at the boundary."""
        c, w = self.c, self.w[e - 1]
        u = u or self.uuid()
        if c.random() < .1:
            w = min(self.size, -(-w // self.p) * self.p)
        if c.random() < .15:
            bound = -(-(w + 39) // self.p) * self.p
            over = b"x" * (bound + 2 - 38 - w)
            if bound + 2 + len(b) + 38 <= self.size and len(over) < 400:
                v = c.randbytes(14) + MAGIC
                self.put(e, w, frame(v, over))
                if c.random() < .5:
                    self.known.append(locator(e, w, v, over))
                w = bound
        t = c.choice([frame, frame, sealed_frame])(u, b)
        if w + len(t) > self.size:
            return None
        self.put(e, w, t)
        self.w[e - 1] = max(self.w[e - 1], w + len(t))
        return locator(e, w, u, b)

    def spoilt(self, l):
        """The locator with a wrong part."""
        c, l = self.c, dict(zip(PARTS, LOCATOR.unpack(l)))
        key = c.choice([*PARTS, "offset", "length"])
        if key in ("uuid", "digest"):
            l[key] = c.randbytes(len(l[key]))
        else:
            l[key] = c.choice([0, 1, l[key] + 1, max(0, l[key] - 1), self.e, self.size, 2 ** 32 - 1, c.randrange(self.size)])
        return LOCATOR.pack(*l.values())

    def named(self):
        l = self.c.choice(self.known)
        return self.spoilt(l) if self.c.random() < .08 else l

    def make(self):
        """Makes the disk, and returns its unreadable pages."""
        self.fill()
        self.put_records(self.bind())
        self.harm_records()
        self.hide_copies(.25)
        return self.damage()

    def hide_copies(self, chance):
        """On some disks payloads are lost, and have copies at any byte. On some of these frames are over each other."""
        c, named = self.c, [LOCATOR.unpack(l) for l in self.known]
        if named and c.random() < chance:
            drive = Drive(self.p, self.n, self.e, self.raw)
            loosen(c, drive, named, self.w)
            for _ in range(c.choice([0, 0, 1, 1, 2])):
                crowd(c, drive)
            self.raw[self.size:] = drive.raw[self.size:]

    def fill(self):
        """Writes chunks. Some are in no list to be named."""
        c = self.c
        for _ in range(c.randrange(1, 14)):
            payload = c.randbytes(c.choice([0, 1, 3, 12, 28, c.randrange(200)]))
            found = self.chunk(c.randrange(1, self.e), payload)
            if found:
                self.known.append(found)
        if c.random() < .2:
            for one in c.sample(self.known, len(self.known) // 3):
                self.known.remove(one)

    def bind(self):
        """Writes runs, some of them damaged. Returns their locators."""
        c = self.c
        runs = []
        ids = self.identifiers = [c.choice([bytes(15) + bytes([i]), c.randbytes(16)]) for i in range(1, 7)]
        for _ in range(c.choice([0, 1, 1, 2, 3, 4])):
            some = sorted(set(c.sample(ids, c.randrange(0, 5))))
            entries = [(i, [self.named() for _ in range(c.choice([0, 1, 1, 1, 2, 3]))] if self.known else []) for i in some]
            payload = run(*entries)
            if c.random() < .1:
                at = c.randrange(len(payload))
                payload = payload[:at] + bytes([payload[at] ^ 1 << c.randrange(8)]) + payload[at + 1:]
                if c.random() < .5:
                    payload = with_digest(payload[:-DIGEST])
            found = self.chunk(c.randrange(1, self.e), payload)
            if found:
                runs.insert(c.choice([0, 0, len(runs)]), self.spoilt(found) if c.random() < .05 else found)
                if c.random() < .05:
                    runs.append(found)
        return runs

    def near(self, w):
        """A write pointer for an extent that is written up to this byte: mostly that one."""
        c = self.c
        more, less = min(self.size, w + c.randrange(40)), max(0, w - c.randrange(40))
        return c.choice([w, w, w, w, w, w, more, less, self.size + 1 if c.random() < .1 else w])

    def put_records(self, runs):
        """Writes superblocks. Some extents are retired, and some records are there twice."""
        c = self.c
        for _ in range(c.choice([0, 1, 1, 1, 1, 2, 2, 3])):
            pointers = [self.near(w) for w in self.w]
            if c.random() < .15:
                pointers = self.w
            retired = None
            if c.random() < .4:
                retired = sorted(c.sample(range(1, self.e), c.choice([0, 0, 1, 1, c.randrange(self.e)])))
                if c.random() < .05:
                    retired.append(c.choice([0, 1, self.e]))
            text = self.record(pointers, retired, runs)
            first = c.randrange(self.n)
            for page in [first] + ([c.randrange(self.n)] if c.random() < .1 else []):
                if page * self.p + len(text) <= self.size:
                    listed = c.choices(runs, k=c.randrange(5)) if runs else []
                    self.put_record(page * self.p, text, record(self.p, self.n, self.e, pointers, listed, c.choice([1, 2, 3])))
                    self.records.append((page * self.p, len(text)))

    def put_record(self, at, text, other):
        """Writes a record. Sometimes the other record was there before, or some of its sectors were written over this one, or other
        bytes are behind this one. So a byte that no valid record holds may be on a page on which one begins or ends."""
        c, way, end, other = self.c, self.c.random(), at + len(text), other[:self.size - at]
        if way < .1:
            self.put(0, at, other)
        self.put(0, at, text)
        if .1 <= way < .25:
            sector = c.choice([16, 32, 64, self.p])
            for begin in range(0, len(other), sector):
                if c.random() < .6:
                    self.put(0, at + begin, other[begin:begin + sector])
        elif .25 <= way < .3 and end % self.p:
            page_end = -(-end // self.p) * self.p
            self.put(0, c.choice([end, c.randrange(end, page_end), page_end - 1]), b"x")

    def damage(self):
        """Flips bits, erases a page, writes a magic, cuts the image. Returns the unreadable pages."""
        c = self.c
        for _ in range(c.choice([0, 0, 0, 0, 1, 2, 5])):
            self.raw[c.randrange(len(self.raw))] ^= 1 << c.randrange(8)
        if c.random() < .1:
            page = c.randrange(self.n * self.e)
            self.raw[page * self.p:(page + 1) * self.p] = bytes(self.p)
        if c.random() < .1:
            at = c.randrange(len(self.raw) - 3)
            self.raw[at:at + 2] = MAGIC
        unreadable = [(c.randrange(self.e), c.randrange(self.n)) for _ in range(c.choice([0, 0, 0, 0, 0, 1, 1, 2, 4]))]
        if c.random() < .1:
            unreadable.append((0, c.randrange(self.n)))
        if c.random() < .05:
            del self.raw[c.randrange(len(self.raw)):]
        return unreadable

    def record(self, ws, retired, runs):
        """A record. Sometimes it gives a wrong number of extents or of retired extents."""
        c = self.c
        generation, e = c.choice([1, 2, 2, 2 ** 64 - 1]), self.e if c.random() < .97 else self.e + 1
        count = None
        if retired is not None:
            count = len(retired) if c.random() < .97 else c.randrange(2 ** 16)
        listed = fields(ws) + fields(retired or []) + b"".join(runs)
        return with_digest(record_head(self.p, self.n, e, len(runs), generation, count) + listed)

    def harm_records(self):
        """Sometimes flips a bit of a record, writes a kind's letters or stray bytes on a page of extent 0, or adds a record of
        other sizes."""
        c = self.c
        if self.records and c.random() < .3:
            begin, size = c.choice(self.records)
            self.raw[begin + c.randrange(size)] ^= 1 << c.randrange(8)
        if c.random() < .1:
            self.put(0, c.randrange(self.n) * self.p, c.choice([b"SSB1", b"SSB2", b"SSB3", b"x"]))
        if c.random() < .15:
            p, n, e = c.choice([64, 64, 64, 128, 60, 512]), c.choice([0, 4, 4, 16, 16]), c.choice([1, 2, 3, 3, 9])
            generation, w = int.from_bytes(c.randbytes(8), "big"), c.choice([0, 0, 0, p * n, p * n + 1])
            t = record(p, n, e, [w] * (e - 1), [], generation)
            at = 64 * c.randrange(min(len(self.raw) // 64, c.choice([4, 2 ** 20])))
            if at + len(t) <= len(self.raw):
                self.raw[at:at + len(t)] = t

    def map(self):
        """The bytes of a map. Most of its blocks are readable."""
        c, end = self.c, len(self.raw)
        harm = c.choice([0, 0, .02, .1])
        lines, place = ["# Mapfile. Created by GNU ddrescue version 1.27"] * c.choice([0, 1, 3]), 0
        lines.append(c.choice(["0x00000000     ?               1", "0x1F +", "0 F 01", "  017 /\t2 "]))
        while place < end and c.random() < 1 - harm / 10:
            size = c.choice([0, 1, self.p // 2, self.p, self.p, 2 * self.p, 512, 512, 1024, end, end, end + 512])
            status = c.choice("-*/?") if c.random() < harm else "+"
            numbers = [c.choice(["0x%08X", "0X%x", "%d", "0%o"]) % x for x in (place, size)]
            lines.append(c.choice(["  ", " \t", " "]).join([*numbers, status]))
            place += size + (c.choice([1, self.p]) if c.random() < harm / 2 else 0)
            if c.random() < .1:
                lines.append(c.choice(["", " \t", "#", "\t# 0 1 +"]))
        text = c.choice(["\n", "\n", "\r\n"]).join(lines) + c.choice(["\n", "\n", ""])
        text = bytearray(text.encode())
        if c.random() < .15:
            text[c.randrange(len(text))] = c.choice(b"08xX+-?# \n\r\tz")
        return bytes(text)


class Tended(Made):
    """A disk that mostly has a superblock that counts, and runs that are read, so that something may be reclaimed. Chunks were
    rewritten and copied, shards deleted, extents retired and reset, and some bytes are damaged."""

    def __init__(self, c):
        super().__init__(c)
        self.p = c.choice([64, 64, 64, 128, 256, 512])
        self.n = c.choice([8, 8, 12, 16, 24])
        self.e = c.choice([3, 4, 5, 6, 8])
        self.size = self.p * self.n
        self.raw = bytearray(self.size * self.e)
        self.w = [0] * (self.e - 1)
        self.payloads = {}

    def put(self, e, o, t):
        """Writes into this extent alone."""
        super().put(e, o, t[:max(0, self.size - o)])

    def append(self, e, b, u=None):
        """The locator of a chunk behind what is written to the extent, or None if it doesn't fit."""
        c, w = self.c, self.w[e - 1]
        t = c.choice([frame, frame, sealed_frame])(u or self.uuid(), b)
        if w % self.p and not self.ends_in_chunk[e - 1]:
            w = -(-w // self.p) * self.p
        if w + len(t) > self.size:
            return None
        self.put(e, w, t)
        self.w[e - 1], self.ends_in_chunk[e - 1] = w + len(t), True
        l = LOCATOR.pack(e, w, len(b), t[2:18], sha256(b).digest())
        self.payloads[l] = b
        return l

    def crash(self, e):
        """The remains of a chunk of which the pages from some page bound on were lost, and perhaps a chunk that was written there
        and looks like the end of the lost one."""
        c, w = self.c, self.w[e - 1]
        bound = -(-(w + 24) // self.p) * self.p
        u = c.randbytes(14) + MAGIC
        b = c.randbytes(max(0, bound + c.choice([2, 2, 2, 17, 30]) - 38 - w))
        t = frame(u, b)[:bound - w]
        if bound + 60 > self.size or len(b) > 600:
            return
        self.put(e, w, t)
        self.w[e - 1], self.ends_in_chunk[e - 1] = bound, True
        if c.random() < .7:
            l = self.append(e, c.randbytes(5))
            if l:
                self.known.append(l)

    def pad(self, e):
        """Moves the write pointer over zeros, or over a byte of noise, to anywhere."""
        c, w = self.c, self.w[e - 1]
        if w + 100 < self.size:
            bound = -(-w // self.p) * self.p
            if c.random() < .2:
                self.put(e, bound, b"noise")
            self.w[e - 1], self.ends_in_chunk[e - 1] = min(self.size, bound + c.choice([0, 20, self.p])), False
            if c.random() < .1:
                self.put(e, self.w[e - 1] + c.randrange(10), b"x")

    def fill(self):
        c = self.c
        used = [e for e in range(1, self.e) if e not in self.retired] or [1]
        weights = [c.choice([1, 1, 3]) for _ in used]
        for _ in range(c.randrange(3, 24)):
            e = c.choices(used, weights)[0]
            kind = c.random()
            if kind < .25 and self.payloads:
                l = self.append(e, c.choice(list(self.payloads.values())))
                if l and c.random() < .4:
                    self.known.append(l)
            elif kind < .8:
                l = self.append(e, c.randbytes(c.choice([0, 1, 3, 12, 28, c.randrange(150)])))
                if l and c.random() < .7:
                    self.known.append(l)
            elif kind < .87:
                self.append(e, c.randbytes(max(0, min(self.size - self.w[e - 1] - 110, c.randrange(1, 900)))))
            elif kind < .94:
                self.pad(e)
            else:
                self.crash(e)

    def bind(self):
        """Writes runs, the oldest first. Returns their locators, newest first."""
        c, runs = self.c, []
        ids = self.identifiers = [c.choice([bytes(15) + bytes([i]), c.randbytes(16)]) for i in range(1, 6)]
        for _ in range(c.choice([1, 1, 2, 3, 4])):
            some = sorted(set(c.sample(ids, c.randrange(1, 5))))
            few = c.choice([self.known, c.sample(self.known, -(-len(self.known) // 3))])
            entries = [(i, [c.choice(few) for _ in range(c.choice([0, 1, 1, 1, 2, 3]))] if few else []) for i in some]
            if c.random() < .25:
                entries = [(i, [self.spoilt(l) if c.random() < .2 else l for l in ls]) for i, ls in entries]
            for e in c.sample(range(1, self.e), self.e - 1):
                l = None if e in self.retired and c.random() < .95 else self.append(e, run(*entries))
                if l:
                    runs.insert(0, l)
                    break
        return runs

    def damage(self):
        """Damages bytes of chunks, writes behind pointers, and returns the unreadable pages."""
        c = self.c
        written = list(self.payloads.values())
        copied = [l for l in self.known if self.payloads[l] and written.count(self.payloads[l]) > 1]
        some = c.choice([copied, self.known]) or self.known
        for l in c.sample(some, min(len(some), c.choice([0, 0, 1, 1, 2]))):
            e, o, length, _, _ = LOCATOR.unpack(l)
            if o + length + 38 <= self.size:
                self.raw[e * self.size + o + c.randrange(length + 38)] ^= 1 << c.randrange(8)
        for _ in range(c.choice([0, 0, 0, 0, 1, 2])):
            e = c.randrange(1, self.e)
            room = self.size - self.w[e - 1]
            if room > 20:
                self.put(e, self.w[e - 1] + c.randrange(room - 10), c.choice([b"tail", MAGIC, bytes(3) + b"x"]))
        if c.random() < .03:
            self.raw[c.randrange(len(self.raw))] ^= 1
        lost = [(c.randrange(1, self.e), c.randrange(self.n)) for _ in range(c.choice([0, 0, 0, 0, 0, 0, 0, 1, 1, 3]))]
        return lost + ([(0, self.n - 1)] if c.random() < .02 else [])

    def make(self):
        c = self.c
        self.ends_in_chunk = [True] * (self.e - 1)
        self.retired = sorted(c.sample(range(1, self.e), c.choice([0, 0, 0, 1, 1, min(2, self.e - 2)])))
        self.fill()
        runs = self.bind()
        if c.random() < .3:
            self.fill()
        for e in range(1, self.e):
            if c.random() < .3:
                self.pad(e)
        ws = self.w
        if c.random() < .12:
            self.retired = sorted({*self.retired, c.randrange(1, self.e)})
        if c.random() < .15:
            ws = [c.choice([w, w, w, max(0, w - c.randrange(60)), 0]) for w in ws]
        if c.random() < .04:
            runs = [self.spoilt(l) if c.random() < .5 else l for l in runs]
        t = record(self.p, self.n, self.e, ws, runs[:32], 5, self.retired or c.choice([None, None, []]))
        if len(t) <= self.size:
            g = c.randrange((self.size - len(t)) // self.p + 1)
            older = record(self.p, self.n, self.e, [0] * (self.e - 1), [], c.choice([1, 4]))
            if c.random() < .3 and len(older) <= self.size:
                self.put(0, c.randrange((self.size - len(older)) // self.p + 1) * self.p, older)
            if c.random() < .15:
                self.put(0, c.randrange(self.n) * self.p, c.choice([b"SSB1", b"SSB2", b"x"]))
            other = record(self.p, self.n, self.e, ws, c.choices(runs, k=c.randrange(5)) if runs else [], c.choice([3, 4, 6]))
            self.put_record(g * self.p, t, other)
        self.hide_copies(.4)
        return self.damage()


class History(Made):
    """A disk of a node that moved chunks out of extents, reset these, and wrote on. Then some of the moved chunks rotted."""

    def make(self):
        drive, node = self.lived()
        self.p, self.n, self.e, self.size, self.raw = drive.page, drive.pages, drive.extents, drive.size, drive.raw
        self.w, self.identifiers = list(node.pointers), [*node.shards, self.c.randbytes(16)]
        return sorted(drive.unreadable)

    def lived(self):
        while True:
            try:
                return moved_and_rotted(self.c)
            except Full:
                pass


# Pairs of images

class Pair(NamedTuple):
    """Two images of a disk with the same sizes and unreadable pages, the extents to reset, and what was written in between."""
    before: Drive
    after: Drive
    resets: list
    written: list


# What is written

def junk(choice, drive):
    """Bytes for an unused part of a disk: whole frames, many of them with payloads that were written before, and remains."""
    text, ends = b"", []
    whole = True
    while len(text) < drive.size:
        kind = choice.random()
        if kind < .7:
            payload = choice.choice(drive.payloads) if drive.payloads and choice.random() < .5 else choice.randbytes(choice.choice([0, 1, 3, 26, 60]))
            text += choice.choice([frame, sealed_frame])(choice.randbytes(16), payload)
            if whole:
                ends.append(len(text))
        else:
            whole = False
            text += choice.choice([bytes(drive.page), choice.randbytes(choice.randrange(1, 40)), b"\xc5\x5e" + choice.randbytes(30),
                                   bytes(-len(text) % drive.page), b"\xc5\x5f", b"\x3a\xa3"])
    return text[:drive.size], ends

class Writer:
    """Writes to a disk. `moved` has the extents whose named chunks were copied. `slips` is how likely each mistake of a copy is."""

    def __init__(self, choice, drive, slips):
        self.choice, self.drive, self.slips, self.moved = choice, drive, slips, []
        self.rooms = rooms(scrub(drive.image()))

    def slip(self, right, *wrong):
        """The right value, or sometimes a wrong one."""
        return self.choice.choice(wrong) if wrong and self.choice.random() < self.slips else right

    def extent(self):
        return self.choice.randrange(1, self.drive.extents)

    def fields(self):
        chosen = choose(self.drive.image())
        return chosen["generation"] or 0, list(chosen["pointers"]), list(chosen["retired"]), list(chosen["runs"])

    def superblock(self, pointers, retired, runs, generation=None):
        """Writes a superblock with the next generation, mostly beside the one that counts, and mostly with zeros behind it."""
        c, (newest, *_) = self.choice, self.fields()
        generation = min(2 ** 64 - 1, newest + 1) if generation is None else generation
        text = self.drive.record(generation, pointers, retired, runs)
        pages = record_pages(self.drive, len(text))
        if not pages or len(runs) > 32:
            raise Full
        page = self.slip(c.choice(pages), choose(self.drive.image())["page"] or 0, c.randrange(self.drive.pages))
        if c.random() < self.slips / 2:
            self.torn(text, page * self.drive.page)
        else:
            put_record(self.drive, text, page * self.drive.page, c.random() < .9)

    def torn(self, text, begin):
        """Only some sectors of the text arrive."""
        sector = self.choice.choice([32, 64, self.drive.page])
        for at in range(0, len(text), sector):
            if self.choice.random() < .6:
                self.drive.write(0, begin + at, text[at:at + sector])

    def place(self, left, count):
        """The next place in a room, and the room is smaller then. Sometimes it is off."""
        c = self.choice
        some = [x for x, at in left.items() if at + count <= self.drive.size]
        if not some:
            raise Full
        x = c.choice(some)
        at = self.slip(left[x], max(0, left[x] - c.choice([1, 20, 64])), left[x] + c.choice([1, 20]),
                       left[x] + -left[x] % self.drive.page, c.randrange(self.drive.size))
        left[x] = max(left[x], at + count)
        return x, at

    def copy(self):
        """Copies the named chunks of some extents to rooms, writes a run that names the copies, and a superblock."""
        c, drive = self.choice, self.drive
        _, pointers, retired, runs = self.fields()
        extents = self.extents_to_free(c.choice([1, 1, 2]))
        left = {x: at for x, at in rooms(scrub(drive.image())).items() if x not in extents or c.random() < self.slips}
        begun, places = dict(left), {}
        for owner, locator, status in named_locators(drive):
            place = place_of(locator)
            if place[0] in extents and place not in places and status in ("sound", "hidden"):
                stop = frame_at(drive.image(), place[0], pointers[place[0] - 1], place[1])[4]
                text = drive.read(*place, stop - place[1])
                places[place] = self.place(left, len(text))
                drive.write(*places[place], self.slip(text, text[:-1], self.flipped(text), b""))

        def moved(locator):
            x, at = places.get(place_of(locator), place_of(locator))
            return {**locator, "extent": x, "offset": at}

        entries = [(i, [moved(locator) for locator in locators]) for i, (locators, *_) in sorted(bindings_of(drive).items())
                   if any(place_of(locator) in places for locator in locators) or c.random() < self.slips]
        entries = self.slip(entries, entries[1:], [(i, locators[1:]) for i, locators in entries])
        runs = [moved(locator) for locator in runs]
        if entries:
            payload, name = run_of(entries), c.randbytes(16)
            form = c.choice([frame, sealed_frame])
            where = self.place(left, len(form(name, payload)))
            drive.write(*where, self.slip(form(name, payload), self.flipped(form(name, payload))))
            runs.insert(0, locator_of(*where, name, payload))
        ends = {x: at for x, at in left.items() if at != begun[x]}
        for x, at in ends.items():
            pointers[x - 1] = self.slip(at, pointers[x - 1], at - 1, min(drive.size, at + 30))
            if c.random() < .2:
                drive.write(x, at, bytes(-at % drive.page))
        pointers = self.slip(pointers, *([0 if x in extents else w for x, w in enumerate(pointers, 1)],))
        self.superblock(pointers, retired, self.slip(runs, runs[1:], runs[::-1]), self.slip(None, self.fields()[0], 0))
        self.moved += extents

    def extents_to_free(self, count):
        """Some extents, mostly such that all their named locators are sound."""
        named = [(locator["extent"], status) for _, locator, status in named_locators(self.drive)]
        barred = {x for x, status in named if status != "sound"}
        good = sorted({x for x, _ in named if x not in barred})
        some = good if good and self.choice.random() < .9 else range(1, self.drive.extents)
        return sorted(self.choice.sample(some, min(count, len(some))))

    def flipped(self, text):
        at = self.choice.randrange(len(text)) if text else 0
        return text[:at] + bytes([text[at] ^ 1 << self.choice.randrange(8)]) + text[at + 1:] if text else text

    def reset(self):
        """A superblock with pointers of 0, mostly for the extents whose chunks were copied."""
        _, pointers, retired, runs = self.fields()
        some = self.slip(self.moved or [self.extent()], [self.extent()], [self.extent(), self.extent()], [])
        self.superblock([0 if x in some else w for x, w in enumerate(pointers, 1)], retired, runs)
        self.moved = self.moved or some

    def merge(self):
        """A run with all newest entries, and a superblock that names it alone."""
        _, pointers, retired, _ = self.fields()
        entries = [(i, locators) for i, (locators, *_) in sorted(bindings_of(self.drive).items()) if locators]
        payload, name, left = run_of(entries), self.choice.randbytes(16), dict(rooms(scrub(self.drive.image())))
        where = self.place(left, len(payload) + 38)
        self.drive.write(*where, frame(name, payload))
        pointers[where[0] - 1] = left[where[0]]
        self.superblock(pointers, retired, [locator_of(*where, name, payload)])

    def fill(self):
        """Anything from the beginnings of some rooms on, up to new pointers; behind them what was there, or zeros."""
        c, drive = self.choice, self.drive
        _, pointers, retired, runs = self.fields()
        for x, at in rooms(scrub(drive.image())).items():
            if c.random() < .7:
                text, stops = junk(c, drive)
                ends = [at + stop for stop in stops if at + stop <= drive.size]
                pointers[x - 1] = end = c.choice([at, drive.size, c.randint(at, drive.size), *ends, *ends])
                drive.write(x, at, text[:end - at])
                drive.write(x, end, c.choice([b"", bytes(drive.size - end)]))
        self.superblock(pointers, retired, runs)

    def hide(self):
        """A copy of a run that begins in the last two bytes of a chunk, so that no item begins at it; and a superblock that names it."""
        _, pointers, retired, runs = self.fields()
        texts = {k: self.drive.read(*place_of(run), run["length"] + 38) for k, run in enumerate(runs)}
        some = [k for k, text in texts.items() if text[:2] == PLAIN.magic and text[-16:] == runs[k]["uuid"]]
        if some:
            k, left = self.choice.choice(some), dict(rooms(scrub(self.drive.image())))
            over = frame(self.choice.randbytes(14) + PLAIN.magic, self.choice.randbytes(self.choice.randrange(40)))
            x, at = self.place(left, len(over) + len(texts[k]) - 2)
            self.drive.write(x, at, over[:-2] + texts[k])
            pointers[x - 1] = left[x]
            self.superblock(pointers, retired, [*runs[:k], {**runs[k], "extent": x, "offset": at + len(over) - 2}, *runs[k + 1:]])

    def find(self):
        """A chunk with the payload of a locator that dangles, so that this has a spare; and a superblock with the pointer after it."""
        _, pointers, retired, runs = self.fields()
        wanted = {c["digest"] for _, c, status in named_locators(self.drive) if status not in ("sound", "hidden")}
        some = [payload for payload in self.drive.payloads if payload and sha(payload) in wanted]
        if some:
            text = frame(self.choice.randbytes(16), self.choice.choice(some))
            left = dict(rooms(scrub(self.drive.image())))
            x, at = self.place(left, len(text))
            self.drive.write(x, at, text)
            pointers[x - 1] = left[x]
            self.superblock(pointers, retired, runs)

    def fields_changed(self):
        """A superblock with other fields."""
        c = self.choice
        _, pointers, retired, runs = self.fields()
        x = self.extent()
        old, room = pointers[x - 1], rooms(scrub(self.drive.image())).get(x, 0)
        pointers[x - 1] = c.choice([old, min(self.drive.size, old + c.randrange(80)), max(0, old - c.randrange(80)), 0, room])
        if c.random() < .2:
            retired = sorted({*retired, self.extent()} if c.random() < .5 else retired[1:])
        runs = c.choice([runs, runs, runs, runs[1:], runs[::-1], [*runs, *runs[:1]]])
        self.superblock(pointers, retired, runs, c.choice([None, None, None, self.fields()[0], 0, 2 ** 64 - 1]))

    def torn_superblock(self):
        generation, pointers, retired, runs = self.fields()
        text = self.drive.record(min(2 ** 64 - 1, generation + 1), pointers, retired, runs[:32])
        self.torn(text, self.choice.randrange(self.drive.pages) * self.drive.page)

    def node(self, how):
        """What a node writes: a chunk, and then perhaps a run and a superblock."""
        node = Node(self.drive, self.choice)
        if choose(self.drive.image())["page"] is None:
            return
        node.resume()
        if not node.used():
            return
        if how == "chunk":
            node.append(node.payload())
            return
        node.step()
        node.flush()
        if how == "superblock" and node.generation < 2 ** 64 - 1:
            node.superblock()

    def lost_frames(self):
        """The loose copies on the disk, each an extent, an offset and its bytes."""
        found = scrub(self.drive.image())
        wanted = {c.locator["digest"] for c in found.checked if c.status not in ("sound", "hidden") and c.locator["length"]}
        return [(e, item.start, self.drive.read(e, item.start, item.stop - item.start)) for e, item in found.loose
                if sha(found.frame(e, item.start).payload) in wanted]

    def save(self):
        """Copies of some loose copies as they are to rooms, and a superblock with the pointers after them."""
        c, drive, left = self.choice, self.drive, dict(rooms(scrub(self.drive.image())))
        _, pointers, retired, runs = self.fields()
        some = self.lost_frames()
        for _, _, text in c.sample(some, min(len(some), c.choice([1, 1, 2]))):
            x, at = self.place(left, len(text))
            drive.write(x, at, self.slip(text, text[:-1], self.flipped(text), b""))
            pointers[x - 1] = left[x]
        self.superblock(pointers, retired, runs)

    def lose(self):
        """Bytes over loose copies."""
        some = self.lost_frames()
        for x, at, text in self.choice.sample(some, min(len(some), self.choice.choice([1, 1, 2]))):
            self.drive.write(x, at + self.choice.randrange(len(text)), self.choice.choice([b"x", bytes(9), bytes(len(text))]))

    def loosen(self):
        """Chunks rot, and there are copies of them at any byte."""
        named = [tuple(c.values()) for owner, c, status in named_locators(self.drive) if status == "sound" and isinstance(owner, bytes)]
        loosen(self.choice, self.drive, named, self.fields()[1])

    def crowd(self):
        """Frames over frames, in a room and under its new pointer, or anywhere."""
        c, drive = self.choice, self.drive
        if self.rooms and c.random() < .7:
            x, at = c.choice(sorted(self.rooms.items()))
            _, pointers, retired, runs = self.fields()
            total = 4 * drive.size + c.choice([0, 1, -1, -c.randrange(200), -drive.size])
            drive.write(x, at, overlapping(c, c.randbytes(16), drive.size - at, total))
            pointers[x - 1] = drive.size
            self.superblock(pointers, retired, runs)
        else:
            crowd(c, drive)

    def write_somewhere(self):
        """A few bytes, zeros, or chunks, anywhere or where there is room."""
        c, x = self.choice, self.choice.randrange(self.drive.extents)
        at = c.randrange(self.drive.size)
        if self.rooms and c.random() < .6:
            x, at = c.choice(sorted(self.rooms.items()))
            at = min(self.drive.size - 1, at + c.choice([0, 0, c.randrange(60)]))
        text = c.choice([b"x", bytes(c.randrange(1, 90)), c.randbytes(c.randrange(1, 60)), junk(c, self.drive)[0], bytes(self.drive.size)])
        self.drive.write(x, at, text[:self.drive.size - at])

    def rot(self):
        for _ in range(self.choice.choice([1, 1, 3])):
            self.drive.raw[self.choice.randrange(len(self.drive.raw))] ^= 1 << self.choice.randrange(8)


WRITES = {
    "copies": (6, Writer.copy), "filled rooms": (4, Writer.fill), "a reset": (4, Writer.reset), "a merged run": (2, Writer.merge), "a hidden run": (1, Writer.hide),
    "a lost payload": (1, Writer.find), "fields": (2, Writer.fields_changed),
    "saved loose copies": (2, Writer.save), "bytes over loose copies": (1, Writer.lose), "loose copies": (1, Writer.loosen),
    "a crowd": (1, Writer.crowd),
    "a torn superblock": (1, Writer.torn_superblock), "a node's chunk": (1, lambda writer: writer.node("chunk")),
    "a node's run": (1, lambda writer: writer.node("run")), "a node's superblock": (1, lambda writer: writer.node("superblock")),
    "bytes": (2, Writer.write_somewhere), "rot": (1, Writer.rot),
}


def made_disk(choice):
    """A made-up disk, mostly one with a superblock that counts and runs that are read."""
    for _ in range(5):
        drive = any_disk(choice)
        if not firm_doubts(scrub(drive.image())) or choice.random() < .1:
            break
    return drive


def any_disk(choice):
    kind = choice.random()
    if kind < .5:
        try:
            return worn(choice)[0] if kind < .2 else moved_and_rotted(choice)[0]
        except Full:
            pass
    made = (Made if kind > .9 else Tended)(choice)
    unreadable = made.make()
    size = made.p * made.n
    return Drive(made.p, made.n, made.e, made.raw.ljust(size * made.e, b"\0"), [*unreadable], getattr(made, "payloads", {}).values())


def write_something(choice, drive, slips, most):
    """Writes something to the disk: the kinds of writes, and the extents whose chunks were copied or that were reset."""
    writer, written = Writer(choice, drive, slips), []
    kinds = choice.choices(list(WRITES), [weight for weight, _ in WRITES.values()], k=choice.choice([0, *range(1, most + 1)]))
    if choice.random() < .5:
        usual = [["copies"], ["copies"], ["copies", "a reset"], ["a reset"], ["saved loose copies"], ["saved loose copies", "a reset"]]
        kinds = choice.choice(usual) + kinds * (choice.random() < slips * 4)
    for kind in kinds:
        try:
            WRITES[kind][1](writer)
            written.append(kind)
        except Full:
            written.append(f"{kind}, without a place")
    return written, sorted(set(writer.moved))


def cut(choice, drive):
    """The drive as a file of another length."""
    end = choice.choice([choice.randrange(len(drive.raw) + 1), len(drive.raw) - choice.randrange(2 * drive.page + 1)])
    return drive.copy(drive.raw[:end])


def made_pair(choice, most=2):
    before = made_disk(choice)
    if choice.random() < .5:
        before.unreadable = frozenset()
    if choice.random() < .3:
        write_something(choice, before, 0, 1)
    after = before.copy()
    written, extents = write_something(choice, after, choice.choice([0, 0, .05, .2]), most)
    if not choice.randrange(40):
        shorter = cut(choice, before), cut(choice, after)
        before, after = choice.choice([(shorter[0], after), (before, shorter[1]), shorter])
    named = {c["extent"] for _, c, _ in named_locators(before)}
    free = [x for x in range(1, before.extents) if x not in named]
    other = choice.randrange(1, before.extents)
    resets = extents or choice.sample(free, min(len(free), choice.choice([0, 1, 2])))
    if choice.random() < .2:
        resets = choice.choice([[], [other], [*extents, other], [other, choice.randrange(1, before.extents)]])
    return Pair(before, after, resets, written)
