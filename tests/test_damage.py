"""Damages the superblocks of small disks, and compares what `reclaimable` then names: two disks one bit or one page at a time, and
others by a newest superblock of which only some sectors were written.

Each of the two disks has two superblocks. The older one would give up an extent with the only chunk of a shard. On one disk both
superblocks have the same write pointers, nothing is past them, and each record fits on a page. On the other disk each
superblock has something past its pointers, and a record takes several pages. Each bit of each superblock is flipped in turn;
then each page of extent 0 is unreadable in turn. `reclaimable` may name only candidates of the undamaged disk, and has to
answer as reference/shardscrub.py does: with nothing accepted, and on the disk with tails also with `--last 2`, the generation that the
newer superblock has. If that one doesn't count any more, nothing is named then. On the disk with tails the same is tried with the
tails accepted by their lines.

Each of the others has two superblocks, too. The one that counts would give up an extent with the only chunk of a shard. The newest
superblock, which names that chunk, is written over the other one, which is shorter, as long or longer, and only some of its sectors
arrive.
"""
from lib.cases import RoomCase, add_tests
from lib.disks import Disk, geometry, record, run, shard, uuid
from reference.shardscrub import Image, candidates, choose, reclaimable, records_of, scrub, superblocks
from test_system import answer

EXTENTS = 5
# The bytes per page and pages per extent of each disk. The older superblock is on page 0, the newer one in the middle.
PLAIN, WITH_TAILS = (256, 4), (64, 8)


def made(tails):
    """A disk. Its newer superblock gives up extent 2. Its older one gives up extent 1, which has the only chunk of shard 2."""
    page, pages = WITH_TAILS if tails else PLAIN
    disk = Disk(pages, EXTENTS, page)
    only = disk.chunk(1, 0, uuid(0xB0), b"the one chunk of the second shard, which nothing else has")
    disk.chunk(1, 95, uuid(0xB1), b"what nobody names")
    before = disk.chunk(2, 0, uuid(0xA0), b"the first shard, before it was written anew" * 2)
    kept = disk.chunk(2, 124, uuid(0xC0), b"the third shard")
    older = disk.chunk(4, 0, uuid(0xE0), run((shard(1), [before]), (shard(3), [kept])))
    if tails:
        disk.superblock(0, 1, older)
    anew = disk.chunk(3, 0, uuid(0xA1), b"the first shard")
    newer = disk.chunk(4, 232, uuid(0xE1), run((shard(1), [anew]), (shard(2), [only])))
    if tails:
        disk.put(3, 200, b"what was here before extent 3 was reset")
    else:
        disk.superblock(0, 1, older)
    disk.superblock(pages // 2, 2, newer, older)
    return Image(bytes(disk.bytes), page, pages, EXTENTS)


def changed(image, raw, unreadable=()):
    """The disk with other bytes and with these unreadable pages."""
    return Image(raw, image.page, image.pages, image.extents, unreadable)


def harmed(image):
    """Yields the disk with each bit of a superblock flipped, then with each page of extent 0 unreadable; each with what was done."""
    for page, record in records_of(image).items():
        for bit in range(8 * record.length):
            flipped = bytearray(image.raw)
            flipped[image.page * page + bit // 8] ^= 1 << bit % 8
            yield f"bit {bit} of the superblock on page {page}", changed(image, bytes(flipped))
    for page in range(image.pages):
        yield f"page {page} unreadable", changed(image, image.raw, [(0, page)])


def named(text):
    """The extents of the lines that begin with `reclaim`."""
    return {int(line.split()[1]) for line in text.splitlines() if line.startswith("reclaim ")}


def right(image, accepted=(), last=None):
    text, clear = reclaimable(image, accepted, last)
    return 0 if clear else 1, text, ""


def given_up(image):
    return {candidate.extent for candidate in candidates(scrub(image))}


class DamageCase(RoomCase):
    """Disks in a file, one after another."""

    def answer(self, image, command, *own):
        """The status and both outputs of a command with options of its own; None if it doesn't end."""
        path = self.room / "image"
        path.write_bytes(image.raw)
        pages = (f"{extent}:{page}" for extent, page in sorted(image.unreadable))
        return answer(command, *own, *geometry(image.page, image.pages, image.extents), path, *pages, text=True)

    def reclaimable(self, image, accepted=(), last=None):
        words = [word for line in accepted for word in ("--accept", line)] + ["--last", str(last)] * (last is not None)
        return self.answer(image, "reclaimable", "--workers", "0", *words)


class Damage(DamageCase):
    def check(self, image, accepted=(), last=None):
        let_go = given_up(image)
        middle = image.size // 2
        alone = changed(image, image.raw[:middle] + bytes(middle) + image.raw[image.size:])
        self.true("the newer superblock gives up an extent, and the older one alone another",
                  let_go and given_up(alone) - let_go, (let_go, given_up(alone)))
        self.same("the whole disk", self.reclaimable(image, accepted, last), right(image, accepted, last))
        for what, disk in harmed(image):
            found = self.reclaimable(disk, accepted, last)
            is_safe = found is not None and named(found[1]) <= let_go
            if last is not None and choose(disk)["generation"] != last:
                is_safe = is_safe and found[0] == 1 and not named(found[1])
            self.true(what, is_safe and found == right(disk, accepted, last), found)

    def test_a_disk_without_tails(self):
        self.check(made(False))

    def test_a_disk_with_tails(self):
        self.check(made(True))

    def test_a_disk_with_tails_that_are_accepted(self):
        image = made(True)
        self.check(image, [line.removeprefix("doubt ") for line in reclaimable(image)[0].splitlines() if line.startswith("doubt tail ")])

    def test_a_disk_and_the_last_generation(self):
        self.check(made(False), last=2)

    def test_a_disk_with_tails_and_the_last_generation(self):
        self.check(made(True), last=2)


# The bytes per page and pages per extent of the disks that are torn.
TORN = (64, 16), (256, 4), (1024, 2)
# How many runs the record lists that is overwritten, and how many the newest one lists.
LISTED = (1, 2), (2, 2), (4, 2), (5, 2), (3, 5)
# Up to this many sectors each choice of them is tried.
FEW = 5


class Overwritten:
    """A disk before its newest superblock is written over another one, and the bytes of that superblock. By the superblock that
    counts until then extent 1 has nothing live; by the newest one it has the only chunk of shard 2. All have the same pointers."""

    def __init__(self, page, pages, before, newest):
        disk = Disk(pages, EXTENTS, page)
        only = disk.chunk(1, 0, uuid(0xB0), b"the one chunk of the second shard, which nothing else has")
        first = disk.chunk(2, 0, uuid(0xA0), b"the first shard, before it was written anew" * 2)
        kept = disk.chunk(2, 124, uuid(0xC0), b"the third shard")
        anew = disk.chunk(3, 0, uuid(0xA1), b"the first shard")
        put = lambda number, *entries: disk.chunk(4, disk.pointers[3], uuid(0xE0 + number), run(*entries))
        runs = [put(0, (shard(1), [first]), (shard(3), [kept])), *(put(number, (shard(9 + number), [])) for number in range(1, 5))]
        newer = put(5, (shard(1), [anew]), (shard(2), [only]))
        disk.superblock(0, 1, *runs[:before])
        disk.superblock(pages // 2, 2, *runs)
        self.image = Image(bytes(disk.bytes), page, pages, EXTENTS)
        self.record = record(page, pages, EXTENTS, disk.pointers, [newer, *runs[:newest - 1]], 3)
        self.in_pages = self.record + bytes(self.last_page_end() - len(self.record))

    def last_page_end(self):
        """The end of the last page of the longer one of both records."""
        longer = max(len(self.record), records_of(self.image)[0].length)
        return -(-longer // self.image.page) * self.image.page

    def with_sectors(self, written, sector, some):
        """The disk after some sectors of these bytes were written at its start."""
        raw = bytearray(self.image.raw)
        for number in some:
            part = written[number * sector:(number + 1) * sector]
            raw[number * sector:number * sector + len(part)] = part
        return changed(self.image, bytes(raw))

    def torn(self):
        """Yields each disk once, with what was written to it."""
        seen = set()
        for what, written in ("the record", self.record), ("whole pages", self.in_pages):
            sector = 64
            while sector <= self.image.page:
                count = -(-len(written) // sector)
                for some in choices(count):
                    disk = self.with_sectors(written, sector, some)
                    if disk.raw not in seen:
                        seen.add(disk.raw)
                        yield f"of {what}, {count} sectors of {sector} bytes, {list(some)}", disk
                sector *= 2


def choices(count):
    """Which sectors arrive: each choice of a few; of more the first ones, the last ones, all but one, one alone, each second one."""
    every = range(count)
    if count <= FEW:
        return [[n for n in every if mask >> n & 1] for mask in range(2 ** count)]
    parts = [part for n in range(count + 1) for part in (every[:n], every[n:])]
    return [*parts, *([n] for n in every), *([m for m in every if m != n] for n in every), every[::2], every[1::2]]


def is_newest_whole(image):
    return any(found.generation == 3 for found in records_of(image).values())


class Torn(DamageCase):
    """A newest superblock of which only some sectors arrive."""

    def check(self, sizes):
        for before, newest in LISTED:
            one = Overwritten(*sizes, before, newest)
            what = f"pages of {sizes[0]} bytes, {newest} runs over {before}"
            let_go = given_up(one.with_sectors(one.record, len(one.record), [0]))
            self.true(f"{what}: each gives up another extent", let_go and 1 in given_up(one.image) - let_go)
            for how, disk in one.torn():
                found = [self.answer(disk, "superblocks"), self.reclaimable(disk), self.reclaimable(disk, last=3)]
                self.check_torn(f"{what}, {how}", one.image, disk, let_go, found)

    def check_torn(self, what, before, disk, let_go, found):
        """Each byte that was changed to one other than zero is on a damaged or stray page, and nothing is listed, unless the newest
        superblock is whole. With its generation for --last nothing is listed, whatever is left of it."""
        is_whole = is_newest_whole(disk)
        left = {place // disk.page for place in range(disk.size) if disk.raw[place] not in (0, before.raw[place])}
        if None in found:
            return self.true(what, False, found)
        lines, doubts, by_last = (text.splitlines() for _, text, _ in found)
        if not is_whole:
            self.true(f"{what}: another one is the last", "doubt last 2 3" in by_last and found[2][0] == 1 and not named(found[2][1]), found)
        if is_whole:
            self.true(f"{what}: what the newest superblock gives up", named(found[1][1]) <= let_go, found)
        elif left:
            odd = {int(line.split()[1]) for line in lines if line.split()[0] in ("damaged", "stray")}
            self.true(f"{what}: each page with a byte that is left has a line", left <= odd, found)
            self.true(f"{what}: nothing is listed", any(line.startswith("doubt superblock-") for line in doubts)
                      and not named(found[1][1]), found)
        text, clean = superblocks(disk)
        self.same(f"{what}: superblocks", found[0], (0 if clean else 1, text, ""))
        self.same(f"{what}: reclaimable", found[1], right(disk))
        self.same(f"{what}: reclaimable --last 3", found[2], right(disk, last=3))

    def test_the_newest_superblock_in_whole_pages(self):
        """Zeros up to the end of the last page of both records leave nothing behind it. A record alone leaves the rest of a longer
        one."""
        for sizes in TORN:
            for before, newest in LISTED:
                one = Overwritten(*sizes, before, newest)
                what = f"pages of {sizes[0]} bytes, {newest} runs over {before}"
                whole, alone = (one.with_sectors(text, len(text), [0]) for text in (one.in_pages, one.record))
                self.same(f"{what}, in whole pages", self.answer(whole, "superblocks")[0], 0)
                self.same(f"{what}, the record alone", self.answer(alone, "superblocks")[0], int(before > newest))


add_tests(Torn, Torn.check, [(f"pages of {page} bytes", (page, pages)) for page, pages in TORN])
