"""What comments and documents claim about costs. Allocations and threads are counted; no time is measured.

- Merging the runs copies the list of locators of each shard of the shard map, and no other list. Besides that, each list is allocated
  once, when its run is read.
- One thread finds the twins, and another makes the index. So a scan without workers starts two threads if there is one run
  and no place to look at. A command that needs neither twins nor index starts none.
- Several threads look at places. If there are many places, a run has at least as many threads as processors, including the
  main one. It is run on one processor, on two, and so on.
"""
import os

from lib.cases import RoomCase
from lib.disks import Disk, frame, locator, run, shard, uuid
from lib.system import ALLOCATIONS, run_counted

# The bytes of a locator in memory, and a number of locators that no other list of the program has.
LOCATOR_BYTES = 60
LOCATORS = 61
# With more processors than these rayon makes no more pieces.
MOST_PROCESSORS = 32
PAGE, PAGES = 4096, 64


def disk_of(room, name, texts, runs):
    """The arguments for a disk whose extents from 1 on begin with these bytes. Its superblock names these runs."""
    disk = Disk(PAGES, len(texts) + 1, PAGE)
    for extent, text in enumerate(texts, 1):
        disk.put(extent, 0, text)
        disk.pointers[extent - 1] = len(text)
    disk.superblock(0, 1, *runs)
    path = room / name
    path.write_bytes(disk.bytes)
    return [*disk.geometry(), str(path)]


def run_frame(extent, number, entries):
    """The first bytes of an extent with only a run, and the run's locator."""
    name, payload = uuid(0x70 + number), run(*entries)
    return frame(name, payload), locator(extent, 0, name, payload)


def two_runs(room, shards):
    """Two runs of `shards` shards each. Half of the shards are in both runs. Each entry has the same locators."""
    named = [locator(1, 0, uuid(0x11), b"abc")] * LOCATORS
    newer, older = ([(shard(number), named) for number in range(first, first + shards)] for first in (0, shards // 2))
    (first, first_at), (second, second_at) = run_frame(2, 0, newer), run_frame(3, 1, older)
    return disk_of(room, f"two-runs-{shards}", [frame(uuid(0x11), b"abc"), first, second], [first_at, second_at])


def chunks(room, name, count, is_hidden):
    """`count` chunks, each named by a shard, inside the payload of another chunk or side by side."""
    names = [shard(number) for number in range(count)]
    parts = [frame(one, b"abc") for one in names]
    text = b"".join(parts)
    if is_hidden:
        text = frame(uuid(0x22), text)
    entries = [(one, [locator(1, text.index(part), one, b"abc")]) for one, part in zip(names, parts)]
    index_run, at = run_frame(2, 0, entries)
    return disk_of(room, name, [text, index_run], [at])


class Costs(RoomCase):
    @classmethod
    def setUpClass(cls):
        super().setUpClass()
        cls.library = ALLOCATIONS.made(cls.room)
        cls.sound = chunks(cls.room, "sound", 300, False)
        cls.hidden = chunks(cls.room, "hidden", 300, True)
        cls.processors = sorted(os.sched_getaffinity(0))[:MOST_PROCESSORS]

    def counts(self, words, wanted, **more):
        """How many allocations of a run had the counted size, and how many threads it started. Both are None unless the run ends
        with this status."""
        (status, _, _), found = run_counted(self.program, words, self.library, **more)
        return (found.sized, found.threads) if status == wanted and found else (None, None)

    def check_merging(self, shards):
        disk = two_runs(self.room, shards)
        read, bound = 2 * shards, shards + shards // 2
        lists, _ = self.counts(["scan", "--workers", "0", *disk], 1, counted=LOCATORS * LOCATOR_BYTES)
        self.same("lists of locators", lists, read + bound)
        lists, _ = self.counts(["shard", "--workers", "0", "--id", shard(0).hex(), *disk], 0, counted=LOCATORS * LOCATOR_BYTES)
        self.same("lists of locators for the bytes of a shard", lists, read + bound)

    def test_merging_16_shards(self):
        self.check_merging(16)

    def test_merging_40_shards(self):
        self.check_merging(40)

    def on_each_number_of_processors(self, words, status):
        """How many threads a run started on one processor, on two, and so on."""
        for number in range(1, len(self.processors) + 1):
            yield number, self.counts(words, status, processors=set(self.processors[:number]))[1]

    def check_nothing_to_look_at(self, command, wanted, *options):
        for number, started in self.on_each_number_of_processors([command, "--workers", "0", *options, *self.sound], 0):
            self.same(f"threads on {number} processors", started, wanted)

    def test_scan_with_nothing_to_look_at(self):
        self.check_nothing_to_look_at("scan", 2)

    def test_index_with_nothing_to_look_at(self):
        self.check_nothing_to_look_at("index", 2)

    def test_locators_with_nothing_to_look_at(self):
        self.check_nothing_to_look_at("locators", 0)

    def test_shard_with_nothing_to_look_at(self):
        self.check_nothing_to_look_at("shard", 0, "--id", shard(7).hex())

    def test_locators_with_many_places(self):
        for number, started in self.on_each_number_of_processors(["locators", "--workers", "0", *self.hidden], 1):
            self.true(f"threads on {number} processors", started is not None and started + 1 >= number, started)

    def test_superblocks(self):
        self.same("threads", self.counts(["superblocks", *self.sound], 0)[1], 0)

    def test_items(self):
        self.same("threads", self.counts(["items", *self.sound[:-1], "--extent", "1", self.sound[-1]], 0)[1], 0)
