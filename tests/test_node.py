"""examples/node: random walks beside the reference, calls that are killed and power cuts at each write, reclamations of its disk, what it
refuses, and the functions that docs/FORMAT.md names.

The walks call the functions of the script, on a disk in memory. What the script's own process does is tried on files."""
import fcntl
import hashlib
import io
import math
import os
import random
import re
import subprocess
import tarfile
import types
from collections import Counter

from lib.cases import Case, RoomCase, add_tests
from lib.disks import geometry, record
from lib.program import PUT_TOOLS, TOP, need
from reference import shardscrub as reference

SCRIPT = (TOP / "examples/node").read_text(encoding="utf-8")
# The walks of a test, and the steps of a walk.
TESTS, WALKS, STEPS = 8, 25, 24


def loaded(script):
    """The functions of the script, or of a text that differs from it."""
    node = types.ModuleType("node")
    exec(compile(script, "examples/node", "exec"), node.__dict__)
    return node


NODE = loaded(SCRIPT)


def identifier(name):
    return hashlib.sha256(name.encode()).digest()[:16]


def by_identifier(files):
    return {identifier(name): text for name, text in files.items()}


class Killed(Exception):
    """The call was killed."""


class Memory:
    """A disk in memory, in the place of a file. `left` is how many writes and flushes are made before the call is killed. A killed call
    makes a part of its last write. What isn't flushed may be lost, page by page."""

    def __init__(self, sizes, choice):
        self.page, self.choice, self.left = sizes.page, choice, math.inf
        self.raw = bytearray(sizes.extent_bytes() * sizes.extents)
        self.kept, self.pending = bytes(self.raw), []

    def length(self):
        return len(self.raw)

    def read(self, at, count):
        return bytes(self.raw[at:at + count])

    def count(self):
        if self.left == 0:
            raise Killed
        self.left -= 1

    def write(self, at, text):
        text = text[:self.choice.randrange(len(text))] if self.left == 0 else text
        self.raw[at:at + len(text)] = text
        self.pending.append((at, text))
        self.count()

    def flush(self):
        self.count()
        self.kept, self.pending = bytes(self.raw), []

    def in_pages(self, at, text):
        """The pieces of a write, one for each page."""
        while text:
            count = self.page - at % self.page
            yield at, text[:count]
            at, text = at + count, text[count:]

    def lose_power(self):
        """Of what wasn't flushed some pages are on the disk: none, all, all but one, or any."""
        pieces = [piece for at, text in self.pending for piece in self.in_pages(at, text)]
        count = self.choice.choice([0, self.choice.randint(0, len(pieces)), max(0, len(pieces) - 1), len(pieces)])
        some = self.choice.sample(pieces, count)
        self.raw = bytearray(self.kept)
        for at, text in some:
            self.raw[at:at + len(text)] = text
        self.kept, self.pending = bytes(self.raw), []


class Lost(AssertionError):
    """The disk hasn't what it has to have."""


class Walk:
    """A node at work. After each step the reference says whether the disk is right. `met` counts what happened."""

    def __init__(self, seed, node=NODE, sizes=None):
        self.choice, self.node, self.met, self.held = random.Random(seed), node, Counter(), {}
        choose = self.choice.choice
        self.sizes = sizes or node.Sizes(choose([64, 64, 128, 512]), choose([15, 16, 24, 32]), choose([3, 4, 5, 6, 8]))
        self.disk = Memory(self.sizes, self.choice)
        first = node.Superblock(0, 1, self.sizes, [0] * (self.sizes.extents - 1), [])
        self.disk.write(0, node.superblock_bytes(first))
        self.disk.flush()
        # Whether the last call that wrote was made whole; what the disk may hold after a power cut; whether the power stays on when a call
        # is killed, or None if chance says it.
        self.is_whole, self.possible, self.has_power = True, [self.held], None

    def call(self):
        """A random call: what it is, what it makes of a node, and what the disk holds after it."""
        choice = self.choice
        kind = choice.choice(["put"] * 4 + ["delete"] * 2 + ["merge"] + ["reset"] * 3)
        if kind == "put":
            most = choice.choice([40, 200, 200, self.sizes.extent_bytes() // 2])
            files = {f"name {choice.randrange(9)}": choice.randbytes(choice.choice([0, 1, choice.randrange(most)]))
                     for _ in range(choice.choice([1, 1, 2, 4]))}
            chunk, is_sealed = choice.choice([None, 30, 100]), choice.random() < .4
            return kind, lambda node: self.node.put_files(node, files, chunk, is_sealed), self.held | files
        if kind == "delete":
            names = choice.sample(sorted(self.held), min(len(self.held), choice.choice([1, 2]))) or ["no such name"]
            return kind, lambda node: self.node.delete(node, names), {name: text for name, text in self.held.items() if name not in names}
        if kind == "merge":
            return kind, self.node.merge, self.held
        extent = choice.randrange(1, self.sizes.extents)
        return kind, lambda node: self.node.reset(node, extent), self.held

    def move_superblock(self):
        """Writes it as act/plan does: at the beginning of extent 0 if it fits before the one that counts, else behind that."""
        node = self.node.Node(self.disk)
        length = node.sizes.in_pages(self.node.superblock_length(self.sizes.extents, len(node.superblock.runs)))
        at = 0 if length <= node.superblock.at else node.superblock.at + length
        if at + length <= node.size:
            node.write_superblock(node.superblock._replace(at=at, generation=node.superblock.generation + 1))
            self.disk.flush()
            self.met["superblock moved"] += 1

    def step(self, kills=.3):
        if self.choice.random() < .1:
            self.move_superblock()
        kind, make, after = self.call()
        self.disk.left = self.choice.randrange(12) if self.choice.random() < kills else math.inf
        self.made(kind, make, after)
        self.check()

    def made(self, kind, make, after):
        """Makes a call, up to the write at which it is killed. Returns the fault that ended it, if one did."""
        raw, ended = bytes(self.disk.raw), None
        try:
            make(self.node.Node(self.disk))
        except self.node.Refused as why:
            ended = type(why)
            self.met[f"{kind} refused"] += 1
            self.met["full"] += "is full" in str(why)
            self.possible = [self.held]
            if bytes(self.disk.raw) != raw or "extent 0" in str(why) or "damaged" in str(why):
                raise Lost(f"refused: {why}") from None
        except Killed:
            ended = Killed
            self.killed(after)
        else:
            self.met[kind] += 1
            self.is_whole, self.held, self.possible = True, after, [after]
        self.disk.left = math.inf
        return ended

    def killed(self, after):
        """After a kill the disk holds what it held before, or all that the call wanted. After a power cut that may also be from before
        the last call, if that was killed."""
        self.disk.left, self.is_whole = math.inf, False
        has_power = self.choice.random() < .5 if self.has_power is None else self.has_power
        if not has_power:
            self.disk.lose_power()
        found, wanted = self.read(), [after, self.held, *([] if has_power else self.possible)]
        self.held = next((files for files in wanted if by_identifier(files) == found), None)
        if self.held is None:
            raise Lost("neither what was there before the call nor what was there after it")
        self.possible = [*self.possible, self.held] if has_power else [self.held]
        self.met[f"killed {'with' if has_power else 'without'} power, {'after' if self.held == after else 'before'}"] += 1

    def image(self):
        return reference.Image(bytes(self.disk.raw), *self.sizes)

    def read(self):
        """The shards that the reference reads, or what it says in their place."""
        found = reference.scrub(self.image())
        shards = {one: reference.shard_of(found, one) for one in found.shard_map}
        return {one: text if said is None else said for one, (text, said) in shards.items()}

    def check(self):
        text, is_sound = reference.summary(self.image())
        if not is_sound and (self.is_whole or text.startswith("verdict wrong")):
            raise Lost(text)
        if self.read() != by_identifier(self.held):
            raise Lost("the shards aren't what was put")


class Walks(Case):
    def walk(self, number):
        met = Counter()
        for seed in range(number * WALKS, (number + 1) * WALKS):
            walk = Walk(seed)
            for step in range(STEPS):
                try:
                    walk.step()
                except Lost as why:
                    self.true(f"walk {seed}, step {step}", False, why)
                    break
            met += walk.met
        wanted = ["put", "delete", "merge", "reset", "full", "superblock moved",
                  *(f"killed {power} power, {when}" for power in ("with", "without") for when in ("before", "after"))]
        self.same("what never happened", [what for what in wanted if not met[what]], [])


add_tests(Walks, Walks.walk, [(f"{number * WALKS} to {(number + 1) * WALKS - 1}", number) for number in range(TESTS)])


class Kills(Case):
    # A text of the script, and one without the rule.
    WITHOUT = {
        "a chunk goes over the last byte of the one before": ("offset = self.pointers[extent - 1]\n",
                                                              "offset = max(0, self.pointers[extent - 1] - 1)\n"),
        "the superblock isn't flushed": ("runs))\n        self.disk.flush()\n", "runs))\n"),
        "no flush before the superblock": ("self.disk.write(place, frame)\n        self.disk.flush()\n", "self.disk.write(place, frame)\n"),
        "a superblock over the one that counts": ("at = self.place_of_superblock(len(runs))\n", "at = self.superblock.at\n"),
        "no zeros after the superblock": ("            if page != front[at:at + self.sizes.page]:\n",
                                          "            if any(page) and page != front[at:at + self.sizes.page]:\n"),
        "a reset extent takes copies at once": ("node.closed, changed = extent, {}", "node.pointers[extent - 1], changed = 0, {}"),
        "what a killed call wrote is believed": ("        disk.flush()\n        self.disk, ", "        self.disk, "),
    }

    def test_each_write_and_flush_of_each_call(self):
        """Killed there, with power and without: what was there before or after. The next call makes the disk sound."""
        for seed in range(16):
            walk = Walk(seed)
            for _ in range(6):
                walk.step(kills=0)
            walk.choice, is_done, count, words = random.Random(seed), False, 0, walk.call()
            back = self.state(walk)
            while not is_done:
                back()
                walk.disk.left, count = count, count + 1
                is_done = walk.made(*words) is not Killed
                walk.check()
                walk.made(*self.put_of(walk))
                walk.check()

    def test_two_calls_after_each_other(self):
        """A reset is killed at each write and flush, and then a `put` that may write into the extent, without power."""
        for seed in range(4):
            self.two_calls(Walk(seed, sizes=NODE.Sizes(64, 16, 4)))

    def two_calls(self, walk):
        node, files = walk.node, {"name 1": b"1" * 90, "name 2": b"2" * 70}
        walk.made("put", lambda one: node.put_files(one, files, 40, False), files)
        back, put = self.state(walk), self.put_of(walk)
        for first in range(12):
            for second in range(8):
                back()
                walk.disk.left, walk.has_power = first, True
                walk.made("reset", lambda one: node.reset(one, 1), walk.held)
                walk.disk.left, walk.has_power = second, False
                walk.made(*put)
                walk.check()

    @staticmethod
    def put_of(walk):
        """A call that puts a small file."""
        return "put", lambda one: walk.node.put_files(one, {"name 3": b"3" * 30}, None, False), walk.held | {"name 3": b"3" * 30}

    @staticmethod
    def state(walk):
        """A function that brings the walk back to where it is now."""
        held, raw = walk.held, bytes(walk.disk.raw)

        def back():
            walk.held, walk.possible, walk.disk.raw, walk.disk.kept, walk.disk.pending = held, [held], bytearray(raw), raw, []
            walk.is_whole = True
        return back

    def test_a_node_without_one_of_its_rules(self):
        """The walks find what it loses."""
        for what, (text, other) in self.WITHOUT.items():
            self.same(f"{what}: places in the script", SCRIPT.count(text), 1)
            self.true(what, self.is_found(loaded(SCRIPT.replace(text, other))), "it isn't found")

    def is_found(self, node):
        try:
            for seed in range(WALKS):
                walk = Walk(seed, node)
                for _ in range(STEPS):
                    walk.step(kills=.7)
                if seed < 3:
                    self.two_calls(Walk(seed, node, node.Sizes(64, 16, 4)))
        except Lost:
            return True
        return False


class Limits(Case):
    def put(self, walk, name, text, chunk=None):
        walk.made("put", lambda node: NODE.put_files(node, {name: text}, chunk, False), walk.held | {name: text})
        walk.check()
        return len(NODE.superblock_that_counts(walk.disk).runs)

    def test_index_runs(self):
        """With one run for each call the node merges them before there are more than a superblock can list."""
        walk = Walk(1, sizes=NODE.Sizes(512, 16, 8))
        counts = [self.put(walk, f"name {number % 9}", b"%d" % number) for number in range(70)]
        self.same("the most runs, and how often there was one", (max(counts), counts.count(1)), (32, 3))

    def test_a_map_for_which_no_extent_has_room(self):
        """It is merged into several runs."""
        walk = Walk(1, sizes=NODE.Sizes(64, 16, 9))
        for number in range(4):
            self.put(walk, f"name {number}", bytes([number]) * 80, 10)
        walk.made("merge", NODE.merge, walk.held)
        walk.check()
        self.same("calls, and runs", (dict(walk.met), len(NODE.superblock_that_counts(walk.disk).runs)), ({"put": 4, "merge": 1}, 4))

    def test_a_full_disk(self):
        """`put` is refused. After a delete and resets it isn't."""
        walk, number = Walk(1, sizes=NODE.Sizes(64, 16, 4)), 0
        while not walk.met["full"]:
            number += 1
            self.put(walk, f"name {number}", bytes([number]) * 200)
        names = ["name 1", "name 2"]
        walk.made("delete", lambda node: NODE.delete(node, names), {name: text for name, text in walk.held.items() if name not in names})
        for extent in 1, 2:
            walk.made("reset", lambda node: NODE.reset(node, extent), walk.held)
        self.put(walk, "name 1", b"again")
        self.same("calls", dict(walk.met), {"put": number, "put refused": 1, "full": 1, "delete": 1, "reset": 2})


class FileCase(RoomCase):
    """The script's own process, on a disk in a file."""

    def setUp(self):
        self.files = self.room / self.id()
        self.files.mkdir()
        self.disk = self.files / "disk"

    def call(self, *words, before=()):
        done = subprocess.run([*before, TOP / "examples/node", *map(str, words)], capture_output=True, text=True, stdin=subprocess.DEVNULL)
        return done.returncode, done.stdout, done.stderr

    def make(self, page=64, pages=16, extents=6):
        self.same("new", self.call("new", self.disk, *geometry(page, pages, extents)), (0, "generation 1\n", ""))

    def put(self, files, *options, before=()):
        """Puts files with these names and bytes."""
        for name, text in files.items():
            (self.files / name).write_bytes(text)
        return self.call("put", self.disk, *options, *(self.files / name for name in files), before=before)

    def ask(self, *words):
        return subprocess.run([self.program, *words, self.disk], capture_output=True)

    def verdict(self):
        return self.ask("summary").stdout.decode().splitlines()[0]

    def shards(self):
        """The shards that the program reads from the disk."""
        with tarfile.open(fileobj=io.BytesIO(self.ask("shards").stdout)) as tar:
            return {bytes.fromhex(one.name): tar.extractfile(one).read() for one in tar}


class Programs(FileCase):
    def random_call(self, choice, held):
        """Its words, and what the disk holds after it."""
        kind = choice.choice(["put", "put", "delete", "merge", "reset"])
        if kind == "put":
            files = {f"name {choice.randrange(5)}": choice.randbytes(choice.randrange(250)) for _ in range(choice.choice([1, 3]))}
            for name, text in files.items():
                (self.files / name).write_bytes(text)
            options = choice.choice([["--sealed"], ["--chunk", "50"], []])
            return ["put", self.disk, *options, *(self.files / name for name in files)], held | files
        if kind == "delete":
            names = choice.sample(sorted(held), min(2, len(held))) or ["none"]
            return ["delete", self.disk, *names], {name: text for name, text in held.items() if name not in names}
        return [kind, self.disk, *[choice.randrange(1, 4)] * (kind == "reset")], held

    def test_walks(self):
        """The program says `sound` after each call, and reads what was put. `list` prints what is there."""
        for seed in range(3):
            choice, generation, held = random.Random(seed), 1, {}
            self.disk = self.files / f"disk {seed}"
            self.make(*choice.choice([(64, 32, 6), (512, 8, 5), (4096, 4, 4)]))
            for _ in range(8):
                words, after = self.random_call(choice, held)
                status, out, error = self.call(*words)
                if status == 0:
                    generation, held = generation + 1, after
                self.same(f"{seed}: {words}", (status, out, error.count("\n")),
                          (0, f"generation {generation}\n", 0) if status == 0 else (1, "", 1))
                self.same(f"{seed}: after {words}", (self.verdict(), self.shards()), ("verdict sound", by_identifier(held)))
            chunks = Counter(line.split()[1] for line in self.ask("locators").stdout.decode().splitlines())
            wanted = [f"{one.hex()} {chunks[one.hex()]} {len(text)}\n" for one, text in sorted(by_identifier(held).items())]
            self.same(f"{seed}: list", self.call("list", self.disk), (0, "".join(wanted), ""))

    def test_names(self):
        """`list` prints those that are there, also one that isn't text, and says which aren't."""
        self.make()
        odd = os.fsdecode(b"od\xff")
        self.put({"one": b"1", odd: b"22"}, "--chunk", "1")
        wanted = f"{identifier('one').hex()} 1 1 one\n"
        self.same("one", self.call("list", self.disk, "one"), (0, wanted, ""))
        self.same("one, and one that isn't there", self.call("list", self.disk, "two", "one"),
                  (1, wanted, "node: there is no shard of two\n"))
        wanted = f"{hashlib.sha256(os.fsencode(odd)).hexdigest()[:32]} 2 2 od\\udcff\n"
        self.same("odd", self.call("list", self.disk, odd), (0, wanted, ""))

    def test_a_process_that_is_killed(self):
        """At each of its writes and flushes."""
        need("strace")
        self.make()
        self.put({"one": b"1" * 100, "two": b"2" * 100})
        self.put({"one": b"3" * 300})
        (self.files / "three").write_bytes(b"4" * 90)
        raw, before = self.disk.read_bytes(), by_identifier({"one": b"3" * 300, "two": b"2" * 100})
        for words, after in ((["put", self.disk, self.files / "three"], before | by_identifier({"three": b"4" * 90})),
                             (["reset", self.disk, 1], before)):
            kept = [self.killed(raw, words, what, before, after) for what in ("pwrite64", "fsync")]
            self.true(f"{words[0]}: calls that were killed: {kept}", min(kept) > 2)

    def killed(self, raw, words, what, before, after):
        """Makes the call until it isn't killed at the next one of these system calls. Returns how often it was killed."""
        count, status = 0, None
        while status != 0:
            count += 1
            self.disk.write_bytes(raw)
            inject = ["strace", "-f", "-qq", "-o", "/dev/null", "-e", f"trace={what}", "-e", f"inject={what}:signal=KILL:when={count}"]
            status, out, _ = self.call(*words, before=inject)
            where, found, verdict = f"{words[0]}, {what} {count}", self.shards(), self.verdict()
            self.true(f"{where}: {verdict}", verdict == "verdict sound" or status != 0 and verdict == "verdict doubt")
            self.true(f"{where}: status {status}, {out}", found == after if status == 0 else found in (before, after) and not out)
        self.same("the next call", (self.call("merge", self.disk)[0], self.verdict(), self.shards()), (0, "verdict sound", after))
        return count - 1

    def test_reclamations(self):
        """The node goes on with the disk that act/reclaim has left."""
        need(*PUT_TOOLS)
        choice, held, sizes = random.Random(1), {}, (64, 16, 7)
        self.make(*sizes)
        for number in range(9):
            if number > 5:
                self.reclaim(geometry(*sizes), choice)
            files = {f"name {choice.randrange(6)}": choice.randbytes(choice.randrange(90)) for _ in range(3)}
            self.same(f"{number}: put", self.put(files)[0], 0)
            held |= files
            self.same(f"{number}: after it", (self.verdict(), self.shards()), ("verdict sound", by_identifier(held)))

    def reclaim(self, sizes, choice):
        """Resets an extent of those that reclaimable lists."""
        last = self.ask("superblocks").stdout.decode().split(" counts")[0].split()[-1]
        listed = self.ask("reclaimable", *sizes, "--last", last).stdout.decode()
        extent = choice.choice(re.findall(r"^reclaim (\d+) ", listed, re.M))
        words = ["--last", last, "--reset", extent, "--yes", "--work", self.files / f"walk {last}", self.disk]
        done = subprocess.run([TOP / "act/reclaim", *words], env=os.environ | {"SHARDSCRUB": self.program}, capture_output=True, text=True)
        self.true("it was reset", f"done: superblock {int(last) + 1} counts, with the pointer 0 for extent {extent};" in done.stdout, done)


class Refusals(FileCase):
    def test_what_is_refused(self):
        """With one line, and the disk stays as it is."""
        self.make()
        self.put({"one": b"1" * 500, "two": b"2" * 10})
        (self.files / "empty").write_bytes(b"")
        raw, (disk, one) = self.disk.read_bytes(), (self.disk, self.files / "one")
        for words, status, text in (
                (["new", disk, *geometry(64, 16, 6)], 3, f"{disk}: File exists"),
                (["merge", self.files], 3, f"{self.files}: Is a directory"),
                (["merge", self.files / "empty"], 1, "there is no superblock of this node"),
                (["delete", disk, "two", "three"], 1, "there is no shard of three"),
                (["reset", disk, 6], 2, "this disk has the extents 1 to 5 for chunks"),
                (["reset", disk, 0], 2, "this disk has the extents 1 to 5 for chunks"),
                (["put", disk, "--chunk", 987, one], 2, "a chunk of this disk has 1 to 986 bytes"),
                (["put", disk, "--chunk", 0, one], 2, "a chunk of this disk has 1 to 986 bytes"),
                (["put", disk, "--chunk", 953, "--sealed", one], 2, "a chunk of this disk has 1 to 952 bytes"),
                (["put", disk, "--chunk", 7, one], 1, "one has more than 64 chunks of 7 bytes"),
                (["put", disk, self.files / "three"], 3, f"{self.files / 'three'}: No such file or directory")):
            self.same(words, self.call(*words), (status, "", f"node: {text}\n"))
        self.same("the disk", disk.read_bytes(), raw)
        disk.write_bytes(raw[:512] + record(64, 16, 6, [0] * 5, [], 9, [2]).ljust(512, b"\0") + raw[1024:])
        self.same("retired", self.call("merge", disk), (1, "", "node: a superblock retires extents, which this node can't do\n"))
        disk.write_bytes(raw[:512] + record(64, 16, 6, [0] * 5, [], 2 ** 64 - 1).ljust(512, b"\0") + raw[1024:])
        self.same("generation", self.call("merge", disk), (1, "", "node: the generation is the greatest that there is\n"))

    def test_wrong_words(self):
        for words in ([], ["get", self.disk], ["put", self.disk], ["merge"], ["reset", self.disk], ["reset", self.disk, "x"]):
            status, out, error = self.call(*words)
            self.same(words, (status, out, error.startswith("usage: ")), (2, "", True))
        sizes = "this node's disks have 3 extents or more; docs/FORMAT.md has the other limits"
        for numbers, text in (((32, 16, 4), sizes), ((96, 16, 4), sizes), ((64, 0, 4), sizes), ((64, 16, 2), sizes),
                              ((65536, 1025, 4), sizes), ((65536, 1024, 65), sizes),
                              ((64, 4, 4), "extent 0 has no room for two superblocks")):
            self.same(numbers, self.call("new", self.disk, *geometry(*numbers)), (2, "", f"node: {text}\n"))
        names = TOP / "README.md", TOP / "examples/README.md"
        self.same("two files", self.call("put", self.disk, *names), (2, "", "node: two files have one name\n"))
        self.true("no disk was made", not self.disk.exists())

    def test_another_call_has_the_disk(self):
        self.make()
        with open(self.disk) as file:
            fcntl.flock(file, fcntl.LOCK_EX)
            self.same("merge", self.call("merge", self.disk), (1, "", f"node: another call has {self.disk}\n"))

    def test_damage(self):
        """A damaged chunk or run isn't copied. With the file put again the extent can be reset, and the disk is sound."""
        self.make()
        self.put({"one": b"1" * 50, "two": b"2" * 50})
        whole = self.disk.read_bytes()
        raw = bytearray(whole)
        raw[1024 + 22 + 7] ^= 1
        self.disk.write_bytes(raw)
        self.same("reset", self.call("reset", self.disk, 1), (1, "", "node: the chunk at 1:0 is damaged\n"))
        self.same("the disk", self.disk.read_bytes(), raw)
        self.same("put again", self.put({"one": b"1" * 50}), (0, "generation 3\n", ""))
        self.same("reset again", self.call("reset", self.disk, 1), (0, "generation 4\n", ""))
        self.same("the shards", (self.verdict(), self.shards()), ("verdict sound", by_identifier({"one": b"1" * 50, "two": b"2" * 50})))
        raw = bytearray(whole)
        raw[1024 + 2 * 88 + 60] ^= 1
        self.disk.write_bytes(raw)
        self.same("with a damaged run", self.call("list", self.disk), (1, "", "node: the chunk at 1:176 is damaged\n"))


class Pages(Case):
    def test_functions_that_format_names(self):
        text = (TOP / "docs/FORMAT.md").read_text(encoding="utf-8")
        sentences = re.findall(r"[^.\n]*\[examples/node\]\(\.\./examples/node\)", text)
        named = {name for sentence in sentences for name in re.findall(r"`(\w+)`", sentence)}
        self.true("FORMAT names functions", len(named) > 5, named)
        self.same("functions that examples/node lacks", [name for name in sorted(named) if f"def {name}(" not in SCRIPT], [])
