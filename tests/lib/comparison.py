"""Compares a program with the reference on made-up disks, byte for byte: report, index, summary, named locators with copies,
manifests with resets, superblocks, items, what may be reclaimed, sizes, bytes of one shard and of all, and the status and error stream of each;
with the sizes and, where they may be left out, without them; with right and wrong generations for --last. Some disks have a map of
GNU ddrescue, and some of these maps are refused. Some texts to accept, extents, pointers and identifiers are refused, too. What
`shard` prints also has to agree with what the program prints by `manifest` and `scan`. On made-up pairs of images it compares `compare`."""
import json
import os
import random
import subprocess
from collections import Counter
from hashlib import sha256
from types import SimpleNamespace
from typing import NamedTuple

from lib.disks import geometry
from lib.made_up import History, Made, Tended, made_pair
from reference.shardscrub import ACCEPTABLE, answered, choose, claims_in, disk_of, is_any_gone, read_arguments, refusal, scrub


# What shard prints, beside the manifest and the report. The reference has no part in it

# Where the payload of a frame begins in it, and its mark, by its first two bytes.
BEGINS = {b"\xc5\x5e": (22, b""), b"\xc5\x5f": (54, b"\x3a\xa3")}
DOUBT = b"shardscrub: a newer entry may be lost\n"
LOST_PAGE, TIE = b"shardscrub: superblock lost: ", b"shardscrub: tie\n"
NONE = b"shardscrub: no such shard\n"
# The length and the digest of no bytes.
EMPTY = "0", sha256(b"").hexdigest()


class Locator(NamedTuple):
    """A locator of a shard, as the manifest has it: its number in the entry, the length and the digest of the payload, and
    whether it dangles without a copy, and asks for bytes."""
    number: str
    length: int
    digest: str
    is_lost: bool


def without_remarks(error):
    """The lines of the error stream that are remarks on superblocks, and the others."""
    lines = error.splitlines(keepends=True)
    remarks = [line for line in lines if line.startswith((LOST_PAGE, TIE))]
    return remarks, b"".join(line for line in lines if line not in remarks)


class Listed:
    """What the program printed of a disk: its manifest and its report. `raw` has the bytes of the image."""

    def __init__(self, raw, manifest, report):
        self.raw, self.report, self.shards = raw, json.loads(report), {}
        for words in map(str.split, manifest.decode().splitlines()):
            if words[0] == "shard":
                _, identifier, number, length, digest, *rest = words
                of_shard = self.shards.setdefault(identifier, [])
                of_shard.append(Locator(number, int(length), digest, rest[-1] == "none" and (length, digest) != EMPTY))

    def payloads(self):
        """The payload of each frame at any byte of an extent in use, also past its pointer, but of those that are crowded."""
        size = self.report["geometry"]["page"] * self.report["geometry"]["pages"]
        for row in self.report["extents"]:
            begin, frames = row["extent"] * size, []
            text = self.raw[begin:begin + size]
            for at in range(len(text)):
                if text[at:at + 2] in BEGINS:
                    frames += self.frame(row, text, at)
            if sum(map(len, (payload for payload, _ in frames))) <= 4 * size:
                yield from (payload for payload, is_whole in frames if is_whole)

    def frame(self, row, text, at):
        """The payload of the frame at a byte of an extent, and whether it has the digest of its seal; none if there is no frame, or a page
        of it can't be read."""
        begin, mark = BEGINS[text[at:at + 2]]
        length = int.from_bytes(text[at + 18:at + 22], "big")
        end = at + begin + length
        stop, page = end + 16 + len(mark), self.report["geometry"]["page"]
        if text[end:stop] != text[at + 2:at + 18] + mark or any(at < (bad + 1) * page and bad * page < stop for bad in row["bad"]):
            return []
        payload = text[at + begin:end]
        return [(payload, begin == 22 or text[at + 22:at + 54] == sha256(payload).digest())]

    def laws(self, identifier, answer):
        """For the answer of `shard` with this identifier, each law that it has to keep, and whether it does."""
        status, printed, whole_error = answer
        remarks, error = without_remarks(whole_error)
        locators = self.shards.get(identifier, [])
        lost = [locator for locator in locators if locator.is_lost]
        yield "the status is 0 just if nothing is said", (status == 0) == (whole_error == b"")
        yield "there is no such shard just if the manifest has none", (error == NONE) == (locators == [])
        yield "a payload is lost just if the manifest says so", error.startswith(b"shardscrub: payload lost: ") == (lost != [])
        if locators and not lost:
            yield from self.laws_of_bytes(locators, printed)
            yield "a newer entry may be lost just if the report says so", (error == DOUBT) == (identifier in self.report["doubtful"])
            yield "nothing else is said", error in (b"", DOUBT)
            yield "a tie is said just if the report says so", (TIE in remarks) == self.report["super"]["tie"]
            yield "each unreadable page of extent 0 is said", {b"%s%d\n" % (LOST_PAGE, g) for g in self.report["super"]["bad"]} <= {*remarks}
        else:
            yield "the status is 1, and nothing is written", (status, printed, remarks) == (1, b"", [])
        if lost:
            first = lost[0]
            yield "the number is that of the first lost payload", error == f"shardscrub: payload lost: {first.number}\n".encode()
            yield "no frame has the lost payload", not any(
                len(payload) == first.length and sha256(payload).hexdigest() == first.digest for payload in self.payloads())

    def laws_of_bytes(self, locators, printed):
        """The bytes are payloads with the lengths and the digests of the manifest, one directly after another."""
        begin = 0
        for locator in locators:
            payload = printed[begin:begin + locator.length]
            yield f"payload {locator.number} has its length and digest", (
                len(payload) == locator.length and sha256(payload).hexdigest() == locator.digest)
            begin += locator.length
        yield "nothing comes after the last payload", len(printed) == begin


# Disks

COMMANDS = ("scan", "index", "summary", "locators", "shards", "superblocks", "manifest", "runs", "reclaimable", "sizes", "items", "shard")
# Those for which the sizes may be left out, except `items` and `shard`, which need more.
LOOKING = ("scan", "summary", "locators", "shards", "superblocks")
# How many known shards of a disk are asked for.
MOST_SHARDS = 3
# Texts that aren't an identifier.
NO_IDENTIFIERS = ("", "0", "0" * 31, "0" * 33, "g" + "0" * 31, " " + "0" * 31, "0x" + "0" * 30, "0" * 31 + "\n", "\uff10" * 32,
                  "00000000-0000-0000-0000-000000000001", "+" + "0" * 31)


def texts_to_accept(c, doubts):
    """Lines, some of which stand for no line of the disk, and a few texts that are refused."""
    texts = []
    for line in doubts:
        if c.random() < (.01 if refusal(line) else .8):
            texts.append(line)
        if c.random() < (.01 if refusal(line) else .1):
            other = line[:-1] + chr(ord(line[-1]) ^ 1)
            texts.append(c.choice([other, line + " ", line.replace(" ", "  ", 1), line[:-1], line + "0"]))
    if c.random() < .1:
        texts.append(c.choice(["tail 1 0 1", "tail-lost 0 0 0", "spare 1 2 3", "loose 1 2 3", "crowded 1", "loose ", "superblock-stray  ", "tail x"]))
    if c.random() < .03:
        texts.append(c.choice([*ACCEPTABLE, "tie", "tie 1", "run-lost", "last 1 2", "no-superblock", "Tail 1 0 1", " tail 1 0 1",
                               "superblock-lost 1", ""]))
    c.shuffle(texts)
    return texts


def generation_for_last(c, disk):
    """A generation for --last: mostly the one that counts, else one near it or any other."""
    counts = choose(disk.disk())["generation"]
    others = [0, 1, 2 ** 64 - 1, c.randrange(2 ** 64)]
    if counts is None or c.random() < .1:
        return c.choice(others)
    return counts if c.random() < .7 else c.choice([max(counts, 1) - 1, min(counts + 1, 2 ** 64 - 1)])


def extents_to_reset(c, extents):
    """Lists of extents: one, several, and sometimes one that is out of range."""
    lists = [[c.randrange(1, extents)], [c.randrange(1, extents) for _ in range(c.choice([2, 3]))], list(range(1, extents))]
    some = c.sample(lists, 2)
    if c.random() < .05:
        some[0].insert(c.randrange(2), c.choice([0, extents, 2 ** 32 - 1]))
    return some


def extent_to_list(c, made):
    """The options of `items`: an extent and mostly a pointer, sometimes out of range."""
    extent = made.e if c.random() < .05 else c.randrange(made.e)
    pointer = c.choice([c.randrange(made.size + 1), made.size, made.size + c.randrange(2), *made.w])
    return ["--extent", str(extent), *(["--pointer", str(pointer)] if c.random() < .8 else [])]


def in_other_case(c, text):
    """An identifier in upper or mixed case."""
    return text.upper() if c.random() < .7 else "".join(c.choice([letter, letter.upper()]) for letter in text)


class Words(NamedTuple):
    """The arguments of a call: its command, the options of the command alone, and those that all commands share. `of_shard` is
    the identifier of the shard if the call has the sizes, the map and the pairs that `scan` and `manifest` get."""
    command: str
    own: list
    shared: list
    of_shard: str | None = None

    def all(self):
        return [self.command, *self.own, *self.shared]


class MadeUp(NamedTuple):
    """A made-up disk: how it was made, the options with its sizes, its map, its image, and its pairs."""
    made: Made
    sizes: list
    map: list
    image: str
    pairs: list

    def shared(self):
        return [*self.sizes, *self.without_sizes()]

    def without_sizes(self):
        return [*self.map, self.image, *self.pairs]

    def answer(self, *own):
        """The right status, output and error stream."""
        return answered([*own, *self.shared()])

    def disk(self):
        """The disk, without its map."""
        return disk_of(read_arguments(["scan", *self.sizes, self.image, *self.pairs]))

    def named(self):
        """The identifiers of the known shards, ascending."""
        lines = map(str.split, self.answer("locators")[1].decode().splitlines())
        return sorted({words[1] for words in lines if words[0] == "shard"})


def option(name, values):
    return [word for value in values for word in (name, str(value))]


def calls_of_shards(c, disk):
    """The calls of `shard`: for some known shards and some that aren't known, by 0 and by 3 workers, in another case, without the
    sizes, the map or the pairs; and sometimes for what isn't an identifier."""
    named = disk.named()
    others = [one.hex() for one in disk.made.identifiers if one.hex() not in named]
    some = c.sample(named, min(len(named), MOST_SHARDS)) + c.sample(others, min(len(others), 1 if named else 2))
    some.append(c.randbytes(16).hex())
    shared = [disk.sizes, disk.map, [disk.image], disk.pairs]
    for place, one in enumerate(some):
        for workers in ("0", "3") if place == 0 else (c.choice("03"),):
            yield Words("shard", ["--id", one, "--workers", workers], disk.shared(), one)
    one = some[0]
    yield Words("shard", ["--id", in_other_case(c, one)], disk.shared(), one)
    yield Words("shard", ["--workers", c.choice("03"), "--id", one], disk.without_sizes())
    for place in (1, 3):
        if shared[place]:
            yield Words("shard", ["--id", c.choice(some)], sum(shared[:place] + shared[place + 1:], []))
    if c.random() < .1:
        yield Words("shard", ["--id", c.choice(NO_IDENTIFIERS)], c.choice([disk.shared(), disk.without_sizes()]))


def runs_to_give(c, disk):
    """Places of index runs to give: some that are found, in any order, or those that the superblock lists; seldom none at all, and
    sometimes one twice, one that is none, or a word that is refused."""
    found = [f"{words[1]}:{words[2]}" for words in map(str.split, disk.answer("runs")[1].decode().splitlines()) if words[0] == "run"]
    own = [f"{one['extent']}:{one['offset']}" for one in choose(disk.disk())["runs"] if one["extent"]]
    places = own if own and c.random() < .4 else c.sample(found, c.randint(min(len(found), 1), len(found)))
    if places and c.random() < .2:
        places.insert(c.randrange(len(places) + 1), c.choice(places))
    if c.random() < (.1 if places else .9):
        e, o = c.randrange(1, disk.made.e), c.randrange(disk.made.size)
        others = [f"{e}:{o}", f"{e}:{disk.made.size}", f"0:{o}", f"{disk.made.e}:0", f"{e}:", f"+{e}:{o}", f"{e}:{2 ** 32}", f"{e},{o}", "run"]
        places.insert(c.randrange(len(places) + 1), c.choice([*others[:1] * 8, *others]))
    return option("--run", places)


def calls_by_runs(c, disk):
    """The calls of `runs`, those by runs that are given, and those for the parts of broken shards."""
    shared, named = disk.shared(), disk.named()
    yield Words("runs", ["--workers", c.choice("03")], shared)
    yield Words("shards", ["--partial"], c.choice([shared, disk.without_sizes()]))
    yield Words("shards", [*runs_to_give(c, disk), *["--partial"] * (c.random() < .5)], c.choice([shared, shared, disk.without_sizes()]))
    yield Words("manifest", runs_to_give(c, disk), shared)
    one = c.choice([*named, *(some.hex() for some in disk.made.identifiers), c.randbytes(16).hex()])
    yield Words("shard", ["--id", one, *runs_to_give(c, disk)], shared)


def calls(c, disk):
    """The arguments of each call on a made-up disk."""
    shared = disk.shared()
    # The doubts of a disk with a refused map are those without the map.
    accepting = disk._replace(map=[]) if disk.answer("scan")[0] == 2 else disk
    listed = accepting.answer("reclaimable")[1].decode().splitlines()
    doubts = [line.partition(" ")[2] for line in listed if line.startswith("doubt ")]
    accepted, resets = option("--accept", texts_to_accept(c, doubts)), extents_to_reset(c, disk.made.e)
    last, other = (["--last", str(generation_for_last(c, disk))] for _ in range(2))
    yield from (Words(command, [], shared) for command in ("scan", "index", "summary", "locators", "shards", "superblocks"))
    yield from (Words("manifest", option("--reset", extents), shared) for extents in ([], *resets))
    yield from (Words("reclaimable", own, shared) for own in ([], accepted, last, other + accepted))
    yield Words("summary", c.choice([last, other]), c.choice([shared, disk.without_sizes()]))
    yield Words("sizes", [], [*disk.map, disk.image])
    yield from (Words(command, [], disk.without_sizes()) for command in LOOKING)
    yield Words("items", extent_to_list(c, disk.made), shared)
    yield Words("items", extent_to_list(c, disk.made), disk.without_sizes())
    yield from calls_of_shards(c, disk)
    yield from calls_by_runs(c, disk)


def kind_of(command, words):
    """What is counted of a line: its first words, its status, and what a summary says."""
    first, *rest = words
    if command == "locators":
        return first if first in ("spare", "loose") else f"{first} {words[-1]}"
    if command == "manifest":
        return {"shard": lambda: " ".join(["shard", words[5]] + (words[-1:] if words[5] != "hidden" else [])),
                "runs": lambda: "runs" + " lost" * (words[2] != "0") + " hidden" * (words[4] != "0"),
                "retired": lambda: "retired" + " some" * (rest != [])}.get(first, lambda: first)()
    if command == "reclaimable":
        return " ".join({"doubt": words[:2], "accepted": words[:2], "move": [first, *words[5:6]]}.get(first, [first]))
    if command == "superblocks":
        return " ".join([first, *words[4:5]]) if first == "record" else first
    if command == "summary":
        return " ".join(words) if first == "verdict" else None
    if command == "runs":
        return f"run, at {min(len(words) - 6, 2)} places of extent 0" if first == "run" else first
    return words[1] if command == "sizes" and first != "lost" else first


def kinds_of_shard(listed, identifier, error, deleted):
    """What is counted of a call of `shard` that isn't refused: why there is no such shard, or what its payloads come from."""
    if "no such shard" in error:
        return {"no superblock" if listed == [["no-superblock"]] else "deleted" if identifier in deleted else "unknown"}
    locators = [words for words in listed if words[:2] == ["shard", identifier]]
    places = {"sound": "sound", "hidden": "hidden"}
    kinds = {"nowhere, of no bytes" if words[-1] == "none" and tuple(words[3:5]) == EMPTY
             else places.get(words[5], words[-1]) + " of length 0" * (words[3] == "0") for words in locators}
    if "payload lost" in error:
        return {"lost of length 0" if kind == "none of length 0" else "lost" for kind in kinds if kind.startswith("none")}
    return kinds | ({"doubtful"} if DOUBT.decode() in error else {"not doubtful"})


def deleted_on(found):
    """The identifiers of the shards whose newest entry has no locator."""
    newest = {}
    for one in found.runs:
        for identifier, locators in one.entries or []:
            newest.setdefault(identifier.hex(), locators)
    return {identifier for identifier, locators in newest.items() if not locators}


def count(seen, report, disk, calls):
    """Counts the findings of the disk, and the kinds of lines and statuses of its answers."""
    page = report["geometry"]["page"]
    for key in ("broken", "candidates", "dangling", "doubtful", "hidden", "orphans", "shared", "twins", "retired"):
        seen[f"scan: {key}"] += bool(report[key])
    seen.update({"scan: run " + x["state"] for x in report["runs"]})
    seen.update({"scan: " + x.split()[0] for e in report["extents"] for x in e["items"]})
    seen["scan: tie"] += report["super"]["tie"]
    seen["scan: several runs"] += len(report["runs"]) > 1
    seen["scan: entries that are older or deletions"] += sum(x["entries"] or 0 for x in report["runs"]) > report["shards"]
    seen["scan: tail"] += any(e["tail"] for e in report["extents"])
    seen["scan: nothing planned"] += not report["extents"]
    seen["scan: a byte between the pointer and the next page, behind padding"] += any(
        e["tail"] and e["items"] and e["items"][-1].startswith("pad") and e["pointer"] // page == e["tail_at"] // page
        for e in report["extents"])
    listed = [line.split() for line in disk.answer("manifest")[1].decode().splitlines()]
    found = scrub(disk_of(read_arguments(["scan", *disk.shared()])))
    deleted, is_lost = deleted_on(found), is_any_gone(found)
    for f in found.scanned:
        most, total = 4 * found.image.size, sum(claim.length for _, claim in claims_in(found.image, f.extent))
        kind = "crowded" if total > most else "crowded but for a byte" if total == most else "nearly crowded" if total > most - 64 else None
        seen[f"extents: {kind}{', and a payload is lost' * is_lost}"] += kind is not None
    of_shards = set()
    for call in calls:
        status, printed, error = call.right
        with_option = "".join(sorted({f" {word}" for word in call.words if word in ("--accept", "--last", "--partial", "--reset", "--run")}))
        without = " without sizes" * (call.command != "sizes" and "--page" not in call.words)
        seen[f"{call.command}{with_option}{without}: status {status}"] += 1
        if call.of_shard:
            of_shards |= kinds_of_shard(listed, call.of_shard, error.decode(), deleted)
        elif call.command == "shards":
            seen.update(f"shards{with_option}{without}: {kind}" for kind in {line.split(":")[1].strip() for line in error.decode().splitlines()})
        elif call.command not in ("scan", "index", "shard"):
            kinds = {kind_of(call.command, line.split()) for line in printed.decode().splitlines()}
            seen.update(f"{call.command}{without}: {kind}" for kind in kinds - {None})
    seen.update(f"shard: {kind}" for kind in of_shards)


class Call(NamedTuple):
    """A call of the program: its command, all its words, the right status, output and error stream, and its `Words.of_shard`."""
    command: str
    words: list
    right: tuple
    of_shard: str | None

    def found(self, program):
        """The status, the output and the error stream of this program."""
        done = subprocess.run([program, *self.words], stdin=subprocess.DEVNULL, capture_output=True)
        return done.returncode, done.stdout, done.stderr

    def line(self):
        return " ".join(repr(word) if not word or set(word) & set(" \n") else word for word in self.words)


class Comparison(NamedTuple):
    """A made-up disk in a folder: the bytes of its image, the calls to compare, and the kinds of lines in the right answers, with
    the findings of the disk."""
    raw: bytes
    calls: list
    seen: Counter

    def laws(self, found):
        """Yields the laws that what a program answered to the calls of `shard` has to keep: the call, the answer, the law, and whether
        it is kept. There are none if the program printed no manifest or no report."""
        first = {}
        for call, answer in zip(self.calls, found):
            first.setdefault(call.command, answer)
        if not {first["scan"][0], first["manifest"][0]} <= {0, 1}:
            return
        listed = Listed(self.raw, first["manifest"][1], first["scan"][1])
        for call, answer in zip(self.calls, found):
            if call.of_shard:
                yield from ((call, answer, law, is_kept) for law, is_kept in listed.laws(call.of_shard, answer))


def written(made, unreadable, text, folder):
    """The made-up disk with its files in this folder: the image, and the map if it has one."""
    image, map_file = os.path.join(folder, "image"), os.path.join(folder, "map")
    for path, content in ((image, made.raw), (map_file, text)):
        if content is not None:
            with open(path, "wb") as file:
                file.write(content)
    return MadeUp(made, geometry(made.p, made.n, made.e), [] if text is None else ["--map", map_file], image,
                  [f"{e}:{g}" for e, g in unreadable])


def compared(seed, turn, folder):
    """Makes up the disk of this seed and turn, and writes its image, and its map if it has one, into this folder."""
    c = random.Random(seed * 1_000_003 + turn)
    made = (Made, Tended, History, Tended)[turn % 4](c)
    unreadable = made.make()
    text = made.map() if c.random() < (.5 if turn % 4 == 0 else .2) else None
    disk = written(made, unreadable, text, folder)
    given = [Call(words.command, words.all(), answered(words.all()), words.of_shard) for words in calls(c, disk)]
    status, report, _ = disk.answer("scan")
    seen = Counter({"map": text is not None, "map refused": status == 2})
    if status != 2:
        count(seen, json.loads(report), disk, given)
    return Comparison(bytes(made.raw), given, seen)


# Pairs

def kind_of_change(line):
    """What is counted of a line: its first words, and of a manifest's line its status."""
    words = line.split()
    if words[0] == "doubt":
        return " ".join(words[:3])
    if words[0] == "named":
        return f"named {words[1]} {words[-1]}"
    if words[0] in ("lost", "new", "spare", "loose"):
        return " ".join([*words[:2], *words[6:7]])
    return f"{words[0]} 0" if words[:2] == ["written", "0"] else words[0]


class ComparedPair(NamedTuple):
    """A made-up pair in a folder: the calls to compare, and what was written with the kinds of lines in the right answers."""
    calls: list
    seen: Counter

    def laws(self, found):
        return ()


def words_of_pair(choice, pair, folder):
    """Writes the files of a pair, and a map for some; the words of each call."""
    names = [os.path.join(folder, name) for name in ("before", "after", "map")]
    texts = [pair.before.raw, pair.after.raw]
    is_mapped = choice.random() < .1
    if is_mapped:
        texts.append(Made.map(SimpleNamespace(c=choice, raw=pair.before.raw, p=pair.before.page)))
    for name, text in zip(names, texts):
        with open(name, "wb") as file:
            file.write(text)
    before, after, map_file = names
    own = ["compare", *geometry(pair.before.page, pair.before.pages, pair.before.extents), *["--map", map_file] * is_mapped]
    pages = [f"{e}:{g}" for e, g in sorted(pair.before.unreadable)]
    others = [choice.randrange(0 if choice.random() < .02 else 1, pair.before.extents) for _ in range(choice.choice([1, 2]))]
    for resets, first, second in ((pair.resets, before, after), (others, before, after), (pair.resets, after, before),
                                  (pair.resets, after, after)):
        yield [*own, "--workers", choice.choice("03"), *option("--reset", resets), first, second, *pages]


def compared_pair(seed, turn, folder):
    """Makes up the pair of this seed and turn, and writes its files into this folder."""
    choice = random.Random(f"{seed} {turn}")
    pair = made_pair(choice)
    calls = [Call("compare", words, answered(words), None) for words in words_of_pair(choice, pair, folder)]
    seen = Counter(f"compare: written: {kind}" for kind in pair.written)
    for number, call in enumerate(calls):
        seen[f"compare: status {call.right[0]}"] += 1
        if number == 0:
            seen[f"compare: status {call.right[0]} of the pair as it was written"] += 1
        seen.update({f"compare: {kind_of_change(line)}" for line in call.right[1].decode().splitlines()})
    return ComparedPair(calls, seen)
