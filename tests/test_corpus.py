"""Each disk of the corpus (tests/lib/corpus.py) beside the slow reference: what each command prints, byte for byte, its error stream and
its status, by the caller alone and by workers; and what `tar` finds in the archive of all shards.
"""
import io
import re
import shlex
import tarfile
from itertools import cycle
from pathlib import Path

from lib.cases import RoomCase, add_tests
from lib.corpus import EACH_PAGE, PAIRS, ROWS, wrong_seals
from lib.disks import Disk, geometry, shard
from lib.worked import EXTENTS, PAGE, PAGES, many_shards
from reference.shardscrub import SCANS, answered
from test_system import answer

# What is called on each disk. Some calls are made by the caller alone and by three workers, and so are all calls on the first disk of a row;
# of the others both take turns.
CALLS = ("scan", "index", "summary", "locators", "manifest", "manifest --reset 1", "runs", "shards", "shards --partial", "reclaimable",
         "superblocks", "items --extent 1")
BY_BOTH = "scan", "reclaimable"
# The kinds of doubts that can be accepted begin these lines.
DOUBT = re.compile(r"^doubt ((?:superblock-damaged|superblock-stray|spare|loose|crowded|tail|tail-lost) .*)$", re.M)
# So many shards aren't asked for one by one.
MANY = 20


def accepting_all(text):
    """The call that accepts all doubts of these lines that can be accepted, if there are any."""
    words = [word for line in DOUBT.findall(text) for word in ("--accept", line)]
    return [shlex.join(["reclaimable", *words])] if words else []


def with_last(text):
    """The call with the generation that counts as the last one, if a superblock counts."""
    return [f"reclaimable --last {number}" for number in re.findall(r"^superblock_generation (\d+)$", text, re.M)]


def members(archive):
    """The files of a tar archive, by name, in their order."""
    with tarfile.open(fileobj=io.BytesIO(archive)) as files:
        return {file.name: files.extractfile(file).read() for file in files}


class CorpusCase(RoomCase):
    """Disks in a file, beside the reference."""

    def put(self, made):
        """Writes a disk. Returns it, the words for its sizes and its file, its unreadable pages, and the words of further calls."""
        disk, *texts = made if isinstance(made, tuple) else (made,)
        path = self.room / "disk.img"
        path.write_bytes(disk.bytes)
        pages = [text for text in texts if re.fullmatch(r"\d+:\d+", text)]
        return disk, [*disk.geometry(), str(path)], pages, [text for text in texts if text not in pages]

    def compare(self, words, numbers=(), **limits):
        """Compares an answer with that of the reference, by each of these numbers of workers. Returns the right one."""
        right = answered(words)
        for given in [["--workers", number] for number in numbers] or [[]]:
            self.same(" ".join([*words, *given]), answer(*words, *given, **limits), right)
        return right


class Rows(CorpusCase):
    def check(self, make):
        """The disks of a row."""
        for number, made in enumerate(make()):
            self.turns = cycle(["03"] if number == 0 else "30" if number % 2 else "03")
            _, image, pages, more = self.put(made)
            words = [*image, *pages]
            right = {line: self.call(line, words) for line in CALLS}
            text = {line: right[line][1].decode() for line in ("reclaimable", "summary", "locators")}
            for line in [*more, *accepting_all(text["reclaimable"]), *with_last(text["summary"])]:
                self.call(line, words)
            self.check_shards(words, text["locators"], members(right["shards"][1]))
            self.check_without_sizes(image[-1:], pages)

    def call(self, line, behind):
        """A command with words of its own, before those for the disk. Returns the right answer."""
        command, *own = shlex.split(line)
        return self.compare([command, *own, *behind], () if command not in SCANS else "03" if line in BY_BOTH else next(self.turns))

    def check_shards(self, words, located, files):
        """The bytes of shards, by themselves and in the archive: of the first two, and of those with locators, unless they are many."""
        named = sorted({shard(1).hex(), shard(2).hex(), *re.findall(r"^shard (\S+)", located, re.M)})
        for name in named if len(named) < MANY else [*named[:2], named[-1]]:
            _, printed, error = self.call(f"shard --id {name}", words)
            has_bytes = b"payload lost" not in error and b"no such shard" not in error
            self.same(f"{name} among all shards", files.get(name), printed if has_bytes else None)

    def check_without_sizes(self, image, pages):
        """Sizes that are left out are found, or refused."""
        for command, *words in (["sizes", *image], ["superblocks", *image, *pages], ["shard", "--id", shard(1).hex(), *image, *pages]):
            self.compare([command, *words])


class EachPage(CorpusCase):
    """Disks whole and with each page unreadable in turn, and the items of each extent."""

    def check(self, make):
        disk, image, bad, _ = self.put(make())
        for page in (None, *(f"{extent}:{page}" for extent in range(disk.extents) for page in range(disk.pages))):
            words = [*image, *bad, *[page] * (page is not None)]
            for command in ("scan", "locators", "index", "manifest"):
                self.compare([command, *words], "03" if command == "scan" else ())
        for extent in range(disk.extents):
            self.compare(["items", "--extent", str(extent), *image, *bad])

    def test_wrong_seals(self):
        """One worker scans all extents, and keeps its memory from one to the next."""
        for made in wrong_seals():
            _, image, bad, _ = self.put(made)
            self.compare(["scan", *image, *bad], "0")


class Pairs(CorpusCase):
    def check(self, given):
        """Two images of a disk, by the caller alone and by three workers."""
        before, after, *lines = given
        sizes = before.geometry() if isinstance(before, Disk) else geometry(PAGE, PAGES, EXTENTS)
        paths = [str(self.room / name) for name in ("before", "after")]
        for path, image in zip(paths, (before, after)):
            Path(path).write_bytes(image.bytes if isinstance(image, Disk) else image)
        for line in lines:
            options, pages = ([word for word in line.split() if (":" in word) == is_page] for is_page in (False, True))
            self.compare(["compare", *sizes, *options, *paths, *pages], "03")


class Workers(CorpusCase):
    def test_any_number_of_workers_gives_the_same(self):
        """On a disk of many shards, half of which is garbage."""
        _, image, *_ = self.put(many_shards(is_halved=True))
        for command in ("locators", "reclaimable", "manifest", "summary", "scan", "shards", "index", "runs"):
            self.compare([command, *image], ("0", "1", "2", "3", "7", "64"))
        for number in (1, 38):
            self.compare(["shard", "--id", shard(number).hex(), *image], ("0", "1", "2", "3", "7", "64"))


add_tests(Pairs, Pairs.check, PAIRS.items())
add_tests(Rows, Rows.check, ROWS.items())
add_tests(EachPage, EachPage.check, EACH_PAGE.items())
