"""The sources of a dead node's disk: which superblocks and lists of index runs there are, what can be read of a damaged one, and which
of them act/rescue takes first."""
import argparse
import os
import re
import shutil
import subprocess
import sys
from collections.abc import Iterator
from functools import cached_property
from pathlib import Path
from typing import IO, NamedTuple

sys.dont_write_bytecode = True
ACT = Path(__file__).resolve().parent
sys.path.insert(0, str(ACT.parent / "reference"))
sys.path.insert(0, str(ACT))
import shardscrub  # noqa: E402
from maps import disk_of, one_map  # noqa: E402

DIGEST, LOCATOR = 32, 60
# The bytes of a record before its pointers, by its kind; and those of them before its counts of runs and of retired extents.
HEADS, SIZED = {b"SSB1": 26, b"SSB2": 28}, 24
# How many runs a record lists at most. Up to this many bytes of a record each bit is tried. A write may end after any so many bytes, or
# after a page if that is smaller.
MOST_RUNS, MOST_TRIED, SECTOR = 32, 8192, 512
# A line of a list of runs: its number, its extent, its offset, its length and its UUID.
RUN_LINE = re.compile(r"run (\d{1,9}) (\d{1,10}) (\d{1,10}) (\d{1,10}) ([0-9a-f]{8}(?:-[0-9a-f]{4}){3}-[0-9a-f]{12})(?: .*)?", re.ASCII)


class Fault(Exception):
    """There is no answer: the status, and why."""


class Run(NamedTuple):
    """An index run that a source lists."""
    extent: int
    offset: int
    length: int
    uuid: bytes

    def word(self) -> str:
        return f"--run={self.extent}:{self.offset}"


class Source(NamedTuple):
    """Where the runs are from: those that it lists, the newest first, and those of them that aren't there. It should have so many. If it
    `is_counting`, the program finds them itself, else they are given to it. `doubts` say why it may be wrong."""
    text: str
    listed: list[Run]
    lacks: list[Run]
    count: int
    doubts: list[str]
    is_counting: bool = False

    def runs(self) -> list[Run]:
        return [run for run in self.listed if run not in self.lacks]

    def given(self) -> list[str]:
        return [run.word() for run in self.runs()]

    def words(self) -> list[str]:
        return [] if self.is_counting else self.given()

    def line(self) -> str:
        return f"{self.text}: {len(self.runs())} of {self.count} runs"


class Damaged(NamedTuple):
    """What can be read of a damaged record: its page, the generation in its bytes, how many runs it should have, those of its list that
    are there, by their number, and whether its writing didn't end."""
    page: int
    generation: int
    count: int
    runs: dict[int, Run]
    is_torn: bool

    def is_whole(self) -> bool:
        return len(self.runs) == self.count


class Remains(NamedTuple):
    """What extent 0 has: the records, by their page, with those that are whole but for what their digest shows, and the pages of these;
    the page of the one that counts; the damaged ones that are newer; and whether a page speaks against the one that counts. A damaged one
    that is older doesn't: of a newer one its write would have left no more than old bytes."""
    records: dict[int, shardscrub.Record]
    mended: set[int]
    counts: int | None
    damaged: list[Damaged]
    is_doubtful: bool

    def pages(self, generation: int | None) -> list[int]:
        """The pages with the records of a generation, that of the one that counts first."""
        found = [page for page, record in self.records.items() if record.generation == generation]
        return sorted(found, key=lambda page: (page != self.counts, page))


# The image and the program

class Disk:
    """The image with its sizes, its map and its unreadable pages, as the program and the reference read it."""

    def __init__(self, given: argparse.Namespace, folder: Path):
        self.given = given
        try:
            given.map = one_map(given.map, str(folder))
        except ValueError as why:
            raise Fault(2, str(why)) from None
        self.options = [f"--map={given.map}"] if given.map else []
        if given.page is None:
            given.page, given.pages, given.extents = self.sizes()
        self.options += [f"--page={given.page}", f"--pages={given.pages}", f"--extents={given.extents}"]
        self.superblocks = self.ask("superblocks")[0]
        self.image = disk_of(given)

    def sizes(self) -> Iterator[int]:
        lines, errors, status = self.ask("sizes", pages=[])
        if status:
            raise Fault(2, "; ".join(["the sizes aren't certain: give --page, --pages and --extents, as the node's deployment has them",
                                      *lines[:4], *errors]))
        return map(int, lines[0].split()[3:6])

    def ask(self, command: str, *options: str, pages: list[str] | None = None, to: IO | int = subprocess.PIPE):
        """The lines of both outputs of the program, and its status, 0 or 1."""
        pages = self.given.unreadable if pages is None else pages
        return ran([program(), command, *self.options, *options, "--", self.given.image, *pages], to)

    @cached_property
    def order(self) -> list[Run]:
        """All runs, in the order of act/order."""
        lines, _, _ = ran([sys.executable, str(ACT / "order"), *self.options, "--", self.given.image, *self.given.unreadable])
        places = [tuple(map(int, re.findall(r"\d+", line))) for line in lines]
        return [run_of(shardscrub.run_at(self.image, *place)) for place in places]

    def is_there(self, locator: dict) -> bool:
        """Whether an index run is at the place of a locator, to the byte."""
        return self.has(run_of(locator)) and shardscrub.run_at(self.image, locator["extent"], locator["offset"]) == locator

    def has(self, run: Run) -> bool:
        """Whether an index run with this UUID and length is there."""
        is_place = 1 <= run.extent < self.image.extents and run.offset < self.image.size
        found = is_place and shardscrub.run_at(self.image, run.extent, run.offset)
        return bool(found) and run_of(found) == run


def run_of(locator: dict) -> Run:
    return Run(*(locator[key] for key in Run._fields))


def program() -> str:
    return os.environ.get("SHARDSCRUB") or shutil.which("shardscrub") or str(ACT.parent / "shardscrub")


def ran(words: list[str], to: IO | int = subprocess.PIPE) -> tuple[list[str], list[str], int]:
    try:
        done = subprocess.run(words, stdin=subprocess.DEVNULL, stdout=to, stderr=subprocess.PIPE, check=False)
    except OSError as why:
        raise Fault(3, f"{words[0]} can't be started: {why.strerror}") from None
    errors = [line.removeprefix("shardscrub: ") for line in done.stderr.decode(errors="replace").splitlines()]
    if done.returncode not in (0, 1):
        raise Fault(2 if done.returncode == 2 else 3, "; ".join(errors) or f"{words[0]} ended with status {done.returncode}")
    return (done.stdout or b"").decode().splitlines(), errors, done.returncode


# Extent 0

def remains_of(disk: Disk) -> Remains:
    image, last = disk.image, disk.given.last
    records, lines = shardscrub.records_of(image), [line.split() for line in disk.superblocks]
    counts = shardscrub.choose(image)["page"]
    newest = -1 if counts is None else records[counts].generation
    pages = [int(page) for word, page, *_ in lines if word in ("damaged", "stray") and int(page) not in records]
    mended = {page: record for page in pages if (record := mended_at(image, page, last, newest))}
    all_records = records | mended
    newest = max([newest, *(record.generation for record in mended.values())])
    held = {page for page, record in mended.items() for page in range(page, page + -(-record.length // image.page))}
    found = [damaged_at(disk, int(page), records.get(counts)) for word, page, *_ in lines if word == "damaged" and int(page) not in held]
    newer = [one for one in found if one and one.generation > newest]
    is_doubtful = bool(newer) or None in found or any(words[0] == "lost" or words[-1] == "tie" for words in lines)
    return Remains(all_records, set(mended), counts, sorted(newer, key=lambda one: (one.generation != last, -one.generation)), is_doubtful)


def readable(image: shardscrub.Image, page: int) -> bytes:
    """The bytes from this page of extent 0 on that can be read, as many as a record may have."""
    begin = page * image.page
    end = min(begin + 28 + 8 * image.extents + LOCATOR * MOST_RUNS + DIGEST, image.size)
    while page * image.page < end and image.readable(0, page):
        page += 1
    return bytes(image.raw[begin:min(end, page * image.page)])


def mended_at(image: shardscrub.Image, page: int, last: int | None, newest: int) -> shardscrub.Record | None:
    """The record of a page that is damaged only in one bit, or in its first 24 bytes if --last gives its generation. Its digest says so.
    Only one that is newer than the newest whole one is looked for."""
    text = readable(image, page)
    for other in tried(image, text, last, newest):
        record = shardscrub.record_from(lambda a, b: other[a:b] if b <= len(other) else None, 0, image.page, image.pages, image.extents)
        if record and record.generation > newest:
            return record
    return None


def tried(image: shardscrub.Image, text: bytes, last: int | None, newest: int) -> Iterator[bytes]:
    """The bytes of a damaged record as they may have been."""
    if last is not None:
        sizes = b"".join(size.to_bytes(4, "big") for size in (image.page, image.pages, image.extents))
        for kind in HEADS:
            yield kind + last.to_bytes(8, "big") + sizes + text[SIZED:]
    length = length_of(image, text)
    if text[:4] not in HEADS:
        most = 4
    elif length is None or shardscrub.number(text, 4, 8) <= newest or length > MOST_TRIED:
        most = 28
    else:
        most = length
    other = bytearray(text)
    for bit in range(8 * min(len(text), most)):
        other[bit // 8] ^= 1 << bit % 8
        yield bytes(other)
        other[bit // 8] ^= 1 << bit % 8


def list_of(image: shardscrub.Image, text: bytes) -> tuple[int, int] | None:
    """Where the list of a record begins by its head, and how many runs it has; or None if it is no head of this disk."""
    begin = HEADS.get(text[:4])
    if begin is None or len(text) < begin or shardscrub.sizes_in(text) != (image.page, image.pages, image.extents):
        return None
    count, retired = (shardscrub.number(text, at, 2) for at in (24, 26))
    return begin + 4 * (image.extents - 1) + 4 * (retired if begin == 28 else 0), count


def length_of(image: shardscrub.Image, text: bytes) -> int | None:
    found = list_of(image, text)
    return None if found is None or found[1] > MOST_RUNS else found[0] + LOCATOR * found[1] + DIGEST


def damaged_at(disk: Disk, page: int, counting: shardscrub.Record | None) -> Damaged | None:
    """What can be read of the damaged record of a page, if it has the sizes of this disk."""
    image = disk.image
    text = readable(image, page)
    length = length_of(image, text)
    if length is None:
        return None
    begin, count = list_of(image, text)
    # One more than it lists, which may be left of a longer list.
    entries = {k: text[begin + LOCATOR * k:begin + LOCATOR * (k + 1)] for k in range(count + 1)}
    locators = {k: shardscrub.read_locator(entry) for k, entry in entries.items() if len(entry) == LOCATOR}
    runs = {k: run_of(locator) for k, locator in locators.items() if disk.is_there(locator)}
    is_longer, is_read, text = runs.pop(count, None) is not None, len(text) >= length, text[:length]
    known = [] if counting is None else counting.runs
    is_torn = is_read and (is_longer or has_old_sectors(image, text, begin) or lists_past_pointer(text, runs)
                           or is_mixed(count, runs, [run_of(c) for c in known])
                           or is_cut(runs, [entries[k] for k in range(count)], [shardscrub.write_locator(c) for c in known]))
    return Damaged(page, shardscrub.number(text, 4, 8), count, runs, is_torn)


def has_old_sectors(image: shardscrub.Image, text: bytes, listed: int) -> bool:
    """Whether a damaged record, whose list begins at this byte, has zeros in a sector behind that, or the letters of another one on a page
    of it, or its digest begins right and goes on otherwise in the next sector."""
    unit = min(SECTOR, image.page)
    sectors = range(unit, len(text), unit)
    if any(at + unit > listed and not any(text[at:at + unit]) for at in sectors):
        return True
    if any(text[at:at + 4] in HEADS for at in range(image.page, len(text), image.page)):
        return True
    right, at = shardscrub.sha(text[:-DIGEST]), len(text) - DIGEST
    return any(at + 3 < stop and text[at:stop] == right[:stop - at] for stop in sectors)


def is_mixed(count: int, runs: dict[int, Run], known: list[Run]) -> bool:
    """Whether the list of a damaged record, newer than the superblock with the known runs, can't be one that was written as a whole: a run
    is in it twice; or it has some of the known runs, but not behind new ones, all and in their order."""
    if len(set(runs.values())) < len(runs):
        return True
    first = count - len(known)
    return any(run in known and (first < 0 or number < first or known[number - first] != run) for number, run in runs.items())


def is_cut(runs: dict[int, Run], entries: list[bytes], known: list[bytes]) -> bool:
    """Whether the list of a damaged record has some runs, and behind them nothing but bytes that aren't half like one of these locators, as
    a sector that has rotted would leave them."""
    rest = entries[len(runs):]
    return bool(runs and rest) and max(runs) < len(runs) and not any(
        2 * sum(a == b for a, b in zip(entry, one)) >= LOCATOR for entry in rest for one in known)


def lists_past_pointer(text: bytes, runs: dict[int, Run]) -> bool:
    """Whether a damaged record lists a run that ends past its own write pointer."""
    begin = HEADS[text[:4]]
    return any(run.offset + run.length + shardscrub.AROUND > shardscrub.number(text, begin + 4 * (run.extent - 1), 4)
               for run in runs.values())


# The sources

def listed_runs(name: str) -> list[Run]:
    """The runs of a file, by their numbers."""
    with open(name, encoding="utf-8", errors="replace") as file:
        lines = [(number, line.rstrip()) for number, line in enumerate(file, 1) if line.startswith("run ")]
    found = [(number, RUN_LINE.fullmatch(line)) for number, line in lines]
    if bad := [str(number) for number, words in found if words is None]:
        raise Fault(2, f"list refused: {name}: line {bad[0]}")
    if not found:
        raise Fault(2, f"list refused: {name}: there is no line `run`")
    by_number = sorted((int(words[1]), Run(*map(int, words.group(2, 3, 4)), bytes.fromhex(words[5].replace("-", ""))))
                       for _, words in found)
    if [number for number, _ in by_number] != [*range(len(by_number))]:
        raise Fault(2, f"list refused: {name}: the numbers of its runs aren't 0 and up, each once")
    return [run for _, run in by_number]


def source_of(disk: Disk, text: str, runs: list[Run], *doubts: str) -> Source:
    """A source with these runs, each once."""
    runs = [*dict.fromkeys(runs)]
    return Source(text, runs, [run for run in runs if not disk.has(run)], len(runs), [*doubts])


def of_record(disk: Disk, remains: Remains, page: int, *doubts: str) -> Source:
    """The source that is a record."""
    record = remains.records[page]
    how = "mended by its digest" if page in remains.mended else "which counts" if page == remains.counts else "older"
    doubts += ("a write that ended early may look like it",) * (page in remains.mended)
    found = source_of(disk, f"superblock {record.generation} on page {page}, {how}", [run_of(c) for c in record.runs], *doubts)
    lacks = [run_of(c) for c in record.runs if not disk.is_there(c)]
    return found._replace(lacks=lacks, is_counting=page == remains.counts)


def of_log(disk: Disk, remains: Remains) -> list[Source]:
    """The records with the generation of --last. They are in doubt if another one, as new or newer, lists other runs."""
    last, records, found = disk.given.last, remains.records, []
    for page in remains.pages(last):
        others = [other for other, record in records.items() if record.generation >= last and record.runs != records[page].runs]
        found.append(of_record(disk, remains, page, *(f"superblock {records[other].generation} on page {other} lists other runs"
                                                      for other in others)))
    return found


def of_newest(disk: Disk, remains: Remains) -> list[Source]:
    """The newest records, and behind them the one that counts, if it isn't one of these."""
    last, records = disk.given.last, remains.records
    why = "no --last says that it is the last one" if last is None else f"it isn't superblock {last}, the last one of the log"
    pages = remains.pages(max((record.generation for record in records.values()), default=None))
    pages += [remains.counts] if remains.counts is not None and remains.counts not in pages else []
    return [of_record(disk, remains, page, why) for page in pages]


def of_damaged(disk: Disk, one: Damaged, behind: list[Source]) -> Source:
    """The source that is a damaged record: its runs, and behind them those of another source if it lacks some."""
    text, runs = f"superblock {one.generation} on page {one.page}, damaged", [run for _, run in sorted(one.runs.items())]
    if one.is_whole():
        return source_of(disk, f"{text}, its list is whole", runs, f"page {one.page} is damaged, and more than a bit is wrong")
    more = behind[0] if behind else guess_of(disk)
    found = source_of(disk, f"{text}, {len(runs)} of its {one.count} runs, and behind them {more.text}", [*runs, *more.runs()],
                      f"page {one.page} is damaged, and lacks runs")
    return found._replace(count=len(found.listed) + one.count - len(runs))


def guess_of(disk: Disk) -> Source:
    return source_of(disk, "a guess, the order of act/order", disk.order, "it is a guess")


def is_newer(disk: Disk, runs: list[Run], known: list[Run]) -> bool:
    """Whether a list of runs is newer than another one: it has the newest run of that, and newer ones; or if no such run is in both, a run
    of it comes first in act/order."""
    if not runs or not known:
        return bool(runs)
    if runs[0] in known or known[0] in runs:
        return runs[0] not in known
    return next((run in runs for run in disk.order if run in runs or run in known), False)


def sources_of(disk: Disk) -> list[Source]:
    """All sources, the best one first."""
    remains, given = remains_of(disk), disk.given
    known, found = of_newest(disk, remains), [] if given.last is None else of_log(disk, remains)
    rest = []
    if given.runs is not None:
        listed = source_of(disk, f"the list of {given.runs}", listed_runs(given.runs),
                           "nothing on the disk shows that it has the last runs")
        (found if is_newer(disk, listed.listed, known[0].listed if known else []) else rest).append(listed)
    if given.last is None and not remains.is_doubtful:
        found += known[:1]
    for one in remains.damaged:
        found += known[:1] if one.is_torn or not one.runs else []
        if one.runs:
            found.append(of_damaged(disk, one, known[:1]))
    if not found:
        found.append(guess_of(disk))
    found += [*known, *rest]
    if found[0].doubts:
        found.append(guess_of(disk))
    return distinct(found)


def distinct(sources: list[Source]) -> list[Source]:
    """These sources, but for those without a run, unless that is the superblock that counts, and those with the runs of one before. If
    these are the runs of the superblock that counts, the program finds them itself."""
    found: dict[tuple, Source] = {}
    counting = next((tuple(source.runs()) for source in sources if source.is_counting), None)
    for source in sources:
        runs = tuple(source.runs())
        if runs or source.is_counting:
            found.setdefault(runs, source._replace(is_counting=runs == counting))
    return [*found.values()]
