"""Runs programs on a disk, checks their answers, measures what they cost, and prints tables."""
import hashlib
import json
import multiprocessing
import os
import subprocess
import time
from collections import Counter
from pathlib import Path
from typing import NamedTuple

from lib.disks import KIB, MIB, make_image

HEADS = ("Disk", "MiB", "Items", "To hash, MiB", "`sha256sum` of as many, s", "Loading, s", "Program", "Workers", "Time, s",
         "Processors, s", "Of `sha256sum`'s", "Of the first one's", "Above loading, of none's speed", "Peak, MiB",
         "Beside the image, bytes an item", "Above none's, KiB a worker")
KINDS = ("chunk", "sealed", "pad", "torn", "noise", "lost")


class WrongAnswer(Exception):
    """A program didn't print the right answer."""


class Run(NamedTuple):
    """The costs of a run: seconds by the clock, seconds of all processors, peak memory in bytes; and its exit status."""
    seconds: float
    processor: float
    memory: int
    status: int


def measured(words, answer):
    """Runs a command line, with its output in a file."""
    with open(answer, "wb") as out:
        begun = time.perf_counter()
        child = subprocess.Popen(words, stdin=subprocess.DEVNULL, stdout=out)
        _, ended, used = os.wait4(child.pid, 0)
        seconds = time.perf_counter() - begun
    child.returncode = os.waitstatus_to_exitcode(ended)
    return Run(seconds, used.ru_utime + used.ru_stime, used.ru_maxrss * 1024, child.returncode)


def apart(call, *arguments):
    """Calls it in another process, since the peak memory of a child includes its parent's."""
    with multiprocessing.Pool(1) as pool:
        return pool.apply(call, arguments)


def judge_scan(report):
    """The counts of a report, as `right` in `DiskFile.made` has them."""
    kinds = Counter(item.split(" ", 1)[0] for extent in report["extents"] for item in extent["items"])
    counts = {key: len(value) for key, value in report.items() if isinstance(value, list)}
    counts |= {kind: kinds[kind] for kind in KINDS}
    return counts | {"clean": report["clean"], "shards": report["shards"], "items": kinds.total(),
                     "live": sum(extent["live"] for extent in report["extents"])}


def judge(command, path, status):
    """What the answer in this file says, by the names that `right` has."""
    counts = {"status": status}
    if status not in (0, 1):
        return counts
    text = Path(path).read_text(encoding="utf-8")
    if command == "scan":
        return counts | judge_scan(json.loads(text))
    if command == "items":
        kinds = Counter(line.split(" ")[0] for line in text.splitlines())
        return counts | {"items": kinds.total()} | kinds
    if command == "manifest":
        last = Counter(line.split(" ")[-1] for line in text.splitlines())
        return counts | {word: last[word] for word in ("spare", "loose", "none")} | {"items": len(text.splitlines())}
    return counts | {"text": text, "items": len(text.splitlines())}


class Subject(NamedTuple):
    """What is measured: a name, a function that makes a disk, the command, and for `items` the greatest right share of sha256sum's
    time."""
    name: str
    make: object
    command: str = "scan"
    limit: float = None

    def words(self, made, path, workers):
        """The words after the program's name."""
        if self.command == "sizes":
            return ["sizes", path]
        if self.command == "items":
            end = made["bytes"] // int(made["sizes"][-1])
            return ["items", *made["sizes"], "--extent", "1", "--pointer", str(end), path]
        return [self.command, "--workers", str(workers), *made["sizes"], path, *made["unreadable"]]

    def of_workers(self, workers):
        """The numbers of workers, which only what scans has."""
        return workers if self.command in ("scan", "manifest") else [None]


class Measured:
    """A disk in a file, and the runs on it."""

    def __init__(self, subject, folder, mib):
        self.subject, self.path, self.answer = subject, f"{folder}/{subject.name}", f"{folder}/answer"
        self.made = apart(make_image, self.path, subject.make, mib)
        self.hashes, self.loads, self.runs, self.digest, self.items = [], {}, {}, None, 0

    def turn(self, programs, workers):
        """Runs sha256sum, loading alone, and each program with each number of workers, once. All answers are compared. The programs
        are given by their names in the table."""
        self.hashes.append(measured(["sha256sum", self.path], self.answer))
        for name, program in programs.items():
            if self.subject.command in ("scan", "manifest"):
                words = ["items", *self.made["sizes"], "--extent", "1", "--pointer", "0", self.path]
                self.loads.setdefault(name, []).append(measured([program, *words], self.answer))
            for number in self.subject.of_workers(workers):
                run = measured([program, *self.subject.words(self.made, self.path, number)], self.answer)
                self.runs.setdefault((name, number), []).append(run)
                self.check(f"{self.subject.name}, {name} program" + (f" with {number} workers" if number is not None else ""), run)

    def check(self, what, run):
        """The first answer has to be the right one, and the others have to be the same."""
        digest = apart(digest_of, self.answer), run.status
        if self.digest is None:
            found = apart(judge, self.subject.command, self.answer, run.status)
            wrong = {key: (found.get(key), right) for key, right in self.made["right"].items() if found.get(key) != right}
            if wrong:
                raise WrongAnswer(f"{what}: wrong answer (found, right): {str(wrong)[:1000]}")
            self.digest, self.items = digest, found["items"]
        elif digest != self.digest:
            raise WrongAnswer(f"{what}: another answer than before, status {run.status}")

    def rows(self, first):
        """A row for each program and number of workers. `first` is what the first disk of the group took, in seconds, or None."""
        made, size = self.made, self.made["bytes"]
        theirs = taken(self.hashes)[0] * made["hashed"] / size
        for (program, number), runs in self.runs.items():
            load = taken(self.loads[program])[0] if program in self.loads else None
            seconds, processor, memory = taken(runs)
            none = taken(self.runs[program, 0]) if (program, 0) in self.runs else None
            faster = (none[0] - load) / (seconds - load) if none and number and seconds > load else None
            each = round((memory - none[2]) / number / KIB) if none and number else None
            yield (self.subject.name, size // MIB, self.items, made["hashed"] // MIB, shown(theirs), shown(load), program, number,
                   shown(seconds), shown(processor), shown(seconds / theirs if made["hashed"] > MIB else None),
                   shown(seconds / first if first else None), shown(faster), memory // MIB,
                   (memory - size) // self.items if self.items > 10_000 else None, each)

    def is_within(self, most_memory):
        """Whether all runs are within the limits of time and memory. Only `items` has limits."""
        if self.subject.limit is None:
            return True
        theirs = taken(self.hashes)[0]
        return all(seconds <= self.subject.limit * theirs and memory <= most_memory * self.made["bytes"]
                   for seconds, _, memory in map(taken, self.runs.values()))


def digest_of(path):
    return hashlib.sha256(Path(path).read_bytes()).digest()


def shown(seconds):
    return None if seconds is None else f"{seconds:.2f}"


def print_row(*cells):
    print("| " + " | ".join("" if cell is None else str(cell) for cell in cells) + " |", flush=True)


def print_heads(*names):
    print_row(*names)
    print("|" + "---|" * len(names))


def taken(runs):
    """The least seconds of these runs, by the clock and of processors, and their most memory."""
    return min(run.seconds for run in runs), min(run.processor for run in runs), max(run.memory for run in runs)
