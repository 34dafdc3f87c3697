"""Runs tests side by side, each part of them in a process of its own, with a folder of its own for passing files. tests/run starts it.

Test modules are cut into parts, the longest first. What a process prints goes to a file. When all parts of a module have ended, it is
shown as a whole, and then the module's line.
"""
import argparse
import json
import math
import os
import re
import shutil
import signal
import sys
import tempfile
import time
import traceback
import unittest
from collections import Counter
from pathlib import Path
from typing import NamedTuple

from lib.cases import Compared
from lib.program import BUILT, FASTER, GENERAL, RELEASED, choose_program


# Names of tests, and how tests ended

# How many wrong answers of a test are shown.
MOST_SHOWN = 10
WORDS = ("passed", "failed", "skipped")


def name_of(test):
    """A test's name, without what all modules' names begin with."""
    return test.id().removeprefix("test_")


def is_part(name, whole):
    """Whether a name is one of a module, of a class or of a test, or the beginning of a test's name."""
    return whole == name or whole.startswith(name + ".") or (name.count(".") == 2 and whole.startswith(name))


def flat(suite):
    for test in suite:
        if isinstance(test, unittest.TestSuite):
            yield from flat(test)
        else:
            yield test


def counted(of):
    """How many tests passed, failed and were skipped, by their outcomes."""
    counts = Counter(of.values())
    return [counts[word] for word in WORDS]


class Outcomes(unittest.TestResult):
    """Each test's outcome, by its name: passed, failed or skipped. Failures are printed at once. `note` is called with the name of
    each test that begins, and with its name and its outcome when it has ended."""

    def __init__(self, tests, note=lambda *words: None):
        super().__init__()
        self.of = {name_of(test): "skipped" for test in tests}
        self.reasons, self.shown, self.note = Counter(), Counter(), note

    def startTest(self, test):
        super().startTest(test)
        self.of[name_of(test)] = "passed"
        self.note(name_of(test))

    def stopTest(self, test):
        super().stopTest(test)
        name = name_of(test)
        if self.shown[name] > MOST_SHOWN:
            print(f"FAILED: {name}: and {self.shown[name] - MOST_SHOWN} more", flush=True)
        self.note(name, self.of[name])

    def addSkip(self, test, reason):
        """A test is skipped, or all tests of a class."""
        name = name_of(test)
        if name not in self.of:
            owner = re.search(r"\((\S+)\)", name)[1].removeprefix("test_")
            self.reasons[reason] += sum(is_part(owner, one) for one in self.of)
        elif self.of[name] != "failed":
            self.of[name] = "skipped"
            self.reasons[reason] += 1

    def addFailure(self, test, error):
        self.fail(test, error)

    def addError(self, test, error):
        self.fail(test, error)

    def addSubTest(self, test, subtest, error):
        if error is not None:
            self.fail(test, error)

    def fail(self, test, error):
        """Prints why a test failed: the words of an assertion, or where any other exception came from."""
        name = name_of(test)
        self.of[name] = "failed"
        self.shown[name] += 1
        if self.shown[name] <= MOST_SHOWN:
            is_assertion = issubclass(error[0], test.failureException) if isinstance(test, unittest.TestCase) else False
            text = str(error[1]) if is_assertion else "".join(traceback.format_exception(*error)).rstrip()
            print(f"FAILED: {name}: {text}", flush=True)


# Parts

class Long(NamedTuple):
    """A class of tests that takes long: its seconds, and how many parts its tests are dealt to. Each part makes anew what the class
    makes for its tests, so a class whose tests share much stays in one part. What measures time runs alone, after all others."""
    seconds: float
    parts: int = 1
    is_alone: bool = False


# The seconds of each module on one processor, without those of the classes below. A module without its seconds is begun first.
SECONDS = {
    "answers": 5, "checklist": .1, "compare": .3, "corpus": 1, "costs": .3, "documents": 4, "examples": 5, "gate": 4, "help": .6,
    "json": 10, "last": .3, "listings": .2, "loose": 1, "memory": 1, "messages": 4, "monitoring": 1, "node": 14, "outside": 45,
    "package": 8, "page": 12, "parts": 1, "plan": 14, "questions": .7, "reads": 22, "reclaim": 2, "release": .7, "rescue": 6,
    "scrubs": 4, "shard": .3, "sources": .1, "start": 3, "statuses": 1, "system": 7, "tilings": 5, "why": 3,
}
LONG = {
    "checklist.Laws": Long(5), "checklist.Mistakes": Long(40, 4), "checklist.Needed": Long(8), "checklist.Walks": Long(13, 2),
    "compare.Laws": Long(12, 2), "compare.Pairs": Long(25, 3), "corpus.EachPage": Long(5), "corpus.Rows": Long(20, 4),
    "damage.Damage": Long(24, 5), "damage.Torn": Long(12, 3), "faster.Examples": Long(5), "faster.Lengths": Long(30, 3),
    "faster.MadeUp": Long(60, 6), "json.Disks": Long(14), "memory.Growths": Long(40, 4), "memory.Runs": Long(50, 4),
    "monitoring.Nightly": Long(4), "monitoring.Nights": Long(4), "node.Programs": Long(13, 3), "node.Walks": Long(18, 4),
    "package.Dpkg": Long(5), "package.Package": Long(20), "page.InBrowser": Long(60), "page.WrongPages": Long(21, 2),
    "plan.BothScripts": Long(8), "plan.Disks": Long(18, 2), "plan.EachByte": Long(14, 2), "plan.Interrupted": Long(11),
    "plan.PutInBash": Long(9), "plan.PutInDash": Long(7), "reclaim.Rules": Long(8), "reclaim.Stops": Long(9),
    "reclaim.Trials": Long(6), "reclaim.Walks": Long(9), "reference.Disks": Long(35, 3), "rescue.MadeUp": Long(10, 2),
    "scrubs.Large": Long(8, 3), "shard.Large": Long(9), "start.Kept": Long(12, 3), "system.Files": Long(7), "system.LargeDisks": Long(20, 4),
    "system.Streams": Long(8), "views.Metrics": Long(4), "views.Rows": Long(9),
}


class Part(NamedTuple):
    """Tests of a module that run in one process, one after another. Nobody may know how long they take: then it is infinity."""
    module: str
    tests: list
    seconds: float
    is_alone: bool = False


def class_of(test):
    return name_of(test).rpartition(".")[0]


def parts_of(module, tests):
    """The parts of a module, each with tests of one of its long classes, or of all its other classes."""
    of_classes = {}
    for test in tests:
        of_classes.setdefault(class_of(test) if class_of(test) in LONG else module, []).append(test)
    for name, some in of_classes.items():
        long = LONG.get(name, Long(SECONDS.get(name, math.inf)))
        count = min(long.parts, len(some))
        for number in range(count):
            yield Part(module, some[number::count], long.seconds / long.parts, long.is_alone)


def in_order(modules):
    """All parts of these modules: those that run side by side, the longest first, and those that run alone."""
    parts = [part for module, tests in modules.items() for part in parts_of(module, tests)]
    parts.sort(key=lambda part: -part.seconds)
    return [part for part in parts if not part.is_alone], [part for part in parts if part.is_alone]


# Processes

TESTS = Path(__file__).resolve().parent.parent
# How long processes have to end by themselves after Ctrl-C.
SECONDS_TO_END = 10


class Ended(NamedTuple):
    """How the tests of a part or of a module ended: the outcome of each, how many were skipped for each reason, how many single
    answers were compared, and the seconds that it took."""
    of: dict
    reasons: Counter
    compared: int
    seconds: float

    def and_also(self, other):
        return Ended({**self.of, **other.of}, self.reasons + other.reasons, self.compared + other.compared, self.seconds + other.seconds)


NOTHING = Ended({}, Counter(), 0, 0)


def wanted_tests(names):
    """The tests of each module, in the order of the modules. Only modules that are named are imported."""
    modules = sorted(path.stem.removeprefix("test_") for path in TESTS.glob("test_*.py"))
    found = {}
    for module in modules:
        some = [name for name in names if name.split(".")[0] == module]
        if names and not some:
            continue
        tests = list(flat(unittest.defaultTestLoader.loadTestsFromName(f"test_{module}")))
        found[module] = [test for test in tests if not names or any(is_part(name, name_of(test)) for name in some)]
    return found


def unmatched(names, tests):
    """The names that no test has."""
    every = [name_of(test) for some in tests.values() for test in some]
    return [name for name in names if not any(is_part(name, one) for one in every)]


def run(tests, note=lambda *words: None):
    """Runs tests in this process."""
    begun, before, outcomes = time.monotonic(), Compared.count, Outcomes(tests, note)
    # A first Ctrl-C lets a test and its class clean up.
    unittest.registerResult(outcomes)
    unittest.TestSuite(tests).run(outcomes)
    return Ended(outcomes.of, outcomes.reasons, Compared.count - before, time.monotonic() - begun), outcomes.shouldStop


class Process:
    """A process that runs a part. It writes each test that begins and each that has ended to a file, and at last the counts."""

    def __init__(self, part, folder):
        self.part, self.folder, self.parent = part, folder, os.getpid()
        self.out, self.error, self.notes = (folder / name for name in ("out", "error", "notes"))
        (folder / "passing").mkdir(parents=True)
        sys.stdout.flush()
        sys.stderr.flush()
        self.id = os.fork()
        if self.id == 0:
            status = 1
            try:
                self.run()
                status = 0
            except BaseException:
                traceback.print_exc()
            finally:
                sys.stdout.flush()
                sys.stderr.flush()
                os._exit(status)
        self.set_group()

    def set_group(self):
        """All that the process starts is in its group. Both processes ask for it, so that it is there in time for each of them."""
        try:
            os.setpgid(self.id, self.id)
        except OSError:
            pass

    def run(self):
        self.set_group()
        for number in (signal.SIGTERM, signal.SIGHUP):
            signal.signal(number, signal.SIG_DFL)
        unittest.installHandler()
        for file, path, flags in ((0, os.devnull, os.O_RDONLY), (1, self.out, os.O_WRONLY | os.O_CREAT), (2, self.error, os.O_WRONLY | os.O_CREAT)):
            opened = os.open(path, flags | os.O_APPEND * (file > 0), 0o600)
            os.dup2(opened, file)
            os.close(opened)
        tempfile.tempdir = os.environ["TMPDIR"] = str(self.folder / "passing")
        with open(self.notes, "w", encoding="utf-8") as notes:
            def note(*words):
                if os.getppid() != self.parent:
                    os._exit(1)
                print(json.dumps(words), file=notes, flush=True)

            ended, is_stopped = run(self.part.tests, note)
            if not is_stopped:
                note("", ended)

    def ended(self, status):
        """How the part ended. Each test that has no outcome, since the process died, has failed."""
        of, begun = {}, None
        for line in self.lines():
            name, *rest = line
            if name == "":
                of, reasons, compared, seconds = rest[0]
                return Ended(of, Counter(reasons), compared, seconds)
            begun = name if not rest else None
            of |= {name: rest[0]} if rest else {}
        how = f"by {signal.Signals(-status).name}" if status < 0 else f"with status {status}, and without a result"
        with open(self.out, "a", encoding="utf-8") as out:
            for name in map(name_of, self.part.tests):
                if name not in of:
                    why = f"its process ended {how}" if name == begun else f"it wasn't run: its process had ended {how}"
                    print(f"FAILED: {name}: {why}", file=out)
                    of[name] = "failed"
        return NOTHING._replace(of=of)

    def lines(self):
        """What the process wrote down. A last line may be cut short."""
        if self.notes.exists():
            for line in self.notes.read_text(encoding="utf-8").splitlines():
                try:
                    yield json.loads(line)
                except ValueError:
                    return

    def kill_group(self, number):
        try:
            os.killpg(self.id, number)
        except OSError:
            pass


def show(module, ended):
    """Prints the line of a module: its counts, and its seconds, which are those of all its parts together."""
    counts = ", ".join(f"{count} {word}" for count, word in zip(counted(ended.of), WORDS) if count)
    print(f"{module}: {counts} in {ended.seconds:.1f} seconds", flush=True)


def leave(number, _):
    """Ends this process by an exception, so that the others are ended first. The same signal once more changes nothing."""
    signal.signal(number, signal.SIG_IGN)
    sys.exit(128 + number)


class SideBySide:
    """Runs parts in processes, so many at once."""

    def __init__(self, jobs):
        self.jobs, self.running, self.waiting, self.of_modules = jobs, {}, Counter(), {}
        self.folder = Path(tempfile.mkdtemp(prefix="shardscrub-tests-"))

    def run(self, *lists):
        """Runs the parts of the first list side by side, and then those of the others one at a time."""
        self.waiting.update(part.module for parts in lists for part in parts)
        self.of_modules = {module: [] for module in self.waiting}
        for number in (signal.SIGTERM, signal.SIGHUP):
            if signal.getsignal(number) == signal.SIG_DFL:
                signal.signal(number, leave)
        try:
            for parts, jobs in zip(lists, [self.jobs, 1]):
                for part in parts:
                    while len(self.running) >= jobs:
                        self.wait()
                    self.start(part)
                while self.running:
                    self.wait()
        finally:
            self.stop()
            shutil.rmtree(self.folder, ignore_errors=True)
        return [self.ended_of(module) for module in sorted(self.of_modules)]

    def start(self, part):
        number = sum(map(len, self.of_modules.values()))
        process = Process(part, self.folder / f"{number:03}")
        self.running[process.id] = process
        self.of_modules[part.module].append([process, None])

    def wait(self):
        """Waits until a process ends. Nothing that it started stays behind."""
        number = os.waitid(os.P_ALL, 0, os.WEXITED | os.WNOWAIT).si_pid
        process = self.running.get(number)
        if process is not None:
            process.kill_group(signal.SIGKILL)
        _, status = os.waitpid(number, 0)
        if process is not None:
            del self.running[number]
            self.end(process, os.waitstatus_to_exitcode(status))

    def end(self, process, status):
        module = process.part.module
        for one in self.of_modules[module]:
            if one[0] is process:
                one[1] = process.ended(status)
        shutil.rmtree(process.folder / "passing", ignore_errors=True)
        self.waiting[module] -= 1
        if self.waiting[module] == 0:
            for one, _ in self.of_modules[module]:
                for path, stream in ((one.out, sys.stdout), (one.error, sys.stderr)):
                    if path.exists():
                        stream.write(path.read_text(encoding="utf-8", errors="replace"))
                        stream.flush()
            show(module, self.ended_of(module))

    def ended_of(self, module):
        whole = NOTHING
        for _, ended in self.of_modules[module]:
            whole = whole.and_also(ended)
        return whole

    def stop(self):
        """Ends all processes: lets them clean up for some seconds, but not after a second Ctrl-C."""
        for process in self.running.values():
            process.kill_group(signal.SIGINT)
        until = time.monotonic() + SECONDS_TO_END
        while self.running:
            try:
                self.take_ended(time.monotonic() > until)
                time.sleep(.02)
            except KeyboardInterrupt:
                until = 0

    def take_ended(self, is_late):
        """Takes the processes that have ended, or ends all of them."""
        for number, process in list(self.running.items()):
            if is_late or os.waitid(os.P_PID, number, os.WEXITED | os.WNOWAIT | os.WNOHANG) is not None:
                process.kill_group(signal.SIGKILL)
                os.waitpid(number, 0)
                del self.running[number]


def one_after_another(modules):
    """Runs the modules in this process, which is the simplest way to debug a test."""
    for module, tests in modules.items():
        ended, _ = run(tests)
        show(module, ended)
        yield ended


def say_program(path):
    """Prints which program is tested."""
    known = {paths[name]: f"{what}{suffix}" for paths, what in ((RELEASED, "the released one"), (BUILT, "the one that was built here"))
             for name, suffix in ((GENERAL, ""), (FASTER, " for x86-64-v3"))}
    print(f"program: {path} ({known.get(path, 'a named one')})", flush=True)


def number_of_jobs(text):
    if not text.isdecimal() or int(text) == 0:
        raise argparse.ArgumentTypeError(f"not a number of processes: {text}")
    return int(text)


def main(doc):
    parser = argparse.ArgumentParser(prog="tests/run", description=doc.partition("\n\n")[0],
                                     epilog=doc.partition("\n\n")[2], formatter_class=argparse.RawDescriptionHelpFormatter)
    parser.add_argument("names", nargs="*", metavar="NAME", help="a module, or the beginning of a test's name")
    parser.add_argument("--list", action="store_true", help="print the names of the tests, and run none")
    parser.add_argument("--program", metavar="P", help="the program to test")
    parser.add_argument("-j", "--jobs", metavar="N", type=number_of_jobs, default=len(os.sched_getaffinity(0)),
                        help="how many processes run at once; as many as there are processors for this one if it isn't given")
    given = parser.parse_args()
    names = [name.removeprefix("test_") for name in given.names]
    tests = wanted_tests(names)
    for name in unmatched(names, tests):
        parser.error(f"no test is named {name}; --list prints all names")
    if given.list:
        for some in tests.values():
            print(*map(name_of, some), sep="\n")
        return 0
    say_program(choose_program(parser, given.program))
    try:
        return report(list(one_after_another(tests)) if given.jobs == 1 else SideBySide(given.jobs).run(*in_order(tests)))
    except KeyboardInterrupt:
        # The caller sees by which signal this ended.
        signal.signal(signal.SIGINT, signal.SIG_DFL)
        os.kill(os.getpid(), signal.SIGINT)


def report(all_ended):
    """Prints what was skipped, and the counts of all modules. Returns the exit status."""
    reasons = sum((ended.reasons for ended in all_ended), Counter())
    passed, failed, skipped = (sum(counts) for counts in zip(*(counted(ended.of) for ended in all_ended)))
    compared = sum(ended.compared for ended in all_ended)
    for reason, count in sorted(reasons.items()):
        print(f"skipped: {reason} ({count})")
    if compared:
        print(f"{compared:,} single answers were compared")
    print(f"{passed} passed, {failed} failed" + f", {skipped} skipped" * (skipped > 0))
    return int(failed > 0)
