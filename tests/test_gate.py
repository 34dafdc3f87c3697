"""The scripts that run tests, in small trees of their own: `check` with an rt and a tests/run that are made up, and tests/run with test
modules that are made up."""
import os
import re
import select
import shutil
import signal
import subprocess
import sys
import tempfile
import time
import unittest
from pathlib import Path
from unittest import mock

from lib import watched
from lib.cases import Case
from lib.program import PACKAGES, TOP, need, path_without, program, write

SECONDS = 300
# An rt whose prover works on a crate until the file `go` is there.
RT = f"""#!/bin/sh
echo "rt: $* with $RT_JOBS tasks"
echo $$ >rt-is
ln -sf '{sys.executable}' rattle
./rattle -c 'import os, time
while not os.path.exists("go"): time.sleep(.01)' --crate-name scrub_super
echo "rt: done"
echo "LAST"
exit STATUS
"""
TESTS_RUN = """#!/bin/sh
echo "tests: $*"
echo "4 passed, 0 failed, 2 skipped"
"""


def is_there(process):
    """Whether a process is there, and isn't one that has ended."""
    status = watched.read(f"/proc/{process}/stat").rpartition(b") ")[2].split()
    return status != [] and status[0] != b"Z"


def wait_for(is_so):
    """Whether this is so within a minute."""
    until = time.monotonic() + SECONDS
    while not is_so() and time.monotonic() < until:
        time.sleep(.01)
    return is_so()


class TreeCase(unittest.TestCase):
    def setUp(self):
        folder = tempfile.TemporaryDirectory()
        self.addCleanup(folder.cleanup)
        self.top = Path(folder.name).resolve() / "top"
        (self.top / "tests/lib").mkdir(parents=True)

    def begin(self, *words, path="", **more):
        """Starts a command in the tree, in a group of its own."""
        # python3 is the one that runs the tests. What is on the path may be slow to start.
        write(self.top / "tools/python3", f"#!/bin/sh\nexec '{sys.executable}' \"$@\"\n", 0o755)
        environment = {name: text for name, text in os.environ.items() if name not in ("RT_JOBS", "PYTHONUNBUFFERED")}
        environment["PATH"] = os.pathsep.join([*[path] * (path != ""), str(self.top / "tools"), path_without("rt", self.top.parent)])
        begun = subprocess.Popen(words, cwd=self.top, env=environment, stdin=subprocess.DEVNULL, stdout=subprocess.PIPE,
                                 stderr=subprocess.PIPE, text=True, start_new_session=True, **more)
        self.addCleanup(begun.__exit__, None, None, None)
        self.addCleanup(self.kill, begun.pid)
        return begun

    def kill(self, group):
        try:
            os.killpg(group, signal.SIGKILL)
        except ProcessLookupError:
            pass


class Check(TreeCase):
    """`check` passes on what rt and tests/run print, says what it is at, and adds their counts."""

    def setUp(self):
        need("awk")
        super().setUp()
        script = (TOP / "check").read_text(encoding="utf-8")
        self.assertEqual(script.count("\nevery=60\n"), 1)
        write(self.top / "check", script.replace("\nevery=60\n", "\nevery=.1\n"), 0o755)
        shutil.copy(TOP / "tests/lib/watched.py", self.top / "tests/lib")
        write(self.top / "tests/run", TESTS_RUN, 0o755)
        (self.top / "crates/scrub_cli/out").mkdir(parents=True)

    def check(self, last="3 passed, 0 failed", status=0, has_gone=True):
        """Starts `check` with an rt that ends so."""
        write(self.top / "rt-tools/rt", RT.replace("LAST", last).replace("STATUS", str(status)), 0o755)
        if has_gone:
            (self.top / "go").touch()
        return self.begin("./check", path=str(self.top / "rt-tools"))

    def ended(self, begun):
        """The lines of the output without those that `check` adds, the error stream and the status."""
        out, error = begun.communicate(timeout=SECONDS)
        return [line for line in out.splitlines() if not line.startswith("check: ")], error, begun.returncode

    def test_both_pass(self):
        lines, error, status = self.ended(self.check())
        self.assertRegex(lines[0], r"\Art: ci with [1-9][0-9]* tasks\Z")
        self.assertEqual(lines[1:], ["rt: done", "3 passed, 0 failed", "tests: --program crates/scrub_cli/out/scrub_cli",
                                     "4 passed, 0 failed, 2 skipped", "7 passed, 0 failed"])
        self.assertEqual((error, status), ("", 0))
        self.assertTrue((self.top / "crates/scrub_cli/out/shardscrub.built").exists())

    def test_what_it_adds(self):
        """When each of the two begins, and what it cost."""
        out, _ = self.check().communicate(timeout=SECONDS)
        lines = [line for line in out.splitlines() if re.match("check: (?![0-9]+ minutes?)", line)]
        at = r"check: \d{4}-\d\d-\d\d \d\d:\d\d: "
        cost = r" took \d+\.\d processor minutes in \d+\.\d minutes"
        for line, wanted in zip(lines, (at + r"rt ci begins, \d+ tasks at once", at + "tests/run begins", "check: rt ci" + cost,
                                        "check: tests/run" + cost), strict=True):
            self.assertRegex(line, rf"\A{wanted}\Z")
        self.assertEqual(out.splitlines()[-3:], [*lines[2:], "7 passed, 0 failed"])

    def comes(self, begun, text):
        """Whether this text comes on the output, while the prover is still at work."""
        found, until = "", time.monotonic() + SECONDS
        while text not in found and time.monotonic() < until:
            if select.select([begun.stdout], [], [], 1)[0]:
                found += os.read(begun.stdout.fileno(), 1 << 16).decode()
        return text in found

    def check_rest(self, begun):
        """Lets the prover end. Then the rest comes."""
        (self.top / "go").touch()
        self.assertEqual(self.ended(begun), (["rt: done", "3 passed, 0 failed", "tests: --program crates/scrub_cli/out/scrub_cli",
                                              "4 passed, 0 failed, 2 skipped", "7 passed, 0 failed"], "", 0))

    def test_each_line_comes_at_once(self):
        """And doesn't wait until a minute is over."""
        shutil.copy(TOP / "check", self.top / "check")
        begun = self.check(has_gone=False)
        self.assertTrue(self.comes(begun, "tasks\n"))
        self.check_rest(begun)

    def test_what_is_being_proved(self):
        begun = self.check(has_gone=False)
        self.assertTrue(self.comes(begun, "check: 0 minutes: scrub_super for less than 1 minute\n"))
        self.check_rest(begun)

    def test_a_gate_that_fails(self):
        """Then tests/run isn't started. A status without a count is a failure, too, and a count that is missing."""
        for last, status, wanted in (("2 passed, 1 failed", 1, "2 passed, 1 failed"), ("3 passed, 0 failed", 2, "3 passed, 1 failed"),
                                     ("rt: out of disk", 0, "0 passed, 1 failed"), ("", 137, "0 passed, 1 failed")):
            lines, error, ended = self.ended(self.check(last, status))
            self.assertEqual((lines[-2:], error, ended), ([last, wanted], "", 1))

    def test_tests_that_fail(self):
        write(self.top / "tests/run", TESTS_RUN.replace("4 passed, 0 failed", "3 passed, 1 failed") + "exit 1\n", 0o755)
        lines, error, status = self.ended(self.check())
        self.assertEqual((lines[-1], error, status), ("6 passed, 1 failed", "", 1))

    def test_without_rt(self):
        lines, error, status = self.ended(self.begin("./check"))
        self.assertEqual(lines, ["tests: ", "4 passed, 0 failed, 2 skipped", "4 passed, 1 failed"])
        self.assertEqual((error, status), ("check: the command rt, which proves and builds the program, isn't found\n", 1))

    def test_nothing_stays_behind(self):
        """If it is ended by a signal, the gate ends too."""
        begun = self.check(has_gone=False)
        self.assertTrue(wait_for(lambda: (self.top / "rt-is").exists() and (self.top / "rt-is").read_text().strip()))
        process = int((self.top / "rt-is").read_text())
        begun.terminate()
        self.assertEqual(begun.wait(SECONDS), -signal.SIGTERM)
        self.assertTrue(wait_for(lambda: not is_there(process)), "rt is still there")


class Watched(unittest.TestCase):
    """How `check` finds what is being proved."""

    def text(self, *looks):
        """What is said after looks that each find these crates at this second."""
        crates = watched.Crates()
        for second, names in looks:
            with mock.patch.object(watched, "below", lambda _: names), mock.patch.object(watched, "crate_of", lambda name: name):
                crates.look(0, second)
        return crates.text(second)

    def test_the_oldest_comes_first(self):
        looks = [(second, ["scrub_super", *["scrub_book"] * (second >= 120), None]) for second in range(0, 185, 5)]
        self.assertEqual(self.text(*looks), "scrub_super for 3 minutes, scrub_book for 1")
        self.assertEqual(self.text(*looks[:14]), "scrub_super for 1 minute")

    def test_a_crate_may_be_out_of_sight_for_some_seconds(self):
        """Between two provers of one crate. One that was away for longer has begun anew."""
        self.assertEqual(self.text((0, ["a"]), (20, []), (40, []), (135, ["a"])), "a for less than 1 minute")
        self.assertEqual(self.text(*((second, ["a"]) for second in range(0, 125, 15))), "a for 2 minutes")
        self.assertEqual(self.text((0, ["a"]), (60, [])), "")

    def test_without_proc(self):
        with mock.patch.object(os, "listdir", side_effect=PermissionError):
            crates = watched.Crates()
            crates.look(os.getpid(), 0)
        self.assertEqual(crates.text(0), "")

    def test_a_prover_is_known_by_its_folder_too(self):
        with tempfile.TemporaryDirectory() as folder:
            place = Path(folder).resolve() / "crates/scrub_book/src"
            place.mkdir(parents=True)
            (place / "rattle").symlink_to(sys.executable)
            with subprocess.Popen(["./rattle", "-c", "import sys; sys.stdin.read()"], cwd=place, stdin=subprocess.PIPE) as prover:
                self.assertTrue(wait_for(lambda: watched.crate_of(prover.pid) == "scrub_book"))
                prover.stdin.close()


# A module whose tests end in all ways. A test waits until the file `go` is there.
MODULE = """
import os, signal, subprocess, time, unittest
from pathlib import Path
from lib.cases import Case, RoomCase

TOP = Path(__file__).resolve().parent.parent

class Good(RoomCase):
    def test_one(self):
        print("said by NAME")
        self.same("numbers", 1, 1)
        self.assertEqual(list(self.room.iterdir()), [])

    @unittest.skip("no moon")
    def test_skipped(self):
        pass

class Other(Case):
    @classmethod
    def setUpClass(cls):
        raise unittest.SkipTest("no sun")

    def test_one(self):
        pass

    def test_two(self):
        pass
"""
BAD = """
class Bad(Case):
    def test_wrong(self):
        self.same("numbers", 1, 2)
        self.same("letters", "a", "b")
"""
DYING = """
class Dying(Case):
    def test_a(self):
        pass

    def test_b(self):
        os.kill(os.getpid(), signal.SIGSEGV)

    def test_c(self):
        pass
"""
NEEDING = """
import os
from lib.cases import Case
from lib.program import need

class Needing(Case):
    def test_a_tool_that_is_missing(self):
        need("ddrescue")

    def test_a_folder_of_the_superuser(self):
        self.true("/usr/sbin is on the path", "/usr/sbin" in os.get_exec_path())
"""
WAITING = """
class Waiting(Case):
    def test_it(self):
        with subprocess.Popen(["sleep", "1000"]) as sleep:
            (TOP / "waits").write_text(f"{os.getpid()} {sleep.pid}")
            sleep.wait()
"""


class Elsewhere(TreeCase):
    def test_a_path_with_blanks_quotes_and_letters_beyond_ascii(self):
        """Tests that give a path to a shell or to a tool with words of its own."""
        top = self.top / "Füße und 'mehr' für $HOME"
        for name in ("act", "docs", "examples", "reference", "tests", "view"):
            shutil.copytree(TOP / name, top / name, ignore=shutil.ignore_patterns("__pycache__"))
        for path in TOP.glob("*.md"):
            shutil.copy(path, top)
        shutil.copy(program(), top / "the program")
        names = ["views.Rows.test_digits_are_kept", "views.Metrics.test_the_program", "examples.Examples.test_line_00", "questions"]
        begun = self.begin(sys.executable, top / "tests/run", "--program", top / "the program", *names)
        out, error = begun.communicate(timeout=SECONDS)
        self.assertEqual((begun.returncode, error), (0, ""), out)
        self.assertRegex(out.splitlines()[-1], r"\A[1-9][0-9]* passed, 0 failed")


class Packages(Case):
    def test_each_tool_is_in_its_package(self):
        """As dpkg knows the packages that are installed here."""
        need("dpkg")
        known = {}
        for tool, package in PACKAGES.items():
            done = subprocess.run(["dpkg-query", "--listfiles", package], capture_output=True, text=True)
            # awk and cc are links of this machine, and python3 is in a package that python3 depends on.
            if done.returncode == 0 and not tool.startswith("Python's ") and tool not in ("awk", "cc", "python3"):
                known[tool] = [path for path in done.stdout.splitlines() if re.fullmatch(rf"(/usr)?/s?bin/{re.escape(tool)}", path)]
        self.true("some of these packages are installed", known)
        self.same("tools that aren't in their package", [tool for tool, paths in known.items() if paths == []], [])


class Run(TreeCase):
    """tests/run with modules that are made up."""

    def setUp(self):
        super().setUp()
        shutil.copy(TOP / "tests/run", self.top / "tests")
        for path in TOP.glob("tests/lib/*.py"):
            shutil.copy(path, self.top / "tests/lib")
        self.module("first", MODULE)
        self.module("second", MODULE)

    def module(self, name, text):
        write(self.top / f"tests/test_{name}.py", text.replace("NAME", name))

    def run_tests(self, *words):
        """The status, the lines without seconds and without those of the program, and the error stream."""
        begun = self.begin(sys.executable, "tests/run", "--program", sys.executable, *words)
        out, error = begun.communicate(timeout=SECONDS)
        return begun.returncode, re.sub(r"in \d+\.\d seconds", "in time", out).splitlines()[1:], error

    def test_side_by_side_and_one_after_another(self):
        for jobs in ("1", "2", "7"):
            status, lines, error = self.run_tests("-j", jobs)
            self.assertEqual((status, error), (0, ""))
            self.assertEqual(lines[-4:], ["skipped: no moon (2)", "skipped: no sun (4)", "2 single answers were compared",
                                          "2 passed, 0 failed, 6 skipped"])
            for name in ("first", "second"):
                at = lines.index(f"said by {name}")
                self.assertEqual(lines[at + 1], f"{name}: 1 passed, 3 skipped in time")

    def test_a_failure(self):
        self.module("second", MODULE + BAD)
        for jobs in ("1", "3"):
            status, lines, error = self.run_tests("--jobs", jobs)
            self.assertEqual((status, error, lines[-1]), (1, "", "2 passed, 1 failed, 6 skipped"))
            self.assertEqual(lines[-5], "second: 1 passed, 1 failed, 3 skipped in time" if jobs == "1" else lines[-5])
            self.assertEqual([line for line in lines if line.startswith("FAILED")], [
                "FAILED: second.Bad.test_wrong: numbers: 1, and not 2", "FAILED: second.Bad.test_wrong: letters: a, and not b"])

    def test_a_process_that_dies(self):
        self.module("second", MODULE + DYING)
        status, lines, error = self.run_tests("-j", "2")
        self.assertEqual((status, error, lines[-1]), (1, "", "2 passed, 6 failed, 3 skipped"))
        failed = [line.removeprefix("FAILED: second.") for line in lines if line.startswith("FAILED")]
        self.assertEqual(failed[0], "Dying.test_b: its process ended by SIGSEGV")
        self.assertEqual(failed[1], "Dying.test_c: it wasn't run: its process had ended by SIGSEGV")
        self.assertEqual(len(failed), 6)
        self.assertIn("first: 1 passed, 3 skipped in time", lines)

    def test_a_tool_that_is_missing(self):
        """The line names the package to install. Tools that only a superuser has on the path are found."""
        self.module("second", NEEDING)
        with mock.patch.dict(os.environ, PATH="/nothing/here"):
            status, lines, error = self.run_tests("second")
        self.assertEqual((status, error), (0, ""))
        self.assertEqual(lines[-3:], ["skipped: ddrescue isn't there: install gddrescue (1)", "1 single answers were compared",
                                      "1 passed, 0 failed, 1 skipped"])

    def test_an_older_python(self):
        """It gets one sentence. A Python of another version is only told so here; those that are here are tried as they are."""
        text = "tests/run: Python 3.10 or newer is needed, and this is {}.{}\n"
        olders = {self.aged(3, 9): (3, 9), self.aged(2, 7): (2, 7)}
        for major, minor in ((2, 7), (3, 6), (3, 7), (3, 8), (3, 9)):
            if found := shutil.which(f"python{major}.{minor}"):
                if subprocess.run([found, "-c", ""], capture_output=True).returncode == 0:
                    olders[found, "tests/run"] = (major, minor)
        for words, version in olders.items():
            done = subprocess.run(words, cwd=self.top, capture_output=True, text=True, timeout=SECONDS)
            self.assertEqual((done.returncode, done.stdout, done.stderr), (2, "", text.format(*version)), words)

    def aged(self, *version):
        """tests/run by this Python, which says that it is of an older version."""
        code = f"import sys; sys.version_info = {version + (0, 'final', 0)}; exec(compile(open('tests/run').read(), 'tests/run', 'exec'))"
        return sys.executable, "-c", code

    def test_names(self):
        self.assertEqual(self.run_tests("second.Good", "-j2")[1][-1], "1 passed, 0 failed, 1 skipped")
        for words, text in ((["third"], "no test is named third"), (["-j0"], "not a number of processes: 0"), (["-j", "x"], "of processes: x")):
            status, lines, error = self.run_tests(*words)
            self.assertEqual((status, lines), (2, []))
            self.assertIn(text, error)

    def test_ctrl_c(self):
        self.check_signals(signal.SIGINT)
        self.check_signals(signal.SIGTERM, signal.SIGTERM)

    def check_signals(self, *signals):
        """The processes end, and what they started; nothing is left in the folder of passing files."""
        self.module("third", MODULE + WAITING)
        (self.top / "waits").unlink(missing_ok=True)
        (self.top / "passing").mkdir(exist_ok=True)
        with mock.patch.dict(os.environ, TMPDIR=str(self.top / "passing")):
            begun = self.begin(sys.executable, "tests/run", "--program", sys.executable, "-j", "2")
        self.assertTrue(wait_for(lambda: (self.top / "waits").exists() and len((self.top / "waits").read_text().split()) == 2))
        processes = [int(word) for word in (self.top / "waits").read_text().split()]
        for number in signals:
            os.kill(begun.pid, number)
        out, error = begun.communicate(timeout=SECONDS)
        self.assertEqual((begun.returncode, error), (-signal.SIGINT if signals == (signal.SIGINT,) else 128 + signals[0], ""))
        self.assertEqual([process for process in processes if is_there(process)], [])
        self.assertEqual(list((self.top / "passing").iterdir()), [])
