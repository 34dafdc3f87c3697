"""Runs the examples of five pages, as lib/examples.py finds them, and compares their output with the pages.

An example needs the tools whose words it has, and what the examples need that wrote a file which it names.
"""
import os
import subprocess
import tempfile
import unittest

from lib.cases import Case
from lib.examples import PAGES, ExampleCase, Transcript, check_line, examples_of, is_row, scans_of, starting
from lib.program import BUILD_TOOLS, TOP, need, path_without, program


class ReportCase(Case):
    """The reports and rows that the examples print, those of which they print a part, and the schema."""

    def __init__(self, transcript):
        super().__init__("check")
        self.transcript = transcript

    def id(self):
        return "test_examples.Schema.test_each_report_and_row"

    def check(self):
        for page in PAGES:
            self.true(f"{PAGES[page]} has examples", any(example.page == page for example in self.transcript.examples))
        self.transcript.up_to(len(self.transcript.examples) - 1)
        for example, printed in zip(self.transcript.examples, self.transcript.printed):
            for line in filter(is_row, printed.splitlines()):
                check_line(self, f"{PAGES[example.page]}, line {example.line}", line)
        for words in scans_of("Examples"):
            done = subprocess.run([program(), "scan", *words.split()], cwd=TOP, capture_output=True, text=True)
            if done.returncode < 2:
                check_line(self, f"scan {words}", done.stdout.rstrip("\n"))


class Clone(Case):
    def test_a_clone_answers_at_once(self):
        """The first example of the README.md, in a clone of the last commit, without the toolchain."""
        need("git", *BUILD_TOOLS)
        if subprocess.run(["git", "rev-parse", "--git-dir"], cwd=TOP, capture_output=True).returncode != 0:
            self.skipTest("this folder is no clone of git")
        example = examples_of("Readme")[0]
        with tempfile.TemporaryDirectory(prefix="shardscrub-clone-") as folder:
            clone, path = os.path.join(folder, "clone"), path_without("rt", folder)
            subprocess.run(["git", "clone", "-q", TOP, clone], check=True)
            done = subprocess.run(["sh", "-c", example.command], cwd=clone, env={**os.environ, "PATH": path}, timeout=300,
                                  stdin=subprocess.DEVNULL, stdout=subprocess.PIPE, stderr=subprocess.STDOUT, encoding="utf-8")
        self.same(example.command, done.stdout, example.wanted)


class Folders(Case):
    def test_nothing_is_written_under_a_name_that_two_users_share(self):
        pages = [TOP / name for name in ("README.md", "CONTRIBUTING.md", "examples/README.md")] + sorted((TOP / "docs").glob("*.*"))
        self.same("pages with /tmp", [path.name for path in pages if "/tmp" in path.read_text(encoding="utf-8")], [])


class Manual(Case):
    def test_groff(self):
        need("groff")
        done = subprocess.run(["groff", "-man", "-ww", "-z", "docs/shardscrub.1"], cwd=TOP, capture_output=True, text=True)
        self.same("the warnings", (done.returncode, done.stdout, done.stderr), (0, "", ""))


TRANSCRIPT = Transcript(lambda: starting(program()))


def setUpModule():
    unittest.addModuleCleanup(TRANSCRIPT.close)


def load_tests(loader, tests, _):
    """Adds a test for each example, and one for all their reports."""
    tests.addTests(ExampleCase(TRANSCRIPT, number) for number in range(len(TRANSCRIPT.examples)))
    tests.addTest(ReportCase(TRANSCRIPT))
    return tests
