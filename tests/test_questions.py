"""view/questions.jq: each filter has an example in docs/READING.md, and an answer for each report of the examples."""
import re
import subprocess

from lib.cases import Case
from lib.examples import examples_of
from lib.page import example_reports, written
from lib.program import TOP, need

# The filters with an argument, and what it may be; and those that read lines of locators.
ARGUMENTS = {"lost_bytes": ("22", "54")}
OF_LINES = {"damaged_shards"}
# What others use.
PARTS = {"place", "candidates"}


def filters():
    return set(re.findall(r"^def (\w+)", (TOP / "view/questions.jq").read_text(encoding="utf-8"), re.M)) - PARTS


class Questions(Case):
    def test_examples(self):
        """The examples show them all, and no others."""
        shown = {name for example in examples_of("Reading") for name in re.findall(r'include "questions"; (\w+)', example.command)}
        self.same("the filters", shown, filters())

    def test_each_report(self):
        need("jq")
        reports = "".join(map(written, example_reports().values()))
        for name in sorted(filters() - OF_LINES):
            for call in [f"{name}({value})" for value in ARGUMENTS.get(name, ())] or [name]:
                done = subprocess.run(["jq", "-r", "-L", TOP / "view", f'include "questions"; {call}'], input=reports,
                                      capture_output=True, text=True)
                self.same(call, (done.returncode, done.stderr), (0, ""))
