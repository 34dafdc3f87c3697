"""What code outside of a crate can't do, as the checker refuses it: a result of a scan is made by a scan alone, since its fields are
private.

An edit works within a crate and can't show that. So a program is written beside copies of the crate and of those below it, and tried by
`rt try`, which proves nothing.
"""
import re
import shutil
import subprocess
import unittest

from lib.cases import RoomCase
from lib.program import TOP

SECONDS = 600
ABOVE = ["scrub_disk", "scrub_scan"]
PROGRAM = """//! A program outside of `scrub_scan`, which hands on what a scan found.
#![tactic(auto)]

use scrub_disk::PageSource;
use scrub_scan::{ExtentResult, Findings};
use std::io::Write;
use std::process::ExitCode;

RESULTS
fn main(rt: HostRuntime) -> ExitCode {
    let _written = rt.stdout().write_all(b"handed on\\n");
    ExitCode::SUCCESS
}
"""
RESULT = """/// A result, from that of a scan, the same source and other findings.
pub fn NAME<'d, D: PageSource>(found: ExtentResult<'d, D>, source: &'d D, findings: Findings) -> ExtentResult<'d, D> {
    BODY
}
"""
HONEST = {"handed_on": "found"}
# Results that no scan made, and the private fields that each of them names.
FORGED = {
    "made": "ExtentResult { source, extent: 1, pointer: 0, findings, asked: found.asked }",
    "changed": "ExtentResult { pointer: 0, ..found }",
    "written": "let mut found = found; found.pointer = 0; found",
}
FIELDS = {"made": {"source", "extent", "pointer", "findings", "asked"}, "changed": {"source", "pointer"}, "written": {"pointer"}}
PRIVATE = re.compile(r"^src/main\.rt:(\d+):\d+: error\[private-field\]: field `(\w+)` of struct `ExtentResult` is private$", re.MULTILINE)


def uses():
    """The crates of this repository that each crate uses."""
    lines = (line.split(":") for line in (TOP / "crates.txt").read_text(encoding="utf-8").splitlines() if ":" in line)
    listed = {name.strip(): names.split() for name, names in lines}
    return {name: [one for one in names if one in listed] for name, names in listed.items()}


def with_lower(names, used):
    """These crates and all below them."""
    found = set()
    while names:
        found |= set(names)
        names = [lower for name in names for lower in used[name] if lower not in found]
    return sorted(found)


class Results(RoomCase):
    @classmethod
    def setUpClass(cls):
        if shutil.which("rt") is None:
            raise unittest.SkipTest("rt isn't there: it is the command of the Rattle toolchain")
        super().setUpClass()
        lower = with_lower(ABOVE, uses())
        for name in lower:
            shutil.copytree(TOP / "crates" / name, cls.room / "crates" / name, ignore=shutil.ignore_patterns("out", "must-fail"))
        shutil.copy(TOP / "HANDLES", cls.room)
        lines = (line for line in (TOP / "crates.txt").read_text(encoding="utf-8").splitlines() if line.split(":")[0] in lower)
        (cls.room / "crates.txt").write_text("\n".join([*lines, f"outside: {' '.join(ABOVE)}"]) + "\n", encoding="utf-8")
        (cls.room / "crates/outside/src").mkdir(parents=True)

    def tried(self, results):
        """The lines of the program with these results, and the status and the output of `rt try`."""
        functions = (RESULT.replace("NAME", name).replace("BODY", body) for name, body in results.items())
        program = PROGRAM.replace("RESULTS", "\n".join(functions))
        (self.room / "crates/outside/src/main.rt").write_text(program, encoding="utf-8")
        done = subprocess.run(["rt", "try"], cwd=self.room / "crates/outside", stdin=subprocess.DEVNULL, capture_output=True, text=True,
                              timeout=SECONDS)
        return program.splitlines(), done.returncode, done.stdout + done.stderr

    def test_a_result_is_handed_on_and_never_made_by_its_fields(self):
        """The program is run if it hands on a result. With results that it makes it is refused, for each field that these name."""
        _, status, text = self.tried(HONEST)
        self.true("a result is handed on", status == 0 and "handed on\n" in text, text)
        lines, status, text = self.tried(HONEST | FORGED)
        self.true("no program is made", status != 0 and "handed on\n" not in text, text)
        refused = [(lines[int(number) - 1].strip(), field) for number, field in PRIVATE.findall(text)]
        for name, body in FORGED.items():
            self.same(f"the private fields of a result that is {name}", {field for line, field in refused if line == body}, FIELDS[name])
        self.same("other lines", [line for line, _ in refused if line not in FORGED.values()], [])
