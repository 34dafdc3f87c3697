"""dev/messages.py: each text that the program prints has its row, each example in the tables is right, and each of many wrong command
lines is explained by a row. The program runs as somebody starts it: `sh` runs the line in a folder with examples/.

docs/READING.md and docs/shardscrub.1 have the tables; `documents` sees that they are as the tools make them.
"""
import ctypes
import os
import re
import shlex
import subprocess
import sys

from lib.cases import Case, RoomCase, add_tests
from lib.program import TOP
from lib.wrong_lines import REMARKS, WRONG, make_files

sys.path.insert(0, str(TOP / "dev"))
from messages import FAULTS, GROUPS, REMARKS_BESIDE, SCRIPT, explained, status_of  # noqa: E402

CLI = TOP / "crates/scrub_cli"
ROWS = {message.text: (group, message) for group in GROUPS for message in group.messages}
# What stands for the parts of a text that vary, as the definitions of the texts name them.
VARYING = {"two_digits": "07", "decimal": "7", "encode_lower": "0" * 32, "state_text": "wrong_digest", ".now": "x"}
# The faults whose text is that of the help or of `clap`.
OTHERS_TEXTS = {"Help", "Args"}
# Numbers of Linux: the option of prctl that takes a right from all that is started, and the rights to read what isn't one's own.
DROP, READING_RIGHTS = 24, (1, 2)


def read(path):
    """A source, with each text on one line."""
    return re.sub(r"\\\n\s*", "", path.read_text(encoding="utf-8"))


def sample(parts):
    """A text that may be printed by its definition, such as `codes "map refused: line " ++ decimal k`."""
    text = ""
    for part in parts.split(" ++ "):
        literal = re.search(r'codes "([^"]*)"', part)
        text += " " * part.startswith("spaced") + (literal[1] if literal else next(value for name, value in VARYING.items() if name in part))
    return text


def defined():
    """The texts of faults by their definitions: the name of each, and a text that may be printed."""
    found = re.findall(r"(?m)^text_of \(?(\w+)[^=]*=\s+line\s+\((.*)\)$", read(CLI / "specs/Fault.antt"))
    return [(name, sample(parts)) for name, parts in found]


def remarks():
    """Texts of remarks that may be printed by their definitions: all other lines of the program's own."""
    return [sample(parts) for path in sorted((CLI / "specs").glob("**/*.antt")) if path.name != "Fault.antt"
            for parts in re.findall(r"(?m)= line \((codes .*)\)$", read(path))]


def beginnings():
    """How the texts begin that are written out in the code: up to the first part that varies."""
    code = "\n".join(read(path) for path in sorted((CLI / "src").glob("**/*.rt")))
    return {*re.findall(r'\bwrite_(?:line|number)\(\s*\w+,\s*"([^"]+)"', code), *re.findall(r'"shardscrub: ([^"{\\]+)', code)}


def without_rights():
    """In the process that is to be started: takes a superuser's right to read each file."""
    for right in READING_RIGHTS:
        ctypes.CDLL(None).prctl(DROP, right, 0, 0, 0)


class Sources(Case):
    """A text of the program that has no row is told by these."""

    def one_row(self, line, group):
        """The row of a line, which has to be in this group."""
        rows = explained(line)
        self.same(f"{line}: rows in {group.column}", [message in group.messages for message in rows], [True])
        return rows[0] if rows else None

    def test_each_fault_has_a_row(self):
        """Also each kind of fault that the code has, and the row has the status of the definition."""
        statuses = dict(re.findall(r"(?m)^status_of \(?(\w+)[^=]*= (\d)$", read(CLI / "specs/Fault.antt")))
        for name, text in defined():
            row = self.one_row(f"shardscrub: {text}", FAULTS)
            if row is not None:
                self.same(f"{row.text}: the status", status_of(FAULTS, row), int(statuses[name]))
        body = re.search(r"pub enum Fault<'a> \{\n(.*?)^\}", read(CLI / "src/process/fault.rt"), re.M | re.S)[1]
        kinds = set(re.findall(r"(?m)^    (\w+)", body))
        self.same("kinds of faults without a text", kinds - {name for name, _ in defined()}, OTHERS_TEXTS)

    def test_each_remark_has_a_row(self):
        found = remarks()
        self.true("there are some", len(found) >= 6, found)
        for text in found:
            self.one_row(f"shardscrub: {text}", REMARKS_BESIDE)

    def test_each_text_in_the_code_has_a_row(self):
        found = beginnings()
        self.true("there are some", len(found) >= 20, found)
        for text in sorted(found):
            self.true(f"{text}: has a row", any(row.startswith(text) for row in ROWS), "none begins so")

    def test_each_text_of_the_script_has_a_row(self):
        found = re.findall(r'(?m)\bfail "([^"]*)"', (TOP / "shardscrub").read_text(encoding="utf-8"))
        rows = [self.one_row("shardscrub: " + re.sub(r"\$\{[^}]*\}|\$\w+", "7", text), SCRIPT) for text in found]
        self.same("rows of which the script has no text", [row.status for row in SCRIPT.messages if row not in rows], [127])


class Lines(RoomCase):
    @classmethod
    def setUpClass(cls):
        super().setUpClass()
        make_files(cls.room, cls.program)

    def printed(self, line):
        """The status and both outputs of a line."""
        environment = os.environ | {"PATH": f"{self.room}/bin:{os.environ['PATH']}", "LC_ALL": "C.UTF-8"}
        environment.pop("WORKERS", None)
        done = subprocess.run(["sh", "-c", line], cwd=self.room, env=environment, stdin=subprocess.DEVNULL, capture_output=True,
                              timeout=300, preexec_fn=without_rights)
        return done.returncode, done.stdout, done.stderr.decode("utf-8", "replace")

    def check_example(self, text):
        """The example of a row has an answer with the status that the row says, and at most remarks beside it, not that of the row."""
        _, message = ROWS[text]
        status, _, error = self.printed(f"shardscrub {message.example}")
        self.same(f"{message.example}: the status", status, message.ends)
        rows = [row for line in error.splitlines() for row in explained(line) or [None]]
        self.true(f"{message.example}: only other remarks", all(row in REMARKS_BESIDE.messages and row != message for row in rows), error)

    def check(self, text):
        """Each of these command lines has this row's message and status, and no row but this one explains it."""
        group, message = ROWS[text]
        for line in WRONG[text]:
            if line.endswith(" locked") and self.printed("test -r locked")[0] == 0:
                continue
            status, out, error = self.printed(line)
            self.same(f"{line}: the status", status, status_of(group, message))
            if group.before:
                first = error.partition("\n")[0]
                self.true(f"{line}: a message of {group.before}", first.startswith(group.before), error)
                self.same(f"{line}: the rows that explain {first}", [row.text for row in explained(first)], [text])
                self.same(f"{line}: the output", out, b"")
            else:
                said = re.findall(r"`([^`]*)`", text)
                self.same(f"{line}: the error stream", error, "")
                self.true(f"{line}: the output", set(said) <= set(out.decode().splitlines()) if said else out == b"", out)

    def check_remarks(self, line):
        """The rows that explain the lines beside this answer."""
        status, out, error = self.printed(line)
        self.same(f"{line}: the status", status, 1)
        self.true(f"{line}: there is an answer", out, error)
        self.same(f"{line}: the rows", [[row.text for row in explained(said)] for said in error.splitlines()],
                  [[text] for text in REMARKS[line]])

    def test_each_row_is_shown(self):
        """By a line of these tables; that of a program that can't start by `start`."""
        shown = {*WRONG, *(text for texts in REMARKS.values() for text in texts)}
        self.same("rows without a line", [text for text, (group, _) in ROWS.items() if text not in shown and group != SCRIPT], [])
        self.same("lines without a row", shown - set(ROWS), set())

    def test_the_map_of_the_row_is_taken(self):
        """The state and the block that the row of refused maps has."""
        lines = re.findall(r"`(0x[^`]*)`", ROWS["map refused: line K"][1].wrong)
        self.same("lines", len(lines), 2)
        (self.room / "map of the row").write_text("".join(f"{line}\n" for line in lines), encoding="ascii")
        status, _, error = self.printed("shardscrub summary --map 'map of the row' examples/one-shard.img")
        self.same("status and error stream", (status, error), (0, ""))

    def test_the_wrong_pages_of_the_row_are_tried(self):
        pages = re.findall(r"`([^`]*)`", ROWS["bad page refused: ARG"][1].wrong)
        self.true("there are some", len(pages) > 4, pages)
        tried = {shlex.split(line)[-1] for line in WRONG["bad page refused: ARG"]}
        self.same("pages that aren't tried", set(pages) - tried, set())


add_tests(Lines, Lines.check, ((f"wrong_{number:02}_{text[:40]}", text) for number, text in enumerate(WRONG)))
add_tests(Lines, Lines.check_example, ((f"example_{number:02}_{text[:40]}", text) for number, text in enumerate(ROWS)))
add_tests(Lines, Lines.check_remarks, ((f"remarks_{number}", line) for number, line in enumerate(REMARKS)))
