"""The layout of the sources, the texts that must-fail edits replace, and which files can be run."""
import os
import re
from itertools import pairwise

from lib.cases import Case
from lib.program import RELEASED, TOP

# A line of code has at most this many columns, unless it has a long text in it, as the program prints it.
COLUMNS = 110
LONG_TEXT = re.compile(r'"(?:[^"\\]|\\.){70,}"|r#".{70,}"#')

# The section of CONTRIBUTING whose lists name edits, tests in Rattle and tests of the program.
NAMED = re.compile(r"^## Named wrong bodies and worked examples$(.*?)^## ", re.M | re.S)


def named():
    """What these lists name, in their order."""
    section = NAMED.search((TOP / "CONTRIBUTING.md").read_text(encoding="utf-8"))[1]
    return [name for row in re.findall(r"(?m)^- .*", section) for name in re.findall(r"`([^`\s]+[/.:][^`\s]+)`", row)]


def is_there(name):
    """Whether there is an edit of the gate, a test in Rattle, or a test or a class of tests of the program with this name."""
    if "/" in name:
        crate, edit = name.split("/")
        return (TOP / "crates" / crate / "must-fail" / f"{edit}.edit").is_file()
    if "::" in name:
        crate, *modules, function = name.split("::")
        path = (TOP / "crates" / crate / "src").joinpath(*modules).with_suffix(".rt")
        return path.is_file() and f"#[test]\nfn {function}(" in path.read_text(encoding="utf-8")
    module, of, *method = name.split(".")
    path = TOP / "tests" / f"test_{module}.py"
    text = path.read_text(encoding="utf-8") if path.is_file() else ""
    body = re.search(rf"^class {of}\(.*?(?=^class |\Z)", text, re.M | re.S)
    return bool(body) and all(f"    def {one}(self" in body[0] for one in method)


class Sources(Case):
    def test_named_wrong_bodies_and_worked_examples(self):
        """CONTRIBUTING says what refuses each named wrong body, and what computes each worked example. All of that is there, and the
        gate has no other edits."""
        names = named()
        self.same("there are edits and tests of both kinds", [sum(mark in name for name in names) > 20 for mark in ("/", "::", ".test_")],
                  [True, True, True])
        for name in dict.fromkeys(names):
            self.true(f"{name} is there", is_there(name))
        edits = {f"{path.parent.parent.name}/{path.stem}" for path in TOP.glob("crates/*/must-fail/*.edit")}
        self.same("edits of the gate that no row names", edits - set(names), set())

    def test_columns(self):
        """No line of code is longer than `COLUMNS`."""
        for path in sorted(TOP.glob("crates/*/src/**/*.rt")):
            for number, line in enumerate(path.read_text(encoding="utf-8").splitlines(), 1):
                if len(line) > COLUMNS and not LONG_TEXT.search(line):
                    self.true(f"{path.relative_to(TOP)}:{number}", False, f"{len(line)} columns")

    def test_run_bits(self):
        """Each file outside of crates/ that begins with `#!` can be run, and no other but the released programs."""
        paths = [path for depth in range(1, 5) for path in TOP.glob("/".join("*" * depth)) if path.is_file() and not path.is_symlink()]
        paths = [path for path in paths if path.relative_to(TOP).parts[0] not in ("crates", "out", ".git")]
        scripts = {path for path in paths if path.open("rb").read(2) == b"#!"}
        self.true("there are scripts", len(scripts) > 15)
        runnable = {path for path in paths if os.access(path, os.X_OK)}
        self.same("files that can't be run, or that can",
                  sorted(str(path.relative_to(TOP)) for path in scripts ^ (runnable - set(RELEASED.values()))), [])

    def test_edits(self):
        """Each text that an edit replaces is in its file exactly once, by the time that it is replaced: those that `rt ci` tries, and
        those of tests/try-edits."""
        edits = {path: path.parent.parent for path in sorted(TOP.glob("crates/*/must-fail/*.edit"))}
        self.true("there are edits", edits)
        others = {path: TOP / "crates" / path.parent.name for path in sorted(TOP.glob("tests/edits/*/*.edit"))}
        self.true("there are edits of tests/try-edits", others)
        self.same("edits under one name", {f"{crate.name}/{path.name}" for path, crate in edits.items()}
                  & {f"{crate.name}/{path.name}" for path, crate in others.items()}, set())
        for path, crate in (edits | others).items():
            lines = path.read_text(encoding="utf-8").splitlines()
            file = next(line.removeprefix("file: ") for line in lines if line.startswith("file: "))
            text = (crate / file).read_text(encoding="utf-8")
            changes = [line for line in lines if line.startswith(("old: ", "new: "))]
            for old, new in list(pairwise(changes))[::2]:
                old, new = old.removeprefix("old: "), new.removeprefix("new: ")
                self.same(f"{path.relative_to(TOP)}: {old}", text.count(old), 1)
                text = text.replace(old, new)
