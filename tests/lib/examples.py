"""The examples of five pages, the disks of examples/ and of made-up lists, and the schema of reports and rows.

The pages are examples/README.md, README.md, docs/READING.md, docs/RECLAIMING.md and the man page, in this order. An example is a line
in a block that begins with "$ ". The lines up to the next such line or the end of the block are its output, on both streams. `sh` runs
the line.

Some examples use files that earlier ones wrote. So an example that is run alone runs those before it, too. All run in a copy of the
folders, whose ./shardscrub is a script of the test. Each has a shell of its own; what an example NAME=$(mktemp -d) sets stays set.

The same examples are in the installed pages, with other paths. They run in a folder of the reader's.
"""
import json
import os
import random
import re
import shlex
import shutil
import subprocess
import tempfile
import unittest
from functools import cache
from pathlib import Path
from typing import NamedTuple

from lib.cases import Case
from lib.disks import Disk, run, shard, uuid
from lib.made_up import Made, Tended
from lib.program import TOP, absent, need
from reference.shardscrub import Image, lost_by_map, read_map, sizes, summary

try:
    from jsonschema import Draft202012Validator
except ImportError:
    Draft202012Validator = None


# The examples of the pages

PAGES = {"Examples": "examples/README.md", "Readme": "README.md", "Reading": "docs/READING.md",
         "Reclaiming": "docs/RECLAIMING.md", "Manual": "docs/shardscrub.1"}
# The same pages below the prefix of an installation.
INSTALLED = {page: path if page == "Manual" else f"share/doc/shardscrub/{path}" for page, path in PAGES.items()} | {
    "Manual": "share/man/man1/shardscrub.1"}
# Of each tool that a machine may lack: the words of a command that needs it. view/row and view/metrics need some themselves.
TOOLS = {"jq": r"jq|rows?", "flock": "rows?", "awk": "awk|rows?|metrics", "basenc": "act/put|act/reclaim",
         "cmp": "cmp|act/put|act/reclaim", "python3": "python3|act/(?:plan|reclaim|rescue)|examples/node",
         "od": "od|act/put|act/reclaim", **{tool: tool for tool in ("ddrescue", "diff", "ldd", "parallel", "tar", "xargs")}}
# Commands that write to files that they name, beside `>`.
WRITERS = re.compile(r"(?:^|[;|(] *)(?:cp|dd|ddrescue|act/put|act/reclaim|act/rescue|examples/node) ")


class Example(NamedTuple):
    page: str
    line: int
    command: str
    wanted: str


def lines_of(page, prefix=None):
    """The lines of a page, or of the page that is installed below a prefix. The man page gets the form of the other pages: its blocks
    are between .EX and .EE, and among the sources it calls the program shardscrub."""
    text = (TOP / PAGES[page] if prefix is None else prefix / INSTALLED[page]).read_text(encoding="utf-8")
    if page == "Manual":
        text = re.sub(r"^\.E[XE]$", "```", text.replace("\\-", "-").replace("\\e", "\\"), flags=re.MULTILINE)
        if prefix is None:
            text = re.sub(r"^\$ shardscrub ", "$ ./shardscrub ", text, flags=re.MULTILINE)
    return text.splitlines()


def without_sources(lines):
    """The lines of a page, with an empty one for each that isn't installed."""
    is_left_out = False
    for line in lines:
        is_left_out = is_left_out or line == "<!-- not installed -->"
        yield "" if is_left_out else line
        is_left_out = is_left_out and line != "<!-- installed -->"


def examples_of(page, prefix=None, are_sources_left_out=False):
    """The examples of a page, in its order."""
    found, is_inside, is_output = [], False, False
    lines = lines_of(page, prefix)
    for number, line in enumerate(without_sources(lines) if are_sources_left_out else lines, 1):
        if line.startswith("```"):
            is_inside, is_output = not is_inside, False
        elif is_inside and line.startswith("$ "):
            found.append(Example(page, number, line[2:], ""))
            is_output = True
        elif is_output:
            found[-1] = found[-1]._replace(wanted=found[-1].wanted + line + "\n")
    return found


def scans_of(page):
    """The arguments of each scan that is an example of a page, each once. A scan within a longer command isn't one."""
    found = [re.match(r"\./shardscrub scan ([^|;>]*)", example.command) for example in examples_of(page)]
    return list(dict.fromkeys(one[1].strip() for one in found if one))


def all_examples():
    return [example for page in PAGES for example in examples_of(page)]


def starting(program):
    """A script that starts this program."""
    return f'#!/bin/sh\nexec {shlex.quote(str(program))} "$@"\n'


def writes(command, path):
    """Whether a command may write to a file: by `>`, where a variable of the shell may be any word, or as one that writes to files which
    it names."""
    targets = (re.split(r"\$(?!files\b)\w+", target) for target in re.findall(r">(\$files/[\w./$-]+)", command))
    return (any(re.fullmatch(r"[\w-]+".join(map(re.escape, parts)), path) for parts in targets)
            or path in command and WRITERS.search(command) is not None)


class Transcript:
    """What the examples print. Each is run once, in their order. `script` gives the text of their ./shardscrub."""

    # The module and the beginning of the class that its tests are named by.
    name = "test_examples."

    def __init__(self, script):
        self.script, self.printed, self.folder, self.needed = script, [], None, {}
        # The examples that name the tests, and those that are run.
        self.examples = self.commands = all_examples()

    def close(self):
        if self.folder is not None:
            self.folder.cleanup()

    def tools(self, number):
        """The tools that an example needs, and those of all examples that may have written to its files, since these have their
        folder."""
        if number not in self.needed:
            command = self.examples[number].command
            self.needed[number] = {tool for tool, words in TOOLS.items() if re.search(rf"\b(?:{words})\b", command)}
            paths = re.findall(r"\$files/[\w./-]+", command)
            for earlier in reversed(range(number if paths else 0)):
                if self.examples[earlier].command == "files=$(mktemp -d)":
                    break
                if any(writes(self.examples[earlier].command, path) for path in paths):
                    self.needed[number] |= self.tools(earlier)
        return self.needed[number]

    def make_folders(self):
        """Copies what the examples use, and makes the folder for what they write."""
        self.folder = tempfile.TemporaryDirectory(prefix="shardscrub-examples-")
        self.top, passing = Path(self.folder.name, "top"), Path(self.folder.name, "passing")
        self.top.mkdir()
        passing.mkdir()
        self.environment = os.environ | {"TMPDIR": str(passing), "SHARDSCRUB": str(self.top / "shardscrub")}
        for path in TOP.iterdir():
            if path.name in ("docs", "examples", "release", "view"):
                shutil.copytree(path, self.top / path.name, symlinks=True)
            elif path.name not in (".git", "shardscrub"):
                (self.top / path.name).symlink_to(path)
        start = self.top / "shardscrub"
        start.write_text(self.script(), encoding="utf-8")
        start.chmod(0o755)

    def up_to(self, number):
        """Runs all examples up to this one that haven't been run, and returns what it printed."""
        if self.folder is None:
            self.make_folders()
        while len(self.printed) <= number:
            self.printed.append(self.run(self.commands[len(self.printed)]))
        return self.printed[number]

    def run(self, example):
        """What the command prints on both streams. It goes to a file, since a command may leave others behind that hold its output."""
        if found := re.fullmatch(r"(\w+)=\$\(mktemp -d\)", example.command):
            self.environment[found[1]] = tempfile.mkdtemp(dir=self.environment["TMPDIR"])
            return ""
        with tempfile.TemporaryFile() as out:
            subprocess.run(["sh", "-c", example.command], cwd=self.top, env=self.environment, stdin=subprocess.DEVNULL, stdout=out,
                           stderr=subprocess.STDOUT)
            out.seek(0)
            return out.read().decode("utf-8", "replace")


class Installed(Transcript):
    """What the examples of the installed pages print. They are those of the sources, but for some that only the sources can do, and have
    the installed paths. They run in a folder of their own, with the installed program on the path."""
    name = "test_package.Installed"

    def __init__(self):
        super().__init__(None)
        self.examples = [example for page in PAGES for example in examples_of(page, are_sources_left_out=True)]

    def make_folders(self):
        # A path whose characters mean something to a shell or to sed.
        self.folder = tempfile.TemporaryDirectory(prefix="shardscrub-installed-")
        prefix, self.top, passing = (Path(self.folder.name, name) for name in ("it's new (a & b)", "top", "passing"))
        subprocess.run([TOP / "release/install", prefix], check=True, env={name: os.environ[name] for name in ("PATH",)})
        self.top.mkdir()
        passing.mkdir()
        self.environment = os.environ | {"TMPDIR": str(passing), "PATH": f"{prefix}/bin{os.pathsep}{os.environ['PATH']}"}
        self.environment.pop("SHARDSCRUB", None)
        # An example that isn't there prints nothing that anybody wants.
        none = Example("", 0, "", None)
        self.commands = []
        for page in PAGES:
            count = sum(example.page == page for example in self.examples)
            self.commands += (examples_of(page, prefix) + [none] * count)[:count]


class ExampleCase(Case):
    """An example of a page, named by its line."""

    def __init__(self, transcript, number):
        super().__init__("check")
        self.transcript, self.number, self.example = transcript, number, transcript.examples[number]

    def id(self):
        return f"{self.transcript.name}{self.example.page}.test_line_{self.example.line:04}"

    def check(self):
        for tool in sorted(self.transcript.tools(self.number)):
            need(tool)
        found = self.transcript.up_to(self.number)
        command = self.transcript.commands[self.number]
        self.same(f"$ {command.command}\n", found, command.wanted)


# Disks of a list, as view/row takes them

MADE_UP = 24
# The greatest number that a generation may be, and two that floating point can't tell apart.
GREAT = (2 ** 64 - 1, 2 ** 53, 2 ** 53 + 1)


def line_of(name, image, geometry=("-", "-", "-"), blocks="-", lost=()):
    """A disk's line in the list."""
    pairs = " ".join(f"{extent}:{page}" for extent, page in lost) or "-"
    return "\t".join([name, str(image), *map(str, geometry), blocks, pairs])


def listed():
    return (TOP / "examples/disks.tsv").read_text(encoding="utf-8").splitlines()


def examples():
    """Each image of the examples; its sizes are those of its records."""
    return [line_of(path.name, f"examples/{path.name}") for path in sorted((TOP / "examples").glob("*.img"))]


def made_up(folder):
    """Made-up disks, the first of them with great generations."""
    for generation in GREAT:
        disk = Disk(4, 3)
        entry = shard(1), [disk.chunk(1, 0, uuid(1), b"abc")]
        disk.superblock(0, generation, disk.chunk(2, 0, uuid(2), run(entry)))
        image = folder / f"generation-{generation}"
        image.write_bytes(disk.bytes)
        yield line_of(image.name, image, (disk.page, disk.pages, disk.extents))
    for seed in range(MADE_UP):
        made = (Tended if seed % 2 == 0 else Made)(random.Random(seed))
        lost = made.make()
        image = folder / f"made-up-{seed}"
        image.write_bytes(made.raw)
        yield line_of(image.name, image, (made.p, made.n, made.e), lost=lost)


def geometry_of(raw, geometry, blocks):
    """The three sizes; if they are left out, those of the records, or None if `sizes` isn't sure of them."""
    if geometry != ["-"] * 3:
        return tuple(map(int, geometry))
    lines, is_sure, _ = sizes(raw, blocks)
    return tuple(map(int, lines.split()[3:6])) if is_sure else None


def image_of(line):
    """The image of the disk of this line, or None if its sizes aren't found."""
    _, image, *geometry, map_file, lost = line.split("\t")
    raw = (TOP / image).read_bytes()
    blocks = read_map((TOP / map_file).read_bytes()) if map_file != "-" else None
    geometry = geometry_of(raw, geometry, blocks)
    if geometry is None:
        return None
    page, pages, extents = geometry
    unreadable = [tuple(map(int, pair.split(":"))) for pair in lost.split() if pair != "-"]
    if blocks is not None:
        unreadable += [divmod(number, pages) for number in lost_by_map(blocks, page, pages * extents)]
    return Image(raw, page, pages, extents, unreadable)


def summary_of(line):
    """The verdict and the numbers of the disk of this line, as texts by their names; or None if its sizes aren't found."""
    image = image_of(line)
    return image and dict(line.split(" ") for line in summary(image)[0].splitlines())


# The schema of reports and rows

try:
    from jsonschema import Draft202012Validator
except ImportError:
    Draft202012Validator = None


@cache
def validators():
    """The validators of a report, and of the rows of scan, reclaimable and summary."""
    if Draft202012Validator is None:
        raise unittest.SkipTest(absent("Python's jsonschema"))
    schema = json.loads((TOP / "docs/report.schema.json").read_text(encoding="utf-8"))
    Draft202012Validator.check_schema(schema)
    rows = ({"$defs": schema["$defs"], "$ref": f"#/$defs/{name}"} for name in ("row", "reclaimableRow", "summaryRow"))
    return [Draft202012Validator(schema), *map(Draft202012Validator, rows)]


def is_row(line):
    """Whether a printed line is a report or a row."""
    return line.startswith(('{"broken":', '{"disk":'))


def spoilt(row):
    """The row without one of its keys, with one more, and with another status."""
    yield from ({key: row[key] for key in row if key != less} for less in row)
    yield row | {"more": 0}
    if "disk" in row:
        right = row["status"] if row["status"] < 2 else 2
        yield from (row | {"status": wrong} for wrong in {0, 1, 2, 256} - {right})


def check_line(case, what, line):
    """Checks that the schema accepts a report or a row, and refuses it if it is spoilt."""
    row = json.loads(line)
    validator = validators()[0 if "disk" not in row else 2 if "lines" in row else 3 if "verdict" in row else 1]
    faults = [fault.message[:1000] for fault in validator.iter_errors(row)]
    case.same(f"{what}: faults", faults, [])
    taken = sum(map(validator.is_valid, spoilt(row)))
    case.same(f"{what}: spoilt ones that are accepted", taken, 0)
