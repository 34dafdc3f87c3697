"""reference/shardscrub.py beside the program: on a fixed set of made-up disks, where each answer of the program has to be the reference's,
byte for byte, and what it prints of a shard also has to agree with its own manifest and report (tests/fuzz/against_reference.py makes up
others); run as a command on examples; and the definitions that its functions name."""
import ast
import re
import subprocess
import sys
from functools import cache

from lib.cases import Case, RoomCase, add_tests
from lib.comparison import compared
from lib.program import TOP

SEED, DISKS = 1, 400
REFERENCE = TOP / "reference/shardscrub.py"
SMALL, SEVERAL = ["--page", "64", "--pages", "4", "--extents", "3"], ["--page", "64", "--pages", "16", "--extents", "5"]
MOVE = ["--page", "64", "--pages", "8", "--extents", "4"]
LOOSE = ["--page", "64", "--pages", "8", "--extents", "5"]
BEHIND = f"loose 1 58 3 11111111-1111-1111-1111-111111111111 shard {1:032} 41"
SHARD = ["--id", f"{1:032}"]
# Arguments of a run in the folder of the examples. The names of the tests are these words.
RUNS = (
    ["scan", "one-shard.img"], ["scan", *SEVERAL, "several-findings.img", "3:1"], ["scan", "several-findings.img", *SEVERAL, "3:1"],
    ["scan", "--map", "rescued.map", "rescued.img"], ["scan", "no-superblock.img"], ["scan", "--page", "60", *SMALL[2:], "no-such.img"],
    ["scan", "no-such.img"], ["scan", "one-shard.img", "3:0"], ["scan", "--page", "64", "--pages", "4", "--extents", "2", "one-shard.img"],
    ["scan", "--map", "rescued.img", "rescued.img"], ["index", *SEVERAL, "several-findings.img"], ["locators", "rotted.img"],
    ["superblocks", "flipped-bit.img"], ["summary", "--last", "7", "several-findings.img"], ["summary", "formatted-twice.img"],
    ["manifest", *MOVE, "--reset=1", "to-move.img"], ["manifest", *MOVE, "--reset", "4", "to-move.img"],
    ["reclaimable", *MOVE, "--last", "1", "behind.img"], ["reclaimable", *MOVE, "--accept", BEHIND, "behind.img"],
    ["reclaimable", *LOOSE, "--last", "7", "tail.img"], ["reclaimable", *LOOSE, "--accept", "crowded 1", "--last", "7", "crowded.img"],
    ["locators", "tail.img"], ["manifest", *LOOSE, "--reset=1", "part.img"], ["manifest", *LOOSE, "part.img", "0:7"],
    ["compare", *LOOSE, "--reset", "1", "part.img", "part.img"], ["shard", "--id", f"{1:032}", "part.img"], ["shards", "tie.img"],
    ["reclaimable", *MOVE, "--accept", "tie", "behind.img"], ["reclaimable", *MOVE, "less.img"],
    ["compare", *MOVE, "--reset", "1", "to-move.img", "completed.img"], ["compare", *MOVE, "--reset", "2", "rotted.img", "copied.img"],
    ["shard", *SHARD, "several-findings.img"], ["shard", "--id", f"{3:032}", "several-findings.img"], ["shard", "--id", "1", "rotted.img"],
    ["shards", "several-findings.img"], ["sizes", "formatted-twice.img"], ["sizes", "--map", "failing.map", "failing.img"],
    ["items", "--extent", "1", "--pointer", "99", "behind.img"], ["items", "--extent", "9", "one-shard.img"],
    ["runs", *MOVE, "dead-node.img"], ["shards", "--partial", *MOVE, "--run=2:41", "--run", "3:0", "dead-node.img"],
    ["manifest", *MOVE, "--run", "3:1", "dead-node.img"], ["shard", *SHARD, *MOVE, "--run=3:512", "dead-node.img"],
    ["scan", "--", "--page", "64", "one-shard.img"], ["scan", "--", "--not there.img"], ["scan", "one-shard.img", "--", "1:2"],
    ["scan", "--workers=0", "--", "one-shard.img", "-1:2"], ["compare", *MOVE, "--", "rotted.img", "copied.img"],
)


class Disks(RoomCase):
    def check(self, turn):
        disk = compared(SEED, turn, self.room)
        found = [call.found(self.program) for call in disk.calls]
        for call, answer in zip(disk.calls, found):
            self.same(call.line(), answer, call.right)
        for call, answer, law, is_kept in disk.laws(found):
            self.true(f"{call.line()}: {law}", is_kept, answer)


add_tests(Disks, Disks.check, [(f"disk {turn:03}", turn) for turn in range(DISKS)])


def ran(*command):
    """The status and both outputs of a run in the folder of the examples."""
    done = subprocess.run(command, cwd=TOP / "examples", stdin=subprocess.DEVNULL, capture_output=True)
    return done.returncode, done.stdout, done.stderr


class Commands(RoomCase):
    """The file as a command, with nothing of the tests."""

    def check(self, words):
        self.same(" ".join(words), ran(sys.executable, "-I", REFERENCE, *words), ran(self.program, *words))

    def test_what_the_program_refuses(self):
        """Words that are no arguments have the program's status. What is said of them is argparse's."""
        for words in ([*SMALL], ["scans"], ["scan"], ["scan", "--page", "64", "one-shard.img"], ["index", "one-shard.img"],
                      ["scan", "--last", "1", "one-shard.img"], ["scan", "--workers", "65", "one-shard.img"],
                      ["summary", "--last", "-1", "one-shard.img"], ["sizes", "one-shard.img", "1:0"],
                      ["scan", "--workers", "1", "--workers=2", "one-shard.img"], ["scan", *SMALL, "--page=64", "one-shard.img"],
                      ["shards", "--partial", "--partial", "one-shard.img"], ["scan", "--no such", "one-shard.img"],
                      ["scan", "-no such.img"], ["manifest", *SMALL, "--reset=1", "--run=1:0", "one-shard.img"]):
            found, right = ran(sys.executable, "-I", REFERENCE, *words), ran(self.program, *words)
            self.same(" ".join(words), found[:2], right[:2])
            self.same(f"{' '.join(words)}: the status", right[0], 2)


add_tests(Commands, Commands.check, [(" ".join(words), words) for words in RUNS])


@cache
def definitions():
    """The names of the definitions in the `specs` of each crate."""
    start = re.compile(r"^(?:abbrev |pub )*(?:record )?(\w+)", re.M)
    return {folder.parent.name: {name for path in folder.glob("**/*.antt") for name in start.findall(path.read_text(encoding="utf-8"))}
            for folder in sorted(TOP.glob("crates/*/specs"))}


class Definitions(Case):
    """What a function says that it is: names of definitions, and the crate whose `specs` has them."""
    NAMED = re.compile(r"((?:`\w+`(?:,\s+|\s+and\s+)?)+)\s+of\s+(\w+)")

    def test_they_are_there(self):
        tree, count = ast.parse(REFERENCE.read_text(encoding="utf-8")), 0
        for node in ast.walk(tree):
            if isinstance(node, (ast.FunctionDef, ast.ClassDef)):
                for names, crate in self.NAMED.findall(ast.get_docstring(node) or ""):
                    for name in re.findall(r"`(\w+)`", names):
                        count += 1
                        there = [one for one, some in definitions().items() if name in some]
                        self.true(f"{node.name}: {name} of {crate}", crate in there, f"it is in {there}")
        self.true("there are many", count > 120, count)
