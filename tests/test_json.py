"""view/json: each line of a listing is an object that the schema accepts, and the lines that are made again from the objects are the same
bytes: on the examples and on made-up disks. And what it refuses."""
import json
import random
import re
import runpy
import shlex
import subprocess
import unittest
from functools import cache
from pathlib import Path

from lib.cases import Case, RoomCase, add_tests
from lib.disks import geometry
from lib.drives import DRIVES
from lib.examples import all_examples, listed
from lib.made_up import History, Made, Tended, made_pair
from lib.node import Full
from lib.program import TOP, absent

try:
    from jsonschema import Draft202012Validator
except ImportError:
    Draft202012Validator = None

JSON = TOP / "view/json"
COMMANDS = ("locators", "manifest", "reclaimable", "superblocks", "sizes", "runs", "items", "compare", "shards")
WITH_SIZES = ("manifest", "reclaimable", "runs", "compare")
SEED, MADE, DRIVEN, PAIRS = 1, 200, 60, 40
# A command of a page with its arguments, which may stand in a longer command. Some are in a loop of the shell.
CALL = re.compile(rf"\./shardscrub ((?:{'|'.join(COMMANDS)}) [^|;>&$)]*)")
U1, U2, S1 = "11111111-1111-1111-1111-111111111111", "2" * 8 + "-2222-2222-2222-" + "2" * 12, f"{1:032}"
ABC_DIGEST = "ba7816bf8f01cfea414140de5dae2223b00361a396177a9cb410ff61f20015ad"
# Lines and their objects, as docs/REPORT.md names their words.
WORKED = {
    "locators": {f"run 0 2 0 117 {U2} sound": {
                     "kind": "run", "run": 0, "extent": 2, "offset": 0, "length": 117, "uuid": U2, "status": "sound"},
                 f"shard {S1} 4294967295 0 3 {U1} out_of_range": {
                     "kind": "shard", "shard": S1, "extent": 4294967295, "offset": 0, "length": 3, "uuid": U1, "status": "out_of_range"},
                 f"loose 1 58 3 {U1} 2": {"kind": "loose", "extent": 1, "offset": 58, "length": 3, "uuid": U1, "count": 2}},
    "manifest": {"retired": {"kind": "retired", "retired": []}, "retired 2 5": {"kind": "retired", "retired": [2, 5]},
                 f"shard {S1} 00 3 {ABC_DIGEST} sound plain": {
                     "kind": "shard", "shard": S1, "number": 0, "length": 3, "digest": ABC_DIGEST, "status": "sound", "form": "plain"},
                 f"shard {S1} 63 3 {ABC_DIGEST} no_frame 1 0 {U1} none": {
                     "kind": "shard", "shard": S1, "number": 63, "length": 3, "digest": ABC_DIGEST, "status": "no_frame", "extent": 1,
                     "offset": 0, "uuid": U1, "copy": "none"},
                 "total 1 2": {"kind": "total", "shards": 1, "lines": 2}},
    "reclaimable": {"doubt last none 18446744073709551615": {
                        "kind": "doubt", "doubt": "last", "counts": None, "last": 18446744073709551615},
                    "accepted tail 1 208 45": {"kind": "accepted", "doubt": "tail", "extent": 1, "offset": 208, "bytes": 45},
                    f"move 1 0 117 {U1} run 0 155": {
                        "kind": "move", "extent": 1, "offset": 0, "length": 117, "uuid": U1, "owner": {"run": 0}, "bytes": 155},
                    f"move 1 0 3 {U1} shard {S1} 41": {
                        "kind": "move", "extent": 1, "offset": 0, "length": 3, "uuid": U1, "owner": {"shard": S1}, "bytes": 41}},
    "superblocks": {"record 0 SSB2 18446744073709551615 counts": {
        "kind": "record", "page": 0, "record": "SSB2", "generation": 18446744073709551615, "state": "counts"}},
    "sizes": {"0 SSB1 9007199254740993 64 4 3": {
        "kind": "record", "offset": 0, "record": "SSB1", "generation": 9007199254740993, "page": 64, "pages": 4, "extents": 3}},
    "runs": {f"run 3 0 117 {U1} 1 26 86": {
        "kind": "run", "extent": 3, "offset": 0, "length": 117, "uuid": U1, "shards": 1, "at": [26, 86]}},
    "items": {"pad 41 64": {"kind": "pad", "start": 41, "stop": 64}},
    "compare": {"doubt after run-lost 0 not_a_run": {
                    "kind": "doubt", "image": "after", "doubt": "run-lost", "run": 0, "state": "not_a_run"},
                f"lost shard {S1} 00 3 {ABC_DIGEST} sound plain": {"kind": "lost", "line": {
                    "kind": "shard", "shard": S1, "number": 0, "length": 3, "digest": ABC_DIGEST, "status": "sound", "form": "plain"}},
                "unsafe": {"kind": "unsafe"}},
    "shards": {f"shardscrub: payload lost: {S1} 07": {"kind": "payload-lost", "shard": S1, "number": 7},
               f"shardscrub: a newer entry may be lost: {S1}": {"kind": "newer-entry", "shard": S1}},
}
# What no command prints, beside each worked line without its first or last byte, with one more, or under another command.
WRONG = ("", " ", "no-superblock ", "retired 01", "retired  1", "room 1 2", "room 1 2 3 4", "room -1 2 3", "room 1 2 3\r",
         "room \u0661 2 3", "room 1 2 " + "9" * 5000, "accepted tie", "doubt before superblock-damaged 1", f"lost total {S1}",
         "run 0 2 0 117 x sound",
         "shardscrub: out of memory", "lost new unsafe")
WRONG_OBJECTS = ("", "{}", "[]", "0", "null", "[" * 100000, '{"kind":"unsafe"', '{"kind":"unsafe","more":0}',
                 '{"kind":"written","extent":1}', '{"kind":"written","extent":true,"offset":0}',
                 '{"kind":"written","extent":1.0,"offset":0}',
                 '{"kind":"written","extent":"1","offset":0}', '{"kind":"written","extent":-1,"offset":0}', '{"kind":["unsafe"]}',
                 '{"kind":"written","extent":"1 2\\nunsafe","offset":0}', '{"kind":"lost","line":{"kind":"total"}}',
                 '{"kind":"lost","line":"total 1 1"}', '{"kind":"written","extent":NaN,"offset":0}')


def converted(*words, given, environment=None):
    """The status and both outputs of view/json."""
    done = subprocess.run([JSON, *words], input=given, capture_output=True, timeout=300, env=environment)
    return done.returncode, done.stdout, done.stderr


@cache
def definitions():
    schema = json.loads((TOP / "docs/report.schema.json").read_text(encoding="utf-8"))
    Draft202012Validator.check_schema(schema)
    return schema["$defs"]


def variants(command):
    """The forms of a command's objects, by the schema."""
    own = definitions()[f"lineOf{command.title()}"]["oneOf"]
    return own if command != "manifest" else [*definitions()["manifestEntry"]["oneOf"], *own[1:]]


@cache
def validator(command):
    return Draft202012Validator({"$defs": definitions(), "$ref": f"#/$defs/lineOf{command.title()}"})


def shape(value):
    """An object without its numbers, identifiers and digests: what distinguishes kinds of lines."""
    if isinstance(value, dict):
        return tuple((name, shape(one)) for name, one in value.items())
    return value if isinstance(value, str) and len(value) < 20 else type(value).__name__


def asked(program, command, *words):
    """What the program prints, or of shards says, if there is an answer."""
    done = subprocess.run([program, command, *map(str, words)], cwd=TOP, stdin=subprocess.DEVNULL, capture_output=True)
    return (done.stderr if command == "shards" else done.stdout) if done.returncode in (0, 1) else b""


class JsonCase(RoomCase):
    @classmethod
    def setUpClass(cls):
        if Draft202012Validator is None:
            raise unittest.SkipTest(absent("Python's jsonschema"))
        super().setUpClass()

    def check_lines(self, command, printed):
        """Checks that each line has its object, that the schema accepts one of each shape, and that the lines can be made again. Returns
        the objects, and those of each shape."""
        status, objects, error = converted(command, given=printed)
        self.same(f"{command}: status and error stream", (status, error), (0, b""))
        self.same(f"{command}: the lines again", converted("--lines", command, given=objects), (0, printed, b""))
        found = [json.loads(line) for line in objects.decode("ascii").splitlines()]
        self.same(f"{command}: objects", len(found), printed.count(b"\n"))
        seen = {shape(one): one for one in found}
        for one in seen.values():
            self.same(f"{command}: faults of {one}", [fault.message[:1000] for fault in validator(command).iter_errors(one)], [])
        return found, [*seen.values()]


class Examples(JsonCase):
    """All disks of disks.tsv, and all calls of the pages."""

    def calls(self):
        """The words of each call, in the repository's folder."""
        for line in listed():
            _, image, *sizes, map_file, lost = line.split("\t")
            words = [*geometry(*sizes), *(["--map", map_file] if map_file != "-" else []), image, *lost.replace("-", "").split()]
            for command in COMMANDS:
                if command == "compare":
                    yield [command, "--reset", "1", *words[:7], image, *words[7:]]
                elif command == "sizes":
                    yield [command, image]
                else:
                    yield from ([command, *(["--extent", str(extent)] if command == "items" else []), *words]
                                for extent in range(int(sizes[2]) if command == "items" else 1))
        for example in all_examples():
            for found in CALL.finditer(example.command):
                yield shlex.split(found[1])

    def check(self, command):
        printed = [asked(self.program, *words) for words in self.calls() if words[0] == command]
        self.true(f"{command}: calls with lines", sum(map(bool, printed)) > 5 - 2 * (command == "shards"), len(printed))
        self.check_lines(command, b"".join(printed))

    def test_the_calls_of_the_page(self):
        found = [words[0] for words in self.calls()]
        self.same("commands without a call", [name for name in COMMANDS if found.count(name) < 10], [])


class Disks(JsonCase):
    """All lines of 300 made-up disks, which have each kind of line that there is."""

    @classmethod
    def setUpClass(cls):
        super().setUpClass()
        cls.printed = {command: [] for command in COMMANDS}
        for turn in range(MADE):
            choice = random.Random(f"{SEED} made {turn}")
            made = (Made, Tended, History, Tended)[turn % 4](choice)
            unreadable = made.make()
            cls.ask(choice, made.raw, (made.p, made.n, made.e), unreadable)
            (cls.room / "map").write_bytes(made.map())
            cls.take("sizes", *["--map", cls.room / "map"] * (turn % 3 > 0), cls.room / "image")
        for turn in range(DRIVEN):
            choice = random.Random(f"{SEED} drive {turn}")
            drive, generation = cls.driven(choice, turn)
            cls.ask(choice, drive.raw, (drive.page, drive.pages, drive.extents), drive.unreadable, generation)
        for turn in range(PAIRS):
            pair = made_pair(random.Random(f"{SEED} pair {turn}"))
            cls.ask_pair(pair)

    @staticmethod
    def driven(choice, turn):
        while True:
            try:
                return list(DRIVES.values())[turn % len(DRIVES)](choice)
            except Full:
                pass

    @classmethod
    def take(cls, command, *words):
        cls.printed[command].append(asked(cls.program, command, *words))

    @classmethod
    def ask(cls, choice, raw, sizes, unreadable, generation=7):
        image = cls.room / "image"
        image.write_bytes(raw)
        pages = [f"{extent}:{page}" for extent, page in sorted(unreadable)]
        words, given = [image, *pages], geometry(*sizes)
        cls.take("superblocks", *given, *words)
        for extent in (0, choice.randrange(1, sizes[2])):
            cls.take("items", *given, "--extent", extent, *words)
        given += ["--workers", "0"]
        for command in ("locators", "shards", "manifest", "runs", "reclaimable"):
            cls.take(command, *given, *words)
        listing = cls.printed["reclaimable"][-1].decode().splitlines()
        doubts = [line[6:] for line in listing if re.match("doubt (spare|loose|crowded) ", line)]
        for last in (generation, generation + 1):
            cls.take("reclaimable", *given, "--last", last, *(word for line in doubts for word in ("--accept", line)), *words)
        cls.take("compare", *given, "--reset", choice.randrange(1, sizes[2]), image, *words)

    @classmethod
    def ask_pair(cls, pair):
        names = [cls.room / "before", cls.room / "after"]
        for name, text in zip(names, (pair.before.raw, pair.after.raw)):
            name.write_bytes(text)
        given = geometry(pair.before.page, pair.before.pages, pair.before.extents)
        pages = [f"{extent}:{page}" for extent, page in sorted(pair.before.unreadable)]
        resets = [word for extent in pair.resets for word in ("--reset", extent)]
        for first, second in (names, names[::-1]):
            cls.take("compare", *given, *resets, first, second, *pages)
            cls.take("manifest", *given, *resets, first, *pages)

    def check(self, command):
        objects, some = self.check_lines(command, b"".join(self.printed[command]))
        self.true(f"{command}: there are many", len(objects) > 100, len(objects))
        for one in some:
            for wrong in ({name: one[name] for name in one if name != less} for less in one):
                self.true(f"{command}: the schema refuses {wrong}", not validator(command).is_valid(wrong))
            self.true(f"{command}: the schema refuses a name more", not validator(command).is_valid(one | {"more": 0}))
        forms = [Draft202012Validator({"$defs": definitions(), "allOf": [form]}) for form in variants(command)]
        self.same(f"{command}: forms of the schema that no line has", [form.schema["allOf"] for form in forms
                                                                      if not any(map(form.is_valid, some))], [])


class Refused(Case):
    """What isn't a line or an object. What comes before it is printed, and nothing of it."""

    def refused(self, words, number, printed, given, what):
        error = f"view/json: line {number} isn't {what}\n".encode()
        self.same(f"{words}: {given[:200]!r}", converted(*words, given=given), (2, printed, error))

    def check(self, command):
        """Each line has its object, to the byte; other lines are refused."""
        lines = [line.encode() + b"\n" for line in WORKED[command]]
        objects = [json.dumps(one, separators=(",", ":")).encode() + b"\n" for one in WORKED[command].values()]
        self.same(command, converted(command, given=b"".join(lines)), (0, b"".join(objects), b""))
        self.same(f"--lines {command}", converted("--lines", command, given=b"".join(objects)), (0, b"".join(lines), b""))
        what = f"one that {command} prints"
        self.refused([command], 2, objects[0], lines[0] + b"x\n" + lines[0], what)
        self.refused([command], 2, objects[0], lines[0] + lines[0][:-1], what)
        self.refused([command], 1, b"", lines[0][:-1] + b"\xff\n", what)
        self.same(f"{command}: nothing", converted(command, given=b""), (0, b"", b""))

    def test_lines(self):
        """Each line without its first or last byte or with one more, and those of other commands. The function is that of the script."""
        as_object = runpy.run_path(str(JSON))["as_object"]
        for command in COMMANDS:
            own = {wrong for line in WORKED[command] for wrong in (line[1:], line + " ", line + " x", " " + line, line + "-")}
            others = {line for other in COMMANDS if other != command for line in WORKED[other]}
            taken = [line for line in {*WRONG, *own, *others} if as_object(command, line) is not None]
            self.same(f"{command}: lines that are taken", taken, [])

    def test_objects(self):
        what = "the object of a line of compare"
        as_line = runpy.run_path(str(JSON))["as_line"]
        for text in WRONG_OBJECTS:
            self.same(f"{text[:200]}: the line", as_line("compare", text), None)
        self.refused(["--lines", "compare"], 2, b"unsafe\n", b'{"kind":"unsafe"}\n{}\n', what)
        self.refused(["--lines", "compare"], 1, b"", b'{"kind":"unsafe"}', what)

    def test_wrong_words(self):
        for words in ([], ["scan"], ["summary"], ["locators", "sizes"], ["--line", "x"]):
            status, out, error = converted(*words, given=b"")
            self.same(str(words), (status, out, error.startswith(b"usage: view/json ")), (2, b"", True))

    def test_help(self):
        status, out, error = converted("--help", given=b"")
        self.same("status and error stream", (status, error), (0, b""))
        self.true("it names each command", all(name in out.decode() for name in COMMANDS), out)

    def test_a_pipe_that_ends(self):
        """Nothing is said."""
        line = f"room 1 2 {10 ** 9}\n" * 100000
        for words in ("reclaimable", "reclaimable | " + str(JSON) + " --lines reclaimable"):
            done = subprocess.run(["sh", "-c", f"{shlex.quote(str(JSON))} {words} | head -n 1"], input=line.encode(), capture_output=True)
            self.same(words, (done.stdout.count(b"\n"), done.stderr), (1, b""))

    def test_an_output_that_fails(self):
        with open("/dev/full", "wb") as full:
            done = subprocess.run([JSON, "items"], input=b"pad 0 64\n", stdout=full, stderr=subprocess.PIPE)
        self.same("status and error stream", (done.returncode, done.stderr), (3, b"view/json: No space left on device\n"))

    def test_the_schema_has_an_identifier(self):
        schema = json.loads((TOP / "docs/report.schema.json").read_text(encoding="utf-8"))
        self.true("an absolute one", re.fullmatch(r"urn:shardscrub:[a-z.]+", schema["$id"]), schema["$id"])
        self.true(f"{Path(JSON).name} names the schema", b"docs/report.schema.json" in JSON.read_bytes())


class Page(RoomCase):
    """What docs/REPORT.md says."""
    TEXT = (TOP / "docs/REPORT.md").read_text(encoding="utf-8")

    def test_its_examples(self):
        (self.room / "shardscrub").symlink_to(self.program)
        section = re.search(r"^## Lines as JSON\n(.*?)^## ", self.TEXT, re.M | re.S)[1]
        examples = re.findall(r"^\$ (.*)\n((?:\{.*\n)+)", section, re.M)
        self.same("examples", len(examples), 2)
        for command, wanted in examples:
            command = command.replace("./shardscrub", f"{self.room}/shardscrub")
            done = subprocess.run(["sh", "-c", command], cwd=TOP, stdin=subprocess.DEVNULL, capture_output=True, text=True)
            self.same(command, (done.stdout, done.stderr), (wanted, ""))

    def test_compare_has_the_order_of_the_help(self):
        helped = subprocess.run([self.program, "compare", "--help"], capture_output=True, text=True).stderr
        order = re.findall(r"^  ([a-z]+) (?=[A-Z]|before)", helped, re.M)
        section = re.search(r"^## Two images\n(.*?)^## ", self.TEXT, re.M | re.S)[1]
        self.same("the kinds of lines", re.findall(r"^\| `([a-z]+) ", section, re.M), [kind for kind in order if kind != "safe"])


add_tests(Examples, Examples.check, [(f"lines of {command}", command) for command in COMMANDS])
add_tests(Disks, Disks.check, [(f"lines of {command}", command) for command in COMMANDS])
add_tests(Refused, Refused.check, [(f"lines of {command}", command) for command in COMMANDS])
