"""view/why: forty disks, sound, in doubt, wrong or without an answer in each way, with the line of each, what to do next, its alerts and
its row; what the line says of numbers and of texts; and view/reasons.tsv, which all of this is made from.
"""
import json
import re
import subprocess
from typing import NamedTuple

from lib.cases import Case
from lib.disks import Disk, run, shard, uuid
from lib.nights import WHY, NightlyCase, done
from lib.program import METRICS_TOOLS, ROW_TOOLS, TOP, need
from reference.shardscrub import Image, summary

REASONS = [line.split("\t") for line in (TOP / "view/reasons.tsv").read_text(encoding="utf-8").splitlines() if not line.startswith("#")]
EXAMPLES = TOP / "examples"
SMALL, MIDDLE = (64, 4, 3), (64, 8, 4)


def setUpModule():
    need(*METRICS_TOOLS)


def why(text, *words, **more):
    """The status and both outputs of view/why."""
    given = {"input": text, "stdin": None} if isinstance(text, str) else {}
    return done(WHY, *words, **given | more)


def of(name, page, pages, extents, *bad, options=()):
    """The image of an example, its sizes, unreadable pages, and more options."""
    return lambda folder: (EXAMPLES / f"{name}.img", (page, pages, extents), bad, options)


def made(make, *bad, pages=8, extents=4):
    """A disk that is made by hand. Its records fit into a page."""
    def image(folder):
        disk = Disk(pages, extents, page=256)
        make(disk)
        path = folder / "image"
        path.write_bytes(disk.bytes)
        return path, (disk.page, disk.pages, disk.extents), bad, ()
    return image


def raw(text, sizes):
    """An image that isn't such a disk, or only a part of one."""
    def image(folder):
        path = folder / "image"
        path.write_bytes(text)
        return path, sizes, (), ()
    return image


def five_shards(disk, runs=1, spoiled=()):
    """Five shards of a chunk each in extent 1, in one run or more, of which each names all; bytes of some chunks are flipped."""
    named = [(shard(number), [disk.chunk(1, 41 * (number - 1), uuid(number), b"abc")]) for number in range(1, 6)]
    locators = [disk.chunk(2 + number, 0, uuid(9 - number), run(*named)) for number in range(runs)]
    disk.superblock(0, 812, *locators)
    for number in spoiled:
        disk.spoil(1, 41 * (number - 1) + 22)


def spoiled_runs(disk):
    five_shards(disk, runs=2)
    for number in range(2):
        disk.spoil(2 + number, 30)


def with_damage(*pages):
    """A sound disk with newer superblocks, each with a flipped bit, on these pages of extent 0."""
    def make(disk):
        five_shards(disk)
        for page in pages:
            disk.superblock(page, 813)
            disk.spoil(0, page * disk.page + 20)
    return make


def with_stray(disk):
    five_shards(disk)
    disk.put(0, 5 * disk.page, b"stray")


def torn_behind(make):
    """What `make` makes, and then a chunk in extent 3 that was cut off."""
    def both(disk):
        disk.chunk(3, 0, uuid(7), b"x" * 99)
        disk.spoil(3, 130)
        make(disk)
    return both


def shared(disk):
    """Two shards with one chunk."""
    locator = disk.chunk(1, 0, uuid(1), b"abc")
    disk.superblock(0, 1, disk.chunk(2, 0, uuid(2), run((shard(1), [locator]), (shard(2), [locator]))))


def tie_and_broken(disk):
    five_shards(disk, spoiled=(2,))
    disk.superblock(1, 812)


class Row(NamedTuple):
    """A disk: its image, the line of why, the name of its first reason, its alerts, and the settings of its night. A text of a fault that
    begins with ~ is a pattern."""
    image: object
    said: str
    reason: str
    alerts: str = ""
    settings: dict = {}
    program: str = ""


RESCUED = ("--map", str(EXAMPLES / "rescued.map"))
DISKS = {
    "one shard": Row(of("one-shard", *SMALL), "sound: 1 shard, generation 1", "sound"),
    "the last one": Row(of("one-shard", *SMALL), "sound: 1 shard, generation 1", "sound", settings={"LAST": "1"}),
    "two shards": Row(of("failing", 512, 4, 4), "sound: 2 shards, generation 2", "sound"),
    "a tail": Row(of("later-run", *MIDDLE), "sound: 1 shard, generation 1", "sound"),
    "a retired extent": Row(of("retired-extent", 64, 4, 4), "sound: 1 shard, generation 1", "sound"),
    "five shards": Row(made(five_shards), "sound: 5 shards, generation 812", "sound"),

    "a flipped bit": Row(of("flipped-bit", *MIDDLE), "doubt: 1 damaged superblock, 2 stray pages of extent 0", "superblocks_damaged",
                         "Doubt!"),
    "damaged": Row(made(with_damage(2)), "doubt: 1 damaged superblock", "superblocks_damaged", "Doubt!"),
    "damaged twice": Row(made(with_damage(2, 3)), "doubt: 2 damaged superblocks", "superblocks_damaged", "Doubt!"),
    "stray": Row(made(with_stray), "doubt: 1 stray page of extent 0", "superblocks_stray", "Doubt!"),
    "not the last one": Row(made(five_shards), "doubt: generation 812 isn't the last one", "doubt", "Doubt!", {"LAST": "813"}),
    "a newer one by the log": Row(of("one-shard", *SMALL), "doubt: generation 1 isn't the last one", "doubt", "Doubt!",
                                  {"LAST": "18446744073709551615"}),

    "no superblock": Row(of("no-superblock", *SMALL), "wrong: no superblock, 1 damaged superblock", "superblocks", "NoSuperblock!"),
    "another file": Row(raw((b"text " * 154)[:768], SMALL), "wrong: no superblock", "superblocks", "NoSuperblock!"),
    "a tie": Row(of("tie", *SMALL), "wrong: a tie of superblocks", "superblock_tie", "Tie!"),
    "a tie and a broken shard": Row(made(tie_and_broken), "wrong: a tie of superblocks, 1 of 5 shards broken", "superblock_tie",
                                    "Tie! Broken!"),
    "a lost run": Row(of("lost-run", 64, 4, 4), "wrong: 1 of 2 index runs lost", "runs_lost", "RunsLost!"),
    "both runs lost": Row(made(spoiled_runs), "wrong: 2 of 2 index runs lost", "runs_lost", "RunsLost!"),
    "a run lost by its page": Row(made(five_shards, "2:0", "1:7"), "wrong: 1 of 1 index run lost, 2 unreadable pages, 1 noise item",
                                  "runs_lost",
                                  "RunsLost! Unreadable!"),
    "a broken shard": Row(of("several-findings", 64, 16, 5), "wrong: 1 of 3 shards broken, 1 torn item", "shards_broken", "Broken!"),
    "several findings": Row(of("several-findings", 64, 16, 5, "3:1"),
                            "wrong: 2 of 3 shards broken, 1 unreadable page, 2 torn items, 1 noise item", "shards_broken",
                            "Broken! Unreadable!"),
    "its only shard": Row(of("rotted", *MIDDLE), "wrong: 1 of 1 shard broken", "shards_broken", "Broken!"),
    "a copy past the pointer": Row(of("tail", 64, 8, 5), "wrong: 1 of 2 shards broken", "shards_broken", "Broken!"),
    "three of five": Row(made(lambda disk: five_shards(disk, spoiled=(1, 3, 5))), "wrong: 3 of 5 shards broken", "shards_broken",
                         "Broken!"),
    "broken, and damaged": Row(made(lambda disk: (with_damage(2)(disk), disk.spoil(1, 22))),
                               "wrong: 1 of 5 shards broken, 1 damaged superblock", "shards_broken", "Broken! Doubt!"),
    "a page past the pointer": Row(made(five_shards, "1:7"), "wrong: 1 unreadable page", "unreadable_pages", "Unreadable!"),
    "by a map": Row(of("rescued", 512, 4, 4, options=RESCUED), "wrong: 2 unreadable pages", "unreadable_pages", "Unreadable!"),
    "hidden": Row(of("collision", *SMALL), "wrong: 1 of 2 locators hidden, 1 noise item", "locators_hidden", "Hidden"),
    "hidden, after a move": Row(of("completed", *MIDDLE), "wrong: 1 of 3 locators hidden, 1 noise item", "locators_hidden", "Hidden"),
    "torn": Row(of("to-move", *MIDDLE), "wrong: 1 torn item", "torn_items", "TornOrNoise"),
    "noise": Row(of("full", *MIDDLE), "wrong: 1 noise item", "noise_items", "TornOrNoise"),
    "torn, and damaged": Row(made(torn_behind(with_damage(2))), "wrong: 1 damaged superblock, 1 torn item", "superblocks_damaged",
                             "Doubt! TornOrNoise"),
    "shared": Row(of("twins", *SMALL), "wrong: 1 shared chunk", "shared_places", "Shared?"),
    "shared, and torn": Row(made(torn_behind(shared)), "wrong: 1 torn item, 1 shared chunk", "torn_items", "TornOrNoise"),
    "cut short": Row(raw((EXAMPLES / "one-shard.img").read_bytes()[:-68], SMALL),
                     "wrong: image is 68 bytes short, 1 of 1 index run lost, 2 unreadable pages, 1 torn item, 1 noise item", "short_bytes",
                     "Short!"),
    "an empty file": Row(raw(b"", SMALL), "wrong: image is 768 bytes short, no superblock, 12 unreadable pages", "short_bytes", "Short!"),

    "no image": Row(lambda folder: ("/no/image", SMALL, (), ()), "no answer: image cannot be opened: /no/image", "image cannot be opened",
                    "NoAnswer!"),
    "a longer drive": Row(of("one-shard", 64, 4, 2), "no answer: image too long", "image too long", "NoAnswer!"),
    "sizes of two formats": Row(of("formatted-twice", "", "", ""), "no answer: sizes not found: run shardscrub sizes", "sizes not",
                                "NoAnswer!"),
    "a lost page without sizes": Row(
        of("rescued", "", "", "",
           options=RESCUED), "no answer: sizes not certain: records were found, but bytes of the first 64 MiB can't be read; "
        "give --page, --pages and --extents (shardscrub sizes lists them)", "sizes not", "NoAnswer!"),
    "wrong sizes": Row(of("one-shard", 65, 4, 3), "no answer: geometry refused: PageSize", "", "NoAnswer!"),
    "a wrong map": Row(of("failing", 512, 4, 4, options=("--map", str(EXAMPLES / "failing.img"))), "no answer: map refused: line 1",
                       "map ", "NoAnswer!"),
    "a wrong option": Row(of("one-shard", *SMALL, options=("--workers", "65")),
                          "no answer: invalid value '65' for '--workers <COUNT>': 65 is not in 0..=64", "", "NoAnswer!"),
    "LAST is empty": Row(of("one-shard", *SMALL), "no answer: LAST is empty", "LAST ", "NoAnswer!", {"LAST": ""}),
    "BYTES isn't a number": Row(of("one-shard", *SMALL), "no answer: BYTES isn't a multiple of 512: 1G", "BYTES ", "NoAnswer!",
                                {"BYTES": "1G"}),
    "killed": Row(of("one-shard", *SMALL), "no answer: killed by signal 9", "killed", "NoAnswer!", program="kill -9 $$"),
    "out of memory": Row(of("one-shard", *SMALL), "no answer: out of memory", "out of memory", "NoAnswer!",
                         program="echo shardscrub: out of memory >&2; exit 4"),
    "half an answer": Row(of("one-shard", *SMALL), "no answer: status 0, but no whole answer", "", "NoAnswer!",
                          program="echo verdict sound"),
}


class Disks(NightlyCase):
    """Forty disks and more, in a night."""

    def step(self, reason):
        """What is to be done by the table."""
        to_do, command = next((to_do, command) for _, name, _, _, _, to_do, command, _ in REASONS if name == reason)
        return to_do if command == "-" else f"{to_do} {command}"

    def night(self, disk, row):
        """Checks the line of a disk and what to do next, also by the reference's answer. Returns its numbers."""
        image, sizes, bad, options = row.image(self.other)
        sized = [word for name, size in zip(("--page", "--pages", "--extents"), sizes) for word in (name, str(size)) if size != ""]
        settings = dict(row.settings)
        if settings.get("LAST"):
            (self.other / "last").write_text(settings["LAST"] + "\n", encoding="utf-8")
            settings["LAST"] = str(self.other / "last")
        if row.program:
            settings["SHARDSCRUB"] = str(self.script(row.program))
        status, out, error = self.nightly(disk, self.folder, *sized, *options, image, *bad, **settings)
        self.same(f"{disk}: status", status, 2 if row.said.startswith("no answer") else 0)
        said = re.sub(r" \(0 s(, \d+ bytes)?\)$", "", (out + error).removesuffix("\n"))
        self.same(f"{disk}: the line", said, f"{disk}: {row.said}")
        text = row.said.removeprefix("no answer: ")
        if not row.said.startswith("no answer"):
            unreadable = [tuple(map(int, word.split(":"))) for word in bad] + [(0, 2), (3, 1)] * ("--map" in options)
            last = int(row.settings["LAST"]) if "LAST" in row.settings else None
            text = summary(Image(image.read_bytes(), *sizes, unreadable), last)[0]
        status, out, error = why(text, "--next", "--bytes", str(image.stat().st_size) if image != "/no/image" else "0", disk)
        self.same(f"{disk}: what to do next", (status, out, error), (0, f"{disk}: {row.said}\n{self.step(row.reason)}\n", ""))
        return self.samples(disk)

    def test_lines_and_alerts(self):
        """Each disk has one alert, or several that say different things."""
        need("promtool")
        self.true("forty disks", len(DISKS) >= 40, len(DISKS))
        nights = {disk: [(self.night(disk, row), True)] for disk, row in DISKS.items()}
        self.raises(nights, {disk: [row.alerts] for disk, row in DISKS.items()})

    def test_rows(self):
        """The row of a disk has the verdict with which its line begins, and none if there is no answer."""
        need(*ROW_TOOLS)
        for disk, row in DISKS.items():
            if not row.program and not row.settings:
                image, sizes, bad, options = row.image(self.other)
                line = "\t".join([disk, str(image), *(str(size) or "-" for size in sizes), options[1] if "--map" in options else "-",
                                  " ".join(bad) or "-"])
                if "--workers" not in options:
                    found = json.loads(done(TOP / "view/row", "summary", line, env=self.environment)[1])
                    self.same(disk, found.get("verdict", "no answer"), row.said.partition(":")[0])

    def test_commands(self):
        """What a line names next can be run as it is, with the sizes in front of the image, and prints something."""
        need("jq")
        commands = {command for _, _, _, _, _, _, command, _ in REASONS if "IMAGE" in command}
        self.true("commands", len(commands) > 8, commands)
        shown = {"hidden$": "collision", ".shared": "twins"}
        for command in sorted(commands):
            name = next((image for part, image in shown.items() if part in command), "several-findings")
            sizes = {"collision": SMALL, "twins": SMALL}.get(name, (64, 16, 5))
            words = " ".join(f"{option} {size}" for option, size in zip(("--page", "--pages", "--extents"), sizes))
            given = f"{EXAMPLES}/{name}.img" if "ls " in command or "sizes" in command else f"{words} {EXAMPLES}/{name}.img"
            line = command.replace("shardscrub", self.program).replace("IMAGE", given).replace("--last G", "--last 7")
            status, out, error = done("sh", "-c", line)
            self.true(command, status <= 1 and out and not error, (status, out, error))


class Lines(Case):
    """What view/why makes of numbers and of texts."""
    SOUND = summary(Image((EXAMPLES / "one-shard.img").read_bytes(), *SMALL))[0]

    def said(self, verdict, **numbers):
        """The line of a summary with these numbers."""
        text = re.sub(r"^verdict .*", f"verdict {verdict}", self.SOUND)
        for name, number in numbers.items():
            text, count = re.subn(rf"(?m)^{name} .*$", f"{name} {number}", text)
            assert count == 1, name
        return why(text)[1]

    def test_the_worst_first(self):
        """All reasons at once, in the order of the table, which begins with those that READING's order of disks has."""
        numbers = {"superblock_tie": 1, "runs": 7, "runs_lost": 2, "shards": 96, "shards_broken": 1, "unreadable_pages": 7168,
                   "superblocks_damaged": 1, "superblocks_stray": 2, "locators": 9, "locators_hidden": 3, "torn_items": 4, "noise_items": 1,
                   "shared_places": 2}
        wanted = ("wrong: a tie of superblocks, 2 of 7 index runs lost, 1 of 96 shards broken, 7168 unreadable pages, "
                  "1 damaged superblock, "
                  "2 stray pages of extent 0, 3 of 9 locators hidden, 4 torn items, 1 noise item, 2 shared chunks\n")
        self.same("all", self.said("wrong", **numbers), wanted)
        self.same("none", self.said("wrong"), "wrong: other findings\n")

    def test_each_finding_has_a_reason(self):
        """Each number that makes a disk not clean, and each that makes a doubt of it."""
        for name in ("superblock_tie", "runs_lost", "shards_broken", "unreadable_pages", "superblocks_damaged", "superblocks_stray",
                     "locators_hidden", "torn_items", "noise_items", "shared_places"):
            self.true(name, re.fullmatch(r"wrong: (?!other).*1.*\n|wrong: a tie of superblocks\n", self.said("wrong", **{name: 1})), name)
        self.same("no superblock", self.said("wrong", superblocks=0), "wrong: no superblock\n")
        greatest = 2**64 - 1
        self.same("generation", self.said("doubt", superblock_generation=greatest), f"doubt: generation {greatest} isn't the last one\n")
        self.same("sound", self.said("sound", superblock_generation=greatest, shards=0), f"sound: 0 shards, generation {greatest}\n")

    def test_bytes(self):
        """The length of the image is compared with the sizes, up to the greatest disk."""
        for length, said in (("0", "image is 4294967296 bytes short, "), ("4294967295", "image is 1 byte short, "), ("4294967296", ""),
                             ("9999999999999", "")):
            text = re.sub(r"^verdict .*", "verdict wrong", self.SOUND)
            for name, number in (("page_bytes", 65536), ("extent_pages", 1024), ("extents", 64), ("torn_items", 1)):
                text = re.sub(rf"(?m)^{name} .*$", f"{name} {number}", text)
            self.same(length, why(text, "--bytes", length), (0, f"wrong: {said}1 torn item\n", ""))

    def test_priorities(self):
        """By the first reason, and none for a sound disk."""
        for image, sizes, priority in (("one-shard", SMALL, ""), ("twins", SMALL, "<4>"), ("tie", SMALL, "<3>"), ("flipped-bit", MIDDLE,
                                                                                                                  "<3>")):
            text = summary(Image((EXAMPLES / f"{image}.img").read_bytes(), *sizes))[0]
            self.same(image, why(text, "--journal", "sdb")[1], f"{priority}sdb: {why(text)[1]}")
        self.same("a fault", why("shardscrub: out of memory", "--journal")[1], "<3>no answer: out of memory\n")

    def test_texts(self):
        """Of an error stream the line that says why, without the name of the program."""
        clap = "error: the following required arguments were not provided:\n  --page <BYTES>\n  --pages <COUNT>\n\nUsage: x\n"
        texts = {"shardscrub: image too long\n": "image too long", "shardscrub: image too long": "image too long",
                 clap: "the following required arguments were not provided: --page <BYTES> --pages <COUNT>",
                 "head: cannot open '/x'\nview/monitoring/nightly: LAST isn't a file with one number: /x\n":
                 "LAST isn't a file with one number: /x",
                 "one\ntwo\n\n": "two", "": "no message", "\n\n": "no message", "x" * 999: "x" * 300 + "..",
                 "shardscrub: image cannot be opened: a\tb c  d\n": "image cannot be opened: a?b c  d"}
        for text, said in texts.items():
            self.same(repr(text), why(text), (0, f"no answer: {said}\n", ""))

    def test_the_form_of_a_word(self):
        """What the program's text leaves open is said by what to do next."""
        for text, part in (("shard refused: 1", "32 hexadecimal digits"), ("run refused: 2", "EXTENT:OFFSET"), ("run not found: 2:0",
                                                                                                                "EXTENT:OFFSET"),
                           ("map refused: line 1", "ddrescue")):
            line, step = why(f"shardscrub: {text}\n", "--next")[1].splitlines()
            self.same(text, line, f"no answer: {text}")
            self.true(f"{text}: step", part in step, step)

    def test_control_characters(self):
        """None reaches a terminal, in any coding, and all other characters do."""
        for text, said in (("a\x1b[31mb", "a?[31mb"), ("a\x9b31mb", "a??31mb"),
                           ("\x00\x07\x7f", "???"), ("Größe 木 😀", "Größe 木 😀")):
            self.same(repr(text), why(f"shardscrub: {text}", text.replace("\x00", "\x01"))[1], f"{said}: no answer: {said}\n")
        for text in (b"a\x9bb", b"a\xe0\x82\x9bb", b"a\xc2", b"\xff\xfe"):
            out = subprocess.run([WHY], input=text, capture_output=True, check=True).stdout
            self.true(repr(text), re.fullmatch(rb"no answer: [\x20-\x7e]+\n", out), out)

    def test_a_summary_that_is_not_whole(self):
        """It is no answer, with status 1, wherever it is cut or changed."""
        lines = self.SOUND.splitlines(keepends=True)
        texts = ["".join(lines[:number]) for number in range(1, len(lines))] + [self.SOUND.replace("runs 1", "runs one"),
                                                                                self.SOUND + "more 1\n",
                 self.SOUND.replace("runs_lost 0\n", ""), self.SOUND + "x\n" * 300]
        for text in texts:
            self.same(text[-40:], why(text), (1, "no answer: the summary is not whole\n", ""))

    def test_usage(self):
        usage = "usage: view/why [--next] [--journal] [--bytes N] [NAME]\n"
        for word in ("-h", "--help"):
            self.same(word, why("", word), (0, usage, ""))
        for words in (["a", "b"], ["--other"], ["-x", "a"]):
            self.same(str(words), why(self.SOUND, *words), (2, "", usage))
        for words in (["--bytes"], ["--bytes", "x"], ["--bytes", "-1", "a"]):
            self.same(str(words), why(self.SOUND, *words), (2, "", "view/why: --bytes takes a number\n"))
        self.same("a name like an option", why(self.SOUND, "--", "--next")[1], "--next: sound: 1 shard, generation 1\n")


class Table(Case):
    """view/reasons.tsv, and what dev/reasons.py makes of it."""

    def test_it_is_made(self):
        status, out, error = done("python3", TOP / "dev/reasons.py", "--check")
        self.same("dev/reasons.py", (status, out, error), (0, "", ""))

    def test_links(self):
        """Each row names a heading of a page that is installed."""
        for _, name, _, _, _, _, _, read in REASONS:
            page, _, heading = read.partition("#")
            text = (TOP / "docs" / (page or "READING.md")).read_text(encoding="utf-8")
            headings = [re.sub(r"[^a-z0-9 -]", "", one.lower()).replace(" ", "-") for one in re.findall(r"(?m)^#+ (.*)$", text)]
            self.true(f"{name}: {read}", heading in headings)

    def test_it_is_in_order(self):
        """Critical reasons come first, then warnings, then what may stay. The last row of the faults has each text."""
        severities = [severity for kind, _, severity, *_ in REASONS if kind == "number"]
        self.same("severities", severities, sorted(severities, key=["critical", "warning", "info"].index))
        self.same("the last fault", REASONS[-1][:2], ["fault", ""])
        self.same("columns", {len(row) for row in REASONS}, {8})
