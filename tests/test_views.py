"""Tries view/metrics and view/row, and compares what they give with what reference/shardscrub.py says of the same disks. Of the keys of
a row that change from scan to scan only Origins speaks."""
import json
import os
import re
import subprocess
import time
from collections import Counter
from datetime import datetime, timezone

from lib.cases import RoomCase
from lib.disks import geometry
from lib.examples import check_line, examples, listed, made_up, summary_of
from lib.program import METRICS_TOOLS, ROW_TOOLS, TOP, need

METRICS, ROW, WHY = TOP / "view/metrics", TOP / "view/row", TOP / "view/why"
VERDICTS = {"sound": "0", "doubt": "1", "wrong": "2"}
# Names of disks that need care in a label, in JSON, or as an argument.
NAMES = ("sda", "a disk", 'say "a"', "back\\slash", "two\nlines", "\\n", '\\"', "%s%d", "&", "{disk=", "-v", "Größe", "'", "\t", "\\")
# The beginning of a row: the first three keys, and the others as one text.
TEXT = r'"(?:[^"\\]|\\.)*"'
HEAD = re.compile(rf'(\{{"disk":{TEXT},"status":\d+,"text":{TEXT}),("time":{TEXT},"seconds":[\d.]+,"version":(?:{TEXT}|null),"image":{TEXT},'
                  rf'"host":{TEXT}(?:,"why":{TEXT})?)(?=[,}}])')
# What the program's own line says if it doesn't find the sizes.
NO_SIZES = "shardscrub: sizes not found: run shardscrub sizes"


def text_of(summary):
    """A summary as the program prints it."""
    return "".join(f"{name} {value}\n" for name, value in summary.items())


def label(text):
    """What the text of a label stands for."""
    return re.sub(r"\\(.)", lambda found: {"n": "\n"}.get(found[1], found[1]), text)


class Metrics(RoomCase):
    """The summary as metrics."""
    NOT_WHOLE = "view/metrics: the input is not a whole summary\n"
    USAGE = "usage: view/metrics DISK [STATUS SECONDS [LAST_GIVEN IMAGE_BYTES]] <SUMMARY\n"

    @classmethod
    def setUpClass(cls):
        need(*METRICS_TOOLS)
        super().setUpClass()
        cls.summaries = [one for one in map(summary_of, [*examples(), *made_up(cls.room)]) if one is not None]

    def metrics(self, text, *words):
        """The status and both outputs."""
        done = subprocess.run([METRICS, *words], input=text.encode(), capture_output=True)
        return done.returncode, done.stdout.decode(), done.stderr.decode()

    def check_metrics(self, what, text, name, wanted):
        self.check_lines(what, self.metrics(text, name), name, wanted, 0)

    def check_lines(self, what, answer, name, wanted, right_status, right_error=""):
        """Checks the three lines of each name: a help, the kind, and the sample."""
        status, printed, error = answer
        self.same(f"{what}: status and error stream", (status, error), (right_status, right_error))
        lines = printed.removesuffix("\n").split("\n")
        self.same(f"{what}: lines", len(lines), 3 * len(wanted))
        for (key, value), some in zip(wanted.items(), zip(lines[::3], lines[1::3], lines[2::3])):
            sample = re.fullmatch(r'(\w+)\{disk="((?:[^"\\]|\\["\\n])*)"\} (\S+)', some[2])
            self.true(f"{what}: help of {key}", re.fullmatch(rf"# HELP shardscrub_{key} [0-9A-Z][^\\]+\.", some[0]), some[0])
            self.same(f"{what}: kind of {key}", some[1], f"# TYPE shardscrub_{key} gauge")
            self.same(f"{what}: {key}", sample and (sample[1], label(sample[2]), sample[3]),
                      (f"shardscrub_{key}", name, VERDICTS.get(value, value)))

    def check_refused(self, what, answer, error):
        self.same(what, answer, (2, "", error))

    def test_each_number(self):
        """Also those that floating point would round."""
        for number, summary in enumerate(self.summaries):
            self.check_metrics(f"summary {number}", text_of(summary), "a disk", summary)
        self.same("the verdicts that occur", {one["verdict"] for one in self.summaries}, set(VERDICTS))
        several = {name: len({one[name] for one in self.summaries}) for name in self.summaries[0]}
        self.same("numbers that are the same in all", [name for name in several if several[name] < 2], [])

    def test_each_name_of_a_disk(self):
        for name in NAMES:
            self.check_metrics(repr(name), text_of(self.summaries[0]), name, self.summaries[0])

    def test_the_program(self):
        """The summaries are those that the program prints."""
        for line in examples():
            image, wanted = line.split("\t")[1], summary_of(line)
            done = subprocess.run([self.program, "summary", image], cwd=TOP, capture_output=True, encoding="utf-8")
            if wanted is None:
                self.check_refused(image, self.metrics(done.stdout, "sda"), self.NOT_WHOLE)
            else:
                self.check_metrics(image, done.stdout, "sda", wanted)

    def test_what_is_no_summary(self):
        whole = text_of(self.summaries[0])
        lines = whole.splitlines(keepends=True)
        wrong = {"nothing": "", "a line feed": "\n", "a blank line first": "\n" + whole, "a blank line last": whole + "\n",
                 "two summaries": whole * 2, "one more line": whole + "more 1\n", "end": whole + "end\n", "end without a line feed":
                 whole + "end", "carriage returns": whole.replace("\n", "\r\n"), "another verdict": whole.replace("verdict ", "verdict x"),
                 "a number as verdict": re.sub("verdict .*", "verdict 0", whole), "a report": '{"broken":[]}\n',
                 "words on a line": whole.replace("\n", " "), "no line feed at the end": whole[:-1], "half a name": whole[:-5]}
        for number, line in enumerate(lines):
            name = line.split(" ")[0]
            before, after = "".join(lines[:number]), "".join(lines[number + 1:])
            wrong |= {f"up to {name}": before, f"without {name}": before + after, f"two of {name}": before + line * 2 + after,
                      f"{name} one line later": before + "".join(lines[number + 1:number + 2]) + line + "".join(lines[number + 2:]),
                      f"another name than {name}": before + "x" + line + after, f"{name} is -1": before + f"{name} -1\n" + after}
            if name in ("verdict", "superblock_generation", "chunks_to_move"):
                for value in ("", " ", "+1", "01", "00", "1.0", "1e3", "0x1", "NaN", "1 ", " 1", "1 2", "1,0", "soun"):
                    wrong[f"{name} is {value!r}"] = before + f"{name} {value}\n" + after
        del wrong["chunks_to_move one line later"]
        for what, text in wrong.items():
            self.check_refused(what, self.metrics(text, "sda"), self.NOT_WHOLE)

    def test_what_is_no_name(self):
        for words in ([], [""], ["a", "0"], ["a", "0", "0", "0"], ["", "0", "0"], ["a", "", "0"], ["a", "0", ""], ["a", "-1", "0"],
                      ["a", "0", "x"], ["a", "0", "0", "1", ""], ["a", "0", "0", "", "-"], ["a", "0", "0", "1", "-1"], ["a"] * 6):
            self.check_refused(str(words), self.metrics(text_of(self.summaries[0]), *words), self.USAGE)
        for word in ("-h", "--help"):
            self.same(word, self.metrics("", word), (0, self.USAGE, ""))

    def test_a_scan(self):
        """With its status and the time of the last answer, three gauges come first. Without an answer they come alone."""
        whole = text_of(self.summaries[0])
        for name in NAMES:
            for status in ("0", "1"):
                before = int(time.time())
                answer = self.metrics(whole, name, status, "7")
                lines = answer[1].splitlines(keepends=True)
                at = int(lines[8].split()[-1])
                self.true(f"{name!r}, {status}: time", before <= at <= time.time(), at)
                scan = {"answered": "1", "exit_status": status, "last_answer_seconds": str(at)}
                self.check_lines(f"{name!r}, {status}", answer, name, scan | self.summaries[0], 0)
            for text, status, shown, error in ((whole, "2", "2", ""), ("", "137", "137", ""), (whole[:-1], "0", "70", self.NOT_WHOLE),
                                               ("", "1", "70", self.NOT_WHOLE)):
                answer = self.metrics(text, name, status, "7")
                scan = {"answered": "0", "exit_status": shown, "last_answer_seconds": "7"}
                self.check_lines(f"{name!r}, {status}, no answer", answer, name, scan, 1, error)

    def test_what_a_scan_was_given(self):
        """Two more gauges, also without an answer. A length that isn't known has none."""
        whole = text_of(self.summaries[0])
        for length, more in (("-", {}), ("0", {"image_bytes": "0"}), (str(2**44), {"image_bytes": str(2**44)})):
            for given in ("0", "1"):
                for text, status, numbers in ((whole, 0, self.summaries[0]), ("", 1, {})):
                    answer = self.metrics(text, "sda", "0" if text else "3", "7", given, length)
                    at = answer[1].splitlines()[8].split()[-1]
                    scan = {"answered": str(1 - status), "exit_status": "3" if status else "0", "last_answer_seconds": at, "last_given": given}
                    self.check_lines(f"{length}, {given}, {status}", answer, "sda", scan | more | numbers, status)

    def test_promtool(self):
        """Prometheus reads them, and has nothing to say about the names."""
        need("promtool")
        for number, name in enumerate(NAMES):
            text = self.metrics(text_of(self.summaries[number]), name)[1]
            done = subprocess.run(["promtool", "check", "metrics"], input=text.encode(), capture_output=True)
            self.same(repr(name), (done.returncode, done.stdout, done.stderr), (0, b"", b""))


class RowCase(RoomCase):
    """Tests of view/row. The made-up disks stay the same for all tests of a class."""

    @classmethod
    def setUpClass(cls):
        need(*ROW_TOOLS)
        super().setUpClass()
        cls.made_up, cls.known = list(made_up(cls.room)), {}

    def whole_row(self, command, line):
        """The row of a disk of the list. It is made once."""
        if (command, line) not in self.known:
            self.known[command, line] = self.row_by(self.program, command, line)
        return self.known[command, line]

    def row(self, command, line):
        """Such a row without the keys that say of which scan it is."""
        return self.without_origin(self.whole_row(command, line))

    def without_origin(self, row):
        found = HEAD.match(row)
        self.true("the first keys", found, row)
        return found[1] + row[found.end():] if found else row

    def row_by(self, program, command, line):
        """The row that this program leads to."""
        done = subprocess.run([ROW, command, line], cwd=TOP, env={**os.environ, "SHARDSCRUB": program}, capture_output=True,
                              encoding="utf-8", stdin=subprocess.DEVNULL)
        self.same(f"{command} of {line}", (done.returncode, done.stdout.count("\n")), (0, 1))
        return done.stdout

    def small_program(self, text):
        """A script in the place of the program."""
        start = self.room / "program"
        start.write_text(f"#!/bin/sh\n{text}\n", encoding="utf-8")
        start.chmod(0o755)
        return str(start)


class Rows(RowCase):
    """The rows of disks that view/row prints."""
    # How an answer is cut short, and the status of its row.
    ENDS = {"exit 3": 3, "exit 0": 70, "exit 1": 70, "kill -9 $$": 137}
    BEGINNINGS = {"scan": '{"broken":[]', "summary": "verdict sound\npage_bytes 64\n"}

    def right_row(self, command, line):
        """The row as the program's own answer gives it."""
        name, image, page, pages, extents, map_file, lost, last, *_ = [*line.split("\t"), "-"]
        words = [*(geometry(page, pages, extents) if page != "-" else []), *(["--map", map_file] if map_file != "-" else []), image,
                 *lost.replace("-", "").split()]
        words += ["--last", last] if last != "-" and command != "scan" else []
        done = subprocess.run([self.program, command, *words], cwd=TOP, capture_output=True, encoding="utf-8", stdin=subprocess.DEVNULL)
        row = {"disk": name, "status": done.returncode, "text": done.stderr.rstrip("\n")}
        if command == "reclaimable":
            lines = [line.split(" ") for line in done.stdout.splitlines()]
            return row | {"lines": lines if done.returncode < 2 else None}
        return row | (json.loads(done.stdout) if done.returncode < 2 else {})

    def check_rows(self, command):
        for line in listed():
            self.same(f"{command} of {line}", json.loads(self.row(command, line)), self.right_row(command, line))

    def check_summary(self, line, wanted):
        """Checks the text of a row of summary: each key in its place, with all digits."""
        name = line.split("\t")[0]
        status = int(wanted["verdict"] != "sound")
        keys = [("disk", f'"{name}"'), ("status", str(status)), ("text", '""'), ("verdict", f'"{wanted["verdict"]}"'),
                *list(wanted.items())[1:]]
        self.same(f"summary of {line}", self.row("summary", line), "{" + ",".join(f'"{key}":{value}' for key, value in keys) + "}\n")

    def row_of(self, command, end):
        """The row of a disk whose program prints the beginning of an answer, and then runs this."""
        return self.row_of_text(command, self.BEGINNINGS[command], end)

    def row_of_text(self, command, text, end=""):
        return self.without_origin(self.whole_row_of(command, text, end))

    def whole_row_of(self, command, text, end=""):
        return self.row_by(self.small_program(f"printf '%s' '{text}'\n{end}"), command, "a disk\timage\t64\t4\t3\t-\t-")

    def test_each_disk_has_a_row_of_scan(self):
        self.check_rows("scan")

    def test_each_disk_has_a_row_of_reclaimable(self):
        self.check_rows("reclaimable")

    def test_each_disk_has_a_row_of_summary(self):
        refused = {"missing": (3, "shardscrub: image cannot be opened: examples/no-such.img"),
                   "failing": (2, "shardscrub: map refused: line 1")}
        for line in listed():
            name = line.split("\t")[0]
            if name in refused:
                status, text = refused[name]
                self.same(line, self.row("summary", line), f'{{"disk":"{name}","status":{status},"text":"{text}"}}\n')
            else:
                self.check_summary(line, summary_of(line))

    def test_rows_of_summary_of_made_up_disks(self):
        """Some have a generation that floating point would round."""
        for line in self.made_up:
            self.check_summary(line, summary_of(line))

    def test_sizes_that_are_left_out(self):
        """They are those of the disk, for summary and scan; reclaimable needs them."""
        counts = Counter()
        for line in examples():
            wanted = summary_of(line)
            counts[wanted is None] += 1
            if wanted is None:
                self.same(line, json.loads(self.row("summary", line)), {"disk": line.split("\t")[0], "status": 2, "text": NO_SIZES})
            else:
                self.check_summary(line, wanted)
        self.true("disks with and without sizes", min(counts[True], counts[False]) > 0, counts)
        line = examples()[-1]
        self.same("scan", json.loads(self.row("scan", line)), self.right_row("scan", line))
        row = json.loads(self.row("reclaimable", line))
        self.same("reclaimable", (row["status"], row["lines"], "--page <BYTES>" in row["text"]), (2, None, True))

    def test_a_part_of_the_sizes(self):
        """One or two that are left out are refused."""
        for line in ("d\texamples/one-shard.img\t64\t4\t-\t-\t-", "d\texamples/one-shard.img\t-\t-\t3\t-\t-"):
            for command in ("summary", "scan", "reclaimable"):
                row = json.loads(self.row(command, line))
                self.same(f"{command} of {line}", (row["status"], "invalid value '-'" in row["text"]), (2, True))

    def test_lines_of_other_lengths(self):
        for line in ("d\texamples/one-shard.img\t64\t4\t3\t-", "d\texamples/one-shard.img\t64\t4\t3\t-\t-\t-\t-"):
            for command in ("summary", "scan", "reclaimable"):
                row = json.loads(self.row(command, line))
                self.same(f"{command} of {line}", (row["status"], row["text"]), (2, "view/row: the line doesn't have seven or eight fields"))

    def test_the_last_generation(self):
        """An eighth field is given to summary and reclaimable, and not to scan."""
        verdicts = {"-": "sound", "1": "sound", "2": "doubt"}
        for last, verdict in verdicts.items():
            line = f"d\texamples/one-shard.img\t64\t4\t3\t-\t-\t{last}"
            for command in ("scan", "reclaimable"):
                self.same(f"{command} of {line}", json.loads(self.row(command, line)), self.right_row(command, line))
            row = json.loads(self.row("summary", line))
            self.same(line, (row["status"], row["verdict"]), (int(verdict != "sound"), verdict))
            lines = [["doubt", "last", "1", "2"]] if verdict == "doubt" else []
            self.same(line, json.loads(self.row("reclaimable", line))["lines"], lines)

    def test_an_answer_that_is_cut_short(self):
        for command in self.BEGINNINGS:
            for end, status in self.ENDS.items():
                row = json.loads(self.row_of(command, end))
                text = f"view/row: status {end[-1]}, but no whole answer" if status == 70 else row.get("text")
                self.same(f"{command}, {end}", row, {"disk": "a disk", "status": status, "text": text})

    def test_a_summary_that_is_cut_short_anywhere(self):
        """At the end of each line but the last, and within the last one."""
        whole = text_of(summary_of(listed()[0]))
        ends = [found.end() for found in re.finditer(r"\n", whole)][:-1] + [len(whole) - 1, len(whole) - 3]
        for end in ends:
            row = json.loads(self.row_of_text("summary", whole[:end]))
            self.same(f"the first {end} bytes", row, {"disk": "a disk", "status": 70, "text": "view/row: status 0, but no whole answer"})

    def test_the_schema(self):
        cut = [self.whole_row_of(command, self.BEGINNINGS[command], end) for command in self.BEGINNINGS for end in self.ENDS]
        lines = {"summary": [*listed(), *examples(), *self.made_up], "scan": listed(), "reclaimable": listed()}
        for row in [*(self.whole_row(command, line) for command, some in lines.items() for line in some), *cut]:
            check_line(self, row[:60], row)

    def test_digits_are_kept(self):
        row = self.row_of("scan", 'echo ",\\"generation\\":18446744073709551615}"; exit 1')
        self.true("the generation", row.endswith(',"generation":18446744073709551615}\n'), row)

    def test_a_row_waits_for_its_turn(self):
        """While another row is being printed."""
        done = subprocess.run(["flock", ROW, "timeout", "1", ROW, "scan", "a disk"], capture_output=True, stdin=subprocess.DEVNULL)
        self.same("status and output", (done.returncode, done.stdout), (124, b""))


class Origins(RowCase):
    """What a row says of its scan: when, how long, by which program, of which image and where; and the reason of its verdict."""

    def origin(self, row):
        return json.loads(f"{{{HEAD.match(row)[2]}}}")

    def why(self, answer, *words):
        return subprocess.run([WHY, *words], input=answer, capture_output=True, encoding="utf-8", check=True).stdout.rstrip("\n")

    def test_each_row(self):
        version = subprocess.run([self.program, "--version"], capture_output=True, encoding="utf-8", check=True).stdout.split()[1]
        for line in listed():
            for command in ("summary", "scan", "reclaimable"):
                begun = int(time.time())
                found = self.origin(self.whole_row(command, line))
                at = datetime.strptime(found.pop("time"), "%Y-%m-%dT%H:%M:%SZ").replace(tzinfo=timezone.utc).timestamp()
                self.true(f"{command} of {line}: time", begun <= at <= time.time(), at)
                self.true(f"{command} of {line}: seconds", 0 <= found.pop("seconds") <= time.time() - begun)
                found.pop("why", None)
                self.same(f"{command} of {line}", found, {"version": version, "image": line.split("\t")[1], "host": os.uname().nodename})

    def test_the_reason(self):
        """A summary has the line of view/why, and so has what gave no answer."""
        for line in listed():
            name, wanted = line.split("\t")[0], None
            if name not in ("missing", "failing"):
                wanted = self.why(text_of(summary_of(line)))
                self.same(f"{line}: the verdict", wanted.split(": ")[0], summary_of(line)["verdict"])
            fault = json.loads(self.whole_row("scan", line))["text"]
            for command in ("summary", "scan", "reclaimable"):
                right = self.why(fault) if fault else wanted if command == "summary" else None
                self.same(f"{command} of {line}", self.origin(self.whole_row(command, line)).get("why"), right)

    def test_a_short_image(self):
        """The reason says it first, as the timer does."""
        image = self.room / "short.img"
        image.write_bytes((TOP / "examples/one-shard.img").read_bytes()[:-64])
        row = self.whole_row("summary", f"short\t{image}\t64\t4\t3\t-\t-")
        self.same("the reason", self.origin(row)["why"], "wrong: image is 64 bytes short, 1 unreadable page")

    def test_when_it_began_and_how_long_it_took(self):
        program = self.small_program("sleep 1.2\nexit 3")
        begun = time.time()
        found = self.origin(self.row_by(program, "scan", "d\timage\t64\t4\t3\t-\t-"))
        at = datetime.strptime(found["time"], "%Y-%m-%dT%H:%M:%SZ").replace(tzinfo=timezone.utc).timestamp()
        self.true("when", int(begun) <= at < begun + 1.1, found)
        self.true("seconds", 1.1 <= found["seconds"] <= time.time() - begun, found)

    def test_a_program_that_says_no_version(self):
        for text, why in (("exit 3", "no answer: no message"), ("kill -9 $$", "no answer: killed"), ("echo 'x' >&2; exit 70", "no answer: x")):
            found = self.origin(self.row_by(self.small_program(text), "scan", "d\ta \"b\"\t64\t4\t3\t-\t-"))
            self.same(text, (found["version"], found["image"], found["why"]), (None, 'a "b"', why))

    def test_help(self):
        """It is printed on the output; wrong words have the usage on the error stream."""
        for words, status in ((["--help"], 0), (["-h"], 0), ([], 2), (["summary"], 2), (["sizes", "d"], 2)):
            done = subprocess.run([ROW, *words], capture_output=True, encoding="utf-8", stdin=subprocess.DEVNULL)
            shown, silent = (done.stdout, done.stderr) if status == 0 else (done.stderr, done.stdout)
            self.same(str(words), (done.returncode, "usage: view/row summary|scan|reclaimable LINE\n" in shown, silent), (status, True, ""))
