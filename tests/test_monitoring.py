"""view/monitoring: the script that scans a disk each night, what starts it, and the alerts. And what READING says of a disk that is
written to meanwhile, and of a drive that is longer than its disk.
"""
import json
import os
import re
import resource
import shlex
import shutil
import signal
import subprocess
import time
import unittest
from typing import NamedTuple

from lib.cases import Case, RoomCase
from lib.disks import Disk, run, shard, uuid
from lib.nights import METRICS, MONITORING, NIGHTLY, RULES, NightlyCase, alert, done
from lib.program import METRICS_TOOLS, TOP, absent, need, path_without, write
from lib.system import FAILING_READS
from reference.shardscrub import Image, summary

try:
    import yaml
except ImportError:
    yaml = None

UNITS = ("shardscrub@.service", "shardscrub@.timer")
READING = (TOP / "docs/READING.md").read_text(encoding="utf-8")
SOUND, WRONG, TIE = (TOP / f"examples/{name}.img" for name in ("one-shard", "several-findings", "tie"))
SIZES = ["--page", "64", "--pages", "4", "--extents", "3"]
# The line of sda after a scan of SOUND, at a time that doesn't go on.
SAID = "sda: sound: 1 shard, generation 1 (0 s, 768 bytes)\n"
# Where the files are installed, and the folder of node_exporter.
INSTALLED, COLLECTED = "/usr/share/shardscrub", "/var/lib/prometheus/node-exporter"


def need_yaml():
    if yaml is None:
        raise unittest.SkipTest(absent("Python's yaml"))


def setUpModule():
    """Each night view/metrics runs."""
    need(*METRICS_TOOLS)


def settings(unit):
    """The settings of a unit in its order."""
    lines = (MONITORING / unit).read_text(encoding="utf-8").splitlines()
    return [tuple(line.split("=", 1)) for line in lines if "=" in line and not line.startswith("#")]


def no_file_grows():
    """Lets each write to a file fail, as on a full file system."""
    signal.signal(signal.SIGXFSZ, signal.SIG_IGN)
    resource.setrlimit(resource.RLIMIT_FSIZE, (0, 0))


class Nightly(NightlyCase):
    """The script that renews the file of a disk."""

    def unanswered(self, what, answer, error, status, last_answer):
        """Checks a scan that gave no answer: its own status, its line, and that the file of sda has no number but those of a scan."""
        self.same(f"{what}: status and output", answer[:2], (2, ""))
        self.true(f"{what}: error stream", re.fullmatch(error, answer[2]), answer[2])
        self.same(f"{what}: files", list(self.files()), ["shardscrub-sda.prom"])
        numbers = self.samples("sda")
        wanted = {"answered": "0", "exit_status": str(status), "last_answer_seconds": str(last_answer)}
        self.same(f"{what}: numbers", {name: numbers.get(name) for name in wanted}, wanted)
        self.true(f"{what}: other numbers", set(numbers) - set(wanted) <= {"last_given", "image_bytes"}, numbers)

    def test_each_verdict(self):
        """Also with options and unreadable pages."""
        runs = {"sda": ([], SOUND, [], 0), "sdb": ([], WRONG, ["3:1"], 2), "a disk": ([*SIZES, "--last", "2"], SOUND, [], 1),
                "-v": (SIZES, SOUND, ["1:0"], 2)}
        said = {"sda": "sound: 1 shard, generation 1", "sdb": "wrong: 2 of 3 shards broken, 1 unreadable page, 2 torn items, 1 noise item",
                "a disk": "doubt: generation 1 isn't the last one", "-v": "wrong: 1 of 1 shard broken, 1 unreadable page"}
        wanted = {}
        for disk, (options, image, pages, verdict) in runs.items():
            line = f"{disk}: {said[disk]} (0 s, {image.stat().st_size} bytes)\n"
            self.same(disk, self.nightly(disk, self.folder, *options, image, *pages), (0, "", line) if verdict else (0, line, ""))
            last = "2" if "--last" in options else None
            wanted[f"shardscrub-{disk}.prom"] = self.right_text(disk, image, *pages, last=last)
            self.true(f"{disk}: verdict", f'\nshardscrub_verdict{{disk="{disk}"}} {verdict}\n' in wanted[f"shardscrub-{disk}.prom"])
            scan = {"answered": "1", "exit_status": "1" if verdict else "0", "last_answer_seconds": "1000"}
            self.same(f"{disk}: scan", {name: self.samples(disk).get(name) for name in scan}, scan)
        self.same("files", self.files(), wanted)

    def test_the_file_is_replaced_whole(self):
        """Whoever has the old file open reads it to its end, and everybody may read the new one."""
        path = self.folder / "shardscrub-sda.prom"
        self.nightly("sda", self.folder, SOUND)
        for words in ([WRONG], ["/nothing/here"]):
            before = path.read_text(encoding="utf-8")
            with open(path, encoding="utf-8") as old:
                self.nightly("sda", self.folder, *words)
                self.same("old file", old.read(), before)
            self.true("new file", path.read_text(encoding="utf-8") != before)
            self.same("files", list(self.files()), [path.name])
            self.same("mode", path.stat().st_mode & 0o777, 0o644)

    def test_without_an_answer(self):
        """The file says so, and has no number of the disk, also if an earlier scan had an answer."""
        program = f"exec {shlex.quote(self.program)} \"$@\""
        for last_answer in (0, 1000):
            runs = {"no image": (["/nothing/here"], program, "image cannot be opened: /nothing/here", 3),
                    "no superblock": ([TOP / "examples/no-superblock.img"], program, "sizes not found: run shardscrub sizes", 2),
                    "no image named": ([], program, "the following required arguments were not provided: <IMAGE>", 2),
                    "killed": ([SOUND], "kill -9 $$", "killed by signal 9", 137),
                    "no program": ([SOUND], "exec /nothing/here", ".*not found", 127),
                    "no output": ([SOUND], "exit 0", "status 0, but no whole answer", 70),
                    "cut short": ([SOUND], f"{shlex.quote(self.program)} \"$@\" | head -n 9", "status 0, but no whole answer", 70),
                    "a whole text with another status": ([SOUND], f"{shlex.quote(self.program)} \"$@\"; exit 4",
                                                         "status 4, and no message", 4)}
            for what, (words, text, why, status) in runs.items():
                answer = self.nightly("sda", self.folder, *words, SHARDSCRUB=str(self.script(text)), NOW="2000")
                self.unanswered(f"{what}, {last_answer}", answer, rf"sda: no answer: {why} \(0 s(, \d+ bytes)?\)\n", status, last_answer)
            self.same("an answer", self.nightly("sda", self.folder, SOUND), (0, SAID, ""))
            self.same("numbers", self.files(), {"shardscrub-sda.prom": self.right_text("sda", SOUND)})

    def test_the_last_answer(self):
        """It is kept for any number of nights, whatever the disk's name is, and replaced by the next one."""
        for disk in ("sda", "two\nlines", 'a "disk"} 7', "\\1", "&"):
            last_answers = []
            for now, image in enumerate(["/no", SOUND, "/no", "/no", WRONG, "/no"]):
                self.nightly(disk, self.folder, image, NOW=str(now))
                last_answers.append(self.samples(disk)["last_answer_seconds"])
            self.same(repr(disk), last_answers, ["0", "1", "1", "1", "4", "4"])

    def test_a_damaged_file(self):
        """What can't be read there is 0, the time that isn't known."""
        for text in ("", 'shardscrub_last_answer_seconds{disk="sda"} NaN\n', 'shardscrub_last_answer_seconds{disk="sda"} 7\n' * 2):
            (self.folder / "shardscrub-sda.prom").write_text(text, encoding="utf-8")
            self.unanswered(repr(text), self.nightly("sda", self.folder, "/no"), ".*\n", 3, 0)

    def test_last(self):
        """The number of the file is that of --last."""
        path = self.room / "last"
        for text, verdict in (("1\n", "0"), ("1", "0"), ("2\n", "1"), ("18446744073709551615\n", "1")):
            path.write_text(text, encoding="utf-8")
            self.same(f"{text!r}: status", self.nightly("sda", self.folder, SOUND, LAST=str(path))[0], 0)
            self.same(f"{text!r}: verdict", [self.samples("sda")[name] for name in ("verdict", "last_given")], [verdict, "1"])
        for words, given in (([SOUND], "0"), (["--last", "1", SOUND], "1"), (["--workers", "1", "--last=1", SOUND], "1")):
            self.same(str(words), (self.nightly("sda", self.folder, *words)[0], self.samples("sda")["last_given"]), (0, given))

    def test_what_is_no_last(self):
        """A file that isn't there or hasn't one number is a night without an answer, and never a scan without --last."""
        path = self.room / "no-last"
        texts = ["", "\n", "1\n2\n", "1 2\n", " 1\n", "1 \n", "1\r\n", "+1\n", "-1\n", "1.0\n", "0x1\n", "x\n", "1\0\n", "\0" * 8, "1\n\n",
                 "1" * 21 + "\n", "0" * 99 + "1"]
        for text in texts:
            path.write_text(text, encoding="utf-8")
            error = f"sda: no answer: LAST isn't a file with one number: {path}\n"
            self.unanswered(repr(text), self.nightly("sda", self.folder, SOUND, LAST=str(path)), re.escape(error), 2, 0)
        self.unanswered("empty", self.nightly("sda", self.folder, SOUND, LAST=""), "sda: no answer: LAST is empty\n", 2, 0)
        for what in (self.room, self.room / "nothing"):
            answer = self.nightly("sda", self.folder, SOUND, LAST=str(what))
            self.unanswered(str(what), answer, f"sda: no answer: LAST isn't a file with one number: {what}\n", 2, 0)
        path.write_text("18446744073709551616\n", encoding="utf-8")
        self.unanswered("too great", self.nightly("sda", self.folder, SOUND, LAST=str(path)), "sda: no answer: invalid value .*\n", 2, 0)

    def at_once(self, **more):
        """How many scans at most were there at once, of three that were started at once."""
        log = self.other / "log"
        # A scan is over once three have begun, or after half a second.
        count = f"$(grep -c begin {shlex.quote(str(log))})"
        script = self.script(f"echo begin >>{shlex.quote(str(log))}; for i in 1 2 3 4 5; do [ {count} -eq 3 ] || sleep .1; done; "
                             f"{shlex.quote(self.program)} \"$@\"; status=$?; echo end >>{shlex.quote(str(log))}; exit $status")
        log.write_text("", encoding="utf-8")
        environment = self.environment | more | {"SHARDSCRUB": str(script)}
        started = [subprocess.Popen([NIGHTLY, disk, self.folder, SOUND], env=environment, stdout=subprocess.DEVNULL)
                   for disk in ("sda", "sdb", "sdc")]
        self.same(f"{more}: statuses", [one.wait() for one in started], [0, 0, 0])
        self.same(f"{more}: answers", {self.samples(disk)["answered"] for disk in ("sda", "sdb", "sdc")}, {"1"})
        running = [0]
        for line in log.read_text(encoding="utf-8").split():
            running.append(running[-1] + (1 if line == "begin" else -1))
        self.same(f"{more}: begun and ended", (len(running), running[-1]), (7, 0))
        return max(running)

    def test_one_scan_at_a_time(self):
        """Unless it is told otherwise. The folder is the lock, or another file."""
        self.same("the folder", self.at_once(), 1)
        self.same("a file", self.at_once(LOCK=str(self.room / "lock")), 1)
        self.same("no lock", self.at_once(LOCK=""), 3)

    def test_another_scan_takes_too_long(self):
        """This one gives up after six hours, without an answer."""
        write(self.other / "flock", "#!/bin/sh\n[ \"$1 $2 $3 $4\" = '-w 21600 -E 75' ] && exit 75\n", 0o755)
        answer = self.nightly("sda", self.folder, SOUND, PATH=f"{self.other}:{self.environment['PATH']}")
        self.unanswered("lock", answer, f"sda: no answer: another scan has had the lock for 6 hours: {self.folder}\n", 75, 0)
        self.unanswered("no such folder", self.nightly("sda", self.folder, SOUND, LOCK="/no/lock"), "sda: no answer: flock: .*\n", 66, 0)

    def test_it_is_ended(self):
        """As by systemd, which ends each process of the service: the file says that there is no answer."""
        begun = self.other / "begun"
        script = self.script(f"echo >{shlex.quote(str(begun))}; exec sleep 60")
        for lock in (str(self.folder), ""):
            scan = subprocess.Popen([NIGHTLY, "sda", self.folder, SOUND], env=self.environment | {"SHARDSCRUB": str(script), "LOCK": lock},
                                    stdout=subprocess.PIPE, stderr=subprocess.PIPE, encoding="utf-8", start_new_session=True)
            while not begun.exists():
                time.sleep(.01)
            begun.unlink()
            os.killpg(scan.pid, signal.SIGTERM)
            out, error = scan.communicate()
            self.unanswered(repr(lock), (scan.returncode, out, error), r"(.*Terminated\n)?sda: no answer: killed by signal 15.*\n", 143, 0)

    def test_no_folder(self):
        """And none is made, nor is a file in its place."""
        error = f"sda: no answer: there is no folder {self.folder}/none for shardscrub-sda.prom\n"
        self.same("answer", self.nightly("sda", self.folder / "none", SOUND), (2, "", error))
        self.same("files", list(self.folder.iterdir()), [])

    def test_a_file_that_cannot_be_replaced(self):
        """A folder has its name. No other file is left."""
        (self.folder / "shardscrub-sda.prom/full").mkdir(parents=True)
        (self.folder / "shardscrub-sda.prom/shardscrub-sda.prom.new/full").mkdir(parents=True)
        status, out, error = self.nightly("sda", self.folder, SOUND)
        self.same("status and output", (status, out), (2, SAID))
        self.same("error stream", error, f"sda: no answer: {self.folder}/shardscrub-sda.prom can't be written\n")
        self.same("files", self.files(), {})

    def test_by_a_symbolic_link(self):
        """It finds what is beside the script, also if only the path has a program."""
        link = self.other / "nightly"
        link.symlink_to(NIGHTLY)
        self.same("answer", done(link, "sda", self.folder, SOUND, env=self.environment), (0, SAID, ""))
        self.environment.pop("SHARDSCRUB")
        self.same("its program", done(link, "sda", self.folder, SOUND, env=self.environment), (0, SAID, ""))

    def test_the_journal(self):
        """There each line has a priority, unless the disk is sound. Elsewhere it has none."""
        runs = {"<3>sda: wrong: 1 of 3 shards broken, 1 torn item (0 s, 5120 bytes)\n": [WRONG],
                "<4>sda: wrong: 1 torn item (0 s, 2048 bytes)\n": [TOP / "examples/to-move.img"],
                "<3>sda: no answer: image cannot be opened: /no (0 s)\n": ["/no"], SAID: [SOUND]}
        for wanted, words in runs.items():
            with open(self.other / "journal", "w+b") as journal:
                found = os.fstat(journal.fileno())
                environment = self.environment | {"JOURNAL_STREAM": f"{found.st_dev}:{found.st_ino}"}
                subprocess.run([NIGHTLY, "sda", self.folder, *words], stdout=journal, stderr=journal, env=environment)
                self.same(str(words), (self.other / "journal").read_text(encoding="utf-8"), wanted)
            self.same(f"elsewhere: {words}", "".join(self.nightly("sda", self.folder, *words, JOURNAL_STREAM="1:2")[1:]),
                      re.sub(r"^<\d>", "", wanted))

    def test_an_image_that_was_cut(self):
        """It says how many bytes are missing, also of a file that isn't such a disk, and so does the alert in the place of all others."""
        need("promtool")
        raw, disks = SOUND.read_bytes(), {}
        images = {"cut": raw[:-68], "one": raw[:-1], "empty": b"", "no": b"other bytes\n" * 8, "sound": raw}
        short = {"cut": "68 bytes", "one": "1 byte", "empty": "768 bytes", "no": "672 bytes"}
        for disk, text in images.items():
            image = self.other / disk
            image.write_bytes(text)
            _, out, error = self.nightly(disk, self.folder, *SIZES, image)
            line = f"{disk}: wrong: image is {short[disk]} short, " if disk in short else f"{disk}: sound: "
            self.true(disk, (out + error).startswith(line), out + error)
            self.same(f"{disk}: gauge", self.samples(disk)["image_bytes"], str(len(text)))
            disks[disk] = [(self.samples(disk), True)]
        self.raises(disks, {disk: ["Short!" if disk in short else ""] for disk in disks})

    def test_what_the_map_lacks(self):
        """Bytes that aren't zero were written there since, up to the disk's end. Then the map may be too old."""
        path, image = self.other / "map", self.other / "image"
        shutil.copy(TOP / "examples/rescued.map", path)
        raw = (TOP / "examples/rescued.img").read_bytes()
        sizes = ["--page", "512", "--pages", "4", "--extents", "4"]
        for writes, wanted in (((), ""), (((1024, b"abc"), (0x1a00 + 511, b"x"), (512, b"y")),
                                          "; 4 bytes that the map lacks were written since")):
            text = bytearray(raw)
            for place, one in writes:
                text[place:place + len(one)] = one
            image.write_bytes(text)
            for words in (["--map", path], [f"--map={path}"]):
                _, out, error = self.nightly("sda", self.folder, *sizes, *words, image)
                self.true(f"{words}, {writes}", (out + error).endswith(f"(0 s, 8192 bytes{wanted})\n"), out + error)

    def test_control_characters(self):
        """None of a name, of a disk or of a file, comes to the terminal."""
        for name in ("\x1b[31m\x07", "\x9b31m", "\x7f\r"):
            runs = {"sound": (name, self.folder, SOUND), "no image": (name, self.folder, f"/no/{name}"), "no folder": (name, f"/no/{name}",
                                                                                                                       SOUND),
                    "no map": (name, self.folder, "--map", f"/no/{name}", SOUND), "a slash": (f"/{name}", self.folder, SOUND)}
            for what, words in runs.items():
                status, out, error = self.nightly(*words)
                self.same(f"{what}, {name!r}: status", status, 0 if what == "sound" else 2)
                self.same(f"{what}, {name!r}", re.findall(r"[\x00-\x09\x0b-\x1f\x7f-\x9f]", out + error), [])
            error = self.nightly("sda", self.folder, SOUND, LAST=f"/no/{name}")[2]
            self.same(f"LAST, {name!r}", re.findall(r"[\x00-\x09\x0b-\x1f\x7f-\x9f]", error), [])

    def test_usage(self):
        usage = "usage: view/monitoring/nightly DISK FOLDER WORD..\n"
        for words in ([], ["sda"]):
            self.same(str(words), self.nightly(*words), (2, "", usage))
        for word in ("-h", "--help"):
            self.same(word, self.nightly(word), (0, usage, ""))
        for disk in ("", "a/b", "../sda"):
            status, out, error = self.nightly(disk, self.folder, SOUND)
            self.same(repr(disk), (status, out), (2, ""))
            self.true(f"{disk!r}: error stream", error.endswith(f"no answer: a disk's name isn't empty and has no slash: {disk}\n"), error)
        self.same("files", self.files(), {})


class Nights(NightlyCase):
    """What Prometheus raises night by night: what nightly does on a disk goes through promtool and the alerts."""
    def setUp(self):
        super().setUp()
        need("promtool")
        self.image = self.other / "image"

    def night(self, *words, **more):
        """The numbers after a scan, and whether the file was written."""
        path = self.folder / "shardscrub-sdb.prom"
        before = path.stat().st_ino if path.exists() else None
        self.nightly("sdb", self.folder, *words, **more)
        is_renewed = path.exists() and path.stat().st_ino != before
        return self.samples("sdb"), is_renewed

    def raise_each_night(self, nights, *wanted):
        self.raises({"sdb": nights}, {"sdb": wanted})

    def written(self, *generations):
        """A sound disk with a superblock of each generation, one page after another, in the image."""
        disk = Disk(8, 3)
        locator = disk.chunk(1, 0, uuid(2), run((shard(1), [disk.chunk(2, 0, uuid(1), b"abc")])))
        for number, generation in enumerate(generations):
            disk.superblock(2 * number, generation, locator)
        self.image.write_bytes(disk.bytes)
        return disk

    def test_a_good_disk(self):
        """It stays green for weeks, whether its sizes are given or found."""
        nights = []
        for number in range(10):
            disk = self.written(number + 1, number + 2)
            nights.append(self.night(*(disk.geometry() if number % 2 else []), self.image))
        self.same("verdicts", {night["verdict"] for night, _ in nights}, {"0"})
        self.raise_each_night(nights, *[""] * 10)

    def test_a_new_disk_without_an_answer(self):
        """It has an alert at once, and until there is an answer."""
        nights = [self.night("/nothing/here"), self.night("/nothing/here"), self.night(SOUND)]
        self.raise_each_night(nights, "NoAnswer!", "NoAnswer!", "")

    def test_no_answer_any_more(self):
        """The alerts that its numbers had raised end with the numbers."""
        nights = [self.night(WRONG, "3:1"), self.night("/nothing/here"), self.night(WRONG, "3:1")]
        self.raise_each_night(nights, "Broken! Unreadable!", "NoAnswer!", "Broken! Unreadable! GenerationSame")

    def test_a_bad_sector_in_the_first_64_MiB(self):
        """Without the sizes there is no answer, and with them there are all numbers that the disk still has. Its read fails."""
        image = self.other / "failing"
        shutil.copy(TOP / "examples/failing.img", image)
        library = FAILING_READS.made(self.other)
        failing = self.script(f"export LD_PRELOAD={shlex.quote(str(library))} COUNTS=3 IMAGE={image.stat().st_ino} FAILING=1024:1536\n"
                              f"exec {shlex.quote(self.program)} \"$@\" 3>/dev/null")
        sizes = ["--page", "512", "--pages", "4", "--extents", "4"]
        nights = [self.night(image), self.night(image, SHARDSCRUB=str(failing)), self.night(*sizes, image, SHARDSCRUB=str(failing))]
        self.same("answers", [night.get("answered") for night, _ in nights], ["1", "0", "1"])
        self.raise_each_night(nights, "", "NoAnswer!", "Unreadable! GenerationFell!")

    def test_extent_0_is_zeros(self):
        """No superblock is there, so nothing is known of the disk."""
        disk = self.written(1, 2)
        nights = [self.night(*disk.geometry(), self.image)]
        raw = self.image.read_bytes()
        self.image.write_bytes(bytes(disk.page * disk.pages) + raw[disk.page * disk.pages:])
        nights += [self.night(*disk.geometry(), self.image), self.night(self.image)]
        self.raise_each_night(nights, "", "NoSuperblock!", "NoAnswer!")

    def test_a_tie(self):
        disk = self.written(1, 2)
        nights = [self.night(*disk.geometry(), self.image), self.night(*SIZES, TIE), self.night(TIE)]
        self.raise_each_night(nights, "", "Tie! GenerationFell!", "Tie! GenerationFell!")

    def test_a_newest_superblock_that_reads_as_zeros(self):
        """Without the log's generation the disk is sound, though after an earlier night its generation has fallen."""
        disk, last = self.written(1), self.other / "last"
        last.write_text("2\n", encoding="utf-8")
        self.raise_each_night([self.night(*disk.geometry(), self.image)], "")
        self.raise_each_night([self.night(*disk.geometry(), self.image, LAST=str(last))], "Doubt!")
        last.write_text("", encoding="utf-8")
        for name in (str(last), "", str(self.other / "nothing")):
            self.raise_each_night([self.night(*disk.geometry(), self.image, LAST=name)], "NoAnswer!")

    def test_without_the_last_generation(self):
        """The disk has an alert that says so, of severity info, as long as there is an answer."""
        disk, last = self.written(1), self.other / "last"
        last.write_text("1\n", encoding="utf-8")
        nights = [self.night(*disk.geometry(), self.image, **more) for more in ({}, {"LAST": str(last)})] + [self.night("/nothing/here")]
        self.same("gauge", [night["last_given"] for night, _ in nights], ["0", "1", "0"])
        self.same("labels", alert("sdb", "NoLast?")["labels"].count('severity="info"'), 1)
        self.raise_each_night(nights, "", "", "NoAnswer!")

    def test_what_comes_behind_another_finding(self):
        """A shared chunk stays for ever, and so may a stray page. What comes later has an alert of its own."""
        shared, torn, hidden = (TOP / f"examples/{name}.img" for name in ("twins", "to-move", "collision"))
        self.raise_each_night([self.night(image) for image in (shared, torn, hidden)], "Shared?", "TornOrNoise", "Hidden GenerationSame")
        disk = self.written(1, 2)
        disk.put(0, 7 * disk.page, b"stray")
        self.image.write_bytes(disk.bytes)
        nights = [self.night(*disk.geometry(), self.image)]
        disk.put(0, 2 * disk.page, bytes(3 * disk.page))
        self.image.write_bytes(disk.bytes)
        self.raise_each_night([*nights, self.night(*disk.geometry(), self.image)], "Doubt!", "GenerationFell!")

    def test_a_full_folder(self):
        """The file of a sound night goes, so that an alert comes."""
        self.night(SOUND)
        status, _, error = self.nightly("sdb", self.folder, SOUND, preexec_fn=no_file_grows)
        self.same("status and files", (status, list(self.folder.iterdir())), (2, []))
        self.true("error stream", error.startswith(f"sdb: no answer: {self.folder}/shardscrub-sdb.prom can't be written: "), error)


class Started(NightlyCase):
    """The unit, the timer and the line of cron."""

    def placed(self, text):
        """The text with the files of the repository in the place of the installed ones, and another folder of node_exporter."""
        self.true("an installed file", re.search(rf'{INSTALLED}/view/monitoring/nightly"? ', text), text)
        # The path of the repository may have blanks.
        link = self.room / "installed"
        if not link.is_symlink():
            link.symlink_to(TOP)
        return text.replace(INSTALLED, str(link)).replace(COLLECTED, str(self.folder))

    def of_reading(self, begin):
        """The file or change of READING that begins so."""
        return re.search(rf"^```ini\n({re.escape(begin)}.*?)^```$", READING, re.M | re.S)[1]

    def units(self):
        """A folder with both units, the change that READING makes to all services, and the unit of a snapshot that this asks for."""
        folder = self.other / "units"
        change = folder / "shardscrub@.service.d"
        change.mkdir(parents=True)
        for unit in UNITS:
            shutil.copy(MONITORING / unit, folder)
        service = folder / UNITS[0]
        service.write_text(self.placed(service.read_text(encoding="utf-8")), encoding="utf-8")
        (change / "override.conf").write_text(self.of_reading("[Unit]"), encoding="utf-8")
        (folder / "snapshot@.service").write_text("[Service]\nType=oneshot\nExecStart=/bin/true\n", encoding="utf-8")
        return folder

    def test_systemd_takes_the_units(self):
        """It has nothing to say about them, nor about the change of READING."""
        need("systemd-analyze")
        folder = self.units()
        for disk in ("sda", r"disk-by\x2did-a"):
            names = [folder / unit.replace("@", f"@{disk}") for unit in UNITS]
            status, out, error = done("systemd-analyze", "verify", "--man=no", *names)
            said = [line for line in (out + error).splitlines() if "shardscrub" in line or "snapshot" in line or str(folder) in line]
            self.same(disk, (status, said), (0, []))

    def test_the_service_is_hardened(self):
        """By systemd's own measure, which has 0 for the least exposure and 100 for the most."""
        need("systemd-analyze")
        version = int(re.search(r"\d+", done("systemd-analyze", "--version")[1])[0])
        if version < 250:
            self.skipTest(f"systemd-analyze is of version {version}, and 250 is needed")
        status, out, error = done("systemd-analyze", "security", "--offline=yes", "--threshold=20", "--no-pager", self.units() / UNITS[0])
        self.true("exposure", status == 0, out[-200:] + error)

    def test_what_the_service_may_do(self):
        found = settings(UNITS[0])
        for key, value in (("ProtectSystem", "strict"), ("ReadOnlyPaths", "/dev"), ("ReadWritePaths", f"-{COLLECTED}"),
                           ("DevicePolicy", "closed"), ("PrivateNetwork", "yes"), ("NoNewPrivileges", "yes"), ("OOMScoreAdjust", "1000"),
                           ("OOMPolicy", "continue")):
            self.same(key, [one for name, one in found if name == key], [value])
        self.same("devices", [one for name, one in found if name == "DeviceAllow"], ["block-* r", "/dev/loop-control rw"])

    def service(self, disk, text):
        """What the service of a disk does whose settings are this text: as systemd replaces variables, and splits those without braces."""
        found = dict(settings(UNITS[0]))
        self.same("settings", found["EnvironmentFile"], "-/etc/shardscrub/%i")
        given = dict(word.split("=", 1) for word in [*found["Environment"].split(), *text.splitlines()])
        given = {name: value.replace("%I", disk).replace("%i", disk) for name, value in given.items()}
        words = []
        for word in shlex.split(self.placed(found["ExecStart"])):
            whole, some = re.fullmatch(r"\$\{(\w+)\}", word), re.fullmatch(r"\$(\w+)", word)
            words += [given[whole[1]]] if whole else given[some[1]].split() if some else [word]
        return done(*words, env=self.environment | given)

    def test_what_the_service_runs(self):
        """Without settings, with an image alone, and with those of READING and a name."""
        self.same("no settings", self.service("none", ""), (2, "", "none: no answer: image cannot be opened: /dev/none (0 s)\n"))
        self.same("numbers", self.samples("none")["exit_status"], "3")
        self.same("an image", self.service("sda", f"IMAGE={SOUND}"), (0, SAID, ""))
        self.same("file", self.files()["shardscrub-sda.prom"], self.right_text("sda", SOUND))
        text = self.of_reading("IMAGE=")
        options = re.search(r"^OPTIONS=(.*)$", text, re.M)[1]
        self.true("sizes", re.fullmatch(r"--page \d+ --pages \d+ --extents \d+", options), options)
        last = self.other / "last"
        last.write_text("2\n", encoding="utf-8")
        for old, new in ((r"IMAGE=\S+", f"IMAGE={SOUND}"), (r"OPTIONS=.*", f"OPTIONS={' '.join(SIZES)}"), (r"LAST=\S+", f"LAST={last}")):
            text, count = re.subn(rf"^{old}$", new, text, flags=re.M)
            self.same(new, count, 1)
        said = "bay 7: doubt: generation 1 isn't the last one (0 s, 768 bytes)\n"
        self.same("READING", self.service("sdb", text + "NAME=bay 7\n"), (0, "", said))
        self.same("file", self.files()["shardscrub-bay 7.prom"], self.right_text("bay 7", SOUND, *SIZES, last="2"))
        self.same("verdict", self.samples("bay 7")["verdict"], "1")

    def test_the_settings(self):
        """READING explains each one that the unit and nightly have, and the unit has its own as READING has them."""
        table = READING[READING.index("| Setting |"):].split("\n\n")[0]
        named = re.findall(r"^\| `(\w+)` \|", table, re.M)
        unit = (MONITORING / UNITS[0]).read_text(encoding="utf-8")
        known = re.findall(r"\b([A-Z]+)=", dict(settings(UNITS[0]))["Environment"])
        self.same("settings", sorted(named), sorted([*known, "BYTES", "LAST", "LOCK"]))
        self.same("in the unit", [name for name in named if name not in unit], [])
        lines = self.of_reading("IMAGE=").splitlines()[:3]
        for line in lines:
            self.true(line, f"\n#   {line}\n" in unit)
        numbers = [int(number) for number in re.findall(r"(?:=| )(\d+)", "\n".join(lines[1:]))]
        self.same("bytes", numbers[0], numbers[1] * numbers[2] * numbers[3])
        wait = re.search(r"flock -w (\d+) -E (\d+) ", NIGHTLY.read_text(encoding="utf-8"))
        self.true("status and hours in READING", f"{wait[2]} if another scan took over {int(wait[1]) // 3600} hours" in READING)

    def test_the_timer(self):
        """It starts once a night, and the alert Stale waits long enough for it, also if the scan had to wait."""
        found = dict(settings(UNITS[1]))
        hour, spread = re.fullmatch(r"\*-\*-\* (\d\d):00:00", found["OnCalendar"]), re.fullmatch(r"(\d)h", found["RandomizedDelaySec"])
        self.true("hours in READING", f"Between {int(hour[1])} and {int(hour[1]) + int(spread[1])} o'clock" in READING)
        limit = re.search(r"> (\d+) \* 3600$", dict(rules())["ShardscrubStale"])
        wait = int(re.search(r"flock -w (\d+) ", NIGHTLY.read_text(encoding="utf-8"))[1]) // 3600
        self.true("limit", 24 + int(spread[1]) + wait < int(limit[1]) < 48, limit)
        self.true("limit in READING", f"older than {limit[1]} hours" in READING)

    def test_cron(self):
        """A line of /etc/cron.d has five fields of time, a user and a command, in which a percent sign would end a line."""
        need("choom")
        lines = (MONITORING / "cron").read_text(encoding="utf-8").splitlines()
        path, line = [line for line in lines if not line.startswith("#")]
        self.true("path", re.fullmatch(r"PATH=[\w/:]+", path) and "/sbin" in path, path)
        *times, user, command = line.split(" ", 6)[:7]
        self.true("times and user", re.fullmatch(r"\d+ \d+ \* \* \* root", " ".join([*times, user])) and "%" not in command, line)
        sizes, image, size = (re.search(rf"^{name}=(.*)$", self.of_reading("IMAGE="), re.M)[1] for name in ("OPTIONS", "IMAGE", "BYTES"))
        self.true("settings of READING", command.startswith(f"BYTES={size} ") and command.endswith(f" {sizes} {image} >/dev/null"), command)
        command = self.placed(command).replace(sizes, " ".join(SIZES)).replace(image, shlex.quote(str(SOUND)))
        self.same("a sound disk", done("sh", "-c", command, env=self.environment), (0, "", ""))
        self.same("files", self.files(), {"shardscrub-sdb.prom": self.right_text("sdb", SOUND, *SIZES)})
        command = command.replace(str(SOUND), "/no")
        mail = done("sh", "-c", command, env=self.environment)[1:]
        self.same("what cron mails", mail, ("", "sdb: no answer: image cannot be opened: /no (0 s)\n"))
        self.same("numbers", self.samples("sdb")["answered"], "0")

    def test_settings_of_many_disks(self):
        """The loop of READING writes those of each disk whose records agree, and names the others."""
        drives, folder = self.other / "by-id", self.other / "settings"
        drives.mkdir()
        folder.mkdir()
        images = {"wwn-0x1": SOUND, "wwn-0x2": WRONG, "wwn-0x2-part1": SOUND, "wwn-0x3": TOP / "examples/no-superblock.img",
                  "wwn-0x4": TOP / "examples/formatted-twice.img", "ata-1": SOUND, "wwn-0x5": SOUND}
        for name, image in images.items():
            shutil.copy(image, drives / name)
        (folder / "wwn-0x5").write_text("of before\n", encoding="utf-8")
        loop = re.search(r"^```sh\n(for image in .*?)^```$", READING, re.M | re.S)[1]
        for old, new in (("/dev/disk/by-id", drives), ("/etc/shardscrub", folder), ("shardscrub sizes", f"{self.program} sizes")):
            self.same(old, loop.count(old), 1)
            loop = loop.replace(old, str(new))
        status, out, _ = done("sh", "-c", loop)
        self.same("by hand", (status, out), (0, "".join(f"by hand: {drives}/wwn-0x{number}\n" for number in (3, 4, 5))))
        found = {path.name: path.read_text(encoding="utf-8") for path in folder.iterdir()}
        one, two = ((f"IMAGE={drives}/wwn-0x{number}\nBYTES={page * pages * extents}\n"
                     f"OPTIONS=--page {page} --pages {pages} --extents {extents}\n")
                    for number, page, pages, extents in ((1, 64, 4, 3), (2, 64, 16, 5)))
        self.same("settings", found, {"wwn-0x1": one, "wwn-0x2": two, "wwn-0x5": "of before\n"})
        self.same("a scan by them", self.service("wwn-0x2", two)[::2],
                  (0, "wwn-0x2: wrong: 1 of 3 shards broken, 1 torn item (0 s, 5120 bytes)\n"))


def rules():
    """Each alert with its expression, which is on one line."""
    return re.findall(r"^ {6}- alert: (\w+)\n {8}expr: (.+)$", RULES.read_text(encoding="utf-8"), re.M)


# A superblock each day, and the numbers of a sound disk that aren't 0.
GENERATIONS = "7+0x23 8+0x23 9+0x23 10"
SOUND_NUMBERS = {"answered": "1", "last_given": "1", "image_bytes": "768", "page_bytes": "64", "extent_pages": "4", "extents": "3",
                 "superblocks": "3"}
DOUBT = "Disk sdb of node1:9100 may have lost a newer superblock."


class Night(NamedTuple):
    """What promtool is asked of a disk: the values of its numbers at each hour, sound ones where nothing is said, and the texts of all
    alerts at some hours."""
    changes: dict
    alerts: dict
    # The hours at which it has any numbers.
    there: str = "{}+0x240"


NIGHTS = {
    "a sound disk": Night({}, {0: {}, 47: {}, 72: {}}),
    "a wrong disk": Night(
        {"verdict": "0+0x47 2+0x24", "shards_broken": "0+0x47 2+0x24", "runs_lost": "0+0x47 1+0x24", "unreadable_pages": "0+0x47 3+0x24",
         "superblock_generation": "1000007+0x23 1000008+0x23 1000006+0x24"},
        {47: {}, **dict.fromkeys((48, 71), {
            "Broken": "Disk sdb of node1:9100 has 2 broken shards.", "RunsLost": "Disk sdb of node1:9100 has lost 1 index run.",
            "Unreadable": "Disk sdb of node1:9100 has 3 unreadable pages.",
            "GenerationFell": "Disk sdb of node1:9100 has fallen back to superblock generation 1000006."})}),
    "one of each": Night(
        dict.fromkeys(("shards_broken", "unreadable_pages", "locators_hidden", "superblock_tie", "torn_items", "shared_places"), "1+0x72")
        | {"verdict": "2+0x72", "runs_lost": "2+0x72"},
        {0: {"Broken": "Disk sdb of node1:9100 has 1 broken shard.", "RunsLost": "Disk sdb of node1:9100 has lost 2 index runs.",
             "Unreadable": "Disk sdb of node1:9100 has 1 unreadable page.", "Hidden": "Disk sdb of node1:9100 has 1 hidden locator.",
             "Tie": "Disk sdb of node1:9100 has several superblocks of the greatest generation."}}),
    "torn, then shared, then what no number says": Night(
        {"verdict": "2+0x72", "torn_items": "1+0x23 0+0x48", "noise_items": "1+0x23 0+0x48", "shared_places": "1+0x47 0+0x24"},
        {0: {"TornOrNoise": "Disk sdb of node1:9100 has 2 torn or noise items."},
         24: {"Shared": "Disk sdb of node1:9100 has 1 shared chunk."},
         48: {"Wrong": "Disk sdb of node1:9100 has findings."}}),
    "a short image": Night(
        {"verdict": "2+0x72", "image_bytes": "767+0x23 0+0x48", "unreadable_pages": "1+0x72", "superblocks": "3+0x23 0+0x48"},
        {0: {"Short": "The image of disk sdb of node1:9100 is 1 byte short."},
         24: {"Short": "The image of disk sdb of node1:9100 is 768 bytes short."}}),
    "a stale disk, whose last verdict is doubt": Night(
        {"verdict": "1+0x72", "superblock_generation": "7+0x72", "written": "0+0x72"},
        {36: {"Doubt": DOUBT}, 37: {"Doubt": DOUBT, "Stale": "Disk sdb of node1:9100 was last scanned 1d 13h 0m 0s ago."},
         48: {"Doubt": DOUBT, "Stale": "Disk sdb of node1:9100 was last scanned 2d 0h 0m 0s ago.",
              "GenerationSame": "Disk sdb of node1:9100 has had superblock generation 7 for two days."}}),
    "a stray page that stays, and then the newest superblock goes": Night(
        {"superblocks_stray": "1+0x240", "verdict": "1+0x240", "superblock_generation": "7+0x23 6+0x215", "written": "0+3600x240"},
        {23: {"Doubt": DOUBT}, 24: {"GenerationFell": "Disk sdb of node1:9100 has fallen back to superblock generation 6."},
         200: {"Doubt": DOUBT, "GenerationSame": "Disk sdb of node1:9100 has had superblock generation 6 for two days."}}),
    "no file from hour 24 on": Night(
        {"superblock_generation": "7+0x23", "written": "0+0x23"},
        {24: {}, **dict.fromkeys((26, 72), {"Missing": "Disk sdb of node1:9100 has no metrics any more."}), 240: {}}, "{}+0x23"),
    "no answer, in the first night and in the third": Night(
        {"answered": "0+0x23 1+0x23 0+0x23", "last_given": "0+0x23 1+0x23 0+0x23", "superblock_generation": "_x24 7+0x23 _x24"},
        {**dict.fromkeys((0, 23, 48), {"NoAnswer": "The last scan of disk sdb of node1:9100 gave no answer."}), 24: {}, 47: {}},
        "_x24 {}+0x23 _x24"),
    "no superblock from hour 24 on": Night(
        {"verdict": "0+0x23 2+0x48", "superblocks": "2+0x23 0+0x48", "superblock_generation": "7+0x23 0+0x48",
         "superblocks_stray": "0+0x23 4+0x48", "noise_items": "0+0x23 7+0x48"},
        {23: {}, **dict.fromkeys((24, 72), {"NoSuperblock": "Disk sdb of node1:9100 has no superblock of these sizes."})}),
    "nobody says which superblock is the last one": Night(
        {"last_given": "0+0x72"}, {72: {"NoLast": "Nobody says which superblock of disk sdb of node1:9100 is the last one."}}),
}


class Alerts(RoomCase):
    """The alerts of Prometheus."""
    # What a text may have from an alert: the labels, a value, and an s unless that is 1.
    PARTS = {"$labels.disk", "$labels.instance", 'printf "%.0f" $value', "$value | humanizeDuration", "if ne $value 1.0", "end"}

    def metrics_of(self, expr):
        """The metrics that an expression names."""
        return set(re.findall(r"\b(?:shardscrub|node)_\w+", expr))

    def written(self):
        """The names of the metrics that view/metrics writes."""
        text, _ = summary(Image(SOUND.read_bytes(), 64, 4, 3, []))
        printed = subprocess.run([METRICS, "sda", "0", "0", "0", "768"], input=text, capture_output=True, encoding="utf-8",
                                 check=True).stdout
        return re.findall(r"^# TYPE (\w+) gauge$", printed, re.M)

    def test_each_metric_is_there(self):
        """view/metrics writes each one that an alert names, but for the time of the file."""
        names = {name for _, expr in rules() for name in self.metrics_of(expr)}
        self.same("metrics that nobody writes", names - set(self.written()), {"node_textfile_mtime_seconds"})

    def test_expressions(self):
        """Each has its brackets and quotes in pairs, and no backslash, which PromQL would take as an escape."""
        self.true("alerts", len(rules()) == RULES.read_text(encoding="utf-8").count("- alert:") > 0)
        for name, expr in rules():
            rest = re.sub(r'"[^"\\]*"', "", expr)
            while (less := re.sub(r"\([^()]*\)|\[\d+[dhm]\]|\{[^(){}]*\}", "", rest)) != rest:
                rest = less
            self.true(name, re.fullmatch(r"[\w\s<>=*+-]+", rest), rest)

    def test_reading_has_each_alert(self):
        """In the table of reasons, or in the one of the other alerts."""
        reasons, others = (READING[READING.index(head):].split("\n\n")[0].splitlines()[2:]
                           for head in ("| `view/why` says | Alert |", "| Alert `Shardscrub..` |"))
        named = [line.split("|")[2] for line in reasons] + [line.split("|")[1] for line in others]
        self.same("alerts", sorted(f"Shardscrub{name.strip(' `')}" for name in named), sorted(name for name, _ in rules()))

    def test_form(self):
        """The keys and values that Prometheus takes, and only parts that each alert has."""
        need_yaml()
        whole = yaml.safe_load(RULES.read_text(encoding="utf-8"))
        self.same("keys", (list(whole), [list(group) for group in whole["groups"]]), (["groups"], [["name", "rules"]]))
        for rule in whole["groups"][0]["rules"]:
            name = rule["alert"]
            self.same(f"{name}: keys", [key for key in rule if key != "for"], ["alert", "expr", "labels", "annotations"])
            self.true(f"{name}: for", re.fullmatch(r"\d+[mh]", rule.get("for", "0m")))
            self.same(f"{name}: annotations", list(rule["annotations"]), ["summary", "description"])
            self.true(f"{name}: severity", rule["labels"] in [{"severity": one} for one in ("critical", "warning", "info")])
            for text in rule["annotations"].values():
                self.same(f"{name}: parts", set(re.findall(r"\{\{ (.+?) \}\}", text)) - self.PARTS, set())
                self.same(f"{name}: braces", [text.count(brace * 2) for brace in "{}"], [len(re.findall(r"\{\{ .+? \}\}", text))] * 2)
            self.true(f"{name}: description", re.fullmatch(r".+ \(/usr/share/doc/shardscrub/docs/[A-Z]+\.md#[a-z0-9-]+\)",
                                                           rule["annotations"]["description"]), rule["annotations"]["description"])
        self.same("expressions", [(rule["alert"], rule["expr"]) for rule in whole["groups"][0]["rules"]], rules())

    def test_promtool_takes_the_rules(self):
        need("promtool")
        status, out, error = done("promtool", "check", "rules", RULES)
        self.true("rules", status == 0, out + error)

    def series(self, night):
        """The numbers of a disk at each hour."""
        for metric in self.written():
            name = metric.removeprefix("shardscrub_")
            sound = GENERATIONS if name == "superblock_generation" else night.there.format(SOUND_NUMBERS.get(name, "0"))
            values = night.changes.get(name, sound)
            yield {"series": f'{metric}{{disk="sdb", instance="node1:9100", job="node"}}', "values": values}
        file = f'node_textfile_mtime_seconds{{file="{COLLECTED}/shardscrub-sdb.prom", instance="node1:9100", job="node"}}'
        yield {"series": file, "values": night.changes.get("written", "0+0x23 86400+0x23 172800+0x23 259200")}

    def expected(self, name, text):
        """An alert as promtool expects it, with the description of the rules."""
        part = RULES.read_text(encoding="utf-8").partition(f"- alert: Shardscrub{name}\n")[2]
        severity, description = re.search(r"severity: (\w+)", part)[1], re.search(r"description: '(.*)'\n", part)[1]
        labels = {"disk": "sdb", "instance": "node1:9100", "job": "node", "severity": severity}
        if name == "Stale":
            labels["file"] = f"{COLLECTED}/shardscrub-sdb.prom"
        description = description.replace("''", "'").replace("{{ $labels.disk }}", "sdb")
        return {"exp_labels": labels, "exp_annotations": {"summary": text, "description": description}}

    def test_alerts_of_nights(self):
        """At each of these hours promtool expects these alerts with their texts, and no others. Each alert is expected once."""
        need("promtool")
        tests, names = [], [name.removeprefix("Shardscrub") for name, _ in rules()]
        for what, night in NIGHTS.items():
            asked = [{"eval_time": f"{hour}h", "alertname": f"Shardscrub{name}",
                      "exp_alerts": [self.expected(name, alerts[name])] if name in alerts else []}
                     for hour, alerts in night.alerts.items() for name in names]
            tests.append({"name": what, "interval": "1h", "input_series": list(self.series(night)), "alert_rule_test": asked})
        cases = self.room / "cases.json"
        cases.write_text(json.dumps({"rule_files": [str(RULES)], "evaluation_interval": "1h", "tests": tests}), encoding="utf-8")
        status, out, error = done("promtool", "test", "rules", cases)
        self.true("cases", status == 0, out + error)
        self.same("alerts that are expected", {name for night in NIGHTS.values() for alerts in night.alerts.values() for name in alerts},
                  set(names))


class Meanwhile(RoomCase):
    """What is read while a node writes may be part of one state of the disk and part of a later one."""

    @classmethod
    def setUpClass(cls):
        super().setUpClass()
        one, two = uuid(1), uuid(2)
        disk = Disk(8, 5, page=256)
        first = shard(1), [disk.chunk(1, 0, one, b"abc")]
        disk.superblock(0, 1, disk.chunk(2, 0, two, run(first)))
        cls.disk, cls.first = disk, bytes(disk.bytes)
        # The node writes a chunk, a run in extent 3, and a superblock.
        second = shard(2), [disk.chunk(1, 41, uuid(3), b"de")]
        disk.superblock(1, 2, disk.chunk(3, 0, uuid(4), run(first, second)))
        cls.longer = bytes(disk.bytes)
        # It moves both chunks to extent 4, resets extent 1, and writes there again.
        moved = [(shard(number), [disk.chunk(4, at, uuid(4 + number), text)]) for number, at, text in ((1, 0, b"abc"), (2, 41, b"de"))]
        disk.reset(1)
        third = shard(3), [disk.chunk(1, 0, uuid(7), b"other bytes")]
        disk.superblock(2, 3, disk.chunk(2, 512, uuid(8), run(*moved, third)))
        cls.again = bytes(disk.bytes)

    def mixed(self, of_extent_0, others):
        """Extent 0 as it was at one time, and the other extents at another."""
        size = self.disk.page * self.disk.pages
        return of_extent_0[:size] + others[size:]

    def summary(self, what, raw):
        """The summary, which is that of the reference for these bytes."""
        path = self.room / "disk"
        path.write_bytes(raw)
        status, out, _ = done(self.program, "summary", *self.disk.geometry(), path)
        self.same(what, out, summary(Image(raw, self.disk.page, self.disk.pages, self.disk.extents, []))[0])
        return dict(line.split(" ") for line in out.splitlines())

    def test_each_state_is_sound(self):
        for name in ("first", "longer", "again"):
            self.same(name, self.summary(name, getattr(self, name))["verdict"], "sound")

    def test_chunks_after_the_superblock_are_tails(self):
        found = self.summary("tails", self.mixed(self.first, self.longer))
        self.same("verdict and tails", (found["verdict"], found["tails"]), ("sound", "2"))

    def test_an_extent_that_was_written_again(self):
        found = self.summary("written again", self.mixed(self.longer, self.again))
        self.same("verdict, broken shards", (found["verdict"], found["shards_broken"]), ("wrong", "2"))

    def test_an_extent_that_was_read_before_its_superblock_was_written(self):
        found = self.summary("read before", self.mixed(self.longer, self.first))
        self.same("verdict, lost runs", (found["verdict"], found["runs_lost"]), ("wrong", "1"))

    def test_a_superblock_that_was_just_being_written(self):
        """Of its page only the first half was read with the new bytes."""
        page = self.disk.page
        torn = self.longer[:page + page // 2] + self.first[page + page // 2:]
        found = self.summary("being written", self.mixed(torn, self.longer))
        self.same("verdict, damaged pages", (found["verdict"], found["superblocks_damaged"]), ("doubt", "1"))


class LongDrive(NightlyCase):
    """A drive that is longer than its disk, as a loop device."""

    def loops(self, path):
        """The loop devices over this file."""
        return done("losetup", "--noheadings", "--output", "NAME", "--associated", path)[1].split()

    def test_bytes(self):
        """The drive is scanned up to there by a loop device, which goes also if all is killed. None is made of an image that
        ends there."""
        need("losetup")
        path, raw = self.other / "drive", WRONG.read_bytes()
        path.write_bytes(raw + bytes(512) + b"\xff" * 512)
        said = "sda: wrong: 1 of 3 shards broken, 1 torn item (0 s, 5120 bytes)\n"
        answer = self.nightly("sda", self.folder, path, BYTES="5120")
        if "none can be made" in answer[2]:
            self.skipTest(f"no loop device can be made: {answer[2]}")
        self.same("answer", answer, (0, "", said))
        self.same("file", self.files()["shardscrub-sda.prom"], self.right_text("sda", WRONG))
        self.same("loop devices", self.loops(path), [])
        self.same("without it", self.nightly("sda", self.folder, path), (2, "", "sda: no answer: image too long (0 s, 6144 bytes)\n"))
        script = self.script(f"for image; do :; done; echo \"$image\" >{shlex.quote(str(self.other / 'begun'))}; exec sleep 60")
        scan = subprocess.Popen([NIGHTLY, "sda", self.folder, path], env=self.environment | {"SHARDSCRUB": str(script), "BYTES": "5120"},
                                start_new_session=True)
        while not (self.other / "begun").exists() or not (begun := (self.other / "begun").read_text(encoding="utf-8")):
            time.sleep(.01)
        self.same("while it runs", self.loops(path), [begun.strip()])
        os.killpg(scan.pid, signal.SIGKILL)
        scan.wait()
        for _ in range(100):
            if self.loops(path):
                time.sleep(.05)
        self.same("after a kill", self.loops(path), [])
        (self.other / "map").write_text("# a map\n0x0 + 1\n0x0000 0x1400 +\n0x1400 0x0400 ?\n", encoding="utf-8")
        answer = self.nightly("sda", self.folder, "--map", self.other / "map", path, BYTES="5120")
        self.same("what a map lacks behind the disk's end", answer, (0, "", said))
        for size in (len(raw) + 1024, len(raw) + 512 * 99):
            self.same(f"{size}: short", self.nightly("sda", self.folder, path, BYTES=str(size))[0], 2)
        self.same("of the image's own length", self.nightly("sda", self.folder, WRONG, BYTES="5120", PATH=self.without("losetup")), (0, "",
                                                                                                                                     said))

    def without(self, tool):
        return f"{self.room}/bin:{path_without(tool, self.other)}"

    def test_what_is_no_bytes(self):
        for text in ("", "0", "512x", "-512", " 512", "513", "0512", "1" * 16):
            error = f"sda: no answer: BYTES isn't a multiple of 512: {text}\n"
            self.same(repr(text), self.nightly("sda", self.folder, SOUND, BYTES=text), (2, "", error))
        answer = self.nightly("sda", self.folder, SOUND, BYTES="512", PATH=self.without("losetup"))
        self.same("without losetup", answer, (2, "", "sda: no answer: BYTES needs a loop device, and none can be made\n"))

    def device(self, *words):
        """The block device that losetup makes with these words, or None, and its error stream."""
        status, out, error = done("losetup", *words)
        if status == 0:
            self.addCleanup(subprocess.run, ["losetup", "--detach", out.strip()], check=True)
        return out.strip() or None, error.strip()

    def test_a_loop_device_that_ends_with_the_disk(self):
        """As READING makes it."""
        need("losetup")
        words = shlex.split(re.search(r"^losetup (.*) /dev/sdb$", READING, re.M)[1])
        raw, path = WRONG.read_bytes(), self.room / "drive"
        self.same("size of the disk", words[words.index("--sizelimit") + 1], str(len(raw)))
        path.write_bytes(raw + bytes(512) + b"\xff" * 512)
        drive, error = self.device("-f", "--show", str(path))
        if drive is None:
            self.skipTest(f"no loop device can be made: {error}")
        self.same("drive", done(self.program, "summary", drive), (3, "", "shardscrub: image too long\n"))
        disk, error = self.device(*words, drive)
        self.assertIsNotNone(disk, error)
        for command in ("summary", "scan", "sizes"):
            self.same(command, done(self.program, command, disk), done(self.program, command, WRONG))
        with self.assertRaises(OSError), open(disk, "r+b", buffering=0) as file:
            file.write(bytes(512))
