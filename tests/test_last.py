"""What `superblocks`, `reclaimable` and `summary` say of worked disks whose newest superblock may be gone, also with --last; and which
numbers and lines are refused. What is right was written by hand, from docs/REPORT.md; all other disks are in the corpus.
"""
from lib import worked
from lib.cases import RoomCase, add_tests
from lib.disks import Disk, shard
from test_system import answer

S1, U1 = shard(1).hex(), "11111111-1111-1111-1111-111111111111"
SIZES = Disk(4, 3).geometry()
HINT = "\n\nFor more information, try '--help'.\n"


class LastCase(RoomCase):
    def asked(self, disk, *words):
        """The status and the output of a run on a disk."""
        image = self.room / "image"
        image.write_bytes(disk.bytes)
        status, printed, error = answer(words[0], *disk.geometry(), *words[1:], image, text=True)
        self.same(f"{' '.join(words)}: the error stream", error, "")
        return status, printed

    def listed(self, disk, words, lines):
        """Asks `reclaimable`, by the caller and by workers. Its status follows from its lines."""
        wanted = int(any(line.startswith("doubt ") for line in lines)), "".join(line + "\n" for line in lines)
        for workers in "03":
            found = self.asked(disk, "reclaimable", "--workers", workers, *words)
            self.same(f"reclaimable {' '.join(words)} by {workers} workers", found, wanted)

    def judged(self, disk, words, verdict):
        """Asks `summary`."""
        status, printed = self.asked(disk, "summary", *words)
        self.same(f"summary {' '.join(words)}", (status, printed.partition("\n")[0]), (int(verdict != "sound"), f"verdict {verdict}"))


def accepting(*lines):
    return [word for line in lines for word in ("--accept", line)]


LISTED = ["reclaim 3 41", "room 1 41 2007", "room 2 880 1168", "last-room 3 41 2007"]


class Worked(LastCase):
    def shown(self, disk, verdict, lines):
        """Asks `superblocks`, with the sizes and without, and `summary`."""
        status = int(verdict != "sound")
        self.same("superblocks", self.asked(disk, "superblocks"), (status, lines))
        self.same("superblocks, the sizes from the disk", answer("superblocks", self.room / "image"), (status, lines.encode(), b""))
        self.judged(disk, [], verdict)

    def test_a_torn_newest_superblock(self):
        disk = worked.torn_newest()
        self.shown(disk, "doubt", "record 0 SSB1 6 older\nstray 0\nrecord 1 SSB1 7 counts\n")
        self.listed(disk, [], ["doubt superblock-stray 0"])
        self.listed(disk, ["--last", "8"], ["doubt last 7 8", "doubt superblock-stray 0"])

    def test_a_generation_that_was_taken_from_the_disk(self):
        """Nothing stops it. Generation 8 named extent 3."""
        self.listed(worked.torn_newest(), ["--last", "7"], ["accepted superblock-stray 0", *LISTED])

    def test_a_whole_newest_superblock(self):
        disk = worked.whole_newest()
        self.shown(disk, "sound", "record 0 SSB1 8 counts\nrecord 1 SSB1 7 older\n")
        self.listed(disk, ["--last", "8"], [])
        self.judged(disk, ["--last", "8"], "sound")
        self.judged(disk, ["--last", "7"], "doubt")
        for last, status in ((8, 0), (9, 1)):
            found = answer("summary", "--last", str(last), self.room / "image")
            self.same(f"summary --last {last}, the sizes from the disk", found[::2], (status, b""))

    def test_a_shorter_superblock_over_a_longer_one(self):
        disk = worked.shorter_over_longer()
        self.shown(disk, "doubt", "record 0 SSB1 6 older\nstray 0\nrecord 1 SSB1 7 counts\n")
        self.listed(disk, [], ["doubt superblock-stray 0"])

    def test_a_byte_after_the_superblock(self):
        disk = worked.byte_after_the_superblock()
        self.listed(disk, [], ["doubt tail 1 41 1"])
        self.listed(disk, ["--last", "7"], ["accepted tail 1 41 1", *LISTED])
        self.judged(disk, ["--last", "7"], "sound")
        self.judged(disk, ["--last", "8"], "doubt")

    def test_a_copy_behind_a_damaged_frame(self):
        line = f"loose 1 58 3 {U1} shard {S1} 41"
        for is_second_lost in (False, True):
            disk = worked.behind_a_damaged_frame(is_second_lost)
            self.listed(disk, [], [f"doubt {line}"])
            self.listed(disk, ["--last", "1"], [f"doubt {line}"])
            self.listed(disk, accepting(line), [f"accepted {line}", "reclaim 1 99", "room 3 232 280"])


class Refusals(LastCase):
    def refused(self, words, error):
        self.same(" ".join(words), answer(*words, text=True), (2, "", f"error: {error}{HINT}"))

    def told(self, words, *parts):
        """It is refused in words of `clap`."""
        status, printed, error = answer(*words, text=True)
        self.same(" ".join(words), (status, printed, error[:7]), (2, "", "error: "))
        for part in parts:
            self.true(f"{' '.join(words)}: {part}", part in error, error)

    def refused_line(self, line, *words):
        self.refused(["reclaimable", *SIZES, *words, "no-image"], f"invalid value '{line}' for '--accept <LINE>': "
                     "not a line of a doubt that can be accepted, without the word doubt")

    def test_the_first_one_is_told(self):
        self.refused_line("spare", *accepting("tail 1 0 1", "spare", "tie"))
        self.refused_line("tie", *accepting("tie", "spare"), "--last", "7")

    def test_numbers(self):
        """They are judged as other numbers are. A fault of one comes before that of a line."""
        for command in ("reclaimable", "summary"):
            words = [command, *SIZES, "no-image"]
            for text in (str(2 ** 64), "9" * 40, "", "x", " 7", "7 ", "0x7", "7_0", "7.0", "none", "\u0667"):
                self.told([*words, "--last", text], f"invalid value '{text}' for '--last <G>'")
            self.told([*words, "--last", "-1"], "'-1'")
            self.told([*words, "--last=-1"], "'-1'", "--last <G>")
            self.told([*words, "--last=7", "--last=7"], "'--last <G>' cannot be used multiple times")
            self.told([*words, "--last"], "--last <G>")
        self.told(["reclaimable", *SIZES, "--accept", "tie", "--last", "x", "no-image"], "'--last <G>'")

    def check_command(self, words):
        """No other command takes --last."""
        self.told([*words, "--last", "7", "no-image"], "'--last'")


OTHERS = ["scan"], ["shard", "--id", S1], ["index", *SIZES], ["locators"], ["manifest", *SIZES], ["superblocks"], ["sizes"], \
    ["items", "--extent", "1"], ["demo"]
add_tests(Refusals, Refusals.check_command, [(f"last of {words[0]}", words) for words in OTHERS])
