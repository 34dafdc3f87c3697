"""Loose copies: frames at any byte of an extent in use, past write pointers too, that have what a lost payload's locator asks for; and
crowded extents, in which none is looked for. What is right on the worked images was written by hand, from docs/REPORT.md;
reference/shardscrub.py has to give the same. Other disks are in the corpus.
"""
import shlex
import subprocess

from lib.cases import RoomCase
from lib.disks import digest, geometry, shard
from lib.worked import LOOSE
from reference.shardscrub import answered

SECONDS = 60
S1, S2 = (shard(number).hex() for number in (1, 2))
U1, U2, UA = ("-".join(digit * size for size in (8, 4, 4, 4, 12)) for digit in "12a")
SHA_ABC, SHA_DE = digest(b"abc").hex(), digest(b"de").hex()
WORKERS = "03"


class LooseCase(RoomCase):
    """Each answer is that of the program, by the caller alone and by workers, and of the reference."""

    def check(self, line, extents, status, text, error=""):
        """What a line of words says of images in the folder, whose disk has pages of 64 bytes, 8 to an extent."""
        command, *words = shlex.split(line)
        right = status, text.encode(), "".join(f"shardscrub: {one}\n" for one in error.splitlines()).encode()
        words = [command, *geometry(64, 8, extents), *(str(self.room / one) if (self.room / one).is_file() else one for one in words)]
        for workers in WORKERS:
            done = subprocess.run([self.program, *words, "--workers", workers], stdin=subprocess.DEVNULL, capture_output=True, timeout=SECONDS)
            self.same(f"{line}, {workers} workers", (done.returncode, done.stdout, done.stderr), right)
        self.same(f"{line}, by the reference", answered(words), right)

    def put(self, **files):
        for name, content in files.items():
            (self.room / name).write_bytes(content)


# Lines of the worked images: those of shard 1, whose chunk rotted in extent 2, with each last word, and that of shard 2 where it is sound.
ROTTED = {word: f"shard {S1} 00 3 {SHA_ABC} wrong_digest 2 0 {U1} {word}\n" for word in ("none", "loose", "spare")}
SOUND = f"shard {S2} 00 2 {SHA_DE} sound plain\n"
MOVE = f"move 4 69 2 {U2} shard {S2} 40\n"
AFTER = f"reclaim 4 69\n{MOVE}room 3 232 280\nlast-room 4 109 403\n"
DOUBT = f"loose 1 79 3 {U1} shard {S1} 41"


def listing(*shards, begin="retired\nruns lost 0 hidden 0\n"):
    """A manifest with these lines, one for each shard."""
    return f"{begin}{''.join(shards)}total {len(shards)} {len(shards)}\n"


class Worked(LooseCase):
    @classmethod
    def setUpClass(cls):
        super().setUpClass()
        cls.put(cls, **LOOSE)

    def test_a_copy_past_the_pointer(self):
        """Extent 1 has no room: what is written there goes over the last copy."""
        self.check("reclaimable tail --last 7", 5, 0, f"accepted tail 1 0 38\n{AFTER}")
        self.check("locators tail", 5, 1, f"run 0 3 0 194 {UA} sound\nshard {S1} 2 0 3 {U1} wrong_digest\nloose 1 0 3 {U1} 1\n"
                   f"shard {S2} 4 69 2 {U2} sound\n")
        self.check("manifest tail", 5, 1, listing(ROTTED["loose"], SOUND))
        self.check("manifest tail --reset 1", 5, 1, listing(ROTTED["none"], SOUND))
        self.check(f"shard tail --id {S1}", 5, 0, "abc")
        self.check("compare tail over --reset 4", 5, 1, f"loose {ROTTED['loose']}unsafe\n")
        self.check("compare tail over", 5, 1, f"loose {ROTTED['loose']}unsafe\n")

    def test_a_copy_in_the_tail_of_an_extent_that_is_listed(self):
        self.check("reclaimable part --last 7", 5, 1, f"doubt {DOUBT}\naccepted tail 1 69 48\n")
        self.check(f"reclaimable part --last 7 --accept '{DOUBT}'", 5, 0, f"accepted {DOUBT}\naccepted tail 1 69 48\nreclaim 1 69\n{AFTER}")
        self.check(f"shard part --id {S1}", 5, 0, "abc")
        self.check("compare part part --reset 1", 5, 1, f"loose {ROTTED['loose']}unsafe\n")
        self.check("compare part part", 5, 0, "safe 7 7\n")

    def test_a_copy_that_is_copied_to_a_room(self):
        """It is a spare then, and the extent may be reset."""
        self.check("compare part copied --reset 1", 5, 0, "safe 7 8\n")
        self.check("manifest copied", 5, 1, listing(ROTTED["spare"], SOUND))
        self.check("reclaimable copied --last 8", 5, 0, f"accepted tail 1 69 48\nreclaim 1 69\nreclaim 4 69\n{MOVE}room 3 273 239\n"
                   "last-room 1 69 443\nlast-room 4 109 403\n")
        self.check("compare copied gone --reset 1", 5, 0, "safe 8 9\n")
        self.check("manifest gone", 5, 1, listing(ROTTED["spare"], SOUND))
        self.check("compare gone copied --reset 1", 5, 1, "generation 9 8\nunsafe\n")
        self.check("compare copied part", 5, 1, f"generation 8 7\npointer 3 273 232\nwritten 3 232\nspare {ROTTED['spare']}unsafe\n")

    def test_frames_over_frames(self):
        """No copy is looked for. What is given up goes without a word of `compare`."""
        self.check("reclaimable crowded --last 7", 5, 1, "doubt crowded 1\naccepted tail 1 69 288\n")
        self.check("reclaimable crowded --last 7 --accept 'crowded 1'", 5, 0,
                   f"accepted crowded 1\naccepted tail 1 69 288\nreclaim 1 69\n{AFTER}")
        self.check("manifest crowded", 5, 1, listing(ROTTED["none"], SOUND))
        self.check(f"shard crowded --id {S1}", 5, 1, "", "payload lost: 00")
        self.check("compare crowded crowded --reset 1", 5, 0, "safe 7 7\n")
        self.check("compare part crowded", 5, 1, f"written 1 69\nloose {ROTTED['loose']}unsafe\n")

    def test_a_wrong_reset(self):
        """The copy is the chunk itself, at the place of its locator."""
        line = f"shard {S1} 00 3 {SHA_ABC} past_pointer 1 0 {U1} loose\n"
        self.check("manifest wrong", 4, 1, listing(line))
        self.check(f"shard wrong --id {S1}", 4, 0, "abc")
        self.check("locators wrong", 4, 1, f"run 0 2 0 117 {UA} sound\nshard {S1} 1 0 3 {U1} past_pointer\nloose 1 0 3 {U1} 1\n")
        self.check("compare wrong wrong --reset 1", 4, 1, f"named shard {S1} 1 0 3 {U1} past_pointer\nloose {line}unsafe\n")

    def test_behind_a_damaged_frame(self):
        line = f"loose 1 58 3 {U1} shard {S1} 41"
        self.check("reclaimable behind", 4, 1, f"doubt {line}\n")
        self.check(f"reclaimable behind --accept '{line}'", 4, 0, f"accepted {line}\nreclaim 1 99\nroom 3 155 357\n")

    def test_how_many_there_are(self):
        """In the summary, after the spares."""
        for name, extents, spares, copies in (("tail", 5, 0, 1), ("over", 5, 0, 0), ("copied", 5, 1, 0), ("crowded", 5, 0, 0), ("wrong", 4, 0, 1)):
            text = answered(["summary", *geometry(64, 8, extents), str(self.room / name)])[1].decode()
            self.true(f"summary {name}", f"\nspares {spares}\nloose_copies {copies}\nchunks " in text, text)
            self.check(f"summary {name}", extents, 1, text)
