"""What `compare` says of two images of a disk. What is right was written by hand, from docs/REPORT.md; of made-up pairs it is what the
reference gives, and so it is of other pairs, which are in the corpus. The laws of `compare` are held on made-up pairs that are safe.
"""
import subprocess
from collections import Counter

from lib.cases import RoomCase, add_tests
from lib.comparison import compared_pair
from lib.disks import digest, geometry, shard
from lib.laws import hold_compare_laws_on
from lib.node import Engine
from lib.worked import EXTENTS, FIRST, IMAGES, PAGE, PAGES

# Of the made-up pairs beside the reference, and of those on which the laws are held.
SEED, PAIRS, LAWS = 1, 400, 250
SECONDS = 60
SIZES = geometry(PAGE, PAGES, EXTENTS)
S1, S2 = (shard(number).hex() for number in (1, 2))
U1, U2 = ("-".join(letter * size for size in (8, 4, 4, 4, 12)) for letter in "12")
SHA_ABC, SHA_DE = digest(b"abc").hex(), digest(b"de").hex()
# The lines of both shards in the manifest of the first image, and the beginnings of what they become.
FIRST_SHARD, SECOND_SHARD = f"shard {S1} 00 3 {SHA_ABC} sound plain\n", f"shard {S2} 00 2 {SHA_DE} sound plain\n"
LOST_FIRST, LOST_SECOND = f"shard {S1} 00 3 {SHA_ABC} ", f"shard {S2} 00 2 {SHA_DE} "


class CompareCase(RoomCase):
    """Runs in a folder with files that are named for what they are."""

    @classmethod
    def setUpClass(cls):
        super().setUpClass()
        cls.put(**IMAGES)

    @classmethod
    def put(cls, **files):
        for name, content in files.items():
            (cls.room / name).write_bytes(content)

    def answer(self, *words, **more):
        streams = {"stdin": subprocess.DEVNULL, "stdout": subprocess.PIPE, "stderr": subprocess.PIPE, **more}
        done = subprocess.run([self.program, *words], cwd=self.room, timeout=SECONDS, **streams)
        return done.returncode, done.stdout, done.stderr

    def check(self, words, status, lines):
        """What `compare` prints with these words after the sizes."""
        self.same(words, self.answer("compare", *SIZES, *words.split()), (status, lines.encode(), b""))


class Worked(CompareCase):
    def test_a_right_move_and_its_reset(self):
        listed = (f"accepted tail 2 250 30\nreclaim 1 138\nmove 1 0 3 {U1} shard {S1} 41\nreclaim 2 41\nmove 2 0 2 {U2} shard {S2} 40\n"
                  "room 3 232 280\nlast-room 1 179 333\nlast-room 2 81 431\n")
        found = self.answer("reclaimable", *SIZES, "--accept", "tail 2 250 30", "1")
        self.same("reclaimable", found, (0, listed.encode(), b""))
        self.check("1 7 --reset 1", 0, "safe 1 2\n")
        self.check("7 8 --reset 1", 0, "safe 2 3\n")
        self.check("1 8 --reset 1", 0, "safe 1 3\n")

    def test_a_copy_damaged_on_its_way(self):
        self.check("1 damaged --reset 1", 1, f"lost {FIRST_SHARD}new {LOST_FIRST}wrong_digest 3 232 {U1} none\nunsafe\n")

    def test_a_copy_over_an_old_chunk(self):
        """The manifest with the reset is the old one, and `reclaimable` lists extent 1 without a new doubt and without `move` lines."""
        self.check("1 over --reset 1", 1, "written 2 42\nunsafe\n")
        both = [self.answer("manifest", *SIZES, *words) for words in (["1"], ["--reset", "1", "over"])]
        self.same("the manifest", both[1], both[0])
        status, lines, _ = self.answer("reclaimable", *SIZES, "--accept", "tail 2 250 30", "over")
        self.true("reclaimable", status == 0 and b"\nreclaim 1 179\n" in lines and b"move 1 " not in lines, lines)

    def test_a_forgotten_owner(self):
        self.check("1 forgot --reset 1", 1, f"named shard {S1} 1 0 3 {U1} sound\nlost {FIRST_SHARD}"
                   f"new {LOST_FIRST}past_pointer 1 0 {U1} spare\nunsafe\n")

    def test_a_wrong_reset(self):
        self.check("7 other --reset 1", 1, f"pointer 2 81 0\nlost {SECOND_SHARD}new {LOST_SECOND}past_pointer 2 0 {U2} loose\nunsafe\n")

    def test_an_old_tail(self):
        self.check("1 tail --reset 1", 0, "safe 1 2\n")
        self.check("1 late --reset 1", 1, "written 2 278\nunsafe\n")

    def test_the_last_copy_of_a_broken_shard(self):
        self.check("rotted rotted --reset 2", 1, f"spare {LOST_FIRST}wrong_digest 1 0 {U1} spare\nunsafe\n")

    def test_the_same_image_twice(self):
        self.check("1 1", 0, "safe 1 1\n")
        self.check("1 1 --reset 1", 1, f"named shard {S1} 1 0 3 {U1} sound\nlost {FIRST_SHARD}new {LOST_FIRST}past_pointer 1 0 {U1} none\n"
                   "unsafe\n")
        self.check("7 7 --reset 1", 0, "safe 2 2\n")

    def test_images_exchanged(self):
        self.check("8 7 --reset 1", 1, "generation 3 2\nunsafe\n")


class Faults(CompareCase):
    def refused(self, words, status, text):
        self.same(words, self.answer("compare", *words.split()), (status, b"", f"shardscrub: {text}\n".encode()))

    def test_the_first_of_several_faults(self):
        """Each case also has the faults of all cases below it."""
        self.put(long=FIRST + b"x", refused=b"0 +\n0 x +\n", whole=b"0 +\n0 4096 +\n")
        sizes = f"--pages {PAGES} --extents {EXTENTS}"
        for words, status, text in (
                ("--page 60 --reset 4 --map no-map no-before no-after 4:0", 2, "geometry refused: PageSize"),
                ("--page 64 --reset 1 --reset 4 --map no-map no-before no-after 4:0", 2, "extent out of range"),
                ("--page 64 --reset 0 --map no-map no-before no-after 4:0", 2, "extent out of range"),
                ("--page 64 --reset 3 --map no-map no-before no-after 1:0 4:0", 2, "bad page refused: 4:0"),
                ("--page 64 --reset 3 --map no-map no-before no-after 1:0", 3, "map cannot be opened: no-map"),
                ("--page 64 --reset 3 --map refused no-before no-after 1:0", 2, "map refused: line 2"),
                ("--page 64 --reset 3 --map whole no-before no-after 1:0", 3, "image cannot be opened: no-before"),
                ("--page 64 --reset 3 --map whole long no-after 1:0", 3, "image too long"),
                ("--page 64 --reset 3 --map whole 1 no-after 1:0", 3, "image cannot be opened: no-after"),
                ("--page 64 --reset 3 --map whole 1 long 1:0", 3, "image too long")):
            self.refused(f"{sizes} {words}", status, text)

    def test_a_third_image_is_taken_as_a_page(self):
        self.refused(" ".join([*SIZES, "1", "7", "8"]), 2, "bad page refused: 8")

    def test_a_failed_output(self):
        with open("/dev/full", "wb") as full:
            found = self.answer("compare", *SIZES, "1", "7", stdout=full)
        self.same("a full output", found, (3, None, b"shardscrub: output failed after 0 bytes\n"))

    def test_arguments(self):
        """What is missing, unknown or no number is refused with its name."""
        sizes = " ".join(SIZES)
        for words, part in (("1 7", "--page <BYTES>"), ("--page 64 --pages 8 1 7", "--extents <COUNT>"), (f"{sizes} 1", "<AFTER>"),
                            (sizes, "<BEFORE>"), (f"{sizes} --accept tail 1 7", "--accept"), (f"{sizes} --last 1 1 7", "--last"),
                            (f"{sizes} --reset x 1 7", "invalid value 'x' for '--reset <EXTENT>'"),
                            (f"{sizes} --reset 4294967296 1 7", "4294967296 is not in 0..=4294967295"),
                            (f"{sizes} --workers 65 1 7", "65 is not in 0..=64")):
            status, printed, error = self.answer("compare", *words.split())
            self.same(words, (status, printed, error[:7]), (2, b"", b"error: "))
            self.true(f"{words}: the message has {part}", part.encode() in error, error)


class Unreadable(CompareCase):
    """What a map lacks and what is named as EXTENT:PAGE can't be read in either image."""

    def test_a_map_and_pages(self):
        """Page 3:7 has no bytes of chunks; 2:4 has bytes of the copy and of its run. An extent with an unreadable page has no room."""
        self.put(part=b"0 +\n0 2000 +\n", whole=b"0 +\n0 2048 +\n", zero=b"0 +\n")
        missed = "pointer 3 232 428\nwritten 3 232\nunsafe\n"
        for words, lines in (("--reset 1 --map whole 1 7", "safe 1 2\n"), ("--reset 1 --map part 1 7", missed),
                             ("--reset 1 1 7 3:7", missed), ("--reset 1 --map whole 1 7 3:7", missed),
                             ("--map part 1 1", "safe 1 1\n"), ("1 1 3:7", "safe 1 1\n"), ("--reset 1 --map part 7 8", "safe 2 3\n"),
                             ("--reset 1 7 8 1:1 1:2", "safe 2 3\n")):
            self.check(words, 0 if lines.startswith("safe ") else 1, lines)


class Pairs(RoomCase):
    """Made-up pairs, beside the slow reference. tests/fuzz/against_reference.py makes up others."""

    def check(self, turn):
        for call in compared_pair(SEED, turn, self.room).calls:
            self.same(call.line(), call.found(self.program), call.right)


class Laws(RoomCase):
    """Made-up pairs. On those that are safe nothing is lost or overwritten, nothing points into an extent to reset, and it can be
    undone; and steps can be chained."""

    @classmethod
    def setUpClass(cls):
        super().setUpClass()
        cls.engine = Engine(cls.program, cls.room)

    def check(self, turn):
        hold_compare_laws_on(self.engine, SEED * 1_000_003 + turn, Counter())


add_tests(Pairs, Pairs.check, [(f"pair {turn:03}", turn) for turn in range(PAIRS)])
add_tests(Laws, Laws.check, [(f"pair {turn:03}", turn) for turn in range(LAWS)])
