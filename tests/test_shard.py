"""`shard` and `shards`: how a shard, its sizes and unreadable pages are given; the example of an archive; its files as `tarfile` reads
them; outputs that fail; and shards of many bytes. What both write of other disks is held beside the reference by the corpus.
"""
import hashlib
import io
import random
import subprocess
import tarfile

from lib.corpus.rows import FIRST, Made
from lib.disks import MIB, Disk, frame, geometry, locator, record, run, sealed_frame, shard, uuid
from reference.shardscrub import answered
from test_corpus import CorpusCase, members
from test_system import answer

PAGE, PAGES, EXTENTS = 64, 16, 6


class Words(CorpusCase):
    """How a shard, its sizes and unreadable pages are given, beside the reference."""

    NAME = bytes.fromhex("0123456789abcdef00ff0a1b2c3d4e5f")

    def setUp(self):
        self.disk = Made()
        self.disk.finish((self.NAME, [self.disk.chunk(1, 0, uuid(0x11), FIRST)]))
        _, (*self.sizes, self.image), *_ = self.put(self.disk)
        self.given = ["--id", self.NAME.hex()]

    def with_sizes_and_without(self, *words):
        self.compare(["shard", *self.given, *self.sizes, *words])
        self.compare(["shard", *self.given, *words])

    def test_an_identifier_in_any_case(self):
        text = self.NAME.hex()
        for given in (text, text.upper(), text.title(), text[:16] + text[16:].upper()):
            for words in (["--id", given, *self.sizes, self.image], [f"--id={given}", self.image], [*self.sizes, self.image, "--id", given]):
                self.same(given, self.compare(["shard", *words]), (0, FIRST, b""))

    def test_what_is_no_identifier(self):
        """The refusal has the word as it was given. With the sizes no image is needed."""
        text = self.NAME.hex()
        short = text[:-1]
        lengths = ["", "0", short, text + "0", text[:-2], text + text]
        letters = [short + "g", short + "G", "0x" + text[:-2], "+" + short, " " + short, short + " ", short + ":", short + "/",
                   short + "@", short + "`", text[:8] + "-" + text[9:], "01234567-89ab-cdef-00ff-0a1b2c3d4e5f", "shard " + text]
        # Line feeds, and digits and letters that aren't ASCII.
        others = [text + "\n", "\n" + text[1:], short + "\uff10", "\uff10" * 32, "\u0660" * 16, short + "\u0430", "\xe9"]
        for given in (*lengths, *letters, *others, "-" + short, "--map"):
            right = 2, b"", f"shardscrub: shard refused: {given}\n".encode()
            self.same(repr(given), self.compare(["shard", f"--id={given}", *self.sizes, "/nothing/here"]), right)
            self.compare(["shard", f"--id={given}", self.image])
            if not given.startswith("-"):
                self.compare(["shard", "--id", given, *self.sizes, "/nothing/here"])

    def test_a_map(self):
        """A map that lacks the page of the chunk, that of the record, or the run's; or something else."""
        size, text = PAGE * PAGES, self.room / "map"
        for place in (size, 0, 5 * size, size + PAGE):
            text.write_text(f"0 ?\n0 {place} +\n{place} 1 -\n{place + 1} {EXTENTS * size - place - 1} +\n")
            self.with_sizes_and_without("--map", str(text), self.image)

    def test_a_file_that_is_cut_short(self):
        """In the chunk, and behind it but before the run; and one that is too long."""
        raw = bytes(self.disk.bytes)
        for content in (raw[:PAGE * PAGES + 54], raw[:5 * PAGE * PAGES], raw[:5 * PAGE * PAGES + 192], raw + b"x"):
            self.disk.bytes = content
            self.put(self.disk)
            self.with_sizes_and_without(self.image)

    def test_sizes_that_are_left_out(self):
        """They are those of all records. Records that differ are refused."""
        self.disk.put(0, 512, record(64, 16, 3, [0, 0], []))
        self.put(self.disk)
        self.with_sizes_and_without(self.image)
        self.compare(["shard", *self.given, *geometry(64, 16, 7), self.image])

    def test_faults_of_all_shards(self):
        """They are those of `scan`, and an identifier is refused."""
        long = self.room / "long"
        long.write_bytes(self.disk.bytes + b"x")
        for words in (["/nothing/here"], [*geometry(60, 1, 2), self.image], [*self.sizes, self.image, "6:0"],
                      [*self.sizes, "--map", "/nothing/here", self.image], [str(long)], ["/dev/null"]):
            self.compare(["shards", *words])
        self.same("an identifier", answer("shards", *self.given, self.image)[0], 2)


# The example of two disks: shard 1 is `abc` and an empty chunk whose frame is gone; the chunk of shard 2 is lost; and on the second
# disk the newer run is.
ARCHIVE = "779da5a48c4958760aa8341aff3021892550fc49a3494a79ce869191beda1494"
FIRST_NAME, SECOND_NAME = shard(1).hex(), shard(2).hex()
SECOND_LOST = f"shardscrub: payload lost: {SECOND_NAME} 00\n"
EXAMPLES = [
    (uuid(0xAA), SECOND_LOST),
    (uuid(0xCC), f"shardscrub: run lost: 0 wrong_uuid\nshardscrub: a newer entry may be lost: {FIRST_NAME}\n{SECOND_LOST}"),
]


def example(name):
    """The disk of the example, with this UUID for the chunk of the newest run."""
    disk = Disk(8, 4)
    chunk = disk.chunk(1, 0, uuid(0x11), b"abc")
    newest = run((shard(3), []))
    older = run((shard(1), [chunk, locator(1, 41, uuid(0x22), b"")]), (shard(2), [locator(1, 41, uuid(0x33), b"de")]))
    disk.chunk(3, 0, name, newest)
    behind = disk.chunk(3, 38 + len(newest), uuid(0xBB), older)
    disk.superblock(0, 1, locator(3, 0, uuid(0xAA), newest), behind)
    return disk


class All(CorpusCase):
    """The archive of all shards."""

    def test_the_example(self):
        for name, said in EXAMPLES:
            _, image, *_ = self.put(example(name))
            for words in (image, image[-1:]):
                status, printed, error = answer("shards", *words)
                self.same("the archive", (status, hashlib.sha256(printed).hexdigest(), error.decode()), (1, ARCHIVE, said))
                self.same("its files", members(printed), {FIRST_NAME: b"abc"})
        _, image, *_ = self.put(example(uuid(0xAA)))
        self.same("the shard", answer("shard", "--id", FIRST_NAME, *image), (0, b"abc", b""))

    def test_a_file_is_as_tar_writes_it(self):
        disk = Made()
        disk.finish((shard(7), [disk.chunk(1, 0, uuid(0x11), FIRST)]))
        _, printed, _ = answer("shards", *self.put(disk)[1])
        with tarfile.open(fileobj=io.BytesIO(printed)) as files:
            file, = files.getmembers()
        self.same("the file", (file.name, file.size, file.mode, file.uid, file.gid, file.mtime, file.type, file.linkname, file.uname),
                  (shard(7).hex(), len(FIRST), 0o644, 0, 0, 0, tarfile.REGTYPE, "", ""))
        self.same("the bytes of the archive", len(printed), 512 + 512 + 1024)

    def test_an_output_that_fails(self):
        """The lines come first, and then that of the output, alone where there are no others."""
        for name, said in ((None, ""), *EXAMPLES):
            _, image, *_ = self.put(example(name) if name else Made().finish())
            with open("/dev/full", "wb") as full:
                found = answer("shards", *image, capture_output=False, stdout=full, stderr=subprocess.PIPE)
            self.same("the error stream", (found[0], found[2].decode()), (3, f"{said}shardscrub: output failed after 0 bytes\n"))


class Large(CorpusCase):
    """Shards of many bytes."""

    def test_64_payloads_of_more_than_a_mebibyte(self):
        """One of them alone has more, and the others follow one another in length from no byte on."""
        disk = Disk(8_192, 3, 256)
        payloads = [bytes([number]) * (1_100_000 if number == 40 else number) for number in range(64)]
        named = [disk.chunk(1, disk.pointers[0], uuid(number), payload) for number, payload in enumerate(payloads)]
        disk.superblock(0, 1, disk.chunk(2, 0, uuid(0xAA), run((shard(1), named))))
        _, image, *_ = self.put(disk)
        self.read(b"".join(payloads), [*image, "--workers", "2"])

    def test_64_mebibytes(self):
        """64 payloads of a MiB each, some of them hidden, some from spares, in no order."""
        page, pages, extents = 4096, 1024, 20
        choice, disk = random.Random(1), Disk(1024, 20, 4096)
        payloads, named, at = [], [], {extent: 0 for extent in range(1, extents - 1)}
        for number in range(64):
            extent, payload = 1 + number % (extents - 2), choice.randbytes(MIB - 256)
            begin, form = at[extent], choice.choice([frame, sealed_frame])
            inner, name = form(choice.randbytes(16), payload), choice.randbytes(16)
            if number % 8 == 3:
                disk.chunk(extent, begin, name, inner)
                named.append(locator(extent, begin + 22, inner[2:18], payload))
            elif number % 8 == 5:
                disk.chunk(extent, begin, name, payload, form)
                named.append(locator(1 + choice.randrange(extents), begin, choice.randbytes(16), payload))
            else:
                named.append(disk.chunk(extent, begin, name, payload, form))
            at[extent] = disk.pointers[extent - 1]
            payloads.append(payload)
        order = choice.sample(range(64), 64)
        disk.superblock(0, 7, disk.chunk(extents - 1, 0, uuid(0xE0), run((shard(1), [named[k] for k in order]))))
        _, image, *_ = self.put(disk)
        self.read(b"".join(payloads[k] for k in order), *([*image, "--workers", workers] for workers in ("0", "1", "3", "64")), image[-1:])

    def read(self, right, *calls):
        """The bytes of the shard by these words, in the archive, and by the reference."""
        given = ["shard", "--id", shard(1).hex()]
        for words in calls:
            found = answer(*given, *words)
            self.true(" ".join(words), found == (0, right, b""), (found[0], len(found[1]), found[2]))
        self.true("the reference", answered([*given, *calls[0]]) == (0, right, b""))
        status, printed, said = answer("shards", *calls[-1])
        self.true("all shards", (status, members(printed), said) == (0, {shard(1).hex(): right}, b""))
