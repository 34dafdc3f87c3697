"""A disk that is held alone, a folder with images of it, and the program's answers on these. act/reclaim walks on it."""
import argparse
import errno
import fcntl
import hashlib
import mmap
import os
import shutil
import stat
import struct
import subprocess
import sys
from pathlib import Path

sys.dont_write_bytecode = True
ACT = Path(__file__).resolve().parent
sys.path.insert(0, str(ACT))
from maps import one_map  # noqa: E402

BLOCK = 2 ** 20
# How many images the folder has at once.
IMAGES = 3
# What may be at a place of the disk, in place of bytes.
ANY, ZEROS = "any", "zeros"

# A write on the disk: the first byte, and what.
Write = tuple[int, bytes]
# What may be on the disk beside the bytes of an image: from where to where, and what.
Span = tuple[int, int, "bytes | str"]


class Stop(Exception):
    """The walk stops: a key of STOPS, with what its texts need."""

    def __init__(self, key: str, **words):
        super().__init__(key)
        self.key, self.words = key, words


class Held:
    """The disk and the folder, with the words of a call. `maps` has the digests of the maps, `said` the last error stream."""

    def __init__(self, given: argparse.Namespace, folder: str):
        self.given, self.disk, self.folder, self.first = given, given.disk, folder, os.path.join(folder, "1.img")
        self.page = self.pages = self.extents = self.bytes = 0
        self.maps, self.map, self.said = [], None, ""

    def path(self, name: str) -> str:
        return os.path.join(self.folder, name)

    def has(self, name: str) -> bool:
        return os.path.exists(self.path(name))

    def save(self, name: str, text: bytes = b"") -> None:
        """Writes a file of the folder, whole or not at all."""
        with open(self.path(name + ".part"), "wb") as file:
            file.write(text)
            file.flush()
            os.fsync(file.fileno())
        self.rename(name + ".part", name)

    def rename(self, old: str, new: str) -> None:
        os.replace(self.path(old), self.path(new))
        os.fsync(self.hold_folder)

    # The disk, its sizes and the map

    def take(self) -> None:
        """Holds the disk and the folder. What act/put inherits holds them too, until it has ended."""
        is_device = stat.S_ISBLK(os.stat(self.disk).st_mode)
        if not is_device and not stat.S_ISREG(os.stat(self.disk).st_mode):
            raise Stop("refused", why=f"{self.disk} is neither a block device nor a file")
        writes = self.given.reset or self.given.erase or self.given.back
        if is_looped(self.disk):
            raise Stop("busy")
        try:
            self.hold = os.open(self.disk, (os.O_RDWR if writes else os.O_RDONLY) | (os.O_EXCL if is_device else 0))
        except OSError as why:
            raise Stop("busy") if why.errno == errno.EBUSY else why
        os.makedirs(self.folder, exist_ok=True)
        self.hold_folder = os.open(self.folder, os.O_RDONLY)
        for one in (self.hold, self.hold_folder):
            try:
                fcntl.flock(one, fcntl.LOCK_EX | fcntl.LOCK_NB)
            except BlockingIOError:
                raise Stop("locked") from None
        try:
            self.direct = os.open(self.disk, os.O_RDONLY | os.O_DIRECT)
        except OSError:
            self.direct = os.open(self.disk, os.O_RDONLY)
        self.length = os.lseek(self.direct, 0, os.SEEK_END)
        shutil.rmtree(self.path("tmp"), ignore_errors=True)
        os.mkdir(self.path("tmp"))

    def find_map(self) -> None:
        """The one map of all that are given, kept in the folder."""
        if self.given.map:
            try:
                text = Path(one_map(self.given.map, self.path("tmp"))).read_bytes()
            except ValueError as why:
                raise Stop("refused", why=why) from None
            self.save("map", text)
            self.maps = sorted(map(digest_of, self.given.map))
        self.map = self.path("map") if self.maps else None
        if self.maps and not self.has("map"):
            raise Stop("damaged", why="map")

    def find_sizes(self) -> None:
        given = self.given
        status, lines = self.ask("sizes", [], self.first if self.has("1.img") else self.disk, pairs=False)
        found = {tuple(map(int, line.split()[-3:])) for line in lines if status == 0}
        sizes = given.page, given.pages, given.extents
        if sizes == (None, None, None):
            if not found:
                raise Stop("sizes", why="; ".join(lines[:3]) or "there is no superblock")
            sizes = found.pop()
        elif found and {sizes} != found:
            raise Stop("other sizes", why=" ".join(map(str, found.pop())))
        self.page, self.pages, self.extents = sizes
        self.bytes = self.page * self.pages * self.extents
        if self.length < self.bytes:
            raise Stop("short", has=self.length)
        if self.length > self.bytes and given.page is None:
            raise Stop("longer", has=self.length)
        given.page, given.pages, given.extents = sizes
        if self.has("1.img") and os.stat(self.first).st_size != self.bytes:
            raise Stop("other words", why=f"{self.first} has {os.stat(self.first).st_size} bytes")

    def require_space(self) -> None:
        need = IMAGES * self.bytes - sum(one.stat().st_blocks * 512 for one in Path(self.folder).iterdir())
        free = os.statvfs(self.folder).f_bavail * os.statvfs(self.folder).f_frsize
        if need > 0:
            say(f"{self.folder} needs up to {need} bytes more, and has {free}")
        if need > free:
            raise Stop("space", need=need, free=free)

    # Images

    def read(self, at: int, buffer: mmap.mmap) -> int:
        return os.preadv(self.direct, [buffer], at)

    def image(self, name: str) -> None:
        """A new image of the disk."""
        os.fsync(self.hold)
        for old in (name, name + ".part"):
            Path(self.path(old)).unlink(missing_ok=True)
        with open(self.path(name + ".part"), "wb") as file, mmap.mmap(-1, BLOCK) as buffer:
            for at in range(0, self.bytes, BLOCK):
                block = self.block(at, buffer)
                if any(block):
                    file.seek(at)
                    file.write(block)
            file.truncate(self.bytes)
            os.fsync(file.fileno())
        os.chmod(self.path(name + ".part"), 0o444)
        self.rename(name + ".part", name)

    def block(self, at: int, buffer: mmap.mmap) -> bytes:
        try:
            got = self.read(at, buffer)
        except OSError as why:
            if why.errno != errno.EIO:
                raise
            raise Stop("unreadable" if self.has("1.img") else "first unreadable", at=at) from None
        count = min(BLOCK, self.bytes - at)
        if got < count:
            raise Stop("short", has=at + got)
        return buffer[:count]

    def copy(self, name: str, writes: list[Write]) -> str:
        """A copy of an image with these writes."""
        trial = self.path("try.img")
        self.call(["cp", "--reflink=auto", "--sparse=always", "--no-preserve=mode", "--remove-destination", "--", self.path(name), trial])
        with open(trial, "r+b") as file:
            for at, text in writes:
                file.seek(at)
                file.write(text)
        return trial

    def first_other(self, name: str, spans: list[Span]) -> int | None:
        """The first byte of now.img that is neither that of this image nor one of these."""
        with open(self.path(name), "rb") as before, open(self.path("now.img"), "rb") as after:
            for at in range(0, self.bytes, BLOCK):
                old, now = before.read(BLOCK), after.read(BLOCK)
                if old != now and (other := other_in(at, old, now, spans)) is not None:
                    return other
        return None

    def place(self, at: int) -> dict[str, int]:
        """A byte as words for a text."""
        return {"extent": at // (self.page * self.pages), "at": at % (self.page * self.pages)}

    # The program and the scripts

    def call(self, words: list[str], text: str | None = None, good: tuple[int, ...] = (0,), holds: bool = False) -> tuple[int, str]:
        """The status and the output of a command. act/plan and act/put have their folders in that of the walk."""
        env = {**os.environ, "TMPDIR": self.path("tmp"), "SHARDSCRUB": program()}
        try:
            done = subprocess.run(words, input=text, stdin=None if text is not None else subprocess.DEVNULL, capture_output=True, text=True,
                                  env=env, check=False, pass_fds=(self.hold, self.hold_folder) if holds else ())
        except OSError as why:
            raise Stop("fault", why=f"{words[0]} can't be started: {why.strerror}") from None
        self.said = done.stderr.strip()
        if done.returncode not in good:
            raise Stop("refused" if done.returncode == 2 else "fault", why=self.said or f"{words[0]} ended with status {done.returncode}")
        return done.returncode, done.stdout

    def disk_words(self) -> list[str]:
        sizes = [f"--page={self.page}", f"--pages={self.pages}", f"--extents={self.extents}"] if self.page else []
        return sizes + ([f"--map={self.map}"] if self.map else [])

    def ask(self, command: str, options: list[str], *images: str, pairs: bool = True) -> tuple[int, list[str]]:
        """The status and the lines of an answer of the program."""
        words = [program(), command, *self.disk_words(), *options, *images, *(self.given.unreadable if pairs else [])]
        status, text = self.call(words, good=(0, 1, 2) if command == "sizes" else (0, 1))
        return status, text.splitlines()

    def compare(self, before: str, after: str, resets: list[int]) -> list[str]:
        return self.ask("compare", [f"--reset={e}" for e in resets], before, after)[1]

    def superblocks(self, image: str) -> list[list[str]]:
        """The words of the records of an image."""
        return [words for words in map(str.split, self.ask("superblocks", [], image)[1]) if words[0] == "record"]

    def counts(self, image: str) -> int | None:
        """The generation of the superblock that counts."""
        return max((int(words[3]) for words in self.superblocks(image) if words[-1] in ("counts", "tie")), default=None)

    def record(self, image: str) -> tuple[int, bytes]:
        """The page of the superblock that counts, and its bytes; none if none does."""
        page = next((int(words[1]) for words in self.superblocks(image) if words[-1] == "counts"), None)
        if page is None:
            return 0, b""
        head = read_at(image, page * self.page, 28)
        runs, retired = struct.unpack_from(">HH", head, 24)
        count = (28 + 4 * retired if head[:4] == b"SSB2" else 26) + 4 * (self.extents - 1) + 60 * runs + 32
        return page, read_at(image, page * self.page, count)

    def manifest(self, image: str) -> list[str]:
        return self.ask("manifest", [], image)[1]


def is_looped(name: str) -> bool:
    """Whether a file is that of a loop device."""
    devices = Path("/sys/block").glob("loop*/loop/backing_file")
    return any(one.read_text(encoding="utf-8", errors="replace").rstrip("\n") == os.path.realpath(name) for one in devices)


def program() -> str:
    return os.environ.get("SHARDSCRUB") or shutil.which("shardscrub") or str(ACT.parent / "shardscrub")


def say(text: str) -> None:
    print(text, flush=True)


def read_at(name: str, at: int, count: int) -> bytes:
    with open(name, "rb") as file:
        file.seek(at)
        return file.read(count)


def digest_of(name: str) -> str:
    digest = hashlib.sha256()
    with open(name, "rb") as file:
        while block := file.read(BLOCK):
            digest.update(block)
    return digest.hexdigest()


def spans_of(writes: list[Write]) -> list[Span]:
    return [(at, at + len(text), text) for at, text in writes]


def other_in(at: int, old: bytes, now: bytes, spans: list[Span]) -> int | None:
    """The first byte of a block, which begins at this byte of the disk, that is neither the old one nor one of these."""
    new = bytearray(old)
    for begin, stop, text in spans:
        first, last = max(begin, at), min(stop, at + len(old))
        if first < last:
            part = slice(first - at, last - at)
            new[part] = now[part] if text is ANY else bytes(last - first) if text is ZEROS else text[first - begin:last - begin]
    if now == new:
        return None
    return next((at + k for k, (x, y, z) in enumerate(zip(old, now, new)) if y not in (x, z)), None)
