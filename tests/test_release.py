"""The released programs match their checksums, are of these sources, and have the same bytes as the programs built here."""
import os
import shutil
import subprocess
from unittest import mock

from lib.cases import Case, RoomCase
from lib.program import BUILT, FASTER, GENERAL, RELEASED, TOP, find, write

RELEASE = TOP / "release"


def sources():
    """The checksum and the toolchain that release/SOURCES names."""
    return (RELEASE / "SOURCES").read_text(encoding="utf-8").splitlines()


def why_not_compared(name):
    """Why the bytes of a released program can't be compared with those of one that is built here, and what it would take; or None.
    Another toolchain than that of release/SOURCES may give other bytes."""
    _, toolchain = sources()
    wanted = f"to compare the programs' bytes, have the rt of {toolchain} on the path, run dev/build, and then tests/run release"
    if shutil.which("rt") is None:
        return f"rt isn't there, the command of the Rattle toolchain: {wanted}"
    ours = subprocess.run(["rt", "version"], capture_output=True, text=True).stdout.strip()
    if ours != toolchain:
        return f"the release was built by another toolchain than {ours}: {wanted}"
    if find(name) != BUILT[name]:
        return f"no {name} of these sources is built here: run dev/build, and then tests/run release"
    return None


class Release(Case):
    def test_the_checksums(self):
        listed = [line.split("  ")[1] for line in (RELEASE / "SHA256SUMS").read_text(encoding="utf-8").splitlines()]
        self.same("the files in release/SHA256SUMS", listed, [GENERAL, FASTER])
        done = subprocess.run(["sha256sum", "-c", "SHA256SUMS"], cwd=RELEASE, capture_output=True, text=True)
        self.true("release/SHA256SUMS", done.returncode == 0, done.stdout + done.stderr)

    def test_they_are_of_these_sources(self):
        """release/make renews them."""
        checksum, toolchain = sources()
        done = subprocess.run([TOP / "dev/build", "--sources", toolchain], capture_output=True, text=True)
        self.same("the checksum of the sources", checksum, done.stdout.strip())

    def check_what_is_built(self, name):
        if why := why_not_compared(name):
            self.skipTest(why)
        self.true(f"the bytes of {name}", BUILT[name].read_bytes() == RELEASED[name].read_bytes(), "they differ")

    def test_the_general_one_is_what_is_built_here(self):
        self.check_what_is_built(GENERAL)

    def test_the_one_for_x86_64_v3_is_what_is_built_here(self):
        """Only dev/build builds it; `rt ci` doesn't."""
        self.check_what_is_built(FASTER)


class NotCompared(RoomCase):
    """Where the programs aren't compared, it is said what it would take."""

    def why(self, toolchain):
        """With a made-up toolchain, or with none."""
        folder = self.room / (toolchain or "none")
        folder.mkdir()
        if toolchain:
            write(folder / "rt", f"#!/bin/sh\necho '{toolchain}'\n", 0o755)
        others = [place for place in os.get_exec_path() if toolchain or not os.access(f"{place}/rt", os.X_OK)]
        with mock.patch.dict(os.environ, PATH=os.pathsep.join([str(folder), *others])):
            return why_not_compared(FASTER)

    def test_another_toolchain_or_none(self):
        for toolchain in ("kit of the tests", ""):
            why = self.why(toolchain)
            wanted = toolchain or "rt isn't there", sources()[1], "run dev/build, and then tests/run release"
            self.same(f"{toolchain or 'none'}: texts that lack in {why}", [text for text in wanted if text not in why], [])

    def test_the_same_toolchain(self):
        """Then only a build may lack."""
        why = self.why(sources()[1])
        self.true("what it would take", (why is None) == (find(FASTER) == BUILT[FASTER]) and "toolchain" not in (why or ""), why)
