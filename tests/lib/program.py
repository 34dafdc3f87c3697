"""Which program the tests, the benchmarks and the comparison run, which tools are there, and what tests of the script ./shardscrub make
up: processors, and small programs."""
import os
import re
import shutil
import subprocess
import sys
import unittest
from functools import cache
from pathlib import Path


TOP = Path(__file__).resolve().parent.parent.parent
# The programs of a build or a release: the one for x86-64-v2, which all processors since about 2009 have, and the one for x86-64-v3.
GENERAL, FASTER = "shardscrub", "shardscrub-x86-64-v3"
RELEASED = {name: TOP / "release" / name for name in (GENERAL, FASTER)}
# What dev/build makes; `rt ci` makes the first one.
BUILT = {GENERAL: TOP / "crates/scrub_cli/out/scrub_cli", FASTER: TOP / "crates/scrub_cli/out" / FASTER}
# The values of SHARDSCRUB_CPU, by which ./shardscrub takes one of them.
FORCED = {"x86-64-v2": [GENERAL], "x86-64-v3": [FASTER]}
# The words of /proc/cpuinfo for what x86-64-v3 has beyond x86-64-v2. lzcnt is abm there, and osxsave has no word.
V3_FLAGS = {"abm", "avx", "avx2", "bmi1", "bmi2", "f16c", "fma", "movbe", "xsave"}
# The name of the variable that names the program to run.
NAMED = "SHARDSCRUB_PROGRAM"
# The status if there is no program of these sources, as ./shardscrub ends if the build fails.
NO_PROGRAM = 70
# The package of Debian that each tool is in.
PACKAGES = {
    "awk": "mawk", "basenc": "coreutils", "bash": "bash", "cc": "gcc", "chromedriver": "chromium-driver", "chromium": "chromium", "cmp": "diffutils",
    "dash": "dash", "ddrescue": "gddrescue", "ddrescuelog": "gddrescue", "diff": "diffutils", "dpkg": "dpkg", "dpkg-deb": "dpkg",
    "dpkg-parsechangelog": "dpkg-dev", "find": "findutils", "fish": "fish", "flock": "util-linux", "git": "git", "groff": "groff-base", "gzip": "gzip", "jq": "jq",
    "ldd": "libc-bin", "lintian": "lintian", "losetup": "mount", "make": "make", "man": "man-db", "mandoc": "mandoc", "node": "nodejs",
    "objdump": "binutils", "od": "coreutils", "parallel": "parallel", "promtool": "prometheus", "python3": "python3",
    "strace": "strace", "systemd-analyze": "systemd", "tar": "tar", "xargs": "findutils", "zsh": "zsh",
    "choom": "util-linux", "Python's jsonschema": "python3-jsonschema", "Python's selenium": "python3-selenium", "Python's yaml": "python3-yaml",
}
# Some tools are in folders that only a superuser's path has.
os.environ["PATH"] = os.pathsep.join(dict.fromkeys([*os.get_exec_path(), "/usr/local/sbin", "/usr/sbin", "/sbin"]))


@cache
def has_v3():
    """Whether this processor has x86-64-v3."""
    flags = re.search(r"^flags\s*:(.*)$", Path("/proc/cpuinfo").read_text(encoding="utf-8"), re.M)
    return flags is not None and V3_FLAGS <= set(flags[1].split())


@cache
def find(*names):
    """The path of the first of these programs that was built here if no source is newer, else of the first that is released if it
    is of these sources; None if there is none."""
    found = subprocess.run([TOP / "dev/build", "--program", *names], capture_output=True, text=True)
    return Path(found.stdout.strip()) if found.returncode == 0 else None


@cache
def program():
    """The path of the program: that of the variable, else the one that ./shardscrub starts. If there is none, the script ends."""
    if named := os.environ.get(NAMED):
        return Path(named).resolve()
    both = [FASTER, GENERAL] if has_v3() else [GENERAL]
    found = find(*FORCED.get(os.environ.get("SHARDSCRUB_CPU"), both))
    if found is None:
        print("shardscrub: there is no program of these sources; dev/build builds it", file=sys.stderr)
        sys.exit(NO_PROGRAM)
    return found


def choose_program(parser, named):
    """The program that an argument names, or else that of these sources. From here on `program` gives it, also in processes that
    this one starts."""
    if named is not None:
        path = Path(named).resolve()
        if not (path.is_file() and os.access(path, os.X_OK)):
            parser.error(f"there is no such program: {named}")
        os.environ[NAMED] = str(path)
    os.environ[NAMED] = str(program())
    return program()


def absent(tool):
    """Why a test without its tool is skipped."""
    return f"{tool} isn't there: install {PACKAGES[tool]}"


def need(*tools):
    """Skips the test that calls this if there isn't each of these commands."""
    for tool in tools:
        why = absent(tool)
        if shutil.which(tool) is None:
            raise unittest.SkipTest(why)


# What view/row, view/metrics, act/put, release/package and build, which ./shardscrub asks for its program, call beside what each machine
# has.
ROW_TOOLS, METRICS_TOOLS, PUT_TOOLS = ("jq", "flock", "awk"), ("awk",), ("basenc", "cmp", "od")
PACKAGE_TOOLS = ("dpkg-deb", "awk", "xargs", "gzip")
BUILD_TOOLS = ("awk", "cmp", "find", "xargs")


def path_without(tool, folder):
    """A path on which this tool isn't. In place of a folder that has it, there is one of links to all else in it."""
    places = []
    for number, place in enumerate(os.get_exec_path()):
        if os.access(os.path.join(place, tool), os.X_OK):
            links = Path(folder, f"path-{number}")
            if not links.is_dir():
                links.mkdir(parents=True)
                for name in set(os.listdir(place)) - {tool}:
                    (links / name).symlink_to(Path(place, name).absolute())
            place = str(links)
        places.append(place)
    return os.pathsep.join(places)


# For tests of ./shardscrub

# What the script sets for the C library.
TUNABLES = "glibc.malloc.hugetlb=1:glibc.malloc.mmap_threshold=4194304"
# Words of /proc/cpuinfo for an old processor and, with V3_FLAGS, for a new one.
V2_FLAGS = {"fpu", "cx16", "lahf_lm", "popcnt", "sse4_1", "sse4_2", "ssse3", "avx512f", "avx2x", "xsavec"}


def write(path, text, mode=0o644):
    path.parent.mkdir(parents=True, exist_ok=True)
    path.write_text(text)
    path.chmod(mode)


def processors(*flags):
    """The text of /proc/cpuinfo for processors with these flags."""
    return "".join(f"processor\t: {number}\nmodel name\t: made up abm avx2\nflags\t\t: {' '.join(sorted(some))}\nbugs\t\t: fma\n\n"
                   for number, some in enumerate(flags))


def with_processor(script, cpuinfo):
    """Has a copy of ./shardscrub read this file in the place of /proc/cpuinfo."""
    text = script.read_text()
    assert text.count("</proc/cpuinfo") == 1
    script.write_text(text.replace("</proc/cpuinfo", f"<'{cpuinfo}'"))
