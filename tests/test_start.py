"""Which program ./shardscrub starts, and that it never builds one: tried in a small tree, whose one crate, whose programs, whose
processor and whose toolchain, rt, are made up. And that release/make, which does build, renews the release; and that the programs
look at the processor."""
import os
import platform
import re
import shutil
import subprocess
import sys
import tempfile
import time
import unittest
from pathlib import Path

from lib.cases import RoomCase
from lib.program import (BUILD_TOOLS, FASTER, GENERAL, TOP, TUNABLES, V2_FLAGS, V3_FLAGS, find, has_v3, need, processors, program,
                         with_processor, write)
from lib.system import Library, run_with

sys.path.insert(0, str(TOP / "dev"))
from messages import explained  # noqa: E402

TOOLCHAIN = "rt of the tests"
# It notes that it was called. As the command that builds a program, it makes one, and ends as on a processor without x86-64-v3. With
# the variable REFUSED it makes none for x86-64-v3. For that one the source has to be the changed one.
RT = f"""#!/bin/sh
echo "$*" >>"$CALLS"
case $1 in
    version) echo '{TOOLCHAIN}' ;;
    run)
        case $2 in --cpu=*) what=" ${{2#--cpu=}}" status=127 ;; *) what= status=0 ;; esac
        mkdir -p out/incremental
        if [ "$what" ] && ! grep -q faster src/main.rt; then echo "error: not changed"; exit 1; fi
        if [ "$what" ] && [ "${{REFUSED-}}" ]; then echo "error: refused"; exit 1; fi
        printf '%s\\n' '#!/bin/sh' "echo made by rt$what" >out/scrub_cli && chmod +x out/scrub_cli
        exit "$status" ;;
esac
"""
# The lines of dev/build that say what the sources of the program for x86-64-v3 have otherwise: each a file and a script of sed.
CHANGES = re.compile(r"(?:^    echo 'crates/\S+ s/.*/'\n)+", re.MULTILINE)
# It prints who it is, each argument, the folder and the variable of the C library on lines of their own, and ends with status 3.
PROGRAM = """#!/bin/sh
printf '%s\\n' 'NAME' "$@" "$PWD" "$GLIBC_TUNABLES"
exit 3
"""
# It says its words on the error stream with some line feeds, as the program says help, and which process it is on the output of scan.
HELPER = """#!/bin/sh
if [ "$1" = scan ] && [ "$2" = process ]; then echo $$; exit; fi
printf '%s|' "$@" >&2
printf ':7:\\n\\n' >&2
exit "$STATUS"
"""


class StartCase(unittest.TestCase):
    """A small tree with the scripts."""

    def setUp(self):
        need(*BUILD_TOOLS)
        folder = tempfile.TemporaryDirectory()
        self.addCleanup(folder.cleanup)
        self.folder = Path(folder.name).resolve()
        self.top = self.folder / "top"
        self.crate = self.top / "crates/scrub_cli"
        self.calls = self.folder / "calls"
        for name in ("shardscrub", "dev/build", "release/make"):
            (self.top / name).parent.mkdir(parents=True, exist_ok=True)
            shutil.copy(TOP / name, self.top / name)
        script, count = CHANGES.subn("    echo 'crates/scrub_cli/src/main.rt s/the program/the faster program/'\n",
                                     (TOP / "dev/build").read_text())
        self.assertEqual(count, 1)
        (self.top / "dev/build").write_text(script)
        self.cpuinfo = self.folder / "cpuinfo"
        with_processor(self.top / "shardscrub", self.cpuinfo)
        write(self.top / "crates.txt", "scrub_cli: clap\n")
        write(self.top / "HANDLES", "Handles allowed: Threads, Wait.\n")
        write(self.crate / "src/main.rt", "the program\n")
        write(self.folder / "tools/rt", RT, 0o755)

    def run_in(self, folder, *words, **more):
        environment = {"PATH": f"{self.folder}/tools:{os.environ['PATH']}", "CALLS": str(self.calls)} | more
        return subprocess.run(words, cwd=folder, env=environment, capture_output=True, text=True, timeout=300)

    def build(self, *names):
        """Programs that were built here, after the last change of their sources; both if none is named."""
        for path in (self.top / "crates.txt", self.top / "HANDLES", self.crate / "src", self.crate / "src/main.rt"):
            self.age(path, 60)
        for name in names or (GENERAL, FASTER):
            write(self.built(name), PROGRAM.replace("NAME", f"built {name}"), 0o755)
            self.mark(name).touch()

    def built(self, name):
        return self.crate / "out" / ("scrub_cli" if name == GENERAL else name)

    def mark(self, name):
        return self.crate / "out" / f"{name}.built"

    def release(self, *names):
        """Released programs, of these sources; both if none is named."""
        if platform.machine() != "x86_64":
            self.skipTest("the released programs are for x86-64")
        for name in names or (GENERAL, FASTER):
            write(self.top / "release" / name, PROGRAM.replace("NAME", f"released {name}"), 0o755)
        checksum = self.run_in(self.top, "dev/build", "--sources", TOOLCHAIN).stdout
        write(self.top / "release/SOURCES", f"{checksum}{TOOLCHAIN}\n")

    def age(self, path, seconds):
        at = self.folder.stat().st_mtime - seconds
        os.utime(path, (at, at))

    def change(self):
        write(self.crate / "src/main.rt", "the program, changed\n")
        self.age(self.crate / "src/main.rt", -60)

    def on(self, *flags, **more):
        """The first line that ./shardscrub prints on processors with these flags, or its fault."""
        self.cpuinfo.write_text(processors(*flags))
        ended = self.run_in(self.folder, self.top / "shardscrub", **more)
        return ended.stdout.partition("\n")[0] or ended.stderr

    def passes(self, name):
        """Checks that the program of this name is started, with the arguments and in the folder, and gives its status."""
        away = self.folder / "away"
        away.mkdir(exist_ok=True)
        words = ["scan", "", "a  b", "*", "--page"]
        for set_to in (None, "of the caller", ""):
            more = {} if set_to is None else {"GLIBC_TUNABLES": set_to}
            ended = self.run_in(away, self.top / "shardscrub", *words, **more)
            self.assertEqual(ended.stdout.splitlines(), [name, *words, str(away), more.get("GLIBC_TUNABLES", TUNABLES)])
            self.assertEqual((ended.stderr, ended.returncode), ("", 3))

    def starts(self, general, faster, forced=None):
        """Checks which program is started: by an old processor, by a new one, and by SHARDSCRUB_CPU for x86-64-v3 on either."""
        for flags, name in ((V2_FLAGS, general), (V2_FLAGS | V3_FLAGS, faster)):
            self.cpuinfo.write_text(processors(flags, flags))
            self.passes(name)
            for cpu, named in (("x86-64-v2", general), ("x86-64-v3", forced or faster), ("", name)):
                self.assertEqual(self.on(flags, SHARDSCRUB_CPU=cpu), named)
        self.assertFalse(self.calls.exists(), "rt was called")

    def refuses(self, **more):
        """Checks that no program is started and none is built: one line names dev/build, and the status is 70."""
        for flags in (V2_FLAGS, V2_FLAGS | V3_FLAGS):
            self.cpuinfo.write_text(processors(flags))
            ended = self.run_in(self.folder, self.top / "shardscrub", "scan", **more)
            self.assertFalse(self.calls.exists(), "rt was called")
            self.assertEqual((ended.stdout, ended.returncode), ("", 70))
            self.assertRegex(ended.stderr, r"\Ashardscrub: .*\n\Z")
            self.assertIn(f"dev/build in {self.top}", ended.stderr)


class Start(StartCase):
    def test_each_change_for_x86_64_v3_is_eight_in_the_place_of_four(self):
        lines = CHANGES.search((TOP / "dev/build").read_text())[0].splitlines()
        changes = [line.strip().removeprefix("echo '").removesuffix("'").split(" ", 1) for line in lines]
        self.assertEqual([file for file, _ in changes], ["crates/sha_lanes/src/block.rt", "crates/sha_lanes/specs/Lanes.antt"])
        for file, script in changes:
            text = (TOP / file).read_text(encoding="utf-8")
            changed = subprocess.run(["sed", script], input=text, capture_output=True, encoding="utf-8", check=True).stdout
            pairs = [pair for pair in zip(text.splitlines(), changed.splitlines(), strict=True) if pair[0] != pair[1]]
            self.assertEqual([new for _, new in pairs], [old.replace("4", "8") for old, _ in pairs])
            self.assertEqual(len(pairs), 1)

    def test_nothing_built_or_released(self):
        self.refuses()

    def test_changed_since_the_build(self):
        self.build()
        self.change()
        self.refuses()

    def test_a_source_taken_away_since_the_build(self):
        self.build()
        self.age(self.crate / "src", -60)
        self.refuses()

    def test_a_source_that_comes_with_an_old_time_since_the_build(self):
        self.build()
        write(self.crate / "src/main.rt", "the program, older\n")
        self.age(self.crate / "src/main.rt", 60)
        self.refuses()

    def test_a_build_that_failed(self):
        self.build()
        for name in (GENERAL, FASTER):
            self.mark(name).unlink()
        self.refuses()

    def test_released_from_other_sources(self):
        self.release()
        self.change()
        self.refuses()

    def test_changed_since_build_and_release(self):
        self.release()
        self.build()
        self.change()
        self.refuses()

    def test_released(self):
        self.release()
        self.starts(f"released {GENERAL}", f"released {FASTER}")

    def test_built(self):
        self.build()
        self.starts(f"built {GENERAL}", f"built {FASTER}")

    def test_built_and_released(self):
        self.release()
        self.build()
        self.starts(f"built {GENERAL}", f"built {FASTER}")

    def test_released_and_changed_back_since_the_build(self):
        self.release()
        self.build()
        self.age(self.crate / "src/main.rt", -60)
        self.starts(f"released {GENERAL}", f"released {FASTER}")

    def test_the_general_one_built_and_both_released(self):
        """As after ./check."""
        self.release()
        self.build(GENERAL)
        self.starts(f"built {GENERAL}", f"built {GENERAL}", f"released {FASTER}")

    def test_the_general_one_built_anew(self):
        """The one for x86-64-v3 is older than the last change."""
        self.build()
        self.age(self.mark(FASTER), 120)
        self.refuses(SHARDSCRUB_CPU="x86-64-v3")
        for flags in (V2_FLAGS, V2_FLAGS | V3_FLAGS):
            self.assertEqual(self.on(flags), f"built {GENERAL}")

    def test_one_program(self):
        """The one that runs anywhere runs on new processors, too. The other one has to be there if it is named."""
        for make, what in ((self.build, "built"), (self.release, "released")):
            make(GENERAL)
            for flags in (V2_FLAGS, V2_FLAGS | V3_FLAGS):
                self.assertEqual(self.on(flags), f"{what} {GENERAL}")
            self.refuses(SHARDSCRUB_CPU="x86-64-v3")
            shutil.rmtree(self.crate / "out", ignore_errors=True)

    def test_only_the_one_for_x86_64_v3(self):
        self.build(FASTER)
        self.assertEqual(self.on(V2_FLAGS | V3_FLAGS), f"built {FASTER}")
        self.assertIn("dev/build", self.on(V2_FLAGS))
        self.refuses(SHARDSCRUB_CPU="x86-64-v2")

    def test_each_flag_counts(self):
        self.build()
        for flag in V3_FLAGS:
            self.assertEqual(self.on((V2_FLAGS | V3_FLAGS) - {flag}), f"built {GENERAL}", flag)

    def test_a_processor_that_tells_nothing(self):
        self.build()
        self.assertEqual(self.on(), f"built {GENERAL}")
        self.cpuinfo.unlink()
        self.passes(f"built {GENERAL}")

    def test_this_processor(self):
        self.build()
        shutil.copy(TOP / "shardscrub", self.top / "shardscrub")
        self.passes(f"built {FASTER if has_v3() else GENERAL}")

    def test_another_word_for_the_processor(self):
        self.build()
        for word in ("v3", "x86-64-v4", "x86-64-v3 ", "*"):
            ended = self.run_in(self.folder, self.top / "shardscrub", SHARDSCRUB_CPU=word)
            self.assertEqual((ended.stdout, ended.returncode), ("", 70))
            self.assertEqual(ended.stderr, f"shardscrub: SHARDSCRUB_CPU is neither x86-64-v2 nor x86-64-v3: {word}\n")

    def test_by_a_link(self):
        self.build()
        self.cpuinfo.write_text(processors(V2_FLAGS))
        link = self.folder / "tools/shardscrub"
        link.symlink_to(self.top / "shardscrub")
        self.assertEqual(self.run_in(self.folder, "shardscrub").stdout, f"built {GENERAL}\n{self.folder}\n{TUNABLES}\n")

    def test_the_program_of_the_tests(self):
        """dev/build --program, by which the tests choose, takes the names in their order, and the first one without a name."""
        self.build()
        for names, name in (([], GENERAL), ([GENERAL, FASTER], GENERAL), ([FASTER, GENERAL], FASTER)):
            self.assertEqual(self.run_in(self.folder, self.top / "dev/build", "--program", *names).stdout, f"{self.built(name)}\n")

    def test_release_make_builds(self):
        need("flock")
        self.build()
        self.release()
        self.change()
        self.age(self.crate / "src/main.rt", 30)
        for name in (GENERAL, FASTER):
            self.age(self.mark(name), 60)
        self.refuses()
        made = self.run_in(self.folder, self.top / "release/make")
        self.assertEqual(made.returncode, 0, made.stderr)
        self.assertEqual([call.split()[0] for call in self.calls.read_text().splitlines()], ["run", "run", "version"])
        sums = self.run_in(self.top / "release", "sha256sum", "-c", "SHA256SUMS")
        self.assertEqual(sums.stdout, f"{GENERAL}: OK\n{FASTER}: OK\n", sums.stderr)
        for times in ("built", "released"):
            for flags, text in ((V2_FLAGS, "made by rt"), (V2_FLAGS | V3_FLAGS, "made by rt x86-64-v3")):
                self.assertEqual(self.on(flags), text, times)
            shutil.rmtree(self.crate / "out", ignore_errors=True)

    def test_a_build_of_the_one_for_x86_64_v3_alone(self):
        """The other one is up to date, so that its proofs are taken as they are."""
        need("flock")
        self.build(GENERAL)
        (self.crate / "out/incremental").mkdir()
        built = self.run_in(self.folder, self.top / "dev/build")
        self.assertEqual(built.returncode, 0, built.stderr)
        self.assertEqual([call.split()[:2] for call in self.calls.read_text().splitlines()], [["run", "--cpu=x86-64-v3"]])
        self.assertEqual(self.on(V2_FLAGS | V3_FLAGS), "made by rt x86-64-v3")
        self.assertEqual(self.on(V2_FLAGS), f"built {GENERAL}")
        self.calls.unlink()
        self.assertEqual(self.run_in(self.folder, self.top / "dev/build").returncode, 0)
        self.assertFalse(self.calls.exists(), "rt was called")

    def test_a_refused_build_of_the_one_for_x86_64_v3(self):
        """The other one is built, and is started. Nothing is left in the folder of passing files."""
        need("flock")
        passing = self.folder / "passing"
        passing.mkdir()
        built = self.run_in(self.folder, self.top / "dev/build", REFUSED="1", TMPDIR=str(passing))
        self.assertEqual(built.returncode, 1, built.stderr)
        self.assertIn("scrub_cli for x86-64-v3 is not proved and built", built.stderr)
        self.assertIn("error: refused", built.stderr)
        for flags in (V2_FLAGS, V2_FLAGS | V3_FLAGS):
            self.assertEqual(self.on(flags), "made by rt")
        self.assertIn("dev/build", self.on(V2_FLAGS, SHARDSCRUB_CPU="x86-64-v3"))
        built = self.run_in(self.folder, self.top / "dev/build", TMPDIR=str(passing))
        self.assertEqual(built.returncode, 0, built.stderr)
        self.assertEqual(self.on(V2_FLAGS | V3_FLAGS), "made by rt x86-64-v3")
        self.assertEqual(list(passing.iterdir()), [])


class Helps(StartCase):
    """Help that is asked for goes to the output. All else is as the program has it, by the same process."""
    HELP = (["--help"], ["-h"], ["-hV"], ["help"], ["help", "scan"], ["scan", "--help"], ["scan", "-h", "--page"],
            ["scan", "a  b", "*", "--help"])
    OTHERS = ([], ["scan"], ["scan", "help"], ["scan", "--", "--help"], ["scan", "--map=-h"], ["-V"], ["--helper"], ["scan", "a -h"])

    def setUp(self):
        super().setUp()
        self.build()
        for name in (GENERAL, FASTER):
            write(self.built(name), HELPER, 0o755)
            self.mark(name).touch()
        self.cpuinfo.write_text(processors(V2_FLAGS))

    def check(self, words, status, is_output):
        ended = self.run_in(self.folder, self.top / "shardscrub", *words, STATUS=str(status))
        text = "".join(f"{word}|" for word in words or [""]) + ":7:\n\n"
        self.assertEqual((ended.returncode, ended.stdout, ended.stderr), (status, *((text, "") if is_output else ("", text))), words)

    def test_help_goes_to_the_output(self):
        for words in self.HELP:
            self.check(words, 0, True)

    def test_what_is_wrong_stays_on_the_error_stream(self):
        for status in (2, 127):
            for words in self.HELP:
                self.check(words, status, False)

    def test_all_other_calls(self):
        for words in self.OTHERS:
            for status in (0, 1):
                self.check(words, status, False)

    def test_all_other_calls_are_the_same_process(self):
        environment = {"PATH": os.environ["PATH"]}
        with subprocess.Popen([self.top / "shardscrub", "scan", "process"], env=environment, stdout=subprocess.PIPE, text=True) as started:
            self.assertEqual(started.stdout.read(), f"{started.pid}\n")

    def test_a_pipe_that_ends(self):
        """Nothing is said, and nothing if the reader had ended before."""
        for reader in ("head -n 1", "true"):
            ended = self.run_in(self.folder, "sh", "-c", f"'{self.top}/shardscrub' --help | {reader}", STATUS="0")
            self.assertEqual((ended.stdout in ("", "--help|:7:\n"), ended.stderr), (True, ""))

    def test_an_output_that_fails(self):
        ended = self.run_in(self.folder, "sh", "-c", f"'{self.top}/shardscrub' --help >/dev/full", STATUS="0")
        self.assertEqual(ended.returncode, 3)

    def test_the_help_of_the_program(self):
        """In the repository's own folder, to the byte."""
        for words in (["--help"], ["help", "items"], ["compare", "-h"], ["help", "scans"], ["scan", "--page", "x", "--help"],
                      ["scan", "--page"]):
            by_script = subprocess.run([TOP / "shardscrub", *words], capture_output=True, timeout=300)
            own = subprocess.run([program(), *words], capture_output=True, timeout=300)
            streams = [own.stdout, own.stderr] if own.returncode else [own.stderr, b""]
            self.assertEqual([by_script.returncode, by_script.stdout, by_script.stderr], [own.returncode, *streams], words)
            self.assertTrue(own.stderr, words)


# The tools that look at the sources.
TOOLS = ("readlink", "awk", "uname", "find", "sort", "xargs", "sha256sum", "grep")


class Kept(StartCase):
    """That the released programs are of these sources is known without a checksum while nothing has changed, and never longer."""

    def setUp(self):
        super().setUp()
        self.sums = self.folder / "sums"
        write(self.folder / "tools/sha256sum", f"#!/bin/sh\necho >>'{self.sums}'\nexec '{shutil.which('sha256sum')}' \"$@\"\n", 0o755)
        # A crate of tests, and what a crate has beside its sources.
        write(self.top / "crates.txt", "scrub_cli: clap\nscrub_tests: scrub_cli\n")
        write(self.top / "crates/scrub_tests/src/lib.rt", "the tests\n")
        write(self.crate / "specs/steps/Steps.antt", "the steps\n")
        write(self.crate / "must-fail/one.edit", "an edit\n")
        self.kept = self.crate / "out/released.listing"
        self.take_changes_of_now()
        self.release()

    def take_changes_of_now(self):
        """So that no test has to wait for two seconds."""
        script = (self.top / "dev/build").read_text()
        self.assertEqual(script.count("$(($2 - 2))"), 1)
        (self.top / "dev/build").write_text(script.replace("$(($2 - 2))", "$(($2 + 2))"))

    def counted(self):
        """How often a checksum is taken, and what is started or said."""
        self.sums.unlink(missing_ok=True)
        started = self.on(V2_FLAGS)
        return len(self.sums.read_text()) if self.sums.exists() else 0, started

    def keeps(self):
        """Checks that the released program is started twice, the second time without a checksum."""
        self.assertEqual(self.counted()[1], f"released {GENERAL}")
        self.assertEqual(self.counted(), (0, f"released {GENERAL}"))

    def test_without_a_checksum(self):
        self.assertEqual(self.counted(), (2, f"released {GENERAL}"))
        self.assertEqual(self.counted(), (0, f"released {GENERAL}"))
        self.starts(f"released {GENERAL}", f"released {FASTER}")
        self.assertEqual([path.name for path in self.kept.parent.iterdir()], [self.kept.name])

    def test_each_change_of_the_sources(self):
        """A change and its way back. The sizes and the times of all files are as before, if that can be."""
        main, steps, away = self.crate / "src/main.rt", self.crate / "specs/steps", self.folder / "away"
        write(away, "the progrom\n")
        old = self.folder.stat().st_mtime - 1000

        def replace(path, text):
            times = path.stat().st_mtime_ns, path.parent.stat().st_mtime_ns
            path.write_text(text)
            for one, at in zip((path, path.parent), times):
                os.utime(one, ns=(at, at))

        def swap(one, other):
            middle = self.folder / "middle"
            times = {path: path.stat().st_mtime_ns for path in (one.parent, other.parent)}
            one.rename(middle)
            other.rename(one)
            middle.rename(other)
            for path, at in times.items():
                os.utime(path, ns=(at, at))

        for path in (main, away, steps / "Steps.antt", self.top / "crates.txt"):
            os.utime(path, (old, old))
        changes = {
            "another content": (lambda: replace(main, "the progrom\n"), lambda: replace(main, "the program\n")),
            "another file in its place": (lambda: swap(main, away), lambda: swap(main, away)),
            "a file more": (lambda: write(steps / "More.antt", ""), lambda: (steps / "More.antt").unlink()),
            "a file less": (lambda: (steps / "Steps.antt").rename(self.folder / "taken"),
                            lambda: (self.folder / "taken").rename(steps / "Steps.antt")),
            "another name of a file": (lambda: main.rename(main.with_name("moin.rt")), lambda: main.with_name("moin.rt").rename(main)),
            "another name of a folder": (lambda: steps.rename(steps.with_name("stops")), lambda: steps.with_name("stops").rename(steps)),
            "another name of a part": (lambda: (self.crate / "specs").rename(self.crate / "spics"),
                                       lambda: (self.crate / "spics").rename(self.crate / "specs")),
            "a part more": (lambda: write(self.crate / "proofs/One.antt", ""), lambda: shutil.rmtree(self.crate / "proofs")),
            "a link in the place of a file": (lambda: (main.unlink(), main.symlink_to(away)), lambda: (main.unlink(), write(main, "the program\n"))),
            "another line of the crate": (lambda: replace(self.top / "crates.txt", "scrub_cli: clop\nscrub_tests: scrub_cli\n"),
                                          lambda: replace(self.top / "crates.txt", "scrub_cli: clap\nscrub_tests: scrub_cli\n")),
            "other handles": (lambda: replace(self.top / "HANDLES", "Handles allowed: Threads, Wait!\n"),
                              lambda: replace(self.top / "HANDLES", "Handles allowed: Threads, Wait.\n")),
        }
        for what, (change, change_back) in changes.items():
            with self.subTest(what):
                self.keeps()
                change()
                self.refuses()
                change_back()
                self.keeps()

    def test_another_release(self):
        self.keeps()
        sources = self.top / "release/SOURCES"
        text = sources.read_text()
        sources.write_text(text.replace(text[0], "0" if text[0] != "0" else "1", 1))
        self.refuses()
        sources.unlink()
        self.refuses()
        write(sources, text)
        self.keeps()

    def test_another_way_to_take_the_checksum(self):
        self.keeps()
        script = (self.top / "dev/build").read_text()
        (self.top / "dev/build").write_text(script.replace("the faster program", "the fastest program"))
        self.refuses()

    def test_what_is_no_source(self):
        self.keeps()
        write(self.top / "README.md", "read me\n")
        write(self.crate / "must-fail/one.edit", "another edit\n")
        write(self.crate / "out/shardscrub.log", "a log\n")
        self.assertEqual(self.counted(), (0, f"released {GENERAL}"))
        write(self.top / "crates/scrub_tests/src/lib.rt", "other tests\n")
        self.assertEqual(self.counted(), (2, f"released {GENERAL}"))
        self.keeps()

    def test_a_change_a_moment_before(self):
        """A later change might have the same times. Two seconds may be over before a slow machine looks, so they are a thousand first."""
        script = (self.top / "dev/build").read_text()
        (self.top / "dev/build").write_text(script.replace("$(($2 + 2))", "$(($2 - 1000))"))
        self.assertEqual([self.counted() for _ in range(2)], [(2, f"released {GENERAL}")] * 2)
        self.assertFalse(self.kept.exists())
        (self.top / "dev/build").write_text(script.replace("$(($2 + 2))", "$(($2 - 2))"))
        time.sleep(3.1)
        self.keeps()

    def test_a_kept_listing_that_is_no_longer_whole(self):
        self.keeps()
        whole = self.kept.read_bytes()
        for text in (b"", whole[:-1], whole[:len(whole) // 2], whole + b"\n"):
            self.kept.write_bytes(text)
            self.assertEqual(self.counted(), (2, f"released {GENERAL}"))
            self.assertEqual(self.kept.read_bytes(), whole)

    def test_sources_of_another_user(self):
        """Nothing is written into their tree, neither by a superuser."""
        if os.geteuid() != 0:
            self.skipTest("only a superuser can give files away")
        for path in self.top.rglob("*"):
            os.chown(path, 12345, 12345)
        self.assertEqual([self.counted() for _ in range(2)], [(2, f"released {GENERAL}")] * 2)
        self.assertFalse(self.kept.parent.exists())

    def test_a_tree_that_is_read_only(self):
        """As on a file system that is mounted so."""
        if os.geteuid() == 0:
            # A file stands where the folder would have to be.
            write(self.kept.parent, "")
        else:
            self.crate.chmod(0o555)
            self.addCleanup(self.crate.chmod, 0o755)
        for _ in range(2):
            self.assertEqual(self.counted(), (2, f"released {GENERAL}"))

    def test_a_tool_that_fails(self):
        """The release isn't blamed, and no program is started."""
        self.cpuinfo.write_text(processors(V2_FLAGS))
        for is_kept in (False, True):
            for tool in TOOLS:
                if is_kept:
                    self.keeps()
                    os.utime(self.crate / "src/main.rt")
                there = (self.folder / "tools" / tool)
                before = there.read_text() if there.exists() else None
                write(there, "#!/bin/sh\necho memory lacks >&2\nexit 127\n", 0o755)
                ended = self.run_in(self.folder, self.top / "shardscrub")
                with self.subTest(tool):
                    self.assertEqual((ended.stdout, ended.returncode), ("", 70))
                    self.assertEqual(ended.stderr, "memory lacks\nshardscrub: the program can't be found, as said above\n")
                there.unlink() if before is None else write(there, before, 0o755)

    def test_little_memory(self):
        """It says that memory lacks, unless the shell itself can't be started."""
        self.cpuinfo.write_text(processors(V2_FLAGS))
        said = set()
        for most in range(2000, 20000, 1000):
            ended = self.run_in(self.folder, "sh", "-c", 'ulimit -v "$0"; exec "$1"', str(most), self.top / "shardscrub")
            out = f"shardscrub: out of memory before a program was started: the limit is {most} KiB (ulimit -v)\n"
            is_started = ended.stdout.startswith("released")
            with self.subTest(most):
                self.assertNotIn("dev/build", ended.stderr)
                self.assertTrue(is_started or ended.stderr.endswith(out) or ended.returncode in (127, -11), ended)
            said |= {is_started, ended.stderr.endswith(out)}
        self.assertEqual(said, {False, True})


# What the programs ask of the processor, answered by one that has nothing.
NO_FEATURES = """
struct leaf { unsigned there[4], usable[4]; };
static const struct leaf none;
const struct leaf *__x86_get_cpuid_feature_leaf(unsigned number) { (void)number; return &none; }
static void tell(int file) { (void)file; }
"""


class Processor(RoomCase):
    """Each program looks for what it needs of the processor before anything else, and ends with 127 if something isn't there."""

    def check(self, name, cpu):
        library = Library("no-features", NO_FEATURES).made(self.room)
        path = find(name)
        self.assertIsNotNone(path, f"there is no {name} of these sources: dev/build or release/make makes it")
        for words in (["--version"], ["scan", "/nothing/here"]):
            (status, out, error), _ = run_with(path, words, library, {})
            self.same(f"{path} {words[0]}", (status, out), (127, b""))
            self.true("it says what is missing", error.startswith(f"this machine lacks a feature of {cpu},".encode()), error)
            self.same("the rows of dev/messages.py", [row.status for row in explained(error.decode().rstrip("\n"))], [127])

    def test_the_general_program(self):
        self.check(GENERAL, "x86-64-v2")

    def test_the_program_for_x86_64_v3(self):
        self.check(FASTER, "x86-64-v3")


if __name__ == "__main__":
    unittest.main()
