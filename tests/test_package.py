"""How the released programs are installed: by release/install, by release/Makefile, and by dpkg from the package that
release/package makes. Nobody has to be superuser, and nothing outside a folder for passing files is touched. The examples of the
installed pages run, as lib/examples.py finds them; each is named by its line in the page of the sources."""
import gzip
import hashlib
import io
import os
import platform
import re
import shutil
import stat
import subprocess
import sys
import tarfile
import tempfile
import time
import unittest
from datetime import datetime, timezone
from pathlib import Path

from lib.examples import PAGES, ExampleCase, Installed, examples_of, without_sources
from lib.program import (
    FASTER, GENERAL, METRICS_TOOLS, PACKAGE_TOOLS, ROW_TOOLS, TOP, TUNABLES, V2_FLAGS, V3_FLAGS, has_v3, need, processors, with_processor, write)

sys.path.insert(0, str(TOP / "dev"))
from messages import GROUPS  # noqa: E402

# Each installed file: its mode, and what it is a copy of.
INSTALLED = {
    "bin/shardscrub": (0o755, "shardscrub"),
    "lib/systemd/system/shardscrub@.service": (0o644, "view/monitoring/shardscrub@.service"),
    "lib/systemd/system/shardscrub@.timer": (0o644, "view/monitoring/shardscrub@.timer"),
    "lib/shardscrub/shardscrub": (0o755, "release/shardscrub"),
    "lib/shardscrub/shardscrub-x86-64-v3": (0o755, "release/shardscrub-x86-64-v3"),
    "share/bash-completion/completions/shardscrub": (0o644, "release/completions/shardscrub.bash"),
    "share/doc/shardscrub/README.md": (0o644, "README.md"),
    "share/doc/shardscrub/copyright": (0o644, "release/copyright"),
    "share/doc/shardscrub/docs/FORMAT.md": (0o644, "docs/FORMAT.md"),
    "share/doc/shardscrub/docs/READING.md": (0o644, "docs/READING.md"),
    "share/doc/shardscrub/docs/RECLAIMING.md": (0o644, "docs/RECLAIMING.md"),
    "share/doc/shardscrub/docs/REPORT.md": (0o644, "docs/REPORT.md"),
    "share/doc/shardscrub/docs/report.schema.json": (0o644, "docs/report.schema.json"),
    **{f"share/doc/shardscrub/examples/{path.name}": (0o755 if path.name == "node" else 0o644, f"examples/{path.name}")
       for path in (TOP / "examples").iterdir()},
    "share/fish/vendor_completions.d/shardscrub.fish": (0o644, "release/completions/shardscrub.fish"),
    "share/man/man1/shardscrub.1": (0o644, "docs/shardscrub.1"),
    **{f"share/shardscrub/act/{name}": (0o755, f"act/{name}") for name in ("order", "plan", "put", "reclaim", "rescue")},
    **{f"share/shardscrub/act/{path.name}": (0o644, f"act/{path.name}") for path in (TOP / "act").glob("*.py")},
    "share/shardscrub/reference/shardscrub.py": (0o755, "reference/shardscrub.py"),
    "share/shardscrub/view/json": (0o755, "view/json"),
    "share/shardscrub/view/metrics": (0o755, "view/metrics"),
    "share/shardscrub/view/monitoring/cron": (0o644, "view/monitoring/cron"),
    "share/shardscrub/view/monitoring/nightly": (0o755, "view/monitoring/nightly"),
    "share/shardscrub/view/monitoring/shardscrub.rules.yml": (0o644, "view/monitoring/shardscrub.rules.yml"),
    # Links to the units.
    "share/shardscrub/view/monitoring/shardscrub@.service": (0o777, "view/monitoring/shardscrub@.service"),
    "share/shardscrub/view/monitoring/shardscrub@.timer": (0o777, "view/monitoring/shardscrub@.timer"),
    "share/shardscrub/view/questions.jq": (0o644, "view/questions.jq"),
    "share/shardscrub/view/reasons.tsv": (0o644, "view/reasons.tsv"),
    "share/shardscrub/view/report.html": (0o644, "view/report.html"),
    "share/shardscrub/view/row": (0o755, "view/row"),
    "share/shardscrub/view/why": (0o755, "view/why"),
    "share/zsh/site-functions/_shardscrub": (0o644, "release/completions/_shardscrub"),
}
# The package has the man page compressed and the completions for zsh where Debian's zsh looks, and two files more, which aren't copies.
PACKED = INSTALLED | {
    "share/man/man1/shardscrub.1.gz": INSTALLED["share/man/man1/shardscrub.1"],
    "share/zsh/vendor-completions/_shardscrub": INSTALLED["share/zsh/site-functions/_shardscrub"],
    "share/doc/shardscrub/changelog.gz": (0o644, None),
    "share/lintian/overrides/shardscrub": (0o644, None),
}
del PACKED["share/man/man1/shardscrub.1"], PACKED["share/zsh/site-functions/_shardscrub"]
# A link of a document: its text, and where it leads.
LINK = re.compile(r"\[([^]]*)\]\(([^)\s]+)\)")

FIELDS = {
    "Package": "shardscrub",
    "Architecture": "amd64",
    "Maintainer": "Tuzbelic maintainers <maintainers@users.noreply.tuzbelic.example>",
    "Recommends": "jq",
    "Suggests": "gddrescue, parallel, python3",
    "Section": "admin",
    "Priority": "optional",
}
# Runs of the installed program: its arguments, its output, the error stream and its status.
RUNS = [
    (["--version"], None, "", 0),
    (["sizes", "examples/one-shard.img"], "0 SSB1 1 64 4 3\n", "", 0),
    (["sizes", "examples/no-superblock.img"], "", "shardscrub: no superblock record in the first 64 MiB\n", 1),
]


def run(*words, more=None, **options):
    """A run at the top of the repository, with nothing of the caller's environment but where programs and passing files are."""
    environment = {name: os.environ[name] for name in ("PATH", "HOME", "TMPDIR") if name in os.environ}
    environment["LC_ALL"] = "C.UTF-8"
    return subprocess.run([str(word) for word in words], env=environment | (more or {}), capture_output=True,
                          **{"cwd": TOP, "text": True, "timeout": 300, **options})


def done(*words, **options):
    """The output of a run that has to end with status 0."""
    ended = run(*words, **options)
    if ended.returncode != 0:
        raise AssertionError(f"{words}: status {ended.returncode}, {ended.stderr}")
    return ended.stdout


def newest():
    """The newest version in the changelog, and the time at which its day begins."""
    version, day = re.search(r"^## ([0-9.]+), ([0-9-]+)$", (TOP / "CHANGELOG.md").read_text(encoding="utf-8"), re.M).groups()
    return version, int(datetime.fromisoformat(day).replace(tzinfo=timezone.utc).timestamp())


def unpacked(name, data):
    return gzip.decompress(data) if name.endswith(".gz") else data


def without_places(name, data, place=None):
    """The content of a file; of a document without its links, and without what says where things are. If `place` is None, it is a
    document of the sources, and else one that is installed below that folder."""
    if name.endswith(("/cron", ".rules.yml", "@.service")):
        return data.decode() if place is None else data.decode().replace("\\ ", " ").replace("%%20", " ").replace(place, "/usr/share")
    if not re.search(r"\.md$|\.1(\.gz)?$|\.tsv$", name):
        return data
    text = data.decode().replace("\\e", "\\").replace("\\-", "-")
    if place is None:
        text = "\n".join(without_sources(text.split("\n"))).replace("/usr/share/shardscrub/", "")
        text = text.replace("/usr/lib/systemd/system", "systemd/system")
        text = text.replace("./shardscrub", "shardscrub").replace("the repository's root directory", "any folder")
        text = text.replace("man -l docs/shardscrub.1", "man shardscrub")
        text = re.sub(r"^An installation has\n.*?(?=^\.TP$)", "", text, flags=re.M | re.S)
    else:
        text = text.replace(f"{place.removesuffix('/share')}/lib/systemd/system", "systemd/system")
        text = text.replace(place.replace(" ", "\\ "), place).replace(f"{place}/doc/shardscrub/", "").replace(f"{place}/shardscrub/", "")
    text = LINK.sub(r"\1", text) if name.endswith(".md") else text
    return [line for line in text.splitlines() if line]


def anchors(text):
    """The names that the headings of a document have, as places to which a link may lead."""
    titles = [re.sub(r"[^\w -]", "", title.lower()).replace(" ", "-") for title in re.findall(r"^#+ (.*)$", text, re.M)]
    return set(titles)


def tree(folder):
    """The files below a folder, and its folders, which end with a slash: the mode of each."""
    return {str(path.relative_to(folder)) + "/" * path.is_dir(): stat.S_IMODE(path.lstat().st_mode) for path in folder.rglob("*")}


def with_folders(files):
    """Files with their modes, and the folders that they are in."""
    folders = {f"{parent}/": 0o755 for name in files for parent in Path(name).parents if parent != Path(".")}
    return {name: mode for name, (mode, _) in files.items()} | folders


class OfTheRelease(unittest.TestCase):
    @classmethod
    def setUpClass(cls):
        if platform.machine() != "x86_64":
            raise unittest.SkipTest("the released program is for x86-64")

    def setUp(self):
        folder = tempfile.TemporaryDirectory()
        self.addCleanup(folder.cleanup)
        self.folder = Path(folder.name)

    def copied(self, name, data, origin, place):
        """Checks that an installed file is a copy, or a document that differs only in its links and in where things are."""
        if origin is not None:
            self.assertEqual(without_places(name, unpacked(name, data), place), without_places(name, (TOP / origin).read_bytes()), name)

    def installed(self, folder, files, prefix=None):
        """Checks that these files and nothing else are installed in a folder, which will be at this prefix."""
        self.assertEqual(tree(folder), with_folders(files))
        for name, (_, origin) in files.items():
            self.copied(name, (folder / name).read_bytes(), origin, f"{folder if prefix is None else prefix}/share")

    def runs(self, program):
        version = f"shardscrub {newest()[0]}\n"
        for words, output, errors, status in RUNS:
            for cpu in ("", "x86-64-v2", *["x86-64-v3"] * has_v3()):
                with self.subTest(words=words, cpu=cpu):
                    ended = run(program, *words, more={"SHARDSCRUB_CPU": cpu})
                    wanted = (version if output is None else output, errors, status)
                    self.assertEqual((ended.stdout, ended.stderr, ended.returncode), wanted)


class Install(OfTheRelease):
    def test_below_a_prefix(self):
        done("release/install", self.folder / "prefix", umask=0o077)
        self.installed(self.folder / "prefix", INSTALLED)
        self.runs(self.folder / "prefix/bin/shardscrub")

    def test_each_link_leads_to_what_is_installed(self):
        done("release/install", self.folder / "prefix")
        count = 0
        for path in sorted((self.folder / "prefix").rglob("*.md")):
            for _, target in LINK.findall(path.read_text(encoding="utf-8")):
                file, _, anchor = target.partition("#")
                to = (path.parent / file) if file else path
                with self.subTest(document=path.name, link=target):
                    self.assertTrue(to.is_file())
                    if anchor:
                        self.assertIn(anchor, anchors(to.read_text(encoding="utf-8")))
                count += 1
        self.assertGreater(count, 100)

    def test_the_examples_of_the_help(self):
        """They run in the folder of the documents."""
        done("release/install", self.folder / "prefix")
        command = self.folder / "prefix/bin/shardscrub"
        lines = re.findall(r"^  shardscrub (.*examples/\S+)$", run(command, "--help").stdout, re.M)
        self.assertGreater(len(lines), 2)
        for line in lines:
            done(command, *line.split(), cwd=self.folder / "prefix/share/doc/shardscrub")

    def test_the_commands_of_each_page(self):
        """No page has fewer of them than that of the sources, or more, but for those that only the sources can do."""
        done("release/install", self.folder / "prefix")
        for page in PAGES:
            wanted = examples_of(page, are_sources_left_out=True)
            self.assertEqual(len(examples_of(page, self.folder / "prefix")), len(wanted), page)
            self.assertEqual(len(examples_of(page)) - len(wanted), 4 if page == "Readme" else 0, page)

    def test_no_page_names_what_only_the_sources_have(self):
        """In commands, texts for a shell and code in a line, apart from what is said to be of the sources."""
        done("release/install", self.folder / "prefix")
        known = {path.name for path in TOP.iterdir() if path.is_dir()} - {"act", "view", "docs", "examples", "reference"}
        said = {"docs/READING.md": {"dev"}, "docs/RECLAIMING.md": {"tests"}, "shardscrub/README.md": {"crates"}}
        for path in [*sorted((self.folder / "prefix").rglob("*.md")), self.folder / "prefix/share/man/man1/shardscrub.1"]:
            text = path.read_text(encoding="utf-8")
            self.assertNotIn("./shardscrub ", text.replace("../shardscrub", ""), path.name)
            code = "\n".join(re.findall(r"^```.*?^```$|`[^`\n]+`", text, re.M | re.S))
            found = {word for word in re.findall(r"(?<![\w./-])(\w+)/\w", code) if word in known}
            self.assertEqual(found, said.get(f"{path.parent.name}/{path.name}", set()), path.name)
            self.assertNotRegex(text, r"<!--|(?<![\w./-])docs/\w+\.md, box|repository")

    def test_the_examples_of_messages(self):
        """Those of the tables in READING, and of the man page, run in any folder, with the statuses of dev/messages.py."""
        done("release/install", self.folder / "a prefix")
        prefix, wanted = self.folder / "a prefix", [message.ends for group in GROUPS for message in group.messages]
        page = (prefix / "share/doc/shardscrub/docs/READING.md").read_text(encoding="utf-8").partition("\n## What a message means\n")[2]
        manual = (prefix / "share/man/man1/shardscrub.1").read_text(encoding="utf-8").partition(".SH DIAGNOSTICS")[2]
        for words in (re.findall(r"^\| .* \| `([^`]*)` \| \[[^|]*\|$", page, re.M),
                      [line.replace("\\%", "").replace("\\-", "-").replace("\\(aq", "'").replace("\\e", "\\")
                       for line in re.findall(r"^\.B \\%shardscrub (.*)$", manual, re.M)]):
            ended = [run("sh", "-c", f"shardscrub {line}", cwd=self.folder, more={"PATH": f"{prefix}/bin:{os.environ['PATH']}"})
                     for line in words]
            self.assertEqual([one.returncode for one in ended], wanted, [one.stderr for one in ended])

    def test_the_reference(self):
        """It runs where it lies, and prints what the program prints."""
        need("python3")
        done("release/install", self.folder / "a prefix")
        prefix, folder = self.folder / "a prefix", self.folder / "folder"
        folder.mkdir()
        count = 0
        for image in sorted((prefix / "share/doc/shardscrub/examples").glob("*.img")):
            for command in ("summary", "scan"):
                program, reference = (run(one, command, image, cwd=folder) for one in
                                      (prefix / "bin/shardscrub", prefix / "share/shardscrub/reference/shardscrub.py"))
                self.assertEqual((reference.stdout, reference.stderr, reference.returncode),
                                 (program.stdout, program.stderr, program.returncode), f"{command} {image.name}")
                count += program.returncode < 2
        self.assertGreater(count, 20)
        self.assertEqual(tree(prefix).keys() & {"share/shardscrub/reference/__pycache__/"}, set())

    def test_which_program_is_started(self):
        """By the processor, by SHARDSCRUB_CPU, and if one of the programs isn't there any more."""
        done("release/install", self.folder / "a prefix")
        script, programs, cpuinfo = (self.folder / "a prefix" / name for name in ("bin/shardscrub", "lib/shardscrub", "cpuinfo"))
        link = self.folder / "link"
        link.symlink_to(script)
        with_processor(script, cpuinfo)
        for name in (GENERAL, FASTER):
            write(programs / name, f"#!/bin/sh\necho {name} \"$@\" $GLIBC_TUNABLES\n", 0o755)
        for flags, name in ((V2_FLAGS, GENERAL), (V2_FLAGS | V3_FLAGS, FASTER)):
            cpuinfo.write_text(processors(flags))
            for cpu, started in (("", name), ("x86-64-v2", GENERAL), ("x86-64-v3", FASTER)):
                self.assertEqual(done(link, "a  word", more={"SHARDSCRUB_CPU": cpu}), f"{started} a  word {TUNABLES}\n")
        (programs / FASTER).unlink()
        self.assertEqual(done(script), f"{GENERAL} {TUNABLES}\n")
        (programs / GENERAL).unlink()
        ended = run(script)
        self.assertEqual((ended.stdout, ended.returncode), ("", 70))
        self.assertEqual(ended.stderr, f"shardscrub: {programs} has no program shardscrub: install it again\n")

    def test_below_destdir(self):
        done("release/install", "/usr", more={"DESTDIR": str(self.folder / "stage")})
        self.installed(self.folder / "stage/usr", INSTALLED, "/usr")
        self.assertEqual(os.listdir(self.folder / "stage"), ["usr"])

    def test_below_a_folder_of_the_callers(self):
        """A prefix that isn't a whole path is one from the caller's folder on, or from DESTDIR on."""
        done(TOP / "release/install", "a prefix", cwd=self.folder)
        self.installed(self.folder / "a prefix", INSTALLED)
        done(TOP / "release/install", "opt", cwd=self.folder, more={"DESTDIR": str(self.folder / "stage")})
        self.installed(self.folder / "stage/opt", INSTALLED, "/opt")

    def test_units(self):
        """They are where systemd looks below /usr and /usr/local. Below any folder they name what is installed, which needs no path."""
        need("flock", *METRICS_TOOLS)
        for prefix in (self.folder / "prefix", self.folder / "a $prefix with 100%"):
            done("release/install", prefix)
            service, timer = (prefix / f"lib/systemd/system/shardscrub@.{kind}" for kind in ("service", "timer"))
            text = service.read_text(encoding="utf-8")
            nightly = re.search(r'^ExecStart="(.+?)" ', text, re.M)[1].replace("%%", "%")
            self.assertEqual(nightly, f"{prefix}/share/shardscrub/view/monitoring/nightly")
            collected = self.folder / "collected"
            collected.mkdir(exist_ok=True)
            done(nightly, "sda", collected, TOP / "examples/one-shard.img", more={"PATH": "/usr/bin:/bin"})
            self.assertIn('\nshardscrub_verdict{disk="sda"} 0\n', (collected / "shardscrub-sda.prom").read_text(encoding="utf-8"))
            shutil.rmtree(collected)
            if shutil.which("systemd-analyze"):
                names = [str(path).replace("@", "@sda") for path in (service, timer)]
                said = run("systemd-analyze", "verify", "--man=no", *names)
                self.assertEqual([line for line in said.stderr.splitlines() if "shardscrub" in line], [])

    def test_over_itself(self):
        for _ in range(2):
            done("release/install", self.folder / "prefix")
        self.installed(self.folder / "prefix", INSTALLED)

    def test_usage(self):
        for script, words in (("install", []), ("install", ["one", "two"]), ("package", ["one", "two"])):
            with self.subTest(script=script, words=words):
                ended = run(TOP / "release" / script, *words, cwd=self.folder)
                self.assertEqual((ended.returncode, ended.stdout), (2, ""))
                self.assertRegex(ended.stderr, rf"\Ausage: release/{script} .*\n\Z")
                self.assertEqual(os.listdir(self.folder), [])


class Make(OfTheRelease):
    def make(self, *words, top=TOP, **options):
        need("make")
        return run("make", "--no-print-directory", "-s", "-C", top / "release", *words, **options)

    def test_install_and_uninstall(self):
        words = [f"DESTDIR={self.folder}", "PREFIX=/opt/a folder"]
        prefix = self.folder / "opt/a folder"
        self.assertEqual(self.make("install", *words).returncode, 0)
        self.installed(prefix, INSTALLED, "/opt/a folder")
        other = prefix / "share/man/man1/other.1"
        other.write_text("another program's")
        self.assertEqual(self.make("uninstall", *words).returncode, 0)
        self.assertEqual([name for name in tree(prefix) if not name.endswith("/")], [str(other.relative_to(prefix))])
        self.assertEqual([name for name in tree(prefix) if "shardscrub" in name], [])

    def test_destdir_of_the_environment(self):
        self.assertEqual(self.make("install", more={"DESTDIR": str(self.folder)}).returncode, 0)
        self.installed(self.folder / "usr/local", INSTALLED, "/usr/local")

    def test_package(self):
        need(*PACKAGE_TOOLS)
        made = self.make("package", f"FOLDER={self.folder / 'a folder'}")
        package = Path(done("release/package", self.folder / "other").strip())
        self.assertEqual(made.stdout, f"{self.folder / 'a folder' / package.name}\n")
        self.assertEqual(Path(made.stdout.strip()).read_bytes(), package.read_bytes())

    def test_a_damaged_program(self):
        copy = self.folder / "copy"
        for name in {origin for _, origin in INSTALLED.values()} | {"release/Makefile", "release/install", "release/SHA256SUMS"}:
            (copy / name).parent.mkdir(parents=True, exist_ok=True)
            shutil.copy(TOP / name, copy / name)
        self.assertEqual(self.make(top=copy).returncode, 0)
        with open(copy / "release/shardscrub", "r+b") as file:
            file.write(b"\x7fELf")
        self.assertNotEqual(self.make("install", f"DESTDIR={self.folder}/stage", top=copy).returncode, 0)
        self.assertFalse((self.folder / "stage").exists())


class Package(OfTheRelease):
    @classmethod
    def setUpClass(cls):
        super().setUpClass()
        need(*PACKAGE_TOOLS)
        cls.passing = tempfile.TemporaryDirectory()
        cls.addClassCleanup(cls.passing.cleanup)
        cls.package = Path(done("release/package", cls.passing.name).strip())

    def control(self):
        lines = done("dpkg-deb", "--field", self.package).split("\nDescription: ")
        return dict(line.split(": ", 1) for line in lines[0].splitlines()), lines[1].splitlines()

    def members(self, package):
        """What is in a package: each member with its bytes, None for a folder."""
        with tarfile.open(fileobj=io.BytesIO(done("dpkg-deb", "--fsys-tarfile", package, text=False))) as archive:
            return [(member, archive.extractfile(member).read() if member.isfile() else None) for member in archive]

    def test_fields(self):
        fields, (short, *long) = self.control()
        version = newest()[0]
        self.assertEqual(self.package, Path(self.passing.name) / f"shardscrub_{version}_amd64.deb")
        members = [data for member, data in self.members(self.package) if member.name != "."]
        size = sum(1 if data is None else -(-len(data) // 1024) for data in members)
        libc = fields.pop("Depends")
        self.assertEqual(fields, FIELDS | {"Version": version, "Installed-Size": str(size)})
        self.assertRegex(libc, r"\Alibc6 \(>= [0-9.]+\)\Z")
        self.assertLessEqual(len(short), 60)
        self.assertTrue(long)
        for line in long:
            self.assertRegex(line, r"\A .{1,79}\Z")

    def test_least_c_library(self):
        need("objdump")
        versions = re.findall(r"\(GLIBC_([0-9.]+)\)", done("objdump", "-T", "release/shardscrub", "release/shardscrub-x86-64-v3"))
        newest_symbols = max(versions, key=lambda version: [int(number) for number in version.split(".")])
        self.assertEqual(self.control()[0]["Depends"], f"libc6 (>= {newest_symbols})")

    def test_files(self):
        members = self.members(self.package)
        wanted = {f"./usr/{name}": mode for name, mode in with_folders(PACKED).items()} | {"./": 0o755, "./usr/": 0o755}
        self.assertEqual({member.name + "/" * member.isdir(): member.mode for member, _ in members}, wanted)
        owners = {(member.uid, member.gid, member.uname, member.gname) for member, _ in members}
        self.assertEqual(owners, {(0, 0, "root", "root")})
        self.assertEqual({member.mtime for member, _ in members}, {newest()[1]})
        for member, data in members:
            if data is not None:
                origin = PACKED[member.name.removeprefix("./usr/")][1]
                self.copied(member.name, data, origin, "/usr/share")

    def member(self, name):
        return next(data for member, data in self.members(self.package) if member.name == f"./usr/share/{name}")

    def test_changelog(self):
        """It has Debian's form, and each entry of CHANGELOG.md from 1.0.0 on with its day and its words. No two have the same time."""
        text = gzip.decompress(self.member("doc/shardscrub/changelog.gz")).decode()
        form = r"shardscrub \(([0-9.]+)\) unstable; urgency=medium\n\n((?:  .*\n|\n)+?)\n -- (.*)  (.*)\n\n"
        self.assertRegex(text, rf"\A(?:{form})+\Z")
        source = LINK.sub(r"\1", (TOP / "CHANGELOG.md").read_text(encoding="utf-8")).partition("## Before")[0]
        entries = re.findall(r"^## ([0-9.]+), (\S+)\n((?:(?!## ).*\n)*)", source, re.M)
        days = [day for _, day, _ in entries]
        wanted = [(version, re.sub(r"^- ", "* ", body, flags=re.M).split(), FIELDS["Maintainer"],
                   datetime.fromisoformat(day).strftime(f"%a, %d %b %Y 00:{days[number + 1:].count(day):02}:00 +0000"))
                  for number, (version, day, body) in enumerate(entries)]
        self.assertGreater(len(wanted), 5)
        self.assertEqual([(version, body.split(), maintainer, day) for version, body, maintainer, day in re.findall(form, text)], wanted)
        self.assertEqual([line for line in text.splitlines() if len(line) > 80 and not line.startswith(" -- ")], [])

    def test_dpkg_reads_the_changelog(self):
        need("dpkg-parsechangelog")
        (self.folder / "changelog").write_bytes(gzip.decompress(self.member("doc/shardscrub/changelog.gz")))
        ended = run("dpkg-parsechangelog", "-l", self.folder / "changelog", "--all", "--format", "rfc822")
        self.assertEqual((ended.returncode, ended.stderr), (0, ""))
        self.assertEqual(re.findall("^Version: (.*)$", ended.stdout, re.M)[0], newest()[0])

    def test_no_licence_has_been_granted(self):
        """README's first screen and the package say the same."""
        line = "none has been granted yet; all rights are with the owner"
        self.assertIn(f"**Licence**: {line}.", (TOP / "README.md").read_text(encoding="utf-8").splitlines()[:20])
        text = self.member("doc/shardscrub/copyright").decode()
        self.assertRegex(text, r"(?m)^Copyright \(C\) \d{4} ")
        self.assertIn(line.replace("none", "No licence"), text)

    def test_overrides(self):
        """The programs aren't stripped, so that they stay the released ones; nothing else is overridden."""
        lines = self.member("lintian/overrides/shardscrub").decode().splitlines()
        self.assertEqual([line for line in lines if not line.startswith("#")], ["shardscrub: unstripped-binary-or-object *"])

    def test_checksums(self):
        done("dpkg-deb", "--control", self.package, self.folder)
        self.assertEqual(tree(self.folder), {"control": 0o644, "md5sums": 0o644, "postinst": 0o755, "prerm": 0o755})
        lines = sorted(f"{hashlib.md5(data).hexdigest()}  {member.name.removeprefix('./')}"
                       for member, data in self.members(self.package) if data is not None)
        self.assertEqual(sorted((self.folder / "md5sums").read_text().splitlines()), lines)

    def test_same_bytes(self):
        time.sleep(1.1)
        (self.folder / "passing").mkdir()
        again = done("release/package", self.folder / "again", umask=0o077,
                     more={"LC_ALL": "C", "TZ": "Pacific/Auckland", "TMPDIR": str(self.folder / "passing")})
        self.assertEqual(Path(again.strip()).read_bytes(), self.package.read_bytes())
        self.assertEqual(os.listdir(self.folder / "passing"), [])

    def test_time_of_the_environment(self):
        for given in ("1000000000", "4000000000"):
            package = done("release/package", self.folder, more={"SOURCE_DATE_EPOCH": given}).strip()
            self.assertEqual({member.mtime for member, _ in self.members(package)}, {int(given)})

    def test_folder_of_its_own(self):
        package = Path(done("release/package", more={"TMPDIR": str(self.folder)}).strip())
        self.assertEqual(package.read_bytes(), self.package.read_bytes())
        self.assertEqual(os.listdir(self.folder), [package.parent.name])

    def test_lintian(self):
        """It finds no error."""
        need("lintian", "man")
        found = run("lintian", *["--allow-root"] * (os.geteuid() == 0), "--fail-on", "error", self.package)
        self.assertEqual((found.returncode, found.stdout), (0, ""))

    def test_mandoc(self):
        """It warns of nothing."""
        need("mandoc")
        found = run("mandoc", "-T", "lint", "-W", "warning", "docs/shardscrub.1")
        self.assertEqual((found.returncode, found.stdout), (0, ""))

    def test_man_page(self):
        need("man")
        page, = [data for member, data in self.members(self.package) if member.name.endswith(".1.gz")]
        shown = run("man", "--warnings", "-l", "-", input=gzip.decompress(page), text=False)
        self.assertEqual((shown.returncode, shown.stderr), (0, b""))
        self.assertIn(b"SHARDSCRUB(1)", shown.stdout)


class Dpkg(OfTheRelease):
    @classmethod
    def setUpClass(cls):
        super().setUpClass()
        need("dpkg", *PACKAGE_TOOLS)
        passing = tempfile.TemporaryDirectory()
        cls.addClassCleanup(passing.cleanup)
        cls.package = done("release/package", passing.name).strip()

    def setUp(self):
        super().setUp()
        self.root = self.folder / "root"
        (self.root / "var/lib/dpkg/info").mkdir(parents=True)
        (self.root / "var/lib/dpkg/updates").mkdir()
        (self.root / "var/lib/dpkg/status").touch()
        self.dpkg("--force-depends", "--install", self.package)

    def dpkg(self, *words):
        # Some machines are set up to leave out man pages and documents. The scripts run on this machine, for that root.
        return done("dpkg", f"--root={self.root}", f"--log={self.folder}/log", "--force-not-root", "--force-script-chrootless",
                    "--path-include=*", *words)

    def state(self):
        return run("dpkg-query", f"--admindir={self.root}/var/lib/dpkg", "-W", "-f", "${db:Status-Abbrev}", "shardscrub")

    def test_installed(self):
        self.assertEqual(self.state().stdout, "ii ")
        self.installed(self.root / "usr", PACKED, "/usr")
        self.runs(self.root / "usr/bin/shardscrub")
        self.assertEqual(self.dpkg("--verify", "shardscrub"), "")

    def test_row(self):
        need(*ROW_TOOLS)
        path = f"{self.root}/usr/bin:{os.environ['PATH']}"
        for command, first in (("scan", r'"broken":\[\]'), ("summary", '"verdict":"sound"')):
            row = done(self.root / "usr/share/shardscrub/view/row", command, "a disk\texamples/one-shard.img\t64\t4\t3\t-\t-",
                       more={"PATH": path})
            self.assertRegex(row, rf'\A\{{"disk":"a disk","status":0,"text":"",.*,{first},.*\}}\n\Z')

    def test_metrics(self):
        need("flock", *METRICS_TOOLS)
        summary = done(self.root / "usr/bin/shardscrub", "summary", "examples/one-shard.img")
        metrics = done(self.root / "usr/share/shardscrub/view/metrics", "sda", input=summary)
        self.assertIn('\nshardscrub_verdict{disk="sda"} 0\n', metrics)
        done(self.root / "usr/share/shardscrub/view/monitoring/nightly", "sda", self.folder, "examples/one-shard.img")
        scan, numbers = (self.folder / "shardscrub-sda.prom").read_text().split("# HELP shardscrub_verdict")
        self.assertIn('\nshardscrub_answered{disk="sda"} 1\n', scan)
        self.assertEqual("# HELP shardscrub_verdict" + numbers, metrics)

    def test_timers(self):
        """Those of the package are disabled before it is removed, and no others. An upgrade leaves all."""
        units = self.root / "etc/systemd/system"
        wants, others = units / "timers.target.wants", units / "other.target.wants"
        own = [wants / "shardscrub@sdb.timer", wants / r"shardscrub@disk-by\x2did-a b.timer", others / "shardscrub@sdc.timer"]
        other = [wants / "shardscrubs@sdb.timer", wants / "other.timer", wants / "shardscrub@sdb.service", units / "shardscrub@.timer"]
        for link in own + other:
            link.parent.mkdir(parents=True, exist_ok=True)
            link.symlink_to("/usr/lib/systemd/system/shardscrub@.timer")
        self.dpkg("--force-depends", "--install", self.package)
        self.assertEqual([link for link in own + other if not link.is_symlink()], [])
        self.dpkg("--remove", "shardscrub")
        self.assertEqual([link for link in own + other if link.is_symlink()], other)

    def test_removed(self):
        for way in ("--remove", "--purge"):
            with self.subTest(way=way):
                self.dpkg(way, "shardscrub")
                self.assertEqual([name for name in tree(self.root) if not name.startswith("var/")], [])
                self.assertEqual([name for name in tree(self.root) if "shardscrub" in name], [])
                self.assertNotEqual(self.state().returncode, 0)
                self.dpkg("--force-depends", "--install", self.package)


TRANSCRIPT = Installed()


def setUpModule():
    if platform.machine() != "x86_64":
        raise unittest.SkipTest("the released program is for x86-64")
    unittest.addModuleCleanup(TRANSCRIPT.close)


def load_tests(loader, tests, _):
    """Adds a test for each example of the installed pages."""
    tests.addTests(ExampleCase(TRANSCRIPT, number) for number in range(len(TRANSCRIPT.examples)))
    return tests


if __name__ == "__main__":
    unittest.main()
