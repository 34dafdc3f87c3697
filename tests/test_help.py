"""The program's help and version, and the tables of dev/options.py from which the documents and the completions have theirs."""
import os
import re
import subprocess
import sys

from lib.cases import Case, RoomCase, add_tests
from lib.program import TOP, need, program

sys.path.insert(0, str(TOP / "dev"))
import options  # noqa: E402
from options import COMMANDS, OPTIONS, about, arguments_of, help_of, options_of, plain, required_of  # noqa: E402

# The statuses of the program as its help has them.
STATUSES = {
    0: "clean",
    1: "findings, or a shard that cannot be had",
    2: "the arguments or the map are invalid, or no sizes are found",
    3: "the image or the map cannot be opened, the image is too long, or the output failed",
    4: "out of memory",
}
# What clap adds by itself.
OWN_OPTIONS = [("-h, --help", "Print help"), ("-V, --version", "Print version")]
OWN_COMMAND = ("help", "Print this message or the help of the given subcommand(s)")


def said(*words):
    """What the program says on the error stream, and on the output with --version."""
    done = subprocess.run([program(), *words], capture_output=True, text=True, timeout=300)
    return done.returncode, done.stdout, done.stderr


def part_of(text, title):
    """The rows of a part of the help: a name and its sentence, with two blanks or more between them."""
    found = re.search(rf"^{title}:\n((?:  .*\n)+)", text, re.M)
    return [tuple(re.split(r" {2,}", line.strip(), maxsplit=1)) for line in found[1].splitlines()] if found else []


def statuses_of(text):
    """The statuses of a help and what they mean, each on one line."""
    found = re.search(r"^Exit status[^\n]*:\n((?:  .*\n?)+)", text, re.M)
    lines = re.sub(r"\n {3,}", " ", found[1]).splitlines()
    return {int(number): meaning for number, meaning in (re.split(r" {2,}", line.strip(), maxsplit=1) for line in lines)}


def written(name):
    """An option of the help: its name and that of its value, if it isn't a flag."""
    return f"{name} <{OPTIONS[name].value}>" if OPTIONS[name].value else name


class Help(Case):
    def check(self, name):
        """The help of a command has its sentence, its arguments, options and statuses."""
        command = COMMANDS[name]
        status, out, text = said(name, "--help")
        self.same("status and output", (status, out), (0, ""))
        self.same("the same after the word help", said("help", name), (status, out, text))
        self.same("the sentence", text.split("\n")[0], about(name))
        used = ["shardscrub", name, *["[OPTIONS]"] * (options_of(command) != ()), *map(written, required_of(command)),
                *(f"<{image}>" for image in command.images), *["[EXTENT:PAGE]..."] * command.takes_pages]
        self.same("the usage", re.search("^Usage: (.*)$", text, re.M)[1], " ".join(used))
        arguments = [(f"[{one}]..." if OPTIONS[one].is_repeated else f"<{one}>", OPTIONS[one].help) for one in arguments_of(command)]
        self.same("the arguments", part_of(text, "Arguments"), arguments)
        wanted = [(written(one), help_of(one, command)) for one in options_of(command)]
        self.same("the options", part_of(text, "Options"), wanted + OWN_OPTIONS[:1])
        self.same("which may be repeated", [one for one in options_of(command) if OPTIONS[one].help.endswith("May be repeated")],
                  [one for one in options_of(command) if OPTIONS[one].is_repeated])
        self.check_statuses(name, command, text)

    def check_statuses(self, name, command, text):
        if name == "scan":
            self.true("the statuses", f"\nExit status: 0 if {plain(command.ok)}, 1 if {command.not_ok}; for the others see" in text)
            return
        found = statuses_of(text)
        both = [plain(command.ok), *[plain(command.not_ok)] * (command.not_ok != "")]
        self.same("the statuses 0 and 1", [found.get(number) for number in range(len(both))], both)
        unfound, too_long, unopened = ", or no sizes are found", "the image is too long, or ", STATUSES[3].partition(", the image is")[0]
        invalid = STATUSES[2] if command.sizes is False else STATUSES[2].removesuffix(unfound)
        failed = STATUSES[3] if command.takes_pages else f"{unopened}, or the output failed" if command.images else "the output failed"
        self.true(f"status 3 of {name}", found[3].partition(":")[0] == failed, found[3])
        self.same("the other statuses", (found.get(2), found[4]), (invalid if command.images else None, STATUSES[4]))
        self.true("the words of status 2 and 3", unfound in STATUSES[2] and too_long in STATUSES[3])

    def test_the_program(self):
        """The commands in their order, and the statuses."""
        status, out, text = said("--help")
        self.same("status and output", (status, out), (0, ""))
        commands = [(name, about(name)) for name in COMMANDS]
        self.same("the commands", part_of(text, "Commands"), [*commands, OWN_COMMAND])
        self.same("the options", part_of(text, "Options"), OWN_OPTIONS)
        self.same("the statuses", statuses_of(text), STATUSES)

    def test_version(self):
        """The newest entry of CHANGELOG.md, from which README.md and the man page have it, is of the program's version."""
        self.same("--version", said("--version"), (0, f"shardscrub {options.version()[0]}\n", ""))


SHELLS = TOP / "release/completions"
# It prints what bash would offer for the last of these words.
IN_BASH = '. "$0"; COMP_WORDS=("$@"); COMP_CWORD=$(($# - 1)); _shardscrub; for one in "${COMPREPLY[@]}"; do echo "$one"; done'


def helped(name):
    """What the help of a command lists: its options, those of them that may be repeated, and its arguments."""
    text = said(name, "--help")[2]
    rows = [(row.split(" ")[0], about) for row, about in part_of(text, "Options") if row.startswith("--")]
    return ([option for option, _ in rows], [option for option, about in rows if about.endswith("May be repeated")],
            [row.strip("<>[].") for row, _ in part_of(text, "Arguments")])


class Completions(RoomCase):
    """What each shell offers is what the help lists."""

    def offered(self, *words):
        """What bash offers for the last word, in a folder with three files."""
        for name in ("disk.img", "disk two.img", "map"):
            (self.room / name).touch()
        done = subprocess.run(["bash", "--norc", "-c", IN_BASH, SHELLS / "shardscrub.bash", "shardscrub", *words], cwd=self.room,
                              capture_output=True, text=True, timeout=300)
        self.same(f"error stream and status of {words}", (done.stderr, done.returncode), ("", 0))
        return done.stdout.splitlines()

    def test_bash_offers_the_commands(self):
        need("bash")
        commands = [name for name, _ in part_of(said("--help")[2], "Commands")]
        self.same("at first", self.offered(""), [*commands, "--help", "--version"])
        self.same("after s", self.offered("s"), [name for name in commands if name.startswith("s")])
        self.same("after help", self.offered("help", ""), commands)
        self.same("after help and a command", self.offered("help", "scan", ""), [])

    def test_bash_offers_the_options_of_each_command(self):
        need("bash")
        for name in COMMANDS:
            options, repeated, _ = helped(name)
            self.same(f"{name} --", self.offered(name, "--"), [*options, "--help"])
            for option in options:
                left = [one for one in options if one != option or one in repeated]
                self.same(f"{name} {option} 1 --", self.offered(name, option, "1", "--"), [*left, "--help"])

    def test_bash_offers_files(self):
        """For each image and for the map, and for nothing else."""
        need("bash")
        files = ["disk two.img", "disk.img", "map"]
        for name in COMMANDS:
            options, _, arguments = helped(name)
            images = [one for one in arguments if one != "EXTENT:PAGE"]
            for number in range(len(images) + 1):
                self.same(f"{name}, {number} images", sorted(self.offered(name, *["disk.img"] * number, "")),
                          files if number < len(images) else [])
            for option in options:
                after_flag = files if images and not OPTIONS[option].value else []
                wanted = {"--map": files, "--page": [str(1 << bit) for bit in range(6, 17)]}.get(option, after_flag)
                self.same(f"{name} {option}", sorted(self.offered(name, option, "")), sorted(wanted))
        self.same("a beginning", self.offered("scan", "--map", "disk\\ t"), [])
        self.same("a beginning", self.offered("scan", "--map", "disk t"), ["disk two.img"])
        self.same("with =", self.offered("scan", "--map", "=", "m"), ["map"])
        self.same("directly after =", sorted(self.offered("scan", "--map", "=")), files)

    def check_listed(self, shell, listed):
        """Checks what a file lists: the commands, and for each of them what `helped` gives, with the number of images."""
        self.same(f"{shell}: commands", [*listed], list(COMMANDS))
        for name, (options, repeated, images) in listed.items():
            right = helped(name)
            wanted = right[0], right[1] if repeated is not None else None, sum(one != "EXTENT:PAGE" for one in right[2])
            self.same(f"{shell}: {name}", (options, repeated, images), wanted)

    def test_zsh_has_the_same(self):
        text = (SHELLS / "_shardscrub").read_text(encoding="utf-8")
        blocks = re.findall(r"^ {12}(\w+)\) _arguments((?: \\\n {16}.*)+) ;;$", text, re.M)
        self.check_listed("zsh", {name: (re.findall(r"^ +'\*?(--\w+)[=[]", block, re.M), re.findall(r"^ +'\*(--\w+)=", block, re.M),
                                         len(re.findall(r"^ +'\d:[A-Z]+:_files'", block, re.M))) for name, block in blocks})
        self.same("the first line", text.partition("\n")[0], "#compdef shardscrub")

    def test_fish_has_the_same(self):
        text = (SHELLS / "shardscrub.fish").read_text(encoding="utf-8")
        names = re.findall(r'-n "\$none" -f -a (\w+) ', text)
        without = re.search(r"__fish_seen_subcommand_from ([\w ]+)' -f$", text, re.M)[1].split()
        self.check_listed("fish", {
            name: ([f"--{option}" for option in re.findall(rf"__fish_seen_subcommand_from {name}' .*-l (\w+) ", text)], None,
                   0 if name in without else len(COMMANDS[name].images)) for name in names if name != "help"})

    def test_zsh_reads_it(self):
        need("zsh")
        done = subprocess.run(["zsh", "-n", SHELLS / "_shardscrub"], capture_output=True, text=True)
        self.same("zsh -n", (done.returncode, done.stderr), (0, ""))

    def test_fish_reads_it(self):
        need("fish")
        done = subprocess.run(["fish", "--no-execute", SHELLS / "shardscrub.fish"], capture_output=True, text=True)
        self.same("fish --no-execute", (done.returncode, done.stderr), (0, ""))


class Examples(RoomCase):
    def test_the_examples_of_the_help_run(self):
        """In a folder with examples/, with status 0 and nothing on the error stream."""
        (self.room / "examples").symlink_to(TOP / "examples")
        start = self.room / "bin/shardscrub"
        start.parent.mkdir()
        start.symlink_to(self.program)
        lines = {line.strip() for words in ([], *([name] for name in COMMANDS))
                 for line in re.findall(r"^  shardscrub .*examples/.*$", said(*words, "--help")[2], re.M)}
        self.true("there are some", len(lines) >= len(COMMANDS) - 1, lines)
        for line in sorted(lines):
            done = subprocess.run(["sh", "-c", line], cwd=self.room, env=os.environ | {"PATH": f"{start.parent}:{os.environ['PATH']}"},
                                  capture_output=True, timeout=300)
            self.same(line, (done.returncode, done.stderr), (0, b""))


class Tool(Case):
    def test_what_it_makes(self):
        """docs/REPORT.md, README.md and the completions have what the tables say."""
        done = subprocess.run([sys.executable, TOP / "dev/options.py", "--check"], capture_output=True, text=True,
                              stdin=subprocess.DEVNULL)
        self.true("dev/options.py", done.returncode == 0, done.stdout + done.stderr)


add_tests(Help, Help.check, ((f"help_of_{name}", name) for name in COMMANDS))
