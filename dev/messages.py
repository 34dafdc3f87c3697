#!/usr/bin/env python3
"""Makes the tables of docs/READING.md that say what each message means: what is wrong, what to do, and an example that is right.

The messages are in this file, in the order of the tables; dev/manual.py puts them into the man page, too. tests/test_messages.py sees
that each text of the program has its row, and runs each example, and the wrong command lines of tests/lib/wrong_lines.py, each with the
row that explains it.

In the text of a message a name of `VARYING` stands for what varies. A word of the command line or the output is in backquotes.
"""
import re
import sys
from typing import NamedTuple

from options import replace_table
from pages import TOP, run_tool

READING = TOP / "docs/READING.md"
# The names for what varies in a message, and which texts they stand for.
VARYING = {"NN": r"\d\d", **dict.fromkeys(("K", "MOST", "N", "PAGE"), r"\d+"),
           **dict.fromkeys(("ARG", "FOLDER", "ID", "LINE", "NAME", "OPTION", "STATE", "VALUE", "WORD"), ".*")}
NAMES = re.compile(rf"(?<![\w<-])(?:{'|'.join(VARYING)})(?![\w>-])")


class Message(NamedTuple):
    """A message: its text; what is wrong, and what to do; the arguments of a run that is right or says more, and its status; and where to
    read on: a document and a heading, or "" for the whole document. `status` is that of a run with the message, if not that of the group."""
    text: str
    wrong: str
    to_do: str
    example: str
    read: tuple[str, str]
    ends: int = 0
    status: int | None = None


class Group(NamedTuple):
    """Messages of a kind: the title of the table's first column, what the man page says of them all, their status, and what is in front of
    their text; nothing is if they aren't texts, but descriptions."""
    column: str
    about: str
    status: int
    before: str
    messages: list[Message]


SUMMARY = "summary examples/one-shard.img"
SIZED = "--page 64 --pages 4 --extents 3 examples/one-shard.img"
RESCUED = "summary --page 512 --pages 4 --extents 4 --map examples/rescued.map examples/rescued.img"
SEVERAL = "manifest --page 64 --pages 16 --extents 5 {}examples/several-findings.img"

README, REPORT = ("../README.md", ""), ("REPORT.md", "")
RUNNING = "../README.md", "Installing and running"
RAW_IMAGE = "FORMAT.md", "Raw image"
SIZES = "READING.md", "What sizes does my disk have?"
SHARD = "READING.md", "Getting a shard back"
MAP = "REPORT.md", "A map of what couldn't be read"
REMARKS = "REPORT.md", "Remarks on superblocks"
GIVEN_RUNS = "REPORT.md", "Runs that are given"
ARCHIVE = "REPORT.md", "All shards"
NOTHING_KNOWN = "REPORT.md", "Without a superblock"


def limit(name, wrong):
    """The message for sizes that break a limit."""
    to_do = "The last three numbers of a line of `sizes` are those for `--page`, `--pages` and `--extents`."
    return Message(f"geometry refused: {name}", wrong, to_do, f"summary {SIZED}", RAW_IMAGE)


FAULTS = Group("After `shardscrub:`", "There is no answer, or only a part of one. The line begins with `shardscrub:`.", 2, "shardscrub: ", [
    Message("a word is not UTF-8", "An argument isn't UTF-8, such as an old file name.", "Give the file another name, or make a link to it.",
            SUMMARY, REPORT),
    limit("PageSize", "`--page`, the bytes of a page, isn't a power of two from 64 to 65,536."),
    limit("Pages", "`--pages`, the pages of an extent, isn't from 1 to 65,536."),
    limit("Extents", "`--extents`, extent 0 included, isn't from 2 to 65,536."),
    limit("ExtentBytes", "`--page` × `--pages` is more than 67,108,864 bytes (64 MiB)."),
    limit("TotalBytes", "`--page` × `--pages` × `--extents` is more than 4,294,967,296 bytes (4 GiB)."),
    Message("sizes not found: run shardscrub sizes",
            "The sizes were left out, and the first 64 MiB have no superblock record that can be read, or records of several sizes.",
            "Give the sizes, as the node's records have them.", "summary --page 64 --pages 4 --extents 3 examples/no-superblock.img", SIZES, 1),
    Message("sizes not certain: records were found, but bytes of the first 64 MiB can't be read; give --page, --pages and --extents "
            "(shardscrub sizes lists them)",
            "The sizes were left out. Where bytes can't be read there may be a record of other sizes.",
            "If the sizes that `sizes` lists are the disk's, give them.", RESCUED, SIZES, 1),
    Message("extent out of range", "`--extent` or `--reset` names an extent that the disk doesn't have, or `--reset` names extent 0.",
            "Count extents from 0: the last one is `--extents` less 1.", "items --extent 2 examples/one-shard.img", RAW_IMAGE),
    Message("shard refused: ID", "ID isn't an identifier of a shard: these have 32 hexadecimal digits, without hyphens or `0x`. "
            "Leading zeros are a part of it.",
            "Copy it from a line of `locators`, after the word `shard`.", "shard --id 00000000000000000000000000000001 examples/one-shard.img", SHARD),
    Message("pointer out of range", "`--pointer` is more than the bytes of an extent, `--page` × `--pages`.",
            "Count from the start of the extent.", "items --extent 1 --pointer 41 examples/one-shard.img", RAW_IMAGE),
    Message("run refused: WORD",
            "`--run` takes the place of an index run: `EXTENT:OFFSET`, such as `2:0`, in decimal digits alone. WORD isn't that, or the disk has "
            "no such place outside extent 0.",
            "Write the two numbers of a line of `runs`, after `run`, with a colon in between.", "shards --run 2:0 examples/one-shard.img", GIVEN_RUNS),
    Message("bad page refused: ARG",
            "What follows the image are unreadable pages, and ARG isn't one. No page is `1`, `1:2-3`, `1:2,1:3` or `a:b`, nor is `1:9` on a disk "
            "with 4 pages in an extent.",
            "Write `EXTENT:PAGE`, both counted from 0: EXTENT is below `--extents`, PAGE below `--pages`. Make each page an argument of its own, "
            "without commas, ranges or signs.", "scan examples/several-findings.img 3:1 3:5", RAW_IMAGE, 1),
    Message("map cannot be opened: NAME",
            "There is no such file, you may not read it, a read of it failed, or it is a folder, a pipe or a character device.",
            "`ls -lL NAME` shows which. Give the file that ddrescue wrote beside the image.",
            "sizes --map examples/rescued.map examples/rescued.img", MAP, 1, 3),
    Message("map refused: line K",
            "Line K isn't one of a map of ddrescue: first the state, such as `0x0800 + 1`, then a block a line, such as `0x0000 0x0800 +`: "
            "position, size, and one of `?*/-+`, by ascending position. If K is 1: is the file an image? If the file has fewer lines, it is "
            "empty, or has only comments.", "Give the file that ddrescue wrote beside the image.", RESCUED, MAP, 1),
    Message("image cannot be opened: NAME",
            "There is no such file, you may not read it, or it is a folder, a pipe or a character device. `-` doesn't mean the standard input.",
            "`ls -lL NAME` shows which. Give a file or a block device, in front of all `EXTENT:PAGE`. To read a block device, be root.",
            SUMMARY, ("READING.md", "Making the image"), 0, 3),
    Message("image too long",
            "The image has more bytes than the disk, `--page` × `--pages` × `--extents`. `stat -c %s FILE` or `blockdev --getsize64 DRIVE` says how "
            "many it has.",
            "Check the sizes, and that nothing is in front of the disk. If the drive is longer than the disk, scan the device that `losetup -r "
            "--sizelimit BYTES -f --show DRIVE` prints; BYTES are the disk's.", f"summary {SIZED}",
            ("READING.md", "A drive that is longer than the disk"), 0, 3),
    Message("run not found: WORD",
            "No index run that can be read begins at WORD, the `EXTENT:OFFSET` of `--run`. The offset is in bytes from the start of the extent.",
            "Copy both numbers from a line of `runs`.", f"runs {SIZED}", GIVEN_RUNS),
    Message("no such shard",
            "No index run that can be read has the shard. It was deleted, its run is lost, there is no superblock, or the identifier is wrong.",
            "See which runs and shards are known.", "locators examples/one-shard.img", SHARD, 0, 1),
    Message("payload lost: NN",
            "Nothing was written. The payload of locator NN of the shard, counted from 00, is neither at its place nor anywhere else that is "
            "searched.", "See what is left, and look for another copy of the data.", SEVERAL.format("") + " 3:1", SHARD, 1, 1),
    Message("output failed after N bytes", "The file system is full, or the program behind a pipe has ended. What was written isn't an answer.",
            "Discard it, make room, and run the command again.", SUMMARY, REPORT, 0, 3),
    Message("out of memory", "Memory ran out, or a limit was reached, such as `ulimit -v` or that of a service.",
            "Raise the limit, or take fewer workers. The image is in memory, except pages of zeros.",
            "summary --workers 0 examples/one-shard.img", RUNNING, 0, 4),
])

INVALID = "invalid value 'VALUE' for 'OPTION': "
REFUSALS = Group("After `error:`", "The command line is refused. The message begins with `error:`.", 2, "error: ", [
    Message("unrecognized subcommand 'WORD'", "There is no such command.", "The first argument is the command; `help` lists all.", SUMMARY, README),
    Message("unexpected argument 'WORD' found",
            "The command has no such option, or takes no further argument. A word that begins with `-` counts as an option.",
            "Write options after the command, and `./-disk.img` for a file `-disk.img`.", "items --extent 1 examples/one-shard.img 1:3", REPORT, 1),
    Message("unexpected value 'VALUE' for 'OPTION' found; no more were expected", "The option takes no value.", "Leave the value out.",
            "--version", REPORT),
    Message("the following required arguments were not provided:", "The next lines say what is missing.",
            "`reclaimable`, `compare`, `manifest`, `runs` and `index` need all three sizes, `items` an extent, `shard` an identifier, `compare` two "
            "images.",
            f"reclaimable {SIZED}", REPORT),
    Message("the following arguments are given together or not at all:", "One or two of the three sizes are missing.",
            "Give all three, or none.", f"summary {SIZED}", ("REPORT.md", "Sizes that are left out")),
    Message(INVALID + "VALUE is not in 0..=MOST", "The number is above MOST.", "`--workers` takes 0 to 64.",
            "summary --workers 64 examples/one-shard.img", REPORT),
    Message(INVALID + "number too large to fit in target type", "The number is too large for any option.",
            "`--last` takes a number below 2^64, each other option one below 2^32.", "summary --last 1 examples/one-shard.img", REPORT),
    Message(INVALID + "invalid digit found in string", "The value isn't a whole decimal number.",
            "Write nothing but digits: no unit, no comma, no `0x`.", f"summary {SIZED}", REPORT),
    Message(INVALID + "cannot parse integer from empty string", "The value is empty. Perhaps a variable of the shell isn't set.",
            "Give a number, or leave out the option.", SUMMARY, REPORT),
    Message("invalid value 'LINE' for '--accept <LINE>': not a line of a doubt that can be accepted, without the word doubt",
            "LINE doesn't begin as a doubt that can be accepted. Not all can be; `tie` can't.",
            "Copy the line of `reclaimable` without the word `doubt`, and quote it.",
            "reclaimable --page 64 --pages 8 --extents 5 --accept 'tail 1 0 38' examples/tail.img", ("REPORT.md", "The doubts")),
    Message("a value is required for 'OPTION' but none was supplied", "The option is the last word, or another option follows it.",
            "Write its value after it.", "summary --workers 2 examples/one-shard.img", REPORT),
    Message("the argument 'OPTION' cannot be used multiple times", "The option is given twice.",
            "Give it once. Only `--run`, `--reset` and `--accept` may be repeated.", SEVERAL.format("--reset 1 --reset 2 "), REPORT, 1),
    Message("the argument '--run <EXTENT:OFFSET>' cannot be used with '--reset <EXTENT>'",
            "With `--run` the superblocks don't count, and nothing may be reset.", "Leave one of them out.",
            f"manifest --run 2:0 {SIZED}", GIVEN_RUNS),
])

REMARKS_BESIDE = Group("Beside an answer, after `shardscrub:`",
                       "The answer is whole, but may be older than the disk, or lack something. The line begins with `shardscrub:`.", 1,
                       "shardscrub: ", [
    Message("superblock lost: PAGE",
            "A newer superblock may be lost: page PAGE of extent 0 can't be read, or begins like a superblock but isn't one.",
            "Compare the generation of the line with `counts` with the node's log.", "superblocks examples/flipped-bit.img", REMARKS, 1),
    Message("tie", "Several superblocks have the greatest generation. The one on the lowest page is used; another may be the right one.",
            "See where they are, and ask the node's log.", "superblocks examples/tie.img", REMARKS, 1),
    Message("no superblock", "No superblock is valid, so no shard is known, and the archive is empty.", "Check the sizes.",
            "sizes examples/one-shard.img", NOTHING_KNOWN),
    Message("no superblock record in the first 64 MiB",
            "`sizes` found nothing. The image isn't one of such a disk, doesn't begin where the disk does, or has only damaged records.",
            "See whether it is the right file.", "sizes examples/one-shard.img", SIZES),
    Message("run lost: K STATE", "Index run K is lost; STATE says why. Shards that only this run has aren't in the archive.",
            "See where the run is.", "locators examples/lost-run.img", ARCHIVE, 1),
    Message("payload lost: ID NN", "Shard ID isn't in the archive, since the payload of its locator NN, counted from 00, is lost.",
            "See what is left, and look for another copy of the data.", SEVERAL.format(""), SHARD, 1),
    Message("a newer entry may be lost", "A lost index run may have a newer entry of the shard. Then these bytes are old.",
            "See which run is lost.", "locators examples/lost-run.img", ("REPORT.md", "The bytes of a shard"), 1),
    Message("a newer entry may be lost: ID", "A lost index run may have a newer entry of shard ID. Then its bytes in the archive are old.",
            "See which run is lost.", "locators examples/lost-run.img", ARCHIVE, 1),
])

ANSWERS = Group("Without a message", "The answer is whole, the status is 1, and there is no message.", 1, "", [
    Message("`verdict wrong` and `superblocks 0`",
            "The sizes are wrong, or no superblock is valid. If `unreadable_pages` is most of the disk, `--pages` or `--extents` is too large: pages "
            "past the image's end can't be read.", "Leave out the sizes, or give those that `sizes` prints.", SUMMARY, SIZES),
    Message("nothing at all",
            "`superblocks` prints nothing if extent 0 has only zeros, and `locators` if no superblock names anything. With status 1 that is wrong.",
            "Ask `summary`, and check the sizes.", "summary --page 64 --pages 4 --extents 3 examples/no-superblock.img", NOTHING_KNOWN, 1),
])

SCRIPT = Group("Before it starts, after `shardscrub:`", "The program isn't started. The line begins with `shardscrub:`, but for the last one.",
               70, "shardscrub: ", [
    Message("SHARDSCRUB_CPU is neither x86-64-v2 nor x86-64-v3: VALUE", "The environment variable has another value.",
            "Unset it, or set one of the two.", "--version", RUNNING),
    Message("no build is up to date, and no released program fits: run dev/build in FOLDER (up to an hour)",
            "A source in FOLDER isn't that of the program.", "Take back what was changed, or run `dev/build`.", "--version", RUNNING),
    Message("FOLDER/lib/shardscrub has no program NAME: install it again", "The installation isn't whole.", "Install it again.", "--version",
            RUNNING),
    Message("the program can't be found, as said above", "A tool of the system failed. The line above says which, and why.",
            "Mend that first.", "--version", RUNNING),
    Message("out of memory before a program was started: the limit is N KiB (ulimit -v)", "The limit is too low for the tools of the shell.",
            "Raise the limit.", "--version", RUNNING),
    Message("this machine lacks a feature of NAME, which this program was built for: run it on another machine, or build it with --cpu x86-64",
            "The processor is too old for the program.",
            "If NAME is x86-64-v3, unset `SHARDSCRUB_CPU`, so that the other program is taken. For x86-64-v2 take another machine.", "--version",
            RUNNING, 0, 127),
])

GROUPS = (FAULTS, REFUSALS, REMARKS_BESIDE, ANSWERS, SCRIPT)


def status_of(group, message):
    """The status of a run with this message."""
    return group.status if message.status is None else message.status


def parts_of(text):
    """The parts of a message's text, each with whether it stands for what varies."""
    ends = [0, *(end for name in NAMES.finditer(text) for end in name.span()), len(text)]
    return [(text[begin:end], number % 2 == 1) for number, (begin, end) in enumerate(zip(ends, ends[1:])) if begin < end]


def pattern(text):
    """The texts that may be printed for a message."""
    return "".join(VARYING[part] if varies else re.escape(part) for part, varies in parts_of(text))


def explained(line):
    """The messages that a line of the error stream may be."""
    return [message for group in GROUPS if group.before for message in group.messages
            if re.fullmatch(pattern(message.text), line.removeprefix(group.before))]


def link(page, heading):
    """A link to a heading of a page, or to a page."""
    if heading == "":
        return f"[{page.rpartition('/')[2].removesuffix('.md')}]({page})"
    return f"[{heading}]({page.removeprefix('READING.md')}#{re.sub(r'[^a-z0-9 -]', '', heading.lower()).replace(' ', '-')})"


def table(group):
    """The rows of a group's table."""
    marks = "`" if group.before else ""
    return [f"| {group.column} | What is wrong, and what to do | Example | Read |", "|---|---|---|---|",
            *(f"| {marks}{one.text}{marks} | {one.wrong} {one.to_do} | `{one.example}` | {link(*one.read)} |" for one in group.messages)]


def made():
    faults, text = [], READING.read_text(encoding="utf-8")
    for group in GROUPS:
        text = replace_table(text, table(group), faults, "docs/READING.md")
    return {READING: text}, faults


if __name__ == "__main__":
    sys.exit(run_tool("dev/messages.py", __doc__, made))
