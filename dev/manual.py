#!/usr/bin/env python3
"""Makes the man page, docs/shardscrub.1, from the texts of the help in crates/scrub_args/src/help_texts.rt, the commands and options in
dev/options.py, the messages in dev/messages.py, and the order of faults in docs/REPORT.md.

A text of the help has paragraphs, and tables whose lines begin with two blanks: words, two blanks or more, and what they mean, which may
go on in lines that begin with more blanks. A table without meanings is printed as it is. Of the statuses of a command the page has 0 and
1, and what the list of the whole program doesn't have. Written by hand, in this file, is what no help has.
"""
import re
import sys
from itertools import groupby

from messages import GROUPS, parts_of, status_of
from options import COMMANDS, OPTIONS, SIZES, TEXTS, about, options_of, required_of, version
from pages import TOP, run_tool

PAGE, REPORT = TOP / "docs/shardscrub.1", TOP / "docs/REPORT.md"
# The paragraph of REPORT that has the order of faults begins so.
ORDER = "Only the first fault is reported."

DESCRIPTION = r"""
It writes nothing to an image or a disk: the script
.I act/plan
prints the copies, the index run and the superblock of a reset, and
.I act/put
writes them.
Take the node off the disk before the image is made, and leave it off until you are done.
For a reset use
.IR act/reclaim ,
which walks from the first image to the erase; docs/RECLAIMING.md explains it.
The same image, sizes and unreadable pages (for
.BR sizes ,
lost blocks) always give the same answer, byte for byte.
"""

REST = r"""
.TP
.B 70
The script
.I shardscrub
has no program to start.
.TP
.B 127
The processor lacks something that the program needs; the error stream says what.
.SH ENVIRONMENT
.TP
.B SHARDSCRUB_CPU
The program that the script
.I shardscrub
starts:
.B x86\-64\-v2
for any processor since about 2009, or
.B x86\-64\-v3
for the faster one.
Both give the same answers.
Unless it is set, the script takes the second one if the processor has what it needs.
.TP
.B GLIBC_TUNABLES
Unless it is set, the script sets it to
.BR glibc.malloc.hugetlb=1:glibc.malloc.mmap_threshold=4194304 ,
which makes scans faster.
"""

END = r"""
.SH FILES
An installation has
.I docs
and
.I examples
in
.IR share/doc/shardscrub ,
and
.I act
and
.I view
in
.IR share/shardscrub .
.TP
.I docs/RECLAIMING.md
Resetting extents: the command, its stops, the way by other tools.
.TP
.I docs/READING.md
What the answers mean; making an image, a failing drive, many disks.
.TP
.I docs/REPORT.md
The report and the listings, key by key and line by line.
.TP
.I docs/FORMAT.md
The format of the disk, byte by byte.
.TP
.I act
Scripts: the walk of a reset and its writes, the walk of a dead node's disk, an order for index runs.
.TP
.I view
A page that draws a report, and what runs every night.
.SH EXAMPLES
Whether a disk is all right, and whether the superblock that counts has generation 2, the last one in the node's log:
.PP
.EX
$ shardscrub summary examples/one\-shard.img | head \-n 1
verdict sound
$ shardscrub summary \-\-last 2 examples/one\-shard.img | head \-n 1
verdict doubt
.EE
.PP
Why a locator dangles if page 1 of extent 2 can't be read:
.PP
.EX
$ shardscrub scan examples/one\-shard.img 2:1 | jq \-c '.dangling[] | [.owner, .reason]'
["run 0","unreadable"]
.EE
.SH "SEE ALSO"
.BR cmp (1),
.BR ddrescue (1),
.BR diff (1),
.BR jq (1)
"""


def roff(text):
    """A text as a line of input. A quote that is no apostrophe stays as it is, to be copied."""
    text = text.replace("\\", "\\e").replace("-", "\\-")
    text = re.sub(r"(?<!\w)'|'(?!\w)", r"\\(aq", text)
    return f"\\&{text}" if text.startswith((".", "'")) else text


def marked(words):
    """The words of a line that the program prints or takes: names for values in italics, the others bold."""
    parts = [(bool(re.fullmatch(r"[A-Z]+,?|\.\.", word)), word) for word in words.split(" ")]
    return " ".join(f"\\f{'I' if is_value else 'B'}{roff(' '.join(word for _, word in group))}\\fP"
                    for is_value, group in groupby(parts, lambda part: part[0]))


def rows_of(lines):
    """The rows of a table: words, and what they mean, if it says so."""
    rows = []
    for line in lines:
        if re.match(r"  \S", line):
            words, _, meaning = re.sub(r" {2,}", "\0", line.strip(), count=1).partition("\0")
            rows.append((words, meaning))
        else:
            words, meaning = rows[-1]
            rows[-1] = (words, f"{meaning} {line.strip()}".strip())
    return rows


def table(lines):
    """A table as input: a list of words with their meanings, or the lines as they are."""
    rows = rows_of(lines)
    if not any(meaning for _, meaning in rows):
        return [".PP", ".nf", ".RS", *(roff(line[2:]) for line in lines), ".RE", ".fi"]
    out, is_new = [], True
    for words, meaning in rows:
        out += [".TP" if is_new else ".TQ", marked(words), *([roff(meaning)] if meaning else [])]
        is_new = meaning != ""
    return out


def body(text):
    """A text of the help as input."""
    out = []
    for block in text.split("\n\n"):
        for is_table, lines in groupby(block.split("\n"), lambda line: line.startswith("  ")):
            out += table([*lines]) if is_table else [".PP", *map(roff, lines)]
    return out


def parted(text):
    """A text of the help before its statuses, the rows of these, and the text after them."""
    before, head, rest = re.split(r"(?m)^(Exit status[^\n]*:\n)(?=  )", text)
    lines = list(rest.partition("\n\n")[0].split("\n"))
    return before.strip("\n"), head.strip(), rows_of(lines), rest.partition("\n\n")[2]


def command_text(text, statuses):
    """The text of a command, with those of its statuses that the list of the program lacks."""
    if not re.search(r"(?m)^Exit status[^\n]*:\n  ", text):
        return body(text)
    before, head, rows, after = parted(text)
    rows = [(number, meaning) for number, meaning in rows if number in "01" or meaning not in statuses[number]]
    return [*body(before), ".PP", roff(head), *(line for row in rows for line in (".TP", marked(row[0]), roff(row[1]))), *body(after)]


def option_line(name, is_required):
    """An option in the synopsis."""
    value, word = OPTIONS[name].value, roff(name)
    if not value:
        return f".OP {word}"
    if is_required:
        return f".B {word}\n.I {value}"
    return f".RB [ {word}\n.IR {value} ]..." if OPTIONS[name].is_repeated else f".OP {word} {value}"


def synopsis():
    out = []
    for name, command in COMMANDS.items():
        out.append(f'.SY "shardscrub {name}"' if name != "demo" else ".SY shardscrub\n.OP demo")
        options = list(options_of(command))
        if command.sizes is False:
            out.append(".RB [ \\-\\-page\n.I BYTES\n.B \\-\\-pages\n.I COUNT\n.B \\-\\-extents\n.IR COUNT ]")
            options = options[len(SIZES):]
        out += [option_line(one, one in required_of(command)) for one in options]
        out += [f".I {' '.join(command.images)}"] * (command.images != ()) + [".RI [ EXTENT : PAGE ]..."] * command.takes_pages + [".YS"]
    return [*out, '.SY "shardscrub help"', ".RI [ command ]", ".YS", ".SY shardscrub", ".B \\-\\-version", ".YS"]


def options_text():
    out = ["Numbers are below 2^32, that of", ".B \\-\\-last", "below 2^64."]
    for name, option in OPTIONS.items():
        head = (f'.BI {roff(name)} " {option.value}"' if option.value else f".B {roff(name)}" if name.startswith("--") else
                ".IR EXTENT : PAGE" if ":" in name else f".I {name}")
        text = TEXTS["FREE_PAGE_HELP"] if name == SIZES[0] else option.help
        out += [".TP", head, *(f"{roff(one)}." for one in text.split(". "))]
    return [*out, ".TP", '.BR \\-h ", " \\-\\-help', "Prints help.", ".TP", '.BR \\-V ", " \\-\\-version',
            "Prints the version."]


def sentences(text):
    """A text of the tables of messages, whose words of the program are bold."""
    return re.sub(r"`([^`]*)`", r"\\fB\1\\fP", roff(text)).replace("×", "\\(mu")


def message_text(group, message):
    """A message with its status, what it means, an example, none of whose words is cut or moved apart, and where to read on."""
    page, heading = message.read
    text = "".join(f"\\f{'I' if varies else 'B'}{roff(part)}\\fP" for part, varies in parts_of(message.text)) if group.before else \
        sentences(message.text)
    words = " ".join(f"\\%{word}" for word in roff(f"shardscrub {message.example}").split(" "))
    place = page.removeprefix("../") if page.startswith("../") else f"docs/{page}"
    return [".TP", text, f"Status {status_of(group, message)}.", sentences(f"{message.wrong} {message.to_do}"), "For example:",
            ".br", ".na", f".B {words}", ".br", ".ad", f"See {roff(place)}{roff(', ' * (heading != '') + heading)}."]


def messages_text():
    """The order in which faults come, and what each message means."""
    order = next(line for line in REPORT.read_text(encoding="utf-8").splitlines() if line.startswith(ORDER))
    out = ["Names in italics stand for what varies.", *sentences(order).split("\n")]
    for group in GROUPS:
        out += [f'.SS "{group.column.replace("`", "")}"', sentences(group.about)]
        out += [line for message in group.messages for line in message_text(group, message)]
    return out


def made():
    number, day = version()
    before, _, statuses, _ = parted(TEXTS["AFTER_HELP"])
    out = [f'.TH SHARDSCRUB 1 {day} "shardscrub {number}" "User Commands"', '.\\" dev/manual.py makes this page.', ".SH NAME",
           "shardscrub \\- check the raw image of a storage node's disk", ".SH SYNOPSIS", *synopsis(), ".SH DESCRIPTION",
           f"{roff(TEXTS['ABOUT'])}.", *DESCRIPTION.strip().split("\n"), *body(before), ".SH COMMANDS"]
    for name in COMMANDS:
        out += [f".SS {name}", f"{roff(about(name))}.", *command_text(TEXTS[f"{name.upper()}_AFTER_HELP"], dict(statuses))]
    out += [".SH OPTIONS", *options_text(), '.SH "EXIT STATUS"', "The statuses 0 and 1 depend on the command.",
            "Help and the version end with 0."]
    out += [line for row in statuses for line in (".TP", marked(row[0]), f"{roff(row[1])}.")]
    out += [REST.strip(), ".SH DIAGNOSTICS", *messages_text(), END.strip()]
    return {PAGE: "\n".join(out) + "\n"}, []


if __name__ == "__main__":
    sys.exit(run_tool("dev/manual.py", __doc__, made))
