#!/usr/bin/env python3
"""Makes the two tables of docs/RECLAIMING.md that say what act/reclaim prints: of each doubt what settles it, and of each stop what it
means and what to do. The texts are those of act/stops.py, by which the script prints them.
"""
import sys

from options import replace_table
from pages import TOP, run_tool

sys.dont_write_bytecode = True
sys.path.insert(0, str(TOP / "act"))
import stops  # noqa: E402

PAGE = TOP / "docs/RECLAIMING.md"
# What varies in a text, as the page says it.
NAMES = {"disk": "DISK", "folder": "FOLDER", "first": "FOLDER/1.img", "kept": "IMAGE", "last": "G", "next": "G + 1", "counts": "COUNTS",
         "resets": "the extents", "why": "..", "lines": "..", "call": "CALL", "by_hand": "COMMAND", "merge": stops.MERGE, "has": "M", "bytes": "N",
         "page": "P", "pages": "N", "extents": "E", "need": "M", "free": "N", "at": "B", "extent": "E", "runs": "..", 
         "zero": "`dd if=/dev/zero of=COPY bs=P seek=PAGE count=PAGES conv=notrunc,fsync`."}
# What several stops say to do, said once on the page.
LINKS = {stops.RESTORE: "[restore IMAGE](#restoring)", stops.BACK: "[go back](#the-way-back)", stops.START: "[start over](#starting-over)"}


def plain(text):
    """A text of the script as a cell of a table. What several say is a link."""
    for said, link in LINKS.items():
        text = text.replace(said, link)
    return " ".join(text.format(**NAMES).replace("|", "\\|").split())


def capital(text):
    return text[:1].upper() + text[1:]


def doubt_table():
    last = [("`last COUNTS G`, COUNTS is greater", stops.LAST_GREATER), ("`last COUNTS G`, COUNTS is smaller or `none`", stops.LAST_SMALLER)]
    others = [(f"`{kind}`", text + (" `--accept LINE`" if kind in stops.ACCEPTABLE else "")) for kind, text in stops.DOUBTS.items()]
    return ["| `doubt` | What it means, and what settles it |", "|---|---|", *(f"| {kind} | {plain(text)} |" for kind, text in last + others)]


def stop_table():
    rows = (f"| {plain(one.means)} | {one.status} | {capital(plain(one.do))} |" for one in stops.STOPS.values() if one.means != "{why}")
    return ["| After `stopped:` | Status | What to do |", "|---|---|---|", *rows]


def made():
    faults, text = [], PAGE.read_text(encoding="utf-8")
    for rows in doubt_table(), stop_table():
        text = replace_table(text, rows, faults, "docs/RECLAIMING.md")
    return {PAGE: text}, faults


if __name__ == "__main__":
    sys.exit(run_tool("dev/stops.py", __doc__, made))
