#!/usr/bin/env python3
"""Makes from view/reasons.tsv, by which view/why speaks: the table of docs/READING.md that says what each reason means, the one of the
other alerts, and the descriptions of the alerts in view/monitoring/shardscrub.rules.yml.
"""
import re
import sys
from itertools import groupby
from typing import NamedTuple

from options import replace_table
from pages import TOP, run_tool

REASONS, READING = TOP / "view/reasons.tsv", TOP / "docs/READING.md"
RULES = TOP / "view/monitoring/shardscrub.rules.yml"
# Where a description says that the pages are.
INSTALLED = "/usr/share/doc/shardscrub/docs"


class Reason(NamedTuple):
    """A row of the table."""
    kind: str
    name: str
    severity: str
    alert: str
    words: str
    to_do: str
    command: str
    read: str

    def step(self, mark=""):
        """What to do, with the command between marks."""
        return self.to_do if self.command == "-" else f"{self.to_do} {mark}{self.command}{mark}"


def reasons():
    lines = REASONS.read_text(encoding="utf-8").splitlines()
    return [Reason(*line.split("\t")) for line in lines if not line.startswith("#")]


def general(words):
    """The words of a reason with letters for numbers, of which there are several."""
    letters = iter("NMK")
    return re.sub(r"\{\w+\}", lambda _: next(letters), words).replace("(s)", "s")


def cell(text):
    """A text in a table, where a bar would end its column."""
    return text.replace("|", "\\|")


def link(one):
    page, _, heading = one.read.partition("#")
    return f"[{page.removesuffix('.md') or heading.replace('-', ' ')}]({one.read})"


def table_of_reasons(rows):
    """Reasons with the same alert are in one row, with what to do about the first of them."""
    yield from ("| `view/why` says | Alert | What to do next | Read |", "|---|---|---|---|")
    for alert, same in groupby((one for one in rows if one.kind in ("number", "verdict")), lambda one: one.alert):
        if alert != "-":
            first, *others = same
            words = "; ".join(general(one.words) for one in (first, *others))
            yield f"| {words} | `{alert}` | {cell(first.step('`'))} | {link(first)} |"


def table_of_nights(rows):
    yield from ("| Alert `Shardscrub..` | When | What to do next | Read |", "|---|---|---|---|")
    for one in rows:
        if one.kind == "night":
            yield f"| `{one.alert}` | {one.words} | {cell(one.step('`'))} | {link(one)} |"


def described(rules, rows, faults):
    """The rules, each with its severity and its description: those of the first row that names the alert."""
    first = {one.alert: one for one in reversed(rows)}
    named = re.findall(r"- alert: Shardscrub(\w+)\n", rules)
    faults += [f"alert {name} isn't once in the rules" for name in first if name != "-" and named.count(name) != 1]
    faults += [f"alert {name} isn't in {REASONS.name}" for name in named if name not in first]
    parts = re.split(r"(?=      - alert: )", rules)
    for number, part in enumerate(parts):
        found = re.match(r" +- alert: Shardscrub(\w+)\n", part)
        if found and found[1] in first:
            one = first[found[1]]
            page = one.read if one.read[0] != "#" else f"READING.md{one.read}"
            text = f"{one.step()} ({INSTALLED}/{page})".replace("DISK", "{{ $labels.disk }}").replace("'", "''")
            part = re.sub(r"severity: .*", f"severity: {one.severity}", part)
            parts[number] = re.sub(r"description: .*", lambda _, text=text: f"description: '{text}'", part)
    return "".join(parts)


def made():
    faults, rows = [], reasons()
    page = READING.read_text(encoding="utf-8")
    for table in (table_of_reasons, table_of_nights):
        page = replace_table(page, list(table(rows)), faults, "docs/READING.md")
    return {READING: page, RULES: described(RULES.read_text(encoding="utf-8"), rows, faults)}, faults


if __name__ == "__main__":
    sys.exit(run_tool("dev/reasons.py", __doc__, made))
