"""Tests view/report.html: what it says, lays out and refuses, under node; and in headless Chromium that it does so on the screen.

The page judges nothing. So each verdict has to be the first line of summary, and each doubt, extent to reset and room a line of
reclaimable; these are compared for many disks with reference/shardscrub.py, and what is drawn with lib/page.py. Pages with a planted
mistake are tried too, and each has to be found wrong. If the variable SHARDSCRUB_SCREENSHOTS names a folder, screenshots go there.
"""
import json
import os
import random
import re
import subprocess
from itertools import combinations

from lib import page
from lib.cases import Case, add_tests
from lib.examples import image_of, listed, summary_of
from lib.page import (DISKS, PAGE, WRONG_PAGES, Browser, Pictured, disks, file, made_up_report, script_in, text_of_page, value,
                      written)
from lib.program import ROW_TOOLS, TOP, need, program
from reference.shardscrub import reclaimable, refusal, summary

POLICY = ("default-src 'none'; script-src 'unsafe-inline'; style-src 'unsafe-inline'; connect-src 'self'; base-uri 'none'; "
          "form-action 'none'")
# Each choice of the outputs beside a report.
CHOICES = [some for count in range(5) for some in combinations(["summary", "superblocks", "locators", "reclaimable"], count)]
# A sound disk, and the same one later: a page of its shard can't be read any more.
SOUND, LATER = (Pictured(image_of(listed()[0].removesuffix("-") + page)) for page in ("-", "1:0"))
# The standing of a disk whose files are of two scans.
MIXED = "not judged: different scans"


def files_of(name, disk, outputs):
    """The files of a disk: its report, and these outputs."""
    return [file(f"{name}.json", written(disk.report)), *(file(f"folder/{name}.{output}", disk.outputs[output]) for output in outputs)]


def rows_of(name, disk):
    """The rows of a disk, as view/row prints them."""
    lines = [line.split(" ") for line in disk.outputs["summary"].splitlines()]
    summary = ",".join(f'"{key}":{value}' if index else f'"{key}":"{value}"' for index, (key, value) in enumerate(lines))
    head = {"disk": name, "status": 0, "text": ""}
    return {"summary": json.dumps(head)[:-1] + f",{summary}}}\n", "scan": json.dumps(head | disk.report) + "\n",
            "reclaimable": json.dumps(head | {"lines": [line.split(" ") for line in disk.outputs["reclaimable"].splitlines()]}) + "\n"}


class PageCase(Case):
    """Tests of the page, or of a script with a planted mistake: then failed checks are counted in `failures`."""
    script, failures = None, None

    def value(self, expression, **given):
        return value(expression, self.script, **given)

    def same(self, what, found, wanted):
        if self.failures is None:
            super().same(what, found, wanted)
        else:
            self.failures += found != wanted

    def throws(self, call, **given):
        return self.value(f"thrown(() => {call})", **given) or ""


# The picture of the disk with the name a.
PICTURE = f"pictureOf({DISKS}.get('a').answers)"
SHOWN = """[...%s.values()].map((disk) => ({name: disk.name, verdict: verdictText(disk), entry: entryOf(disk, 0),
    lines: Object.fromEntries(Object.entries(disk.answers).flatMap(([command, {lines}]) => lines ? [[command, lines]] : []))}))""" % DISKS


class Answers(PageCase):
    """What is said of a disk is what the program said."""

    def check_shown(self, what, shown, disk, outputs):
        summary = dict(line.split(" ") for line in disk.outputs["summary"].splitlines())
        entry, has = shown["entry"], outputs.__contains__
        verdict = f"verdict {summary['verdict']}" if has("summary") else "not judged: open summary"
        self.same(f"{what}: the verdict", (shown["verdict"], entry["standing"]),
                  (verdict, summary["verdict"] if has("summary") else "not judged"))
        self.same(f"{what}: the lines", shown["lines"], {name: disk.outputs[name].splitlines() for name in outputs})
        words = [line.split(" ") for line in disk.outputs["reclaimable"].splitlines()] if has("reclaimable") else None
        self.same(f"{what}: the numbers", [entry[key] for key in ("broken", "unreadable", "gain", "doubts")],
                  [int(summary["shards_broken"]), int(summary["unreadable_pages"]),
                   sum(int(free) for word, _, free, *_ in (one + [0, 0] for one in words) if word == "reclaim") if words is not None else None,
                   sum(word == "doubt" for word, *_ in words or [])])

    def test_each_choice_of_outputs(self):
        """Neither the report nor the other outputs change the verdict or a line."""
        for some in CHOICES if self.failures is None else CHOICES[::15]:
            files = [one for name, disk in disks().items() for one in files_of(name, disk, some)]
            for shown, (name, disk) in zip(self.value(SHOWN, files=files), disks().items(), strict=True):
                self.same("the disk", shown["name"], name)
                self.check_shown(f"{name} with {some}", shown, disk, some)
        self.same("the dates of its files", self.value("fileText({command: 'scan', file: 'a.json', time: 1e12 + 999})"), "scan: a.json, 2001-09-09T01:46:40Z")
        verdicts = {disk.outputs["summary"].splitlines()[0].split()[1] for disk in disks().values()}
        self.same("the verdicts that occur", verdicts, {"sound", "doubt", "wrong"})

    def test_rows(self):
        """Rows of any commands of a disk are one entry: its answers are those of its files."""
        for commands in (["summary"], ["reclaimable", "summary"], ["scan", "summary", "reclaimable"]):
            files = [file(f"{command}.jsonl", "".join(rows_of(*pair)[command] for pair in disks().items())) for command in commands]
            for shown, (name, disk) in zip(self.value(SHOWN, files=files), disks().items(), strict=True):
                self.check_shown(f"{name}, rows of {commands}", shown, disk, [one for one in commands if one != "scan"])

    def test_the_rows_of_view_row(self):
        need(*ROW_TOOLS)
        rows = {command: [subprocess.run([TOP / "view/row", command, line], cwd=TOP, capture_output=True, encoding="utf-8", stdin=subprocess.DEVNULL,
                                         env={**os.environ, "SHARDSCRUB": str(program())}).stdout for line in listed()]
                for command in ("summary", "scan", "reclaimable")}
        shown = self.value(SHOWN, files=[file(f"{command}.jsonl", "".join(some)) for command, some in rows.items()])
        for one, line in zip(shown, listed(), strict=True):
            name = line.split("\t")[0]
            wanted = "no answer" if name in ("failing", "missing") else summary_of(line)["verdict"]
            self.same(name, (one["name"], one["entry"]["standing"]), (name, wanted))

    def test_great_numbers_keep_their_digits(self):
        line = f"superblock_generation {2 ** 64 - 1}"
        disk = SOUND
        key = '"superblock_generation":'
        row = re.sub(key + "[0-9]+", line.replace("superblock_generation ", key), rows_of("a", disk)["summary"])
        self.same("of a row", line in self.value(SHOWN, files=[file("a.jsonl", row)])[0]["lines"]["summary"], True)
        report = written(made_up_report(2, 64, 2, 1))
        text = self.value(f"factsText({PICTURE})", files=[file("a.json", report)])
        self.same("of a report", f"generation {2 ** 64 - 1}," in text, True)

    def test_places_of_lines(self):
        """A line of reclaimable leads to the place that it names."""
        uuid, shard = "11111111-1111-1111-1111-111111111111", f"shard {1:032x}"
        places = {"doubt no-superblock": None, "doubt tie": None, "doubt last 1 2": None, "accepted superblock-stray 3": [0, 3 * 256],
                  "doubt superblock-lost 99": None, "doubt run-lost 0 no_frame": [10, 0], "doubt run-lost 7 no_frame": None,
                  f"accepted spare 5 9 3 {uuid} {shard} 41": [5, 9], f"doubt loose 2 100 3 {uuid} {shard} 41": [2, 100], "doubt crowded 6": [6, 0],
                  "doubt tail 1 300 13": [1, 300],
                  "doubt tail-lost 4 2 5": [4, 2 * 256], "reclaim 7 12": [7, 0], f"move 7 50 3 {uuid} {shard} 41": [7, 50],
                  "room 3 155 869": [3, 155], "last-room 12 1 2": None}
        report = made_up_report(12, 256, 16, 1) | {"runs": [{"entries": None, "extent": 10, "offset": 0, "state": "no_frame"}]}
        found = self.value(f"lines.map((line) => placeOfLine(line, {PICTURE}) ?? null)", lines=list(places),
                           files=[file("a.json", written(report))])
        for (line, right), place in zip(places.items(), found, strict=True):
            self.same(line, place and [place["extent"], place["offset"]], right)


DRAWN = f"""[...{DISKS}.values()].map((disk) => pictureOf(disk.answers)).map((picture) => ({{
    pieces: picture.rows.map((row) => [...row.kind].map((kind, at) => [kind, row.start[at], row.stop[at]])),
    damage: picture.damage.filter(({{isDamage}}) => isDamage).map(({{title, entries}}) =>
        [title, entries.map(({{places}}) => places.map(({{extent, offset}}) => [extent, offset]))]),
    counts: Object.fromEntries(picture.damage.map(({{title, count}}) => [title, count])), kinds: countedKinds(picture.rows).slice(1),
    others: picture.damage.filter(({{isDamage}}) => !isDamage).map(({{title, entries}}) => [title, entries.length]),
    classes: picture.rows.map(classOf), overview: overviewLegendOf(picture.rows.map(classOf)).map(({{is}}) => is),
    legend: legendOf(picture.rows).map(({{style, text}}) => [KINDS.indexOf(style), text]), labels: picture.rows.map(labelOf),
    rooms: picture.rows.map(({{room, isListed}}) => [room, isListed]),
    shards: picture.locators && shardSizes(picture.locators).map(({{owner, bytes, chunks}}) => [owner, bytes, chunks]),
    said: picture.rows.map((row) => [...row.start].map((start, at) => (start + row.stop[at]) / 2)
        .map((middle) => described(picture, row, middle, middle + .1, 0))),
    marks: picture.rows.map((row) => [...row.hidden, ...row.dangling, ...row.loose.map(({{copy}}) => copy)]
        .map(({{offset}}) => described(picture, row, offset, offset + 1, 0).join()))}}))"""


class Pictures(PageCase):
    """What is drawn of a disk is what its report and its outputs have."""

    def check_picture(self, what, drawn, report, outputs):
        right = page.pieces(report, outputs)
        self.same(f"{what}: the pieces", [[[page.KINDS[kind], start, stop] for kind, start, stop in some] for some in drawn["pieces"]], right)
        self.same(f"{what}: the damage", dict(drawn["damage"]), {title: [[list(place) for place in places] for places in found]
                                                                 for title, found in page.damage(report, outputs).items()})
        tails = sum(one["tail"] > 0 for one in report["extents"])
        others = {title: count for title, count in (("Tails", tails), ("Doubtful shards", len(report["doubtful"]))) if count}
        self.same(f"{what}: tails and doubtful shards", dict(drawn["others"]), others)
        self.same(f"{what}: the overview", [page.CLASSES[one] for one in drawn["classes"]], page.classes(report, outputs))
        all_pieces = [(kind, stop - start) for some in right for kind, start, stop in some]
        bytes_of = {name: [length for kind, length in all_pieces if kind == name] for name in page.KINDS[1:]}
        noise = sum(words[0] == "noise" for _, words in page.items_of(report))
        counts = [(noise if kind == "noise" else len(some), sum(some)) for kind, some in bytes_of.items()]
        self.same(f"{what}: the kinds", [(one["count"], one["bytes"]) for one in drawn["kinds"]], counts)
        self.same(f"{what}: the kinds in the legend", sorted((kind, text.split(": ")[-1].split(", ")[0]) for kind, text in drawn["legend"] if kind > 0),
                  [(kind, str(count)) for kind, (count, _) in enumerate(counts, 1) if count])
        marks = self.marks(report, outputs)
        self.same(f"{what}: the rest of the legend", sorted(text for kind, text in drawn["legend"] if kind < 0),
                  sorted(f"{name}: {count}" for name, count in marks.items() if count))
        is_damage = [kind >= page.KINDS.index("noise") or text.startswith(("place of", "hidden")) for kind, text in drawn["legend"]]
        self.same(f"{what}: damage comes first in the legend", is_damage, sorted(is_damage, reverse=True))
        self.same(f"{what}: the legend of the overview", drawn["overview"],
                  sorted({page.CLASSES.index(one) for one in page.classes(report, outputs)}))
        lines = page.lines_of(outputs, "reclaimable")
        rooms = {int(words[1]): dict(word=words[0], offset=int(words[2]), bytes=int(words[3]))
                 for words in lines if words[0] in ("room", "last-room")}
        listed_extents = {int(words[1]) for words in lines if words[0] == "reclaim"}
        self.same(f"{what}: the rooms and the extents to reset", drawn["rooms"],
                  [[rooms.get(extent), extent in listed_extents] for extent in range(len(right))])
        self.check_texts(what, drawn, report, outputs)

    def marks(self, report, outputs):
        """How many there are of what isn't a piece, by its name in the legend."""
        sizes, words = report["geometry"], [line[0] for line in page.lines_of(outputs, "reclaimable")]
        on_disk = lambda name: sum(one["extent"] < sizes["extents"] and one["offset"] < sizes["page"] * sizes["pages"] for one in report[name])
        return {"extent not in the open files": len(report["retired"]) + ("superblocks" not in outputs),
                "tail, from its first byte on": sum(one["tail"] > 0 for one in report["extents"]),
                "room for copies": words.count("room"), "last room for copies": words.count("last-room"), "twin, above the bar": len(report["twins"]),
                "hidden chunk, below the bar": on_disk("hidden"), "place of a dangling locator": on_disk("dangling"),
                "write pointer": len(report["extents"]) if report["super"]["page"] is not None else 0}

    def check_texts(self, what, drawn, report, outputs):
        """What is said of each item and mark, with the owners of live chunks and the copies of others."""
        owners, spares, loose, shards, last = {}, {}, {}, {}, None
        for words in page.lines_of(outputs, "locators"):
            if words[0] in ("spare", "loose"):
                (spares if words[0] == "spare" else loose)[int(words[1]), int(words[2])] = last
                continue
            last = f"{words[0]} {words[1]}"
            if words[6] in ("sound", "hidden") and words[0] == "shard":
                shards.setdefault(last, []).append(int(words[4]))
            if words[6] == "sound":
                owners.setdefault((int(words[2]), int(words[3])), []).append(last)
        for extent, some in enumerate(page.pieces(report, outputs)):
            for (kind, start, stop), said in zip(some, drawn["said"][extent], strict=True):
                item = f" {start} {stop}" if extent and kind not in ("lost", "noise") else ""
                self.same(f"{what}: extent {extent}, {kind} at {start}", said[0].startswith(f"extent {extent}: ") and item in said[0], True)
                if kind == "live" and "locators" in outputs:
                    self.same(f"{what}: owners of extent {extent} at {start}", said[2], f"named by {', '.join(owners[extent, start][:5])}")
                if (extent, start) in spares:
                    self.same(f"{what}: a spare in extent {extent} at {start}",
                              f"spare of what {spares[extent, start]} names in" in ",".join(said), True)
        for (extent, start), owner in loose.items():
            # Five are described.
            if sum(place[0] == extent for place in loose) <= 5:
                self.same(f"{what}: a loose copy in extent {extent} at {start}",
                          f"loose copy at {start} of what {owner} names in" in ",".join(drawn["marks"][extent]), True)
        for one in report["hidden"] + report["dangling"]:
            # Five are described.
            is_many = sum(other["extent"] == one["extent"] for other in report["hidden"] + report["dangling"]) > 5
            if not is_many and one["extent"] < len(drawn["marks"]) and one["offset"] < report["geometry"]["page"] * report["geometry"]["pages"]:
                right = (f"{one['owner']} names {one['uuid']} at {one['offset']}: {one['reason']}" if "reason" in one
                         else f"{one['uuid']}, named by {one['owner']}")
                self.same(f"{what}: {right}", right in ",".join(drawn["marks"][one["extent"]]), True)
        sizes = sorted(([owner, sum(lengths), len(lengths)] for owner, lengths in shards.items()), key=lambda one: (-one[1], one[0]))
        self.same(f"{what}: the shards by size", drawn["shards"], sizes if "locators" in outputs else None)

    def test_disks(self):
        for some in ((), ("superblocks",), ("locators",), CHOICES[-1]) if self.failures is None else ((), CHOICES[-1]):
            files = [one for name, disk in disks().items() for one in files_of(name, disk, some)]
            for (name, disk), drawn in zip(disks().items(), self.value(DRAWN, files=files), strict=True):
                self.check_picture(f"{name} with {some}", drawn, disk.report, {output: disk.outputs[output] for output in some})
                numbers = dict(line.split(" ") for line in disk.outputs["summary"].splitlines())
                self.same(f"{name}: noise and torn items as summary counts them", [drawn["counts"].get(title, 0) for title in ("Noise", "Torn")],
                          [int(numbers["noise_items"]), int(numbers["torn_items"])])
        reports = [(disk.report, disk.outputs) for disk in disks().values()]
        self.same("the kinds that occur", {kind for pair in reports for some in page.pieces(*pair) for kind, _, _ in some}, set(page.KINDS[1:]))
        self.same("the classes that occur", {one for pair in reports for one in page.classes(*pair)}, set(page.CLASSES))

    def test_search(self):
        """Each chunk is found by its UUID, and each shard by its identifier, also by their beginnings."""
        disk = disks()["made-up-17"]
        locators = [line.split() for line in disk.outputs["locators"].splitlines() if not line.startswith(("spare", "loose"))]
        for outputs in ([], ["locators"]):
            wanted = {words[3] for _, words in page.items_of(disk.report) if page.is_chunk(words)}
            wanted |= {words[1] for words in locators if words[0] == "shard"} if outputs else {one["owner"][6:] for one in disk.report["dangling"]}
            texts = sorted(wanted)
            found = self.value(f"(() => {{ const picture = {PICTURE}; return texts.map((text) => ["
                               "searched(picture, text), searched(picture, ` ${text.toUpperCase().slice(0, 3)}`), "
                               "searched(picture, text.replaceAll('-', ''), 1)]); })()",
                               texts=texts, files=files_of("a", disk, outputs))
            for text, (whole, beginning, one) in zip(texts, found, strict=True):
                lines = [entry["text"] for entry in whole]
                self.same(f"{text} with {outputs}", [text in line for line in lines], [True] * max(1, len(lines)))
                self.same(f"the beginning of {text} with {outputs}", [entry for entry in whole if entry not in beginning], [])
                self.same(f"other than {text}", [entry for entry in beginning if not re.search(rf"\b{text[:3]}", entry["text"])], [])
                self.same(f"the first of {text}", one, whole[:1])
        others = self.value(f"texts.map((text) => searched({PICTURE}, text).length)",
                            texts=["", "0", "00", "xyz", "0" * 33, "f" * 8], files=files_of("a", disk, []))
        self.same("what isn't the beginning of one", others, [0] * 6)

    def test_large_reports(self):
        """100,000 items, and 65,536 extents, are laid out within seconds."""
        for extents, page, pages, items in ((1001, 4096, 1024, 100), (65536, 64, 2, 1)):
            report = made_up_report(extents, page, pages, items)
            counts, took = self.value(f"""(() => {{ const begun = seconds(), picture = {PICTURE};
                for (const row of picture.rows.slice(0, 50)) columnsOf(row, {{from: 0, span: picture.size}}, 1000);
                return [countedKinds(picture.rows), seconds() - begun]; }})()""", files=[file("a.json", written(report))])
            live, orphans = counts[2]["count"], counts[3]["count"]
            self.same(f"{extents} extents", [live + orphans, orphans], [(extents - 1) * items, -(-(extents - 1) * items // 3)])
            self.same(f"{extents} extents: soon enough", took < 10, True)


class Layout(PageCase):
    """The layout as numbers."""

    def test_columns(self):
        """Each pixel has the kind that takes most of it, and the worst damage in it, even if many pieces share it."""
        choice = random.Random(1)
        for turn in range(40):
            bounds, width = sorted(choice.sample(range(1, 1000), choice.choice([3, 40, 400]))), choice.choice([7, 50, 333])
            pieces = [{"kind": choice.randrange(1, 12), "start": first, "stop": stop, "line": "", "isTwin": choice.random() < .1}
                      for first, stop in zip(bounds, bounds[1:]) if choice.random() < .9]
            view = choice.choice([{"from": 0, "span": 1000}, {"from": 300, "span": 100}])
            found = self.value("columnsOf(newRow(1, pieces, {}), view, width)", pieces=pieces, view=view, width=width)
            for x in range(width):
                left, right = (view["from"] + at * view["span"] / width for at in (x, x + 1))
                share = lambda one: max(0, min(right, one["stop"]) - max(left, one["start"]))
                here = [one for one in pieces if share(one) > 1e-9]
                of_kinds = {kind: sum(share(one) for one in here if one["kind"] == kind) for kind in {one["kind"] for one in here}}
                most = found["most"][x]
                self.same(f"turn {turn}, pixel {x}", (found["damage"][x], abs(of_kinds.get(most, 0) - max(of_kinds.values(), default=0)) < 1e-3),
                          (max([one["kind"] for one in here if one["kind"] >= 7], default=0), True))
                self.same(f"turn {turn}, pixel {x}: a twin", found["twins"][x], int(any(one["isTwin"] for one in here)))

    def test_stretches(self):
        self.same("stretches", self.value("stretchesOf([0, 3, 3, 0, 4, 3])"), [[3, 1, 3], [4, 4, 5], [3, 5, 6]])

    def test_views(self):
        for bytes_, first, span, right in ((1000, -5, 100, [0, 100]), (1000, 950, 100, [900, 100]), (1000, 10, 1, [10, 32]),
                                           (1000, 3, 5000, [0, 1000]), (20, 5, 5, [0, 20])):
            self.same(f"{first}, {span} of {bytes_}", list(self.value(f"viewOf({bytes_}, {first}, {span})").values()), right)

    def test_overview(self):
        """All cells fit, as large as they can be, and none is too small to be found; each extent is in a cell, which shows the first class
        in it."""
        for count, width, height in ((1, 900, 300), (12, 900, 300), (4000, 900, 300), (65536, 900, 300), (65536, 300, 60)):
            grid, cells = self.value("""(() => { const grid = gridOf(count, width, height), classes = Array.from({length: count}, (_, at) => at * 7919 % 9);
                return [grid, Array.from({length: grid.cells}, (_, at) => cellOf(grid, classes, at))]; })()""", count=count, width=width, height=height)
            lines = -(-grid["cells"] // grid["columns"])
            self.same(f"{count}: it can be found", grid["cell"] >= 4, True)
            self.same(f"{count}: it fits", grid["columns"] * grid["cell"] <= width and lines * grid["cell"] <= height, True)
            larger = grid["cell"] + 1
            self.same(f"{count}: no larger one fits", grid["cell"] == 14 or (width // larger) * (height // larger) < count, True)
            self.same(f"{count}: the extents of the cells",
                      [extent for one in cells for extent in range(one["first"], one["last"] + 1)], list(range(count)))
            right = [min(at * 7919 % 9 for at in range(one["first"], one["last"] + 1)) for one in cells]
            self.same(f"{count}: the classes", [(one["is"], one["extent"] * 7919 % 9) for one in cells], [(is_, is_) for is_ in right])

    def test_keys_in_the_overview(self):
        grid = {"columns": 5, "cells": 13}
        moves = {(0, "ArrowLeft"): 0, (0, "ArrowUp"): 0, (0, "ArrowRight"): 1, (4, "ArrowRight"): 5, (1, "ArrowDown"): 6, (7, "ArrowDown"): 12,
                 (9, "ArrowDown"): 9, (12, "ArrowRight"): 12, (12, "ArrowUp"): 7, (6, "Home"): 0, (6, "End"): 12, (6, "x"): None}
        found = self.value("moves.map(([from, key]) => movedCell(grid, from, key))", grid=grid, moves=[list(move) for move in moves])
        self.same("the cells", found, list(moves.values()))

    def test_arrow_keys(self):
        """To the right they reach each piece in order, and to the left each in the opposite order."""
        for name in ("several findings", "rescued"):
            walked = self.value(f"""(() => {{ const {{rows}} = {PICTURE}, walk = (at, direction) => {{
                const found = [];
                for (let next = at; (next = steppedPiece(rows, next, direction)) && found.length < 1e4;) found.push([next.extent, rows[next.extent].start[next.index]]);
                return found; }}, last = rows.length - 1;
                return [walk({{extent: 0, index: -1}}, 1), walk({{extent: last, index: rows[last].start.length}}, -1)]; }})()""",
                                files=files_of("a", disks()[name], ["superblocks"]))
            pieces = page.pieces(disks()[name].report, disks()[name].outputs)
            right = [[extent, start] for extent, some in enumerate(pieces) for _, start, _ in some]
            self.same(name, walked, [right, right[::-1]])

    def test_selections(self):
        """A place selects the hidden chunk that begins there, or else the piece with the byte, or else the byte."""
        pieces = [{"kind": 2, "start": 0, "stop": 50, "line": ""}, {"kind": 8, "start": 64, "stop": 128, "line": ""}]
        found = self.value("[0, 49, 50, 64, 70, 200].map((at) => selectionAt(newRow(3, pieces, {hidden: [{offset: 70, length: 5}]}), at))",
                           pieces=pieces)
        self.same("selections", [[one["from"], one["to"], one["index"]] for one in found],
                  [[0, 50, 0], [0, 50, 0], [50, 51, 0], [64, 128, 1], [70, 113, 1], [200, 201, 1]])

    def test_the_worst_of_a_pixel_is_shown(self):
        pieces = [{"kind": kind, "start": start, "stop": stop, "line": ""}
                  for kind, start, stop in ((2, 0, 90), (8, 90, 91), (7, 91, 99), (3, 99, 200))]
        found = self.value("ranges.map(([from, to]) => shownIn(newRow(1, pieces, {}), from, to))", pieces=pieces,
                           ranges=[[0, 90], [0, 200], [91, 120], [95, 200], [200, 300]])
        self.same("the pieces", [[one["shown"], one["count"]] for one in found], [[0, 1], [1, 4], [2, 2], [2, 2], [-1, 0]])


class Scans(PageCase):
    """Files of two scans are never one picture."""

    # What a summary may say that the report doesn't.
    DIFFERENT = {"page_bytes": 128, "superblock_generation": 6, "shards": 4, "shards_broken": 0, "unreadable_pages": 0, "verdict": "sound"}

    def changed(self, key, output="summary"):
        return re.sub(rf"^{key} .*$", f"{key} {self.DIFFERENT[key]}", disks()["several findings"].outputs[output], flags=re.M)

    def shown(self, files):
        """What is shown of the disk in these files: its standing, its verdict, whether a number is known, and the differences."""
        one, = self.value(f"[...{DISKS}.values()].map((disk) => [entryOf(disk, 0), verdictText(disk), disk.differences, shownTogether(disk)])", files=files)
        entry, verdict, differences, together = one
        return entry["standing"], verdict, [entry[key] for key in ("broken", "unreadable", "gain", "doubts")], differences, list(together)

    def check_mixed(self, what, texts, key):
        """In either order they are of different scans, and one of the differences has this name."""
        files = [file(f"folder{number}/a.{ending}", text) for number, (ending, text) in enumerate(texts)]
        for some in (files, files[::-1]):
            standing, verdict, numbers, differences, together = self.shown(some)
            self.same(what, (standing, verdict, numbers, set(together) <= {"scan"}),
                      (MIXED, "not judged: these files are of different scans", [None, None, None, 0], True))
            self.same(f"{what}: {key}", [one for one in differences if key in one] != [], True)

    def test_each_difference(self):
        report, outputs = written(disks()["several findings"].report), disks()["several findings"].outputs
        for key in self.DIFFERENT:
            self.check_mixed(f"another {key}", [("json", report), ("summary", self.changed(key)), ("reclaimable", outputs["reclaimable"])],
                             "clean: false in scan, verdict sound in summary" if key == "verdict" else f"{key}: ")
        self.check_mixed("a disk that was sound", [("json", written(LATER.report)), ("summary", SOUND.outputs["summary"])], "shards_broken: 0 in summary, 1 in scan")
        places = "11111111-1111-1111-1111-111111111111 run 0"
        for line, key in (("reclaim 1 12", "reclaim: 1 12 in reclaimable, none in scan"), ("doubt tail 1 9 3", "tail: 1 9 3 in reclaimable, none in scan"),
                          ("accepted tail 1 9 3", "tail_bytes"), ("doubt tail-lost 1 2 3", "tail-lost"), ("doubt run-lost 0 no_frame", "runs_lost"),
                          ("doubt tie", "superblock_tie"), ("doubt no-superblock", "page of the superblock"), ("doubt superblock-lost 3", "superblock-lost"),
                          ("doubt last 7 8", "superblock_generation"), ("doubt last none 8", "superblock_generation"),
                          (f"reclaim 1 9\nmove 1 0 3 {places} 41\nroom 2 4 5", "chunks_to_move"), ("reclaim 1 9\nlast-room 2 4 5", "bytes of an extent")):
            self.check_mixed(line, [("json", written(SOUND.report)), ("reclaimable", line + "\n")], key)
        self.check_mixed("superblocks", [("json", written(SOUND.report)), ("superblocks", disks()["rescued"].outputs["superblocks"])], "superblock-lost: 2 in superblocks, none in scan")
        for first, second in combinations(("summary", "superblocks", "locators", "reclaimable"), 2):
            # These two pairs say nothing under one name.
            if (first, second) not in (("superblocks", "locators"), ("locators", "reclaimable")):
                pair = SOUND.outputs[first], disks()["no-superblock"].outputs[second]
                self.check_mixed(f"{first} and {second}", [(first, pair[0]), (second, pair[1])], f" in {first}")
        self.same("six are named", self.value(f"reasonsOf({DISKS}.get('a'))", files=[file("a.json", written(LATER.report)), *files_of("a", SOUND, ["summary"])[1:]])[6],
                  f"and {len(self.shown([file('a.json', written(LATER.report)), *files_of('a', SOUND, ['summary'])[1:]])[3]) - 6} more")

    def test_two_answers(self):
        """Two answers of a command that aren't the same are of two scans, too; one twice is one."""
        for what, ending, one, other in (("summaries", "summary", SOUND.outputs["summary"], LATER.outputs["summary"]),
                                         ("verdicts", "summary", SOUND.outputs["summary"], SOUND.outputs["summary"].replace("sound", "doubt")),
                                         ("reports", "json", written(SOUND.report), written(LATER.report)),
                                         ("generations", "json", written(made_up_report(2, 64, 2, 1)), written(made_up_report(2, 64, 2, 1)).replace("615", "614")),
                                         ("lists", "reclaimable", "reclaim 1 9\n", "")):
            self.check_mixed(f"two {what}", [(ending, one), (ending, other)], "there are two answers")
            self.same(f"one of two {what} twice", self.shown([file(f"{folder}/a.{ending}", one) for folder in "xy"])[3], [])
        refused = '{"disk":"a","status":2,"text":"","lines":null}\n'
        self.check_mixed("an answer, and none", [("reclaimable", "reclaim 1 9\n"), ("jsonl", refused)], "and one is that there is none")
        row = rows_of("a", SOUND)
        self.check_mixed("two answers, and none", [("jsonl", row["summary"] + row["scan"]), ("jsonl", '{"disk":"a","status":3,"text":""}\n')],
                         "and one is that there is none")

    def test_files_of_one_scan(self):
        """They never differ, whatever --last and --accept say."""
        lines = set()
        for name, disk in [*disks().items()][::2 if self.failures is None else 6]:
            generation = disk.report["super"]["generation"] or 0
            for last in (generation, generation + 1):
                doubts = [line.removeprefix("doubt ") for line in reclaimable(disk.image, (), last)[0].splitlines() if line.startswith("doubt ")]
                for some in ([], [doubt for doubt in doubts if refusal(doubt) is None]):
                    outputs = disk.outputs | {"summary": summary(disk.image, last)[0], "reclaimable": reclaimable(disk.image, some, last)[0]}
                    lines.update((outputs["summary"].split("\n")[0], *(line.split(" ")[0] for line in outputs["reclaimable"].splitlines())))
                    files = [file("a.json", written(disk.report)), *(file(f"a.{output}", text) for output, text in outputs.items())]
                    self.same(f"{name}, --last {last}, accepted {some}", self.shown(files)[3], [])
        self.same("what occurs", lines, {"verdict sound", "verdict doubt", "verdict wrong", "doubt", "accepted", "reclaim", "move", "room", "last-room"})


class Fleet(PageCase):
    """The table of many disks."""

    SORTED = "columns.map(([column, isReversed]) => sortedEntries(entries, column, isReversed).map(({name}) => name))"

    def entries(self, rows, commands=SORTED, **given):
        return self.value(f"(() => {{ const entries = [...{DISKS}.values()].map((disk) => entryOf(disk, 1e12)); return {commands}; }})()",
                          files=[file("rows.jsonl", "".join(rows), 1e12 - 7200e3)], **given)

    def fleet(self, count):
        """Rows of so many disks, of each verdict, among them some without an answer or without a summary."""
        some = sorted({disk.outputs["summary"].splitlines()[0]: name for name, disk in disks().items()}.values())
        names = [f"sd{number}" for number in range(count)]
        rows = []
        for number, name in enumerate(names):
            of = rows_of(name, disks()["several findings"] if number % 10 == 3 else disks()[some[number % len(some)]])
            if number % 8 == 5:
                rows.append(json.dumps({"disk": name, "status": 3, "text": "shardscrub: image too long"}) + "\n")
            else:
                rows += [of["reclaimable"], *([of["summary"]] if number % 8 else [])]
        random.Random(count).shuffle(rows)
        return names, rows

    def test_forty_and_four_thousand_disks(self):
        """Each disk is one entry, the worst first: by verdict, then broken shards, then unreadable pages."""
        for count in (40, 4000):
            names, rows = self.fleet(count)
            entries, texts, [worst, best], took = self.entries(rows, """(() => { const begun = seconds(), sorted = [false, true].map((isReversed) =>
                sortedEntries(entries, 'standing', isReversed)); return [sorted[0], [filtered(entries, '', new Set()).counts, sorted[0].map(cellsOf)],
                sorted.map((some) => some.map(({name}) => name)), seconds() - begun]; })()""")
            order = ["no answer", "wrong", "not judged", "doubt", "sound"]
            digits = lambda name: int(name[2:])
            key = lambda one: (order.index(one["standing"]), -(one["broken"] or 0), -(one["unreadable"] or 0), digits(one["name"]))
            self.same(f"{count} disks", sorted(worst, key=digits), names)
            self.same(f"{count} disks: the worst first", worst, [one["name"] for one in sorted(entries, key=key)])
            self.same(f"{count} disks: the best first", [entries[worst.index(name)]["standing"] for name in best],
                      [one["standing"] for one in entries][::-1])
            counted = {one: sum(entry["standing"] == one for entry in entries) for one in order}
            self.same(f"{count} disks: each verdict occurs", min(counted.values()) > 0, True)
            self.same(f"{count} disks: the counts", texts[0], [0, *counted.values()])
            self.same(f"{count} disks: ages", {cells[6] for cells in texts[1]}, {"2 h ago"})
            self.same(f"{count} disks: soon enough", took < 2, True)

    def test_the_order_of_READING(self):
        """The worst first is the order of READING's filter."""
        need("jq")
        reading = (TOP / "docs/READING.md").read_text(encoding="utf-8")
        order, = re.findall(r"^\$ jq -r -s '(sort_by\(.*\))\[:6\]\[\] \|", reading, re.M)
        choice, keys = random.Random(7), ("shards", "superblock_tie", "runs_lost", "shards_broken", "unreadable_pages")
        rows = ['{"disk":"d00","status":3,"text":"x"}\n']
        for number in range(1, 60):
            values = [choice.choice((0, 3)), *(choice.choice((0, 0, most)) for most in (1, 2)), choice.randrange(3), choice.randrange(3)]
            verdict = "wrong" if any(values[1:]) else choice.choice(("wrong", "doubt", "sound"))
            row = rows_of(f"d{number:02}", SOUND)["summary"].replace('"sound"', f'"{verdict}"')
            rows.append(re.sub(f'"({"|".join(keys)})":[0-9]+', lambda found: f'"{found[1]}":{values[keys.index(found[1])]}', row))
        choice.shuffle(rows)
        right = subprocess.run(["jq", "-r", "-s", order + "[].disk"], input="".join(rows), capture_output=True, encoding="utf-8", check=True).stdout
        self.same("the disks", self.entries(rows, columns=[["standing", False]]), [right.split()])

    def test_columns(self):
        """A click sorts by a column, another one the other way round. What isn't known comes last at first."""
        numbers = {"a10": (1, 0, 5), "a9": (3, 7, 0), "b": (0, 2, 9)}
        rows = [row for name, (broken, unreadable, free) in numbers.items() for row in (
            rows_of(name, SOUND)["summary"].replace('"shards_broken":0', f'"shards_broken":{broken}')
            .replace('"unreadable_pages":0', f'"unreadable_pages":{unreadable}')
            .replace('"candidates":0,"candidate_bytes":0', f'"candidates":2,"candidate_bytes":{free + 1}'),
            json.dumps({"disk": name, "status": 0, "text": "", "lines": [["reclaim", "1", str(free)], ["reclaim", "2", "1"]]}) + "\n")]
        rows.append('{"disk":"c","status":4,"text":"out of memory"}\n')
        wanted = {"name": ["a9", "a10", "b", "c"], "broken": ["a9", "a10", "b", "c"], "unreadable": ["a9", "b", "a10", "c"],
                  "gain": ["b", "a10", "a9", "c"]}
        found = self.entries(rows, columns=[[column, is_reversed] for column in wanted for is_reversed in (False, True)])
        self.same("the orders", found, [some for names in wanted.values() for some in (names, names[::-1])])
        found = self.entries(rows, columns=[["standing", False], ["standing", True]])
        self.same("by the verdict", found, [["c", "a9", "a10", "b"], ["a9", "a10", "b", "c"]])
        cells = self.entries(rows, "sortedEntries(entries, 'name', false).map(cellsOf)")
        self.same("cells", cells, [[name, *some, "2 h ago"] for name, *some in (
            ("a9", "sound", "–", "3", "7", "1 byte"), ("a10", "sound", "–", "1", "0", "6 bytes"), ("b", "sound", "–", "0", "2", "10 bytes"),
            ("c", "no answer", "status 4, out of memory", "–", "–", "–"))])

    def test_ages(self):
        ages = {0: "0 s", 119e3: "119 s", 120e3: "2 min", 7199e3: "119 min", 7200e3: "2 h", 172799e3: "47 h", 172800e3: "2 d", 864e8: "1,000 d"}
        self.same("texts", self.value("ages.map(ageText)", ages=list(ages)), list(ages.values()))
        files = [file("a.summary", SOUND.outputs["summary"], 5000), file("a.reclaimable", "", 3000), file("b.reclaimable", "")]
        found = self.value(f"[...{DISKS}.values()].map((disk) => entryOf(disk, 9000).age)", files=files)
        self.same("that of the oldest file, if it is known", found, [6000, None])
        # A row says itself when its scan began: what was copied today can be of last week.
        row = self.row_with("a", time="1970-01-01T00:00:02Z")
        for what, rows, right in (("of a scan", [row], 7000), ("of a row of before, by its file", [rows_of("a", SOUND)["summary"]], 1000),
                                  ("of the oldest scan", [row, rows_of("a", SOUND)["reclaimable"]], 7000),
                                  ("without a time", [self.row_with("a", time="last week")], 1000)):
            found = self.value(f"[...{DISKS}.values()].map((disk) => entryOf(disk, 9000).age)", files=[file("rows.jsonl", "".join(rows), 8000)])
            self.same(f"that {what}", found, [right])
        texts = self.value("answersOf(files).map(fileText)", files=[file("rows.jsonl", self.row_with("a", time="1970-01-01T00:00:02Z", image="/dev/a", host="b"))])
        self.same("the scan", texts, ["summary: rows.jsonl, /dev/a on b, 1970-01-01T00:00:02Z"])

    def row_with(self, name, **more):
        """A row of a sound disk's summary with these keys, too."""
        return json.dumps(json.loads(rows_of(name, SOUND)["summary"]) | more) + "\n"

    def test_reasons(self):
        """The column has the line of view/why without the verdict; without it, what the page can say."""
        wrong = {"disk": "a", "status": 3, "text": "shardscrub: image too long"}
        cases = {
            "a reason": (self.row_with("a", why="sound: 1 shard, generation 1"), "1 shard, generation 1"),
            "one of another verdict": (self.row_with("a", why="wrong: 1 torn item"), "wrong: 1 torn item"),
            "no reason": (self.row_with("a"), ""), "no text": (self.row_with("a", why=["x"]), ""),
            "a control character": (self.row_with("a", why="sound: \x1b[31m\u202ex"), "\\u001b[31m\\u202ex"),
            "no answer": (json.dumps(wrong | {"why": "no answer: image too long"}) + "\n", "image too long"),
            "no answer in a row of before": (json.dumps(wrong) + "\n", "status 3, shardscrub: image too long"),
            "not judged": (json.dumps(wrong | {"lines": None, "why": "no answer: x"}) + "\n" + rows_of("a", SOUND)["scan"], "reclaimable gave no answer: status 3, shardscrub: image too long"),
        }
        found = self.value(f"cases.map((files) => [...{DISKS}.values()].map((disk) => entryOf(disk, 0).why))", cases=[[file("a.jsonl", text)] for text, _ in cases.values()])
        for (what, (_, right)), some in zip(cases.items(), found, strict=True):
            self.same(what, some, [right])
        mixed = [self.row_with("a", why="sound: x"), json.dumps(json.loads(rows_of("a", LATER)["scan"]) | {"why": "wrong: x"}) + "\n"]
        found, = self.value(f"[...{DISKS}.values()].map((disk) => entryOf(disk, 0).why)", files=[file("a.jsonl", "".join(mixed))])
        self.same("of two scans the difference", found.startswith("clean: false in scan, verdict sound in summary; "), True)

    def test_the_faults_come_first(self):
        """Of an opened summary the verdict comes first, then each fault that isn't zero, in the order of view/why."""
        names = self.value("FAULTS")
        reasons = [line.split("\t")[1] for line in (TOP / "view/reasons.tsv").read_text(encoding="utf-8").splitlines() if line.startswith("number\t")]
        self.same("the order of view/why", [name for name in names if name in reasons], reasons[1:])
        occurring = set()
        for name, disk in disks().items():
            lines = disk.outputs["summary"].splitlines()
            found = self.value("summaryOrder(lines)", lines=lines)
            self.same(f"{name}: the same lines", sorted(found["lines"]), sorted(lines))
            numbers = dict(line.split(" ") for line in lines)
            right = [one for one in names if (numbers[one] == "0") == (one == "superblocks")]
            occurring |= set(right)
            self.same(f"{name}: the faults", [line.split(" ")[0] for line in found["lines"][:len(right) + 1]], ["verdict", *right])
            self.same(f"{name}: their number", len(found["faults"]), len(right))
            self.same(f"{name}: a sound disk has none", right == [] or numbers["verdict"] != "sound", True)
        self.same("faults that occur", occurring, set(names))

    def test_filters(self):
        """The chosen verdicts and the letters of a name; the counts are those of the letters."""
        _, rows = self.fleet(40)
        call = "choices.map(([letters, some]) => ((found) => [found.counts, [...found.shown].map(({name}) => name)])(filtered(entries, letters, new Set(some))))"
        entries = self.entries(rows, "entries")
        choices = [["", []], [" SD1 ", []], ["", ["wrong"]], ["", ["wrong", "no answer"]], ["d1", ["sound", "doubt"]], ["", [MIXED]]]
        for (letters, some), (counts, names) in zip(choices, self.entries(rows, call, choices=choices), strict=True):
            named = [one for one in entries if letters.strip().lower() in one["name"]]
            self.same(f"{letters!r} and {some}", names, [one["name"] for one in named if not some or one["standing"] in some])
            self.same(f"{letters!r} and {some}: the counts", counts,
                      [sum(one["standing"] == standing for one in named) for standing in self.value("STANDINGS")])

    def test_disks_without_an_answer(self):
        """A disk without any answer, or without one of summary or scan, has none; a refused reclaimable alone isn't that."""
        for what, rows, standing in (
                ("no image", [{"status": 3, "text": "x"}], "no answer"),
                ("no image, for all commands", [{"status": 3, "text": "x"}] * 2 + [{"status": 3, "text": "x", "lines": None}], "no answer"),
                ("reclaimable was refused alone", [{"status": 2, "text": "x", "lines": None}], "no answer"),
                ("reclaimable was refused", [{"status": 2, "text": "x", "lines": None}, SOUND.report], "not judged"),
                ("rows of reclaimable alone", [{"status": 0, "text": "", "lines": []}], "not judged")):
            text = "".join(json.dumps({"disk": "a", "status": 0, "text": ""} | row) + "\n" for row in rows)
            shown = self.value(SHOWN, files=[file("a.jsonl", text)])
            self.same(what, [one["entry"]["standing"] for one in shown], [standing])
            self.same(f"{what}: the verdict", shown[0]["verdict"], "no answer" if standing == "no answer" else "not judged: open summary")
            status = max(row["status"] for row in rows if "status" in row)
            right = [f"status {status}, x"] if standing == "no answer" else ["reclaimable gave no answer: status 2, x"] if status else []
            self.same(f"{what}: why, once", self.value(f"reasonsOf({DISKS}.get('a'))", files=[file("a.jsonl", text)]), right)

    def test_opened_later(self):
        """Other answers are added to a disk. A second answer of a command begins it anew, so that no old verdict stays beside new ones."""
        sound, wrong = SOUND, disks()["several findings"]
        first, report = rows_of("a", sound)["summary"], [file("a.json", written(wrong.report))]
        none = [file("rows.jsonl", '{"disk":"a","status":3,"text":"shardscrub: image too long"}\n')]
        refused = [file("rows.jsonl", '{"disk":"a","status":2,"text":"","lines":null}\n')]
        for what, later, right in (("a report", [report], ["summary", "scan"]), ("two reports", [report, report], ["scan"]),
                                   ("no answer", [none], []), ("a refused reclaimable", [refused], ["summary"])):
            found = self.value("Object.keys(later.reduce((all, files) => withAnswers(all, answersOf(files)), new Map()).get('a').answers)",
                               later=[[file("rows.jsonl", first)], *later])
            self.same(f"a summary, and later {what}", found, right)


def summary_row(*changes):
    row = rows_of("x", SOUND)["summary"]
    for old, new in changes:
        row = re.sub(old, new, row)
    return row


HOSTILE = (
    ("a list", "wrong.json", "[1]\n", "it isn't a report"),
    ("half a report", "wrong.json", written(SOUND.report)[:200], "it isn't JSON, or it is cut short"),
    ("a report without a key", "wrong.json", written({key: SOUND.report[key] for key in SOUND.report if key != "twins"}), "no key twins"),
    ("an unknown item", "wrong.json", written(SOUND.report).replace('"chunk ', '"lump ', 1), "isn't understood"),
    ("an extent that is left out", "wrong.json", written(SOUND.report | {"extents": SOUND.report["extents"][1:]}), "the report lacks extent 1"),
    ("a line between two reports", "wrong.json", written(SOUND.report) + "image too long\n" + written(SOUND.report), "line 2"),
    ("a word of a locator that is left out", "wrong.txt", "run 0 2 0 117 sound\n", "line 1 isn't a line of locators"),
    ("an unknown state", "wrong.txt", "record 0 SSB1 1 new\n", "line 1 isn't a line of superblocks"),
    ("an unknown doubt", "wrong.txt", "doubt tail 1 1 1\ndoubt rain\n", "line 2 isn't a line of reclaimable"),
    ("half a line", "wrong.txt", "record 0 SSB1 1 counts\ndamaged 4", "isn't whole"),
    ("a move without its bytes", "wrong.txt", "reclaim 1 9\nmove 1 0 3 11111111-1111-1111-1111-111111111111 run 0\n",
     "line 2 isn't a line of reclaimable"),
    ("a spare of no copy", "wrong.txt", "run 0 2 0 117 11111111-1111-1111-1111-111111111111 no_frame\n"
     "spare 3 0 117 11111111-1111-1111-1111-111111111111 0\n", "line 2 isn't a line of locators"),
    ("sizes", "wrong.txt", "0 SSB1 6 64 16 5\n", "the output of sizes"),
    ("a manifest", "wrong.txt", "retired\nruns lost 0 hidden 0\ntotal 0 0\n", "the output of manifest, which this page doesn't show"),
    ("a manifest without a superblock", "wrong.txt", "no-superblock\n", "the output of manifest, which"),
    ("a summary that is cut short", "wrong.txt", "verdict sound\npage_bytes 64\n", "it isn't a whole summary: it has no extent_pages"),
    ("two images that were compared", "wrong.txt", "written 2 42\nunsafe\n", "the output of compare, which this page doesn't show"),
    ("something else", "wrong.txt", "hello\n", "neither a report nor an output"),
    ("an empty file of no known kind", "wrong.txt", "", "name doesn't say what it is"),
    ("a word of every object", "wrong.txt", "constructor\n", "neither a report nor an output"),
    ("a summary without its last number", "x.jsonl", summary_row((',"chunks_to_move":', ',"chunks":')), "it has no chunks, chunks_to_move"),
    ("a summary without its verdict's word", "x.jsonl", summary_row(('"verdict":"[a-z]*"', '"verdict":""')), "it has no verdict"),
    ("an unknown verdict", "x.jsonl", summary_row(('"verdict":"[a-z]*"', '"verdict":"fine"')), "it has no verdict"),
    ("a list with a verdict", "x.jsonl", summary_row(('"verdict":"[a-z]*"', '"verdict":["sound"]')), "it has no verdict"),
    ("half a number", "x.jsonl", summary_row(('"tails":([0-9]*)', r'"tails":\1.5')), "it has no tails"),
    ("a number below zero", "x.jsonl", summary_row(('"runs_lost":0', '"runs_lost":-1')), "it has no runs_lost"),
    ("a number as text", "x.jsonl", summary_row(('"runs_lost":0', '"runs_lost":"0"')), "it has no runs_lost"),
    ("a number twice", "x.jsonl", summary_row(('"runs_lost":0', '"runs_lost":0,"runs_lost":1')), "it has no runs_lost"),
    ("a row that is cut short", "x.jsonl", summary_row()[:-5] + "\n", "it isn't JSON, or it is cut short"),
    ("a summary after a right one", "x.jsonl", summary_row() + summary_row(('"tails":', '"tail":')), "line 2: it isn't a whole summary"),
    ("a report whose list has none", "x.json", written(SOUND.report | {"runs": [None]}), "a list is missing"),
    ("a summary with one more line", "x.summary", SOUND.outputs["summary"] + "more 1\n", "more lines than a summary"),
    ("a row with a line that isn't one", "x.jsonl", '{"disk":"x","status":0,"text":"","lines":[["reclaim","1"]]}\n',
     "line 1 isn't a line of reclaimable"),
    ("a report whose list is none", "x.json", written(SOUND.report | {"extents": None}), "a list is missing"),
    ("a report without pages", "x.json", written(SOUND.report | {"super": None}), "a list is missing"),
    ("a report with other sizes", "x.json", written(SOUND.report | {"geometry": {"extents": 2 ** 40, "page": 64, "pages": 1}}),
     "aren't those of a disk"),
)


class Files(PageCase):
    """Files that can't be opened."""

    def check_refused(self, case):
        what, name, text, right = case
        fault = self.throws(f"[...{DISKS}.values()].map((disk) => pictureOf(disk.answers))",
                            files=[file("right.json", written(SOUND.report)), file(name, text)])
        self.same(f"{what} is refused", right in fault and (name in fault or "disk x" in fault or "report" in fault or "extent" in fault), True)

    def test_names(self):
        """A file is of the disk with its name; an empty one is recognized by its ending."""
        for name, text, right in (("a/b/sda.1.locators", "", ["sda.1", "locators"]), ("sda", "record 0 SSB1 1 counts\n", ["sda", "superblocks"]),
                                  ("x.reclaimable", "", ["x", "reclaimable"]), ("x.txt", "lost 3\n", ["x", "superblocks"]),
                                  ("y.json", written(SOUND.report), ["y", "scan"])):
            self.same(name, [[one["disk"], one["command"]] for one in self.value("answersOf(files)", files=[file(name, text)])], [right])
        found = self.value("answersOf(files)", files=[file("y.jsonl", written(SOUND.report) * 2)])
        self.same("lines without names", [one["disk"] for one in found], ["y, line 1", "y, line 2"])

    def test_control_characters(self):
        """Those of a file's name and of a row reach no text."""
        name, right = "a\x1b[31m\nb\u202e\u0085", "a\\u001b[31m\\u000ab\\u202e\\u0085"
        row = json.dumps({"disk": name, "status": 3, "text": f"1\n 2\x1b{name}", "image": name, "host": name}) + "\n"
        found = self.value(f"[...{DISKS}.values()].map((disk) => [disk.name, ...disk.texts.map(fileText), ...reasonsOf(disk)])",
                           files=[file(f"x/{name}.reclaimable", ""), file(f"{name}.jsonl", row)])
        self.same("the texts", found, [[right, f"reclaimable: x/{right}.reclaimable", f"summary or scan: {right}.jsonl, {right} on {right}",
                                        f"status 3, 1 2\\u001b{right}".replace("\\u000a", " ")]])
        self.same("a fault", self.throws("answersOf(files)", files=[file(f"{name}.x", f"{name}\n")]).startswith(f"{right}.x: "), True)

    def test_parts_of_addresses(self):
        """A disk has an address, whatever its name is, and so has a place."""
        for name, place in (("sda", None), ("several findings", {"extent": 3, "offset": 9}), ("a&b#c/%é=1:2", {"extent": 0, "offset": 0}), ("1:2", None)):
            self.same(name, self.value("addressIn(addressOf(name, place))", name=name, place=place),
                      {"name": name} | ({"place": place} if place else {}))
        self.same("others", self.value("['', '#', '#3:9', '#disk=a', '#disk=%zz', '#disk=a&3:9', '#x'].map(addressIn)"),
                  [{}, {}, {"place": {"extent": 3, "offset": 9}}, {"name": "a"}, {"name": "%zz"}, {"name": "a", "place": {"extent": 3, "offset": 9}}, {}])

    def test_addresses(self):
        """Only paths of the page's own origin are opened."""
        own, page = ("disk.json", "/a/disk.json", "../x.json?y#z", "http://a.org/x", "//a.org/x"), "http://a.org/b/report.html?x"
        others = ("//b.org/x", "http://b.org/x.json", "https://a.org/x", "http://a.org:81/x", "data:text/plain,x", "javascript:x",
                  "blob:http://a.org/x", "file:///x", "\\\\b.org/x", "http://a.org.b.org/")
        found = self.value("paths.map((path) => isOwn(path, page))", paths=[*own, *others], page=page)
        self.same("the origins", found, [True] * len(own) + [False] * len(others))


add_tests(Files, Files.check_refused, [(case[0], case) for case in HOSTILE])


def rgb(colour):
    return [int(colour[at:at + 2], 16) for at in (1, 3, 5)]


def luminance(parts):
    """The relative luminance of a colour by its red, green and blue, as WCAG 2 has it."""
    linear = [part / 12.92 if part <= .04045 else ((part + .055) / 1.055) ** 2.4 for part in (part / 255 for part in parts)]
    return sum(weight * part for weight, part in zip((.2126, .7152, .0722), linear))


def contrast(one, other):
    """The contrast of two colours by WCAG 2, from 1 to 21."""
    low, high = sorted(map(luminance, (one, other)))
    return (high + .05) / (low + .05)


def lightness(colour):
    """The lightness L* of a colour, from 0 to 100."""
    return 116 * luminance(rgb(colour)) ** (1 / 3) - 16


class Looks(PageCase):
    """The text of the page."""

    def test_the_policy(self):
        """The policy is the first thing after the character set, and the page has no address of another origin and makes no code of texts."""
        page = text_of_page()
        policies = re.findall(r'<head>\n<meta charset="utf-8">\n<meta http-equiv="Content-Security-Policy" content="([^"]*)">\n', page)
        self.same("the policy", policies, [POLICY])
        self.same("addresses", re.findall(r"https?://[^\s\"'`]+|//[\w.-]+\.\w+/|src=", page), [])
        self.same("code of texts", re.findall(r"innerHTML|outerHTML|insertAdjacent|document\.write|\beval\(|new Function", page), [])
        self.same("events of a mouse", re.findall(r"\bmouse(?:down|up|move|leave|over)\b", page), [])

    def test_the_style(self):
        """Dark if the reader wants it, but not on paper, where no bar is cut; long words are broken; bars can be dragged by touch, and the
        overview can be reached by keys."""
        page = text_of_page()
        rules = (r"@media screen and \(prefers-color-scheme: dark\) \{\n    :root:not\(\.printing\)",
                 r"@media print \{[^@]*#print canvas[^{]*\{ break-inside: avoid; \}",
                 r"  body \{[^}]*overflow-wrap: anywhere;", r"#bars \{[^}]*touch-action: pan-y;", r'<canvas id="overview" tabindex="0"')
        self.same("rules that aren't there", [rule for rule in rules if not re.search(rule, page)], [])
        light, dark = (set(re.findall(r"--[a-z-]+(?=:)", rule)) for rule in re.findall(r":root[^{]*\{([^}]*)\}", page))
        self.same("colours that dark lacks", light - dark, set())

    def styles(self):
        """The paper and the styles of the light page and of the dark one: kinds, classes and the other ones."""
        found = self.value("[KINDS.filter(Boolean), CLASSES, [TAIL, UNSHOWN, ...Object.values(ROOMS), TWIN, HIDDEN, DANGLING]]")
        papers = re.findall(r"--paper: (#\w+)", text_of_page())
        self.same("papers", len(papers), 2)
        for paper, is_dark in zip(papers, (False, True)):
            yield paper, *([one | one.get("dark", {}) if is_dark else one for one in some] for some in found)

    def test_colours(self):
        """Greys differ without colour, and nothing but a verdict is green."""
        for paper, kinds, classes, others in self.styles():
            groups = {"plain kinds": [one["fill"] for one in kinds if "hatch" not in one] + [others[2]["fill"]],
                      "damage": [one["fill"] for one in kinds if "hatch" in one],
                      "other hatched ones": [one["fill"] for one in others[:4] if "hatch" in one],
                      "the overview": [one["fill"] or paper for one in classes]}
            for what, colours in groups.items():
                greys = sorted(map(lightness, colours))
                self.same(f"{what} on {paper}: greys", [(low, high) for low, high in zip(greys, greys[1:]) if high - low < 5], [])
            live = {one["name"]: lightness(one["fill"] or paper) for one in classes}
            self.same(f"nothing live and up to half live on {paper}", abs(live["none live"] - live["half live"]) > 15, True)
            for colour in [one[key] for one in kinds + classes + others for key in ("fill", "hatch") if one.get(key)]:
                red, green, blue = (int(colour[at:at + 2], 16) for at in (1, 3, 5))
                self.same(f"{colour} is no green", green > red + 20 and green > blue + 20, False)

    def test_contrast(self):
        """By WCAG, damage has at least 3 on either paper, as its ground and with its lines (a quarter of it); zeros have less than any."""
        for paper, kinds, classes, others in self.styles():
            damage = [one for one in kinds if "hatch" in one] + [classes[0], *others[-2:]]
            self.same(f"damage on {paper}", len(damage), 8)
            contrasts = {}
            for one in damage:
                whole, lines = rgb(one["fill"]), rgb(one.get("hatch", one["fill"]))
                contrasts |= {one["name"]: contrast(whole, rgb(paper)),
                              f"{one['name']}, hatched": contrast([.75 * a + .25 * b for a, b in zip(whole, lines)], rgb(paper))}
            zeros = contrast(rgb(kinds[0]["fill"]), rgb(paper))
            self.same(f"too little on {paper}", {name: value for name, value in contrasts.items() if value < 3}, {})
            self.same(f"zeros on {paper}", zeros < min(contrasts.values()), True)

    def test_sizes(self):
        """A unit is chosen after rounding."""
        sizes = {0: "0 bytes", 1: "1 byte", 1023: "1,023 bytes", 1024: "1.0 KiB", 1075: "1.0 KiB", 1076: "1.1 KiB", 1000000: "976.6 KiB",
                 2 ** 20 - 52: "1023.9 KiB", 2 ** 20 - 51: "1.0 MiB", 2 ** 20: "1.0 MiB", 2 ** 30 - 1: "1.0 GiB", 2 ** 32: "4.0 GiB", 2 ** 42: "4096.0 GiB"}
        self.same("texts", self.value("sizes.map(shortSize)", sizes=list(sizes)), list(sizes.values()))


class InBrowser(Case):
    """The page on a screen. At the end of a test it may not have reported an error."""

    @classmethod
    def setUpClass(cls):
        cls.browser = Browser()
        cls.addClassCleanup(cls.browser.close)

    def tearDown(self):
        self.same("errors of the page", self.browser.errors(), [])

    def open(self, name, texts, place=""):
        """Opens files by the address, and returns what is shown."""
        for ending, text in texts.items():
            self.browser.put(f"{name}.{ending}", text)
        return self.browser.open(f"{self.browser.site}/report.html?{'&'.join(f'{name}.{ending}' for ending in texts)}{place}")

    def files(self, name):
        return {"json": written(disks()[name].report), **disks()[name].outputs}

    def verdict(self):
        """The text of the verdict and its class, and whether its colour is another one than that of other texts."""
        return self.browser.value("((one) => [one.textContent, one.className.trim(), getComputedStyle(one).color !== "
                                  "getComputedStyle(document.body).color])(document.getElementById('verdict'))")

    def test_ways_to_open(self):
        """By the picker and by drag and drop, on a page that was opened as a file; other files of the disk later."""
        paths = [self.browser.put(f"one.{ending}", text) for ending, text in self.files("flipped-bit").items()]
        for put in (self.browser.choose_files, self.browser.drop_files):
            self.browser.open(PAGE.as_uri())
            put(paths[0])
            self.same("the report", (self.browser.state(), self.verdict()), ("answer main", ["not judged: open summary", "verdict", False]))
            put(*paths[1:])
            self.same("the outputs", (self.browser.state(), self.verdict()), ("answer main", ["verdict doubt", "verdict doubt", True]))
        lines = disks()["flipped-bit"].outputs["reclaimable"].splitlines()
        shown = self.browser.value("[...document.querySelectorAll('#doubts code, #resets code, #rooms code')].map((one) => one.textContent)")
        self.same("the lines of reclaimable", shown, lines)
        self.same("a file isn't read by itself", self.browser.open(PAGE.as_uri() + "?one.json"), "fault")
        self.same("the page says so", "Choose the files above" in self.browser.text("fault"), True)

    def test_what_cannot_be_opened(self):
        for what, name, text, right in HOSTILE[:19]:
            self.browser.put(name, text)
            self.browser.open(f"{self.browser.site}/report.html?{name}")
            self.same(what, right in self.browser.text("fault"), True)
            self.same(f"{what}: no picture", self.browser.value("document.getElementById('disk').checkVisibility()"), False)
        for path, right in (("none.json", "404"), ("http://localhost:1/x.json", "another origin"), ("//localhost:1/x.json", "another origin")):
            self.browser.open(f"{self.browser.site}/report.html?{path}")
            self.same(path, right in self.browser.text("fault"), True)
        violated = self.browser.value("""new Promise((done) => {
            document.addEventListener('securitypolicyviolation', (event) => done(event.effectiveDirective));
            fetch('http://localhost:1/').catch(() => setTimeout(() => done(null), 1000)); })""")
        self.same("the policy", violated, "connect-src")

    def cells(self, number):
        """The texts of the cells in a column of the table, without the rows that a filter hides."""
        return self.browser.value(f"[...document.querySelectorAll('#disks tr:not([hidden]) td:nth-child({number})')].map((one) => one.textContent)")

    def focused(self):
        return self.browser.value("document.activeElement.id || document.activeElement.textContent")

    def test_a_fleet(self):
        """Forty and four thousand rows: a click on a title sorts them, one on a disk opens it."""
        for count in (40, 4000):
            names, rows = Fleet().fleet(count)
            self.same("the table", self.open("rows", {"jsonl": "".join(rows)}), "fleet")
            self.same("all disks", sorted(self.cells(1)), sorted(names))
            self.browser.screenshot(f"fleet-{count}")
            self.browser.value("document.querySelectorAll('#columns button')[0].focus()")
            self.browser.press("Enter", 13)
            self.same("by name", self.cells(1), names)
            self.same("the focus is still there", self.focused(), "Disk")
            self.browser.state()
            self.browser.value("document.querySelectorAll('#disks td:last-child')[1].click()")
            self.same("a disk", (self.browser.state(), self.browser.text("name")), ("answer main", names[1]))
            self.browser.value("document.getElementById('all').click()")
            self.same("all disks again", (self.browser.state(), self.cells(1)), ("fleet", names))
            self.browser.value("document.getElementById('filter').focus()")
            self.browser.press("D", 68)
            self.browser.press("7", 55)
            self.same("a filter", self.cells(1), [name for name in names if "d7" in name])
            self.same("its counts", self.browser.text("counts"), f"{sum('d7' in name for name in names)} of {count:,} disks:")
        self.same("the table's name", self.browser.value("document.querySelector('#fleet table').ariaLabel"), "Disks")
        self.browser.resize(420)
        heights = self.browser.value("[...document.querySelectorAll('#disks tr')].map((one) => one.offsetHeight)")
        self.browser.resize(1400)
        self.same("each row is one line in a narrow window, too", max(heights) < 40, True)

    def pressed(self):
        """The buttons of the verdicts that are shown: their texts, and whether they are pressed."""
        return self.browser.value("[...document.querySelectorAll('#standings button:not([hidden])')]"
                                  ".map((one) => [one.textContent, one.getAttribute('aria-pressed')])")

    def test_verdicts_as_filters(self):
        """The counts above the table are buttons. A pressed one shows its disks alone, several show theirs."""
        _, rows = Fleet().fleet(40)
        self.open("rows", {"jsonl": "".join(rows)})
        right = {one: self.cells(2).count(one) for one in ("no answer", "wrong", "not judged", "doubt", "sound")}
        texts = [f"{count} {one}" for one, count in right.items()]
        self.same("the counts", self.pressed(), [[text, "false"] for text in texts])
        self.browser.value("document.querySelectorAll('#standings button:not([hidden])')[1].focus()")
        self.browser.press("Enter", 13)
        self.same("one", (set(self.cells(2)), len(self.cells(2)), self.browser.text("counts")), ({"wrong"}, right["wrong"], f"{right['wrong']} of 40 disks:"))
        self.same("it is pressed", self.pressed(), [[text, str(text.endswith("wrong")).lower()] for text in texts])
        self.same("the focus is still there", self.focused(), texts[1])
        self.browser.screenshot("verdicts-as-filters")
        self.browser.value("document.querySelectorAll('#standings button:not([hidden])')[3].focus()")
        self.browser.press(" ", 32)
        self.same("two", set(self.cells(2)), {"wrong", "doubt"})
        self.browser.value("document.getElementById('columns').querySelector('button').click()")
        self.same("also after sorting", set(self.cells(2)), {"wrong", "doubt"})
        self.browser.press(" ", 32)
        self.same("one again", set(self.cells(2)), {"wrong"})

    def test_an_opened_row(self):
        """Its reason is beside the verdict, and its faults come before its sizes."""
        row = rows_of("a", disks()["several findings"])["summary"].replace('"text": ""', '"text": "", "why": "wrong: 2 of 3 shards broken"')
        self.open("rows", {"jsonl": row})
        self.same("the reason", self.browser.text("reasons"), "2 of 3 shards broken")
        lines = self.browser.text("numbers").split("\n")
        self.same("the numbers", lines[:7], ["verdict wrong", "shards_broken 2", "locators_dangling 2", "unreadable_pages 1", "lost_items 1",
                                             "torn_items 2", "noise_items 1"])
        self.same("then the sizes", lines[7:10], ["page_bytes 64", "extent_pages 16", "extents 5"])
        heights = self.browser.value("['damage', 'doubts', 'rooms'].map((id) => document.getElementById(id).parentNode.offsetHeight)")
        self.same("a part without a list is one line", max(heights) < 30, True)

    def test_a_missing_file(self):
        """The others are opened; the page says which one isn't."""
        self.browser.put("there.summary", SOUND.outputs["summary"])
        for address in ("there.summary&none.json", "none.json&there.summary", "there.summary&//localhost:1/x.json"):
            self.browser.open(f"{self.browser.site}/report.html?{address}")
            self.same(address, (self.verdict()[0], self.browser.text("fault").count("can't be opened")), ("verdict sound", 1))
        self.browser.put("wrong.txt", "hello\n")
        self.browser.open(f"{self.browser.site}/report.html?wrong.txt&none.json")
        fault = self.browser.text("fault")
        self.same("one is missing and one is refused", ("none.json: 404" in fault, "wrong.txt: it is neither" in fault), (True, True))

    def test_names_with_control_characters(self):
        """They are escapes in the texts around the picture."""
        path = self.browser.room / "a\x1b[31m\u202eb.json"
        path.write_text(written(SOUND.report), encoding="utf-8")
        self.browser.open(PAGE.as_uri())
        self.browser.choose_files(path)
        self.browser.state()
        self.same("the name", self.browser.text("name"), "a\\u001b[31m\\u202eb")
        self.same("no text has one", re.findall("[\x1b\u202e]", self.browser.value("document.title + document.body.textContent")), [])

    def test_a_narrow_window(self):
        """At 390 pixels the bars have the width, and the table says that it has more columns."""
        self.open("one", self.files("several findings"))
        width = lambda: self.browser.value("pointOf(3, 1024).x - pointOf(3, 0).x")
        self.same("beside labels", width() > 600, True)
        self.browser.resize(390)
        self.browser.value("new Promise((done) => requestAnimationFrame(() => requestAnimationFrame(done)))")
        self.same("below labels", width() > 320, True)
        self.browser.screenshot("narrow")
        self.browser.value("document.getElementById('bars').scrollIntoView()")
        self.browser.point("mouseMoved", 3, 80)
        self.same("under the pointer", self.browser.text("tip").split("\n")[0], "extent 3: lost 64 128")
        self.open("rows", {"jsonl": "".join(Fleet().fleet(40)[1])})
        hint = "document.getElementById('wider').checkVisibility()"
        self.same("a hint", self.browser.value(hint), True)
        self.browser.screenshot("narrow-fleet")
        self.browser.resize(1400)
        self.browser.value("new Promise((done) => requestAnimationFrame(() => requestAnimationFrame(done)))")
        self.same("no hint in a wide one", self.browser.value(hint), False)

    def test_damage_in_the_dark(self):
        """The pixels of damage differ from the paper by a contrast of 3, those of zeros by less; light again on paper."""
        self.open("one", self.files("several findings"))
        places = {"lost": (3, 96), "noise": (3, 160), "torn": (3, 215), "zeros": (3, 260)}
        for scheme, paper in (("light", "#ffffff"), ("dark", "#16191d")):
            self.browser.call("Emulation.setEmulatedMedia", features=[{"name": "prefers-color-scheme", "value": scheme}])
            self.browser.value("new Promise((done) => requestAnimationFrame(() => requestAnimationFrame(done)))")
            found = {name: contrast(self.colour(*place), rgb(paper)) for name, place in places.items()}
            self.same(f"damage on a {scheme} page", {name: value for name, value in found.items() if name != "zeros" and value < 3}, {})
            self.same(f"zeros on a {scheme} page", found["zeros"] < min(value for name, value in found.items() if name != "zeros"), True)
        self.browser.call("Emulation.setEmulatedMedia", features=[])

    def colour(self, extent, byte):
        """The average of the twelve pixels in a line around a byte of a bar: two tiles of a hatched piece."""
        pixels = self.browser.value(f"(({{x, y}}, box) => [...document.getElementById('bars').getContext('2d')"
                                    f".getImageData(x - box.left - 6, y - box.top, 12, 1).data])(pointOf({extent}, {byte}), "
                                    "document.getElementById('bars').getBoundingClientRect())")
        return [sum(pixels[part::4]) / 12 for part in range(3)]

    def test_two_scans(self):
        """Forty disks of which three have files of two scans, and six more with a difference each: they come first, without a colour, a
        number or a line to act on."""
        report, outputs = disks()["several findings"].report, disks()["several findings"].outputs
        names, rows = Fleet().fleet(40)
        mixed = names[4:31:13]
        rows = [row for row in rows if json.loads(row)["disk"] not in mixed]
        for name in mixed:
            later = rows_of(name, LATER)
            rows += [later["scan"], later["reclaimable"], rows_of(name, SOUND)["summary"]]
        six = {f"other-{key}": f'"{key}":{json.dumps(value)}' for key, value in Scans.DIFFERENT.items()}
        for name, new in six.items():
            of = rows_of(name, disks()["several findings"])
            rows += [re.sub(rf'{new.split(":")[0]}:("[a-z]*"|[0-9]+)', new, of["summary"]), of["reclaimable"], of["scan"]]
        wanted = sorted([*mixed, *six])
        for turn, some in enumerate((rows, rows[::-1])):
            self.same("the table", self.open("rows", {"jsonl": "".join(some)}), "fleet")
            self.browser.screenshot(f"two-scans-{turn}")
            self.same("they come first", sorted(self.cells(1)[:9]), wanted)
            self.same("their standing", self.cells(2)[:10].count(MIXED), 9)
            self.same("their numbers", {text for column in (4, 5, 6) for text in self.cells(column)[:9]}, {"–"})
            same = self.browser.value("[...document.querySelectorAll('#disks .verdict')].slice(0, 9).map((one) => one.className.trim() + "
                                      "(getComputedStyle(one).color === getComputedStyle(document.body).color))")
            self.same("no colour", set(same), {"verdicttrue"})
            for name in wanted:
                self.browser.value(f"location.hash = 'disk={name}'")
                self.same(name, (self.browser.state(), self.browser.text("name")), ("answer main", name))
                self.same(f"{name}: the verdict", self.verdict(), ["not judged: these files are of different scans", "verdict", False])
                key = name.removeprefix("other-") if name in six else "shards_broken"
                self.same(f"{name}: why", ("clean" if key == "verdict" else key) in self.browser.text("reasons"), True)
                shown = self.browser.value("['doubts', 'resets', 'rooms', 'numbers'].map((id) => document.getElementById(id).textContent)")
                self.same(f"{name}: the lines", set(shown), {"not shown: these files are of different scans"})
            self.browser.screenshot(f"two-scans-disk-{turn}")
        texts = {"json": written(report), "summary": Scans().changed("shards"), "reclaimable": outputs["reclaimable"]}
        self.open("one", texts)
        self.same("files of one disk", self.verdict(), ["not judged: these files are of different scans", "verdict", False])

    def test_no_answer(self):
        """A disk without an answer says so once, and once why."""
        row = {"disk": "a", "status": 3, "text": "shardscrub: image too long"}
        self.same("the page", self.open("rows", {"jsonl": "".join(json.dumps(one) + "\n" for one in (row, row, row | {"lines": None}))}), "answer ")
        shown = self.browser.value("document.body.innerText")
        self.same("once", (shown.count("no answer"), shown.count("image too long")), (1, 1))

    def test_addresses(self):
        """A disk has an address. Back returns to the table and keeps the files; a reload says which files to open again."""
        names, rows = Fleet().fleet(40)
        path = self.browser.put("chosen.jsonl", "".join(rows))
        for address in (PAGE.as_uri(), f"{self.browser.site}/report.html"):
            self.browser.open(address)
            self.browser.choose_files(path)
            self.same("the table", self.browser.state(), "fleet")
            order = self.cells(1)
            self.browser.value("document.querySelectorAll('#disks a')[6].focus()")
            self.browser.press("Enter", 13)
            self.same("a disk", (self.browser.state(), self.browser.text("name"), self.browser.value("location.hash")),
                      ("answer main", order[6], f"#disk={order[6]}"))
            self.same("the focus", self.focused(), "name")
            self.same("back", (self.browser.back(), self.cells(1), self.focused()), ("fleet", order, order[6]))
            self.browser.value(f"location.hash = 'disk={order[9]}'")
            self.same("an address", (self.browser.state(), self.browser.text("name")), ("answer main", order[9]))
            self.browser.reload()
            self.same("after a reload", self.browser.text("again"), "Open these files again: chosen.jsonl")
            self.browser.choose_files(path)
            self.same("the same disk", (self.browser.state(), self.browser.text("name"), self.browser.value("document.getElementById('again').checkVisibility()")),
                      ("answer main", order[9], False))
            self.same("back once more", (self.browser.back(), sorted(self.cells(1))), ("fleet", sorted(order)))
        self.same("files in the address", (self.open("rows", {"jsonl": "".join(rows)}, "#disk=sd2"), self.browser.text("name")), ("answer main", "sd2"))
        self.browser.open(PAGE.as_uri() + "#disk=sd2")
        self.same("an address alone", self.browser.text("again"), "Open the files of the disk sd2")

    def test_paper(self):
        """Each page of the table has its titles. A list is printed whole, without its button, or says how much isn't."""
        self.open("rows", {"jsonl": "".join(Fleet().fleet(150)[1])})
        pages = self.browser.printed()
        self.same("several pages", len(pages) > 2, True)
        self.same("the titles", [page.count("Unreadable") for page in pages], [1] * len(pages))
        self.check_paper_of_many()
        self.open("one", disks()["several findings"].outputs)
        text = "".join(self.browser.printed())
        self.same("the summary", [text.count(f"{line.split()[0]} ") for line in disks()["several findings"].outputs["summary"].splitlines()[30:]], [1] * 7)
        self.same("no button", "Show" in text, False)
        self.open("many", {"reclaimable": "".join(f"doubt tail {extent} 1 1\n" for extent in range(1, 1502))})
        text = "".join(self.browser.printed())
        self.same("a very long list", [text.count(one) for one in ("doubt tail 1000 1 1", "doubt tail 1001 1 1", "501 more aren't printed.")], [1, 0, 1])

    def check_paper_of_many(self):
        """Of 1,200 disks the bad ones alone are printed, unless the sound ones were asked for."""
        rows = [rows_of(f"disk-{number:04}-", LATER if number % 25 == 0 else SOUND)["summary"] for number in range(1200)]
        self.open("rows", {"jsonl": "".join(rows)})
        text = "".join(self.browser.printed())
        self.same("the disks", sorted(re.findall(r"disk-(\d{4})-", text)), [f"{number:04}" for number in range(0, 1200, 25)])
        self.same("what isn't printed", "1,152 sound disks aren't printed." in text, True)
        self.browser.value("[...document.querySelectorAll('#standings button')].find((one) => one.textContent.endsWith('sound')).click()")
        text = "".join(self.browser.printed())
        self.same("the sound ones", (len(re.findall(r"disk-\d{4}-", text)), "aren't printed" in text), (1152, False))

    def test_keys_and_pointer(self):
        browser, here = self.browser, lambda: self.browser.text("here").split("\n")[0]
        self.open("one", self.files("one-shard"), "#2:0")
        self.same("an address leads to its place", here()[:9], "extent 2:")
        browser.value("document.getElementById('scroll').focus()")
        for key, code, right in (("ArrowLeft", 37, "extent 1: chunk 0"), ("ArrowRight", 39, "extent 2: chunk 0"),
                                 ("ArrowUp", 38, "extent 1: chunk 0")):
            browser.press(key, code)
            self.same(key, here()[:len(right)], right)
        browser.press("+", 187)
        self.same("+ zooms in", browser.value("new Promise((done) => setTimeout(done, 50))") or browser.text("range")[:6], "bytes ")
        browser.press("0", 48)
        browser.value("document.getElementById('overview').focus()")
        browser.press("End", 35)
        browser.press("Enter", 13)
        self.same("the overview by keys", here()[:9], "extent 2:")
        browser.point("mouseMoved", 1, 10)
        self.same("under the pointer", browser.text("tip")[:17], "extent 1: chunk 0")
        browser.point("mousePressed", 1, 10)
        browser.point("mouseReleased", 1, 10)
        self.same("a press selects", here()[:17], "extent 1: chunk 0")
        browser.press("/", 191)
        self.same("the search", browser.value("document.activeElement.id"), "wanted")

    def test_dark_and_paper(self):
        """Dark if the reader wants it; paper is light, and has each bar as a picture of its own."""
        self.open("one", self.files("several findings"))
        self.browser.screenshot("light")
        grounds = []
        for scheme in ("light", "dark"):
            self.browser.call("Emulation.setEmulatedMedia", features=[{"name": "prefers-color-scheme", "value": scheme}])
            grounds.append(self.browser.value("getComputedStyle(document.body).backgroundColor"))
        self.browser.screenshot("dark")
        self.same("the grounds", grounds, ["rgb(243, 245, 247)", "rgb(13, 15, 18)"])
        self.browser.value("window.dispatchEvent(new Event('beforeprint'))")
        bars = self.browser.value("document.querySelectorAll('#print canvas').length")
        self.same("the bars on paper", bars, disks()["several findings"].report["geometry"]["extents"])
        self.browser.call("Emulation.setEmulatedMedia", media="print")
        shown = self.browser.value("['#tools', '#numbers button', '#print'].map((one) => document.querySelector(one).checkVisibility())")
        self.same("paper has bars and no buttons", shown, [False, False, True])
        self.browser.call("Emulation.setEmulatedMedia", media="")
        self.same("a page of paper", self.browser.call("Page.printToPDF")["data"][:4], "JVBE")
        self.browser.value("window.dispatchEvent(new Event('afterprint'))")
        self.same("none is left", self.browser.value("document.querySelectorAll('#print canvas').length"), 0)
        self.browser.call("Emulation.setEmulatedMedia", features=[])

    def test_legends(self):
        """They have no kind that isn't there."""
        self.open("one", self.files("one-shard"))
        texts = self.browser.value("[...document.querySelectorAll('#legend li')].map((one) => one.textContent.split(':')[0])")
        self.same("the legend", texts, ["live chunk", "page with the superblock that counts", "write pointer"])


class WrongPages(PageCase):
    """Pages with a planted mistake. The test that is named has to find each."""

    def check_page(self, wrong):
        test, old, new = wrong
        page, (name, method) = text_of_page(), test.split(".")
        self.assertEqual(page.count(old), 1, "how often the page has the place")
        case = globals()[name](method)
        case.script, case.failures = script_in(page.replace(old, new)), 0
        try:
            getattr(case, method)()
        except (RuntimeError, LookupError, ValueError):
            case.failures += 1
        self.assertGreater(case.failures, 0, "it isn't seen to be wrong")


add_tests(WrongPages, WrongPages.check_page, [(what, (test, old, new)) for test, some in WRONG_PAGES.items() for what, old, new in some])
