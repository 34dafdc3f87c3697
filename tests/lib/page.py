"""The picture view/report.html: its first script, called under node; what it should draw of a report, computed without the page; the
disks that it draws; Chromium without a window, driven by Selenium, and a server of the page; and wrong versions of the page."""
import base64
import fcntl
import functools
import http.server
import json
import os
import random
import re
import shutil
import subprocess
import tempfile
import threading
import time
import unittest
import zlib
from functools import cache
from pathlib import Path

from lib.examples import examples, image_of, listed, scans_of
from lib.made_up import Made, Tended
from lib.program import TOP, absent, need, program
from reference.shardscrub import Image, locators, reclaimable, refusal, report, scrub, summary, superblocks

try:
    from selenium import webdriver
    from selenium.webdriver.chrome.service import Service
    from selenium.webdriver.common.by import By
except ImportError:
    webdriver = None


# The first script of the page

PAGE = TOP / "view/report.html"

# Reads a line with the script, values and an expression, and prints a line with the value of the expression: lists of numbers as lists,
# maps as lists of pairs. `thrown` gives what a call throws, and `seconds` the time of the processor.
START = """
const vm = require("vm"), thrown = (call) => { try { call(); return null; } catch (error) { return error.message; } };
const seconds = () => process.cpuUsage().user / 1e6;
const plain = (key, value) => ArrayBuffer.isView(value) ? [...value] : Object.prototype.toString.call(value) === "[object Map]" ? [...value] : value;
require("readline").createInterface({input: process.stdin}).on("line", (line) => {
  const {script, given, expression} = JSON.parse(line), context = vm.createContext({...given, URL, thrown, seconds}), answer = {};
  answer.error = thrown(() => {
    vm.runInContext(script, context);
    answer.value = vm.runInContext(expression, context);
  });
  console.log(JSON.stringify(answer, plain));
});
"""
# The disks in files that were opened together: a list of {name, text, time}.
DISKS = "withAnswers(new Map(), answersOf(files))"


def file(name, text, time=None):
    return {"name": name, "text": text, "time": time}


def text_of_page():
    return PAGE.read_text(encoding="utf-8")


def script_in(page):
    """The first script of the text of a page."""
    return re.search(r"<script>\n(.*?)</script>", page, re.S)[1]


@cache
def node():
    """One process for all calls. It ends with this one, since its input does."""
    need("node")
    return subprocess.Popen(["node", "-e", START], stdin=subprocess.PIPE, stdout=subprocess.PIPE, encoding="utf-8")


def value(expression, script=None, **given):
    """The value of an expression of the script's functions and of these values, by their names."""
    process = node()
    process.stdin.write(json.dumps({"script": script or script_in(text_of_page()), "given": given, "expression": expression}) + "\n")
    process.stdin.flush()
    answer = json.loads(process.stdout.readline())
    if answer["error"] is not None:
        raise RuntimeError(answer["error"])
    return answer.get("value")


# What it should draw

# The kinds of pieces and the classes of extents, in the page's order.
KINDS = [None, "pad", "live", "orphan", "chunk", "older", "superblock", "noise", "torn", "damaged", "record", "lost"]
CLASSES = ["damage", "tail", "unknown", "unseen", "none live", "half live", "live", "superblock", "empty"]


def is_chunk(words):
    return words[0] in ("chunk", "sealed")


def items_of(report):
    """(extent, words) of each item."""
    return [(reported["extent"], line.split(" ")) for reported in report["extents"] for line in reported["items"]]


def joined(report):
    """The items. Neighbouring noise items are joined."""
    found = []
    for extent, words in items_of(report):
        before, last = found[-1] if found else (None, ["none"])
        if words[0] == last[0] == "noise" and before == extent and last[2] == words[1]:
            found[-1] = extent, ["noise", last[1], words[2]]
        else:
            found.append((extent, words))
    return found


def kind_of(report):
    """A function that gives the drawn kind for an extent and the words of an item."""
    orphans = {(place["extent"], place["offset"]) for place in report["orphans"]}
    damaged = {(one["extent"], one["offset"]) for one in report["dangling"] if one["reason"] == "wrong_digest"}

    def kind(extent, words):
        place = extent, int(words[1])
        if not is_chunk(words):
            return words[0]
        if report["super"]["page"] is None:
            return "chunk"
        return "live" if place not in orphans else "damaged" if place in damaged else "orphan"

    return kind


def lines_of(outputs, name):
    """The words of each line of an open output."""
    return [line.split() for line in outputs.get(name, "").splitlines()]


def pieces(report, outputs):
    """The pieces of each extent, each with its kind and its first and last byte."""
    page, kind = report["geometry"]["page"], kind_of(report)
    found = [[] for _ in range(report["geometry"]["extents"])]
    pages = dict.fromkeys(report["super"]["bad"], "lost")
    if report["super"]["page"] is not None:
        pages[report["super"]["page"]] = "superblock"
    for word, number, *more in lines_of(outputs, "superblocks"):
        of_record = "older" if more[-1:] == ["older"] else "superblock"
        pages[int(number)] = {"record": of_record, "lost": "lost"}.get(word, "record")
    found[0] = [[name, number * page, (number + 1) * page] for number, name in sorted(pages.items())]
    for extent, words in joined(report):
        found[extent].append([kind(extent, words), int(words[1]), int(words[2])])
    for one in report["extents"]:
        found[one["extent"]] += [["lost", max(number * page, one["pointer"]), (number + 1) * page]
                                 for number in one["bad"] if (number + 1) * page > one["pointer"]]
    return found


def damage(report, outputs):
    """The places of each group of damage on this disk, in the page's order: a list for each entry."""
    page, chosen = report["geometry"]["page"], report["super"]
    of = lambda kind: [[(extent, start)] for extent, some in enumerate(pieces(report, outputs)) for name, start, _ in some if name == kind and extent]
    at = lambda some: [[(one["extent"], one["offset"])] for one in some]
    broken = {name: [] for name in report["broken"]}
    for one in report["dangling"]:
        if one["owner"].startswith("shard "):
            broken[one["owner"].split()[1]] += at([one])[0]
    pages = [(0, number) for number in chosen["bad"]] + [(one["extent"], number) for one in report["extents"] for number in one["bad"]]
    groups = {
        "Broken shards": list(broken.values()),
        "No superblock": [] if chosen["page"] is not None else [[(0, 0)]],
        "Several superblocks have the greatest generation": [[(0, chosen["page"] * page)]] if chosen["tie"] else [],
        "Damaged and stray pages of extent 0": [[(0, int(words[1]) * page)] for words in lines_of(outputs, "superblocks") if words[0] in ("damaged", "stray")],
        "Lost index runs": at(one for one in report["runs"] if one["state"] != "read"),
        "Unreadable pages": [[(extent, number * page)] for extent, number in pages],
        "Torn": of("torn"), "Noise": of("noise"), "Hidden chunks": at(report["hidden"]), "Chunks with several owners": at(report["shared"]),
    }
    sizes = report["geometry"]
    on_disk = lambda place: place[0] < sizes["extents"] and place[1] < page * sizes["pages"]
    return {title: [list(filter(on_disk, places)) for places in found] for title, found in groups.items() if found}


def classes(report, outputs):
    """The class of each extent."""
    damaged = {extent for found in damage(report, outputs).values() for places in found for extent, _ in places}
    reported = {one["extent"]: one for one in report["extents"]}

    def of(extent):
        one = reported.get(extent)
        if extent in damaged:
            return "damage"
        if one is None:
            return "superblock" if extent == 0 and "superblocks" in outputs else "unseen"
        if one["tail"]:
            return "tail"
        if report["super"]["page"] is None:
            return "unknown"
        if one["pointer"] == 0:
            return "empty"
        return "none live" if one["live"] == 0 else "half live" if 2 * one["live"] <= one["pointer"] else "live"

    return list(map(of, range(report["geometry"]["extents"])))


# Disks to draw

# The seeds of the made-up disks. On the last one a bad locator names the place of a live chunk.
MADE_UP = *range(11, 51), 85


class Pictured:
    """A disk with its report, and what the other commands print of it. Some or all of its doubts that can be are accepted."""

    def __init__(self, image, every=0):
        self.image, self.report = image, report(scrub(image))
        doubts = [line.removeprefix("doubt ") for line in reclaimable(image)[0].splitlines() if line.startswith("doubt ")]
        accepted = [doubt for doubt in doubts if refusal(doubt) is None][::every] if every else []
        self.outputs = {"summary": summary(image)[0], "superblocks": superblocks(image)[0], "locators": locators(image)[0],
                        "reclaimable": reclaimable(image, accepted)[0]}


@cache
def disks():
    """All disks by their names."""
    images = {line.split("\t")[0]: image_of(line) for line in [*listed(), *examples()] if "failing\t" not in line and "missing\t" not in line}
    found = {name: Pictured(image, number % 3) for number, (name, image) in enumerate(images.items()) if image is not None}
    for turn in MADE_UP:
        made = (Made, Tended)[turn % 2](random.Random(turn))
        lost = made.make()
        found[f"made-up-{turn}"] = Pictured(Image(bytes(made.raw), made.p, made.n, made.e, lost), turn // 2 % 3)
    return found


def example_reports():
    """The reports of the disks that examples/README.md scans without a map, by their arguments, each once."""
    done = {words: subprocess.run([program(), "scan", *words.split()], cwd=TOP, capture_output=True)
            for words in scans_of("Examples") if "--map" not in words}
    return {f"scan {words}": json.loads(one.stdout) for words, one in done.items() if one.returncode < 2}


def written(report):
    """A report as scan prints it, on one line."""
    return json.dumps(report, sort_keys=True, separators=(",", ":")) + "\n"


def made_up_report(extents, page, pages, items):
    """A report of a disk with so many extents, each but extent 0 with so many chunks of 39 bytes; every third one is an orphan."""
    uuid_of = "{:08x}-0000-0000-0000-000000000000".format
    places = [{"extent": extent, "length": 1, "offset": 39 * number, "uuid": uuid_of(extent * items + number)}
              for extent in range(1, extents) for number in range(items)]
    reported = [{"bad": [], "extent": extent, "items": [], "live": 0, "pointer": 39 * items, "tail": 0, "tail_at": None}
                for extent in range(1, extents)]
    for place in places:
        lines = reported[place["extent"] - 1]["items"]
        lines.append(f"chunk {place['offset']} {place['offset'] + 39} {place['uuid']} 1")
    return {
        "broken": [], "candidates": [], "clean": True, "dangling": [], "doubtful": [], "extents": reported,
        "geometry": {"extents": extents, "page": page, "pages": pages}, "hidden": [], "orphans": places[::3], "retired": [], "runs": [],
        "shards": 0, "shared": [], "super": {"bad": [], "generation": 2 ** 64 - 1, "page": 0, "records": 1, "tie": False}, "twins": [],
    }


# A browser

BROWSERS = ("chromium", "chromium-browser", "google-chrome")
# The name of the variable that names a folder for screenshots.
SHOTS = "SHARDSCRUB_SCREENSHOTS"


def need_browser():
    """The path of Chromium. The test is skipped if it, its driver or Selenium isn't there."""
    found = next(filter(None, map(shutil.which, BROWSERS)), None)
    if found is None:
        raise unittest.SkipTest(absent("chromium"))
    need("chromedriver")
    if webdriver is None:
        raise unittest.SkipTest(absent("Python's selenium"))
    return found


class Quiet(http.server.SimpleHTTPRequestHandler):
    def log_message(self, *_):
        pass


class Browser:
    def __init__(self):
        program = need_browser()
        self.folder = tempfile.TemporaryDirectory(prefix="shardscrub-page-")
        self.room = Path(self.folder.name)
        shutil.copy(PAGE, self.room)
        self.server = http.server.ThreadingHTTPServer(("127.0.0.1", 0), functools.partial(Quiet, directory=self.room))
        threading.Thread(target=self.server.serve_forever, daemon=True).start()
        self.site = f"http://127.0.0.1:{self.server.server_port}"
        options = webdriver.ChromeOptions()
        options.binary_location = program
        # The superuser can't set up Chromium's sandbox.
        for word in ("--headless=new", "--hide-scrollbars", "--no-first-run", "--disable-gpu", "--disable-dev-shm-usage",
                     f"--user-data-dir={self.room}/profile", *["--no-sandbox"] * (os.geteuid() == 0)):
            options.add_argument(word)
        options.set_capability("goog:loggingPrefs", {"browser": "ALL"})
        # Selenium chooses a free port and then starts the driver on it. Of two processes, one waits, so that they choose another.
        with open(__file__, "rb") as lock:
            fcntl.flock(lock, fcntl.LOCK_EX)
            self.driver = webdriver.Chrome(options=options, service=Service(shutil.which("chromedriver")))
        self.resize(1400)

    def resize(self, width):
        """Gives the page so many pixels in a line."""
        self.call("Emulation.setDeviceMetricsOverride", width=width, height=900, deviceScaleFactor=1, mobile=False)

    def call(self, method, **params):
        """Calls a method of the developer tools, for what Selenium has no name."""
        return self.driver.execute_cdp_cmd(method, params)

    def errors(self):
        """The errors that pages have reported since this was last asked."""
        return [entry["message"] for entry in self.driver.get_log("browser") if "Uncaught" in entry["message"]]

    def value(self, expression):
        """The value of an expression in the page, or what a promise gives."""
        return self.driver.execute_script(f"return ({expression});")

    def put(self, name, text):
        (self.room / name).write_text(text, encoding="utf-8")
        return self.room / name

    def open(self, address):
        """Opens an address, without anything left of the page before, and waits until something is shown if it names files."""
        self.driver.get("about:blank")
        self.driver.get(address)
        return self.state() if "?" in address else None

    def state(self):
        """What is shown, once something is; forgotten afterwards, so that the next call waits for the next."""
        for _ in range(600):
            if state := self.value("document.body.dataset.state"):
                self.value("new Promise((done) => requestAnimationFrame(() => requestAnimationFrame(done)))")
                self.value("delete document.body.dataset.state")
                return state
            time.sleep(.05)
        return None

    def text(self, name):
        return self.value(f"document.getElementById('{name}').innerText")

    def press(self, key, code):
        for kind in ("keyDown", "keyUp"):
            self.call("Input.dispatchKeyEvent", type=kind, key=key, windowsVirtualKeyCode=code,
                      **({"text": "\r" if key == "Enter" else key} if (len(key) == 1 or key == "Enter") and kind == "keyDown" else {}))

    def printed(self):
        """The text of each page of paper."""
        return texts_on_paper(base64.b64decode(self.call("Page.printToPDF")["data"]))

    def back(self):
        self.driver.back()
        return self.state()

    def reload(self):
        self.driver.refresh()

    def point(self, kind, extent, byte):
        """Moves the pointer to a byte of a bar, or presses or releases its button there."""
        x, y = (self.value(f"pointOf({extent}, {byte}).{axis}") for axis in "xy")
        self.call("Input.dispatchMouseEvent", type=kind, x=x, y=y, button="none" if kind == "mouseMoved" else "left", clickCount=1)

    def screenshot(self, name):
        """Keeps a screenshot if the variable names a folder."""
        if SHOTS in os.environ:
            Path(os.environ[SHOTS], f"{name}.png").write_bytes(base64.b64decode(self.driver.get_screenshot_as_base64()))

    def choose_files(self, *paths):
        self.driver.find_element(By.ID, "files").send_keys("\n".join(map(str, paths)))

    def drop_files(self, *paths):
        data = {"items": [], "files": [str(path) for path in paths], "dragOperationsMask": 1}
        for kind in ("dragEnter", "dragOver", "drop"):
            self.call("Input.dispatchDragEvent", type=kind, x=600, y=400, data=data)

    def close(self):
        self.driver.quit()
        self.server.shutdown()
        self.server.server_close()
        self.folder.cleanup()


def texts_on_paper(pdf):
    """The text of each page of a PDF that Chromium made, without blanks between pieces."""
    objects = {int(number): body for number, body in re.findall(rb"(\d+) 0 obj\n(.*?)\nendobj", pdf, re.S)}
    numbers = lambda key, body: [int(number) for number in re.findall(rb"/" + key + rb" (\d+) 0 R", body)]

    def stream(number):
        head, data = objects[number].split(b"stream\n", 1)
        return (zlib.decompress(data) if b"/FlateDecode" in head else data).decode("latin-1")

    def letters(font):
        """The letters of a font's glyphs."""
        found, (table,) = {}, map(stream, numbers(b"ToUnicode", objects[font]))
        for first, last, letter in re.findall(r"^<(\w+)> (?:<(\w+)> )?<(\w{4})\w*>$", table, re.M):
            found |= {glyph: chr(int(letter, 16) + glyph - int(first, 16)) for glyph in range(int(first, 16), int(last or first, 16) + 1)}
        return found

    def text(body):
        found, glyphs_of = "", {name.decode(): letters(int(font)) for name, font in re.findall(rb"/(F\d+) (\d+) 0 R", body)}
        for name, glyphs in re.findall(r"/(F\d+) [\d.]+ Tf|<([0-9A-F]+)>", stream(*numbers(b"Contents", body))):
            font = glyphs_of[name] if name else font
            found += "".join(font[int(glyph, 16)] for glyph in re.findall("....", glyphs))
        return found

    return [text(body) for body in objects.values() if re.search(rb"/Type /Page\b", body)]


# Wrong pages

# For each test: what is wrong, the text of the place, and the text that replaces it.
WRONG_PAGES = {
    "Answers.test_each_choice_of_outputs": (
        ("another line is taken for the verdict", "return disk.answers.summary.lines[0];", "return disk.answers.summary.lines[1];"),
        ("without a summary the report gives a verdict", ': "not judged: open summary";', ': disk.answers.scan?.report.clean ? "verdict sound" : "verdict wrong";'),
        ("a disk without a summary is sound", '? "no answer" : "not judged";', '? "no answer" : "sound";'),
        ("an accepted doubt is counted as an open one", 'line.startsWith("doubt ")', 'line.startsWith("doubt ") || line.startsWith("accepted ")'),
        ("bytes to move are a gain", 'listed = of("reclaim"),', 'listed = [...of("reclaim"), ...of("move")],'),
        ("doubtful shards are counted as broken", 'broken: number("shards_broken")', 'broken: number("shards_doubtful")'),
        ("the unreadable pages leave out extent 0", "unreadable_pages: chosen.bad.length + sumOf", "unreadable_pages: sumOf"),
        ("a line is left out", 'lines: checked(command, lines)}', 'lines: checked(command, lines).slice(1)}'),
    ),
    "Answers.test_rows": (
        ("words of a row are run together", '[words].flat().join(" ")', '[words].flat().join("")'),
        ("a row is of the disk with its file's name", "disk = isRow ? printable(row.disk) : name;", "disk = name;"),
    ),
    "Answers.test_great_numbers_keep_their_digits": (
        ("a great number of a row is rounded", "=== row[key] ? digits(key)", "=== row[key] ? String(row[key])"),
        ("the generation of a report is rounded", 'digits("generation") ?? "null"', "String(row.super.generation)"),
    ),
    "Answers.test_places_of_lines": (
        ("a doubt leads to the page's number", '"tail-lost": {extent: Number(first), offset: second * page}', '"tail-lost": {extent: Number(first), offset: Number(second)}'),
        ("a line leads past the disk", "return place && isOnDisk(picture, place) ? place : undefined;", "return place;"),
    ),
    "Fleet.test_forty_and_four_thousand_disks": (
        ("the best disk comes first", "STANDINGS.indexOf(one.standing) - STANDINGS.indexOf(other.standing)", "STANDINGS.indexOf(other.standing) - STANDINGS.indexOf(one.standing)"),
        ("a disk in doubt is worse than a wrong one", '"no answer", "wrong", "not judged", "doubt", "sound"]', '"no answer", "doubt", "not judged", "wrong", "sound"]'),
        ("a disk without an answer is left out of the counts", "counts: STANDINGS.map(", "counts: STANDINGS.slice(2).map("),
    ),
    "Fleet.test_columns": (
        ("a second click changes nothing", "compare(other, one) : compare;", "compare(one, other) : compare;"),
        ("broken shards don't make a disk worse", 'by("mayLackShards"), by("broken"), by("unreadable"), byName]', 'by("mayLackShards"), by("unreadable"), byName]'),
        ("what isn't known comes first", "Number(other[key] ?? -1) - Number(one[key] ?? -1)", "Number(other[key] ?? 1e9) - Number(one[key] ?? 1e9)"),
        ("disk 10 comes before disk 9", '"en", {numeric: true}', '"en"'),
        ("the gain of a second extent is left out", "(sum, one) => sum + numberOf(one), 0", "(sum, one) => sum || numberOf(one), 0"),
    ),
    "Fleet.test_ages": (
        ("the age is that of the newest file", "Math.min(...times)", "Math.max(...times)"),
        ("a file's time counts for a row", "({time, ...answer, file,", "({...answer, time, file,"),
        ("an age is rounded up", "grouped(Math.floor(seconds / unit))", "grouped(Math.ceil(seconds / unit))"),
    ),
    "Fleet.test_reasons": (
        ("of two scans one reason counts", 'return standing === MIXED || !said ? ""', 'return !said ? ""'),
        ("another verdict is cut off", "said.startsWith(`${standing}: `) ? said", 'said.includes(": ") ? said'),
    ),
    "Fleet.test_the_faults_come_first": (
        ("faults come last", "[verdict, ...faults, ...lines.filter((line) => !faults.includes(line))]", "[verdict, ...lines.filter((line) => !faults.includes(line)), ...faults]"),
        ("no superblock is no fault", '(name === "superblocks") === line.endsWith(" 0")', '!line.endsWith(" 0")'),
    ),
    "Fleet.test_filters": (
        ("a chosen verdict hides nothing", "chosen.size ? named.filter", "false ? named.filter"),
        ("the counts are those of all disks", "named.filter((entry) => entry.standing", "entries.filter((entry) => entry.standing"),
    ),
    "Files.test_control_characters": (
        ("a file's name is shown as it is", "const file = printable(name);", "const file = name;"),
        ("a row's text is shown as it is", 'printable(String(row.text ?? "")', '((text) => text)(String(row.text ?? "")'),
    ),
    "Looks.test_sizes": (
        ("sizes are off by ten", "(tenths(power) / 10)", "(tenths(power) / 100)"),
        ("a unit is chosen before rounding", "tenths(one) >= 10240", "bytes >= 1024 ** (one + 1)"),
    ),
    "Looks.test_contrast": (
        ("damage is dim in the dark", 'dark: {fill: "#e5484d", hatch: "#ffd7d2"}', "dark: {}"),
        ("zeros are bright in the dark", 'dark: {fill: "#3a4149"}', "dark: {}"),
    ),
    "Looks.test_colours": (("nothing live and up to half live look alike", 'fill: "#3f80b8"', 'fill: "#5aa2d6"'),),
    "Fleet.test_disks_without_an_answer": (
        ("no answer is not judged", "return failures.some(({command}) => command === null) ||", "return false &&"),
        ("a refused reclaimable is no answer at all", "return failures.some(({command}) => command === null)", "return failures.length"),
        ("what is beside a verdict says it again", 'standingOf(disk) === "no answer" ? "" :', 'false ? "" :'),
        ("a text is said for each row", "...new Set(disk.failures.map(reason))", "...disk.failures.map(reason)"),
    ),
    "Fleet.test_opened_later": (
        ("an old verdict stays beside a new report", "commandsOf(texts).some((command) => commandsOf(before).includes(command))", "false"),
        ("an old verdict stays beside a row without an answer", 'command ?? ["summary", "scan"]', "command ?? []"),
        ("each file begins a disk anew", "isNew = commandsOf", "isNew = true || commandsOf"),
    ),
    "Scans.test_each_difference": (
        ("only sizes are compared", "if (key in one.said &&", "if (/page|extent/.test(key) &&"),
        ("a verdict isn't compared with clean", 'said = {clean: verdict !== "wrong"};', "said = {};"),
        ("only summary is compared", "if (key in one.said &&", 'if (one.command === "summary" && key in one.said &&'),
        ("files of two scans have the verdict of summary", "if (differences.length) return MIXED;", ""),
        ("they have numbers", "by && !disk.differences.length ?", "by ?"),
        ("they have a gain", "differences.length ? {scan: answers.scan} : answers;", "answers;"),
    ),
    "Scans.test_two_answers": (
        ("the last of two answers counts", "if (first && !changed.length && !isRefused) answers", "if (first) answers"),
        ("any second answer is another scan", "contentOf(one) !== contentOf(first)", "true"),
    ),
    "Scans.test_files_of_one_scan": (
        ("a doubt isn't clean", 'clean: verdict !== "wrong"', 'clean: verdict === "sound"'),
        ("an accepted doubt isn't said", 'word === "doubt" || word === "accepted";', 'word === "doubt";'),
        ("candidates are compared where they aren't listed", 'return lines.some(([word]) => word === "doubt") ? said :', "return false ? said :"),
    ),
    "Fleet.test_the_order_of_READING": (("a lost run makes a disk no worse", ' || number("runs_lost") > 0', ""),),
    "Files.test_half_a_line": (("half a file is taken", '&& !text.endsWith("\\n")', '&& false'),),
    "Files.test_a_summary_that_is_cut_short": (("half a summary is taken", "if (missing.length) throw new Error(`it isn't a whole", "if (false) throw new Error(`it isn't a whole"),),
    "Files.test_an_unknown_item": (("an unknown item is left out", "if (!found) throw", "if (!found) continue; if (!found) throw"),),
    "Files.test_an_extent_that_is_left_out": (("an extent may be left out", "if (!rows[extent] || rows.length !== extents) throw", "rows[extent] ??= newRow(extent, NONE, {}); if (false) throw"),),
    "Files.test_a_list_with_a_verdict": (("a list is taken for a verdict", 'typeof value !== "string" || ', ""),),
    "Files.test_a_number_twice": (("one of two numbers counts", "Number(digits(key)) === row[key] ? digits(key) : null", "digits(key)"),),
    "Files.test_a_word_of_every_object": (("each object's words name a command", "if (Object.hasOwn(COMMAND_OF_WORD, word)) return", "if (COMMAND_OF_WORD[word]) return"),),
    "Files.test_a_report_without_pages": (("a report's lists aren't looked at", "if (!areLists(row)) throw", "if (false) throw"),),
    "Files.test_a_report_with_other_sizes": (("any sizes are taken", "&& page * pages <= 2 ** 26 && extents <= 65536", ""),),
    "Files.test_addresses": (
        ("a report of another origin is opened", "protocol === own.protocol && host === own.host", "protocol === own.protocol"),
        ("a report of another protocol is opened", "protocol === own.protocol && host === own.host", "host === own.host"),
    ),
    "Pictures.test_disks": (
        ("without a superblock chunks are live", "!hasSuperblock ? CHUNK :", "false ? CHUNK :"),
        ("a chunk with a changed payload is an orphan", "damaged.has(key) ? DAMAGED : ORPHAN", "ORPHAN"),
        ("noise isn't joined", "last.stop === start) Object.assign", "false) Object.assign"),
        ("noise is counted as it is drawn", "counts[is].count += items[index];", "counts[is].count++;"),
        ("a list counts joined noise once", "sumOf(entries, ({items = 1}) => items)", "entries.length"),
        ("damage comes last in the legend", "...kinds.splice(NOISE - 1).reverse(), ", ""),
        ("an unreadable page over a pointer is left out", "past = bad.filter((number) => (number + 1) * page > pointer)", "past = bad.filter((number) => number * page > pointer)"),
        ("a stray page looks right", '=== "lost" ? LOST : RECORD', '=== "lost" ? LOST : OLDER'),
        ("an older superblock looks like that which counts", '(state === "older" ? OLDER : SUPERBLOCK)', "SUPERBLOCK"),
        ("a tail isn't in the overview", "if (row.tail) return CLASS_OF.tail;", ""),
        ("damage isn't in the overview", "if (row.isDamaged) return CLASS_OF.damage;", ""),
        ("extent 0 looks right without superblocks", "isUnshown: lines === undefined", "isUnshown: false"),
        ("what is broken isn't damage", 'group("Broken shards", brokenShards(picture));', 'group("Broken shards", brokenShards(picture), false);'),
        ("unreadable pages leave out extent 0", "rows.flatMap(pages)", "rows.slice(1).flatMap(pages)"),
        ("hidden chunks aren't listed", 'group("Hidden chunks", report.hidden', 'group("Hidden chunks", NONE'),
        ("stray pages aren't listed", 'word === "damaged" || word === "stray")', 'word === "damaged")'),
        ("a last room isn't drawn", "if (row && ROOMS[word]) row.room", 'if (row && word === "room") row.room'),
        ("no extent is marked as one to reset", 'if (row && word === "reclaim") row.isListed = true;', ""),
        ("whoever names a chunk is its owner", 'if (locator.status === "sound") pushTo', "pushTo"),
        ("spares aren't described", "(picture.sparesAt.get(key) ?? NONE)", "NONE"),
        ("loose copies aren't described", "of row.loose.filter(", "of NONE.filter("),
        ("dangling locators aren't described", "of row.dangling.filter(", "of NONE.filter("),
        ("lost chunks take space", '(status !== "sound" && status !== "hidden")', "false"),
        ("the smallest shard comes first", "other.bytes - one.bytes ||", "one.bytes - other.bytes ||"),
        ("the legend has kinds that aren't there", "entries.filter(({count}) => count)", "entries"),
        ("the legend counts pieces as bytes", "counts[is].bytes += stop[index] - start[index];", "counts[is].bytes++;"),
    ),
    "Pictures.test_search": (
        ("great letters find nothing", "(word) => word.toLowerCase()", "(word) => word"),
        ("shards aren't searched", "!isFit(locator.owner) && ", ""),
        ("a UUID in the middle is found", "digits(word).startsWith(wanted)", "digits(word).includes(wanted.slice(1))"),
    ),
    "Layout.test_columns": (
        ("the first damage of a pixel covers a worse one", "damage[x] < kind) damage[x] = kind;", "!damage[x]) damage[x] = kind;"),
        ("the last piece of a pixel covers the others", "if (part <= greatest[x]) return;", ""),
        ("a twin isn't seen beside other pieces", "twins[x] |= row.twin[index];", "twins[x] = row.twin[index];"),
    ),
    "Layout.test_views": (("a view goes past the extent", "Math.min(bytes - shown, Math.max(0, from))", "Math.max(0, from)"),),
    "Layout.test_overview": (
        ("cells are smaller than they could be", "for (let cell = 14; cell >= 4; cell--) {", "for (let cell = 13; cell >= 4; cell--) {"),
        ("cells are too small to be found", "for (let cell = 14; cell >= 4; cell--) {", "for (let cell = 14; cell >= 2; cell--) {"),
        ("a cell has the class of its best extent", "classes[other] < classes[extent]", "classes[other] > classes[extent]"),
    ),
    "Layout.test_keys_in_the_overview": (("a key leads to the other end of a line", "Math.abs(step) === columns ? index :", "false ? index :"),),
    "Layout.test_arrow_keys": (("the arrow keys leave out the last piece of an extent", "piece >= rows[at].start.length)) {", "piece >= rows[at].start.length - 1)) {"),),
    "Layout.test_selections": (("a hidden chunk can't be selected", "if (hidden) return {extent", "if (false) return {extent"),),
    "Layout.test_the_worst_of_a_pixel_is_shown": (("the largest piece is shown for a pixel", "damage(index) - damage(shown) || ", ""),),
}
