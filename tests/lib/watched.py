"""Runs a command for ./check, and says what it is at. Each line that the command prints is passed on at once, and goes to the file
`printed` of a folder too. In between, each so many seconds, comes a line with the minutes since the beginning and, if they can be
read from /proc, the crates that provers below the command work on. At the end a line in the folder's file `times` tells the minutes.
The status is that of the command.

usage: python3 tests/lib/watched.py FOLDER SECONDS COMMAND..
"""
import os
import resource
import selectors
import signal
import subprocess
import sys
import time

# How often provers are looked for, and how long one may be out of sight between two of its crate, in seconds.
LOOK, GONE = 5, 20
PROVER = "rattle"
# How long the command has to end by itself once ./check has gone.
SECONDS_TO_END = 10
WAIT = .5


def read(path):
    try:
        with open(path, "rb") as file:
            return file.read()
    except OSError:
        return b""


def parents():
    """Each process with its parent; none if /proc can't be read."""
    try:
        numbers = [int(name) for name in os.listdir("/proc") if name.isdigit()]
    except OSError:
        return {}
    # The name of a process is in parentheses, and may have blanks and parentheses in it. Its state and its parent follow.
    found = {number: read("/proc/%d/stat" % number).rpartition(b") ")[2].split() for number in numbers}
    return {number: int(words[1]) for number, words in found.items() if len(words) > 1}


def below(process):
    """The processes that descend from this one."""
    children, found = {}, [process]
    for number, parent in parents().items():
        children.setdefault(parent, []).append(number)
    for number in found:
        found += children.get(number, [])
    return found[1:]


def crate_of(number):
    """The crate that a prover works on, by its words or else by its folder; None for another process."""
    words = [word.decode(errors="replace") for word in read("/proc/%d/cmdline" % number).split(b"\0")]
    if not os.path.basename(words[0]).startswith(PROVER):
        return None
    if "--crate-name" in words[:-1]:
        return words[words.index("--crate-name") + 1]
    try:
        parts = os.readlink("/proc/%d/cwd" % number).split("/")
    except OSError:
        return None
    return parts[parts.index("crates") + 1] if "crates" in parts[:-1] else None


class Crates:
    """The crates that provers work on: since when, and when each was last seen."""

    def __init__(self):
        self.since, self.seen = {}, {}

    def look(self, process, now):
        for crate in set(filter(None, map(crate_of, below(process)))):
            if now - self.seen.get(crate, -GONE) > GONE or crate not in self.since:
                self.since[crate] = now
            self.seen[crate] = now

    def text(self, now):
        """Those that were seen of late, the oldest first."""
        some = sorted((self.since[crate], crate) for crate in self.seen if now - self.seen[crate] <= 2 * LOOK)
        ages = [(crate, int((now - since) / 60)) for since, crate in some]
        unit = " minutes"
        texts = []
        for crate, minutes in ages:
            number = "%d" % minutes if minutes else "less than 1"
            texts.append("%s for %s%s" % (crate, number, unit.rstrip("s") if minutes < 2 else unit))
            unit = ""
        return ", ".join(texts)


class Watched:
    def __init__(self, folder, seconds, command):
        self.folder, self.seconds, self.command, self.parent = folder, seconds, command, os.getppid()
        self.rest, self.crates = b"", Crates()

    def run(self):
        """Runs the command, and returns its status as a shell does."""
        begun = looked = said = time.monotonic()
        with open(os.path.join(self.folder, "printed"), "wb") as self.file, selectors.DefaultSelector() as ready:
            # Without this, what rt prints to a pipe may wait in a buffer.
            given = dict(os.environ, PYTHONUNBUFFERED="1")
            process = subprocess.Popen(self.command, stdout=subprocess.PIPE, env=given)
            for number in (signal.SIGTERM, signal.SIGHUP):
                signal.signal(number, lambda number, _: process.send_signal(number))
            # Ctrl-C reaches the command too, and this waits until that has ended.
            signal.signal(signal.SIGINT, lambda *_: None)
            ready.register(process.stdout, selectors.EVENT_READ)
            is_open = True
            while is_open:
                has_ended = process.poll() is not None
                is_open = self.pass_on(process) if ready.select(0 if has_ended else WAIT) else not has_ended
                now = time.monotonic()
                if os.getppid() != self.parent:
                    self.end(process)
                    break
                if now - looked >= min(LOOK, self.seconds):
                    looked = now
                    self.look(process, now)
                if now - said >= self.seconds:
                    said = now
                    self.say(now - begun, now)
            status = process.wait()
            self.print(self.rest)
        self.tell(time.monotonic() - begun)
        return status if status >= 0 else 128 - status

    def end(self, process):
        """Ends the command, since ./check has gone."""
        process.terminate()
        try:
            process.wait(SECONDS_TO_END)
        except subprocess.TimeoutExpired:
            process.kill()

    def look(self, process, now):
        """A line about the provers is never worth a failure."""
        try:
            self.crates.look(process.pid, now)
        except (OSError, ValueError, IndexError):
            pass

    def pass_on(self, process):
        """Passes on whole lines. False at the end of the output."""
        text = os.read(process.stdout.fileno(), 1 << 16)
        lines, end, self.rest = (self.rest + text).rpartition(b"\n")
        self.print(lines + end)
        return text != b""

    def print(self, text):
        if text:
            self.file.write(text)
            self.file.flush()
            sys.stdout.buffer.write(text)
            sys.stdout.buffer.flush()

    def say(self, since, now):
        text, minutes = self.crates.text(now), int(since / 60 + .5)
        print("check: %d minute%s%s" % (minutes, "s" * (minutes != 1), ": " + text if text else ""), flush=True)

    def tell(self, seconds):
        used = resource.getrusage(resource.RUSAGE_CHILDREN)
        with open(os.path.join(self.folder, "times"), "a") as times:
            times.write("check: %s took %.1f processor minutes in %.1f minutes\n"
                        % (" ".join(self.command[:2] if self.command[0] == "rt" else self.command[:1]),
                           (used.ru_utime + used.ru_stime) / 60, seconds / 60))


if __name__ == "__main__":
    sys.exit(Watched(sys.argv[1], float(sys.argv[2]), sys.argv[3:]).run())
