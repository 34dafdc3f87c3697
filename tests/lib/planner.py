"""The script act/plan, called in the process of a test, and files for it."""
import argparse
import os
import types
from pathlib import Path
from typing import NamedTuple

from lib.program import TOP

SCRIPT = (TOP / "act/plan").read_text(encoding="utf-8")


def write_over(path, text):
    """Writes a file over what is there. One that is cut to nothing first costs some systems much."""
    file = os.open(path, os.O_RDWR | os.O_CREAT, 0o666)
    try:
        os.pwrite(file, text, 0)
        os.truncate(file, len(text))
    finally:
        os.close(file)


class Words(NamedTuple):
    """What is the same in all calls of a reclamation: the generation of --last, the lines of --accept, and the extents of --reset."""
    last: int
    accepted: list
    resets: list


class Planner:
    """Calls act/plan, or a script that differs from it, in this process. Unless a program is given, the script finds one."""

    def __init__(self, room, script=SCRIPT, program=None):
        self.image, self.calls = Path(room) / "planned", 0
        self.script = types.ModuleType("plan")
        self.script.__file__ = str(TOP / "act/plan")
        exec(compile(script, self.script.__file__, "exec"), self.script.__dict__)
        if program is not None:
            self.script.program = lambda: str(program)

    def ask(self, drive, words):
        """The status and the lines of an answer on an image of the drive."""
        self.calls += 1
        write_over(self.image, drive.raw)
        given = argparse.Namespace(page=drive.page, pages=drive.pages, extents=drive.extents, last=words.last, map=None,
                                   accept=words.accepted, reset=words.resets, image=str(self.image),
                                   unreadable=[f"{e}:{g}" for e, g in sorted(drive.unreadable)])
        try:
            return 0, self.script.plan(self.script.Disk(given))
        except self.script.Refused as why:
            return 1, list(why.lines)
