"""What test classes share: many answers compared in one test, a test for each of many values, and a folder for a class."""
import re
import tempfile
import unittest
from functools import partialmethod
from os.path import commonprefix
from pathlib import Path

from lib.program import program

# How many characters of a wrong answer are shown, and how many of them come before its first difference if it is longer.
SHOWN, BEFORE = 1000, 200


def shown(found, wanted):
    """A wrong answer and the right one as texts, from shortly before their first difference if one of them is long."""
    texts = str(found), str(wanted)
    begin = max(0, len(commonprefix(texts)) - BEFORE) if max(map(len, texts)) > SHOWN else 0
    found, wanted = ("..." * (begin > 0) + text[begin:begin + SHOWN] for text in texts)
    return f"{found}, and not {wanted}"


class Compared:
    """How many single answers were compared, in all tests."""
    count = 0


class Case(unittest.TestCase):
    """A test that may compare many answers. Each that is wrong is shown with what it answers, and the test goes on."""

    def same(self, what, found, wanted):
        self.true(what, found == wanted, "" if found == wanted else shown(found, wanted))

    def true(self, what, is_right, found=""):
        Compared.count += 1
        if not is_right:
            with self.subTest(what):
                self.fail(f"{what}: {found}" if found != "" else what)


class RoomCase(Case):
    """Tests with a folder of their class for files, `room`, and the program to run, `program`."""

    @classmethod
    def setUpClass(cls):
        cls.program = str(program())
        folder = tempfile.TemporaryDirectory(prefix="shardscrub-test-")
        cls.addClassCleanup(folder.cleanup)
        cls.room = Path(folder.name)


def name_of(text):
    """A text as a part of a name."""
    return re.sub(r"\W+", "_", text).strip("_").lower()


def add_tests(case, method, named):
    """Gives a class of tests one for each of these values: it calls the method with the value."""
    for name, value in named:
        attribute = f"test_{name_of(name)}"
        assert not hasattr(case, attribute), f"two tests are named {attribute}"
        setattr(case, attribute, partialmethod(method, value))
