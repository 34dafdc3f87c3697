#!/usr/bin/env python3
"""Checks the comments of the files of definitions: each file begins with a comment and is listed in Lib.antt or steps.antt of its crate,
and each definition has a comment of one sentence, or two, directly above it. It makes nothing.
"""
import re
import sys

from pages import run_tool
from specs import CRATES, Spec, listed_files, short, spec_files


def is_short(comment):
    """Whether it has one sentence, or two."""
    return comment != "" and len(re.findall(r"[.!?] +[A-Z`]", comment)) < 2


def faults_of(spec):
    faults = [] if spec.head else [f"crates/{short(spec.path)} doesn't begin with a comment"]
    return faults + [f"crates/{short(spec.path)}: {name} has no comment of one sentence or two above it"
                     for name, comment in spec.comments().items() if not is_short(comment)]


def made():
    faults = []
    for crate in CRATES:
        files, listed = spec_files(crate), listed_files(crate)
        faults += [f"crates/{short(path)} isn't listed in Lib.antt or steps.antt" for path in files if path not in listed]
        faults += [fault for path in files for fault in faults_of(Spec(path))]
    return {}, faults


if __name__ == "__main__":
    sys.exit(run_tool("dev/comments.py", __doc__, made))
