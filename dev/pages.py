"""The command line of a tool that makes files of this repository: it writes them, or with --check compares them with those here."""
import argparse
import difflib
from pathlib import Path

TOP = Path(__file__).resolve().parent.parent
# How many differing lines of a page are shown.
MOST_LINES = 20


def difference(there, made):
    """The first lines that differ between two texts."""
    lines = difflib.unified_diff(there.splitlines(), made.splitlines(), "here", "made", lineterm="", n=0)
    return "\n".join(list(lines)[2:][:MOST_LINES])


def compare(name, files):
    """Prints which files aren't as they would be made. Returns how many."""
    differing = 0
    for path, content in files.items():
        there = path.read_bytes() if path.is_file() else b""
        content = content if isinstance(content, bytes) else content.encode()
        if there != content:
            differing += 1
            print(f"FAILED: {path.relative_to(TOP)} isn't as {name} makes it")
            if path.suffix == ".md":
                print(difference(there.decode(), content.decode()))
    return differing


def run_tool(name, doc, made):
    """Runs the tool of this name. `made` gives the content of each file, bytes or text, and what is wrong with what they are made
    from."""
    parser = argparse.ArgumentParser(prog=name, description=doc, formatter_class=argparse.RawDescriptionHelpFormatter,
                                     epilog="Exit status: 0 if nothing is wrong, 1 if something is, 2 if the arguments are wrong.")
    parser.add_argument("--check", action="store_true", help="write nothing, and say what isn't as it would be written")
    given = parser.parse_args()
    files, faults = made()
    for fault in faults:
        print(f"FAILED: {fault}")
    if given.check:
        return int(compare(name, files) + len(faults) > 0)
    for path, content in files.items():
        path.write_bytes(content if isinstance(content, bytes) else content.encode())
    return int(len(faults) > 0)
