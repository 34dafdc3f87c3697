"""Reads the spec files of the crates: their imports, their definitions, and the comments above these. It only reads text; the prover
checks that each name means what its import says."""
import re
from pathlib import Path

TOP = Path(__file__).resolve().parent.parent

WORD = r"[^\W\d][\w?!'-]*"
USE = re.compile(r"^\s*(?:ghost |pub )*use ([\w.]+)\.\{([^}]*)\}", re.M)


def below():
    """For each crate those of its own words in crates.txt, in the order there."""
    lines = (line.split("#")[0].partition(":") for line in (TOP / "crates.txt").read_text(encoding="utf-8").splitlines())
    return {name.split()[0]: words.split() for name, colon, words in lines if colon}


BELOW = below()
CRATES = list(BELOW)


def without_comments(text, mark):
    return re.sub(rf"(?m)(^|\s){mark}.*$", r"\1", text)


class Imports:
    """The imported names of a text, each with its module and its name in that module."""

    def __init__(self, text):
        self.names = {}
        for module, names in USE.findall(text):
            for name in filter(None, (name.strip() for name in names.split(","))):
                there, _, here = name.partition(" as ")
                self.names[(here or there).strip()] = (module, there.strip())


def words_of(text):
    """The words of a text that are names of its own scope. Fields after a dot or in a record aren't."""
    text = re.sub(r'"[^"]*"', "", text)
    text = re.sub(rf"\.(?:{WORD}|\d+)", "", text)
    return re.findall(WORD, re.sub(rf"(?<=[{{;(])\s*{WORD} =(?!=)", "", text))


class Spec:
    """A file of definitions: its imports, its definitions by name, in the order of the file, and its first sentence."""

    def __init__(self, path):
        self.path = path
        text = path.read_text(encoding="utf-8")
        head = re.match(r"(?:--.*\n)+", text)
        self.head = " ".join(line[2:].strip() for line in head.group().splitlines()) if head else ""
        self.sentence = re.split(r"(?<=\.) ", self.head)[0]
        self.text = text
        code = without_comments(text, "--")
        self.imports = Imports(code)
        code = USE.sub("", code)
        self.definitions = {}
        name = None
        for line in code.splitlines():
            begun = re.match(rf"(?:  )?(?:abbrev |unfoldable )?(?:pub )?(?:abbrev |record |data )?({WORD}) (?:[(:{{]|=)", line)
            at_top = begun and (not line.startswith("  ") or re.match(r"  (?:abbrev|pub record|record)\b", line))
            if re.match(r"(?:module|pub mod|pub use)\b", line):
                name = None
            elif at_top or (re.match(rf"{WORD} ", line) and line.split()[0] in self.definitions):
                name = begun.group(1) if at_top else line.split()[0]
                self.definitions.setdefault(name, "")
            elif re.match(rf"  {WORD} ", line) and line.split()[0] in self.definitions and " = " in line and not line.startswith("   ") \
                    and not line.endswith(";"):
                name = line.split()[0]
            if name:
                self.definitions[name] += line + "\n"

    def comments(self):
        """For each definition the comment above it, on one line, in the order of the file."""
        found = {}
        for name in self.definitions:
            lines, begin, place = self.place(name)
            found[name] = " ".join(line.strip()[2:].strip() for line in lines[begin:place])
        return found

    def place(self, name):
        """The lines of the file, where the comment above a definition begins, and where the definition does."""
        lines = self.text.splitlines()
        begin = place = lines.index(self.definitions[name].splitlines()[0])
        while begin > 0 and re.match(r" *--(?!--)", lines[begin - 1]):
            begin -= 1
        return lines, begin, place

    def source(self, name):
        """The definition as it stands in the file, with the comment above it."""
        lines, begin, place = self.place(name)
        end = place + len(self.definitions[name].rstrip().splitlines())
        if without_comments("\n".join(lines[begin:end]), "--").split() != self.definitions[name].split():
            raise ValueError(f"{self.path}: {name} isn't in one piece")
        return "\n".join(lines[begin:end])

    def reached(self, name):
        """The names in the definition: those of this file, and the imported ones by module and name in that module."""
        return resolved(self.definitions[name], self.imports, self.definitions)


def has_sign(text, sign):
    """Whether a sign stands alone in a text, between blanks, brackets or commas."""
    return re.search(rf"(?<![^\s(){{}},;]){re.escape(sign)}(?![^\s(){{}},;])", text) is not None


def resolved(text, imports, own):
    """The names in a text: those of its own file, and the imported ones."""
    words = dict.fromkeys(words_of(text))
    here = [word for word in words if word in own]
    there = [imports.names[word] for word in words if word in imports.names and word not in own]
    for name, place in imports.names.items():
        parts = [part for part in name.split("◌") if part]
        signs = all(part in words if re.match(WORD, part) else has_sign(text, part) for part in parts)
        if ("◌" in name or not re.match(WORD, name)) and parts and signs:
            there.append(place)
    return here, there


def short(path):
    return str(path.relative_to(TOP / "crates"))


def spec_path(crate, module):
    """The file of a module of definitions, as `Frame` or `steps.Pages`."""
    return TOP / "crates" / crate / "specs" / f"{module.replace('.', '/')}.antt"


def spec_files(crate):
    """The files of definitions of a crate, without the lists of them: those of the crate, then its steps."""
    folder = TOP / "crates" / crate / "specs"
    return [path for path in [*sorted(folder.glob("*.antt")), *sorted(folder.glob("steps/*.antt"))]
            if path not in (folder / "Lib.antt", folder / "steps.antt")]


def listed_files(crate):
    """The files of definitions that Lib.antt and steps.antt of a crate list."""
    folder = TOP / "crates" / crate / "specs"
    lists = [(path, inner) for path, inner in ((folder / "Lib.antt", ""), (folder / "steps.antt", "steps.")) if path.is_file()]
    return {spec_path(crate, inner + name) for path, inner in lists
            for name in re.findall(r"(?m)^pub mod (\w+)", path.read_text(encoding="utf-8")) if name != "steps"}


def is_step(path):
    return path.parent.name == "steps"


def linked(path):
    return f"[`{short(path)}`](../crates/{short(path)})"
