"""Finds what a contract rests on: the definitions and the types of the code that its words lead to.

It follows each word of the contract of a function to its definition, by the imports of its file, and goes on with the words of that
definition. If a definition names a type of the code, it follows the part of the type that contracts see. Names from outside this
repository are noted by modules, and not followed. A word that a definition binds is followed too, if the file has or imports that name.
So it may find too much, but never too little.
"""
import re
from functools import cache

from specs import BELOW, CRATES, TOP, USE, Imports, Spec, is_step, resolved, short, spec_path, without_comments, words_of

RUST_USE = re.compile(r"^\s*use ([\w:]+)::(?:\{([^}]*)\}|(\w+));", re.M)


def braces(text, start):
    """The text from a place to the end of the block that begins there, or to the end of the line if none begins."""
    opening, end = text.find("{", start), text.find(";", start)
    if opening < 0 or 0 <= end < opening:
        return text[start:end + 1]
    depth = 0
    for place in range(opening, len(text)):
        depth += {"{": 1, "}": -1}.get(text[place], 0)
        if depth == 0:
            return text[start:place + 1]
    return text[start:]


def type_words(text):
    """The words of a text that may be types of the code."""
    return [word for word in dict.fromkeys(words_of(text)) if word[0].isupper()]


class Code:
    """A file of code. Of its types only what contracts see is read."""

    def __init__(self, path):
        self.path = path
        self.text = without_comments(path.read_text(encoding="utf-8"), "//")
        self.imports = Imports("\n".join(line for line in self.text.splitlines() if re.match(r"ghost use", line)))

    def types(self):
        return re.findall(r"(?m)^pub(?:\(crate\))? (?:struct|enum|trait) (\w+)", self.text)

    def type_text(self, name):
        found = re.search(rf"(?m)^pub(?:\(crate\))? (?:struct|enum|trait) {name}\b", self.text)
        text = re.sub(r"#\[[^\]]*\]|\bby \{[^}]*\}", "", braces(self.text, found.start()))
        model = re.search(rf"(?m)^impl(?:<[^{{]*>)? Model for {name}\b", self.text)
        # If a type has a model, contracts see only the model, and not the fields.
        return text if model is None else braces(self.text, model.start())

    def reached(self, name):
        text = self.type_text(name)
        imports = Imports(text)
        imports.names = {**self.imports.names, **imports.names}
        # `Value` is the name of a model's type, and no type itself.
        text = re.sub(r"\bghost Value\b", "", USE.sub("", text))
        return resolved(text, imports, {})[1], type_words(text)

    def contract(self, function):
        found = re.search(rf"(?m)^(?:pub(?:\(crate\))? )?fn {function}\b", self.text)
        end = re.search(r"(?m)^\{", self.text[found.start():])
        return self.text[found.start():found.start() + end.start()]


def crate_of(path):
    return short(path).split("/")[0]


@cache
def codes():
    """The files of code, lowest crate first."""
    return {path: Code(path) for crate in CRATES for path in sorted((TOP / "crates" / crate / "src").rglob("*.rt"))}


@cache
def type_files():
    found = {}
    for path, code in codes().items():
        for name in code.types():
            found.setdefault((crate_of(path), name), path)
    return found


def type_file(crate, name):
    """The file that has a type which a crate has or gets from a crate below it; None if none has it."""
    return next((type_files()[one, name] for one in (crate, *reversed(BELOW[crate])) if (one, name) in type_files()), None)


@cache
def function_files():
    """The files of all functions of modules: of each name that of the lowest crate."""
    found = {}
    for path, code in codes().items():
        for name in re.findall(r"(?m)^(?:pub(?:\(crate\))? )?fn (\w+)", code.text):
            found.setdefault(name, path)
    return found


class Reader:
    """The reached definitions and types of the code, both by files, and the reached names from outside."""

    def __init__(self):
        self.specs = {}
        self.definitions = {}
        self.types = {}
        self.outside = {}
        self.faults = []

    def spec(self, crate, name):
        path = spec_path(crate, name)
        if path not in self.specs:
            self.specs[path] = Spec(path)
        return self.specs[path]

    def follow(self, place, upper):
        """Follows an imported name. `upper` is the spec file that names it, or None for the contract."""
        module, name = place
        parts = module.split(".")
        if parts[0] != "Rattle" or parts[1] not in CRATES:
            self.outside.setdefault(module, set()).add(name)
        elif parts[3] == "declared":
            self.follow_type(parts[1], next(part for part in parts[4:] if part[0].isupper()), upper)
        else:
            self.follow_definition(self.spec(parts[1], ".".join(parts[3:])), name, upper)

    def follow_definition(self, spec, name, upper):
        if name not in spec.definitions:
            self.faults.append(f"{spec.path.relative_to(TOP)} doesn't define {name}")
            return
        names = self.definitions.setdefault(spec.path, set())
        if name in names:
            return
        names.add(name)
        here, there = spec.reached(name)
        for other in here:
            self.follow_definition(spec, other, spec.path)
        for place in there:
            self.follow(place, spec.path)

    def follow_type(self, crate, name, upper):
        path = type_file(crate, name)
        if path is None:
            self.faults.append(f"no file of {crate} or below it has the type {name}")
            return
        seen = self.types.setdefault(path, {})
        # Each file that names the type rests on what the type leads to.
        if upper in seen.setdefault(name, set()):
            return
        seen[name].add(upper)
        there, types = codes()[path].reached(name)
        for place in there:
            self.follow(place, upper)
        for other in types:
            self.follow_type_of(path, other, upper)

    def follow_type_of(self, path, name, upper):
        """Follows a type that a file names, if it is of this repository."""
        for module, names, one in RUST_USE.findall(codes()[path].text):
            crate = module.split("::")[0]
            if name in [other.strip() for other in (names or one).split(",")] and crate not in ("crate", "std"):
                if crate not in CRATES:
                    self.outside.setdefault(crate, set()).add(name)
                elif type_file(crate, name) is not None:
                    self.follow_type(crate, name, upper)
                return
        if (crate_of(path), name) in type_files():
            self.follow_type(crate_of(path), name, upper)

    def follow_contract(self, function):
        """Follows the contract of a function of this name."""
        path = function_files()[function]
        contract = codes()[path].contract(function)
        for place in resolved(contract, codes()[path].imports, {})[1]:
            self.follow(place, None)
        for name in type_words(contract):
            self.follow_type_of(path, name, None)

    def needed(self, path):
        """The definitions of a file that the contracts rest on, in the order of the file."""
        return [name for name in self.specs[path].definitions if name in self.definitions[path]] if path in self.definitions else []

    def count(self):
        return sum(map(len, self.definitions.values()))

    def types_in_order(self):
        """The types of the code that the contracts rest on: pairs of the file and the name, lowest crate first."""
        files = sorted(self.types, key=lambda path: (CRATES.index(crate_of(path)), path))
        return [(path, name) for path in files for name in sorted(self.types[path])]

    def all_faults(self):
        """The faults, with one for each definition that a contract rests on though it is said to be a step."""
        steps = [f"crates/{short(path)}: {name} isn't a step, since a contract rests on it"
                 for path in self.definitions if is_step(path) for name in sorted(self.definitions[path])]
        return self.faults + steps


def read(*functions):
    """Reads what the contracts of these functions rest on."""
    reader = Reader()
    for function in functions:
        reader.follow_contract(function)
    return reader
