#!/usr/bin/env python3
"""Finds the definitions on which one rests: those that it names, those that they name, and so on, in the specs of all crates.

    checks/definitions.py [jlr_core.Runs.IsRunOf] [--list]

Plain data, which are the types of the code, and the kit's definitions are left out. With `--list` each with its file and line.
"""
import os
import re
import sys

ROOT = os.path.normpath(os.path.join(os.path.dirname(os.path.abspath(__file__)), ".."))
DEFINITION = re.compile(r"^\s*(?:abbrev pub|abbrev|pub record|record|pub data|data) ([^\s:({]+)")
USE = re.compile(r"^\s*(?:pub )?use Rattle\.(jlr_\w+)\.specs\.([\w.]+)\.\{([^}]*)\}", re.M)
PASSED_ON = re.compile(r"^pub use Rattle\.(jlr_\w+)\.specs\.([\w.]+)$", re.M)
WORD = re.compile(r"[^\s(){}\[\];,.]+")


class Specs:
    """The definitions of all crates, each by its module and name, with its file, its line and its text."""

    def __init__(self):
        self.files, self.uses, self.texts, self.lines, self.passed_on = {}, {}, {}, {}, {}
        crates = os.path.join(ROOT, "crates")
        for crate in sorted(os.listdir(crates)):
            specs = os.path.join(crates, crate, "specs")
            for place, _, names in os.walk(specs):
                for name in sorted(names):
                    if name.endswith(".antt"):
                        path = os.path.join(place, name)
                        module = os.path.relpath(path, specs)[:-5].replace(os.sep, ".")
                        self.read(f"{crate}.{module}", path)

    def read(self, module, path):
        with open(path, encoding="utf-8") as file:
            text = file.read()
        self.files[module] = os.path.relpath(path, ROOT)
        for crate, used in PASSED_ON.findall(text):
            self.passed_on[f"{module.split('.')[0]}.{used}"] = f"{crate}.{used}"
        names = {}
        for crate, used, items in USE.findall(text):
            for item in items.split(","):
                old, _, new = item.strip().partition(" as ")
                if old:
                    names[(new or old).strip()] = (f"{crate}.{used}", old.strip())
        self.uses[module] = names
        rows = text.split("\n")
        begins = [(number, match[1]) for number, row in enumerate(rows) if (match := DEFINITION.match(row))]
        ends = [number for number, _ in begins[1:]] + [len(rows)]
        for (number, name), end in zip(begins, ends):
            body = [row for row in rows[number:end] if not row.lstrip().startswith("--")]
            self.texts[module, name] = "\n".join(body)
            self.lines[module, name] = number + 1

    def found(self, module, name):
        """Where what a module is asked for is defined, perhaps further down, or none."""
        while (module, name) not in self.texts:
            if module in self.passed_on:
                module = self.passed_on[module]
            elif name in self.uses.get(module, {}):
                module, name = self.uses[module][name]
            else:
                return None
        return module, name

    def named_in(self, key):
        """The definitions that this one names."""
        module = key[0]
        words = set(WORD.findall(self.texts[key]))
        own = {name: (module, name) for other, name in self.texts if other == module}
        for name, target in {**self.uses[module], **own}.items():
            if name in words or name.strip("◌") in words:
                if place := self.found(*target):
                    yield place

    def below(self, key):
        """This definition and all on which it rests."""
        seen, waiting = set(), [key]
        while waiting:
            at = waiting.pop()
            if at not in seen:
                seen.add(at)
                waiting.extend(self.named_in(at))
        return seen


def crates_of(keys):
    return {module.split(".")[0] for module, _ in keys}


def main():
    words = [word for word in sys.argv[1:] if word != "--list"]
    module, _, name = (words[0] if words else "jlr_core.Runs.IsRunOf").rpartition(".")
    specs = Specs()
    if (module, name) not in specs.texts:
        sys.exit(f"{name} is not defined in {module}")
    found = specs.below((module, name))
    if "--list" in sys.argv:
        for key in sorted(found):
            print(f"{specs.files[key[0]]}:{specs.lines[key]} {key[1]}")
    print(f"{name} rests on {len(found)} definitions of {len(crates_of(found))} crates")


if __name__ == "__main__":
    main()
