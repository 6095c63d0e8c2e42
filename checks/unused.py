#!/usr/bin/env python3
"""Holds that something names each lemma, definition and free function: a proof, a clause, a body or a test.

    checks/unused.py

What only itself and imports name is of no use, and a definition of specs that no other file brings in nor its own names.
Left out are laws, the answers of proofs, lemmas that the prover finds by their names (`OF-WHAT`),
three that it may find of itself, tests, and what programs outside call: the exports for C and the heap in process. Ends with status 1 where something is of no use.
"""
import collections
import os
import re
import sys

ROOT = os.path.join(os.path.dirname(os.path.abspath(__file__)), "..")
PROVED = re.compile(r"[^\s(){}\[\],.;:=|λ×→]+")
BODY = re.compile(r"\w+(?:-\w+)*|[^\s\w]")
MADE = re.compile(r"^\s*((?:abbrev |opaque |pub |record |data )*)([^\s(){}\[\],.;:=]+)(.*)$")
FUNCTION = re.compile(r"^(?:    pub(?:\(crate\))? |pub(?:\(crate\))? )?(?:const )?fn (\w+)(?!.*\(\)$)")
BROUGHT = re.compile(r"use Rattle\.([\w.]+)(?:\.\{([^}]*)\}| as )")
SKIPPED = re.compile(r"\s*(?:--|//|(?:ghost )?(?:pub )?use )")
# A search may use these of itself; whether one does was not tried.
UNTRIED = ("record_has_none", "cut_past_front", "ended_fault")
OUTSIDE = ("refheap_c", "jlr_heap", "jlr_embed")


def sources():
    for folder, folders, files in os.walk(os.path.join(ROOT, "crates")):
        folders[:] = [name for name in folders if name != "out"]
        for name in files:
            if name.endswith((".rt", ".antt")):
                path = os.path.join(folder, name)
                with open(path, encoding="utf-8") as file:
                    yield path, [line for line in file.read().split("\n") if not SKIPPED.match(line)]


def brought():
    """The definitions that files bring in, by module, and each module that is brought in whole."""
    names, whole = set(), set()
    for folder, folders, files in os.walk(os.path.join(ROOT, "crates")):
        folders[:] = [name for name in folders if name != "out"]
        for name in files:
            if name.endswith((".rt", ".antt")):
                with open(os.path.join(folder, name), encoding="utf-8") as file:
                    for module, words in BROUGHT.findall(file.read()):
                        names.update((module, word.split(" as ")[0].strip()) for word in words.split(","))
                        if not words:
                            whole.add(module)
    return names, whole


def kept_alone(path, lines, names, whole):
    """The definitions of a file of specs that nothing brings in, and that the file does not name itself."""
    made, named = [], collections.Counter()
    of_proofs(path, lines, made, named)
    module = os.path.relpath(path, os.path.join(ROOT, "crates"))[: -len(".antt")].replace("/", ".")
    if module in whole:
        return set()
    return {(path, name) for _, name in made if named[name] <= 0 and (module, name) not in names}


def of_proofs(path, lines, made, named):
    """What a file of specs or proofs makes, and what it names: not the word with which a line of a definition begins."""
    answers = os.path.basename(path) in ("Answers.antt", "Invariants.antt", "Proof.antt")
    own, fields, record = {}, None, 0
    for line in lines:
        found, deep = MADE.match(line), len(line) - len(line.lstrip())
        if fields is not None and line and deep <= fields:
            fields = None
        if found and fields is None and "record" in found[1]:
            record = deep
        if found and not answers and fields is None and "-" not in found[2] and (found[3].startswith(" : ") or "record" in found[1]):
            own[found[2]] = deep
            made.append((path, found[2]))
        if line.endswith("where") and not line.lstrip().startswith("module"):
            fields = record
    for line in lines:
        words = PROVED.findall(line)
        begun = [word for word in words if word not in ("abbrev", "opaque", "pub", "record", "data")]
        if begun and own.get(begun[0]) == len(line) - len(line.lstrip()):
            words.remove(begun[0])
        named.update(words)


def of_bodies(path, lines, made, named):
    """The functions and public methods of a source, and what it names: each is named once where it is made."""
    tests = "/tests/" in path or path.endswith("laws.rt") or any(f"/{crate}/" in path for crate in OUTSIDE)
    for before, line in zip([""] + lines, lines):
        if found := FUNCTION.match(line):
            named[found[1]] -= 1
            if not tests and "#[test]" not in before and found[1] != "main":
                made.append((path, found[1]))
        named.update(BODY.findall(line))


def main():
    made, named, alone = [], collections.Counter(), set()
    names, whole = brought()
    for path, lines in sources():
        (of_proofs if path.endswith(".antt") else of_bodies)(path, lines, made, named)
        if "/specs/" in path:
            alone |= kept_alone(path, lines, names, whole)
    unnamed = {(path, name) for path, name in made if named[name] <= 0}
    idle = sorted({(os.path.relpath(path, ROOT), name) for path, name in unnamed | alone if name not in UNTRIED})
    print("\n".join(f"{path}: nothing names {name}" for path, name in idle) if idle else "ok      nothing is of no use")
    sys.exit(bool(idle))


if __name__ == "__main__":
    main()
