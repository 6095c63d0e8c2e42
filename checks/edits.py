#!/usr/bin/env python3
"""Checks that each must-fail edit costs one search and shows a wrong implementation, from the output of a gate.

    python3 checks/edits.py LOG

reads the output of `rt ci` or `rt must-fail` (`-` for standard input), which names for each edit the goal that it
breaks. That goal needs an answer on file, a term or `grind`. Without one, the prover searches twice before it refuses.
An answer that is only `search` tries less than the prover does by itself, so a refusal may show a weak search. No edit
may assign over a book or a core, since the drop of the old one is proved anew: use `drop(std::mem::replace(..))`.

It prints a line for each edit that breaks a rule, then a count, and exits with status 1 if there is one.
"""
import glob
import os
import re
import sys

ROOT = os.path.dirname(os.path.dirname(os.path.abspath(__file__)))
TRIED = re.compile(r"^(?:rt: )?must-fail (\w+)/([\w.-]+\.edit): (.*)$", re.M)
REFUSED = "refused, as it must be"
# A place in a proof, and one in the source, where a goal is left that no answer proves.
IN_PROOF = re.compile(r"(?:\./)?(proofs/\S+?\.antt):(\d+):")
IN_SOURCE = re.compile(r"(?:\./)?(src/\S+?\.rt):(\d+):")
FUNCTION = re.compile(r"\s*(?:pub(?:\([^)]*\))?\s+)?(?:const\s+|ghost\s+)*fn\s+(\w+)")
# The start of a definition in a file of answers: its name, and the text that follows the parameters.
DEFINITION = re.compile(r"^(?:pub )?([^\s:]+)((?: [^\s:=]+)*) =(.*)$")
ASSIGNS = re.compile(r"(?<![\w.])(?<!let )(?<!let mut )\*?(?:\w+\.)*(?:book|core)\s*=(?![=>])")
WHOLE = re.compile(r"(?<![\w.])\*self\s*=(?![=>])")
OWNERS = ("jlr_book", "jlr_core", "jlr_state")


def text_of(*path):
    """The text of a file of the repository, or none."""
    try:
        with open(os.path.join(ROOT, *path), encoding="utf-8") as file:
            return file.read()
    except OSError:
        return ""


def answers_in(text):
    """The definitions of a file of answers: for each the line where it begins, its name and its term."""
    found = []
    for number, line in enumerate(text.split("\n"), 1):
        begins = DEFINITION.match(line)
        if begins:
            found.append([number, begins[1], begins[3]])
        elif found and line.startswith((" ", "\t")):
            found[-1][2] += "\n" + line
    return [(number, name, term.strip()) for number, name, term in found]


def is_search(term):
    """Whether an answer is a search alone."""
    return bool(re.fullmatch(r"\(?search\b[^\n]*", term))


def function_at(crate, path, line):
    """The function in which a line of the source lies. An edit replaces one line by one line."""
    for text in reversed(text_of("crates", crate, path).split("\n")[:line]):
        found = FUNCTION.match(text)
        if found:
            return found[1]
    return None


def answers_of(crate, path, function):
    """All answers on file for a function of a source file."""
    module = os.path.join(ROOT, "crates", crate, "proofs", path[len("src/"):-len(".rt")])
    files = [it for kind in ("Answers", "Proof")
             for it in glob.glob(os.path.join(module, "**", function or "", f"{kind}.antt"), recursive=True)]
    return [it for file in files for it in answers_in(text_of(file))]


def of_proof(crate, path, line):
    """What is wrong with the answer in which a line of a proof lies."""
    above = [it for it in answers_in(text_of("crates", crate, path)) if it[0] <= line]
    if above and is_search(above[-1][2]):
        return f"the answer of `{above[-1][1]}` in {path} is a search alone"
    return None


def of_source(crate, path, line, said):
    """What is wrong where a goal in the source is left."""
    function, goal = function_at(crate, path, line), re.search(r"\(`([^`]+)`\)", said)
    answers = answers_of(crate, path, function)
    if goal is None:
        has = "answers" if answers else "no answer"
        return f"{function} in {path} has {has}, and the output does not name the goal"
    term = next((term for _, name, term in answers if name == goal[1]), None)
    if term is None:
        return f"`{goal[1]}` of {function} in {path} has no answer"
    return f"the answer of `{goal[1]}` of {function} in {path} is a search alone" if is_search(term) else None


def of_try(crate, said):
    """What is wrong with an edit by what the gate says of it, or None."""
    if not said.startswith(REFUSED):
        return said.partition(":")[0] if said.startswith(("BAD EDIT", "NOT ")) else None
    why = said[len(REFUSED):]
    if why.startswith(" (only"):
        return "it is refused " + why.partition("(")[2].partition(":")[0].partition(",")[0]
    at = IN_PROOF.search(why)
    if at:
        return of_proof(crate, at[1], int(at[2]))
    at = IN_SOURCE.search(why)
    return of_source(crate, at[1], int(at[2]), why) if at else "the output names no goal"


def of_text(crate, name):
    """What is wrong with the text of an edit, or None."""
    for line in text_of("crates", crate, "must-fail", name).split("\n"):
        if line.startswith("new:") and (ASSIGNS.search(line) or crate in OWNERS and WHOLE.search(line)):
            return "it assigns over a book or a core"
    return None


def findings(output):
    """A line for each edit of a gate's output that breaks a rule, and a count."""
    tried = dict.fromkeys(TRIED.findall(output))
    found = []
    for crate, name, said in tried:
        for why in filter(None, (of_try(crate, said), of_text(crate, name))):
            found.append(f"edit {crate}/{name}: {why}")
    wrong = {line.split()[1] for line in found}
    return [*found, f"{len(wrong)} of {len(tried)} edits break a rule of checks/edits.py"] if tried else []


def main():
    """Reads the output of a gate."""
    words = sys.argv[1:]
    if words[:1] in (["--help"], ["-h"]):
        print(__doc__.strip())
        return 0
    if len(words) != 1:
        print("usage: python3 checks/edits.py LOG", file=sys.stderr)
        return 2
    with (sys.stdin if words[0] == "-" else open(words[0], encoding="utf-8", errors="replace")) as file:
        found = findings(file.read())
    print("\n".join(found) or "the output names no edit")
    return int(not found or len(found) > 1)


if __name__ == "__main__":
    sys.exit(main())
