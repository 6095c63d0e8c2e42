#!/usr/bin/env python3
"""Finds in the sources each function, clause, definition and file that docs/claims.md names. Ends with status 1 where one is not there."""
import os
import re
import sys

ROOT = os.path.join(os.path.dirname(os.path.abspath(__file__)), "..")
TOKEN = re.compile(r"`([^`]+)`")
FUNCTION = re.compile(r"^(jlr_\w+|refheap\w*)((?:::\w+)+)$")


def texts(folder, ending):
    """The texts of the files below a folder."""
    for place, _, names in os.walk(folder):
        if os.sep + "out" in place:
            continue
        for name in sorted(names):
            if name.endswith(ending):
                with open(os.path.join(place, name), encoding="utf-8") as file:
                    yield file.read()


def contracts(crate, path):
    """The signatures and contracts of the functions of this name in a crate; of a type's, if the path names one."""
    *owners, name = path
    found = []
    for text in texts(os.path.join(ROOT, "crates", crate, "src"), ".rt"):
        if owners and owners[-1][0].isupper() and not re.search(rf"\b(impl|trait|struct)\b[^{{;]*\b{owners[-1]}\b", text):
            continue
        for match in re.finditer(rf"\bfn {name}\b", text):
            found.append(re.split(r"\n\s*(?:\{\n|\{\}|;|pub |fn |///)", text[match.start():], maxsplit=1)[0])
    return found


SPECS = "\n".join(texts(os.path.join(ROOT, "crates"), ".antt"))


def is_field(record, field):
    """Whether a record of the specs has this field."""
    for match in re.finditer(rf"\brecord {record}\b", SPECS):
        body = SPECS[match.start():].split("\n\n", 1)[0]
        if re.search(rf"\bpub {field} :", body):
            return True
    return False


def is_definition(name):
    return re.search(rf"\b(?:pub record|abbrev pub|pub data) {name}\b", SPECS) is not None


def missing_in(cell):
    """What a cell names that is not there."""
    found = []
    for token in TOKEN.findall(cell):
        function = FUNCTION.match(token)
        if function:
            found = contracts(function[1], function[2].split("::")[1:])
            if not found:
                yield f"the function {token}"
        elif token.startswith(("checks/", "docs/", "crates/")):
            if not os.path.exists(os.path.join(ROOT, token)):
                yield f"the file {token}"
        elif re.fullmatch(r"jlr_\w+|refheap\w*", token):
            if not os.path.isdir(os.path.join(ROOT, "crates", token)):
                yield f"the crate {token}"
        elif re.fullmatch(r"\w+\.\w+", token):
            if not is_field(*token.split(".")):
                yield f"the field {token}"
        elif token[0].isupper():
            if not is_definition(token):
                yield f"the definition {token}"
        elif not any(re.search(rf"\bensures {token} \{{", contract) for contract in found):
            yield f"the clause {token}"


def main():
    rows = failed = 0
    carried = False
    with open(os.path.join(ROOT, "docs", "claims.md"), encoding="utf-8") as page:
        for line in page:
            cells = [cell.strip() for cell in line.strip().strip("|").split("|")]
            if line.startswith("|") and not line.startswith("|-") and cells[-1] in ("Carried by", "Says"):
                carried = cells[-1] == "Carried by"
                continue
            if not line.startswith("| ") or len(cells) != 2 or not carried:
                continue
            rows += 1
            missing = list(missing_in(cells[1]))
            failed += bool(missing)
            print("WRONG  " if missing else "ok     ", cells[0][:100], "".join(f"\n        {what} is not there" for what in missing))
    if not rows:
        print("no row was found")
    sys.exit(failed > 0 or not rows)


if __name__ == "__main__":
    main()
