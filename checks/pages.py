#!/usr/bin/env python3
"""Holds the pages for readers against the repository.

    checks/pages.py [PROGRAM] [--mend]

Of each page (README.md, the other pages at the top, docs/, checks/README.md and bench/README.md): that each link and
anchor leads somewhere, and that each crate, function, clause, definition, field, test, file, must-fail edit, option and
command that stands in backticks exists. Of docs/README.md: that it lists each page of docs/. Of docs/claims.md: that each
definition lies at the line that is given, and how many the headline rests on; with `--mend` both are written anew. Of
docs/architecture.md: that it has each crate. Of docs/specification.md and docs/protocol.md: the asks, their refusals and
numbers, and the commands. With PROGRAM, the built refheap: that docs/history.svg is what examples/timeline.py draws of the
session that docs/trace-file.md describes; and that `refheap commands` and `refheap commands NAME` say of each command and
each refusal what docs/protocol.md says: the same operands, replies, refusals and examples, and a meaning and a phrase
whose words are rather those of its own row than of another's. Ends with status 1 where anything is wrong.
"""
import collections
import glob
import math
import os
import re
import subprocess
import sys
import tempfile

from definitions import ROOT, Specs, crates_of

TOKEN = re.compile(r"`([^`]+)`")
LINK = re.compile(r"\[[^\]]*\]\(([^)\s]+)\)")
PLACE = re.compile(r"`([^`\s]+)` `(crates/[\w/.-]+):(\d+)`")
FENCED = re.compile(r"^```.*?^```$", re.M | re.S)
COUNT = re.compile(r"(\d+) definitions of (\d+) crates")
HEADLINE = ("jlr_core.Runs", "IsRunOf")
# First words of what a session or a shell is told, of replies, and of lines on the standard error.
SHELL = {"refheap", "rt", "make", "alias", "mktemp", "pkg-config", "python3", "cd", "perf", "taskset", "time", "ulimit", "wc", "let", "pub",
         "printf"}
REPLIES = {"ok", "yes", "no", "int", "data", "end", "wrote", "list", "fault", "stat", "served", "entries", "legal", "illegal", "action:name"}
# What is the kit's, or the system's: no name of the repository.
FOREIGN = {"java.lang.ref", "clone", "drop", "remove", "pub use", "std::io::Read", "Debug", "match", "format!", "assert_eq!", "main", "let _ =", "#[test]", "out/", "fsync", "rt",
           "*.Lts.oantt", "*.Proof.oantt", "records/*.Proof.decls.oantt", "out/incremental", ".refheap-new0", ".refheap-new99", "strace", "valgrind", "ReadFault", "rustc", "cc",
           "bash", "--jobs 1", "_", "crates/refheap/out/refheap", "crates/refheap/out/refheap-unproved",
           "librefheap.a", "librefheap.so", "librefheap.so.0.9", "free_k", "NAME", "PATH", "FILE", "Module.name", "-", "-0", "logic dac8208d650f15bf"}
# Behind this heading a table's first column names what the first design called so, and is not there.
PLAN = "## Calls that the first design named otherwise"


def read(path):
    with open(os.path.join(ROOT, path), encoding="utf-8") as file:
        return file.read()


def files(*patterns):
    for pattern in patterns:
        yield from (path for path in glob.glob(os.path.join(ROOT, pattern), recursive=True) if "/out/" not in path)


class Names:
    """All names that the repository declares."""

    def __init__(self, specs):
        self.files = {os.path.basename(path) for path in files("**/*.*")}
        self.crates = {name for name in os.listdir(os.path.join(ROOT, "crates"))}
        self.edits = {os.path.basename(path)[:-5] for path in files("crates/*/must-fail/*.edit", "checks/edits/*/*.edit")}
        self.kit = set(re.findall(r"\w+", re.sub(r"#.*", "", read("crates.txt"))))
        self.definitions = {name for _, name in specs.texts}
        self.modules = {(module.split(".")[-1], name) for module, name in specs.texts}
        self.fields = set()
        for module, name in specs.texts:
            for field in re.findall(r"^\s*pub ([^\s:]+) :", specs.texts[module, name], re.M):
                self.fields.add((name, field))
        self.code, self.words, self.methods, self.data = set(), set(), set(), set()
        for path in files("crates/*/src/**/*.rt", "bench/**/*.rt", "checks/**/*.rt"):
            self.read_code(path)
        for path in files("checks/*.py", "bench/*.py", "examples/*.py"):
            self.words |= set(re.findall(r"^\s*(?:def|class) (\w+)", read(path), re.M))
        self.words |= set(re.findall(r"^#define (\w+)", read("examples/embed_c/refheap.h"), re.M))
        self.options = set(re.findall(r"--[a-z][a-z-]*", "".join(read(path) for path in files("checks/*", "bench/*.py", "examples/*.py") if os.path.isfile(path))))
        self.options |= {"--" + word for path in files("crates/jlr_command_line/src/*.rt") for word in re.findall(r'"([a-z-]+)"', read(path))}
        self.commands = set(re.findall(r'codes "([a-z]+)" ∷', read("crates/jlr_wire/specs/Commands.antt")))

    def read_code(self, path):
        text = read(path)
        stem = os.path.basename(path)[:-3]
        owners = set(re.findall(r"^\s*(?:pub )?(?:impl|trait|struct|enum)\b[^{;]*?\b([A-Z]\w*)(?:<[^{;]*?)?(?: \{|\n|;|\()", text, re.M))
        owners |= {word for line in re.findall(r"^(?:pub )?(?:impl|trait)\b.*", text, re.M) for word in re.findall(r"\b[A-Z]\w+", line)}
        found = set(re.findall(r"\bfn (\w+)", text))
        self.code |= set(re.findall(r"\.(\w+)\(", text))
        self.code |= found | owners | set(re.findall(r"\b(?:ensures|requires) (\w+)", text)) | set(re.findall(r"\bpub (?:const )?(\w+):", text))
        self.code |= set(re.findall(r"^\s+([A-Z]\w+)\b", text, re.M)) | set(re.findall(r"\b(?:struct|enum|trait|type) (\w+)", text)) | {stem}
        variants = set(re.findall(r"^\s+([A-Z]\w+)\b", text, re.M))
        self.methods |= {(owner, name) for owner in owners for name in found | variants}
        self.data |= {(stem, name) for name in re.findall(r"\b(?:struct|enum|trait|type) (\w+)", text)}

    def lacks(self, token, folder):
        """What is not there of what a token names on a page of this folder, or nothing."""
        token = token.strip()
        if folder and os.path.exists(os.path.join(ROOT, folder, token)):
            return None
        if token in FOREIGN or not re.match(r"[\w.*/-]", token) or re.fullmatch(r"[0-9a-f]{2,}|\w|[\d,.]+|/.*|-.*(?<!-).|\d.*", token) and not token.startswith("--"):
            return None
        first = token.split()[0]
        if " " in token or first.endswith(":"):
            return self.lacks_words(token, first.rstrip(":"))
        if token.startswith("--"):
            return None if token in self.options else f"the option {token}"
        if "/" in token:
            return self.lacks_path(token)
        if re.fullmatch(r"[\w-]+\.(?:rt|antt|py|sh|rs|c|md|svg|edit|txt)", token):
            return None if token in self.files else f"the file {token}"
        if "::" in token:
            return self.lacks_call(token)
        if re.fullmatch(r"[\w]+\.[^\s.]+", token):
            pair = tuple(token.split("."))
            return None if pair in self.fields or pair in self.modules or pair in self.data else f"the definition {token}"
        if token.startswith("jlr_"):
            return None if token in self.crates else f"the crate {token}"
        name = re.sub(r"\(.*\)$", "", token)
        known = (self.code, self.definitions, self.words, self.edits, self.kit, self.commands, REPLIES, self.crates)
        if any(name in names for names in known) or any(name == field for _, field in self.fields):
            return None
        return None if name in self.files or name + ".py" in self.files else f"the name {token}"

    def lacks_words(self, token, first):
        if first in self.commands or first in REPLIES:
            return None
        for word in token.split():
            if word.startswith(("checks/", "bench/", "examples/", "docs/")) and self.lacks_path(word):
                return f"the file {word}"
            if first == "refheap" and word.strip("[]").startswith("--") and word.strip("[]") not in self.options:
                return f"the option {word}"
        if first in SHELL or first.startswith(("checks/", "bench/", "crates/", "examples/", "--")):
            return None
        return f"what {token!r} is"

    def lacks_path(self, token):
        path = token.split(":")[0].rstrip("/")
        if re.match(r"(crates|checks|docs|bench|examples|\.ci)(/|$)", path):
            return None if "NAME" in path or glob.glob(os.path.join(ROOT, path)) else f"the file {token}"
        if path.startswith(("jlr_", "refheap")):
            return None if glob.glob(os.path.join(ROOT, "crates", path)) else f"the file {token}"
        return None if glob.glob(os.path.join(ROOT, "crates", "*", path)) else f"the file {token}"

    def lacks_call(self, token):
        owner, _, name = token.partition("::")
        if owner.startswith(("jlr_", "refheap")):
            parts = name.split("::")
            found = any(re.search(rf"\bfn {parts[-1]}\b", read(path)) for path in files(f"crates/{owner}/src/**/*.rt"))
            return None if found else f"the function {token}"
        return None if (owner, name) in self.methods else f"the function {token}"


def slug(heading):
    """The anchor of a heading, as pages on the web have it."""
    words = re.sub(r"[`*]", "", heading).strip().lower()
    return re.sub(r"[^\w\- ]", "", words).replace(" ", "-")


def anchors(path):
    return {slug(match) for match in re.findall(r"^#+ (.*)$", read(path), re.M)}


def wrong_links(page):
    for link in LINK.findall(read(page)):
        if link.startswith(("http://", "https://")):
            continue
        target, _, anchor = link.partition("#")
        path = os.path.normpath(os.path.join(os.path.dirname(page), target)) if target else page
        if not os.path.exists(os.path.join(ROOT, path)):
            yield f"the link {link} leads nowhere"
        elif anchor and anchor not in anchors(path):
            yield f"the anchor of {link} is not there"


def wrong_list(page):
    """Pages of docs/ that the list of pages has not."""
    listed = set(LINK.findall(read(page)))
    for path in sorted(map(os.path.basename, files("docs/*.md"))):
        if path not in listed and path != os.path.basename(page):
            yield f"it does not list {path}"


def wrong_names(page, names):
    text, plan, calls = read(page).partition(PLAN)
    text += plan + re.sub(r"^\| [^|]* \|", "|", calls, flags=re.M)
    text = re.sub(r"^    .*$", "", FENCED.sub("", text), flags=re.M)
    for token in sorted(set(TOKEN.findall(text.replace("\n", " ")))):
        lacking = names.lacks(token, os.path.dirname(page))
        if lacking:
            yield f"{lacking} is not there"


def wrong_rows(page):
    """Rows of tables that name a function with its file, or a must-fail edit with its crate, where the one is not in the other."""
    for line in read(page).splitlines():
        cells = [TOKEN.findall(cell) for cell in line.strip("|").split("|")] if line.startswith("| ") else []
        if len(cells) != 3 or not cells[1] or not cells[2]:
            continue
        if re.fullmatch(r"(jlr_\w+|refheap\w*)/src/\w+\.rt", cells[2][0]):
            for name in cells[1]:
                if not re.search(rf"\bfn {name.split('::')[-1]}\b", read(os.path.join("crates", cells[2][0]))):
                    yield f"{name} is not in {cells[2][0]}"
        elif cells[1][0].startswith("jlr_") and page == "docs/proof-strength.md" and re.fullmatch(r"\w+", cells[2][0]):
            for edit in cells[2]:
                if not any(list(files(f"crates/{crate}/must-fail/{edit}.edit", f"checks/edits/{crate}/{edit}.edit")) for crate in cells[1]):
                    yield f"the edit {edit} is not in {', '.join(cells[1])}"


def table_rows(page, columns):
    """The cells of each row of tables with so many columns."""
    for line in read(page).splitlines():
        cells = [cell.strip() for cell in line.strip("|").split("|")] if line.startswith("| ") else []
        if len(cells) == columns:
            yield cells


def wrong_refusals(page):
    """Asks with another number or other refusals than `Refusals.listed_of` has, and refusals with another number than
    `Numbers.number_of` has."""
    spec = read("crates/jlr_machine/specs/Refusals.antt")
    lines = re.findall(r"^listed_of to\.(\w+) = (.*)$", spec, re.M)
    listed = [(ask, re.findall(r"[A-Z]\w+", refusals)) for ask, refusals in lines]
    short = {"H": ["NoSession", "NoHandle", "Null"], "K": ["NoSession", "NoHandle", "Null", "WrongKind"]}
    if page == "docs/specification.md":
        told = [(ask, [by for word in refusals.split(", ") if word for by in short.get(word, [word])]) for ask, _, refusals, _, _ in table_rows(page, 5) if ask in dict(listed)]
        for number, (one, other) in enumerate(zip(told, listed)):
            if one != other:
                yield f"ask {number} is {other[0]}, refused {', '.join(other[1])}"
        if len(told) != len(listed):
            yield f"there are {len(listed)} asks"
    numbers = dict(re.findall(r"^number_of (\w+) = (\d+)$", read("crates/jlr_types/specs/Numbers.antt"), re.M))
    for number, name, _ in table_rows(page, 3):
        if name in numbers and numbers[name] != number:
            yield f"{name} is {numbers[name]}"


def wrong_commands(page, names):
    """Commands that the table of commands has not, or has too many."""
    rows = [line.split(" | ")[0] for line in read(page).splitlines() if line.startswith("| `") and line.count(" | ") == 3]
    told = {token.split()[0] for row in rows for token in TOKEN.findall(row) if not token.startswith("--")}
    for command in sorted(told ^ names.commands):
        yield f"the command {command} is in one place and not in the other"


def wrong_crates(page):
    """Crates of crates.txt that the page has not."""
    text = read(page)
    for crate in re.findall(r"^(\w+)[^:\n]*:", read("crates.txt"), re.M):
        if f"`{crate}`" not in text:
            yield f"the crate {crate} is not told of"


def wrong_places(page, specs, mend):
    """Definitions that lie elsewhere, and a wrong count of what the headline rests on."""
    text = read(page)
    found = specs.below(HEADLINE)
    told = f"{len(found)} definitions of {len(crates_of(found))} crates"
    lines = {(name, specs.files[module]): number for (module, name), number in specs.lines.items()}
    new = COUNT.sub(told, text)
    new = PLACE.sub(lambda at: f"`{at[1]}` `{at[2]}:{lines.get((at[1], at[2]), at[3])}`", new)
    if mend and new != text:
        with open(os.path.join(ROOT, page), "w", encoding="utf-8") as file:
            file.write(new)
        text = new
    if told not in text:
        yield f"the headline rests on {told}"
    places = PLACE.findall(text)
    for name, path, number in places:
        if lines.get((name, path)) != int(number):
            yield f"{name} is not at {path}:{number}"
    if len(places) < 40:
        yield f"only {len(places)} definitions have their place"


def wrong_picture(program):
    """Whether the history is drawn as it is today."""
    commands = next(line for line in read("docs/trace-file.md").splitlines() if line.startswith("    queue; "))
    options = re.search(r"`refheap run (--cells [^`]*) --save FILE`", read("docs/trace-file.md"))[1].split()
    with tempfile.TemporaryDirectory() as folder:
        lines = "".join(command.strip() + "\n" for command in commands.split(";"))
        saved = os.path.join(folder, "history")
        subprocess.run([os.path.abspath(program), "run", *options, "--save", saved], input=lines, text=True, cwd=folder, check=True, stdout=subprocess.DEVNULL)
        drawn = subprocess.run([sys.executable, os.path.join(ROOT, "examples", "timeline.py"), saved], check=True, capture_output=True, text=True).stdout
    if drawn != read("docs/history.svg"):
        with open(os.path.join(tempfile.gettempdir(), "history.svg"), "w", encoding="utf-8") as file:
            file.write(drawn)
        yield "docs/history.svg is another picture; the one of today is in the folder for what is temporary"


# ---- What the program says of its commands

# First words of the replies that a command may have, and 0, a handle that is null.
KINDS = {"=", "0", "ok", "yes", "no", "int", "data", "end", "wrote", "list", "stat", "fault"}
# What a meaning of the table of commands says of the row above it, or of its own operands; and the asks that have other names than their commands, as the page tells.
SHORT = {"the same": "{above}", "one that": "{subject} that", "reads it": "reads {object}", "writes them": "writes the bytes"}
ASKS = {"soft": "MakeRef", "weak": "MakeRef", "phantom": "MakeRef", "queue": "MakeQueue", "cleaner": "MakeCleaner", "gc": "Full", "open": "Prepare",
        "connect": "Prepare", "read": "CheckOut", "write": "CheckOut", "setint": "SetInt"}
LISTED = {"H": ["NoSession", "NoHandle", "Null"], "K": ["NoSession", "NoHandle", "Null", "WrongKind"]}


def rows_below(page, heading, columns):
    """The cells of each row of so many columns below a heading, up to the next one."""
    for line in re.search(rf"^{heading}.*?\n(.*?)(?=^#|\Z)", read(page), re.M | re.S)[1].splitlines():
        cells = [cell.strip() for cell in line.strip("|").split("|")] if line.startswith("| ") else []
        if len(cells) == columns:
            yield cells


def words_in(text):
    """The words of a text: small, without the s at their ends, and those of a name apart."""
    return {word.rstrip("s") for word in re.findall(r"[a-z0-9]+", re.sub(r"([a-z])([A-Z])", r"\1 \2", text).lower())} - {"such"}


def strangers(said, due):
    """What is said of a key though its words fit what is due to another key better than what is due to this one, or hardly anything; or though it is said of
    two. A word counts the more, the fewer texts have it."""
    held = {key: words_in(text) for key, text in due.items()}
    count = collections.Counter(word for words in held.values() for word in words)
    weight = lambda words: sum(math.log((len(held) + 1) / max(count[word], 1)) for word in words)
    for key, text in said.items():
        whole = weight(words_in(text)) or 1
        fit = {other: weight(words & words_in(text)) / whole for other, words in held.items()}
        if fit[key] < max(0.3, max(fit.values()) - 1e-9) or list(said.values()).count(text) > 1:
            yield key, text


def commands_due():
    """Of each command by docs/protocol.md: its reply, its example with an answer, the numbers of its refusals, and all words that tell what it means."""
    stat = next(meaning for line, meaning in rows_below("docs/protocol.md", "## Replies", 2) if line.startswith("`stat "))
    numbers = {name: number for number, name, _ in rows_below("docs/protocol.md", "## Replies", 3)}
    refusals = {ask: [numbers.get(name) for word in names.split(", ") for name in LISTED.get(word, [word])]
                for ask, _, names, _, _ in rows_below("docs/specification.md", "## 14. Asks", 5)}
    above = ""
    for forms, meaning, reply, example in rows_below("docs/protocol.md", "## Commands", 4):
        parts = {"above": above, "subject": above.partition(",")[0], "object": above.partition(" ")[2]}
        for begin, whole in SHORT.items():
            if meaning.startswith(begin):
                meaning = whole.format(**parts) + meaning[len(begin):]
        above = meaning
        for form in TOKEN.findall(forms):
            word = form.split()[0]
            text = " ".join([form, meaning, reply, stat if reply == "`stat`" else ""])
            yield form, (reply, TOKEN.findall(example), refusals.get(ASKS.get(word, word.capitalize()), []), text)


def commands_told(program):
    """What the program tells: of each command its reply and the numbers of its refusals, the range of each operand, a phrase of each refusal, and the lines of each
    command's page."""
    tell = lambda *words: subprocess.run([os.path.abspath(program), "commands", *words], capture_output=True, text=True, check=True).stdout
    table, operands, phrases = tell().split("\n\n")
    head, *table = table.splitlines()
    reply, refused = head.index("Reply"), head.index("Refused")
    table = {line[:reply].strip(): (line[reply:refused].strip(), line[refused:].split()) for line in table}
    pages = {}
    for word in dict.fromkeys(form.split()[0] for form in table):
        for line in tell(word).splitlines():
            if not line.startswith(" "):
                pages[line] = page = []
            else:
                page.append(line.strip())
    in_two = lambda text: [line.split(None, 1) for line in text.splitlines()[1:]]
    return table, in_two(operands), dict(in_two(phrases)), pages


def kinds_of(reply):
    return {part.removeprefix("a ").split()[0] for part in re.split("[,;] ", reply.replace("`", ""))} & KINDS


def wrong_manual(program):
    """What `refheap commands` says otherwise than docs/protocol.md."""
    table, operands, phrases, pages = commands_told(program)
    due = dict(commands_due())
    if list(table) != list(due) or set(pages) != set(due):
        yield f"the program lists {', '.join(table)}, and has pages of {', '.join(pages)}"
        return
    for form, (reply, example, refused, _) in due.items():
        told, numbers = table[form]
        shown = re.search(r"^example  (.*)\n(.*)$", "\n".join(pages[form]), re.M).groups()
        if kinds_of(told) != kinds_of(reply) or not words_in(told) - {"a"} <= words_in(reply) or f"reply    {told}" not in pages[form]:
            yield f"`{form}` is answered {reply}; the program says {told}"
        word = form.split()[0]
        # One row has an example for three commands.
        if shown[1] != example[1] or shown[0].split()[0] != word or example[0].split()[0] == word and shown[0] != example[0]:
            yield f"the example of `{form}` is {example}; the program's is {shown}"
        said = [line for line in pages[form] if re.match(r"! \d+ ", line)]
        if numbers != refused or said != [f"! {number:<7}{phrases.get(number)}" for number in numbers]:
            yield f"`{form}` may be refused {' '.join(refused)}; the program says {' '.join(numbers)}, or its page has other phrases"
    for form, meaning in strangers({form: page[0] for form, page in pages.items()}, {form: text for form, (*_, text) in due.items()}):
        yield f"the program says of `{form}` that it {meaning}"
    yield from wrong_ranges(operands)
    yield from wrong_phrases(phrases)


def wrong_ranges(operands):
    """Operands with other bounds than the table of fields has."""
    fields = {letter: set(re.findall(r"-?\d+", text)) - {"-0"} for letters, text in rows_below("docs/protocol.md", "## Lines", 2) for letter in letters.split(", ")}
    for letter, text in operands:
        bounds = set(re.findall(r"-?\d+", text))
        if letter not in fields or bounds and bounds != fields[letter]:
            yield f"the program says of the operand {letter}: {text}"


def wrong_phrases(phrases):
    """Refusals whose phrase is rather that of another."""
    options = {option.strip("`-"): meaning for option, _, _, meaning in rows_below("docs/protocol.md", "## The command line", 4)}
    due = {number: f"{name} {why}" for number, name, why in rows_below("docs/protocol.md", "## Replies", 3) if number.isdigit()}
    if set(phrases) != set(due):
        yield f"the program has phrases for {', '.join(phrases)}"
        return
    # What an option bounds is told there in other words.
    wide = {number: " ".join([text, *[meaning for option, meaning in options.items() if option in text.split()]]) for number, text in due.items()}
    for number, phrase in strangers(phrases, wide):
        yield f"refusal {number} is {due[number]}; the program says: {phrase}"


def pages():
    """The pages for readers."""
    return sorted(os.path.relpath(path, ROOT) for path in files("*.md", "docs/*.md", "checks/README.md", "bench/README.md"))


def main():
    mend = "--mend" in sys.argv
    programs = [word for word in sys.argv[1:] if not word.startswith("--")]
    specs = Specs()
    names = Names(specs)
    failed = 0
    for page in pages():
        wrong = [*wrong_links(page), *wrong_names(page, names), *wrong_rows(page)]
        wrong += wrong_list(page) if page == "docs/README.md" else []
        if page == "docs/claims.md":
            wrong += wrong_places(page, specs, mend)
        if page in ("docs/specification.md", "docs/protocol.md"):
            wrong += wrong_refusals(page)
        if page == "docs/architecture.md":
            wrong += wrong_crates(page)
        if page == "docs/protocol.md":
            wrong += wrong_commands(page, names)
            wrong += wrong_manual(programs[0]) if programs else []
        if page == "docs/trace-file.md" and programs:
            wrong += wrong_picture(programs[0])
        failed += bool(wrong)
        print("WRONG  " if wrong else "ok     ", page, "".join(f"\n        {what}" for what in wrong))
    sys.exit(failed > 0)


if __name__ == "__main__":
    main()
