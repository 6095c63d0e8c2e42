"""What build.py keeps of a crate, and where it builds one.

A crate that is built has a file out/built with the sum of its text. It is built in a view: a copy of the crate and of
what it stands on, by links.
"""
import hashlib
import os
import shutil
import subprocess

import crate_plan

ROOT = crate_plan.ROOT
PARTS = ("src", "specs", "proofs", "c")


def folder_of(name, root=ROOT):
    """The folder of a crate."""
    return os.path.join(root, "crates", name)


def is_program(name):
    """Whether the crate is a program."""
    return os.path.exists(os.path.join(folder_of(name), "src", "main.rt"))


def command_of(name, jobs):
    """A library is built; a program is run once, on no input, which proves, builds and links it."""
    if is_program(name):
        return ["rt", "run", "--jobs", str(jobs), "--", "run"]
    return ["rt", "lib", "--jobs", str(jobs)]


def mark_of(name):
    """The file that `rt` writes last when it builds the crate."""
    out, is_static = os.path.join(folder_of(name), "out"), "staticlib" in crate_plan.crate_lines()[name][0]
    if is_program(name):
        return os.path.join(out, f"{name}.stamp")
    return os.path.join(out, f"lib{name}.a") if is_static else os.path.join(out, "rlib", "stamp")


class Texts:
    """Sums of the crates' texts, by which it is known whether one has changed since it was built."""

    def __init__(self, crates):
        self.crates, self.lines, self.known = crates, crate_plan.crate_lines(), {}
        said = subprocess.run(["rt", "version"], capture_output=True, check=True)
        self.kit = said.stdout

    def own(self, name):
        """A sum of the crate's own files and its line of crates.txt."""
        found = hashlib.sha256(repr((self.kit, self.lines[name])).encode())
        for part in PARTS:
            for at, folders, files in os.walk(os.path.join(folder_of(name), part)):
                folders.sort()
                for file in sorted(files):
                    path = os.path.join(at, file)
                    with open(path, "rb") as text:
                        found.update(repr((os.path.relpath(path, ROOT), text.read())).encode())
        return found.hexdigest()

    def of(self, name):
        """A sum of the crate's text and of all that it stands on."""
        if name not in self.known:
            self.known[name] = self.over(name, self.own(name))
        return self.known[name]

    def over(self, name, own):
        """A sum of this text of the crate and of all that it stands on."""
        return hashlib.sha256(" ".join([own, *map(self.of, self.crates[name])]).encode()).hexdigest()

    def record(self, name):
        """What stands beside a crate that is built: its sum, and when it was built."""
        return f"{self.of(name)} {os.stat(mark_of(name)).st_mtime_ns}"

    def is_kept(self, name):
        """Whether the crate is built and has not changed."""
        try:
            with open(os.path.join(folder_of(name), "out", "built"), encoding="utf-8") as file:
                return file.read() == self.record(name)
        except OSError:
            return False

    def keep(self, name):
        """Takes note that the crate is built, unless its files changed meanwhile."""
        if self.over(name, self.own(name)) == self.of(name) and os.path.exists(mark_of(name)):
            with open(os.path.join(folder_of(name), "out", "built"), "w", encoding="utf-8") as file:
                file.write(self.record(name))


def link(one, other):
    """Gives a file a second name, or copies it to another file system."""
    try:
        os.link(one, other)
    except OSError:
        shutil.copy2(one, other)


def link_kept(one, other):
    """As link for what a check replaces and does not write into; anything else it copies."""
    (link if one.endswith(".oantt") else shutil.copy2)(one, other)


class View:
    """A copy of a crate and of what it stands on, by links to the files, in which `rt` builds the crate.

    `rt` locks the folder of each crate below the one that it builds, so two runs on one tree would wait for each other.
    This script holds those locks itself, and each run has a view of its own."""

    def __init__(self, place, name, below):
        self.name, self.top, self.below = name, os.path.join(place, name), below
        shutil.rmtree(self.top, ignore_errors=True)
        os.makedirs(os.path.join(self.top, "crates"))
        lines = crate_plan.crate_lines()
        with open(os.path.join(self.top, "crates.txt"), "w", encoding="utf-8") as file:
            file.writelines(f"{' '.join(lines[it][0])}: {' '.join(lines[it][1])}\n" for it in (*below, name))
        shutil.copy2(os.path.join(ROOT, "HANDLES"), self.top)
        for crate in (*below, name):
            self.take(crate, PARTS, link)
        for crate in below:
            self.take(crate, [os.path.join("out", "rlib")], link)
        self.take(name, ["out"], link_kept)
        self.folder = folder_of(name, self.top)
        self.said = open(os.path.join(self.top, "said"), "w+b")

    def take(self, crate, parts, how):
        """Links these folders of a crate."""
        for part in parts:
            folder = os.path.join(folder_of(crate), part)
            if os.path.isdir(folder):
                shutil.copytree(folder, os.path.join(folder_of(crate, self.top), part), copy_function=how)

    def output(self):
        """What `rt` said, with the paths of the tree."""
        self.said.seek(0)
        return self.said.read().decode("utf-8", "replace").replace(self.top, ROOT)

    def is_same_below(self):
        """Whether the libraries below are still those that the crate was to be built over."""
        stamp = os.path.join("out", "rlib", "stamp")
        ours, theirs = ([os.stat(os.path.join(folder_of(it, top), stamp)).st_mtime_ns for it in self.below]
                        for top in (self.top, ROOT))
        return ours == theirs

    def give_back(self):
        """Puts what was made in place of what the tree had, and removes the view."""
        made, out = os.path.join(self.folder, "out"), os.path.join(folder_of(self.name), "out")
        os.makedirs(out, exist_ok=True)
        for name in os.listdir(made) if os.path.isdir(made) else ():
            to = os.path.join(out, name)
            if os.path.isdir(to):
                shutil.rmtree(to)
            elif os.path.exists(to):
                os.remove(to)
            shutil.move(os.path.join(made, name), to)
        self.said.close()
        shutil.rmtree(self.top, ignore_errors=True)
