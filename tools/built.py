"""The toolchain, and what a program was built from.

A record has the sum of all that a program is built from, the sum of the program, and of each file its size, its time and
the sum of its contents. A file whose size and time are those of the record isn't read; another is, as all are in a copy of
the tree. Where no sum differs, the program is what a build would make.
"""
import hashlib
import importlib.machinery
import importlib.util
import json
import os
import re
import shutil
import subprocess
import sys

TOP = os.path.dirname(os.path.dirname(os.path.realpath(__file__)))


def toolchain():
    """The folder of the toolchain whose command `rt` is on the path, or None."""
    rt = shutil.which("rt")
    return rt and os.path.dirname(os.path.dirname(os.path.realpath(rt)))


def rt_library():
    """The library that `rt` itself is made of."""
    sys.dont_write_bytecode = True
    loader = importlib.machinery.SourceFileLoader("rtlib", f"{toolchain()}/bin/rtlib.py")
    made = importlib.util.module_from_spec(importlib.util.spec_from_loader("rtlib", loader))
    sys.modules["rtlib"] = made
    loader.exec_module(made)
    return made


def about_toolchain():
    """A line on the version of the toolchain: whether it was seen to build the project."""
    version = subprocess.run(["rt", "version"], stdout=subprocess.PIPE, stderr=subprocess.DEVNULL, check=False).stdout.decode(errors="replace").strip()
    seen = [line.strip() for line in text_of(f"{TOP}/TOOLCHAIN").splitlines() if line.strip() and not line.startswith("#")]
    if version.split(" ")[0] in seen:
        return f"the toolchain is {version}, which was seen to build this (TOOLCHAIN)"
    return f"the toolchain is {version or 'of an unknown version'}, which nobody has tried here yet; these were: {', '.join(seen)} (TOOLCHAIN)"


def text_of(path):
    try:
        with open(path, encoding="utf-8", errors="replace") as file:
            return file.read()
    except OSError:
        return ""


def crates_below(name):
    """A crate and all of the project's that it stands on, by the lines of crates.txt."""
    lines = re.findall(r"^(\w+)[^:\n#]*:([^\n#]*)", text_of(f"{TOP}/crates.txt"), re.MULTILINE)
    uses, found = {crate: words.split() for crate, words in lines}, [name]
    for crate in found:
        found += [it for it in uses.get(crate, []) if it in uses and it not in found]
    return found


def sources(name, *parts):
    """The files that a crate is made from: those in these folders of it and of each below it, and what lists the crates."""
    found = ["crates.txt", "HANDLES"]
    for crate in crates_below(name):
        for part in parts:
            for folder, folders, names in os.walk(f"{TOP}/crates/{crate}/{part}"):
                folders.sort()
                found += [os.path.relpath(f"{folder}/{it}", TOP) for it in sorted(names)]
    return found


def sum_of(path):
    """The sum of a file's contents, or an empty text where it can't be read."""
    try:
        with open(path, "rb") as file:
            return hashlib.sha256(file.read()).hexdigest()
    except OSError:
        return ""


class Record:
    """The record of a program: `path` is the record's file, `program` the program's, `files` what it is built from, and
    `texts` what else tells how."""

    def __init__(self, path, program, files, texts=()):
        self.path, self.program, self.files, self.texts = path, program, files, [*texts]
        try:
            self.kept = json.loads(text_of(f"{TOP}/{path}"))
            self.seen = dict(self.kept["seen"])
        except (ValueError, KeyError, TypeError):
            self.kept, self.seen = {}, {}

    def known(self, name):
        """The sum of a file, which is read only where its size or its time is not as it was seen."""
        try:
            stat = os.stat(f"{TOP}/{name}")
        except OSError:
            return ""
        now = [stat.st_size, stat.st_mtime_ns]
        if self.seen.get(name, [])[:2] != now:
            self.seen[name] = [*now, sum_of(f"{TOP}/{name}")]
        return self.seen[name][2]

    def sum(self):
        """The sum of all that the program is built from, as it stands now."""
        of_toolchain = [text_of(f"{toolchain()}/{name}") for name in ("KIT-ID", "WHAT")]
        whole = [of_toolchain, self.texts, [[name, self.known(name)] for name in self.files]]
        return hashlib.sha256(json.dumps(whole).encode()).hexdigest()

    def is_same(self):
        """Whether the program stands as it was built, and what it was built from is as it was."""
        before, program = dict(self.seen), self.known(self.program)
        is_same = program != "" and self.kept.get("program") == program and self.kept.get("sum") == self.sum()
        if is_same and before != self.seen:
            self.write(self.kept["sum"])
        return is_same

    def write(self, whole):
        """Notes that the program stands for sources of this sum. Where nothing can be written, the next call builds anew."""
        record = {"sum": whole, "program": self.known(self.program)}
        record["seen"] = {it: self.seen[it] for it in [*self.files, self.program] if it in self.seen}
        try:
            os.makedirs(os.path.dirname(f"{TOP}/{self.path}"), exist_ok=True)
            with open(f"{TOP}/{self.path}.{os.getpid()}", "w", encoding="utf-8") as file:
                json.dump(record, file)
            os.replace(f"{TOP}/{self.path}.{os.getpid()}", f"{TOP}/{self.path}")
        except OSError:
            pass
