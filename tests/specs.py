#!/usr/bin/env python3
"""Definitions rest on definitions alone, told from the files of specs/. Each stands in one of three folders: Believed, what a
reader must believe; Executable, what can be computed of a grammar, with a proposition beside it; Ties, between code and
definitions. A tie may import what it likes. Every other file names no module of a crate's proofs/ and no tie; and what says in
its head that it is apart from any reader reaches nothing of Executable, through whatever it imports.
Types that are made from the code's enums and structs (`specs.declared`) may be named by all, as may the library's own modules
(`Rattle.std`), and no file names a source.
Every rule is also tried on files changed in memory: it must find each change."""
import pathlib
import re
import sys

BELIEVED, LAYER, TIES, APART = "Believed", "Executable", "Ties", "apart from any reader"
HEAD = re.compile(r"(?:--.*\n)*")
NAMED = re.compile(r"Rattle[.·][^\s(){},;]+")
MODULE = re.compile(r"Rattle\.(\w+)\.(specs|proofs)\.(.+)")
LIBRARY = re.compile(r"Rattle\.std\..+")
SOURCE = re.compile(r"\S*(?:\.rt\b|\bsrc/)\S*")

root = pathlib.Path(__file__).resolve().parent.parent
files = {str(path.relative_to(root)): path.read_text() for path in sorted(root.glob("crates/*/specs/**/*.antt"))}


def says(text, words):
    """Whether the comment at the head of a file has these words."""
    return words.lower() in " ".join(HEAD.match(text)[0].replace("--", " ").split()).lower()


def folder(path):
    """The folder of specs/ in which a file stands, or whose index it is."""
    return pathlib.PurePath(path).with_suffix("").parts[3]


def named(text):
    """The modules of crates that a text names."""
    return [name for name in (name.rstrip(".") for name in NAMED.findall(text)) if not LIBRARY.fullmatch(name)]


def file_of(crate, inner, files):
    """The file of a module that is named with or without something in it."""
    parts = inner.split(".")
    paths = (f"crates/{crate}/specs/{'/'.join(parts[:many])}.antt" for many in range(len(parts), 0, -1))
    return next((path for path in paths if path in files), None)


def reached(files, path, way):
    """The files of definitions that are reached from one, added to those on the way."""
    for module in filter(None, (MODULE.fullmatch(name) for name in named(files[path]))):
        taken = module[2] == "specs" and file_of(module[1], module[3], files)
        if taken and taken not in way:
            way.add(taken)
            reached(files, taken, way)
    return way


def faults(files, path):
    """What is wrong with a file."""
    if folder(path) not in (BELIEVED, LAYER, TIES, "Lib"):
        yield f"{path}: stands in none of the three folders"
    if says(files[path], APART):
        for taken in sorted(reached(files, path, set())):
            if folder(taken) == LAYER:
                yield f"{path}: apart from any reader, and reaches {taken}"
    for number, line in enumerate(files[path].split("\n"), 1):
        here = f"{path}:{number}"
        for source in SOURCE.findall(line):
            yield f"{here}: a source is named: {source}"
        for name in [] if folder(path) == TIES else named(line):
            module = MODULE.fullmatch(name)
            if not module:
                yield f"{here}: a module in a form not read here: {name}"
            elif module[2] == "proofs":
                yield f"{here}: definitions take from proofs/: {name}"
            elif not module[3].startswith("declared."):
                taken = file_of(module[1], module[3], files)
                if not taken:
                    yield f"{here}: no file is found for {name}"
                elif folder(taken) == TIES:
                    yield f"{here}: definitions take from a tie: {name}"


wrong = [fault for path in files for fault in faults(files, path)]
within = {kind: [path for path in files if folder(path) == kind and path.count("/") > 3] for kind in (BELIEVED, LAYER, TIES)}
crate, _, *inner = pathlib.Path(within[TIES][0]).with_suffix("").parts[1:]
trials = {
    "definitions take from proofs/": "use Rattle.octets.proofs.Any.{x}",
    "definitions take from a tie": f"use Rattle.{crate}.specs.{'.'.join(inner)}.{{x}}",
    "a source is named": "-- src/lib.rt",
    "a module in a form not read here": "use Rattle·octets.proofs.Any.{x}",
    "no file is found": "use Rattle.nowhere.specs.Any.{x}",
}
crate, _, *inner = pathlib.Path(within[LAYER][0]).with_suffix("").parts[1:]
reader = {"apart from any reader, and reaches": f"use Rattle.{crate}.specs.{'.'.join(inner)}.{{x}}"}
for path in [path for path in files if folder(path) != TIES]:
    for words, line in {**trials, **(reader if says(files[path], APART) else {})}.items():
        found = set(faults({**files, path: f"{files[path]}\n{line}\n"}, path)) - set(wrong)
        if not any(words in fault for fault in found):
            wrong.append(f"{path}: not found by this test: {line}")
astray = within[BELIEVED][0].replace(f"/{BELIEVED}/", "/")
if not any("none of the three" in fault for fault in faults({**files, astray: ""}, astray)):
    wrong.append("not found by this test: a file in no folder")
for fault in wrong:
    print(fault)
apart = sum(says(text, APART) for text in files.values())
print(*(f"{kind}: {len(paths)}" for kind, paths in within.items()), f"apart from any reader: {apart}", sep="; ")
sys.exit(1 if wrong or not apart else 0)
