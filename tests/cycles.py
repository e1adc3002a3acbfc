#!/usr/bin/env python3
"""The second address reader has no calls in a cycle and calls nothing of the first, told from the sources: every call is
followed from each function of the crate `engine` on, over crates, and none leads back to a function on the way to it.
The same walk must find a cycle in the first reader, whose list reader and address reader call each other by design."""
import pathlib
import re
import sys

FIRST, SECOND = "addresses", "engine"
# comments, texts, bytes and ghost imports; a contract clause up to its brace; an import and what it names; a call, of a method if
# a dot is before it
UNREAD = re.compile(r"""//[^\n]*|b?"(?:\\.|[^"\\])*"|b?'(?:\\.|[^'\\])'|\bghost use [^;]*;""", re.DOTALL)
CLAUSE = re.compile(r"\b(?:requires|ensures)\b[^{]*\{")
IMPORT = re.compile(r"\buse\s+([^;]*);")
NAMES = re.compile(r"((?:\w+::)*)(?:(\w+(?:\s+as\s+\w+)?)|\{([^{}*]*)\})")
VARIANTS = re.compile(r"(?:\w+::)*[A-Z]\w*::\*")  # an import of all variants of an enum: no function
PRIMITIVES = {"u8", "u16", "u32", "u64", "usize", "i16", "i32", "i64", "isize", "bool"}  # their functions are the library's
CALL = re.compile(r"(\.)?\b((?:\w+::)*)([a-z_]\w*)\s*\(")
KEYWORDS = {"if", "else", "match", "while", "for", "in", "return", "let", "as"}

root = pathlib.Path(__file__).resolve().parent.parent
codes, functions, faults = {}, {}, []  # code by module; (module, imports, whether a method, body) by full name


def behind(code, at):
    """The place behind the brace that closes the one at a place."""
    depth = 0
    for place in range(at, len(code)):
        depth += {"{": 1, "}": -1}.get(code[place], 0)
        if depth == 0:
            return place + 1
    sys.exit(f"a brace is not closed: {code[at:at + 60]!r}")


def imported(module, code):
    """What each imported word stands for."""
    found = {}
    for text in IMPORT.findall(code):
        if VARIANTS.fullmatch(text.strip()):
            continue
        names = NAMES.fullmatch(text.strip())
        if not names:
            faults.append(f"{module}: an import in a form not read here: {text}")
            continue
        for item in filter(None, (item.strip() for item in (names[2] or names[3]).split(","))):
            name, _, renamed = (word.strip() for word in re.sub(r"\s+as\s+", " as ", item).partition(" as "))
            full = names[1].removesuffix("::") if name == "self" else names[1] + name
            found[renamed or full.split("::")[-1]] = full
    return found


def read(path):
    """Takes in the functions of a source."""
    crate, _, *inner = path.relative_to(root / "crates").with_suffix("").parts
    module = "::".join([crate] + [name for name in inner if name not in ("lib", "main", "mod")])
    code = UNREAD.sub(" ", path.read_text())
    while clause := CLAUSE.search(code):
        code = code[: clause.start()] + code[behind(code, clause.end() - 1) :]
    imports = imported(module, code)
    for head in re.finditer(r"\bfn (\w+)(?:<[^>]*>)?\(([^,)]*\bself\b)?", code):
        opened = code.index("{", head.end())
        full = f"{module}::{head[1]}"
        # methods of one name, of two types, are taken as one function that does what each does
        earlier = functions.get(full, (module, imports, False, ""))
        functions[full] = module, imports, earlier[2] or bool(head[2]), earlier[3] + code[opened : behind(code, opened)]
    codes[module] = code


def calls(caller):
    """The functions that a function calls. Of methods, all that have the name; a type's name in a path says nothing."""
    module, imports, _, body = functions[caller]
    for dot, path, name in CALL.findall(body):
        if dot:
            yield from (full for full, function in functions.items() if function[2] and full.endswith(f"::{name}"))
        elif path or name not in KEYWORDS:
            first, *rest = f"{path}{name}".split("::")
            if first in PRIMITIVES:
                continue
            full = "::".join(part for part in imports.get(first, first).split("::") + rest if not part[0].isupper())
            places = [f"{module}::{full}", f"{module.split('::')[0]}::{full.removeprefix('crate::')}", full]
            found = [place for place in places if place in functions]
            if not found:
                faults.append(f"{caller}: a call of {path}{name}, which is not found")
            yield from found[:1]


def walk(name, done, way=()):
    """The first cycle that is met from a function on; where there is none, all that is reached is done."""
    if name in way:
        return way[way.index(name) :] + (name,)
    for called in calls(name) if name not in done else ():
        if cycle := walk(called, done, way + (name,)):
            return cycle
    done.add(name)
    return ()


for path in sorted(root.glob("crates/*/src/**/*.rt")):
    read(path)
for crate in (FIRST, SECOND):
    if f"{crate}::read_addresses" not in functions:
        sys.exit(f"no function {crate}::read_addresses")
reached, recursion = set(), walk(f"{FIRST}::read_addresses", set())
if not recursion:
    faults.append("no cycle is found in the first reader: this test sees none")
for name in [name for name in functions if name.startswith(f"{SECOND}::")]:
    if cycle := walk(name, reached):
        faults.append(f"calls in a cycle: {' -> '.join(cycle)}")
        break
faults.extend(f"a function of the first reader is reached: {name}" for name in sorted(reached) if name.startswith(f"{FIRST}::"))
for module in [module for module in codes if module.split("::")[0] == SECOND]:
    named = re.findall(rf"\b{FIRST}::\w+|\buse {FIRST}\b|\bstatic\b|\bextern\b", codes[module])
    faults.extend(f"{module} may not have: {words}" for words in named)
for fault in faults:
    print(fault)
print(f"functions read: {len(functions)}; reached from the second reader: {len(reached)}")
print(f"cycle in the first reader: {' -> '.join(recursion)}")
sys.exit(1 if faults else 0)
