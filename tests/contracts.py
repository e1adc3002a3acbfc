#!/usr/bin/env python3
"""What the functions promise, told from the sources.
- tests/contracts.txt has a line for each clause of each function that other modules can call, with the definitions that the
  clause cites. Sources and table are compared both ways.
- No function that other crates can call has a `requires`. One that other modules can call has an `ensures`.
- No `ensures` has an equation with the same on both sides, and each speaks of the result or of something at exit.
- No function of any visibility is longer than 40 lines, its contract apart.
- Both address readers have the same contract, word for word.
Every rule is also tried on sources changed in memory: it must find each change.
`tests/contracts.py --print` prints the table as the sources have it: read it before it replaces the table."""
import collections
import pathlib
import re
import sys

LIMIT, TABLE = 40, "tests/contracts.txt"
READERS = "addresses::read_addresses", "engine::read_addresses"
ABOVE = """\
# FUNCTION CLAUSE DEFINITION..: each clause of each function that other modules can call, and the definitions that it cites, as
# CRATE.FOLDER.FILE.NAME, in the order of its text."""
# comments, texts and bytes; a function up to its name; a type's block; what stands before the brace of a clause
UNREAD = re.compile(r"""//[^\n]*|/\*.*?\*/|b?r(#*)".*?"\1|b?"(?:\\.|[^"\\])*"|b?'(?:\\[^\n']*.|[^'\\\n])'""", re.DOTALL)
HEAD = re.compile(r"(?:\b(pub(?:\([^)]*\))?)\s+)?(?:(?:const|unsafe|(extern))\s+)*\bfn\s+(\w+)")
BLOCK = re.compile(r"\bimpl\b[^{;]*?(\w+)\s*(?:<[^>{]*>\s*)?\{")
CLAUSE = re.compile(r"\b(ghost|requires|ensures)\b(\*?)\s*(\w*)\s*$")
# an import; its module and names; the crate, folder and file of a module
IMPORT = re.compile(r"\bghost use\s+([^;]*);")
NAMES = re.compile(r"(\S+)\.\{([^}]*)\}\s*")
MODULE = re.compile(r"Rattle\.(\w+)\.(?:specs|(proofs))\.(\S+)")
# a word of a clause; what a λ binds; what is not read in a clause: comments, texts and definitions by their whole paths
WORD = re.compile(r"[()\[\]{}⌜⌝⟦⟧,;]|[^\s()\[\]{}⌜⌝⟦⟧,;]+")
BINDER = re.compile(r"λ([^.]*)\.")
BEYOND = re.compile(r"--|//|/\*|\"|Rattle\.")
# the result or one of its fields; something at exit
GIVEN = re.compile(r"result(\.\w+)*|\w+\.new(\.\w+)*")
OPENING, CLOSING, BETWEEN = "([{⌜⟦", ")]}⌝⟧", ("×", "→", "⊎", "∗", ",", ";")

Clause = collections.namedtuple("Clause", "label text cited start end")
Function = collections.namedtuple("Function", "full place public listed clauses lines body imports")
root = pathlib.Path(__file__).resolve().parent.parent
crates = {path.name for path in (root / "crates").iterdir()}


def behind(code, at):
    """The place behind the brace that closes the one at a place."""
    depth = 0
    for brace in re.finditer("[{}]", code[at:]):
        depth += 1 if brace[0] == "{" else -1
        if depth == 0:
            return at + brace.end()
    sys.exit(f"a brace is not closed: {code[at:at + 60]!r}")


def imported(path, code):
    """The definitions that a source imports from the crates here, by the word for each; the word of an operator is without its `◌`."""
    found = {}
    for text in IMPORT.findall(code):
        names = NAMES.fullmatch(text) or sys.exit(f"{path}: an import in a form not read here: {text}")
        module = MODULE.fullmatch(names[1])
        if module and module[1] in crates:
            for name, _, renamed in (item.strip().partition(" as ") for item in names[2].split(",")):
                full = ".".join(filter(None, (*module.groups(), name)))
                found.update((word, full) for word in (renamed or name).split("◌") if word)
        elif names[1].split(".")[0] == "Rattle" and names[1].split(".")[1] in crates:
            sys.exit(f"{path}: a module in a form not read here: {names[1]}")
    return found


def read(path, source):
    """The functions of a source."""
    crate, _, *inner = path.with_suffix("").parts[1:]
    module = [crate] + [name for name in inner if name not in ("lib", "main", "mod")]
    code = UNREAD.sub(lambda text: re.sub(r"[^\n]", " ", text[0]), source)
    imports = imported(path, code)
    blocks = [(block[1], block.start(), behind(code, block.end() - 1)) for block in BLOCK.finditer(code)]
    for head in HEAD.finditer(code):
        at, opened = head.end(), []
        while clause := CLAUSE.search(code, at, code.index("{", at)):
            at = behind(code, clause.end())
            opened.append((clause, at))
        body = code.index("{", at)
        signature = code[head.end() : opened[0][0].start() if opened else body]
        clauses, apart, at = [], "", head.start()
        for clause, end in opened:
            text = source[clause.end() + 1 : end - 1].strip()
            hidden = ["result"] + re.findall(r"(\w+)\s*:", signature) + WORD.findall(" ".join(BINDER.findall(text)))
            cited = dict.fromkeys(imports[word] for word in WORD.findall(text) if word in imports and word not in hidden)
            label = f"{clause[1]}{clause[2]}:{clause[3] or 'unnamed'}"
            clauses.append(Clause(label, text, list(cited), clause.start(), end))
            apart, at = apart + code[at : clause.start()].rstrip(), end
        yield Function(
            full="::".join(module + [name for name, start, end in blocks if start < head.start() < end] + [head[3]]),
            place=f"{path}:{source.count(chr(10), 0, head.start()) + 1}: fn {head[3]}",
            public=head[1] == "pub" or bool(head[2]),
            listed=bool(head[1] or head[2]),
            clauses=clauses,
            lines=(apart + code[at : behind(code, body)]).count("\n") + 1,
            body=body,
            imports=imports,
        )


def tree(words):
    """Words with each bracketed part as a list; brackets around a single thing are dropped."""
    parts = [[]]
    for word in words:
        if word in OPENING:
            parts.append([])
        elif word in CLOSING and len(parts) > 1:
            part = parts.pop()
            parts[-1].append(part[0] if len(part) == 1 else part)
        else:
            parts[-1].append(word)
    return parts[0]


def equations(part):
    """Both sides of each equation of a clause."""
    piece = []
    for item in part + [","]:
        if isinstance(item, list):
            yield from equations(item)
        if item not in BETWEEN and not str(item).endswith("."):
            piece.append(item)
        else:
            if "≡" in piece:
                sides = piece[: piece.index("≡")], piece[piece.index("≡") + 1 :]
                yield [side[0] if len(side) == 1 else side for side in sides]
            piece = []


def empty(clause):
    """What shows that an `ensures` says nothing, where something does."""
    words = WORD.findall(clause.text)
    if "◌≡◌" in words:
        return "an equation in a form not read here"
    if any(left == right for left, right in equations(tree(words))):
        return "an equation has the same on both sides"
    if not any(GIVEN.fullmatch(word) for word in words):
        return "it speaks neither of the result nor of anything at exit"


def rows(function):
    """The table's rows for a function: the label of each clause, and the definitions that it cites."""
    return [(clause.label, " ".join(clause.cited)) for clause in function.clauses] or [("none", "")]


def by_label(rows):
    """The definitions cited under each label; clauses without a name share theirs."""
    return {label: "; ".join(cited for other, cited in rows if other == label) for label, _ in rows}


def alone(function):
    """What is wrong with a function by itself."""
    kinds = [re.match(r"\w+", clause.label)[0] for clause in function.clauses]
    if function.lines > LIMIT:
        yield f"longer than {LIMIT} lines: {function.lines}"
    if function.listed and "ensures" not in kinds:
        yield "it has no `ensures`"
    for clause, kind in zip(function.clauses, kinds):
        if function.public and kind != "ensures":
            yield f"a public function with a `{kind}`"
        if kind == "ensures" and (reason := empty(clause)):
            yield f"`{clause.label}` says nothing: {reason}"
        if beyond := BEYOND.search(clause.text):
            yield f"`{clause.label}` has {beyond[0]} in it, which is not read here"


def beside(function, wanted):
    """What differs between a function and its rows in the table."""
    here, there = by_label(rows(function)), by_label(wanted)
    if not there:
        yield f"{function.full} is not in the table"
    for label in [*there, *(label for label in here if there and label not in there)]:
        if label not in here:
            yield f"the table has `{label}`, the source has not"
        elif label not in there:
            yield f"`{label}` is not in the table"
        elif here[label] != there[label]:
            yield f"`{label}` cites {here[label] or 'nothing'}, in the table {there[label] or 'nothing'}"


def faults(functions, table):
    """All that is wrong with functions and their table."""
    listed = {function.full: function for function in functions if function.listed}
    found = [f"{function.place}: {words}" for function in functions for words in alone(function)]
    found += [f"{function.place}: {words}" for name, function in listed.items() for words in beside(function, table.get(name, []))]
    return found + [f"{TABLE}: {name}: no function that other modules can call" for name in table if name not in listed]


def changes(function, source):
    """The source with this function made worse in each way, and how the fault begins that must be found."""
    before, after = source[: function.body], source[function.body :]
    yield before + "{" + "\n" * LIMIT + after[1:], "longer than"
    if function.public:
        yield before + "requires { 0 ≤ 1 }\n" + after, "a public function with a `requires`"
    labels = [clause.label for clause in function.clauses]
    for clause in function.clauses if function.listed else []:
        before, text, after = source[: clause.start], source[clause.start : clause.end], source[clause.end :]
        yield before + after, f"the table has `{clause.label}`" if labels.count(clause.label) == 1 else f"`{clause.label}` cites"
        before, text = before + text[: text.index("{")], text[text.index("{") :]
        if clause.label.startswith("ensures"):
            nothing = f"`{clause.label}` says nothing: "
            yield before + "{ result ≡ result }" + after, nothing + "an equation has the same"
            yield before + "{ (0 ≤ result) × ((result) ≡ result) }" + after, nothing + "an equation has the same"
            yield before + "{ ◌≡◌ result 0 }" + after, nothing + "an equation in a form"
            yield before + "{ 0 ≤ 1 }" + after, nothing + "it speaks neither"
            yield before + "{ table.old ≡ table.now }" + after, nothing + "it speaks neither"
            yield before + "{ result ≡ Rattle.octets.specs.Believed.Text.bytes }" + after, f"`{clause.label}` has Rattle."
            yield before + text[:-1] + "-- }\n ⊎ (0 ≤ 1) }" + after, f"`{clause.label}` has --"
        for word in [word for word in WORD.findall(text) if function.imports.get(word) in clause.cited][:1]:
            other = next((other for other, full in function.imports.items() if full not in clause.cited), "length")
            yield before + re.sub(rf"(?<![^\s(]){re.escape(word)}(?![^\s)])", other, text) + after, f"`{clause.label}` cites"


order = re.findall(r"^(\w+):", (root / "crates.txt").read_text(), re.MULTILINE)
paths = [path.relative_to(root) for path in root.glob("crates/*/src/**/*.rt")]
paths.sort(key=lambda path: ((order + [path.parts[1]]).index(path.parts[1]), path))
sources = {path: (root / path).read_text() for path in paths}
functions = {path: list(read(path, source)) for path, source in sources.items()}
every = [function for path in paths for function in functions[path]]
if sys.argv[1:] == ["--print"]:
    print(ABOVE)
    print(*(" ".join((function.full, *row)).strip() for function in every if function.listed for row in rows(function)), sep="\n")
    sys.exit()

table = {}
for line in (root / TABLE).read_text().splitlines():
    if line and not line.startswith("#"):
        name, label, cited = (line + "  ").split(" ", 2)
        table.setdefault(name, []).append((label, cited.strip()))
wrong = faults(every, table)
names = [function.full for function in every]
wrong += [f"two functions of one name: {name}" for name in sorted(set(names)) if names.count(name) > 1]
contracts = [[clause[:2] for function in every if function.full == name for clause in function.clauses] for name in READERS]
if not contracts[0] == contracts[1] != []:
    wrong.append("the two address readers differ in their contracts")

# what is found where sources or table are made worse, and what must be among it
trials = [(faults(every, {}), "is not in the table"), (faults(every, {**table, "none": [("ensures:unnamed", "")]}), "none: no function")]
for path, source in sources.items():
    mine = {function.full: rows(function) for function in functions[path] if function.listed}
    for function in functions[path]:
        for changed, words in changes(function, source):
            trials.append((faults(list(read(path, changed)), mine), f"{function.place}: {words}"))
wrong += [f"not found by this test: {words}" for found, words in trials if not any(words in fault for fault in found)]
for fault in wrong:
    print(fault)
print(f"functions read: {len(every)}; in the table: {len(table)}; changes tried: {len(trials)}")
sys.exit(1 if wrong or not every else 0)
