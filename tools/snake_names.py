#!/usr/bin/env python3
"""Brings the repository's own names in specs/, proofs/ and clauses to snake case.

usage: tools/snake_names.py [--check] [--table]

Run at the top, once, after the toolchain's own port script. `camelCase` of a definition, a lemma, a field or a variable becomes
`snake_case`. A dash in a lemma's name stays behind and before a function on lists that its left side calls, and between a type and a
name; elsewhere it becomes `_`.
A name that would fall together with another stays as it is and is listed. Edits under must-fail/ are turned by the same table.
--table prints the table, --check writes nothing.
"""
import os
import re
import sys

WORD = re.compile(r'[^\s(){}.;,@"«»]+')
CAMEL = re.compile(r"^[a-z][A-Za-z0-9'_-]*$")
DECLARED = re.compile(
    r"^ *(?:\| *)?(?:pub +)?(?:abbrev +|unfoldable +|data +|record +)*(?:pub +)?([^\s(){}.;,@\"«»:]+)(?: +[^:=]*)? :(?: |$)"
)
QUIET = re.compile(r'"(?:[^"\\\n]|\\.)*"|--[^\n]*|//[^\n]*')
# spellings that the rules do not give, and names whose namesakes stand in other scopes
BY_HAND = {
    "byteAbove127": "byte_above_127",
    "placeOf": "place_of",
    "tooDeep": "too_deep",
    "too-deep": "too_deep_lem",
    "atWords": "at_words",
    "at_words": "at_words_lem",
    "is-comment": "comment_is",
    "listCount": "list_count",
    "list_count": "list_count_lem",
    "list-count": "list_count_lem",
    "slotLevels": "slot_levels",
    "slot_levels": "slot_levels_lem",
    "slot-levels": "slot_levels_lem",
    "slotRecords": "slot_records",
    "slot_records": "slot_records_lem",
    "slot-records": "slot_records_lem",
    "ofVerdict": "of_verdict",
    "of_verdict": "of_verdict_lem",
    "of-verdict": "of_verdict_lem",
    "typedInTyped": "typed_in_typed",
    "typed_in_typed": "typed_in_typed_lem",
    "typed-in-typed": "typed_in_typed_lem",
    "typedKinds": "typed_kinds",
    "typed_kinds": "typed_kinds_lem",
    "typed-kinds": "typed_kinds_lem",
    "withNode": "with_node",
    "with_node": "with_node_lem",
    "with-node": "with_node_lem",
    "wordNext": "word_next",
    "word_next": "word_next_lem",
    "word-next": "word_next_lem",
}
# functions on lists, of which laws are named by their left side
LISTS = set("length take drop set sets append replicate map get_or reverse".split())


def files(root, endings):
    for folder, dirs, names in os.walk(os.path.join(root, "crates")):
        dirs[:] = sorted(d for d in dirs if d not in ("out", "target", ".git"))
        for n in sorted(names):
            if n.endswith(endings):
                yield os.path.join(folder, n)


def read(path):
    with open(path, encoding="utf-8") as f:
        return f.read()


def is_answer(path):
    """A function's own proof: its names are the toolchain's, and it is written anew."""
    return path.endswith(("/Proof.antt", "/Answers.antt", "/Invariants.antt"))


def snake(word):
    if word in BY_HAND:
        return BY_HAND[word]
    parts = word.split("-")
    turned = []
    for p in parts:
        if p[:1].islower():
            p = re.sub(r"(?<=[a-z0-9])([A-Z])", lambda m: "_" + m.group(1).lower(), p)
            p = re.sub(r"([A-Z])", lambda m: m.group(1).lower(), p) if not p.isupper() else p
        turned.append(p)
    return "-".join(turned)


def foreign(texts):
    """Names that files import from other libraries than the repository's crates."""
    own = set(os.listdir("crates"))
    names = set()
    for path, text in texts.items():
        lead = r"ghost " if path.endswith(".rt") else r"(?:pub )?(?:unfoldable )?(?:pub )?"
        for m in re.finditer(r"(?m)^\s*" + lead + r"use ([^\s{};]+?)\.?\{([^}]*)\}", text):
            head = m.group(1).split(".")
            if head[0] == "Rattle" and len(head) > 1 and head[1] in own:
                continue
            for item in m.group(2).split(","):
                names.add(item.strip().split(" as ")[0].strip())
    return names


def occurrences(texts):
    """For each word the files in which it stands by itself: in a .rt file what a clause imports, and parameters, locals and fields."""
    where = {}
    for path, text in texts.items():
        if path.endswith(".edit"):
            continue
        bare = QUIET.sub(" ", text)
        if path.endswith(".rt"):
            found = set()
            for m in re.finditer(r"ghost use [^{};]*\{([^}]*)\}", bare):
                found |= set(WORD.findall(m.group(1)))
            found |= set(re.findall(r"\b([a-z_][a-z0-9_]*)\s*:(?!:)", bare)) | set(re.findall(r"\blet (?:mut )?([a-z_][a-z0-9_]*)", bare))
        else:
            found = {m.group(0) for m in WORD.finditer(bare) if m.start() == 0 or bare[m.start() - 1] != "."}
            if is_answer(path):
                found = {w for w in found if True}
        for w in found:
            where.setdefault(w, set()).add(path)
    return where


def main(argv):
    texts = {p: read(p) for p in files(".", (".antt", ".rt", ".edit"))}
    outside = foreign(texts)
    words, declared, definitions = set(), set(), set()
    for path, text in texts.items():
        bare = QUIET.sub(" ", text)
        words |= set(WORD.findall(bare))
        if path.endswith(".antt") and not is_answer(path):
            for line in bare.splitlines():
                m = DECLARED.match(line)
                if m:
                    declared.add(m.group(1))
                    if "/specs/" in path:
                        definitions.add(m.group(1))
    where = occurrences(texts)
    names = {snake(d) for d in definitions} | LISTS
    table = {}
    # the definitions first, those of specs/ and what is in camel case: a law that would have a definition's name gets _lem
    definitions |= {d for d in declared if "-" not in d and re.search("[A-Z]", d[1:]) and d[:1].islower()}
    order = sorted(w for w in words if w in definitions and "-" not in w) + sorted(w for w in words if w not in definitions or "-" in w)
    behind = {}
    for w in order:
        if w in outside or not CAMEL.match(w) or w.endswith("'") and w[:1] == "b":
            continue
        new = snake(w)
        if w in BY_HAND:
            table[w] = new
            continue
        if "-" in w and w in declared:
            parts = new.split("-")
            out = parts[0]
            for a, b in zip(parts, parts[1:]):
                # a type and a name, or the outer call of a law's left side: `IsX-tail`, `length-plain_text`, `yield-append`
                joined = a[:1].isupper() or b[:1].isupper() or (a in LISTS and b in names) or (a in names and b in LISTS)
                out += ("-" if joined else "_") + b
            new = out
        if new == w:
            continue
        mine = where.get(w, set())
        clash = mine & where.get(new, set()) or mine & behind.get(new, set()) or new in outside
        if clash and w in definitions and new in declared and new not in definitions:
            table[new] = new + "_lem"
            behind.setdefault(new + "_lem", set()).update(where.get(new, set()))
            print(f"{new} becomes {new}_lem, for the definition {w}")
        elif clash and w in declared and (w not in definitions or "-" in w):
            print(f"{w} becomes {new}_lem")
            new += "_lem"
        elif clash:
            print(f"stays: {w} (not {new}): {sorted(clash)[:3] if clash is not True else 'outside'}")
            continue
        table[w] = new
        behind.setdefault(new, set()).update(mine)
    if "--table" in argv:
        for old, new in sorted(table.items()):
            print(f"{old}\t{new}")
    print(f"{len(table)} names turn")
    if "--check" in argv:
        return 0
    for path, text in texts.items():
        antt = path.endswith(".antt")

        def turn(m):
            new = table.get(m.group(0), m.group(0))
            # a lemma that is renamed for a definition has the name of a function's folder, or of a field
            if new == m.group(0) + "_lem" and (not antt or text[m.start() - 1 : m.start()] == "." or text[m.end() : m.end() + 1] == "."):
                return m.group(0)
            return new

        turned = WORD.sub(turn, text)
        if turned != text:
            with open(path, "w", encoding="utf-8") as f:
                f.write(turned)
    return 0


if __name__ == "__main__":
    sys.exit(main(sys.argv[1:]))
