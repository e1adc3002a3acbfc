#!/usr/bin/env python3
"""Both address readers of the library against document 01's address rules, and the first one, told edition 822, against
those of CR 11, all set down here as rules and tried one by one: every sequence of up to five symbols, by RFC 822 of up to
six, that no rule refuses before its last, and longer ones at random. A sequence is refused at its first symbol with which
no list goes on, or is no list at its end, or has exactly one derivation; the records are that derivation's. For one that
RFC 733 refuses, touching it names each symbol with which some list goes on there, and the end where a list ends there.
usage: tests/rules.py [SYMBOLS [WALKS [SEED]]]"""
import collections
import functools
import itertools
import pathlib
import random
import subprocess
import sys

root = pathlib.Path(__file__).resolve().parent.parent
sys.path.insert(0, str(root / "python"))
built = subprocess.run([root / "build-library"], capture_output=True, text=True)
if built.returncode != 0:
    sys.exit(f"build-library: exit {built.returncode}\n{built.stdout}{built.stderr}")
import rfc733  # noqa: E402

# starts: what random sequences start with; stops: how often one stops at a symbol that does not fit
Edition = collections.namedtuple("Edition", "number texts rules starts stops readers seen")
RFC733 = Edition(
    733,
    {"atom": b"a", "quoted": b'"q"', "at": b"At", "<": b"<", ">": b">", ",": b",", ";": b";", ":": b":", "stray": b")"},
    {
        "list": [[], ["address"], [",", "list"], ["address", ",", "list"]],
        "address": [["mailbox"], ["angle"], ["group"], ["quoted"], ["typed"]],
        "mailbox": [["phrase", "nodes"]],
        "nodes": [["at", "word"], ["at", "word", "nodes"]],
        "angle": [["<", "list", ">"], ["phrase", "<", "list", ">"]],
        "group": [[":", "list", ";"], ["phrase", ":", "list", ";"]],
        "typed": [[":", "atom", ":", "address"]],
        "phrase": [["word"], ["word", "phrase"]],
        "word": [["atom"], ["quoted"]],
    },
    [()],
    0.1,
    {"addresses": rfc733.addresses, "addresses_by_table": rfc733.addresses_by_table},
    {0: 0, 8: 0, 9: 0},
)
# an atom is "at" here, which is an ordinary one; a member is a mailbox of a group, an inner one that of a route-addr
RFC822 = Edition(
    822,
    {"atom": b"At", "quoted": b'"q"', "literal": b"[1]", "@": b"@", ".": b".", "stray": b"]"}
    | {mark: mark.encode() for mark in "<>,;:"},
    {
        "list": [[], ["address"], [",", "list"], ["address", ",", "list"]],
        "address": [["spec"], ["named"], ["group"]],
        "spec": [["local-part", "@", "domain"]],
        "named": [["phrase", "<", "inner", ">"], ["phrase", "<", "route", "inner", ">"]],
        "inner": [["spec"]],
        "route": [[",", "route"], ["@", "domain", "hops"]],
        "hops": [[":"], [",", "hops"], [",", "@", "domain", "hops"]],
        "local-part": [["word"], ["word", ".", "local-part"]],
        "domain": [["sub-domain"], ["sub-domain", ".", "domain"]],
        "sub-domain": [["atom"], ["literal"]],
        "group": [["phrase", ":", "members", ";"]],
        "members": [[], ["member"], [",", "members"], ["member", ",", "members"]],
        "member": [["spec"], ["named"]],
        "phrase": [["word"], ["word", "phrase"]],
        "word": [["atom"], ["quoted"]],
    },
    [(), ("atom", "<"), ("atom", ":", "quoted", "<"), ("quoted", "<", "@", "atom"), ("atom", "<", ",", "@", "literal", ":")],
    0.02,
    {"addresses": functools.partial(rfc733.addresses, edition=822)},
    {0: 0, 8: 0, 9: 0},
)
NAMELESS = RFC733.rules["group"][0]
ADDRESSES = ("address", "member", "inner")
KINDS = {"mailbox": 1, "angle": 2, "group": 3, "quoted": 4, "typed": 7, "spec": 1, "named": 2}
NAMES = {"atom": ["word"], "quoted": ["word"], "at": ["at", "@"]}


class Reading:
    """What the rules say of a sequence of symbols."""

    def __init__(self, edition, symbols):
        self.edition, self.symbols = edition, symbols
        self.trees = functools.lru_cache(None)(self.trees)
        self.goes_on = functools.lru_cache(None)(self.goes_on)

    def rules(self, name, i):
        """The rules of a name that may be used at a place: where an atom and ":" follow a ":", it opens no nameless group."""
        typed = list(self.symbols[i + 1 : i + 3]) == ["atom", ":"]
        return [rule for rule in self.edition.rules[name] if not (rule is NAMELESS and typed)]

    def trees(self, name, i):
        """Each derivation from a name that starts at symbol i: where it ends, and its parts."""
        if name not in self.edition.rules:
            return [(i + 1, (name, i, i + 1, ()))] if i < len(self.symbols) and self.symbols[i] == name else []
        return [(j, (name, i, j, parts)) for rule in self.rules(name, i) for j, parts in self.rows(rule, i)]

    def rows(self, rule, i):
        if not rule:
            return [(i, ())]
        return [(k, (tree,) + row) for j, tree in self.trees(rule[0], i) for k, row in self.rows(rule[1:], j)]

    def goes_on(self, name, i):
        """Whether what is left from symbol i on starts something that the name derives."""
        if name not in self.edition.rules:
            return i == len(self.symbols) or (i + 1 == len(self.symbols) and self.symbols[i] == name)
        return any(self.row_goes_on(rule, i) for rule in self.rules(name, i))

    def row_goes_on(self, rule, i):
        if i == len(self.symbols):
            return True
        return bool(rule) and (self.goes_on(rule[0], i) or any(self.row_goes_on(rule[1:], j) for j, _ in self.trees(rule[0], i)))

    def lists(self):
        return [tree for j, tree in self.trees("list", 0) if j == len(self.symbols)]


def spans(edition, symbols):
    """The text of a sequence, one SPACE between symbols, and where each symbol stands."""
    text, places = b"", []
    for symbol in symbols:
        start = len(text) + (1 if text else 0)
        text += (b" " if text else b"") + edition.texts[symbol]
        places.append((start, len(text)))
    return text, places


def records(tree, places, depth=0, parent=0, found=None):
    """The records of a derivation, an address before those in it."""
    found = [] if found is None else found
    name, i, j, parts = tree
    if name not in ADDRESSES:
        for part in parts:
            records(part, places, depth, parent, found)
        return found
    form = parts[0]
    inner = [form] if form[0] == "quoted" else [p for p in form[3] if p[0] in ("phrase", "atom", "local-part")]
    start, end = places[i][0], places[j - 1][1]
    named = (places[inner[0][1]][0], places[inner[0][2] - 1][1]) if inner else (start, start)
    found.append((KINDS[form[0]], depth, parent, start, end) + named)
    own = len(found)
    for part in form[3]:
        records(part, places, depth + 1, own, found)
    return found


named, faults = 0, []


def answer(read, text):
    """The records that a reader gives, or its refusal."""
    try:
        return [tuple(record) for record in read(text)]
    except rfc733.Refused as fault:
        return fault.number, fault.place


def compare(edition, symbols, wanted):
    text, _ = spans(edition, symbols)
    edition.seen[wanted[0] if isinstance(wanted, tuple) else 0] += 1
    for name, read in edition.readers.items():
        got = answer(read, text)
        if got != wanted:
            faults.append(f"{text!r}, edition {edition.number}: {name} gives {got}, the rules {wanted}")


def following(reading):
    """The symbols with which some list goes on behind a sequence, and "end" if it is one itself."""
    edition, symbols = reading.edition, reading.symbols
    follow = {symbol for symbol in edition.texts if Reading(edition, symbols + (symbol,)).goes_on("list", 0)}
    return follow | {"end"} if reading.lists() else follow


def compare_names(edition, symbols, follow):
    """What is named for a refused sequence, against what follows the part of it before the refused place."""
    global named
    if edition is not RFC733:
        return
    named += 1
    text, _ = spans(edition, symbols)
    wanted = {name for symbol in follow for name in NAMES.get(symbol, [symbol])}
    try:
        got = rfc733.touch(text, 0)
    except rfc733.Refused as fault:
        got = set(fault.expected)
    if got != wanted:
        faults.append(f"{text!r}: touch names {got}, the rules {wanted}")


def whole(reading, follow):
    """A sequence that a list starts with: it is one, or ends too soon."""
    edition, symbols = reading.edition, reading.symbols
    text, places = spans(edition, symbols)
    lists = reading.lists()
    if len(lists) > 1:
        faults.append(f"{text!r}, edition {edition.number}: {len(lists)} derivations")
    compare(edition, symbols, records(lists[0], places) if lists else (9, len(text)))
    if not lists:
        compare_names(edition, symbols, follow)


def refused(edition, symbols, tail, follow):
    """A sequence whose last symbol no list goes on with, whatever follows."""
    place = spans(edition, symbols)[1][-1][0]
    for longer in (symbols, symbols + tail):
        compare(edition, longer, (8, place))
        compare_names(edition, longer, follow)


def any_three(edition, rng):
    return tuple(rng.choices(list(edition.texts), k=3))


def every(edition, symbols, most, rng):
    reading = Reading(edition, symbols)
    follow = following(reading)
    whole(reading, follow)
    if len(symbols) == most:
        return
    for symbol in edition.texts:
        longer = symbols + (symbol,)
        if symbol in follow:
            every(edition, longer, most, rng)
        else:
            refused(edition, longer, any_three(edition, rng), follow)


def walk(edition, most, rng):
    symbols = rng.choice(edition.starts)
    while len(symbols) < most:
        longer = symbols + (rng.choice(list(edition.texts)),)
        if Reading(edition, longer).goes_on("list", 0):
            symbols = longer
        elif rng.random() < edition.stops:
            return refused(edition, longer, any_three(edition, rng), following(Reading(edition, symbols)))
    reading = Reading(edition, symbols)
    whole(reading, following(reading))
    shorter = (Reading(edition, symbols[:length]) for length in range(most - 1, 2, -1))
    for reading in itertools.islice((reading for reading in shorter if reading.lists()), 1):
        whole(reading, set())


most, walks, seed = (int(word) for word in (sys.argv[1:] + ["5", "1500", "733"][len(sys.argv) - 1 :]))
rng = random.Random(seed)
for edition in (RFC733, RFC822):
    every(edition, (), most if edition is RFC733 else most + 1, rng)
    for _ in range(walks):
        walk(edition, rng.randrange(6, 15), rng)
for fault in faults[:20]:
    print(fault)
for edition in (RFC733, RFC822):
    lists, by_8, by_9 = edition.seen.values()
    print(f"seed {seed}; edition {edition.number}, {len(edition.readers)} readers: lists {lists}, refused by 8 {by_8}, by 9 {by_9}")
print(f"names compared: {named}")
empty = not named or not all(RFC733.seen.values()) or not all(RFC822.seen.values())
sys.exit(1 if faults or empty else 0)
