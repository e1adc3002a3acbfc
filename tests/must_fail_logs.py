#!/usr/bin/env python3
"""Each must-fail edit changes code or definitions, and was refused because a fact fails, and not because a proof file no longer
fits the edited code. Reads what `rt ci` said of each edit, in the log that .ci/run keeps: the first error that is no more than a
name that is gone from a proof file. Where that is only that something is not proved, a proof file that does not fit may be behind
it: then the edit is made in a copy, over the libraries that `rt ci` left, and all is read that the check says of the function, or of
the crate where a law is refused with the block that it stands in. A goal is named by the conditions that lead to it; where the edit
only gives goals other names, the copy's proof file gets those too.
usage: tests/must_fail_logs.py [LOG]     LOG is what `rt ci` or `rt must-fail` printed, target/ci.log if not given"""
import concurrent.futures
import difflib
import os
import pathlib
import re
import shutil
import subprocess
import sys
import tempfile

root = pathlib.Path(__file__).resolve().parent.parent
log = pathlib.Path(sys.argv[1] if sys.argv[1:] else root / "target/ci.log")
# Signs that a proof file does not fit: the code does not compile; a name is not there, as that of a goal, a field, a constructor or
# a module; a proof by cases has no clause for one; or a loop of the code has no measure or invariant.
NAMES = r"that can be named from here|is not in scope|` is in scope|is not a constructor|is private|not admitted|module `[^`]*` not found"
PARTS = r"has no (field|member|child|constructor|implicit argument|implicit field called) [`#]|has no `|has no clause for|no clause covers"
UNFIT = re.compile(rf"error\[|: error: .*({NAMES}|{PARTS}|write the clause `)|: no proof: expected an? ")
# what is said of an edit; a place in the code; what only rt's own reading of the log tells
LINE = re.compile(r"rt: must-fail (\w+)/(\S+\.edit): (.*)")
PLACE = re.compile(r"note: (src/\S+\.rt):(\d+):\d+: it is not proved .*\(`([^`]+)`\)")
ERROR = re.compile(r"\S+:\d+:\d+: error: ")
# a law that is refused with the block of laws that it stands in
BLOCK = re.compile(r"\S+:\d+:\d+: error: `[^`]*` is not admitted: rejected$")
GONE = re.compile(r"(\S+)/\w+\.antt:\d+:\d+: error: .*\.Goals` has no `([a-z][^`]*)` that can be named from here")
REFUSED = "refused, as it must be"
BY_A_NAME, BY_A_LIMIT = f"{REFUSED} (only because a proof file names", f"{REFUSED} (only by a limit of the prover"
# a goal that is not proved, at values that break it
FALSE_AT = "); the facts known there"
FITS, UNFITTING, LOOK, LIMIT = "a fact fails", "the proof file does not fit", "look closer", "a limit of the prover"


def shows_a_fact(line):
    """Whether a line shows by itself that a fact fails."""
    return FALSE_AT in line or bool(ERROR.match(line)) and not UNFIT.search(line)


def judged(said):
    """What shows of an edit by what `rt ci` said of it."""
    if said.startswith(BY_A_LIMIT):
        return LIMIT
    if said.startswith(BY_A_NAME) or not said.startswith(f"{REFUSED}: "):
        return UNFITTING
    said = said.removeprefix(f"{REFUSED}: ")
    if BLOCK.match(said):
        return LOOK
    if UNFIT.search(said):
        return UNFITTING
    return FITS if shows_a_fact(said) else LOOK


def edited(edit):
    """The files of a crate that an edit changes, with their texts."""
    texts, path, old = {}, None, None
    for line in edit.read_text().split("\n"):
        if line.startswith("file: "):
            path = line.removeprefix("file: ").strip()
        elif line.startswith("old: "):
            old = line.removeprefix("old: ")
        elif line.startswith("new:"):
            before = texts.get(path) or (edit.parent.parent / path).read_text()
            texts[path] = before.replace(old, line.removeprefix("new:").removeprefix(" "))
    return texts


def function_at(path, text, number):
    """The function of a file that a line lies in, by its path below the crate, or nothing. A line of attributes is the next one's."""
    lines = text.split("\n")
    while lines[number - 1].lstrip().startswith("#["):
        number += 1
    heads = [head[1] for line in lines[:number] for head in re.finditer(r"\bfn (\w+)", line.partition("//")[0])]
    module = [part for part in pathlib.PurePath(path).with_suffix("").parts[1:] if part not in ("lib", "main", "mod")]
    return "::".join(module + heads[-1:]) if heads else None


def checked(crate, folder, name):
    """The exit status of the check of one function of a crate's copy, or of the whole of it, and its lines."""
    words = [root / "tools/over-libraries", crate, "check", "--jobs", "1", *(["--only", name] if name else [])]
    environment = {**os.environ, "FOLDER": folder}
    ran = subprocess.run(words, env=environment, stdout=subprocess.PIPE, stderr=subprocess.STDOUT, text=True, errors="replace")
    return ran.returncode, ran.stdout.splitlines()


def renamed(old, new):
    """The part of a goal's name in which it differs from another's, with the words beside it, in both."""
    olds, news = old.split("-"), new.split("-")
    same = [len(os.path.commonprefix(pair)) for pair in ((olds, news), (olds[::-1], news[::-1]))]
    first, last = max(same[0] - 1, 0), max(min(same[1], min(len(olds), len(news)) - same[0]) - 1, 0)
    return "-".join(olds[first : len(olds) - last]), "-".join(news[first : len(news) - last])


def fitted(folder, lines):
    """Gives the proof files of a copy the names that goals have now: whether any is changed."""
    gone = list(dict.fromkeys(GONE.match(line).groups() for line in lines if GONE.match(line)))
    asked = [line[3] for line in map(PLACE.match, lines) if line]
    if len(asked) > len(gone):
        return False  # a goal that had no answer before
    for proofs, old in gone:
        near = difflib.get_close_matches(old, asked, 1, 0)
        if not near:
            return False
        asked.remove(near[0])
        before, after = renamed(old, near[0])
        left, right = "-" if old.startswith(before) else "", "-" if old.endswith(before) else ""
        part = re.compile(rf"(?<![\w{left}]){re.escape(before)}(?![\w{right}])")
        for path in pathlib.Path(folder, proofs).glob("*.antt"):
            path.write_text(part.sub(after, path.read_text()))
    return bool(gone)


def looked_at(crate, edit, said):
    """What is wrong with an edit of whose refusal a look at the function that is not proved shows no failing fact, or nothing."""
    texts, place = edited(edit), PLACE.match(said.removeprefix(f"{REFUSED}: ") + "(`cut off`)")
    block = BLOCK.match(said.removeprefix(f"{REFUSED}: "))
    if not place and not block:
        return f"no place in the code is told: {said}"
    with tempfile.TemporaryDirectory() as folder:
        for part in ("src", "specs", "proofs"):
            if (root / "crates" / crate / part).is_dir():
                shutil.copytree(root / "crates" / crate / part, f"{folder}/{part}")
        for path, text in texts.items():
            pathlib.Path(folder, path).write_text(text)
        name = None if block else function_at(place[1], pathlib.Path(folder, place[1]).read_text(), int(place[2]))
        if not name and not block:
            return f"no function stands at {place[1]}:{place[2]}"
        for _ in range(3):
            status, lines = checked(crate, folder, name)
            if any(shows_a_fact(line) for line in lines):
                return None
            sign = next((line for line in lines if UNFIT.search(line)), None)
            if not sign and status == 1 and any(PLACE.match(line) for line in lines):
                return None
            if not sign or not fitted(folder, lines):
                break
    if sign:
        return f"{UNFITTING}, which shows nothing of the contract: {sign}"
    return f"a check of {name or crate} ends with status {status} and shows no failing fact: {' | '.join(lines[-3:])}"


# what a proof file says by names that follow from the code: a goal or the answer to it, and a path into what is known
NAMED = re.compile(r"(?<![\w.-])(?:goal\.[\w.-]+|c\.[\w.-]+|(?:returns|loop|bounds|overflow|slice_bounds|shape_of)\b[\w-]*|[\w-]+-requires[\w-]*)")


def touched(text):
    """What is wrong with the files that an edit changes: code or definitions, and of a proof file no more than the names that goals
    and what is known there have after it."""
    path, old, seen = None, None, False
    for line in text.split("\n"):
        if line.startswith("file: "):
            path = line.removeprefix("file: ").strip()
            seen = seen or path.startswith(("src/", "specs/"))
            if not path.startswith(("src/", "specs/", "proofs/")):
                yield f"changes neither code nor a definition: {path}"
        elif line.startswith("old:"):
            old = line.removeprefix("old:").strip()
        elif line.startswith("new:") and path and path.startswith("proofs/"):
            if NAMED.sub("_", old) != NAMED.sub("_", line.removeprefix("new:").strip()):
                yield f"changes more of {path} than names of goals: {old}"
    if not seen:
        yield "changes neither code nor a definition"


TRIALS = {
    FITS: """\
refused, as it must be: ./proofs/a/Answers.antt:1:2: error: `returns`: computed as far as they go, the two types differ only where one has `1`
refused, as it must be: ./proofs/a/Answers.antt:1:2: error: `returns`: `omega`: the goal does not follow from what it read. All of that holds
refused, as it must be: ./proofs/a/Answers.antt:1:2: error: `returns`: expected type `⊥`, but this has type `Unit {?ℓ0}`
refused, as it must be: note: src/names.rt:119:1: it is not proved that what the function ensures holds when it returns (`returns-in-Cc`); the facts known there al""",
    LOOK: """\
refused, as it must be: note: src/lib.rt:9:1: it is not proved that what the function ensures holds when it returns (`returns-then-x-lt5`)
refused, as it must be: ./proofs/Laws.antt:33:7: error: `list_is` is not admitted: rejected""",
    LIMIT: "refused, as it must be (only by a limit of the prover, which gave no verdict, so this says less of the contract: choose a change)",
    UNFITTING: """\
refused, as it must be (only because a proof file names what the edit took away, so this says little of the contract): ./proofs/a/Answers.antt:1:2
refused, as it must be: ./proofs/a/Answers.antt:1:2: error: `returns`: `goal.returns`: module `Rattle.a.proofs.b.Goals` has no `returns` that can be named from here
refused, as it must be: ./proofs/a/Answers.antt:1:2: error: `returns`: `c .before` has no field `match`; its type is `Context`
refused, as it must be: ./proofs/a/Answers.antt:1:2: error: `returns`: record `Read` has no field `keys1`
refused, as it must be: ./proofs/a/Answers.antt:1:2: error: `returns`: `x` is not in scope
refused, as it must be: ./proofs/a/Answers.antt:1:2: error: `returns`: no constructor `Found` is in scope
refused, as it must be: ./proofs/Laws.antt:1:2: error: `word-tree` has no clause for 1 case
refused, as it must be: src/lib.rt:12:5: error[mismatched-types]: expected `u8`, found `usize`
refused, as it must be
BAD EDIT: an 'old:' text is in src/classes.rt 0 times, and not once
NOT TRIED: its check was killed, most likely for memory
NOT REFUSED: the crate is still proved with this edit""",
}
wrong = [f"the signs are not told apart: {line}" for kind, lines in TRIALS.items() for line in lines.split("\n") if judged(line) != kind]
if not UNFIT.search("fn a::b: no proof: expected a measure in ./proofs/b/Invariants.antt"):
    wrong.append("the signs are not told apart: no measure")
if UNFIT.search("fn a::b: no proof: expected answers in ./proofs/b/Answers.antt; `search` did not prove `returns`"):
    wrong.append("the signs are not told apart: no proof file is needed but for what fails")
for old, new, parts in (
    ("returns-then-many-le-SOME", "returns-then-many-le-MORE", ("le-SOME", "le-MORE")),
    ("returns-then-i-lt-n-in-Ended", "returns-then-i-le-n-in-Ended", ("i-lt-n", "i-le-n")),
    ("returns-then-i-lt-n", "returns-then-i-lt-n-2", ("n", "n-2")),
):
    if renamed(old, new) != parts:
        wrong.append(f"{old} is not turned to {new}: {renamed(old, new)}")
code, names = "file: src/lib.rt\nold: a < b\nnew: a <= b\n", "file: proofs/f/Answers.antt\nold: returns-then-a-b c = c.if-a-b.true\n"
for text, faults in (
    (code, 0),
    (code + names + "new: returns-then-a-le-b c = c.if-a-le-b.true\n", 0),
    (code + names + "new: returns-then-a-b c = refl\n", 1),
    (names + "new: returns-then-a-le-b c = c.if-a-le-b.true\n", 1),
    ("file: stdout\nold: 1\nnew: 2\n", 2),
):
    if len(list(touched(text))) != faults:
        wrong.append(f"what an edit changes is not told apart: {text!r}")
if not log.is_file():
    sys.exit(f"no {log}: run .ci/run first, or give what `rt ci` printed")
said = {(line[1], line[2]): line[3] for line in map(LINE.match, log.read_text(errors="replace").splitlines()) if line}
looks, limits, seen = {}, 0, 0
for edit in sorted(root.glob("crates/*/must-fail/*.edit")):
    crate, name = edit.parent.parent.name, edit.relative_to(root)
    for fault in touched(edit.read_text()):
        wrong.append(f"{name}: {fault}")
    words = said.get((crate, edit.name))
    if words is None:
        wrong.append(f"{name}: nothing is said of it: run 'rt ci' first")
        continue
    seen += 1
    kind = judged(words)
    if kind == LOOK:
        looks[edit] = crate, words
    elif kind == LIMIT:
        limits += 1
        print(f"{name}: {words}")
    elif kind == UNFITTING:
        wrong.append(f"{name}: shows nothing of the contract: {words}")
if looks and any(root.glob("crates/*/out/rlib/stamp")):
    # libraries of other commands of rt stand there: those below each crate are brought up to date
    for crate in sorted({crate for crate, _ in looks.values()}):
        subprocess.run(["rt", "check", "--only", ""], cwd=root / "crates" / crate, stdout=subprocess.DEVNULL, stderr=subprocess.DEVNULL)
with concurrent.futures.ThreadPoolExecutor(int(os.environ.get("JOBS", 0)) or len(os.sched_getaffinity(0))) as pool:
    found = pool.map(lambda edit: looked_at(looks[edit][0], edit, looks[edit][1]), looks)
    wrong += [f"{edit.relative_to(root)}: {fault[:400]}" for edit, fault in zip(looks, found) if fault]
for fault in wrong:
    print(fault)
print(f"must-fail edits read: {seen}; looked at closer: {len(looks)}; refused only by a limit: {limits}")
sys.exit(1 if wrong or not seen else 0)
