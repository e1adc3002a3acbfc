#!/usr/bin/env python3
"""The libraries for other languages: built, called from C and from Python. Expectations are the examples of document 01
and those of the change requests."""
import ctypes
import mmap
import pathlib
import re
import subprocess
import sys
import tempfile

root = pathlib.Path(__file__).resolve().parent.parent
sys.path.insert(0, str(root / "python"))
built = subprocess.run([root / "build-library"], capture_output=True, text=True)
if built.returncode != 0:
    sys.exit(f"build-library: exit {built.returncode}\n{built.stdout}{built.stderr}")
import rfc733  # noqa: E402

faults, seen = [], 0


def same(name, got, wanted):
    global seen
    seen += 1
    if got != wanted:
        faults.append(f"{name}: got {got!r}, wanted {wanted!r}")


def refused(name, call, number, place):
    try:
        got = call()
    except rfc733.Refused as fault:
        got = (fault.number, fault.place)
    same(name, got, (number, place))


# what is exported: the functions of the header and no other, so that no step between crates can be called from outside
declared = sorted(set(re.findall(r"\b(rfc733_\w+)\(", (root / "include" / "rfc733.h").read_text())))
for library, dynamic in (("librfc733.so", ["-D"]), ("librfc733.a", [])):
    exported = subprocess.run(["nm", *dynamic, "-g", "--defined-only", root / "target" / "lib" / library], capture_output=True, text=True)
    same(f"{library}, what is exported", sorted(re.findall(r"^[0-9a-f]+ \w (\w+)$", exported.stdout, re.MULTILINE)), declared)

for read in (rfc733.addresses, rfc733.addresses_by_table):
    by = read.__name__
    same(f"{by}, empty", read(b""), [])
    same(f"{by}, commas", read(b",,"), [])
    same(f"{by}, mailbox", read(b"Neuman@BBN-TENEXA"), [(1, 0, 0, 0, 17, 0, 6)])
    same(f"{by}, quoted", read(b'"x"'), [(4, 0, 0, 0, 3, 0, 3)])
    same(f"{by}, groups", read(b":,A:;;"), [(3, 0, 0, 0, 6, 0, 0), (3, 1, 1, 2, 5, 2, 3)])
    refused(f"{by}, x", lambda: read(b"x"), 9, 1)
    refused(f"{by}, a at b c", lambda: read(b"a at b c"), 8, 7)
    refused(f"{by}, :A:;;", lambda: read(b":A:;;"), 8, 3)
    refused(f"{by}, two types", lambda: read(b":A: :B: x at H;;"), 8, 14)
    refused(f"{by}, open angle list", lambda: read(b"<a at b"), 9, 7)
    refused(f"{by}, open quote", lambda: read(b'"ab'), 5, 0)
    refused(f"{by}, open comment", lambda: read(b"("), 6, 0)
    refused(f"{by}, too long", lambda: read(b" " * 32769), 1, 32768)
    same(f"{by}, 64 levels", read(b"<" * 64 + b">" * 64), [(2, i, i, i, 128 - i, i, i) for i in range(64)])
    refused(f"{by}, 65 levels", lambda: read(b"<" * 65 + b">" * 65), 10, 64)
    # the 64th level is a typed address: its second colon opens none
    angles = [(2, i, i, i, 132 - i, i, i) for i in range(63)]
    typed = [(7, 63, 63, 63, 69, 64, 65), (4, 64, 64, 66, 69, 66, 69)]
    same(f"{by}, 64th level typed", read(b"<" * 63 + b':A:"q"' + b">" * 63), angles + typed)
    refused(f"{by}, 65th level typed", lambda: read(b"<" * 64 + b':A:"q"' + b">" * 64), 10, 64)
    refused(f"{by}, 64 levels and a colon that fits nowhere", lambda: read(b"<" * 64 + b"x at y :"), 8, 71)
same("EST", rfc733.date(b"Monday, 21 Nov 77 1430-EST"), 2457977400)
same("+0100", rfc733.date(b"1 Jan 1900 0000 +0100"), -3600)
same("A", rfc733.date(b"1 Jan 1900 0000 A"), 3600)
refused("wrong day", lambda: rfc733.date(b"Tue, 21 Nov 77 1430-EST"), 14, 0)
refused("zone J", lambda: rfc733.date(b"1 Jan 1900 0000 J"), 12, 0)
same("fields", rfc733.fields(b"To: Al at X\r\n"), [(0, 2, 3, 11)])
refused("no CRLF", lambda: rfc733.fields(b"To"), 4, 2)
same("plain", rfc733.plain(b"a@b,,x<c @ d>"), b"a at b, x <c at d>")
same("plain group", rfc733.plain(b":,A:;,B:;;"), b":, A:;, B:;;")
refused("plain of no list", lambda: rfc733.plain(b"<a at b"), 9, 7)
# a quoted line end is kept, and what is written reads back the same; other folds are dropped
for body, text in (
    (b'"a\\\r\n b"', b'"a\\\r\\\n b"'),
    (b'x@"\\\r\n\t"', b'x at "\\\r\\\n\t"'),
    (b'"a\\\\\r\n b"', b'"a\\\\ b"'),
    (b'(\\\r\n )"a\r\n b"', b'"a b"'),
):
    same(f"plain of {body!r}", rfc733.plain(body), text)
    same(f"plain of {text!r}", rfc733.plain(text), text)
refused("white byte outside", lambda: rfc733.plain(b'x@"a\\\r\n'), 5, 2)
equal = rfc733.same_addresses
same("at and @", equal(b"a@b", b"a AT (x) b,"), True)
same("quoted word", equal(b"a@b", b'"a"@b'), False)
same("case of a name", equal(b"A@b", b"a@b"), False)
same("backslash", equal(b'"\\a"@b', b'"a"@b'), True)
same("fold in quotes", equal(b'"a\r\n b"', b'"a b"'), True)
same("line end in quotes", equal(b'"a\\\r\n b"', b'"a\\\r\\\n b"'), True)
same("line end and fold in quotes", equal(b'"a\\\r\n b"', b'"a\r\n b"'), False)
same("one node more", equal(b"a@b@c", b"a@b"), False)
same("angle list and group", equal(b"<a@b>", b":a@b;"), False)
same("case of a type", equal(b':Include:"x"', b':INCLUDE:"x"'), False)
same("words cut otherwise", equal(b"a b@c", b"ab@c"), False)
same("other order", equal(b"a@b,c@d", b"c@d,a@b"), False)
same("other nesting", equal(b"<a@b,c@d>", b"<a@b>,c@d"), False)
same("no addresses", equal(b"", b",(c),"), True)
refused("neither is a list", lambda: equal(b"x", b"x"), 9, 1)
refused("the first is no list", lambda: equal(b"a at b c", b"a@b"), 8, 7)
refused("the second is no list", lambda: equal(b"a@b", b"<a at b"), 9, 7)
refused("the first is asked first", lambda: equal(b"(", b"a at b c"), 6, 0)
for body, length in (
    (b"", 0), (b",,(c)", 0), (b"a@b", 6), (b"a AT (home) b,", 6), (b"a@b,,x<c @ d>", 18), (b":,A:;,B:;;", 12), (b'""', 2),
    (b'"a\r\n b"', 5), (b'"a\\\r\n b"', 9), (b"<" * 64 + b">" * 64, 128), (b'"",' * 10922, 43686),
):
    same(f"plain_length({body[:40]!r})", rfc733.plain_length(body), length)
    same(f"length of plain({body[:40]!r})", len(rfc733.plain(body)), length)
for body, number, place in (
    (b"x", 9, 1), (b"a at b c", 8, 7), (b"<" * 65, 10, 64), (b'a@b,"', 5, 4), (b"(", 6, 0), (b"a\n", 7, 1), (b"\x80", 3, 0),
    (b"," * 32769, 1, 32768),
):
    refused(f"plain_length({body[:40]!r})", lambda: rfc733.plain_length(body), number, place)
UNTOUCHED = 2**64 - 777  # so that a number stored in fewer bits is seen
THINGS = {"word": 1, "at": 2, "<": 4, ">": 8, "@": 16, ",": 32, ";": 64, ":": 128, "end": 256}


def c_touch(message, place, start=0, end=None, path_length=3, told_length=5):
    """All numbers told by the C function, and all of the path; beforehand each is UNTOUCHED."""
    end = len(message) if end is None else end
    path = (ctypes.c_uint64 * (path_length + 1))(*[UNTOUCHED] * (path_length + 1))
    told = (ctypes.c_uint64 * 7)(*[UNTOUCHED] * 7)
    lent = ctypes.create_string_buffer(message, len(message) + 1)
    sizes = [ctypes.c_size_t(size) for size in (len(message), start, end, place)]
    rfc733._load().rfc733_touch(lent, *sizes, path, ctypes.c_size_t(path_length), told, ctypes.c_size_t(told_length))
    return list(told), list(path)


def all_told(*numbers):
    return list(numbers) + [UNTOUCHED] * (7 - len(numbers))


def names(body, number, place, expected):
    """What could have stood where a body is refused, wherever it is touched."""
    for touched in (0, len(body), 99):
        told = all_told(number, place, 0, 0, sum(THINGS[thing] for thing in expected.split()))
        same(f"names of {body!r} touched at {touched}", c_touch(body, touched), (told, [UNTOUCHED] * 4))
        try:
            got = rfc733.touch(body, touched)
        except rfc733.Refused as fault:
            got = (fault.number, fault.place, set(fault.expected))
        same(f"touch({body!r}, {touched})", got, (number, place, set(expected.split())))


names(b"a at b c", 8, 7, ", @ at end")
names(b":A:;;", 8, 3, "word < :")
names(b":A", 9, 2, "word at @ < :")
names(b"<" * 63 + b":A;", 8, 65, "word at @ :")
names(b"<" * 63 + b':"A":', 10, 67, ", ; @ at word")
names(b"<" * 65, 10, 64, ", > word")
names(b"a at at", 8, 5, "word")
names(b")", 8, 0, ", : < end word")
names(b"x", 9, 1, "word at @ < :")
for body, number, place in ((b'a b "', 5, 4), (b") (", 6, 2), (b")\n", 7, 1), (b"a \x80", 3, 2), (b" " * 32769, 1, 32768)):
    names(body, number, place, "")


def byte(body, place, number, what, path):
    """What a byte of an accepted body is, and the records around it."""
    lent = (path + [UNTOUCHED] * 4)[:4]
    same(f"byte {place} of {body!r}", c_touch(body, place), (all_told(0, 0, len(path), number, 0), lent))
    same(f"touch({body!r}, {place})", rfc733.touch(body, place), (what, path))


byte(b"g:<a@b>,;", 4, 5, "mark", [2, 1, 0])
byte(b"g:<a@b>,;", 7, 5, "mark", [0])
byte(b'(x) "q"', 0, 2, "comment", [])
byte(b'(x) "q"', 3, 1, "white space", [])
byte(b'(x) "q"', 4, 3, "word", [0])
byte(b"x AT\r\n y", 2, 4, "at", [0])
byte(b"x AT\r\n y", 4, 1, "white space", [0])
byte(b'"at"@b', 1, 3, "word", [0])
byte(b'"a\r\n b"', 2, 3, "word", [0])
byte(b"(a\r\n b)", 2, 2, "comment", [])
byte(b':Include:"x"', 3, 3, "word", [0])
byte(b':Include:"x"', 8, 5, "mark", [0])
byte(b':Include:"x"', 10, 3, "word", [1, 0])

many, nothing = b'"",' * 2049, [UNTOUCHED] * 4
same("more records than the tool's table", c_touch(many, 10**6), (all_told(11, 0, 2049, 0, 0), nothing))
refused("more records than the tool's table", lambda: rfc733.touch(many, 10**6), 11, 0)
same("as many records as the tool's table", rfc733.touch(many[3:], 6142), ("word", [2047]))
for name, body, place in (("at the end", b"a@b", 3), ("far outside", b"a@b", 2**64 - 1), ("empty body", b"", 0)):
    same(name, c_touch(body, place), (all_told(13, 0, 0, 0, 0), nothing))
    refused(f"touch, {name}", lambda: rfc733.touch(body, place), 13, 0)
refused("touch, before the start", lambda: rfc733.touch(b"a@b", -1), 13, 0)
refused("touch, beyond 64 bits", lambda: rfc733.touch(b"a@b", 2**64), 13, 0)
nested = b'<<"q">>'
same("part of a message", c_touch(nested, 3, 1, 6), (all_told(0, 0, 2, 3, 0), [1, 0] + nothing[2:]))
same("before the part", c_touch(nested, 0, 1, 6), (all_told(13, 0, 0, 0, 0), nothing))
same("behind the part", c_touch(nested, 6, 1, 6), (all_told(13, 0, 0, 0, 0), nothing))
same("out of order", c_touch(nested, 1, 2, 1), (all_told(13, 0, 0, 0, 0), nothing))
same("behind the message", c_touch(nested, 1, 0, 8), (all_told(13, 0, 0, 0, 0), nothing))
for length in range(6):
    path = ([2, 1, 0][:length] + [UNTOUCHED] * 6)[: length + 1]
    same(f"path of {length}", c_touch(nested, 3, path_length=length), (all_told(0, 0, 3, 3, 0), path))
for length in range(7):
    told = all_told(*[0, 0, 3, 3, 0][:length])
    same(f"{length} numbers told", c_touch(nested, 3, told_length=length), (told, [2, 1, 0, UNTOUCHED]))
    told = all_told(*[8, 5, 0, 0, 1][:length])
    same(f"{length} numbers told, refused", c_touch(b"a at at", 3, told_length=length), (told, nothing))
same("longest path", rfc733.touch(b"<" * 64 + b'"q"' + b">" * 64, 65), ("word", list(range(64, -1, -1))))
SYMBOLS = (None, "atom", "quoted", "at", "<", ">", ",", ";", ":", "other")


def c_next(message, at, end=None, told_length=7):
    """All numbers told by the C function, and whether the message stayed; beforehand each number is UNTOUCHED."""
    end = len(message) if end is None else end
    told = (ctypes.c_uint64 * 9)(*[UNTOUCHED] * 9)
    lent = ctypes.create_string_buffer(message, len(message) + 1)
    sizes = [ctypes.c_size_t(size) for size in (len(message), at, end)]
    rfc733._load().rfc733_next_symbol(lent, *sizes, told, ctypes.c_size_t(told_length))
    return list(told), lent.raw == message + b"\0"


def told_next(*numbers):
    return list(numbers) + [UNTOUCHED] * (9 - len(numbers)), True


def steps(body):
    """The symbols in Python, and the fault after them."""
    got = []
    try:
        for symbol in rfc733.symbols(body):
            got.append(symbol)
    except rfc733.Refused as fault:
        return got, (fault.number, fault.place)
    return got, (0, 0)


def scanned(message, *lines, fault=(0, 0), start=0, end=None):
    """The symbols of a body, each as the C example prints it, and the fault after them: by C from the end of the one before,
    and from its own start, before which nothing is looked at; of a whole message in Python and by the example too."""
    name, at, wanted = repr(message[:40]), start, []
    for line in lines:
        kind, first, last, length, *apart = line.split()
        symbol = kind, int(first), int(last), int(length), apart == ["apart"]
        numbers = SYMBOLS.index(kind), *symbol[1:4]
        same(f"symbol of {name} from {at} on", c_next(message, at, end), told_next(0, 0, *numbers, int(symbol[4])))
        same(f"symbol of {name} at {first}", c_next(message, symbol[1], end), told_next(0, 0, *numbers, 0))
        wanted.append(symbol)
        at = symbol[2]
    same(f"behind the symbols of {name}", c_next(message, at, end), told_next(*fault, 0, 0, 0, 0, 0))
    if start != 0 or end is not None:
        return
    same(f"symbols({name})", steps(message), (wanted, fault))
    if b"\0" in message:
        return
    out = [*lines, "refused {} {}".format(*fault)] if fault != (0, 0) else lines
    example = subprocess.run([root / "target/lib/example", "--symbols", message], capture_output=True, text=True)
    status = 0 if fault == (0, 0) else 1
    same(f"C example --symbols {name}", (example.returncode, example.stdout), (status, "".join(line + "\n" for line in out)))


next_to = "atom 0 1 1", "quoted 1 4 1", "at 4 5 1", "< 5 6 1", "> 6 7 1", ", 7 8 1", "; 8 9 1", ": 9 10 1"
scanned(b'a"b"@<>,;:)\\', *next_to, "other 10 11 1", "other 11 12 1")
behind = "atom 1 2 1 apart", "quoted 3 6 1 apart", "at 7 8 1 apart", "< 9 10 1 apart", "> 11 12 1 apart"
marks = ", 13 14 1 apart", "; 15 16 1 apart", ": 17 18 1 apart", "other 19 20 1 apart", "other 21 22 1 apart"
scanned(b' a\t"b" @\t< > , ; : ) \\', *behind, *marks)
ats = "at 0 2 2", "at 3 5 2 apart", "at 6 8 2 apart", "at 9 11 2 apart", "atom 12 15 3 apart", "atom 16 17 1 apart"
scanned(b"at At aT AT ate a", *ats)
scanned(b'"at"At"@"', "quoted 0 4 2", "at 4 6 2", "quoted 6 9 1")
names_of_733 = "atom 0 8 8", "atom 29 32 3 apart", "at 33 35 2 apart", "atom 40 43 3 apart"
scanned(b"Muhammed(I am (the) greatest)Ali at(the)WBA", *names_of_733)
scanned(b"")
scanned(b" \t\r\n (c)")
# length of the meaning
scanned(b'""', "quoted 0 2 0")
scanned(b'"a\\"b\\\\"', "quoted 0 8 4")
scanned(b'"a\r\n b"', "quoted 0 7 3")
scanned(b'"a\\\r\n b"', "quoted 0 8 5")
scanned(b'"\\\\\r\n\t"', "quoted 0 7 2")
scanned(b'"\\\r\\\n "', "quoted 0 7 3")
scanned(b'"\\\r\n"', "quoted 0 5 2")
scanned(b'"\0\n\\\x7f"', "quoted 0 6 3")
scanned(b'"(c)<>"', "quoted 0 7 5")
scanned(b"a" * 32768, "atom 0 32768 32768")
scanned(b'"' + b"\\b" * 16383 + b'"', "quoted 0 32768 16383")
scanned(b'"' + b"\\\r\n b" * 6553 + b'"', "quoted 0 32767 26212")
# whether white space or a comment stands right before
scanned(b"a(c)b", "atom 0 1 1", "atom 4 5 1 apart")
scanned(b"<x", "< 0 1 1", "atom 1 2 1")
scanned(b"a,(b) c (d)e", "atom 0 1 1", ", 1 2 1", "atom 6 7 1 apart", "atom 11 12 1 apart")
scanned(b"\r\n a\r\n\tb", "atom 3 4 1 apart", "atom 7 8 1 apart")
scanned(b"(\\))a((b)(c))\\", "atom 4 5 1 apart", "other 13 14 1 apart")
scanned(b"(a\\\r\n )b", "atom 7 8 1 apart")
scanned(b"(a))\\ (b)", "other 3 4 1 apart", "other 4 5 1")
scanned(b'"a""b" "c "d', "quoted 0 3 1", "quoted 3 6 1", "quoted 7 11 2 apart", "atom 11 12 1")
scanned(b" " * 32767 + b",", ", 32767 32768 1 apart")
# faults, behind the symbols before them
scanned(b'a "', "atom 0 1 1", fault=(5, 2))
scanned(b"a, ((b)", "atom 0 1 1", ", 1 2 1", fault=(6, 3))
scanned(b"a(b) \x7f", "atom 0 1 1", fault=(7, 5))
scanned(b"a\r\nb", "atom 0 1 1", fault=(7, 1))
scanned(b"at\x80", "at 0 2 2", fault=(3, 2))
scanned(b'"a" "\r"', "quoted 0 3 1", fault=(7, 5))
scanned(b"(\xff)", fault=(3, 1))
scanned(b"a" * 32769, fault=(1, 32768))
# parts of a message: nothing outside of them is looked at
scanned(b" a", "atom 1 2 1", start=1)
scanned(b"(c)b", "atom 3 4 1", start=3)
scanned(b"(c)b", "other 2 3 1", "atom 3 4 1", start=2)
scanned(b"\r\n a", "atom 3 4 1 apart", start=2)
scanned(b"\r\n a", "atom 3 4 1", start=3)
scanned(b"\r\n a", fault=(7, 1), start=1)
scanned(b'"\\"a"', "quoted 2 5 1", start=2)
scanned(b"abc", "atom 1 2 1", start=1, end=2)
scanned(b'x "a" y\x80', "quoted 2 5 1 apart", "atom 6 7 1 apart", start=1, end=7)
scanned(b"a (b)", "atom 0 1 1", fault=(6, 2), end=4)
scanned(b"a\r\n b", "atom 0 1 1", fault=(7, 1), end=3)
scanned(b"a\r\n b", "atom 0 1 1", end=4)
scanned(b"a\x80", start=1, end=1)
scanned(b"ab", start=2, end=2)
for message, at, end in (
    (b"ab", 2, 1), (b"ab", 0, 3), (b"ab", 3, 3), (b"", 0, 1), (b"ab", 2**64 - 1, 2), (b"ab", 0, 2**64 - 1), (b"\x80", 0, 2),
):
    same(f"next symbol, positions {at} {end}", c_next(message, at, end), told_next(13, 0, 0, 0, 0, 0, 0))
for at, end in ((0, 0), (0, 32769), (2, 1), (0, 32770)):
    same(f"next symbol, too long, {at} {end}", c_next(b"\x80" * 32769, at, end), told_next(1, 32768, 0, 0, 0, 0, 0))
for length in range(9):
    for name, message, at, end, numbers in (
        ("found", b'a "b\\"" c', 1, None, (0, 0, 2, 2, 7, 2, 1)),
        ("at the end", b"a ", 1, None, (0, 0, 0, 0, 0, 0, 0)),
        ("fault", b"a (", 1, None, (6, 2, 0, 0, 0, 0, 0)),
        ("positions", b"a", 1, 0, (13, 0, 0, 0, 0, 0, 0)),
        ("too long", b"a" * 32769, 0, None, (1, 32768, 0, 0, 0, 0, 0)),
    ):
        got = c_next(message, at, end, told_length=length)
        same(f"next symbol, {name}, {length} numbers told", got, told_next(*numbers[:length]))
found = rfc733.symbols(b"a (b)c \x80")
same("the first symbol before a fault", next(found), ("atom", 0, 1, 1, False))
same("fields of a symbol", next(found)._asdict(), {"kind": "atom", "start": 5, "end": 6, "length": 1, "apart": True})
refused("the fault after two symbols", lambda: next(found), 3, 7)
same("apart is true or false", repr([symbol.apart for symbol in rfc733.symbols(b"a b")]), "[False, True]")
for arguments in ([], ["a", "b"]):
    example = subprocess.run([root / "target/lib/example", "--symbols", *arguments], capture_output=True, text=True)
    same(f"C example --symbols {arguments}", (example.returncode, example.stdout), (2, ""))


def record(name, text=b""):
    """A record of a store: the name padded with zeros, the list with spaces."""
    return name.ljust(64, b"\0") + text.ljust(448)


def c_expand(message, store, room=80, start=0, end=None, told_length=4):
    """All numbers told by the C function, all of the lent text, and whether message and store stayed; beforehand each
    number is UNTOUCHED and the text full of "#"."""
    end = len(message) if end is None else end
    text = ctypes.create_string_buffer(b"#" * (room + 9), room + 9)
    told = (ctypes.c_uint64 * 7)(*[UNTOUCHED] * 7)
    lent = ctypes.create_string_buffer(message, len(message) + 1)
    lists = ctypes.create_string_buffer(store, len(store) + 1)
    sizes = [ctypes.c_size_t(size) for size in (len(message), start, end)]
    parts = (lists, ctypes.c_size_t(len(store)), text, ctypes.c_size_t(room))
    rfc733._load().rfc733_expand(lent, *sizes, *parts, told, ctypes.c_size_t(told_length))
    stayed = (lent.raw, lists.raw) == (message + b"\0", store + b"\0")
    return list(told), text.raw, stayed


def lent_text(text, room=80):
    """A lent text with that at its front."""
    return text.ljust(room + 9, b"#")


def opened(name, body, store, text, openings):
    """What a body is expanded to."""
    room = max(80, len(text))
    told = all_told(0, 0, len(text), openings)
    same(f"C expand, {name}", c_expand(body, store, room), (told, lent_text(text, room), True))
    same(f"expand, {name}", rfc733.expand(body, store), (text, openings))


def halted(name, body, store, number, place, openings):
    """How an expansion is refused."""
    told = all_told(number, place, 0, openings)
    same(f"C expand, {name}", c_expand(body, store), (told, lent_text(b""), True))
    try:
        got = rfc733.expand(body, store)
    except rfc733.Refused as fault:
        got = (fault.number, fault.place, fault.openings, str(fault))
    words = f"refused {number} at {place}, stored lists opened: {openings}"
    same(f"expand, {name}", got, (number, place, openings, words))


def in_angles(levels, inner=b""):
    """So many angle brackets around a text."""
    return b"<" * levels + inner + b">" * levels


X = b":Include: a at x"
itself = record(b"a at x", X)
lists = record(b"a at x", b"p@p") + record(b"b at y", b"q@q, <r@r>") + record(b"a at x", b"s@s")
opened("empty list", b"u@v," + X + b",w@y", record(b"a at x"), b"u at v, w at y", 1)
opened("comma before a group", b": " + X + b", A: b@c;;", record(b"a at x", b","), b":, A: b at c;;", 1)
opened("group in a group", b": " + X + b";", record(b"a at x", b"A: i@j;"), b":, A: i at j;;", 1)
opened("lowest record", X, lists, b"p at p", 1)
opened("first mailbox", b":include:<b@y,a@x>", lists, b"q at q, <r at r>", 1)
opened("first that is named", b":Include: L <c@z, b@y>", lists, b"q at q, <r at r>", 1)
opened("no Include", b":Postal: a@x", lists, b":Postal: a at x", 0)
opened("empty body", b"", lists, b"", 0)
chain = record(b"a at x", b"1@t, :Include: b@y, 2@t") + record(b"b at y", b'"q"')
opened("list in a list", X, chain, b'1 at t, "q", 2 at t', 2)
opened("64 openings", (X + b",") * 64, record(b"a at x", b"m@h"), b", ".join([b"m at h"] * 64), 64)
opened("64 levels", X, record(b"a at x", in_angles(64)), in_angles(64), 1)
opened("zero in a name", b':Include: "\0" at h', record(b'"\0" at h', b'"\0"'), b'"\0"', 1)
opened("name of 64 bytes", b":Include: " + b"n" * 59 + b"@h", record(b"n" * 59 + b" at h", b"m@h"), b"m at h", 1)
lines = record(b'" " at x', b'"\r\n "') + record(b'"\\\r\\\n " at x', b'"\\\r\n "')
opened("fold in a name and a list", b':Include: "\r\n "@x', lines, b'" "', 1)
opened("line end in a name and a list", b':Include: "\\\r\n "@x', lines, b'"\\\r\\\n "', 1)
halted("line end in a name", b':Include: "\\\r\n "@x', lines[:512], 19, 0, 0)
opened("tail left out", X, lists[:512] + lists[:511], b"p at p", 1)
halted("tail only", X, lists[:511], 19, 0, 0)
halted("no store", b'"q", ' + X, b"", 19, 5, 0)
halted("another kind inside", b':Include:<a at x,"q">', lists, 19, 0, 0)
halted("empty angle list", X + b",:Include:<>", lists, 19, 17, 1)
halted("Include in an Include", b":Include: " + X, lists, 19, 0, 0)
halted("Include in a Postal", b":Postal: " + X, lists, 19, 9, 0)
halted("case of a name", b":Include: A at x", lists, 19, 0, 0)
halted("space behind a name", X, record(b"a at x ", b"p@p"), 19, 0, 0)
halted("unknown behind 64", (X + b",") * 64 + b":Include: u@u", lists, 19, 1088, 64)
halted("65 openings", (X + b",") * 65, lists, 20, 1088, 64)
halted("itself", X, itself, 20, 0, 64)
halted("itself in brackets", b'"", ' + X, record(b"a at x", b"<" + X + b">"), 10, 4, 63)
halted("65 levels of a list", X, record(b"b at y") + record(b"a at x", in_angles(65)), 10, 1, 0)
halted("65 levels together", b"<" + X + b">", record(b"a at x", in_angles(64)), 10, 1, 0)
halted("Include unopened", in_angles(63, X), record(b"a at x", b":Include:<b at y>"), 10, 63, 0)
halted("list padded with zeros", X, record(b"b at y") + b"a at x".ljust(512, b"\0"), 7, 1, 0)
halted("list that ends too soon", b":Include: b@y, " + X, record(b"a at x", b"x") + record(b"b at y"), 9, 0, 1)
halted("body that ends too soon", X + b", x", lists, 9, 19, 0)
halted("body too long", b" " * 32769, lists, 1, 32768, 0)
for room in range(9):
    told, text = (all_told(11, 0, 6, 1), b"") if room < 6 else (all_told(0, 0, 6, 1), b"m at h")
    same(f"room {room}", c_expand(X, record(b"a at x", b"m@h"), room), (told, lent_text(text, room), True))
for length in range(7):
    told = all_told(*[0, 0, 6, 1][:length])
    same(f"expand, {length} numbers told", c_expand(X, lists, told_length=length), (told, lent_text(b"p at p"), True))
    told = all_told(*[20, 0, 0, 64][:length])
    same(f"expand, {length} told, refused", c_expand(X, itself, told_length=length), (told, lent_text(b""), True))
within = b"zz<" + X + b",:Include: u@u>"
part = c_expand(within, lists, start=3, end=19)
same("expand, part of a message", part, (all_told(0, 0, 6, 1), lent_text(b"p at p"), True))
same("expand, place in a message", c_expand(within, lists, start=2), (all_told(19, 20, 0, 1), lent_text(b""), True))
same("expand, out of order", c_expand(within, lists, start=4, end=3), (all_told(13, 0, 0, 0), lent_text(b""), True))
same("expand, behind the message", c_expand(X, lists, end=17), (all_told(13, 0, 0, 0), lent_text(b""), True))
with tempfile.TemporaryDirectory() as folder:
    path = pathlib.Path(folder) / "store"
    for arguments, store, status, out in (
        ([path, "u@v, :Include: a at x"], lists, 0, b"plain u at v, p at p\nopenings 1\n"),
        ([path, ':Include: "\\0"@h'], record(b'"0" at h', b'"\0"'), 0, b'plain "\0"\nopenings 1\n'),
        ([path, ""], b"", 0, b"plain \nopenings 0\n"),
        ([path, ":Include: a at x,:Include:<>"], lists, 1, b"refused 19 17\nopenings 1\n"),
        ([path, ":Include: a at x"], itself, 1, b"refused 20 0\nopenings 64\n"),
        ([path, "x"], lists, 1, b"refused 9 1\nopenings 0\n"),
        ([path, ":Include: a at x"], record(b"b at y") * 300 + lists, 0, b"plain p at p\nopenings 1\n"),
        ([path.parent / "none", ""], b"", 2, b""),
        ([path], lists, 2, b""),
    ):
        path.write_bytes(store)
        example = subprocess.run([root / "target/lib/example", "--expand", *arguments], capture_output=True)
        same(f"C example --expand {arguments[1:]}", (example.returncode, example.stdout), (status, out))
for arguments, status, out in (
    (["4", "g:<a@b>,;"], 0, "mark\nrecords around it: 2 1 0\n"),
    (["0", '(x) "q"'], 0, "comment\nrecords around it: none\n"),
    (["0", "a at b c"], 1, "refused 8 7\ncould have stood there: at @ , end\n"),
    (["0", '"ab'], 1, "refused 5 0\n"),
    (["3", "a@b"], 1, "refused 13 0\n"),
    (["-1", "a@b"], 2, ""),
    (["3"], 2, ""),
):
    example = subprocess.run([root / "target/lib/example", "--touch", *arguments], capture_output=True, text=True)
    same(f"C example --touch {arguments}", (example.returncode, example.stdout), (status, out))
for option in ([], ["--by-table"]):
    example = subprocess.run([root / "target/lib/example", *option, "Al at X"], capture_output=True, text=True)
    same(f"C example {option}", (example.returncode, example.stdout), (0, "address 1 0 0 0 7 0 2  Al\nplain Al at X\n"))
    example = subprocess.run([root / "target/lib/example", *option, "x"], capture_output=True, text=True)
    same(f"C example {option}, refused", (example.returncode, example.stdout), (1, "refused 9 1\n"))
    example = subprocess.run([root / "target/lib/example", *option, b'"a\\\r\n b"@c'], capture_output=True)
    wanted = b'address 1 0 0 0 10 0 8  "a\\\r\n b"\nplain "a\\\r\\\n b" at c\n'
    same(f"C example {option}, line end", (example.returncode, example.stdout), (0, wanted))


def c_addresses(message, edition, room=60, start=0, end=None, told_length=3):
    """All numbers told by the C function and all of the lent table; beforehand each number is UNTOUCHED and the table
    full of "#"."""
    end = len(message) if end is None else end
    table = ctypes.create_string_buffer(b"#" * (room + 9), room + 9)
    told = (ctypes.c_uint64 * 7)(*[UNTOUCHED] * 7)
    lent = ctypes.create_string_buffer(message, len(message) + 1)
    sizes = [ctypes.c_size_t(size) for size in (len(message), start, end, edition)]
    rfc733._load().rfc733_addresses(lent, *sizes, table, ctypes.c_size_t(room), told, ctypes.c_size_t(told_length))
    return list(told), table.raw


def lent_table(records, room=60):
    """A lent table with these records at its front."""
    rows = [bytes(record[:2]) + b"".join(number.to_bytes(2, "big") for number in record[2:]) for record in records]
    return b"".join(rows).ljust(room + 9, b"#")


def listed(body, *records, edition=822):
    """The records of a body."""
    told = all_told(0, 0, len(records))
    same(f"C addresses of {body!r}, {edition}", c_addresses(body, edition), (told, lent_table(records)))
    try:
        got = rfc733.addresses(body, edition)
    except rfc733.Refused as fault:
        got = (fault.number, fault.place)
    same(f"addresses({body!r}, {edition})", got, list(records))


def unlisted(body, number, place, edition=822):
    """How a body is refused."""
    wanted = all_told(number, place, 0), lent_table([])
    same(f"C addresses of {body[:40]!r}, {edition}", c_addresses(body, edition), wanted)
    refused(f"addresses({body[:40]!r}, {edition})", lambda: rfc733.addresses(body, edition=edition), number, place)


in_group = (3, 0, 0, 0, 14, 0, 1), (1, 1, 1, 2, 5, 2, 3), (2, 1, 1, 7, 13, 7, 8), (1, 2, 3, 9, 12, 9, 10)
listed(b"")
listed(b",,(c)")
listed(b"a.b@c.d", (1, 0, 0, 0, 7, 0, 3))
listed(b"a . b @ c . d", (1, 0, 0, 0, 13, 0, 5))
listed(b"x:a@b,,y<c@d>;", *in_group)
listed(b"x y:,;,", (3, 0, 0, 0, 6, 0, 3))
listed(b"at@at", (1, 0, 0, 0, 5, 0, 2))
listed(b"a@[1\\[2]", (1, 0, 0, 0, 8, 0, 1))
listed(b'a@["(\r\n ].b,', (1, 0, 0, 0, 11, 0, 1))
listed(b"x <,@a,,@b,:c@d>", (2, 0, 0, 0, 16, 0, 1), (1, 1, 1, 12, 15, 12, 13))
listed(b"Mary <@x.y,@[1]:m.s@h>", (2, 0, 0, 0, 22, 0, 4), (1, 1, 1, 16, 21, 16, 19))
# examples of RFC 822
listed(b"Neuman@BBN-TENEXA", (1, 0, 0, 0, 17, 0, 6))
listed(b"Alfred Neuman <Neuman@BBN-TENEXA>", (2, 0, 0, 0, 33, 0, 13), (1, 1, 1, 15, 32, 15, 21))
listed(b'"George, Ted" <Shared@Group.Arpanet>', (2, 0, 0, 0, 36, 0, 13), (1, 1, 1, 15, 35, 15, 21))
listed(b"Wilt . (the  Stilt) Chamberlain@NBA.US", (1, 0, 0, 0, 38, 0, 31))
listed(b'":sysmail"@  Some-Group. Some-Org', (1, 0, 0, 0, 33, 0, 10))
listed(b"Muhammed.(I am  the greatest) Ali @(the) Vegas.WBA", (1, 0, 0, 0, 50, 0, 33))
listed(b"Al@[10.0.3.19]", (1, 0, 0, 0, 14, 0, 2))
unlisted(b"Galloping Gourmet@ANT.Down-Under", 8, 17)
unlisted(b"Joe & J. Harvey <ddd @Org>, JJV @ BBN", 8, 7)
for body, number, place in (
    (b"x:y:;;", 8, 3), (b":;", 8, 0), (b'a@"b"', 8, 2), (b"J. Smith <a@b>", 8, 9), (b"a@b@c", 8, 3), (b"a b@c", 8, 3),
    (b"[a]@b", 8, 0), (b"<a@b>", 8, 0), (b"x<,:c@d>", 8, 3), (b"]", 8, 0), (b"a@b]", 8, 3), (b"a.b at [c]", 8, 4),
    (b"<" * 65, 8, 0), (b"x:" * 65, 8, 3), (b"a at b", 9, 6), (b'"q"', 9, 3), (b"x:a@b", 9, 5), (b"x<a@b ", 9, 6),
    (b"a@[1[2]", 23, 2), (b"a@[1", 23, 2), (b"a@[[\xff", 23, 2), (b"a@[\\]", 23, 2), (b"a b [", 23, 4), (b") [", 23, 2),
    (b"a@[\xff[", 3, 3), (b"a@[\r]", 7, 3), (b'"ab [', 5, 0), (b"([", 6, 0), (b" " * 32769, 1, 32768),
):
    unlisted(body, number, place)
listed(b"a.b at [c]", (1, 0, 0, 0, 10, 0, 3), edition=733)
same("edition 733 is the default", rfc733.addresses(b"a.b at [c]"), [(1, 0, 0, 0, 10, 0, 3)])
for edition in (0, 732, 734, 821, 823, 66269, 66358, 2**32 + 733, 2**32 + 822, 2**64 - 1):
    unlisted(b"a@b", 21, 0, edition)
    unlisted(b" " * 32769, 1, 32768, edition)
    for start, end in ((2, 1), (0, 4)):
        got = c_addresses(b"a@b", edition, start=start, end=end)
        same(f"edition {edition} before positions", got, (all_told(21, 0, 0), lent_table([])))
for edition in (-1, 2**64 + 733, 2**64 + 822):
    refused(f"edition {edition}", lambda: rfc733.addresses(b"a@b", edition), 21, 0)
    refused(f"edition {edition}, too long", lambda: rfc733.addresses(b" " * 32769, edition), 1, 32768)
for edition in (733, 822):
    for start, end in ((2, 1), (0, 4), (2**64 - 1, 1)):
        got = c_addresses(b"a@b", edition, start=start, end=end)
        same(f"edition {edition}, positions", got, (all_told(13, 0, 0), lent_table([])))
for room in (0, 12, 36, 47, 48, 49):
    wanted = (all_told(0, 0, 4), lent_table(in_group, room)) if room >= 48 else (all_told(11, 0, 4), lent_table([], room))
    same(f"edition 822, room {room}", c_addresses(b"x:a@b,,y<c@d>;", 822, room), wanted)
for length in range(5):
    got = c_addresses(b"x:a@b,,y<c@d>;", 822, told_length=length)
    same(f"edition 822, {length} numbers told", got, (all_told(*[0, 0, 4][:length]), lent_table(in_group)))
    got = c_addresses(b"a@[1[2]", 822, told_length=length)
    same(f"edition 822, {length} told, refused", got, (all_told(*[23, 2, 0][:length]), lent_table([])))
    got = c_addresses(b"a@b", 66269, told_length=length)
    same(f"edition 66269, {length} told", got, (all_told(*[21, 0, 0][:length]), lent_table([])))
got = c_addresses(b"zz a.b@[c] yy", 822, start=2, end=11)
same("edition 822, part of a message", got, (all_told(0, 0, 1), lent_table([(1, 0, 0, 3, 10, 3, 6)])))
got = c_addresses(b"zz a.b@[c] yy", 822, start=2, end=9)
same("edition 822, literal cut off", got, (all_told(23, 7, 0), lent_table([])))
got = rfc733.addresses(b"x:" + b"a@b," * 8191 + b";", 822)
wanted = 8192, (3, 0, 0, 0, 32767, 0, 1), (1, 1, 1, 32762, 32765, 32762, 32763)
same("edition 822, many", (len(got), got[0], got[-1]), wanted)
for arguments, status, out in (
    (["822", "Al <@x:a.b@c>"], 0, "address 2 0 0 0 13 0 2  Al\naddress 1 1 1 7 12 7 10  a.b\n"),
    (["822", ""], 0, ""),
    (["822", "a at b"], 1, "refused 9 6\n"),
    (["822", "a@[1[2]"], 1, "refused 23 2\n"),
    (["733", "a.b at c"], 0, "address 1 0 0 0 8 0 3  a.b\n"),
    (["66269", "a@b"], 1, "refused 21 0\n"),
    (["18446744073709552438", "a@b"], 1, "refused 21 0\n"),
    (["x", "a@b"], 2, ""),
    (["822"], 2, ""),
):
    example = subprocess.run([root / "target/lib/example", "--edition", *arguments], capture_output=True, text=True)
    same(f"C example --edition {arguments}", (example.returncode, example.stdout), (status, out))

# look-ups of field names
KNOWN = "other", "Date", "From", "Reply-To", "To", "cc", "Bcc"
# a name is lent at the end of these bytes; the page after them may not be read, so that a look past a name ends the test
LENT = 2**17
pages = mmap.mmap(-1, LENT + mmap.PAGESIZE)
fence = ctypes.addressof(ctypes.c_char.from_buffer(pages)) + LENT
fenced = ctypes.CDLL(None).mprotect(ctypes.c_void_p(fence), ctypes.c_size_t(mmap.PAGESIZE), 0)
same("the page after a name is closed", fenced, 0)


def c_known(name):
    """What the C function returns and stores, and whether the name and the numbers beside the stored one stayed; beforehand
    each number is UNTOUCHED."""
    pages[LENT - len(name) : LENT] = name
    stored = (ctypes.c_uint64 * 3)(*[UNTOUCHED] * 3)
    function = rfc733._load().rfc733_known_name
    function.restype = ctypes.c_uint32
    number = function(ctypes.c_void_p(fence - len(name)), ctypes.c_size_t(len(name)), ctypes.byref(stored, 8))
    stayed = pages[LENT - len(name) : LENT] == name and stored[0] == stored[2] == UNTOUCHED
    return number, stored[1], stayed


def named(name, answer, compared):
    """Which of KNOWN a name is, and how many were compared with it: by C, in Python, and by the example."""
    number = KNOWN.index(answer)
    same(f"C known_name of {name[:40]!r}", c_known(name), (number, compared, True))
    same(f"looked_up({name[:40]!r})", rfc733.looked_up(name), (number, compared))
    same(f"known_name({name[:40]!r})", rfc733.known_name(name), number)
    if b"\0" in name:
        return
    example = subprocess.run([root / "target/lib/example", "--name", name], capture_output=True, text=True)
    wanted = 0, f"{answer} compared {compared}\n"
    same(f"C example --name {name[:40]!r}", (example.returncode, example.stdout), wanted)


# examples of the request
for name, answer, compared in (
    (b"To", "To", 1), (b"tx", "other", 1), (b"xo", "other", 0), (b"", "other", 0), (b"T", "other", 0), (b"cc ", "other", 0),
    (b"rEPLY-tO", "Reply-To", 1), (b"Reply\rTo", "other", 1), (b"\xe3\xe3", "other", 0), (b"\x14o", "other", 0),
):
    named(name, answer, compared)
for known in KNOWN[1:]:
    for name in (known, known.upper(), known.lower(), known.swapcase()):
        named(name.encode(), known, 1)
# length and first letter of a known name, and a later letter wrong, or a byte for it that a mask takes for that letter
two_to_four = b"Tp tn Tc Cd cb co Bcd bcb Bdc Datf dAtd Dage Dbte Drom Fron frol Fram Flom Fate".split()
eight = b"Reply-Tp reply-tn Reply-So Reply_To Repl--To Repky-To Retly-To Raply-To Received RECEIVED Returned".split()
masked = b"T/ T\x0f T\xef T\xcf T\0 c# c\x03 c\xc3 Bc\xe3 Dat% Fro\xed Reply\xadTo ReplyMTo ReplymTo Reply-T\x0f".split()
for name in (*two_to_four, *eight, b"Reply To", *masked):
    named(name, "other", 1)
# length of a known name, and another first letter, or a byte for it that a mask or a range takes for that letter
first = b"So Uo oT bc dc Acc ccc Cate Eate Erom Grom Qeply-To Seply-To X-Mailer".split()
masked = b"\0o 4o \xd4o \xf4o #c \x03c \xc3c \"cc \x02cc \xc2cc \xe2cc $ate \x04ate \xc4ate \xe4ate".split()
masked += b"&rom \x06rom \xc6rom \xe6rom 2eply-To \x12eply-To \xd2eply-To \xf2eply-To".split()
beside = [mark + rest for mark in (b"@", b"[", b"`", b"{") for rest in b"o c cc ate rom eply-To".split()]
for name in (*first, *masked, *beside):
    named(name, "other", 0)
# a length that no known name has, or none with that first letter
shorter = b"c B D F R Bc Da Fr Re Dat Fro Rep Tom To\0 To: Bccc ToTo Repl Dates Sender Subject Reply-T ReplyTo".split()
longer = b"Reply-ToX Message-ID To-Be-Sure cc-members Bcc-members From-Sender Reply-To-All Date-Received".split()
spaces = b"To ", b" To", b"bcc ", b"From ", b"Reply-To ", b"Reply-To\t"
wide = [text.encode() + b"e" * more for text in KNOWN[1:] for more in (256, 65536)]
for name in (*shorter, *longer, *spaces, *wide):
    named(name, "other", 0)


def by_the_papers(name):
    """The number of the known name that agrees, and how many have that length and first letter, case ignored."""
    known = [text.lower().encode() for text in KNOWN[1:]]
    number = known.index(name.lower()) + 1 if name.lower() in known else 0
    return number, sum((len(name), name[:1].lower()) == (len(text), text[:1]) for text in known)


# each name of up to two bytes; each known name with each byte at each place, for its own or before it, and cut there
every = [b""] + [bytes([a]) for a in range(256)] + [bytes([a, b]) for a in range(256) for b in range(256)]
for text in (text.encode() for text in KNOWN[1:]):
    for i in range(len(text) + 1):
        every += [text[:i] + bytes([b]) + rest for b in range(256) for rest in (text[i:], text[i + 1 :])] + [text[:i]]
got = {name: c_known(name) for name in every}
same("what is stored, over all names", {compared for _, compared, _ in got.values()}, {0, 1})
same("all names, by the papers", [name for name in got if got[name] != (*by_the_papers(name), True)][:9], [])
same("fields of what is looked up", rfc733.looked_up(b"bcc")._asdict(), {"number": 6, "compared": 1})
same("known_name is a number", repr([rfc733.known_name(name) for name in (b"Reply-To", b"tx", b"")]), "[3, 0, 0]")
for kind in (bytes, bytearray, memoryview, list):
    same(f"looked_up of a {kind.__name__}", rfc733.looked_up(kind(b"fROM")), (2, 1))
    same(f"known_name of a {kind.__name__}", rfc733.known_name(kind(b"fROM")), 2)
for argument in ("To", None, 2, 2.0):
    for function in (rfc733.looked_up, rfc733.known_name):
        try:
            got = function(argument)
        except TypeError:
            got = TypeError
        same(f"{function.__name__}({argument!r})", got, TypeError)
for arguments in ([], ["To", "cc"]):
    example = subprocess.run([root / "target/lib/example", "--name", *arguments], capture_output=True, text=True)
    wanted = 2, "", "usage: example --name NAME\n"
    same(f"C example --name {arguments}", (example.returncode, example.stdout, example.stderr), wanted)

for fault in faults:
    print(fault)
print(f"calls: {seen}")
sys.exit(1 if faults or not seen else 0)
