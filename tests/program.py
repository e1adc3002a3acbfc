#!/usr/bin/env python3
"""The built programs of both editions on whole messages, the tool that makes stores, and the program that opens stored lists. What is
expected is written by hand from documents 01 and 02, RFC 733 and RFC 822: which words begin and end each field, address and
name, and what each list becomes. Positions are those words' places in the message, and seconds come from Python's
datetime. Nothing here reads a list or a header."""
import datetime
import pathlib
import random
import re
import shutil
import subprocess
import sys
import tempfile

root = pathlib.Path(__file__).resolve().parent.parent
LINE = re.compile(rb"(field( \d+){4}|address( \d+){7}|date -?\d+|refused \d+ \d+)\n")
faults, seen = [], 0


def program(edition):
    return root / f"crates/rfc{edition}/out/rfc{edition}"


for edition in (733, 822):
    if not program(edition).exists():
        sys.exit(f"no {program(edition)}: run 'rt ci' first, or 'rt run' in its crate's folder")


def run(message, edition=733):
    done = subprocess.run([program(edition)], input=message, capture_output=True, timeout=60)
    return done.returncode, done.stdout


def expect(name, message, lines, edition=733):
    global seen
    seen += 1
    status, out = run(message, edition)
    wanted = "".join(line + "\n" for line in lines).encode()
    if status != 0 or out != wanted:
        faults.append(f"{name}: exit {status}\n  wanted {wanted[:600]!r}\n  got    {out[:600]!r}")


class Message:
    """The lines expected of a message, found by the words that they begin and end with."""

    def __init__(self, text):
        self.text, self.at, self.lines = text, 0, []

    def place(self, word, at):
        found = self.text.find(word.encode(), at)
        assert found >= 0, f"{word} does not stand in the message"
        return found

    def field(self, name, colon, last):
        """A field: its name, what stands from the name's end up to the colon, and the last words of its body."""
        start = self.place(name + colon + ":", self.at)
        body = start + len(name + colon) + 1
        self.at = body
        self.lines.append(f"field {start} {start + len(name)} {body} {self.place(last, body) + len(last)}")
        return self

    def address(self, kind, depth, parent, first, last, name=""):
        """An address: its first and last words, and its name."""
        start = self.place(first, self.at)
        self.at = start + 1
        end = self.place(last, start) + len(last)
        named = self.place(name, start) if name else start
        self.lines.append(f"address {kind} {depth} {parent} {start} {end} {named} {named + len(name)}")
        return self

    def refused(self, number, words, before):
        """A refusal: words from which it is found, and those of them that stand before its place."""
        self.lines.append(f"refused {number} {self.place(words, self.at) + len(before)}")
        return self

    def date(self, *moment):
        """The GMT moment that a date says."""
        gone = datetime.datetime(*moment) - datetime.datetime(1900, 1, 1)
        self.lines.append(f"date {gone.days * 86400 + gone.seconds}")
        return self


def example(name):
    return Message((root / "examples" / name).read_bytes())


MAILBOX, ANGLE, GROUP, QUOTED, INCLUDE, POSTAL = range(1, 7)

# RFC 733, V.D.1 and V.D.2: EDT is four hours behind GMT
m = example("minimum.txt")
m.field("Date", "", "EDT").date(1976, 8, 26, 18, 29)
m.field("From", "", "Host").address(MAILBOX, 0, 0, "Jones", "Host", "Jones")
expect("minimum", m.text, m.lines)

m = example("some-fields.txt")
m.field("Date", "", "EDT").date(1976, 8, 26, 18, 30)
m.field("From", "", "Host>").address(ANGLE, 0, 0, "George", ">", "George Jones").address(MAILBOX, 1, 1, "Group", "Host", "Group")
m.field("Sender", "", "SHOST")
m.field("To", "", "Other-Host").address(MAILBOX, 0, 0, "Al", "Mad-Host", "Al Neuman").address(MAILBOX, 0, 0, "Sam", "Other-Host", "Sam Irving")
m.field("Message-ID", "", "SHOST>")
expect("some fields", m.text, m.lines)

# RFC 733, V.D.3: PDT is seven hours behind GMT
m = example("complex.txt")
m.field("Date", " ", "PDT").date(1976, 8, 27, 16, 32)
m.field("From", " ", "Other-Host>").address(ANGLE, 0, 0, "Ken", ">", "Ken Davis").address(MAILBOX, 1, 1, "KDavis", "Other-Host", "KDavis")
m.field("Subject", " ", "RFC").field("Sender", " ", "Other-Host")
m.field("Reply-To", " ", "Other-Host").address(MAILBOX, 0, 0, "Sam", "Other-Host", "Sam Irving")
m.field("To", " ", "Mad-Host").address(ANGLE, 0, 0, "George", ">", "George Jones").address(MAILBOX, 1, 1, "Group", "Host", "Group")
m.address(MAILBOX, 0, 0, "Al", "Mad-Host", "Al Neuman")
m.field("cc", " ", "apprised of the situation)")
m.address(GROUP, 0, 0, "Important", ";", "Important folk")
m.address(ANGLE, 1, 1, "Tom", ">", "Tom Softwood").address(MAILBOX, 2, 2, "Balsa", "Another-Host", "Balsa")
m.address(MAILBOX, 1, 1, "Sam", "Other-Host", "Sam Irving")
m.address(GROUP, 0, 0, "Standard", "Non-net-addrs@Other-host;", "Standard Distribution")
m.address(INCLUDE, 1, 5, ":Include", "Tops-20-Host>", "Include").address(ANGLE, 2, 6, "</main", "Tops-20-Host>")
m.address(MAILBOX, 3, 7, "/main", "Other-Host", "/main/davis/people/standard")
m.address(MAILBOX, 3, 7, '"<Jones>', "Tops-20-Host", '"<Jones>standard.dist.3"')
m.address(POSTAL, 1, 5, ":Postal", "Other-host", "Postal").address(INCLUDE, 2, 10, ":Include", "Other-host", "Include")
m.address(MAILBOX, 3, 11, "Non-net", "Other-host", "Non-net-addrs")
m.address(POSTAL, 0, 0, ":Postal", 'Nevada"', "Postal")
m.address(QUOTED, 1, 13, '"Sam', 'Nevada"', '"Sam Irving, P.O. Box 001, Las Vegas,\r\n Nevada"')
m.field("Comment", " ", "next week.").field("In-Reply-To", "", "SHOST>").field("Special (action)", "", '"Special (info)".')
m.field("Message-ID", "", "Other-Host>")
expect("complex", m.text, m.lines)

# RFC 733, V.B; document 01 has its depths: 0 1 2 1 2 2 1 2 2 0
m = example("nested-group.txt")
m.field("To", "", "SEA").address(GROUP, 0, 0, "Gourmets", ";;", "Gourmets")
m.address(ANGLE, 1, 1, "Pompous", ">", "Pompous Person").address(MAILBOX, 2, 2, "WhoZi", "Cordon-Bleu", "WhoZiWhatZit")
m.address(GROUP, 1, 1, "Cooks", ";", "Cooks").address(MAILBOX, 2, 4, "Childs", "WGBH", "Childs")
m.address(MAILBOX, 2, 4, "Galloping", "ANT", "Galloping Gourmet")
m.address(GROUP, 1, 1, "Wine", ";", "Wine Lovers").address(MAILBOX, 2, 7, "Cheapie", "Liquors", "Cheapie")
m.address(MAILBOX, 2, 7, "Port at", "Portugal", "Port").address(MAILBOX, 0, 0, "Jones", "SEA", "Jones")
expect("nested group", m.text, m.lines)

# a day name that is not the true one, at the body's start; a phrase alone, at the body's end; an open quote, at the quote;
# a word behind an address, at the word
m = example("refused-bodies.txt")
m.field("Date", "", "EST").refused(14, " Tue", "")
m.field("From", "", "Friendly").refused(9, "Sarah Friendly", "Sarah Friendly")
m.field("To", "", "at X").refused(5, '"Al', "")
m.field("cc", "", "b c").refused(8, "a at b c", "a at b ")
expect("refused bodies", m.text, m.lines)

# a line without a colon: at its CR
m = example("refused-header.txt").refused(2, "no colon here", "no colon here")
expect("refused header", m.text, m.lines)

# Includes as they stand; and the text of the stored lists, which is no message: no line of it ends in CRLF
m = example("with-includes.txt")
m.field("Date", " ", "PDT").date(1976, 8, 27, 16, 32)
m.field("From", " ", "Other-Host>").address(ANGLE, 0, 0, "Ken", ">", "Ken Davis").address(MAILBOX, 1, 1, "KDavis", "Other-Host", "KDavis")
m.field("Reply-To", " ", "Other-Host").address(INCLUDE, 0, 0, ":Include", "Other-Host", "Include")
m.address(MAILBOX, 1, 1, "secretaries", "Other-Host", "secretaries")
m.field("To", " ", "SEA").address(GROUP, 0, 0, "Gourmets", ";", "Gourmets")
m.address(ANGLE, 1, 1, "Pompous", ">", "Pompous Person").address(MAILBOX, 2, 2, "WhoZi", "Cordon-Bleu", "WhoZiWhatZit")
m.address(INCLUDE, 1, 1, ":Include", "WGBH", "Include").address(MAILBOX, 2, 4, "cooks", "WGBH", "cooks")
m.address(MAILBOX, 0, 0, "Jones", "SEA", "Jones")
m.field("cc", " ", "Host>;").address(GROUP, 0, 0, "Standard", ";", "Standard Distribution")
m.address(INCLUDE, 1, 1, ":Include", "Tops-20-Host>", "Include").address(ANGLE, 2, 2, "</main", "Tops-20-Host>")
m.address(MAILBOX, 3, 3, "/main", "Other-Host", "/main/davis/people/standard")
m.address(MAILBOX, 3, 3, '"<Jones>', "Tops-20-Host", '"<Jones>standard.dist.3"')
m.field("Subject", " ", "elsewhere")
m.field("cc", " ", "Other-host").address(MAILBOX, 0, 0, "Jones", "SEA", "Jones").address(POSTAL, 0, 0, ":Postal", "Other-host", "Postal")
m.address(INCLUDE, 1, 2, ":Include", "Other-host", "Include").address(MAILBOX, 2, 3, "Non-net", "Other-host", "Non-net-addrs")
m.field("bcc", "", "Nowhere").address(INCLUDE, 0, 0, ":Include", "Nowhere", "Include").address(MAILBOX, 1, 1, "nobody", "Nowhere", "nobody")
m.field("bcc", "", "Mad-Host").address(MAILBOX, 0, 0, "Jones", "SEA", "Jones")
m.address(INCLUDE, 0, 0, ":Include", "Mad-Host", "Include").address(MAILBOX, 1, 2, "mirror", "Mad-Host", "mirror")
expect("with Includes", m.text, m.lines)

m = example("stored-lists.txt")
expect("stored lists", m.text, [f"refused 4 {len(m.text)}"])

# RFC 822, A.3.3, with a route and a domain literal; a phrase with a dot in it, at the "<"; a bare "[" in a literal, at its first one
m = example("rfc822.txt")
m.field("Date", " ", "PDT").date(1976, 8, 27, 16, 32)
m.field("From", " ", "This-net>").address(ANGLE, 0, 0, "Ken", ">", "Ken Davis").address(MAILBOX, 1, 1, "KDavis", "This-net", "KDavis")
m.field("Subject", " ", "RFC").field("Sender", " ", "Other-Host")
m.field("Reply-To", " ", "Organization").address(MAILBOX, 0, 0, "Sam", "Organization", "Sam.Irving")
m.field("To", " ", "Publisher").address(ANGLE, 0, 0, "George", ">", "George Jones").address(MAILBOX, 1, 1, "Group", "An-Org", "Group")
m.address(MAILBOX, 0, 0, "Al", "Publisher", "Al.Neuman")
m.field("cc", " ", "Tops-20-Host;").address(GROUP, 0, 0, "Important", ";", "Important folk")
m.address(ANGLE, 1, 1, "Tom", ">", "Tom Softwood").address(MAILBOX, 2, 2, "Balsa", "Root", "Balsa")
m.address(MAILBOX, 1, 1, '"Sam', "Other-Host", '"Sam Irving"')
m.address(GROUP, 0, 0, "Standard", "Tops-20-Host;", "Standard Distribution")
m.address(MAILBOX, 1, 5, "/main", "Other-Host", "/main/davis/people/standard")
m.address(MAILBOX, 1, 5, '"<Jones>', "Tops-20-Host", '"<Jones>standard.dist.3"')
m.field("bcc", " ", "Other-Host>").address(MAILBOX, 0, 0, "Wilt", "]", "Wilt . Chamberlain")
m.address(ANGLE, 0, 0, "Secretary", ">", "Secretary").address(MAILBOX, 1, 2, "sec@", "Other-Host", "sec")
m.field("bcc", " ", "Other-Host>").refused(8, "J. Smith <", "J. Smith ")
m.field("bcc", " ", "3.19]").refused(23, "Jones@[", "Jones@")
m.field("Message-ID", "", "Other-Host>")
expect("RFC 822", m.text, m.lines, 822)
of822 = m

# the same bodies in both editions: dots are marks and "at" is an atom in RFC 822 alone, and a group holds no group there
for body, in733, in822 in (
    (b"a . b @ c . d", "refused 8 14", "address 1 0 0 4 17 4 9"),
    (b"a at b", "address 1 0 0 4 10 4 5", "refused 9 10"),
    (b"at@at", "refused 8 4", "address 1 0 0 4 9 4 6"),
    (b"<>", "address 2 0 0 4 6 4 4", "refused 8 4"),
    (b"a.b@[c]", "address 1 0 0 4 11 4 7", "address 1 0 0 4 11 4 7"),
):
    for edition, line in ((733, in733), (822, in822)):
        expect(f"{body}, {edition}", b"To: " + body + b"\r\n", [f"field 0 2 3 {4 + len(body)}", line], edition)
expect("a group in a group, 822", b"To: x:y:;;\r\n", ["field 0 2 3 10", "refused 8 7"], 822)
expect("32,768 bytes, 822", b"To:" + b" " * 32760 + b"a@b\r\n", ["field 0 2 3 32766", "address 1 0 0 32763 32766 32763 32764"], 822)
expect("32,769 bytes, 822", b"To:" + b" " * 32761 + b"a@b\r\n", ["refused 1 32768"], 822)
boxes = [f"address 1 0 0 {3 + 4 * i} {6 + 4 * i} {3 + 4 * i} {4 + 4 * i}" for i in range(2048)]
expect("2,048 addresses, 822", b"To:" + b"a@b," * 2048 + b"\r\n", ["field 0 2 3 8195"] + boxes, 822)
expect("2,049 addresses, 822", b"To:" + b"a@b," * 2049 + b"\r\n", ["field 0 2 3 8199", "refused 11 0"], 822)

# document 01's own lines, and seconds before 1900
expect("document 01", b"To: Al at X\r\n", ["field 0 2 3 11", "address 1 0 0 4 11 4 6"])
expect("negative seconds", b"Date: 1 Jan 1900 0000 +0100\r\n", ["field 0 4 5 27", "date -3600"])
expect("empty message", b"", [])
expect("text behind the empty line", b"To:\r\n\r\nno header\xff\n", ["field 0 2 3 3"])

# line ends: a bare CR, a bare LF, no CRLF at all, and one that is quoted
expect("bare CR", b"To: a at\rb\r\n", ["field 0 2 3 10", "refused 7 8"])
expect("bare LF", b"To: a at b\ncc: c at d\r\n", ["field 0 2 3 21", "refused 7 10"])
expect("missing CRLF", b"To: a at b", ["refused 4 10"])
expect("quoted line end", b'To: "a\\\r\n b"@c\r\n', ["field 0 2 3 14", "address 1 0 0 4 14 4 12"])

# sizes: the longest message, one byte more, and much more
expect("32,768 bytes", b"A:" + b"x" * 32764 + b"\r\n", ["field 0 1 2 32766"])
expect("32,769 bytes", b"A:" + b"x" * 32765 + b"\r\n", ["refused 1 32768"])
expect("a million bytes", b"A:" + b"x" * 10**6 + b"\r\n", ["refused 1 32768"])

# tables: 2,048 records and one more, of fields and of addresses
expect("2,048 fields", b"A:\r\n" * 2048, [f"field {4 * i} {4 * i + 1} {4 * i + 2} {4 * i + 2}" for i in range(2048)])
expect("2,049 fields", b"A:\r\n" * 2049, ["refused 11 0"])
quoted = [f"address 4 0 0 {3 + 3 * i} {5 + 3 * i} {3 + 3 * i} {5 + 3 * i}" for i in range(2048)]
expect("2,048 addresses", b"To:" + b'"",' * 2048 + b"\r\n", ["field 0 2 3 6147"] + quoted)
expect("2,049 addresses", b"To:" + b'"",' * 2049 + b"\r\n", ["field 0 2 3 6150", "refused 11 0"])

# levels: 64 and 65
angles = [f"address 2 {i} {i} {3 + i} {131 - i} {3 + i} {3 + i}" for i in range(64)]
expect("64 levels", b"To:" + b"<" * 64 + b">" * 64 + b"\r\n", ["field 0 2 3 131"] + angles)
expect("65 levels", b"To:" + b"<" * 65 + b">" * 65 + b"\r\n", ["field 0 2 3 133", "refused 10 67"])

# a listing that is printed in ten windows: towers of 64 levels, 32 to a field, in the longest message that holds whole ones
tower = b"<" * 64 + b">" * 64 + b","
field = b"To:" + tower * 32 + b"\r\n"
last = b"To:" + tower * ((32768 - 7 * len(field) - 5) // len(tower)) + b"\r\n"
message, lines, at = b"", [], 0
for part in [field] * 7 + [last]:
    lines.append(f"field {at} {at + 2} {at + 3} {at + len(part) - 2}")
    for i in range(part.count(b",") * 64):
        level, first = i % 64, at + 3 + i // 64 * len(tower)
        lines.append(f"address 2 {level} {i if level else 0} {first + level} {first + 128 - level} {first + level} {first + level}")
    message, at = message + part, at + len(part)
expect("ten windows", message, lines)

# any bytes: it ends, without a crash, and every line has one of the forms
seed = 733
random.seed(seed)
words = [b"To:", b"cc:", b"Date: ", b"\r\n", b"\r\n ", b"at ", b"a", b"<", b">", b":", b";", b",", b'"', b"(", b")", b"[", b"]", b"@", b".", b"\\", b"1 Jan 77 1200 Z", b"\x00", b"\xff"]
for i in range(400):
    if i % 2:
        message = bytes(random.randrange(256) for _ in range(random.randrange(2000)))
    else:
        message = b"To:" + b"".join(random.choice(words) for _ in range(random.randrange(300))) + b"\r\n"
    for edition in (733, 822):
        status, out = run(message, edition)
        seen += 1
        if status != 0 or LINE.sub(b"", out) != b"":
            faults.append(f"seed {seed}, message {i}, edition {edition}: exit {status}: {message!r}")

# standard input that is closed, or a directory
for edition in (733, 822):
    for name, how in (("closed", "<&-"), ("a directory", "</")):
        done = subprocess.run(["sh", "-c", f'"{program(edition)}" {how}'], capture_output=True, timeout=60)
        seen += 1
        if done.returncode < 0 or done.stdout != b"" or done.stderr != f"rfc{edition}: standard input cannot be read\n".encode():
            faults.append(f"standard input {name}: exit {done.returncode}, {done.stdout!r}, {done.stderr!r}")

# ---- read-header

kept = tempfile.TemporaryDirectory()
folder = pathlib.Path(kept.name)


def call(words, given=b"", home=root):
    """Exit status, standard output and standard error of a program of the root, run in the folder."""
    done = subprocess.run([home / words[0], *words[1:]], input=given, capture_output=True, timeout=60, cwd=folder)
    return done.returncode, done.stdout, done.stderr


def expect_call(name, words, given, status, out, err, home=root):
    """What a program gives; of standard error, the words in order, the program's name before each."""
    global seen
    seen += 1
    got = call(words, given, home)
    wanted = (status, out, "".join(f"{words[0]}: {line}\n" for line in err).encode())
    if got != wanted:
        faults.append(f"{name}:\n  wanted {wanted}\n  got    {got}")


def expect_same(name, got, wanted):
    global seen
    seen += 1
    if got != wanted:
        faults.append(f"{name}: wanted {wanted!r}, got {got!r}")


# the edition is told; where it is not, it is 733
lines = "".join(line + "\n" for line in of822.lines).encode()
expect_call("edition 822", ["read-header", "--edition", "822", root / "examples/rfc822.txt"], b"", 0, lines, [])
expect_call("edition 822, from standard input", ["read-header", "--edition=822"], of822.text, 0, lines, [])
for text in sorted((root / "examples").glob("*.txt")):
    expect_same(f"{text.name}, 733", call(["read-header", "--edition", "733", text]), call(["read-header", text]))
expect_call("no edition", ["read-header", "--edition", "82"], b"", 2, b"", ["no edition 82: there are 733 and 822"])
expect_call("an edition with a zero before it", ["read-header", "--edition=0822"], b"", 2, b"", ["no edition 0822: there are 733 and 822"])
expect_call("no such message", ["read-header", "--edition", "822", "none"], b"", 2, b"", ["none is no file that can be read"])
for wrong in (["--edition"], ["--none"], ["a", "b"]):
    status, out, err = call(["read-header", *wrong])
    expect_same(f"read-header {wrong}", (status, out, b"usage: ./read-header " in err), (2, b"", True))

# ---- make-store and expand-header

built = subprocess.run([root / "build-library"], capture_output=True, text=True)
if built.returncode != 0:
    sys.exit(f"build-library: exit {built.returncode}\n{built.stdout}{built.stderr}")


def store_of(*entries):
    """A store, from names and lists."""
    return b"".join(name.ljust(64, b"\0") + text.ljust(448, b" ") for name, text in entries)


def made(text):
    """The store that is made of a text which is not refused."""
    expect_call(f"making {text[:60]!r}", ["make-store", "-", "made.store"], text, 0, b"", [])
    return (folder / "made.store").read_bytes()


# the example: the lines of a list are put together with one SPACE
expect_call("the example is made", ["make-store", root / "examples/stored-lists.txt", "lists.store"], b"", 0, b"", [])
wanted = store_of(
    (b"secretaries at Other-Host", b"KSecy at Other-Host"),
    (b"cooks at WGBH", b"Childs at WGBH, Galloping Gourmet at ANT"),
    (
        b'"<Jones>standard.dist.3" at Tops-20-Host',
        b"Important folk: Tom Softwood <Balsa at Another-Host>, Sam Irving at Other-Host;, "
        b':Postal: "Sam Irving, P.O. Box 001, Las Vegas, Nevada" (So that he can stay apprised of the situation), '
        b":Include: wine-lovers at Discount-Liquors",
    ),
    (b"wine-lovers at Discount-Liquors", b"Cheapie at Discount-Liquors, Port at Portugal"),
    (b"mirror at Mad-Host", b"Al Neuman at Mad-Host, :Include: mirror at Mad-Host"),
)
expect_same("the example's store", (folder / "lists.store").read_bytes(), wanted)
expect_same("the example is printed and made again", made(call(["make-store", "--show", "lists.store"])[1]), wanted)

# the form of the text
expect_same("no names", made(b"# nothing\n\n"), b"")
expect_same("line ends", made(b"a at x:\r\n\tb@c,\r\n  d@e  \r\n"), store_of((b"a at x", b"b@c, d@e")))
expect_same("no line end", made(b"a at x:\n b@c"), store_of((b"a at x", b"b@c")))
expect_same("a name with colons", made(b'"a:": b at x: \t\n b@c'), store_of((b'"a:": b at x', b"b@c")))
expect_same("no list", made(b"a at x:\nb at y:\n "), store_of((b"a at x", b""), (b"b at y", b"")))
expect_same("remarks", made(b"#\xff:\na at x:\n b@c,\n#d@e\n\n #f@g\n"), store_of((b"a at x", b"b@c, #f@g")))
expect_same("spaces inside", made(b"a at x:\n b@c,  \t d@e\n"), store_of((b"a at x", b"b@c,  \t d@e")))
expect_same("a name of 64 bytes, a list of 448", made(b"a at " + b"x" * 59 + b":\n " + b"b" * 448), b"a at " + b"x" * 59 + b"b" * 448)
remark = 'standard input:{}: remark: no Include finds "{}": a plain text is as in "phrase at node"'
never = b"a@x:\na at x :\n"
expect_call("names that are never found", ["make-store", "-", "never.store"], never, 0, b"", [remark.format(1, "a@x"), remark.format(2, "a at x ")])

# refusals: the line, and the store as it was
(folder / "kept.store").write_bytes(b"as it was")
before = sorted(folder.iterdir())
for name, text, err in (
    ("an empty name", b":\n b@c\n", ['1: the name before the ":" is empty']),
    ("a name of 65 bytes", b"#\n" + b"x" * 65 + b":\n", [f'2: the name has 65 bytes, and a record holds 64: "{"x" * 65}"']),
    ("a name that ends with a zero", b"x\0:\n", ['1: the name ends with a zero, which is padding in a record: "x\\x00"']),
    ("a list of 449 bytes", b"\na at x:\n " + b"b" * 447 + b"\n c", ['2: the list of "a at x" has 449 bytes, and a record holds 448']),
    ("a list without a name", b"\n b@c\n", ['2: a list without a name: a name starts its line, and a ":" ends it']),
    (
        "a name without a colon",
        b"a at x\n b@c\n",
        ['1: no ":" ends this line: a name\'s line ends with it, and the lines of a list start with white space'],
    ),
    ("a byte above 127 in a name", b"a\x80 at x:\n", ["1: byte 128 in column 2: names and lists have bytes up to 127"]),
    ("a byte above 127 in a list", b"a at x:\n b@c,\n \xc3\xa9@c", ["3: byte 195 in column 2: names and lists have bytes up to 127"]),
    ("a name twice", b"a at x:\nb at y:\na at x:\n", ['3: the name "a at x" stands on line 1 already, so this list would never be opened']),
    ("two faults", b"#\n:\na at x:\n\xff\n", ['2: the name before the ":" is empty', "4: byte 255 in column 1: names and lists have bytes up to 127"]),
):
    expect_call(name, ["make-store", "-", "kept.store"], text, 1, b"", ["standard input:" + line for line in err])
expect_same("a refused text leaves the store", (folder / "kept.store").read_bytes(), b"as it was")
(folder / "text").write_bytes(b" b@c\n")
expect_call("the file is named", ["make-store", "text", "kept.store"], b"", 1, b"", ['text:1: a list without a name: a name starts its line, and a ":" ends it'])
expect_call("the text as the store", ["make-store", "text", "text"], b"", 2, b"", ["text is the text itself"])
expect_call("no such folder", ["make-store", "-", "none/made.store"], b"", 2, b"", ["none/made.store cannot be written: No such file or directory"])
expect_call("a folder as the store", ["make-store", "-", "."], b"", 2, b"", [". cannot be written: it is no file"])
expect_call("no such text", ["make-store", "none", "kept.store"], b"", 2, b"", ["none cannot be read"])
tool = root / "make-store"
done = subprocess.run(["sh", "-c", f'ulimit -f 1; "{tool}" "{root}/examples/stored-lists.txt" kept.store'], capture_output=True, timeout=60, cwd=folder)
expect_same("no room on the disk", (done.returncode, done.stderr), (2, b"make-store: kept.store cannot be written: File too large\n"))
expect_same("the store is as it was", (folder / "kept.store").read_bytes(), b"as it was")
expect_same("nothing half-written is left", sorted(folder.iterdir()), sorted(before + [folder / "text"]))
expect_same("nor beside what was made", list(folder.glob("*.part")), [])

# printing: what a text cannot say is told
zeros = (b"f at x", b"n@o".ljust(448, b"\0"))
foreign = store_of((b"a at x", b"b@c"), (b"a at x", b"d@e"), (b"", b"f@g"), (b"#b at x", b""), (b"c at x", b" h@i"))
foreign += store_of((b"d at x", b"j@k,\r\n l@m"), (b"e at x", b"\xff"), zeros) + b"short"
(folder / "foreign.store").write_bytes(foreign)
status, out, err = call(["make-store", "--show", "foreign.store"])
expect_same("a store from elsewhere: status", status, 1)
expect_same("a store from elsewhere: records", made(out), store_of((b"a at x", b"b@c"), zeros))
expect_same("a store from elsewhere: told", re.findall(rb"store: (?:record|its last) (\d)", err), [b"1", b"2", b"3", b"4", b"5", b"6", b"5"])
expect_same("a store from elsewhere: remarks", re.findall(rb"(?m)^# record (\d)", out), [b"1", b"2", b"3", b"4", b"5", b"6"])

# any names and lists that a text can say: made, printed and made again
pieces = [b"a", b"at", b" ", b"  ", b", ", b",", b":", b";", b"#", b'"', b"\\", b"\t", b"(", b")", b"\0", b"\x7f"]
for i in range(12):
    text = b""
    for j in range(random.randrange(20)):
        text += b"%d at " % j + b"".join(random.choice(pieces) for _ in range(random.randrange(20))) + b"x:\n"
        for _ in range(random.randrange(4)):
            text += b" " + b"".join(random.choice(pieces) for _ in range(random.randrange(50))) + b"\n"
    first = made(text)
    (folder / "again.store").write_bytes(first)
    expect_same(f"seed {seed}, text {i}: printed and made again", made(call(["make-store", "--show", "again.store"])[1]), first)

# the example header; of the refused fields, the words from which they are found, and what stands before the Include
message = (root / "examples/with-includes.txt").read_bytes()
lines = [
    b"From: Ken Davis <KDavis at Other-Host>",
    b"Reply-To: KSecy at Other-Host",
    b"To: Gourmets: Pompous Person <WhoZiWhatZit at Cordon-Bleu>, Childs at WGBH, Galloping Gourmet at ANT;, Jones at SEA",
    b"cc: Standard Distribution: Important folk: Tom Softwood <Balsa at Another-Host>, Sam Irving at Other-Host;, "
    b':Postal: "Sam Irving, P.O. Box 001, Las Vegas, Nevada", Cheapie at Discount-Liquors, Port at Portugal;',
]
nowhere, budget = "an Include leads to no stored list", "a 65th stored list would be opened"
told = [
    f"cc: refused 19 at {message.index(b':Include: Non-net')}: {nowhere}; openings before: 0",
    f"bcc: refused 19 at {message.index(b':Include: nobody')}: {nowhere}; openings before: 0",
    f"bcc: refused 20 at {message.index(b':Include: mirror')}: {budget}; openings before: 64",
]
shown = b"".join(line + b"\n" for line in lines)
expect_call("the example header", ["expand-header", "--store", "lists.store", root / "examples/with-includes.txt"], b"", 1, shown, told)
expect_call("from standard input", ["expand-header", "--store=lists.store"], message, 1, shown, told)


def expect_expanded(name, store, message, out, err):
    (folder / "one.store").write_bytes(store)
    expect_call(name, ["expand-header", "--store", "one.store"], message, 1 if err else 0, out, err)


# which fields, and their names as they stand
one = store_of((b"a at x", b"m@h"))
every = b"TO \t:u@v\r\nFrom:\r\nreply-TO:a@b\r\nSender: x\r\nDate: x\r\nBcc:,,\r\nCC::include:a@x\r\n\r\nTo: text"
expect_expanded("names of fields", one, every, b"TO: u at v\nFrom: \nreply-TO: a at b\nBcc: \nCC: m at h\n", [])
expect_expanded("no field", one, b"", b"", [])
expect_expanded("an empty store", b"", b"To:u@v\r\ncc: :Include:a@x\r\n", b"To: u at v\n", [f"cc: refused 19 at 12: {nowhere}; openings before: 0"])
expect_expanded("an LF that is quoted", one, b'To:"a\n"\r\n', b'To: "a\\\n"\n', [])
expect_expanded("a line end that is quoted", one, b'To:"a\\\r\n b"\r\n', b'To: "a\\\r\\\n b"\n', [])

# refused bodies and headers: the position in the message
expect_expanded("an open quote", one, b'cc: :Include:a@x\r\nTo:"\r\n', b"cc: m at h\n", ["To: refused 5 at 21: a quoted-string is not closed; openings before: 0"])
expect_expanded("a symbol too many", one, b"To:a at b c\r\n", b"", ["To: refused 8 at 10: no address list goes on with this symbol; openings before: 0"])
expect_expanded("a header without colon", one, b"To:a@b\r\nno\r\n", b"", ["the header is refused 2 at 10: a byte that a field name may not have"])
expect_expanded("a header without end", one, b"To:a@b", b"", ["the header is refused 4 at 6: the header ends without CRLF"])
expect_expanded("a header too long", one, b"To:" + b" " * 32768 + b"\r\n", b"", ["the header is refused 1 at 32768: the message is over 32,768 bytes"])

# stored lists that are refused: their records
bad = store_of((b"a at x", b"m@h"), (b'"\x01" at x', b'"'), (b"c at z", b"m"), (b"d at w", b":Include: c at z"))
told = 'To: refused 5 in record 1, ""\\x01" at x": a quoted-string is not closed; openings before: 1'
expect_expanded("a list not closed", bad, b'To::Include:a@x,:Include:"\x01"@x\r\n', b"", [told])
told = 'To: refused 9 in record 2, "c at z": the list ends in the middle of an address; openings before: 1'
expect_expanded("by another list", bad, b"To: :Include: d at w\r\n", b"", [told])

# 10: of the body, of a record, and joined, also where the Include's place is the number of a record that is refused by 10
deep = "addresses nest deeper than 64 levels; openings before: 0"
levels64, levels65 = b"<" * 64 + b">" * 64, b"<" * 65 + b">" * 65
included = b"To:<:Include: a at x>\r\n"
expect_expanded("10 of the body", one, b"To:" + levels65 + b"\r\n", b"", [f"To: refused 10 at 67: {deep}"])
expect_expanded("10 of a record", store_of((b"", b""), (b"a at x", levels65)), included, b"", [f'To: refused 10 in record 1, "a at x": {deep}'])
expect_expanded("10 joined", store_of((b"a at x", levels64)), included, b"", [f"To: refused 10 at 4: {deep}"])
expect_expanded("10 joined, beside a record", store_of((b"a at x", levels64), (b"b at y", levels65)), included, b"", [f"To: refused 10 at 4: {deep}"])
opened = store_of((b"a at x", b"<:Include: b at y>"), (b"b at y", levels64))
told = "To: refused 10 at 3: addresses nest deeper than 64 levels; openings before: 1"
expect_expanded("10 joined, at the number of a record that was opened", opened, b"To::Include: a at x\r\n", b"", [told])

# thousands of records, the last one found
many = store_of(*((b"n%d at x" % i, b"m%d@h" % i) for i in range(6000)))
expect_expanded("6,000 records", many, b"To: :Include: n5999@x, :Include: n0@x\r\n", b"To: m5999 at h, m0 at h\n", [])

# any bytes in message and store: it ends with 0 or 1, and every line has a form
TOLD = re.compile(
    rb"expand-header: (the header is refused \d+ at \d+: [ -~]+"
    rb'|[!-~][\t -~]*: refused \d+ (at \d+|in record \d+, "[ -~]*"): [ -~]+; openings before: \d+)\n'
)
include_words = words + [b":Include:a at a", b"a at a", b":Include:"]
for i in range(40):
    message = b"To:" + b"".join(random.choice(include_words) for _ in range(random.randrange(40))) + b"\r\n"
    store = bytes(random.randrange(256) for _ in range(random.randrange(700)))
    if i % 2:
        store = store_of((b"a at a", random.choice([b"a at", b"a at a", b":Include:a at a", message[3:300]]))) + store
    (folder / "one.store").write_bytes(store)
    status, out, err = call(["expand-header", "--store", "one.store"], message)
    seen += 1
    if status not in (0, 1) or TOLD.sub(b"", err) != b"" or (status == 1) != (err != b""):
        faults.append(f"seed {seed}, message {i}: exit {status}, {err!r}: {message!r}")

# wrong use: told, and 2
for tool in ("make-store", "expand-header"):
    status, out, err = call([tool, "--help"])
    expect_same(f"{tool} --help", (status, out.startswith(f"usage: ./{tool} ".encode()), err), (0, True, b""))
for wrong in (
    ["make-store"],
    ["make-store", "text"],
    ["make-store", "--none", "text"],
    ["make-store", "text", "made.store", "more"],
    ["make-store", "text", "-"],
    ["expand-header"],
    ["expand-header", "--none"],
    ["expand-header", "--store"],
    ["expand-header", "--store", "one.store", "text", "text"],
):
    status, out, err = call(wrong)
    expect_same(f"{wrong}", (status, out, f"usage: ./{wrong[0]} ".encode() in err), (2, b"", True))
expect_call("no such store", ["expand-header", "--store", "none"], b"", 2, b"", ["none cannot be read"])
expect_call("no such message", ["expand-header", "--store", "one.store", "none"], b"", 2, b"", ["none cannot be read"])

# standard input that is closed
for words in ("make-store - made.store", "expand-header --store one.store"):
    done = subprocess.run(["sh", "-c", f'"{root}"/{words} <&-'], capture_output=True, timeout=60, cwd=folder)
    tool = words.split()[0]
    expect_same(f"{tool}, closed", (done.returncode, done.stdout, done.stderr), (2, b"", f"{tool}: standard input cannot be read\n".encode()))

# a copy of the program without the library
(folder / "python").mkdir()
shutil.copy(root / "expand-header", folder)
shutil.copy(root / "python/rfc733.py", folder / "python")
expect_call("no library", ["expand-header", "--store", "one.store"], b"To:a@b\r\n", 2, b"", ["the shared library is not built: run ./build-library first"], folder)

for fault in faults:
    print(fault)
print(f"tests run: {seen}")
sys.exit(1 if faults or not seen else 0)
