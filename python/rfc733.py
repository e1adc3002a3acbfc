"""Reading mail headers in the form of RFC 733, and address lists in that of RFC 822 too, over the shared library that
./build-library makes.

Positions count bytes from the start of the bytes given, from 0; every end is the position after the last byte.
"""
import ctypes
import pathlib
from collections import namedtuple

Field = namedtuple("Field", "name_start name_end body_start body_end")
LookedUp = namedtuple("LookedUp", "number compared")
Address = namedtuple("Address", "kind depth parent start end name_start name_end")
Symbol = namedtuple("Symbol", "kind start end length apart")
Touched = namedtuple("Touched", "what path")
Expanded = namedtuple("Expanded", "text openings")

_PATH = pathlib.Path(__file__).resolve().parent.parent / "target/lib/librfc733.so"
_library = None


class Refused(ValueError):
    """A refusal: `number` and `place` are those of the table of answer numbers in the README.

    `expected`: what could have stood at the place, if `touch` was asked and the number is 8, 9 or 10; else empty.
    `openings`: how many stored lists were opened before, if `expand` was asked; else None.
    """

    def __init__(self, number, place, expected=(), openings=None):
        more = f", expected {' '.join(expected)}" if expected else ""
        more += "" if openings is None else f", stored lists opened: {openings}"
        super().__init__(f"refused {number} at {place}{more}")
        self.number, self.place, self.expected, self.openings = number, place, expected, openings


def _load():
    global _library
    if _library is None:
        if not _PATH.exists():
            raise RuntimeError("the shared library is not built: run ./build-library first")
        _library = ctypes.CDLL(str(_PATH))
    return _library


def _lent(data):
    """Bytes as a pointer and a length."""
    return ctypes.create_string_buffer(bytes(data), len(data) + 1), ctypes.c_size_t(len(data))


def _call(name, data, positions, room, *besides):
    """The answer of a function that writes into a part of `room` bytes, and the part; `besides` is lent as well."""
    told = (ctypes.c_uint64 * 4)()
    part = ctypes.create_string_buffer(room + 1)
    places = [ctypes.c_size_t(p) for p in positions]
    lent = [half for other in besides for half in _lent(other)]
    getattr(_load(), name)(*_lent(data), *places, *lent, part, ctypes.c_size_t(room), told, ctypes.c_size_t(4))
    return told, part.raw


def _filled(name, data, positions, size, *besides):
    """The answer of such a function and what it writes, in parts of `size` bytes: asked once for the count, and then
    with room for it."""
    told, part = _call(name, data, positions, 0, *besides)
    if told[0] == 11:
        told, part = _call(name, data, positions, told[2] * size, *besides)
    return told, part[: told[2] * size]


def _written(name, data, positions, size):
    """What such a function writes. Raises `Refused`."""
    told, part = _filled(name, data, positions, size)
    if told[0] != 0:
        raise Refused(told[0], told[1])
    return part


def _two(record, at):
    return record[at] * 256 + record[at + 1]


def fields(message):
    """The fields of a message, in order, as `Field` positions. Raises `Refused`."""
    table = _written("rfc733_split", message, (), 8)
    return [Field(*(_two(table, at + i) for i in (0, 2, 4, 6))) for at in range(0, len(table), 8)]


def looked_up(name):
    """Which known field name a name is, and how many it was compared with, as `LookedUp`. Case is ignored.

    number: 1 Date, 2 From, 3 Reply-To, 4 To, 5 cc, 6 Bcc; 0 for any other.
    compared: how many known names were compared letter by letter: 1 if one has that length and first letter, else 0.

        looked_up(b"rEPLY-tO")  # LookedUp(number=3, compared=1)
        looked_up(b"tx")  # LookedUp(number=0, compared=1)
        looked_up(b"xo")  # LookedUp(number=0, compared=0)
    """
    function = _load().rfc733_known_name
    function.restype = ctypes.c_uint32
    compared = ctypes.c_uint64()
    number = function(*_lent(name), ctypes.byref(compared))
    return LookedUp(number, compared.value)


def known_name(name):
    """The number of a known field name: 1 Date, 2 From, 3 Reply-To, 4 To, 5 cc, 6 Bcc; 0 for any other. Case is ignored."""
    return looked_up(name).number


_KINDS = (None, "atom", "quoted", "at", "<", ">", ",", ";", ":", "other")


def symbols(body):
    """The symbols of a body, in order, as `Symbol`s, each found when it is asked for. Raises `Refused`.

    kind: "atom", "quoted", "at" for "@" and the atom "at" in any case of letters, "<", ">", ",", ";", ":", or "other" for
    a lone ")" or backslash.
    length: that of its meaning in bytes: of a quoted-string without quotes, taking backslashes and dropped line ends.
    apart: whether white space or a comment stands right before it.

        list(symbols(b'<"a" b'))  # lengths 1, 1, 1; only the last is apart

    A fault of scanning is raised after the symbols before it; a body over the limit is refused by 1 before any symbol.
    """
    lent, length = _lent(body)
    told = (ctypes.c_uint64 * 7)()
    at = 0
    while True:
        _load().rfc733_next_symbol(lent, length, ctypes.c_size_t(at), length, told, ctypes.c_size_t(7))
        number, place, kind, start, at, meaning, apart = told
        if number != 0:
            raise Refused(number, place)
        if kind == 0:
            return
        yield Symbol(_KINDS[kind], start, at, meaning, apart == 1)


def _read_addresses(name, body, *edition):
    """What an address reader of the library gives for a body."""
    table = _written(name, body, (0, len(body), *edition), 12)
    return [Address(table[at], table[at + 1], *(_two(table, at + i) for i in (2, 4, 6, 8, 10))) for at in range(0, len(table), 12)]


def addresses(body, edition=733):
    """The addresses of a list, in order, as `Address` records. Raises `Refused`.

    edition: 733 for a list by RFC 733, 822 for one by RFC 822; any other number is refused by 21.
    kind: 1 mailbox, 2 angle list, 3 group, 4 quoted-string, 5 Include, 6 Postal, 7 other typed; by RFC 822, 1 local-part
    and domain, the local-part its name, 2 phrase and route-addr, with a kind 1 in it, 3 group.
    parent: the place in the list, from 1, of the address it lies in; 0 where it lies in none.

        addresses(b"Al <a.b@c>", edition=822)  # kinds 2 and 1, names "Al" and "a.b"
    """
    fits = ctypes.c_size_t(edition).value == edition
    return _read_addresses("rfc733_addresses", body, edition if fits else 0)


def addresses_by_table(body):
    """As `addresses` by RFC 733, by the second reader, for machines with a small stack: no function of it calls itself.

    It is proved that it gives the same records and the same refusals for every body.
    """
    return _read_addresses("rfc733_addresses_by_table", body)


def plain(body):
    r"""An address list written plainly, as bytes. Raises `Refused`.

    In a quoted-string a line end that a backslash takes, with white space after it, is data: CR and LF, each written
    after a backslash of its own. Any other goes, and the white space after it stays:

        plain(b'"a\\\r\n b"')  # b'"a\\\r\\\n b"'
        plain(b'"a\r\n b"')  # b'"a b"'
    """
    return _written("rfc733_plain", body, (0, len(body)), 1)


def plain_length(body):
    """How many bytes `plain` gives for an address list, told without writing them: its width in print. Raises `Refused`.

        plain_length(b"a@(home) b,")  # 6, for a at b
    """
    told, _ = _call("rfc733_plain", body, (0, len(body)), 0)
    if told[0] not in (0, 11):
        raise Refused(told[0], told[1])
    return told[2]


def same_addresses(body, other):
    """Whether two address lists have the same addresses. Raises `Refused` where one is not accepted, `body` asked first.

    Their plain texts are compared. That is right because it is proved that two accepted bodies have the same plain
    text exactly if they have the same kinds, nesting, names and nodes, word by word, case counting; an atom and a
    quoted-string are never the same word. White space, comments, commas and "@" against "at" do not count:

        same_addresses(b"a@b", b"a at (home) b,")  # True
        same_addresses(b"a@b", b"A@b")  # False
    """
    return plain(body) == plain(other)


def expand(body, store):
    """An address list written plainly, each Include in it replaced by a stored list. Raises `Refused`.

    store: records of 512 bytes, 64 of name padded with zeros and 448 of list padded with spaces; a tail short of a
    record is ignored. An Include holds a mailbox or an angle list of mailboxes; the first of these whose plain text is
    the name of a record, byte for byte, leads to its list, the lowest such record winning. Includes in stored lists are
    replaced likewise, in text order and depth first, by at most 64 openings.
    text: the expanded list, as bytes; it is proved that no Include is left in it.
    openings: how many stored lists were opened.

        store = b"a at x".ljust(64, b"\\0") + b"m@h, <n@h>".ljust(448)
        expand(b"u@v, :Include: a at x", store)  # Expanded(text=b'u at v, m at h, <n at h>', openings=1)

    Refused are a body that `plain` refuses, by its number and place; and at an Include, in this order: by 19 one that
    leads to no stored list, holds another kind, or stands directly inside another typed address; by 20 a 65th opening;
    a stored list that is refused, by its own number, `place` being the number of its record, from 0; by 10 lists that
    together have more than 64 levels. With 19, 20 and 10 the place is the Include in the body that led there.
    """
    told, text = _filled("rfc733_expand", body, (0, len(body)), 1, store)
    if told[0] != 0:
        raise Refused(told[0], told[1], openings=told[3])
    return Expanded(text, told[3])


_BYTES = (None, "white space", "comment", "word", "at", "mark")
_THINGS = ("word", "at", "<", ">", "@", ",", ";", ":", "end")
_LONGEST_PATH = 65  # 64 levels, and an address within the last


def touch(body, place):
    """What the byte at a place of an address list is, and the addresses around it. Raises `Refused`.

    what: "white space", "comment", "word", "at" or "mark"; a fold in a quoted-string or comment belongs to it, "@" is a
    mark.
    path: places in `addresses(body)`, from 0, of the addresses that cover the byte, from the innermost to the outermost.

        touch(b"g: <a@b>;", 5)  # Touched(what='mark', path=[2, 1, 0])

    For a list refused by 8, 9 or 10, wherever it is touched, `expected` of the `Refused` has each thing with which some
    list goes on at the refused place: "word", "at", a mark, or "end" where what stands before it is a list by itself. A
    list of more than 2,048 addresses is refused by 11, a place outside of an accepted one by 13.
    """
    told = (ctypes.c_uint64 * 5)()
    path = (ctypes.c_uint64 * _LONGEST_PATH)()
    inside = 0 <= place < len(body)
    places = [ctypes.c_size_t(p) for p in (0, len(body), place if inside else len(body))]
    _load().rfc733_touch(*_lent(body), *places, path, ctypes.c_size_t(_LONGEST_PATH), told, ctypes.c_size_t(5))
    if told[0] != 0:
        raise Refused(told[0], told[1], tuple(thing for i, thing in enumerate(_THINGS) if told[4] >> i & 1))
    return Touched(_BYTES[told[3]], path[: told[2]])


def date(body):
    """A date as seconds from 1 January 1900, 00:00 GMT. Raises `Refused`."""
    told = (ctypes.c_uint64 * 3)()
    seconds = ctypes.c_int64()
    _load().rfc733_date(*_lent(body), ctypes.c_size_t(0), ctypes.c_size_t(len(body)), told, ctypes.c_size_t(3), ctypes.byref(seconds))
    if told[0] != 0:
        raise Refused(told[0], told[1])
    return seconds.value
