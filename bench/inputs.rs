// The inputs: a part repeated up to a size, and what is to be found in it, counted by hand in the part.

struct Part {
    text: &'static [u8],
    // Mailboxes where the C libraries read it too, else records.
    addresses: usize,
    // An angle list has a record of its own.
    records: usize,
    // Written plainly; empty where that is not measured.
    plain: &'static [u8],
}

// An input of a size is the first part that fits, as often as it fits.
struct List {
    name: &'static str,
    parts: &'static [Part],
}

const fn part(text: &'static [u8], addresses: usize, records: usize) -> Part {
    Part { text, addresses, records, plain: b"" }
}

const SHORT: Part = part(b"neuman@mad.host", 1, 1);

// Lists that RFC 733 and RFC 822 both have. The first is measured at every size, the others show how much depends on the list.
const COMMON: [List; 6] = [
    List {
        name: "common list",
        parts: &[
            part(
                b"Al Neuman <neuman@mad.host>, childs@wgbh.org, \"Sam, Irving\" <sam@other.host> (away),\r\n irving@other.host",
                4,
                6,
            ),
            SHORT,
        ],
    },
    List {
        name: "mailboxes",
        parts: &[part(b"neuman@mad.host, childs@wgbh.org, sam@other.host, irving@other.host", 4, 4)],
    },
    List { name: SHORT_MAILBOXES, parts: &[part(b"a@b, c@d, e@f, g@h", 4, 4)] },
    List {
        name: "long mailboxes",
        parts: &[part(
            b"Alfred.E.Neuman.the.elder@some-very-long-host-name.department.example, Julia.Child.of.the.kitchen@another-long-host-name.wgbh.example",
            2,
            2,
        )],
    },
    List { name: "names", parts: &[part(b"Al Neuman <neuman@mad.host>, Julia Child <childs@wgbh.org>", 2, 4)] },
    List {
        name: "quoted names",
        parts: &[part(b"\"Neuman, Al\" <neuman@mad.host>, \"Child, Julia\" <childs@wgbh.org>", 2, 4)],
    },
];

// Nearly all of its cost is that of records.
pub const SHORT_MAILBOXES: &str = "short mailboxes";

// With what RFC 822 reads in its own way, dots and a domain literal, and with a group, whose mailboxes count. Routes and
// empty places are RFC 822 too, but libetpan reads neither.
const LIST_822: List = List {
    name: "RFC 822 list",
    parts: &[
        part(
            b"Al Neuman <neuman@mad.host>, Alfred.E.Neuman@mad.host, \"Sam, Irving\" <sam@[10.0.0.51]> (away),\r\n Cooks: childs@wgbh.org, Julia Child <julia@wgbh.org>;",
            5,
            9,
        ),
        part(b"Al Neuman <neuman@mad.host>, \"Sam, Irving\" <sam@[10.0.0.51]> (away),\r\n Alfred.E.Neuman@mad.host", 3, 5),
        SHORT,
    ],
};

// With what only RFC 733 has: "at" in letters, an angle list and a group that are addresses themselves.
const LIST_733: List = List {
    name: "RFC 733 list",
    parts: &[
        Part {
            text: b"Al Neuman at Mad-Host, \"Sam, Irving\" <Sam at Other-Host> (away),\r\n Cooks: Childs@WGBH;",
            addresses: 5,
            records: 5,
            plain: b"Al Neuman at Mad-Host, \"Sam, Irving\" <Sam at Other-Host>, Cooks: Childs at WGBH;",
        },
        Part { text: b"Childs at WGBH", addresses: 1, records: 1, plain: b"Childs at WGBH" },
    ],
};

// Around the last byte of each part is one record: the group, and the mailbox.
const AROUND: usize = 1;

// Fields count as records.
const FIELDS: List = List {
    name: "split",
    parts: &[
        part(b"Subject: Re: The Syntax in the RFC,\r\n folded once\r\n", 0, 1),
        part(b"To: Al at WGBH\r\n", 0, 1),
    ],
};

// Includes that lead to stored lists. A stored list is the RFC 733 list, as often as it fits.
struct Openings {
    name: &'static str,
    // Bytes of each name.
    name_size: usize,
    // Includes in the body, and the mailboxes that each holds; the last of them is the first stored list's name.
    includes: usize,
    mailboxes: usize,
    // Stored lists; each but the last starts with an Include of the next.
    lists: usize,
    // Records before them. Their names differ from every name that is sought in the last byte only.
    others: usize,
    refused: bool,
}

const ONE: Openings =
    Openings { name: "1", name_size: 64, includes: 1, mailboxes: 1, lists: 1, others: 0, refused: false };

const OPENINGS: [Openings; 7] = [
    Openings { name: "64 of one list", includes: 64, ..ONE },
    Openings { name: "64 of one list", includes: 64, others: 4095, ..ONE },
    Openings { name: "65 of one list, refused", includes: 65, others: 4095, refused: true, ..ONE },
    Openings { name: "64 in each other", lists: 64, ..ONE },
    Openings { name: "64 in each other", lists: 64, others: 4032, ..ONE },
    Openings { name: "64 in each other and one more, refused", includes: 2, lists: 64, others: 4032, refused: true, ..ONE },
    Openings { name: "1, the last of 1,024 short names", name_size: 6, mailboxes: 1024, others: 255, ..ONE },
];

const STORE_NAME: usize = 64;
const STORE_LIST: usize = 448;
const OPENING_LIMIT: usize = 64;
const TOO_MANY_OPENINGS: usize = 20;

// The last bytes of names: of the stored lists, of the records before them, and of the names that no record has.
const LETTERS: &[u8] = b"ABCDEFGHIJKLMNOPQRSTUVWXYZabcdefghijklmnopqrstuvwxyz0123456789+-";
const OTHER: u8 = b'/';
const UNSTORED: u8 = b'~';

// Document 01 gives the seconds of `Monday, 21 Nov 77 1430-EST`.
const DATE: &[u8] = b"Monday, 21 Nov 1977 14:30:00-EST";
const DATE_SECONDS: usize = 2_457_977_400;

// Names of fields that are looked up, and the sum of the numbers told of them.
struct Group {
    name: &'static str,
    names: &'static [&'static [u8]],
    sum: usize,
}

// The known names have the numbers 1 to 6, all others 0. The near misses are examples of CR 5's issue, and names with another
// last letter.
const GROUPS: [Group; 3] = [
    Group { name: "the six known names", names: &[b"Date", b"From", b"Reply-To", b"To", b"cc", b"Bcc"], sum: 21 },
    Group { name: "names of other fields", names: &[b"Subject", b"Message-ID", b"Received", b"X-Mailer"], sum: 0 },
    Group {
        name: "near misses",
        names: &[
            b"tx", b"xo", b"", b"T", b"cc ", b"Reply\rTo", b"\xe3\xe3", b"\x14o", b"Dato", b"Fron", b"Reply-Tp", b"Bcd",
        ],
        sum: 0,
    },
];

const BETWEEN: &[u8] = b", ";

// Most headers are short.
const SIZES: [usize; 6] = [16, 110, SHORT_SIZE, ONCE, MIDDLE, LARGEST];
pub const SHORT_SIZE: usize = 320;
pub const MIDDLE: usize = 8192;
pub const LARGEST: usize = 32_768;
// The common list on both sides of the size up to which a body is read once.
pub const ONCE: usize = 1000;
pub const TWICE: usize = 1100;
const COMMON_SIZES: [usize; 7] = [16, 110, SHORT_SIZE, ONCE, TWICE, MIDDLE, LARGEST];
const DATE_SIZES: [usize; 1] = [DATE.len()];
// The case or group has the size.
const BY_CASE: [usize; 1] = [0];

// What is done with an input.
#[derive(Clone, Copy, PartialEq)]
pub enum Work {
    // Reading the common list of this number.
    Common(usize),
    // Reading the list of RFC 822 by its edition.
    List822,
    List733,
    Plain,
    // Writing a list without Include, the store empty.
    Expand,
    // Opening stored lists, case of this number.
    Openings(usize),
    // Touching the last byte of a list.
    Touch,
    Split,
    Date,
    // Looking up the names of the group of this number.
    Names(usize),
}

impl Work {
    // All but the openings.
    pub fn all() -> Vec<Work> {
        let mut all = Work::common();
        all.extend([Work::List822, Work::List733, Work::Plain, Work::Expand, Work::Touch, Work::Split, Work::Date]);
        all.extend((0..GROUPS.len()).map(Work::Names));
        all
    }

    fn common() -> Vec<Work> {
        (0..COMMON.len()).map(Work::Common).collect()
    }

    // Whether the C libraries read it too.
    pub fn for_libraries(self) -> bool {
        matches!(self, Work::Common(_) | Work::List822)
    }

    pub fn openings() -> Vec<Work> {
        (0..OPENINGS.len()).map(Work::Openings).collect()
    }

    pub fn opens(self) -> bool {
        matches!(self, Work::Openings(_))
    }

    // Whether its cost is that of a byte.
    pub fn by_byte(self) -> bool {
        !matches!(self, Work::Openings(_) | Work::Names(_))
    }

    // What its cost is that of.
    pub fn per(self) -> &'static str {
        match self {
            Work::Openings(_) => "opening",
            Work::Names(_) => "look-up",
            _ => "byte",
        }
    }

    pub fn name(self) -> String {
        match self {
            Work::Common(number) => format!("addresses, {}", COMMON[number].name),
            Work::List822 => format!("addresses, {}", LIST_822.name),
            Work::List733 => format!("addresses, {}", LIST_733.name),
            Work::Plain => "plain writing".to_string(),
            Work::Expand => "expansion, no Include".to_string(),
            Work::Openings(number) => OPENINGS[number].name.to_string(),
            Work::Touch => "touch, the last byte".to_string(),
            Work::Split => FIELDS.name.to_string(),
            Work::Date => "date".to_string(),
            Work::Names(number) => format!("look-up, {}", GROUPS[number].name),
        }
    }

    // The most bytes of each of its inputs.
    pub fn sizes(self) -> &'static [usize] {
        match self {
            Work::Date => &DATE_SIZES,
            Work::Common(0) => &COMMON_SIZES,
            Work::Common(_) => &[MIDDLE],
            Work::Openings(_) | Work::Names(_) => &BY_CASE,
            _ => &SIZES,
        }
    }
}

pub struct Input {
    pub work: Work,
    pub size: usize,
    pub text: Vec<u8>,
    pub store: Vec<u8>,
    // Addresses in it, 0 where none are read; or stored lists that are opened, or names that are looked up.
    pub addresses: usize,
    // What a reader with records or a value finds: records, bytes of text, records around the byte, fields, seconds, the
    // sum of numbers of names; of an expansion that is refused, its number.
    pub found: usize,
}

// The first part that fits into a size, as often as it fits.
struct Body {
    text: Vec<u8>,
    part: &'static Part,
    times: usize,
}

fn body(list: &List, between: &[u8], size: usize) -> Body {
    let part = list.parts.iter().find(|part| part.text.len() <= size).expect("a part that fits");
    let times = (size + between.len()) / (part.text.len() + between.len());
    Body { text: vec![part.text; times].join(between), part, times }
}

// The length of the plain text of a part, so many times.
fn plain_length(part: &Part, times: usize) -> usize {
    times * (part.plain.len() + BETWEEN.len()) - BETWEEN.len()
}

// The mailbox of so many bytes that ends with a letter, written plainly.
fn mailbox(size: usize, letter: u8) -> Vec<u8> {
    [&vec![b'a'; size - 5], &b" at "[..], &[letter]].concat()
}

fn include(held: &[u8]) -> Vec<u8> {
    [b":Include: ", held].concat()
}

fn record(name: &[u8], list: &[u8]) -> Vec<u8> {
    let mut bytes = name.to_vec();
    bytes.resize(STORE_NAME, 0);
    bytes.extend_from_slice(list);
    bytes.resize(STORE_NAME + STORE_LIST, b' ');
    bytes
}

// The store of a case, and how often the list stands in all that is opened at an Include of the body.
fn store(case: &Openings) -> (Vec<u8>, usize) {
    let name = |letter| mailbox(case.name_size, letter);
    let mut store = record(&name(OTHER), b"").repeat(case.others);
    let mut parts = 0;
    for number in 0..case.lists {
        let next = LETTERS.get(number + 1).filter(|_| number + 1 < case.lists);
        let front = next.map_or(vec![], |letter| [&include(&name(*letter)), BETWEEN].concat());
        let list = body(&LIST_733, BETWEEN, STORE_LIST - front.len());
        store.extend(record(&name(LETTERS[number]), &[front, list.text].concat()));
        parts += list.times;
    }
    (store, parts)
}

fn openings(work: Work, case: &Openings) -> Input {
    let (store, parts) = store(case);
    let sought = mailbox(case.name_size, LETTERS[0]);
    let held = match case.mailboxes {
        1 => sought,
        many => {
            let unstored = [mailbox(case.name_size, UNSTORED), b",".to_vec()].concat().repeat(many - 1);
            [b"<", &unstored[..], &sought, b">"].concat()
        }
    };
    let text = vec![include(&held); case.includes].join(BETWEEN);
    let (addresses, found) = match case.refused {
        true => (OPENING_LIMIT, TOO_MANY_OPENINGS),
        false => (case.includes * case.lists, plain_length(&LIST_733.parts[0], case.includes * parts)),
    };
    Input { work, size: text.len(), text, store, addresses, found }
}

// Each name stands after a byte with its length.
fn names(work: Work, group: &Group) -> Input {
    let text: Vec<u8> = group.names.iter().flat_map(|name| [&[name.len() as u8], *name].concat()).collect();
    Input { work, size: text.len(), text, store: vec![], addresses: group.names.len(), found: group.sum }
}

pub fn input(work: Work, size: usize) -> Input {
    let (list, between) = match work {
        Work::Openings(number) => return openings(work, &OPENINGS[number]),
        Work::Names(number) => return names(work, &GROUPS[number]),
        Work::Date => {
            return Input { work, size, text: DATE.to_vec(), store: vec![], addresses: 0, found: DATE_SECONDS };
        }
        Work::Common(number) => (&COMMON[number], BETWEEN),
        Work::List822 => (&LIST_822, BETWEEN),
        Work::List733 | Work::Plain | Work::Expand | Work::Touch => (&LIST_733, BETWEEN),
        Work::Split => (&FIELDS, &b""[..]),
    };
    let Body { text, part, times } = body(list, between, size);
    let found = match work {
        Work::Plain | Work::Expand => plain_length(part, times),
        Work::Touch => AROUND,
        _ => times * part.records,
    };
    Input { work, size, text, store: vec![], addresses: times * part.addresses, found }
}
