//! Random inputs of many kinds, each made from one stream of numbers.

/// A small generator of random numbers (splitmix64).
pub struct Rng(u64);

impl Rng {
    pub fn new(seed: u64) -> Self {
        Rng(seed)
    }

    pub fn next(&mut self) -> u64 {
        self.0 = self.0.wrapping_add(0x9E37_79B9_7F4A_7C15);
        let mut z = self.0;
        z = (z ^ (z >> 30)).wrapping_mul(0xBF58_476D_1CE4_E5B9);
        z = (z ^ (z >> 27)).wrapping_mul(0x94D0_49BB_1331_11EB);
        z ^ (z >> 31)
    }

    /// A number below `limit`; 0 if the limit is 0.
    pub fn below(&mut self, limit: usize) -> usize {
        (self.next() % limit.max(1) as u64) as usize
    }

    /// True once in `times`.
    pub fn once_in(&mut self, times: usize) -> bool {
        self.below(times) == 0
    }

    pub fn pick<'a, T: ?Sized>(&mut self, choices: &[&'a T]) -> &'a T {
        choices[self.below(choices.len())]
    }
}

#[derive(Clone, Copy, Debug, PartialEq, Eq)]
pub enum Kind {
    Bytes,
    Tokens,
    Symbols,
    Spaced,
    List,
    Mutant,
    Deep,
    Waves,
    Long,
    Header,
    Date,
    DateMutant,
    Reply,
    Name,
    Exchange,
    Pair,
    Expansion,
    List822,
    Mutant822,
    Soup822,
}

pub const KINDS: [Kind; 20] = [
    Kind::Bytes, Kind::Tokens, Kind::Symbols, Kind::Spaced, Kind::List, Kind::Mutant, Kind::Deep,
    Kind::Waves, Kind::Long, Kind::Header, Kind::Date, Kind::DateMutant, Kind::Reply,
    Kind::Name, Kind::Exchange, Kind::Pair, Kind::Expansion, Kind::List822, Kind::Mutant822,
    Kind::Soup822,
];

/// How often each kind is made, of 1,000.
const WEIGHTS: [usize; 20] =
    [30, 60, 70, 60, 60, 78, 70, 60, 4, 41, 30, 30, 14, 5, 62, 50, 76, 80, 70, 50];

/// Chooses the place of a kind in `KINDS`.
pub fn choose(rng: &mut Rng) -> usize {
    let mut left = rng.below(1_000);
    for (i, weight) in WEIGHTS.iter().enumerate() {
        if left < *weight {
            return i;
        }
        left -= weight;
    }
    0
}

/// One input of the kind.
pub fn body(rng: &mut Rng, kind: Kind) -> Vec<u8> {
    match kind {
        Kind::Bytes => bytes(rng, 40),
        Kind::Tokens => tokens(rng),
        Kind::Symbols => symbols(rng),
        Kind::Spaced => spaced(rng).0,
        Kind::List => list(rng),
        Kind::Mutant => {
            let valid = list(rng);
            mutate(rng, valid)
        }
        Kind::Deep => deep(rng),
        Kind::Waves => waves(rng),
        Kind::Long => long(rng),
        Kind::Header => header(rng),
        Kind::Date => date(rng),
        Kind::DateMutant => {
            let valid = date(rng);
            mutate(rng, valid)
        }
        Kind::Reply => reply(rng),
        Kind::Name => looked_up(rng),
        Kind::Exchange => commented(rng),
        Kind::Pair => pair(rng).0,
        Kind::Expansion => expansion(rng).0,
        Kind::List822 => list822(rng).0,
        Kind::Mutant822 => {
            let valid = list822(rng).0;
            mutate(rng, valid)
        }
        Kind::Soup822 => soup822(rng),
    }
}

// ----------------------------------------------------- bytes and tokens

/// Up to `limit` bytes, of all values or mostly below 128.
fn bytes(rng: &mut Rng, limit: usize) -> Vec<u8> {
    let length = rng.below(limit + 1);
    let top = if rng.once_in(3) { 256 } else { 128 };
    (0..length).map(|_| rng.below(top) as u8).collect()
}

const WORDS: [&[u8]; 14] = [
    b"x", b"A", b"att", b"a.b", b"[1]", b"Include", b"POSTAL", b"include", b"file", b"t",
    b"1Jan", b"-", b"~!#", b"}",
];

const QUOTED: [&[u8]; 14] = [
    b"\"\"", b"\"q\"", b"\"at\"", b"\"a b\"", b"\"\\\"\"", b"\"\\\\\"", b"\"(\"", b"\"\n\"",
    b"\"\\\r\"", b"\"\\\r\n \"", b"\"a\r\n b\"", b"\"\x00\t\x7F\"", b"\"\\\n\\a\"", b"\"<:;>,@\"",
];

/// What a quoted-string may hold, in any order, and still be closed by its
/// last quote: backslashes with what they take, and folds.
const PIECES: [&[u8]; 14] = [
    b"a", b" ", b"\n", b"\\a", b"\\\\", b"\\\"", b"\\\r", b"\\\n", b"\\\r\n", b"\\\r\n ",
    b"\\\r\n ", b"\\\r\n\t", b"\r\n ", b"\r\n\t",
];

/// A quoted-string of few pieces, or one of a table.
fn quoted(rng: &mut Rng) -> Vec<u8> {
    if !rng.once_in(3) {
        return rng.pick(&QUOTED).to_vec();
    }
    let pieces = 1 + rng.below(4);
    quoted_of(rng, pieces)
}

/// A quoted-string of so many pieces.
fn quoted_of(rng: &mut Rng, pieces: usize) -> Vec<u8> {
    let inner: Vec<u8> = (0..pieces).flat_map(|_| rng.pick(&PIECES).to_vec()).collect();
    [b"\"", &inner[..], b"\""].concat()
}

const SPACES: [&[u8]; 11] = [
    b" ", b"\t", b"  ", b"\r\n ", b"\r\n\t", b"(c)", b"(a(b)\")", b"(\\)\r\n \\()", b" \r\n \r\n ",
    b"(\n\x01)", b"(\\\r\n )",
];

const MARKS: [&[u8]; 10] =
    [b"at", b"AT", b"aT", b"@", b"<", b">", b":", b";", b",", b":A:"];

const FAULTS: [&[u8]; 19] = [
    b")", b"\\", b"\"", b"(", b"\r", b"\n", b"\r\n", b"\x00", b"\x7F", b"\x80", b"\xFF",
    b"\"\r\"", b"\"\\\x80\"", b"(\r)", b"\"a\r\nb\"", b"(\\", b"\"\\\r\n", b"\"\\\r\n\x80\"",
    b"\"\\\\\r\n\"",
];

/// Tokens of every sort, faulty ones now and then.
fn tokens(rng: &mut Rng) -> Vec<u8> {
    let mut out = Vec::new();
    for _ in 0..rng.below(16) {
        match rng.below(20) {
            0..=4 => out.extend_from_slice(rng.pick(&WORDS)),
            5..=6 => out.extend(quoted(rng)),
            7..=10 => out.extend_from_slice(rng.pick(&SPACES)),
            19 if rng.once_in(2) => out.extend_from_slice(rng.pick(&FAULTS)),
            _ => out.extend_from_slice(rng.pick(&MARKS)),
        }
    }
    out
}

/// Symbols of a small alphabet, so that short lists are met often.
fn symbols(rng: &mut Rng) -> Vec<u8> {
    let small: [&[u8]; 11] =
        [b"x", b"\"q\"", b"at", b"@", b"<", b">", b":", b";", b",", b"y", b")"];
    let mut parts: Vec<Vec<u8>> = Vec::new();
    let mut length = rng.below(14);
    while length > 0 {
        length -= 1;
        if rng.once_in(4) {
            let whole: [&[u8]; 5] = [b"x at y", b"\"q\"", b":A:", b"x:", b"x <"];
            parts.push(rng.pick(&whole).to_vec());
        } else {
            parts.push(rng.pick(&small).to_vec());
        }
    }
    parts.join(&b' ')
}

// -------------------------------------------------------- spaced symbols

/// Symbols that are no word, with their classes.
const SINGLES: [(&[u8], u64); 11] = [
    (b"at", 3), (b"AT", 3), (b"aT", 3), (b"@", 3), (b"<", 4), (b">", 5), (b",", 6), (b";", 7),
    (b":", 8), (b")", 9), (b"\\", 9),
];

/// Faults whatever follows, with number and place.
const BROKEN: [(&[u8], u64, u64); 14] = [
    (b"\x80", 3, 0), (b"\xFF", 3, 0), (b"\x00", 7, 0), (b"\n", 7, 0), (b"\x7F", 7, 0),
    (b"\rx", 7, 0), (b"\r\nx", 7, 0), (b"\r\r\n ", 7, 0), (b"\"a\rx", 7, 2), (b"\"\\\x80", 3, 2),
    (b"\"\\\\\rx", 7, 3), (b"\"\\\r\n \xFF", 3, 5), (b"(\rx", 7, 1), (b"(a\\\xFF", 3, 3),
];

/// Quoted-strings and comments that are not closed, with their numbers.
const UNCLOSED: [(&[u8], u64); 12] = [
    (b"\"", 5), (b"\"a b", 5), (b"\"\\\"", 5), (b"\"\\", 5), (b"\"\\\r\n ", 5), (b"\"\\\r\n", 5),
    (b"\"(a)", 5), (b"(", 6), (b"(a(b)", 6), (b"(\\)", 6), (b"(\"\"", 6), (b"(\\\r\n \\)", 6),
];

/// White space, folds and comments; now and then nothing.
fn gap(rng: &mut Rng) -> Vec<u8> {
    let mut out = Vec::new();
    for _ in 0..rng.below(4) {
        if rng.once_in(4) {
            out.extend(comment(rng));
        } else {
            out.extend_from_slice(rng.pick(&SPACES));
        }
    }
    out
}

/// A symbol, its class, and the length of its meaning.
fn single(rng: &mut Rng) -> (Vec<u8>, u64, usize) {
    let (token, class) = match rng.below(8) {
        0 if rng.once_in(20) => {
            let least = if rng.once_in(6) { 16_384 } else { 3 };
            (vec![b'a'; least + rng.below(600)], 1)
        }
        0..=1 => (rng.pick(&WORDS).to_vec(), 1),
        2 if rng.once_in(20) => {
            let pieces = rng.below(400);
            (quoted_of(rng, pieces), 2)
        }
        2..=4 => (quoted(rng), 2),
        _ => {
            let (token, class) = SINGLES[rng.below(SINGLES.len())];
            (token.to_vec(), class)
        }
    };
    let length = data(&token).len();
    (token, class, length)
}

/// Symbols with gaps between them, now and then a fault behind them: the body,
/// and what is told of each symbol, and last of the fault or the end.
pub fn spaced(rng: &mut Rng) -> (Vec<u8>, Vec<[u64; 7]>) {
    let (mut out, mut told) = (Vec::new(), Vec::new());
    let tight = rng.once_in(2);
    for _ in 0..rng.below(12) {
        let before = out.len();
        if !tight || rng.once_in(4) {
            out.extend(gap(rng));
        }
        let (token, class, length) = single(rng);
        if touches(out.last()) && touches(token.first()) {
            out.extend_from_slice(rng.pick(&SPACES));
        }
        let (start, apart) = (out.len() as u64, u64::from(out.len() > before));
        out.extend(token);
        told.push([0, 0, class, start, out.len() as u64, length as u64, apart]);
    }
    if rng.once_in(2) {
        out.extend(gap(rng));
    }
    let place = out.len() as u64;
    let (number, position) = match rng.below(6) {
        0 => {
            let (fault, number, within) = BROKEN[rng.below(BROKEN.len())];
            out.extend_from_slice(fault);
            out.extend(tokens(rng));
            (number, place + within)
        }
        1 => {
            let (fault, number) = UNCLOSED[rng.below(UNCLOSED.len())];
            out.extend_from_slice(fault);
            (number, place)
        }
        _ => (0, 0),
    };
    told.push([number, position, 0, 0, 0, 0, 0]);
    (out, told)
}

// ---------------------------------------------------------------- lists

/// A list by the grammar, printed with random white space.
fn list(rng: &mut Rng) -> Vec<u8> {
    let mut out = Vec::new();
    let mut budget = 1 + rng.below(12);
    add_list(rng, &mut out, &mut budget, 0);
    let compact = rng.once_in(2);
    glue(rng, &out, compact)
}

type Tokens = Vec<Vec<u8>>;

fn add(out: &mut Tokens, token: &[u8]) {
    out.push(token.to_vec());
}

fn add_each(out: &mut Tokens, tokens: &[&[u8]]) {
    tokens.iter().for_each(|token| add(out, token));
}

fn add_list(rng: &mut Rng, out: &mut Tokens, budget: &mut usize, depth: usize) {
    let members = rng.below(4);
    while rng.once_in(6) {
        add(out, b",");
    }
    for member in 0..members {
        if member > 0 {
            add(out, b",");
        }
        while rng.once_in(8) {
            add(out, b",");
        }
        add_address(rng, out, budget, depth);
    }
    while members > 0 && rng.once_in(8) {
        add(out, b",");
    }
}

fn add_address(rng: &mut Rng, out: &mut Tokens, budget: &mut usize, depth: usize) {
    *budget = budget.saturating_sub(1);
    let choice = if *budget == 0 || depth > 20 { rng.below(2) } else { rng.below(7) };
    match choice {
        0 => out.push(quoted(rng)),
        1 => add_mailbox(rng, out),
        2 | 3 => {
            add_phrase(rng, out, true);
            add(out, b"<");
            add_list(rng, out, budget, depth + 1);
            add(out, b">");
        }
        4 | 5 => {
            add_phrase(rng, out, true);
            add(out, b":");
            add_list(rng, out, budget, depth + 1);
            add(out, b";");
        }
        _ => {
            add(out, b":");
            add(out, rng.pick(&WORDS));
            add(out, b":");
            add_address(rng, out, budget, depth + 1);
        }
    }
}

fn add_mailbox(rng: &mut Rng, out: &mut Tokens) {
    add_phrase(rng, out, false);
    loop {
        add(out, rng.pick(&MARKS[..4]));
        add_word(rng, out);
        if !rng.once_in(3) {
            return;
        }
    }
}

fn add_word(rng: &mut Rng, out: &mut Tokens) {
    let word = if rng.once_in(4) { quoted(rng) } else { rng.pick(&WORDS).to_vec() };
    out.push(word);
}

fn add_phrase(rng: &mut Rng, out: &mut Tokens, optional: bool) {
    if optional && rng.once_in(3) {
        return;
    }
    add_word(rng, out);
    while rng.once_in(3) {
        add_word(rng, out);
    }
}

/// Whether a token starts or ends with bytes of an atom.
fn touches(byte: Option<&u8>) -> bool {
    byte.map_or(false, |b| b.is_ascii_graphic() && !b"()<>@,;:\\\"".contains(b))
}

/// Prints tokens, parting them where they would run together.
fn glue(rng: &mut Rng, tokens: &Tokens, compact: bool) -> Vec<u8> {
    glue_by(rng, tokens, compact, touches)
}

fn glue_by(
    rng: &mut Rng, tokens: &Tokens, compact: bool, touches: fn(Option<&u8>) -> bool,
) -> Vec<u8> {
    let mut out: Vec<u8> = Vec::new();
    for token in tokens {
        let close = touches(out.last()) && touches(token.first());
        if close && rng.once_in(2) {
            out.push(b' ');
        } else if close || (!compact && rng.once_in(2)) {
            out.extend_from_slice(rng.pick(&SPACES));
        }
        out.extend_from_slice(token);
    }
    if rng.once_in(4) {
        out.extend_from_slice(rng.pick(&SPACES));
    }
    out
}

const TELLING: &[u8] = b"<>:;,@<>:;,@.\" \tatxAT0123456789+-.[]";

const RARE: &[u8] = b"()\\\r\n\x00\x7F\x80\xFF";

/// Changes a few bytes of an input.
fn mutate(rng: &mut Rng, mut input: Vec<u8>) -> Vec<u8> {
    for _ in 0..1 + rng.below(3) {
        let length = input.len();
        let (at, other) = (rng.below(length), rng.below(length));
        let (low, high) = (at.min(other), at.max(other));
        let table = if rng.once_in(6) { RARE } else { TELLING };
        let byte = table[rng.below(table.len())];
        match rng.below(8) {
            _ if length == 0 => input.push(byte),
            0 => drop(input.remove(at)),
            1 => input.insert(at, input[at]),
            2 => input.swap(at, other),
            3 => input[at] = byte,
            4 => input.insert(at, byte),
            5 if high - low < 8 => drop(input.drain(low..high)),
            6 if length < 500 => {
                let piece = input[low..high].to_vec();
                input.splice(high..high, piece);
            }
            7 if rng.once_in(3) => input.truncate(at),
            _ => input[at] = input[other],
        }
    }
    input
}

// ------------------------------------------------------- deep and long

/// Lists of about 64 levels.
fn deep(rng: &mut Rng) -> Vec<u8> {
    let openers: [&[u8]; 12] = [
        b"<", b":", b":,", b"x:", b"x y:", b"\"q\":", b"x<", b":A:", b":,A:", b"<,", b":Include:",
        b"\"a\" b <",
    ];
    let variety = 1 + rng.below(openers.len());
    let shift = rng.below(openers.len());
    let mut out = Tokens::new();
    let mut closers = Tokens::new();
    let levels = if rng.once_in(4) { 62 + rng.below(6) } else { 61 + rng.below(4) };
    let mut opened = 0;
    while opened < levels {
        let opener = openers[(shift + rng.below(variety)) % openers.len()];
        add_opener(rng, &mut out, &mut closers, opener);
        opened += if opener == b":,A:" { 2 } else { 1 };
    }
    let deepest: [&[u8]; 21] = [
        b"", b"x at y", b"\"q\"", b"x at y :", b"x :", b"x <", b"<>", b":;", b":A:\"q\"", b":A",
        b"x:;", b"\"q\" <", b"\"q\" :", b"x", b",:A:<>", b"<<>>", b"x at y <", b":A;", b":A <",
        b":\"A\":", b":A:)",
    ];
    add(&mut out, rng.pick(&deepest));
    closers.reverse();
    if rng.once_in(5) {
        let kept = if rng.once_in(2) { 0 } else { rng.below(closers.len() + 1) };
        closers.truncate(kept);
    }
    out.append(&mut closers);
    let compact = !rng.once_in(4);
    let whole = glue(rng, &out, compact);
    if rng.once_in(4) {
        mutate(rng, whole)
    } else {
        whole
    }
}

/// Adds an opener and what closes it; most often one that fits.
fn add_opener(rng: &mut Rng, out: &mut Tokens, closers: &mut Tokens, opener: &[u8]) {
    let last = out.last().cloned().unwrap_or_default();
    let owed = last == b":A:" || last == b":Include:";
    if last == b":" && opener == b"x:" && !rng.once_in(200) {
        add(out, b",");
    }
    if !owed && rng.once_in(12) {
        add(out, b"\"s\",");
    }
    add(out, opener);
    let typed = opener == b":A:" || opener == b":Include:";
    if opener == b":,A:" {
        add(closers, b";;");
    } else if !typed {
        add(closers, if opener.contains(&b'<') { b">" } else { b";" });
    }
}

/// What opens a level, and what closes it: nothing for a typed address.
const LEVELS: [(&[u8], &[u8]); 7] = [
    (b"<", b">"), (b"a:", b";"), (b":", b";"), (b":a:", b""), (b"x y<", b">"), (b"\"q\":", b";"),
    (b":Postal:", b""),
];

/// A list in the making.
#[derive(Default)]
struct Climb {
    tokens: Tokens,
    /// What closes each open level.
    open: Vec<&'static [u8]>,
    /// Whether an address has just ended.
    ended: bool,
}

impl Climb {
    fn put(&mut self, token: &[u8]) {
        add(&mut self.tokens, token);
        self.ended = false;
    }

    /// Whether a typed address still lacks the address it holds.
    fn owed(&self) -> bool {
        self.open.last().is_some_and(|closer| closer.is_empty())
    }

    /// Puts the comma that the next address needs, and now and then others.
    fn part(&mut self, rng: &mut Rng) {
        while self.ended || (!self.owed() && rng.once_in(10)) {
            self.put(b",");
        }
    }

    /// Opens a level; an atom and ":" make the nameless group before them a
    /// typed address.
    fn open(&mut self, rng: &mut Rng, (opener, closer): (&[u8], &'static [u8])) {
        self.part(rng);
        if opener == b"a:" && self.tokens.last().is_some_and(|token| token == b":") {
            self.open.pop();
            self.open.push(b"");
        } else {
            self.open.push(closer);
        }
        self.put(opener);
    }

    /// Opens levels up to a number of them.
    fn rise(&mut self, rng: &mut Rng, top: usize) {
        while self.open.len() < top {
            let level = LEVELS[rng.below(LEVELS.len())];
            let run = 1 + rng.below(3);
            for _ in 0..run.min(top - self.open.len()) {
                self.open(rng, level);
            }
        }
    }

    /// Ends an address, and the typed addresses right around it.
    fn end(&mut self, token: &[u8]) {
        self.put(token);
        while self.owed() {
            self.open.pop();
        }
        self.ended = true;
    }

    /// Puts an address that opens no level.
    fn member(&mut self, rng: &mut Rng) {
        self.part(rng);
        let members: [&[u8]; 4] = [b"x at y", b"\"q\"", b"a b@c@\"d\"", b"\"q\" x@y"];
        self.end(rng.pick(&members));
    }

    /// Closes a level, if there is one.
    fn close(&mut self, rng: &mut Rng) {
        if self.owed() {
            self.member(rng);
        }
        if rng.once_in(8) {
            self.put(b",");
        }
        if let Some(closer) = self.open.pop() {
            self.end(closer);
        }
    }
}

/// Lists that go up to about 64 levels, and down and up again.
fn waves(rng: &mut Rng) -> Vec<u8> {
    let mut climb = Climb::default();
    for _ in 0..1 + rng.below(4) {
        let top = if rng.once_in(8) { 65 + rng.below(2) } else { 60 + rng.below(5) };
        climb.rise(rng, top);
        if rng.once_in(8) {
            climb.put(&symbols(rng));
        }
        for _ in 0..rng.below(12) {
            if rng.once_in(3) { climb.member(rng) } else { climb.close(rng) }
        }
    }
    if !rng.once_in(5) {
        while !climb.open.is_empty() {
            climb.close(rng);
        }
    }
    if rng.once_in(4) {
        let few = climb.open.len() + rng.below(4);
        climb.rise(rng, few);
        climb.member(rng);
    }
    let compact = !rng.once_in(4);
    let whole = glue(rng, &climb.tokens, compact);
    if rng.once_in(8) { mutate(rng, whole) } else { whole }
}

/// Lists of about 2,048 addresses.
fn many(rng: &mut Rng) -> Vec<u8> {
    let units: [&[u8]; 5] = [b"\"\",", b"a@b,", b"<>,", b"x:;,", b" (c)\"\\\"\"\r\n ,"];
    let mut out = rng.pick(&units).repeat(2_046 + rng.below(5));
    if rng.once_in(3) {
        out = [b"x:", &out[..], b";"].concat();
    }
    if rng.once_in(4) { mutate(rng, out) } else { out }
}

/// A quoted-string, or a comment and one, as long as a message or nearly so.
fn long_symbol(rng: &mut Rng) -> Vec<u8> {
    let target = 32_758 + rng.below(14);
    let mut out = Vec::new();
    if rng.once_in(3) {
        let length = 2 + rng.below(target - 100);
        out = filling_comment(rng, length);
    }
    out.push(b'"');
    while out.len() + 5 < target {
        out.extend_from_slice(rng.pick(&PIECES));
    }
    out.resize(target - 1, b'a');
    out.push(b'"');
    out
}

/// Bodies up to and just past the longest message, or of many addresses.
fn long(rng: &mut Rng) -> Vec<u8> {
    match rng.below(6) {
        0 | 1 => return many(rng),
        2 => return long_symbol(rng),
        _ => {}
    }
    let units: [&[u8]; 20] = [
        b"\"\",", b"a@b,", b"<>,", b"x ", b"(", b",", b" ", b"\r\n ", b":A:", b"@b", b"a:;,", b"\\",
        b"(a)", b"\"\n\"", b":A:<>,", b"x y<a@b>,", b":,A:;;,", b"<a at b,\"q\">, ", b"1", b"((",
    ];
    let target = 32_758 + rng.below(14);
    let unit = if rng.once_in(4) { list(rng) } else { rng.pick(&units).to_vec() };
    let mut out = if rng.once_in(3) { b"x".to_vec() } else { Vec::new() };
    if unit.is_empty() {
        return vec![b' '; target];
    }
    while out.len() + unit.len() <= target {
        out.extend_from_slice(&unit);
    }
    if rng.once_in(3) {
        out.resize(target, b' ');
    }
    if rng.once_in(4) {
        out = mutate(rng, out);
    }
    out
}

// -------------------------------------------------------------- comments

const INNER: [&[u8]; 24] = [
    b"x", b"at", b"@", b"<:;>,", b" ", b"\t", b"\"", b"\"q\"", b"\n", b"\x00", b"\x7F", b"()",
    b"\\(", b"\\)", b"\\\\", b"\\\"", b"\\\r", b"\\\n", b"\\\r\n", b"\\\r\n ", b"\\\r\n\t",
    b"\r\n ", b"\r\n\t", b"\\\r\n\\)",
];

/// A comment that scans alone without fault, at least "()".
pub fn comment(rng: &mut Rng) -> Vec<u8> {
    let size = match rng.below(80) {
        0 => 200 + rng.below(400),
        1..=9 => 10 + rng.below(30),
        10..=29 => 0,
        _ => 1 + rng.below(6),
    };
    let (opens, closes) = if rng.once_in(4) { (2, 20) } else { (6, 4) };
    let mut out = vec![b'('];
    let mut open = 1;
    for _ in 0..size {
        if rng.once_in(opens) {
            out.push(b'(');
            open += 1;
        } else if open > 1 && rng.once_in(closes) {
            out.push(b')');
            open -= 1;
        } else {
            add_inner(rng, &mut out);
        }
    }
    out.resize(out.len() + open, b')');
    out
}

/// Adds what may stand within a comment and neither opens nor closes it.
fn add_inner(rng: &mut Rng, out: &mut Vec<u8>) {
    if !rng.once_in(4) {
        out.extend_from_slice(rng.pick(&INNER));
        return;
    }
    let byte = rng.below(128) as u8;
    if b"\r()\\".contains(&byte) || rng.once_in(2) {
        out.push(b'\\');
    }
    out.push(byte);
}

/// A comment of exactly that many bytes, two or more.
pub fn filling_comment(rng: &mut Rng, length: usize) -> Vec<u8> {
    let mut out = comment(rng);
    if out.len() > length {
        out = b"()".to_vec();
    }
    let missing = length - out.len();
    let nested = if rng.once_in(2) { missing / 2 } else { 0 };
    let plain = vec![b'x'; missing - 2 * nested];
    out.splice(1..1, [vec![b'('; nested], plain].concat());
    out.resize(length, b')');
    out
}

/// Puts comments between some of the tokens.
fn with_comments(rng: &mut Rng, tokens: &Tokens) -> Tokens {
    let mut out = Tokens::new();
    for token in tokens {
        if rng.once_in(5) {
            out.push(comment(rng));
        }
        out.push(token.clone());
    }
    if rng.once_in(5) {
        out.push(comment(rng));
    }
    out
}

/// A body of another kind, most often a list, with comments put in.
fn commented(rng: &mut Rng) -> Vec<u8> {
    let mut body = match rng.below(20) {
        0 => bytes(rng, 40),
        1 | 2 => tokens(rng),
        3 => symbols(rng),
        4 | 5 => {
            let valid = list(rng);
            mutate(rng, valid)
        }
        6..=8 => deep(rng),
        9 | 10 => {
            let mut valid = list(rng);
            let at = rng.below(valid.len() + 1);
            valid.splice(at..at, rng.pick(&FAULTS).iter().copied());
            valid
        }
        11 | 12 => list(rng),
        _ => return commented_list(rng),
    };
    for _ in 0..1 + rng.below(3) {
        let at = rng.below(body.len() + 1);
        body.splice(at..at, comment(rng));
    }
    body
}

/// A list with comments between its symbols.
fn commented_list(rng: &mut Rng) -> Vec<u8> {
    let mut out = Tokens::new();
    let mut budget = 1 + rng.below(12);
    add_list(rng, &mut out, &mut budget, 0);
    let compact = rng.once_in(2);
    let out = with_comments(rng, &out);
    glue(rng, &out, compact)
}

// ----------------------------------------------------------------- pairs

/// Two lists with the same addresses, or nearly so.
pub fn pair(rng: &mut Rng) -> (Vec<u8>, Vec<u8>) {
    let mut one = Tokens::new();
    let mut budget = 1 + rng.below(8);
    add_list(rng, &mut one, &mut budget, 0);
    if one.is_empty() {
        add_mailbox(rng, &mut one);
    }
    let mut other = one.clone();
    for _ in 0..[0, 0, 1, 1, 1, 2][rng.below(6)] {
        alter(rng, &mut other);
    }
    if rng.once_in(2) {
        std::mem::swap(&mut one, &mut other);
    }
    (spelt(rng, &one), spelt(rng, &other))
}

/// Prints tokens with spelling, commas, white space and comments of its own.
fn spelt(rng: &mut Rng, tokens: &Tokens) -> Vec<u8> {
    let mut out: Tokens = tokens.iter().map(|token| respelt(rng, token)).collect();
    if rng.once_in(6) {
        out.insert(0, b",".to_vec());
    }
    if rng.once_in(6) {
        add(&mut out, b",");
    }
    let compact = rng.once_in(2);
    let out = with_comments(rng, &out);
    glue(rng, &out, compact)
}

/// A token that means the same.
fn respelt(rng: &mut Rng, token: &[u8]) -> Vec<u8> {
    if is_at(token) {
        return rng.pick(&MARKS[..4]).to_vec();
    }
    if is_quoted(token) {
        return quote(rng, &data(token));
    }
    let more: &[u8] = match token {
        b"<" => b"<,",
        b">" => b",>",
        b";" => b",;",
        b"," => b",,",
        _ => token,
    };
    if rng.once_in(6) { more.to_vec() } else { token.to_vec() }
}

/// Whether a token is "at" or "@".
fn is_at(token: &[u8]) -> bool {
    token == b"@" || token.eq_ignore_ascii_case(b"at")
}

/// Whether a token is a quoted-string.
fn is_quoted(token: &[u8]) -> bool {
    token.len() > 1 && token[0] == b'"' && token[token.len() - 1] == b'"'
}

/// Whether a token is an atom other than "at", or a quoted-string.
fn is_word(token: &[u8]) -> bool {
    !is_at(token) && (is_quoted(token) || touches(token.first()))
}

/// The data of a quoted-string, or the bytes of an atom.
fn data(token: &[u8]) -> Vec<u8> {
    if !is_quoted(token) {
        return token.to_vec();
    }
    let mut out = Vec::new();
    let mut rest = &token[1..token.len() - 1];
    let mut takes = false;
    while !rest.is_empty() {
        if let [b'\r', b'\n', b' ' | b'\t', ..] = rest {
            out.extend_from_slice(if takes { b"\r\n" } else { b"" });
            (takes, rest) = (false, &rest[2..]);
        }
        takes = rest[0] == b'\\' && !takes;
        if !takes {
            out.push(rest[0]);
        }
        rest = &rest[1..];
    }
    out
}

/// A quoted-string of that data, with backslashes and folds at random. CR, LF
/// and white space are a backslash and a fold, or each is written by itself.
fn quote(rng: &mut Rng, data: &[u8]) -> Vec<u8> {
    let white = |byte: Option<&u8>| byte.is_some_and(|b| b" \t".contains(b));
    let mut out = vec![b'"'];
    let mut rest = data;
    while let [byte, behind @ ..] = rest {
        if rest.starts_with(b"\r\n") && white(rest.get(2)) && rng.once_in(2) {
            out.push(b'\\');
            out.extend_from_slice(&rest[..3]);
            rest = &rest[3..];
            continue;
        }
        let would_fold = out.last() == Some(&b'\r') && *byte == b'\n' && white(behind.first());
        if white(Some(byte)) && rng.once_in(4) {
            out.extend_from_slice(b"\r\n");
        } else if would_fold || b"\"\\\r".contains(byte) || rng.once_in(5) {
            out.push(b'\\');
        }
        out.push(*byte);
        rest = behind;
    }
    out.push(b'"');
    out
}

/// Any number below `length` that fits.
fn find(rng: &mut Rng, length: usize, fits: &dyn Fn(usize) -> bool) -> Option<usize> {
    let shift = rng.below(length);
    (0..length).map(|i| (i + shift) % length).find(|i| fits(*i))
}

/// Changes a list a little; often its addresses are others then.
fn alter(rng: &mut Rng, tokens: &mut Tokens) {
    let word = find(rng, tokens.len(), &|i| is_word(&tokens[i]));
    let angle = find(rng, tokens.len(), &|i| tokens[i] == b"<");
    match (rng.below(12), word, angle) {
        (0..=3, Some(i), _) => alter_word(rng, &mut tokens[i]),
        (4, Some(i), _) => cut_word(rng, tokens, i),
        (5, Some(i), _) => quote_run(rng, tokens, i),
        (6, ..) => join_words(rng, tokens),
        (7, ..) => alter_node(rng, tokens),
        (8, ..) => alter_type(rng, tokens),
        (9, ..) => swap_members(rng, tokens),
        (10, _, Some(i)) => alter_angle(rng, tokens, i),
        _ => {
            let comma = find(rng, tokens.len(), &|i| tokens[i] == b",");
            comma.map(|i| tokens.remove(i));
        }
    }
}

/// Changes the case of one letter, if the token has one.
fn flip_case(rng: &mut Rng, token: &mut [u8]) {
    if let Some(i) = find(rng, token.len(), &|i| token[i].is_ascii_alphabetic()) {
        token[i] ^= 32;
    }
}

/// Takes a CRLF out of data, or puts one in before white space.
fn alter_line_end(rng: &mut Rng, inner: &mut Vec<u8>) {
    let line_end = find(rng, inner.len(), &|i| inner[i..].starts_with(b"\r\n"));
    let white = find(rng, inner.len(), &|i| b" \t".contains(&inner[i]));
    match (line_end, white) {
        (Some(i), _) => drop(inner.drain(i..i + 2)),
        (_, Some(i)) => drop(inner.splice(i..i, *b"\r\n")),
        _ => inner.extend_from_slice(b"\r\n "),
    }
}

/// Changes a word: a letter's case, its quotes, one byte or a line end of its
/// data.
fn alter_word(rng: &mut Rng, token: &mut Vec<u8>) {
    let mut inner = data(token);
    let at = rng.below(inner.len());
    match rng.below(7) {
        0 | 1 => flip_case(rng, token),
        2 | 3 if is_quoted(token) && inner.iter().all(|b| touches(Some(b))) => *token = inner,
        2 | 3 => *token = quote(rng, &inner),
        4 if is_quoted(token) && !inner.is_empty() => {
            inner[at] ^= 1 << rng.below(7);
            *token = quote(rng, &inner);
        }
        5 if is_quoted(token) => {
            alter_line_end(rng, &mut inner);
            *token = quote(rng, &inner);
        }
        _ if is_quoted(token) => {
            inner.insert(at, [b' ', b'"', b'\\', b'\r', b'\n', b'x'][rng.below(6)]);
            *token = quote(rng, &inner);
        }
        _ => token.push(b'x'),
    }
}

/// Cuts a word in two.
fn cut_word(rng: &mut Rng, tokens: &mut Tokens, i: usize) {
    let inner = data(&tokens[i]);
    let (one, two) = inner.split_at(rng.below(inner.len() + 1));
    let quoted = is_quoted(&tokens[i]) || one.is_empty() || two.is_empty();
    let (one, two) =
        if quoted { (quote(rng, one), quote(rng, two)) } else { (one.to_vec(), two.to_vec()) };
    tokens[i] = one;
    tokens.insert(i + 1, two);
}

/// Makes one quoted-string of a word and some symbols behind it.
fn quote_run(rng: &mut Rng, tokens: &mut Tokens, i: usize) {
    let end = (i + 1 + rng.below(4)).min(tokens.len());
    let run = tokens[i..end].join(&b' ');
    let whole = quote(rng, &run);
    tokens.splice(i..end, [whole]);
}

/// Joins two words that stand side by side.
fn join_words(rng: &mut Rng, tokens: &mut Tokens) {
    let beside = |i: usize| is_word(&tokens[i]) && tokens.get(i + 1).is_some_and(|t| is_word(t));
    let Some(i) = find(rng, tokens.len(), &beside) else { return };
    let two = tokens.remove(i + 1);
    let atoms = !is_quoted(&tokens[i]) && !is_quoted(&two);
    let between: &[u8] = if rng.once_in(2) { b" " } else { b"" };
    tokens[i] = if atoms && between.is_empty() {
        [&tokens[i][..], &two[..]].concat()
    } else {
        quote(rng, &[&data(&tokens[i])[..], between, &data(&two)[..]].concat())
    };
}

/// Drops a node, or adds one.
fn alter_node(rng: &mut Rng, tokens: &mut Tokens) {
    let node = |i: usize| is_at(&tokens[i]) && tokens.get(i + 1).is_some_and(|t| is_word(t));
    let Some(i) = find(rng, tokens.len(), &node) else { return };
    if rng.once_in(2) {
        tokens.drain(i..i + 2);
    } else {
        let more = [b"at".to_vec(), rng.pick(&WORDS).to_vec()];
        tokens.splice(i..i, more);
    }
}

/// Changes the case of a typed atom, or makes it another one.
fn alter_type(rng: &mut Rng, tokens: &mut Tokens) {
    let colon = |i: usize| tokens.get(i).is_some_and(|t| t == b":");
    let typed = |i: usize| i > 0 && colon(i - 1) && colon(i + 1) && is_word(&tokens[i]);
    let Some(i) = find(rng, tokens.len(), &typed) else { return };
    match rng.below(4) {
        0 => tokens[i].make_ascii_uppercase(),
        1 => tokens[i] = rng.pick(&WORDS).to_vec(),
        _ => flip_case(rng, &mut tokens[i]),
    }
}

/// Swaps the members on both sides of a comma.
fn swap_members(rng: &mut Rng, tokens: &mut Tokens) {
    let plain = |i: usize| is_at(&tokens[i]) || is_word(&tokens[i]);
    let between = |i: usize| {
        i > 0 && i + 1 < tokens.len() && tokens[i] == b"," && plain(i - 1) && plain(i + 1)
    };
    let Some(i) = find(rng, tokens.len(), &between) else { return };
    let from = i - (0..i).rev().take_while(|k| plain(*k)).count();
    let end = i + 1 + (i + 1..tokens.len()).take_while(|k| plain(*k)).count();
    let swapped = [&tokens[i + 1..end], &tokens[i..i + 1], &tokens[from..i]].concat();
    tokens.splice(from..end, swapped);
}

/// Makes the angle list at `i` a group, or drops its brackets.
fn alter_angle(rng: &mut Rng, tokens: &mut Tokens, i: usize) {
    let mut open = 0;
    let close = (i..tokens.len()).find(|k| {
        open += i32::from(tokens[*k] == b"<") - i32::from(tokens[*k] == b">");
        open == 0
    });
    let Some(close) = close else { return };
    if rng.once_in(3) {
        tokens.remove(close);
        tokens.remove(i);
    } else {
        tokens[i] = b":".to_vec();
        tokens[close] = b";".to_vec();
    }
}

// ------------------------------------------------------------ expansion

/// What the body and the stored lists of one input have in common.
struct Scene {
    /// Mailboxes that Includes hold and records are named by.
    names: Vec<Tokens>,
    /// Whether a list holds Includes of any name, or only of later ones.
    circular: bool,
    /// Once in so many times an Include or a record's name is at fault.
    faults: usize,
    /// Once in so many times a stored list is.
    list_faults: usize,
    /// Levels of a deep body; a deep list has about those that are left.
    levels: usize,
}

/// A body with many Includes, and a store.
pub fn expansion(rng: &mut Rng) -> (Vec<u8>, Vec<u8>) {
    let scene = Scene {
        names: (0..1 + rng.below(6)).map(|_| list_name(rng)).collect(),
        circular: rng.once_in(5),
        faults: [8, 30, 200, 100_000][rng.below(4)],
        list_faults: [4, 20, 100, 100_000][rng.below(4)],
        levels: if rng.once_in(2) { 1 + rng.below(64) } else { 60 + rng.below(5) },
    };
    let body = including_body(rng, &scene);
    let store = store(rng, &scene);
    (body, store)
}

/// The mailbox that names a list: short, of any words, or of about 64 bytes.
fn list_name(rng: &mut Rng) -> Tokens {
    let mut out = Tokens::new();
    match rng.below(12) {
        0..=5 => {
            let words: [&[u8]; 7] =
                [b"a", b"b", b"A", b"\"a\"", b"c", b"\"\\\r\n \"", b"\"\r\n \""];
            add_each(&mut out, &[rng.pick(&words), b"@", rng.pick(&words)]);
        }
        6 => {
            let nodes: [&[u8]; 2] = [b"h", b"\"\\\r\""];
            let node = rng.pick(&nodes);
            let text = 62 + rng.below(4) - 4 - node.len();
            add_each(&mut out, &[&vec![b'n'; text], b"@", node]);
        }
        _ => add_mailbox(rng, &mut out),
    }
    out
}

/// The plain text of a mailbox.
fn mailbox_text(tokens: &Tokens) -> Vec<u8> {
    let mut words = Tokens::new();
    for token in tokens {
        if is_at(token) {
            add(&mut words, b"at");
        } else if is_quoted(token) {
            let escaped = data(token).into_iter().flat_map(|byte| match byte {
                b'"' | b'\\' | b'\r' | b'\n' => vec![b'\\', byte],
                _ => vec![byte],
            });
            words.push([vec![b'"'], escaped.collect(), vec![b'"']].concat());
        } else {
            add(&mut words, token);
        }
    }
    words.join(&b' ')
}

// -- Includes

/// Adds an Include that most often leads to one of the names.
fn add_include(rng: &mut Rng, out: &mut Tokens, names: &[Tokens], faults: usize) {
    let types: [&[u8]; 5] = [b"Include", b"Include", b"include", b"INCLUDE", b"iNcLuDe"];
    add_each(out, &[b":", rng.pick(&types), b":"]);
    let name = &names[rng.below(names.len())];
    if rng.once_in(faults) {
        add_unled(rng, out, name);
    } else if rng.once_in(2) {
        out.extend_from_slice(name);
    } else {
        add_phrase(rng, out, true);
        add(out, b"<");
        while rng.once_in(4) {
            add_mailbox(rng, out);
            add(out, b",");
        }
        out.extend_from_slice(name);
        while rng.once_in(3) {
            add(out, b",");
            out.extend_from_slice(&names[rng.below(names.len())]);
        }
        add(out, b">");
    }
}

/// Adds what an Include may not hold, or a mailbox that is near the name.
fn add_unled(rng: &mut Rng, out: &mut Tokens, name: &Tokens) {
    let around: [(&[u8], &[u8]); 8] = [
        (b"g:", b";"), (b"<<", b">>"), (b"<\"q\",", b">"), (b"<", b",\"q\">"), (b":Postal:", b""),
        (b":Include:", b""), (b"<", b",<>>"), (b"<:Include:", b">"),
    ];
    match rng.below(6) {
        0 => add(out, b"<>"),
        1 => out.push(quote(rng, &mailbox_text(name))),
        2 => {
            let mut near = name.clone();
            let word = find(rng, near.len(), &|i| is_word(&name[i]));
            alter_word(rng, &mut near[word.unwrap_or(0)]);
            out.append(&mut near);
        }
        3 => add_mailbox(rng, out),
        _ => {
            let (before, behind) = around[rng.below(around.len())];
            add(out, before);
            out.extend_from_slice(name);
            add(out, behind);
        }
    }
}

/// Adds a list with Includes of the names; of none if there are none.
fn add_including_list(
    rng: &mut Rng, out: &mut Tokens, names: &[Tokens], faults: usize, budget: &mut usize,
) {
    while rng.once_in(6) {
        add(out, b",");
    }
    for _ in 0..rng.below(4) {
        add_including(rng, out, names, faults, budget);
        add(out, b",");
    }
    if rng.once_in(2) {
        add_including(rng, out, names, faults, budget);
    }
}

/// Adds one address of such a list.
fn add_including(
    rng: &mut Rng, out: &mut Tokens, names: &[Tokens], faults: usize, budget: &mut usize,
) {
    *budget = budget.saturating_sub(1);
    let types: [&[u8]; 3] = [b"Postal", b"File", b"x"];
    match if *budget == 0 { rng.below(6) } else { rng.below(11) } {
        0..=3 if !names.is_empty() => add_include(rng, out, names, faults),
        0 => out.push(quoted(rng)),
        1..=3 => add_mailbox(rng, out),
        4 | 5 => add_each(out, &[b"A", b":", b";"]),
        6 | 7 => {
            add_phrase(rng, out, true);
            add(out, b"<");
            add_including_list(rng, out, names, faults, budget);
            add(out, b">");
        }
        8 | 9 => {
            add_phrase(rng, out, true);
            add(out, b":");
            add_including_list(rng, out, names, faults, budget);
            add(out, b";");
        }
        _ => {
            add_each(out, &[b":", rng.pick(&types), b":"]);
            if rng.once_in(faults) && !names.is_empty() {
                add_include(rng, out, names, faults);
                return;
            }
            add(out, b"<");
            add_including_list(rng, out, names, faults, budget);
            add(out, b">");
        }
    }
}

/// So many levels around the tokens, in few bytes if so asked.
fn nested(rng: &mut Rng, levels: usize, inner: Tokens, brief: bool) -> Tokens {
    let mut climb = Climb::default();
    while brief && climb.open.len() + 1 < levels {
        let level = if rng.once_in(3) { LEVELS[2] } else { LEVELS[0] };
        climb.open(rng, level);
    }
    climb.rise(rng, levels.saturating_sub(1));
    if levels > 0 {
        climb.open(rng, LEVELS[0]);
    }
    climb.tokens.extend(inner);
    climb.ended = true;
    while !climb.open.is_empty() {
        if !brief && rng.once_in(12) {
            climb.member(rng);
        }
        climb.close(rng);
    }
    climb.tokens
}

/// Adds about 64 Includes, the last of which may be at fault, of any name, or
/// in many levels.
fn add_many_includes(rng: &mut Rng, out: &mut Tokens, scene: &Scene) {
    let names = &scene.names[..];
    let last = &names[names.len() - 1..];
    for _ in 0..[62, 63, 64, 64, 64, 65, 66][rng.below(7)] {
        let of = if rng.once_in(60) { names } else { last };
        add_include(rng, out, of, 10 * scene.faults);
        add(out, b",");
    }
    let mut include = Tokens::new();
    match rng.below(6) {
        0 => add_include(rng, out, last, 1),
        1 | 2 => add_include(rng, out, names, scene.faults),
        3 => {
            add_include(rng, &mut include, names, scene.faults);
            out.append(&mut nested(rng, scene.levels - 1, include, false));
        }
        _ => {}
    }
}

/// A body whose Includes lead to stored lists; now and then any other body.
fn including_body(rng: &mut Rng, scene: &Scene) -> Vec<u8> {
    let (names, faults) = (&scene.names[..], scene.faults);
    let mut out = Tokens::new();
    match rng.below(16) {
        0..=5 => add_including_list(rng, &mut out, names, faults, &mut 8),
        6 | 7 => add_include(rng, &mut out, names, faults),
        8..=10 => {
            add_include(rng, &mut out, names, faults);
            let levels = scene.levels - rng.below(2);
            out = nested(rng, levels, out, false);
        }
        11..=13 => add_many_includes(rng, &mut out, scene),
        14 => {
            add_including_list(rng, &mut out, names, faults, &mut 8);
            let whole = spelt(rng, &out);
            return mutate(rng, whole);
        }
        _ => {
            let kinds = [Kind::Tokens, Kind::Symbols, Kind::List, Kind::Deep, Kind::Waves];
            let kind = if rng.once_in(100) { Kind::Long } else { kinds[rng.below(5)] };
            return body(rng, kind);
        }
    }
    if rng.once_in(3) { spelt(rng, &out) } else { glue(rng, &out, true) }
}

// -- stores

/// A store with a record of each name, some twice, some of near names, in
/// any order, and now and then a tail short of a record.
fn store(rng: &mut Rng, scene: &Scene) -> Vec<u8> {
    let mut records: Vec<Vec<u8>> = Vec::new();
    let turns = if rng.once_in(12) { 1 + rng.below(8) } else { 1 + rng.below(2) };
    for _ in 0..turns {
        for number in 0..scene.names.len() {
            if !rng.once_in(scene.faults) {
                let at = rng.below(records.len() + 1);
                records.insert(at, record(rng, scene, number));
            }
        }
    }
    if rng.once_in(30) {
        records.clear();
    }
    let mut store = records.concat();
    if rng.once_in(scene.faults) {
        store.pop();
    }
    if rng.once_in(3) {
        let number = rng.below(scene.names.len());
        let tail = record(rng, scene, number);
        let length = if rng.once_in(2) { 511 } else { rng.below(512) };
        store.extend_from_slice(&tail[..length]);
    }
    store
}

/// The record of a name: 64 bytes of name and 448 of list.
fn record(rng: &mut Rng, scene: &Scene, number: usize) -> Vec<u8> {
    let mut name = mailbox_text(&scene.names[number]);
    if rng.once_in(scene.faults.min(12)) {
        let at = rng.below(name.len());
        let line_end = find(rng, name.len(), &|i| name[i..].starts_with(b"\\\r\\\n"));
        match (rng.below(8), line_end) {
            (0..=3, Some(i)) => drop(name.drain(i..i + 4)),
            (0, _) => name.push(b' '),
            (1, _) => flip_case(rng, &mut name),
            (2, _) => name.push(b'x'),
            (3, _) => drop(name.pop()),
            (4, _) => name.insert(at, 0),
            (5, _) => name.resize(64, b' '),
            (6, _) => name.insert(0, b' '),
            _ => name.extend_from_slice(b"\0 "),
        }
    }
    name.resize(64, 0);
    let mut list = stored_list(rng, scene, number);
    list.truncate(448);
    let missing = 448 - list.len();
    let pad = if rng.once_in(5 * scene.list_faults) { 0 } else { b' ' };
    let before = if rng.once_in(4) { missing } else { 0 };
    list.splice(0..0, vec![pad; before]);
    list.resize(448, pad);
    [name, list].concat()
}

/// A list to be stored under a name.
fn stored_list(rng: &mut Rng, scene: &Scene, number: usize) -> Vec<u8> {
    let names = if scene.circular { &scene.names[..] } else { &scene.names[number + 1..] };
    let mut out = Tokens::new();
    if rng.once_in(scene.list_faults) {
        return refused_list(rng);
    }
    match rng.below(12) {
        0 | 1 => {
            let empty: [&[u8]; 5] = [b"", b",", b" , ,", b"(c)", b"\r\n ,(\\))"];
            return rng.pick(&empty).to_vec();
        }
        2 | 3 => {
            let starts: [&[u8]; 7] = [
                b"A:;", b"A: i@j;, B:;", b"\"A\":;", b"A B: i@j;", b":A:<>", b",,A <>", b":,A:;;",
            ];
            return rng.pick(&starts).to_vec();
        }
        4 => return list(rng),
        5 | 6 => {
            let left = 65usize.saturating_sub(scene.levels);
            let levels = (left + rng.below(3)).saturating_sub(1);
            if names.is_empty() || rng.once_in(2) {
                add_mailbox(rng, &mut out);
            } else {
                add_include(rng, &mut out, names, scene.faults);
            }
            out = nested(rng, levels, out, levels > 20);
        }
        7 if !names.is_empty() => {
            for _ in 0..2 + rng.below(2) {
                add_include(rng, &mut out, names, scene.faults);
                add(&mut out, b",");
            }
        }
        _ => add_including_list(rng, &mut out, names, scene.faults, &mut 4),
    }
    if rng.once_in(3) { spelt(rng, &out) } else { glue(rng, &out, true) }
}

/// A list that is most often refused.
fn refused_list(rng: &mut Rng) -> Vec<u8> {
    match rng.below(9) {
        0 => bytes(rng, 40),
        1 => tokens(rng),
        2 => symbols(rng),
        3 => [b"<".repeat(65), b">".repeat(65)].concat(),
        4 => b"<\"q\",".repeat(90),
        5 => {
            let valid = list(rng);
            mutate(rng, valid)
        }
        6 => [&[b' '; 444], &b"\"\\\r\n"[..]].concat(),
        _ => [&list(rng)[..], b",", rng.pick(&FAULTS)].concat(),
    }
}

// ------------------------------------------------------------- RFC 822

const ATOMS822: [&[u8]; 12] = [
    b"x", b"y", b"at", b"AT", b"aT", b"att", b"Include", b"1", b"-", b"~!#", b"}", b"a/b",
];

const QUOTED822: [&[u8]; 11] = [
    b"\"\"", b"\"q\"", b"\"at\"", b"\"[\"", b"\"].[\"", b"\"\\\"\"", b"\"a\r\n b\"", b"\"<:;>,@\"",
    b"\"\\\r\n \"", b"\"\\\\\r\n\t\"", b"\"\\\r\n\t\\\"\"",
];

const LITERALS: [&[u8]; 18] = [
    b"[]", b"[1]", b"[10.0.3.19]", b"[\\[]", b"[\\]]", b"[\\\\]", b"[\"]", b"[(]", b"[)]",
    b"[a\r\n b]", b"[\\\r\n ]", b"[\n]", b"[\\\r]", b"[\\\r\n]", b"[\x00\t\x7F]", b"[ <a@b>, c:; ]",
    b"[\\\r\n\t\\]]", b"[\\\\\r\n ]",
];

const MARKS822: [&[u8]; 11] =
    [b"@", b"@", b".", b".", b"<", b">", b":", b";", b",", b"<@", b"x@y"];

const FAULTS822: [&[u8]; 20] = [
    b"[", b"]", b"[[]", b"[a[", b"[\r]", b"[\x80]", b"[\\\x80]", b"[\x80[", b"[[\x80", b"[\\",
    b"[\\]", b"[\"[\"]", b"[(])", b"[\\\\[]", b"[\r\n]", b"[\r\n ", b"[[\r", b"[\r[",
    b"[\\\r\n [", b"[\\\r\n",
];

/// Whether a byte belongs to an atom by RFC 822.
fn touches822(byte: Option<&u8>) -> bool {
    touches(byte) && !byte.is_some_and(|b| b".[]".contains(b))
}

/// A domain literal that scans without fault.
fn literal(rng: &mut Rng) -> Vec<u8> {
    if !rng.once_in(3) {
        return rng.pick(&LITERALS).to_vec();
    }
    let mut out = vec![b'['];
    for _ in 0..rng.below(8) {
        let byte = rng.below(128) as u8;
        if b"\r[]\\".contains(&byte) || rng.once_in(4) {
            out.push(b'\\');
        }
        out.push(byte);
    }
    out.push(b']');
    out
}

/// A list by the rules of RFC 822 in the making.
#[derive(Default)]
struct Derived {
    tokens: Tokens,
    /// Kind, depth and parent of each address, as in a record.
    heads: Vec<u8>,
}

impl Derived {
    fn put(&mut self, token: &[u8]) {
        add(&mut self.tokens, token);
    }

    /// Puts commas, now and then.
    fn empty_places(&mut self, rng: &mut Rng, times: usize) {
        while rng.once_in(times) {
            self.put(b",");
        }
    }

    /// Takes in an address of a kind and gives its number plus 1.
    fn head(&mut self, kind: u8, depth: u8, parent: usize) -> usize {
        self.heads.extend([kind, depth, (parent >> 8) as u8, parent as u8]);
        self.heads.len() / 4
    }

    fn word(&mut self, rng: &mut Rng) {
        let word = if rng.once_in(4) { rng.pick(&QUOTED822) } else { rng.pick(&ATOMS822) };
        self.put(word);
    }

    fn phrase(&mut self, rng: &mut Rng) {
        self.word(rng);
        while rng.once_in(3) {
            self.word(rng);
        }
    }

    fn local_part(&mut self, rng: &mut Rng) {
        self.word(rng);
        while rng.once_in(3) {
            self.put(b".");
            self.word(rng);
        }
    }

    fn domain(&mut self, rng: &mut Rng) {
        loop {
            let part = if rng.once_in(4) { literal(rng) } else { rng.pick(&ATOMS822).to_vec() };
            self.tokens.push(part);
            if !rng.once_in(3) {
                return;
            }
            self.put(b".");
        }
    }

    fn route(&mut self, rng: &mut Rng) {
        self.empty_places(rng, 4);
        loop {
            self.put(b"@");
            self.domain(rng);
            if !rng.once_in(3) {
                break;
            }
            self.put(b",");
            self.empty_places(rng, 4);
        }
        self.empty_places(rng, 4);
        self.put(b":");
    }

    /// Puts local-part and domain.
    fn spec(&mut self, rng: &mut Rng, depth: u8, parent: usize) {
        self.head(1, depth, parent);
        self.local_part(rng);
        self.put(b"@");
        self.domain(rng);
    }

    fn mailbox(&mut self, rng: &mut Rng, depth: u8, parent: usize) {
        if rng.once_in(2) {
            return self.spec(rng, depth, parent);
        }
        let own = self.head(2, depth, parent);
        self.phrase(rng);
        self.put(b"<");
        if rng.once_in(3) {
            self.route(rng);
        }
        self.spec(rng, depth + 1, own);
        self.put(b">");
    }

    fn group(&mut self, rng: &mut Rng) {
        let own = self.head(3, 0, 0);
        self.phrase(rng);
        self.put(b":");
        self.list(rng, own);
        self.put(b";");
    }

    /// Puts a list: the body's if the parent is 0, else a group's.
    fn list(&mut self, rng: &mut Rng, parent: usize) {
        self.empty_places(rng, 6);
        for member in 0..rng.below(4) {
            if member > 0 {
                self.put(b",");
                self.empty_places(rng, 8);
            }
            match parent {
                0 if rng.once_in(3) => self.group(rng),
                0 => self.mailbox(rng, 0, 0),
                _ => self.mailbox(rng, 1, parent),
            }
        }
        self.empty_places(rng, 8);
    }
}

/// A list by the rules of RFC 822, printed with random white space: its text,
/// and kind, depth and parent of each address.
pub fn list822(rng: &mut Rng) -> (Vec<u8>, Vec<u8>) {
    let mut out = Derived::default();
    if rng.once_in(300) {
        return long822(rng);
    }
    out.list(rng, 0);
    if rng.once_in(8) {
        out.tokens = with_comments(rng, &out.tokens);
    }
    let compact = rng.once_in(2);
    (glue_by(rng, &out.tokens, compact, touches822), out.heads)
}

/// A group of as many mailboxes as a message can hold, and now and then one more.
fn long822(rng: &mut Rng) -> (Vec<u8>, Vec<u8>) {
    let mut out = Derived::default();
    let own = out.head(3, 0, 0);
    let mut text = b"x:".to_vec();
    while text.len() < 32_762 + rng.below(8) {
        let named = rng.once_in(3) && text.len() < 32_750;
        let inner = if named { out.head(2, 1, own) } else { own };
        out.head(1, if named { 2 } else { 1 }, inner);
        text.extend_from_slice(if named { b"x<@a:b.c@[d]>," } else { b"a@b," });
    }
    text.push(b';');
    (text, out.heads)
}

/// Bytes, tokens or symbols that tell something by RFC 822.
fn soup822(rng: &mut Rng) -> Vec<u8> {
    let telling = b"<>@,;:.[]\\\"()<>@,;:..@@[] \t\r\nxxxyyat\xFF";
    let small: [&[u8]; 12] =
        [b"x", b"\"q\"", b"at", b"@", b"<", b">", b":", b";", b",", b".", b"[1]", b"]"];
    let length = rng.below(16);
    if rng.once_in(60) {
        return vec![b' '; 32_766 + rng.below(5)];
    }
    match rng.below(3) {
        0 => (0..length).map(|_| telling[rng.below(telling.len())]).collect(),
        1 => {
            let tokens: Tokens = (0..length).map(|_| rng.pick(&small).to_vec()).collect();
            glue_by(rng, &tokens, true, touches822)
        }
        _ => (0..length).flat_map(|_| token822(rng)).collect(),
    }
}

/// A token of any sort, a faulty one now and then.
fn token822(rng: &mut Rng) -> Vec<u8> {
    match rng.below(24) {
        0..=5 => rng.pick(&ATOMS822).to_vec(),
        6..=7 => rng.pick(&QUOTED822).to_vec(),
        8..=9 => literal(rng),
        10..=12 => rng.pick(&SPACES).to_vec(),
        13 if rng.once_in(2) => rng.pick(&FAULTS822).to_vec(),
        14 if rng.once_in(4) => rng.pick(&FAULTS).to_vec(),
        _ => rng.pick(&MARKS822).to_vec(),
    }
}

/// An edition: most often 822, else 733 or a number that is none.
pub fn edition(rng: &mut Rng) -> usize {
    let others = [
        0, 1, 732, 734, 821, 823, 65_536 + 733, 65_536 + 822, (1 << 32) + 733, (1 << 32) + 822,
        733 << 8, usize::MAX,
    ];
    match rng.below(8) {
        0 | 1 => others[rng.below(others.len())],
        2 if rng.once_in(4) => rng.next() as usize >> rng.below(64),
        2 => 733,
        _ => 822,
    }
}

// ---------------------------------------------------- headers and names

/// A header of a few lines, some of them faulty.
fn header(rng: &mut Rng) -> Vec<u8> {
    if rng.once_in(400) {
        let repeated: [&[u8]; 3] = [b"a:\r\n", b"To:\"\"\r\n", b"cc: a\r\n b\r\n"];
        let line = rng.pick(&repeated);
        return line.repeat((32_760 + rng.below(16)) / line.len());
    }
    let mut out = Vec::new();
    for _ in 0..rng.below(6) {
        out.extend(name(rng));
        let colons: [&[u8]; 8] = [b":", b":", b": ", b" :", b"\t :", b": ", b"", b"::"];
        out.extend_from_slice(rng.pick(&colons));
        out.extend(match rng.below(8) {
            0 => date(rng),
            1 => tokens(rng),
            2 | 3 => list(rng),
            4 => symbols(rng),
            5 => bytes(rng, 10),
            _ => b"x@y".to_vec(),
        });
        let ends: [&[u8]; 9] = [
            b"\r\n", b"\r\n", b"\r\n", b"\r\n", b"\r\n\r\n", b"\r\r\n", b"\n", b"\r", b"\r\n ",
        ];
        let pick = if rng.once_in(3) { rng.below(9) } else { 0 };
        out.extend_from_slice(ends[pick]);
    }
    if rng.once_in(4) {
        let rest = bytes(rng, 12);
        out.extend_from_slice(b"\r\n");
        out.extend(rest);
    }
    if rng.once_in(4) {
        mutate(rng, out)
    } else {
        out
    }
}

/// Names of fields, the known ones first.
const FIELD_NAMES: [&[u8]; 14] = [
    b"Date", b"From", b"Reply-To", b"To", b"cc", b"Bcc", b"Subject", b"Sender", b"X y", b"T",
    b"Reply_To", b"Froms", b"bc", b"",
];
const KNOWN: usize = 6;

/// Turns the case of some letters.
fn turn_case(rng: &mut Rng, name: &mut [u8]) {
    for byte in name.iter_mut() {
        if byte.is_ascii_alphabetic() && rng.once_in(3) {
            *byte ^= 32;
        }
    }
}

/// A field name: known ones in any case, near ones, others.
fn name(rng: &mut Rng) -> Vec<u8> {
    let mut out = rng.pick(&FIELD_NAMES).to_vec();
    turn_case(rng, &mut out);
    if rng.once_in(15) {
        out = mutate(rng, out);
    }
    if rng.once_in(30) && !out.is_empty() {
        let at = rng.below(out.len());
        out[at] = near_byte(rng, out[at]);
    }
    out
}

/// A byte that may be taken for another: one bit apart, with its low bits,
/// next to it, right outside the letters; or a letter; or any.
fn near_byte(rng: &mut Rng, byte: u8) -> u8 {
    match rng.below(7) {
        0 => byte ^ 1 << rng.below(8),
        1 => byte & 31 | (rng.below(8) as u8) << 5,
        2 => byte.wrapping_add(1),
        3 => byte.wrapping_sub(1),
        4 => b"@[`{"[rng.below(4)],
        5 => b'a' + rng.below(26) as u8,
        _ => rng.below(256) as u8,
    }
}

/// A name to look up, of any bytes: a known one in any case, one that is near
/// by its length, its first byte or a later one, or any other.
fn looked_up(rng: &mut Rng) -> Vec<u8> {
    let mut out = rng.pick(&FIELD_NAMES[..KNOWN]).to_vec();
    turn_case(rng, &mut out);
    let length = out.len();
    let later = 1 + rng.below(length - 1);
    match rng.below(16) {
        0..=2 => {}
        3..=5 => out[0] = near_byte(rng, out[0]),
        6 => out[0] = rng.pick(&FIELD_NAMES[..KNOWN])[0],
        7..=9 => out[later] = near_byte(rng, out[later]),
        10 => out.truncate(rng.below(length)),
        11 => drop(out.remove(rng.below(length))),
        12 => {
            let byte = if rng.once_in(2) { b' ' } else { near_byte(rng, out[later]) };
            out.insert([0, later, length][rng.below(3)], byte);
        }
        13 => {
            let more = if rng.once_in(50) { 65_536 } else { [256, rng.below(300)][rng.below(2)] };
            out.resize(length + more, b'o');
        }
        14 => out.fill_with(|| rng.below(256) as u8),
        _ => return if rng.once_in(2) { name(rng) } else { bytes(rng, 10) },
    }
    out
}

// ------------------------------------------------------ dates, replies

const DAY_NAMES: [&str; 10] = [
    "Monday", "Tuesday", "Wednesday", "Thursday", "Friday", "Saturday", "Sunday", "Tues", "Mo",
    "May",
];

const MONTH_NAMES: [&str; 15] = [
    "January", "February", "March", "April", "May", "June", "July", "August", "September",
    "October", "November", "December", "Sept", "Monday", "Febr",
];

const ZONES: [&str; 26] = [
    "GMT", "NST", "AST", "EST", "CST", "MST", "PST", "YST", "HST", "BST", "ADT", "EDT", "CDT",
    "MDT", "PDT", "YDT", "HDT", "BDT", "NDT", "UT", "+0530", "-0800", "+2359", "+2400", "-1260",
    "0500",
];

/// A name of a table, full or cut, in any case; the last ones are rare.
fn cut_name(rng: &mut Rng, table: &[&str], usual: usize) -> Vec<u8> {
    let limit = if rng.once_in(20) { table.len() } else { usual };
    let mut text = table[rng.below(limit)].as_bytes().to_vec();
    if rng.once_in(2) {
        text.truncate(3);
    }
    match rng.below(6) {
        0 => text.make_ascii_lowercase(),
        1 => text.make_ascii_uppercase(),
        _ => {}
    }
    text
}

fn year(rng: &mut Rng) -> String {
    match rng.below(12) {
        0 => format!("{}", rng.below(10_000)),
        1 => format!("{:04}", 1_895 + rng.below(10)),
        2 => format!("{:04}", 9_990 + rng.below(10)),
        3 => format!("{:04}", 100 * (19 + rng.below(6))),
        4..=6 => format!("{:02}", rng.below(100)),
        _ => format!("{:04}", 1_900 + rng.below(300)),
    }
}

/// A number below `top`, now and then one at its edge or past it.
fn edge(rng: &mut Rng, top: usize) -> usize {
    if rng.once_in(9) {
        [0, top - 1, top, top, top + 1, 99][rng.below(6)]
    } else {
        rng.below(top)
    }
}

fn clock(rng: &mut Rng) -> String {
    let (h, m, s) = (edge(rng, 24), edge(rng, 60), edge(rng, 60));
    match rng.below(8) {
        0 | 1 => format!("{h:02}{m:02}"),
        2 => format!("{h:02}{m:02}{s:02}"),
        3 => format!("{h:02}:{m:02}"),
        4 => format!("{h:02}:{m:02}{s:02}"),
        5 => format!("{h:02}{m:02}:{s:02}"),
        6 => format!("{h:02}:{m:02}:{s:02}"),
        _ if rng.once_in(4) => format!("{h}:{m}"),
        _ => format!("{h:02} : {m:02}"),
    }
}

fn zone(rng: &mut Rng) -> String {
    let dash = if rng.once_in(4) { "-" } else { "" };
    match rng.below(4) {
        0 => format!("{dash}{}", (b'A' + rng.below(26) as u8) as char),
        1 => format!("{dash}{}", (b'a' + rng.below(26) as u8) as char),
        2 => {
            let sign = if rng.once_in(2) { "+" } else { "-" };
            format!("{sign}{:02}{:02}", edge(rng, 24), edge(rng, 60))
        }
        _ => format!("{dash}{}", ZONES[rng.below(ZONES.len())]),
    }
}

/// A date by the grammar or nearly so.
fn date(rng: &mut Rng) -> Vec<u8> {
    let mut out = Tokens::new();
    if rng.once_in(3) {
        out.push(cut_name(rng, &DAY_NAMES, 7));
        add(&mut out, b",");
    }
    let day = if rng.once_in(3) { edge(rng, 32) } else { 1 + rng.below(29) };
    out.push(if rng.once_in(2) { format!("{day:02}") } else { day.to_string() }.into_bytes());
    if rng.once_in(4) {
        add(&mut out, b"-");
    }
    out.push(cut_name(rng, &MONTH_NAMES, 12));
    if rng.once_in(4) {
        add(&mut out, b"-");
    }
    out.push(year(rng).into_bytes());
    out.push(clock(rng).into_bytes());
    let mut zone = zone(rng).into_bytes();
    if rng.once_in(5) {
        zone.make_ascii_lowercase();
    }
    out.push(zone);
    let compact = !rng.once_in(4);
    glue(rng, &out, compact)
}

/// A Reply-To body: white space and comments, now and then a symbol.
fn reply(rng: &mut Rng) -> Vec<u8> {
    if rng.once_in(50) {
        return vec![b' '; 32_766 + rng.below(5)];
    }
    let mut out = Vec::new();
    for _ in 0..rng.below(6) {
        out.extend_from_slice(rng.pick(&SPACES));
    }
    if rng.once_in(3) {
        let extra = if rng.once_in(2) { rng.pick(&FAULTS) } else { rng.pick(&MARKS) };
        let at = rng.below(out.len() + 1);
        out.splice(at..at, extra.iter().copied());
    }
    out
}

// ------------------------------------------------------------ positions

/// Puts a body into a message and chooses its start and end; now and then it
/// ends within a fold behind a backslash.
pub fn place(rng: &mut Rng, body: Vec<u8>) -> (Vec<u8>, usize, usize) {
    let bare = body.len() > 30_000 && !rng.once_in(4);
    if bare || rng.once_in(3) {
        let end = body.len();
        return (body, 0, end);
    }
    let before = bytes(rng, 6);
    let start = before.len();
    let end = start + body.len();
    let behind: [&[u8]; 8] = [b"", b"\r\n", b" ", b"\n ", b"\"", b")", b"x", b"\xC8"];
    let message = [&before[..], &body[..], rng.pick(&behind)].concat();
    let fold = find(rng, body.len(), &|i| body[i..].starts_with(b"\\\r\n"));
    if let (Some(i), 0) = (fold, rng.below(12)) {
        return (message, start, start + i + 1 + rng.below(3));
    }
    if !rng.once_in(8) {
        return (message, start, end);
    }
    let any = message.len() + 3;
    match rng.below(6) {
        0 => (message, end, start),
        1 => (message, start, any),
        2 => (message, usize::MAX, end),
        3 => (message, start, usize::MAX),
        _ => {
            let (one, two) = (rng.below(any), rng.below(any));
            (message, one, two)
        }
    }
}

/// A place to touch: in the body, often at a byte that starts or ends
/// something, right outside of it, or anywhere.
pub fn touched(rng: &mut Rng, message: &[u8], start: usize, end: usize) -> usize {
    let body = message.get(start..end).unwrap_or_default();
    let telling = b"\r\n ()\"\\@<>,;:tT";
    let byte = telling[rng.below(telling.len())];
    let found = find(rng, body.len(), &|i| body[i] == byte);
    match (rng.below(16), found) {
        (0, _) => start.wrapping_sub(1),
        (1, _) => end,
        (2, _) => start,
        (3, _) => end.wrapping_sub(1),
        (4, _) => rng.next() as usize,
        (5, _) => rng.below(message.len() + 3),
        (6..=11, Some(i)) => start + i,
        _ => start.wrapping_add(rng.below(body.len())),
    }
}

/// From where, and up to where, to look for a symbol: most often within the
/// body, also within what it holds, and out of order or past the message.
pub fn stretch(rng: &mut Rng, message: &[u8], start: usize, end: usize) -> (usize, usize) {
    let at = touched(rng, message, start, end).wrapping_add(rng.below(2));
    let any = message.len() + 3;
    let up_to = match rng.below(8) {
        0 => touched(rng, message, start, end),
        1 => at.wrapping_add(rng.below(12)),
        2 => rng.below(any),
        3 if rng.once_in(4) => rng.next() as usize,
        3 => message.len(),
        _ => end,
    };
    (at, up_to)
}

/// The length of an array lent for what is told in a step, seven numbers.
pub fn told_length(rng: &mut Rng) -> usize {
    if rng.once_in(3) { rng.below(10) } else { 7 }
}

/// The length of an array lent for a path; most paths are short.
pub fn path_length(rng: &mut Rng) -> usize {
    if rng.once_in(3) { rng.below(70) } else { rng.below(6) }
}

/// So many numbers of all sizes.
pub fn numbers(rng: &mut Rng, length: usize) -> Vec<u64> {
    (0..length).map(|_| rng.next() >> rng.below(64)).collect()
}
