//! A reader of RFC 733 headers, written from the page of rules alone.
//! Bodies are unfolded, cut into symbols, read into a tree by a machine with
//! an explicit stack, and only then turned into records or plain text.

/// Number, position and count of one answer.
#[derive(Clone, Copy, Debug, PartialEq, Eq)]
pub struct Told {
    pub number: u64,
    pub position: u64,
    pub count: u64,
}

/// A refusal: number and position.
pub type Fault = (u64, usize);

pub const LONGEST: usize = 32_768;
const LEVELS: usize = 64;
const FIELD_RECORD: usize = 8;
pub const ADDRESS_RECORD: usize = 12;

const CR: u8 = 13;
const LF: u8 = 10;

fn accepted(count: usize) -> Told {
    Told { number: 0, position: 0, count: count as u64 }
}

pub fn refused(fault: Fault) -> Told {
    Told { number: fault.0, position: fault.1 as u64, count: 0 }
}

fn short_of_room(needed: usize) -> Told {
    Told { number: 11, position: 0, count: needed as u64 }
}

fn is_blank(byte: u8) -> bool {
    byte == b' ' || byte == b'\t'
}

/// Writes the records into the table if they fit, else asks for more room.
pub fn hand_over(records: &[u8], size: usize, table: &mut [u8]) -> Told {
    let needed = records.len() / size;
    if table.len() / size < needed {
        return short_of_room(needed);
    }
    table[..records.len()].copy_from_slice(records);
    accepted(needed)
}

/// Appends a number in two bytes, high byte first.
pub fn push_pair(out: &mut Vec<u8>, value: usize) {
    out.extend_from_slice(&(value as u16).to_be_bytes());
}

// ---------------------------------------------------------------- fields

/// Splits a header into fields.
pub fn split(message: &[u8], table: &mut [u8]) -> Told {
    if message.len() > LONGEST {
        return refused((1, LONGEST));
    }
    match fields(message) {
        Err(fault) => refused(fault),
        Ok(records) => hand_over(&records, FIELD_RECORD, table),
    }
}

fn fields(message: &[u8]) -> Result<Vec<u8>, Fault> {
    let mut records = Vec::new();
    let mut line = 0;
    while line < message.len() && !message[line..].starts_with(b"\r\n") {
        let colon = find_colon(message, line)?;
        let body_end = find_body_end(message, colon + 1)?;
        let name = &message[line..colon];
        let trailing = name.iter().rev().take_while(|b| is_blank(**b)).count();
        push_pair(&mut records, line);
        push_pair(&mut records, colon - trailing);
        push_pair(&mut records, colon + 1);
        push_pair(&mut records, body_end);
        line = body_end + 2;
    }
    Ok(records)
}

/// The colon that ends the name starting at `line`.
fn find_colon(message: &[u8], line: usize) -> Result<usize, Fault> {
    for (place, &byte) in message.iter().enumerate().skip(line) {
        let first = place == line;
        match byte {
            b':' | b' ' | b'\t' if first => return Err((2, place)),
            b':' => return Ok(place),
            b' ' | b'\t' | 33..=126 => {}
            _ => return Err((2, place)),
        }
    }
    Err((4, message.len()))
}

/// The first CRLF from `start` on that no white space follows.
fn find_body_end(message: &[u8], start: usize) -> Result<usize, Fault> {
    for place in start..message.len() {
        if message[place] > 127 {
            return Err((3, place));
        }
        if message[place..].starts_with(b"\r\n") {
            let folded = message.get(place + 2).map_or(false, |b| is_blank(*b));
            if !folded {
                return Ok(place);
            }
        }
    }
    Err((4, message.len()))
}

/// The known field names, by number from 1.
pub const NAMES: [&[u8]; 6] = [b"Date", b"From", b"Reply-To", b"To", b"cc", b"Bcc"];

/// The number of a known field name, 0 for any other.
pub fn known(name: &[u8]) -> u32 {
    let place = NAMES.iter().position(|known| known.eq_ignore_ascii_case(name));
    place.map_or(0, |place| place as u32 + 1)
}

/// How many known names are compared with a name letter by letter: those of
/// its length and, case ignored, its first letter.
pub fn compared(name: &[u8]) -> u64 {
    let sorted_by = |name: &[u8]| (name.len(), name.first().map(u8::to_ascii_lowercase));
    NAMES.iter().filter(|known| sorted_by(known) == sorted_by(name)).count() as u64
}

// --------------------------------------------------------------- symbols

#[derive(Clone, Copy, Debug, PartialEq, Eq)]
pub enum Sort {
    Atom,
    Quoted,
    /// "@" or the atom "at".
    At,
    /// Any other special, standing for itself.
    Mark(u8),
}

#[derive(Clone, Debug)]
pub struct Symbol {
    sort: Sort,
    start: usize,
    end: usize,
    /// The bytes of an atom or mark, the data of a quoted-string.
    meaning: Vec<u8>,
    /// Whether white space or a comment is right before it.
    apart: bool,
}

/// A byte together with its place in the message.
pub type Placed = (usize, u8);

/// The bytes of the body without the CRLF of each fold.
pub fn unfold(message: &[u8], start: usize, end: usize) -> Vec<Placed> {
    let body = &message[start..end];
    let mut kept = Vec::with_capacity(body.len());
    let mut i = 0;
    while i < body.len() {
        if let [CR, LF, b' ' | b'\t', ..] = body[i..] {
            i += 2;
        }
        kept.push((start + i, body[i]));
        i += 1;
    }
    kept
}

fn is_special(byte: u8) -> bool {
    b"()<>@,;:\\\"".contains(&byte)
}

fn is_atom_byte(byte: u8) -> bool {
    (33..=126).contains(&byte) && !is_special(byte)
}

/// Checks length and positions, then unfolds the body.
fn placed(message: &[u8], start: usize, end: usize) -> Result<Vec<Placed>, Fault> {
    if message.len() > LONGEST {
        return Err((1, LONGEST));
    }
    if start > end || end > message.len() {
        return Err((13, 0));
    }
    Ok(unfold(message, start, end))
}

/// The symbols of a body, or its first fault.
fn symbols(message: &[u8], start: usize, end: usize) -> Result<Vec<Symbol>, Fault> {
    let (found, fault) = cut(&placed(message, start, end)?);
    fault.map_or(Ok(found), Err)
}

/// The symbols up to the end or the first fault, and that fault.
fn cut(bytes: &[Placed]) -> (Vec<Symbol>, Option<Fault>) {
    let mut found = Vec::new();
    let mut apart = false;
    let mut i = 0;
    while i < bytes.len() {
        let (symbol, next) = match piece(bytes, i) {
            Err(fault) => return (found, Some(fault)),
            Ok(piece) => piece,
        };
        match symbol {
            None => apart = true,
            Some(symbol) => {
                found.push(Symbol { apart, ..symbol });
                apart = false;
            }
        }
        i = next;
    }
    (found, None)
}

/// What stands at `i`, outside quotes and comments: a symbol, or `None` for
/// white space and comments; and the index behind it.
fn piece(bytes: &[Placed], i: usize) -> Result<(Option<Symbol>, usize), Fault> {
    let (place, byte) = bytes[i];
    match byte {
        128..=255 => Err((3, place)),
        b' ' | b'\t' => Ok((None, i + 1)),
        0..=31 | 127 => Err((7, place)),
        b'(' => Ok((None, comment_end(bytes, i)?)),
        b'"' => {
            let (symbol, after) = quoted(bytes, i)?;
            Ok((Some(symbol), after))
        }
        _ => {
            let run = bytes[i..].iter().take_while(|b| is_atom_byte(b.1)).count();
            let after = i + run.max(1);
            Ok((Some(unquoted(&bytes[i..after])), after))
        }
    }
}

/// An atom or a single special.
fn unquoted(bytes: &[Placed]) -> Symbol {
    let meaning: Vec<u8> = bytes.iter().map(|b| b.1).collect();
    let sort = if meaning == b"@" || meaning.eq_ignore_ascii_case(b"at") {
        Sort::At
    } else if is_special(meaning[0]) {
        Sort::Mark(meaning[0])
    } else {
        Sort::Atom
    };
    let (start, end) = (bytes[0].0, bytes[bytes.len() - 1].0 + 1);
    Symbol { sort, start, end, meaning, apart: false }
}

/// One step inside quotes or a comment: the byte, whether a backslash took
/// it, and the index behind it. `None` at the end of the body.
pub fn inner_step(bytes: &[Placed], i: usize) -> Result<Option<(u8, bool, usize)>, Fault> {
    let taken = matches!(bytes.get(i), Some((_, b'\\')));
    let at = if taken { i + 1 } else { i };
    match bytes.get(at) {
        None => Ok(None),
        Some(&(place, 128..=255)) => Err((3, place)),
        Some(&(place, CR)) if !taken => Err((7, place)),
        Some(&(_, byte)) => Ok(Some((byte, taken, at + 1))),
    }
}

/// The index behind the comment that opens at `open`.
pub fn comment_end(bytes: &[Placed], open: usize) -> Result<usize, Fault> {
    let mut depth = 1u32;
    let mut i = open + 1;
    while let Some((byte, taken, next)) = inner_step(bytes, i)? {
        i = next;
        match (byte, taken) {
            (b'(', false) => depth += 1,
            (b')', false) => depth -= 1,
            _ => {}
        }
        if depth == 0 {
            return Ok(i);
        }
    }
    Err((6, bytes[open].0))
}

/// The quoted-string that opens at `open` and the index behind it. Where the
/// CRLF of a fold was right behind a backslash that takes, CR and LF are data.
pub fn quoted(bytes: &[Placed], open: usize) -> Result<(Symbol, usize), Fault> {
    let start = bytes[open].0;
    let mut meaning = Vec::new();
    let mut i = open + 1;
    while let Some((byte, taken, next)) = inner_step(bytes, i)? {
        if byte == b'"' && !taken {
            let end = bytes[i].0 + 1;
            let symbol = Symbol { sort: Sort::Quoted, start, end, meaning, apart: false };
            return Ok((symbol, next));
        }
        if taken && bytes[i + 1].0 > bytes[i].0 + 1 {
            meaning.extend([CR, LF]);
        }
        meaning.push(byte);
        i = next;
    }
    Err((5, start))
}

/// The first fault of scanning, if there is one.
pub fn scan(message: &[u8], start: usize, end: usize) -> Told {
    match symbols(message, start, end) {
        Err(fault) => refused(fault),
        Ok(_) => accepted(0),
    }
}

/// The meaning of the first symbol of a body that scans without fault.
pub fn meaning(message: &[u8], start: usize, end: usize) -> Option<Vec<u8>> {
    Some(symbols(message, start, end).ok()?.first()?.meaning.clone())
}

/// The classes of symbols by their numbers; 0 where there is no symbol.
pub const CLASSES: [&str; 10] =
    ["the end", "atom", "quoted-string", "at", "<", ">", ",", ";", ":", "another"];

/// What is told in a step: number and position of a fault; class, start, end,
/// length of the meaning, and whether it stands apart, of a symbol.
pub type Step = [u64; 7];

/// Tells a symbol.
fn told_symbol(symbol: &Symbol) -> Step {
    let class = match symbol.sort {
        Sort::Atom => 1,
        Sort::Quoted => 2,
        Sort::At => 3,
        Sort::Mark(b'<') => 4,
        Sort::Mark(b'>') => 5,
        Sort::Mark(b',') => 6,
        Sort::Mark(b';') => 7,
        Sort::Mark(b':') => 8,
        Sort::Mark(_) => 9,
    };
    let (start, end, length) = (symbol.start, symbol.end, symbol.meaning.len());
    [0, 0, class, start as u64, end as u64, length as u64, u64::from(symbol.apart)]
}

/// Tells a fault, or the end.
fn told_last(fault: Option<Fault>) -> Step {
    let (number, position) = fault.unwrap_or((0, 0));
    [number, position as u64, 0, 0, 0, 0, 0]
}

/// All that is told of a body by scanning it once: its symbols, and last the
/// fault or the end.
pub fn steps(message: &[u8], start: usize, end: usize) -> Vec<Step> {
    let (found, fault) = match placed(message, start, end) {
        Err(fault) => (vec![], Some(fault)),
        Ok(bytes) => cut(&bytes),
    };
    found.iter().map(told_symbol).chain([told_last(fault)]).collect()
}

/// The next symbol from `at` on. It stands apart exactly if something was
/// passed over on the way to it.
pub fn next_symbol(message: &[u8], at: usize, end: usize) -> Step {
    let first = |bytes: Vec<Placed>| {
        let mut i = 0;
        while i < bytes.len() {
            match piece(&bytes, i)? {
                (None, next) => i = next,
                (Some(symbol), _) => return Ok(Some(Symbol { apart: i > 0, ..symbol })),
            }
        }
        Ok(None)
    };
    match placed(message, at, end).and_then(first) {
        Err(fault) => told_last(Some(fault)),
        Ok(None) => told_last(None),
        Ok(Some(symbol)) => told_symbol(&symbol),
    }
}

/// The comments of a body, nested ones too, that are closed before the first
/// fault of scanning: start and end of each, in the order of their ends.
pub fn comments(message: &[u8], start: usize, end: usize) -> Vec<(usize, usize)> {
    let mut spans = Vec::new();
    if message.len() <= LONGEST && start <= end && end <= message.len() {
        let bytes = unfold(message, start, end);
        let mut open = Vec::new();
        let mut i = Some(0);
        while let Some(at) = i.filter(|at| *at < bytes.len()) {
            i = if open.is_empty() {
                outer_step(&bytes, at, &mut open)
            } else {
                comment_step(&bytes, at, &mut open, &mut spans)
            };
        }
    }
    spans
}

/// One step outside comments: the index behind a quoted-string or a byte,
/// `None` at a fault. The place of a "(" goes into `open`.
fn outer_step(bytes: &[Placed], i: usize, open: &mut Vec<usize>) -> Option<usize> {
    match bytes[i] {
        (_, b'"') => return quoted(bytes, i).ok().map(|found| found.1),
        (_, 0..=8 | 10..=31 | 127..=255) => return None,
        (place, b'(') => open.push(place),
        _ => {}
    }
    Some(i + 1)
}

/// One step inside a comment, `open` having the place of each open "(".
fn comment_step(
    bytes: &[Placed],
    i: usize,
    open: &mut Vec<usize>,
    spans: &mut Vec<(usize, usize)>,
) -> Option<usize> {
    let (byte, taken, next) = inner_step(bytes, i).ok().flatten()?;
    let place = bytes[i].0;
    match (byte, taken) {
        (b'(', false) => open.push(place),
        (b')', false) => spans.extend(open.pop().map(|start| (start, place + 1))),
        _ => {}
    }
    Some(next)
}

/// Whether the bytes scan alone, without fault, to no symbol and to one
/// comment from the first byte to the last.
pub fn is_comment(bytes: &[u8]) -> bool {
    let no_symbol = symbols(bytes, 0, bytes.len()).is_ok_and(|found| found.is_empty());
    no_symbol && comments(bytes, 0, bytes.len()).contains(&(0, bytes.len()))
}

/// Folds right behind a backslash, by what becomes of their CRLF.
pub const FOLDS: [&str; 4] = [
    "line end kept, SPACE", "line end kept, HTAB", "fold behind a taken backslash",
    "fold behind a backslash, comment",
];

/// Which of `FOLDS` a body that scans without fault has. Of a row of
/// backslashes each second one is taken.
pub fn folds(message: &[u8], start: usize, end: usize) -> [bool; 4] {
    let mut found = [false; 4];
    let symbols = symbols(message, start, end).unwrap_or_default();
    let comments = comments(message, start, end);
    let body = message.get(start..end).unwrap_or_default();
    for i in 0..body.len() {
        let [b'\\', CR, LF, white @ (b' ' | b'\t'), ..] = body[i..] else { continue };
        let row = body[..=i].iter().rev().take_while(|byte| **byte == b'\\').count();
        let within = |from, behind| from < start + i && start + i < behind;
        let in_quotes = |s: &Symbol| s.sort == Sort::Quoted && within(s.start, s.end);
        let fold = match row % 2 {
            1 if comments.iter().any(|c| within(c.0, c.1)) => 3,
            _ if !symbols.iter().any(in_quotes) => continue,
            0 => 2,
            _ => usize::from(white == b'\t'),
        };
        found[fold] = true;
    }
    found
}

// ------------------------------------------------------------- addresses

#[derive(Clone, Copy, Debug, PartialEq, Eq)]
enum Form {
    Mailbox,
    Angle,
    Group,
    Quoted,
    Typed,
}

/// One address of the tree. Numbers in `first`, `last`, `name` and `nodes`
/// are symbol numbers; `name` holds the first symbol and the one behind.
#[derive(Debug)]
struct Address {
    form: Form,
    depth: usize,
    parent: Option<usize>,
    first: usize,
    last: usize,
    name: Option<(usize, usize)>,
    nodes: Vec<usize>,
    members: Vec<usize>,
}

/// Where the machine stands between two symbols.
#[derive(Clone, Copy, Debug, PartialEq, Eq)]
enum Place {
    /// In a list, where an address may start.
    Free,
    /// Behind a ":" that opened an address: typed or nameless group.
    Opened,
    /// Behind such a ":" and one atom, the symbol of this number.
    OpenedAtom(usize),
    /// Behind the second ":" of a typed address.
    Owed,
    /// In a phrase that started with the symbol of this number.
    Phrase(usize),
    /// Behind "at" or "@".
    NodeOwed,
    /// Behind a node.
    Node,
    /// Behind an address that cannot go on.
    Whole,
}

struct Machine<'a> {
    symbols: &'a [Symbol],
    place: Place,
    /// Addresses that are open, outermost first.
    open: Vec<usize>,
    tree: Vec<Address>,
    /// Addresses that lie in no other.
    roots: Vec<usize>,
}

impl<'a> Machine<'a> {
    fn new(symbols: &'a [Symbol]) -> Self {
        Machine { symbols, place: Place::Free, open: vec![], tree: vec![], roots: vec![] }
    }

    /// Adds an address to the innermost open one.
    fn add(&mut self, form: Form, first: usize, name: Option<(usize, usize)>) -> usize {
        let number = self.tree.len();
        let parent = self.open.last().copied();
        match parent {
            Some(outer) => self.tree[outer].members.push(number),
            None => self.roots.push(number),
        }
        self.tree.push(Address {
            form,
            depth: self.open.len(),
            parent,
            first,
            last: first,
            name,
            nodes: vec![],
            members: vec![],
        });
        number
    }

    /// Takes symbol `i`, or gives the number of the refusal.
    fn take(&mut self, i: usize) -> Result<(), u64> {
        match self.symbols[i].sort {
            Sort::Atom | Sort::Quoted => self.take_word(i),
            Sort::At => self.take_at(i),
            Sort::Mark(b'<') => self.take_open(i, Form::Angle),
            Sort::Mark(b':') => self.take_colon(i),
            Sort::Mark(b',') => self.take_comma(i),
            Sort::Mark(b'>') => self.take_close(i, Form::Angle),
            Sort::Mark(b';') => self.take_close(i, Form::Group),
            Sort::Mark(_) => Err(8),
        }
    }

    fn take_word(&mut self, i: usize) -> Result<(), u64> {
        self.place = match self.place {
            Place::Opened if self.symbols[i].sort == Sort::Atom => Place::OpenedAtom(i),
            Place::Free | Place::Opened | Place::Owed => Place::Phrase(i),
            Place::OpenedAtom(first) | Place::Phrase(first) => Place::Phrase(first),
            Place::NodeOwed => {
                let mailbox = self.tree.len() - 1;
                self.tree[mailbox].nodes.push(i);
                self.tree[mailbox].last = i;
                Place::Node
            }
            Place::Node | Place::Whole => return Err(8),
        };
        Ok(())
    }

    fn take_at(&mut self, i: usize) -> Result<(), u64> {
        match self.place {
            Place::OpenedAtom(first) | Place::Phrase(first) => {
                self.add(Form::Mailbox, first, Some((first, i)));
            }
            Place::Node => {}
            _ => return Err(8),
        }
        self.place = Place::NodeOwed;
        Ok(())
    }

    /// Opens a level with the "<" or ":" at symbol `i`.
    fn take_open(&mut self, i: usize, form: Form) -> Result<(), u64> {
        let (first, name) = match self.place {
            Place::Free | Place::Opened | Place::Owed => (i, None),
            Place::OpenedAtom(first) | Place::Phrase(first) => (first, Some((first, i))),
            Place::NodeOwed | Place::Node | Place::Whole => return Err(8),
        };
        if self.open.len() == LEVELS {
            return Err(10);
        }
        let number = self.add(form, first, name);
        self.open.push(number);
        let bare_colon = form == Form::Group && name.is_none();
        self.place = if bare_colon { Place::Opened } else { Place::Free };
        Ok(())
    }

    /// A ":" opens a group, or is the second one of a typed address.
    fn take_colon(&mut self, i: usize) -> Result<(), u64> {
        if let Place::OpenedAtom(atom) = self.place {
            let typed = self.open[self.open.len() - 1];
            self.tree[typed].form = Form::Typed;
            self.tree[typed].name = Some((atom, atom + 1));
            self.place = Place::Owed;
            return Ok(());
        }
        self.take_open(i, Form::Group)
    }

    /// Ends the address in hand before symbol `i`; false if it is not whole.
    fn settle(&mut self, i: usize) -> bool {
        match self.place {
            Place::Free | Place::Opened => return true,
            Place::Phrase(first) if first + 1 == i && self.symbols[first].sort == Sort::Quoted => {
                self.add(Form::Quoted, first, Some((first, i)));
            }
            Place::Node | Place::Whole => {}
            _ => return false,
        }
        while let Some(&outer) = self.open.last() {
            if self.tree[outer].form != Form::Typed {
                break;
            }
            self.tree[outer].last = i - 1;
            self.open.pop();
        }
        true
    }

    /// Whether all symbols together are a list.
    fn is_list(&mut self) -> bool {
        self.settle(self.symbols.len()) && self.open.is_empty()
    }

    fn take_comma(&mut self, i: usize) -> Result<(), u64> {
        if !self.settle(i) {
            return Err(8);
        }
        self.place = Place::Free;
        Ok(())
    }

    fn take_close(&mut self, i: usize, form: Form) -> Result<(), u64> {
        if !self.settle(i) {
            return Err(8);
        }
        match self.open.pop() {
            Some(number) if self.tree[number].form == form => {
                self.tree[number].last = i;
                self.place = Place::Whole;
                Ok(())
            }
            _ => Err(8),
        }
    }
}

/// What was read of an accepted body.
#[derive(Default)]
struct Reading {
    symbols: Vec<Symbol>,
    tree: Vec<Address>,
    roots: Vec<usize>,
}

/// The machine behind all symbols, or the first one refused.
fn run(symbols: &[Symbol]) -> Result<Machine<'_>, Fault> {
    let mut machine = Machine::new(symbols);
    for (i, symbol) in symbols.iter().enumerate() {
        machine.take(i).map_err(|number| (number, symbol.start))?;
    }
    Ok(machine)
}

fn read(message: &[u8], start: usize, end: usize) -> Result<Reading, Fault> {
    let symbols = symbols(message, start, end)?;
    let mut machine = run(&symbols)?;
    if !machine.is_list() {
        return Err((9, end));
    }
    let (tree, roots) = (machine.tree, machine.roots);
    Ok(Reading { symbols, tree, roots })
}

/// What ends an address, a mark or the body's end, and how many levels it
/// closes besides typed addresses.
pub const ENDS: [(&str, usize); 4] = [(",", 0), (";", 1), (">", 1), ("end", 0)];

/// What the levels of a body come to, up to its end or first refused symbol.
#[derive(Default)]
pub struct Levels {
    /// Most levels open at once.
    pub most: usize,
    /// Levels open at the end or the refused symbol.
    pub last: usize,
    /// Whether the last level allowed became a typed address.
    pub full_typed: bool,
    /// Which of `ENDS` ended two or more typed addresses at once.
    pub ended: [bool; 4],
}

/// Follows the levels of a body.
pub fn levels(message: &[u8], start: usize, end: usize) -> Levels {
    let mut levels = Levels::default();
    let symbols = symbols(message, start, end).unwrap_or_default();
    let mut machine = Machine::new(&symbols);
    for i in 0..=symbols.len() {
        levels.last = machine.open.len();
        levels.most = levels.most.max(levels.last);
        let taken = if i < symbols.len() { machine.take(i).is_ok() } else { machine.settle(i) };
        if !taken {
            break;
        }
        levels.full_typed |= machine.place == Place::Owed && machine.open.len() == LEVELS;
        let mark = symbols.get(i).map_or(&b"end"[..], |symbol| &symbol.meaning);
        for ((end, closed), ended) in ENDS.iter().zip(&mut levels.ended) {
            *ended |= mark == end.as_bytes() && levels.last > machine.open.len() + closed + 1;
        }
    }
    levels
}

fn kind(reading: &Reading, address: &Address) -> u8 {
    match address.form {
        Form::Mailbox => 1,
        Form::Angle => 2,
        Form::Group => 3,
        Form::Quoted => 4,
        Form::Typed => {
            let atom = address.name.map_or(0, |name| name.0);
            match reading.symbols[atom].meaning.to_ascii_lowercase().as_slice() {
                b"include" => 5,
                b"postal" => 6,
                _ => 7,
            }
        }
    }
}

fn push_record(out: &mut Vec<u8>, reading: &Reading, address: &Address) {
    let symbols = &reading.symbols;
    let start = symbols[address.first].start;
    let name = match address.name {
        None => (start, start),
        Some((from, behind)) => (symbols[from].start, symbols[behind - 1].end),
    };
    out.push(kind(reading, address));
    out.push(address.depth as u8);
    push_pair(out, address.parent.map_or(0, |number| number + 1));
    push_pair(out, start);
    push_pair(out, symbols[address.last].end);
    push_pair(out, name.0);
    push_pair(out, name.1);
}

/// Reads an address list into records.
pub fn addresses(message: &[u8], start: usize, end: usize, table: &mut [u8]) -> Told {
    let reading = match read(message, start, end) {
        Err(fault) => return refused(fault),
        Ok(reading) => reading,
    };
    let mut records = Vec::new();
    for address in &reading.tree {
        push_record(&mut records, &reading, address);
    }
    hand_over(&records, ADDRESS_RECORD, table)
}

// ----------------------------------------------------------------- touch

/// Records that the tool's own table holds.
pub const OWN_TABLE: usize = 2_048;

/// What a byte is, by its number; 0 where nothing is told.
pub const BYTES: [&str; 6] = ["nothing", "white space", "comment", "word", "at", "mark"];

/// What can be named, in the order of the numbers that the sum is made of.
pub const THINGS: [&str; 9] = ["word", "at", "<", ">", "@", ",", ";", ":", "end"];

/// Touches the byte at `place`: number, position, count of the records around
/// it, what it is, and the sum of what could have stood at a refused place.
pub fn touch(
    message: &[u8],
    start: usize,
    end: usize,
    place: usize,
    path: &mut [u64],
) -> [u64; 5] {
    let reading = match read(message, start, end) {
        Err((number, position)) => {
            let symbols = symbols(message, start, end).unwrap_or_default();
            let before = symbols.iter().take_while(|s| s.start < position).count();
            let named = if (8..=10).contains(&number) { names(&symbols[..before]) } else { 0 };
            return [number, position as u64, 0, 0, named];
        }
        Ok(reading) => reading,
    };
    let needed = reading.tree.len();
    if needed > OWN_TABLE {
        return [11, 0, needed as u64, 0, 0];
    }
    if place < start || place >= end {
        return [13, 0, 0, 0, 0];
    }
    let around = around(&reading, place);
    for (slot, number) in path.iter_mut().zip(&around) {
        *slot = *number as u64;
    }
    let in_comment = comments(message, start, end).iter().any(|c| c.0 <= place && place < c.1);
    [0, 0, around.len() as u64, what(&reading, place, in_comment), 0]
}

/// The records that cover the place, the last one first.
fn around(reading: &Reading, place: usize) -> Vec<usize> {
    let covers = |number: &usize| {
        let address = &reading.tree[*number];
        let (first, last) = (&reading.symbols[address.first], &reading.symbols[address.last]);
        first.start <= place && place < last.end
    };
    (0..reading.tree.len()).rev().filter(covers).collect()
}

/// What the byte at a place of an accepted body is, a number of `BYTES`.
fn what(reading: &Reading, place: usize, in_comment: bool) -> u64 {
    match reading.symbols.iter().find(|s| s.start <= place && place < s.end) {
        None if in_comment => 2,
        None => 1,
        Some(symbol) => match symbol.sort {
            Sort::Atom | Sort::Quoted => 3,
            Sort::At if symbol.meaning != b"@" => 4,
            Sort::At | Sort::Mark(_) => 5,
        },
    }
}

/// The sum of what could follow the symbols: each of `THINGS` is put behind
/// them and tried, a word as an atom and as a quoted-string.
fn names(before: &[Symbol]) -> u64 {
    let mut tried = before.to_vec();
    let mut goes_on = |text: &str| {
        let placed: Vec<Placed> = text.bytes().map(|byte| (0, byte)).collect();
        tried.extend(cut(&placed).0);
        let taken = run(&tried).is_ok();
        tried.truncate(before.len());
        taken
    };
    let mut sum = 0;
    for (i, thing) in THINGS.into_iter().enumerate() {
        let named = match thing {
            "word" => goes_on("a") || goes_on("\"q\""),
            "end" => run(before).is_ok_and(|mut machine| machine.is_list()),
            _ => goes_on(thing),
        };
        sum += u64::from(named) << i;
    }
    sum
}

// --------------------------------------------------------- plain writing

/// One word: atoms as they are, quoted-strings with their data quoted anew.
fn word_text(symbol: &Symbol) -> Vec<u8> {
    if symbol.sort != Sort::Quoted {
        return symbol.meaning.clone();
    }
    let mut text = vec![b'"'];
    for &byte in &symbol.meaning {
        if matches!(byte, b'"' | b'\\' | CR | LF) {
            text.push(b'\\');
        }
        text.push(byte);
    }
    text.push(b'"');
    text
}

fn name_text(reading: &Reading, address: &Address) -> Vec<u8> {
    let (from, behind) = address.name.unwrap_or((0, 0));
    let words: Vec<Vec<u8>> = reading.symbols[from..behind].iter().map(word_text).collect();
    words.join(&b' ')
}

/// Whether a nameless group would read back as a typed address.
fn needs_comma(reading: &Reading, group: &Address) -> bool {
    let first = match group.members.first() {
        Some(&number) if group.name.is_none() => &reading.tree[number],
        _ => return false,
    };
    let one_atom = match first.name {
        Some((from, behind)) => behind == from + 1 && reading.symbols[from].sort == Sort::Atom,
        None => false,
    };
    first.form == Form::Group && one_atom
}

fn address_text(reading: &Reading, number: usize) -> Vec<u8> {
    let address = &reading.tree[number];
    let mut text = name_text(reading, address);
    let members = list_text(reading, &address.members);
    match address.form {
        Form::Quoted => {}
        Form::Mailbox => {
            for &node in &address.nodes {
                text.extend_from_slice(b" at ");
                text.extend(word_text(&reading.symbols[node]));
            }
        }
        Form::Angle => {
            let open: &[u8] = if text.is_empty() { b"<" } else { b" <" };
            text = [&text[..], open, &members[..], b">"].concat();
        }
        Form::Group => {
            let comma: &[u8] = if needs_comma(reading, address) { b"," } else { b"" };
            let space: &[u8] = if members.is_empty() { b"" } else { b" " };
            text = [&text[..], b":", comma, space, &members[..], b";"].concat();
        }
        Form::Typed => text = [b":", &text[..], b": ", &members[..]].concat(),
    }
    text
}

fn list_text(reading: &Reading, numbers: &[usize]) -> Vec<u8> {
    let texts: Vec<Vec<u8>> = numbers.iter().map(|n| address_text(reading, *n)).collect();
    texts.join(&b", "[..])
}

/// Writes an address list plainly.
pub fn plain(message: &[u8], start: usize, end: usize, text: &mut [u8]) -> Told {
    match read(message, start, end) {
        Err(fault) => refused(fault),
        Ok(reading) => hand_over(&list_text(&reading, &reading.roots), 1, text),
    }
}

// ------------------------------------------------------------- expansion

const STORE_RECORD: usize = 512;
const STORE_NAME: usize = 64;
const MOST_OPENINGS: u64 = 64;

/// The list of a record of the store.
pub fn stored_list(store: &[u8], record: usize) -> &[u8] {
    &store[record * STORE_RECORD..(record + 1) * STORE_RECORD][STORE_NAME..]
}

/// The name of a record of the store, without the zeros at its end.
fn stored_name(record: &[u8]) -> &[u8] {
    let name = &record[..STORE_NAME];
    let zeros = name.iter().rev().take_while(|byte| **byte == 0).count();
    &name[..STORE_NAME - zeros]
}

/// The record that an Include leads to. `None` if it leads to none, holds
/// another kind, or stands directly inside a typed address.
fn led_to(store: &[u8], reading: &Reading, include: &Address) -> Option<usize> {
    let form = |number: &usize| reading.tree[*number].form;
    let held = &include.members[0];
    let mailboxes = match form(held) {
        Form::Angle => &reading.tree[*held].members,
        _ => &include.members,
    };
    let inside_typed = include.parent.as_ref().map(form) == Some(Form::Typed);
    if inside_typed || mailboxes.iter().any(|mailbox| form(mailbox) != Form::Mailbox) {
        return None;
    }
    let record_of = |text: Vec<u8>| {
        store.chunks_exact(STORE_RECORD).position(|record| stored_name(record) == text)
    };
    mailboxes.iter().find_map(|mailbox| record_of(address_text(reading, *mailbox)))
}

/// A list to be expanded: the body, or a stored list.
struct Source {
    reading: Reading,
    /// How many symbols of the result stand before those of this list.
    shift: usize,
    /// Of a stored list: where the Include is in the body that led to it.
    place: Option<usize>,
}

/// An expansion in the making.
struct Expansion<'a> {
    store: &'a [u8],
    openings: u64,
    /// The expanded addresses, and the symbols of all lists they come from.
    result: Reading,
}

impl Expansion<'_> {
    /// Takes the symbols of a list over; its addresses follow.
    fn source(&mut self, reading: Reading, place: Option<usize>) -> Source {
        let shift = self.result.symbols.len();
        self.result.symbols.extend_from_slice(&reading.symbols);
        Source { reading, shift, place }
    }

    /// Levels open inside an address of the result; none outside of all.
    fn levels_in(&self, outer: Option<usize>) -> usize {
        outer.map_or(0, |number| self.result.tree[number].depth + 1)
    }

    /// Adds addresses of a list, expanded, to an address of the result.
    fn add_all(
        &mut self, from: &Source, numbers: &[usize], outer: Option<usize>,
    ) -> Result<(), Fault> {
        for number in numbers {
            let address = &from.reading.tree[*number];
            if kind(&from.reading, address) == 5 {
                self.open(from, address, outer)?;
            } else {
                let added = self.add(from.shift, address, outer);
                self.add_all(from, &address.members, Some(added))?;
            }
        }
        Ok(())
    }

    /// Adds one address, yet without members.
    fn add(&mut self, shift: usize, address: &Address, outer: Option<usize>) -> usize {
        let number = self.result.tree.len();
        match outer {
            Some(outer) => self.result.tree[outer].members.push(number),
            None => self.result.roots.push(number),
        }
        self.result.tree.push(Address {
            form: address.form,
            depth: self.levels_in(outer),
            parent: outer,
            first: address.first + shift,
            last: address.last + shift,
            name: address.name.map(|(from, behind)| (from + shift, behind + shift)),
            nodes: address.nodes.iter().map(|node| node + shift).collect(),
            members: vec![],
        });
        number
    }

    /// Adds the addresses of the stored list that an Include leads to.
    fn open(
        &mut self, from: &Source, include: &Address, outer: Option<usize>,
    ) -> Result<(), Fault> {
        let place = from.place.unwrap_or(from.reading.symbols[include.first].start);
        let record = led_to(self.store, &from.reading, include).ok_or((19, place))?;
        if self.openings == MOST_OPENINGS {
            return Err((20, place));
        }
        let list = stored_list(self.store, record);
        let reading = read(list, 0, list.len()).map_err(|(number, _)| (number, record))?;
        if self.levels_in(outer) + levels(list, 0, list.len()).most > LEVELS {
            return Err((10, place));
        }
        self.openings += 1;
        let stored = self.source(reading, Some(place));
        self.add_all(&stored, &stored.reading.roots, outer)
    }
}

/// Writes an address list plainly, each Include in it replaced by a stored
/// list: the answer, and how many stored lists were opened.
pub fn expand(
    message: &[u8],
    start: usize,
    end: usize,
    store: &[u8],
    text: &mut [u8],
) -> (Told, u64) {
    let reading = match read(message, start, end) {
        Err(fault) => return (refused(fault), 0),
        Ok(reading) => reading,
    };
    let mut expansion = Expansion { store, openings: 0, result: Reading::default() };
    let body = expansion.source(reading, None);
    let told = match expansion.add_all(&body, &body.reading.roots, None) {
        Err(fault) => refused(fault),
        Ok(()) => hand_over(&list_text(&expansion.result, &expansion.result.roots), 1, text),
    };
    (told, expansion.openings)
}

// ------------------------------------------------------- equal addresses

/// A message with the start and end of a body.
pub type Body<'a> = (&'a [u8], usize, usize);

/// Whether two bodies have the same addresses: kinds, nesting, names and
/// nodes, word by word, by their trees. `None` if one is not accepted.
pub fn same_addresses(one: Body, other: Body) -> Option<bool> {
    let one = read(one.0, one.1, one.2).ok()?;
    let other = read(other.0, other.1, other.2).ok()?;
    Some(same_members(&one, &one.roots, &other, &other.roots))
}

/// Whether two lists have as many addresses, each the same as its partner.
fn same_members(one: &Reading, left: &[usize], other: &Reading, right: &[usize]) -> bool {
    let mut pairs = left.iter().zip(right);
    left.len() == right.len()
        && pairs.all(|(a, b)| same_address(one, &one.tree[*a], other, &other.tree[*b]))
}

/// Whether two addresses have the same kind, name, nodes and members.
fn same_address(one: &Reading, left: &Address, other: &Reading, right: &Address) -> bool {
    kind(one, left) == kind(other, right)
        && words(one, left) == words(other, right)
        && nodes(one, left) == nodes(other, right)
        && same_members(one, &left.members, other, &right.members)
}

/// A word: whether it is quoted, and its meaning.
type Word<'a> = (bool, &'a [u8]);

/// An atom or quoted-string as a word.
fn word(symbol: &Symbol) -> Word<'_> {
    (symbol.sort == Sort::Quoted, &symbol.meaning)
}

/// The words of a name; `None` where there is no name.
fn words<'a>(reading: &'a Reading, address: &Address) -> Option<Vec<Word<'a>>> {
    let (from, behind) = address.name?;
    Some(reading.symbols[from..behind].iter().map(word).collect())
}

/// The nodes of a mailbox; none of any other address.
fn nodes<'a>(reading: &'a Reading, address: &Address) -> Vec<Word<'a>> {
    address.nodes.iter().map(|node| word(&reading.symbols[*node])).collect()
}

// ----------------------------------------------------------------- dates

const DAYS: [&str; 7] =
    ["monday", "tuesday", "wednesday", "thursday", "friday", "saturday", "sunday"];

const MONTHS: [&str; 12] = [
    "january", "february", "march", "april", "may", "june", "july", "august", "september",
    "october", "november", "december",
];

const HOURS: [&str; 6] = ["4", "6", "2:2", "2:4", "4:2", "2:2:2"];

/// A part of a date: a run of digits, a run of letters, or one mark.
struct Part {
    shape: char,
    text: String,
}

/// '1' to '9' for digits by their number, 'L' for letters, or the mark.
fn shape_of(run: &[u8]) -> Option<char> {
    match run[0] {
        b'0'..=b'9' => char::from_digit(run.len().min(9) as u32, 10),
        b'a'..=b'z' => Some('L'),
        b',' | b':' | b'+' | b'-' => Some(run[0] as char),
        _ => None,
    }
}

/// The parts of a date in lower case, or `None` if something else is there.
fn parts(symbols: &[Symbol]) -> Option<Vec<Part>> {
    let mut found = Vec::new();
    for symbol in symbols {
        if symbol.sort == Sort::Quoted {
            return None;
        }
        let bytes = symbol.meaning.to_ascii_lowercase();
        let together = |a: &u8, b: &u8| {
            (a.is_ascii_digit() && b.is_ascii_digit())
                || (a.is_ascii_alphabetic() && b.is_ascii_alphabetic())
        };
        for run in bytes.chunk_by(together) {
            let text = String::from_utf8_lossy(run).into_owned();
            found.push(Part { shape: shape_of(run)?, text });
        }
    }
    Some(found)
}

/// Whether the shape is that of a date.
fn well_shaped(shape: &str) -> bool {
    fn after<'a>(text: &'a str, choices: [char; 2]) -> Option<&'a str> {
        text.strip_prefix(&choices[..])
    }
    fn optional(text: &str) -> &str {
        text.strip_prefix('-').unwrap_or(text)
    }
    let dated = shape.strip_prefix("L,").unwrap_or(shape);
    let clock = after(dated, ['1', '2'])
        .and_then(|rest| optional(rest).strip_prefix('L'))
        .and_then(|rest| after(optional(rest), ['2', '4']));
    let zones = ["+4", "-4", "-L", "L"];
    clock.map_or(false, |clock| {
        zones.iter().any(|z| clock.strip_suffix(z).map_or(false, |hour| HOURS.contains(&hour)))
    })
}

/// The place of a name, full or cut to three letters, in its table.
fn named(table: &[&str], text: &str) -> Option<usize> {
    table.iter().position(|name| *name == text || name[..3] == *text)
}

/// Minutes of local time minus GMT of a named zone.
fn named_zone(text: &str) -> Option<i64> {
    let hours = match text {
        "nst" => return Some(-210),
        "gmt" | "z" => 0,
        "adt" => -3,
        "ast" | "edt" => -4,
        "est" | "cdt" => -5,
        "cst" | "mdt" => -6,
        "mst" | "pdt" => -7,
        "pst" | "ydt" => -8,
        "yst" | "hdt" => -9,
        "hst" | "bdt" => -10,
        "bst" => -11,
        _ if text.len() == 1 => {
            let west = "abcdefghiklm".find(text).map(|i| -(i as i64) - 1);
            west.or("nopqrstuvwxy".find(text).map(|i| i as i64 + 1))?
        }
        _ => return None,
    };
    Some(hours * 60)
}

fn leap(year: i64) -> bool {
    year % 4 == 0 && (year % 100 != 0 || year % 400 == 0)
}

fn month_days(year: i64, month: usize) -> i64 {
    match month {
        1 if leap(year) => 29,
        1 => 28,
        3 | 5 | 8 | 10 => 30,
        _ => 31,
    }
}

/// Whole days from 1 January 1900 to the given date.
fn days_since_1900(year: i64, month: usize, day: i64) -> i64 {
    let years: i64 = (1900..year).map(|y| if leap(y) { 366 } else { 365 }).sum();
    let months: i64 = (0..month).map(|m| month_days(year, m)).sum();
    years + months + day - 1
}

/// A date of right form.
struct Stamp {
    weekday: Option<usize>,
    day: i64,
    month: usize,
    year: i64,
    /// Hour, minute, second.
    clock: [i64; 3],
    /// Minutes of local time minus GMT; `None` if out of range.
    zone: Option<i64>,
}

fn number(text: &str) -> i64 {
    text.bytes().fold(0, |sum, digit| sum * 10 + i64::from(digit - b'0'))
}

fn numeric_zone(sign: &str, text: &str) -> Option<i64> {
    let (hours, minutes) = (number(&text[..2]), number(&text[2..]));
    let size = hours * 60 + minutes;
    let in_range = hours <= 23 && minutes <= 59;
    in_range.then_some(if sign == "-" { -size } else { size })
}

/// Takes the values out of the parts; `None` is a date of wrong form.
fn stamp(parts: &[Part]) -> Option<Stamp> {
    let shape: String = parts.iter().map(|part| part.shape).collect();
    if !well_shaped(&shape) {
        return None;
    }
    let mut values: Vec<&str> =
        parts.iter().filter(|p| p.shape.is_alphanumeric()).map(|p| p.text.as_str()).collect();
    let weekday = if shape.starts_with('L') { Some(named(&DAYS, values.remove(0))?) } else { None };
    let sign = parts[parts.len() - 2].text.as_str();
    let last = values[values.len() - 1];
    let zone = if shape.ends_with('L') { Some(named_zone(last)?) } else { numeric_zone(sign, last) };
    let mut digits = values[3..values.len() - 1].concat();
    digits.push_str("00");
    let year = number(values[2]);
    Some(Stamp {
        weekday,
        day: number(values[0]),
        month: named(&MONTHS, values[1])?,
        year: if values[2].len() == 2 { 1900 + year } else { year },
        clock: [number(&digits[..2]), number(&digits[2..4]), number(&digits[4..6])],
        zone,
    })
}

/// The seconds of a date of right form; `None` if it is impossible.
fn seconds(stamp: &Stamp) -> Option<i64> {
    let [hour, minute, second] = stamp.clock;
    let possible = stamp.year >= 1900
        && (1..=month_days(stamp.year, stamp.month)).contains(&stamp.day)
        && hour <= 23
        && minute <= 59
        && second <= 59;
    if !possible {
        return None;
    }
    let days = days_since_1900(stamp.year, stamp.month, stamp.day);
    // 1 January 1900 was a Monday.
    if stamp.weekday.map_or(false, |weekday| weekday as i64 != days % 7) {
        return None;
    }
    Some(((days * 24 + hour) * 60 + minute - stamp.zone?) * 60 + second)
}

/// Reads a date: the answer and its seconds from 1900, 0 with a refusal.
pub fn date(message: &[u8], start: usize, end: usize) -> (Told, i64) {
    let symbols = match symbols(message, start, end) {
        Err(fault) => return (refused(fault), 0),
        Ok(symbols) => symbols,
    };
    let stamp = match parts(&symbols).and_then(|parts| stamp(&parts)) {
        None => return (refused((12, start)), 0),
        Some(stamp) => stamp,
    };
    match seconds(&stamp) {
        None => (refused((14, start)), 0),
        Some(value) => (accepted(0), value),
    }
}

// ----------------------------------------------------------------- reply

/// 0 if Reply-To's body is the answer, 1 if From's is.
pub fn reply(reply: &[u8], _from: &[u8]) -> u32 {
    match symbols(reply, 0, reply.len()) {
        Ok(found) if found.is_empty() => 1,
        _ => 0,
    }
}
