//! A reader of address lists that is told the edition, 733 or 822. The rules
//! of RFC 822 stand here as one expression; what is left of it behind each
//! symbol says which lists go on there. An accepted body is then cut into
//! addresses at its marks.

use crate::reader::{self, Fault, Placed, Told};
use std::rc::Rc;

// --------------------------------------------------------------- symbols

#[derive(Clone, Copy, Debug, PartialEq, Eq)]
enum Class {
    Atom,
    Quoted,
    Literal,
    /// Any other special, standing for itself.
    Mark(u8),
}

#[derive(Clone, Copy, Debug)]
struct Symbol {
    class: Class,
    start: usize,
    end: usize,
}

const SPECIALS: &[u8] = b"()<>@,;:\\\".[]";

fn is_atom_byte(byte: u8) -> bool {
    (33..=126).contains(&byte) && !SPECIALS.contains(&byte)
}

/// Cuts unfolded bytes into symbols, up to the first fault.
fn cut(bytes: &[Placed]) -> Result<Vec<Symbol>, Fault> {
    let mut found = Vec::new();
    let mut i = 0;
    while let Some(&(place, byte)) = bytes.get(i) {
        let (class, next) = match byte {
            128..=255 => return Err((3, place)),
            b' ' | b'\t' => (None, i + 1),
            0..=31 | 127 => return Err((7, place)),
            b'(' => (None, reader::comment_end(bytes, i)?),
            b'"' => (Some(Class::Quoted), reader::quoted(bytes, i)?.1),
            b'[' => (Some(Class::Literal), literal_end(bytes, i)?),
            _ if SPECIALS.contains(&byte) => (Some(Class::Mark(byte)), i + 1),
            _ => {
                let run = bytes[i..].iter().take_while(|b| is_atom_byte(b.1)).count();
                (Some(Class::Atom), i + run)
            }
        };
        let end = bytes[next - 1].0 + 1;
        found.extend(class.map(|class| Symbol { class, start: place, end }));
        i = next;
    }
    Ok(found)
}

/// The index behind the domain literal that opens at `open`.
fn literal_end(bytes: &[Placed], open: usize) -> Result<usize, Fault> {
    let mut i = open + 1;
    while let Some((byte, taken, next)) = reader::inner_step(bytes, i)? {
        match (byte, taken) {
            (b']', false) => return Ok(next),
            (b'[', false) => break,
            _ => i = next,
        }
    }
    Err((23, bytes[open].0))
}

// ----------------------------------------------------------------- rules

/// A set of rows of symbols.
#[derive(Debug, PartialEq)]
enum Rule {
    /// No row at all.
    Never,
    /// The row of no symbols.
    Empty,
    One(Class),
    Then(Shared, Shared),
    Either(Vec<Shared>),
    /// Any number of rows, one behind the other.
    Repeat(Shared),
}

type Shared = Rc<Rule>;

fn one(class: Class) -> Shared {
    Rc::new(Rule::One(class))
}

fn mark(byte: u8) -> Shared {
    one(Class::Mark(byte))
}

/// A row of the first, and behind it one of the second.
fn then(first: &Shared, second: &Shared) -> Shared {
    match &**first {
        Rule::Never => first.clone(),
        Rule::Empty => second.clone(),
        Rule::Then(head, tail) => Rc::new(Rule::Then(head.clone(), then(tail, second))),
        _ => Rc::new(Rule::Then(first.clone(), second.clone())),
    }
}

fn all(rules: &[&Shared]) -> Shared {
    let nothing = Rc::new(Rule::Empty);
    rules.iter().rev().fold(nothing, |rest, rule| then(rule, &rest))
}

/// A row of any of them; each is kept once, and those without a row not.
fn either(rules: &[Shared]) -> Shared {
    let mut kept: Vec<Shared> = Vec::new();
    for rule in rules {
        let choices = match &**rule {
            Rule::Never => &[],
            Rule::Either(choices) => &choices[..],
            _ => std::slice::from_ref(rule),
        };
        for choice in choices {
            if !kept.contains(choice) {
                kept.push(choice.clone());
            }
        }
    }
    match kept.len() {
        0 => Rc::new(Rule::Never),
        1 => kept.remove(0),
        _ => Rc::new(Rule::Either(kept)),
    }
}

fn repeat(rule: &Shared) -> Shared {
    Rc::new(Rule::Repeat(rule.clone()))
}

fn optional(rule: &Shared) -> Shared {
    either(&[Rc::new(Rule::Empty), rule.clone()])
}

/// One or more, parted by a mark.
fn parted(rule: &Shared, by: u8) -> Shared {
    all(&[rule, &repeat(&all(&[&mark(by), rule]))])
}

/// Any number, parted by commas, each place between them empty or not.
fn list_of(rule: &Shared) -> Shared {
    parted(&optional(rule), b',')
}

/// One or more, parted by commas, other places being empty or not.
fn filled_list_of(rule: &Shared) -> Shared {
    let more = repeat(&all(&[&mark(b','), &optional(rule)]));
    all(&[&repeat(&mark(b',')), rule, &more])
}

/// An address list by RFC 822.
fn list() -> Shared {
    let word = either(&[one(Class::Atom), one(Class::Quoted)]);
    let phrase = all(&[&word, &repeat(&word)]);
    let local_part = parted(&word, b'.');
    let domain = parted(&either(&[one(Class::Atom), one(Class::Literal)]), b'.');
    let spec = all(&[&local_part, &mark(b'@'), &domain]);
    let hop = all(&[&mark(b'@'), &domain]);
    let route = all(&[&filled_list_of(&hop), &mark(b':')]);
    let route_addr = all(&[&mark(b'<'), &optional(&route), &spec, &mark(b'>')]);
    let mailbox = either(&[spec, all(&[&phrase, &route_addr])]);
    let group = all(&[&phrase, &mark(b':'), &list_of(&mailbox), &mark(b';')]);
    list_of(&either(&[mailbox, group]))
}

impl Rule {
    /// Whether the row of no symbols is one of its rows.
    fn has_empty(&self) -> bool {
        match self {
            Rule::Never | Rule::One(_) => false,
            Rule::Empty | Rule::Repeat(_) => true,
            Rule::Then(first, second) => first.has_empty() && second.has_empty(),
            Rule::Either(choices) => choices.iter().any(|choice| choice.has_empty()),
        }
    }
}

/// What may follow the symbol in rows that start with it.
fn behind(rule: &Shared, class: Class) -> Shared {
    match &**rule {
        Rule::One(wanted) if *wanted == class => Rc::new(Rule::Empty),
        Rule::Never | Rule::Empty | Rule::One(_) => Rc::new(Rule::Never),
        Rule::Then(first, second) => {
            let within = then(&behind(first, class), second);
            if first.has_empty() { either(&[within, behind(second, class)]) } else { within }
        }
        Rule::Either(choices) => {
            let each: Vec<Shared> = choices.iter().map(|choice| behind(choice, class)).collect();
            either(&each)
        }
        Rule::Repeat(inner) => then(&behind(inner, class), rule),
    }
}

/// The first symbol that no list goes on with, or the body's end if no list
/// ends there.
fn refusal(symbols: &[Symbol], end: usize) -> Option<Fault> {
    let mut rest = list();
    for symbol in symbols {
        rest = behind(&rest, symbol.class);
        if *rest == Rule::Never {
            return Some((8, symbol.start));
        }
    }
    (!rest.has_empty()).then_some((9, end))
}

// --------------------------------------------------------------- records

/// Records in the making. Ranges are of symbols, and their ends behind the
/// last one.
struct Records<'a> {
    symbols: &'a [Symbol],
    bytes: Vec<u8>,
}

impl Records<'_> {
    /// The first of the marks from a symbol on, or `to`.
    fn find(&self, from: usize, to: usize, marks: &[u8]) -> usize {
        let marked = |i: &usize| match self.symbols[*i].class {
            Class::Mark(byte) => marks.contains(&byte),
            _ => false,
        };
        (from..to).find(marked).unwrap_or(to)
    }

    /// Adds a record and gives its number plus 1. The name starts where the
    /// address does.
    fn add(&mut self, head: (u8, u8, usize), from: usize, to: usize, name_to: usize) -> usize {
        let (kind, depth, parent) = head;
        let start = self.symbols[from].start;
        let (end, name_end) = (self.symbols[to - 1].end, self.symbols[name_to - 1].end);
        self.bytes.extend([kind, depth]);
        for value in [parent, start, end, start, name_end] {
            reader::push_pair(&mut self.bytes, value);
        }
        self.bytes.len() / reader::ADDRESS_RECORD
    }

    /// Adds the addresses of a list.
    fn add_list(&mut self, from: usize, to: usize, depth: u8, parent: usize) {
        let mut i = from;
        while i < to {
            let comma = self.symbols[i].class == Class::Mark(b',');
            i = if comma { i + 1 } else { self.add_address(i, to, depth, parent) };
        }
    }

    /// Adds the address that starts at a symbol and gives the symbol behind
    /// it. Its name goes up to its first "@", "<" or ":".
    fn add_address(&mut self, from: usize, to: usize, depth: u8, parent: usize) -> usize {
        let turn = self.find(from, to, b"@<:");
        let (kind, last) = match self.symbols[turn].class {
            Class::Mark(b'<') => (2, self.find(turn, to, b">")),
            Class::Mark(b':') => (3, self.find(turn, to, b";")),
            _ => (1, self.find(turn, to, b",") - 1),
        };
        let own = self.add((kind, depth, parent), from, last + 1, turn);
        if kind == 2 {
            let route = self.find(turn, last, b":");
            let inner = if route < last { route + 1 } else { turn + 1 };
            self.add_address(inner, last, depth + 1, own);
        } else if kind == 3 {
            self.add_list(turn + 1, last, depth + 1, own);
        }
        last + 1
    }
}

fn symbols(message: &[u8], start: usize, end: usize) -> Result<Vec<Symbol>, Fault> {
    if start > end || end > message.len() {
        return Err((13, 0));
    }
    cut(&reader::unfold(message, start, end))
}

fn read(message: &[u8], start: usize, end: usize) -> Result<Vec<u8>, Fault> {
    let symbols = symbols(message, start, end)?;
    if let Some(fault) = refusal(&symbols, end) {
        return Err(fault);
    }
    let mut records = Records { symbols: &symbols, bytes: vec![] };
    records.add_list(0, symbols.len(), 0, 0);
    Ok(records.bytes)
}

/// Reads an address list of an edition into records.
pub fn addresses(
    message: &[u8],
    start: usize,
    end: usize,
    edition: usize,
    table: &mut [u8],
) -> Told {
    match edition {
        _ if message.len() > reader::LONGEST => reader::refused((1, reader::LONGEST)),
        733 => reader::addresses(message, start, end, table),
        822 => match read(message, start, end) {
            Err(fault) => reader::refused(fault),
            Ok(records) => reader::hand_over(&records, reader::ADDRESS_RECORD, table),
        },
        _ => reader::refused((21, 0)),
    }
}

// ----------------------------------------------------------------- parts

/// What an accepted list may have.
pub const PARTS: [&str; 8] = [
    "atom \"at\"", "literal", "literal behind a dot", "quoted-string in a local-part", "route",
    "empty place before a route", "empty place in a route", "empty place behind a route",
];

/// Which of `PARTS` an accepted body has.
pub fn parts(message: &[u8], start: usize, end: usize) -> [bool; 8] {
    let symbols = symbols(message, start, end).unwrap_or_default();
    let text = |symbol: &Symbol| &message[symbol.start..symbol.end];
    let row = |wanted: &[&[u8]]| {
        symbols.windows(wanted.len()).any(|row| {
            row.iter().zip(wanted).all(|(symbol, first)| first.contains(&text(symbol)[0]))
        })
    };
    [
        symbols.iter().any(|symbol| text(symbol).eq_ignore_ascii_case(b"at")),
        row(&[b"["]),
        row(&[b".", b"["]),
        row(&[b"\"", b".@"]),
        row(&[b"<", b",@"]),
        row(&[b"<", b","]),
        row(&[b",", b",", b"@"]),
        row(&[b",", b":"]),
    ]
}
