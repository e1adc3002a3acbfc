// A reader of the contract of rfc733_addresses, edition 733, written for speed and not proved: the reader to beat.
//
// Two passes: one looks for faults, follows the address rules and counts; the other, if there is room, writes the records.
// After a refusal by the rules the rest of the body is scanned, for a fault anywhere comes before it.

const LIMIT: usize = 32_768;
const LEVELS: usize = 64;
const RECORD: usize = 12;

const MESSAGE_TOO_LONG: u8 = 1;
const BYTE_ABOVE_127: u8 = 3;
const QUOTED_NOT_CLOSED: u8 = 5;
const COMMENT_NOT_CLOSED: u8 = 6;
const STRAY_CONTROL: u8 = 7;
const REFUSED_SYMBOL: u8 = 8;
const ENDS_TOO_SOON: u8 = 9;
const TOO_MANY_LEVELS: u8 = 10;
const TOO_LITTLE_ROOM: u8 = 11;
const POSITIONS_OUT_OF_ORDER: u8 = 13;

const MAILBOX: u8 = 1;
const ANGLE_LIST: u8 = 2;
const GROUP: u8 = 3;
const LONE_QUOTED: u8 = 4;
const INCLUDE: u8 = 5;
const POSTAL: u8 = 6;
const OTHER_TYPED: u8 = 7;

// Classes of bytes and of the symbols that they make. STRAY is a lone ")" or "\"; all below WHITE are symbols or part of one.
const ATOM: u8 = 0;
const LESS_THAN: u8 = 1;
const GREATER_THAN: u8 = 2;
const COMMA: u8 = 3;
const SEMICOLON: u8 = 4;
const AT: u8 = 5;
const COLON: u8 = 6;
const STRAY: u8 = 7;
const WHITE: u8 = 8;
const QUOTED: u8 = 9;
// Classes of bytes alone.
const OPEN: u8 = 10;
const CLOSE: u8 = 11;
const BACKSLASH: u8 = 12;
const RETURN: u8 = 13;
const CONTROL: u8 = 14;
const ABOVE: u8 = 15;
// Classes of symbols alone.
const END: u8 = 16;
const FAULT: u8 = 17;

const fn class_outside(byte: u8) -> u8 {
    match byte {
        b'\t' | b' ' => WHITE,
        b'\r' => RETURN,
        0..=31 | 127 => CONTROL,
        128.. => ABOVE,
        b'<' => LESS_THAN,
        b'>' => GREATER_THAN,
        b',' => COMMA,
        b';' => SEMICOLON,
        b'@' => AT,
        b':' => COLON,
        b')' | b'\\' => STRAY,
        b'"' => QUOTED,
        b'(' => OPEN,
        _ => ATOM,
    }
}

// In quoted-strings and comments what stands for itself has the class of atoms.
const fn class_inside(byte: u8, comment: bool) -> u8 {
    match byte {
        128.. => ABOVE,
        b'\r' => RETURN,
        b'\\' => BACKSLASH,
        b'"' if !comment => QUOTED,
        b'(' if comment => OPEN,
        b')' if comment => CLOSE,
        _ => ATOM,
    }
}

macro_rules! classes {
    ($byte:ident => $class:expr) => {{
        let mut classes = [ATOM; 256];
        let mut number = 0;
        while number < 256 {
            let $byte = number as u8;
            classes[number] = $class;
            number += 1;
        }
        classes
    }};
}

static OUTSIDE: [u8; 256] = classes!(byte => class_outside(byte));
static IN_QUOTED: [u8; 256] = classes!(byte => class_inside(byte, false));
static IN_COMMENT: [u8; 256] = classes!(byte => class_inside(byte, true));

// Class, start and end in one register.
#[derive(Clone, Copy)]
struct Symbol(u64);

impl Symbol {
    #[inline(always)]
    fn new(class: u8, start: usize, end: usize) -> Symbol {
        Symbol((class as u64) << 40 | (start as u64) << 20 | end as u64)
    }

    #[inline(always)]
    fn class(self) -> u8 {
        (self.0 >> 40) as u8
    }

    #[inline(always)]
    fn start(self) -> usize {
        (self.0 >> 20) as usize & 0xfffff
    }

    #[inline(always)]
    fn end(self) -> usize {
        self.0 as usize & 0xfffff
    }

    #[inline(always)]
    fn is_word(self) -> bool {
        self.class() == ATOM || self.class() == QUOTED
    }

    #[inline(always)]
    fn ends_address(self) -> bool {
        const ENDS: u64 = 1 << GREATER_THAN | 1 << COMMA | 1 << SEMICOLON | 1 << END;
        1 << self.class() & ENDS != 0
    }
}

// The levels around an address, and the number of the record around it plus 1.
#[derive(Clone, Copy)]
struct Frame {
    depth: usize,
    parent: usize,
}

// An address: the symbol behind it, and its end.
type Read = (Symbol, usize);

struct Reader<'a> {
    // The message up to the end of the body.
    text: &'a [u8],
    table: &'a mut [u8],
    records: usize,
    // The first refusal.
    number: u8,
    position: usize,
}

impl Reader<'_> {
    // Every caller has compared the position with the end.
    #[inline(always)]
    fn byte(&self, at: usize) -> u8 {
        unsafe { *self.text.get_unchecked(at) }
    }

    #[inline(always)]
    fn outside(&self, at: usize) -> u8 {
        OUTSIDE[self.byte(at) as usize]
    }

    #[inline(always)]
    fn folds(&self, at: usize) -> bool {
        self.text.len() - at >= 3 && self.byte(at + 1) == b'\n' && matches!(self.byte(at + 2), b' ' | b'\t')
    }

    #[inline(always)]
    fn refuse(&mut self, number: u8, position: usize) -> Symbol {
        (self.number, self.position) = (number, position);
        Symbol::new(FAULT, 0, 0)
    }

    // A symbol that does not fit; a fault stays one.
    #[cold]
    #[inline(never)]
    fn refuse_symbol(&mut self, symbol: Symbol) -> Symbol {
        match symbol.class() {
            FAULT => symbol,
            END => self.refuse(ENDS_TOO_SOON, self.text.len()),
            _ => self.refuse(REFUSED_SYMBOL, symbol.start()),
        }
    }

    // The end of an atom that has run up to a position, four bytes at a time.
    #[inline(always)]
    fn atom_end(&self, mut at: usize) -> usize {
        while at + 4 <= self.text.len() {
            if self.outside(at) != ATOM {
                return at;
            }
            if self.outside(at + 1) != ATOM {
                return at + 1;
            }
            if self.outside(at + 2) != ATOM {
                return at + 2;
            }
            if self.outside(at + 3) != ATOM {
                return at + 3;
            }
            at += 4;
        }
        self.short_atom_end(at)
    }

    #[inline(always)]
    fn short_atom_end(&self, mut at: usize) -> usize {
        while at < self.text.len() && self.outside(at) == ATOM {
            at += 1;
        }
        at
    }

    #[inline(always)]
    fn atom(&self, start: usize) -> Symbol {
        let end = self.atom_end(start + 1);
        if end - start == 2 && self.byte(start) | 32 == b'a' && self.byte(start + 1) | 32 == b't' {
            return Symbol::new(AT, start, end);
        }
        Symbol::new(ATOM, start, end)
    }

    // The next symbol.
    #[inline(always)]
    fn next(&mut self, mut at: usize) -> Symbol {
        while at < self.text.len() {
            let class = self.outside(at);
            if class == ATOM {
                return self.atom(at);
            }
            if class < WHITE {
                return Symbol::new(class, at, at + 1);
            }
            if class == WHITE {
                at += 1;
                continue;
            }
            let symbol = self.rare(class, at);
            if symbol.class() != WHITE {
                return symbol;
            }
            at = symbol.end();
        }
        Symbol::new(END, at, at)
    }

    // A quoted-string or fault; a fold and a comment count as white space.
    #[cold]
    #[inline(never)]
    fn rare(&mut self, class: u8, at: usize) -> Symbol {
        match class {
            RETURN if self.folds(at) => Symbol::new(WHITE, at, at + 3),
            ABOVE => self.refuse(BYTE_ABOVE_127, at),
            QUOTED => self.enclosed(&IN_QUOTED, at, QUOTED_NOT_CLOSED),
            OPEN => self.enclosed(&IN_COMMENT, at, COMMENT_NOT_CLOSED),
            _ => self.refuse(STRAY_CONTROL, at),
        }
    }

    // Past what stands for itself in a quoted-string or comment.
    #[inline(always)]
    fn past_data(&self, classes: &[u8; 256], mut at: usize) -> usize {
        while at < self.text.len() && classes[self.byte(at) as usize] == ATOM {
            at += 1;
        }
        at
    }

    // A quoted-string, or a comment with all comments in it.
    #[inline(always)]
    fn enclosed(&mut self, classes: &[u8; 256], start: usize, not_closed: u8) -> Symbol {
        let mut at = self.past_data(classes, start + 1);
        let mut open = 1;
        while at < self.text.len() {
            match classes[self.byte(at) as usize] {
                QUOTED => return Symbol::new(QUOTED, start, at + 1),
                OPEN => open += 1,
                CLOSE if open == 1 => return Symbol::new(WHITE, start, at + 1),
                CLOSE => open -= 1,
                // A backslash takes no byte above 127, which is a fault.
                BACKSLASH => at += (at + 1 < self.text.len() && self.byte(at + 1) < 128) as usize,
                RETURN if self.folds(at) => {}
                RETURN => return self.refuse(STRAY_CONTROL, at),
                _ => return self.refuse(BYTE_ABOVE_127, at),
            }
            at = self.past_data(classes, at + 1);
        }
        self.refuse(not_closed, start)
    }

    #[inline(always)]
    fn put(&mut self, number: usize, kind: u8, frame: Frame, span: (usize, usize), name: (usize, usize)) {
        let two = |value: usize| (value as u16).swap_bytes() as u64;
        let head = kind as u64 | (frame.depth as u64) << 8 | two(frame.parent) << 16;
        let front = head | two(span.0) << 32 | two(span.1) << 48;
        let back = (two(name.0) | two(name.1) << 16) as u32;
        // The table has room for all records that were counted.
        unsafe {
            let record = self.table.as_mut_ptr().add(number * RECORD);
            (record as *mut u64).write_unaligned(front.to_le());
            (record.add(8) as *mut u32).write_unaligned(back.to_le());
        }
    }
}

// A list: the symbol behind it.
fn list<const WRITES: bool>(reader: &mut Reader, at: usize, frame: Frame) -> Symbol {
    let mut symbol = reader.next(at);
    loop {
        match symbol.class() {
            COMMA => symbol = reader.next(symbol.end()),
            GREATER_THAN | SEMICOLON | END | FAULT => return symbol,
            _ => symbol = address::<WRITES>(reader, symbol, frame).0,
        }
    }
}

// An address from its first symbol on.
#[inline(always)]
fn address<const WRITES: bool>(reader: &mut Reader, first: Symbol, frame: Frame) -> Read {
    if !first.is_word() {
        return without_words::<WRITES>(reader, first, frame);
    }
    let mut last = first;
    let mut behind = reader.next(last.end());
    let mut lone = first.class() == QUOTED;
    while behind.is_word() {
        lone = false;
        last = behind;
        behind = reader.next(last.end());
    }
    let words = (first.start(), last.end());
    match behind.class() {
        AT => mailbox::<WRITES>(reader, behind, words, frame),
        LESS_THAN | COLON => with_level::<WRITES>(reader, behind, words, frame),
        _ if lone => without_level::<WRITES>(reader, LONE_QUOTED, behind, words, words, frame),
        _ => (reader.refuse_symbol(behind), 0),
    }
}

// An address with no other in it, before the symbol behind it.
#[inline(always)]
fn without_level<const WRITES: bool>(
    reader: &mut Reader,
    kind: u8,
    behind: Symbol,
    span: (usize, usize),
    name: (usize, usize),
    frame: Frame,
) -> Read {
    if !behind.ends_address() {
        return (reader.refuse_symbol(behind), 0);
    }
    if WRITES {
        reader.put(reader.records, kind, frame, span, name);
    }
    reader.records += 1;
    (behind, span.1)
}

// A mailbox from its first "at" on.
#[inline(always)]
fn mailbox<const WRITES: bool>(reader: &mut Reader, at: Symbol, phrase: (usize, usize), frame: Frame) -> Read {
    let mut behind = at;
    loop {
        let node = reader.next(behind.end());
        if !node.is_word() {
            return (reader.refuse_symbol(node), 0);
        }
        behind = reader.next(node.end());
        if behind.class() != AT {
            return without_level::<WRITES>(reader, MAILBOX, behind, (phrase.0, node.end()), phrase, frame);
        }
    }
}

// An angle list, group or typed address that starts with its mark.
#[inline(never)]
fn without_words<const WRITES: bool>(reader: &mut Reader, mark: Symbol, frame: Frame) -> Read {
    let nameless = (mark.start(), mark.start());
    if mark.class() == LESS_THAN {
        return with_level::<WRITES>(reader, mark, nameless, frame);
    }
    if mark.class() != COLON {
        return (reader.refuse_symbol(mark), 0);
    }
    let atom = reader.next(mark.end());
    if atom.class() == ATOM {
        let colon = reader.next(atom.end());
        if colon.class() == COLON {
            return typed::<WRITES>(reader, mark.start(), atom, colon, frame);
        }
    }
    with_level::<WRITES>(reader, mark, nameless, frame)
}

// A typed address from its second colon on.
#[inline(always)]
fn typed<const WRITES: bool>(reader: &mut Reader, start: usize, atom: Symbol, colon: Symbol, frame: Frame) -> Read {
    if frame.depth == LEVELS {
        return (reader.refuse(TOO_MANY_LEVELS, start), 0);
    }
    let first = reader.next(colon.end());
    let number = reader.records;
    reader.records += 1;
    let (behind, end) = inner_address::<WRITES>(reader, first, Frame { depth: frame.depth + 1, parent: number + 1 });
    if WRITES {
        let name = &reader.text[atom.start()..atom.end()];
        let kind = match name {
            _ if name.eq_ignore_ascii_case(b"Include") => INCLUDE,
            _ if name.eq_ignore_ascii_case(b"Postal") => POSTAL,
            _ => OTHER_TYPED,
        };
        reader.put(number, kind, frame, (start, end), (atom.start(), atom.end()));
    }
    (behind, end)
}

#[inline(never)]
fn inner_address<const WRITES: bool>(reader: &mut Reader, first: Symbol, frame: Frame) -> Read {
    address::<WRITES>(reader, first, frame)
}

// An angle list or group from its mark on.
#[inline(always)]
fn with_level<const WRITES: bool>(reader: &mut Reader, mark: Symbol, name: (usize, usize), frame: Frame) -> Read {
    if frame.depth == LEVELS {
        return (reader.refuse(TOO_MANY_LEVELS, mark.start()), 0);
    }
    let (kind, closing) = if mark.class() == LESS_THAN { (ANGLE_LIST, GREATER_THAN) } else { (GROUP, SEMICOLON) };
    let number = reader.records;
    reader.records += 1;
    let closed = list::<WRITES>(reader, mark.end(), Frame { depth: frame.depth + 1, parent: number + 1 });
    if closed.class() != closing {
        return (reader.refuse_symbol(closed), 0);
    }
    let behind = reader.next(closed.end());
    if !behind.ends_address() {
        return (reader.refuse_symbol(behind), 0);
    }
    if WRITES {
        reader.put(number, kind, frame, (name.0, closed.end()), name);
    }
    (behind, closed.end())
}

// The first fault from the refused position on, if there is one, else the refusal; before it there is none.
#[cold]
#[inline(never)]
fn refused(reader: &mut Reader) -> [u64; 3] {
    let mut symbol = reader.next(reader.position);
    while symbol.class() != END && symbol.class() != FAULT {
        symbol = reader.next(symbol.end());
    }
    [reader.number as u64, reader.position as u64, 0]
}

// The answer's number, position and count; the table is changed only if the list is accepted and there is room.
#[inline(never)]
pub fn addresses(message: &[u8], start: usize, end: usize, table: &mut [u8]) -> [u64; 3] {
    if message.len() > LIMIT {
        return [MESSAGE_TOO_LONG as u64, LIMIT as u64, 0];
    }
    if end < start || message.len() < end {
        return [POSITIONS_OUT_OF_ORDER as u64, 0, 0];
    }
    let outermost = Frame { depth: 0, parent: 0 };
    let mut reader = Reader { text: &message[..end], table, records: 0, number: 0, position: 0 };
    let behind = list::<false>(&mut reader, start, outermost);
    if behind.class() != END {
        reader.refuse_symbol(behind);
        return refused(&mut reader);
    }
    let count = std::mem::take(&mut reader.records);
    if reader.table.len() / RECORD < count {
        return [TOO_LITTLE_ROOM as u64, 0, count as u64];
    }
    list::<true>(&mut reader, start, outermost);
    [0, 0, count as u64]
}
