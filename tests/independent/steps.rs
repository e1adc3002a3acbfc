//! Compares the symbols that the proved library tells one by one with those of
//! the independent reader, and counts what was told.

use crate::inputs::{self, Kind, Rng};
use crate::reader::{self, Step};
use crate::{agree, compare_body, differ, proved, proved_plain, Case, Seen, LONGEST, NUMBERS};

/// Asks for the next symbol from one place up to another, and compares the
/// whole array lent with what is wanted.
fn compare_step(rng: &mut Rng, case: &Case, at: usize, end: usize, wanted: Step, length: usize) {
    let lent = inputs::numbers(rng, length);
    let (mut told, mut filled) = (lent.clone(), lent);
    proved::next_symbol(case.message, at, end, &mut told);
    filled.iter_mut().zip(wanted).for_each(|(slot, number)| *slot = number);
    if told != filled {
        differ(case, &format!("next symbol from {at} up to {end}"), length, &told, &filled);
    }
}

/// Goes through a body symbol by symbol, each from the end of the one before:
/// the same as scanning it once. Then looks for symbols from other places.
pub fn compare_steps(rng: &mut Rng, case: &Case, seen: &mut Steps) {
    let (message, start, end) = (case.message, case.start, case.end);
    let whole = reader::steps(message, start, end);
    let short = whole.len() * message.len() < 20_000;
    let last = whole[whole.len() - 1];
    let mut at = start;
    for (i, step) in whole.iter().enumerate() {
        compare_step(rng, case, at, end, *step, 7);
        if short || rng.once_in(whole.len()) {
            let own = reader::next_symbol(message, at, end);
            agree(case, "next symbol against the whole", at, own, *step);
        }
        symbol_laws(case, at, *step);
        seen.count(message, at, end, *step);
        seen.count_order(at, *step, i, last[0]);
        at = step[4] as usize;
    }
    let scanned = proved::scan(message, start, end);
    let ended = (last[0], last[1]);
    agree(case, "last step against scan", 0, ended, (scanned.number, scanned.position));
    let comments = reader::comments(message, start, end);
    for _ in 0..3 {
        let (from, up_to) = inputs::stretch(rng, message, start, end);
        let length = inputs::told_length(rng);
        let step = reader::next_symbol(message, from, up_to);
        compare_step(rng, case, from, up_to, step, length);
        seen.lent[length] += 1;
        seen.count(message, from, up_to, step);
        if step[0] != 1 && step[0] != 13 {
            seen.count_places(case, (&whole, &comments), from, up_to, step);
        }
    }
}

/// A symbol stands apart exactly if a byte lies before it; an atom or special
/// means its bytes; a quoted-string means what its plain text does.
fn symbol_laws(case: &Case, at: usize, step: Step) {
    let [_, _, class, start, end, length, apart] = step;
    if class == 0 {
        return;
    }
    agree(case, "apart by places", at, apart, u64::from(start > at as u64));
    if class != 2 {
        return agree(case, "length against places", at, length, end - start);
    }
    let text = proved_plain(case.message, start as usize, end as usize);
    let mut bytes = text.iter();
    let mut count = 0;
    while let Some(byte) = bytes.next() {
        if *byte == b'\\' {
            bytes.next();
        }
        count += 1;
    }
    agree(case, "length and quotes against plain text", at, length + 2, count);
}

/// Class, length and apart of each symbol of a body, by the proved library,
/// and number of the fault.
pub fn proved_symbols(case: &Case) -> Vec<[u64; 4]> {
    let mut all = Vec::new();
    let mut at = case.start;
    loop {
        let mut step = [0; 7];
        proved::next_symbol(case.message, at, case.end, &mut step);
        all.push([step[0], step[2], step[5], step[6]]);
        if step[2] == 0 {
            return all;
        }
        at = step[4] as usize;
    }
}

/// Compares a body made of symbols and gaps, of which all is known.
pub fn compare_spaced(rng: &mut Rng, seed: u64, seen: &mut Seen) -> u64 {
    let (body, made) = inputs::spaced(rng);
    let (message, start, end) = inputs::place(rng, body.clone());
    let case = Case { seed, kind: Kind::Spaced, message: &message, start, end };
    let number = compare_body(rng, &case, seen);
    if message.len() <= LONGEST && message.get(start..end) == Some(&body) {
        let mut at = start;
        for mut step in made {
            let places = if step[2] > 0 { 3..5 } else { 1..1 + step[0].min(1) as usize };
            step[places].iter_mut().for_each(|place| *place += start as u64);
            compare_step(rng, &case, at, end, step, 7);
            at = step[4] as usize;
        }
        seen.steps.made += 1;
    }
    number
}

/// What may be right before a symbol.
const BEFORE: [&str; 5] = ["nothing", "white space", "a fold", "a comment", "a nested comment"];

/// Quoted-strings by what they mean.
const QUOTED: [&str; 6] = [
    "empty", "all its bytes", "fewer bytes", "line end kept", "line end dropped",
    "taken backslash, fold",
];

/// What a place may lie within.
const WITHIN: [&str; 4] = ["an atom", "a quoted-string", "a comment", "a fold"];

/// How often the next symbol was asked for, by what was told.
#[derive(Default)]
pub struct Steps {
    /// By class.
    classes: [u64; 10],
    /// By what is right before the symbol.
    before: [u64; 5],
    /// Not apart, there being white space, or a comment, before the place
    /// looked from.
    unseen: [u64; 2],
    quoted: [u64; 6],
    /// Meanings of over 255 bytes, and of over 16,383.
    large: [u64; 2],
    /// Faults before any symbol, after symbols, and right behind one; symbols
    /// told though a fault follows.
    at_once: [u64; NUMBERS],
    later: [u64; NUMBERS],
    behind: [u64; NUMBERS],
    hidden: u64,
    /// By 1, positions being in order and not; by 13, for their order and for
    /// the message's end.
    long: [u64; 2],
    disordered: [u64; 2],
    /// Looked from within something; and it being cut off by the end.
    from: [u64; 4],
    cut: [u64; 4],
    /// By the length of the array lent.
    lent: [u64; 10],
    /// Bodies of which all was known.
    made: u64,
}

/// What is right before a symbol, a number of `BEFORE`.
fn before(gap: &[u8]) -> usize {
    match gap {
        [] => 0,
        [.., b')'] => {
            let comments = reader::comments(gap, 0, gap.len());
            let outer = comments.last().map_or(0, |comment| comment.0);
            3 + usize::from(comments.iter().any(|comment| comment.0 > outer))
        }
        [.., b'\r', b'\n', _] => 2,
        _ => 1,
    }
}

/// Which of `QUOTED` a quoted-string is.
fn meanings(message: &[u8], start: usize, end: usize, length: usize) -> [bool; 6] {
    let inner = end - start - 2;
    let folds = reader::folds(message, start, end);
    let dropped = message[start..end].windows(4).any(|bytes| {
        matches!(bytes, [before, b'\r', b'\n', b' ' | b'\t'] if *before != b'\\')
    });
    let kept = folds[0] || folds[1];
    [length == 0, length == inner, length < inner, kept, dropped, folds[2]]
}

/// Adds one to each tally of which it is so.
fn add<const N: usize>(tallies: &mut [u64; N], so: [bool; N]) {
    tallies.iter_mut().zip(so).for_each(|(times, so)| *times += u64::from(so));
}

impl Steps {
    /// Counts what was told from a place up to an end.
    fn count(&mut self, message: &[u8], at: usize, end: usize, step: Step) {
        let [number, _, class, start, behind, length, _] = step;
        let wrong = [at > end, end > message.len()];
        match number {
            0 => self.classes[class as usize] += 1,
            1 => add(&mut self.long, [wrong == [false; 2], wrong != [false; 2]]),
            13 => add(&mut self.disordered, wrong),
            _ => {}
        }
        if class > 0 {
            self.before[before(&message[at..start as usize])] += 1;
        }
        add(&mut self.large, [length > 255, length > 16_383]);
        if class == 2 {
            let found = meanings(message, start as usize, behind as usize, length as usize);
            add(&mut self.quoted, found);
        }
    }

    /// Counts a step of a body by its order, `last` being the number told last.
    fn count_order(&mut self, at: usize, step: Step, order: usize, last: u64) {
        let [number, position, class, ..] = step;
        let tally = if order == 0 { &mut self.at_once } else { &mut self.later };
        tally[number as usize] += 1;
        self.behind[number as usize] += u64::from(order > 0 && position == at as u64);
        self.hidden += u64::from(class > 0 && last > 0);
    }

    /// Counts what the places lie within, by the steps and comments of a body.
    fn count_places(
        &mut self, case: &Case, (whole, comments): (&[Step], &[(usize, usize)]), from: usize,
        up_to: usize, step: Step,
    ) {
        let message = case.message;
        let within = |place: usize| {
            let inside = |span: &(usize, usize)| span.0 < place && place < span.1;
            let symbol = |classes: [u64; 2]| {
                let spans = whole.iter().filter(|told| classes.contains(&told[2]));
                spans.map(|told| (told[3] as usize, told[4] as usize)).any(|span| inside(&span))
            };
            let fold = |before: usize| {
                let first = place.checked_sub(before).filter(|first| *first >= case.start);
                let bytes = first.and_then(|first| message[..case.end].get(first..first + 3));
                matches!(bytes, Some([b'\r', b'\n', b' ' | b'\t']))
            };
            [symbol([1, 3]), symbol([2, 2]), comments.iter().any(inside), fold(1) || fold(2)]
        };
        let [number, position, class, start, behind, ..] = step;
        let in_body = case.start <= from && up_to <= case.end && case.end <= message.len();
        if in_body {
            add(&mut self.from, within(from));
            let [atom, quoted, comment, fold] = within(up_to);
            let at_end = position + 2 >= up_to as u64;
            let ended = [behind == up_to as u64, number == 5, number == 6, number == 7 && at_end];
            let cut = [atom && ended[0], quoted && ended[1], comment && ended[2], fold && ended[3]];
            add(&mut self.cut, cut);
        }
        if class > 0 && start == from as u64 && from > 0 {
            let white = b" \t".contains(&message[from - 1]);
            add(&mut self.unseen, [white, comments.iter().any(|comment| comment.1 == from)]);
        }
    }

    /// Each tally with its name.
    pub fn tallies(&self) -> Vec<(String, u64)> {
        let short = self.lent[1..7].iter().sum();
        let mut all = vec![
            ("step, white space before the start".to_string(), self.unseen[0]),
            ("step, comment before the start".to_string(), self.unseen[1]),
            ("step, meaning over 255 bytes".to_string(), self.large[0]),
            ("step, meaning over 16,383 bytes".to_string(), self.large[1]),
            ("step, fault follows the symbol".to_string(), self.hidden),
            ("step, message too long".to_string(), self.long[0]),
            ("step, too long and disordered".to_string(), self.long[1]),
            ("step, start behind the end".to_string(), self.disordered[0]),
            ("step, end behind the message".to_string(), self.disordered[1]),
            ("step, no array".to_string(), self.lent[0]),
            ("step, shorter array".to_string(), short),
            ("step, longer array".to_string(), self.lent[8] + self.lent[9]),
            ("steps, symbols and gaps known".to_string(), self.made),
        ];
        for (class, times) in reader::CLASSES.iter().zip(self.classes) {
            all.push((format!("step, {class}"), times));
        }
        for (before, times) in BEFORE.iter().zip(self.before) {
            all.push((format!("step, {before} before it"), times));
        }
        for (quoted, times) in QUOTED.iter().zip(self.quoted) {
            all.push((format!("step, quoted, {quoted}"), times));
        }
        for (place, (from, cut)) in WITHIN.iter().zip(self.from.into_iter().zip(self.cut)) {
            all.push((format!("step, from within {place}"), from));
            all.push((format!("step, {place} cut off"), cut));
        }
        for number in [3, 5, 6, 7] {
            all.push((format!("step, {number} at once"), self.at_once[number]));
            all.push((format!("step, {number} after symbols"), self.later[number]));
            all.push((format!("step, {number} right behind a symbol"), self.behind[number]));
        }
        all
    }
}
