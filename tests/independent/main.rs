//! Compares the proved library, through its C functions, with the independent
//! reader on random inputs: `main SEED SECONDS`.

mod inputs;
mod reader;
mod reader822;
mod steps;

use inputs::{Kind, Rng};
use reader::Told;
use std::fmt::Debug;
use std::time::{Duration, Instant};
use steps::Steps;

extern "C" {
    fn rfc733_split(
        message: *const u8, message_len: usize,
        table: *mut u8, table_len: usize,
        told: *mut u64, told_len: usize,
    );
    fn rfc733_known_name(name: *const u8, name_len: usize, compared: *mut u64) -> u32;
    fn rfc733_scan(
        message: *const u8, message_len: usize, start: usize, end: usize,
        told: *mut u64, told_len: usize,
    );
    fn rfc733_addresses(
        message: *const u8, message_len: usize, start: usize, end: usize, edition: usize,
        table: *mut u8, table_len: usize,
        told: *mut u64, told_len: usize,
    );
    fn rfc733_addresses_by_table(
        message: *const u8, message_len: usize, start: usize, end: usize,
        table: *mut u8, table_len: usize,
        told: *mut u64, told_len: usize,
    );
    fn rfc733_date(
        message: *const u8, message_len: usize, start: usize, end: usize,
        told: *mut u64, told_len: usize, value: *mut i64,
    );
    fn rfc733_plain(
        message: *const u8, message_len: usize, start: usize, end: usize,
        text: *mut u8, text_len: usize,
        told: *mut u64, told_len: usize,
    );
    fn rfc733_expand(
        message: *const u8, message_len: usize, start: usize, end: usize,
        store: *const u8, store_len: usize,
        text: *mut u8, text_len: usize,
        told: *mut u64, told_len: usize,
    );
    fn rfc733_touch(
        message: *const u8, message_len: usize, start: usize, end: usize, place: usize,
        path: *mut u64, path_len: usize,
        told: *mut u64, told_len: usize,
    );
    fn rfc733_next_symbol(
        message: *const u8, message_len: usize, at: usize, end: usize,
        told: *mut u64, told_len: usize,
    );
    fn rfc733_reply(
        reply: *const u8, reply_len: usize, from: *const u8, from_len: usize,
    ) -> u32;
}

/// Thin wrappers around the proved library.
mod proved {
    use super::*;

    const UNSET: [u64; 3] = [u64::MAX; 3];

    fn answer(told: [u64; 3]) -> Told {
        Told { number: told[0], position: told[1], count: told[2] }
    }

    pub fn split(message: &[u8], table: &mut [u8]) -> Told {
        let mut told = UNSET;
        let (m, t) = (message.as_ptr(), table.as_mut_ptr());
        unsafe { rfc733_split(m, message.len(), t, table.len(), told.as_mut_ptr(), 3) };
        answer(told)
    }

    /// The number of a name, and how many names were compared.
    pub fn known(name: &[u8]) -> (u32, u64) {
        let mut compared = u64::MAX;
        let number = unsafe { rfc733_known_name(name.as_ptr(), name.len(), &mut compared) };
        (number, compared)
    }

    pub fn scan(message: &[u8], start: usize, end: usize) -> Told {
        let mut told = UNSET;
        unsafe {
            rfc733_scan(message.as_ptr(), message.len(), start, end, told.as_mut_ptr(), 3)
        };
        answer(told)
    }

    /// A C function that reads a body and fills a buffer.
    type Filling = unsafe extern "C" fn(
        *const u8, usize, usize, usize, *mut u8, usize, *mut u64, usize,
    );

    fn fill(call: Filling, message: &[u8], start: usize, end: usize, lent: &mut [u8]) -> Told {
        let mut told = UNSET;
        let (m, b) = (message.as_ptr(), lent.as_mut_ptr());
        let out = told.as_mut_ptr();
        unsafe { call(m, message.len(), start, end, b, lent.len(), out, 3) };
        answer(told)
    }

    /// Fills the lent table and the lent array of numbers told.
    pub fn addresses_of(
        message: &[u8], start: usize, end: usize, edition: usize, table: &mut [u8],
        told: &mut [u64],
    ) {
        let m = (message.as_ptr(), message.len());
        let (out, t) = ((table.as_mut_ptr(), table.len()), (told.as_mut_ptr(), told.len()));
        unsafe { rfc733_addresses(m.0, m.1, start, end, edition, out.0, out.1, t.0, t.1) }
    }

    pub fn addresses(message: &[u8], start: usize, end: usize, table: &mut [u8]) -> Told {
        let mut told = UNSET;
        addresses_of(message, start, end, 733, table, &mut told);
        answer(told)
    }

    pub fn addresses_by_table(message: &[u8], start: usize, end: usize, table: &mut [u8]) -> Told {
        fill(rfc733_addresses_by_table, message, start, end, table)
    }

    pub fn plain(message: &[u8], start: usize, end: usize, text: &mut [u8]) -> Told {
        fill(rfc733_plain, message, start, end, text)
    }

    pub fn date(message: &[u8], start: usize, end: usize) -> (Told, i64) {
        let mut told = UNSET;
        let mut value = i64::MIN;
        let (m, out) = (message.as_ptr(), told.as_mut_ptr());
        unsafe { rfc733_date(m, message.len(), start, end, out, 3, &mut value) };
        (answer(told), value)
    }

    /// Fills the lent path and the lent array of numbers told.
    pub fn touch(
        message: &[u8], start: usize, end: usize, place: usize, path: &mut [u64], told: &mut [u64],
    ) {
        let (m, p, t) = (message.as_ptr(), path.as_mut_ptr(), told.as_mut_ptr());
        unsafe { rfc733_touch(m, message.len(), start, end, place, p, path.len(), t, told.len()) }
    }

    /// Fills the lent text and the lent array of numbers told.
    pub fn expand(
        message: &[u8], start: usize, end: usize, store: &[u8], text: &mut [u8], told: &mut [u64],
    ) {
        let (m, s) = ((message.as_ptr(), message.len()), (store.as_ptr(), store.len()));
        let (out, t) = ((text.as_mut_ptr(), text.len()), (told.as_mut_ptr(), told.len()));
        unsafe { rfc733_expand(m.0, m.1, start, end, s.0, s.1, out.0, out.1, t.0, t.1) }
    }

    /// Fills the lent array of numbers told.
    pub fn next_symbol(message: &[u8], at: usize, end: usize, told: &mut [u64]) {
        let (m, t) = ((message.as_ptr(), message.len()), (told.as_mut_ptr(), told.len()));
        unsafe { rfc733_next_symbol(m.0, m.1, at, end, t.0, t.1) }
    }

    pub fn reply(reply: &[u8], from: &[u8]) -> u32 {
        unsafe { rfc733_reply(reply.as_ptr(), reply.len(), from.as_ptr(), from.len()) }
    }
}

/// Reads the addresses of a body into a table.
type Reader = fn(&[u8], usize, usize, &mut [u8]) -> Told;

/// The proved address readers: the first, and the second, driven by a table.
const READERS: [(&str, Reader); 2] =
    [("addresses", proved::addresses), ("addresses by table", proved::addresses_by_table)];

/// What stands in every lent buffer beforehand.
const PATTERN: u8 = 0xA5;

/// Bytes of the longest message, and of the longest plain text read back.
const LONGEST: usize = 32_768;

/// Every answer number is below this.
const NUMBERS: usize = 24;

/// Seconds after which every tally must have counted.
const LONG_ENOUGH: u64 = 5;

/// One input and where it came from.
struct Case<'a> {
    seed: u64,
    kind: Kind,
    message: &'a [u8],
    start: usize,
    end: usize,
}

fn escaped(bytes: &[u8]) -> String {
    bytes.iter().flat_map(|b| std::ascii::escape_default(*b)).map(char::from).collect()
}

/// Prints a message whole, with the positions of its body.
fn show(case: &Case) {
    println!("start {} end {}", case.start, case.end);
    println!("message of {} bytes: b\"{}\"", case.message.len(), escaped(case.message));
}

/// Prints a difference whole and ends the program.
fn differ(case: &Case, function: &str, room: usize, proved: &dyn Debug, wanted: &dyn Debug) -> ! {
    println!("DIFFERENCE in {function}");
    println!("seed {} kind {:?} room {room}", case.seed, case.kind);
    show(case);
    println!("proved: {proved:?}");
    println!("wanted: {wanted:?}");
    std::process::exit(1);
}

/// Prints two messages that break a law together and ends the program.
fn break_law(one: &Case, other: &Case, law: &str, proved: &dyn Debug, wanted: &dyn Debug) -> ! {
    println!("the first of two messages:");
    show(one);
    differ(other, law, 0, proved, wanted);
}

fn agree<T: PartialEq + Debug>(case: &Case, function: &str, room: usize, proved: T, wanted: T) {
    if proved != wanted {
        differ(case, function, room, &proved, &wanted);
    }
}

/// A room around what is needed: none, too little, exact, or more; or any.
fn room(rng: &mut Rng, needed: usize, size: usize) -> usize {
    let exact = needed * size;
    match rng.below(8) {
        0 => 0,
        1 => exact.saturating_sub(size),
        2 => exact.saturating_sub(1),
        3 => exact + rng.below(3 * size),
        4 => exact + size + rng.below(100),
        5 => rng.below(exact + 1),
        6 => rng.below(2_001),
        _ => exact,
    }
}

/// Runs functions that fill a buffer, proved ones and the independent one,
/// with rooms around what they need, and compares answers and whole buffers.
fn compare_filling(
    rng: &mut Rng,
    case: &Case,
    size: usize,
    proved: &[(&str, impl Fn(&mut [u8]) -> Told)],
    independent: impl Fn(&mut [u8]) -> Told,
) -> Told {
    let mut told = independent(&mut []);
    let needed = told.count as usize;
    let guess = if needed > 0 { needed } else { rng.below(6) };
    for lent in [room(rng, guess, size), needed * size] {
        let mut wanted = vec![PATTERN; lent];
        told = independent(&mut wanted);
        for (name, fill) in proved {
            let mut filled = vec![PATTERN; lent];
            agree(case, name, lent, fill(&mut filled), told);
            agree(case, name, lent, &filled, &wanted);
        }
    }
    told
}

/// Reads accepted plain text again: the same tree and the same text.
fn round_trip(case: &Case) {
    let records = proved_records(case.message, case.start, case.end);
    let text = proved_plain(case.message, case.start, case.end);
    if text.len() > LONGEST {
        return;
    }
    let wanted = Told { number: 0, position: 0, count: (records.len() / 12) as u64 };
    for (name, read) in READERS {
        let mut table = vec![PATTERN; records.len()];
        let told = read(&text, 0, text.len(), &mut table);
        agree(case, "round trip, answer", 0, (name, told), (name, wanted));
        agree(case, "round trip, records", 0, (name, heads(&table)), (name, heads(&records)));
    }
    agree(case, "round trip, text", 0, proved_plain(&text, 0, text.len()), text);
}

/// Kind, depth and parent of each address record.
fn heads(table: &[u8]) -> Vec<u8> {
    table.chunks(12).flat_map(|r| r[..4].to_vec()).collect()
}

fn proved_records(message: &[u8], start: usize, end: usize) -> Vec<u8> {
    let needed = proved::addresses(message, start, end, &mut []).count as usize;
    let mut table = vec![PATTERN; needed * 12];
    proved::addresses(message, start, end, &mut table);
    table
}

fn proved_plain(message: &[u8], start: usize, end: usize) -> Vec<u8> {
    let needed = proved::plain(message, start, end, &mut []).count as usize;
    let mut text = vec![PATTERN; needed];
    proved::plain(message, start, end, &mut text);
    text
}

/// Touches a few places and compares all that is told and both lent arrays,
/// whole. `listed` is the list reader's number for the body.
fn compare_touch(rng: &mut Rng, case: &Case, listed: u64, seen: &mut Touches) {
    let (message, start, end) = (case.message, case.start, case.end);
    for told_length in [5, rng.below(7)] {
        let place = inputs::touched(rng, message, start, end);
        let path_length = inputs::path_length(rng);
        let lent = (inputs::numbers(rng, told_length), inputs::numbers(rng, path_length));
        let (mut proved, mut wanted) = (lent.clone(), lent);
        proved::touch(message, start, end, place, &mut proved.1, &mut proved.0);
        let told = reader::touch(message, start, end, place, &mut wanted.1);
        wanted.0.iter_mut().zip(told).for_each(|(slot, number)| *slot = number);
        if proved != wanted {
            differ(case, &format!("touch at {place}"), path_length, &proved, &wanted);
        }
        seen.count(told, listed, path_length);
    }
}

/// Expands a body and compares all that is told and the whole text, with
/// rooms around what is needed; the store stays as it is.
fn compare_expanded(rng: &mut Rng, case: &Case, store: &[u8], seen: &mut Expansions) -> u64 {
    let (message, start, end) = (case.message, case.start, case.end);
    let needed = reader::expand(message, start, end, store, &mut []).0.count as usize;
    let guess = if needed > 0 { needed } else { rng.below(6) };
    let mut answer = 0;
    for (lent, told_length) in [(room(rng, guess, 1), rng.below(7)), (needed, 4)] {
        let untouched = inputs::numbers(rng, told_length);
        let kept = store.to_vec();
        let mut proved = (untouched.clone(), vec![PATTERN; lent]);
        proved::expand(message, start, end, &kept, &mut proved.1, &mut proved.0);
        let mut wanted = (untouched, vec![PATTERN; lent]);
        let (told, openings) = reader::expand(message, start, end, store, &mut wanted.1);
        let all = [told.number, told.position, told.count, openings];
        wanted.0.iter_mut().zip(all).for_each(|(slot, number)| *slot = number);
        if proved != wanted || kept != store {
            show_store(store);
            println!("store left as it was: {}", kept == store);
            let shown = |lent: &(Vec<u64>, Vec<u8>)| (lent.0.clone(), escaped(&lent.1));
            differ(case, "expand", lent, &shown(&proved), &shown(&wanted));
        }
        seen.count(case, store, all, &wanted.1);
        answer = told.number;
    }
    if answer == 0 {
        expanded_laws(case, store, needed);
    }
    answer
}

/// What is expanded, read again: no Include, and the same text. A body
/// without Include is written plainly.
fn expanded_laws(case: &Case, store: &[u8], length: usize) {
    let (message, start, end) = (case.message, case.start, case.end);
    let mut text = vec![PATTERN; length];
    proved::expand(message, start, end, store, &mut text, &mut []);
    let include = |records: &[u8]| records.chunks(12).any(|record| record[0] == 5);
    if !include(&proved_records(message, start, end)) {
        agree(case, "expanded, no Include", 0, &text, &proved_plain(message, start, end));
    }
    if length <= LONGEST {
        let left = include(&proved_records(&text, 0, length));
        let again = proved_plain(&text, 0, length);
        agree(case, "expanded, read again", 0, (left, again), (false, text));
    }
}

/// Reads a body under an edition and compares all that is told and the whole
/// table, with rooms around what is needed; gives the number.
fn compare_edition(rng: &mut Rng, case: &Case, edition: usize, seen: &mut Editions) -> u64 {
    let (message, start, end) = (case.message, case.start, case.end);
    let needed = reader822::addresses(message, start, end, edition, &mut []).count as usize;
    let guess = if needed > 0 { needed } else { rng.below(6) };
    let mut answer = 0;
    for (lent, told_length) in [(room(rng, guess, 12), rng.below(5)), (12 * needed, 3)] {
        let untouched = inputs::numbers(rng, told_length);
        let mut proved = (untouched.clone(), vec![PATTERN; lent]);
        proved::addresses_of(message, start, end, edition, &mut proved.1, &mut proved.0);
        let mut wanted = (untouched, vec![PATTERN; lent]);
        let told = reader822::addresses(message, start, end, edition, &mut wanted.1);
        let all = [told.number, told.position, told.count];
        wanted.0.iter_mut().zip(all).for_each(|(slot, number)| *slot = number);
        if proved != wanted {
            differ(case, &format!("addresses of edition {edition}"), lent, &proved, &wanted);
        }
        seen.count(case, edition, told, &wanted.1);
        answer = told.number;
    }
    answer
}

/// Compares a list made by the rules of RFC 822, whose addresses are known.
fn compare_derived(rng: &mut Rng, seed: u64, seen: &mut Seen) -> u64 {
    let (body, wanted) = inputs::list822(rng);
    let (message, start, end) = inputs::place(rng, body.clone());
    let case = Case { seed, kind: Kind::List822, message: &message, start, end };
    compare_body(rng, &case, seen);
    let number = compare_edition(rng, &case, 822, &mut seen.editions);
    if message.len() <= LONGEST && message.get(start..end) == Some(&body) {
        let mut table = vec![PATTERN; 3 * wanted.len()];
        proved::addresses_of(&message, start, end, 822, &mut table, &mut []);
        agree(&case, "addresses made", 0, (number, heads(&table)), (0, wanted));
    }
    number
}

/// Prints the records of a store, and its tail.
fn show_store(store: &[u8]) {
    for (number, record) in store.chunks(512).enumerate() {
        let (name, list) = record.split_at(record.len().min(64));
        println!("record {number}: b\"{}\" b\"{}\"", escaped(name), escaped(list));
    }
}

/// Compares everything that reads a body; gives the list reader's number.
fn compare_body(rng: &mut Rng, case: &Case, seen: &mut Seen) -> u64 {
    let (message, start, end) = (case.message, case.start, case.end);
    agree(case, "scan", 0, proved::scan(message, start, end), reader::scan(message, start, end));
    agree(case, "date", 0, proved::date(message, start, end), reader::date(message, start, end));
    let readers =
        READERS.map(|(name, read)| (name, move |lent: &mut [u8]| read(message, start, end, lent)));
    let told = compare_filling(
        rng, case, 12,
        &readers,
        |table| reader::addresses(message, start, end, table),
    );
    let text = compare_filling(
        rng, case, 1,
        &[("plain", |text: &mut [u8]| proved::plain(message, start, end, text))],
        |text| reader::plain(message, start, end, text),
    );
    agree(case, "plain against addresses", 0, text.number, told.number);
    if told.number == 0 {
        round_trip(case);
    }
    seen.count_folds(case, told.number);
    steps::compare_steps(rng, case, &mut seen.steps);
    compare_touch(rng, case, told.number, &mut seen.touches);
    let edition = inputs::edition(rng);
    compare_edition(rng, case, edition, &mut seen.editions);
    told.number
}

/// Compares the splitting of a header and each field it has.
fn compare_header(rng: &mut Rng, case: &Case, seen: &mut Seen) -> u64 {
    let message = case.message;
    let told = compare_filling(
        rng, case, 8,
        &[("split", |table: &mut [u8]| proved::split(message, table))],
        |table| reader::split(message, table),
    );
    if told.number != 0 {
        return told.number;
    }
    let mut table = vec![PATTERN; 8 * told.count as usize];
    proved::split(message, &mut table);
    for record in table.chunks(8).take(20) {
        let at = |i: usize| usize::from(record[i]) * 256 + usize::from(record[i + 1]);
        compare_name(case, &message[at(0)..at(2)], seen);
        let field = Case { start: at(4), end: at(6), ..*case };
        compare_body(rng, &field, seen);
    }
    0
}

/// Looks a name up and compares its number and how many names were compared.
fn compare_name(case: &Case, name: &[u8], seen: &mut Seen) -> u64 {
    let (number, compared) = (reader::known(name), reader::compared(name));
    let whole = Case { message: name, start: 0, end: name.len(), ..*case };
    agree(&whole, "known_name", 0, proved::known(name), (number, compared));
    seen.names[number as usize][compared as usize] += 1;
    u64::from(number)
}

/// Looks many names up, as one takes next to no time; gives the last number.
fn compare_names(rng: &mut Rng, seed: u64, seen: &mut Seen) -> u64 {
    let kind = Kind::Name;
    let mut number = 0;
    for _ in 0..1_000 {
        let name = inputs::body(rng, kind);
        let case = Case { seed, kind, message: &name, start: 0, end: name.len() };
        number = compare_name(&case, &name, seen);
    }
    number
}

fn compare_reply(case: &Case, from: &[u8]) -> u64 {
    let body = case.message;
    let choice = reader::reply(body, from);
    let proved = proved::reply(body, from);
    if proved != choice {
        differ(case, "reply", from.len(), &(proved, "from", escaped(from)), &choice);
    }
    u64::from(choice)
}

/// What the proved library gives of a body apart from positions: the number
/// of scanning and of reading, heads of records, plain text.
#[derive(Debug, PartialEq)]
struct Kept {
    scanned: u64,
    number: u64,
    heads: Vec<u8>,
    text: Vec<u8>,
}

/// Asks the proved library for what must stay.
fn proved_kept(case: &Case) -> Kept {
    let (message, start, end) = (case.message, case.start, case.end);
    let mut table = proved_records(message, start, end);
    Kept {
        scanned: proved::scan(message, start, end).number,
        number: proved::addresses(message, start, end, &mut table).number,
        heads: heads(&table),
        text: proved_plain(message, start, end),
    }
}

/// How often bytes were touched, by what was told.
#[derive(Default)]
struct Touches {
    /// By what the byte is.
    bytes: [u64; 6],
    /// Refused with names, by the answer number.
    refused: [u64; 15],
    /// By what was named.
    things: [u64; 9],
    /// ":" named without "<", as at the 64th level it makes typed.
    typing: u64,
    /// Refused by 11 of the tool's own table; by 13 of the place.
    many: u64,
    outside: u64,
    /// Paths of more than three records; paths longer than the array lent.
    deep: u64,
    cut: u64,
}

impl Touches {
    fn count(&mut self, told: [u64; 5], listed: u64, path_length: usize) {
        let [number, _, count, byte, names] = told;
        let accepted = number == 0;
        self.bytes[byte as usize] += 1;
        self.refused[number as usize] += u64::from(names > 0);
        for (i, times) in self.things.iter_mut().enumerate() {
            *times += names >> i & 1;
        }
        self.typing += u64::from(names & (4 + 128) == 128);
        self.many += u64::from(number == 11);
        self.outside += u64::from(number == 13 && listed == 0);
        self.deep += u64::from(accepted && count > 3);
        self.cut += u64::from(accepted && count > path_length as u64);
    }

    /// Each tally with its name.
    fn tallies(&self) -> Vec<(String, u64)> {
        let mut all = vec![
            ("touched, over 2,048 records".to_string(), self.many),
            ("touched, place outside".to_string(), self.outside),
            ("touched, path of over 3".to_string(), self.deep),
            ("touched, path cut short".to_string(), self.cut),
            ("named, \":\" without \"<\"".to_string(), self.typing),
        ];
        for (byte, times) in reader::BYTES.iter().zip(self.bytes).skip(1) {
            all.push((format!("touched, {byte}"), times));
        }
        for number in [8, 9, 10] {
            all.push((format!("named, refused {number}"), self.refused[number]));
        }
        for (thing, times) in reader::THINGS.iter().zip(self.things) {
            all.push((format!("named, {thing}"), times));
        }
        all
    }
}

/// How often bodies were expanded, by what was told.
#[derive(Default)]
struct Expansions {
    /// Accepted with no opening, one, some, 64; and so 19 and 11.
    accepted: [u64; 4],
    unled: [u64; 4],
    roomless: [u64; 4],
    /// By 20; by 10 at the Include, with no opening and with some.
    spent: u64,
    too_deep: [u64; 2],
    /// By a stored list's own number; and with openings before it.
    own: [u64; NUMBERS],
    own_later: u64,
    /// Bodies that are refused themselves.
    unread: u64,
    /// Accepted with a comma that only the expanded list needs.
    commas: u64,
    /// Accepted with line ends in the expanded list only, and in the body only.
    line_ends: [u64; 2],
}

impl Expansions {
    fn count(&mut self, case: &Case, store: &[u8], told: [u64; 4], text: &[u8]) {
        let [number, position, _, openings] = told;
        let some = usize::from(openings > 0);
        let many = some + usize::from(openings > 1) + usize::from(openings == 64);
        let body = reader::addresses(case.message, case.start, case.end, &mut []).number;
        if body != 0 && body != 11 {
            self.unread += 1;
            return;
        }
        match number {
            0 => self.accepted[many] += 1,
            11 => self.roomless[many] += 1,
            19 => self.unled[many] += 1,
            20 => self.spent += 1,
            10 if !is_refused(store, position as usize, 10) => self.too_deep[some] += 1,
            _ => {
                self.own[number as usize] += 1;
                self.own_later += some as u64;
            }
        }
        let before = proved_plain(case.message, case.start, case.end);
        let has = |text: &[u8], part: &[u8]| text.windows(part.len()).any(|found| found == part);
        let only = |one: &[u8], other: &[u8], part| {
            u64::from(number == 0 && has(one, part) && !has(other, part))
        };
        self.commas += only(text, &before, b":, ");
        self.line_ends[0] += only(text, &before, b"\\\r\\\n ");
        self.line_ends[1] += only(&before, text, b"\\\r\\\n ");
    }

    /// Each tally with its name.
    fn tallies(&self) -> Vec<(String, u64)> {
        let mut all = vec![
            ("expanded, body refused".to_string(), self.unread),
            ("expanded, comma put in".to_string(), self.commas),
            ("expanded, line end put in".to_string(), self.line_ends[0]),
            ("expanded, line end taken out".to_string(), self.line_ends[1]),
            ("expanded, refused 20".to_string(), self.spent),
            ("expanded, too deep, no opening".to_string(), self.too_deep[0]),
            ("expanded, too deep, some openings".to_string(), self.too_deep[1]),
            ("expanded, own number, some openings".to_string(), self.own_later),
        ];
        let openings = ["no opening", "1 opening", "some openings", "64 openings"];
        let answers = ["accepted", "refused 11", "refused 19"];
        for (answer, times) in answers.iter().zip([self.accepted, self.roomless, self.unled]) {
            for (openings, times) in openings.iter().zip(times) {
                all.push((format!("expanded, {answer}, {openings}"), times));
            }
        }
        for number in [3, 5, 6, 7, 8, 9, 10] {
            all.push((format!("expanded, own number {number}"), self.own[number]));
        }
        all
    }
}

/// Kind and depth of the addresses that a list by RFC 822 may have.
const FORMS822: [(u8, u8); 6] = [(1, 0), (1, 1), (1, 2), (2, 0), (2, 1), (3, 0)];

/// How often bodies were read under an edition, by what was told.
#[derive(Default)]
struct Editions {
    /// Under 822, by the answer number.
    numbers: [u64; NUMBERS],
    /// Accepted under 822, by the forms and parts they have.
    forms: [u64; 6],
    parts: [u64; 8],
    /// Accepted under 733.
    older: u64,
    /// By 21, positions being in order and not; by 1 in place of 21.
    unknown: [u64; 2],
    unknown_long: u64,
}

impl Editions {
    fn count(&mut self, case: &Case, edition: usize, told: Told, table: &[u8]) {
        let (message, start, end) = (case.message, case.start, case.end);
        let disordered = start > end || end > message.len();
        match (edition, told.number) {
            (822, 0) => {
                let records = table.chunks(12).take(told.count as usize);
                for (times, form) in self.forms.iter_mut().zip(FORMS822) {
                    *times += u64::from(records.clone().any(|r| (r[0], r[1]) == form));
                }
                let parts = reader822::parts(message, start, end);
                self.parts.iter_mut().zip(parts).for_each(|(times, has)| *times += u64::from(has));
            }
            (733, number) => self.older += u64::from(number == 0),
            (_, 21) => self.unknown[usize::from(disordered)] += 1,
            (822, _) => {}
            (_, number) => self.unknown_long += u64::from(number == 1),
        }
        self.numbers[told.number as usize] += u64::from(edition == 822);
    }

    /// Each tally with its name.
    fn tallies(&self) -> Vec<(String, u64)> {
        let mut all = vec![
            ("edition 733, accepted".to_string(), self.older),
            ("other edition".to_string(), self.unknown[0]),
            ("other edition, positions disordered".to_string(), self.unknown[1]),
            ("other edition, message too long".to_string(), self.unknown_long),
        ];
        for number in [0, 1, 3, 5, 6, 7, 8, 9, 11, 13, 23] {
            all.push((format!("edition 822, number {number}"), self.numbers[number]));
        }
        for ((kind, depth), times) in FORMS822.iter().zip(self.forms) {
            all.push((format!("edition 822, kind {kind} depth {depth}"), times));
        }
        for (part, times) in reader822::PARTS.iter().zip(self.parts) {
            all.push((format!("822, {part}"), times));
        }
        all
    }
}

/// Whether a record's list is refused by that number.
fn is_refused(store: &[u8], record: usize, number: u64) -> bool {
    if record >= store.len() / 512 {
        return false;
    }
    let list = reader::stored_list(store, record);
    reader::addresses(list, 0, list.len(), &mut []).number == number
}

/// How often the laws of equal addresses and the limit of levels were tried
/// and names were looked up, and on what.
#[derive(Default)]
struct Seen {
    steps: Steps,
    touches: Touches,
    expansions: Expansions,
    editions: Editions,
    /// Exchanges of comments by the answer number of the body.
    exchanged: [u64; 15],
    /// Exchanges of a comment that lies in another.
    nested: u64,
    /// Exchanges that made the message as long as it may be.
    filled: u64,
    /// Pairs with the same addresses, with others, and not both accepted.
    same: u64,
    different: u64,
    unread: u64,
    /// Bodies with 64 levels open, refused ones where they are refused, by
    /// the answer number.
    full: [u64; 15],
    /// Bodies whose last level allowed became a typed address.
    full_typed: u64,
    /// Bodies where several typed addresses end at once, by what ends them.
    ended: [u64; 4],
    /// Accepted bodies with folds behind a backslash, by what becomes of them.
    folds: [u64; 4],
    /// Quoted-strings that end in such a fold, its white space outside.
    cut_folds: u64,
    /// Pairs of which one has line ends kept by folds and the other has none,
    /// with other addresses and with the same.
    kept_in_one: [u64; 2],
    /// Names by their number and how many were compared.
    names: [[u64; 2]; 7],
}

impl Seen {
    /// Each tally with its name.
    fn tallies(&self) -> Vec<(String, u64)> {
        let mut all = vec![
            ("comments exchanged, nested".to_string(), self.nested),
            ("comments exchanged, message full".to_string(), self.filled),
            ("comments exchanged, accepted".to_string(), self.exchanged[0]),
        ];
        for number in [3, 5, 6, 7, 8, 9, 10] {
            all.push((format!("comments exchanged, refused {number}"), self.exchanged[number]));
        }
        all.push(("pairs with the same addresses".to_string(), self.same));
        all.push(("pairs with other addresses".to_string(), self.different));
        all.push(("pairs not both accepted".to_string(), self.unread));
        all.push(("64 levels open, accepted".to_string(), self.full[0]));
        for number in [8, 9, 10] {
            all.push((format!("64 levels open, refused {number}"), self.full[number]));
        }
        all.push(("64th level typed".to_string(), self.full_typed));
        for ((end, _), times) in reader::ENDS.iter().zip(self.ended) {
            all.push((format!("typed ones ended together, by {end}"), times));
        }
        for (fold, times) in reader::FOLDS.iter().zip(self.folds) {
            all.push((fold.to_string(), times));
        }
        all.push(("fold behind a backslash, cut off".to_string(), self.cut_folds));
        all.push(("line end kept in one, other pairs".to_string(), self.kept_in_one[0]));
        all.push(("line end kept in one, same pairs".to_string(), self.kept_in_one[1]));
        for (name, times) in reader::NAMES.iter().zip(&self.names[1..]) {
            all.push((format!("name, {}", escaped(name)), times[1]));
        }
        all.push(("name, other, 1 compared".to_string(), self.names[0][1]));
        all.push(("name, other, 0 compared".to_string(), self.names[0][0]));
        all.extend(self.steps.tallies());
        all.extend(self.touches.tallies());
        all.extend(self.expansions.tallies());
        all.extend(self.editions.tallies());
        all
    }

    /// Counts what the levels of a body come to.
    fn count_levels(&mut self, case: &Case, number: u64) {
        let levels = reader::levels(case.message, case.start, case.end);
        let open = if number == 0 { levels.most } else { levels.last };
        self.full[number as usize] += u64::from(open == 64);
        self.full_typed += u64::from(levels.full_typed);
        for (times, ended) in self.ended.iter_mut().zip(levels.ended) {
            *times += u64::from(ended);
        }
    }

    /// Counts the folds of a body that stand behind a backslash.
    fn count_folds(&mut self, case: &Case, number: u64) {
        if number == 0 {
            let found = reader::folds(case.message, case.start, case.end);
            self.folds.iter_mut().zip(found).for_each(|(times, has)| *times += u64::from(has));
        }
        if number == 5 {
            let (body, behind) = case.message.split_at(case.end);
            let white = behind.first().is_some_and(|byte| b" \t".contains(byte));
            self.cut_folds += u64::from(white && body.ends_with(b"\\\r\n"));
        }
    }

    /// Prints the tallies; false if one of them is still zero.
    fn print(&self) -> bool {
        let all = self.tallies();
        for (name, times) in &all {
            println!("{name:<36} {times:>9}");
        }
        all.iter().all(|tally| tally.1 > 0)
    }
}

/// Ends the program if the bytes are no comment that scans alone.
fn check_comment(case: &Case, comment: &[u8]) {
    let alone = Case { message: comment, start: 0, end: comment.len(), ..*case };
    let nothing = proved::reply(comment, b"x") == 1;
    agree(&alone, "comment alone", 0, (nothing, reader::is_comment(comment)), (true, true));
}

/// Exchanges a comment of the body, if it has one, and compares both
/// messages by themselves and with each other.
fn compare_exchange(rng: &mut Rng, case: &Case, seen: &mut Seen) -> u64 {
    let number = compare_body(rng, case, seen);
    let spans = reader::comments(case.message, case.start, case.end);
    if spans.is_empty() {
        return number;
    }
    let (from, behind) = spans[rng.below(spans.len())];
    let room = LONGEST - case.message.len() + behind - from;
    let fill = rng.once_in(100);
    let comment = if fill { inputs::filling_comment(rng, room) } else { inputs::comment(rng) };
    check_comment(case, &case.message[from..behind]);
    check_comment(case, &comment);
    if comment.len() > room {
        return number;
    }
    let message = [&case.message[..from], &comment[..], &case.message[behind..]].concat();
    let end = case.end - (behind - from) + comment.len();
    let other = Case { message: &message, end, ..*case };
    compare_body(rng, &other, seen);
    let (before, after) = (proved_kept(case), proved_kept(&other));
    if before != after {
        break_law(case, &other, "exchange of a comment, after and before", &after, &before);
    }
    let (before, after) = (steps::proved_symbols(case), steps::proved_symbols(&other));
    if before != after {
        break_law(case, &other, "symbols after an exchange, and before", &after, &before);
    }
    seen.exchanged[number as usize] += 1;
    seen.nested += u64::from(spans.iter().any(|s| s.0 < from && behind < s.1));
    seen.filled += u64::from(message.len() == LONGEST);
    number
}

/// Compares two bodies by themselves, and whether they have the same
/// addresses: by plain text on one side, by the trees on the other.
fn compare_pair(rng: &mut Rng, seed: u64, seen: &mut Seen) -> u64 {
    let (one, other) = inputs::pair(rng);
    let (one, other) = (inputs::place(rng, one), inputs::place(rng, other));
    let kind = Kind::Pair;
    let left = Case { seed, kind, message: &one.0, start: one.1, end: one.2 };
    let right = Case { seed, kind, message: &other.0, start: other.1, end: other.2 };
    let numbers = (compare_body(rng, &left, seen), compare_body(rng, &right, seen));
    let (first, last) = (proved_kept(&left), proved_kept(&right));
    let accepted = first.number == 0 && last.number == 0;
    let proved = accepted.then_some(first.text == last.text);
    let wanted = reader::same_addresses((&one.0, one.1, one.2), (&other.0, other.1, other.2));
    if proved != wanted || (proved == Some(true) && first != last) {
        break_law(&left, &right, "same addresses", &(proved, first, last), &wanted);
    }
    match wanted {
        None => seen.unread += 1,
        Some(true) => seen.same += 1,
        Some(false) => seen.different += 1,
    }
    let kept = [&left, &right].map(|case| {
        let found = reader::folds(case.message, case.start, case.end);
        found[0] || found[1]
    });
    if let (Some(same), true) = (wanted, kept[0] != kept[1]) {
        seen.kept_in_one[usize::from(same)] += 1;
    }
    if numbers.0 != 0 { numbers.0 } else { numbers.1 }
}

/// Compares a body by itself, and expanded with a store.
fn compare_expansion(rng: &mut Rng, seed: u64, seen: &mut Seen) -> u64 {
    let (body, store) = inputs::expansion(rng);
    let (message, start, end) = inputs::place(rng, body);
    let case = Case { seed, kind: Kind::Expansion, message: &message, start, end };
    compare_body(rng, &case, seen);
    compare_expanded(rng, &case, &store, &mut seen.expansions)
}

/// Numbers given per kind: inputs, and how often each answer number came.
struct Counts {
    inputs: u64,
    numbers: [u64; NUMBERS],
}

/// Makes one input of the kind, compares, and gives the answer number.
fn one_input(rng: &mut Rng, seed: u64, kind: Kind, seen: &mut Seen) -> u64 {
    if kind == Kind::Name {
        return compare_names(rng, seed, seen);
    }
    if kind == Kind::Pair {
        return compare_pair(rng, seed, seen);
    }
    if kind == Kind::Expansion {
        return compare_expansion(rng, seed, seen);
    }
    if kind == Kind::List822 {
        return compare_derived(rng, seed, seen);
    }
    if kind == Kind::Spaced {
        return steps::compare_spaced(rng, seed, seen);
    }
    let body = inputs::body(rng, kind);
    let whole = Case { seed, kind, message: &body, start: 0, end: body.len() };
    match kind {
        Kind::Header => compare_header(rng, &whole, seen),
        Kind::Reply => {
            let from = inputs::body(rng, Kind::Tokens);
            steps::compare_steps(rng, &whole, &mut seen.steps);
            compare_reply(&whole, &from)
        }
        _ => {
            let (message, start, end) = inputs::place(rng, body);
            let case = Case { seed, kind, message: &message, start, end };
            compare_reply(&case, b"x");
            if kind == Kind::Exchange {
                return compare_exchange(rng, &case, seen);
            }
            let list = compare_body(rng, &case, seen);
            if kind == Kind::Deep || kind == Kind::Waves {
                seen.count_levels(&case, list);
            }
            match kind {
                Kind::Date | Kind::DateMutant => reader::date(&message, start, end).0.number,
                Kind::Mutant822 | Kind::Soup822 => {
                    compare_edition(rng, &case, 822, &mut seen.editions)
                }
                _ => list,
            }
        }
    }
}

fn print_counts(counts: &[Counts]) {
    for (kind, count) in inputs::KINDS.iter().zip(counts) {
        print!("{:<11} {:>9} inputs, answers", format!("{kind:?}"), count.inputs);
        for (number, times) in count.numbers.iter().enumerate().filter(|n| *n.1 > 0) {
            print!(" {number}:{times}");
        }
        println!();
    }
}

fn main() {
    let mut arguments = std::env::args().skip(1);
    let mut argument = |default: u64| {
        arguments.next().map_or(default, |text| text.parse().expect("a number"))
    };
    let seed = argument(733);
    let seconds = argument(20);
    println!("seed {seed}, {seconds} seconds");
    let mut rng = Rng::new(seed);
    let mut counts: Vec<Counts> =
        inputs::KINDS.iter().map(|_| Counts { inputs: 0, numbers: [0; NUMBERS] }).collect();
    let mut seen = Seen::default();
    let begin = Instant::now();
    let mut total = 0u64;
    while begin.elapsed() < Duration::from_secs(seconds) {
        let chosen = inputs::choose(&mut rng);
        let number = one_input(&mut rng, seed, inputs::KINDS[chosen], &mut seen);
        counts[chosen].inputs += 1;
        counts[chosen].numbers[number as usize] += 1;
        total += 1;
    }
    print_counts(&counts);
    if !seen.print() && seconds >= LONG_ENOUGH {
        println!("{total} inputs, and one of these never came");
        std::process::exit(1);
    }
    println!("{total} inputs, all agree");
}
