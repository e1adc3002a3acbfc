// The readers, each as a function that takes a list, a store and a table, and tells what it found.
use crate::expert;
use crate::inputs::{Input, Work, MIDDLE};
use crate::library::{Library, PATH};
use crate::reader;

// The list comes with a NUL after it, and may be written into.
pub type Read<'a> = Box<dyn Fn(&mut [u8], &[u8], &mut [u8]) -> usize + 'a>;

pub const PROVED: &str = "proved";
pub const BY_TABLE: &str = "proved, by table";
pub const EDITION_822: &str = "proved, edition 822";
pub const EXPERT: &str = "expert, two passes";
pub const INDEPENDENT: &str = "independent";
pub const GMIME: &str = "GMime";
pub const ETPAN: &str = "libetpan";
pub const CCLIENT: &str = "c-client";
// c-client holds back alarms at each allocation and release by a system call; here it is told not to.
pub const NO_ALARMS: &str = "c-client, no alarms";
// The readers that write records.
pub const WITH_RECORDS: [&str; 4] = [PROVED, BY_TABLE, EDITION_822, EXPERT];

// A reader of one of our own kinds, which need no NUL.
fn ours<'a>(read: impl Fn(&[u8], &[u8], &mut [u8]) -> u64 + 'a) -> Read<'a> {
    Box::new(move |text, store, table| read(&text[..text.len() - 1], store, table) as usize)
}

fn addresses(library: &Library, edition: usize) -> Read<'_> {
    ours(move |text, _, table| library.addresses(text, 0, text.len(), edition, table)[2])
}

fn by_table(library: &Library) -> Read<'_> {
    ours(|text, _, table| library.addresses_by_table(text, 0, text.len(), table)[2])
}

// The length of the text, or the number of the refusal.
fn expand(library: &Library) -> Read<'_> {
    ours(|text, store, table| {
        let told = library.expand(text, store, table);
        told[0] + told[2]
    })
}

// Looks up each name, which stands after a byte with its length: the sum of their numbers.
fn looked_up(mut text: &[u8], number_of: impl Fn(&[u8]) -> u32) -> u64 {
    let mut sum = 0;
    while let [length, rest @ ..] = text {
        let (name, others) = rest.split_at(usize::from(*length));
        sum += u64::from(number_of(name));
        text = others;
    }
    sum
}

// What a library has for a work.
pub fn proved(work: Work, library: &Library) -> Vec<(&'static str, Read<'_>)> {
    let one = |read| vec![(PROVED, read)];
    match work {
        Work::Common(_) => vec![
            (PROVED, addresses(library, 733)),
            (BY_TABLE, by_table(library)),
            (EDITION_822, addresses(library, 822)),
        ],
        Work::List822 => one(addresses(library, 822)),
        Work::List733 => vec![(PROVED, addresses(library, 733)), (BY_TABLE, by_table(library))],
        Work::Plain => one(ours(|text, _, table| library.plain(text, table)[2])),
        Work::Expand | Work::Openings(_) => one(expand(library)),
        Work::Touch => one(ours(|text, _, _| library.touch(text, text.len() - 1)[2])),
        Work::Split => one(ours(|text, _, table| library.split(text, table)[2])),
        Work::Date => one(ours(|text, _, _| library.date(text) as u64)),
        Work::Names(_) => one(ours(|text, _, _| looked_up(text, |name| library.known_name(name)))),
    }
}

fn expert() -> Read<'static> {
    ours(|text, _, table| expert::addresses(text, 0, text.len(), table)[2])
}

// What the independent reader has for a work; of addresses the expert is measured.
fn independent(work: Work) -> Read<'static> {
    match work {
        Work::Plain => ours(|text, _, table| reader::plain(text, 0, text.len(), table).count),
        Work::Touch => ours(|text, _, _| reader::touch(text, 0, text.len(), text.len() - 1, &mut [0; PATH])[2]),
        Work::Split => ours(|text, _, table| reader::split(text, table).count),
        Work::Date => ours(|text, _, _| reader::date(text, 0, text.len()).1 as u64),
        Work::Names(_) => ours(|text, _, _| looked_up(text, reader::known)),
        _ => ours(|text, store, table| {
            let (told, _) = reader::expand(text, 0, text.len(), store, table);
            told.number + told.count
        }),
    }
}

// A C library's function that counts the mailboxes of a list.
#[allow(unused_macros)]
macro_rules! library {
    ($function:ident) => {{
        extern "C" {
            fn $function(list: *mut u8, length: usize) -> usize;
        }
        Box::new(|text: &mut [u8], _: &[u8], _: &mut [u8]| unsafe { $function(text.as_mut_ptr(), text.len() - 1) })
    }};
}

// What a library does once, before anything is measured.
pub fn begin() {
    #[cfg(gmime)]
    {
        extern "C" {
            fn gmime_begin();
        }
        unsafe { gmime_begin() };
    }
}

// The C libraries that are here.
#[allow(unused_mut)]
fn libraries() -> Vec<(&'static str, Read<'static>)> {
    let mut here: Vec<(&'static str, Read)> = vec![];
    #[cfg(gmime)]
    here.push((GMIME, library!(gmime_addresses)));
    #[cfg(etpan)]
    here.push((ETPAN, library!(etpan_addresses)));
    #[cfg(cclient)]
    here.push((CCLIENT, library!(cclient_addresses)));
    #[cfg(cclient)]
    here.push((NO_ALARMS, library!(cclient_quiet_addresses)));
    here
}

// The readers of an input beside the proved ones, and what each is to find.
pub fn others(input: &Input) -> Vec<(&'static str, Read<'static>, usize)> {
    let mut all = match input.work {
        Work::Common(_) | Work::List733 => vec![(EXPERT, expert(), input.found)],
        Work::Date | Work::Names(_) | Work::Openings(_) => vec![(INDEPENDENT, independent(input.work), input.found)],
        Work::Plain | Work::Expand | Work::Touch | Work::Split if input.size == MIDDLE => {
            vec![(INDEPENDENT, independent(input.work), input.found)]
        }
        _ => vec![],
    };
    if input.work.for_libraries() {
        all.extend(libraries().into_iter().map(|(name, read)| (name, read, input.addresses)));
    }
    all
}
