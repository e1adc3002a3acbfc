// Measures the proved library beside an older build of it, other readers and the C libraries that are here.
//
// usage: bench check LIBRARY...       whether the expert reader and each library agree
//        bench times SECONDS TIMES LIBRARY [BEFORE]
//                                     best of many rounds, each round every reader on every input in turn, and of what
//                                     stands in TIMES already: the numbers of rounds, of lists and of openings, then the
//                                     nanoseconds of a call, one to a line
//        bench counts LIBRARY [BEFORE]
//                                     each reader once on every input, for a count of instructions
//        bench figures TIMES COUNTS OLDER LIBRARY [BEFORE]
//                                     the table of those times and counts, in the same order; COUNTS may be empty
//        bench targets TIMES COUNTS OLDER STACK LIBRARY [BEFORE]
//                                     the verdict on each target; STACK is what bench/stack.c prints
// LIBRARY and BEFORE are shared objects. OLDER is an older report, which has the figures before where there is no BEFORE.
use std::time::{Duration, Instant};

mod check;
mod expert;
mod inputs;
mod library;
#[path = "../tests/independent/reader.rs"]
mod reader;
mod readers;
mod report;
mod targets;

use inputs::{Input, Work};
use library::Library;
use readers::{Read, WITH_RECORDS};
use report::{Cost, Row};

// A short input is too short to be timed alone: it is read as often in a turn as makes this many bytes.
const BYTES_AT_ONCE: usize = 8192;

// The first turn finds a heap and caches as others left them.
const TURNS_IN_A_ROUND: usize = 4;

// A call that seeks names in a large store takes as long as thousands of others, so openings are timed by themselves.
const OPENINGS_SHARE: u64 = 2;

const STORE_RECORD: usize = 512;

// Room for as many records as a message can have, and for its plain text.
const TABLE: usize = 12 * 16_384;

// A reader at work on an input.
struct Task<'a> {
    input: &'a Input,
    reader: &'static str,
    // Whether it is of the older library.
    before: bool,
    read: Read<'a>,
    found: usize,
}

impl Task<'_> {
    // Copies of the text, with a NUL after each.
    fn copies(&self, times: usize) -> Vec<u8> {
        [&self.input.text[..], &[0]].concat().repeat(times)
    }

    // The calls of a turn.
    fn calls(&self) -> usize {
        if self.input.work.opens() { 1 } else { (BYTES_AT_ONCE / self.input.text.len()).max(1) }
    }

    // The nanoseconds of a call, each of which gets a fresh copy.
    fn time(&self, table: &mut [u8]) -> f64 {
        let calls = self.calls();
        let mut copies = self.copies(calls);
        let mut found = 0;
        let start = Instant::now();
        for text in copies.chunks_exact_mut(self.input.text.len() + 1) {
            found = (self.read)(text, &self.input.store, table);
        }
        let elapsed = start.elapsed().as_nanos() as f64;
        assert_eq!(found, self.found, "{} by {}", self.input.work.name(), self.reader);
        elapsed / calls as f64
    }

    // What a byte, an opening or a look-up costs.
    fn cost(&self, nanoseconds: f64, instructions: Option<f64>) -> Cost {
        let input = self.input;
        let parts = if input.work.by_byte() { input.text.len() } else { input.addresses } as f64;
        Cost { nanoseconds: nanoseconds / parts, instructions: instructions.map(|count| count / parts) }
    }

    fn row(&self, cost: Cost, before: Option<Cost>) -> Row {
        let input = self.input;
        Row {
            work: input.work,
            size: input.size,
            bytes: input.text.len(),
            stored: input.store.len() / STORE_RECORD,
            addresses: input.addresses,
            reader: self.reader,
            cost,
            before,
        }
    }

    // Whether another task is that of the older library.
    fn has_before(&self, other: &Task) -> bool {
        other.before && std::ptr::eq(self.input, other.input) && self.reader == other.reader
    }
}

// All readers must find the same mailboxes: records of kind 1 are what RFC 822 calls addresses.
fn check_mailboxes(task: &Task, table: &mut [u8]) {
    const KIND_MAILBOX: u8 = 1;
    if !task.input.work.for_libraries() || !WITH_RECORDS.contains(&task.reader) {
        return;
    }
    let records = (task.read)(&mut task.copies(1), &[], table);
    let mailboxes = table.chunks(12).take(records).filter(|record| record[0] == KIND_MAILBOX).count();
    assert_eq!(mailboxes, task.input.addresses, "mailboxes by {}", task.reader);
}

// The tasks of lists, dates and names, and those of openings, which come last.
fn parted<'a, 'b>(tasks: &'a [Task<'b>]) -> (&'a [Task<'b>], &'a [Task<'b>]) {
    tasks.split_at(tasks.partition_point(|task| !task.input.work.opens()))
}

// Betters what each task takes at best, in so many seconds: the rounds.
fn best(tasks: &[Task], least: &mut [f64], seconds: u64) -> usize {
    let mut table = vec![0; TABLE];
    let mut rounds = 0;
    let end = Instant::now() + Duration::from_secs(seconds);
    while rounds == 0 || Instant::now() < end {
        for (task, least) in tasks.iter().zip(&mut *least) {
            *least = (0..TURNS_IN_A_ROUND).map(|_| task.time(&mut table)).fold(*least, f64::min);
        }
        rounds += 1;
    }
    rounds
}

// The rounds of lists and of openings, and the times of all tasks.
struct Times {
    rounds: [usize; 2],
    least: Vec<f64>,
}

impl Times {
    fn load(file: &str) -> Times {
        let text = contents(file);
        let mut words = text.split_whitespace();
        let rounds = [(); 2].map(|_| words.next().and_then(|word| word.parse().ok()).expect("rounds"));
        Times { rounds, least: numbers(words) }
    }
}

fn times(tasks: &[Task], seconds: u64, file: &str) {
    let (lists, openings) = parted(tasks);
    lists.iter().for_each(|task| check_mailboxes(task, &mut vec![0; TABLE]));
    let mut times = match std::path::Path::new(file).exists() {
        true => Times::load(file),
        false => Times { rounds: [0; 2], least: vec![f64::MAX; tasks.len()] },
    };
    let (of_lists, of_openings) = times.least.split_at_mut(lists.len());
    times.rounds[0] += best(lists, of_lists, seconds);
    times.rounds[1] += best(openings, of_openings, seconds / OPENINGS_SHARE);
    let lines: String = times.least.iter().map(|time| format!("{time}\n")).collect();
    std::fs::write(file, format!("{} {}\n{lines}", times.rounds[0], times.rounds[1])).expect(file);
}

// Callgrind counts inside this function alone.
#[no_mangle]
#[inline(never)]
pub fn counted(read: &Read, text: &mut [u8], store: &[u8], table: &mut [u8]) -> usize {
    read(text, store, table)
}

// The first call of each pair does what is done once only.
fn counts(tasks: &[Task]) {
    let mut table = vec![0; TABLE];
    for task in tasks {
        (task.read)(&mut task.copies(1), &task.input.store, &mut table);
        assert_eq!(counted(&task.read, &mut task.copies(1), &task.input.store, &mut table), task.found);
    }
}

fn contents(file: &str) -> String {
    std::fs::read_to_string(file).expect(file)
}

fn numbers<'a>(words: impl Iterator<Item = &'a str>) -> Vec<f64> {
    words.map(|word| word.parse().expect("a number")).collect()
}

// What each task cost now and before, by the files of times, of counts and of older figures.
fn measured(tasks: &[Task], [times, counts, older]: [&str; 3]) -> Vec<Row> {
    let (times, counts) = (Times::load(times).least, numbers(contents(counts).lines()));
    let older = report::older(&contents(older));
    assert_eq!(times.len(), tasks.len(), "one time for each reader and input");
    assert!(counts.is_empty() || counts.len() == tasks.len(), "one count for each reader and input");
    let cost = |number: usize| tasks[number].cost(times[number], counts.get(number).copied());
    let rows = (0..tasks.len()).filter(|number| !tasks[*number].before).map(|number| {
        let before = tasks.iter().position(|other| tasks[number].has_before(other)).map(cost);
        let row = tasks[number].row(cost(number), before);
        match tasks.iter().any(|task| task.before) {
            true => row,
            false => Row { before: older.get(&row.key()).copied(), ..row },
        }
    });
    rows.collect()
}

fn figures(tasks: &[Task], files: [&str; 3]) {
    let [rounds, fewer] = Times::load(files[0]).rounds;
    println!("Times are the best of {rounds} rounds, of openings {fewer}; in each round every reader has {TURNS_IN_A_ROUND} turns at every input, and reads in a turn a short input as often as makes {BYTES_AT_ONCE} bytes.\n");
    report::figures(&measured(tasks, files));
}

// Every reader on every input: those of the library, the same of the older one, and the others.
fn tasks<'a>(inputs: &'a [Input], libraries: &'a [Library]) -> Vec<Task<'a>> {
    let mut tasks = vec![];
    for input in inputs {
        for (number, library) in libraries.iter().enumerate() {
            let proved = readers::proved(input.work, library).into_iter();
            tasks.extend(proved.map(|(reader, read)| Task { input, reader, before: number > 0, read, found: input.found }));
        }
        let others = readers::others(input).into_iter();
        tasks.extend(others.map(|(reader, read, found)| Task { input, reader, before: false, read, found }));
    }
    tasks
}

fn main() {
    let words: Vec<String> = std::env::args().skip(1).collect();
    let words: Vec<&str> = words.iter().map(String::as_str).collect();
    let files = words.iter().filter(|word| word.ends_with(".so"));
    let libraries: Vec<Library> = files.map(|file| Library::open(file)).collect();
    let works = [Work::all(), Work::openings()].concat();
    let sized = works.iter().flat_map(|work| work.sizes().iter().map(|size| inputs::input(*work, *size)));
    let inputs: Vec<Input> = sized.collect();
    let tasks = tasks(&inputs, &libraries);
    readers::begin();
    match words[..words.len() - libraries.len()] {
        ["check"] => libraries.iter().for_each(check::check),
        ["times", seconds, file] => times(&tasks, seconds.parse().expect("seconds"), file),
        ["counts"] => counts(&tasks),
        ["figures", times, counts, older] => figures(&tasks, [times, counts, older]),
        ["targets", times, counts, older, stack] => {
            targets::targets(&measured(&tasks, [times, counts, older]), &contents(stack));
        }
        _ => panic!("usage: see the head of bench/main.rs"),
    }
}
