// The targets, each by its worst figure, as text.
use crate::inputs::{Work, LARGEST, MIDDLE, ONCE, SHORT_MAILBOXES, TWICE};
use crate::readers::{ETPAN, EXPERT, GMIME, NO_ALARMS, PROVED};
use crate::report::{beside, cells, Cost, Row};

const INSTRUCTIONS: f64 = 45.0;
const TO_EXPERT: f64 = 1.5;
const FASTER_THAN_CCLIENT: f64 = 4.0;
const FASTER_THAN_OTHERS: f64 = 8.0;
const LINEAR: f64 = 1.1;
const MORE_THAN_BEFORE: f64 = 1.05;
const STACK: f64 = 32_768.0;
// bench/stack.c stops where it is passed, and where 64 levels take more than 1.
const SMALL_STACK: f64 = 4095.0;

// The rows of the stack's table that the limit of 64 levels is for; touch has a table of 24,576 bytes on its stack.
const STACK_OF: [&str; 4] = ["addresses", "addresses, 822", "plain", "expand"];
const SECOND_READER: &str = "addresses_by_table";
const MOST_STACK: usize = 3;

enum Limit {
    AtMost(f64),
    AtLeast(f64),
}

// Something measured, by name and size.
struct Figure {
    name: String,
    bytes: usize,
    value: f64,
}

impl Limit {
    fn is_met(&self, value: f64) -> bool {
        match self {
            Limit::AtMost(limit) => value <= *limit,
            Limit::AtLeast(limit) => value >= *limit,
        }
    }

    fn worst<'a>(&self, figures: &'a [Figure]) -> Option<&'a Figure> {
        let order = |one: &&Figure, other: &&Figure| one.value.total_cmp(&other.value);
        match self {
            Limit::AtMost(_) => figures.iter().max_by(order),
            Limit::AtLeast(_) => figures.iter().min_by(order),
        }
    }

    // By how many percent of itself a value is away from it.
    fn off(&self, value: f64) -> f64 {
        let (Limit::AtMost(limit) | Limit::AtLeast(limit)) = self;
        (value / limit - 1.0) * 100.0
    }
}

impl Figure {
    fn of(row: &Row, value: Option<f64>) -> Option<Figure> {
        Some(Figure { name: row.name(), bytes: row.bytes, value: value? })
    }
}

// The least and most bytes at which something is measured, if they differ.
fn sizes(figures: &[Figure], name: &str) -> Option<(usize, usize)> {
    let bytes = || figures.iter().filter(|figure| figure.name == name).map(|figure| figure.bytes);
    let (least, most) = (bytes().min()?, bytes().max()?);
    (least < most).then_some((least, most))
}

fn place(figures: &[Figure], figure: &Figure) -> String {
    match sizes(figures, &figure.name) {
        Some(_) => format!("{} of {} bytes", figure.name, figure.bytes),
        None => figure.name.clone(),
    }
}

// The names of what is covered, each once.
fn covered(figures: &[Figure]) -> String {
    let mut names: Vec<&str> = figures.iter().map(|figure| figure.name.as_str()).collect();
    names.dedup();
    let sized = names.iter().map(|name| match sizes(figures, name) {
        Some((least, most)) => format!("{name} ({least} to {most} bytes)"),
        None => name.to_string(),
    });
    sized.collect::<Vec<_>>().join("; ")
}

fn shown(value: f64) -> String {
    if value < 1000.0 { format!("{value:.2}") } else { format!("{value:.0}") }
}

fn cell(value: Option<f64>) -> String {
    value.map_or("-".to_string(), shown)
}

// A line on a target: what it covers, its worst figure, and by how much each figure that misses it does.
fn target(what: &str, covers: &str, limit: Limit, figures: &[Figure]) {
    let Some(worst) = limit.worst(figures) else {
        return println!("| {what} | - | - | not measured |");
    };
    let missed = figures.iter().filter(|figure| !limit.is_met(figure.value));
    let missed = missed.map(|figure| format!("{} {:+.1}%", place(figures, figure), limit.off(figure.value)));
    let missed: Vec<String> = missed.collect();
    let verdict = if missed.is_empty() { "met".to_string() } else { format!("MISSED: {}", missed.join("; ")) };
    println!("| {what} | {covers} | {} ({}) | {verdict} |", shown(worst.value), place(figures, worst));
}

// The same, covering each figure by its name.
fn by_name(what: &str, limit: Limit, figures: impl Iterator<Item = Figure>) {
    let figures: Vec<Figure> = figures.collect();
    target(what, &covered(&figures), limit, &figures);
}

// What is measured of a cost.
type Measure = fn(&Cost) -> Option<f64>;
const TIME: Measure = |cost| Some(cost.nanoseconds);
const COUNT: Measure = |cost| cost.instructions;

fn to_before(row: &Row, measure: Measure) -> Option<f64> {
    Some(measure(&row.cost)? / measure(row.before.as_ref()?)?)
}

// How many times what a reader costs another one costs on the same input.
fn times_less(rows: &[Row], row: &Row, other: &str, measure: Measure) -> Option<f64> {
    Some(measure(&beside(rows, row, other)?.cost)? / measure(&row.cost)?)
}

fn to_expert(rows: &[Row], row: &Row, measure: Measure) -> Option<f64> {
    Some(1.0 / times_less(rows, row, EXPERT, measure)?)
}

// The rows of the first proved reader, of some works.
fn first(rows: &[Row], of: impl Fn(Work) -> bool) -> Vec<&Row> {
    rows.iter().filter(|row| row.reader == PROVED && of(row.work)).collect()
}

fn address_targets(rows: &[Row]) {
    let lists = first(rows, |work| matches!(work, Work::Common(_) | Work::List733));
    let counted = lists.iter().filter(|row| row.size == MIDDLE && row.name() != SHORT_MAILBOXES);
    let counted = counted.filter_map(|row| Figure::of(row, COUNT(&row.cost)));
    by_name(&format!("at most {INSTRUCTIONS} instructions a byte at 8 kB"), Limit::AtMost(INSTRUCTIONS), counted);
    for (name, measure) in [("instructions", COUNT), ("time", TIME)] {
        let what = format!("at most {TO_EXPERT} times the {name} of the expert's two passes");
        let figures = lists.iter().filter_map(|row| Figure::of(row, to_expert(rows, row, measure)));
        by_name(&what, Limit::AtMost(TO_EXPERT), figures);
    }
    faster_target(rows, &lists, "c-client without its system calls", NO_ALARMS, FASTER_THAN_CCLIENT);
    let common = first(rows, |work| work == Work::Common(0));
    faster_target(rows, &common, GMIME, GMIME, FASTER_THAN_OTHERS);
    faster_target(rows, &common, ETPAN, ETPAN, FASTER_THAN_OTHERS);
}

fn faster_target(rows: &[Row], lists: &[&Row], name: &str, library: &str, times: f64) {
    let figures = lists.iter().filter_map(|row| Figure::of(row, times_less(rows, row, library, TIME)));
    by_name(&format!("at least {times} times faster than {name}"), Limit::AtLeast(times), figures);
}

// The most stack of each function, from the table that bench/stack.c prints.
fn stack_targets(stack: &str) {
    let most = |function: &str| {
        let row = stack.lines().map(cells).find(|row| row.first() == Some(&function)).expect("a function's stack");
        Figure { name: format!("`{function}`"), bytes: 0, value: row[MOST_STACK].parse().expect("bytes") }
    };
    let what = format!("at most {STACK} bytes of stack, up to 64 levels");
    by_name(&what, Limit::AtMost(STACK), STACK_OF.into_iter().map(most));
    let what = format!("the second address reader: at most {SMALL_STACK} bytes of stack, at 64 levels as many as at 1");
    by_name(&what, Limit::AtMost(SMALL_STACK), [most(SECOND_READER)].into_iter());
}

// A byte of a body costs every proved function the same at 8 and at 32 kB. Fields are left out: those of 8 kB are stored once and
// those of 32 kB twice.
fn growth_targets(rows: &[Row]) {
    for (name, measure) in [("time", TIME), ("instructions", COUNT)] {
        let largest = rows.iter().filter(|row| row.is_proved() && row.size == LARGEST && row.work != Work::Split);
        let figures = largest.filter_map(|row| {
            let middle = rows.iter().find(|one| (one.work, one.size, one.reader) == (row.work, MIDDLE, row.reader))?;
            Figure::of(row, Some(measure(&row.cost)? / measure(&middle.cost)?))
        });
        let what = format!("growth is linear: a byte at 32 kB takes at most {LINEAR} times the {name} of one at 8 kB");
        by_name(&what, Limit::AtMost(LINEAR), figures);
    }
}

// No proved function takes more instructions than before, but for some percent.
fn before_target(rows: &[Row]) {
    let what = format!("at most {MORE_THAN_BEFORE} times the instructions before");
    let figures = rows.iter().filter(|row| row.is_proved()).filter_map(|row| Figure::of(row, to_before(row, COUNT)));
    let figures: Vec<Figure> = figures.collect();
    let covers = format!("every proved function on every input that was measured before, {} figures", figures.len());
    target(&what, &covers, Limit::AtMost(MORE_THAN_BEFORE), &figures);
}

// The lists of 8 kB one by one.
fn lists(rows: &[Row]) {
    println!("| list of 8 kB | instructions a byte | time to before | instructions to expert | time to expert | faster than c-client, no alarms | than GMime | than libetpan |");
    println!("|---|--:|--:|--:|--:|--:|--:|--:|");
    for row in first(rows, |work| matches!(work, Work::Common(_) | Work::List822 | Work::List733)) {
        if row.size != MIDDLE {
            continue;
        }
        let ratios = [
            COUNT(&row.cost),
            to_before(row, TIME),
            to_expert(rows, row, COUNT),
            to_expert(rows, row, TIME),
            times_less(rows, row, NO_ALARMS, TIME),
            times_less(rows, row, GMIME, TIME),
            times_less(rows, row, ETPAN, TIME),
        ];
        println!("| {} | {} |", row.name(), ratios.map(cell).join(" | "));
    }
}

// The look-ups of names, group by group, before and now.
fn look_ups(rows: &[Row]) {
    println!("| one look-up | instructions before | now | to before | ns before | now | to before |");
    println!("|---|--:|--:|--:|--:|--:|--:|");
    for row in first(rows, |work| matches!(work, Work::Names(_))) {
        let costs = [COUNT, TIME].map(|measure| {
            [row.before.as_ref().and_then(measure), measure(&row.cost), to_before(row, measure)].map(cell).join(" | ")
        });
        println!("| {} | {} |", row.name(), costs.join(" | "));
    }
}

// Where the two ways of reading meet.
fn meeting(rows: &[Row]) {
    let common = first(rows, |work| work == Work::Common(0));
    let told = [ONCE, TWICE].map(|size| {
        let row = common.iter().find(|row| row.size == size).expect("the common list");
        let count = COUNT(&row.cost).map_or(String::new(), |count| format!(" and {count:.2} instructions"));
        format!("{:.2} ns{count} at {} bytes", row.cost.nanoseconds, row.bytes)
    });
    println!("A body up to 1,024 bytes is read once, into a local array that is copied; a longer one is read twice. A byte of the common list costs {} and {}. Likewise `split` stores up to 256 fields once.", told[0], told[1]);
}

pub fn targets(rows: &[Row], stack: &str) {
    println!("| target | covers | worst | verdict |\n|---|---|---|---|");
    address_targets(rows);
    stack_targets(stack);
    growth_targets(rows);
    before_target(rows);
    println!();
    lists(rows);
    println!();
    look_ups(rows);
    println!();
    meeting(rows);
}
