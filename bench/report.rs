// Figures, as text, and those of an older report.
use crate::inputs::Work;
use crate::readers::PROVED;
use std::collections::HashMap;

// What a byte costs, an opening or a look-up.
#[derive(Clone, Copy)]
pub struct Cost {
    pub nanoseconds: f64,
    // None where they were not counted.
    pub instructions: Option<f64>,
}

// What a reader costs on an input.
pub struct Row {
    pub work: Work,
    // The most bytes of such an input.
    pub size: usize,
    pub bytes: usize,
    // Records of the store.
    pub stored: usize,
    // Addresses that are read, stored lists that are opened, or names that are looked up.
    pub addresses: usize,
    pub reader: &'static str,
    pub cost: Cost,
    // What the older library took, or the older report tells; None where neither has it.
    pub before: Option<Cost>,
}

// What is measured, bytes and reader, by which a row is found in an older report.
pub type Key = (String, String, String);

impl Row {
    fn what(&self) -> String {
        match self.work.opens() {
            true => format!("openings, {}, store of {}", self.work.name(), self.stored),
            false => self.work.name(),
        }
    }

    // What is read, and by which of the proved readers if not the first.
    pub fn name(&self) -> String {
        let what = self.what();
        let short = ["addresses, ", "look-up, "].iter().find_map(|front| what.strip_prefix(front)).unwrap_or(&what);
        [short, self.reader.strip_prefix(PROVED).unwrap_or_default()].concat()
    }

    pub fn key(&self) -> Key {
        (self.what(), self.bytes.to_string(), self.reader.to_string())
    }

    pub fn is_proved(&self) -> bool {
        self.reader.starts_with(PROVED)
    }

    fn shown(&self, cost: Option<f64>) -> String {
        match cost {
            None => "-".to_string(),
            Some(cost) if self.work.opens() => format!("{cost:.0}"),
            Some(cost) => format!("{cost:.2}"),
        }
    }

    // A cost before and now, and its ratio to that of the first proved reader.
    fn cells(&self, proved: &Row, measure: impl Fn(&Cost) -> Option<f64>) -> String {
        let [before, now] = [self.before.as_ref().and_then(&measure), measure(&self.cost)].map(|cost| self.shown(cost));
        let ratio = measure(&self.cost).zip(measure(&proved.cost)).map(|(cost, proved)| format!("{:.2}", cost / proved));
        format!("{before} | {now} | {}", ratio.unwrap_or("-".to_string()))
    }
}

// The row of the same input and another reader.
pub fn beside<'a>(rows: &'a [Row], row: &Row, reader: &str) -> Option<&'a Row> {
    rows.iter().find(|other| other.work == row.work && other.size == row.size && other.reader == reader)
}

pub fn figures(rows: &[Row]) {
    println!("| what | bytes | addresses | reader | per | ns before | ns | ratio | instructions before | instructions | ratio |");
    println!("|---|--:|--:|---|---|--:|--:|--:|--:|--:|--:|");
    for row in rows {
        let proved = beside(rows, row, PROVED).expect("a proved reader");
        let addresses = if row.work.by_byte() && row.addresses > 0 { row.addresses.to_string() } else { "-".to_string() };
        let times = row.cells(proved, |cost| Some(cost.nanoseconds));
        let counts = row.cells(proved, |cost| cost.instructions);
        let per = row.work.per();
        println!("| {} | {} | {addresses} | {} | {per} | {times} | {counts} |", row.what(), row.bytes, row.reader);
    }
}

// The cells of a line of a table.
pub fn cells(line: &str) -> Vec<&str> {
    line.split('|').map(str::trim).skip(1).collect()
}

// The figures of an older report, by the names of its columns.
pub fn older(report: &str) -> HashMap<Key, Cost> {
    let mut lines = report.lines().map(cells).skip_while(|cells| cells.first() != Some(&"what"));
    let header = lines.next().unwrap_or_default();
    let column = |name| header.iter().position(|cell| *cell == name);
    let found = ["what", "bytes", "reader", "ns", "instructions"].map(column);
    let [Some(what), Some(bytes), Some(reader), Some(ns), Some(instructions)] = found else {
        return HashMap::new();
    };
    let rows = lines.take_while(|cells| cells.len() == header.len()).filter_map(|cells| {
        let cost = Cost { nanoseconds: cells[ns].parse().ok()?, instructions: cells[instructions].parse().ok() };
        Some(([what, bytes, reader].map(|cell| cells[cell].to_string()).into(), cost))
    });
    rows.collect()
}
