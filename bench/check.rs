// The expert reader against the library, on generated bodies: the same number, position, count and bytes of the table.
use crate::expert;
use crate::library::Library;

const BODIES: usize = 50_000;
const RECORD: usize = 12;
// Lengths around that up to which the library reads a body once, and around the limit.
const AROUND_ONCE: [usize; 8] = [1000, 1022, 1023, 1024, 1025, 1026, 1027, 1100];
const AROUND_LIMIT: [usize; 3] = [32_767, 32_768, 32_769];

// Each of these answers must come up; the others are of other functions.
const ANSWERS: [usize; 11] = [0, 1, 3, 5, 6, 7, 8, 9, 10, 11, 13];

// What lists are made of, and after it what makes most of them refused.
const PIECES: [&[u8]; 40] = [
    b"a", b"At", b"aT", b"@", b"<", b">", b":", b";", b",", b" ", b"\t", b"\r\n ", b"\r\n\t", b"\"q, r\"", b"\"\\\"\"", b"\"\"",
    b"\"\r\n \\\r\n\t\"", b"(c)", b"((c)\\))", b"(\r\n \\\r\n\t)", b"include", b"POSTAL", b":Include:", b":type:",
    b"mad.host", b"a@b", b"a at b", b"g:", b"<a@b>", b"atom-of-twenty-bytes", b"\r\n", b"\r", b"\n", b"\0", b"\x7f", b"\x80",
    b"\xff", b"\"", b"(", b")",
];
const HARMLESS: usize = 30;

// The bytes that matter to the scanner.
const BYTES: &[u8] = b"  \t\r\n\r\n \"\"()(()\\\\<>@,;:aAtT\0\x7f\x80";

// What opens a level, and what closes it.
const LEVELS: [[&[u8]; 2]; 5] = [[b"<", b">"], [b"a:", b";"], [b":", b";"], [b":a:", b""], [b"\"q\"(c)<", b">,"]];

// Numbers by the generator xorshift.
struct Random(u64);

impl Random {
    fn below(&mut self, limit: usize) -> usize {
        self.0 ^= self.0 << 13;
        self.0 ^= self.0 >> 7;
        self.0 ^= self.0 << 17;
        (self.0 >> 11) as usize % limit
    }

    fn one_of<T: Copy>(&mut self, all: &[T]) -> T {
        all[self.below(all.len())]
    }

    fn several<T: Copy>(&mut self, all: &[T], most: usize) -> Vec<T> {
        (0..self.below(most + 1)).map(|_| self.one_of(all)).collect()
    }

    // A list with some levels in it.
    fn list(&mut self, levels: usize) -> Vec<u8> {
        let addresses: Vec<Vec<u8>> = (0..self.below(5)).map(|_| self.address(levels)).collect();
        addresses.join(self.one_of(&[&b","[..], b", ", b" ,(c), ", b",\r\n "]))
    }

    fn address(&mut self, levels: usize) -> Vec<u8> {
        const WORDS: [&[u8]; 5] = [b"Al ", b"Neuman ", b"\"Sam, Irving\" ", b"(c) x\r\n ", b"\"\""];
        let name = self.several(&WORDS, 3).concat();
        match self.below(if levels == 0 { 2 } else { 5 }) {
            0 => b"\"q\"".to_vec(),
            1 => [&name[..], self.one_of(&[&b"a@b"[..], b"a At b", b"\"a\"at\"b\"@c"])].concat(),
            2 => [&name[..], b"<", &self.list(levels - 1), b">"].concat(),
            3 => [&name[..], b":", &self.list(levels - 1), b";"].concat(),
            _ => [self.one_of(&[&b":iNCLUDE:"[..], b": pOSTAL :", b":Included:"]), &self.address(levels - 1)].concat(),
        }
    }

    // A body with a piece put in, and often what stood there lost.
    fn spoiled(&mut self, mut body: Vec<u8>) -> Vec<u8> {
        let at = self.below(body.len() + 1);
        let lost = self.below(3).min(body.len() - at);
        body.splice(at..at + lost, self.one_of(&PIECES).iter().copied());
        body
    }

    // Levels around the limit, closed or almost.
    fn tower(&mut self) -> Vec<u8> {
        let [front, back] = self.one_of(&LEVELS);
        let levels = 62 + self.below(5);
        [front.repeat(levels), self.list(1), back.repeat(levels - self.below(10) / 9)].concat()
    }

    fn body(&mut self) -> Vec<u8> {
        match self.below(8) {
            0 => self.several(&PIECES, 12).concat(),
            1 => self.several(&PIECES[..HARMLESS], 12).concat(),
            2 | 3 => self.several(BYTES, 20),
            4 => self.tower(),
            5 => self.tower().repeat(1 + self.below(2)),
            6 => self.list(4),
            _ => {
                let list = self.list(4);
                self.spoiled(list)
            }
        }
    }

    fn message(&mut self) -> Vec<u8> {
        let body = self.body();
        let length = match self.below(500) {
            0 => self.one_of(&AROUND_LIMIT),
            1..50 => self.one_of(&AROUND_ONCE),
            _ => body.len(),
        };
        if length > body.len() { stretched(&body, length) } else { body }
    }

    // Mostly the whole message, else a part of it, or any positions, which may be out of order or behind it.
    fn positions(&mut self, length: usize) -> (usize, usize) {
        let (one, other) = (self.below(length + 2), self.below(length + 2));
        match self.below(8) {
            0 => (one, other),
            1 => (one.min(other), one.max(other).min(length)),
            _ => (0, length),
        }
    }

    // Mostly as much as any list of that length needs, else too little for many.
    fn room(&mut self, length: usize) -> usize {
        if self.below(3) == 0 { self.below(64) } else { 6 * length + 12 }
    }
}

// A body again and again, a comma after each, and spaces up to a length.
fn stretched(body: &[u8], length: usize) -> Vec<u8> {
    let mut all = [body, b","].concat().repeat(length / (body.len() + 1));
    all.resize(length, b' ');
    all
}

// The answer of both; stops where number, position, count or a byte of the table differ.
fn compared(library: &Library, message: &[u8], start: usize, end: usize, table: Vec<u8>) -> [usize; 3] {
    let (mut table, mut other) = (table.clone(), table);
    let told = library.addresses(message, start, end, 733, &mut table);
    let others = expert::addresses(message, start, end, &mut other);
    let text = message.escape_ascii();
    assert_eq!(others, told, "answer of the expert, on {text} from {start} to {end}, room {}", table.len());
    assert!(other == table, "table of the expert, on {text} from {start} to {end}, room {}", table.len());
    told.map(|number| number as usize)
}

pub fn check(library: &Library) {
    let mut random = Random(733);
    let mut seen = [0; 32];
    for number in 0..BODIES {
        let message = random.message();
        let (start, end) = random.positions(message.len());
        let room = random.room(message.len());
        let [answer, _, count] = compared(library, &message, start, end, vec![number as u8; room]);
        seen[answer] += 1;
        // A table that just fits, and one that just does not.
        if answer == 0 && count > 0 {
            compared(library, &message, start, end, vec![number as u8; RECORD * count]);
            compared(library, &message, start, end, vec![number as u8; RECORD * count - 1]);
        }
    }
    let missing: Vec<_> = ANSWERS.iter().filter(|answer| seen[**answer] == 0).collect();
    assert!(missing.is_empty(), "answers that never came up: {missing:?}");
    let seen: Vec<String> = ANSWERS.iter().map(|answer| format!("{answer} on {}", seen[*answer])).collect();
    println!("the expert and the library agree on {BODIES} generated bodies: answer {}", seen.join(", "));
}
