//! Tests the independent reader by itself on the examples of the page of rules.

mod reader;
mod reader822;

use reader::Told;

struct Tally {
    run: u32,
    failed: u32,
}

impl Tally {
    fn same<T: PartialEq + std::fmt::Debug>(&mut self, what: &str, got: T, wanted: T) {
        self.run += 1;
        if got != wanted {
            self.failed += 1;
            println!("{what}: got {got:?}, wanted {wanted:?}");
        }
    }
}

fn told(number: u64, position: u64, count: u64) -> Told {
    Told { number, position, count }
}

/// Reads a body that is a whole message, with much room.
fn list(body: &[u8]) -> (Told, Vec<u8>) {
    let mut table = vec![0; 12 * 20_000];
    let answer = reader::addresses(body, 0, body.len(), &mut table);
    table.truncate(if answer.number == 0 { 12 * answer.count as usize } else { 0 });
    (answer, table)
}

/// Kind and depth of each record.
fn kinds(body: &[u8]) -> Vec<(u8, u8)> {
    list(body).1.chunks(12).map(|record| (record[0], record[1])).collect()
}

fn plain(body: &[u8]) -> Vec<u8> {
    let mut text = vec![0; 200_000];
    let answer = reader::plain(body, 0, body.len(), &mut text);
    text.truncate(answer.count as usize);
    text
}

fn date(body: &str) -> (u64, i64) {
    let (answer, value) = reader::date(body.as_bytes(), 0, body.len());
    (answer.number, value)
}

/// The thirteen checked examples.
fn checked_examples(tally: &mut Tally) {
    tally.same("1", list(b""), (told(0, 0, 0), vec![]));
    tally.same("2", list(b",,"), (told(0, 0, 0), vec![]));
    let mailbox = vec![1, 0, 0, 0, 0, 0, 0, 17, 0, 0, 0, 6];
    tally.same("3", list(b"Neuman@BBN-TENEXA"), (told(0, 0, 1), mailbox));
    tally.same("4", list(b"x").0, told(9, 1, 0));
    tally.same("5", kinds(b"\"x\""), vec![(4, 0)]);
    tally.same("6", list(b"a at b c").0, told(8, 7, 0));
    tally.same("7", list(b":A:;;").0, told(8, 3, 0));
    tally.same("8", kinds(b":,A:;;"), vec![(3, 0), (3, 1)]);
    tally.same("9", list(b":A: :B: x at H;;").0, told(8, 14, 0));
    tally.same("10", list(b"<a at b").0, told(9, 7, 0));
    tally.same("11", date("Monday, 21 Nov 77 1430-EST"), (0, 2_457_977_400));
    tally.same("12", date("1 Jan 1900 0000 +0100"), (0, -3_600));
    tally.same("13", date("1 Jan 1900 0000 A"), (0, 3_600));
}

/// The examples that are run by a program.
fn run_examples(tally: &mut Tally) {
    let nest = |n: usize| ["<".repeat(n), ">".repeat(n)].concat();
    tally.same("64 levels", list(nest(64).as_bytes()).0, told(0, 0, 64));
    tally.same("65 levels", list(nest(65).as_bytes()).0, told(10, 64, 0));
    tally.same("open quote", list(b"\"ab").0, told(5, 0, 0));
    tally.same("open comment", list(b"(").0, told(6, 0, 0));
    tally.same("wrong day name", date("Tue, 21 Nov 77 1430-EST"), (14, 0));
    tally.same("29 Feb 1900", date("29 Feb 1900 0000 Z"), (14, 0));
    tally.same("zone J", date("1 Jan 1900 0000 J"), (12, 0));
    let gourmets = b"Gourmets: Pompous Person <WhoZiWhatZit at Cordon-Bleu>,\r\n \
        Cooks: Childs at WGBH, Galloping Gourmet at\r\n ANT \
        (Australian National Television);,\r\n \
        Wine Lovers: Cheapie at Discount-Liquors,\r\n Port at Portugal;;,\r\n Jones at SEA";
    let depths: Vec<u8> = kinds(gourmets).iter().map(|k| k.1).collect();
    tally.same("Gourmets", depths, vec![0, 1, 2, 1, 2, 2, 1, 2, 2, 0]);
}

/// What the program is told to print for its one input.
fn program_example(tally: &mut Tally) {
    let message = b"To: Al at X\r\n";
    let mut fields = [0xA5; 16];
    tally.same("fields", reader::split(message, &mut fields), told(0, 0, 1));
    let wanted = [0, 0, 0, 2, 0, 3, 0, 11, 165, 165, 165, 165, 165, 165, 165, 165];
    tally.same("field record", fields, wanted);
    let mut table = [0; 12];
    tally.same("addresses", reader::addresses(message, 3, 11, &mut table), told(0, 0, 1));
    tally.same("address record", table, [1, 0, 0, 0, 0, 4, 0, 11, 0, 4, 0, 6]);
    tally.same("no room", reader::addresses(message, 3, 11, &mut table[..11]), told(11, 0, 1));
    tally.same("name", reader::known(b"rEPLY-tO"), 3);
    tally.same("reply", reader::reply(b" (\\)) \r\n ", b"x"), 1);
    tally.same("reply", reader::reply(b" , ", b"x"), 0);
}

/// Names looked up: their number, and how many names are compared.
fn known_names(tally: &mut Tally) {
    let cases: [(&[u8], (u32, u64)); 55] = [
        (b"To", (4, 1)),
        (b"tx", (0, 1)),
        (b"xo", (0, 0)),
        (b"", (0, 0)),
        (b"T", (0, 0)),
        (b"cc ", (0, 0)),
        (b"rEPLY-tO", (3, 1)),
        (b"Reply\rTo", (0, 1)),
        (b"\xE3\xE3", (0, 0)),
        (b"\x14o", (0, 0)),
        (b"Date", (1, 1)),
        (b"FROM", (2, 1)),
        (b"reply-to", (3, 1)),
        (b"tO", (4, 1)),
        (b"CC", (5, 1)),
        (b"bCC", (6, 1)),
        // As long as a known name that starts so.
        (b"Drom", (0, 1)),
        (b"fate", (0, 1)),
        (b"tc", (0, 1)),
        (b"Co", (0, 1)),
        (b"Bcd", (0, 1)),
        (b"Received", (0, 1)),
        (b"Reply To", (0, 1)),
        (b"ReplyMTo", (0, 1)),
        (b"R       ", (0, 1)),
        (b"D@te", (0, 1)),
        (b"d`te", (0, 1)),
        (b"T\x0F", (0, 1)),
        (b"T\xEF", (0, 1)),
        (b"c\xE3", (0, 1)),
        (b"B\0\0", (0, 1)),
        // As long as a known name, but none that starts so.
        (b"Tate", (0, 0)),
        (b"ccto", (0, 0)),
        (b"bc", (0, 0)),
        (b"ccc", (0, 0)),
        (b"To:", (0, 0)),
        (b" To", (0, 0)),
        (b"Deply-To", (0, 0)),
        (b"4o", (0, 0)),
        (b"\xD4o", (0, 0)),
        (b"\xF4o", (0, 0)),
        (b"#c", (0, 0)),
        (b"\x02cc", (0, 0)),
        (b"[cc", (0, 0)),
        (b"@ate", (0, 0)),
        (b"{rom", (0, 0)),
        (b"2eply-To", (0, 0)),
        // Shorter or longer than every known name that starts so.
        (b"c", (0, 0)),
        (b"Bc", (0, 0)),
        (b"Dat", (0, 0)),
        (b"Froms", (0, 0)),
        (b"Reply-T", (0, 0)),
        (b"Reply-To ", (0, 0)),
        (&[b't'; 258], (0, 0)),
        (&[b't'; 65_538], (0, 0)),
    ];
    for (name, wanted) in cases {
        let what = format!("name {}", name.escape_ascii());
        tally.same(&what, (reader::known(name), reader::compared(name)), wanted);
    }
}

/// Places of faults with levels full, and of typed addresses.
fn edges(tally: &mut Tally) {
    let full = "<".repeat(64);
    let at = |rest: &str| list([full.as_str(), rest].concat().as_bytes()).0;
    tally.same("full, mailbox and colon", at("x at y :"), told(8, 71, 0));
    tally.same("full, phrase and colon", at("x :"), told(10, 66, 0));
    tally.same("full, colon", at(":"), told(10, 64, 0));
    tally.same("full, word only", at("x"), told(9, 65, 0));
    let typed = ":A:".repeat(64);
    tally.same("64 typed", list([&typed, "\"q\""].concat().as_bytes()).0, told(0, 0, 65));
    tally.same("65 typed", list([&typed, ":A:\"q\""].concat().as_bytes()).0, told(10, 192, 0));
    tally.same("Men at Work", list(b"Men at Work: ;").0, told(8, 11, 0));
    tally.same("at as type", list(b":at:\"x\"").0, told(8, 1, 0));
    tally.same("typed kinds", kinds(b":iNCLUDE: :postal: <>"), vec![(5, 0), (6, 1), (2, 2)]);
    tally.same("comma owed", list(b":A:,").0, told(8, 3, 0));
    tally.same("quote then word", list(b"\"a\" b").0, told(9, 5, 0));
    tally.same("out of order", list_at(2, 1), told(13, 0, 0));
    tally.same("behind the message", list_at(0, 4), told(13, 0, 0));
    tally.same("too long", list(&[b' '; 32_769]).0, told(1, 32_768, 0));
}

/// What the levels of a body come to.
fn levels(tally: &mut Tally) {
    let of = |body: &str| {
        let found = reader::levels(body.as_bytes(), 0, body.len());
        (found.most, found.last, found.full_typed, found.ended)
    };
    let none = [false; 4];
    let angles = |n: usize| "<".repeat(n);
    tally.same("no levels", of("x at y"), (0, 0, false, none));
    tally.same("fault of scanning", of("<\""), (0, 0, false, none));
    tally.same("closed", of("<:;>"), (2, 0, false, none));
    tally.same("left open", of("<:;"), (2, 1, false, none));
    tally.same("refused", of("<:>,<<<"), (2, 2, false, none));
    tally.same("full", of(&[&angles(64), ":A:"].concat()), (64, 64, false, none));
    tally.same("full, typed", of(&[&angles(63), ":A:"].concat()), (64, 64, true, none));
    tally.same("full, nameless", of(&[&angles(63), ":A"].concat()), (64, 64, false, none));
    tally.same("one typed", of(":A:\"q\",<:A:\"q\">,:A:\"q\""), (2, 1, false, none));
    tally.same("by comma", of(":A: :B: x at y,"), (2, 0, false, [true, false, false, false]));
    tally.same("by semicolon", of("::A: :B:<>;"), (4, 0, false, [false, true, false, false]));
    tally.same("by angle", of("<:A: :B:\"q\">"), (3, 0, false, [false, false, true, false]));
    tally.same("by the end", of(":A: :B:\"q\""), (2, 2, false, [false, false, false, true]));
    tally.same("ended, then refused", of("<:A: :B:\"q\";"), (3, 3, false, none));
}

/// Every byte of the records of a nested list.
fn records(tally: &mut Tally) {
    let wanted = [
        [7, 0, 0, 0, 0, 0, 0, 11, 0, 1, 0, 2],
        [2, 1, 0, 1, 0, 4, 0, 11, 0, 4, 0, 5],
        [4, 2, 0, 2, 0, 7, 0, 10, 0, 7, 0, 10],
        [1, 0, 0, 0, 0, 13, 0, 16, 0, 13, 0, 14],
    ];
    tally.same("records", list(b":A: n <\"q\">, z@w").1, wanted.concat());
    let nameless = [[3, 0, 0, 0, 0, 1, 0, 6, 0, 1, 0, 1], [2, 1, 0, 1, 0, 3, 0, 5, 0, 3, 0, 3]];
    tally.same("nameless", list(b" : <>;").1, nameless.concat());
}

fn list_at(start: usize, end: usize) -> Told {
    reader::addresses(b"abc", start, end, &mut [])
}

fn scanning(tally: &mut Tally) {
    let cases: [(&[u8], Told); 14] = [
        (b"a.[b] \r\n\t\\ )", told(0, 0, 0)),
        (b"a\r\n", told(7, 1, 0)),
        (b"\"\\\r\n\"", told(0, 0, 0)),
        (b"\"a\rb", told(7, 2, 0)),
        (b"\"\\\xC8\"", told(3, 2, 0)),
        (b"(\"(\n\\))\x7F)", told(0, 0, 0)),
        (b" ((\")", told(6, 1, 0)),
        (b"x\x7F", told(7, 1, 0)),
        (b"\"\\", told(5, 0, 0)),
        (b"\"\\\r\n \"", told(0, 0, 0)),
        (b"x \"a\\\r\n ", told(5, 2, 0)),
        (b"\"\\\r\n\t\r", told(7, 5, 0)),
        (b"\"\\\r\n \\\"", told(5, 0, 0)),
        (b"\"\\\r\n \x80", told(3, 5, 0)),
    ];
    for (body, wanted) in cases {
        tally.same("scan", reader::scan(body, 0, body.len()), wanted);
    }
}

/// All that is told by going from each symbol's end to the next symbol.
fn walk(message: &[u8], start: usize, end: usize) -> Vec<reader::Step> {
    let mut told = Vec::new();
    let mut at = start;
    loop {
        let step = reader::next_symbol(message, at, end);
        told.push(step);
        if step[2] == 0 {
            return told;
        }
        at = step[4] as usize;
    }
}

/// Checks what is told of a body, by one scan and symbol by symbol, alone and
/// within a message: class, start, end, length of the meaning and apart of
/// each symbol, and last the fault or 0 0.
fn told_of(tally: &mut Tally, body: &[u8], symbols: &[[u64; 5]], fault: [u64; 2]) {
    let message = [b"(\" ", body, b")\""].concat();
    let (start, end) = (3, 3 + body.len());
    for shift in [0, 3] {
        let told = |s: &[u64; 5]| [0, 0, s[0], s[1] + shift, s[2] + shift, s[3], s[4]];
        let place = if fault[0] > 0 { fault[1] + shift } else { 0 };
        let last = [fault[0], place, 0, 0, 0, 0, 0];
        let wanted: Vec<_> = symbols.iter().map(told).chain([last]).collect();
        let (once, by_symbol) = if shift == 0 {
            (reader::steps(body, 0, body.len()), walk(body, 0, body.len()))
        } else {
            (reader::steps(&message, start, end), walk(&message, start, end))
        };
        let shown = String::from_utf8_lossy(body);
        tally.same(&format!("symbols of {shown:?}"), once, wanted.clone());
        tally.same(&format!("symbol by symbol {shown:?}"), by_symbol, wanted);
    }
}

/// Classes, and what stands apart.
fn told_apart(tally: &mut Tally) {
    let cases: [(&[u8], &[[u64; 5]]); 43] = [
        (b"", &[]),
        (b"  \t", &[]),
        (b"(c)", &[]),
        (b" \r\n (\\))\r\n\t", &[]),
        (b" a", &[[1, 1, 2, 1, 1]]),
        (b"a ", &[[1, 0, 1, 1, 0]]),
        (b"a(c)b", &[[1, 0, 1, 1, 0], [1, 4, 5, 1, 1]]),
        (b"<x", &[[4, 0, 1, 1, 0], [1, 1, 2, 1, 0]]),
        (b"< x", &[[4, 0, 1, 1, 0], [1, 2, 3, 1, 1]]),
        (b"a\r\n b", &[[1, 0, 1, 1, 0], [1, 4, 5, 1, 1]]),
        (b"a\r\n\tb", &[[1, 0, 1, 1, 0], [1, 4, 5, 1, 1]]),
        (b"\r\n\tx", &[[1, 3, 4, 1, 1]]),
        (b"a\r\n ", &[[1, 0, 1, 1, 0]]),
        (b"a at B", &[[1, 0, 1, 1, 0], [3, 2, 4, 2, 1], [1, 5, 6, 1, 1]]),
        (b"a@b", &[[1, 0, 1, 1, 0], [3, 1, 2, 1, 0], [1, 2, 3, 1, 0]]),
        (b"a @b", &[[1, 0, 1, 1, 0], [3, 2, 3, 1, 1], [1, 3, 4, 1, 0]]),
        (b"aT", &[[3, 0, 2, 2, 0]]),
        (b"AT(c)", &[[3, 0, 2, 2, 0]]),
        (b"att", &[[1, 0, 3, 3, 0]]),
        (b"a.b[1]", &[[1, 0, 6, 6, 0]]),
        (
            b"<>,;:",
            &[[4, 0, 1, 1, 0], [5, 1, 2, 1, 0], [6, 2, 3, 1, 0], [7, 3, 4, 1, 0], [8, 4, 5, 1, 0]],
        ),
        (
            b"< > , ; :",
            &[[4, 0, 1, 1, 0], [5, 2, 3, 1, 1], [6, 4, 5, 1, 1], [7, 6, 7, 1, 1], [8, 8, 9, 1, 1]],
        ),
        (b", ,,", &[[6, 0, 1, 1, 0], [6, 2, 3, 1, 1], [6, 3, 4, 1, 0]]),
        (b":A:", &[[8, 0, 1, 1, 0], [1, 1, 2, 1, 0], [8, 2, 3, 1, 0]]),
        (b")", &[[9, 0, 1, 1, 0]]),
        (b"\\", &[[9, 0, 1, 1, 0]]),
        (b")\\", &[[9, 0, 1, 1, 0], [9, 1, 2, 1, 0]]),
        (b") (c) )", &[[9, 0, 1, 1, 0], [9, 6, 7, 1, 1]]),
        (b"\\a", &[[9, 0, 1, 1, 0], [1, 1, 2, 1, 0]]),
        (b"\\(c)a", &[[9, 0, 1, 1, 0], [1, 4, 5, 1, 1]]),
        (b"\\\r\n a", &[[9, 0, 1, 1, 0], [1, 4, 5, 1, 1]]),
        (b"\\\"a\"", &[[9, 0, 1, 1, 0], [2, 1, 4, 1, 0]]),
        (b"a((b)c)d", &[[1, 0, 1, 1, 0], [1, 7, 8, 1, 1]]),
        (b"a(b)c)d", &[[1, 0, 1, 1, 0], [1, 4, 5, 1, 1], [9, 5, 6, 1, 0], [1, 6, 7, 1, 0]]),
        (b"a (b)c", &[[1, 0, 1, 1, 0], [1, 5, 6, 1, 1]]),
        (b"a(b) c", &[[1, 0, 1, 1, 0], [1, 5, 6, 1, 1]]),
        (b"(a)(b)c", &[[1, 6, 7, 1, 1]]),
        (b"(\\)a)b", &[[1, 5, 6, 1, 1]]),
        (b"(\")b", &[[1, 3, 4, 1, 1]]),
        (b"(\\\r\n )a", &[[1, 6, 7, 1, 1]]),
        (b"a\t(x)\r\n \tb", &[[1, 0, 1, 1, 0], [1, 9, 10, 1, 1]]),
        (b"a()@()b", &[[1, 0, 1, 1, 0], [3, 3, 4, 1, 1], [1, 6, 7, 1, 1]]),
        (
            b"Pompous Person <W at C>",
            &[
                [1, 0, 7, 7, 0], [1, 8, 14, 6, 1], [4, 15, 16, 1, 1], [1, 16, 17, 1, 0],
                [3, 18, 20, 2, 1], [1, 21, 22, 1, 1], [5, 22, 23, 1, 0],
            ],
        ),
    ];
    for (body, symbols) in cases {
        told_of(tally, body, symbols, [0, 0]);
    }
}

/// The length of a quoted-string's meaning.
fn told_lengths(tally: &mut Tally) {
    let cases: [(&[u8], u64); 26] = [
        (b"\"\"", 0),
        (b"\"at\"", 2),
        (b"\"(a)\"", 3),
        (b"\" \t \"", 3),
        (b"\"\x00\t\x7F\n\"", 4),
        (b"\"a\\\"b\\\\\"", 4),
        (b"\"\\a\\b\"", 2),
        (b"\"\\\\\"", 1),
        (b"\"\\\\\\\\\"", 2),
        (b"\"\\ \"", 1),
        (b"\"a\r\n b\"", 3),
        (b"\"\r\n \"", 1),
        (b"\"\r\n \r\n\t\"", 2),
        (b"\"a\\\r\n b\"", 5),
        (b"\"\\\r\n \"", 3),
        (b"\"\\\r\n\t\"", 3),
        (b"\"\\\r\n \\\r\n \"", 6),
        (b"\"\\\r\n \r\n \"", 4),
        (b"\"\\\\\r\n \"", 2),
        (b"\"\\\\\\\r\n\t\"", 4),
        (b"\"\\\r\"", 1),
        (b"\"\\\r\n\"", 2),
        (b"\"\\\r\\\n\"", 2),
        (b"\"\\\r\r\n \"", 2),
        (b"\"\\\r\n\r\n \"", 3),
        (b"\"\\\r\n \\\"\"", 4),
    ];
    for (body, length) in cases {
        let end = body.len() as u64;
        told_of(tally, body, &[[2, 0, end, length, 0]], [0, 0]);
        let between = [b"\r\n\t", body, b"x"].concat();
        let wanted = [[2, 3, 3 + end, length, 1], [1, 3 + end, 4 + end, 1, 0]];
        told_of(tally, &between, &wanted, [0, 0]);
    }
    told_of(tally, b"\"a\"\"bc\"", &[[2, 0, 3, 1, 0], [2, 3, 7, 2, 0]], [0, 0]);
    told_of(tally, b"\"\" \"\"", &[[2, 0, 2, 0, 0], [2, 3, 5, 0, 1]], [0, 0]);
    let mixed = [[2, 0, 3, 1, 0], [1, 3, 5, 2, 0], [2, 5, 8, 1, 0]];
    told_of(tally, b"\"a\"bc\"d\"", &mixed, [0, 0]);
}

/// Symbols before a fault, and the fault.
fn told_faults(tally: &mut Tally) {
    let a = [1, 0, 1, 1, 0];
    let cases: [(&[u8], &[[u64; 5]], [u64; 2]); 27] = [
        (b"\x00a", &[], [7, 0]),
        (b"\x80", &[], [3, 0]),
        (b"(\x80)", &[], [3, 1]),
        (b"(\r)", &[], [7, 1]),
        (b"(\")\"", &[], [5, 3]),
        (b"\"\\\"", &[], [5, 0]),
        (b"\"\\\r\n ", &[], [5, 0]),
        (b"\"\\\r\n", &[], [5, 0]),
        (b" (a(b)", &[], [6, 1]),
        (b"a\x80", &[a], [3, 1]),
        (b"a \xFF", &[a], [3, 2]),
        (b"a\r", &[a], [7, 1]),
        (b"a\r\n", &[a], [7, 1]),
        (b"a\r\nb", &[a], [7, 1]),
        (b"a\r\r\n b", &[a], [7, 1]),
        (b"a\n b", &[a], [7, 1]),
        (b"a\x7F", &[a], [7, 1]),
        (b"a\"b", &[a], [5, 1]),
        (b"a \"b", &[a], [5, 2]),
        (b"a(b", &[a], [6, 1]),
        (b"a ((b)", &[a], [6, 2]),
        (b"a \"b\r\"", &[a], [7, 4]),
        (b"a \"b\\\x80\"", &[a], [3, 5]),
        (b"a\"\\\\\r\n\"", &[a], [7, 4]),
        (b"\"a\"\x7F", &[[2, 0, 3, 1, 0]], [7, 3]),
        (b"\\\ra", &[[9, 0, 1, 1, 0]], [7, 1]),
        (b"a b,\t)\x80", &[a, [1, 2, 3, 1, 1], [6, 3, 4, 1, 0], [9, 5, 6, 1, 1]], [3, 6]),
    ];
    for (body, symbols, fault) in cases {
        told_of(tally, body, symbols, fault);
    }
}

/// The next symbol from any place up to any end.
fn told_from(tally: &mut Tally) {
    let end = [0; 7];
    let quoted: &[u8] = b"\"\\\r\n \"x";
    let cases: [(&[u8], usize, usize, reader::Step); 57] = [
        (b" a", 0, 2, [0, 0, 1, 1, 2, 1, 1]),
        (b" a", 1, 2, [0, 0, 1, 1, 2, 1, 0]),
        (b" a", 0, 1, end),
        (b" a", 0, 0, end),
        (b" a", 2, 2, end),
        (b"(c)a", 0, 4, [0, 0, 1, 3, 4, 1, 1]),
        (b"(c)a", 1, 4, [0, 0, 1, 1, 2, 1, 0]),
        (b"(c)a", 2, 4, [0, 0, 9, 2, 3, 1, 0]),
        (b"(c)a", 3, 4, [0, 0, 1, 3, 4, 1, 0]),
        (b"(c)a", 0, 3, end),
        (b"(c)a", 0, 2, [6, 0, 0, 0, 0, 0, 0]),
        (b"a(c)b", 0, 3, [0, 0, 1, 0, 1, 1, 0]),
        (b"a(c)b", 1, 3, [6, 1, 0, 0, 0, 0, 0]),
        (b"a(c)b", 1, 5, [0, 0, 1, 4, 5, 1, 1]),
        (b"a((c)b)", 2, 7, [0, 0, 1, 5, 6, 1, 1]),
        (b"a\r\n b", 1, 5, [0, 0, 1, 4, 5, 1, 1]),
        (b"a\r\n b", 2, 5, [7, 2, 0, 0, 0, 0, 0]),
        (b"a\r\n b", 3, 5, [0, 0, 1, 4, 5, 1, 1]),
        (b"a\r\n b", 4, 5, [0, 0, 1, 4, 5, 1, 0]),
        (b"a\r\n b", 1, 4, end),
        (b"a\r\n b", 1, 3, [7, 1, 0, 0, 0, 0, 0]),
        (b"a\r\n b", 1, 2, [7, 1, 0, 0, 0, 0, 0]),
        (b"a\r\n b", 0, 3, [0, 0, 1, 0, 1, 1, 0]),
        (b"\"a b\"", 1, 5, [0, 0, 1, 1, 2, 1, 0]),
        (b"\"a b\"", 2, 5, [0, 0, 1, 3, 4, 1, 1]),
        (b"\"a b\"", 4, 5, [5, 4, 0, 0, 0, 0, 0]),
        (b"\"a b\"", 0, 4, [5, 0, 0, 0, 0, 0, 0]),
        (b"cat", 0, 3, [0, 0, 1, 0, 3, 3, 0]),
        (b"cat", 1, 3, [0, 0, 3, 1, 3, 2, 0]),
        (b"cat", 0, 2, [0, 0, 1, 0, 2, 2, 0]),
        (b"att", 0, 2, [0, 0, 3, 0, 2, 2, 0]),
        (b"\\\"", 0, 2, [0, 0, 9, 0, 1, 1, 0]),
        (b"\\\"", 1, 2, [5, 1, 0, 0, 0, 0, 0]),
        (quoted, 0, 7, [0, 0, 2, 0, 6, 3, 0]),
        (quoted, 0, 6, [0, 0, 2, 0, 6, 3, 0]),
        (quoted, 0, 5, [5, 0, 0, 0, 0, 0, 0]),
        (quoted, 0, 4, [5, 0, 0, 0, 0, 0, 0]),
        (quoted, 1, 7, [0, 0, 9, 1, 2, 1, 0]),
        (quoted, 2, 7, [5, 5, 0, 0, 0, 0, 0]),
        (quoted, 2, 5, end),
        (quoted, 2, 4, [7, 2, 0, 0, 0, 0, 0]),
        (quoted, 3, 7, [7, 3, 0, 0, 0, 0, 0]),
        (quoted, 4, 7, [5, 5, 0, 0, 0, 0, 0]),
        (quoted, 6, 7, [0, 0, 1, 6, 7, 1, 0]),
        (b"a\x80", 0, 2, [0, 0, 1, 0, 1, 1, 0]),
        (b"a\x80", 1, 2, [3, 1, 0, 0, 0, 0, 0]),
        (b"a\x80", 0, 1, [0, 0, 1, 0, 1, 1, 0]),
        (b"a\x80", 2, 2, end),
        (b"\x80b", 1, 2, [0, 0, 1, 1, 2, 1, 0]),
        (b"abc", 3, 3, end),
        (b"abc", 2, 1, [13, 0, 0, 0, 0, 0, 0]),
        (b"abc", 0, 4, [13, 0, 0, 0, 0, 0, 0]),
        (b"abc", 4, 4, [13, 0, 0, 0, 0, 0, 0]),
        (b"abc", usize::MAX, 3, [13, 0, 0, 0, 0, 0, 0]),
        (b"abc", 0, usize::MAX, [13, 0, 0, 0, 0, 0, 0]),
        (b"", 0, 0, end),
        (b"", 0, 1, [13, 0, 0, 0, 0, 0, 0]),
    ];
    for (message, at, end, wanted) in cases {
        let what = format!("{:?} from {at} to {end}", String::from_utf8_lossy(message));
        tally.same(&what, reader::next_symbol(message, at, end), wanted);
    }
}

/// Messages as long as they may be, and longer ones.
fn told_long(tally: &mut Tally) {
    let from = |message: &[u8], at| reader::next_symbol(message, at, message.len());
    let repeated = |text: &str| text.repeat(16_383);
    let full = "a".repeat(32_768);
    tally.same("long atom", from(full.as_bytes(), 0), [0, 0, 1, 0, 32_768, 32_768, 0]);
    tally.same("its last byte", from(full.as_bytes(), 32_767), [0, 0, 1, 32_767, 32_768, 1, 0]);
    let taken = ["\"", &repeated("\\a"), "\""].concat();
    tally.same("all taken", from(taken.as_bytes(), 0), [0, 0, 2, 0, 32_768, 16_383, 0]);
    let plain = ["\"", &repeated("ab"), "\""].concat();
    tally.same("none taken", from(plain.as_bytes(), 0), [0, 0, 2, 0, 32_768, 32_766, 0]);
    let deep = [&repeated("("), &repeated(")"), "a,"].concat();
    tally.same("deep comment", from(deep.as_bytes(), 0), [0, 0, 1, 32_766, 32_767, 1, 1]);
    tally.same("within it", from(deep.as_bytes(), 1), [0, 0, 9, 32_765, 32_766, 1, 1]);
    let white = [&repeated(" \t"), "@ "].concat();
    tally.same("white space", from(white.as_bytes(), 0), [0, 0, 3, 32_766, 32_767, 1, 1]);
    let long = "a".repeat(32_769);
    for (at, end) in [(0, 1), (0, 0), (2, 1), (0, 32_769), (0, 32_770), (usize::MAX, 0)] {
        let told = reader::next_symbol(long.as_bytes(), at, end);
        tally.same("too long", told, [1, 32_768, 0, 0, 0, 0, 0]);
        tally.same("too long", reader::steps(long.as_bytes(), at, end), vec![told]);
    }
}

fn writing(tally: &mut Tally) {
    let cases: [(&[u8], &[u8]); 9] = [
        (b"a@b,,c  AT\td", b"a at b, c at d"),
        (b":,A:;,B:;;", b":, A:;, B:;;"),
        (b": A <>;", b": A <>;"),
        (b": \"A\":;;", b": \"A\":;;"),
        (b"n: A: a at b;;", b"n: A: a at b;;"),
        (b"<>,x y<\"q\" , >", b"<>, x y <\"q\">"),
        (b":Postal(c):\"\\a\\\"\n\"", b":Postal: \"a\\\"\\\n\""),
        (b":,;", b":;"),
        (b"\"a\r\n b\"", b"\"a b\""),
    ];
    for (body, wanted) in cases {
        tally.same("plain", plain(body), wanted.to_vec());
    }
}

/// Folds behind a backslash in a quoted-string: its meaning, and how it is
/// written, which reads back and writes back the same.
fn kept_line_ends(tally: &mut Tally) {
    let cases: [(&[u8], &[u8], &[u8]); 19] = [
        (b"\"a\\\r\n b\"", b"a\r\n b", b"\"a\\\r\\\n b\""),
        (b"\"a\\\\\r\n b\"", b"a\\ b", b"\"a\\\\ b\""),
        (b"\"a\\\\\\\r\n \"", b"a\\\r\n ", b"\"a\\\\\\\r\\\n \""),
        (b"\"a\\\r\r\n b\"", b"a\r b", b"\"a\\\r b\""),
        (
            b"\"\\\r\n\t\\\r\n\t\"", b"\r\n\t\r\n\t",
            b"\"\\\r\\\n\t\\\r\\\n\t\"",
        ),
        (b"\"\\\r\nb\"", b"\r\nb", b"\"\\\r\\\nb\""),
        (b"\"\\\r\n\"", b"\r\n", b"\"\\\r\\\n\""),
        (b"\"\\\r\n \"", b"\r\n ", b"\"\\\r\\\n \""),
        (b"\"\\\r\\\n \"", b"\r\n ", b"\"\\\r\\\n \""),
        (b"\"\\\r\n\r\n \"", b"\r\n ", b"\"\\\r\\\n \""),
        (b"\"\\\r\n \r\n\t\"", b"\r\n \t", b"\"\\\r\\\n \t\""),
        (b"\"\r\n \\\r\n\t\"", b" \r\n\t", b"\" \\\r\\\n\t\""),
        (b"\"\\\r\n \\\"\"", b"\r\n \"", b"\"\\\r\\\n \\\"\""),
        (b"\"\\\r\n \\\\\"", b"\r\n \\", b"\"\\\r\\\n \\\\\""),
        (b"\"\\\\\\\\\r\n\t\"", b"\\\\\t", b"\"\\\\\\\\\t\""),
        (b"\"\\\"\\\r\n \"", b"\"\r\n ", b"\"\\\"\\\r\\\n \""),
        (b"\"\\\n\\\r\n \"", b"\n\r\n ", b"\"\\\n\\\r\\\n \""),
        (b"(\\\r\n )\"\\\r\n\t\"", b"\r\n\t", b"\"\\\r\\\n\t\""),
        (b"\"(\\\r\n )\"", b"(\r\n )", b"\"(\\\r\\\n )\""),
    ];
    for (body, meaning, written) in cases {
        let of = |body: &[u8]| reader::meaning(body, 0, body.len());
        tally.same("meaning", of(body), Some(meaning.to_vec()));
        tally.same("written", plain(body), written.to_vec());
        tally.same("meaning of what is written", of(written), Some(meaning.to_vec()));
        tally.same("written again", plain(written), written.to_vec());
    }
    let record = vec![1, 0, 0, 0, 0, 0, 0, 10, 0, 0, 0, 8];
    tally.same("places", list(b"\"a\\\r\n b\"@c"), (told(0, 0, 1), record));
    let words = b"<\"\\\r\n \" x@\"\\\r\n\ty\">";
    let written = b"<\"\\\r\\\n \" x at \"\\\r\\\n\ty\">";
    tally.same("in a name and a node", plain(words), written.to_vec());
    let cut_off = b" \"a\\\r\n b\"";
    for end in 3..9 {
        let answer = reader::plain(cut_off, 1, end, &mut [0; 20]);
        tally.same("cut off", answer, told(5, 1, 0));
    }
    tally.same("not cut off", reader::plain(cut_off, 1, 9, &mut [0; 20]), told(0, 0, 9));
    for room in 7..11 {
        let answer = reader::plain(cut_off, 1, 9, &mut vec![0; room]);
        tally.same("room", answer, told(if room < 9 { 11 } else { 0 }, 0, 9));
    }
}

/// Which folds a body has behind a backslash.
fn folds(tally: &mut Tally) {
    let cases: [(&[u8], [u8; 4]); 14] = [
        (b"\"\\\r\n \"", [1, 0, 0, 0]),
        (b"\"\\\r\n\t\"", [0, 1, 0, 0]),
        (b"\"\\\\\r\n \"", [0, 0, 1, 0]),
        (b"\"\\\\\\\r\n\t\"", [0, 1, 0, 0]),
        (b"(\\\r\n )", [0, 0, 0, 1]),
        (b"((\")\\\r\n\t)", [0, 0, 0, 1]),
        (b"(\\\\\r\n )", [0; 4]),
        (b"\\\r\n ", [0; 4]),
        (b"\"\\\r\nb\"", [0; 4]),
        (b"\"\\\r\r\n b\"", [0; 4]),
        (b"\"\r\n \"", [0; 4]),
        (b"\"\\\r\n ", [0; 4]),
        (b"\"\\\r\n \\\r\n\t\"(\\\r\n )", [1, 1, 0, 1]),
        (b"\"\\\\\r\n\t\"\"\\\r\n \"", [1, 0, 1, 0]),
    ];
    for (body, wanted) in cases {
        let message = [b"\\", body].concat();
        let found = reader::folds(&message, 1, message.len());
        tally.same("folds", (body, found), (body, wanted.map(|times| times > 0)));
    }
}

/// Whether two bodies that are whole messages have the same addresses.
fn equal(one: &[u8], other: &[u8]) -> Option<bool> {
    reader::same_addresses((one, 0, one.len()), (other, 0, other.len()))
}

/// Bodies with the same addresses, and bodies that are not accepted.
fn equal_addresses(tally: &mut Tally) {
    let same: [(&[u8], &[u8]); 13] = [
        (b"a@b", b"a AT (x) b,"),
        (b"\"\\a\"@b", b"\"a\"@b"),
        (b"", b",(c),"),
        (b"\"a\r\n b\"", b"\"a b\""),
        (b"\"\\\r\n \"", b"\"\\\r\\\n \""),
        (b"\"\\\r\n\t\"", b"\"\\\r\\\n\\\t\""),
        (b"\"\\\r\n \"@b", b"\"\\\r\n\r\n \" at (c) b"),
        (b"\"\\\\\r\n \"", b"\"\\\\ \""),
        (b"\"\\\n\"", b"\"\n\""),
        (b"x\ty<a@b>", b"x(c)y <,a at b, ,>"),
        (b":,A:;;", b" : ,, A : ,; ;"),
        (b":A:\"q\"", b",:(c)A\r\n :\t\"\\q\""),
        (b"a@b@c at d", b"a at b at c@d"),
    ];
    for (one, other) in same {
        tally.same("same addresses", equal(one, other), Some(true));
    }
    let unread: [(&[u8], &[u8]); 6] = [
        (b"x", b"x"),
        (b"a@b", b"x"),
        (b"x", b"a@b"),
        (b"\"at\"@b", b"at@b"),
        (b":,A:;;", b":A:;;"),
        (b"a@b", b"a@b("),
    ];
    for (one, other) in unread {
        tally.same("no addresses", equal(one, other), None);
    }
    let part = |end| reader::same_addresses((b"(a@b)", 1, end), (b"a@b", 0, 3));
    tally.same("part of a message", part(4), Some(true));
    tally.same("out of order", part(0), None);
    tally.same("behind the message", part(6), None);
}

/// Bodies with other addresses, each asked both ways.
fn other_addresses(tally: &mut Tally) {
    let other: [(&[u8], &[u8]); 31] = [
        (b"a@b", b"\"a\"@b"),
        (b"a@b", b"a@\"b\""),
        (b"A@b", b"a@b"),
        (b"a@B", b"a@b"),
        (b"\"A\"", b"\"a\""),
        (b"\"\\A\"", b"\"\\a\""),
        (b"a@b@c", b"a@b"),
        (b"a@b@c", b"a@c@b"),
        (b"<a@b>", b":a@b;"),
        (b"n <>", b"n:;"),
        (b"n <>", b"<>"),
        (b"<>", b""),
        (b"<>", b"<>,<>"),
        (b":Include:\"x\"", b":INCLUDE:\"x\""),
        (b":Postal:\"x\"", b":Include:\"x\""),
        (b":A:\"x\"", b":a:\"x\""),
        (b":A: :B:\"x\"", b":A:\"x\""),
        (b":A:\"x\"", b":,A:\"x\";;"),
        (b"a b@c", b"ab@c"),
        (b"\"a b\"@c", b"\"a\" \"b\"@c"),
        (b"\"a b\"", b"\"a  b\""),
        (b"\"\"@a", b"\"\" \"\"@a"),
        (b"a@b,c@d", b"c@d,a@b"),
        (b"<a@b,c@d>", b"<a@b>,c@d"),
        (b"x:y:;,z:;;", b"x:y:z:;;;"),
        (b"\"\\\r\n \"", b"\" \""),
        (b"\"\\\r\n \"", b"\"\r\n \""),
        (b"\"\\\r\n \"", b"\"\\\r\n\t\""),
        (b"\"\\\r\n \"", b"\"\\\r\n\""),
        (b"\"\\\r\n \"", b"\"\\\\\r\n \""),
        (b"\"\\\r\n b\"@c", b"\"\\\r\nb\"@c"),
    ];
    for (one, two) in other {
        tally.same("other addresses", equal(one, two), Some(false));
        tally.same("other addresses", equal(two, one), Some(false));
        tally.same("itself", (equal(one, one), equal(two, two)), (Some(true), Some(true)));
    }
}

/// Where the comments of a body are, inner ones before outer ones.
fn comment_places(tally: &mut Tally) {
    let cases: [(&[u8], &[(usize, usize)]); 18] = [
        (b"a(x(y)z)@b", &[(3, 6), (1, 8)]),
        (b"\"(x)\"@b", &[]),
        (b"(\\(x))", &[(0, 5)]),
        (b"(a)(b", &[(0, 3)]),
        (b"(a)(b)", &[(0, 3), (3, 6)]),
        (b"(a(b)c", &[(2, 5)]),
        (b"(a)\x7F(b)", &[(0, 3)]),
        (b"(a)\"(b)", &[(0, 3)]),
        (b"(a(b)\rc)", &[(2, 5)]),
        (b"(a(b\x80)c)", &[]),
        (b"(a\\\x80(b))", &[]),
        (b"x\\(a)", &[(2, 5)]),
        (b"(\")\")", &[(0, 3)]),
        (b"\"\\\"(x)\"(y)", &[(7, 10)]),
        (b"(\\\r\n ()", &[(5, 7)]),
        (b"(\r\n )\r\n\t()", &[(0, 5), (8, 10)]),
        (b"(a)\r\n(b)", &[(0, 3)]),
        (b")(\\\\)", &[(1, 5)]),
    ];
    for (body, wanted) in cases {
        tally.same("comments", reader::comments(body, 0, body.len()), wanted.to_vec());
    }
    let within = |start, end| reader::comments(b"((a))", start, end);
    tally.same("comments of a part", within(1, 4), vec![(1, 4)]);
    tally.same("comments of a part", within(1, 5), vec![(1, 4)]);
    tally.same("comments of a part", within(0, 4), vec![(1, 4)]);
    tally.same("comments, out of order", within(3, 2), vec![]);
    tally.same("comments, behind the message", within(0, 6), vec![]);
    tally.same("comments, too long", reader::comments(&b"()".repeat(16_385), 0, 2), vec![]);
}

/// What is one comment, and nothing else, when it scans alone.
fn lone_comments(tally: &mut Tally) {
    let comments: [&[u8]; 12] = [
        b"()", b"(())", b"(\\(\\))", b"(\\\\)", b"(\")", b"(\n\x00\x7F)", b"(\\\r)", b"(\\\r\n)",
        b"(\r\n )", b"(\\\r\n )", b"(\\\r\n\\))", b"(\r\n\t\r\n )",
    ];
    for comment in comments {
        tally.same("comment", (comment, reader::is_comment(comment)), (comment, true));
    }
    let others: [&[u8]; 15] = [
        b"", b"(", b")", b"(\\)", b"((a)", b"(a)(b)", b"(a) ", b" (a)", b"(a)x", b"\"()\"", b"(\r)",
        b"(\r\n)", b"(\x80)", b"(\\\x80)", b"(\\\\\r)",
    ];
    for other in others {
        tally.same("no comment", (other, reader::is_comment(other)), (other, false));
    }
}

/// Touches a body that is a whole message: what is told, and the path.
fn touch(body: &[u8], place: usize) -> ([u64; 5], Vec<u64>) {
    let mut path = vec![777; 70];
    let told = reader::touch(body, 0, body.len(), place, &mut path);
    let filled = path.iter().take_while(|number| **number != 777).count();
    path.truncate(filled);
    (told, path)
}

/// What could have stood where a body is refused.
fn names_where_refused(tally: &mut Tally) {
    let angles = |n: usize, rest: &str| ["<".repeat(n), rest.to_string()].concat();
    let (word, at, less, more) = (1, 2, 4, 8);
    let (sign, comma, semicolon, colon, end) = (16, 32, 64, 128, 256);
    let cases: [(&str, u64, u64, u64); 18] = [
        ("a at b c", 8, 7, comma + sign + at + end),
        (":A:;;", 8, 3, word + less + colon),
        (":A", 9, 2, word + at + sign + less + colon),
        (&angles(63, ":A;"), 8, 65, word + at + sign + colon),
        (&angles(63, ":\"A\":"), 10, 67, comma + semicolon + sign + at + word),
        (&angles(65, ""), 10, 64, comma + more + word),
        ("a at at", 8, 5, word),
        (")", 8, 0, comma + colon + less + end + word),
        ("x", 9, 1, word + at + sign + less + colon),
        ("(c)\r\n ,(d) )", 8, 11, comma + colon + less + end + word),
        ("\"q\" ;", 8, 4, word + at + sign + less + colon + comma + end),
        ("<a@b", 9, 4, at + sign + comma + more),
        ("<>x", 8, 2, comma + end),
        (":<>>", 8, 3, comma + semicolon),
        (":", 9, 1, word + less + colon + comma + semicolon),
        (&angles(63, ":A:<"), 10, 66, word),
        (&angles(64, "x<"), 10, 65, word + at + sign),
        (&angles(64, "x@y<"), 8, 67, at + sign + comma + more),
    ];
    for (body, number, position, names) in cases {
        for place in [0, 1, 99, usize::MAX] {
            let wanted = ([number, position, 0, 0, names], vec![]);
            tally.same(body, touch(body.as_bytes(), place), wanted);
        }
    }
}

/// What a byte is, and the records around it.
fn touched_bytes(tally: &mut Tally) {
    let (white, comment, word, at, mark) = (1, 2, 3, 4, 5);
    let cases: [(&str, usize, u64, &[u64]); 35] = [
        ("g:<a@b>,;", 4, mark, &[2, 1, 0]),
        ("g:<a@b>,;", 7, mark, &[0]),
        ("g:<a@b>,;", 0, word, &[0]),
        ("g:<a@b>,;", 1, mark, &[0]),
        ("g:<a@b>,;", 2, mark, &[1, 0]),
        ("g:<a@b>,;", 5, word, &[2, 1, 0]),
        ("g:<a@b>,;", 6, mark, &[1, 0]),
        ("g:<a@b>,;", 8, mark, &[0]),
        ("(x) \"q\"", 0, comment, &[]),
        ("(x) \"q\"", 2, comment, &[]),
        ("(x) \"q\"", 3, white, &[]),
        ("(x) \"q\"", 4, word, &[0]),
        ("(x) \"q\"", 6, word, &[0]),
        ("x AT\r\n y", 1, white, &[0]),
        ("x AT\r\n y", 2, at, &[0]),
        ("x AT\r\n y", 3, at, &[0]),
        ("x AT\r\n y", 4, white, &[0]),
        ("x AT\r\n y", 5, white, &[0]),
        ("x AT\r\n y", 6, white, &[0]),
        ("\"at\"@b", 1, word, &[0]),
        ("\"at\"@b", 4, mark, &[0]),
        ("\"a\r\n b\"", 2, word, &[0]),
        ("\"a\r\n b\"", 3, word, &[0]),
        ("\"a\\\r\n b\"", 3, word, &[0]),
        ("\"a\\\r\n b\"", 5, word, &[0]),
        ("<(a\r\n b(\\)))>", 3, comment, &[0]),
        ("<(a\r\n b(\\)))>", 9, comment, &[0]),
        ("<(a\r\n b(\\)))>", 11, comment, &[0]),
        ("<(a\r\n b(\\)))>", 12, mark, &[0]),
        (":Include:\"(\\\"\"", 0, mark, &[0]),
        (":Include:\"(\\\"\"", 3, word, &[0]),
        (":Include:\"(\\\"\"", 8, mark, &[0]),
        (":Include:\"(\\\"\"", 10, word, &[1, 0]),
        (":Include:\"(\\\"\"", 12, word, &[1, 0]),
        (",a@b", 0, mark, &[]),
    ];
    for (body, place, what, path) in cases {
        let wanted = ([0, 0, path.len() as u64, what, 0], path.to_vec());
        tally.same(&format!("{body} at {place}"), touch(body.as_bytes(), place), wanted);
    }
}

/// Who answers first, and bodies in which nothing is touched.
fn touched_in_vain(tally: &mut Tally) {
    let many = |n: usize, place| touch("\"\",".repeat(n).as_bytes(), place);
    let nothing = |told| (told, vec![]);
    tally.same("own table", many(2_049, 1_000_000), nothing([11, 0, 2_049, 0, 0]));
    tally.same("own table full", many(2_048, 6_142), ([0, 0, 1, 3, 0], vec![2_047]));
    tally.same("own table full", many(2_048, 6_144), nothing([13, 0, 0, 0, 0]));
    tally.same("at the end", touch(b"a@b", 3), nothing([13, 0, 0, 0, 0]));
    tally.same("empty", touch(b"", 0), nothing([13, 0, 0, 0, 0]));
    tally.same("open quote", touch(b"a b \"", 0), nothing([5, 4, 0, 0, 0]));
    tally.same("open comment", touch(b") (", 0), nothing([6, 2, 0, 0, 0]));
    tally.same("stray control byte", touch(b")\n", 0), nothing([7, 1, 0, 0, 0]));
    tally.same("above 127", touch(b"a \x80", 0), nothing([3, 2, 0, 0, 0]));
    tally.same("too long", touch(&[b' '; 32_769], 0), nothing([1, 32_768, 0, 0, 0]));
}

/// A body within a message, and paths of every length.
fn touched_paths(tally: &mut Tally) {
    let within = |start, end, place, length| {
        let mut path = vec![777; length];
        (reader::touch(b"<<\"q\">>", start, end, place, &mut path), path)
    };
    let word = |count| [0, 0, count, 3, 0];
    tally.same("path exact", within(0, 7, 3, 3), (word(3), vec![2, 1, 0]));
    tally.same("path shorter", within(0, 7, 3, 2), (word(3), vec![2, 1]));
    tally.same("path of none", within(0, 7, 3, 0), (word(3), vec![]));
    tally.same("path longer", within(0, 7, 3, 5), (word(3), vec![2, 1, 0, 777, 777]));
    tally.same("part of a message", within(1, 6, 3, 3), (word(2), vec![1, 0, 777]));
    tally.same("before the start", within(1, 6, 0, 1), ([13, 0, 0, 0, 0], vec![777]));
    tally.same("at the end", within(1, 6, 6, 1), ([13, 0, 0, 0, 0], vec![777]));
    let open_quoted = [9, 5, 0, 0, 1 + 2 + 4 + 8 + 16 + 32 + 128];
    tally.same("refused part", within(1, 5, 3, 1), (open_quoted, vec![777]));
    tally.same("out of order", within(2, 1, 1, 1), ([13, 0, 0, 0, 0], vec![777]));
    tally.same("behind the message", within(0, 8, 1, 1), ([13, 0, 0, 0, 0], vec![777]));
    let deep = ["<".repeat(64), "\"q\"".to_string(), ">".repeat(64)].concat();
    let climb: Vec<u64> = (0..65).rev().collect();
    tally.same("64 levels", touch(deep.as_bytes(), 65), (word(65), climb));
}

/// A record of a store: the name padded with zeros, the list with spaces.
fn record(name: &[u8], list: &[u8]) -> Vec<u8> {
    let mut out = name.to_vec();
    out.resize(64, 0);
    out.extend_from_slice(list);
    out.resize(512, b' ');
    out
}

/// A store of such records.
fn store(records: &[(&str, &str)]) -> Vec<u8> {
    records.iter().flat_map(|(name, list)| record(name.as_bytes(), list.as_bytes())).collect()
}

/// Expands a body that is a whole message: the answer, the openings, and the
/// bytes that changed in a text with much room.
fn expand(body: &str, store: &[u8]) -> (Told, u64, String) {
    let mut text = vec![0xA5; 50_000];
    let (answer, openings) = reader::expand(body.as_bytes(), 0, body.len(), store, &mut text);
    let changed = text.iter().take_while(|byte| **byte != 0xA5).copied().collect();
    (answer, openings, String::from_utf8(changed).unwrap_or_default())
}

/// What is wanted of an expanded body, and of a refused one.
fn opened(text: &str, openings: u64) -> (Told, u64, String) {
    (told(0, 0, text.len() as u64), openings, text.to_string())
}

fn halted(number: u64, position: u64, openings: u64) -> (Told, u64, String) {
    (told(number, position, 0), openings, String::new())
}

/// The Include that most of these examples are made with.
const X: &str = ":Include: a at x";

/// So many angle brackets around a text.
fn angles(levels: usize, inner: &str) -> String {
    ["<".repeat(levels).as_str(), inner, &">".repeat(levels)].concat()
}

/// Where the addresses of a stored list go, X leading to the list.
fn joined_lists(tally: &mut Tally) {
    let cases = [
        ("u@v,:Include: a at x,w@y", "", "u at v, w at y"),
        ("u@v,:Include: a at x,w@y", " ,(c),, ", "u at v, w at y"),
        ("u@v,:Include: a at x", ",i@j,,k@l,", "u at v, i at j, k at l"),
        (": :Include: a at x, A: b@c;;", ",", ":, A: b at c;;"),
        (": :Include: a at x;", "A: i@j;", ":, A: i at j;;"),
        (": :Include: a at x;", "\"A\": i@j;", ": \"A\": i at j;;"),
        (": :Include: a at x;", "A B: i@j;", ": A B: i at j;;"),
        (": :Include: a at x, A:;;", "\"q\"", ": \"q\", A:;;"),
        ("n: :Include: a at x;", "A: i@j;", "n: A: i at j;;"),
        ("n: :Include: a at x;", "", "n:;"),
        (": :Include: a at x;", "", ":;"),
        ("p <:Include: a at x>", "", "p <>"),
        ("<:Include: a at x>", "i@j", "<i at j>"),
        (":Include: a at x", "", ""),
        (":Postal: <:Include: a at x>", "m@h, <>", ":Postal: <m at h, <>>"),
        (":Postal: g: :Include: a at x;", "m@h", ":Postal: g: m at h;"),
        ("g: <\"q\", :Include: a at x>, \"r\";", "m@h", "g: <\"q\", m at h>, \"r\";"),
        (":Include: a at x", ":Postal: \"\\\\\\a\"", ":Postal: \"\\\\a\""),
        (":Include: a at x", "\"\\\r\n b\", \"\r\n \"", "\"\\\r\\\n b\", \" \""),
        (":iNCLUDE:(c)\r\n a(d)@x(e)", "(f) m\r\n\t@h", "m at h"),
        (":Include: Our Lists <a at x>", "m@h", "m at h"),
        (":Include: \"Our\" <,a at x,,>", "m@h", "m at h"),
        (":Include: <u@v, a@x, a@x>", "m@h", "m at h"),
    ];
    for (body, list, wanted) in cases {
        tally.same(body, expand(body, &store(&[("a at x", list)])), opened(wanted, 1));
    }
    let unchanged = [
        ("", ""),
        (",", ""),
        ("a@x,,a@x", "a at x, a at x"),
        (":Includes: a at x", ":Includes: a at x"),
        (":Postal: a at x", ":Postal: a at x"),
        (": Include <a at x>;", ": Include <a at x>;"),
        (": \"Include\": a at x;;", ": \"Include\": a at x;;"),
    ];
    for (body, wanted) in unchanged {
        tally.same(body, expand(body, &store(&[("a at x", "m@h")])), opened(wanted, 0));
    }
}

/// Includes that lead to no stored list, X leading to one.
fn unled_includes(tally: &mut Tally) {
    let cases = [
        (":Include: u at u", 0),
        ("\"q\", :Include: u at u", 5),
        (":Include: a at x at x", 0),
        (":Include: A at x", 0),
        (":Include: \"a\" at x", 0),
        (":Include: <>", 0),
        (":Include: <u@u,v@v>", 0),
        (":Include: \"a at x\"", 0),
        (":Include: g: a at x;", 0),
        (":Include: :a at x;", 0),
        (":Include: <<a at x>>", 0),
        (":Include: <a at x,\"q\">", 0),
        (":Include: <\"q\",a at x>", 0),
        (":Include: <a at x, :Include: a at x>", 0),
        (":Include: :Postal: a at x", 0),
        (":Include: :Include: a at x", 0),
        (":Postal: :Include: a at x", 9),
        (":Other: :Include: a at x", 8),
        (":Postal: :Other: :Include: a at x", 17),
        ("<:Postal: :Include: a at x>", 10),
    ];
    let led = store(&[("a at x", "m@h")]);
    for (body, place) in cases {
        tally.same(body, expand(body, &led), halted(19, place, 0));
        let behind = [X, ",", body].concat();
        tally.same(&behind, expand(&behind, &led), halted(19, place + 17, 1));
        let stored = store(&[("b at y", body), ("a at x", "m@h")]);
        tally.same(body, expand("\"\", :Include: b at y", &stored), halted(19, 4, 1));
    }
    let complex = "D::Include:</main/std at Oh, \"<J>s\" at T>, :Postal::Include: N@O;";
    let all = [("/main/std at Oh", "a@b"), ("\"<J>s\" at T", "c@d"), ("N at O", "\"e\"")];
    tally.same("RFC 733, V.D.3", expand(complex, &store(&all)), halted(19, 51, 1));
}

/// Which record an Include leads to, by the names of the store.
fn stored_names(tally: &mut Tally) {
    let two = store(&[("a at x", "p@p"), ("b at y", "q@q"), ("a at x", "r@r")]);
    tally.same("lowest record", expand(X, &two), opened("p at p", 1));
    tally.same("first mailbox", expand(":Include:<b@y,a@x>", &two), opened("q at q", 1));
    tally.same("first that is named", expand(":Include:<c@z,b@y>", &two), opened("q at q", 1));
    let unopened = store(&[("b at y", "x"), ("a at x", "m@h"), ("a at x", "\"")]);
    tally.same("records not opened", expand(X, &unopened), opened("m at h", 1));
    let unlike: [&[u8]; 12] = [
        b"a at x ", b" a at x", b"a at  x", b"a@x", b"A at x", b"a at X", b"\"a\" at x", b"a at",
        b"a at xx", b"a at x\0 ", b"a\0 at x", b"\0a at x",
    ];
    for name in unlike {
        tally.same("another name", expand(X, &record(name, b"m@h")), halted(19, 0, 0));
    }
    let atom = |length: usize| "n".repeat(length - 5);
    let body = |length: usize| format!(":Include: {} at h", atom(length));
    let name = |length: usize| format!("{} at h", atom(length));
    let full = record(name(64).as_bytes(), b"m@h");
    tally.same("64 bytes of name", expand(&body(64), &full), opened("m at h", 1));
    tally.same("63 bytes of name", expand(&body(63), &full), halted(19, 0, 0));
    let cut = record(&name(65).as_bytes()[..64], b"m@h");
    tally.same("65 bytes of name", expand(&body(65), &cut), halted(19, 0, 0));
    let zero = record(b"\"\0\" at h", b"m@h");
    tally.same("zero within", expand(":Include: \"\0\" at h", &zero), opened("m at h", 1));
    tally.same("zero left out", expand(":Include: \"\" at h", &zero), halted(19, 0, 0));
    let quoted = record(b"\"a b\\\"\" c at \"at\"", b"m@h");
    let spelt = ":Include: \"\\a\r\n b\\\"\"\tc @ \"at\"";
    tally.same("quoted words", expand(spelt, &quoted), opened("m at h", 1));
    let two = store(&[("\"a b\" at x", "p@p"), ("\"a\\\r\\\n b\" at x", "q@q")]);
    for (name, wanted) in [
        ("\"a b\"", "p at p"), ("\"a\r\n b\"", "p at p"), ("\"a\\\r\n b\"", "q at q"),
        ("\"a\\\r\\\n b\"", "q at q"),
    ] {
        tally.same(name, expand(&format!(":Include: {name}@x"), &two), opened(wanted, 1));
    }
    let tab = ":Include: \"a\\\r\n\tb\"@x";
    tally.same("line end and HTAB", expand(tab, &two), halted(19, 0, 0));
    let kept = expand(":Include: \"a\\\r\n b\"@x", &two[..512]);
    tally.same("line end kept", kept, halted(19, 0, 0));
    let dropped = expand(":Include: \"a\r\n b\"@x", &two[512..]);
    tally.same("line end dropped", dropped, halted(19, 0, 0));
    let whole = record(b"a at x", b"m@h");
    tally.same("store of nothing", expand(X, b""), halted(19, 0, 0));
    tally.same("tail only", expand(X, &whole[..511]), halted(19, 0, 0));
    let tailed = [&whole[..], &whole[..511]].concat();
    tally.same("tail behind", expand(X, &tailed), opened("m at h", 1));
    let other = [&record(b"b at y", b"")[..], &whole[..511]].concat();
    tally.same("name in the tail", expand(X, &other), halted(19, 0, 0));
}

/// Stored lists that are refused, and lists that fill their record.
fn refused_lists(tally: &mut Tally) {
    let filled = |list: &str, last: &str| {
        [list, &" ".repeat(448 - list.len() - last.len()), last].concat()
    };
    let cases = [
        ("i@j (".to_string(), 6),
        ("\"".to_string(), 5),
        ("i@j\0".to_string(), 7),
        (filled("i@j", "\r\n"), 7),
        (filled("i@j", "\""), 5),
        (filled("i@j,", "\"\\\r\n"), 5),
        (filled("i@j,", "\"\\\r\n "), 5),
        ("x".to_string(), 9),
        ("a at b c".to_string(), 8),
        (";".to_string(), 8),
        (">,<".to_string(), 8),
        (angles(65, ""), 10),
        (angles(64, "\u{7F}"), 7),
        ("\u{A3}".to_string(), 3),
    ];
    for (list, number) in cases {
        let lists = store(&[("b at y", ""), ("c at z", ""), ("a at x", &list)]);
        let behind = ":Include:b@y,:Include:a@x";
        for (body, openings) in [(X, 0), ("<:Include: a at x>", 0), (behind, 1)] {
            tally.same(&list, expand(body, &lists), halted(number, 2, openings));
        }
        let led = store(&[("a at x", "i@j, :Include: b at y"), ("b at y", &list)]);
        tally.same(&list, expand(X, &led), halted(number, 1, 1));
    }
    let nul = [&record(b"b at y", b"")[..], &record(b"a at x", b"i@j")[..67], &[0; 445]].concat();
    tally.same("padded with NUL", expand(X, &nul), halted(7, 1, 0));
    for last in ["m@h", "\r\n ", "(c)"] {
        let list = filled("i@j,", last);
        let wanted = if last == "m@h" { "i at j, m at h" } else { "i at j" };
        tally.same("448 bytes", expand(X, &store(&[("a at x", &list)])), opened(wanted, 1));
    }
    let next = store(&[("a at x", &filled("i@j", "\"")), ("\" at x", "")]);
    tally.same("a list of its own", expand(X, &next), halted(5, 0, 0));
}

/// How often lists are opened, in which order, and who answers first.
fn budget(tally: &mut Tally) {
    let itself = store(&[("a at x", X)]);
    tally.same("itself", expand(X, &itself), halted(20, 0, 64));
    tally.same("itself, behind", expand("\"q\",<:Include: a at x>", &itself), halted(20, 5, 64));
    let many = |times: usize, last: &str| [&[X, ","].concat().repeat(times), last].concat();
    let lists = store(&[("a at x", ""), ("b at y", "x"), ("c at z", &angles(65, ""))]);
    tally.same("64 openings", expand(&many(64, ""), &lists), opened("", 64));
    tally.same("65 openings", expand(&many(65, ""), &lists), halted(20, 1_088, 64));
    tally.same("19 first", expand(&many(64, ":Include: u at u"), &lists), halted(19, 1_088, 64));
    tally.same("20 next", expand(&many(64, ":Include: b at y"), &lists), halted(20, 1_088, 64));
    tally.same("20 next", expand(&many(64, ":Include: c at z"), &lists), halted(20, 1_088, 64));
    tally.same("own number next", expand(&many(63, ":Include: b at y"), &lists), halted(9, 1, 63));
    let doubling: Vec<u8> = (0..6)
        .flat_map(|i| {
            let twice = format!(":Include:{0}@t, \"q\", :Include:{0}@t", i + 1);
            let list = if i < 5 { twice.as_str() } else { "" };
            record(format!("{i} at t").as_bytes(), list.as_bytes())
        })
        .collect();
    // 1 + 2 + 4 + 8 + 16 + 32 openings
    let quoted = ["\"q\""; 31].join(", ");
    tally.same("doubling", expand(":Include: 0 at t", &doubling), opened(&quoted, 63));
    let more = ":Include: 5 at t, :Include: 0 at t";
    tally.same("doubling, one more", expand(more, &doubling), opened(&quoted, 64));
    let most = [":Include: 5 at t, ", more].concat();
    tally.same("doubling, two more", expand(&most, &doubling), halted(20, 36, 64));
    let order = store(&[
        ("a at x", "1@t, :Include: b at y, 2@t, :Include: c at z, 3@t"),
        ("b at y", ": :Include: c at z;"),
        ("c at z", "\"c\", \"d\""),
    ]);
    let wanted = "1 at t, : \"c\", \"d\";, 2 at t, \"c\", \"d\", 3 at t, 4 at t, \"c\", \"d\"";
    let body = ":Include: a at x, 4@t, :Include: c@z";
    tally.same("depth first", expand(body, &order), opened(wanted, 5));
    let early = store(&[("a at x", ":Include: b at y"), ("b at y", "x")]);
    let body = "\"q\", :Include: a at x, :Include: u at u";
    tally.same("first in text order", expand(body, &early), halted(9, 1, 1));
}

/// Levels of the body and of a stored list, together.
fn joined_levels(tally: &mut Tally) {
    let one = |list: &str| store(&[("a at x", list), ("b at y", "m@h")]);
    let within = one("<:Include: a at x>");
    tally.same("deeper and deeper", expand("\"\", :Include: a at x", &within), halted(10, 4, 63));
    let typed = store(&[("a at x", ":P: <:Include: a at x>")]);
    tally.same("by two levels", expand(X, &typed), halted(10, 0, 31));
    let last = angles(64, "");
    tally.same("64 levels", expand(X, &one(&last)), opened(&last, 1));
    tally.same("64 levels in one", expand("<:Include: a at x>", &one(&last)), halted(10, 1, 0));
    tally.same("64 in a group", expand("g: :Include: a at x;", &one(&last)), halted(10, 3, 0));
    let own = store(&[("b at y", ""), ("c at z", ""), ("a at x", &angles(65, ""))]);
    tally.same("65 levels", expand(X, &own), halted(10, 2, 0));
    tally.same("own number first", expand("<:Include: a at x>", &own), halted(10, 2, 0));
    let deep = angles(63, X);
    tally.same("angle list unopened", expand(&deep, &one(":Include:<b at y>")), halted(10, 63, 0));
    let wanted = opened(&angles(63, "m at h"), 2);
    tally.same("mailbox unopened", expand(&deep, &one(":Include:b at y")), wanted);
    tally.same("no level", expand(&deep, &one("m@h")), opened(&angles(63, "m at h"), 1));
    tally.same("one level", expand(&deep, &one("<>")), opened(&angles(64, ""), 1));
    tally.same("two levels", expand(&deep, &one("m@h,<>,<:;>")), halted(10, 63, 0));
    tally.same("typed level", expand(&deep, &one(":P:<>")), halted(10, 63, 0));
    let nested = store(&[("a at x", &angles(62, ":Include: b at y")), ("b at y", "<<>>")]);
    let wanted = opened(&angles(64, ""), 2);
    tally.same("met inside", expand(",:Include: a at x", &nested), wanted);
    tally.same("met inside, one more", expand(",<:Include: a at x>", &nested), halted(10, 2, 1));
    tally.same("65 levels of a body", expand(&angles(64, X), &one("")), halted(10, 64, 0));
    tally.same("first list", expand(&format!("{X}, {deep}"), &one("<<>>")), halted(10, 81, 1));
}

/// Refused bodies, parts of a message, and rooms.
fn expanded_rooms(tally: &mut Tally) {
    let lists = store(&[("a at x", "m@h")]);
    tally.same("refused behind", expand(":Include: a at x, x", &lists), halted(9, 19, 0));
    tally.same("refused before", expand("x, :Include: u at u", &lists), halted(8, 1, 0));
    tally.same("scanning first", expand(":Include: u at u \"", &lists), halted(5, 17, 0));
    tally.same("too long", expand(&" ".repeat(32_769), &lists), halted(1, 32_768, 0));
    let message = b"zz<:Include: a at x,:Include: u at u>";
    let part = |start, end| reader::expand(message, start, end, &lists, &mut [0; 9]);
    tally.same("part of a message", part(3, 19), (told(0, 0, 6), 1));
    tally.same("place in a message", part(2, 37), (told(19, 20, 0), 1));
    tally.same("out of order", part(4, 3), (told(13, 0, 0), 0));
    tally.same("behind the message", part(3, 38), (told(13, 0, 0), 0));
    for room in 0..9 {
        let mut text = vec![7; room];
        let answer = reader::expand(X.as_bytes(), 0, 16, &lists, &mut text);
        let number = if room < 6 { 11 } else { 0 };
        tally.same("room", answer, (told(number, 0, 6), 1));
        let wanted = if room < 6 { vec![7; room] } else { [b"m at h", &[7; 9][6..room]].concat() };
        tally.same("text", text, wanted);
    }
    let none = reader::expand(X.as_bytes(), 0, 16, &record(b"a at x", b","), &mut []);
    tally.same("no room needed", none, (told(0, 0, 0), 1));
    let long = ["\"\",".repeat(10_000), X.to_string()].concat();
    let answer = reader::expand(long.as_bytes(), 0, long.len(), &lists, &mut [0; 40_005]);
    tally.same("longer than a message", answer, (told(11, 0, 40_006), 1));
}

/// Reads a body that is a whole message, by RFC 822, with much room.
fn list822(body: &[u8]) -> (Told, Vec<u8>) {
    let mut table = vec![0; 12 * 20_000];
    let answer = reader822::addresses(body, 0, body.len(), 822, &mut table);
    table.truncate(if answer.number == 0 { 12 * answer.count as usize } else { 0 });
    (answer, table)
}

/// Kind, depth and parent of each address, its text and that of its name;
/// or the refusal.
type Shown<'a> = Result<Vec<(u8, u8, usize, &'a str, &'a str)>, (u64, u64)>;

fn shown822(body: &str) -> Shown<'_> {
    let (answer, table) = list822(body.as_bytes());
    if answer.number != 0 {
        return Err((answer.number, answer.position));
    }
    let show = |record: &[u8]| {
        let at = |i: usize| usize::from(record[i]) * 256 + usize::from(record[i + 1]);
        (record[0], record[1], at(2), &body[at(4)..at(6)], &body[at(8)..at(10)])
    };
    Ok(table.chunks(12).map(show).collect())
}

/// Every byte of the records of lists by RFC 822.
fn records822(tally: &mut Tally) {
    tally.same("dots", list822(b"a.b@c.d").1, vec![1, 0, 0, 0, 0, 0, 0, 7, 0, 0, 0, 3]);
    let spaced = vec![1, 0, 0, 0, 0, 0, 0, 13, 0, 0, 0, 5];
    tally.same("dots with spaces", list822(b"a . b @ c . d").1, spaced);
    let group = [
        [3, 0, 0, 0, 0, 0, 0, 14, 0, 0, 0, 1],
        [1, 1, 0, 1, 0, 2, 0, 5, 0, 2, 0, 3],
        [2, 1, 0, 1, 0, 7, 0, 13, 0, 7, 0, 8],
        [1, 2, 0, 3, 0, 9, 0, 12, 0, 9, 0, 10],
    ];
    tally.same("group", list822(b"x:a@b,,y<c@d>;").1, group.concat());
    let route = [[2, 0, 0, 0, 0, 0, 0, 16, 0, 0, 0, 1], [1, 1, 0, 1, 0, 12, 0, 15, 0, 12, 0, 13]];
    tally.same("route", list822(b"x <,@a,,@b,:c@d>").1, route.concat());
    let long = [b"x:", &b"a@b,".repeat(8_191)[..], b";"].concat();
    let (answer, table) = list822(&long);
    tally.same("long group", answer, told(0, 0, 8_192));
    let last = [1, 1, 0, 1, 0x7F, 0xFA, 0x7F, 0xFD, 0x7F, 0xFA, 0x7F, 0xFB];
    tally.same("long group", table[12 * 8_191..].to_vec(), last.to_vec());
}

/// Lists by RFC 822, shown as texts.
fn lists822(tally: &mut Tally) {
    let cases: [(&str, &[(u8, u8, usize, &str, &str)]); 21] = [
        ("", &[]),
        (", (c),", &[]),
        ("at@at", &[(1, 0, 0, "at@at", "at")]),
        ("x:;", &[(3, 0, 0, "x:;", "x")]),
        ("\"x\" y : , ,;,", &[(3, 0, 0, "\"x\" y : , ,;", "\"x\" y")]),
        ("\"a\".b.\"c\"@d", &[(1, 0, 0, "\"a\".b.\"c\"@d", "\"a\".b.\"c\"")]),
        (" (c)a(d).(e)b(f)@(g)c(h)", &[(1, 0, 0, "a(d).(e)b(f)@(g)c", "a(d).(e)b")]),
        ("a@[]", &[(1, 0, 0, "a@[]", "a")]),
        ("a@[1].b.[2.3] ,c@d", &[(1, 0, 0, "a@[1].b.[2.3]", "a"), (1, 0, 0, "c@d", "c")]),
        ("a@[1\\[2]", &[(1, 0, 0, "a@[1\\[2]", "a")]),
        ("a@[\\]\\\\]", &[(1, 0, 0, "a@[\\]\\\\]", "a")]),
        ("a@[\"(]", &[(1, 0, 0, "a@[\"(]", "a")]),
        ("a@[\\\r\\\n\r\n \0\u{7F}]", &[(1, 0, 0, "a@[\\\r\\\n\r\n \0\u{7F}]", "a")]),
        ("a@[\\\r\n ]", &[(1, 0, 0, "a@[\\\r\n ]", "a")]),
        ("a@[\\\r\n\t\\]]", &[(1, 0, 0, "a@[\\\r\n\t\\]]", "a")]),
        ("\"\\\r\n \".b@c", &[(1, 0, 0, "\"\\\r\n \".b@c", "\"\\\r\n \".b")]),
        ("([)\"[\"@a", &[(1, 0, 0, "\"[\"@a", "\"[\"")]),
        ("at At<aT@AT>", &[(2, 0, 0, "at At<aT@AT>", "at At"), (1, 1, 1, "aT@AT", "aT")]),
        ("x<@[1].a:b.c@d>", &[(2, 0, 0, "x<@[1].a:b.c@d>", "x"), (1, 1, 1, "b.c@d", "b.c")]),
        ("x<,,@a,:b@c>", &[(2, 0, 0, "x<,,@a,:b@c>", "x"), (1, 1, 1, "b@c", "b")]),
        (
            "x:;,y:a@b;",
            &[(3, 0, 0, "x:;", "x"), (3, 0, 0, "y:a@b;", "y"), (1, 1, 2, "a@b", "a")],
        ),
    ];
    for (body, wanted) in cases {
        tally.same(body, shown822(body), Ok(wanted.to_vec()));
    }
}

/// Where lists by RFC 822 are refused, and by which number.
fn refused822(tally: &mut Tally) {
    let by_8 = [
        ("x:y:;;", 3), (":;", 0), ("a@\"b\"", 2), ("J. Smith <a@b>", 9), ("a@b@c", 3), ("a b@c", 3),
        ("[a]@b", 0), ("<a@b>", 0), ("x<,:c@d>", 3), ("x<>", 2), ("x<@a>", 4), ("x<@a:>", 5),
        ("x<:a@b>", 2), ("x<@a,b@c>", 5), ("x<@a@b:c@d>", 4), ("x<a@b,c@d>", 5), ("x<a@b:", 5),
        ("x<a:", 3), ("x<a b@c>", 4), ("x<a@b>y", 6), ("x<@a:y<", 6), ("x<@\"a\":", 3), ("x<,a", 3),
        (".a@b", 0), ("a..b@c", 2), ("a.@b", 2), ("a@.b", 2), ("a@b..c", 4), ("a@,", 2),
        ("a@b c", 4), ("a@b[c]", 3), ("a@[b]c", 5), ("a@[b]]", 5), ("a@b.\"c\"", 4), ("a.b c", 4),
        ("a.b:", 3), ("a.b<", 3), ("a b.", 3), ("\"a\",", 3), ("a@b:;", 3), ("x:a@b;c", 6),
        ("x:a@b;y:;", 6), ("x:;;", 3), ("x:y z:", 5), ("x:y<a@b>:", 8), ("x:>", 2), ("x<a@b;", 5),
        ("x:a@b>", 5), ("x<x:", 3), (";", 0), (">", 0), ("]", 0), ("a@b]", 3), ("\\", 0),
        ("a@\\b", 2), (")", 0), ("a[b]", 1), ("x [b] <a@b>", 2), ("x.[b]@c", 2), ("@a", 0),
        (":Include:\"x\"", 0), ("a@b,,.", 5), ("x:a@b,x:", 7), ("x:a@b c@d;", 6), ("a@b at c", 4),
        ("x <y <a@b>>", 5),
    ];
    for (body, place) in by_8 {
        tally.same(body, shown822(body), Err((8, place)));
    }
    let by_9 = [
        "a at b", "\"q\"", "a", "a.", "a.b", "a@", "a@b.", "a b", "x:", "x:a@b", "x:a", "x:,", "x<",
        "x<,", "x<@", "x<@a", "x<@a,", "x<@a:", "x<@a:b", "x<@a:b@c", "x<a", "x<a@b", "x:y<a@b>",
        "x:y", "a@b,c (d) ",
    ];
    for body in by_9 {
        tally.same(body, shown822(body), Err((9, body.len() as u64)));
    }
}

/// Faults of scanning by RFC 822, in scanning order.
fn scanning822(tally: &mut Tally) {
    let cases: [(&[u8], (u64, u64)); 36] = [
        (b"[", (23, 0)), (b"a@[1[2]", (23, 2)), (b"a b [", (23, 4)), (b") [", (23, 2)),
        (b"a@[\\]", (23, 2)), (b"a@[\\", (23, 2)), (b"a@[[\xFF", (23, 2)), (b"a@[\xFF[", (3, 3)),
        (b"a@[\r]", (7, 3)), (b"a@[[\r", (23, 2)), (b"a@[\r[", (7, 3)), (b"a@[\\\xFF]", (3, 4)),
        (b"a@[\r\n]", (7, 3)), (b"a@[\r\n ", (23, 2)), (b"a@[\r\n", (7, 3)), (b"a@[b\xFF", (3, 4)),
        (b"[\"", (23, 0)), (b"\"[", (5, 0)), (b"[(", (23, 0)), (b"([", (6, 0)),
        (b"\"[\"[", (23, 3)), (b"a[b]c[", (23, 5)), (b"a[[b", (23, 1)), (b"[\\[[", (23, 0)),
        (b"[] [a[ \"", (23, 3)), (b"] \x80", (3, 2)), (b"] \x7F", (7, 2)), (b"].\n", (7, 2)),
        (b"\"\r[", (7, 1)), (b"[\\\r\n \r", (7, 5)), (b"\x7F[", (7, 0)), (b"a.\xFF", (3, 2)),
        (b"[\\\\[]", (23, 0)), (b"[\\\r\n [", (23, 0)), (b"a@[\\\r\n", (23, 2)),
        (b"\"\\\r\n [", (5, 0)),
    ];
    for (body, (number, place)) in cases {
        tally.same("scanning by RFC 822", list822(body).0, told(number, place, 0));
    }
}

/// Editions and positions, and who answers first.
fn editions(tally: &mut Tally) {
    let read = |start, end, edition| {
        let mut table = [7; 13];
        let answer = reader822::addresses(b"zz a.b at [c] yy", start, end, edition, &mut table);
        (answer, table)
    };
    let mailbox = [1, 0, 0, 0, 0, 3, 0, 13, 0, 3, 0, 6, 7];
    tally.same("edition 733", read(2, 14, 733), (told(0, 0, 1), mailbox));
    tally.same("edition 822", read(2, 14, 822), (told(8, 7, 0), [7; 13]));
    tally.same("part of a message", read(2, 9, 822), (told(8, 7, 0), [7; 13]));
    tally.same("end of a part", read(2, 7, 822), (told(9, 7, 0), [7; 13]));
    tally.same("literal cut off", read(9, 12, 822), (told(23, 10, 0), [7; 13]));
    let others = [0, 1, 732, 734, 821, 823, 66_269, 66_358, (1 << 32) + 733, usize::MAX];
    for edition in others {
        for (start, end) in [(2, 14), (3, 2), (0, 17), (0, 0)] {
            tally.same("edition", read(start, end, edition), (told(21, 0, 0), [7; 13]));
        }
        let long = reader822::addresses(&[b' '; 32_769], 0, 0, edition, &mut []);
        tally.same("edition of a long message", long, told(1, 32_768, 0));
    }
    for edition in [733, 822] {
        for (start, end) in [(3, 2), (0, 17), (usize::MAX, 3)] {
            tally.same("positions", read(start, end, edition), (told(13, 0, 0), [7; 13]));
        }
        let long = reader822::addresses(&[b' '; 32_769], 1, 0, edition, &mut []);
        tally.same("long message", long, told(1, 32_768, 0));
    }
    let body = b"x:a@b,,y<c@d>;";
    for room in [0, 12, 36, 47, 48, 49, 60] {
        let mut table = vec![7; room];
        let answer = reader822::addresses(body, 0, 14, 822, &mut table);
        let number = if room < 48 { 11 } else { 0 };
        tally.same("room", answer, told(number, 0, 4));
        let written = if room < 48 { vec![] } else { list822(body).1 };
        tally.same("table", table, [&written[..], &[7; 60][written.len()..room]].concat());
    }
}

/// Examples of RFC 822: an address and its name; a phrase in front of an
/// address in brackets; and those that its own rules refuse.
fn examples822(tally: &mut Tally) {
    let one = [
        ("Neuman@BBN-TENEXA", "Neuman"),
        ("Wilt . (the  Stilt) Chamberlain@NBA.US", "Wilt . (the  Stilt) Chamberlain"),
        ("\":sysmail\"@  Some-Group. Some-Org", "\":sysmail\""),
        (
            "Muhammed.(I am  the greatest) Ali @(the)\r\n Vegas.WBA",
            "Muhammed.(I am  the greatest) Ali",
        ),
        ("Sam.Irving@Reg.Organization", "Sam.Irving"),
        ("/main/davis/people/standard@Other-Host", "/main/davis/people/standard"),
        ("\"Sam Irving\"@Other-Host", "\"Sam Irving\""),
        ("Al@[10.0.3.19]", "Al"),
    ];
    for (body, name) in one {
        tally.same(body, shown822(body), Ok(vec![(1, 0, 0, body, name)]));
    }
    let named = [
        ("Alfred Neuman <Neuman@BBN-TENEXA>", "Alfred Neuman", "Neuman@BBN-TENEXA", "Neuman"),
        ("George Jones<Group@Host>", "George Jones", "Group@Host", "Group"),
        (
            "\"George, Ted\" <Shared@Group.Arpanet>", "\"George, Ted\"", "Shared@Group.Arpanet",
            "Shared",
        ),
    ];
    for (body, name, inner, local) in named {
        let wanted = vec![(2, 0, 0, body, name), (1, 1, 1, inner, local)];
        tally.same(body, shown822(body), Ok(wanted));
    }
    let folk = "Important folk: \"<Jones>standard.dist.3\"@Tops-20-Host>;";
    let gourmet = "Galloping Gourmet@ANT.Down-Under";
    for (body, place) in [("Joe & J. Harvey <ddd @Org>", 7), (gourmet, 17), (folk, 53)] {
        tally.same(body, shown822(body), Err((8, place)));
    }
}

/// Kind, depth, parent and name of each address by RFC 822.
fn named822(body: &str) -> Vec<(u8, u8, usize, &str)> {
    let all = shown822(body).unwrap_or_default();
    all.iter().map(|address| (address.0, address.1, address.2, address.4)).collect()
}

/// Longer lists of RFC 822, with what its own rules refuse in them corrected.
fn long_examples822(tally: &mut Tally) {
    let harvey = "\"Joe & J. Harvey\" <ddd @Org>, JJV\r\n @ BBN";
    let wanted = [(2, 0, 0, "\"Joe & J. Harvey\""), (1, 1, 1, "ddd"), (1, 0, 0, "JJV")];
    tally.same(harvey, named822(harvey), wanted.to_vec());
    let gourmets = "Gourmets:  Pompous Person <WhoZiWhatZit@Cordon-Bleu>,\r\n \
        Childs@WGBH.Boston, Galloping.Gourmet@\r\n ANT.Down-Under (Australian National \
        Television),\r\n Cheapie@Discount-Liquors;,\r\n Cruisers:  Port@Portugal, Jones@SEA;,\r\n \
        Another@Somewhere.SomeOrg";
    let wanted = [
        (3, 0, 0, "Gourmets"),
        (2, 1, 1, "Pompous Person"),
        (1, 2, 2, "WhoZiWhatZit"),
        (1, 1, 1, "Childs"),
        (1, 1, 1, "Galloping.Gourmet"),
        (1, 1, 1, "Cheapie"),
        (3, 0, 0, "Cruisers"),
        (1, 1, 7, "Port"),
        (1, 1, 7, "Jones"),
        (1, 0, 0, "Another"),
    ];
    tally.same("Gourmets, 1982", named822(gourmets), wanted.to_vec());
    let folk = "Important folk:\r\n Tom Softwood <Balsa@Tree.Root>,\r\n \
        \"Sam Irving\"@Other-Host;,\r\n Standard Distribution:\r\n \
        /main/davis/people/standard@Other-Host,\r\n \"<Jones>standard.dist.3\"@Tops-20-Host;";
    let wanted = [
        (3, 0, 0, "Important folk"),
        (2, 1, 1, "Tom Softwood"),
        (1, 2, 2, "Balsa"),
        (1, 1, 1, "\"Sam Irving\""),
        (3, 0, 0, "Standard Distribution"),
        (1, 1, 5, "/main/davis/people/standard"),
        (1, 1, 5, "\"<Jones>standard.dist.3\""),
    ];
    tally.same("Important folk", named822(folk), wanted.to_vec());
}

fn splitting(tally: &mut Tally) {
    let cases: [(&[u8], Told); 13] = [
        (b"", told(0, 0, 0)),
        (b"\r\n", told(0, 0, 0)),
        (b"\rx", told(2, 0, 0)),
        (b"To: a\r\n\r", told(2, 7, 0)),
        (b"To: a\r", told(4, 6, 0)),
        (b"To: a\r\r\n", told(0, 0, 1)),
        (b"To: a\r\n\xC8", told(2, 7, 0)),
        (b"To: a\r\n ", told(4, 8, 0)),
        (b"To :\r\n\r\n\xC8", told(0, 0, 1)),
        (b"To", told(4, 2, 0)),
        (b"T\xC8:\r\n", told(2, 1, 0)),
        (b"T:\xC8\r\n", told(3, 2, 0)),
        (b" T:\r\n", told(2, 0, 0)),
    ];
    for (message, wanted) in cases {
        tally.same("split", reader::split(message, &mut [0; 80]), wanted);
    }
}

fn dates(tally: &mut Tally) {
    let cases = [
        ("x \"ab", (5, 0)),
        ("Tues, 22 Nov 77 1430-EST", (12, 0)),
        (" 1 Jan 1900 0000 Z (new year)", (0, 0)),
        ("1Jan1900 0000Z", (0, 0)),
        ("1Jan19000000Z", (12, 0)),
        ("1-jan-00 00:00:01-z", (0, 1)),
        ("1 Jan 1900 0000 + 0530", (0, -19_800)),
        ("32 Jan 1900 0000 J", (12, 0)),
        ("1 Jan 1899 0000 Z", (14, 0)),
        ("1 Jan 199 0000 Z", (12, 0)),
        ("1 Jan 1900 23:59:60 Z", (14, 0)),
        ("1 Jan 1900 0000 +9999", (14, 0)),
        ("1 Jan 1900 0000 +05:00", (12, 0)),
        ("1 Jan 1900 0000 0500", (12, 0)),
        ("1 Monday 1900 0000 Z", (12, 0)),
        ("1 Jan 1900 0000 NST", (0, 12_600)),
        ("1 Jan 1900 0000 Y", (0, -43_200)),
        ("2 Jan 1900 00:0001 M", (0, 86_400 + 43_201)),
        ("Thu, 29 Feb 2000 0000 GMT", (14, 0)),
        ("Tue, 29 Feb 2000 0000 GMT", (0, 3_160_771_200)),
    ];
    for (body, wanted) in cases {
        tally.same(body, date(body), wanted);
    }
}

fn main() {
    let mut tally = Tally { run: 0, failed: 0 };
    checked_examples(&mut tally);
    run_examples(&mut tally);
    program_example(&mut tally);
    known_names(&mut tally);
    edges(&mut tally);
    levels(&mut tally);
    records(&mut tally);
    scanning(&mut tally);
    told_apart(&mut tally);
    told_lengths(&mut tally);
    told_faults(&mut tally);
    told_from(&mut tally);
    told_long(&mut tally);
    writing(&mut tally);
    kept_line_ends(&mut tally);
    folds(&mut tally);
    equal_addresses(&mut tally);
    other_addresses(&mut tally);
    comment_places(&mut tally);
    lone_comments(&mut tally);
    names_where_refused(&mut tally);
    touched_bytes(&mut tally);
    touched_in_vain(&mut tally);
    touched_paths(&mut tally);
    joined_lists(&mut tally);
    unled_includes(&mut tally);
    stored_names(&mut tally);
    refused_lists(&mut tally);
    budget(&mut tally);
    joined_levels(&mut tally);
    expanded_rooms(&mut tally);
    records822(&mut tally);
    lists822(&mut tally);
    refused822(&mut tally);
    scanning822(&mut tally);
    editions(&mut tally);
    examples822(&mut tally);
    long_examples822(&mut tally);
    splitting(&mut tally);
    dates(&mut tally);
    println!("{} checks, {} failed", tally.run, tally.failed);
    std::process::exit(i32::from(tally.failed > 0));
}
