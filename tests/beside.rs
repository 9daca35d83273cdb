//! The calls that write numbers, of two libraries in one program: an older one, whose calls have `older_` before their names, and this one.
//! `tests/beside` builds it and runs its parts: `compare` makes both do random cases, `inputs` leaves in files what is measured, `once CALL
//! INPUT` makes one call of each on such a file, for callgrind, and `times` prints the instructions that were counted, and the times.

mod bases;
mod damage;
mod fit;
mod library;
mod lists;
#[path = "../target/tests/beside/library.rs"]
mod older;
#[path = "../target/tests/beside/fit.rs"]
mod older_fit;
mod reference;
mod timing;

use reference::{bytes_of, encode, random_book, stored_bytes, Answer, Call, CopyBook, Perform, Random, Restore, Store, OFFICE};
use std::fs;
use std::hint::black_box;
use timing::median;

const FOLDER: &str = "target/tests/beside";
const AREAS: usize = 40_000;
const BOOKS: usize = 60_000;
/// Short runs in turn, so that a slow moment of the machine falls on both libraries.
const RUNS: usize = 101;
const ROUNDS: usize = 2;
const CALLS: usize = 50;
/// No report and no book is longer.
const LONGEST: usize = 47_620;
const LONGEST_LIST: usize = 2_048;

struct Library {
    perform: Perform,
    copy_book: CopyBook,
    store_book: Store,
    restore_book: Restore,
}

const OLDER: Library =
    Library { perform: older::perform, copy_book: older::copy_book, store_book: older::store_book, restore_book: older::restore_book };
const NOW: Library =
    Library { perform: library::perform, copy_book: library::copy_book, store_book: library::store_book, restore_book: library::restore_book };

/// What a call is made on: a book, and beside it an area, a list or the output for a list.
struct Input {
    book: Vec<u8>,
    beside: Vec<u8>,
}

impl Library {
    /// Makes a call, by its word.
    fn make(&self, call: &str, book: &[u8], beside: &mut [u8], out: &mut [u8]) -> Answer {
        match call {
            "report" => (self.perform)(OFFICE, Call::Report, beside, out),
            "write" => (self.perform)(OFFICE, Call::Write, beside, out),
            "copy" => (self.copy_book)(OFFICE, book, out),
            "store" => (self.store_book)(OFFICE, book, out, beside),
            "restore" => (self.restore_book)(OFFICE, book, beside, out),
            _ => panic!("no call {call}"),
        }
    }

    /// The answer of a call, and all that it may have altered.
    fn result(&self, call: &str, input: &Input, length: usize) -> (Answer, Vec<u8>, Vec<u8>) {
        let (mut beside, mut out) = (input.beside.clone(), vec![0xEE; length]);
        let answer = self.make(call, &input.book, &mut beside, &mut out);
        (answer, beside, out)
    }
}

/// How many calls were compared, and how many of them were accepted.
#[derive(Default)]
struct Tally {
    calls: usize,
    accepted: usize,
}

impl Tally {
    /// Makes a call into an output that is long enough, one that is just long enough, one a byte too short and one of any length.
    fn compare(&mut self, random: &mut Random, call: &str, input: &Input) {
        let written = NOW.result(call, input, LONGEST).0.numbers[0] as usize;
        for length in [LONGEST, written, written.saturating_sub(1), random.place(2 * written + 2)] {
            let [older, now] = [OLDER, NOW].map(|library| library.result(call, input, length));
            assert!(older == now, "{call} differs on {:?} beside {:?}, into {length} bytes", input.book, input.beside);
            self.calls += 1;
            self.accepted += usize::from(now.0.refusal == 0);
        }
    }

    fn print(&self, what: &str) {
        println!("{what}: {} calls, {} of them accepted: the same answers and bytes", self.calls, self.accepted);
    }
}

/// Reports and books of areas, at the limits and small ones, some of them damaged.
fn compare_areas(random: &mut Random) {
    let mut tally = Tally::default();
    let mut large = bases::large(random).into_iter();
    for _ in 0..AREAS {
        let mut area = large.next().unwrap_or_else(|| bases::small(random)).area;
        if random.below(8) == 0 {
            random.pick(&[damage::alter, damage::edit])(random, &mut area);
        }
        let input = Input { book: Vec::new(), beside: area };
        for call in ["report", "write"] {
            tally.compare(random, call, &input);
        }
    }
    tally.print("reporting, and writing the book");
}

/// Books copied, stored and restored by a list, some books and lists damaged.
fn compare_books(random: &mut Random) {
    let mut tally = Tally::default();
    for _ in 0..BOOKS {
        let terms = lists::random_terms(random);
        let mut book = bytes_of(random, &terms);
        if random.below(8) == 0 {
            lists::blemish(random, &mut book);
        }
        let numbers = lists::random_list(random, &terms);
        let list = lists::list_bytes(random, &numbers);
        let room = vec![0xEE; random.pick(&[LONGEST_LIST, list.len()])];
        for (call, beside) in [("copy", Vec::new()), ("store", room), ("restore", list)] {
            tally.compare(random, call, &Input { book: book.clone(), beside });
        }
    }
    tally.print("copying, storing and restoring books");
}

/// What is measured: each call on areas and books of few and of many terms.
fn measured() -> Vec<(&'static str, String, Input)> {
    let mut rows = Vec::new();
    for (terms, capacity) in [(64, 128), (1024, 1024), (1024, 2048)] {
        let base = bases::measured(&mut Random(1024), terms, capacity);
        for call in ["report", "write"] {
            rows.push((call, format!("area-{terms}-{capacity}"), Input { book: Vec::new(), beside: base.area.clone() }));
        }
    }
    for terms in [64, 1024] {
        let book = encode(&random_book(&mut Random(1024), terms));
        let (stored, list) = stored_bytes(OFFICE, &book).unwrap();
        for (call, book, beside) in [("copy", &book, Vec::new()), ("store", &book, vec![0; list.len()]), ("restore", &stored, list)] {
            rows.push((call, format!("book-{terms}"), Input { book: book.clone(), beside }));
        }
    }
    rows
}

/// The file of an input, or of what belongs to it.
fn file(call: &str, name: &str, part: &str) -> String {
    format!("{FOLDER}/{call}-{name}.{part}")
}

fn write_inputs() {
    for (call, name, input) in measured() {
        fs::write(file(call, &name, "book"), &input.book).unwrap();
        fs::write(file(call, &name, "beside"), &input.beside).unwrap();
        println!("{call} {name}");
    }
}

fn once(call: &str, name: &str) {
    let input = Input { book: fs::read(file(call, name, "book")).unwrap(), beside: fs::read(file(call, name, "beside")).unwrap() };
    let refusals = [OLDER, NOW].map(|library| library.result(call, &input, LONGEST).0.refusal);
    assert_eq!(refusals, [0, 0], "{call} {name} is refused");
}

/// The instructions of a call that were counted, the older library's and this one's.
fn counted(call: &str, name: &str) -> [f64; 2] {
    let text = fs::read_to_string(file(call, name, "counts")).unwrap();
    let counts: Vec<f64> = text.lines().map(|line| line.parse().unwrap()).collect();
    counts.try_into().expect("two counts")
}

/// Of each library the least time of all runs is printed, and the median of the runs' ratios.
fn times() {
    println!("| call | input | instructions, older | now | ratio | microseconds, older | now | ratio |");
    for (call, name, input) in measured() {
        let mut out = vec![0; LONGEST];
        let mut best = |library: Library| {
            timing::best(&input.beside, ROUNDS, CALLS, |beside| {
                black_box(library.make(call, &input.book, beside, black_box(&mut out)));
            })
        };
        let runs: Vec<[f64; 2]> = (0..RUNS).map(|_| [OLDER, NOW].map(&mut best)).collect();
        let [older_time, time] = [0, 1].map(|i| runs.iter().map(|run| run[i]).fold(f64::INFINITY, f64::min));
        let ratio = median(runs.iter().map(|[older, now]| now / older).collect());
        let [older, now] = counted(call, &name);
        println!("| {call} | {name} | {older} | {now} | {:.3} | {older_time:.2} | {time:.2} | {ratio:.2} |", now / older);
    }
}

fn main() {
    let words: Vec<String> = std::env::args().skip(1).collect();
    match words.iter().map(String::as_str).collect::<Vec<&str>>()[..] {
        ["compare"] => {
            let seed = reference::first_seed(AREAS as u64);
            println!("first seed {seed}");
            let random = &mut Random(seed);
            compare_areas(random);
            compare_books(random);
        }
        ["inputs"] => write_inputs(),
        ["once", call, name] => once(call, name),
        ["times"] => times(),
        _ => panic!("compare, inputs, once CALL INPUT or times"),
    }
}
