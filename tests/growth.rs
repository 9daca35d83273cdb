//! How the time of each call grows, through the C interface: books of 16, 64, 256 and 1,024 terms with tables of two entries a term,
//! as a table and as a plot (docs/growth.svg); the inputs that are hardest on one part of the work; with each time its ratio to that of
//! Rust on rows, and beside them the times for copying the area's bytes once and for reading each of its words once. By hand:
//! `tests/run growth`. A figure is the best of many rounds, in microseconds a call.

mod bases;
mod fit;
mod lean;
mod library;
mod reference;
mod timing;

use bases::Base;
use reference::{perform, stored_bytes, Answer, Call, Perform, Random, Restore, Store, OFFICE};
use std::fmt::Write;
use std::hint::black_box;

const SIZES: [u32; 4] = [16, 64, 256, 1024];
const CALLS: [&str; 8] = ["opening", "adding", "fixing", "reading an entry", "reporting", "writing", "storing", "restoring"];
const COLOURS: [&str; 8] = ["#1b6ca8", "#c8553d", "#2e8b57", "#8a5a9e", "#b8860b", "#444444", "#17a2a2", "#d6568f"];
/// The two implementations are timed in turn, so that a slow moment of the machine falls on both.
const TURNS: usize = 4;
const ROUNDS: usize = 10;
const REPEATS: usize = 25;
const LONGEST_REPORT: usize = 47_620;

/// The best time of some work on an area, in microseconds.
fn best(start: &[u8], work: impl FnMut(&mut [u8])) -> f64 {
    timing::best(start, ROUNDS, REPEATS, work)
}

/// Of some choices the one that turns most entries, and a line that is accepted, if there are such.
fn steps(base: &Base) -> (Option<Call<'static>>, Option<Call<'static>>) {
    let terms = u32::from_le_bytes(base.area[4..8].try_into().unwrap());
    let answer = |call| perform(OFFICE, call, &mut base.area.clone(), &mut []);
    let pairs = (0..terms).flat_map(|v| [0, terms / 16, terms / 8 - 1, terms / 2, terms - 1].map(|t| (v, t))).filter(|&(v, t)| v != t);
    let choices = pairs.map(|(v, t)| Call::Bind { v, t }).filter(|&call| answer(call).refusal == 0);
    let choice = choices.max_by_key(|&call| answer(call).numbers[0]);
    let pairs = (0..terms.min(40)).flat_map(|i| [(terms - 2 - i, terms - 1 - i), (0, i), (i, i)]);
    let lines = pairs.filter(|&(l, r)| l < terms && r < terms).map(|(l, r)| Call::Add { l, r });
    (choice, lines.into_iter().find(|&call| answer(call).refusal == 0))
}

/// The best times of a call on an area and an output by the library and by Rust on rows, which accept it and leave the same.
fn times<W: Fn(&mut [u8], &mut [u8]) -> Answer>(what: &str, start: &[u8], both: [W; 2]) -> [f64; 2] {
    let results = both.each_ref().map(|work| {
        let (mut area, mut out) = (start.to_vec(), vec![0; LONGEST_REPORT]);
        (work(&mut area, &mut out), area, out)
    });
    assert_eq!(results[0].0.refusal, 0, "{what} is refused");
    assert!(results[0] == results[1], "{what}: Rust on rows differs");
    let mut out = vec![0; LONGEST_REPORT];
    let mut least = [f64::INFINITY; 2];
    for turn in 0..2 * TURNS {
        let time = best(start, |area| {
            black_box(both[turn % 2](area, black_box(&mut out)));
        });
        least[turn % 2] = time.min(least[turn % 2]);
    }
    least
}

/// The times of a call on the area of a base.
fn call_times(base: &Base, call: Call) -> [f64; 2] {
    let both = [library::perform as Perform, lean::perform];
    times(&format!("{call:?}"), &base.area, both.map(|perform| move |area: &mut [u8], out: &mut [u8]| perform(OFFICE, call, area, out)))
}

/// The times of storing a book, with the output for the list in the place of an area, and of restoring it.
fn archive_times(book: &[u8]) -> [[f64; 2]; 2] {
    let (stored, list) = &stored_bytes(OFFICE, book).unwrap();
    let stores = [library::store_book as Store, lean::store_book];
    let restores = [library::restore_book as Restore, lean::restore_book];
    [
        times("storing", &vec![0; list.len()], stores.map(|store| move |list: &mut [u8], out: &mut [u8]| store(OFFICE, book, out, list))),
        times("restoring", &[], restores.map(|restore| move |_: &mut [u8], out: &mut [u8]| restore(OFFICE, stored, list, out))),
    ]
}

/// The times of all calls on a base and its book, as far as they are accepted there.
fn all_times(base: &Base) -> [Option<[f64; 2]>; CALLS.len()] {
    let (choice, line) = steps(base);
    let open = Call::Open { capacity: base.capacity, book: &base.book };
    let entry = (base.area[8..12] != [0; 4]).then_some(Call::Entry { i: 0 });
    let [opening, adding, fixing, reading, reporting, writing] =
        [Some(open), line, choice, entry, Some(Call::Report), Some(Call::Write)].map(|call| call.map(|call| call_times(base, call)));
    let [storing, restoring] = archive_times(&base.book).map(Some);
    [opening, adding, fixing, reading, reporting, writing, storing, restoring]
}

/// The times to copy the area's bytes once, and to read each of its words once.
fn passes(base: &Base) -> [f64; 2] {
    let mut copy = base.area.clone();
    let copied = best(&base.area, |area| {
        copy.copy_from_slice(area);
        black_box(&copy);
    });
    let read = best(&base.area, |area| {
        let words = area.chunks_exact(4).map(|word| u32::from_le_bytes(word.try_into().unwrap()));
        black_box(words.fold(0, u32::wrapping_add));
    });
    [copied, read]
}

/// The library's time, and its ratio to that of Rust on rows.
fn shown(times: Option<[f64; 2]>) -> String {
    times.map_or("refused".to_string(), |[ours, lean]| format!("{ours:.1} ({:.2})", ours / lean))
}

/// Prints the row of a base, and gives the library's times.
fn row(what: &str, base: &Base) -> [Option<f64>; CALLS.len()] {
    let (times, [copied, read]) = (all_times(base), passes(base));
    let word = |i: usize| u32::from_le_bytes(base.area[4 * i..4 * i + 4].try_into().unwrap());
    print!("| {what} | {} | {} |", word(1), word(2));
    for time in times {
        print!(" {} |", shown(time));
    }
    println!(" {copied:.1} | {read:.1} |");
    times.map(|times| times.map(|[ours, _]| ours))
}

/// Where a size and a time stand in the plot, both by their logarithms.
fn point(terms: u32, time: f64) -> (f64, f64) {
    let across = (f64::from(terms) / 16.0).log2() / 6.0;
    let up = (time.log10() + 1.0) / 4.0;
    (70.0 + 480.0 * across, 370.0 - 340.0 * up)
}

fn plot(rows: &[[Option<f64>; CALLS.len()]]) -> String {
    let mut svg = String::from("<svg xmlns=\"http://www.w3.org/2000/svg\" width=\"720\" height=\"420\" font-family=\"sans-serif\" font-size=\"12\">\n");
    svg.push_str("<rect width=\"720\" height=\"420\" fill=\"white\"/>\n");
    for terms in SIZES {
        let (x, _) = point(terms, 1.0);
        writeln!(svg, "<line x1=\"{x}\" y1=\"30\" x2=\"{x}\" y2=\"370\" stroke=\"#ddd\"/><text x=\"{x}\" y=\"388\" text-anchor=\"middle\">{terms}</text>").unwrap();
    }
    for (time, label) in [(0.1, "0.1 µs"), (1.0, "1 µs"), (10.0, "10 µs"), (100.0, "100 µs"), (1000.0, "1 ms")] {
        let (_, y) = point(16, time);
        writeln!(svg, "<line x1=\"70\" y1=\"{y}\" x2=\"550\" y2=\"{y}\" stroke=\"#ddd\"/><text x=\"64\" y=\"{}\" text-anchor=\"end\">{label}</text>", y + 4.0).unwrap();
    }
    svg.push_str("<text x=\"310\" y=\"410\" text-anchor=\"middle\">terms of the book; two entries a term</text>\n");
    for call in 0..CALLS.len() {
        let points: Vec<String> = SIZES.iter().zip(rows).filter_map(|(&terms, row)| row[call].map(|time| point(terms, time))).map(|(x, y)| format!("{x:.1},{y:.1}")).collect();
        let y = 60 + 22 * call;
        writeln!(svg, "<polyline points=\"{}\" fill=\"none\" stroke=\"{}\" stroke-width=\"2\"/>", points.join(" "), COLOURS[call]).unwrap();
        writeln!(svg, "<line x1=\"570\" y1=\"{y}\" x2=\"592\" y2=\"{y}\" stroke=\"{}\" stroke-width=\"2\"/><text x=\"598\" y=\"{}\">{}</text>", COLOURS[call], y + 4, CALLS[call]).unwrap();
    }
    svg.push_str("</svg>\n");
    svg
}

fn main() {
    println!("| | terms | entries | {} | copying the area | reading its words |", CALLS.join(" | "));
    println!("|---|---|---|{}", "---|".repeat(CALLS.len() + 2));
    let rows: Vec<[Option<f64>; CALLS.len()]> = SIZES.iter().map(|&terms| row("two entries a term", &bases::measured(&mut Random(1024), terms, 2 * terms))).collect();
    print!("| times a doubling, at most | | |");
    for call in 0..CALLS.len() {
        let steepest = rows.windows(2).filter_map(|pair| Some((pair[1][call]? / pair[0][call]?).sqrt())).fold(0.0, f64::max);
        print!(" {steepest:.2} |");
    }
    println!(" | |");
    for (what, base) in bases::hard() {
        row(what, &base);
    }
    std::fs::write("docs/growth.svg", plot(&rows)).expect("docs/growth.svg is written");
}
