//! The times of the calls at 1,024 terms, through the C interface and in Rust on the same bytes: opening, copying, storing and restoring
//! a book, and the other five calls at 1,024 and at 2,048 entries. By hand: `tests/run bench`. A figure is the median of several runs
//! and a run's the best of many rounds, in microseconds a call. The rows that are printed are those of docs/PERFORMANCE.md.

mod bases;
mod damage;
mod fit;
mod lean;
mod library;
mod lists;
mod reference;
mod timing;

use bases::Base;
use reference::{book_over, copy_book, encode, perform, restore_book, store_book, stored_bytes, Answer, Call, CopyBook, Perform, Random};
use reference::{Restore, Store, OFFICE};
use std::collections::BTreeMap;
use std::hint::black_box;
use timing::median;

const RUNS: usize = 5;
const ROUNDS: usize = 30;
const CALLS: usize = 50;
/// How often lean.rs is first compared with the second implementation on areas of which most are damaged, and on books and lists.
const COMPARED: usize = 4000;
/// No report is longer.
const LONGEST_REPORT: usize = 47_620;

/// A call on an area and an output.
type Work<'a> = &'a dyn Fn(&mut [u8], &mut [u8]) -> Answer;

/// The best time of a call over all rounds, in microseconds.
fn best(work: Work, start: &[u8], out: &mut [u8]) -> f64 {
    timing::best(start, ROUNDS, CALLS, |area| {
        black_box(work(area, black_box(out)));
    })
}

/// The answer, the area and the output of a call.
fn result(work: Work, start: &[u8], length: usize) -> (Answer, Vec<u8>, Vec<u8>) {
    let (mut area, mut out) = (start.to_vec(), vec![0; length]);
    let answer = work(&mut area, &mut out);
    (answer, area, out)
}

/// Prints the row of a call: the proved code, Rust on rows and Rust with vectors, which must be accepted and do the same.
fn row(what: &str, start: &[u8], length: usize, works: [Work; 3]) {
    let results = works.map(|work| result(work, start, length));
    assert_eq!(results[0].0.refusal, 0, "{what} is refused");
    assert!(results[0] == results[1] && results[0] == results[2], "{what}: the results differ");
    let mut out = vec![0; length];
    let runs: Vec<[f64; 3]> = (0..RUNS).map(|_| works.map(|work| best(work, start, &mut out))).collect();
    let column = |i: usize| median(runs.iter().map(|run| run[i]).collect());
    let ratios = |i: usize| runs.iter().map(move |run| run[0] / run[i]);
    let (least, greatest) = (ratios(1).fold(f64::INFINITY, f64::min), ratios(1).fold(0.0, f64::max));
    let (lean, plain) = (median(ratios(1).collect()), median(ratios(2).collect()));
    println!("| {what} | {:.1} | {:.1} | {lean:.2} ({least:.2} to {greatest:.2}) | {:.1} | {plain:.2} |", column(0), column(1), column(2));
}

fn call_row(what: &str, start: &[u8], call: Call) {
    let length = if matches!(call, Call::Report | Call::Write) { LONGEST_REPORT } else { 0 };
    let [ours, lean, plain] = [library::perform, lean::perform, perform as Perform].map(|perform| move |area: &mut [u8], out: &mut [u8]| perform(OFFICE, call, area, out));
    row(what, start, length, [&ours, &lean, &plain]);
}

fn copy_row(book: &[u8]) {
    let [ours, lean, plain] =
        [library::copy_book, lean::copy_book, copy_book as CopyBook].map(|copy| move |_: &mut [u8], out: &mut [u8]| copy(OFFICE, book, out));
    row("decoding and encoding", &[], book.len(), [&ours, &lean, &plain]);
}

/// Storing, with the output for the list in the place of an area.
fn store_row(book: &[u8]) {
    let (stored, list) = stored_bytes(OFFICE, book).unwrap();
    let [ours, lean, plain] = [library::store_book, lean::store_book, store_book as Store]
        .map(|store| move |list: &mut [u8], out: &mut [u8]| store(OFFICE, book, out, list));
    row("storing", &vec![0; list.len()], stored.len(), [&ours, &lean, &plain]);
}

fn restore_row(book: &[u8]) {
    let (stored, list) = &stored_bytes(OFFICE, book).unwrap();
    let [ours, lean, plain] = [library::restore_book, lean::restore_book, restore_book as Restore]
        .map(|restore| move |_: &mut [u8], out: &mut [u8]| restore(OFFICE, stored, list, out));
    row("restoring", &[], book.len(), [&ours, &lean, &plain]);
}

/// The calls on a table that is nearly full; reading an entry takes the time of the test of an area. Of the choices of a constant,
/// the one that turns the most entries is measured.
fn table_rows(base: &Base) {
    let words = |i: usize| u32::from_le_bytes([0, 1, 2, 3].map(|byte| base.area[4 * i + byte]));
    let (entries, lines) = (words(2), words(3));
    let choices = (0..64).flat_map(|v| (64..128).map(move |t| Call::Bind { v, t }));
    let turned = |call: &Call| perform(OFFICE, *call, &mut base.area.clone(), &mut []).numbers[0];
    let choice = choices.max_by_key(turned).unwrap();
    let at = format!("{entries} entries, {lines} lines, capacity {}", base.capacity);
    call_row(&format!("reading an entry: {at}"), &base.area, Call::Entry { i: 0 });
    call_row(&format!("adding a line: {at}"), &base.area, Call::Add { l: 1022, r: 1023 });
    call_row(&format!("fixing a choice ({} turned): {at}", turned(&choice)), &base.area, choice);
    call_row(&format!("reporting: {at}"), &base.area, Call::Report);
    call_row(&format!("writing the book: {at}"), &base.area, Call::Write);
}

/// Rust on rows makes the same tests: it agrees with the second implementation on areas of which most are damaged.
fn compare_lean() {
    let mut random = Random(COMPARED as u64);
    let bases: Vec<Base> = (0..200).map(|_| bases::small(&mut random)).collect();
    for _ in 0..COMPARED {
        let mut area = bases[random.place(bases.len())].area.clone();
        let damage = random.pick(&[damage::alter, damage::edit]);
        damage(&mut random, &mut area);
        let (a, b) = (random.below(12) as u32, random.below(12) as u32);
        for call in [Call::Add { l: a, r: b }, Call::Bind { v: a, t: b }, Call::Entry { i: a }, Call::Report, Call::Write] {
            let length = 2 + random.place(60);
            let [lean, plain] = [lean::perform as Perform, perform].map(|perform| result(&|area, out| perform(OFFICE, call, area, out), &area, length));
            assert!(lean == plain, "{call:?}: Rust on rows differs");
        }
    }
}

/// The same of opening, copying, storing and restoring, on books and lists of which many are damaged.
fn compare_lean_books() {
    let mut random = Random(COMPARED as u64);
    for _ in 0..COMPARED {
        let terms = lists::random_terms(&mut random);
        let mut book = reference::bytes_of(&mut random, &terms);
        if random.below(4) == 0 {
            lists::blemish(&mut random, &mut book);
        }
        let numbers = lists::random_list(&mut random, &terms);
        let list = lists::list_bytes(&mut random, &numbers);
        let (length, list_length) = (random.place(2 * book.len() + 2), random.place(2 * list.len() + 2));
        let area = vec![0xFF; OFFICE.area_length(1)];
        let [lean, plain] = [lean::perform as Perform, perform]
            .map(|perform| result(&|area, out| perform(OFFICE, Call::Open { capacity: 1, book: &book }, area, out), &area, 0));
        assert!(lean == plain, "opening: Rust on rows differs");
        let [lean, plain] = [lean::copy_book, copy_book as CopyBook].map(|copy| result(&|_, out| copy(OFFICE, &book, out), &[], length));
        assert!(lean == plain, "copying: Rust on rows differs");
        let [lean, plain] = [lean::store_book, store_book as Store]
            .map(|store| result(&|list, out| store(OFFICE, &book, out, list), &vec![0; list_length], length));
        assert!(lean == plain, "storing: Rust on rows differs");
        let [lean, plain] = [lean::restore_book, restore_book as Restore]
            .map(|restore| result(&|_, out| restore(OFFICE, &book, &list, out), &[], length));
        assert!(lean == plain, "restoring: Rust on rows differs");
    }
}

/// A random book of 1,024 terms in which each symbol has one arity, so that libraries from before interface 3 take it too.
fn random_book() -> Vec<u8> {
    let random = &mut Random(1024);
    let symbols = 1 + random.below(40);
    let signature: BTreeMap<u32, u32> = (0..symbols).map(|_| (random.below(4096) as u32, random.below(9) as u32)).collect();
    encode(&book_over(random, &signature.into_iter().collect::<Vec<(u32, u32)>>(), 1024))
}

fn main() {
    compare_lean();
    compare_lean_books();
    let book = random_book();
    println!("a random book of 1,024 terms, {} bytes", book.len());
    for capacity in [1u32, 1024] {
        let start = vec![0; fit::area_length(capacity)];
        call_row(&format!("opening at capacity {capacity} ({} bytes written)", start.len()), &start, Call::Open { capacity, book: &book });
    }
    copy_row(&book);
    store_row(&book);
    restore_row(&book);
    println!("1,024 terms, 896 of them over eight arguments, and a table that is nearly full");
    for capacity in [1024, 2048] {
        table_rows(&bases::measured(&mut Random(1024), 1024, capacity));
    }
}
