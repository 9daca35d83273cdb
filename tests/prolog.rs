//! The time for one fit line, against SWI-Prolog's term_subsumer/3 on the same two sheets: trees of 511 nodes, trees over trays of which
//! some have one argument and some two, and sheets with shared parts, where each level is twice the one below. By hand: `tests/prolog`.
//! Ours is opening the book of both sheets, adding the line and reporting it, from bytes to bytes; Prolog's is the one goal, on terms
//! that it has built before. Both find as many open places.

mod fit;
mod reference;

use reference::{encode, Term};
use std::hint::black_box;
use std::io::{BufRead, BufReader, Write};
use std::process::{Command, Stdio};
use std::time::Instant;

const ROUNDS: usize = 200;
const CAPACITY: u32 = 1024;
const NODE: u32 = 0;
const FIRST_LEAF: u32 = 1;
const TRAY: u32 = 100;

/// A book, and the two sheets of its line.
struct Sheets {
    terms: Vec<Term>,
    left: u32,
    right: u32,
}

fn push(terms: &mut Vec<Term>, symbol: u32, arguments: Vec<u32>) -> u32 {
    terms.push(Term::Application { symbol, arguments });
    terms.len() as u32 - 1
}

/// The tree of tests/prolog.pl: leaf number n is the constant n * n / 3 modulo k, or a tray over it, over it twice where k divides n.
fn tree(terms: &mut Vec<Term>, levels: u32, k: u32, trays: bool) -> u32 {
    let leaf = |n: u32| {
        let constant = push(terms, FIRST_LEAF + n * n / 3 % k, vec![]);
        match (trays, n % k) {
            (false, _) => constant,
            (true, 0) => push(terms, TRAY, vec![constant, constant]),
            (true, _) => push(terms, TRAY, vec![constant]),
        }
    };
    let mut row: Vec<u32> = (0..1u32 << levels).map(leaf).collect();
    while row.len() > 1 {
        row = row.chunks(2).map(|two| push(terms, NODE, two.to_vec())).collect();
    }
    row[0]
}

fn trees(levels: u32, trays: bool) -> Sheets {
    let mut terms = Vec::new();
    let left = tree(&mut terms, levels, 3, trays);
    let right = tree(&mut terms, levels, 4, trays);
    Sheets { terms, left, right }
}

fn shared(levels: u32) -> Sheets {
    let mut terms = Vec::new();
    let sides = [0, 1].map(|leaf| {
        let bottom = push(&mut terms, FIRST_LEAF + leaf, vec![]);
        (0..levels).fold(bottom, |below, _| push(&mut terms, NODE, vec![below, below]))
    });
    Sheets { terms, left: sides[0], right: sides[1] }
}

/// Our best time in microseconds, and the number of open places of the line.
fn ours(sheets: &Sheets) -> (f64, usize) {
    let book = encode(&sheets.terms);
    let mut area = vec![0; fit::area_length(CAPACITY)];
    let mut out = vec![0; 24_068];
    let (mut entry, mut written) = (0, 0);
    let mut least = f64::INFINITY;
    for _ in 0..ROUNDS {
        let clock = Instant::now();
        assert_eq!(fit::open(CAPACITY, black_box(&book), &mut area), 0);
        assert_eq!(fit::add(&mut area, sheets.left, sheets.right, &mut entry), 0);
        assert_eq!(fit::report(black_box(&area), &mut out, &mut written), 0);
        least = least.min(clock.elapsed().as_secs_f64() * 1e6);
    }
    let (mut open, mut fields) = (0, [0; 14]);
    let mut i = 0;
    while fit::entry(&area, i, &mut fields) == 0 {
        open += usize::from(fields[2] == 0 && fields[13] == i);
        i += 1;
    }
    (least, open)
}

fn main() {
    let mut prolog = Command::new("swipl")
        .args(["-g", "main", "-t", "halt", "tests/prolog.pl"])
        .stdin(Stdio::piped())
        .stdout(Stdio::piped())
        .spawn()
        .expect("swipl");
    let mut goals = prolog.stdin.take().expect("a pipe");
    let mut answers = BufReader::new(prolog.stdout.take().expect("a pipe")).lines();
    let mut lost = false;
    println!("| sheets | ours, µs | SWI-Prolog, µs | times ours |\n|---|---|---|---|");
    let deep = [10, 15, 20, 25, 30, 40, 50, 60, 70, 80, 90, 100];
    let cases = [("tree", 8), ("trays", 7)].into_iter().chain(deep.map(|levels| ("shared", levels)));
    for (kind, levels) in cases {
        let (sheets, what) = match kind {
            "tree" => (trees(levels, false), format!("trees of {} nodes", (2 << levels) - 1)),
            "trays" => (trees(levels, true), format!("trees of {} nodes over trays", (2 << levels) - 1)),
            _ => (shared(levels), format!("shared parts, {levels} levels")),
        };
        let (time, open) = ours(&sheets);
        if lost {
            println!("| {what} | {time:.1} | not tried | |");
            continue;
        }
        writeln!(goals, "{kind}({levels}).").expect("swipl reads");
        let answer = answers.next().expect("swipl answers").expect("text");
        if answer == "more" {
            lost = true;
            println!("| {what} | {time:.1} | more than 100,000,000 inferences, or 4 GB | |");
            continue;
        }
        let mut numbers = answer.split(' ');
        let theirs: f64 = numbers.next().expect("a time").parse().expect("a time");
        assert_eq!(numbers.next().expect("a count").parse(), Ok(open), "{what}: as many open places");
        println!("| {what} | {time:.1} | {theirs:.1} | {:.1} |", theirs / time);
    }
    drop(goals);
    prolog.wait().expect("swipl ends");
}
