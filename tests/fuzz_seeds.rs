//! Seeds for tests/fuzz.c, into the folder that is named: the samples of docs/SPEC.md and what is refused, and random books with long
//! lists of calls.

mod reference;

use reference::{encode, push_number, random_book, Random, Term};
use std::{env, fs};

const RANDOM: usize = 300;

const BOOK_A: &[u8] = &[6, 0, 4, 0, 2, 1, 0, 2, 1, 1, 3, 2, 2, 0, 3, 2, 3, 1];
const BOOK_B: &[u8] = &[5, 0, 0, 4, 0, 2, 1, 1, 2, 1, 2];
/// A book in which three terms change places in a ring when it is stored.
const RING: &[u8] = &[4, 1, 0, 2, 1, 0, 0, 3, 2, 1, 2];
/// Books with a symbol of two arities: s3(s2(s0)) and s3(s2(s0, s1)); a variable beside s1(s0) and s1(s0, s0); s0 and s0(s0).
const BOOK_F: &[u8] = &[6, 1, 0, 2, 0, 3, 1, 0, 3, 2, 0, 1, 4, 1, 2, 4, 1, 3];
const BOOK_G: &[u8] = &[4, 0, 1, 0, 2, 1, 1, 2, 2, 1, 1];
const LEAST_UNLIKE: &[u8] = &[2, 1, 0, 1, 1, 0];
/// A call as three bytes: its number and two numbers.
type Three = [u8; 3];
const OPEN_AGAIN: Three = [0, 0, 0];
const REPORT: Three = [4, 0, 255];

const fn add(l: u8, r: u8) -> Three {
    [1, l, r]
}

const fn bind(v: u8, t: u8) -> Three {
    [2, v, t]
}

const fn entry(i: u8) -> Three {
    [3, i, 0]
}

/// Into outputs of so many bytes.
const fn store(out: u8, list: u8) -> Three {
    [9, out, list]
}

/// By a list, into an output of so many bytes.
fn restore(list: &[u8], out: u16) -> Vec<u8> {
    [&wide(10, list.len() as u16, out)[..], list].concat()
}

/// A call with numbers of two bytes.
fn wide(call: u8, a: u16, b: u16) -> Vec<u8> {
    [&[128 + call][..], &a.to_le_bytes(), &b.to_le_bytes()].concat()
}

const SAMPLES: &[(&str, u16, &[u8], &[Three])] = &[
    ("A1", 1024, BOOK_A, &[add(4, 5), REPORT, entry(0)]),
    ("A2", 1024, BOOK_A, &[add(4, 5), bind(0, 1), REPORT, entry(2)]),
    ("A3", 1024, BOOK_A, &[add(0, 3), add(1, 3), REPORT, bind(0, 1), REPORT, entry(1)]),
    ("A4", 1024, BOOK_A, &[bind(0, 2), REPORT]),
    ("B1", 1024, BOOK_B, &[add(0, 4), bind(0, 3), REPORT, entry(0)]),
    ("B2", 1, BOOK_B, &[add(0, 4), bind(0, 3), REPORT, entry(0)]),
    ("B3", 1024, BOOK_B, &[add(0, 4), bind(0, 3), bind(1, 2), REPORT, entry(1)]),
    ("B4", 1024, BOOK_B, &[add(1, 1), REPORT]),
    ("B5", 1024, BOOK_B, &[bind(0, 1), bind(1, 0), REPORT]),
    ("Z1", 1024, &[0], &[REPORT, [5, 0, 255], [6, 0, 255]]),
    ("no_bytes", 1024, &[], &[REPORT, add(0, 0), [5, 0, 255], [5, 0, 0], [6, 0, 0], [6, 0, 1], [6, 0, 255]]),
    ("F1", 1024, BOOK_F, &[add(4, 5), REPORT, entry(0), entry(1)]),
    ("F2", 1024, BOOK_G, &[add(0, 2), add(0, 3), bind(0, 3), REPORT, entry(0), entry(1)]),
    ("F2_the_other", 1024, BOOK_G, &[add(0, 2), add(0, 3), bind(0, 2), REPORT, entry(0), entry(1)]),
    ("F3", 1, LEAST_UNLIKE, &[add(0, 1), REPORT, entry(0), [5, 0, 255], [6, 0, 16], store(6, 2)]),
    ("refused_1", 1, &[0x01], &[[6, 0, 16]]),
    ("refused_2", 1, &[0x80, 0x00], &[[6, 0, 16]]),
    ("refused_3", 1, &[0x00, 0x05], &[[6, 0, 16]]),
    ("refused_4", 1, &[0x81, 0x08], &[[6, 0, 16]]),
    ("refused_5", 1, &[0x01, 0x01, 0x01, 0x00], &[[6, 0, 16]]),
    ("no_such_capacity", 2049, BOOK_B, &[]),
    ("short_outputs", 1024, BOOK_B, &[add(0, 4), [4, 0, 5], [4, 0, 6], [5, 0, 10], [5, 0, 11], [6, 0, 10], [6, 0, 11]]),
    ("damaged_header", 1024, BOOK_B, &[[7, 1, 6], REPORT, OPEN_AGAIN, REPORT]),
    ("damaged_term", 1024, BOOK_B, &[[7, 9, 5], REPORT]),
    ("cut", 1024, BOOK_B, &[[8, 16, 0]]),
    ("stored", 1, RING, &[store(11, 4), store(12, 5), store(10, 4), store(11, 3)]),
    ("nothing_stored", 1, &[0], &[store(1, 0), store(0, 0)]),
    ("no_bytes_stored", 1, &[], &[store(1, 0), store(0, 0), store(2, 1)]),
    ("stored_refused", 1, &[0x01, 0x01, 0x01, 0x00], &[store(16, 16)]),
];

/// Restorings from one book, its lists one after the other: each that restores it, and each refusal.
const RESTORED: (&[u8], &[&[u8]]) = (
    &[3, 0, 1, 0, 2, 1, 1],
    &[&[0, 1, 2], &[1, 0, 2], &[2, 0, 1], &[1, 0], &[9, 0x80, 0], &[9, 9, 9, 9], &[1, 1, 3], &[2, 2, 0], &[0, 2, 1]],
);

fn input(capacity: u16, book: &[u8], calls: &[u8]) -> Vec<u8> {
    [&capacity.to_le_bytes()[..], &(book.len() as u16).to_le_bytes(), book, calls].concat()
}

/// A book that is longer when it is stored, a constant, 150 terms over it and 149 variables: 603 bytes become 753, with a list of 472.
fn grown() -> Vec<u8> {
    let constant = Term::Application { symbol: 0, arguments: vec![] };
    let over = Term::Application { symbol: 1, arguments: vec![0] };
    let book = encode(&[vec![constant], vec![over; 150], vec![Term::Variable; 149]].concat());
    input(1, &book, &[wide(9, 603, 472), wide(9, 752, 472), wide(9, 753, 471), wide(9, 753, 472)].concat())
}

/// A random list by which the book restores another: each term's number in it is above those of its arguments.
fn random_list(random: &mut Random, terms: &[Term]) -> Vec<u8> {
    let mut places = vec![u32::MAX; terms.len()];
    let mut next = 0;
    while (next as usize) < terms.len() {
        let t = random.place(terms.len());
        let placed = |&a: &u32| places[a as usize] != u32::MAX;
        let ready = match &terms[t] {
            Term::Variable => true,
            Term::Application { arguments, .. } => arguments.iter().all(placed),
        };
        if ready && places[t] == u32::MAX {
            places[t] = next;
            next += 1;
        }
    }
    let mut bytes = Vec::new();
    places.iter().for_each(|&place| push_number(&mut bytes, place));
    bytes
}

/// A random book stored, and restored by random lists, some of them damaged.
fn random_archive(random: &mut Random) -> Vec<u8> {
    let most = random.pick(&[8, 30, 250]);
    let count = random.place(most);
    let terms = random_book(random, count);
    let book = encode(&terms);
    let mut calls = wide(9, random.place(2 * book.len()) as u16, random.place(2 * count + 1) as u16);
    for _ in 0..4 {
        let mut list = random_list(random, &terms);
        if !list.is_empty() && random.below(2) == 0 {
            let at = random.place(list.len());
            list[at] = random.pick(&[0, 1, 127, 128, 255]);
        }
        calls.extend(restore(&list, random.place(2 * book.len()) as u16));
    }
    input(1, &book, &calls)
}

/// A random book and random calls, most of them lines and choices of its terms.
fn random_input(random: &mut Random) -> Vec<u8> {
    let most = random.pick(&[8, 30, 250]);
    let terms = 1 + random.place(most);
    let book = encode(&random_book(random, terms));
    let capacity = random.pick(&[1, 3, 20, 100, 1024, 2048]);
    let count = 1 + random.place(100);
    let mut calls = Vec::new();
    for _ in 0..count {
        let (a, b) = (random.place(terms) as u16, random.place(terms) as u16);
        match random.below(16) {
            0 => calls.extend(REPORT),
            1 => calls.extend(wide(4, 0, 4000)),
            2 => calls.extend(entry(a as u8)),
            3 => calls.extend(wide(7, random.below(12_000) as u16, a)),
            4 => calls.extend(OPEN_AGAIN),
            5 => calls.extend(wide(8, random.below(60_000) as u16, 100)),
            6..=9 => calls.extend(bind(a as u8, b as u8)),
            _ => calls.extend(add(a as u8, b as u8)),
        }
    }
    input(capacity, &book, &calls)
}

fn main() {
    let folder = env::args().nth(1).expect("the folder");
    let write = |name: &str, bytes: Vec<u8>| fs::write(format!("{folder}/{name}"), bytes).expect("a file in the folder");
    for (name, capacity, book, calls) in SAMPLES {
        write(name, input(*capacity, book, &calls.concat()));
    }
    let (book, lists) = RESTORED;
    write("restored", input(1, book, &lists.iter().flat_map(|list| restore(list, 7)).collect::<Vec<u8>>()));
    let nothing = [restore(&[], 1), restore(&[0], 1), restore(&[0x80], 1), restore(&[], 0)].concat();
    write("nothing_restored", input(1, &[0], &nothing));
    write("no_bytes_restored", input(1, &[], &nothing));
    write("grown", grown());
    let mut random = Random(RANDOM as u64);
    for i in 0..RANDOM {
        write(&format!("random_{i}"), random_input(&mut random));
    }
    for i in 0..RANDOM / 3 {
        write(&format!("archive_{i}"), random_archive(&mut random));
    }
}
