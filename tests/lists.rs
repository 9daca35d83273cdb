//! Random books for storing and restoring, and random lists, valid and damaged.

use crate::bases::narrow_book;
use crate::reference::{encode_list, random_book, Random, Term};

/// The terms of a small book; now and then of any size, at the limit or above it.
pub fn random_terms(random: &mut Random) -> Vec<Term> {
    let count = match random.below(512) {
        0 => 1024,
        1 => random.pick(&[0, 1, 1023, 1025]),
        2..=4 => random.place(1025),
        5..=24 => random.place(320),
        25..=96 => random.place(40),
        _ => random.place(12),
    };
    if random.below(4) == 0 {
        random_book(random, count)
    } else {
        narrow_book(random, count)
    }
}

/// Damages a book: it is cut, or a byte is altered, put in or added; no bytes are left as they are.
pub fn blemish(random: &mut Random, book: &mut Vec<u8>) {
    if book.is_empty() {
        return;
    }
    let at = random.place(book.len());
    match random.below(5) {
        0 => book.truncate(at),
        1 => book[at] = book[at].wrapping_add(1),
        2 => book[at] = random.next() as u8,
        3 => book.insert(at, random.next() as u8),
        _ => book.push(random.next() as u8),
    }
}

/// A list that names every term once, mostly one by which the book restores.
pub fn random_list(random: &mut Random, terms: &[Term]) -> Vec<u32> {
    let mut list = restoring(random, terms);
    match random.below(8) {
        0 if !list.is_empty() => {
            let (i, j) = (random.place(list.len()), random.place(list.len()));
            list.swap(i, j);
        }
        1 => shuffle(random, &mut list),
        2 => list.sort_unstable(),
        _ => {}
    }
    list
}

/// A list by which a book restores: each term has a random weight above those of its arguments, and its number by the weights.
fn restoring(random: &mut Random, terms: &[Term]) -> Vec<u32> {
    let mut weights: Vec<u64> = Vec::with_capacity(terms.len());
    for term in terms {
        let least = match term {
            Term::Variable => 0,
            Term::Application { arguments, .. } => arguments.iter().map(|&argument| weights[argument as usize] + 1).max().unwrap_or(0),
        };
        weights.push(least + random.below(terms.len() as u64));
    }
    let mut by_weight: Vec<usize> = (0..terms.len()).collect();
    by_weight.sort_by_key(|&i| weights[i]);
    let mut list = vec![0; terms.len()];
    for (i, old) in by_weight.into_iter().zip(0..) {
        list[i] = old;
    }
    list
}

fn shuffle(random: &mut Random, list: &mut [u32]) {
    for i in 1..list.len() {
        list.swap(i, random.place(i + 1));
    }
}

/// The bytes of a list, or in half of the cases of it with a fault or two.
pub fn list_bytes(random: &mut Random, list: &[u32]) -> Vec<u8> {
    let mut numbers: Vec<Vec<u8>> = list.iter().map(|&old| encode_list(&[old])).collect();
    for _ in 0..random.pick(&[0, 0, 0, 1, 1, 2]) {
        damage(random, &mut numbers, list.len() as u64);
    }
    numbers.concat()
}

/// A fault in the numbers of a list of so many terms.
fn damage(random: &mut Random, numbers: &mut Vec<Vec<u8>>, count: u64) {
    let any = encode_list(&[random.below(count + 3) as u32]);
    let half = random.pick(&[&[0x80][..], &[0xFF, 0x80]]).to_vec();
    if numbers.is_empty() {
        let bad = bad_number(random);
        return numbers.push(random.pick(&[&any, &half, &bad]).clone());
    }
    let at = random.place(numbers.len());
    match random.below(11) {
        0..=1 => numbers[at] = bad_number(random),
        2..=3 => numbers[at] = encode_list(&[no_term(random, count)]),
        4..=6 => numbers[at] = numbers[random.place(numbers.len())].clone(),
        7 => numbers.push(random.pick(&[&any, &half]).clone()),
        8 => drop(numbers.remove(at)),
        9 => numbers.clear(),
        _ => {
            numbers.pop();
            numbers.push(half);
        }
    }
}

/// Bytes that are refused with 2: not in shortest form, with 80 set in the third byte, or above 65,535.
fn bad_number(random: &mut Random) -> Vec<u8> {
    let [first, second, third] = [0, 1, 2].map(|_| random.next() as u8 | 0x80);
    random.pick(&[&[first, 0][..], &[first, second, 0], &[first, second, third], &[first, second, (third & 0x7F).max(4)]]).to_vec()
}

/// A number that names none of so many terms.
fn no_term(random: &mut Random, count: u64) -> u32 {
    let above = count + random.below(65_536 - count);
    random.pick(&[count, count, count + 1, above, 65_535]) as u32
}
