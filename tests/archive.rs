//! Compares storing and restoring a book, through the C interface, with the second implementation: the answers, every byte of both
//! outputs, and that book and list stay as they were. What is stored is also restored by its list, and must be the book again, or 00 where
//! that has no bytes. Books and lists are valid or damaged. Every case is made from its own seed, which is printed where the two differ.
//! It counts what the cases were made of (archive_census.rs), and fails where some kind of case never occurs.

mod bases;
#[macro_use]
mod kinds;
mod archive_census;
#[cfg_attr(stand_in, path = "stand_in.rs")]
mod fit;
mod lent;
mod library;
mod lists;
mod reference;
mod samples;

use archive_census::{Census, Kind};
use lent::Lent;
use reference::{are_distinct, arguments_are_lower, bytes_of, decode, decode_numbers, encode, first_seed, restore_book, restored_terms};
use reference::{store_book, stored_bytes, times, written_back, Answer, Random, Term, OFFICE};
use samples::Tally;

const CASES: u64 = 150_000;
const SEED: u64 = 0xA2C4_0000_0000_0000;

/// Some bytes that both implementations had: what they are to the call, as the library leaves them, and as the second leaves them.
type Buffer<'a> = (&'a str, &'a Lent, &'a [u8]);

/// In what the two implementations differ, if they do.
fn same(what: &str, ours: &Answer, theirs: &Answer, buffers: &[Buffer]) -> Result<(), String> {
    if ours != theirs {
        return Err(format!("{what} answers {ours:?}, expected {theirs:?}"));
    }
    match buffers.iter().find(|(_, left, expected)| !left.holds(expected)) {
        Some((name, _, _)) => Err(format!("{what} leaves another {name}")),
        None => Ok(()),
    }
}

/// Stores a book into outputs of these lengths on both: the answer and the outputs, or in what they differ.
fn store(book: &[u8], lengths: [usize; 2], filling: u8) -> Result<(Answer, [Vec<u8>; 2]), String> {
    let [mut out, mut list] = lengths.map(|length| vec![filling; length]);
    let [mut our_book, mut our_out, mut our_list] = [book, &out, &list].map(Lent::new);
    let ours = library::store_book(OFFICE, our_book.bytes(), our_out.bytes(), our_list.bytes());
    let theirs = store_book(OFFICE, book, &mut out, &mut list);
    same("storing", &ours, &theirs, &[("book", &our_book, book), ("stored book", &our_out, &out), ("list", &our_list, &list)])?;
    Ok((theirs, [out, list]))
}

/// Restores a book into an output of this length on both: the answer and the output, or in what they differ.
fn restore(book: &[u8], list: &[u8], length: usize, filling: u8) -> Result<(Answer, Vec<u8>), String> {
    let mut out = vec![filling; length];
    let [mut our_book, mut our_list, mut our_out] = [book, list, &out].map(Lent::new);
    let ours = library::restore_book(OFFICE, our_book.bytes(), our_list.bytes(), our_out.bytes());
    let theirs = restore_book(OFFICE, book, list, &mut out);
    same("restoring", &ours, &theirs, &[("book", &our_book, book), ("list", &our_list, list), ("restored book", &our_out, &out)])?;
    Ok((theirs, out))
}

/// A length that suffices, or one that is too short, if there is one.
fn random_length(random: &mut Random, needed: usize, short: bool) -> usize {
    if short {
        let any = random.place(needed.max(1));
        random.pick(&[0, any, needed.saturating_sub(1)])
    } else {
        let more = random.place(20);
        needed + random.pick(&[0, 0, 1, more])
    }
}

/// Stores a book; what is stored is then restored.
fn store_case(random: &mut Random, book: &[u8], census: &mut Census) -> Result<(), String> {
    let needed = stored_bytes(OFFICE, book).map_or([book.len(); 2], |(stored, list)| [stored.len(), list.len()]);
    let short = random.pick(&[[false, false], [false, false], [false, false], [true, false], [false, true], [true, true]]);
    let lengths = [0, 1].map(|i| random_length(random, needed[i], short[i]));
    let (answer, [out, list]) = store(book, lengths, random.next() as u8)?;
    census.store(book, needed, lengths, &answer);
    if answer.refusal != 0 {
        return Ok(());
    }
    let (stored, list) = (&out[..needed[0]], &list[..needed[1]]);
    census.stored(book, stored, list);
    let book = written_back(book);
    let (answer, restored) = restore(stored, list, book.len(), random.next() as u8)?;
    census.note(Kind::StoredRestored, true);
    if answer.refusal != 0 || restored != book {
        return Err("what is stored does not restore the book".to_string());
    }
    Ok(())
}

/// How many bytes the book restored by a list takes, valid or not; none where the list does not name every term once.
fn restored_length(terms: &[Term], list: &[u8]) -> Option<usize> {
    let (numbers, rest) = decode_numbers(terms.len(), list).ok()?;
    let names_each = rest.is_empty() && are_distinct(&numbers) && numbers.iter().all(|&number| (number as usize) < terms.len());
    names_each.then(|| encode(&restored_terms(terms, &numbers)).len())
}

/// Restores a book, made of these terms and perhaps damaged, by a list of any kind.
fn restore_case(random: &mut Random, terms: Vec<Term>, book: &[u8], census: &mut Census) -> Result<(), String> {
    let terms = decode(OFFICE, book).unwrap_or(terms);
    let numbers = lists::random_list(random, &terms);
    let list = lists::list_bytes(random, &numbers);
    let needed = restored_length(&terms, &list).unwrap_or(book.len());
    let short = random.below(if arguments_are_lower(&terms, &numbers) { 4 } else { 2 }) == 0;
    let length = random_length(random, needed, short);
    let (answer, _) = restore(book, &list, length, random.next() as u8)?;
    census.restore(book, &list, needed, length, &answer);
    Ok(())
}

fn run_case(seed: u64, census: &mut Census) -> Result<(), String> {
    let random = &mut Random(seed);
    let terms = lists::random_terms(random);
    let mut book = bytes_of(random, &terms);
    if random.below(6) == 0 {
        lists::blemish(random, &mut book);
    }
    store_case(random, &book, census)?;
    restore_case(random, terms, &book, census)
}

fn main() {
    let mut tally = Tally::default();
    samples::run_archive(OFFICE, store_book, restore_book, &mut tally);
    samples::run_archive(OFFICE, library::store_book, library::restore_book, &mut tally);
    let (first, cases) = (first_seed(SEED), CASES * times());
    let mut census = Census::new();
    let mut different = 0;
    for seed in first..first + cases {
        if let Err(what) = run_case(seed, &mut census) {
            println!("case {seed:#x}: {what}");
            different += 1;
        }
        if different > 10 {
            break;
        }
    }
    println!("{cases} cases from seed {first:#x}, {} calls and what is stored restored, {different} cases differ", census.calls());
    census.print();
    tally.test("each call gives every answer that it can give, and no other", census.has_all_answers());
    tally.test(&format!("every kind of case occurs, but: {:?}", census.missing()), census.missing().is_empty());
    tally.test("the two agree, and what is stored restores the book", different == 0);
    tally.finish()
}
