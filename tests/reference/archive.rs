//! Storing a book with its variables first beside a list of the old numbers, and restoring it.

use super::area::Limits;
use super::book::{check, decode, encode, push_number, Source, Term};
use super::calls::{give, Answer};

/// An implementation of storing: a book, an output for the stored book and one for its list.
pub type Store = fn(Limits, &[u8], &mut [u8], &mut [u8]) -> Answer;

/// An implementation of restoring: a book, its list and an output.
pub type Restore = fn(Limits, &[u8], &[u8], &mut [u8]) -> Answer;

/// Stores a book: the answer, and both outputs as the call leaves them.
pub fn store_book(limits: Limits, book: &[u8], out: &mut [u8], list: &mut [u8]) -> Answer {
    Answer::of(stored_bytes(limits, book).and_then(|(stored, numbers)| {
        check(stored.len() <= out.len() && numbers.len() <= list.len(), 13)?;
        Ok(vec![give(&stored, out)?, give(&numbers, list)?])
    }))
}

/// Restores a book by a list: the answer, and the output as the call leaves it.
pub fn restore_book(limits: Limits, book: &[u8], list: &[u8], out: &mut [u8]) -> Answer {
    Answer::of(restored_bytes(limits, book, list).and_then(|restored| Ok(vec![give(&restored, out)?])))
}

/// The bytes of the stored book and of its list, or the book's refusal.
pub fn stored_bytes(limits: Limits, book: &[u8]) -> Result<(Vec<u8>, Vec<u8>), u32> {
    let terms = decode(limits, book)?;
    let list = variables_first(&terms);
    Ok((encode(&stored_terms(&terms, &list)), encode_list(&list)))
}

/// The bytes of the restored book, or the refusal of book or list.
pub fn restored_bytes(limits: Limits, book: &[u8], list: &[u8]) -> Result<Vec<u8>, u32> {
    let terms = decode(limits, book)?;
    let list = decode_list(terms.len(), list)?;
    check(arguments_are_lower(&terms, &list), 5)?;
    Ok(encode(&restored_terms(&terms, &list)))
}

/// The old numbers of the variables, then those of the other terms, each in rising order.
fn variables_first(terms: &[Term]) -> Vec<u32> {
    let is_variable = |&old: &u32| terms[old as usize] == Term::Variable;
    let (variables, others): (Vec<u32>, Vec<u32>) = (0..terms.len() as u32).partition(is_variable);
    [variables, others].concat()
}

/// Where the list has an old number; it has every one.
fn new_number(list: &[u32], old: u32) -> usize {
    list.iter().position(|&number| number == old).unwrap()
}

/// A term with other numbers for its arguments.
pub fn renumbered(term: &Term, number: impl Fn(u32) -> u32) -> Term {
    match term {
        Term::Variable => Term::Variable,
        Term::Application { symbol, arguments } => {
            Term::Application { symbol: *symbol, arguments: arguments.iter().map(|&argument| number(argument)).collect() }
        }
    }
}

/// The terms at their new numbers.
pub fn stored_terms(terms: &[Term], list: &[u32]) -> Vec<Term> {
    let term = |&old: &u32| renumbered(&terms[old as usize], |argument| new_number(list, argument) as u32);
    list.iter().map(term).collect()
}

/// The terms at their old numbers.
pub fn restored_terms(terms: &[Term], list: &[u32]) -> Vec<Term> {
    let term = |old| renumbered(&terms[new_number(list, old)], |argument| list[argument as usize]);
    (0..terms.len() as u32).map(term).collect()
}

/// Whether each argument of the restored book is lower than its term, both by their numbers of the list.
pub fn arguments_are_lower(terms: &[Term], list: &[u32]) -> bool {
    let are_lower = |(term, old): (&Term, &u32)| match term {
        Term::Variable => true,
        Term::Application { arguments, .. } => arguments.iter().all(|&argument| list[argument as usize] < *old),
    };
    terms.iter().zip(list).all(are_lower)
}

/// The bytes of a list.
pub fn encode_list(list: &[u32]) -> Vec<u8> {
    let mut out = Vec::new();
    for &number in list {
        push_number(&mut out, number);
    }
    out
}

/// So many numbers from the front of some bytes, and what is left, or the refusal.
pub fn decode_numbers(count: usize, bytes: &[u8]) -> Result<(Vec<u32>, &[u8]), u32> {
    let mut source = Source { rest: bytes };
    let mut numbers = Vec::new();
    for _ in 0..count {
        numbers.push(source.number()?);
    }
    Ok((numbers, source.rest))
}

/// A list that names each of so many terms once, or the refusal.
fn decode_list(count: usize, bytes: &[u8]) -> Result<Vec<u32>, u32> {
    let (list, rest) = decode_numbers(count, bytes)?;
    check(rest.is_empty(), 3)?;
    check(list.iter().all(|&number| (number as usize) < count), 8)?;
    check(are_distinct(&list), 14)?;
    Ok(list)
}

/// Whether no number occurs twice.
pub fn are_distinct(list: &[u32]) -> bool {
    (0..list.len()).all(|i| !list[..i].contains(&list[i]))
}
