//! Books and their bytes.

use super::area::Limits;
use std::collections::HashMap;

#[derive(Clone, Debug, PartialEq)]
pub enum Term {
    Variable,
    Application { symbol: u32, arguments: Vec<u32> },
}

pub const MAX_SYMBOL: u32 = 4095;
pub const MAX_ARITY: u32 = 8;

/// Bytes that are taken from the front.
pub struct Source<'a> {
    pub rest: &'a [u8],
}

impl Source<'_> {
    /// One number in shortest form, or the refusal.
    pub fn number(&mut self) -> Result<u32, u32> {
        let mut value = 0;
        for group in 0..3 {
            let (&byte, tail) = self.rest.split_first().ok_or(1u32)?;
            self.rest = tail;
            value |= u32::from(byte & 0x7F) << (7 * group);
            if byte & 0x80 == 0 {
                let longer = group > 0 && byte == 0;
                return if longer || value > 65_535 { Err(2) } else { Ok(value) };
            }
        }
        Err(2)
    }
}

/// The refusal, unless the test holds.
pub fn check(holds: bool, refusal: u32) -> Result<(), u32> {
    if holds {
        Ok(())
    } else {
        Err(refusal)
    }
}

/// The parts of a book, one of which a refusal is of.
#[derive(Clone, Copy)]
pub enum Part {
    Count,
    Term,
    Rest,
}

/// What a book is refused for: the part, the position of its first byte, and the refusal.
pub struct Refused {
    pub part: Part,
    pub at: usize,
    pub refusal: u32,
}

/// The terms of a book, or the refusal.
pub fn decode(limits: Limits, bytes: &[u8]) -> Result<Vec<Term>, u32> {
    decode_parts(limits, bytes).map_err(|refused| refused.refusal)
}

/// The terms of a book, or what it is refused for. A book of no bytes has no terms.
pub fn decode_parts(limits: Limits, bytes: &[u8]) -> Result<Vec<Term>, Refused> {
    if bytes.is_empty() {
        return Ok(Vec::new());
    }
    let refused = |part, left: usize| move |refusal| Refused { part, at: bytes.len() - left, refusal };
    let mut source = Source { rest: bytes };
    let count = number_of_terms(limits, &mut source).map_err(refused(Part::Count, bytes.len()))?;
    let mut terms = Vec::with_capacity(count as usize);
    for own in 0..count {
        let left = source.rest.len();
        terms.push(term(&mut source, own).map_err(refused(Part::Term, left))?);
    }
    check(source.rest.is_empty(), 3).map_err(refused(Part::Rest, source.rest.len()))?;
    Ok(terms)
}

fn number_of_terms(limits: Limits, source: &mut Source) -> Result<u32, u32> {
    let count = source.number()?;
    check(count as usize <= limits.terms, 4)?;
    Ok(count)
}

/// The term of this index.
fn term(source: &mut Source, own: u32) -> Result<Term, u32> {
    let first = source.number()?;
    if first == 0 {
        return Ok(Term::Variable);
    }
    let symbol = first - 1;
    check(symbol <= MAX_SYMBOL, 4)?;
    let arity = source.number()?;
    check(arity <= MAX_ARITY, 4)?;
    let mut arguments = Vec::new();
    for _ in 0..arity {
        let argument = source.number()?;
        check(argument < own, 5)?;
        arguments.push(argument);
    }
    Ok(Term::Application { symbol, arguments })
}

/// For each symbol of a book, the arities that it occurs with: a bit for each.
fn arities(terms: &[Term]) -> HashMap<u32, u32> {
    let mut found = HashMap::new();
    for term in terms {
        if let Term::Application { symbol, arguments } = term {
            *found.entry(*symbol).or_insert(0) |= 1 << arguments.len();
        }
    }
    found
}

/// Whether a symbol of the book occurs with two arities.
pub fn has_two_arities(terms: &[Term]) -> bool {
    arities(terms).values().any(|bits: &u32| bits.count_ones() > 1)
}

/// Whether a symbol of the book occurs with both of these arities.
pub fn has_arities(terms: &[Term], both: [u32; 2]) -> bool {
    arities(terms).values().any(|bits| both.iter().all(|arity| bits >> arity & 1 == 1))
}

/// Appends one number in shortest form.
pub fn push_number(out: &mut Vec<u8>, mut n: u32) {
    while n > 0x7F {
        out.push((n & 0x7F) as u8 | 0x80);
        n >>= 7;
    }
    out.push(n as u8);
}

/// What is written back of a valid book: its bytes, and 00 for a book of no bytes.
pub fn written_back(book: &[u8]) -> &[u8] {
    if book.is_empty() {
        &[0]
    } else {
        book
    }
}

/// The bytes of a book.
pub fn encode(terms: &[Term]) -> Vec<u8> {
    let mut out = Vec::new();
    push_number(&mut out, terms.len() as u32);
    for term in terms {
        match term {
            Term::Variable => push_number(&mut out, 0),
            Term::Application { symbol, arguments } => {
                push_number(&mut out, symbol + 1);
                push_number(&mut out, arguments.len() as u32);
                for &argument in arguments {
                    push_number(&mut out, argument);
                }
            }
        }
    }
    out
}
