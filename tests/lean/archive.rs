//! Storing and restoring a book in plain Rust, with all tests and no allocation: what the proved code is measured against.

use super::area::TERMS;
use super::{decode, number, numbers, put, size, ROWS, TERM_ROW};

/// The refusal, or 0, and the numbers of bytes written of the stored book and of its list.
pub fn store(book: &[u8], out: &mut [u8], list: &mut [u8]) -> (u32, u32, u32) {
    let mut rows = [0; ROWS];
    let count = match decode(book, &mut rows) {
        Ok(count) => count,
        Err(refusal) => return (refusal, 0, 0),
    };
    let rows = &mut rows[..TERM_ROW * count];
    let (mut old_numbers, mut new_numbers) = ([0; TERMS], [0; TERMS]);
    variables_first(rows, &mut old_numbers, &mut new_numbers);
    let (length, _) = renumber(rows, &new_numbers);
    let old_numbers = &old_numbers[..count];
    let list_length = old_numbers.iter().map(|&old| size(old)).sum::<usize>();
    if out.len() < length || list.len() < list_length {
        return (13, 0, 0);
    }
    put_rows(rows, old_numbers, out);
    let mut at = 0;
    for &old in old_numbers {
        put(list, &mut at, old);
    }
    (0, length as u32, list_length as u32)
}

/// The refusal, or 0, and the number of bytes written.
pub fn restore(book: &[u8], list: &[u8], out: &mut [u8]) -> (u32, u32) {
    let mut rows = [0; ROWS];
    let count = match decode(book, &mut rows) {
        Ok(count) => count,
        Err(refusal) => return (refusal, 0),
    };
    let rows = &mut rows[..TERM_ROW * count];
    let (mut old_numbers, mut new_numbers) = ([0; TERMS], [UNNAMED; TERMS]);
    if let Err(refusal) = decode_list(list, count, &mut old_numbers, &mut new_numbers) {
        return (refusal, 0);
    }
    let (length, are_lower) = renumber(rows, &old_numbers);
    if !are_lower {
        return (5, 0);
    }
    if out.len() < length {
        return (13, 0);
    }
    put_rows(rows, &new_numbers[..count], out);
    (0, length as u32)
}

/// The old number for each new one, variables first, and the new number for each old one.
fn variables_first(rows: &[u32], old_numbers: &mut [u32; TERMS], new_numbers: &mut [u32; TERMS]) {
    let variables = rows.chunks_exact(TERM_ROW).filter(|row| row[0] == 0).count();
    let mut next = [0, variables];
    for (old, row) in rows.chunks_exact(TERM_ROW).enumerate() {
        let new = &mut next[usize::from(row[0] != 0)];
        old_numbers[*new] = old as u32;
        new_numbers[old] = *new as u32;
        *new += 1;
    }
}

const UNNAMED: u32 = u32::MAX;

/// The list of so many terms: the old number for each new one, and the new number for each old one; or the refusal.
fn decode_list(bytes: &[u8], count: usize, old_numbers: &mut [u32; TERMS], new_numbers: &mut [u32; TERMS]) -> Result<(), u32> {
    let old_numbers = &mut old_numbers[..count];
    let mut at = 0;
    for old in old_numbers.iter_mut() {
        *old = number(bytes, &mut at)?;
    }
    if at < bytes.len() {
        return Err(3);
    }
    if old_numbers.iter().any(|&old| old as usize >= count) {
        return Err(8);
    }
    for (new, &old) in old_numbers.iter().enumerate() {
        if std::mem::replace(&mut new_numbers[old as usize], new as u32) != UNNAMED {
            return Err(14);
        }
    }
    Ok(())
}

/// Renumbers the arguments of all rows: the length of the book of them, and whether each argument is then lower than its term.
fn renumber(rows: &mut [u32], target: &[u32; TERMS]) -> (usize, bool) {
    let mut length = size((rows.len() / TERM_ROW) as u32);
    let mut are_lower = true;
    for (row, &own) in rows.chunks_exact_mut(TERM_ROW).zip(target) {
        length += size(row[0]);
        if row[0] != 0 {
            length += size(row[1]);
            let arity = row[1] as usize;
            for argument in &mut row[2..2 + arity] {
                *argument = target[*argument as usize];
                length += size(*argument);
                are_lower &= *argument < own;
            }
        }
    }
    (length, are_lower)
}

/// Writes the rows in this order as a book, into an output that has room for it.
fn put_rows(rows: &[u32], places: &[u32], out: &mut [u8]) {
    let mut at = 0;
    put(out, &mut at, places.len() as u32);
    for &place in places {
        for &n in numbers(&rows[TERM_ROW * place as usize..][..TERM_ROW]) {
            put(out, &mut at, n);
        }
    }
}
