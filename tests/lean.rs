//! The calls in plain Rust as the proved code does them, on rows of words and with no allocation: what the proved code is measured
//! against. Here are opening and copying a book; lean/calls.rs has the calls on an opened area, lean/archive.rs storing and restoring.

// Each program uses a part.
#![allow(dead_code)]

mod archive;
mod area;
mod calls;

use crate::reference::{Answer, Call, Limits, OFFICE};

const TERM_ROW: usize = 10;
const ROWS: usize = TERM_ROW * 1024;

fn number(bytes: &[u8], at: &mut usize) -> Result<u32, u32> {
    let mut value = 0;
    for group in 0..3 {
        let byte = *bytes.get(*at).ok_or(1u32)?;
        *at += 1;
        value |= u32::from(byte & 0x7F) << (7 * group);
        if byte < 0x80 {
            return if (group > 0 && byte == 0) || value > 65_535 { Err(2) } else { Ok(value) };
        }
    }
    Err(2)
}

/// Decodes into rows; a book of no bytes has none.
fn decode(bytes: &[u8], rows: &mut [u32; ROWS]) -> Result<usize, u32> {
    let mut at = 0;
    let count = if bytes.is_empty() { 0 } else { number(bytes, &mut at)? as usize };
    if count > 1024 {
        return Err(4);
    }
    for t in 0..count {
        let first = number(bytes, &mut at)?;
        if first == 0 {
            continue;
        }
        if first > 4096 {
            return Err(4);
        }
        let arity = number(bytes, &mut at)?;
        if arity > 8 {
            return Err(4);
        }
        let row = &mut rows[TERM_ROW * t..TERM_ROW * (t + 1)];
        row[0] = first;
        row[1] = arity;
        for place in &mut row[2..2 + arity as usize] {
            let argument = number(bytes, &mut at)?;
            if argument as usize >= t {
                return Err(5);
            }
            *place = argument;
        }
    }
    if at < bytes.len() {
        return Err(3);
    }
    Ok(count)
}

fn store(area: &mut [u8], words: &[u32]) {
    for (place, word) in area.chunks_exact_mut(4).zip(words) {
        place.copy_from_slice(&word.to_le_bytes());
    }
}

fn open(capacity: u32, book: &[u8], area: &mut [u8]) -> u32 {
    let needed = OFFICE.area_length(capacity);
    if needed == 0 {
        return 4;
    }
    if area.len() < needed {
        return 7;
    }
    let mut rows = [0; ROWS];
    let count = match decode(book, &mut rows) {
        Ok(count) => count,
        Err(refusal) => return refusal,
    };
    let header = [capacity, count as u32, 0, 0];
    store(&mut area[..16], &header);
    store(&mut area[16..4 * (4 + ROWS)], &rows);
    area[4 * (4 + ROWS)..needed].fill(0);
    0
}

fn put(out: &mut [u8], at: &mut usize, mut n: u32) {
    while n > 0x7F {
        out[*at] = (n & 0x7F) as u8 | 0x80;
        *at += 1;
        n >>= 7;
    }
    out[*at] = n as u8;
    *at += 1;
}

fn size(n: u32) -> usize {
    1 + usize::from(n > 0x7F) + usize::from(n > 0x3FFF)
}

/// The numbers of a row.
fn numbers(row: &[u32]) -> &[u32] {
    if row[0] == 0 {
        &row[..1]
    } else {
        &row[..2 + row[1] as usize]
    }
}

/// Writes the rows of a book's terms as bytes: the refusal, or 0, and the number of bytes written.
fn encode(rows: &[u32], out: &mut [u8]) -> (u32, u32) {
    let count = (rows.len() / TERM_ROW) as u32;
    let used = || rows.chunks_exact(TERM_ROW).flat_map(numbers);
    let length = size(count) + used().map(|&n| size(n)).sum::<usize>();
    if out.len() < length {
        return (13, 0);
    }
    let mut at = 0;
    put(out, &mut at, count);
    for &n in used() {
        put(out, &mut at, n);
    }
    (0, length as u32)
}

/// Copying, in the form of the second implementation's.
pub fn copy_book(_: Limits, book: &[u8], out: &mut [u8]) -> Answer {
    let mut rows = [0; ROWS];
    let (refusal, written) = match decode(book, &mut rows) {
        Ok(count) => encode(&rows[..TERM_ROW * count], out),
        Err(refusal) => (refusal, 0),
    };
    Answer::new(refusal, &[written])
}

/// Storing, in that form.
pub fn store_book(_: Limits, book: &[u8], out: &mut [u8], list: &mut [u8]) -> Answer {
    let (refusal, written, list_written) = archive::store(book, out, list);
    Answer::new(refusal, &[written, list_written])
}

/// Restoring, in that form.
pub fn restore_book(_: Limits, book: &[u8], list: &[u8], out: &mut [u8]) -> Answer {
    let (refusal, written) = archive::restore(book, list, out);
    Answer::new(refusal, &[written])
}

/// A call on an area, in that form.
pub fn perform(_: Limits, call: Call, area: &mut [u8], out: &mut [u8]) -> Answer {
    let (refusal, numbers) = match call {
        Call::Open { capacity, book } => (open(capacity, book, area), [0, 0]),
        Call::Entry { i } => {
            let (refusal, numbers) = calls::entry(area, i);
            return Answer { refusal, numbers };
        }
        Call::Add { l, r } => {
            let (refusal, entry) = calls::add(area, l, r);
            (refusal, [entry, 0])
        }
        Call::Bind { v, t } => {
            let (refusal, turned, appended) = calls::bind(area, v, t);
            (refusal, [turned, appended])
        }
        Call::Report => {
            let (refusal, written) = calls::report(area, out);
            (refusal, [written, 0])
        }
        Call::Write => {
            let (refusal, written) = calls::write(area, out);
            (refusal, [written, 0])
        }
    };
    Answer::new(refusal, &numbers)
}
