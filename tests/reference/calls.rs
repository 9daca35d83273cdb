//! The six calls on the bytes of an area and of an output, and copying a book.

use super::area::{fields, read, store, Limits, ENTRY_ROW};
use super::book::{check, decode, encode};
use super::report::report;
use super::soundness::faults;
use super::table::State;

#[derive(Clone, Copy, Debug)]
pub enum Call<'a> {
    Open { capacity: u32, book: &'a [u8] },
    Add { l: u32, r: u32 },
    Bind { v: u32, t: u32 },
    Entry { i: u32 },
    Report,
    Write,
}

/// The refusal number, or 0, and the numbers that the call answers; all places that it does not answer are 0.
#[derive(Clone, Copy, Debug, PartialEq)]
pub struct Answer {
    pub refusal: u32,
    pub numbers: [u32; ENTRY_ROW],
}

impl Answer {
    pub fn new(refusal: u32, numbers: &[u32]) -> Answer {
        let mut places = [0; ENTRY_ROW];
        places[..numbers.len()].copy_from_slice(numbers);
        Answer { refusal, numbers: places }
    }

    /// The answer of a call that gave these numbers, or this refusal.
    pub fn of(numbers: Result<Vec<u32>, u32>) -> Answer {
        match numbers {
            Ok(numbers) => Answer::new(0, &numbers),
            Err(refusal) => Answer::new(refusal, &[]),
        }
    }
}

/// An implementation: it makes a call on an area and an output.
pub type Perform = fn(Limits, Call, &mut [u8], &mut [u8]) -> Answer;

/// An implementation of copying: a book and an output.
pub type CopyBook = fn(Limits, &[u8], &mut [u8]) -> Answer;

/// Reads a book and writes it back, with no area.
pub fn copy_book(limits: Limits, book: &[u8], out: &mut [u8]) -> Answer {
    Answer::of(decode(limits, book).and_then(|terms| Ok(vec![give(&encode(&terms), out)?])))
}

/// Makes a call: its answer, and the area and the output as it leaves them.
pub fn perform(limits: Limits, call: Call, area: &mut [u8], out: &mut [u8]) -> Answer {
    Answer::of(match call {
        Call::Open { capacity, book } => open(limits, capacity, book, area).map(|()| vec![]),
        Call::Add { l, r } => add(limits, area, l, r).map(|entry| vec![entry]),
        Call::Bind { v, t } => bind(limits, area, v, t).map(|(turned, appended)| vec![turned, appended]),
        Call::Entry { i } => entry(limits, area, i).map(|row| row.to_vec()),
        Call::Report => loaded(limits, area).and_then(|state| give(&report(&state)?, out)).map(|written| vec![written]),
        Call::Write => loaded(limits, area).and_then(|state| give(&encode(&state.terms), out)).map(|written| vec![written]),
    })
}

/// The state of a sound area; any other is refused.
fn loaded(limits: Limits, area: &[u8]) -> Result<State, u32> {
    check(faults(limits, area).is_empty(), 7)?;
    Ok(read(limits, area))
}

/// Puts bytes at the front of an output that has room for them, and gives their number.
pub fn give(bytes: &[u8], out: &mut [u8]) -> Result<u32, u32> {
    check(bytes.len() <= out.len(), 13)?;
    out[..bytes.len()].copy_from_slice(bytes);
    Ok(bytes.len() as u32)
}

fn open(limits: Limits, capacity: u32, book: &[u8], area: &mut [u8]) -> Result<(), u32> {
    let needed = limits.area_length(capacity);
    check(needed > 0, 4)?;
    check(area.len() >= needed, 7)?;
    let terms = decode(limits, book)?;
    store(limits, &State::opened(capacity, terms), area);
    Ok(())
}

fn add(limits: Limits, area: &mut [u8], l: u32, r: u32) -> Result<u32, u32> {
    let (state, entry) = loaded(limits, area)?.add(limits, l, r)?;
    store(limits, &state, area);
    Ok(entry)
}

fn bind(limits: Limits, area: &mut [u8], v: u32, t: u32) -> Result<(u32, u32), u32> {
    let (state, turned, appended) = loaded(limits, area)?.bind(v, t)?;
    store(limits, &state, area);
    Ok((turned, appended))
}

fn entry(limits: Limits, area: &[u8], i: u32) -> Result<[u32; ENTRY_ROW], u32> {
    let state = loaded(limits, area)?;
    state.entries.get(i as usize).map(fields).ok_or(8)
}
