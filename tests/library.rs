//! The calls through the C interface, in the form of the second implementation's.

// Each program uses a part.
#![allow(dead_code)]

use crate::fit;
use crate::reference::{Answer, Call, Limits};

/// What the library's numbers are before a call.
const UNSET: u32 = 0xA5A5_A5A5;

pub fn perform(_: Limits, call: Call, area: &mut [u8], out: &mut [u8]) -> Answer {
    let (mut first, mut second) = (UNSET, UNSET);
    match call {
        Call::Open { capacity, book } => Answer::new(fit::open(capacity, book, area), &[]),
        Call::Add { l, r } => {
            let refusal = fit::add(area, l, r, &mut first);
            Answer::new(refusal, &[first])
        }
        Call::Bind { v, t } => {
            let refusal = fit::bind(area, v, t, &mut first, &mut second);
            Answer::new(refusal, &[first, second])
        }
        Call::Entry { i } => {
            let mut numbers = [UNSET; 14];
            let refusal = fit::entry(area, i, &mut numbers);
            Answer { refusal, numbers }
        }
        Call::Report => {
            let refusal = fit::report(area, out, &mut first);
            Answer::new(refusal, &[first])
        }
        Call::Write => {
            let refusal = fit::write(area, out, &mut first);
            Answer::new(refusal, &[first])
        }
    }
}

pub fn copy_book(_: Limits, book: &[u8], out: &mut [u8]) -> Answer {
    let mut written = UNSET;
    let refusal = fit::copy_book(book, out, &mut written);
    Answer::new(refusal, &[written])
}

pub fn store_book(_: Limits, book: &[u8], out: &mut [u8], list: &mut [u8]) -> Answer {
    let (mut written, mut list_written) = (UNSET, UNSET);
    let refusal = fit::store_book(book, out, list, &mut written, &mut list_written);
    Answer::new(refusal, &[written, list_written])
}

pub fn restore_book(_: Limits, book: &[u8], list: &[u8], out: &mut [u8]) -> Answer {
    let mut written = UNSET;
    let refusal = fit::restore_book(book, list, out, &mut written);
    Answer::new(refusal, &[written])
}
