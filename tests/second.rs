//! The second implementation behind C functions, for tests/fuzz.c.

mod reference;

use reference::{copy_book, perform, restore_book, store_book, Call, OFFICE};
use std::slice::from_raw_parts_mut;

/// Bytes that C lends.
#[repr(C)]
pub struct Bytes {
    start: *mut u8,
    length: usize,
}

impl Bytes {
    /// The bytes, for the call that they are lent for.
    unsafe fn lent<'a>(self) -> &'a mut [u8] {
        from_raw_parts_mut(self.start, self.length)
    }
}

/// Makes the call with this number (`enum name` of tests/fuzz.c): gives the refusal, and in `numbers` the 14 numbers of the answer.
///
/// # Safety
/// The bytes are lent for the call and do not overlap, and there are 14 numbers.
#[no_mangle]
pub unsafe extern "C" fn second(name: u32, a: u32, b: u32, book: Bytes, area: Bytes, out: Bytes, numbers: *mut u32) -> u32 {
    let [book, area, out] = [book, area, out].map(|bytes| bytes.lent());
    let answer = match name {
        0 => perform(OFFICE, Call::Open { capacity: a, book }, area, out),
        1 => perform(OFFICE, Call::Add { l: a, r: b }, area, out),
        2 => perform(OFFICE, Call::Bind { v: a, t: b }, area, out),
        3 => perform(OFFICE, Call::Entry { i: a }, area, out),
        4 => perform(OFFICE, Call::Report, area, out),
        5 => perform(OFFICE, Call::Write, area, out),
        _ => copy_book(OFFICE, book, out),
    };
    from_raw_parts_mut(numbers, answer.numbers.len()).copy_from_slice(&answer.numbers);
    answer.refusal
}

/// Stores a book: gives the refusal, and in `numbers` the two lengths.
///
/// # Safety
/// The bytes are lent for the call and do not overlap, and there are two numbers.
#[no_mangle]
pub unsafe extern "C" fn second_store(book: Bytes, out: Bytes, list: Bytes, numbers: *mut u32) -> u32 {
    let answer = store_book(OFFICE, book.lent(), out.lent(), list.lent());
    from_raw_parts_mut(numbers, 2).copy_from_slice(&answer.numbers[..2]);
    answer.refusal
}

/// Restores a book: gives the refusal, and in `number` the length.
///
/// # Safety
/// The bytes are lent for the call and do not overlap.
#[no_mangle]
pub unsafe extern "C" fn second_restore(book: Bytes, list: Bytes, out: Bytes, number: *mut u32) -> u32 {
    let answer = restore_book(OFFICE, book.lent(), list.lent(), out.lent());
    *number = answer.numbers[0];
    answer.refusal
}
