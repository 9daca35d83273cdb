//! The C interface, declared for Rust as include/fit.h declares it for C. A program links the calls that it makes.

// Each program uses a part.
#![allow(dead_code)]

extern "C" {
    #[link_name = "fit_area_length"]
    fn c_area_length(capacity: u32) -> usize;
    #[link_name = "fit_open"]
    fn c_open(capacity: u32, book: *const u8, book_length: usize, area: *mut u8, area_length: usize) -> u32;
    #[link_name = "fit_copy_book"]
    fn c_copy_book(book: *const u8, book_length: usize, out: *mut u8, out_length: usize, written: *mut u32) -> u32;
    #[link_name = "fit_store_book"]
    fn c_store_book(
        book: *const u8,
        book_length: usize,
        out: *mut u8,
        out_length: usize,
        list: *mut u8,
        list_length: usize,
        written: *mut u32,
        list_written: *mut u32,
    ) -> u32;
    #[link_name = "fit_restore_book"]
    fn c_restore_book(
        book: *const u8,
        book_length: usize,
        list: *const u8,
        list_length: usize,
        out: *mut u8,
        out_length: usize,
        written: *mut u32,
    ) -> u32;
    #[link_name = "fit_add"]
    fn c_add(area: *mut u8, area_length: usize, l: u32, r: u32, entry: *mut u32) -> u32;
    #[link_name = "fit_bind"]
    fn c_bind(area: *mut u8, area_length: usize, v: u32, t: u32, turned: *mut u32, appended: *mut u32) -> u32;
    #[link_name = "fit_entry"]
    fn c_entry(area: *const u8, area_length: usize, i: u32, fields: *mut u32) -> u32;
    #[link_name = "fit_report"]
    fn c_report(area: *const u8, area_length: usize, out: *mut u8, out_length: usize, written: *mut u32) -> u32;
    #[link_name = "fit_write"]
    fn c_write(area: *const u8, area_length: usize, out: *mut u8, out_length: usize, written: *mut u32) -> u32;
}

pub fn area_length(capacity: u32) -> usize {
    unsafe { c_area_length(capacity) }
}

pub fn open(capacity: u32, book: &[u8], area: &mut [u8]) -> u32 {
    unsafe { c_open(capacity, book.as_ptr(), book.len(), area.as_mut_ptr(), area.len()) }
}

pub fn copy_book(book: &[u8], out: &mut [u8], written: &mut u32) -> u32 {
    unsafe { c_copy_book(book.as_ptr(), book.len(), out.as_mut_ptr(), out.len(), written) }
}

pub fn store_book(book: &[u8], out: &mut [u8], list: &mut [u8], written: &mut u32, list_written: &mut u32) -> u32 {
    let (out_length, list_length) = (out.len(), list.len());
    unsafe { c_store_book(book.as_ptr(), book.len(), out.as_mut_ptr(), out_length, list.as_mut_ptr(), list_length, written, list_written) }
}

pub fn restore_book(book: &[u8], list: &[u8], out: &mut [u8], written: &mut u32) -> u32 {
    unsafe { c_restore_book(book.as_ptr(), book.len(), list.as_ptr(), list.len(), out.as_mut_ptr(), out.len(), written) }
}

pub fn add(area: &mut [u8], l: u32, r: u32, entry: &mut u32) -> u32 {
    unsafe { c_add(area.as_mut_ptr(), area.len(), l, r, entry) }
}

pub fn bind(area: &mut [u8], v: u32, t: u32, turned: &mut u32, appended: &mut u32) -> u32 {
    unsafe { c_bind(area.as_mut_ptr(), area.len(), v, t, turned, appended) }
}

pub fn entry(area: &[u8], i: u32, fields: &mut [u32; 14]) -> u32 {
    unsafe { c_entry(area.as_ptr(), area.len(), i, fields.as_mut_ptr()) }
}

pub fn report(area: &[u8], out: &mut [u8], written: &mut u32) -> u32 {
    unsafe { c_report(area.as_ptr(), area.len(), out.as_mut_ptr(), out.len(), written) }
}

pub fn write(area: &[u8], out: &mut [u8], written: &mut u32) -> u32 {
    unsafe { c_write(area.as_ptr(), area.len(), out.as_mut_ptr(), out.len(), written) }
}
