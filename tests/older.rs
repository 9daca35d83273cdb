//! Areas that the library of interface 2 (commit 54f793f) made, when a symbol had to have one arity in a book: they stay sound, with the
//! report and the book that it gave. They are of random books and of some at the limits: full tables, the largest among them, 256 lines,
//! 1,023 bindings. older_areas.txt has of each its length in bytes, its book and its report in hexadecimal, and its words that are not
//! zero, a run to a line: the number of the first, then the values. Linked with that library, these tests pass too.

use crate::fit;
use crate::reference::{faults, OFFICE};
use crate::samples::Tally;

const AREAS: usize = 64;

#[derive(Default)]
struct Older {
    area: Vec<u8>,
    book: Vec<u8>,
    report: Vec<u8>,
}

fn hexadecimal(text: &str) -> Vec<u8> {
    (0..text.len()).step_by(2).map(|i| u8::from_str_radix(&text[i..i + 2], 16).expect("bytes in hexadecimal")).collect()
}

impl Older {
    /// Takes in a line of the file behind the area's length.
    fn line(&mut self, line: &str) {
        let (first, rest) = line.split_once(' ').expect("a word, and more");
        match first {
            "book" => self.book = hexadecimal(rest),
            "report" => self.report = hexadecimal(rest),
            _ => {
                let start: usize = first.parse().expect("the number of a word");
                for (i, value) in rest.split(' ').enumerate() {
                    let value: u32 = value.parse().expect("a word");
                    self.area[4 * (start + i)..][..4].copy_from_slice(&value.to_le_bytes());
                }
            }
        }
    }

    /// Whether the second implementation finds no fault, and the library gives the report and the book and leaves the area.
    fn holds(&self) -> bool {
        let area = self.area.clone();
        let gives = |put: fn(&[u8], &mut [u8], &mut u32) -> u32, expected: &[u8]| {
            let (mut out, mut written) = (vec![0xEE; expected.len()], 0);
            put(&area, &mut out, &mut written) == 0 && written as usize == expected.len() && out == expected
        };
        faults(OFFICE, &area).is_empty() && gives(fit::report, &self.report) && gives(fit::write, &self.book) && area == self.area
    }
}

fn areas() -> Vec<Older> {
    let mut areas: Vec<Older> = Vec::new();
    for line in include_str!("older_areas.txt").lines() {
        match line.strip_prefix("area ") {
            Some(length) => areas.push(Older { area: vec![0; length.parse().expect("a length")], ..Older::default() }),
            None => areas.last_mut().expect("an area first").line(line),
        }
    }
    areas
}

pub fn run(tally: &mut Tally) {
    let areas = areas();
    tally.test("all older areas are there", areas.len() == AREAS);
    for (i, older) in areas.iter().enumerate() {
        tally.test(&format!("older area {i} is sound and gives its report and its book"), older.holds());
    }
}
