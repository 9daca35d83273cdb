//! The worked samples of docs/SPEC.md and the example of docs/LAYOUT.md, for any implementation of the six calls; those of copying, storing
//! and restoring, for any implementation of these.

// Each program uses a part.
#![allow(dead_code)]

use crate::reference::{encode, written_back, Answer, Call, CopyBook, Limits, Perform, Restore, Store, Term};

const BOOK_A: &[u8] = &[6, 0, 4, 0, 2, 1, 0, 2, 1, 1, 3, 2, 2, 0, 3, 2, 3, 1];
const BOOK_B: &[u8] = &[5, 0, 0, 4, 0, 2, 1, 1, 2, 1, 2];
/// Books with a symbol of two arities: s3(s2(s0)) and s3(s2(s0, s1)); a variable beside s1(s0) and s1(s0, s0); s0 and s0(s0).
const BOOK_F: &[u8] = &[6, 1, 0, 2, 0, 3, 1, 0, 3, 2, 0, 1, 4, 1, 2, 4, 1, 3];
const BOOK_G: &[u8] = &[4, 0, 1, 0, 2, 1, 1, 2, 2, 1, 1];
const LEAST_UNLIKE: &[u8] = &[2, 1, 0, 1, 1, 0];
const FILLING: u8 = 0xEE;

/// A call, its refusal number and its other numbers.
type Step = (Call<'static>, u32, &'static [u32]);

struct Sample {
    name: &'static str,
    book: &'static [u8],
    steps: &'static [Step],
    report: &'static [u8],
    /// The first fields of each entry, as far as the arguments go, and same-as.
    entries: &'static [(&'static [u32], u32)],
}

const fn add(l: u32, r: u32, entry: &'static [u32]) -> Step {
    (Call::Add { l, r }, 0, entry)
}

const fn bind(v: u32, t: u32, counts: &'static [u32]) -> Step {
    (Call::Bind { v, t }, 0, counts)
}

const fn bind_refused(v: u32, t: u32, refusal: u32) -> Step {
    (Call::Bind { v, t }, refusal, &[])
}

/// The samples but for B2, which has a capacity of its own, and the traps that have numbers.
const SAMPLES: &[Sample] = &[
    Sample {
        name: "A1",
        book: BOOK_A,
        steps: &[add(4, 5, &[0])],
        report: &[1, 0, 3, 4, 5, 3, 2, 1, 2, 2, 3, 2, 1, 2, 0, 1, 0],
        entries: &[(&[4, 5, 1, 2, 2, 1, 2], 0), (&[2, 3, 1, 1, 1, 2], 1), (&[0, 1], 2)],
    },
    Sample {
        name: "A2",
        book: BOOK_A,
        steps: &[add(4, 5, &[0]), bind(0, 1, &[1, 0])],
        report: &[1, 0, 3, 4, 4, 3, 2, 1, 2, 2, 2, 2, 1, 2, 0, 0, 4, 0],
        entries: &[(&[4, 5, 1, 2, 2, 1, 2], 0), (&[2, 3, 1, 1, 1, 2], 1), (&[0, 1, 1, 3], 2)],
    },
    Sample {
        name: "A3 before the binding",
        book: BOOK_A,
        steps: &[add(0, 3, &[0]), add(1, 3, &[1])],
        report: &[2, 0, 1, 2, 0, 3, 0, 1, 3, 0],
        entries: &[(&[0, 3], 0), (&[1, 3], 1)],
    },
    Sample {
        name: "A3",
        book: BOOK_A,
        steps: &[add(0, 3, &[0]), add(1, 3, &[1]), bind(0, 1, &[0, 0])],
        report: &[2, 0, 0, 1, 0, 2, 0],
        entries: &[(&[0, 3], 0), (&[1, 3], 0)],
    },
    Sample { name: "A4", book: BOOK_A, steps: &[bind_refused(0, 2, 10)], report: &[0, 0], entries: &[] },
    Sample {
        name: "B1",
        book: BOOK_B,
        steps: &[add(0, 4, &[0]), bind(0, 3, &[1, 1])],
        report: &[1, 0, 2, 0, 4, 2, 1, 1, 1, 2, 0],
        entries: &[(&[0, 4, 1, 1, 1, 1], 0), (&[1, 2], 1)],
    },
    Sample {
        name: "B3",
        book: BOOK_B,
        steps: &[add(0, 4, &[0]), bind(0, 3, &[1, 1]), bind(1, 2, &[1, 0])],
        report: &[1, 0, 2, 0, 0, 2, 1, 1, 1, 1, 4, 0],
        entries: &[(&[0, 4, 1, 1, 1, 1], 0), (&[1, 2, 1, 3], 1)],
    },
    Sample { name: "B4", book: BOOK_B, steps: &[add(1, 1, &[0])], report: &[1, 0, 1, 1, 1, 0], entries: &[(&[1, 1], 0)] },
    Sample { name: "B5", book: BOOK_B, steps: &[bind(0, 1, &[0, 0]), bind_refused(1, 0, 10)], report: &[0, 0], entries: &[] },
    Sample { name: "Z1", book: &[0], steps: &[], report: &[0, 0], entries: &[] },
    Sample { name: "Z1 of no bytes", book: &[], steps: &[(Call::Add { l: 0, r: 0 }, 8, &[])], report: &[0, 0], entries: &[] },
    Sample {
        name: "F1",
        book: BOOK_F,
        steps: &[add(4, 5, &[0])],
        report: &[1, 0, 2, 4, 5, 4, 1, 1, 2, 3, 0],
        entries: &[(&[4, 5, 1, 3, 1, 1], 0), (&[2, 3], 1)],
    },
    Sample {
        name: "F2",
        book: BOOK_G,
        steps: &[add(0, 2, &[0]), add(0, 3, &[1]), bind(0, 3, &[1, 1])],
        report: &[2, 0, 1, 3, 0, 2, 0, 0, 0, 2, 2, 2, 2, 1, 1, 1, 0],
        entries: &[(&[0, 2], 0), (&[0, 3, 1, 1, 2, 2, 2], 1), (&[1, 1, 1], 2)],
    },
    Sample { name: "F3", book: LEAST_UNLIKE, steps: &[add(0, 1, &[0])], report: &[1, 0, 1, 0, 1, 0], entries: &[(&[0, 1], 0)] },
    Sample {
        name: "a pair has an order",
        book: BOOK_B,
        steps: &[add(0, 1, &[0]), add(1, 0, &[1])],
        report: &[2, 0, 1, 2, 0, 1, 0, 1, 0, 0],
        entries: &[(&[0, 1], 0), (&[1, 0], 1)],
    },
    Sample {
        name: "a later line is walked as the first",
        book: BOOK_A,
        steps: &[add(0, 1, &[0]), add(4, 5, &[1])],
        report: &[2, 0, 1, 3, 0, 1, 0, 4, 5, 3, 2, 2, 0, 2, 3, 2, 1, 0],
        entries: &[(&[0, 1], 0), (&[4, 5, 1, 2, 2, 2, 0], 1), (&[2, 3, 1, 1, 1, 0], 2)],
    },
];

const B2: Sample = Sample {
    name: "B2",
    book: BOOK_B,
    steps: &[add(0, 4, &[0]), bind_refused(0, 3, 11)],
    report: &[1, 0, 1, 0, 4, 0],
    entries: &[(&[0, 4], 0)],
};

/// Books that are refused: the examples of refusals 1 to 5, the table of numbers and the table of orders.
const REFUSED_BOOKS: &[(&[u8], u32)] = &[
    (&[0x01], 1),
    (&[0x80, 0x00], 2),
    (&[0x00, 0x05], 3),
    (&[0x81, 0x08], 4),
    (&[0x01, 0x01, 0x01, 0x00], 5),
    (&[0x80], 1),
    (&[0x80, 0x80], 1),
    (&[0x02, 0x00], 1),
    (&[0x80, 0x80, 0x00], 2),
    (&[0x80, 0x80, 0x80], 2),
    (&[0x80, 0x80, 0x80, 0x01], 2),
    (&[0x80, 0x80, 0x04], 2),
    (&[0xFF, 0xFF, 0x03], 4),
    (&[0x01, 0x81, 0x20], 4),
    (&[0x02, 0x01, 0x00, 0x01, 0x09, 0x80], 4),
    (&[0x03, 0x00, 0x02, 0x01, 0x00, 0x02, 0x02, 0x05, 0x05], 5),
    (&[0x02, 0x00, 0x01, 0x02, 0x05, 0x80, 0x00], 5),
    (&[0x02, 0x00, 0x01, 0x02, 0x80, 0x00, 0x05], 2),
];

/// A book, a capacity, and calls of which the last is refused: the examples of refusals 8 to 11, and two reasons at a time.
const REFUSED_CALLS: &[(&[u8], u32, &[Step])] = &[
    (&[2, 0, 0], 1, &[bind_refused(9, 0, 8)]),
    (&[2, 0, 0], 1, &[bind_refused(0, 2, 8)]),
    (&[2, 0, 0], 1, &[(Call::Add { l: 0, r: 2 }, 8, &[])]),
    (&[2, 0, 0], 1, &[(Call::Add { l: u32::MAX, r: 0 }, 8, &[])]),
    (&[2, 0, 0], 1, &[(Call::Entry { i: 0 }, 8, &[])]),
    (&[1, 1, 0], 1, &[bind_refused(0, 0, 9)]),
    (&[2, 0, 0], 1, &[bind(0, 1, &[0, 0]), bind_refused(0, 0, 9)]),
    (&[1, 0], 1, &[bind_refused(0, 0, 10)]),
    (BOOK_A, 1, &[(Call::Add { l: 4, r: 5 }, 11, &[])]),
    (BOOK_A, 1, &[add(0, 0, &[0]), (Call::Add { l: 4, r: 6 }, 8, &[])]),
    (BOOK_B, 1, &[add(0, 4, &[0]), bind_refused(0, 0, 10)]),
];

/// How many tests held; each that did not is printed.
#[derive(Default)]
pub struct Tally {
    pub passed: u32,
    pub failed: u32,
}

impl Tally {
    pub fn test(&mut self, what: &str, holds: bool) {
        if holds {
            self.passed += 1;
        } else {
            println!("failed: {what}");
            self.failed += 1;
        }
    }

    /// The last line of a program, and its exit.
    pub fn finish(&self) -> ! {
        println!("{} passed, {} failed", self.passed, self.failed);
        std::process::exit(i32::from(self.failed > 0));
    }
}

/// All samples at these limits.
pub fn run(limits: Limits, perform: Perform, tally: &mut Tally) {
    let subject = Subject { limits, perform };
    for sample in SAMPLES {
        tally.test(sample.name, subject.sample(sample, limits.capacity.min(1024)));
    }
    tally.test(B2.name, subject.sample(&B2, 1));
    for (book, refusal) in REFUSED_BOOKS {
        tally.test(&format!("book {book:02X?} is refused with {refusal}"), subject.refuses_book(book, *refusal));
    }
    for (book, capacity, steps) in REFUSED_CALLS {
        tally.test(&format!("book {book:?}: {steps:?}"), subject.refuses_call(book, *capacity, steps));
    }
    for book in WHOLE_BOOKS {
        tally.test(&format!("each front of book {book:02X?} is refused with 1"), fronts(book).all(|front| subject.refuses_book(front, 1)));
    }
    tally.test("no bytes open as book 00", subject.opened(&[], 1).is_some() && subject.opened(&[], 1) == subject.opened(&[0], 1));
    tally.test("opening: 4 before 7 before the book", subject.opens_in_order());
    tally.test("an area of length 0 is refused with 7", subject.refuses_short());
    tally.test("a line too many: 8 before 12 before 11", subject.refuses_line_too_many());
    tally.test("an output too short is refused with 13", subject.refuses_short_output());
}

/// What a book is when it breaks off after its first byte.
fn fronts(book: &[u8]) -> impl Iterator<Item = &[u8]> {
    (1..book.len()).map(|length| &book[..length])
}

struct Subject {
    limits: Limits,
    perform: Perform,
}

impl Subject {
    /// Makes a call; true where the answer is the expected one, and a refusal left the area.
    fn makes(&self, area: &mut [u8], (call, refusal, numbers): &Step) -> bool {
        let before = area.to_vec();
        let answer = (self.perform)(self.limits, *call, area, &mut []);
        answer == Answer::new(*refusal, numbers) && (*refusal == 0 || *area == before)
    }

    /// An area, one byte longer than needed, that held something else; with a book opened.
    fn opened(&self, book: &[u8], capacity: u32) -> Option<Vec<u8>> {
        let mut area = vec![FILLING; self.limits.area_length(capacity) + 1];
        let opened = (self.perform)(self.limits, Call::Open { capacity, book }, &mut area, &mut []) == Answer::new(0, &[]);
        (opened && area.last() == Some(&FILLING)).then_some(area)
    }

    /// The calls, the report, the book and the entries of a sample.
    fn sample(&self, sample: &Sample, capacity: u32) -> bool {
        let Some(mut area) = self.opened(sample.book, capacity) else {
            return false;
        };
        sample.steps.iter().all(|step| self.makes(&mut area, step))
            && puts(sample.report, |out| (self.perform)(self.limits, Call::Report, &mut area, out))
            && puts(written_back(sample.book), |out| (self.perform)(self.limits, Call::Write, &mut area, out))
            && self.has_entries(&mut area, sample.entries)
    }

    fn has_entries(&self, area: &mut [u8], entries: &[(&[u32], u32)]) -> bool {
        let count = entries.len() as u32;
        entries.iter().zip(0..).all(|((first, same_as), i)| {
            let mut fields = Answer::new(0, first);
            fields.numbers[13] = *same_as;
            (self.perform)(self.limits, Call::Entry { i }, area, &mut []) == fields
        }) && self.makes(area, &(Call::Entry { i: count }, 8, &[]))
    }

    fn refuses_book(&self, book: &[u8], refusal: u32) -> bool {
        let mut area = vec![FILLING; self.limits.area_length(1)];
        let answer = (self.perform)(self.limits, Call::Open { capacity: 1, book }, &mut area, &mut []);
        answer == Answer::new(refusal, &[]) && area.iter().all(|&byte| byte == FILLING)
    }

    fn refuses_call(&self, book: &[u8], capacity: u32, steps: &[Step]) -> bool {
        self.opened(book, capacity).is_some_and(|mut area| steps.iter().all(|step| self.makes(&mut area, step)))
    }

    fn opens_in_order(&self) -> bool {
        let opening = |book, capacity, length| {
            let mut area = vec![FILLING; length];
            let answer = (self.perform)(self.limits, Call::Open { capacity, book }, &mut area, &mut []);
            (answer.refusal, area.iter().all(|&byte| byte == FILLING))
        };
        let (least, most) = (self.limits.area_length(1), self.limits.area_length(self.limits.capacity));
        let before_book = |book| {
            opening(book, 0, 0) == (4, true)
                && opening(book, self.limits.capacity + 1, most + 100) == (4, true)
                && opening(book, 1, least - 1) == (7, true)
        };
        before_book(&[]) && before_book(&[1]) && opening(&[1], self.limits.capacity, most) == (1, true)
    }

    fn refuses_short(&self) -> bool {
        let calls = [Call::Add { l: 0, r: 0 }, Call::Bind { v: 0, t: 0 }, Call::Entry { i: 0 }, Call::Report, Call::Write];
        calls.iter().all(|call| self.makes(&mut [], &(*call, 7, &[])))
    }

    fn refuses_line_too_many(&self) -> bool {
        let Some(mut area) = self.opened(BOOK_B, 1) else {
            return false;
        };
        (0..self.limits.lines).all(|_| self.makes(&mut area, &add(1, 1, &[0])))
            && self.makes(&mut area, &(Call::Add { l: 1, r: 1 }, 12, &[]))
            && self.makes(&mut area, &(Call::Add { l: 0, r: 1 }, 12, &[]))
            && self.makes(&mut area, &(Call::Add { l: 1, r: 5 }, 8, &[]))
    }

    fn refuses_short_output(&self) -> bool {
        self.opened(BOOK_A, 1).is_some_and(|mut area| {
            self.makes(&mut area, &(Call::Report, 13, &[])) && self.makes(&mut area, &(Call::Write, 13, &[]))
        })
    }
}

/// The example of docs/LAYOUT.md: the words that are not zero, after the opening and after the line and the binding.
pub fn layout_example(limits: Limits, perform: Perform, tally: &mut Tally) {
    let subject = Subject { limits, perform };
    let terms = [
        (1, 6), (14, 4), (24, 2), (25, 1), (34, 2), (35, 1), (36, 1), (44, 3), (45, 2), (46, 2), (54, 3), (55, 2), (56, 3), (57, 1),
    ];
    let line = [(2, 3), (3, 1)];
    let row = |first: usize, row: &[u32]| -> Vec<(usize, u32)> { (first..).zip(row.iter().copied()).filter(|place| place.1 > 0).collect() };
    let entries = [row(11_524, &[4, 5, 1, 2, 2, 1, 2]), row(11_538, &[2, 3, 1, 1, 1, 2, 0, 0, 0, 0, 0, 0, 0, 1])].concat();
    let hole = row(11_552, &[0, 1, 0, 0, 0, 0, 0, 0, 0, 0, 0, 0, 0, 2]);
    let common = row(11_552, &[0, 1, 1, 3, 0, 0, 0, 0, 0, 0, 0, 0, 0, 2]);
    let mut area = subject.opened(BOOK_A, 4).unwrap_or_default();
    let capacity = [(0, 4)];
    tally.test("layout: needed length", limits.area_length(4) == 46_320);
    tally.test("layout: opened", used_words(&area) == sorted(&[&capacity, &terms]));
    let added = subject.makes(&mut area, &add(4, 5, &[0]));
    tally.test("layout: line", added && used_words(&area) == sorted(&[&capacity, &terms, &line, &entries, &hole]));
    let bound = subject.makes(&mut area, &bind(0, 1, &[1, 0]));
    tally.test("layout: binding", bound && used_words(&area) == sorted(&[&capacity, &terms, &line, &[(10_244, 2)], &entries, &common]));
}

/// The words of an area that are not zero, each with its number.
fn used_words(area: &[u8]) -> Vec<(usize, u32)> {
    let words = area.chunks_exact(4).map(|bytes| u32::from_le_bytes([bytes[0], bytes[1], bytes[2], bytes[3]]));
    words.enumerate().filter(|place| place.1 > 0).collect()
}

fn sorted(parts: &[&[(usize, u32)]]) -> Vec<(usize, u32)> {
    let mut all = parts.concat();
    all.sort_unstable();
    all
}

/// The book in which three terms change places in a ring, as it is and as it is stored, and its list.
const RING: (&[u8], &[u8], &[u8]) = (&[4, 1, 0, 2, 1, 0, 0, 3, 2, 1, 2], &[4, 0, 1, 0, 2, 1, 1, 3, 2, 2, 0], &[2, 0, 1, 3]);
/// The same of a book in which symbol 0 has arities 0, 2 and 1.
const UNLIKE: (&[u8], &[u8], &[u8]) = (&[4, 1, 0, 0, 1, 2, 0, 1, 1, 1, 2], &[4, 0, 1, 0, 1, 2, 1, 0, 1, 1, 2], &[1, 0, 2, 3]);
const NO_TERMS: (&[u8], &[u8], &[u8]) = (&[0], &[0], &[]);
const NO_BYTES: (&[u8], &[u8], &[u8]) = (&[], &[0], &[]);

/// Books that are valid.
const WHOLE_BOOKS: [&[u8]; 6] = [BOOK_A, BOOK_B, RING.0, BOOK_F, BOOK_G, LEAST_UNLIKE];

/// A variable, symbol 0 and symbol 1 over it; lists that are refused with it where the output has 6 bytes, and with what.
const LISTED: &[u8] = &[3, 0, 1, 0, 2, 1, 1];
const REFUSED_LISTS: &[(&[u8], u32)] = &[
    (&[], 1),
    (&[0x09, 0x09], 1),
    (&[0x09, 0x80, 0x00], 2),
    (&[0x09, 0x09, 0x09, 0x09], 3),
    (&[0x01, 0x00, 0x02, 0x80], 3),
    (&[0x01, 0x01, 0x03], 8),
    (&[0x02, 0x02, 0x00], 14),
    (&[0x00, 0x02, 0x01], 5),
    (&[0x01, 0x00, 0x02], 13),
];

/// The samples' books, and those that are refused, copied.
pub fn run_copies(limits: Limits, copy: CopyBook, tally: &mut Tally) {
    for book in WHOLE_BOOKS.into_iter().chain([NO_TERMS.0, NO_BYTES.0]) {
        tally.test(&format!("book {book:02X?} is copied"), puts(written_back(book), |out| copy(limits, book, out)));
    }
    for (book, refusal) in REFUSED_BOOKS {
        let refuses = [0, 20].into_iter().all(|length| {
            let mut out = vec![FILLING; length];
            copy(limits, book, &mut out) == Answer::new(*refusal, &[]) && out == vec![FILLING; length]
        });
        tally.test(&format!("book {book:02X?} is refused with {refusal} by copying"), refuses);
    }
}

/// The samples of storing and restoring.
pub fn run_archive(limits: Limits, store: Store, restore: Restore, tally: &mut Tally) {
    let subject = Archive { limits, store, restore };
    let samples = [("the ring", RING), ("a symbol of three arities", UNLIKE), ("the book without terms", NO_TERMS), ("the book of no bytes", NO_BYTES)];
    for (what, sample) in samples {
        tally.test(&format!("{what} is stored"), subject.stores(sample));
        tally.test(&format!("{what} is restored"), subject.restores(sample.1, sample.2, written_back(sample.0)));
    }
    tally.test("no bytes are restored as 00", subject.restores(&[], &[], &[0]));
    for (book, refusal) in REFUSED_BOOKS {
        tally.test(&format!("book {book:02X?} is refused with {refusal} in the archive"), subject.refuses_book(book, *refusal));
    }
    for (list, refusal) in REFUSED_LISTS {
        tally.test(&format!("list {list:02X?} is refused with {refusal}"), subject.refuses(LISTED, list, *refusal));
    }
    tally.test("a list that is no stored book's restores", subject.restores(LISTED, &[1, 0, 2], &[3, 1, 0, 0, 2, 1, 0]));
    for list in [&[0][..], &[0x80], &[0x80, 0]] {
        let refuses = [&[][..], &[0]].iter().all(|book| subject.refuses(book, list, 3));
        tally.test(&format!("list {list:02X?} with a book without terms is refused with 3"), refuses);
    }
    for book in WHOLE_BOOKS {
        tally.test(&format!("a list of no bytes with book {book:02X?} is refused with 1"), subject.refuses(book, &[], 1));
        let are_refused = fronts(book).all(|front| subject.refuses_book(front, 1));
        tally.test(&format!("each front of book {book:02X?} is refused with 1 in the archive"), are_refused);
    }
    tally.test("a stored book can be longer", subject.stores_longer());
}

struct Archive {
    limits: Limits,
    store: Store,
    restore: Restore,
}

impl Archive {
    /// The book is stored as this book with this list, where both outputs are long enough.
    fn stores(&self, (book, stored, list): (&[u8], &[u8], &[u8])) -> bool {
        let lengths = (0..stored.len() + 3).flat_map(|m| (0..list.len() + 3).map(move |n| (m, n)));
        lengths.into_iter().all(|(m, n)| {
            let [mut out, mut list_out] = [vec![FILLING; m], vec![FILLING; n]];
            let answer = (self.store)(self.limits, book, &mut out, &mut list_out);
            if m < stored.len() || n < list.len() {
                return answer == Answer::new(13, &[]) && out == vec![FILLING; m] && list_out == vec![FILLING; n];
            }
            answer == Answer::new(0, &[stored.len() as u32, list.len() as u32]) && begins(&out, stored) && begins(&list_out, list)
        })
    }

    /// Book and list restore this book, where the output is long enough.
    fn restores(&self, book: &[u8], list: &[u8], restored: &[u8]) -> bool {
        puts(restored, |out| (self.restore)(self.limits, book, list, out))
    }

    /// Restoring into an output of 6 bytes is refused.
    fn refuses(&self, book: &[u8], list: &[u8], refusal: u32) -> bool {
        let mut out = [FILLING; 6];
        (self.restore)(self.limits, book, list, &mut out) == Answer::new(refusal, &[]) && out == [FILLING; 6]
    }

    /// Both calls refuse the book, whatever its list and the outputs are.
    fn refuses_book(&self, book: &[u8], refusal: u32) -> bool {
        let stays = |length| {
            let [mut out, mut list] = [vec![FILLING; length], vec![FILLING; length]];
            let answer = (self.store)(self.limits, book, &mut out, &mut list);
            answer == Answer::new(refusal, &[]) && [out, list] == [vec![FILLING; length], vec![FILLING; length]]
        };
        stays(0) && stays(20) && [&[][..], &[0x80, 0x00], &[0]].iter().all(|list| self.refuses(book, list, refusal))
    }

    /// A constant, 150 terms over it and 149 variables.
    fn stores_longer(&self) -> bool {
        let over = |symbol, arguments: &[u32]| Term::Application { symbol, arguments: arguments.to_vec() };
        let terms = [vec![over(0, &[])], vec![over(1, &[0]); 150], vec![Term::Variable; 149]].concat();
        let book = encode(&terms);
        let [mut out, mut list] = [vec![FILLING; 753], vec![FILLING; 600]];
        let answer = (self.store)(self.limits, &book, &mut out, &mut list);
        let list_length = answer.numbers[1];
        book.len() == 603 && answer == Answer::new(0, &[753, list_length]) && self.restores(&out, &list[..list_length as usize], &book)
    }
}

/// Whether an output begins with these bytes, and the others are as they were.
fn begins(out: &[u8], bytes: &[u8]) -> bool {
    out.starts_with(bytes) && out[bytes.len()..].iter().all(|&byte| byte == FILLING)
}

/// Whether a call writes these bytes into an output that is just long enough or longer, and is refused by a shorter one.
fn puts(bytes: &[u8], mut call: impl FnMut(&mut [u8]) -> Answer) -> bool {
    (0..bytes.len() + 3).all(|length| {
        let mut out = vec![FILLING; length];
        let answer = call(&mut out);
        if length < bytes.len() {
            return answer == Answer::new(13, &[]) && out == vec![FILLING; length];
        }
        answer == Answer::new(0, &[bytes.len() as u32]) && begins(&out, bytes)
    })
}
