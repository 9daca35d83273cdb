//! Compares opening and copying a book, through the C interface, with the second implementation, on random books, valid and
//! damaged, some of no bytes; and tests on both that a book which breaks off after its first byte is refused with 1. Every case is made
//! from its own seed, which is printed where the two differ. It fails where some kind of case never occurs.

#[cfg_attr(stand_in, path = "stand_in.rs")]
mod fit;
#[macro_use]
mod kinds;
mod library;
mod reference;
mod samples;

use reference::{bytes_of, copy_book, decode, encode, first_seed, has_arities, has_two_arities, perform, random_book, times, written_back};
use reference::{Answer, Call, Random, Term, OFFICE};
use samples::Tally;

const CASES: u64 = 120_000;
const SEED: u64 = 0x5EED_0000_0000_0000;
/// Of one valid book in so many, if it has at most so many bytes, every front is tried.
const FRONTS_EVERY: u64 = 8;
const FRONTS_MOST: usize = 200;
const FILLING: u8 = 0xEE;

kinds! {
    NoBytesOpened, "a book of no bytes opened";
    NoBytesInShortArea, "a book of no bytes refused with 7";
    NoBytesCopied, "a book of no bytes copied into an output of one byte";
    NoBytesCopiedLonger, "a book of no bytes copied into a longer output";
    NoBytesNoOutput, "a book of no bytes refused with 13";
    BrokenOff, "a book that breaks off after its first byte, refused with 1";
    TwoAritiesOpened, "a book with a symbol of two arities opened";
    TwoAritiesCopied, "a book with a symbol of two arities copied";
    Arities0, "a valid book with a symbol of arities 0 and 1";
    Arities7, "a valid book with a symbol of arities 7 and 8";
    OneArity, "a valid book in which each symbol has one arity";
    Valid, "a valid book";
    Fronts, "a valid book of which every front is tried";
}

/// The two calls, and the answers that docs/SPEC.md gives each: 0 and its refusals.
const CALLS: [(&str, &[usize]); 2] = [("opening", &[0, 1, 2, 3, 4, 5, 7]), ("copying", &[0, 1, 2, 3, 4, 5, 13])];
const ANSWERS: usize = 15;

/// How often each answer and each kind of case occurred.
#[derive(Default)]
struct Census {
    answers: [[u64; ANSWERS]; CALLS.len()],
    kinds: [u64; KINDS.len()],
}

impl Census {
    fn note(&mut self, kind: Kind, occurs: bool) {
        self.kinds[kind as usize] += u64::from(occurs);
    }

    /// Whether each call gave every answer that it can give, and no other.
    fn has_all_answers(&self) -> bool {
        let complete = |(counts, (_, possible)): (&[u64; ANSWERS], &(&str, &[usize]))| (0..ANSWERS).all(|i| (counts[i] > 0) == possible.contains(&i));
        self.answers.iter().zip(&CALLS).all(complete)
    }

    fn print(&self) {
        for ((what, _), answers) in CALLS.iter().zip(&self.answers) {
            let counts: Vec<String> = (0..ANSWERS).filter(|&i| answers[i] > 0).map(|i| format!("{i}: {}", answers[i])).collect();
            println!("{what}, by answer: {}", counts.join(", "));
        }
        kinds::print(KINDS, &self.kinds);
    }

    /// A valid book, and whether it was opened and copied.
    fn valid(&mut self, terms: &[Term], [opened, copied]: [bool; 2]) {
        let two_arities = has_two_arities(terms);
        self.note(Kind::Valid, true);
        self.note(Kind::TwoAritiesOpened, two_arities && opened);
        self.note(Kind::TwoAritiesCopied, two_arities && copied);
        self.note(Kind::Arities0, has_arities(terms, [0, 1]));
        self.note(Kind::Arities7, has_arities(terms, [7, 8]));
        self.note(Kind::OneArity, !two_arities && !terms.is_empty());
    }

    fn opening(&mut self, book: &[u8], answer: &Answer) {
        self.answers[0][answer.refusal as usize] += 1;
        self.note(Kind::NoBytesOpened, book.is_empty() && answer.refusal == 0);
        self.note(Kind::NoBytesInShortArea, book.is_empty() && answer.refusal == 7);
        self.note(Kind::BrokenOff, !book.is_empty() && answer.refusal == 1);
    }

    fn copying(&mut self, book: &[u8], length: usize, answer: &Answer) {
        self.answers[1][answer.refusal as usize] += 1;
        self.note(Kind::NoBytesCopied, book.is_empty() && answer.refusal == 0 && length == 1);
        self.note(Kind::NoBytesCopiedLonger, book.is_empty() && answer.refusal == 0 && length > 1);
        self.note(Kind::NoBytesNoOutput, book.is_empty() && answer.refusal == 13);
    }
}

/// The bytes of a random book, and in three cases of four damaged: cut, a byte changed, or a byte added.
fn random_bytes(random: &mut Random) -> Vec<u8> {
    let count = match random.below(64) {
        0 => 1024,
        1..=3 => random.below(1025),
        4 => 1025,
        _ => random.below(24),
    } as usize;
    let terms = random_book(random, count);
    let mut bytes = bytes_of(random, &terms);
    let at = random.below(bytes.len() as u64 + 1) as usize;
    match random.below(4) {
        0 => bytes.truncate(at),
        1 if at < bytes.len() => bytes[at] = damage(random, bytes[at]),
        2 => bytes.insert(at, random.next() as u8),
        _ => {}
    }
    bytes
}

/// Another byte, often a near one.
fn damage(random: &mut Random, byte: u8) -> u8 {
    match random.below(4) {
        0 => byte ^ 0x80,
        1 => byte.wrapping_add(1),
        2 => byte.wrapping_sub(1),
        _ => random.next() as u8,
    }
}

fn random_capacity(random: &mut Random) -> u32 {
    match random.below(40) {
        0 => 0,
        1 => 2048,
        2 => 2049,
        3 => random.next() as u32,
        4 => 1 + random.below(2048) as u32,
        _ => 1 + random.below(4) as u32,
    }
}

/// Whether opening agrees in the answer and in every byte of the area, and whether it is accepted.
fn open_agrees(random: &mut Random, book: &[u8], census: &mut Census) -> [bool; 2] {
    let capacity = random_capacity(random);
    let needed = OFFICE.area_length(capacity);
    let length = match random.below(16) {
        0 => needed.saturating_sub(1),
        1 => random.below(needed as u64 + 1) as usize,
        2 => needed,
        _ => needed + random.below(40) as usize,
    };
    let filling = random.next() as u8;
    let mut ours = vec![filling; length];
    let mut theirs = vec![filling; length];
    let same_length = fit::area_length(capacity) == needed;
    let expected = perform(OFFICE, Call::Open { capacity, book }, &mut theirs, &mut []);
    let same_answer = fit::open(capacity, book, &mut ours) == expected.refusal;
    census.opening(book, &expected);
    [same_length && same_answer && ours == theirs, expected.refusal == 0]
}

/// Whether copying agrees in the answer, the count and every byte of the output, and whether it is accepted.
fn copy_agrees(random: &mut Random, book: &[u8], census: &mut Census) -> [bool; 2] {
    let needed = written_back(book).len();
    let length = match random.below(4) {
        0 => random.place(needed + 1),
        1 => needed,
        _ => needed + random.place(20),
    };
    let filling = random.next() as u8;
    let mut ours = vec![filling; length];
    let mut theirs = vec![filling; length];
    let answer = library::copy_book(OFFICE, book, &mut ours);
    let expected = copy_book(OFFICE, book, &mut theirs);
    census.copying(book, length, &expected);
    [answer == expected && ours == theirs, expected.refusal == 0]
}

/// A valid book cut anywhere after its first byte is refused with 1 by both, opened and copied, and area and output stay.
fn fronts_are_refused(book: &[u8]) -> bool {
    let (mut area, mut out) = (vec![FILLING; OFFICE.area_length(1)], [FILLING; FRONTS_MOST]);
    let refused = Answer::new(1, &[]);
    let are_refused = (1..book.len()).all(|length| {
        let book = &book[..length];
        let copied = [copy_book, library::copy_book].map(|copy| copy(OFFICE, book, &mut out));
        let opened = [perform, library::perform].map(|perform| perform(OFFICE, Call::Open { capacity: 1, book }, &mut area, &mut []));
        copied == [refused; 2] && opened == [refused; 2]
    });
    are_refused && area.iter().chain(&out).all(|&byte| byte == FILLING)
}

/// Whether opening agrees, whether copying does, and whether what breaks off is refused with 1.
fn run_case(seed: u64, census: &mut Census) -> [bool; 3] {
    let random = &mut Random(seed);
    let book = random_bytes(random);
    let [open_agrees, opened] = open_agrees(random, &book, census);
    let [copy_agrees, copied] = copy_agrees(random, &book, census);
    let Ok(terms) = decode(OFFICE, &book) else {
        return [open_agrees, copy_agrees, true];
    };
    assert_eq!(encode(&terms), written_back(&book), "the second implementation itself does not write back what it read");
    let are_tried = book.len() <= FRONTS_MOST && random.below(FRONTS_EVERY) == 0;
    census.valid(&terms, [opened, copied]);
    census.note(Kind::Fronts, are_tried && book.len() > 1);
    [open_agrees, copy_agrees, !are_tried || fronts_are_refused(&book)]
}

fn main() {
    let mut tally = Tally::default();
    samples::run_copies(OFFICE, copy_book, &mut tally);
    samples::run_copies(OFFICE, library::copy_book, &mut tally);
    let (first, cases) = (first_seed(SEED), CASES * times());
    let mut census = Census::default();
    let mut failures = [0; 3];
    for seed in first..first + cases {
        let holds = run_case(seed, &mut census);
        for (i, what) in ["opening differs", "copying differs", "a book that breaks off is not refused with 1"].iter().enumerate() {
            if !holds[i] {
                println!("{what}: seed {seed:#x}, book {:02x?}", random_bytes(&mut Random(seed)));
                failures[i] += 1;
            }
        }
        if failures.iter().sum::<u64>() > 20 {
            break;
        }
    }
    println!("{cases} random books from seed {first:#x}; opening, copying and fronts: {failures:?} differ");
    census.print();
    let missing = kinds::missing(KINDS, &census.kinds);
    tally.test("opening agrees", failures[0] == 0);
    tally.test("copying agrees", failures[1] == 0);
    tally.test("a book that breaks off after its first byte is refused with 1", failures[2] == 0);
    tally.test("each call gives every answer that it can give, and no other", census.has_all_answers());
    tally.test(&format!("every kind of case occurs, but: {missing:?}"), missing.is_empty());
    tally.finish()
}
