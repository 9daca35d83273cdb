//! Counts what was stored and restored, so that a comparison fails where some kind of case never occurred.

use crate::kinds;
use crate::reference::{arguments_are_lower, decode, decode_numbers, has_arities, has_two_arities, written_back, Answer, Term, OFFICE};

/// The calls and their parts, and the answers that docs/SPEC.md gives each: 0 and its refusals.
const CALLS: [(&str, &[usize]); 3] = [
    ("storing", &[0, 1, 2, 3, 4, 5, 13]),
    ("restoring from bytes that are no book", &[1, 2, 3, 4, 5]),
    ("restoring from a book", &[0, 1, 2, 3, 5, 8, 13, 14]),
];
const ANSWERS: usize = 15;

kinds! {
    StoredInPlace, "a stored book that is the book";
    StoredInPairs, "a stored book with another list, which is its own inverse";
    StoredInRings, "a stored book with a list that is not its own inverse";
    StoredLonger, "a stored book longer than the book";
    StoredShorter, "a stored book shorter than the book";
    StoredNoTerms, "book 00 stored";
    StoredNoBytes, "a book of no bytes stored, into no output for the list";
    StoredNoBytesLonger, "a book of no bytes stored, into longer outputs";
    NoBytesNotStored, "storing a book of no bytes refused with 13";
    StoredOnlyVariables, "a book of variables alone stored";
    StoredNoVariables, "a book without variables stored";
    StoredFull, "a book of 1,024 terms stored";
    StoredTwoArities, "a book with a symbol of two arities stored";
    StoredArities0, "of these, with arity 0 and 1";
    StoredArities7, "of these, with arities 7 and 8";
    TermsAbove, "a book of 1,025 terms refused";
    BookShort, "storing refused with 13, by the output for the book alone";
    ListShort, "storing refused with 13, by the output for the list alone";
    BothShort, "storing refused with 13, by both";
    BookOneShort, "the output for the book one byte too short";
    ListOneShort, "the output for the list one byte too short";
    BothExact, "both outputs of just the lengths";
    BookOutputLonger, "storing into a longer output for the book";
    ListOutputLonger, "storing into a longer output for the list";
    StoredRestored, "a book stored, and restored by its own list";
    BadListToo, "a book that is refused, with a list that begins with a number not valid";
    CutBefore, "a list that ends before a number";
    CutWithin, "a list that ends within a number";
    CutNamesNothing, "a list refused with 1, and before that a number names no term";
    LongTwoBytes, "a list with a number not in shortest form, of two bytes";
    LongThreeBytes, "a list with a number not in shortest form, of three bytes";
    ThirdByte, "a list with a number with 80 set in its third byte";
    Above, "a list with a number above 65,535";
    BadNamesNothing, "a list refused with 2, and before that a number names no term";
    LeftOverWithin, "a list refused with 3, and what is left over is no number";
    LeftOverNamesNothing, "a list refused with 3, and a number names no term";
    LeftOverTwice, "a list refused with 3, and a term is named twice";
    NextTerm, "a list refused with 8, with the number after the last term alone";
    GreatestNumber, "a list refused with 8, with the number 65,535";
    TwiceNamesNothing, "a list refused with 8, and a term is named twice";
    TwiceNotLower, "a list refused with 14, and an argument gets no lower number";
    TwiceLower, "a list refused with 14, and every argument gets a lower number";
    TwiceNoOutput, "a list refused with 14, and the output has length 0";
    NotLowerShort, "a list refused with 5, and the output is too short";
    NotLowerLong, "a list refused with 5, and the output is long enough";
    OneByteShort, "restoring into an output one byte too short";
    Exact, "restoring into an output of just the length";
    OutputLonger, "restoring into a longer output";
    RestoredInRings, "a book restored by a list that is not its own inverse";
    RestoredAny, "a book restored in which a variable stands behind another term";
    RestoredLonger, "a restored book longer than the book";
    RestoredNoTerms, "book 00 restored";
    RestoredNoBytes, "a book of no bytes restored";
    NoBytesNotRestored, "restoring a book of no bytes refused with 13";
    NoBytesNumber, "a list refused with 3 beside a book of no bytes, and it begins with a number";
    NoBytesNoNumber, "a list refused with 3 beside a book of no bytes, and it begins with no number";
    EmptyList, "a list of no bytes beside a book with terms";
    RestoredFull, "a book of 1,024 terms restored";
    RestoredTwoArities, "a book with a symbol of two arities restored by a list that is not its own inverse";
}

/// What a run has seen.
pub struct Census {
    answers: [[u64; ANSWERS]; CALLS.len()],
    kinds: [u64; KINDS.len()],
}

impl Census {
    pub fn new() -> Census {
        Census { answers: [[0; ANSWERS]; CALLS.len()], kinds: [0; KINDS.len()] }
    }

    pub fn note(&mut self, kind: Kind, occurs: bool) {
        self.kinds[kind as usize] += u64::from(occurs);
    }

    /// Storing, where both outputs need and have these lengths.
    pub fn store(&mut self, book: &[u8], needed: [usize; 2], lengths: [usize; 2], answer: &Answer) {
        self.answers[0][answer.refusal as usize] += 1;
        self.note(Kind::TermsAbove, answer.refusal == 4 && book.starts_with(&[0x81, 0x08]));
        self.note(Kind::StoredNoBytes, answer.refusal == 0 && book.is_empty() && lengths[1] == 0);
        self.note(Kind::StoredNoBytesLonger, answer.refusal == 0 && book.is_empty() && lengths[0] > 1 && lengths[1] > 0);
        self.note(Kind::NoBytesNotStored, answer.refusal == 13 && book.is_empty());
        let short = [0, 1].map(|i| lengths[i] < needed[i]);
        if answer.refusal == 13 {
            self.note(Kind::BookShort, short == [true, false]);
            self.note(Kind::ListShort, short == [false, true]);
            self.note(Kind::BothShort, short == [true, true]);
            self.note(Kind::BookOneShort, lengths[0] + 1 == needed[0] && !short[1]);
            self.note(Kind::ListOneShort, lengths[1] + 1 == needed[1] && !short[0]);
        }
        if answer.refusal == 0 {
            self.note(Kind::BothExact, lengths == needed);
            self.note(Kind::BookOutputLonger, lengths[0] > needed[0]);
            self.note(Kind::ListOutputLonger, lengths[1] > needed[1]);
        }
    }

    /// What was stored for a book.
    pub fn stored(&mut self, book: &[u8], stored: &[u8], list: &[u8]) {
        let terms = decode(OFFICE, book).unwrap();
        let (list, _) = decode_numbers(terms.len(), list).unwrap();
        let variables = terms.iter().filter(|&term| *term == Term::Variable).count();
        self.note(Kind::StoredInPlace, list.is_sorted() && !list.is_empty());
        self.note(Kind::StoredInPairs, is_own_inverse(&list) && !list.is_sorted());
        self.note(Kind::StoredInRings, !is_own_inverse(&list));
        self.note(Kind::StoredLonger, stored.len() > written_back(book).len());
        self.note(Kind::StoredShorter, stored.len() < book.len());
        self.note(Kind::StoredNoTerms, book == [0]);
        self.note(Kind::StoredOnlyVariables, variables == terms.len() && variables > 0);
        self.note(Kind::StoredNoVariables, variables == 0 && !terms.is_empty());
        self.note(Kind::StoredFull, terms.len() == OFFICE.terms);
        self.note(Kind::StoredTwoArities, has_two_arities(&terms));
        self.note(Kind::StoredArities0, has_arities(&terms, [0, 1]));
        self.note(Kind::StoredArities7, has_arities(&terms, [7, 8]));
    }

    /// Restoring into an output of a length, where a list that names every term once needs another.
    pub fn restore(&mut self, book: &[u8], list: &[u8], needed: usize, length: usize, answer: &Answer) {
        let Ok(terms) = decode(OFFICE, book) else {
            self.answers[1][answer.refusal as usize] += 1;
            return self.note(Kind::BadListToo, decode_numbers(1, list) == Err(2));
        };
        self.answers[2][answer.refusal as usize] += 1;
        if book.is_empty() {
            self.note(Kind::RestoredNoBytes, answer.refusal == 0);
            self.note(Kind::NoBytesNotRestored, answer.refusal == 13);
            self.note(Kind::NoBytesNumber, answer.refusal == 3 && decode_numbers(1, list).is_ok());
            self.note(Kind::NoBytesNoNumber, answer.refusal == 3 && decode_numbers(1, list).is_err());
        }
        self.note(Kind::EmptyList, list.is_empty() && answer.refusal == 1);
        let (numbers, rest) = front(terms.len(), list);
        match answer.refusal {
            1 | 2 => self.unread(&terms, &numbers, rest, answer.refusal),
            0 => self.restored(book, &terms, &numbers, needed, length),
            13 => self.note(Kind::OneByteShort, length + 1 == needed),
            _ => self.misfit(&terms, &numbers, rest, needed, length, answer.refusal),
        }
    }

    /// A list in which these numbers are read and then one is not.
    fn unread(&mut self, terms: &[Term], numbers: &[u32], rest: &[u8], refusal: u32) {
        let names_nothing = names_nothing(terms, numbers);
        if refusal == 1 {
            self.note(Kind::CutBefore, rest.is_empty());
            self.note(Kind::CutWithin, !rest.is_empty());
            return self.note(Kind::CutNamesNothing, names_nothing);
        }
        let third = rest.get(2);
        self.note(Kind::LongTwoBytes, rest[1] == 0);
        self.note(Kind::LongThreeBytes, rest[1] >= 0x80 && third == Some(&0));
        self.note(Kind::ThirdByte, rest[1] >= 0x80 && third.is_some_and(|&byte| byte >= 0x80));
        self.note(Kind::Above, rest[1] >= 0x80 && third.is_some_and(|&byte| (4..0x80).contains(&byte)));
        self.note(Kind::BadNamesNothing, names_nothing);
    }

    /// A list whose numbers are read, and refused.
    fn misfit(&mut self, terms: &[Term], numbers: &[u32], rest: &[u8], needed: usize, length: usize, refusal: u32) {
        let (names_nothing, twice) = (names_nothing(terms, numbers), names_twice(numbers));
        match refusal {
            3 => {
                self.note(Kind::LeftOverWithin, decode_numbers(1, rest).is_err());
                self.note(Kind::LeftOverNamesNothing, names_nothing);
                self.note(Kind::LeftOverTwice, twice && !names_nothing);
            }
            8 => {
                let next = terms.len() as u32;
                self.note(Kind::NextTerm, numbers.contains(&next) && numbers.iter().all(|&number| number <= next));
                self.note(Kind::GreatestNumber, numbers.contains(&65_535));
                self.note(Kind::TwiceNamesNothing, twice);
            }
            14 => {
                let lower = arguments_are_lower(terms, numbers);
                self.note(Kind::TwiceNotLower, !lower);
                self.note(Kind::TwiceLower, lower);
                self.note(Kind::TwiceNoOutput, length == 0);
            }
            _ => {
                self.note(Kind::NotLowerShort, length < needed);
                self.note(Kind::NotLowerLong, length >= needed);
            }
        }
    }

    /// A list by which the book is restored.
    fn restored(&mut self, book: &[u8], terms: &[Term], numbers: &[u32], needed: usize, length: usize) {
        let is_variable = |term: &Term| *term == Term::Variable;
        let variables = terms.iter().filter(|&term| is_variable(term)).count();
        self.note(Kind::Exact, length == needed);
        self.note(Kind::OutputLonger, length > needed);
        self.note(Kind::RestoredInRings, !is_own_inverse(numbers));
        self.note(Kind::RestoredAny, terms[variables..].iter().any(is_variable));
        self.note(Kind::RestoredLonger, needed > written_back(book).len());
        self.note(Kind::RestoredNoTerms, book == [0]);
        self.note(Kind::RestoredFull, terms.len() == OFFICE.terms);
        self.note(Kind::RestoredTwoArities, has_two_arities(terms) && !is_own_inverse(numbers));
    }

    pub fn calls(&self) -> u64 {
        self.answers.as_flattened().iter().sum()
    }

    pub fn print(&self) {
        for ((what, _), answers) in CALLS.iter().zip(&self.answers) {
            let counts: Vec<String> = (0..ANSWERS).filter(|&i| answers[i] > 0).map(|i| format!("{i}: {}", answers[i])).collect();
            println!("{what}, by answer: {}", counts.join(", "));
        }
        kinds::print(KINDS, &self.kinds);
    }

    /// Whether each call, and each part of it, gave every answer that it can give, and no other.
    pub fn has_all_answers(&self) -> bool {
        let complete = |(counts, (_, possible)): (&[u64; ANSWERS], &(&str, &[usize]))| (0..ANSWERS).all(|i| (counts[i] > 0) == possible.contains(&i));
        self.answers.iter().zip(&CALLS).all(complete)
    }

    /// The kinds of cases that did not occur.
    pub fn missing(&self) -> Vec<&'static str> {
        kinds::missing(KINDS, &self.kinds)
    }
}

/// As many of so many numbers as can be read, and the bytes after them.
fn front(count: usize, mut bytes: &[u8]) -> (Vec<u32>, &[u8]) {
    let mut numbers = Vec::new();
    while numbers.len() < count {
        let Ok((number, rest)) = decode_numbers(1, bytes) else {
            break;
        };
        numbers.extend(number);
        bytes = rest;
    }
    (numbers, bytes)
}

fn names_nothing(terms: &[Term], numbers: &[u32]) -> bool {
    numbers.iter().any(|&number| number as usize >= terms.len())
}

fn names_twice(numbers: &[u32]) -> bool {
    let mut sorted = numbers.to_vec();
    sorted.sort_unstable();
    sorted.windows(2).any(|pair| pair[0] == pair[1])
}

fn is_own_inverse(list: &[u32]) -> bool {
    list.iter().zip(0..).all(|(&old, i)| list[old as usize] == i)
}
