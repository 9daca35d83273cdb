//! Counts what the lists of calls were made of, so that a comparison fails where some kind of case never occurred.

use crate::kinds;
use crate::reference::{decode, has_two_arities, Answer, Call, State, OFFICE};

/// The six calls, and the answers that docs/SPEC.md gives each: 0 and its refusals.
const CALLS: [(&str, &[usize]); 6] = [
    ("opening", &[0, 1, 2, 3, 4, 5, 7]),
    ("adding a line", &[0, 7, 8, 11, 12]),
    ("fixing a choice", &[0, 7, 8, 9, 10, 11]),
    ("reading an entry", &[0, 7, 8]),
    ("reporting", &[0, 7, 13]),
    ("writing a book", &[0, 7, 13]),
];

fn number_of(call: Call) -> usize {
    match call {
        Call::Open { .. } => 0,
        Call::Add { .. } => 1,
        Call::Bind { .. } => 2,
        Call::Entry { .. } => 3,
        Call::Report => 4,
        Call::Write => 5,
    }
}

/// Every output length below this one is tried.
pub const EVERY_LENGTH: usize = 256;

kinds! {
    NoCapacity, "opening at capacity 0";
    CapacityAbove, "opening at a capacity above 2,048";
    NoTerms, "book 00 opened";
    NoBytes, "a book of no bytes opened";
    NoBytesNoCapacity, "a book of no bytes refused with 4";
    NoBytesInShortArea, "a book of no bytes refused with 7";
    NoBytesWritten, "the book written of an area opened from no bytes";
    NoBytesNotWritten, "the same refused with 13";
    LargeBook, "a book of 513 to 1,023 terms opened";
    FullBook, "a book of 1,024 terms opened";
    FullBookMostEntries, "a book of 1,024 terms at capacity 2,048";
    TwoArities, "a book with a symbol of two arities opened";
    UnlikeLine, "a line whose entry is a hole of one symbol with unlike arities";
    UnlikeArgument, "a step after which such a hole is an argument";
    UnlikeNone, "a step after which such a hole has an arity 0";
    UnlikeMost, "a step after which such a hole has the arities 7 and 8";
    UnlikeChoice, "a choice that gives an entry one symbol on both sides, with unlike arities: it stays a hole";
    UnlikeChoiceTurns, "of these, one that turns other entries";
    UnlikeRead, "such a hole read";
    UnlikeReported, "a report where such a hole is a line";
    LeftOut, "only the first number of a step out of range";
    RightOut, "only the second number of a step out of range";
    BothOut, "both numbers of a step out of range";
    NextTerm, "a step with the number after the last term";
    LastTerm, "a step with the last term";
    GreatestNumber, "a step or an entry with the number 4,294,967,295";
    LastEntry, "reading the last entry";
    NextEntry, "reading the entry after the last";
    NoOutput, "an output of length 0";
    ShortOutput, "an output shorter than the bytes by more than one";
    OneByteShort, "an output one byte too short";
    ExactOutput, "an output of just the length";
    LongerOutput, "an output that is longer";
    LongReport, "a report of more than 16,384 bytes";
    LineAgain, "a line that shares an entry with an older one";
    LineAppends, "a line that appends two entries or more";
    LastLine, "the 256th line";
    LineTooMany, "one line more";
    LineTooManyWhenFull, "one line more, and the table is full";
    OutWithMostLines, "a line out of range where there are 256";
    ChoiceTurns, "a choice that turns entries";
    ChoiceAppends, "a choice that appends entries";
    ChoiceDoesNeither, "a choice that turns and appends none";
    FullAfter, "a step that leaves the table full";
    OneFreeAfter, "a step that leaves room for one entry";
    AcceptedWhenFull, "a step accepted by a full table";
    RefusedWhenFull, "a step refused with 11 by a full table";
    RefusedWithOneFree, "a step refused with 11 where there is room for one entry";
    RefusedWithMoreFree, "a step refused with 11 where there is room for more";
    MostEntries, "a step that leaves 2,048 entries";
    RefusedAtMost, "a step refused with 11 at 2,048 entries";
    LongerArea, "a step accepted in an area longer than it needs";
    DoneOver, "lists done over in the other order";
    DoneOverEmpty, "of these, with no accepted step";
    DoneOverRefusals, "of these, with a refused step";
    DoneOverOtherCalls, "of these, with other calls between";
    DoneOverMixed, "of these, with a choice after a line";
    DoneOverOtherArea, "of these, with another area but the same report";
    DoneOverMostLines, "of these, with 256 lines";
    DoneOverFull, "of these, with a full table";
    DoneOverMostEntries, "of these, with 2,048 entries";
    DoneOverFullBook, "of these, with a book of 1,024 terms";
    DoneOverUnlike, "of these, with such a hole of one symbol and unlike arities";
    DoneOverShortOutput, "of these, with both reports refused with 13";
}

/// The entries whose sides stand for terms of one symbol with unlike arities, and these arities.
pub fn unlike_holes(state: &State) -> Vec<(u32, [usize; 2])> {
    let unlike = |(i, entry)| Some((i, state.unlike_arities(entry)?));
    (0..).zip(&state.entries).filter_map(unlike).collect()
}

/// Whether a term stood for v before v was bound.
fn stood_for(state: &State, mut t: u32, v: u32) -> bool {
    while t != v {
        match state.bindings[t as usize] {
            Some(next) => t = next,
            None => return false,
        }
    }
    true
}

/// The header of an area, and whether more bytes are lent than it needs.
#[derive(Clone, Copy)]
pub struct Sight {
    pub capacity: u32,
    pub terms: u32,
    pub entries: u32,
    pub lines: u32,
    longer: bool,
}

impl Sight {
    pub fn of(area: &[u8]) -> Sight {
        let word = |i: usize| match area.get(4 * i..4 * i + 4) {
            Some(&[a, b, c, d]) => u32::from_le_bytes([a, b, c, d]),
            _ => 0,
        };
        let [capacity, terms, entries, lines] = [0, 1, 2, 3].map(word);
        Sight { capacity, terms, entries, lines, longer: area.len() > OFFICE.area_length(capacity) }
    }

    /// How many entries there is room for.
    fn free(&self) -> u32 {
        self.capacity - self.entries
    }

    fn is_full(&self) -> bool {
        self.free() == 0
    }

    fn has_most_entries(&self) -> bool {
        self.entries == OFFICE.capacity
    }
}

/// What a run has seen.
pub struct Census {
    answers: [[u64; 14]; CALLS.len()],
    kinds: [u64; KINDS.len()],
    /// Calls on damaged areas: refused with 7, and not.
    unsound: [u64; CALLS.len()],
    sound: [u64; CALLS.len()],
    capacities: Vec<u64>,
    /// Reports and books, by the length of the output.
    lengths: [[u64; EVERY_LENGTH]; 2],
}

impl Census {
    pub fn new() -> Census {
        Census {
            answers: [[0; 14]; CALLS.len()],
            kinds: [0; KINDS.len()],
            unsound: [0; CALLS.len()],
            sound: [0; CALLS.len()],
            capacities: vec![0; OFFICE.capacity as usize],
            lengths: [[0; EVERY_LENGTH]; 2],
        }
    }

    /// Adds what another run has seen.
    pub fn join(&mut self, other: &Census) {
        let both = |ours: &mut [u64], theirs: &[u64]| ours.iter_mut().zip(theirs).for_each(|(sum, number)| *sum += number);
        both(self.answers.as_flattened_mut(), other.answers.as_flattened());
        both(&mut self.kinds, &other.kinds);
        both(&mut self.unsound, &other.unsound);
        both(&mut self.sound, &other.sound);
        both(&mut self.capacities, &other.capacities);
        both(self.lengths.as_flattened_mut(), other.lengths.as_flattened());
    }

    pub fn note(&mut self, kind: Kind, occurs: bool) {
        self.kinds[kind as usize] += u64::from(occurs);
    }

    /// Counts an answer, and a call on an area that was damaged.
    pub fn answer(&mut self, call: Call, damaged: bool, answer: &Answer) {
        let number = number_of(call);
        self.answers[number][answer.refusal as usize] += 1;
        let seen = if answer.refusal == 7 { &mut self.unsound } else { &mut self.sound };
        seen[number] += u64::from(damaged);
    }

    pub fn opening(&mut self, capacity: u32, book: &[u8], after: Sight, answer: &Answer) {
        self.note(Kind::NoCapacity, capacity == 0);
        self.note(Kind::CapacityAbove, capacity > OFFICE.capacity);
        self.note(Kind::NoBytesNoCapacity, book.is_empty() && answer.refusal == 4);
        self.note(Kind::NoBytesInShortArea, book.is_empty() && answer.refusal == 7);
        if answer.refusal != 0 {
            return;
        }
        self.capacities[capacity as usize - 1] += 1;
        self.note(Kind::NoTerms, after.terms == 0 && !book.is_empty());
        self.note(Kind::NoBytes, book.is_empty());
        self.note(Kind::TwoArities, decode(OFFICE, book).is_ok_and(|terms| has_two_arities(&terms)));
        self.note(Kind::LargeBook, (513..1024).contains(&after.terms));
        self.note(Kind::FullBook, after.terms == 1024);
        self.note(Kind::FullBookMostEntries, after.terms == 1024 && capacity == OFFICE.capacity);
    }

    /// A call other than opening on an area that is sound.
    pub fn call(&mut self, call: Call, before: Sight, after: Sight, answer: &Answer) {
        match call {
            Call::Add { l, r } => {
                self.numbers(before, l, r);
                self.line(before, after, answer);
                self.step(before, after, answer);
            }
            Call::Bind { v, t } => {
                self.numbers(before, v, t);
                self.choice(answer);
                self.step(before, after, answer);
            }
            Call::Entry { i } => {
                self.note(Kind::GreatestNumber, i == u32::MAX);
                self.note(Kind::LastEntry, i < before.entries && i + 1 == before.entries);
                self.note(Kind::NextEntry, i == before.entries);
            }
            Call::Open { .. } | Call::Report | Call::Write => {}
        }
    }

    /// The two numbers of a step.
    fn numbers(&mut self, before: Sight, a: u32, b: u32) {
        let [left_out, right_out] = [a, b].map(|number| number >= before.terms);
        self.note(Kind::LeftOut, left_out && !right_out);
        self.note(Kind::RightOut, right_out && !left_out);
        self.note(Kind::BothOut, left_out && right_out);
        self.note(Kind::NextTerm, [a, b].contains(&before.terms));
        self.note(Kind::LastTerm, before.terms > 0 && [a, b].contains(&(before.terms - 1)));
        self.note(Kind::GreatestNumber, [a, b].contains(&u32::MAX));
    }

    fn line(&mut self, before: Sight, after: Sight, answer: &Answer) {
        self.note(Kind::LineTooMany, answer.refusal == 12);
        self.note(Kind::LineTooManyWhenFull, answer.refusal == 12 && before.is_full());
        self.note(Kind::OutWithMostLines, answer.refusal == 8 && before.lines as usize == OFFICE.lines);
        if answer.refusal == 0 {
            self.note(Kind::LineAgain, answer.numbers[0] < before.entries);
            self.note(Kind::LineAppends, after.entries > before.entries + 1);
            self.note(Kind::LastLine, after.lines as usize == OFFICE.lines);
        }
    }

    fn choice(&mut self, answer: &Answer) {
        let [turned, appended] = [answer.numbers[0], answer.numbers[1]];
        self.note(Kind::ChoiceTurns, turned > 0);
        self.note(Kind::ChoiceAppends, appended > 0);
        self.note(Kind::ChoiceDoesNeither, answer.refusal == 0 && turned == 0 && appended == 0);
    }

    /// Holes of one symbol with unlike arities after an accepted step on a table of so many entries.
    pub fn unlike(&mut self, call: Call, old: u32, answer: &Answer, after: &State) {
        let unlike = unlike_holes(after);
        let is_unlike = |i: u32| unlike.iter().any(|&(own, _)| own == i);
        let arguments = || after.entries.iter().filter_map(|entry| entry.common.as_ref()).flat_map(|(_, arguments)| arguments);
        self.note(Kind::UnlikeArgument, !unlike.is_empty() && arguments().any(|&i| is_unlike(i)));
        self.note(Kind::UnlikeNone, unlike.iter().any(|(_, arities)| arities.contains(&0)));
        self.note(Kind::UnlikeMost, unlike.iter().any(|(_, arities)| [[7, 8], [8, 7]].contains(arities)));
        match call {
            Call::Add { .. } => self.note(Kind::UnlikeLine, is_unlike(answer.numbers[0])),
            Call::Bind { v, .. } => {
                let sides = |i: u32| [after.entries[i as usize].left, after.entries[i as usize].right];
                let is_given = |&(i, _): &(u32, [usize; 2])| i < old && sides(i).iter().any(|&side| stood_for(after, side, v));
                let given = unlike.iter().any(is_given);
                self.note(Kind::UnlikeChoice, given);
                self.note(Kind::UnlikeChoiceTurns, given && answer.numbers[0] > 0);
            }
            _ => {}
        }
    }

    /// How full a table was, and is.
    fn step(&mut self, before: Sight, after: Sight, answer: &Answer) {
        if answer.refusal == 0 {
            self.note(Kind::FullAfter, after.is_full() && !before.is_full());
            self.note(Kind::OneFreeAfter, after.free() == 1);
            self.note(Kind::AcceptedWhenFull, before.is_full());
            self.note(Kind::MostEntries, after.has_most_entries() && !before.has_most_entries());
            self.note(Kind::LongerArea, after.longer);
        }
        if answer.refusal == 11 {
            self.note(Kind::RefusedWhenFull, before.is_full());
            self.note(Kind::RefusedWithOneFree, before.free() == 1);
            self.note(Kind::RefusedWithMoreFree, before.free() > 1);
            self.note(Kind::RefusedAtMost, before.has_most_entries());
        }
    }

    /// The output of a report or a book of a sound area, which takes this many bytes.
    pub fn output(&mut self, call: Call, needed: usize, length: usize) {
        if length < EVERY_LENGTH {
            self.lengths[usize::from(matches!(call, Call::Write))][length] += 1;
        }
        self.note(Kind::NoOutput, length == 0);
        self.note(Kind::ShortOutput, length + 1 < needed);
        self.note(Kind::OneByteShort, length + 1 == needed);
        self.note(Kind::ExactOutput, length == needed);
        self.note(Kind::LongerOutput, length > needed);
        self.note(Kind::LongReport, matches!(call, Call::Report) && length >= needed && needed > 16_384);
    }

    pub fn print(&self) {
        for ((what, _), answers) in CALLS.iter().zip(&self.answers) {
            let counts: Vec<String> = (0..14).filter(|&i| answers[i] > 0).map(|i| format!("{i}: {}", answers[i])).collect();
            println!("{what}, by answer: {}", counts.join(", "));
        }
        println!("on damaged areas, by call: {:?} refused with 7, {:?} not", self.unsound, self.sound);
        kinds::print(KINDS, &self.kinds);
    }

    pub fn calls(&self) -> u64 {
        self.answers.as_flattened().iter().sum()
    }

    /// Whether each call gave every answer that it can give, and no other.
    pub fn has_all_answers(&self) -> bool {
        let complete = |(counts, (_, possible)): (&[u64; 14], &(&str, &[usize]))| (0..14).all(|i| (counts[i] > 0) == possible.contains(&i));
        self.answers.iter().zip(&CALLS).all(complete)
    }

    /// Whether each call but opening met damaged areas that were unsound, and some that were sound.
    pub fn has_all_damage(&self) -> bool {
        self.unsound[1..].iter().chain(&self.sound[1..]).all(|&number| number > 0)
    }

    pub fn has_all_capacities(&self) -> bool {
        self.capacities.iter().all(|&number| number > 0)
    }

    pub fn has_all_lengths(&self) -> bool {
        self.lengths.as_flattened().iter().all(|&number| number > 0)
    }

    /// The kinds of cases that did not occur.
    pub fn missing(&self) -> Vec<&'static str> {
        kinds::missing(KINDS, &self.kinds)
    }
}
