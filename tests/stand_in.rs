//! Stands in for the library (`--cfg stand_in`): the second implementation with the mistake that the environment's MISTAKE names,
//! so that `tests/mistakes` can see the comparisons find it. With no mistake they pass.

// Each program uses a part.
#![allow(dead_code)]

use crate::reference::{are_distinct, arguments_are_lower, decode, decode_numbers, encode, encode_list, faults, has_two_arities, one_symbol};
use crate::reference::{perform, read, renumbered, restored_bytes, restored_terms, store, stored_bytes, stored_terms, Answer, Call, Entry};
use crate::reference::{Fault, State, Term, Values, OFFICE};
use std::sync::OnceLock;

fn mistake() -> &'static str {
    static MISTAKE: OnceLock<String> = OnceLock::new();
    MISTAKE.get_or_init(|| std::env::var("MISTAKE").unwrap_or_default())
}

fn is(name: &str) -> bool {
    mistake() == name
}

/// Whether a sound area has a hole of one symbol with unlike arities.
fn has_unlike_hole(area: &[u8]) -> bool {
    let state = read(OFFICE, area);
    state.entries.iter().any(|entry| state.unlike_arities(entry).is_some())
}

/// The answer. An area is taken for sound where its only fault is the mistake, or for unsound where a hole has one symbol on both sides,
/// and a refusal 11 may leave a mark.
fn call(call: Call, area: &mut [u8], out: &mut [u8]) -> Answer {
    let is_tested = !matches!(call, Call::Open { .. }) && is("soundness-by-symbol");
    if is_tested && faults(OFFICE, area).is_empty() && has_unlike_hole(area) {
        return Answer::new(7, &[]);
    }
    let mut answer = perform(OFFICE, call, area, out);
    let untested = Fault::ALL.iter().find(|(fault, _, _)| is(&format!("{fault:?}")));
    if answer.refusal == 7 && untested.is_some_and(|&(fault, _, _)| faults(OFFICE, area).is_only(fault)) {
        answer.refusal = 0;
    }
    if answer.refusal == 11 && is("refusal-leaves-mark") {
        area[8] += 1;
    }
    answer
}

fn word(area: &[u8], i: usize) -> u32 {
    u32::from_le_bytes([0, 1, 2, 3].map(|byte| area[4 * i + byte]))
}

fn put_word(area: &mut [u8], i: usize, value: u32) {
    area[4 * i..4 * i + 4].copy_from_slice(&value.to_le_bytes());
}

/// The entry of a pair, one more where it has none; none where there is no room.
fn place(state: &mut State, values: &Values, l: u32, r: u32) -> Option<u32> {
    let has_values = |entry: &Entry| values.pair(entry.left, entry.right) == values.pair(l, r);
    if let Some(found) = state.entries.iter().position(has_values) {
        return Some(found as u32);
    }
    let own = state.entries.len() as u32;
    state.entries.push(Entry { left: l, right: r, common: None, same_as: own });
    (own < state.capacity).then_some(own)
}

/// Goes on with the walk by the symbol alone, over the arguments that both sides have; none where there is no room.
fn walk_by_symbol(state: &mut State) -> Option<()> {
    let values = state.values().ok()?;
    let mut i = 0;
    while i < state.entries.len() {
        let Entry { left, right, ref common, .. } = state.entries[i];
        let found = one_symbol(&state.terms, &state.bindings, left, right).filter(|_| common.is_none());
        if let Some((symbol, left, right)) = found {
            let pairs: Vec<(u32, u32)> = left.iter().copied().zip(right.iter().copied()).collect();
            let arguments: Option<Vec<u32>> = pairs.into_iter().map(|(l, r)| place(state, &values, l, r)).collect();
            state.entries[i].common = Some((symbol, arguments?));
        }
        i += 1;
    }
    Some(())
}

/// A step. Terms of one symbol may be taken for alike, a full table may be refused, and the byte behind the needed length may be lost.
fn step(what: Call, area: &mut [u8]) -> Answer {
    let before = area.to_vec();
    let answer = call(what, area, &mut []);
    if answer.refusal != 0 {
        return answer;
    }
    if is("alike-by-symbol") || is("alike-by-symbol-in-choices") && matches!(what, Call::Bind { .. }) {
        let mut state = read(OFFICE, area);
        if walk_by_symbol(&mut state).is_none() {
            area.copy_from_slice(&before);
            return Answer::new(11, &[]);
        }
        store(OFFICE, &state, area);
    }
    if is("11-when-just-full") && word(area, 2) == word(area, 0) && word(area, 2) > word(&before, 2) {
        area.copy_from_slice(&before);
        return Answer::new(11, &[]);
    }
    if is("byte-behind-area") {
        let needed = OFFICE.area_length(word(area, 0));
        area[needed..].fill(0);
    }
    answer
}

/// Takes the walk of an added line back: its entry, where it is new, stays a hole.
fn unwalk(before: &[u8], area: &mut [u8], l: u32, r: u32, entry: u32) {
    let (entries, lines) = (word(before, 2), word(before, 3));
    if entry < entries {
        return;
    }
    area.copy_from_slice(before);
    for (place, value) in [(0, l), (1, r), (13, entry)] {
        put_word(area, OFFICE.entry_row(entry as usize) + place, value);
    }
    put_word(area, OFFICE.line(lines as usize), entry);
    put_word(area, 2, entries + 1);
    put_word(area, 3, lines + 1);
}

pub fn area_length(capacity: u32) -> usize {
    OFFICE.area_length(capacity)
}

/// The book that a book is taken for: no bytes may be taken for a cut number, and a book that is cut after a byte for no bytes.
fn taken(book: &[u8]) -> &[u8] {
    match mistake() {
        "empty-book-refused" if book.is_empty() => &[0x80],
        "broken-book-taken" if book.len() == 1 && decode(OFFICE, book) == Err(1) => &[],
        _ => book,
    }
}

/// The terms of a book; a symbol with two arities may still be refused.
fn terms_of(book: &[u8]) -> Result<Vec<Term>, u32> {
    match decode(OFFICE, taken(book)) {
        Ok(terms) if is("6-still-given") && has_two_arities(&terms) => Err(6),
        terms => terms,
    }
}

/// What is written for a book; for no bytes it may be none.
fn back(book: &[u8], bytes: Vec<u8>) -> Vec<u8> {
    if book.is_empty() && is("empty-book-written-as-no-bytes") {
        return Vec::new();
    }
    bytes
}

/// Opening. No bytes may be accepted before capacity and area are tested.
pub fn open(capacity: u32, book: &[u8], area: &mut [u8]) -> u32 {
    if (1..=area.len()).contains(&area_length(capacity)) && terms_of(book) == Err(6) {
        return 6;
    }
    match call(Call::Open { capacity, book: taken(book) }, area, &mut []).refusal {
        4 | 7 if is("empty-book-before-area") && book.is_empty() => 0,
        refusal => refusal,
    }
}

pub fn copy_book(book: &[u8], out: &mut [u8], written: &mut u32) -> u32 {
    let bytes = terms_of(book).map(|terms| back(book, encode(&terms)));
    put_answer(bytes, out, ["just-enough-refused", "byte-behind"], written)
}

/// A line. It may take the entry of the pair in the other order, or not be walked.
pub fn add(area: &mut [u8], l: u32, r: u32, entry: &mut u32) -> u32 {
    let before = area.to_vec();
    let mut answer = step(Call::Add { l, r }, area);
    let is_old = |answer: &Answer| answer.refusal == 0 && answer.numbers[0] < word(&before, 2);
    if is("pairs-without-order") && answer.refusal == 0 && !is_old(&answer) {
        let mut other = before.clone();
        let swapped = step(Call::Add { l: r, r: l }, &mut other);
        if is_old(&swapped) {
            area.copy_from_slice(&other);
            answer = swapped;
        }
    }
    if answer.refusal == 0 && (is("every-line-a-hole") || is("no-walk-after-the-first-line") && word(&before, 3) > 0) {
        unwalk(&before, area, l, r, answer.numbers[0]);
    }
    if answer.refusal == 0 || !is("number-not-zeroed") {
        *entry = answer.numbers[0];
    }
    match answer.refusal {
        12 if is("11-before-12") => 11,
        0 if is("255-lines") && word(area, 3) == 256 => 12,
        refusal => refusal,
    }
}

/// A choice. It may be recorded only, counted in another way, leave same-as, or be tested as written.
pub fn bind(area: &mut [u8], v: u32, t: u32, turned: &mut u32, appended: &mut u32) -> u32 {
    let before = area.to_vec();
    let answer = step(Call::Bind { v, t }, area);
    (*turned, *appended) = (answer.numbers[0], answer.numbers[1]);
    if is("appended-counted-as-turned") {
        *turned += *appended;
    }
    if is("same-as-left") && answer.refusal == 0 {
        let place = 4 * (OFFICE.entry_row(1) + 13);
        if let (Some(now), Some(old)) = (area.get_mut(place..place + 4), before.get(place..place + 4)) {
            now.copy_from_slice(old);
        }
    }
    if is("choice-recorded-only") && answer.refusal == 0 {
        area.copy_from_slice(&before);
        put_word(area, OFFICE.binding(v as usize), t + 1);
    }
    match answer.refusal {
        10 if is("occurs-as-written") && word(area, OFFICE.binding(t as usize)) != 0 => 0,
        refusal => refusal,
    }
}

pub fn entry(area: &[u8], i: u32, fields: &mut [u32; 14]) -> u32 {
    let answer = call(Call::Entry { i }, &mut area.to_vec(), &mut []);
    *fields = answer.numbers;
    if is("eighth-argument-lost") {
        fields[12] = 0;
    }
    answer.refusal
}

fn put(what: Call, area: &[u8], out: &mut [u8], written: &mut u32) -> u32 {
    let answer = call(what, &mut area.to_vec(), out);
    *written = answer.numbers[0];
    if is("byte-behind") && answer.refusal == 0 && out.len() > *written as usize {
        out[*written as usize] = 0;
    }
    match answer.refusal {
        0 if is("just-enough-refused") && out.len() == *written as usize => 13,
        refusal => refusal,
    }
}

pub fn report(area: &[u8], out: &mut [u8], written: &mut u32) -> u32 {
    let refusal = put(Call::Report, area, out, written);
    if is("one-report-for-all") && refusal == 0 {
        out[..2].fill(0);
        *written = 2;
    }
    if is("13-counted") && refusal == 13 {
        *written = out.len() as u32 + 1;
    }
    refusal
}

pub fn write(area: &[u8], out: &mut [u8], written: &mut u32) -> u32 {
    put(Call::Write, area, out, written)
}

/// Whether an output has room for some bytes; one that has just enough may be refused.
fn fits(bytes: &[u8], out: &[u8], refused: &str) -> bool {
    bytes.len() + usize::from(is(refused)) <= out.len()
}

/// Puts bytes that fit; the byte behind them may be lost.
fn put_bytes(bytes: &[u8], out: &mut [u8], behind: &str) {
    out[..bytes.len()].copy_from_slice(bytes);
    if is(behind) && out.len() > bytes.len() {
        out[bytes.len()] ^= 1;
    }
}

/// The bytes of the stored book and of its list. Terms, arguments or the list may be the wrong ones.
fn stored(book: &[u8]) -> Result<(Vec<u8>, Vec<u8>), u32> {
    let (stored, list) = stored_bytes(OFFICE, book)?;
    let terms = decode(OFFICE, book)?;
    let count = terms.len() as u32;
    let (numbers, _) = decode_numbers(terms.len(), &list)?;
    let by = |numbers: &[u32]| (encode(&stored_terms(&terms, numbers)), encode_list(numbers));
    let is_variable = |&&old: &&u32| terms[old as usize] == Term::Variable;
    Ok(match mistake() {
        "variables-left-in-place" => by(&(0..count).collect::<Vec<u32>>()),
        "variables-in-falling-order" => {
            let (variables, others): (Vec<u32>, Vec<u32>) = numbers.iter().partition(is_variable);
            by(&variables.into_iter().rev().chain(others).collect::<Vec<u32>>())
        }
        "arguments-not-renumbered" => (encode(&numbers.iter().map(|&old| terms[old as usize].clone()).collect::<Vec<Term>>()), list),
        "list-by-old-numbers" => {
            let new_number = |old: u32| numbers.iter().position(|&number| number == old).unwrap() as u32;
            (stored, encode_list(&(0..count).map(new_number).collect::<Vec<u32>>()))
        }
        "list-of-one-byte" => (stored, numbers.iter().map(|&old| old as u8).collect()),
        "list-with-its-count" => (stored, [encode_list(&[count]), list].concat()),
        _ => (stored, list),
    })
}

/// Storing. One output alone may be tested or, though refused, written, and the numbers answered may be the wrong ones.
pub fn store_book(book: &[u8], out: &mut [u8], list: &mut [u8], written: &mut u32, list_written: &mut u32) -> u32 {
    let put = |(stored, mut numbers): (Vec<u8>, Vec<u8>)| {
        let stored = back(book, stored);
        if is("one-output-tested") {
            numbers.truncate(list.len());
        }
        let both = [fits(&stored, out, "just-enough-refused"), fits(&numbers, list, "just-enough-list-refused")];
        match both {
            [true, true] => {
                put_bytes(&stored, out, "byte-behind");
                put_bytes(&numbers, list, "byte-behind-list");
                return Ok((stored.len() as u32, numbers.len() as u32));
            }
            [true, false] if is("book-written-without-list") => put_bytes(&stored, out, ""),
            [false, true] if is("list-written-without-book") => put_bytes(&numbers, list, ""),
            _ => {}
        }
        Err(13)
    };
    match terms_of(book).and_then(|_| stored(taken(book))).and_then(put) {
        Ok((first, second)) => {
            (*written, *list_written) = if is("answers-in-exchange") { (second, first) } else { (first, second) };
            0
        }
        Err(refusal) => {
            *written = 0;
            if !is("list-number-not-zeroed") {
                *list_written = 0;
            }
            refusal
        }
    }
}

/// The bytes of the restored book. A test of the list may come too early or too late, or be left out, and the list may be taken for
/// another.
fn restored(book: &[u8], list: &[u8], room: usize) -> Result<Vec<u8>, u32> {
    let right = restored_bytes(OFFICE, book, list);
    let Ok(terms) = decode(OFFICE, book) else {
        return right;
    };
    let count = terms.len();
    let names_nothing = |numbers: &[u32]| numbers.iter().any(|&number| number as usize >= count);
    let Ok((numbers, rest)) = decode_numbers(count, list) else {
        let numbers_before = (0..count).map_while(|k| decode_numbers(k, list).ok()).last();
        let early = is("8-as-read") && numbers_before.is_some_and(|(numbers, _)| names_nothing(&numbers));
        let taken = is("empty-list-taken") && list.is_empty();
        return if early { Err(8) } else if taken { Ok(book.to_vec()) } else { right };
    };
    match (right, mistake()) {
        (Err(3), "list-of-empty-book-untested") if book.is_empty() => Ok(vec![0]),
        (Err(3), "3-after-8") if names_nothing(&numbers) => Err(8),
        (Err(3), "3-untested") => restored_bytes(OFFICE, book, &list[..list.len() - rest.len()]),
        (Err(8), "14-before-8") if !are_distinct(&numbers) => Err(14),
        (Err(14), "5-before-14") if !arguments_are_lower(&terms, &numbers) => Err(5),
        (Err(14), "8-for-14") => Err(8),
        (Err(5), "13-before-5") if room < encode(&restored_terms(&terms, &numbers)).len() => Err(13),
        (Err(5), "last-term-untested") if arguments_are_lower(&terms[..count - 1], &numbers) => Ok(encode(&restored_terms(&terms, &numbers))),
        (Err(5), "5-untested") => Ok(encode(&restored_terms(&terms, &numbers))),
        (Ok(_), "restored-as-stored") => Ok(encode(&stored_terms(&terms, &numbers))),
        (Ok(_), "restored-arguments-left") => {
            let same_argument = |argument: u32| numbers.iter().position(|&number| number == argument).unwrap() as u32;
            let left: Vec<Term> = terms.iter().map(|term| renumbered(term, same_argument)).collect();
            Ok(encode(&restored_terms(&left, &numbers)))
        }
        (right, _) => right,
    }
}

pub fn restore_book(book: &[u8], list: &[u8], out: &mut [u8], written: &mut u32) -> u32 {
    let bytes = terms_of(book).and_then(|_| restored(taken(book), list, out.len())).map(|bytes| back(book, bytes));
    put_answer(bytes, out, ["just-enough-restored-refused", "byte-behind-restored"], written)
}

/// Puts bytes where they are not refused and fit. The mistakes are those of `fits` and `put_bytes`; a refusal may leave the number.
fn put_answer(bytes: Result<Vec<u8>, u32>, out: &mut [u8], [refused, behind]: [&str; 2], written: &mut u32) -> u32 {
    match bytes {
        Ok(bytes) if fits(&bytes, out, refused) => {
            put_bytes(&bytes, out, behind);
            *written = bytes.len() as u32;
            0
        }
        refusal => {
            if !is("number-not-zeroed") {
                *written = 0;
            }
            refusal.err().unwrap_or(13)
        }
    }
}
