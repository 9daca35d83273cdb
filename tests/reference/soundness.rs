//! Whether any run of bytes is a sound area, and if not, all that is wrong with it.

use super::area::{read_bindings, read_terms, word, words, Limits, ENTRY_ROW, HEADER, TERM_ROW};
use super::book::{Term, MAX_ARITY, MAX_SYMBOL};
use super::table::lowest;
use super::value::{common, one_symbol, Values};
use std::collections::HashSet;

/// What can be wrong with an area.
#[derive(Clone, Copy, Debug, PartialEq)]
pub enum Fault {
    Length,
    Capacity,
    TermCount,
    EntryCount,
    LineCount,
    Symbol,
    Arity,
    Argument,
    SymbolBound,
    BoundToNothing,
    Cycle,
    Side,
    PairTwice,
    HoleForCommon,
    CommonForHole,
    CommonBySymbol,
    EntrySymbol,
    EntryArity,
    ArgumentNoEntry,
    ArgumentValues,
    SameAs,
    Line,
    Kind,
    VariableRow,
    TermPlaces,
    HoleFields,
    EntryPlaces,
    TermsBehind,
    BindingsBehind,
    LinesBehind,
    EntriesBehind,
}

impl Fault {
    /// Every fault, the number of its point in docs/SPEC.md ("Areas"), and what it is.
    pub const ALL: [(Fault, u32, &'static str); 31] = [
        (Fault::Length, 1, "shorter than its capacity needs"),
        (Fault::Capacity, 2, "capacity out of range"),
        (Fault::TermCount, 2, "too many terms"),
        (Fault::EntryCount, 2, "more entries than the capacity"),
        (Fault::LineCount, 2, "too many lines"),
        (Fault::Symbol, 3, "symbol out of range"),
        (Fault::Arity, 3, "arity out of range"),
        (Fault::Argument, 3, "argument not lower than its term"),
        (Fault::SymbolBound, 4, "term with a symbol is bound"),
        (Fault::BoundToNothing, 4, "bound to no term"),
        (Fault::Cycle, 5, "value that contains itself"),
        (Fault::Side, 6, "left or right is no term"),
        (Fault::PairTwice, 6, "two entries with one pair of terms"),
        (Fault::HoleForCommon, 7, "common entry marked a hole"),
        (Fault::CommonForHole, 7, "hole marked common"),
        (Fault::CommonBySymbol, 7, "hole of one symbol with unlike arities, common as far as both have arguments"),
        (Fault::EntrySymbol, 7, "common entry with another symbol"),
        (Fault::EntryArity, 7, "common entry with another arity"),
        (Fault::ArgumentNoEntry, 7, "argument place names no entry"),
        (Fault::ArgumentValues, 7, "argument place with other values"),
        (Fault::SameAs, 8, "same-as is not the lowest of its class"),
        (Fault::Line, 9, "line names no entry"),
        (Fault::Kind, 10, "kind above 1"),
        (Fault::VariableRow, 10, "row of a variable not zero"),
        (Fault::TermPlaces, 10, "term's places after its arity not zero"),
        (Fault::HoleFields, 10, "fields of a hole not zero"),
        (Fault::EntryPlaces, 10, "entry's places after its arity not zero"),
        (Fault::TermsBehind, 10, "row after the last term not zero"),
        (Fault::BindingsBehind, 10, "binding after the last term not zero"),
        (Fault::LinesBehind, 10, "word after the last line not zero"),
        (Fault::EntriesBehind, 10, "row after the last entry not zero"),
    ];
}

/// A set of faults.
#[derive(Clone, Copy, Debug, Default, PartialEq)]
pub struct Faults(u32);

impl Faults {
    fn note(&mut self, fault: Fault, found: bool) {
        self.0 |= u32::from(found) << fault as u32;
    }

    pub fn has(self, fault: Fault) -> bool {
        self.0 >> fault as u32 & 1 == 1
    }

    pub fn is_empty(self) -> bool {
        self.0 == 0
    }

    /// Whether this is the one fault.
    pub fn is_only(self, fault: Fault) -> bool {
        self.0 == 1 << fault as u32
    }

    /// Whether one of these points fails.
    fn fails(self, points: &[u32]) -> bool {
        Fault::ALL.iter().any(|&(fault, point, _)| self.has(fault) && points.contains(&point))
    }

    /// The points that fail, in rising order.
    pub fn points(self) -> Vec<u32> {
        (1..=10).filter(|&point| self.fails(&[point])).collect()
    }
}

/// All faults of an area. A point is judged where the points that give its words a meaning hold: 3, 4, 6, 9 and 10 where 1 and 2
/// do, 5 where 3 and 4 do, 7 and 8 where 3, 4 and 5 do and the sides of the entries are terms.
pub fn faults(limits: Limits, area: &[u8]) -> Faults {
    let mut found = Faults::default();
    if area.len() < 4 * HEADER {
        found.note(Fault::Length, true);
        return found;
    }
    counts(limits, area, &mut found);
    if !found.is_empty() {
        return found;
    }
    terms(limits, area, &mut found);
    bindings(limits, area, &mut found);
    let rows: Vec<Row> = (0..word(area, 2) as usize).map(|i| words(area, limits.entry_row(i))).collect();
    sides(area, &rows, &mut found);
    lines(limits, area, &mut found);
    unused_fields(&rows, &mut found);
    unused_parts(limits, area, &mut found);
    if !found.fails(&[3, 4]) {
        meanings(limits, area, &rows, &mut found);
    }
    found
}

/// The fourteen words of an entry.
type Row = [u32; ENTRY_ROW];

/// Points 1 and 2.
fn counts(limits: Limits, area: &[u8], found: &mut Faults) {
    let [capacity, terms, entries, lines] = words(area, 0);
    found.note(Fault::Length, area.len() < limits.needed(capacity));
    found.note(Fault::Capacity, capacity == 0 || capacity > limits.capacity);
    found.note(Fault::TermCount, terms as usize > limits.terms);
    found.note(Fault::EntryCount, entries > capacity);
    found.note(Fault::LineCount, lines as usize > limits.lines);
}

/// Point 3, and of point 10 the places of the terms.
fn terms(limits: Limits, area: &[u8], found: &mut Faults) {
    for t in 0..word(area, 1) {
        let row: [u32; TERM_ROW] = words(area, limits.term_row(t as usize));
        let (first, arity) = (row[0], row[1]);
        if first == 0 {
            found.note(Fault::VariableRow, row != [0; TERM_ROW]);
            continue;
        }
        let (arguments, rest) = row[2..].split_at(arity.min(MAX_ARITY) as usize);
        found.note(Fault::Symbol, first - 1 > MAX_SYMBOL);
        found.note(Fault::Arity, arity > MAX_ARITY);
        found.note(Fault::Argument, arguments.iter().any(|&argument| argument >= t));
        found.note(Fault::TermPlaces, !all_zero(rest));
    }
}

/// Point 4.
fn bindings(limits: Limits, area: &[u8], found: &mut Faults) {
    let count = word(area, 1);
    for t in 0..count as usize {
        let binding = word(area, limits.binding(t));
        found.note(Fault::SymbolBound, binding != 0 && word(area, limits.term_row(t)) != 0);
        found.note(Fault::BoundToNothing, binding > count);
    }
}

/// Point 6.
fn sides(area: &[u8], rows: &[Row], found: &mut Faults) {
    let count = word(area, 1);
    let mut pairs = HashSet::with_capacity(rows.len());
    for row in rows {
        found.note(Fault::Side, row[0] >= count || row[1] >= count);
        found.note(Fault::PairTwice, !pairs.insert((row[0], row[1])));
    }
}

/// Point 9.
fn lines(limits: Limits, area: &[u8], found: &mut Faults) {
    let [_, _, entries, count] = words(area, 0);
    let names_nothing = |j| word(area, limits.line(j)) >= entries;
    found.note(Fault::Line, (0..count as usize).any(names_nothing));
}

/// Of point 10, the fields of the entries.
fn unused_fields(rows: &[Row], found: &mut Faults) {
    for row in rows {
        match row[2] {
            0 => found.note(Fault::HoleFields, !all_zero(&row[3..13])),
            1 => found.note(Fault::EntryPlaces, !all_zero(&row[5 + row[4].min(MAX_ARITY) as usize..13])),
            _ => found.note(Fault::Kind, true),
        }
    }
}

/// Of point 10, all that is after the last term, line and entry.
fn unused_parts(limits: Limits, area: &[u8], found: &mut Faults) {
    let [capacity, terms, entries, lines] = words(area, 0).map(|count: u32| count as usize);
    let used = |from: usize, to: usize| area[4 * from..4 * to].chunks(64).any(|bytes| bytes.iter().fold(0, |all, byte| all | byte) != 0);
    found.note(Fault::TermsBehind, used(limits.term_row(terms), limits.term_row(limits.terms)));
    found.note(Fault::BindingsBehind, used(limits.binding(terms), limits.binding(limits.terms)));
    found.note(Fault::LinesBehind, used(limits.line(lines), limits.line(limits.lines)));
    found.note(Fault::EntriesBehind, used(limits.entry_row(entries), limits.entry_row(capacity)));
}

/// Points 5, 7 and 8, of an area that obeys points 3 and 4.
fn meanings(limits: Limits, area: &[u8], rows: &[Row], found: &mut Faults) {
    let (terms, bindings) = (read_terms(limits, area), read_bindings(limits, area));
    let Some(values) = Values::new(&terms, &bindings) else {
        found.note(Fault::Cycle, true);
        return;
    };
    if found.has(Fault::Side) {
        return;
    }
    let lowest = lowest(&values, rows.iter().map(|row| (row[0], row[1])));
    for row in rows {
        kind(&terms, &bindings, &values, rows, row, found);
        found.note(Fault::SameAs, row[13] != lowest[&values.pair(row[0], row[1])]);
    }
}

/// Point 7 for one entry; a kind above 1 is neither and left to point 10.
fn kind(terms: &[Term], bindings: &[Option<u32>], values: &Values, rows: &[Row], row: &Row, found: &mut Faults) {
    match (row[2], common(terms, bindings, row[0], row[1])) {
        (0, Some(_)) => found.note(Fault::HoleForCommon, true),
        (1, None) if is_common_by_symbol(terms, bindings, values, rows, row) => found.note(Fault::CommonBySymbol, true),
        (1, None) => found.note(Fault::CommonForHole, true),
        (1, Some((symbol, left, right))) => {
            found.note(Fault::EntrySymbol, row[3] != symbol);
            found.note(Fault::EntryArity, row[4] as usize != left.len());
            for ((&l, &r), &place) in left.iter().zip(right).zip(&row[5..13]) {
                match rows.get(place as usize) {
                    None => found.note(Fault::ArgumentNoEntry, true),
                    Some(named) => found.note(Fault::ArgumentValues, values.pair(named[0], named[1]) != values.pair(l, r)),
                }
            }
        }
        _ => {}
    }
}

/// Whether a hole of one symbol with unlike arities has that symbol, either arity, and arguments of the right values as far as both
/// sides have some: what a test by the symbol alone would take for common.
fn is_common_by_symbol(terms: &[Term], bindings: &[Option<u32>], values: &Values, rows: &[Row], row: &Row) -> bool {
    let Some((symbol, left, right)) = one_symbol(terms, bindings, row[0], row[1]) else {
        return false;
    };
    let is_named = |((&l, &r), &place): ((&u32, &u32), &u32)| {
        rows.get(place as usize).is_some_and(|named| values.pair(named[0], named[1]) == values.pair(l, r))
    };
    row[3] == symbol && [left.len(), right.len()].contains(&(row[4] as usize)) && left.iter().zip(right).zip(&row[5..13]).all(is_named)
}

fn all_zero(words: &[u32]) -> bool {
    words.iter().all(|&word| word == 0)
}
