//! The bytes of an area: where its fields are, and how a state is read and written.

use super::book::Term;
use super::table::{Entry, State};

/// The largest number of terms in a book, of entries in a table and of lines.
#[derive(Clone, Copy, Debug)]
pub struct Limits {
    pub terms: usize,
    pub capacity: u32,
    pub lines: usize,
}

/// The limits of the library.
pub const OFFICE: Limits = Limits { terms: 1024, capacity: 2048, lines: 256 };

pub const HEADER: usize = 4;
pub const TERM_ROW: usize = 10;
pub const ENTRY_ROW: usize = 14;

impl Limits {
    /// The first word of the row of a term.
    pub fn term_row(&self, t: usize) -> usize {
        HEADER + TERM_ROW * t
    }

    /// The word of the binding of a term.
    pub fn binding(&self, t: usize) -> usize {
        self.term_row(self.terms) + t
    }

    /// The word of a line.
    pub fn line(&self, j: usize) -> usize {
        self.binding(self.terms) + j
    }

    /// The first word of the row of an entry.
    pub fn entry_row(&self, i: usize) -> usize {
        self.line(self.lines) + ENTRY_ROW * i
    }

    /// The length in bytes that an area of any capacity needs.
    pub fn needed(&self, capacity: u32) -> usize {
        4 * self.entry_row(capacity as usize)
    }

    /// The same; 0 for a capacity out of range.
    pub fn area_length(&self, capacity: u32) -> usize {
        if (1..=self.capacity).contains(&capacity) {
            self.needed(capacity)
        } else {
            0
        }
    }
}

/// Word i of an area that has it.
pub fn word(area: &[u8], i: usize) -> u32 {
    let bytes = &area[4 * i..4 * i + 4];
    u32::from_le_bytes([bytes[0], bytes[1], bytes[2], bytes[3]])
}

pub fn put(area: &mut [u8], i: usize, value: u32) {
    area[4 * i..4 * i + 4].copy_from_slice(&value.to_le_bytes());
}

/// N words from word `first` on.
pub fn words<const N: usize>(area: &[u8], first: usize) -> [u32; N] {
    std::array::from_fn(|i| word(area, first + i))
}

/// The terms of an area, one for each row, where symbols, arities and arguments are in range.
pub fn read_terms(limits: Limits, area: &[u8]) -> Vec<Term> {
    (0..word(area, 1) as usize).map(|t| read_term(&words(area, limits.term_row(t)))).collect()
}

fn read_term(row: &[u32; TERM_ROW]) -> Term {
    match row[0] {
        0 => Term::Variable,
        first => Term::Application { symbol: first - 1, arguments: row[2..][..row[1] as usize].to_vec() },
    }
}

/// The bindings of an area: for each term, the term it is bound to.
pub fn read_bindings(limits: Limits, area: &[u8]) -> Vec<Option<u32>> {
    (0..word(area, 1) as usize).map(|t| word(area, limits.binding(t)).checked_sub(1)).collect()
}

fn read_entry(row: &[u32; ENTRY_ROW]) -> Entry {
    let common = (row[2] == 1).then(|| (row[3], row[5..][..row[4] as usize].to_vec()));
    Entry { left: row[0], right: row[1], common, same_as: row[13] }
}

/// The state that a sound area holds.
pub fn read(limits: Limits, area: &[u8]) -> State {
    State {
        capacity: word(area, 0),
        terms: read_terms(limits, area),
        bindings: read_bindings(limits, area),
        entries: (0..word(area, 2) as usize).map(|i| read_entry(&words(area, limits.entry_row(i)))).collect(),
        lines: (0..word(area, 3) as usize).map(|j| word(area, limits.line(j))).collect(),
    }
}

/// The fourteen fields of an entry.
pub fn fields(entry: &Entry) -> [u32; ENTRY_ROW] {
    let mut row = [0; ENTRY_ROW];
    row[0] = entry.left;
    row[1] = entry.right;
    if let Some((symbol, arguments)) = &entry.common {
        row[2] = 1;
        row[3] = *symbol;
        row[4] = arguments.len() as u32;
        row[5..5 + arguments.len()].copy_from_slice(arguments);
    }
    row[13] = entry.same_as;
    row
}

/// Writes a state over the needed length of an area.
pub fn store(limits: Limits, state: &State, area: &mut [u8]) {
    area[..limits.needed(state.capacity)].fill(0);
    let header = [state.capacity, state.terms.len() as u32, state.entries.len() as u32, state.lines.len() as u32];
    put_all(area, 0, &header);
    for (t, term) in state.terms.iter().enumerate() {
        if let Term::Application { symbol, arguments } = term {
            let row = limits.term_row(t);
            put_all(area, row, &[symbol + 1, arguments.len() as u32]);
            put_all(area, row + 2, arguments);
        }
    }
    for (t, bound) in state.bindings.iter().enumerate() {
        put(area, limits.binding(t), bound.map_or(0, |term| term + 1));
    }
    put_all(area, limits.line(0), &state.lines);
    for (i, entry) in state.entries.iter().enumerate() {
        put_all(area, limits.entry_row(i), &fields(entry));
    }
}

fn put_all(area: &mut [u8], first: usize, values: &[u32]) {
    for (i, &value) in values.iter().enumerate() {
        put(area, first + i, value);
    }
}
