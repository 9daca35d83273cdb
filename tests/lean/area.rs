//! An area in plain Rust: its words on the stack, the test of all of them, and the values of its terms.

use super::TERM_ROW;
use crate::reference::OFFICE;

pub const TERMS: usize = 1024;
const LINES: usize = 256;
pub const CAPACITY: usize = 2048;
pub const ENTRY_ROW: usize = 14;

const ROWS: usize = 4;
const BINDINGS: usize = ROWS + TERM_ROW * TERMS;
const LINE_WORDS: usize = BINDINGS + TERMS;
const ENTRIES: usize = LINE_WORDS + LINES;
const WORDS: usize = ENTRIES + ENTRY_ROW * CAPACITY;

/// The words of an area, and the length in bytes that it needs.
pub struct Area {
    words: [u32; WORDS],
    needed: usize,
}

impl Area {
    pub fn new() -> Area {
        Area { words: [0; WORDS], needed: 0 }
    }

    pub fn capacity(&self) -> usize {
        self.words[0] as usize
    }

    pub fn terms(&self) -> usize {
        self.words[1] as usize
    }

    pub fn entries(&self) -> usize {
        self.words[2] as usize
    }

    pub fn lines(&self) -> &[u32] {
        &self.words[LINE_WORDS..LINE_WORDS + self.words[3] as usize]
    }

    /// The rows of all terms.
    pub fn rows(&self) -> &[u32] {
        &self.words[ROWS..ROWS + TERM_ROW * self.terms()]
    }

    fn row(&self, t: u32) -> &[u32] {
        &self.words[ROWS + TERM_ROW * t as usize..][..TERM_ROW]
    }

    /// The arguments of a term; a variable has none.
    pub fn arguments(&self, t: u32) -> &[u32] {
        let row = self.row(t);
        &row[2..2 + row[1] as usize]
    }

    /// Symbol plus 1, or 0 for a variable.
    pub fn symbol(&self, t: u32) -> u32 {
        self.row(t)[0]
    }

    /// The term that a variable is bound to, plus 1, or 0.
    pub fn binding(&self, t: u32) -> u32 {
        self.words[BINDINGS + t as usize]
    }

    pub fn bind(&mut self, v: u32, t: u32) {
        self.words[BINDINGS + v as usize] = t + 1;
    }

    pub fn entry(&self, i: usize) -> &[u32] {
        &self.words[ENTRIES + ENTRY_ROW * i..][..ENTRY_ROW]
    }

    pub fn entry_mut(&mut self, i: usize) -> &mut [u32] {
        &mut self.words[ENTRIES + ENTRY_ROW * i..][..ENTRY_ROW]
    }

    /// A hole at the next number, for which there is room.
    pub fn append(&mut self, l: u32, r: u32) {
        let own = self.words[2];
        let row = self.entry_mut(own as usize);
        (row[0], row[1], row[13]) = (l, r, own);
        self.words[2] = own + 1;
    }

    /// One line more, for which there is room.
    pub fn add_line(&mut self, entry: u32) {
        self.words[LINE_WORDS + self.words[3] as usize] = entry;
        self.words[3] += 1;
    }

    /// Loads and tests an area; the values of its terms, or none where it is not sound.
    pub fn load(&mut self, area: &[u8]) -> Option<Values> {
        if !self.load_words(area) || !self.rows_ok() || !self.unused_ok() {
            return None;
        }
        let values = Values::of(self)?;
        self.table_ok(&values).then_some(values)
    }

    pub fn store(&self, area: &mut [u8]) {
        for (place, word) in area[..self.needed].chunks_exact_mut(4).zip(&self.words) {
            place.copy_from_slice(&word.to_le_bytes());
        }
    }

    /// The words of an area whose header is in order.
    fn load_words(&mut self, area: &[u8]) -> bool {
        let Some(header) = area.get(..16) else {
            return false;
        };
        take_words(header, &mut self.words);
        let [capacity, terms, entries, lines] = [0, 1, 2, 3].map(|i| self.words[i] as usize);
        self.needed = OFFICE.area_length(capacity as u32);
        if self.needed == 0 || area.len() < self.needed || terms > TERMS || entries > capacity || lines > LINES {
            return false;
        }
        take_words(&area[..self.needed], &mut self.words);
        true
    }

    /// The tests that look at one row at a time.
    fn rows_ok(&self) -> bool {
        let (n, m) = (self.terms() as u32, self.entries() as u32);
        (0..n).all(|t| self.term_ok(t) && self.binding_ok(t, n))
            && self.lines().iter().all(|&entry| entry < m)
            && (0..m as usize).all(|i| entry_ok(self.entry(i), n))
    }

    fn term_ok(&self, t: u32) -> bool {
        let row = self.row(t);
        let (first, arity) = (row[0], row[1]);
        if first == 0 {
            return all_zero(row);
        }
        if first > 4096 || arity > 8 {
            return false;
        }
        let (arguments, rest) = row[2..].split_at(arity as usize);
        arguments.iter().all(|&argument| argument < t) && all_zero(rest)
    }

    fn binding_ok(&self, t: u32, n: u32) -> bool {
        self.binding(t) == 0 || (self.symbol(t) == 0 && self.binding(t) <= n)
    }

    /// Zeros after the last term, binding, line and entry.
    fn unused_ok(&self) -> bool {
        let [capacity, terms, entries, lines] = [0, 1, 2, 3].map(|i| self.words[i] as usize);
        all_zero(&self.words[ROWS + TERM_ROW * terms..BINDINGS])
            && all_zero(&self.words[BINDINGS + terms..LINE_WORDS])
            && all_zero(&self.words[LINE_WORDS + lines..ENTRIES])
            && all_zero(&self.words[ENTRIES + ENTRY_ROW * entries..ENTRIES + ENTRY_ROW * capacity])
    }

    /// The tests that look at values and at pairs of entries.
    fn table_ok(&self, values: &Values) -> bool {
        let mut pairs = Index::new();
        let mut classes = Index::new();
        (0..self.entries()).all(|i| {
            let row = self.entry(i);
            let lowest = classes.push(i, values.key(row[0], row[1]));
            pairs.push(i, row[0] << 16 | row[1]) == i && lowest == row[13] as usize && self.kind_ok(values, row)
        })
    }

    /// An entry is common exactly where it should be, and then has the symbol, the arity and the arguments that it should.
    fn kind_ok(&self, values: &Values, row: &[u32]) -> bool {
        let Some((l, r)) = self.common(values, row) else {
            return row[2] == 0;
        };
        let (left, right) = (self.arguments(l), self.arguments(r));
        let argument_ok = |((&a, &b), &place): ((&u32, &u32), &u32)| {
            (place as usize) < self.entries() && {
                let named = self.entry(place as usize);
                values.key(named[0], named[1]) == values.key(a, b)
            }
        };
        row[2] == 1
            && row[3] + 1 == self.symbol(l)
            && row[4] as usize == left.len()
            && left.iter().zip(right).zip(&row[5..13]).all(argument_ok)
    }

    /// Whether two terms have one symbol and one arity, or both are variables.
    fn are_alike(&self, t: u32, u: u32) -> bool {
        self.row(t)[..2] == self.row(u)[..2]
    }

    /// The two alike terms that the sides of an entry stand for.
    pub fn common(&self, values: &Values, row: &[u32]) -> Option<(u32, u32)> {
        let (l, r) = (values.roots[row[0] as usize], values.roots[row[1] as usize]);
        (self.symbol(l) != 0 && self.are_alike(l, r)).then_some((l, r))
    }
}

fn take_words(bytes: &[u8], words: &mut [u32]) {
    for (word, b) in words.iter_mut().zip(bytes.chunks_exact(4)) {
        *word = u32::from_le_bytes([b[0], b[1], b[2], b[3]]);
    }
}

fn all_zero(words: &[u32]) -> bool {
    words.iter().fold(0, |all, word| all | word) == 0
}

fn entry_ok(row: &[u32], n: u32) -> bool {
    let arity = row[4] as usize;
    row[0] < n && row[1] < n && (row[2] == 0 && all_zero(&row[3..13]) || row[2] == 1 && arity <= 8 && row[3] <= 4095 && all_zero(&row[5 + arity..13]))
}

/// What each term stands for, and the name of its value.
pub struct Values {
    roots: [u32; TERMS],
    pub names: [u32; TERMS],
}

/// Terms by their values: those with a symbol are found by it and by the classes of their arguments.
struct Classes {
    of: [u32; TERMS],
    slots: [u16; 2 * TERMS],
}

impl Classes {
    /// The first term before t that is alike and has arguments of the same classes, or t itself.
    fn of_application(&mut self, area: &Area, t: u32) -> u32 {
        let arguments = area.arguments(t);
        let mix = |hash: u32, &a: &u32| (hash.rotate_left(5) ^ self.of[a as usize]).wrapping_mul(0x9E37_79B1);
        let mut slot = arguments.iter().fold(area.symbol(t).wrapping_mul(0x9E37_79B1), mix) as usize >> 21;
        loop {
            let Some(other) = u32::from(self.slots[slot]).checked_sub(1) else {
                self.slots[slot] = t as u16 + 1;
                return t;
            };
            let same = |(&a, &b): (&u32, &u32)| self.of[a as usize] == self.of[b as usize];
            if area.are_alike(other, t) && arguments.iter().zip(area.arguments(other)).all(same) {
                return other;
            }
            slot = (slot + 1) % self.slots.len();
        }
    }
}

impl Values {
    /// The values under the bindings; none where one contains itself.
    pub fn of(area: &Area) -> Option<Values> {
        let n = area.terms();
        let mut values = Values { roots: [0; TERMS], names: [0; TERMS] };
        let mut classes = Classes { of: [0; TERMS], slots: [0; 2 * TERMS] };
        let mut walk = Walk { marks: [UNSEEN; TERMS], path: [(0, 0); TERMS], depth: 0 };
        for t in 0..n as u32 {
            walk.visit(t)?;
            while let Some(done) = walk.finished(area)? {
                values.find(area, &mut classes, done);
            }
        }
        let mut lowest = [u32::MAX; TERMS];
        for t in 0..n {
            let own = &mut lowest[classes.of[t] as usize];
            *own = (*own).min(t as u32);
            values.names[t] = *own;
        }
        Some(values)
    }

    /// The root and the class of a term, where those of its parts are known.
    fn find(&mut self, area: &Area, classes: &mut Classes, t: u32) {
        let i = t as usize;
        (self.roots[i], classes.of[i]) = match (area.symbol(t), area.binding(t)) {
            (0, 0) => (t, t),
            (0, bound) => (self.roots[bound as usize - 1], classes.of[bound as usize - 1]),
            _ => (t, classes.of_application(area, t)),
        };
    }

    /// The names of a pair of terms, as one number.
    pub fn key(&self, l: u32, r: u32) -> u32 {
        self.names[l as usize] << 16 | self.names[r as usize]
    }
}

const UNSEEN: u8 = 0;
const BEGUN: u8 = 1;
const DONE: u8 = 2;

/// A walk through the terms, all that a term's value is made of first: the terms begun, each with the part that comes next.
struct Walk {
    marks: [u8; TERMS],
    path: [(u32, u32); TERMS],
    depth: usize,
}

impl Walk {
    /// Begins a term; none where it is begun already.
    fn visit(&mut self, t: u32) -> Option<()> {
        match self.marks[t as usize] {
            BEGUN => return None,
            UNSEEN => {
                self.marks[t as usize] = BEGUN;
                self.path[self.depth] = (t, 0);
                self.depth += 1;
            }
            _ => {}
        }
        Some(())
    }

    /// Goes on to the next term all of whose parts are done, if there is one.
    fn finished(&mut self, area: &Area) -> Option<Option<u32>> {
        while self.depth > 0 {
            let (t, part) = self.path[self.depth - 1];
            let next = match area.binding(t) {
                0 => area.arguments(t).get(part as usize).copied(),
                bound => (part == 0).then_some(bound - 1),
            };
            let Some(below) = next else {
                self.depth -= 1;
                self.marks[t as usize] = DONE;
                return Some(Some(t));
            };
            self.path[self.depth - 1].1 += 1;
            self.visit(below)?;
        }
        Some(None)
    }
}

/// The lowest entry for each key, by open addressing.
pub struct Index {
    keys: [u32; CAPACITY],
    slots: [u16; 2 * CAPACITY],
}

impl Index {
    pub fn new() -> Index {
        Index { keys: [0; CAPACITY], slots: [0; 2 * CAPACITY] }
    }

    /// The slot of a key: one that has it, or a free one.
    fn slot(&self, key: u32) -> usize {
        let mut slot = key.wrapping_mul(0x9E37_79B1) as usize >> 20;
        while self.slots[slot] != 0 && self.keys[self.slots[slot] as usize - 1] != key {
            slot = (slot + 1) % self.slots.len();
        }
        slot
    }

    pub fn find(&self, key: u32) -> Option<usize> {
        (self.slots[self.slot(key)] as usize).checked_sub(1)
    }

    /// Gives entry i a key; the lowest entry that has it.
    pub fn push(&mut self, i: usize, key: u32) -> usize {
        self.keys[i] = key;
        let slot = self.slot(key);
        if self.slots[slot] == 0 {
            self.slots[slot] = i as u16 + 1;
        }
        self.slots[slot] as usize - 1
    }
}
