//! Adding, fixing, reading an entry, reporting and writing the book in plain Rust, with all tests of an area and no allocation: what the
//! proved code is measured against.

use super::area::{Area, Index, Values, CAPACITY, ENTRY_ROW, TERMS};
use super::{encode, put, size};

/// The refusal, or 0 and the entry.
pub fn add(bytes: &mut [u8], l: u32, r: u32) -> (u32, u32) {
    let mut area = Area::new();
    let Some(values) = area.load(bytes) else {
        return (7, 0);
    };
    if l.max(r) as usize >= area.terms() {
        return (8, 0);
    }
    if area.lines().len() == 256 {
        return (12, 0);
    }
    let mut index = indexed(&area, &values);
    let Some(entry) = place(&mut area, &values, &mut index, l, r) else {
        return (11, 0);
    };
    if walk(&mut area, &values, &mut index, 0).is_none() {
        return (11, 0);
    }
    area.add_line(entry);
    area.store(bytes);
    (0, entry)
}

/// The refusal, or 0, and how many entries turned and were appended.
pub fn bind(bytes: &mut [u8], v: u32, t: u32) -> (u32, u32, u32) {
    let mut area = Area::new();
    if area.load(bytes).is_none() {
        return (7, 0, 0);
    }
    if v.max(t) as usize >= area.terms() {
        return (8, 0, 0);
    }
    if area.symbol(v) != 0 || area.binding(v) != 0 {
        return (9, 0, 0);
    }
    if occurs(&area, v, t) {
        return (10, 0, 0);
    }
    area.bind(v, t);
    let before = area.entries();
    let Some(values) = Values::of(&area) else {
        return (10, 0, 0);
    };
    let mut index = indexed(&area, &values);
    let Some(turned) = walk(&mut area, &values, &mut index, before) else {
        return (11, 0, 0);
    };
    for i in 0..area.entries() {
        let row = area.entry(i);
        let lowest = index.find(values.key(row[0], row[1])).unwrap_or(i);
        area.entry_mut(i)[13] = lowest as u32;
    }
    area.store(bytes);
    (0, turned, (area.entries() - before) as u32)
}

/// Whether a free variable occurs in the value of a term.
fn occurs(area: &Area, v: u32, t: u32) -> bool {
    let mut seen = [false; TERMS];
    let mut open = [t; TERMS];
    let mut count = 1;
    seen[t as usize] = true;
    while count > 0 {
        count -= 1;
        let next = open[count];
        if next == v {
            return true;
        }
        let bound = area.binding(next).checked_sub(1);
        for &below in area.arguments(next).iter().chain(&bound) {
            if !std::mem::replace(&mut seen[below as usize], true) {
                open[count] = below;
                count += 1;
            }
        }
    }
    false
}

fn indexed(area: &Area, values: &Values) -> Index {
    let mut index = Index::new();
    for i in 0..area.entries() {
        let row = area.entry(i);
        index.push(i, values.key(row[0], row[1]));
    }
    index
}

/// The refusal, or 0, and the fields of an entry.
pub fn entry(bytes: &[u8], i: u32) -> (u32, [u32; ENTRY_ROW]) {
    let mut area = Area::new();
    let mut fields = [0; ENTRY_ROW];
    if area.load(bytes).is_none() {
        return (7, fields);
    }
    if i as usize >= area.entries() {
        return (8, fields);
    }
    fields.copy_from_slice(area.entry(i as usize));
    (0, fields)
}

/// The lowest entry of a pair, or a hole at the next number; none where there is no room.
fn place(area: &mut Area, values: &Values, index: &mut Index, l: u32, r: u32) -> Option<u32> {
    let key = values.key(l, r);
    if let Some(entry) = index.find(key) {
        return Some(entry as u32);
    }
    let own = area.entries();
    if own == area.capacity() {
        return None;
    }
    area.append(l, r);
    index.push(own, key);
    Some(own as u32)
}

/// Visits the entries from the first on, appended ones included; how many of the first `old` turned, or none where there is no room.
fn walk(area: &mut Area, values: &Values, index: &mut Index, old: usize) -> Option<u32> {
    let mut turned = 0;
    let mut i = 0;
    while i < area.entries() {
        let row = area.entry(i);
        if row[2] == 0 {
            if let Some((l, r)) = area.common(values, row) {
                turn(area, values, index, i, l, r)?;
                turned += u32::from(i < old);
            }
        }
        i += 1;
    }
    Some(turned)
}

/// Turns entry i, whose sides stand for l and r.
fn turn(area: &mut Area, values: &Values, index: &mut Index, i: usize, l: u32, r: u32) -> Option<()> {
    let arity = area.arguments(l).len();
    let mut arguments = [0; 8];
    for j in 0..arity {
        let (a, b) = (area.arguments(l)[j], area.arguments(r)[j]);
        arguments[j] = place(area, values, index, a, b)?;
    }
    let symbol = area.symbol(l) - 1;
    let row = area.entry_mut(i);
    (row[2], row[3], row[4]) = (1, symbol, arity as u32);
    row[5..13].copy_from_slice(&arguments);
    Some(())
}

/// Classes in the order of their new numbers, and the number of each plus 1.
struct Numbering {
    order: [u32; CAPACITY],
    count: usize,
    numbers: [u32; CAPACITY],
}

impl Numbering {
    fn of(area: &Area) -> Numbering {
        let mut numbering = Numbering { order: [0; CAPACITY], count: 0, numbers: [0; CAPACITY] };
        for &line in area.lines() {
            numbering.meet(area, line);
        }
        let mut next = 0;
        while next < numbering.count {
            let row = area.entry(numbering.order[next] as usize);
            for &argument in arguments(row) {
                numbering.meet(area, argument);
            }
            next += 1;
        }
        numbering
    }

    fn meet(&mut self, area: &Area, entry: u32) {
        let class = area.entry(entry as usize)[13];
        let number = &mut self.numbers[class as usize];
        if *number == 0 {
            self.order[self.count] = class;
            self.count += 1;
            *number = self.count as u32;
        }
    }

    /// The new number of an entry.
    fn number(&self, area: &Area, entry: u32) -> u32 {
        self.numbers[area.entry(entry as usize)[13] as usize] - 1
    }

    /// Each number of the report in turn.
    fn each(&self, area: &Area, values: &Values, mut give: impl FnMut(u32)) {
        give(area.lines().len() as u32);
        for &line in area.lines() {
            give(self.number(area, line));
        }
        give(self.count as u32);
        for &class in &self.order[..self.count] {
            let row = area.entry(class as usize);
            give(values.names[row[0] as usize]);
            give(values.names[row[1] as usize]);
            if row[2] == 0 {
                give(0);
                continue;
            }
            give(row[3] + 1);
            give(row[4]);
            for &argument in arguments(row) {
                give(self.number(area, argument));
            }
        }
    }
}

/// The argument entries of an entry; a hole has none.
fn arguments(row: &[u32]) -> &[u32] {
    &row[5..5 + row[4] as usize]
}

/// The refusal, or 0, and the number of bytes written.
pub fn report(bytes: &[u8], out: &mut [u8]) -> (u32, u32) {
    let mut area = Area::new();
    let Some(values) = area.load(bytes) else {
        return (7, 0);
    };
    let numbering = Numbering::of(&area);
    let mut length = 0;
    numbering.each(&area, &values, |n| length += size(n));
    if out.len() < length {
        return (13, 0);
    }
    let mut at = 0;
    numbering.each(&area, &values, |n| put(out, &mut at, n));
    (0, length as u32)
}

/// The refusal, or 0, and the number of bytes written.
pub fn write(bytes: &[u8], out: &mut [u8]) -> (u32, u32) {
    let mut area = Area::new();
    match area.load(bytes) {
        Some(_) => encode(area.rows(), out),
        None => (7, 0),
    }
}
