//! Damage to the bytes of an area: words altered at random, and edits that are wrong, or right, in one thing only.

use crate::reference::{Random, OFFICE};

fn word(area: &[u8], i: usize) -> u32 {
    match area.get(4 * i..4 * i + 4) {
        Some(&[a, b, c, d]) => u32::from_le_bytes([a, b, c, d]),
        _ => 0,
    }
}

fn put(area: &mut [u8], i: usize, value: u32) {
    if let Some(bytes) = area.get_mut(4 * i..4 * i + 4) {
        bytes.copy_from_slice(&value.to_le_bytes());
    }
}

/// The numbers of terms, entries and lines, none larger than may be.
pub fn counts(area: &[u8]) -> (usize, usize, usize) {
    let at_most = |i, most: usize| (word(area, i) as usize).min(most);
    (at_most(1, OFFICE.terms), at_most(2, OFFICE.capacity as usize), at_most(3, OFFICE.lines))
}

/// A place below the count, or now and then the one after the last.
fn near(random: &mut Random, count: usize) -> usize {
    if count == 0 || random.below(12) == 0 {
        count
    } else {
        random.place(count)
    }
}

/// A word of the row from `first` on: one of the fields up to the arity, one of the arguments, or any of the row's `length`.
fn row_word(random: &mut Random, area: &[u8], first: usize, arity: usize, length: usize) -> usize {
    let arguments = word(area, first + arity).min(7) as usize;
    first
        + match random.below(8) {
            0..=4 => random.place(arity + 1),
            5..=6 => arity + 1 + near(random, arguments),
            _ => random.place(length),
        }
}

/// A word of the header, of a used row or the one after the last, or sometimes any word.
fn random_word(random: &mut Random, area: &[u8]) -> usize {
    let (terms, entries, lines) = counts(area);
    match random.below(16) {
        0 => random.place(4),
        1..=4 => {
            let row = OFFICE.term_row(near(random, terms));
            row_word(random, area, row, 1, 10)
        }
        5..=6 => OFFICE.binding(near(random, terms)),
        7 => OFFICE.line(near(random, lines)),
        8..=9 => OFFICE.entry_row(near(random, entries)) + 13,
        10..=14 => {
            let row = OFFICE.entry_row(near(random, entries));
            row_word(random, area, row, 4, 14)
        }
        _ => random.place(area.len() / 4 + 1),
    }
}

/// A value for a word that had another: near, zero, that of another field, at a limit, with one bit turned, or any.
fn random_value(random: &mut Random, area: &[u8], old: u32) -> u32 {
    let (terms, entries, lines) = counts(area);
    let limits = [1, 2, 8, 9, 255, 256, 257, 1023, 1024, 1025, 2047, 2048, 2049, 4095, 4096, 4097, 1 << 16, 1 << 31, u32::MAX];
    let own = [terms as u32, entries as u32, lines as u32, terms as u32 + 1];
    match random.below(12) {
        0..=2 => old.wrapping_add(1),
        3..=4 => old.wrapping_sub(1),
        5 => 0,
        6..=7 => word(area, random_word(random, area)),
        8 => random.pick(&limits),
        9 => random.pick(&own),
        10 => old ^ 1 << random.below(32),
        _ => random.next() as u32,
    }
}

/// One word altered.
pub fn alter(random: &mut Random, area: &mut [u8]) {
    let i = random_word(random, area);
    let value = random_value(random, area, word(area, i));
    put(area, i, value);
}

/// A term number of the book, 0 where it has none.
fn random_term(random: &mut Random, area: &[u8]) -> u32 {
    random.place(counts(area).0.max(1)) as u32
}

/// A variable of the book where one is found soon, else any term.
fn random_variable(random: &mut Random, area: &[u8]) -> usize {
    let tries: [u32; 6] = std::array::from_fn(|_| random_term(random, area));
    let found = tries.iter().find(|&&t| word(area, OFFICE.term_row(t as usize)) == 0);
    *found.unwrap_or(&0) as usize
}

/// Binds up to four variables to one another, in a ring or in a line.
fn ring(random: &mut Random, area: &mut [u8]) {
    let first = random_variable(random, area);
    let mut from = first;
    for _ in 0..random.place(4) {
        let to = random_variable(random, area);
        put(area, OFFICE.binding(from), to as u32 + 1);
        from = to;
    }
    let last = random_term(random, area);
    let end = random.pick(&[first as u32, last]);
    put(area, OFFICE.binding(from), end + 1);
}

/// The first word of the row of an entry; of entry 0 where there is none.
fn random_row(random: &mut Random, area: &[u8]) -> usize {
    OFFICE.entry_row(random.place(counts(area).1.max(1)))
}

/// Gives an entry the sides of another.
fn copy_sides(random: &mut Random, area: &mut [u8]) {
    let (from, to) = (random_row(random, area), random_row(random, area));
    for side in 0..2 {
        put(area, to + side, word(area, from + side));
    }
}

/// Turns the kind of an entry over, with or without its other fields.
fn turn_kind(random: &mut Random, area: &mut [u8]) {
    let row = random_row(random, area);
    put(area, row + 2, 1 - word(area, row + 2).min(1));
    if random.below(2) == 0 {
        for field in 3..13 {
            put(area, row + field, 0);
        }
    }
}

/// The first word of the row of the term that a term stands for; of any where the bindings go round.
fn root_row(area: &[u8], mut t: usize) -> usize {
    for _ in 0..OFFICE.terms {
        match (word(area, OFFICE.binding(t)) as usize).checked_sub(1) {
            Some(next) if next < OFFICE.terms => t = next,
            _ => break,
        }
    }
    OFFICE.term_row(t)
}

/// The entry with these two terms, or one more that is a hole.
fn place(area: &mut [u8], sides: [u32; 2]) -> u32 {
    let entries = counts(area).1;
    if let Some(found) = (0..entries).find(|&i| [0, 1].map(|side| word(area, OFFICE.entry_row(i) + side)) == sides) {
        return found as u32;
    }
    append(area, sides);
    entries as u32
}

/// Marks a hole of one symbol with unlike arities common, with the arguments that both sides have and either arity.
fn mark_common(random: &mut Random, area: &mut [u8]) {
    let roots = |i: usize| [0, 1].map(|side| root_row(area, word(area, OFFICE.entry_row(i) + side).min(1023) as usize));
    let symbol = |root: usize| word(area, root);
    let arity = |root: usize| word(area, root + 1).min(8);
    let is_unlike = |[l, r]: [usize; 2]| symbol(l) != 0 && symbol(l) == symbol(r) && arity(l) != arity(r);
    let unlike: Vec<usize> = (0..counts(area).1).filter(|&i| is_unlike(roots(i))).collect();
    if unlike.is_empty() {
        return;
    }
    let i = random.pick(&unlike);
    let ([l, r], row) = (roots(i), OFFICE.entry_row(i));
    let (symbol, both, arity) = (symbol(l) - 1, arity(l).min(arity(r)), arity(random.pick(&[l, r])));
    for (field, value) in [(2, 1), (3, symbol), (4, arity)] {
        put(area, row + field, value);
    }
    for j in 2..2 + both as usize {
        let argument = place(area, [word(area, l + j), word(area, r + j)]);
        put(area, row + 3 + j, argument);
    }
}

/// One argument more, term 0, or one less for a term with a symbol.
fn other_arity(random: &mut Random, area: &mut [u8]) {
    let row = OFFICE.term_row(random_term(random, area) as usize);
    let arity = word(area, row + 1).min(8);
    if word(area, row) == 0 {
        return;
    }
    if random.below(2) == 0 {
        put(area, row + 1, arity + 1);
    } else if arity > 0 {
        put(area, row + 1, arity - 1);
        put(area, row + 1 + arity as usize, 0);
    }
}

/// Lets an argument place name another entry, often one of the same class.
fn other_argument(random: &mut Random, area: &mut [u8]) {
    let entries = counts(area).1;
    let row = random_row(random, area);
    let place = row + 5 + random.place(word(area, row + 4).clamp(1, 8) as usize);
    let same_as = |i: usize| word(area, OFFICE.entry_row(i) + 13);
    let class = same_as(word(area, place).min(2047) as usize);
    let others: Vec<usize> = (0..entries).filter(|&i| same_as(i) == class).collect();
    if !others.is_empty() {
        let other = random.pick(&others) as u32;
        put(area, place, other);
    }
}

/// One entry more: a hole of two terms that is the first of its class, if nothing else is.
fn append_hole(random: &mut Random, area: &mut [u8]) {
    let sides = [random_term(random, area), random_term(random, area)];
    append(area, sides);
}

fn append(area: &mut [u8], sides: [u32; 2]) {
    let entries = counts(area).1;
    let row = OFFICE.entry_row(entries);
    put(area, row, sides[0]);
    put(area, row + 1, sides[1]);
    put(area, row + 13, entries as u32);
    put(area, 2, entries as u32 + 1);
}

/// One entry, line or term less, its places cleared.
fn drop_last(random: &mut Random, area: &mut [u8]) {
    let (terms, entries, lines) = counts(area);
    let (header, count) = random.pick(&[(1, terms), (2, entries), (3, lines)]);
    let Some(last) = count.checked_sub(1) else {
        return;
    };
    put(area, header, last as u32);
    let (first, length) = match header {
        1 => (OFFICE.term_row(last), 10),
        2 => (OFFICE.entry_row(last), 14),
        _ => (OFFICE.line(last), 1),
    };
    for i in first..first + length {
        put(area, i, 0);
    }
    if header == 1 {
        put(area, OFFICE.binding(last), 0);
    }
}

/// One line more, of any entry or of none.
fn append_line(random: &mut Random, area: &mut [u8]) {
    let (_, entries, lines) = counts(area);
    let entry = random.place(entries + 1) as u32;
    put(area, OFFICE.line(lines), entry);
    put(area, 3, lines as u32 + 1);
}

/// Another capacity, for which the area may be too short or the entries too many.
fn other_capacity(random: &mut Random, area: &mut [u8]) {
    let old = word(area, 0);
    let capacity = random.pick(&[old.wrapping_sub(1), old + 1, counts(area).1 as u32, 0, 2049]);
    put(area, 0, capacity);
}

/// An edit of one thing, in all the words that it concerns.
pub fn edit(random: &mut Random, area: &mut [u8]) {
    let edits = [ring, copy_sides, turn_kind, mark_common, other_argument, other_arity, append_hole, drop_last, append_line, other_capacity];
    random.pick(&edits)(random, area);
}
