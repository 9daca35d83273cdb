//! The pair table: search, saturation, and the two steps that change it.

use super::area::Limits;
use super::book::{check, Term};
use super::value::{common, one_symbol, Values};
use std::collections::HashMap;

/// An entry; `common` is the symbol and the argument entries, or none for a hole.
#[derive(Clone, Debug, PartialEq)]
pub struct Entry {
    pub left: u32,
    pub right: u32,
    pub common: Option<(u32, Vec<u32>)>,
    pub same_as: u32,
}

/// What an area holds.
#[derive(Clone, Debug, PartialEq)]
pub struct State {
    pub capacity: u32,
    pub terms: Vec<Term>,
    pub bindings: Vec<Option<u32>>,
    pub entries: Vec<Entry>,
    pub lines: Vec<u32>,
}

/// For each pair of values that has an entry, the lowest one.
pub type Lowest = HashMap<(usize, usize), u32>;

/// The lowest entries of these pairs of terms, which are numbered from 0.
pub fn lowest(values: &Values, pairs: impl Iterator<Item = (u32, u32)>) -> Lowest {
    let mut found = Lowest::new();
    for (i, (l, r)) in pairs.enumerate() {
        found.entry(values.pair(l, r)).or_insert(i as u32);
    }
    found
}

impl State {
    /// A book just opened.
    pub fn opened(capacity: u32, terms: Vec<Term>) -> State {
        let bindings = vec![None; terms.len()];
        State { capacity, terms, bindings, entries: Vec::new(), lines: Vec::new() }
    }

    pub fn values(&self) -> Result<Values, u32> {
        Values::new(&self.terms, &self.bindings).ok_or(7)
    }

    fn lowest(&self, values: &Values) -> Lowest {
        lowest(values, self.entries.iter().map(|entry| (entry.left, entry.right)))
    }

    /// The entry of a pair: the lowest that has its values, or one that is appended; 11 where there is no room for it.
    fn search(&mut self, values: &Values, found: &mut Lowest, l: u32, r: u32) -> Result<u32, u32> {
        if let Some(&entry) = found.get(&values.pair(l, r)) {
            return Ok(entry);
        }
        let own = self.entries.len() as u32;
        check(own < self.capacity, 11)?;
        self.entries.push(Entry { left: l, right: r, common: None, same_as: own });
        found.insert(values.pair(l, r), own);
        Ok(own)
    }

    /// Saturation: every hole whose sides stand for alike terms becomes common.
    fn walk(&mut self, values: &Values, found: &mut Lowest) -> Result<(), u32> {
        let mut i = 0;
        while i < self.entries.len() {
            if self.entries[i].common.is_none() {
                self.turn(values, found, i)?;
            }
            i += 1;
        }
        Ok(())
    }

    fn turn(&mut self, values: &Values, found: &mut Lowest, i: usize) -> Result<(), u32> {
        let Entry { left, right, .. } = self.entries[i];
        let Some((symbol, a, b)) = common(&self.terms, &self.bindings, left, right) else {
            return Ok(());
        };
        let pairs: Vec<(u32, u32)> = a.iter().copied().zip(b.iter().copied()).collect();
        let mut arguments = Vec::with_capacity(pairs.len());
        for (l, r) in pairs {
            arguments.push(self.search(values, found, l, r)?);
        }
        self.entries[i].common = Some((symbol, arguments));
        Ok(())
    }

    /// The arities of the terms that the sides of an entry stand for, where these have one symbol and unlike arities.
    pub fn unlike_arities(&self, entry: &Entry) -> Option<[usize; 2]> {
        let (_, left, right) = one_symbol(&self.terms, &self.bindings, entry.left, entry.right)?;
        (left.len() != right.len()).then_some([left.len(), right.len()])
    }

    fn has_terms(&self, l: u32, r: u32) -> bool {
        l.max(r) < self.terms.len() as u32
    }

    /// Adds a line: the state after it and the line's entry.
    pub fn add(mut self, limits: Limits, l: u32, r: u32) -> Result<(State, u32), u32> {
        check(self.has_terms(l, r), 8)?;
        check(self.lines.len() < limits.lines, 12)?;
        let values = self.values()?;
        let mut found = self.lowest(&values);
        let entry = self.search(&values, &mut found, l, r)?;
        self.walk(&values, &mut found)?;
        self.lines.push(entry);
        Ok((self, entry))
    }

    /// Binds v to t: the state after it, and how many entries turned and were appended.
    pub fn bind(mut self, v: u32, t: u32) -> Result<(State, u32, u32), u32> {
        check(self.has_terms(v, t), 8)?;
        let free = self.terms[v as usize] == Term::Variable && self.bindings[v as usize].is_none();
        check(free, 9)?;
        check(!self.values()?.occurs(v, t), 10)?;
        let holes: Vec<bool> = self.entries.iter().map(|entry| entry.common.is_none()).collect();
        self.bindings[v as usize] = Some(t);
        let values = self.values()?;
        let mut found = self.lowest(&values);
        self.walk(&values, &mut found)?;
        for entry in &mut self.entries {
            entry.same_as = found[&values.pair(entry.left, entry.right)];
        }
        let turned = holes.iter().zip(&self.entries).filter(|(hole, entry)| **hole && entry.common.is_some()).count();
        let appended = self.entries.len() - holes.len();
        Ok((self, turned as u32, appended as u32))
    }
}
