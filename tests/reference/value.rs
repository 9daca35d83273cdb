//! Values: finite trees over symbols and free variables.

use super::book::Term;
use std::collections::HashMap;

/// A tree; its subtrees are given by their numbers in `Values`.
#[derive(Clone, PartialEq, Eq, Hash)]
enum Tree {
    Free(u32),
    Over { symbol: u32, arguments: Vec<usize> },
}

/// The values of all terms of a book. Each tree has one number, so values are the same when their numbers are.
pub struct Values {
    trees: Vec<Tree>,
    numbers: HashMap<Tree, usize>,
    of_term: Vec<Progress>,
}

/// How far the value of a term is known.
#[derive(Clone, Copy)]
enum Progress {
    Unknown,
    Begun,
    Known(usize),
}

impl Values {
    /// The values under these bindings; none where a value would contain itself.
    pub fn new(terms: &[Term], bindings: &[Option<u32>]) -> Option<Values> {
        let mut values = Values {
            trees: Vec::with_capacity(terms.len()),
            numbers: HashMap::with_capacity(terms.len()),
            of_term: vec![Progress::Unknown; terms.len()],
        };
        for t in 0..terms.len() as u32 {
            values.find(terms, bindings, t)?;
        }
        Some(values)
    }

    /// The number of the value of t, found by way of the terms that it needs. A term met again before it is done is on a cycle.
    fn find(&mut self, terms: &[Term], bindings: &[Option<u32>], t: u32) -> Option<usize> {
        match self.of_term[t as usize] {
            Progress::Known(number) => return Some(number),
            Progress::Begun => return None,
            Progress::Unknown => self.of_term[t as usize] = Progress::Begun,
        }
        let number = match (&terms[t as usize], bindings[t as usize]) {
            (Term::Variable, Some(bound)) => self.find(terms, bindings, bound)?,
            (Term::Variable, None) => self.number(Tree::Free(t)),
            (Term::Application { symbol, arguments }, _) => {
                let mut below = Vec::with_capacity(arguments.len());
                for &argument in arguments {
                    below.push(self.find(terms, bindings, argument)?);
                }
                self.number(Tree::Over { symbol: *symbol, arguments: below })
            }
        };
        self.of_term[t as usize] = Progress::Known(number);
        Some(number)
    }

    /// The number of a tree, the next one where it is new.
    fn number(&mut self, tree: Tree) -> usize {
        if let Some(&known) = self.numbers.get(&tree) {
            return known;
        }
        self.trees.push(tree.clone());
        self.numbers.insert(tree, self.trees.len() - 1);
        self.trees.len() - 1
    }

    /// The value of a term.
    pub fn of(&self, t: u32) -> usize {
        match self.of_term[t as usize] {
            Progress::Known(number) => number,
            _ => unreachable!("all values are found at the start"),
        }
    }

    /// The values of a pair of terms.
    pub fn pair(&self, l: u32, r: u32) -> (usize, usize) {
        (self.of(l), self.of(r))
    }

    /// Whether the free variable v occurs in the value of t.
    pub fn occurs(&self, v: u32, t: u32) -> bool {
        let mut seen = vec![false; self.trees.len()];
        let mut open = vec![self.of(t)];
        while let Some(number) = open.pop() {
            if std::mem::replace(&mut seen[number], true) {
                continue;
            }
            match &self.trees[number] {
                Tree::Free(x) if *x == v => return true,
                Tree::Free(_) => {}
                Tree::Over { arguments, .. } => open.extend(arguments),
            }
        }
        false
    }

    /// For each value, its name: the lowest term that has it.
    pub fn names(&self) -> Vec<u32> {
        let mut names = vec![u32::MAX; self.trees.len()];
        for t in (0..self.of_term.len() as u32).rev() {
            names[self.of(t)] = t;
        }
        names
    }
}

/// The term that t stands for: the last one of its chain of bindings.
pub fn stands_for(bindings: &[Option<u32>], mut t: u32) -> u32 {
    while let Some(next) = bindings[t as usize] {
        t = next;
    }
    t
}

/// The symbol of the terms that both sides stand for, with the arguments of each as they are written; none where they are not alike.
pub fn common<'a>(terms: &'a [Term], bindings: &[Option<u32>], l: u32, r: u32) -> Option<(u32, &'a [u32], &'a [u32])> {
    one_symbol(terms, bindings, l, r).filter(|(_, left, right)| left.len() == right.len())
}

/// The same where they have one symbol, with one arity or with two.
pub fn one_symbol<'a>(terms: &'a [Term], bindings: &[Option<u32>], l: u32, r: u32) -> Option<(u32, &'a [u32], &'a [u32])> {
    let left = &terms[stands_for(bindings, l) as usize];
    let right = &terms[stands_for(bindings, r) as usize];
    match (left, right) {
        (Term::Application { symbol: s, arguments: a }, Term::Application { symbol: q, arguments: b }) if s == q => Some((*s, a, b)),
        _ => None,
    }
}
