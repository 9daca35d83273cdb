//! Repeatable random numbers, and random books.

use super::book::{encode, Term};

/// A repeatable source of numbers (SplitMix64).
pub struct Random(pub u64);

impl Random {
    pub fn next(&mut self) -> u64 {
        self.0 = self.0.wrapping_add(0x9E37_79B9_7F4A_7C15);
        let mut z = self.0;
        z = (z ^ (z >> 30)).wrapping_mul(0xBF58_476D_1CE4_E5B9);
        z = (z ^ (z >> 27)).wrapping_mul(0x94D0_49BB_1331_11EB);
        z ^ (z >> 31)
    }

    /// A number below n, which is not 0.
    pub fn below(&mut self, n: u64) -> u64 {
        self.next() % n
    }

    /// A place of a list that is not empty.
    pub fn place(&mut self, length: usize) -> usize {
        self.below(length as u64) as usize
    }

    /// An item of a list that is not empty.
    pub fn pick<T: Copy>(&mut self, items: &[T]) -> T {
        items[self.place(items.len())]
    }
}

/// A number that the environment gives, or else the usual one.
fn given(name: &str, usual: u32) -> u64 {
    let number = |text: String| text.parse().unwrap_or_else(|_| panic!("{name} is '{text}' and no number below 2^32"));
    u64::from(std::env::var(name).map_or(usual, number))
}

/// How many times the usual number of cases is to be done: 1, or what the environment says (`tests/run many`).
pub fn times() -> u64 {
    given("TIMES", 1)
}

/// The seed of a program's first case: its own, or with the environment's SEED one so many times 2^32 further, so that no two SEEDs
/// have a case in common.
pub fn first_seed(own: u64) -> u64 {
    own.wrapping_add(given("SEED", 0) << 32)
}

/// A valid book of `count` terms over a random choice of symbols.
pub fn random_book(random: &mut Random, count: usize) -> Vec<Term> {
    let mut symbols: Vec<u32> = (0..1 + random.below(40)).map(|_| random.below(4096) as u32).collect();
    symbols.sort_unstable();
    symbols.dedup();
    let signature = signature(random, &symbols, 9);
    book_over(random, &signature, count)
}

/// Different symbols, each with an arity below `arities`; in half of the cases most of them with others too: none, one more or less,
/// seven and eight, or any.
pub fn signature(random: &mut Random, symbols: &[u32], arities: u64) -> Vec<(u32, u32)> {
    let several = random.below(2) == 0;
    let mut signature = Vec::new();
    for &symbol in symbols {
        let arity = random.below(arities) as u32;
        signature.push((symbol, arity));
        if several {
            let (less, more, any) = (arity.saturating_sub(1), (arity + 1).min(8), random.below(9) as u32);
            let others = random.pick(&[[0, arity], [less, arity], [more, arity], [less, more], [7, 8], [any, arity]]);
            signature.extend(others.map(|other| (symbol, other)));
        }
    }
    signature
}

/// A valid book of `count` terms over these symbols, each with the arities that it is named with.
pub fn book_over(random: &mut Random, signature: &[(u32, u32)], count: usize) -> Vec<Term> {
    let mut terms = Vec::with_capacity(count);
    for own in 0..count as u64 {
        let (symbol, arity) = random.pick(signature);
        if random.below(4) == 0 || (own == 0 && arity > 0) {
            terms.push(Term::Variable);
        } else {
            let arguments = (0..arity).map(|_| random.below(own) as u32).collect();
            terms.push(Term::Application { symbol, arguments });
        }
    }
    terms
}

/// The bytes of a book; of one without terms there are none in half of the cases.
pub fn bytes_of(random: &mut Random, terms: &[Term]) -> Vec<u8> {
    if terms.is_empty() && random.below(2) == 0 {
        return Vec::new();
    }
    encode(terms)
}
