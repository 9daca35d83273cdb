//! Sound areas to start from, made by the calls of the second implementation.

// Each program uses a part.
#![allow(dead_code)]

use crate::reference::{book_over, encode, perform, random_book, signature, Call, Random, Term, OFFICE};

/// An area of the length that it needs, and how it came about: a book opened, then the accepted steps.
pub struct Base {
    pub book: Vec<u8>,
    pub capacity: u32,
    pub steps: Vec<Call<'static>>,
    pub area: Vec<u8>,
}

impl Base {
    fn opened(terms: &[Term], capacity: u32) -> Base {
        let mut base = Base { book: encode(terms), capacity, steps: Vec::new(), area: vec![0; OFFICE.area_length(capacity)] };
        let answer = perform(OFFICE, Call::Open { capacity, book: &base.book }, &mut base.area, &mut []);
        assert_eq!(answer.refusal, 0, "a base that does not open");
        base
    }

    /// Takes a step; a refused one leaves no trace.
    fn step(&mut self, call: Call<'static>) {
        match perform(OFFICE, call, &mut self.area, &mut []).refusal {
            0 => self.steps.push(call),
            refusal => assert_ne!(refusal, 7, "an accepted step left an unsound area"),
        }
    }
}

fn over(symbol: u32, arguments: &[u32]) -> Term {
    Term::Application { symbol, arguments: arguments.to_vec() }
}

/// A term that passes the test where one is found soon, else any.
fn likely(random: &mut Random, terms: &[Term], test: impl Fn(&Term) -> bool) -> u32 {
    let tries: [usize; 4] = std::array::from_fn(|_| random.place(terms.len()));
    tries.into_iter().find(|&t| test(&terms[t])).unwrap_or(tries[0]) as u32
}

fn symbol(term: &Term) -> Option<u32> {
    match term {
        Term::Variable => None,
        Term::Application { symbol, .. } => Some(*symbol),
    }
}

/// A line, often of two terms of one symbol, or a binding, mostly of a variable. The book is not empty.
pub fn random_step(random: &mut Random, terms: &[Term]) -> Call<'static> {
    let any = random.place(terms.len()) as u32;
    match random.below(6) {
        0..=1 => Call::Add { l: any, r: likely(random, terms, |term| symbol(term) == symbol(&terms[any as usize])) },
        2..=3 => Call::Add { l: any, r: random.place(terms.len()) as u32 },
        _ => Call::Bind { v: likely(random, terms, |term| *term == Term::Variable), t: any },
    }
}

/// Few symbols with few arguments, so that many pairs are common and share values.
pub fn narrow_book(random: &mut Random, count: usize) -> Vec<Term> {
    let arities = random.pick(&[1, 2, 3, 3, 4, 9]);
    let any = random.below(4096) as u32;
    let symbols: Vec<u32> = [0, any, 4095].into_iter().filter(|_| random.below(2) == 0).collect();
    let mut signature = signature(random, &symbols, arities);
    signature.push((2, 0));
    book_over(random, &signature, count)
}

/// A small book, mostly at a small capacity, after some steps.
pub fn small(random: &mut Random) -> Base {
    let count = match random.below(8) {
        0 => random.place(3),
        1 => random.place(40),
        2..=4 => 2 + random.place(5),
        _ => 2 + random.place(12),
    };
    let terms = if random.below(8) == 0 { random_book(random, count) } else { narrow_book(random, count) };
    let capacity = match random.below(32) {
        0 => 2048,
        1..=3 => 1 + random.below(200),
        4..=7 => 1 + random.below(4),
        _ => 4 + random.below(28),
    } as u32;
    let mut base = Base::opened(&terms, capacity);
    if count > 0 {
        for _ in 0..random.place(20) {
            base.step(random_step(random, &terms));
        }
    }
    base
}

/// 1,024 variables, each bound to the next, in rising or falling order; every look-up follows the whole chain.
fn chain(rising: bool) -> Base {
    let mut base = Base::opened(&vec![Term::Variable; 1024], 8);
    for (l, r) in [(0, 0), (0, 1023), (5, 700), (1023, 0)] {
        base.step(Call::Add { l, r });
    }
    for i in 0..1023 {
        let v = if rising { i } else { 1022 - i };
        base.step(Call::Bind { v, t: v + 1 });
    }
    base
}

/// A term 1,024 deep, against itself and against the one below it.
fn deep() -> Base {
    let terms: Vec<Term> = (0..1024).map(|t| if t == 0 { Term::Variable } else { over(7, &[t - 1]) }).collect();
    let mut base = Base::opened(&terms, 2048);
    base.step(Call::Add { l: 1023, r: 1022 });
    base.step(Call::Add { l: 1023, r: 1023 });
    base
}

/// A deep term against a variable that is bound in its depth later.
fn deep_binding() -> Base {
    let terms: Vec<Term> = (0..1024).map(|t| if t < 2 { Term::Variable } else { over(4095, &[(t - 1) & !1]) }).collect();
    let mut base = Base::opened(&terms, 1024);
    for call in [Call::Add { l: 1, r: 1023 }, Call::Bind { v: 1, t: 900 }, Call::Add { l: 1022, r: 1 }] {
        base.step(call);
    }
    base
}

/// Variables bound to terms over variables bound in turn: values of 511 levels, as trees far too large to write out.
fn ladder() -> Base {
    let terms: Vec<Term> = (0..1024).map(|t| if t < 512 { Term::Variable } else { over(3, &[t - 512, t - 512]) }).collect();
    let mut base = Base::opened(&terms, 1024);
    base.step(Call::Add { l: 0, r: 1 });
    for v in 0..511 {
        base.step(Call::Bind { v, t: 513 + v });
    }
    base
}

/// 1,024 different constants, and holes for as many lines as there may be, in a table that they fill.
fn constants() -> Base {
    let terms: Vec<Term> = (0..1024).map(|symbol| over(symbol, &[])).collect();
    let mut base = Base::opened(&terms, 256);
    for i in 0..256 {
        base.step(Call::Add { l: i, r: 1023 - i });
    }
    base
}

/// One line as often as there may be lines, or one less.
fn many_lines(random: &mut Random, lines: usize) -> Base {
    let mut base = Base::opened(&narrow_book(random, 6), 40);
    for _ in 0..lines {
        base.step(Call::Add { l: 5, r: random.below(2) as u32 });
    }
    base
}

/// Lines of rising terms, and some bindings between them, until the table is full or nearly so.
fn filled(random: &mut Random, terms: &[Term], capacity: u32) -> Base {
    let mut base = Base::opened(terms, capacity);
    for i in 0..160 {
        let lower = &terms[..2 + (terms.len() - 2) * i / 160];
        base.step(random_step(random, lower));
    }
    base
}

/// A book over a constant, a symbol over one argument and one over two.
fn pairing_book(random: &mut Random, count: usize) -> Vec<Term> {
    book_over(random, &[(0, 0), (1, 1), (4095, 2), (300, 2)], count)
}

/// A book over one symbol with eight arguments: most pairs are common, and reports are long.
fn wide_book(random: &mut Random, count: usize) -> Vec<Term> {
    book_over(random, &[(4095, 8)], count)
}

/// A book over two symbols with several arities each: pairs of one symbol with unlike arities, under roots that are common.
fn uneven_book(random: &mut Random, count: usize) -> Vec<Term> {
    book_over(random, &[(4095, 0), (4095, 7), (4095, 8), (1, 1), (1, 2)], count)
}

/// A table nearly full of lines of terms over eight arguments, then so many lines of one entry each, and bindings that join classes.
fn dense(random: &mut Random, capacity: u32, singles: u32, bindings: u32) -> Base {
    let mut terms: Vec<Term> = (0..128).map(|t| if t % 2 == 0 { Term::Variable } else { over(t, &[]) }).collect();
    for _ in 0..96 {
        let arguments: Vec<u32> = (0..8).map(|_| random.below(128) as u32).collect();
        terms.push(over(4095, &arguments));
    }
    let mut base = Base::opened(&terms, capacity);
    for _ in 0..250 {
        base.step(Call::Add { l: 128 + random.below(96) as u32, r: 128 + random.below(96) as u32 });
    }
    for _ in 0..singles {
        base.step(Call::Add { l: random.below(128) as u32, r: random.below(128) as u32 });
    }
    for _ in 0..bindings {
        base.step(Call::Bind { v: 2 * random.below(64) as u32, t: random.below(128) as u32 });
    }
    base
}

/// A table of 2,048 entries at capacity 2,048, or so many less. Pair p of 46 constants is (p / 46, p mod 46): 227 lines hold eight
/// of these pairs each, in terms over eight arguments, and five lines one.
fn brim(less: usize) -> Base {
    let side = |p: u32, left: bool| if left { p / 46 } else { p % 46 };
    let mut terms: Vec<Term> = (0..46).map(|symbol| over(symbol, &[])).collect();
    for line in 0..227 {
        for left in [true, false] {
            let arguments: Vec<u32> = (8 * line..8 * line + 8).map(|p| side(p, left)).collect();
            terms.push(over(4095, &arguments));
        }
    }
    let mut base = Base::opened(&terms, 2048);
    for line in 0..227 {
        base.step(Call::Add { l: 46 + 2 * line, r: 47 + 2 * line });
    }
    for p in (8 * 227..8 * 227 + 5).skip(less) {
        base.step(Call::Add { l: side(p, true), r: side(p, false) });
    }
    base
}

/// Lines of the terms from `first` on until there is room for one more and hardly for two.
fn lined(terms: &[Term], first: u32, capacity: u32) -> Base {
    let count = terms.len() as u32;
    let mut base = Base::opened(terms, capacity - 9);
    let pairs = (0..count).flat_map(|apart| (first..count - 1 - apart).step_by(2).map(move |l| (l, l + 1 + apart)));
    for (l, r) in pairs.take(2 * terms.len()) {
        base.step(Call::Add { l, r });
    }
    let steps = std::mem::take(&mut base.steps);
    base = Base::opened(terms, capacity);
    for step in steps {
        base.step(step);
    }
    base
}

/// What the calls are measured on: of `count` terms one in sixteen is a variable, as many are constants, and the others are over
/// eight of these; and lines of those.
pub fn measured(random: &mut Random, count: u32, capacity: u32) -> Base {
    let (variables, leaves) = (count / 16, count / 8);
    let mut terms: Vec<Term> = (0..leaves).map(|t| if t < variables { Term::Variable } else { over(t, &[]) }).collect();
    for _ in leaves..count {
        let arguments: Vec<u32> = (0..8).map(|_| random.below(u64::from(leaves)) as u32).collect();
        terms.push(over(4095, &arguments));
    }
    lined(&terms, leaves, capacity)
}

/// Lists of eight numbers that, added to the arguments of a term over eight constants, leave a hash as it is that takes each argument c to
/// h * 2654435843 + c modulo 2^32 * 2654435843 - 1: a short basis of the lattice of all such lists, found by reducing it (Lenstra, Lenstra,
/// Lovász). The library once hashed so (crate names).
const SAME_HASH: [[i32; 8]; 8] = [
    [94, 55, -18, -29, -153, 42, -85, -3],
    [-58, -10, 132, 78, -109, 92, -28, 126],
    [-34, 147, -5, -84, -76, -33, 154, -176],
    [40, -14, 134, -100, -64, 166, 93, -61],
    [63, -52, 133, 23, 99, -13, -116, -172],
    [-74, -115, -45, 68, -100, -46, -139, -98],
    [50, 2, -41, 211, -121, 51, 101, 14],
    [-51, 144, -73, 2, 120, 180, -23, -151],
];

/// 540 constants and 484 terms over eight of them, all different, which a linear hash does not tell apart.
fn one_hash() -> Base {
    const LEAVES: i32 = 540;
    let mut terms: Vec<Term> = (0..LEAVES as u32).map(|symbol| over(symbol, &[])).collect();
    for code in 0..5_usize.pow(8) {
        let mut arguments = [LEAVES / 2; 8];
        for (i, difference) in SAME_HASH.iter().enumerate() {
            let times = (code / 5_usize.pow(i as u32) % 5) as i32 - 2;
            arguments.iter_mut().zip(difference).for_each(|(argument, by)| *argument += times * by);
        }
        if terms.len() < 1024 && arguments.iter().all(|argument| (0..LEAVES).contains(argument)) {
            terms.push(over(4095, &arguments.map(|argument| argument as u32)));
        }
    }
    lined(&terms, LEAVES as u32, 2048)
}

/// The bucket of a pair of names below 16,384 in the library's index (crate pairs).
fn bucket(a: u32, b: u32) -> u64 {
    (u64::from(a) * 16_384 + u64::from(b)) * 204_665 / 65_536 % 4_096
}

/// 568 constants and 456 terms over eight of them, whose pairs fill few buckets of the index: those of one bucket after the other.
fn few_buckets() -> Base {
    const LEAVES: u32 = 568;
    let mut pairs: Vec<(u32, u32)> = (0..LEAVES).flat_map(|a| (0..LEAVES).map(move |b| (a, b))).collect();
    pairs.sort_by_key(|&(a, b)| bucket(a, b));
    let mut terms: Vec<Term> = (0..LEAVES).map(|symbol| over(symbol, &[])).collect();
    for eight in pairs.chunks(8).take(228) {
        terms.push(over(4095, &eight.iter().map(|pair| pair.0).collect::<Vec<u32>>()));
        terms.push(over(4095, &eight.iter().map(|pair| pair.1).collect::<Vec<u32>>()));
    }
    let mut base = Base::opened(&terms, 2048);
    for line in 0..227 {
        base.step(Call::Add { l: LEAVES + 2 * line, r: LEAVES + 2 * line + 1 });
    }
    base
}

/// The measured table after half of its variables are bound to the others, so that many entries have the values of another.
fn joined() -> Base {
    let mut base = measured(&mut Random(1024), 1024, 2048);
    for v in 0..32 {
        base.step(Call::Bind { v, t: v + 32 });
    }
    base
}

/// The bases that are hardest on one part of the work each: a chain of bindings, a deep term, values that are large as trees, a table
/// filled to the brim, entries with the values of others, an index whose pairs share few buckets, and terms that a linear hash does not
/// tell apart.
pub fn hard() -> [(&'static str, Base); 7] {
    [
        ("a chain of 1,023 bindings", chain(true)),
        ("terms 1,024 deep", deep()),
        ("511 levels, doubled", ladder()),
        ("a full table", brim(0)),
        ("entries of one value", joined()),
        ("1,816 pairs in 24 buckets", few_buckets()),
        ("484 terms of one linear hash", one_hash()),
    ]
}

/// Large books, long chains, deep terms, full tables and lists of lines.
pub fn large(random: &mut Random) -> Vec<Base> {
    let mut bases = vec![chain(true), chain(false), deep(), deep_binding(), ladder(), constants(), brim(0), brim(1)];
    bases.extend([255, 256].map(|lines| many_lines(random, lines)));
    for (capacity, singles, bindings) in [(2048, 0, 0), (2048, 6, 0), (2048, 6, 40), (900, 0, 0), (900, 6, 40)] {
        bases.push(dense(random, capacity, singles, bindings));
    }
    for (count, capacity) in [(1024, 2048), (1024, 1024), (1024, 60), (200, 2048), (60, 700)] {
        for book in [narrow_book, pairing_book, random_book, wide_book, uneven_book] {
            let terms = book(random, count);
            bases.push(filled(random, &terms, capacity));
        }
    }
    bases
}
