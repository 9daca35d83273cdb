//! Compares reading an entry and writing the book back, through the C interface, with the second implementation: on sound
//! areas, and on areas that were damaged, cut or lengthened. Every case is made from its own seed, which is printed where the
//! two differ. It counts what is wrong with the areas, and fails where some fault never occurs. Areas of an older library (older.rs) must
//! be sound.

mod bases;
mod damage;
#[macro_use]
mod kinds;
#[cfg_attr(stand_in, path = "stand_in.rs")]
mod fit;
mod older;
mod reference;
mod samples;

use bases::Base;
use reference::{decode, faults, first_seed, has_two_arities, perform, read, times, Answer, Call, Fault, Faults, Limits, Random, OFFICE};
use samples::Tally;

const CASES: u64 = 200_000;
const SEED: u64 = 0xA4EA_0000_0000_0000;
const SMALL_BASES: usize = 600;
/// One case in so many starts from a large area.
const LARGE_EVERY: u64 = 64;

/// The second implementation at the limits of no library.
const SMALL_LIMITS: Limits = Limits { terms: 8, capacity: 5, lines: 3 };

/// Copies of a base are lengthened, damaged and cut; about one in five is left as it is.
fn make_area(random: &mut Random, base: &Base, area: &mut Vec<u8>) {
    area.clear();
    area.extend_from_slice(&base.area);
    lengthen(random, area);
    match random.below(16) {
        0..=4 => damage::alter(random, area),
        5..=7 => {
            damage::alter(random, area);
            damage::alter(random, area);
        }
        8..=11 => damage::edit(random, area),
        12 => {
            damage::edit(random, area);
            damage::alter(random, area);
        }
        _ => {}
    }
    cut(random, area);
}

/// Bytes behind the needed length, zero or not.
fn lengthen(random: &mut Random, area: &mut Vec<u8>) {
    let more = random.place(100);
    match random.below(4) {
        0 => area.resize(area.len() + more, 0),
        1 => area.extend((0..more).map(|_| random.next() as u8)),
        _ => {}
    }
}

/// Any shorter length, one near the whole, or hardly a header.
fn cut(random: &mut Random, area: &mut Vec<u8>) {
    let length = match random.below(24) {
        0 => random.place(area.len() + 1),
        1 => area.len() - random.place(120),
        2 => random.place(21),
        _ => area.len(),
    };
    area.truncate(length);
}

/// A number that mostly names an entry, or is one more.
fn random_entry(random: &mut Random, area: &[u8]) -> u32 {
    let entries = damage::counts(area).1;
    let (count, inside) = (entries as u32, random.place(entries + 1) as u32);
    match random.below(8) {
        0 => count,
        1 => random.pick(&[count.wrapping_sub(1), count + 1, 2047, 2048, u32::MAX]),
        2 => inside ^ 1 << random.below(32),
        _ => inside,
    }
}

/// Reading an entry agrees in the answer and in every field, and leaves the area.
fn entry_agrees(random: &mut Random, area: &[u8], copy: &mut [u8]) -> bool {
    let i = random_entry(random, area);
    let filling = random.next() as u32;
    let mut fields = [filling; 14];
    let refusal = fit::entry(area, i, &mut fields);
    let expected = perform(OFFICE, Call::Entry { i }, copy, &mut []);
    Answer { refusal, numbers: fields } == expected && area == copy
}

/// Writing the book back agrees in the answer, the count and every byte of the output, and leaves the area.
fn write_agrees(random: &mut Random, base: &Base, area: &[u8], copy: &mut [u8]) -> bool {
    let needed = base.book.len();
    let length = match random.below(6) {
        0 => random.place(needed),
        1 => needed - 1,
        2 => needed,
        3 => needed + 1,
        _ => needed + random.place(20),
    };
    let filling = random.next() as u8;
    let mut ours = vec![filling; length];
    let mut theirs = vec![filling; length];
    let mut written = random.next() as u32;
    let refusal = fit::write(area, &mut ours, &mut written);
    let expected = perform(OFFICE, Call::Write, copy, &mut theirs);
    Answer::new(refusal, &[written]) == expected && ours == theirs && area == copy
}

kinds! {
    Unlike, "a sound area with a hole of one symbol and unlike arities";
    UnlikeNone, "of these, one arity 0";
    UnlikeMost, "of these, the arities 7 and 8";
    UnlikeBound, "of these, a side a bound variable";
    SecondArity, "a sound area in which damage gave a symbol its second arity";
}

/// How often each fault occurred, also as the only one, and what else the areas were.
#[derive(Default)]
struct Census {
    sound: u64,
    faults: [u64; Fault::ALL.len()],
    only: [u64; Fault::ALL.len()],
    points: [u64; 11],
    alone: [u64; 11],
    kinds: [u64; KINDS.len()],
}

impl Census {
    fn note(&mut self, kind: Kind, occurs: bool) {
        self.kinds[kind as usize] += u64::from(occurs);
    }

    /// A sound area that was made from a base.
    fn sound(&mut self, base: &Base, area: &[u8]) {
        let state = read(OFFICE, area);
        let unlike = || state.entries.iter().filter_map(|entry| Some((entry, state.unlike_arities(entry)?)));
        let is_bound = |t: u32| state.bindings[t as usize].is_some();
        self.note(Kind::Unlike, unlike().next().is_some());
        self.note(Kind::UnlikeNone, unlike().any(|(_, arities)| arities.contains(&0)));
        self.note(Kind::UnlikeMost, unlike().any(|(_, arities)| arities == [7, 8] || arities == [8, 7]));
        self.note(Kind::UnlikeBound, unlike().any(|(entry, _)| is_bound(entry.left) || is_bound(entry.right)));
        let had_one = || decode(OFFICE, &base.book).is_ok_and(|terms| !has_two_arities(&terms));
        self.note(Kind::SecondArity, has_two_arities(&state.terms) && had_one());
    }

    fn count(&mut self, found: Faults) {
        self.sound += u64::from(found.is_empty());
        for (i, (fault, _, _)) in Fault::ALL.into_iter().enumerate() {
            self.faults[i] += u64::from(found.has(fault));
            self.only[i] += u64::from(found.is_only(fault));
        }
        let points = found.points();
        for &point in &points {
            self.points[point as usize] += 1;
        }
        if let [point] = points[..] {
            self.alone[point as usize] += 1;
        }
    }

    fn print(&self) {
        println!("{} sound; {} unsound for exactly one point", self.sound, self.alone.iter().sum::<u64>());
        for point in 1..=10 {
            println!("point {point}: {}, as the only one {}", self.points[point], self.alone[point]);
            for (i, (_, _, what)) in Fault::ALL.iter().enumerate().filter(|(_, fault)| fault.1 as usize == point) {
                println!("    {what}: {}, as the only one {}", self.faults[i], self.only[i]);
            }
        }
        kinds::print(KINDS, &self.kinds);
    }

    /// Whether every fault and every point occurred as the only one.
    fn is_complete(&self) -> bool {
        self.sound > 0 && self.only.iter().chain(&self.alone[1..]).all(|&number| number > 0)
    }
}

/// What a run has found.
#[derive(Default)]
struct Outcome {
    census: Census,
    reading: u64,
    writing: u64,
}

/// One case: an area from a base, judged, and then read and written by both.
fn run_case(seed: u64, small: &[Base], large: &[Base], area: &mut Vec<u8>, copy: &mut Vec<u8>, outcome: &mut Outcome) {
    let mut random = Random(seed);
    let pool = if random.below(LARGE_EVERY) == 0 { large } else { small };
    let base = &pool[random.place(pool.len())];
    make_area(&mut random, base, area);
    copy.clone_from(area);
    let found = faults(OFFICE, area);
    outcome.census.count(found);
    if found.is_empty() {
        outcome.census.sound(base, area);
    }
    if !entry_agrees(&mut random, area, copy) {
        println!("reading an entry differs: seed {seed:#x}");
        outcome.reading += 1;
    }
    if !write_agrees(&mut random, base, area, copy) {
        println!("writing the book differs: seed {seed:#x}");
        outcome.writing += 1;
    }
}

fn run_cases(first: u64) -> Outcome {
    let mut random = Random(first);
    let small: Vec<Base> = (0..SMALL_BASES).map(|_| bases::small(&mut random)).collect();
    let large = bases::large(&mut random);
    let mut outcome = Outcome::default();
    let (mut area, mut copy) = (Vec::new(), Vec::new());
    for case in 1..=CASES * times() {
        run_case(first + case, &small, &large, &mut area, &mut copy, &mut outcome);
        if outcome.reading + outcome.writing > 20 {
            break;
        }
    }
    outcome
}

fn main() {
    let mut tally = Tally::default();
    samples::run(OFFICE, perform, &mut tally);
    samples::run(SMALL_LIMITS, perform, &mut tally);
    samples::layout_example(OFFICE, perform, &mut tally);
    older::run(&mut tally);
    let first = first_seed(SEED);
    let Outcome { census, reading, writing } = run_cases(first);
    println!("{} areas from seed {first:#x}", CASES * times());
    census.print();
    println!("reading an entry: {reading} differ; writing the book: {writing} differ");
    let missing = kinds::missing(KINDS, &census.kinds);
    tally.test("every fault occurs as the only one, and every point as the only one that fails", census.is_complete());
    tally.test(&format!("every kind of area occurs, but: {missing:?}"), missing.is_empty());
    tally.test("reading an entry agrees", reading == 0);
    tally.test("writing the book agrees", writing == 0);
    tally.finish()
}
