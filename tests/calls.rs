//! Compares lists of all six calls, through the C interface, with the second implementation: the answers, every byte of the area
//! and every byte of the output. Some areas are damaged between two calls. It also tests on both that a second area gives the
//! same report after the accepted bindings and then the accepted lines. Every list is made from its own seed, which is printed
//! where the two differ. It counts what the lists were made of (census.rs), and fails where some kind of case never occurs.

mod bases;
#[macro_use]
mod kinds;
mod census;
mod damage;
#[cfg_attr(stand_in, path = "stand_in.rs")]
mod fit;
mod lent;
mod library;
mod reference;
mod samples;

use bases::Base;
use census::{unlike_holes, Census, Kind, Sight, EVERY_LENGTH};
use lent::Lent;
use reference::{bytes_of, decode, encode, first_seed, perform, read, times, Answer, Call, Random, Term, OFFICE};
use samples::Tally;
use std::thread;

const LISTS: u64 = 200_000;
const SEED: u64 = 0xCA11_0000_0000_0000;
/// The lists are shared out among so many threads, each with a stack that the deepest walk fits in.
const THREADS: u64 = 2;
const STACK: usize = 16 << 20;
/// One list in so many starts from a large area, and one of these in so many is done over in the other order.
const LARGE_EVERY: u64 = 128;
const LARGE_ORDER_EVERY: u64 = 64;
/// One list in so many has no damage, is longer, and is done over in the other order.
const ORDER_EVERY: u64 = 8;
/// One list in so many ends with a report and a book into outputs of every length.
const LENGTHS_EVERY: u64 = 4096;
/// No report is longer.
const LONGEST_REPORT: usize = 47_620;

/// One area, in the library's hands and in those of the second implementation.
struct Twins {
    ours: Lent,
    theirs: Vec<u8>,
}

impl Twins {
    fn new() -> Twins {
        Twins { ours: Lent::new(&[]), theirs: Vec::new() }
    }

    fn set(&mut self, area: &[u8]) {
        self.ours.set(area);
        self.theirs.clear();
        self.theirs.extend_from_slice(area);
    }

    fn sight(&self) -> Sight {
        Sight::of(&self.theirs)
    }

    /// Damages both in the same way, or cuts them a little.
    fn alter(&mut self, random: &mut Random) {
        match random.below(5) {
            0..=1 => damage::alter(random, &mut self.theirs),
            2..=3 => damage::edit(random, &mut self.theirs),
            _ => self.theirs.truncate(self.theirs.len().saturating_sub(random.place(12))),
        }
        self.ours.set(&self.theirs);
    }

    /// Makes a call with an output of this length on both; the answer and the output, or in what they differ.
    fn call(&mut self, call: Call, length: usize, filling: u8) -> Result<(Answer, Vec<u8>), String> {
        let mut their_out = vec![filling; length];
        let mut our_out = Lent::new(&their_out);
        let ours = library::perform(OFFICE, call, self.ours.bytes(), our_out.bytes());
        let theirs = perform(OFFICE, call, &mut self.theirs, &mut their_out);
        if ours != theirs {
            return Err(format!("{call:?} answers {ours:?}, expected {theirs:?}"));
        }
        if !self.ours.holds(&self.theirs) {
            return Err(format!("{call:?} leaves another area"));
        }
        if !our_out.holds(&their_out) {
            return Err(format!("{call:?} leaves another output of length {length}"));
        }
        Ok((theirs, their_out))
    }

    /// How many bytes a report or a book takes; 0 where it is refused.
    fn needed(&mut self, call: Call) -> usize {
        let mut out = vec![0; LONGEST_REPORT];
        perform(OFFICE, call, &mut self.theirs, &mut out).numbers[0] as usize
    }
}

/// A list of calls as it goes on: an area, the book opened in it, the steps accepted since, and what else happened since.
struct List {
    twins: Twins,
    terms: Vec<Term>,
    book: Vec<u8>,
    capacity: u32,
    accepted: Vec<Call<'static>>,
    damaged: bool,
    refused: bool,
    other_calls: bool,
}

fn random_capacity(random: &mut Random) -> u32 {
    match random.below(128) {
        0 => random.pick(&[0, 2049, u32::MAX]),
        1 => 2048,
        2..=3 => 1 + random.below(2048) as u32,
        4..=31 => 1 + random.below(4) as u32,
        _ => 1 + random.below(40) as u32,
    }
}

/// The terms of a small book; now and then of any size, or at the limit.
fn random_terms(random: &mut Random) -> Vec<Term> {
    let count = match random.below(256) {
        0 => random.place(1025),
        1 => random.pick(&[0, 1, 1023, 1024, 1025]),
        2..=16 => random.place(40),
        _ => random.place(12),
    };
    if random.below(8) == 0 {
        reference::random_book(random, count)
    } else {
        bases::narrow_book(random, count)
    }
}

/// One byte of a book altered, left out or added, in a few cases; no bytes are left as they are.
fn blemish(random: &mut Random, book: &mut Vec<u8>) {
    if book.is_empty() {
        return;
    }
    let at = random.place(book.len());
    match random.below(128) {
        0 => book[at] = random.next() as u8,
        1 => book[at] = book[at].wrapping_add(1),
        2 => book.truncate(at),
        3 => book.insert(at, random.next() as u8),
        4 => book.push(random.next() as u8),
        _ => {}
    }
}

impl List {
    fn new() -> List {
        List {
            twins: Twins::new(),
            terms: Vec::new(),
            book: Vec::new(),
            capacity: 0,
            accepted: Vec::new(),
            damaged: false,
            refused: false,
            other_calls: false,
        }
    }

    /// Starts from a book that was opened, and the steps accepted since.
    fn start(&mut self, book: &[u8], capacity: u32, accepted: &[Call<'static>]) {
        self.book = book.to_vec();
        self.terms = decode(OFFICE, book).unwrap_or_default();
        self.capacity = capacity;
        self.accepted = accepted.to_vec();
        (self.damaged, self.refused, self.other_calls) = (false, false, false);
    }

    /// Starts from a base.
    fn take(&mut self, base: &Base) {
        self.twins.set(&base.area);
        self.start(&base.book, base.capacity, &base.steps);
    }

    /// Opens a book in an area that held something else; true where it is accepted.
    fn open(&mut self, random: &mut Random, capacity: u32, book: &[u8], length: usize, census: &mut Census) -> Result<bool, String> {
        self.twins.set(&vec![random.next() as u8; length]);
        let call = Call::Open { capacity, book };
        let (answer, _) = self.twins.call(call, 0, 0)?;
        census.answer(call, false, &answer);
        census.opening(capacity, book, self.twins.sight(), &answer);
        if answer.refusal == 0 {
            self.start(book, capacity, &[]);
        }
        Ok(answer.refusal == 0)
    }

    /// Opens a valid book in an area that is long enough.
    fn open_at(&mut self, random: &mut Random, capacity: u32, census: &mut Census) -> Result<bool, String> {
        let mut terms = random_terms(random);
        terms.truncate(OFFICE.terms);
        let length = OFFICE.area_length(capacity) + random.place(9);
        let book = bytes_of(random, &terms);
        self.open(random, capacity, &book, length, census)
    }

    /// Opens a book, mostly a valid one in an area that is long enough.
    fn open_any(&mut self, random: &mut Random, census: &mut Census) -> Result<bool, String> {
        let terms = random_terms(random);
        let mut book = bytes_of(random, &terms);
        blemish(random, &mut book);
        let capacity = random_capacity(random);
        let needed = OFFICE.area_length(capacity);
        let length = match random.below(64) {
            0 => needed.saturating_sub(1),
            1 => random.place(needed + 1),
            _ => needed + random.place(9),
        };
        self.open(random, capacity, &book, length, census)
    }

    /// A step with numbers of the book, or one in eight with any.
    fn random_step(&self, random: &mut Random) -> Call<'static> {
        let count = self.terms.len() as u32;
        if count > 0 && random.below(8) > 0 {
            return bases::random_step(random, &self.terms);
        }
        let mut number = || {
            let inside = random.place(count.max(1) as usize) as u32;
            let turned = inside ^ 1 << random.below(32);
            random.pick(&[inside, inside, inside, inside, turned, count, count + 1, u32::MAX])
        };
        let (a, b) = (number(), number());
        random.pick(&[Call::Add { l: a, r: b }, Call::Bind { v: a, t: b }])
    }

    /// An entry number, in range where there are entries or not.
    fn random_entry(&self, random: &mut Random) -> Call<'static> {
        let entries = self.twins.sight().entries;
        let inside = random.below(u64::from(entries) + 1) as u32;
        let (power, any) = (1 << random.below(32), random.next() as u32);
        Call::Entry { i: random.pick(&[inside, inside, inside, inside, entries.wrapping_sub(1), entries, power, any, u32::MAX]) }
    }

    fn random_call(&self, random: &mut Random) -> Call<'static> {
        match random.below(8) {
            0..=4 => self.random_step(random),
            5 => self.random_entry(random),
            6 => Call::Report,
            _ => Call::Write,
        }
    }

    /// Makes a call on both sides, and keeps it where it is an accepted step.
    fn make(&mut self, random: &mut Random, call: Call<'static>, census: &mut Census) -> Result<(), String> {
        if matches!(call, Call::Report | Call::Write) {
            let needed = self.twins.needed(call);
            let length = random_length(random, needed);
            return self.put(random, call, needed, length, census);
        }
        let before = self.twins.sight();
        let (answer, _) = self.twins.call(call, 0, 0)?;
        census.answer(call, self.damaged, &answer);
        if answer.refusal != 7 {
            census.call(call, before, self.twins.sight(), &answer);
        }
        if answer.refusal == 0 {
            self.note_unlike(call, before.entries, &answer, census);
        }
        match call {
            Call::Entry { .. } => self.other_calls = true,
            _ if answer.refusal == 0 => self.accepted.push(call),
            _ => self.refused = true,
        }
        Ok(())
    }

    /// What an accepted call on a table of so many entries has to do with unlike arities.
    fn note_unlike(&self, call: Call, old: u32, answer: &Answer, census: &mut Census) {
        let state = read(OFFICE, &self.twins.theirs);
        let is_unlike = |i: u32| unlike_holes(&state).iter().any(|&(own, _)| own == i);
        match call {
            Call::Entry { i } => census.note(Kind::UnlikeRead, is_unlike(i)),
            Call::Report => census.note(Kind::UnlikeReported, state.lines.iter().any(|&line| is_unlike(line))),
            _ => census.unlike(call, old, answer, &state),
        }
    }

    /// Makes a report or writes the book, which takes so many bytes, into an output of this length.
    fn put(&mut self, random: &mut Random, call: Call, needed: usize, length: usize, census: &mut Census) -> Result<(), String> {
        let (answer, _) = self.twins.call(call, length, random.next() as u8)?;
        census.answer(call, self.damaged, &answer);
        if answer.refusal != 7 {
            census.output(call, needed, length);
        }
        if matches!(call, Call::Report) && answer.refusal == 0 {
            self.note_unlike(call, 0, &answer, census);
        }
        if matches!(call, Call::Write) && self.book.is_empty() && !self.damaged {
            census.note(Kind::NoBytesWritten, answer.refusal == 0);
            census.note(Kind::NoBytesNotWritten, answer.refusal == 13);
        }
        self.other_calls = true;
        Ok(())
    }

    /// A report and a book into outputs of every length.
    fn put_all(&mut self, random: &mut Random, census: &mut Census) -> Result<(), String> {
        for call in [Call::Report, Call::Write] {
            let needed = self.twins.needed(call);
            for length in 0..EVERY_LENGTH {
                self.put(random, call, needed, length, census)?;
            }
        }
        Ok(())
    }

    /// A second area: the accepted bindings, then the accepted lines. None is refused, and into outputs of one length both areas
    /// give the same report.
    fn done_over(&mut self, second: &mut Twins, census: &mut Census) -> Result<(), String> {
        second.set(&vec![0x5A; OFFICE.area_length(self.capacity)]);
        let opening = Call::Open { capacity: self.capacity, book: &self.book };
        let bindings = self.accepted.iter().copied().filter(is_choice);
        let lines = self.accepted.iter().copied().filter(|call| !is_choice(call));
        for call in std::iter::once(opening).chain(bindings).chain(lines) {
            let (answer, _) = second.call(call, 0, 0)?;
            if answer.refusal != 0 {
                return Err(format!("in the other order {call:?} is refused with {}", answer.refusal));
            }
        }
        let needed = self.twins.needed(Call::Report);
        for length in [0, needed - 1, needed, needed + 5] {
            let one = self.twins.call(Call::Report, length, 0x33)?;
            let other = second.call(Call::Report, length, 0x33)?;
            if one != other {
                return Err(format!("the reports of the two orders are {one:02X?} and {other:02X?}"));
            }
            census.note(Kind::DoneOverShortOutput, one.0.refusal == 13);
        }
        self.note_done_over(second, census);
        Ok(())
    }

    fn note_done_over(&self, second: &Twins, census: &mut Census) {
        let sight = self.twins.sight();
        let first_line = self.accepted.iter().position(|call| !is_choice(call)).unwrap_or(self.accepted.len());
        census.note(Kind::DoneOver, true);
        census.note(Kind::DoneOverEmpty, self.accepted.is_empty());
        census.note(Kind::DoneOverRefusals, self.refused);
        census.note(Kind::DoneOverOtherCalls, self.other_calls);
        census.note(Kind::DoneOverMixed, self.accepted[first_line..].iter().any(is_choice));
        census.note(Kind::DoneOverOtherArea, !self.twins.theirs.starts_with(&second.theirs));
        census.note(Kind::DoneOverMostLines, sight.lines == 256);
        census.note(Kind::DoneOverFull, sight.entries == sight.capacity);
        census.note(Kind::DoneOverMostEntries, sight.entries == OFFICE.capacity);
        census.note(Kind::DoneOverFullBook, sight.terms == 1024);
        census.note(Kind::DoneOverUnlike, !unlike_holes(&read(OFFICE, &self.twins.theirs)).is_empty());
    }
}

fn is_choice(call: &Call) -> bool {
    matches!(call, Call::Bind { .. })
}

/// An output length from 0 to more than what is written.
fn random_length(random: &mut Random, needed: usize) -> usize {
    match random.below(8) {
        0 => random.place(needed + 1),
        1 => needed.saturating_sub(1),
        2 => needed,
        3 => 0,
        _ => needed + random.place(20),
    }
}

/// Calls of any kind, with damage between some, and a new opening now and then.
fn mixed(random: &mut Random, list: &mut List, census: &mut Census) -> Result<(), String> {
    for _ in 0..1 + random.below(5) {
        match random.below(40) {
            0..=2 => {
                list.twins.alter(random);
                list.damaged = true;
            }
            3 => {
                list.open_any(random, census)?;
            }
            _ => {}
        }
        let call = list.random_call(random);
        list.make(random, call, census)?;
    }
    Ok(())
}

/// Steps, with other calls between some, and then all accepted ones in the other order.
fn ordered(random: &mut Random, list: &mut List, second: &mut Twins, census: &mut Census) -> Result<(), String> {
    for _ in 0..random.below(18) {
        let call = if random.below(8) == 0 { list.random_call(random) } else { list.random_step(random) };
        list.make(random, call, census)?;
    }
    list.done_over(second, census)
}

/// Opens a book of 1,024 terms at capacity 2,048, which from some seeds no list does.
fn open_largest(random: &mut Random, census: &mut Census) -> Result<bool, String> {
    let book = encode(&bases::narrow_book(random, OFFICE.terms));
    List::new().open(random, OFFICE.capacity, &book, OFFICE.area_length(OFFICE.capacity), census)
}

/// One list of calls; an error says in what the two differ. The first lists take every large area and then every capacity.
fn run_list(first: u64, number: u64, large: &[Base], list: &mut List, second: &mut Twins, census: &mut Census) -> Result<(), String> {
    let random = &mut Random(first + number);
    let number = number as usize;
    let mut order_every = ORDER_EVERY;
    if number < large.len() {
        list.take(&large[number]);
        order_every = 1;
    } else if number < large.len() + OFFICE.capacity as usize {
        list.open_at(random, 1 + (number - large.len()) as u32, census)?;
    } else if random.below(LARGE_EVERY) == 0 {
        list.take(&large[random.place(large.len())]);
        order_every = LARGE_ORDER_EVERY;
    } else if !list.open_any(random, census)? {
        return Ok(());
    }
    if random.below(order_every) == 0 {
        ordered(random, list, second, census)?;
    } else {
        mixed(random, list, census)?;
    }
    if random.below(LENGTHS_EVERY) == 0 {
        list.put_all(random, census)?;
    }
    Ok(())
}

/// Every list whose number leaves this rest when divided by the number of threads; what was seen, and how many differ.
fn run_share(first: u64, rest: u64, large: &[Base]) -> (Census, u64) {
    let mut census = Census::new();
    let (mut list, mut second) = (List::new(), Twins::new());
    let mut different = 0;
    for number in (rest..LISTS * times()).step_by(THREADS as usize) {
        if let Err(what) = run_list(first, number, large, &mut list, &mut second, &mut census) {
            println!("list {number}, seed {:#x}: {what}", first + number);
            different += 1;
        }
        if different > 10 {
            break;
        }
    }
    (census, different)
}

/// All lists.
fn run_lists(first: u64) -> (Census, u64) {
    let large = &bases::large(&mut Random(first));
    let mut seen = (Census::new(), 0);
    if let Err(what) = open_largest(&mut Random(first), &mut seen.0) {
        println!("list of the largest book, seed {first:#x}: {what}");
        seen.1 = 1;
    }
    thread::scope(|scope| {
        let start = |rest| thread::Builder::new().stack_size(STACK).spawn_scoped(scope, move || run_share(first, rest, large)).unwrap();
        let shares: Vec<_> = (0..THREADS).map(start).collect();
        for share in shares {
            let (census, different) = share.join().unwrap();
            seen.0.join(&census);
            seen.1 += different;
        }
    });
    seen
}

fn main() {
    let mut tally = Tally::default();
    samples::run(OFFICE, library::perform, &mut tally);
    samples::layout_example(OFFICE, library::perform, &mut tally);
    let first = first_seed(SEED);
    let (census, different) = run_lists(first);
    println!("{} lists from seed {first:#x}, {} calls, {different} lists differ", LISTS * times(), census.calls());
    census.print();
    tally.test("each call gives every answer that it can give, and no other", census.has_all_answers());
    tally.test("each call meets damaged areas, unsound and sound", census.has_all_damage());
    tally.test("every capacity is opened", census.has_all_capacities());
    tally.test("reports and books go into outputs of every length", census.has_all_lengths());
    tally.test(&format!("every kind of case occurs, but: {:?}", census.missing()), census.missing().is_empty());
    tally.test("the two agree, and so do the two orders", different == 0);
    tally.finish()
}
