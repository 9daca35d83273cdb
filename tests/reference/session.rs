//! The session: what the program prints for what it reads, and what it says where that stops being a session.

use super::area::OFFICE;
use super::book::{decode_parts, Part, Source};
use super::report::report;
use super::table::State;
use std::fmt::Write;

/// The longest session in bytes, and the capacity of its area.
pub const LONGEST: usize = 65_536;
pub const CAPACITY: u32 = 1_024;

/// How a session ends; the numbers are refusals.
pub enum End {
    TooLong,
    Length(u32),
    LengthPastEnd,
    Book(Part, u32),
    StepNumber(u32),
    OtherNumber(u32),
    UnknownStep,
    Input,
}

impl End {
    /// The refusals that end a session, in words.
    pub const WORDS: [(u32, &str); 6] = [
        (1, "the bytes end too early: within a number, before one, or before the end of the book"),
        (2, "a number not in shortest form, of more than three bytes, or above 65,535"),
        (3, "bytes after the last term of the book"),
        (4, "a number of terms, a symbol or a count out of range, or a session of more than 65,536 bytes"),
        (5, "an argument that is not lower than its term"),
        (8, "an unknown step"),
    ];

    /// What a session says where it ends with this refusal, at the part of the input that begins at position `at`.
    pub fn said(at: usize, refusal: u32) -> String {
        let (_, words) = End::WORDS.iter().find(|(number, _)| *number == refusal).expect("a refusal that ends a session");
        format!("sessions: byte {at}: refused with {refusal}: {words}\n")
    }

    /// The refusal that is printed last, if any.
    fn refusal(&self) -> Option<u32> {
        match self {
            End::TooLong => Some(4),
            End::LengthPastEnd => Some(1),
            End::UnknownStep => Some(8),
            End::Length(refusal) | End::Book(_, refusal) | End::StepNumber(refusal) | End::OtherNumber(refusal) => Some(*refusal),
            End::Input => None,
        }
    }
}

/// A session: the text that it prints, what it says on standard error, the numbers of the steps that it takes, what its area holds in the
/// end, and how it ends: at the part of the input that begins at position `at`.
pub struct Session {
    pub printed: String,
    pub said: String,
    pub steps: Vec<u32>,
    pub state: State,
    pub end: End,
    at: usize,
}

pub fn session(input: &[u8]) -> Session {
    let state = State::opened(CAPACITY, Vec::new());
    let mut session = Session { printed: String::new(), said: String::new(), steps: Vec::new(), state, end: End::Input, at: 0 };
    if let Err(end) = session.run(input) {
        session.end = end;
    }
    if let Some(refusal) = session.end.refusal() {
        line(&mut session.printed, &[refusal]);
        session.said = End::said(session.at, refusal);
    }
    session
}

fn line(printed: &mut String, numbers: &[u32]) {
    for (i, n) in numbers.iter().enumerate() {
        let blank = if i == 0 { "" } else { " " };
        write!(printed, "{blank}{n}").expect("a string takes all");
    }
    printed.push('\n');
}

impl Session {
    /// Prints the line of the opening and of every step, but for a refusal that ends the session.
    fn run(&mut self, input: &[u8]) -> Result<(), End> {
        if input.len() > LONGEST {
            self.at = LONGEST;
            return Err(End::TooLong);
        }
        let mut source = Source { rest: input };
        let length = source.number().map_err(End::Length)? as usize;
        if length > source.rest.len() {
            return Err(End::LengthPastEnd);
        }
        let (book, steps) = source.rest.split_at(length);
        let terms = decode_parts(OFFICE, book).map_err(|refused| {
            self.at = input.len() - source.rest.len() + refused.at;
            End::Book(refused.part, refused.refusal)
        })?;
        self.state = State::opened(CAPACITY, terms);
        line(&mut self.printed, &[0]);
        source.rest = steps;
        while !source.rest.is_empty() {
            self.at = input.len() - source.rest.len();
            self.step(&mut source)?;
        }
        Ok(())
    }

    /// Takes the next step and prints its line, but for a refusal that ends the session.
    fn step(&mut self, source: &mut Source) -> Result<(), End> {
        let step = source.number().map_err(End::StepNumber)?;
        let answer = match step {
            1 => {
                let (l, r) = two(source)?;
                self.state.clone().add(OFFICE, l, r).map(|(after, entry)| (after, vec![0, entry]))
            }
            2 => {
                let (v, t) = two(source)?;
                self.state.clone().bind(v, t).map(|(after, turned, appended)| (after, vec![0, turned, appended]))
            }
            3 => Ok((self.state.clone(), report_numbers(&self.state))),
            _ => return Err(End::UnknownStep),
        };
        self.steps.push(step);
        match answer {
            Ok((after, numbers)) => {
                self.state = after;
                line(&mut self.printed, &numbers);
            }
            Err(refusal) => line(&mut self.printed, &[refusal]),
        }
        Ok(())
    }
}

fn two(source: &mut Source) -> Result<(u32, u32), End> {
    let mut number = || source.number().map_err(End::OtherNumber);
    Ok((number()?, number()?))
}

/// 0 and the numbers of the report.
fn report_numbers(state: &State) -> Vec<u32> {
    let bytes = report(state).expect("a report within the limits of its numbers");
    let mut source = Source { rest: &bytes };
    let mut numbers = vec![0];
    while !source.rest.is_empty() {
        numbers.push(source.number().expect("a number of the report"));
    }
    numbers
}
