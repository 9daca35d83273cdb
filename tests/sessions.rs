//! Runs the session program on random sessions, valid and damaged, and compares every line that it prints, and what it says on
//! standard error, with the second implementation; docs/SPEC.md's sessions and words are compared with its text. Every session is made
//! from its own seed, which is printed where the two differ. The run prints how often each kind of session, refusal and end occurred,
//! and fails where one did not. With `slow` it times the sessions that take longest of those tried, and compares nothing.

mod bases;
mod reference;

use reference::{bytes_of, encode, first_seed, has_two_arities, push_number, random_book, session, times, Call, End, Part, Random, Session, Term};
use reference::LONGEST;
use std::collections::BTreeMap;
use std::io::{Read, Write};
use std::os::fd::OwnedFd;
use std::os::unix::net::{UnixDatagram, UnixStream};
use std::process::{Child, Command, Stdio};
use std::thread;
use std::time::{Duration, Instant};

const SESSIONS: u64 = 20_000;
const SEED: u64 = 0x5E55_0000_0000_0000;
/// One session in so many is a long one.
const LONG_EVERY: u64 = 1_600;
/// The pieces that the program gets its input in; the first is all at once.
const PIECES: [usize; 4] = [usize::MAX, 1_000, 7, 2];
const PROGRAM: &str = "target/bin/sessions";
const SPEC: &str = "docs/SPEC.md";

/// What a program prints, and what it says on standard error; it has to end with 0.
fn output(child: Child) -> Result<(String, String), String> {
    let output = child.wait_with_output().map_err(|error| error.to_string())?;
    if !output.status.success() {
        return Err(format!("the program ended with {}", output.status));
    }
    let text = |bytes| String::from_utf8(bytes).map_err(|error| error.to_string());
    Ok((text(output.stdout)?, text(output.stderr)?))
}

/// What the program prints and says for this input, which it gets in pieces of this size.
fn printed(input: &[u8], piece: usize, pause: Duration) -> Result<(String, String), String> {
    let mut child = Command::new(PROGRAM)
        .stdin(Stdio::piped())
        .stdout(Stdio::piped())
        .stderr(Stdio::piped())
        .spawn()
        .map_err(|error| format!("{PROGRAM}: {error}"))?;
    let mut stdin = child.stdin.take().expect("a pipe");
    let input = input.to_vec();
    let writer = thread::spawn(move || {
        for bytes in input.chunks(piece) {
            // The program reads no more than it needs to know that a session is too long.
            if stdin.write_all(bytes).is_err() {
                return;
            }
            thread::sleep(pause);
        }
    });
    let output = output(child);
    writer.join().expect("the writer");
    output
}

/// A session of a book's bytes and of steps.
fn of(book: &[u8], steps: &[u8]) -> Vec<u8> {
    let mut input = Vec::new();
    push_number(&mut input, book.len() as u32);
    input.extend_from_slice(book);
    input.extend_from_slice(steps);
    input
}

fn push_step(steps: &mut Vec<u8>, call: Call) {
    let numbers = match call {
        Call::Add { l, r } => [1, l, r],
        Call::Bind { v, t } => [2, v, t],
        _ => return steps.push(3),
    };
    for n in numbers {
        push_number(steps, n);
    }
}

/// A line or a choice of any numbers, most of which name terms.
fn loose_step(random: &mut Random, count: usize) -> Call<'static> {
    let mut number = || match random.below(8) {
        0 => random.below(70_000).min(65_535) as u32,
        _ => random.place(count + 2) as u32,
    };
    let (a, b) = (number(), number());
    match random.below(2) {
        0 => Call::Add { l: a, r: b },
        _ => Call::Bind { v: a, t: b },
    }
}

/// A valid session: a small book, some steps, and reports among them or after every one.
fn small(random: &mut Random) -> Vec<u8> {
    let count = random.pick(&[0, 1, 2, 4, 6, 9, 14, 25, 60]);
    let terms = match random.below(3) {
        0 => random_book(random, count),
        _ => bases::narrow_book(random, count),
    };
    let every = random.below(4) == 0;
    let mut steps = Vec::new();
    for _ in 0..random.place(30) {
        let step = match random.below(8) {
            0 => Call::Report,
            1 => loose_step(random, count),
            _ if terms.is_empty() => Call::Report,
            _ => bases::random_step(random, &terms),
        };
        push_step(&mut steps, step);
        if every {
            push_step(&mut steps, Call::Report);
        }
    }
    of(&bytes_of(random, &terms), &steps)
}

/// Damage: bytes altered, put in, taken out, or the end cut off.
fn damage(random: &mut Random, input: &mut Vec<u8>) {
    for _ in 0..1 + random.below(3) {
        if input.is_empty() {
            return;
        }
        let place = random.place(input.len());
        match random.below(6) {
            0 => input.truncate(place),
            1 => drop(input.remove(place)),
            2 => input.insert(place, random.pick(&[0, 1, 2, 3, 4, 0x7F, 0x80, 0xFF])),
            3 => input[place] |= 0x80,
            4 => input[place] = random.below(8) as u8,
            _ => input[place] = random.next() as u8,
        }
    }
}

/// A symbol over terms.
fn over(symbol: u32, arguments: &[u32]) -> Term {
    Term::Application { symbol, arguments: arguments.to_vec() }
}

/// Variables, and then terms of one symbol over some of them, all of one arity or some with one argument less.
fn wide_book(random: &mut Random, count: usize, alike: bool) -> Vec<Term> {
    let variables = 2 + random.place(count / 2);
    let most = 1 + random.place(8);
    (0..count)
        .map(|own| {
            if own < variables {
                Term::Variable
            } else {
                let arity = if alike { most } else { most - random.place(2) };
                let arguments: Vec<u32> = (0..arity).map(|_| random.place(own) as u32).collect();
                over(7, &arguments)
            }
        })
        .collect()
}

/// Steps up to a length, the last ones reports.
fn filled(random: &mut Random, terms: &[Term], length: usize, reports: u64) -> Vec<u8> {
    let book = encode(terms);
    let mut steps = Vec::new();
    let room = length - of(&book, &[]).len();
    while steps.len() + 7 <= room {
        let step = match random.below(reports) {
            0 => Call::Report,
            1 => loose_step(random, terms.len()),
            _ => bases::random_step(random, terms),
        };
        push_step(&mut steps, step);
    }
    steps.resize(room, 3);
    of(&book, &steps)
}

/// Lines of any two of so many terms, and a report.
fn lines(random: &mut Random, count: u64, terms: usize) -> Vec<u8> {
    let mut steps = Vec::new();
    for _ in 0..count {
        push_step(&mut steps, Call::Add { l: random.place(terms) as u32, r: random.place(terms) as u32 });
    }
    steps.push(3);
    steps
}

/// A session as long as one may be, a byte longer, or still longer; one of more lines than there may be; one that needs more entries
/// than the capacity; or one of as many terms as there may be.
fn long(random: &mut Random, kind: u64) -> Vec<u8> {
    match kind % 6 {
        kind @ 0..=2 => {
            let terms = bases::narrow_book(random, 40);
            let beyond = [0, 1, 2 + random.place(9_000)][kind as usize];
            filled(random, &terms, LONGEST + beyond, 40)
        }
        3 => of(&encode(&bases::narrow_book(random, 30)), &lines(random, 260, 30)),
        // lines over many variables: the table fills up
        4 => of(&encode(&wide_book(random, 400, true)), &lines(random, 256, 400)),
        _ => {
            let terms = wide_book(random, 1_024, false);
            let length = 20_000 + random.place(10_000);
            filled(random, &terms, length, 200)
        }
    }
}

fn random_session(seed: u64) -> Vec<u8> {
    let mut random = Random(seed);
    if seed % LONG_EVERY == 0 {
        return long(&mut random, seed / LONG_EVERY);
    }
    let mut input = small(&mut random);
    if random.below(2) == 0 {
        damage(&mut random, &mut input);
    }
    input
}

/// The kinds of sessions, refusals and ends that have to occur.
fn kinds() -> Vec<String> {
    let mut kinds: Vec<String> = [
        "no bytes",
        "a book of no bytes and nothing more",
        "a book of no bytes and steps",
        "65,536 bytes",
        "65,537 bytes",
        "more bytes",
        "length refused with 1",
        "length refused with 2",
        "length past the end",
        "bytes after the last term",
        "step number refused with 1",
        "step number refused with 2",
        "other number refused with 1",
        "other number refused with 2",
        "unknown step",
        "all steps taken",
        "a report after every step",
        "a line after a refused one",
        "a report after a report",
        "a report, a refused step and a report",
        "a report, an accepted step and another report",
        "a report, an accepted step and the same report",
        "a book with a symbol of two arities",
        "a line that is a hole of one symbol with unlike arities",
        "such a hole as an argument",
        "such a hole after a choice, which gave one side its symbol",
        "such a hole as a line of the last step, a report",
    ]
    .map(String::from)
    .to_vec();
    kinds.extend([1, 2, 4].map(|refusal| format!("number of terms refused with {refusal}")));
    kinds.extend([1, 2, 4, 5].map(|refusal| format!("term refused with {refusal}")));
    kinds.extend([1, 2, 3, 4, 5, 8].map(|refusal| format!("said: refused with {refusal}")));
    kinds.extend((8..=12).map(|refusal| format!("step refused with {refusal}")));
    kinds
}

/// What a run has seen, by its kind.
#[derive(Default)]
struct Census {
    seen: BTreeMap<String, u64>,
}

impl Census {
    fn note(&mut self, kind: impl Into<String>) {
        *self.seen.entry(kind.into()).or_default() += 1;
    }

    fn session(&mut self, input: &[u8], session: &Session) {
        match input.len() {
            0 => self.note("no bytes"),
            1 if input[0] == 0 => self.note("a book of no bytes and nothing more"),
            LONGEST => self.note("65,536 bytes"),
            length if length == LONGEST + 1 => self.note("65,537 bytes"),
            length if length > LONGEST => self.note("more bytes"),
            _ if input[0] == 0 && !session.steps.is_empty() => self.note("a book of no bytes and steps"),
            _ => {}
        }
        self.end(&session.end);
        if let Some((_, refusal)) = session.said.split_once(": refused with ") {
            self.note(format!("said: refused with {}", &refusal[..1]));
        }
        self.steps(session);
        self.arities(session);
    }

    /// What the session's area holds in the end that has to do with unlike arities.
    fn arities(&mut self, session: &Session) {
        let state = &session.state;
        let is_unlike = |&i: &u32| state.unlike_arities(&state.entries[i as usize]).is_some();
        let is_bound = |t: u32| state.bindings[t as usize].is_some();
        let unlike: Vec<u32> = (0..state.entries.len() as u32).filter(is_unlike).collect();
        let arguments = || state.entries.iter().filter_map(|entry| entry.common.as_ref()).flat_map(|(_, arguments)| arguments);
        let by_choice = |&i: &u32| is_bound(state.entries[i as usize].left) || is_bound(state.entries[i as usize].right);
        let has_line = state.lines.iter().any(|line| unlike.contains(line));
        let kinds = [
            ("a book with a symbol of two arities", has_two_arities(&state.terms)),
            ("a line that is a hole of one symbol with unlike arities", has_line),
            ("such a hole as an argument", !unlike.is_empty() && arguments().any(|i| unlike.contains(i))),
            ("such a hole after a choice, which gave one side its symbol", unlike.iter().any(by_choice)),
            ("such a hole as a line of the last step, a report", has_line && session.steps.last() == Some(&3)),
        ];
        kinds.into_iter().filter(|(_, occurs)| *occurs).for_each(|(kind, _)| self.note(kind));
    }

    fn end(&mut self, end: &End) {
        match end {
            End::TooLong => {}
            End::Length(refusal) => self.note(format!("length refused with {refusal}")),
            End::LengthPastEnd => self.note("length past the end"),
            End::Book(Part::Count, refusal) => self.note(format!("number of terms refused with {refusal}")),
            End::Book(Part::Term, refusal) => self.note(format!("term refused with {refusal}")),
            End::Book(Part::Rest, _) => self.note("bytes after the last term"),
            End::StepNumber(refusal) => self.note(format!("step number refused with {refusal}")),
            End::OtherNumber(refusal) => self.note(format!("other number refused with {refusal}")),
            End::UnknownStep => self.note("unknown step"),
            End::Input => self.note("all steps taken"),
        }
    }

    fn steps(&mut self, session: &Session) {
        let turns = session.steps.chunks(2);
        if turns.len() > 3 && turns.clone().all(|turn| turn.len() == 2 && turn[0] != 3 && turn[1] == 3) {
            self.note("a report after every step");
        }
        // The line behind the opening's belongs to the first step.
        let mut refused = false;
        let taken: Vec<(u32, &str)> = session.steps.iter().copied().zip(session.printed.lines().skip(1)).collect();
        for turns in taken.windows(3) {
            if let [(3, before), (between, answer), (3, after)] = *turns {
                self.note(match (between, answer.contains(' ')) {
                    (3, _) => "a report after a report",
                    (_, false) => "a report, a refused step and a report",
                    _ if before == after => "a report, an accepted step and the same report",
                    _ => "a report, an accepted step and another report",
                });
            }
        }
        for (step, line) in &taken {
            if refused && *step == 1 && line.starts_with("0 ") {
                self.note("a line after a refused one");
            }
            if !line.contains(' ') {
                self.note(format!("step refused with {line}"));
            }
            refused = *step == 1 && !line.contains(' ');
        }
    }

    fn join(&mut self, other: Census) {
        for (kind, count) in other.seen {
            *self.seen.entry(kind).or_default() += count;
        }
    }

    /// Every kind occurred, and no other.
    fn complete(&self) -> Result<(), String> {
        let kinds = kinds();
        if let Some(kind) = kinds.iter().find(|kind| !self.seen.contains_key(*kind)) {
            return Err(format!("did not occur: {kind}"));
        }
        match self.seen.keys().find(|kind| !kinds.contains(kind)) {
            Some(kind) => Err(format!("occurred: {kind}")),
            None => Ok(()),
        }
    }
}

/// docs/SPEC.md's sessions, what they print, and what they say on standard error.
fn worked() -> Vec<(Vec<u8>, &'static str, String)> {
    let book_a = [6, 0, 4, 0, 2, 1, 0, 2, 1, 1, 3, 2, 2, 0, 3, 2, 3, 1];
    let sample = "0\n0 0\n0 1 0 3 4 5 3 2 1 2 2 3 2 1 2 0 1 0\n0 1 0\n0 1 0 3 4 4 3 2 1 2 2 2 2 1 2 0 0 4 0\n";
    let said = End::said;
    vec![
        (vec![], "1\n", said(0, 1)),
        (vec![0], "0\n", String::new()),
        (vec![0, 3], "0\n0 0 0\n", String::new()),
        (vec![0, 1, 0, 0], "0\n8\n", String::new()),
        (vec![0, 9], "0\n8\n", said(1, 8)),
        (vec![1], "1\n", said(0, 1)),
        (vec![1, 0x80], "1\n", said(1, 1)),
        (vec![2, 0], "1\n", said(0, 1)),
        (vec![0x80, 0], "2\n", said(0, 2)),
        (vec![1, 0, 5], "0\n8\n", said(2, 8)),
        (vec![1, 0, 1, 0, 0, 3], "0\n8\n0 0 0\n", String::new()),
        (vec![1, 0, 3, 0x80], "0\n0 0 0\n1\n", said(3, 1)),
        (vec![4, 1, 1, 1, 0], "5\n", said(2, 5)),
        (vec![2, 0, 5], "3\n", said(2, 3)),
        (of(&[2, 1, 0, 1, 1, 0], &[1, 0, 1, 3]), "0\n0 0\n0 1 0 1 0 1 0\n", String::new()),
        (of(&book_a, &[1, 4, 5, 3, 2, 0, 1, 3]), sample, String::new()),
    ]
}

/// The rows of the table of docs/SPEC.md that begins with this line: the cells of two columns.
fn table<'a>(spec: &'a str, head: &str) -> Vec<(&'a str, &'a str)> {
    let cells = |line: &'a str| line.strip_prefix("| ")?.strip_suffix(" |")?.split_once(" | ");
    spec.lines().skip_while(|line| *line != head).skip(2).map_while(cells).collect()
}

/// Whether docs/SPEC.md's words are those that are compared, and whether every row of its tables of inputs is a session of `worked`
/// that prints, or says, what the row has in backquotes.
fn documented() -> Vec<bool> {
    let spec = std::fs::read_to_string(SPEC).unwrap_or_else(|error| panic!("{SPEC}: {error}"));
    let words = End::WORDS.map(|(refusal, words)| (refusal.to_string(), words));
    let same = table(&spec, "| N | WORDS |") == words.each_ref().map(|(refusal, words)| (refusal.as_str(), *words));
    if !same {
        println!("{SPEC}: other words than {words:?}");
    }
    let mut holds = vec![same];
    let worked = worked();
    for (head, says) in [("| Input | Prints, one line each |", false), ("| Input | Says on standard error |", true)] {
        let rows = table(&spec, head);
        if rows.is_empty() {
            println!("{SPEC}: no table {head}");
        }
        holds.push(!rows.is_empty());
        for (input, cell) in rows {
            let bytes: Vec<u8> = match input {
                "none" => Vec::new(),
                _ => input.split(' ').map(|byte| u8::from_str_radix(byte, 16).expect("a byte in hexadecimal")).collect(),
            };
            let lines: String = cell.split('`').skip(1).step_by(2).map(|line| format!("{line}\n")).collect();
            let row = |(input, printed, said): &(Vec<u8>, &str, String)| *input == bytes && lines == if says { said } else { *printed };
            let found = worked.iter().any(row);
            if !found {
                println!("{SPEC}: '{input}' is not among the sessions that are compared, with {cell}");
            }
            holds.push(found);
        }
    }
    holds
}

/// The sessions that take longest of those tried, each filled up to the last byte with the same steps, and the length of its first
/// part, which ends with a step. Behind three variables each term is over the one before it and seven times the first variable: eight
/// arguments in few bytes, so that there is room for steps. Either the line of the last two terms and three lines of variables fill the
/// table, so that a choice needs an entry too many at once; or the table is nearly empty, and a choice walks through as many entries as
/// there may be before it needs one too many.
fn slow() -> Vec<(&'static str, Vec<u8>, usize)> {
    let term = |own: u32| match own {
        0..=2 => Term::Variable,
        3 => over(7, &[0; 8]),
        _ => over(7, &[own - 1, 0, 0, 0, 0, 0, 0, 0]),
    };
    let book = encode(&(0..1_024).map(term).collect::<Vec<Term>>());
    let bytes = |calls: &[Call]| {
        let mut steps = Vec::new();
        calls.iter().for_each(|&call| push_step(&mut steps, call));
        steps
    };
    let line = |(l, r)| Call::Add { l, r };
    let mut full = [(1, 100), (0, 0), (0, 1)].map(line).to_vec();
    full.resize(256, line((1_023, 1_022)));
    let mut empty = vec![Call::Bind { v: 2, t: 1_022 }, line((1, 1_023))];
    empty.extend((3..14).map(|r| line((0, r))));
    let choice = Call::Bind { v: 1, t: 90 };
    let filled = |(name, first, then): (&'static str, &Vec<Call>, Vec<Call>)| {
        let (start, unit) = (of(&book, &bytes(first)), bytes(&then));
        let input = [start.clone(), unit.repeat((LONGEST - start.len()) / unit.len())].concat();
        (name, input, start.len() + 50 * unit.len())
    };
    let sessions = [
        ("reports", &full, vec![Call::Report]),
        ("lines refused with 12", &full, vec![line((0, 1))]),
        ("choices refused with 11 at once", &full, vec![choice]),
        ("a report and such a choice in turn", &full, vec![Call::Report, choice]),
        ("choices refused with 11 after a long walk", &empty, vec![Call::Bind { v: 1, t: 2 }]),
    ];
    sessions.map(filled).to_vec()
}

/// The time of each slow session, the best of three runs, with nobody reading what it prints; its first part is compared before.
fn time_slow() {
    println!("| session | steps | seconds | bytes printed |");
    println!("|---|---|---|---|");
    for (name, input, part) in slow() {
        let expected = session(&input[..part]).printed;
        let (output, _) = printed(&input, usize::MAX, Duration::ZERO).expect("the program runs");
        assert!(output.starts_with(&expected), "{name}: the program prints something else");
        std::fs::write("target/tests/slow", &input).expect("the session is written");
        let run = || {
            let clock = Instant::now();
            let status = Command::new("sh").args(["-c", &format!("{PROGRAM} <target/tests/slow >/dev/null")]).status();
            assert!(status.is_ok_and(|status| status.success()), "{name}: the program fails");
            clock.elapsed().as_secs_f64()
        };
        let best = (0..3).map(|_| run()).fold(f64::INFINITY, f64::min);
        println!("| {name} | {} | {best:.2} | {} |", output.lines().count() - 1, output.len());
    }
}

fn compare(name: &str, input: &[u8], expected: (&str, &str), piece: usize, pause: u64) -> bool {
    match printed(input, piece, Duration::from_millis(pause)) {
        Ok((ours, said)) if (ours.as_str(), said.as_str()) == expected => true,
        Ok((ours, said)) if ours == expected.0 => {
            println!("{name}: says '{said}', expected '{}'", expected.1);
            false
        }
        Ok((ours, _)) => {
            let expected = expected.0;
            let line = ours.lines().zip(expected.lines()).take_while(|(a, b)| a == b).count();
            let show = |text: &str| text.lines().nth(line).unwrap_or("nothing").chars().take(100).collect::<String>();
            println!("{name}: line {line} is '{}', expected '{}'", show(&ours), show(expected));
            false
        }
        Err(error) => {
            println!("{name}: {error}");
            false
        }
    }
}

/// The program on an input that cannot be read, or with an output that cannot be written: it says so, once, and ends by itself.
fn failing() -> Vec<bool> {
    let shell = |line: &str| {
        let mut command = Command::new("sh");
        command.args(["-c", line]).stdin(Stdio::null()).stdout(Stdio::piped()).stderr(Stdio::piped());
        command
    };
    let ends = |mut command: Command, printed: &str, said: &str| {
        let output = output(command.spawn().expect("a program"));
        let holds = output.as_ref().is_ok_and(|(ours, ours_said)| ours == printed && ours_said == said);
        if !holds {
            println!("{output:?}, expected '{printed}' and '{said}'");
        }
        holds
    };
    let nothing = |why| format!("sessions: standard input: {why}\n{}", End::said(0, 1));
    let full = format!("sessions: standard output: No space left on device\n{}", End::said(4, 8));
    let closed = "sessions: standard output: Bad file descriptor\n";
    vec![
        ends(shell(&format!("exec {PROGRAM} <.")), "1\n", &nothing("Is a directory")),
        ends(shell(&format!("exec {PROGRAM} <&-")), "1\n", &nothing("Bad file descriptor")),
        ends(broken_off(&[1, 0, 3]), "0\n0 0 0\n", "sessions: standard input: Resource temporarily unavailable\n"),
        ends(shell(&format!("printf '\\001\\000\\003\\003\\005' | {PROGRAM} >/dev/full")), "", &full),
        ends(shell(&format!("printf '\\001\\000\\003' | {PROGRAM} >&-")), "", closed),
        // what is said comes behind the line of its refusal
        ends(shell(&format!("printf '\\001\\000\\005' | {PROGRAM} 2>&1")), &format!("0\n8\n{}", End::said(2, 8)), ""),
        ends(shell(&format!("printf '\\002\\000\\005' | {PROGRAM} 2>&1")), &format!("3\n{}", End::said(2, 3)), ""),
        output_closed(),
        said_at_once(),
    ]
}

/// Where the input stops being a session the program says it by one write: a socket of datagrams gets the whole line at once.
fn said_at_once() -> bool {
    let (ours, theirs) = UnixDatagram::pair().expect("a pair of sockets");
    let mut command = Command::new("sh");
    command.args(["-c", &format!("printf '\\001\\000\\005' | {PROGRAM}")]).stdout(Stdio::null()).stderr(OwnedFd::from(theirs));
    let ended = command.status().is_ok_and(|status| status.success());
    ours.set_nonblocking(true).expect("a socket that does not wait");
    let mut said = [0; 1_000];
    ended && ours.recv(&mut said).is_ok_and(|count| said[..count] == *End::said(2, 8).as_bytes())
}

/// The program with an input that fails after these bytes: nothing more is there, and the program is not to wait for it.
fn broken_off(input: &[u8]) -> Command {
    let (mut ours, theirs) = UnixStream::pair().expect("a pair of sockets");
    ours.write_all(input).expect("a socket takes a few bytes");
    theirs.set_nonblocking(true).expect("a socket that does not wait");
    let mut command = Command::new(PROGRAM);
    command.stdin(OwnedFd::from(theirs)).stdout(Stdio::piped()).stderr(Stdio::piped());
    // Where our end were closed, the input would end.
    std::mem::forget(ours);
    command
}

/// The output closed after a byte. The signal would end the program; without, it is told that it cannot write.
fn output_closed() -> bool {
    let input = of(&[1, 0], &vec![3; 60_000]);
    let mut command = Command::new("sh");
    command.args(["-c", &format!("trap '' PIPE; exec {PROGRAM}")]);
    command.stdin(Stdio::piped()).stdout(Stdio::piped()).stderr(Stdio::piped());
    let mut child = command.spawn().expect("a shell");
    let mut stdin = child.stdin.take().expect("a pipe");
    let writer = thread::spawn(move || drop(stdin.write_all(&input)));
    let mut stdout = child.stdout.take().expect("a pipe");
    let read = stdout.read_exact(&mut [0]).is_ok();
    drop(stdout);
    let output = output(child);
    writer.join().expect("the writer");
    read && output.is_ok_and(|(_, said)| said == "sessions: standard output: Broken pipe\n")
}

/// Every so many of the random sessions, from this one on: what they were, and whether each prints what it has to.
fn random_sessions(seed: u64, first: u64, every: u64) -> (Census, Vec<bool>) {
    let mut census = Census::default();
    let mut same = Vec::new();
    for i in (first..SESSIONS * times()).step_by(every as usize) {
        let seed = seed + i;
        let input = random_session(seed);
        let session = session(&input);
        census.session(&input, &session);
        let piece = PIECES[(i / 3 % PIECES.len() as u64) as usize];
        same.push(compare(&format!("seed {seed:#x}"), &input, (&session.printed, &session.said), piece, 0));
    }
    (census, same)
}

fn main() {
    if std::env::args().nth(1).is_some_and(|word| word == "slow") {
        return time_slow();
    }
    let (mut passed, mut failed) = (0, 0);
    let mut test = |holds: bool| if holds { passed += 1 } else { failed += 1 };
    for (i, (input, lines, said)) in worked().into_iter().enumerate() {
        let session = session(&input);
        test((session.printed.as_str(), &session.said) == (lines, &said));
        test(compare(&format!("worked {i}"), &input, (lines, &said), usize::MAX, 0));
        test(compare(&format!("worked {i} byte by byte"), &input, (lines, &said), 1, 2));
    }
    documented().into_iter().for_each(&mut test);
    failing().into_iter().for_each(&mut test);
    let seed = first_seed(SEED);
    println!("{} sessions from seed {seed:#x}", SESSIONS * times());
    let workers = thread::available_parallelism().map_or(1, |count| count.get().min(4)) as u64;
    let mut census = Census::default();
    let work: Vec<_> = (0..workers).map(|first| thread::spawn(move || random_sessions(seed, first, workers))).collect();
    for worker in work {
        let (seen, same) = worker.join().expect("a worker");
        census.join(seen);
        same.into_iter().for_each(&mut test);
    }
    for (kind, count) in &census.seen {
        println!("{count:6} {kind}");
    }
    if let Err(error) = census.complete() {
        println!("{error}");
        test(false);
    }
    println!("{passed} passed, {failed} failed");
    std::process::exit(i32::from(failed > 0));
}
