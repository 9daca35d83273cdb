//! The report: the lines, and the classes that they reach under new numbers.

use super::book::push_number;
use super::table::State;

/// Classes, given by their lowest entries, in the order of their new numbers.
struct Numbering {
    new: Vec<Option<u32>>,
    order: Vec<u32>,
}

impl Numbering {
    /// The new number of a class, the next one where it has none.
    fn number(&mut self, class: u32) -> u32 {
        let next = self.order.len() as u32;
        let number = *self.new[class as usize].get_or_insert(next);
        if number == next {
            self.order.push(class);
        }
        number
    }
}

/// The bytes of the report of a sound state.
pub fn report(state: &State) -> Result<Vec<u8>, u32> {
    let values = state.values()?;
    let names = values.names();
    let class = |entry: u32| state.entries[entry as usize].same_as;
    let mut numbering = Numbering { new: vec![None; state.entries.len()], order: Vec::new() };
    let mut out = Vec::new();
    push_number(&mut out, state.lines.len() as u32);
    for &line in &state.lines {
        push_number(&mut out, numbering.number(class(line)));
    }
    let mut rows = Vec::new();
    let mut next = 0;
    while next < numbering.order.len() {
        let entry = &state.entries[numbering.order[next] as usize];
        push_number(&mut rows, names[values.of(entry.left)]);
        push_number(&mut rows, names[values.of(entry.right)]);
        match &entry.common {
            None => push_number(&mut rows, 0),
            Some((symbol, arguments)) => {
                push_number(&mut rows, symbol + 1);
                push_number(&mut rows, arguments.len() as u32);
                for &argument in arguments {
                    push_number(&mut rows, numbering.number(class(argument)));
                }
            }
        }
        next += 1;
    }
    push_number(&mut out, numbering.order.len() as u32);
    out.extend(rows);
    Ok(out)
}
