//! An independent implementation of document 01, written from the document alone, to hold the proved library against.
//!
//! Every function answers with a plain structure; `number` is 0 when it is done and the document's number otherwise.

mod bind;
mod binding;
mod block;
mod check;
mod cliques;
mod listing;
mod run;

pub use listing::listing;

/// Why an input was turned down, with the record numbers that go with it.
#[derive(Clone, Copy, PartialEq, Eq, Debug)]
pub(crate) struct Refusal {
    number: u8,
    first: u8,
    second: u8,
}

impl Refusal {
    fn whole(number: u8) -> Self {
        Refusal::pair(number, 0, 0)
    }

    fn at(number: u8, record: usize) -> Self {
        Refusal::pair(number, record, record)
    }

    /// Records number at most 80, so that each fits in a byte.
    fn pair(number: u8, first: usize, second: usize) -> Self {
        Refusal {
            number,
            first: first as u8,
            second: second as u8,
        }
    }
}

#[derive(Clone, Copy, PartialEq, Eq, Debug, Default)]
pub struct Reading {
    pub number: u8,
    pub first: u8,
    pub second: u8,
    pub values: u8,
    pub last_step: u8,
}

#[derive(Clone, Copy, PartialEq, Eq, Debug, Default)]
pub struct Verdict {
    pub number: u8,
    pub later: u8,
    pub earlier: u8,
    pub registers: u8,
    pub units: u8,
    pub buses: u8,
}

#[derive(Clone, Copy, PartialEq, Eq, Debug, Default)]
pub struct Allocated {
    pub number: u8,
    pub first: u8,
    pub second: u8,
    pub written: u16,
}

#[derive(Clone, Copy, PartialEq, Eq, Debug, Default)]
pub struct Ran {
    pub number: u8,
    pub first: u8,
    pub second: u8,
    pub written: u8,
}

/// Judges a block; done, says how many values it makes and its last step T.
pub fn read(block: &[u8]) -> Reading {
    match block::Block::read(block) {
        Ok(block) => Reading {
            values: block.values.len() as u8,
            last_step: block.last_step,
            ..Reading::default()
        },
        Err(refusal) => Reading {
            number: refusal.number,
            first: refusal.first,
            second: refusal.second,
            ..Reading::default()
        },
    }
}

/// Judges a binding of a block; done, says how many different registers, units and buses occur.
pub fn check(block: &[u8], binding: &[u8]) -> Verdict {
    match check::check(block, binding) {
        Ok(counts) => Verdict {
            registers: counts.registers,
            units: counts.units,
            buses: counts.buses,
            ..Verdict::default()
        },
        Err(refusal) => Verdict {
            number: refusal.number,
            later: refusal.first,
            earlier: refusal.second,
            ..Verdict::default()
        },
    }
}

/// Binds a block by left edge (method 0) or clique merging (method 1), and writes the binding to the front of `out`.
pub fn bind(block: &[u8], method: u8, out: &mut [u8]) -> Allocated {
    match bind::bind(block, method, out) {
        Ok(written) => Allocated {
            written: written as u16,
            ..Allocated::default()
        },
        Err(refusal) => Allocated {
            number: refusal.number,
            first: refusal.first,
            second: refusal.second,
            ..Allocated::default()
        },
    }
}

/// Runs a block on the incoming words, in the order of its incoming records.
pub fn run_block(block: &[u8], incoming: &[u16], outgoing: &mut [u16]) -> Ran {
    ran(run::run_block(block, incoming, outgoing))
}

/// Runs a bound datapath, also one whose binding breaks rules, and leaves the final register file.
pub fn run_datapath(
    block: &[u8],
    binding: &[u8],
    incoming: &[u16],
    outgoing: &mut [u16],
    registers: &mut [u16],
) -> Ran {
    ran(run::run_datapath(
        block, binding, incoming, outgoing, registers,
    ))
}

/// How many different connections a bound block has; none where it or its binding is refused for its form.
pub fn connections(block: &[u8], binding: &[u8]) -> Option<usize> {
    let block = block::Block::read(block).ok()?;
    let places = binding::places(&block, binding).ok()?;
    let uses = binding::uses(&block, &places);
    let numbers = binding::connection_numbers(&uses);
    Some(numbers.into_iter().max().map_or(0, |most| most + 1))
}

fn ran(outcome: Result<usize, Refusal>) -> Ran {
    match outcome {
        Ok(written) => Ran {
            written: written as u8,
            ..Ran::default()
        },
        Err(refusal) => Ran {
            number: refusal.number,
            first: refusal.first,
            second: refusal.second,
            ..Ran::default()
        },
    }
}

#[cfg(test)]
mod tests;
