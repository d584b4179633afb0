//! Blocks, bindings and datapaths: the proved library, safe to call from Rust.
//!
//! Every function takes any bytes of any length. What is wrong with them comes back as a [`Refusal`], and then nothing was written.

pub mod packed;

use std::error::Error;
use std::fmt;

/// Bytes of a record, of a block as of a binding.
pub const RECORD_BYTES: usize = 8;
/// The most records of a block.
pub const MOST_RECORDS: usize = 80;
/// Words of the register file.
pub const REGISTERS: usize = 80;

/// Registers by left edge.
pub const LEFT_EDGE: u8 = 0;
/// Registers by clique merging.
pub const CLIQUE_MERGING: u8 = 1;

/// The number of what is wrong, and the records that it speaks of (later and earlier for 16 to 19, 0 and 0 where it speaks of none).
#[derive(Clone, Copy, PartialEq, Eq, Hash, Debug)]
pub struct Refusal {
    pub number: u8,
    pub first: u8,
    pub second: u8,
}

impl Refusal {
    /// What the number says, in words.
    pub fn meaning(&self) -> &'static str {
        match self.number {
            1 => "the block's length is not a multiple of 8",
            2 => "the block has over 80 records",
            3 => "a kind is not 1, 2 or 3",
            4 => "a kind is below the one before, or a step below the operation before",
            5 => "a step, an operation or a used name is beyond its range",
            6 => "an unused byte is not zero",
            7 => "a name is incoming twice, outgoing twice, or written twice in a step",
            8 => "a name is read or sent out that has no value",
            9 => "the method is not 0 or 1",
            10 => "the output has under 8 bytes a value",
            11 => "the binding's length is not a multiple of 8",
            12 => "the binding has not as many records as the block has values",
            13 => "a value number is not its place",
            14 => "a field of a binding record is not as its operation needs it",
            16 => "two values in one register occupy a common boundary",
            17 => "two operations on one unit are of two classes or in one step",
            18 => "two uses in one step are on one bus",
            19 => "two uses of one connection are on two buses",
            20 => "the allocator's own binding is not accepted",
            21 => "not as many incoming words as incoming records",
            22 => "not as much outgoing room as outgoing records",
            23 => "the register file is not 80 words",
            _ => "no such number",
        }
    }
}

impl fmt::Display for Refusal {
    fn fmt(&self, f: &mut fmt::Formatter<'_>) -> fmt::Result {
        write!(f, "{}: {}", self.number, self.meaning())?;
        match self.number {
            3..=8 | 13 | 14 => write!(f, " (record {})", self.first),
            16..=19 => write!(f, " (records {} and {})", self.first, self.second),
            _ => Ok(()),
        }
    }
}

impl Error for Refusal {}

/// A block that can be read.
#[derive(Clone, Copy, PartialEq, Eq, Debug)]
pub struct Reading {
    pub values: u8,
    pub last_step: u8,
}

/// How many different registers, units and buses occur in an accepted binding.
#[derive(Clone, Copy, PartialEq, Eq, Debug)]
pub struct Counts {
    pub registers: u8,
    pub units: u8,
    pub buses: u8,
}

/// Judges a block.
pub fn read(block: &[u8]) -> Result<Reading, Refusal> {
    let [_, _, _, values, last_step, ..] = done(packed::read(block))?;
    Ok(Reading { values, last_step })
}

/// Judges a binding of a block.
pub fn check(block: &[u8], binding: &[u8]) -> Result<Counts, Refusal> {
    let [_, _, _, registers, units, buses, ..] = done(packed::check(block, binding))?;
    Ok(Counts {
        registers,
        units,
        buses,
    })
}

/// Binds a block, writes 8 bytes a value to the front of `out`, and says how many bytes these are. The rest of `out` stays.
pub fn bind(block: &[u8], method: u8, out: &mut [u8]) -> Result<usize, Refusal> {
    let [_, _, _, _, low, high, ..] = done(packed::bind(block, method, out))?;
    Ok(u16::from_le_bytes([low, high]).into())
}

/// Runs a block: one incoming word for each incoming record, one outgoing word for each outgoing one. Says how many words it wrote.
pub fn run_block(block: &[u8], incoming: &[u16], outgoing: &mut [u16]) -> Result<usize, Refusal> {
    let [_, _, _, _, words, ..] = done(packed::run_block(block, incoming, outgoing))?;
    Ok(words.into())
}

/// Runs a bound datapath, also one whose binding breaks rules, and leaves the final register file. Says how many words it sent out.
pub fn run_datapath(
    block: &[u8],
    binding: &[u8],
    incoming: &[u16],
    outgoing: &mut [u16],
    registers: &mut [u16],
) -> Result<usize, Refusal> {
    let answer = packed::run_datapath(block, binding, incoming, outgoing, registers);
    let [_, _, _, _, words, ..] = done(answer)?;
    Ok(words.into())
}

fn done(answer: u64) -> Result<[u8; 8], Refusal> {
    let bytes = answer.to_le_bytes();
    match bytes[0] {
        0 => Ok(bytes),
        number => Err(Refusal {
            number,
            first: bytes[1],
            second: bytes[2],
        }),
    }
}
