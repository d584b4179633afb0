//! What the program `bindlist` prints.

use std::fmt::Write;

use crate::binding::NONE;
use crate::block::{Block, Function, Maker, Value, MOST_RECORDS, RECORD};
use crate::{bind, check, Allocated, Verdict};

/// The most that `bindlist` looks at: one record more than a block may have.
const MOST_BYTES: usize = (MOST_RECORDS + 1) * RECORD;

/// The listing of a block bound by left edge, or the refused line.
pub fn listing(bytes: &[u8]) -> String {
    if bytes.len() > MOST_BYTES {
        return refused(2, 0);
    }
    let mut binding = [0; MOST_RECORDS * RECORD];
    let Allocated {
        number,
        first,
        written,
        ..
    } = bind(bytes, 0, &mut binding);
    if number != 0 {
        return refused(number, first);
    }
    let binding = &binding[..usize::from(written)];
    let verdict = check(bytes, binding);
    match Block::read(bytes) {
        Ok(block) if verdict.number == 0 => accepted(&block, binding, verdict),
        _ => refused(verdict.number, verdict.later),
    }
}

fn refused(number: u8, first: u8) -> String {
    format!("refused {:02} {:02}\n", number, first)
}

fn accepted(block: &Block, binding: &[u8], verdict: Verdict) -> String {
    let mut text = String::new();
    for (value, record) in block.values.iter().zip(binding.chunks_exact(RECORD)) {
        line(&mut text, value, record).expect("a string takes any text");
    }
    let Verdict {
        registers,
        units,
        buses,
        ..
    } = verdict;
    text + &format!("R {:02} U {:02} B {:03}\n", registers, units, buses)
}

fn line(text: &mut String, value: &Value, record: &[u8]) -> std::fmt::Result {
    write!(text, "{:02} {:02} ", record[0], value.birth)?;
    write!(text, "{} V{:02} ", operation(value), value.name)?;
    write!(text, "R{:02} ", record[1])?;
    match record[2] {
        NONE => write!(text, "---")?,
        unit => write!(text, "U{:02}", unit)?,
    }
    for &bus in &record[3..6] {
        match bus {
            NONE => write!(text, " ----")?,
            bus => write!(text, " B{:03}", bus)?,
        }
    }
    writeln!(text)
}

fn operation(value: &Value) -> &'static str {
    match value.maker {
        Maker::Incoming => "inp",
        Maker::Move { .. } => "mov",
        Maker::Constant { .. } => "con",
        Maker::Unit { function, .. } => match function {
            Function::Add => "add",
            Function::Subtract => "sub",
            Function::Multiply => "mul",
            Function::And => "and",
            Function::Or => "ior",
            Function::ExclusiveOr => "xor",
        },
    }
}
