//! The cases of document 01, by its parts, and what they share: block E and its binding, and records to make others of.

mod compared;
mod listings;
mod numbers;
mod proved;
mod runs;

use crate::*;

pub(crate) const E: [u8; 64] = [
    1, 0, 0, 1, 0, 0, 0, 0, //
    1, 0, 0, 2, 0, 0, 0, 0, //
    2, 1, 3, 3, 1, 2, 0, 0, //
    2, 1, 1, 4, 1, 0, 0, 0, //
    2, 2, 4, 1, 3, 2, 0, 0, //
    2, 2, 5, 5, 3, 4, 0, 0, //
    2, 3, 3, 6, 1, 5, 0, 0, //
    3, 0, 0, 6, 0, 0, 0, 0,
];

const E_BINDING: [u8; 56] = [
    0, 1, 255, 255, 255, 255, 0, 0, //
    1, 0, 255, 255, 255, 255, 0, 0, //
    2, 1, 0, 0, 1, 2, 0, 0, //
    3, 2, 255, 3, 255, 255, 0, 0, //
    4, 0, 0, 0, 1, 4, 0, 0, //
    5, 1, 1, 2, 3, 5, 0, 0, //
    6, 0, 0, 2, 3, 4, 0, 0,
];

fn incoming(name: u8) -> [u8; 8] {
    [1, 0, 0, name, 0, 0, 0, 0]
}

fn outgoing(name: u8) -> [u8; 8] {
    [3, 0, 0, name, 0, 0, 0, 0]
}

fn constant(step: u8, name: u8, literal: u16) -> [u8; 8] {
    let [low, high] = literal.to_le_bytes();
    [2, step, 2, name, 0, 0, low, high]
}

fn moved(step: u8, name: u8, source: u8) -> [u8; 8] {
    [2, step, 1, name, source, 0, 0, 0]
}

fn add(step: u8, name: u8, left: u8, right: u8) -> [u8; 8] {
    [2, step, 3, name, left, right, 0, 0]
}

fn refused(number: u8, record: u8) -> Reading {
    Reading {
        number,
        first: record,
        second: record,
        ..Reading::default()
    }
}

fn reads(block: &[[u8; 8]]) -> Reading {
    read(&block.concat())
}

fn done(values: u8, last_step: u8) -> Reading {
    Reading {
        values,
        last_step,
        ..Reading::default()
    }
}

/// E with one byte of one record changed.
fn changed(record: usize, byte: usize, to: u8) -> Vec<u8> {
    let mut block = E.to_vec();
    block[8 * record + byte] = to;
    block
}

fn rebound(value: usize, byte: usize, to: u8) -> Vec<u8> {
    let mut binding = E_BINDING.to_vec();
    binding[8 * value + byte] = to;
    binding
}

fn verdict(number: u8, later: u8, earlier: u8) -> Verdict {
    Verdict {
        number,
        later,
        earlier,
        ..Verdict::default()
    }
}
