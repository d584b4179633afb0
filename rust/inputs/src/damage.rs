//! Damage to blocks: each number of the reader, at every kind of place, and changes of no particular aim; and what damage to bindings has in common with it.

use crate::blocks::{INCOMING, OPERATION, OUTGOING};
use crate::Random;

const EDGES: [u8; 12] = [0, 1, 2, 3, 8, 9, 62, 63, 64, 65, 128, 255];

/// A byte at the edge of some range, or any.
pub fn odd_byte(random: &mut Random) -> u8 {
    if random.one_in(3) {
        random.byte()
    } else {
        random.pick(&EDGES)
    }
}

/// A copy with one fault, now and then two.
pub fn copy(random: &mut Random, bytes: &[u8], fault: fn(&mut Random, &mut Vec<u8>)) -> Vec<u8> {
    let mut damaged = bytes.to_vec();
    let faults = if random.one_in(4) { 2 } else { 1 };
    for _ in 0..faults {
        fault(random, &mut damaged);
    }
    damaged
}

/// Now and then it can still be read.
pub fn block(random: &mut Random, block: &[u8]) -> Vec<u8> {
    copy(random, block, fault)
}

fn fault(random: &mut Random, block: &mut Vec<u8>) {
    let choice = random.below(16);
    let records = block.len() / 8;
    if records == 0 || choice == 0 {
        return length(random, block);
    }
    if choice == 1 {
        return too_many(random, block);
    }
    let place = random.below(records);
    match choice {
        2 => block[8 * place] = random.pick(&[0, 4, 5, 128, 255]),
        3 => block[8 * place] = random.between(1, 3) as u8,
        4 => swap(random, block, place),
        5 => earlier_step(random, block, place),
        6 => block[8 * place + 1] = odd_byte(random),
        7 => block[8 * place + 2] = odd_byte(random),
        8 => block[8 * place + random.between(3, 5)] = random.pick(&[63, 64, 65, 255]),
        9 => unused(random, block, place),
        10 => same_name(random, block, place),
        11 => same_step_and_name(random, block, place),
        12 => block[8 * place + random.between(3, 5)] = random.below(64) as u8,
        13 => reads_own_step(random, block, place),
        14 => drop(block.drain(8 * place..8 * place + 8)),
        _ => block[8 * place + random.below(8)] = odd_byte(random),
    }
}

/// A few bytes less or more.
pub fn length(random: &mut Random, bytes: &mut Vec<u8>) {
    let count = random.between(1, 9);
    if random.one_in(2) {
        bytes.truncate(bytes.len().saturating_sub(count));
    } else {
        bytes.extend(random.bytes(count));
    }
}

fn too_many(random: &mut Random, block: &mut Vec<u8>) {
    let bytes = random.pick(&[640, 647, 648, 649, 656, 800]);
    while block.len() < bytes {
        block.extend([INCOMING, 0, 0, random.below(64) as u8, 0, 0, 0, 0]);
    }
    block.truncate(bytes);
}

fn swap(random: &mut Random, block: &mut [u8], place: usize) {
    let other = random.below(block.len() / 8);
    for byte in 0..8 {
        block.swap(8 * place + byte, 8 * other + byte);
    }
}

fn earlier_step(random: &mut Random, block: &mut [u8], place: usize) {
    let step = block[8 * place + 1];
    block[8 * place + 1] = random.below(usize::from(step).max(1)) as u8;
}

fn unused(random: &mut Random, block: &mut [u8], place: usize) {
    let record = &mut block[8 * place..8 * place + 8];
    let bytes: &[usize] = match (record[0], record[2]) {
        (OPERATION, 1) => &[5, 6, 7],
        (OPERATION, 2) => &[4, 5],
        (OPERATION, _) => &[6, 7],
        _ => &[1, 2, 4, 5, 6, 7],
    };
    record[random.pick(bytes)] = random.byte().max(1);
}

/// A record's name becomes that of another of its kind.
fn same_name(random: &mut Random, block: &mut [u8], place: usize) {
    let kind = block[8 * place];
    let others: Vec<usize> = (0..block.len() / 8)
        .filter(|&other| other != place && block[8 * other] == kind)
        .collect();
    if !others.is_empty() {
        block[8 * place + 3] = block[8 * random.pick(&others) + 3];
    }
}

fn same_step_and_name(random: &mut Random, block: &mut [u8], place: usize) {
    let record = [block[8 * place], block[8 * place + 1], block[8 * place + 3]];
    if record[0] == OUTGOING || 8 * place + 16 > block.len() {
        return same_name(random, block, place);
    }
    let next = &mut block[8 * place + 8..8 * place + 16];
    next[0] = record[0];
    next[1] = record[1];
    next[3] = record[2];
}

/// A source becomes a name written in the same step, often in that step only.
fn reads_own_step(random: &mut Random, block: &mut [u8], place: usize) {
    let step = block[8 * place + 1];
    let others: Vec<usize> = (0..block.len() / 8)
        .filter(|&other| block[8 * other] == OPERATION && block[8 * other + 1] == step)
        .collect();
    if !others.is_empty() {
        block[8 * place + random.between(4, 5)] = block[8 * random.pick(&others) + 3];
    }
}
