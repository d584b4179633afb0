//! Bindings of a block that can be read: by the allocator, spread out, permuted, damaged, or drawn from few numbers.

use crate::{damage, Random};

const NONE: u8 = 255;

/// The most of register, unit, left, right and result.
const LIMITS: [usize; 5] = [80, 80, 240, 240, 240];

/// Which of register, unit, left, right and result each value needs.
fn needed(block: &[u8]) -> Vec<[bool; 5]> {
    let values = block.chunks_exact(8).filter(|record| record[0] < 3);
    let fields = |record: &[u8]| match (record[0], record[2]) {
        (1, _) => [true, false, false, false, false],
        (_, 1) | (_, 2) => [true, false, true, false, false],
        _ => [true; 5],
    };
    values.map(fields).collect()
}

pub fn values(block: &[u8]) -> usize {
    needed(block).len()
}

/// The binding that the twin makes.
pub fn by_method(block: &[u8], method: u8) -> Vec<u8> {
    let mut binding = vec![0; 640];
    let written = twin::bind(block, method, &mut binding).written;
    binding.truncate(written.into());
    binding
}

/// Every needed field has the number that `choose` gives for its value and field.
fn made(block: &[u8], mut choose: impl FnMut(usize, usize) -> u8) -> Vec<u8> {
    let mut binding = Vec::new();
    for (value, needed) in needed(block).into_iter().enumerate() {
        binding.push(value as u8);
        for (field, needed) in needed.into_iter().enumerate() {
            binding.push(if needed { choose(value, field) } else { NONE });
        }
        binding.extend([0, 0]);
    }
    binding
}

/// Nothing is shared: always accepted.
pub fn spread(block: &[u8]) -> Vec<u8> {
    made(block, |value, field| match field {
        0 | 1 => value as u8,
        _ => (3 * value + field - 2) as u8,
    })
}

/// Well-formed, from few registers, units and buses.
pub fn small(random: &mut Random, block: &[u8]) -> Vec<u8> {
    let most = random.pick(&[1, 2, 3, 6, 12, 40]);
    let buses = random.pick(&[most, 3 * most]);
    made(block, |_, field| match field {
        0 | 1 => random.below(most) as u8,
        _ => random.below(buses) as u8,
    })
}

/// Registers, units and buses renamed, each by one permutation.
pub fn permuted(random: &mut Random, binding: &[u8]) -> Vec<u8> {
    let registers = random.shuffled(80);
    let units = random.shuffled(80);
    let buses = random.shuffled(240);
    let mut renamed = binding.to_vec();
    for record in renamed.chunks_exact_mut(8) {
        for (field, byte) in record[1..6].iter_mut().enumerate() {
            let names = [&registers, &units, &buses][field.min(2)];
            if let Some(name) = names.get(usize::from(*byte)) {
                *byte = *name;
            }
        }
    }
    renamed
}

/// With faults of the form or of the rules.
pub fn damaged(random: &mut Random, binding: &[u8]) -> Vec<u8> {
    damage::copy(random, binding, fault)
}

fn fault(random: &mut Random, binding: &mut Vec<u8>) {
    let values = binding.len() / 8;
    let choice = random.below(14);
    if choice == 0 || values == 0 {
        return damage::length(random, binding);
    }
    let place = random.below(values);
    match choice {
        1 => drop(binding.drain(8 * place..8 * place + 8)),
        2 => binding.extend(made_up(random, values)),
        3 => binding[8 * place] = random.pick(&[0, place as u8 + 1, values as u8, 80, 255]),
        4 => binding[8 * place + random.between(1, 5)] = random.pick(&[79, 80, 239, 240, 254, 255]),
        5 => binding[8 * place + random.between(6, 7)] = random.byte().max(1),
        6 => binding[8 * place + random.below(8)] = damage::odd_byte(random),
        7 => {
            let field = random.below(5);
            other_number(random, binding, place, field);
        }
        8 | 9 => {
            let bus = random.between(2, 4);
            other_number(random, binding, place, bus);
        }
        10 => share(random, binding, place, 1),
        _ => {
            let field = random.below(5);
            share(random, binding, place, field);
        }
    }
}

fn made_up(random: &mut Random, value: usize) -> [u8; 8] {
    let register = random.below(80) as u8;
    [value as u8, register, NONE, NONE, NONE, NONE, 0, 0]
}

/// A field that is there takes a number in its range.
fn other_number(random: &mut Random, binding: &mut [u8], place: usize, field: usize) {
    let byte = &mut binding[8 * place + 1 + field];
    if *byte != NONE {
        *byte = random.below(LIMITS[field]) as u8;
    }
}

/// A field takes the number that stands in some record near by, in that field or in another of its kind.
fn share(random: &mut Random, binding: &mut [u8], place: usize, field: usize) {
    let values = binding.len() / 8;
    let near = random.between(place.saturating_sub(6), (place + 6).min(values - 1));
    let other = if field < 2 {
        field
    } else {
        random.between(2, 4)
    };
    let number = binding[8 * near + 1 + other];
    let byte = &mut binding[8 * place + 1 + field];
    if *byte != NONE && number != NONE {
        *byte = number;
    }
}
