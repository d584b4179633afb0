//! Prints cases with the twin's answers, one a line: those that document 01 names, two full blocks, then drawn ones, some for each function and number.

use std::collections::HashMap;
use std::io::Write;

use inputs::{bindings, by_twin, text, Full, Input, Random, Source};

const SEED: u64 = 1;
/// How many inputs are looked at.
const DRAWN: usize = 400_000;

const E: &[u8] = include_bytes!("../../../../blocks/E");

type Case = (&'static str, Input);

fn main() {
    let named = [empty(), block_e(), rebound(), small(), edges(), full()];
    let named = named.into_iter().flatten();
    let lines = named.map(|(name, input)| line(name, &input));
    let mut out = std::io::stdout().lock();
    for line in lines.chain(drawn()) {
        writeln!(out, "{}", line).expect("the lines can be written");
    }
}

fn line(name: &str, input: &Input) -> String {
    let answer = by_twin(input);
    let case = text::case(name, input);
    format!("{} {}", case, text::answer(input, &answer))
}

/// Bytes from hexadecimal digits; blanks part nothing.
fn hex(digits: &str) -> Vec<u8> {
    let digits: Vec<u8> = digits.bytes().filter(|digit| *digit != b' ').collect();
    let value = |digit: u8| (digit as char).to_digit(16).expect("a digit") as u8;
    let pairs = digits.chunks(2);
    pairs.map(|p| 16 * value(p[0]) + value(p[1])).collect()
}

fn read(block: Vec<u8>) -> Input {
    Input::Read { block }
}

fn check(block: &[u8], binding: Vec<u8>) -> Input {
    let block = block.to_vec();
    Input::Check { block, binding }
}

fn bind(block: &[u8], method: u8, room: usize) -> Input {
    let (block, out) = (block.to_vec(), vec![0; room]);
    Input::Bind { block, method, out }
}

fn run_block(block: &[u8], incoming: &[u16], room: usize) -> Input {
    Input::RunBlock {
        block: block.to_vec(),
        incoming: incoming.to_vec(),
        outgoing: vec![0; room],
    }
}

fn run_datapath(block: &[u8], binding: Vec<u8>, incoming: &[u16], room: usize) -> Input {
    Input::RunDatapath {
        block: block.to_vec(),
        binding,
        incoming: incoming.to_vec(),
        outgoing: vec![0; room],
        registers: (0..80).map(|register| 1000 + register).collect(),
    }
}

fn empty() -> Vec<Case> {
    vec![
        ("empty", read(vec![])),
        ("empty", check(&[], vec![])),
        ("empty", bind(&[], 0, 0)),
        ("empty", bind(&[], 1, 3)),
        ("empty", run_block(&[], &[], 0)),
        ("empty", run_datapath(&[], vec![], &[], 0)),
    ]
}

fn block_e() -> Vec<Case> {
    let bound = bindings::by_method(E, 0);
    let merged = bindings::by_method(E, 1);
    vec![
        ("e", read(E.to_vec())),
        ("e", bind(E, 0, 56)),
        ("e-one-byte-less", bind(E, 0, 55)),
        ("e-more-room", bind(E, 0, 57)),
        ("e-merged", bind(E, 1, 56)),
        ("e", check(E, bound.clone())),
        ("e-merged", check(E, merged.clone())),
        ("e-5-7", run_block(E, &[5, 7], 1)),
        ("e-65535-2", run_block(E, &[65535, 2], 1)),
        ("e-5-7", run_datapath(E, bound, &[5, 7], 1)),
        ("e-65535-2", run_datapath(E, merged, &[65535, 2], 1)),
    ]
}

/// E's binding with one byte of one value's record changed.
fn rebound() -> Vec<Case> {
    let changed = |value: usize, byte: usize, to: u8| {
        let mut binding = bindings::by_method(E, 0);
        binding[8 * value + byte] = to;
        binding
    };
    vec![
        ("e-c6", check(E, changed(3, 1, 1))),
        ("e-c7", check(E, changed(4, 2, 1))),
        ("e-c8", check(E, changed(2, 4, 0))),
        ("e-c9", check(E, changed(4, 3, 6))),
        ("e-register-79", check(E, changed(3, 1, 79))),
        ("e-register-80", check(E, changed(3, 1, 80))),
        ("e-bus-239", check(E, changed(5, 5, 239))),
        ("e-bus-240", check(E, changed(5, 5, 240))),
        ("e-c8", run_datapath(E, changed(2, 4, 0), &[5, 7], 1)),
    ]
}

/// C10, C11, and a last reading beside a birth.
fn small() -> Vec<Case> {
    let same_step = hex("0100000100000000 0201010201000000 0201010302000000");
    let dead = hex("0100000100000000 0201020200000900 0201010301000000 0300000300000000");
    let dead_bound = bindings::by_method(&dead, 0);
    let born_at_3 = hex("0100000100000000 0203010201000000 0203020300000500");
    let born_at_2 = hex("0100000100000000 0202020300000500 0203010201000000");
    let in_register_0 = |block: &[u8], value: usize| {
        let mut binding = bindings::spread(block);
        binding[8 * value + 1] = 0;
        check(block, binding)
    };
    vec![
        ("c10", read(same_step)),
        ("c11", bind(&dead, 0, 24)),
        ("c11", run_datapath(&dead, dead_bound, &[6], 1)),
        ("read-in-3-born-at-3", in_register_0(&born_at_3, 2)),
        ("read-in-3-born-at-2", in_register_0(&born_at_2, 1)),
    ]
}

fn edges() -> Vec<Case> {
    let incoming: Vec<u8> = (0..81)
        .flat_map(|n| [1, 0, 0, n % 64, 0, 0, 0, 0])
        .collect();
    let mut eighty = incoming[..512].to_vec();
    eighty.extend((1..=16).flat_map(|step| [2, step, 1, 0, 1, 0, 0, 0]));
    vec![
        ("step-64", read(hex("0240020100000700"))),
        ("step-65", read(hex("0241020100000700"))),
        ("name-63", read(hex("0100003f00000000"))),
        ("name-64", read(hex("0100004000000000"))),
        ("records-80", read(eighty)),
        ("records-81", read(incoming)),
    ]
}

/// Two blocks of 80 records and over 200 connections, one bound by both methods and one run.
fn full() -> Vec<Case> {
    let mut random = Random::new(SEED);
    let bound = Full::draw(&mut random).block;
    let run = Full::draw(&mut random);
    let path = run_datapath(&run.block, run.merged, &run.incoming, Full::OUTGOING);
    vec![
        ("full", bind(&bound, 0, 640)),
        ("full-merged", bind(&bound, 1, 640)),
        ("full-merged", path),
    ]
}

/// How many cases of a function and number are printed, and how long a line of that function may be.
fn limits(function: usize, number: u8) -> (usize, usize) {
    let (most, length) = [(14, 130), (12, 205), (8, 215), (9, 150), (3, 900)][function];
    match (function, number) {
        (4, 1..=22) => (1, 250),
        (2, 0) | (3, 0) | (4, 0) => (2 * most, length),
        (0, 0) | (0, 4..=8) | (1, 0) | (1, 16..=19) => (most, length),
        (0, _) | (1, 11..=14) | (3, 21..=22) => (most / 2, length),
        _ => (2, length),
    }
}

/// Cases that are done, and broken rules, are worth a line only with some records, runs only with something sent out.
fn worth(input: &Input, number: u8) -> bool {
    let done_or_broken = number == 0 || (16..20).contains(&number);
    !done_or_broken
        || match input {
            Input::Read { block } | Input::Check { block, .. } | Input::Bind { block, .. } => {
                block.len() >= 24
            }
            Input::RunBlock {
                block, outgoing, ..
            }
            | Input::RunDatapath {
                block, outgoing, ..
            } => block.len() >= 32 && !outgoing.is_empty(),
        }
}

/// A register file of 80 words makes a long line; a refusal that comes before 23 does without.
fn shortened(mut input: Input, number: u8) -> Input {
    if let Input::RunDatapath { registers, .. } = &mut input {
        if (1..23).contains(&number) {
            registers.truncate(3);
        }
    }
    input
}

fn drawn() -> Vec<String> {
    let mut taken: HashMap<(usize, u8), usize> = HashMap::new();
    let mut lines = Vec::new();
    for input in Source::new(SEED).take(DRAWN) {
        let function = input.function();
        let number = by_twin(&input).number();
        let (most, length) = limits(function, number);
        let count = taken.entry((function, number)).or_insert(0);
        if *count == most || !worth(&input, number) {
            continue;
        }
        let name = format!("{:02}-{:02}", number, *count + 1);
        let text = line(&name, &shortened(input, number));
        if text.len() <= length {
            *count += 1;
            lines.push(text);
        }
    }
    lines.sort();
    lines
}
