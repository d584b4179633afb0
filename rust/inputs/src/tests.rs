//! What the generator promises.

use std::collections::BTreeSet;

use crate::blocks::{of_kind, valid, Shape, INCOMING, OUTGOING};
use crate::{bindings, by_twin, Full, Input, Random, Source};

#[test]
fn valid_blocks_can_be_read_and_have_every_size() {
    let mut random = Random::new(3);
    let mut sizes = BTreeSet::new();
    for round in 0..81 * 40 {
        let shape = Shape::of_size(&mut random, round % 81);
        let block = valid(&mut random, &shape);
        assert_eq!(twin::read(&block).number, 0);
        sizes.insert(block.len() / 8);
    }
    assert_eq!(sizes, (0..=80).collect());
}

#[test]
fn spread_and_permuted_bindings_are_accepted() {
    let mut random = Random::new(4);
    for round in 0..200 {
        let shape = Shape::of_size(&mut random, round % 81);
        let block = valid(&mut random, &shape);
        let spread = bindings::spread(&block);
        assert_eq!(twin::check(&block, &spread).number, 0);
        let bound = bindings::by_method(&block, (round % 2) as u8);
        let verdict = twin::check(&block, &bound);
        assert_eq!(verdict.number, 0);
        let renamed = bindings::permuted(&mut random, &bound);
        assert_eq!(twin::check(&block, &renamed), verdict);
    }
}

#[test]
fn bound_datapaths_send_out_what_the_block_does() {
    let mut random = Random::new(5);
    for round in 0..300 {
        let shape = Shape::of_size(&mut random, round % 81);
        let block = valid(&mut random, &shape);
        let binding = bindings::by_method(&block, (round % 2) as u8);
        let incoming = random.words(of_kind(&block, INCOMING));
        let mut plain = vec![0; of_kind(&block, OUTGOING)];
        let mut bound = plain.clone();
        let mut registers = random.words(80);
        twin::run_block(&block, &incoming, &mut plain);
        twin::run_datapath(&block, &binding, &incoming, &mut bound, &mut registers);
        assert_eq!(plain, bound);
    }
}

#[test]
fn full_blocks_are_full() {
    let mut random = Random::new(6);
    for _ in 0..3 {
        let full = Full::draw(&mut random);
        let block = &full.block;
        assert_eq!((block.len(), twin::read(block).number), (640, 0));
        assert_eq!(of_kind(block, INCOMING), Full::INCOMING);
        assert_eq!(of_kind(block, OUTGOING), Full::OUTGOING);
        for binding in [&full.left_edge, &full.merged] {
            assert_eq!(twin::check(block, binding).number, 0);
            assert!(twin::connections(block, binding) > Some(200));
        }
    }
}

/// 20 comes from no input, and 15 stands for nothing.
#[test]
fn every_number_is_reached() {
    let mut reached = vec![BTreeSet::new(); 5];
    for input in Source::new(7).take(60_000) {
        reached[input.function()].insert(by_twin(&input).number());
    }
    let numbers =
        |ranges: &[(u8, u8)]| -> BTreeSet<u8> { ranges.iter().flat_map(|&(a, b)| a..=b).collect() };
    assert_eq!(reached[0], numbers(&[(0, 8)]));
    assert_eq!(reached[1], numbers(&[(0, 8), (11, 14), (16, 19)]));
    assert_eq!(reached[2], numbers(&[(0, 10)]));
    assert_eq!(reached[3], numbers(&[(0, 8), (21, 22)]));
    assert_eq!(reached[4], numbers(&[(0, 8), (11, 14), (21, 23)]));
}

/// Where a block's record is at fault: the number, the record's sort, and the byte (0 where the record as a whole is).
type Spot = (u8, &'static str, usize);

fn sort(record: &[u8]) -> &'static str {
    match (record[0], record[2]) {
        (1, _) => "incoming",
        (3, _) => "outgoing",
        (2, 1) => "move",
        (2, 2) => "constant",
        (2, 3..=8) => "unit",
        _ => "other",
    }
}

/// The spots of the first faulty record.
fn spots(block: &[u8], number: u8, place: usize) -> Vec<Spot> {
    let record = &block[8 * place..8 * place + 8];
    let sort = sort(record);
    let below = place > 0 && record[0] < block[8 * place - 8];
    let beyond = |byte: &usize| match byte {
        1 => record[1] == 0 || record[1] > 64,
        2 => record[2] == 0 || record[2] > 8,
        _ => record[*byte] > 63,
    };
    let used: &[usize] = match sort {
        "move" => &[1, 2, 3, 4],
        "constant" => &[1, 2, 3, 6, 7],
        "unit" => &[1, 2, 3, 4, 5],
        "other" => &[1, 2],
        _ => &[3],
    };
    let bytes: Vec<usize> = match number {
        4 if below => vec![0],
        4 => vec![1],
        5 => used.iter().copied().filter(beyond).collect(),
        6 => (1..8)
            .filter(|byte| !used.contains(byte) && record[*byte] != 0)
            .collect(),
        _ => vec![0],
    };
    bytes.into_iter().map(|byte| (number, sort, byte)).collect()
}

/// The spots that are to be reached, the bytes of a number and sort together.
const SPOTS: [(u8, &str, &[usize]); 24] = [
    (3, "other", &[0]),
    (4, "incoming", &[0]),
    (4, "move", &[0, 1]),
    (4, "constant", &[0, 1]),
    (4, "unit", &[0, 1]),
    (5, "incoming", &[3]),
    (5, "outgoing", &[3]),
    (5, "move", &[1, 3, 4]),
    (5, "constant", &[1, 3]),
    (5, "unit", &[1, 3, 4, 5]),
    (5, "other", &[2]),
    (6, "incoming", &[1, 2, 4, 5, 6, 7]),
    (6, "outgoing", &[1, 2, 4, 5, 6, 7]),
    (6, "move", &[5, 6, 7]),
    (6, "constant", &[4, 5]),
    (6, "unit", &[6, 7]),
    (7, "incoming", &[0]),
    (7, "outgoing", &[0]),
    (7, "move", &[0]),
    (7, "constant", &[0]),
    (7, "unit", &[0]),
    (8, "outgoing", &[0]),
    (8, "move", &[0]),
    (8, "unit", &[0]),
];

#[test]
fn every_kind_of_place_is_reached() {
    let mut reached = BTreeSet::new();
    for input in Source::new(9).take(200_000) {
        let answer = by_twin(&input);
        if let (Input::Read { block }, 3..=8) = (&input, answer.number()) {
            reached.extend(spots(block, answer.number(), answer.byte(1).into()));
        }
    }
    for (number, sort, bytes) in SPOTS {
        for &byte in bytes {
            assert!(
                reached.contains(&(number, sort, byte)),
                "{} {} {}",
                number,
                sort,
                byte
            );
        }
    }
}

#[test]
fn the_same_seed_gives_the_same_inputs() {
    let answers = || -> Vec<_> {
        let inputs = Source::new(8).take(2_000);
        inputs.map(|input| by_twin(&input)).collect()
    };
    assert_eq!(answers(), answers());
}
