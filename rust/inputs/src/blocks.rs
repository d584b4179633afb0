//! Blocks that can be read.

use crate::Random;

pub const INCOMING: u8 = 1;
pub const OPERATION: u8 = 2;
pub const OUTGOING: u8 = 3;

/// How many records of a kind there are; an odd end is none.
pub fn of_kind(block: &[u8], kind: u8) -> usize {
    let records = block.chunks_exact(8);
    records.filter(|record| record[0] == kind).count()
}

/// What a block is drawn with.
pub struct Shape {
    pub incoming: usize,
    pub operations: usize,
    pub outgoing: usize,
    pub names: usize,
    /// With how many chances in a hundred an operation stands in the step of the one before.
    pub stay: usize,
    /// The most steps that are left out at once.
    pub gap: usize,
    /// The operations that occur, some more than once.
    pub kinds: Vec<u8>,
}

impl Shape {
    pub fn of_size(random: &mut Random, records: usize) -> Shape {
        let names = match random.below(3) {
            0 => random.between(1, 4),
            1 => random.between(2, 16),
            _ => random.between(16, 64),
        };
        let incoming = random.below(names.min(records) + 1);
        let outgoing = random.below(names.min(records - incoming) + 1);
        let operations = records - incoming - outgoing;
        let room = 64 / operations.max(1);
        Shape {
            incoming,
            operations,
            outgoing,
            names,
            stay: random.pick(&[0, 15, 30, 50, 70, 90, 100]),
            gap: random.below(room + 2),
            kinds: kinds(random),
        }
    }
}

fn kinds(random: &mut Random) -> Vec<u8> {
    match random.below(4) {
        0 => vec![random.between(1, 8) as u8, random.between(3, 8) as u8],
        1 => vec![3, 4, 5, 6, 7, 8],
        2 => vec![1, 2, 3, 5, 6],
        _ => vec![1, 2, 3, 4, 5, 6, 7, 8],
    }
}

/// A block under way: for each name the birth of its oldest and of its youngest value.
struct Draft {
    bytes: Vec<u8>,
    oldest: [Option<u8>; 64],
    youngest: [Option<u8>; 64],
}

impl Draft {
    fn make(&mut self, name: u8, birth: u8) {
        let name = usize::from(name);
        self.oldest[name] = self.oldest[name].or(Some(birth));
        self.youngest[name] = Some(birth);
    }

    fn readable(&self, step: u8) -> Vec<u8> {
        let old = |name: &u8| self.oldest[usize::from(*name)].map_or(false, |b| b < step);
        (0..64).filter(old).collect()
    }
}

/// A block of the shape; of fewer records where its names don't suffice.
pub fn valid(random: &mut Random, shape: &Shape) -> Vec<u8> {
    let names = random.shuffled(64)[..shape.names].to_vec();
    let mut draft = Draft {
        bytes: Vec::with_capacity(640),
        oldest: [None; 64],
        youngest: [None; 64],
    };
    for &name in &names[..shape.incoming.min(shape.names)] {
        draft.bytes.extend([INCOMING, 0, 0, name, 0, 0, 0, 0]);
        draft.make(name, 0);
    }
    operations(random, shape, &names, &mut draft);
    let mut sent = draft.readable(65);
    for _ in 0..shape.outgoing.min(sent.len()) {
        let name = sent.swap_remove(random.below(sent.len()));
        draft.bytes.extend([OUTGOING, 0, 0, name, 0, 0, 0, 0]);
    }
    draft.bytes
}

fn operations(random: &mut Random, shape: &Shape, names: &[u8], draft: &mut Draft) {
    let mut step = 1 + random.below(shape.gap + 1);
    for _ in 0..shape.operations {
        let free = |draft: &Draft, step: usize| -> Vec<u8> {
            let open = |name: &&u8| draft.youngest[usize::from(**name)] != Some(step as u8);
            names.iter().filter(open).copied().collect()
        };
        let full = free(draft, step).is_empty();
        if full || random.below(100) >= shape.stay {
            step = (step + 1 + random.below(shape.gap + 1)).min(64);
        }
        let open = free(draft, step);
        if open.is_empty() {
            return;
        }
        let name = random.pick(&open);
        let record = operation(random, shape, draft, step as u8, name);
        draft.bytes.extend(record);
        draft.make(name, step as u8);
    }
}

fn operation(random: &mut Random, shape: &Shape, draft: &Draft, step: u8, name: u8) -> [u8; 8] {
    let readable = draft.readable(step);
    let kind = random.pick(&shape.kinds);
    if readable.is_empty() || kind == 2 {
        let literal = if random.one_in(2) {
            random.below(3) as u16
        } else {
            random.word()
        };
        let [low, high] = literal.to_le_bytes();
        return [OPERATION, step, 2, name, 0, 0, low, high];
    }
    let left = random.pick(&readable);
    let right = if kind == 1 { 0 } else { random.pick(&readable) };
    [OPERATION, step, kind, name, left, right, 0, 0]
}
