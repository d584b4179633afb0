//! The mix of inputs.

use std::collections::VecDeque;

use crate::blocks::{of_kind, valid, Shape, INCOMING, OUTGOING};
use crate::{bindings, damage, Input, Random};

/// An endless row of inputs, the same for the same seed.
pub struct Source {
    random: Random,
    ready: VecDeque<Input>,
    rounds: usize,
}

impl Source {
    pub fn new(seed: u64) -> Source {
        Source {
            random: Random::new(seed),
            ready: VecDeque::new(),
            rounds: 0,
        }
    }

    /// Mostly small blocks; each size to 80 records comes once in 81 of the larger rounds.
    fn size(&mut self) -> usize {
        self.rounds += 1;
        match self.rounds % 50 {
            0 => self.rounds / 50 % 81,
            1..=9 => self.random.below(32),
            _ => self.random.below(12),
        }
    }

    /// One block with everything that is asked of it.
    fn round(&mut self) {
        let size = self.size();
        let shape = Shape::of_size(&mut self.random, size);
        let block = valid(&mut self.random, &shape);
        self.add_reads(&block);
        let base = self.base(&block);
        self.add_checks(&block, &base);
        self.add_binds(&block);
        self.add_block_runs(&block);
        self.add_datapath_runs(&block, &base);
    }

    fn base(&mut self, block: &[u8]) -> Vec<u8> {
        match self.random.below(5) {
            0 => bindings::spread(block),
            1 | 2 => bindings::by_method(block, 0),
            _ => bindings::by_method(block, 1),
        }
    }

    fn damaged_block(&mut self, block: &[u8]) -> Vec<u8> {
        damage::block(&mut self.random, block)
    }

    fn block_damaged_once_in(&mut self, times: usize, block: &[u8]) -> Vec<u8> {
        if self.random.one_in(times) {
            self.damaged_block(block)
        } else {
            block.to_vec()
        }
    }

    fn add_reads(&mut self, block: &[u8]) {
        let block = block.to_vec();
        for _ in 0..8 {
            let block = self.damaged_block(&block);
            self.ready.push_back(Input::Read { block });
        }
        self.ready.push_back(Input::Read { block });
    }

    /// The base, renamed, damaged, or one of few numbers.
    fn binding(&mut self, block: &[u8], base: &[u8]) -> Vec<u8> {
        let random = &mut self.random;
        match random.below(8) {
            0 => base.to_vec(),
            1 => bindings::permuted(random, base),
            2 | 3 => {
                let renamed = bindings::permuted(random, base);
                bindings::damaged(random, &renamed)
            }
            4..=6 => bindings::damaged(random, base),
            _ => bindings::small(random, block),
        }
    }

    fn add_checks(&mut self, block: &[u8], base: &[u8]) {
        for _ in 0..9 {
            let binding = self.binding(block, base);
            let block = self.block_damaged_once_in(12, block);
            self.ready.push_back(Input::Check { block, binding });
        }
    }

    fn add_binds(&mut self, block: &[u8]) {
        let written = 8 * bindings::values(block);
        for method in [0, 1] {
            let room = match self.random.below(4) {
                0 => written,
                1 => written + self.random.between(1, 20),
                2 => 648,
                _ => self.random.below(written),
            };
            self.add_bind(block.to_vec(), method, room);
        }
        let method = match self.random.below(4) {
            0 => self.random.pick(&[2, 3, 128, 255]),
            _ => self.random.below(2) as u8,
        };
        let block = self.damaged_block(block);
        let room = self.random.below(written + 9);
        self.add_bind(block, method, room);
    }

    fn add_bind(&mut self, block: Vec<u8>, method: u8, room: usize) {
        let out = self.random.bytes(room);
        self.ready.push_back(Input::Bind { block, method, out });
    }

    /// The right count, or with one chance in twelve another.
    fn count(&mut self, right: usize) -> usize {
        match self.random.below(24) {
            0 => right + self.random.between(1, 3),
            1 => right.saturating_sub(1),
            _ => right,
        }
    }

    fn incoming_and_outgoing(&mut self, block: &[u8]) -> (Vec<u16>, Vec<u16>) {
        let incoming = self.count(of_kind(block, INCOMING));
        let outgoing = self.count(of_kind(block, OUTGOING));
        (self.random.words(incoming), self.random.words(outgoing))
    }

    fn add_block_runs(&mut self, block: &[u8]) {
        for _ in 0..5 {
            let block = self.block_damaged_once_in(6, block);
            let (incoming, outgoing) = self.incoming_and_outgoing(&block);
            self.ready.push_back(Input::RunBlock {
                block,
                incoming,
                outgoing,
            });
        }
    }

    fn add_datapath_runs(&mut self, block: &[u8], base: &[u8]) {
        for _ in 0..7 {
            let binding = if self.random.one_in(3) {
                bindings::small(&mut self.random, block)
            } else {
                self.binding(block, base)
            };
            let block = self.block_damaged_once_in(12, block);
            let (incoming, outgoing) = self.incoming_and_outgoing(&block);
            let file = self.count(80);
            let registers = self.random.words(file);
            self.ready.push_back(Input::RunDatapath {
                block,
                binding,
                incoming,
                outgoing,
                registers,
            });
        }
    }
}

impl Iterator for Source {
    type Item = Input;

    fn next(&mut self) -> Option<Input> {
        while self.ready.is_empty() {
            self.round();
        }
        self.ready.pop_front()
    }
}
