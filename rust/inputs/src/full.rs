//! Blocks with as many records as there may be, and many connections.

use crate::blocks::{valid, Shape};
use crate::{bindings, Random};

const CONNECTIONS: usize = 200;

/// A block of 80 records with both its bindings, and words to run it on.
pub struct Full {
    pub block: Vec<u8>,
    pub left_edge: Vec<u8>,
    pub merged: Vec<u8>,
    pub incoming: Vec<u16>,
}

impl Full {
    pub const INCOMING: usize = 8;
    pub const OUTGOING: usize = 2;

    /// Draws until there are over 200 connections whichever method binds the block.
    pub fn draw(random: &mut Random) -> Full {
        loop {
            let block = valid(random, &Full::shape());
            let full = Full {
                left_edge: bindings::by_method(&block, 0),
                merged: bindings::by_method(&block, 1),
                incoming: random.words(Full::INCOMING),
                block,
            };
            let many = full.connections().iter().all(|&count| count > CONNECTIONS);
            if full.block.len() == 640 && many {
                return full;
            }
        }
    }

    /// Few steps and many names, so that few connections are shared.
    fn shape() -> Shape {
        Shape {
            incoming: Full::INCOMING,
            operations: 80 - Full::INCOMING - Full::OUTGOING,
            outgoing: Full::OUTGOING,
            names: 64,
            stay: 92,
            gap: 2,
            kinds: vec![3, 4, 5, 6, 7, 8],
        }
    }

    /// By left edge, and merged.
    pub fn connections(&self) -> [usize; 2] {
        [&self.left_edge, &self.merged]
            .map(|binding| twin::connections(&self.block, binding).unwrap_or(0))
    }
}
