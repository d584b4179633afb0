//! The library's answer, with everything lent to it in the middle of a larger buffer, so that a write beside it is seen.

use inputs::{Answer, Input};
use ngozilade::packed;

const MARGIN: usize = 8;

pub struct Called {
    pub answer: Answer,
    /// What stands beside the lent buffers is as before.
    pub kept: bool,
}

struct Lent<T> {
    buffer: Vec<T>,
    pattern: T,
}

impl<T: Copy + PartialEq> Lent<T> {
    fn new(contents: &[T], pattern: T) -> Lent<T> {
        let margin = vec![pattern; MARGIN];
        Lent {
            buffer: [&margin, contents, &margin].concat(),
            pattern,
        }
    }

    fn slice(&mut self) -> &mut [T] {
        let end = self.buffer.len() - MARGIN;
        &mut self.buffer[MARGIN..end]
    }

    /// The contents, and whether the margins are as before.
    fn back(mut self) -> (Vec<T>, bool) {
        let contents = self.slice().to_vec();
        let end = self.buffer.len() - MARGIN;
        let (front, back) = (&self.buffer[..MARGIN], &self.buffer[end..]);
        let kept = front.iter().chain(back).all(|item| *item == self.pattern);
        (contents, kept)
    }
}

pub fn answer(input: &Input) -> Called {
    let before = Answer::unanswered(input);
    let mut out = Lent::new(&before.out, 0xa5);
    let mut outgoing = Lent::new(&before.outgoing, 0xa5a5);
    let mut registers = Lent::new(&before.registers, 0x5a5a);
    let packed = match input {
        Input::Read { block } => packed::read(block),
        Input::Check { block, binding } => packed::check(block, binding),
        Input::Bind { block, method, .. } => packed::bind(block, *method, out.slice()),
        Input::RunBlock {
            block, incoming, ..
        } => packed::run_block(block, incoming, outgoing.slice()),
        Input::RunDatapath {
            block,
            binding,
            incoming,
            ..
        } => packed::run_datapath(
            block,
            binding,
            incoming,
            outgoing.slice(),
            registers.slice(),
        ),
    };
    let (out, out_kept) = out.back();
    let (outgoing, outgoing_kept) = outgoing.back();
    let (registers, registers_kept) = registers.back();
    Called {
        answer: Answer {
            packed,
            out,
            outgoing,
            registers,
        },
        kept: out_kept && outgoing_kept && registers_kept,
    }
}
