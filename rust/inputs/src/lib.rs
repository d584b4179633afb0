//! Inputs for the five functions, drawn from a seed, and what the twin answers to each.

pub mod bindings;
mod blocks;
mod damage;
mod full;
mod random;
mod source;
pub mod text;

pub use full::Full;
pub use random::Random;
pub use source::Source;

/// One call. What is lent to be written is given with the contents that it has before the call.
pub enum Input {
    Read {
        block: Vec<u8>,
    },
    Check {
        block: Vec<u8>,
        binding: Vec<u8>,
    },
    Bind {
        block: Vec<u8>,
        method: u8,
        out: Vec<u8>,
    },
    RunBlock {
        block: Vec<u8>,
        incoming: Vec<u16>,
        outgoing: Vec<u16>,
    },
    RunDatapath {
        block: Vec<u8>,
        binding: Vec<u8>,
        incoming: Vec<u16>,
        outgoing: Vec<u16>,
        registers: Vec<u16>,
    },
}

pub const FUNCTIONS: [&str; 5] = ["read", "check", "bind", "run_block", "run_datapath"];

impl Input {
    /// The place of the called function in `FUNCTIONS`.
    pub fn function(&self) -> usize {
        match self {
            Input::Read { .. } => 0,
            Input::Check { .. } => 1,
            Input::Bind { .. } => 2,
            Input::RunBlock { .. } => 3,
            Input::RunDatapath { .. } => 4,
        }
    }
}

/// The fields packed lowest byte first, and what was lent as it is after the call.
#[derive(PartialEq, Eq, Debug)]
pub struct Answer {
    pub packed: u64,
    pub out: Vec<u8>,
    pub outgoing: Vec<u16>,
    pub registers: Vec<u16>,
}

impl Answer {
    /// Before a call: nothing answered, everything lent as the input has it.
    pub fn unanswered(input: &Input) -> Answer {
        let mut answer = Answer {
            packed: 0,
            out: Vec::new(),
            outgoing: Vec::new(),
            registers: Vec::new(),
        };
        match input {
            Input::Read { .. } | Input::Check { .. } => {}
            Input::Bind { out, .. } => answer.out = out.clone(),
            Input::RunBlock { outgoing, .. } => answer.outgoing = outgoing.clone(),
            Input::RunDatapath {
                outgoing,
                registers,
                ..
            } => {
                answer.outgoing = outgoing.clone();
                answer.registers = registers.clone();
            }
        }
        answer
    }

    pub fn byte(&self, place: usize) -> u8 {
        self.packed.to_le_bytes()[place]
    }

    pub fn number(&self) -> u8 {
        self.byte(0)
    }

    /// What `bind` gives in the 16 bits from bit 32.
    pub fn bytes_written(&self) -> u16 {
        u16::from_le_bytes([self.byte(4), self.byte(5)])
    }
}

pub fn by_twin(input: &Input) -> Answer {
    let mut answer = Answer::unanswered(input);
    answer.packed = match input {
        Input::Read { block } => {
            let r = twin::read(block);
            packed([r.number, r.first, r.second, r.values, r.last_step, 0])
        }
        Input::Check { block, binding } => {
            let v = twin::check(block, binding);
            packed([v.number, v.later, v.earlier, v.registers, v.units, v.buses])
        }
        Input::Bind { block, method, .. } => {
            let a = twin::bind(block, *method, &mut answer.out);
            let [low, high] = a.written.to_le_bytes();
            packed([a.number, a.first, a.second, 0, low, high])
        }
        Input::RunBlock {
            block, incoming, ..
        } => ran(twin::run_block(block, incoming, &mut answer.outgoing)),
        Input::RunDatapath {
            block,
            binding,
            incoming,
            ..
        } => ran(twin::run_datapath(
            block,
            binding,
            incoming,
            &mut answer.outgoing,
            &mut answer.registers,
        )),
    };
    answer
}

fn ran(r: twin::Ran) -> u64 {
    packed([r.number, r.first, r.second, 0, r.written, 0])
}

fn packed(bytes: [u8; 6]) -> u64 {
    let [a, b, c, d, e, f] = bytes;
    u64::from_le_bytes([a, b, c, d, e, f, 0, 0])
}

#[cfg(test)]
mod tests;
