//! Blocks: their records judged one after another, and the values that they make.

use crate::Refusal;

pub(crate) const RECORD: usize = 8;
pub(crate) const MOST_RECORDS: usize = 80;
const NAMES: usize = 64;
const LAST_STEP: u8 = 64;

const INCOMING: u8 = 1;
const OPERATION: u8 = 2;
const OUTGOING: u8 = 3;

#[derive(Clone, Copy, PartialEq, Eq)]
pub(crate) enum Function {
    Add,
    Subtract,
    Multiply,
    And,
    Or,
    ExclusiveOr,
}

#[derive(Clone, Copy, PartialEq, Eq)]
pub(crate) enum Class {
    A,
    M,
    L,
}

impl Function {
    pub(crate) fn class(self) -> Class {
        match self {
            Function::Add | Function::Subtract => Class::A,
            Function::Multiply => Class::M,
            Function::And | Function::Or | Function::ExclusiveOr => Class::L,
        }
    }

    pub(crate) fn apply(self, left: u16, right: u16) -> u16 {
        match self {
            Function::Add => left.wrapping_add(right),
            Function::Subtract => left.wrapping_sub(right),
            Function::Multiply => left.wrapping_mul(right),
            Function::And => left & right,
            Function::Or => left | right,
            Function::ExclusiveOr => left ^ right,
        }
    }
}

/// What makes a value; sources are the numbers of the values that are read.
#[derive(Clone, Copy)]
pub(crate) enum Maker {
    Incoming,
    Move {
        source: usize,
    },
    Constant {
        literal: u16,
    },
    Unit {
        function: Function,
        left: usize,
        right: usize,
    },
}

/// A value with the boundaries that it occupies, `birth` to `last`.
#[derive(Clone, Copy)]
pub(crate) struct Value {
    pub(crate) name: u8,
    pub(crate) birth: u8,
    pub(crate) last: u8,
    pub(crate) maker: Maker,
}

/// A block that can be read. As kinds stand in order, a value's number is its place in `values`, and the incoming ones come first.
pub(crate) struct Block {
    pub(crate) values: Vec<Value>,
    pub(crate) incoming: usize,
    /// The value that each outgoing record gets.
    pub(crate) outgoing: Vec<usize>,
    pub(crate) last_step: u8,
}

impl Block {
    pub(crate) fn read(bytes: &[u8]) -> Result<Block, Refusal> {
        if bytes.len() % RECORD != 0 {
            return Err(Refusal::whole(1));
        }
        if bytes.len() / RECORD > MOST_RECORDS {
            return Err(Refusal::whole(2));
        }
        let mut learned = Learned::nothing();
        for (place, record) in bytes.chunks_exact(RECORD).enumerate() {
            learned
                .take(record)
                .map_err(|number| Refusal::at(number, place))?;
        }
        Ok(learned.block)
    }
}

/// The two youngest values of a name. Births of one name differ, so that one of the two is the latest below any step still to come.
#[derive(Clone, Copy)]
struct Held {
    newest: Option<usize>,
    before: Option<usize>,
}

struct Learned {
    kind: u8,
    block: Block,
    names: [Held; NAMES],
    sent: [bool; NAMES],
}

impl Learned {
    fn nothing() -> Learned {
        Learned {
            kind: 0,
            block: Block {
                values: Vec::with_capacity(MOST_RECORDS),
                incoming: 0,
                outgoing: Vec::new(),
                last_step: 0,
            },
            names: [Held {
                newest: None,
                before: None,
            }; NAMES],
            sent: [false; NAMES],
        }
    }

    /// Judges one record, lowest number first, and learns from it.
    fn take(&mut self, record: &[u8]) -> Result<(), u8> {
        let (kind, step, name) = (record[0], record[1], record[3]);
        if !(INCOMING..=OUTGOING).contains(&kind) {
            return Err(3);
        }
        if kind < self.kind || (kind == OPERATION && step < self.block.last_step) {
            return Err(4);
        }
        let used = used_bytes(kind, record[2]).ok_or(5)?;
        if !in_range(record, used) {
            return Err(5);
        }
        if (0..RECORD).any(|byte| !used[byte] && record[byte] != 0) {
            return Err(6);
        }
        self.kind = kind;
        match kind {
            INCOMING => self.incoming(name),
            OPERATION => self.operation(record),
            _ => self.outgoing(name),
        }
    }

    fn incoming(&mut self, name: u8) -> Result<(), u8> {
        if self.names[usize::from(name)].newest.is_some() {
            return Err(7);
        }
        self.block.incoming += 1;
        self.make(name, 0, Maker::Incoming);
        Ok(())
    }

    fn operation(&mut self, record: &[u8]) -> Result<(), u8> {
        let (step, name) = (record[1], record[3]);
        if self.born_in(name, step) {
            return Err(7);
        }
        let maker = self.maker(record).ok_or(8)?;
        match maker {
            Maker::Move { source } => self.occupy(source, step - 1),
            Maker::Unit { left, right, .. } => {
                self.occupy(left, step - 1);
                self.occupy(right, step - 1);
            }
            Maker::Incoming | Maker::Constant { .. } => {}
        }
        self.block.last_step = step;
        self.make(name, step, maker);
        Ok(())
    }

    fn outgoing(&mut self, name: u8) -> Result<(), u8> {
        let name = usize::from(name);
        if self.sent[name] {
            return Err(7);
        }
        let value = self.names[name].newest.ok_or(8)?;
        self.sent[name] = true;
        self.occupy(value, self.block.last_step);
        self.block.outgoing.push(value);
        Ok(())
    }

    fn born_in(&self, name: u8, step: u8) -> bool {
        self.names[usize::from(name)]
            .newest
            .map_or(false, |value| self.block.values[value].birth == step)
    }

    /// The name's value with the latest birth below the step.
    fn read_below(&self, step: u8, name: u8) -> Option<usize> {
        let held = self.names[usize::from(name)];
        if self.born_in(name, step) {
            held.before
        } else {
            held.newest
        }
    }

    /// None where a source has no value.
    fn maker(&self, record: &[u8]) -> Option<Maker> {
        let step = record[1];
        let function = match record[2] {
            1 => {
                let source = self.read_below(step, record[4])?;
                return Some(Maker::Move { source });
            }
            2 => {
                let literal = u16::from_le_bytes([record[6], record[7]]);
                return Some(Maker::Constant { literal });
            }
            3 => Function::Add,
            4 => Function::Subtract,
            5 => Function::Multiply,
            6 => Function::And,
            7 => Function::Or,
            _ => Function::ExclusiveOr,
        };
        let left = self.read_below(step, record[4])?;
        let right = self.read_below(step, record[5])?;
        Some(Maker::Unit {
            function,
            left,
            right,
        })
    }

    fn make(&mut self, name: u8, birth: u8, maker: Maker) {
        let held = &mut self.names[usize::from(name)];
        held.before = held.newest;
        held.newest = Some(self.block.values.len());
        self.block.values.push(Value {
            name,
            birth,
            last: birth,
            maker,
        });
    }

    fn occupy(&mut self, value: usize, boundary: u8) {
        let last = &mut self.block.values[value].last;
        *last = boundary.max(*last);
    }
}

/// Which of its eight bytes a record uses; none for an operation beyond its range.
fn used_bytes(kind: u8, operation: u8) -> Option<[bool; RECORD]> {
    const T: bool = true;
    const F: bool = false;
    match (kind, operation) {
        (INCOMING, _) | (OUTGOING, _) => Some([T, F, F, T, F, F, F, F]),
        (_, 1) => Some([T, T, T, T, T, F, F, F]),
        (_, 2) => Some([T, T, T, T, F, F, T, T]),
        (_, 3..=8) => Some([T, T, T, T, T, T, F, F]),
        _ => None,
    }
}

fn in_range(record: &[u8], used: [bool; RECORD]) -> bool {
    let step = !used[1] || (1..=LAST_STEP).contains(&record[1]);
    step && (3..6).all(|byte| !used[byte] || usize::from(record[byte]) < NAMES)
}

#[cfg(test)]
mod tests {
    use super::*;
    use crate::tests::E;

    #[test]
    fn c2_boundaries_of_e() {
        let block = Block::read(&E).unwrap();
        let occupied: Vec<_> = block.values.iter().map(|v| (v.birth, v.last)).collect();
        assert_eq!(
            occupied,
            [(0, 0), (0, 1), (1, 1), (1, 1), (2, 2), (2, 2), (3, 3)]
        );
    }
}
