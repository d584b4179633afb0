//! Bindings: their form (11 to 14), and the uses that a bound block makes of buses.

use std::collections::HashMap;

use crate::block::{Block, Maker, Value, RECORD};
use crate::Refusal;

pub(crate) const REGISTERS: usize = 80;
pub(crate) const UNITS: usize = 80;
pub(crate) const BUSES: usize = 240;

/// A field that is not needed.
pub(crate) const NONE: u8 = 255;

#[derive(Clone, Copy)]
pub(crate) struct Place {
    pub(crate) register: u8,
    pub(crate) unit: u8,
    pub(crate) left: u8,
    pub(crate) right: u8,
    pub(crate) result: u8,
}

impl Place {
    pub(crate) const EMPTY: Place = Place {
        register: NONE,
        unit: NONE,
        left: NONE,
        right: NONE,
        result: NONE,
    };

    pub(crate) fn record(self, value: usize) -> [u8; RECORD] {
        [
            value as u8,
            self.register,
            self.unit,
            self.left,
            self.right,
            self.result,
            0,
            0,
        ]
    }

    fn of_record(record: &[u8]) -> Place {
        Place {
            register: record[1],
            unit: record[2],
            left: record[3],
            right: record[4],
            result: record[5],
        }
    }

    pub(crate) fn bus(self, port: Port) -> u8 {
        match port {
            Port::Left => self.left,
            Port::Right => self.right,
            Port::Result => self.result,
        }
    }

    pub(crate) fn set_bus(&mut self, port: Port, bus: u8) {
        match port {
            Port::Left => self.left = bus,
            Port::Right => self.right = bus,
            Port::Result => self.result = bus,
        }
    }
}

/// The places of a well-formed binding, or the first of 11 to 14.
pub(crate) fn places(block: &Block, binding: &[u8]) -> Result<Vec<Place>, Refusal> {
    if binding.len() % RECORD != 0 {
        return Err(Refusal::whole(11));
    }
    if binding.len() / RECORD != block.values.len() {
        return Err(Refusal::whole(12));
    }
    let records = binding.chunks_exact(RECORD);
    let pairs = records.zip(&block.values).enumerate();
    pairs
        .map(|(place, (record, value))| {
            if usize::from(record[0]) != place {
                Err(Refusal::at(13, place))
            } else if !well_formed(record, value) {
                Err(Refusal::at(14, place))
            } else {
                Ok(Place::of_record(record))
            }
        })
        .collect()
}

fn well_formed(record: &[u8], value: &Value) -> bool {
    const LIMITS: [usize; 5] = [REGISTERS, UNITS, BUSES, BUSES, BUSES];
    let needed = match value.maker {
        Maker::Incoming => [true, false, false, false, false],
        Maker::Move { .. } | Maker::Constant { .. } => [true, false, true, false, false],
        Maker::Unit { .. } => [true; 5],
    };
    let fits = |field: usize| {
        let byte = record[1 + field];
        if needed[field] {
            usize::from(byte) < LIMITS[field]
        } else {
            byte == NONE
        }
    };
    (0..5).all(fits) && record[6..] == [0, 0]
}

/// The bus field of a binding record that a use is given by.
#[derive(Clone, Copy)]
pub(crate) enum Port {
    Left,
    Right,
    Result,
}

#[derive(Clone, Copy, PartialEq, Eq, Hash)]
pub(crate) enum Connection {
    ToLeft { register: u8, unit: u8 },
    ToRight { register: u8, unit: u8 },
    FromUnit { unit: u8, register: u8 },
    Straight { from: u8, to: u8 },
    Literal { literal: u16, to: u8 },
}

#[derive(Clone, Copy)]
pub(crate) struct Use {
    pub(crate) record: usize,
    pub(crate) step: u8,
    pub(crate) port: Port,
    pub(crate) connection: Connection,
}

/// Every use of a connection, in record order and then left, right, result.
pub(crate) fn uses(block: &Block, places: &[Place]) -> Vec<Use> {
    let mut uses = Vec::with_capacity(3 * places.len());
    for (record, (value, place)) in block.values.iter().zip(places).enumerate() {
        let mut add = |port, connection| {
            uses.push(Use {
                record,
                step: value.birth,
                port,
                connection,
            })
        };
        let from = |source: usize| places[source].register;
        let (to, unit) = (place.register, place.unit);
        match value.maker {
            Maker::Incoming => {}
            Maker::Move { source } => {
                let from = from(source);
                add(Port::Left, Connection::Straight { from, to });
            }
            Maker::Constant { literal } => add(Port::Left, Connection::Literal { literal, to }),
            Maker::Unit { left, right, .. } => {
                let register = from(left);
                add(Port::Left, Connection::ToLeft { register, unit });
                let register = from(right);
                add(Port::Right, Connection::ToRight { register, unit });
                let register = to;
                add(Port::Result, Connection::FromUnit { unit, register });
            }
        }
    }
    uses
}

/// For each use the number of its connection, by first use.
pub(crate) fn connection_numbers(uses: &[Use]) -> Vec<usize> {
    let mut known = HashMap::with_capacity(uses.len());
    uses.iter()
        .map(|used| {
            let next = known.len();
            *known.entry(used.connection).or_insert(next)
        })
        .collect()
}
