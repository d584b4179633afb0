//! The two runners.

use crate::binding::{places, uses, Connection, Place, Use, BUSES, REGISTERS, UNITS};
use crate::block::{Block, Maker};
use crate::Refusal;

pub(crate) fn run_block(
    block: &[u8],
    incoming: &[u16],
    outgoing: &mut [u16],
) -> Result<usize, Refusal> {
    let block = Block::read(block)?;
    counts_fit(&block, incoming, outgoing)?;
    let mut words: Vec<u16> = Vec::with_capacity(block.values.len());
    for (number, value) in block.values.iter().enumerate() {
        words.push(match value.maker {
            Maker::Incoming => incoming[number],
            Maker::Move { source } => words[source],
            Maker::Constant { literal } => literal,
            Maker::Unit {
                function,
                left,
                right,
            } => function.apply(words[left], words[right]),
        });
    }
    for (word, &value) in outgoing.iter_mut().zip(&block.outgoing) {
        *word = words[value];
    }
    Ok(outgoing.len())
}

pub(crate) fn run_datapath(
    block: &[u8],
    binding: &[u8],
    incoming: &[u16],
    outgoing: &mut [u16],
    registers: &mut [u16],
) -> Result<usize, Refusal> {
    let block = Block::read(block)?;
    let places = places(&block, binding)?;
    counts_fit(&block, incoming, outgoing)?;
    if registers.len() != REGISTERS {
        return Err(Refusal::whole(23));
    }
    enter(&places, incoming, registers);
    let uses = uses(&block, &places);
    let mut rest = &uses[..];
    while let Some(first) = rest.first() {
        let of_step = rest.iter().take_while(|used| used.step == first.step);
        let (step, after) = rest.split_at(of_step.count());
        run_step(&block, &places, step, registers);
        rest = after;
    }
    for (word, &value) in outgoing.iter_mut().zip(&block.outgoing) {
        *word = registers[usize::from(places[value].register)];
    }
    Ok(outgoing.len())
}

fn counts_fit(block: &Block, incoming: &[u16], outgoing: &[u16]) -> Result<(), Refusal> {
    if incoming.len() != block.incoming {
        return Err(Refusal::whole(21));
    }
    if outgoing.len() != block.outgoing.len() {
        return Err(Refusal::whole(22));
    }
    Ok(())
}

/// Incoming words go into their registers; one given to several takes 0.
fn enter(places: &[Place], incoming: &[u16], registers: &mut [u16]) {
    let mut given = [0u8; REGISTERS];
    for (place, &word) in places.iter().zip(incoming) {
        let register = usize::from(place.register);
        given[register] += 1;
        registers[register] = alone(given[register], word);
    }
}

/// How many of a step's uses are on each bus, and of its operations on each unit and into each register.
struct Sharers {
    buses: [u8; BUSES],
    units: [u8; UNITS],
    registers: [u8; REGISTERS],
}

impl Sharers {
    fn of(places: &[Place], step: &[Use]) -> Sharers {
        let mut sharers = Sharers {
            buses: [0; BUSES],
            units: [0; UNITS],
            registers: [0; REGISTERS],
        };
        for used in step {
            sharers.buses[usize::from(places[used.record].bus(used.port))] += 1;
            match used.connection {
                Connection::ToLeft { .. } | Connection::ToRight { .. } => {}
                Connection::FromUnit { unit, register } => {
                    sharers.units[usize::from(unit)] += 1;
                    sharers.registers[usize::from(register)] += 1;
                }
                Connection::Straight { to, .. } | Connection::Literal { to, .. } => {
                    sharers.registers[usize::from(to)] += 1;
                }
            }
        }
        sharers
    }
}

/// One step, given by its uses, of which every operation makes at least one.
fn run_step(block: &Block, places: &[Place], step: &[Use], registers: &mut [u16]) {
    let sharers = Sharers::of(places, step);
    let mut began = [0; REGISTERS];
    began.copy_from_slice(registers);
    let carried = |bus: u8, source: u16| alone(sharers.buses[usize::from(bus)], source);
    let (first, last) = (step[0].record, step[step.len() - 1].record);
    for record in first..=last {
        let place = places[record];
        let held = |value: usize| began[usize::from(places[value].register)];
        let arrived = match block.values[record].maker {
            Maker::Incoming => unreachable!("an incoming value makes no use"),
            Maker::Move { source } => carried(place.left, held(source)),
            Maker::Constant { literal } => carried(place.left, literal),
            Maker::Unit {
                function,
                left,
                right,
            } => {
                let left = carried(place.left, held(left));
                let right = carried(place.right, held(right));
                let given = function.apply(left, right);
                let given = alone(sharers.units[usize::from(place.unit)], given);
                carried(place.result, given)
            }
        };
        let register = usize::from(place.register);
        registers[register] = alone(sharers.registers[register], arrived);
    }
}

/// What is shared gives 0.
fn alone(sharers: u8, word: u16) -> u16 {
    if sharers == 1 {
        word
    } else {
        0
    }
}
