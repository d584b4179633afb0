//! The allocator: registers by left edge or clique merging, then units, then buses.

use std::cmp::Reverse;

use crate::binding::{connection_numbers, uses, Place, REGISTERS};
use crate::block::{Block, Maker, RECORD};
use crate::check::keep_rules;
use crate::cliques::Graph;
use crate::Refusal;

pub(crate) fn bind(block: &[u8], method: u8, out: &mut [u8]) -> Result<usize, Refusal> {
    let registers = match method {
        0 => left_edge,
        1 => merged_registers,
        _ => return Err(Refusal::whole(9)),
    };
    let block = Block::read(block)?;
    let places = allocate(&block, registers(&block));
    if keep_rules(&block, &places).is_err() {
        return Err(Refusal::whole(20));
    }
    let written = RECORD * places.len();
    let room = out.get_mut(..written).ok_or(Refusal::whole(10))?;
    for (value, (record, place)) in room.chunks_exact_mut(RECORD).zip(places).enumerate() {
        record.copy_from_slice(&place.record(value));
    }
    Ok(written)
}

fn allocate(block: &Block, registers: Vec<u8>) -> Vec<Place> {
    let mut places: Vec<Place> = registers
        .into_iter()
        .map(|register| Place {
            register,
            ..Place::EMPTY
        })
        .collect();
    give_units(block, &mut places);
    give_buses(block, &mut places);
    places
}

fn left_edge(block: &Block) -> Vec<u8> {
    let values = &block.values;
    let mut remaining: Vec<usize> = (0..values.len()).collect();
    remaining.sort_by_key(|&v| (values[v].birth, Reverse(values[v].last), v));
    let mut registers = vec![0; values.len()];
    for register in 0..REGISTERS {
        let mut end: Option<u8> = None;
        remaining.retain(|&value| {
            let taken = end.map_or(true, |end| values[value].birth > end);
            if taken {
                registers[value] = register as u8;
                end = Some(values[value].last);
            }
            !taken
        });
        if remaining.is_empty() {
            break;
        }
    }
    registers
}

fn merged_registers(block: &Block) -> Vec<u8> {
    let values = &block.values;
    let apart =
        |a: usize, b: usize| values[a].last < values[b].birth || values[b].last < values[a].birth;
    Graph::new(values.len(), apart).clusters()
}

fn give_units(block: &Block, places: &mut [Place]) {
    let mut nodes = Vec::with_capacity(places.len());
    for (record, value) in block.values.iter().enumerate() {
        if let Maker::Unit { function, .. } = value.maker {
            nodes.push((record, function.class(), value.birth));
        }
    }
    let share = |a: usize, b: usize| nodes[a].1 == nodes[b].1 && nodes[a].2 != nodes[b].2;
    let units = Graph::new(nodes.len(), share).clusters();
    for ((record, _, _), unit) in nodes.into_iter().zip(units) {
        places[record].unit = unit;
    }
}

fn give_buses(block: &Block, places: &mut [Place]) {
    let uses = uses(block, places);
    let numbers = connection_numbers(&uses);
    let connections = numbers.iter().max().map_or(0, |most| most + 1);
    // Bit s - 1 stands for step s.
    let mut steps = vec![0u64; connections];
    for (used, &connection) in uses.iter().zip(&numbers) {
        steps[connection] |= 1 << (used.step - 1);
    }
    let buses = Graph::new(connections, |a, b| steps[a] & steps[b] == 0).clusters();
    for (used, connection) in uses.iter().zip(numbers) {
        places[used.record].set_bus(used.port, buses[connection]);
    }
}
