//! The checker: the rules 16 to 19 of a well-formed binding.

use crate::binding::{connection_numbers, places, uses, Place, Use};
use crate::block::{Block, Maker};
use crate::Refusal;

pub(crate) struct Counts {
    pub(crate) registers: u8,
    pub(crate) units: u8,
    pub(crate) buses: u8,
}

pub(crate) fn check(block: &[u8], binding: &[u8]) -> Result<Counts, Refusal> {
    let block = Block::read(block)?;
    let places = places(&block, binding)?;
    keep_rules(&block, &places)
}

/// A thing to be held against others, with its record.
type Item<T> = (usize, T);

/// The rules in the order of their numbers, each over all pairs; then it is known how many different registers, units and buses occur.
pub(crate) fn keep_rules(block: &Block, places: &[Place]) -> Result<Counts, Refusal> {
    Ok(Counts {
        registers: registers(block, places)?,
        units: units(block, places)?,
        buses: buses(block, places)?,
    })
}

fn registers(block: &Block, places: &[Place]) -> Result<u8, Refusal> {
    let values = block.values.iter().zip(places).enumerate();
    let held: Vec<Item<_>> = values
        .map(|(record, (value, place))| (record, (place.register, value.birth, value.last)))
        .collect();
    refuse_first(16, &held, |later, earlier| {
        later.0 == earlier.0 && later.1 <= earlier.2 && earlier.1 <= later.2
    })?;
    Ok(different(held.iter().map(|(_, (register, ..))| *register)))
}

fn units(block: &Block, places: &[Place]) -> Result<u8, Refusal> {
    let values = block.values.iter().zip(places).enumerate();
    let asked: Vec<Item<_>> = values
        .filter_map(|(record, (value, place))| match value.maker {
            Maker::Unit { function, .. } => {
                Some((record, (place.unit, function.class(), value.birth)))
            }
            _ => None,
        })
        .collect();
    refuse_first(17, &asked, |later, earlier| {
        later.0 == earlier.0 && (later.1 != earlier.1 || later.2 == earlier.2)
    })?;
    Ok(different(asked.iter().map(|(_, (unit, ..))| *unit)))
}

fn buses(block: &Block, places: &[Place]) -> Result<u8, Refusal> {
    let uses = uses(block, places);
    let bus = |used: &Use| places[used.record].bus(used.port);
    let carried: Vec<Item<_>> = uses
        .iter()
        .map(|used| (used.record, (used.step, bus(used))))
        .collect();
    refuse_first(18, &carried, |later, earlier| later == earlier)?;

    let carriers: Vec<Item<_>> = uses
        .iter()
        .zip(connection_numbers(&uses))
        .map(|(used, connection)| (used.record, (connection, bus(used))))
        .collect();
    refuse_first(19, &carriers, |later, earlier| {
        later.0 == earlier.0 && later.1 != earlier.1
    })?;
    Ok(different(uses.iter().map(bus)))
}

/// Of the broken pairs, the one with the smallest later record, then the smallest earlier one. Items stand in record order; a record may have several.
fn refuse_first<T>(
    number: u8,
    items: &[Item<T>],
    broken: impl Fn(&T, &T) -> bool,
) -> Result<(), Refusal> {
    let mut found: Option<(usize, usize)> = None;
    for (place, (later, item)) in items.iter().enumerate() {
        if found.map_or(false, |(record, _)| record < *later) {
            break;
        }
        let first = items[..place].iter().find(|(_, other)| broken(item, other));
        if let Some((earlier, _)) = first {
            let pair = (*later, *earlier);
            found = Some(found.map_or(pair, |before| before.min(pair)));
        }
    }
    match found {
        Some((later, earlier)) => Err(Refusal::pair(number, later, earlier)),
        None => Ok(()),
    }
}

fn different(fields: impl Iterator<Item = u8>) -> u8 {
    let mut seen = [false; 256];
    fields.for_each(|field| seen[usize::from(field)] = true);
    seen.iter().filter(|seen| **seen).count() as u8
}
