//! Binds document 01's block E, checks the binding, runs both runners, and shows a refusal.

use ngozilade::{bind, check, read, run_block, run_datapath, Refusal, LEFT_EDGE, REGISTERS};

const E: [u8; 64] = [
    1, 0, 0, 1, 0, 0, 0, 0, //
    1, 0, 0, 2, 0, 0, 0, 0, //
    2, 1, 3, 3, 1, 2, 0, 0, //
    2, 1, 1, 4, 1, 0, 0, 0, //
    2, 2, 4, 1, 3, 2, 0, 0, //
    2, 2, 5, 5, 3, 4, 0, 0, //
    2, 3, 3, 6, 1, 5, 0, 0, //
    3, 0, 0, 6, 0, 0, 0, 0,
];

fn main() -> Result<(), Refusal> {
    let reading = read(&E)?;
    println!("{} values, last step {}", reading.values, reading.last_step);

    let mut out = [0; 640];
    let written = bind(&E, LEFT_EDGE, &mut out)?;
    let binding = &mut out[..written];
    let counts = check(&E, binding)?;
    println!(
        "{} registers, {} units, {} buses",
        counts.registers, counts.units, counts.buses
    );

    let mut outgoing = [0];
    run_block(&E, &[5, 7], &mut outgoing)?;
    println!("block: {}", outgoing[0]);

    let mut registers = [0; REGISTERS];
    run_datapath(&E, binding, &[5, 7], &mut outgoing, &mut registers)?;
    println!("datapath: {}", outgoing[0]);

    binding[8 * 3 + 1] = 1;
    if let Err(refusal) = check(&E, binding) {
        println!("refused {}", refusal);
    }
    Ok(())
}
