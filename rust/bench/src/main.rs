//! Times the library against the twin on ten full blocks of over 200 connections, and prints the ratios.
//!
//! Both run in this process, in turns, through all blocks; of several turns the shortest counts. The same buffers serve every call and were touched
//! before the first, so that all is in the caches, and no call is refused.

use std::time::Instant;

use inputs::{Full, Random};
use ngozilade::packed;

const SEED: u64 = 5;
const BLOCKS: usize = 10;
const TURNS: usize = 7;
/// How long a turn lasts at least, in seconds.
const TURN: f64 = 0.1;

/// What the calls write to.
struct Buffers {
    out: Vec<u8>,
    outgoing: Vec<u16>,
    registers: Vec<u16>,
}

/// Answers with some number that hangs on the call, so that the call is made.
type Call = fn(&Full, &mut Buffers) -> u64;

const ROWS: [(&str, Call, Call); 7] = [
    (
        "read",
        |c, _| packed::read(&c.block),
        |c, _| twin::read(&c.block).values.into(),
    ),
    (
        "check, left edge",
        |c, _| packed::check(&c.block, &c.left_edge),
        |c, _| twin::check(&c.block, &c.left_edge).buses.into(),
    ),
    (
        "check, merged",
        |c, _| packed::check(&c.block, &c.merged),
        |c, _| twin::check(&c.block, &c.merged).buses.into(),
    ),
    (
        "bind, left edge",
        |c, b| packed::bind(&c.block, 0, &mut b.out),
        |c, b| twin::bind(&c.block, 0, &mut b.out).written.into(),
    ),
    (
        "bind, merged",
        |c, b| packed::bind(&c.block, 1, &mut b.out),
        |c, b| twin::bind(&c.block, 1, &mut b.out).written.into(),
    ),
    (
        "run_block",
        |c, b| packed::run_block(&c.block, &c.incoming, &mut b.outgoing),
        |c, b| {
            let ran = twin::run_block(&c.block, &c.incoming, &mut b.outgoing);
            ran.written.into()
        },
    ),
    ("run_datapath", library_datapath, twin_datapath),
];

fn library_datapath(c: &Full, b: &mut Buffers) -> u64 {
    packed::run_datapath(
        &c.block,
        &c.left_edge,
        &c.incoming,
        &mut b.outgoing,
        &mut b.registers,
    )
}

fn twin_datapath(c: &Full, b: &mut Buffers) -> u64 {
    let ran = twin::run_datapath(
        &c.block,
        &c.left_edge,
        &c.incoming,
        &mut b.outgoing,
        &mut b.registers,
    );
    ran.written.into()
}

fn main() {
    let cases = cases();
    let mut buffers = Buffers {
        out: vec![1; 640],
        outgoing: vec![1; Full::OUTGOING],
        registers: vec![1; 80],
    };
    println!("Microseconds a call, and the library's time over the twin's. Buffers are warm: the same ones serve every call.");
    println!("| Function | Library | Twin | Ratio |");
    println!("|---|---|---|---|");
    for (name, library, twin) in ROWS {
        let done = |case| library(case, &mut buffers) & 0xff == 0;
        assert!(cases.iter().all(done), "no call is refused");
        let repeats = repeats(library, &cases, &mut buffers).max(1);
        let mut least = [f64::INFINITY; 2];
        for _ in 0..TURNS {
            for (least, call) in least.iter_mut().zip([library, twin]) {
                *least = least.min(turn(call, &cases, &mut buffers, repeats));
            }
        }
        let [library, twin] = least.map(|time| 1e6 * time / (repeats * cases.len()) as f64);
        let ratio = library / twin;
        println!("| {} | {:.2} | {:.2} | {:.2} |", name, library, twin, ratio);
    }
}

fn cases() -> Vec<Full> {
    let mut random = Random::new(SEED);
    let cases: Vec<Full> = (0..BLOCKS).map(|_| Full::draw(&mut random)).collect();
    let counts: Vec<usize> = cases.iter().flat_map(Full::connections).collect();
    println!(
        "{} blocks of 80 records with {} to {} connections.",
        BLOCKS,
        counts.iter().min().unwrap_or(&0),
        counts.iter().max().unwrap_or(&0)
    );
    cases
}

fn repeats(call: Call, cases: &[Full], buffers: &mut Buffers) -> usize {
    turn(call, cases, buffers, 1);
    (TURN / turn(call, cases, buffers, 1)) as usize
}

/// Seconds for so many repeats of the call on every block.
fn turn(call: Call, cases: &[Full], buffers: &mut Buffers, repeats: usize) -> f64 {
    let start = Instant::now();
    let mut sum = 0u64;
    for _ in 0..repeats {
        for case in cases {
            sum = sum.wrapping_add(call(case, buffers));
        }
    }
    let time = start.elapsed().as_secs_f64();
    assert_ne!(sum, 0, "every call counts something");
    time
}
