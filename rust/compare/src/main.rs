//! `compare [COUNT [SEED]]` runs the library and the twin on the same inputs, prints how often each function gave each number, and stops at the first
//! difference with its bytes.

mod library;

use std::collections::BTreeMap;
use std::env;
use std::process::ExitCode;

use inputs::{by_twin, text, Answer, Input, Source, FUNCTIONS};

const COUNT: usize = 1_000_000;
const SEED: u64 = 20;

fn main() -> ExitCode {
    let mut arguments = env::args().skip(1);
    let count = arguments
        .next()
        .map_or(COUNT, |count| count.parse().expect("COUNT is a number"));
    let seed = arguments
        .next()
        .map_or(SEED, |seed| seed.parse().expect("SEED is a number"));
    let mut tally = Tally::default();
    for (place, input) in Source::new(seed).take(count).enumerate() {
        let twin = by_twin(&input);
        let library = library::answer(&input);
        if let Some(fault) = fault(&input, &library, &twin) {
            println!("input {} of seed {}: {}", place, seed, fault);
            report(&input, &library, &twin);
            return ExitCode::FAILURE;
        }
        tally.count(&input, &twin);
    }
    tally.print();
    println!("{} inputs of seed {}, 0 differences", count, seed);
    ExitCode::SUCCESS
}

fn fault(input: &Input, library: &library::Called, twin: &Answer) -> Option<&'static str> {
    if library.answer != *twin {
        return Some("the answers differ");
    }
    if !library.kept {
        return Some("the library wrote beside what was lent to it");
    }
    let before = Answer {
        packed: twin.packed,
        ..Answer::unanswered(input)
    };
    if twin.number() != 0 && *twin != before {
        return Some("a refusal changed what was lent");
    }
    None
}

fn report(input: &Input, library: &library::Called, twin: &Answer) {
    println!("{}", text::case("first", input));
    if let Input::Bind { out, .. } = input {
        println!("out before  {}", text::bytes(out));
    }
    if let Input::RunBlock { outgoing, .. } | Input::RunDatapath { outgoing, .. } = input {
        println!("outgoing before  {}", text::words(outgoing));
    }
    for (name, answer) in [("library", &library.answer), ("twin", twin)] {
        println!("{}: {}", name, text::bytes(&answer.packed.to_le_bytes()));
        println!("    out {}", text::bytes(&answer.out));
        println!("    outgoing {}", text::words(&answer.outgoing));
        println!("    registers {}", text::words(&answer.registers));
    }
}

#[derive(Default)]
struct Tally {
    numbers: BTreeMap<u8, [usize; 5]>,
    /// How often a block of each size could be read.
    sizes: BTreeMap<usize, usize>,
}

impl Tally {
    fn count(&mut self, input: &Input, answer: &Answer) {
        let counts = self.numbers.entry(answer.number()).or_default();
        counts[input.function()] += 1;
        if let (Input::Read { block }, 0) = (input, answer.number()) {
            *self.sizes.entry(block.len() / 8).or_default() += 1;
        }
    }

    fn print(&self) {
        print!("number");
        FUNCTIONS.iter().for_each(|name| print!(" {:>12}", name));
        println!();
        let mut totals = [0; 5];
        for (number, counts) in &self.numbers {
            print!("{:>6}", number);
            for (total, count) in totals.iter_mut().zip(counts) {
                *total += count;
                print!(" {:>12}", count);
            }
            println!();
        }
        print!("   all");
        totals.iter().for_each(|total| print!(" {:>12}", total));
        println!();
        let fewest = self.sizes.values().min().copied().unwrap_or(0);
        let sizes = self.sizes.len();
        println!(
            "blocks that can be read: {} sizes of 81, each at least {} times",
            sizes, fewest
        );
    }
}
