//! Compares the listed Rust with the port: `harness` runs the whole comparison, `harness C...` that at these capacities,
//! `harness record FOLDER` writes a sample of the Rust's answers as a script's input and listing, and
//! `harness fuzz COUNT SEED` tries scripts, good and bad.
// The calls of a pair compare what they give.
#![allow(unused_must_use)]
mod differences;
mod exhaustive;
mod fuzz;
mod guarded;
mod lent;
mod pair;
mod places;
mod probe;
mod progress;
mod random;
mod record;
mod script;
mod seeded;
mod shape;
mod store;
mod tally;

/// The listed Rust at each capacity, written by oracle/build.
mod listed {
    include!(concat!(env!("ORACLE_LISTED"), "/all.rs"));
}

use calls::Create;
use std::process::ExitCode;
use tally::Tally;

pub fn listed_at(capacity: u64) -> Create {
    listed::ALL.iter().find(|l| l.0 == capacity).expect("a capacity that the oracle was built for").1
}

/// Sequences at the small capacities, then fills and random sequences at each one that is wanted.
fn compare(wanted: impl Fn(u64) -> bool) -> bool {
    let mut tally = Tally::default();
    differences::smallest(&mut tally);
    probe::creates(&mut tally);
    tally.say("smallest inputs of the listed differences");
    lent::run(&mut tally, 200_000);
    tally.say("what calls leave of what they are lent");
    for capacity in (2..=5).filter(|c| wanted(*c)) {
        let create = listed_at(capacity);
        let found = exhaustive::outlines(&mut tally, create, capacity, [0, 0, 32, 36, 40, 46][capacity as usize]);
        tally.say(&format!("C = {capacity}: all {found} outlines"));
        exhaustive::sequences(&mut tally, create, capacity, 60, 14);
        for nodes in 1..=9 {
            exhaustive::sequences(&mut tally, create, capacity, nodes, 9);
        }
        tally.say(&format!("C = {capacity}: all sequences"));
    }
    for (capacity, create) in listed::ALL.into_iter().filter(|l| wanted(l.0)) {
        let length = match capacity {
            4094 => 2 * capacity + 2,
            2..=10 => (capacity.pow(3) + 2 * capacity + 2).max(300),
            _ => capacity.pow(2) + 2 * capacity + 2,
        };
        random::fills(&mut tally, create, capacity, length);
        for seed in 0..if capacity == 4094 { 8 } else { 20 } {
            random::run(&mut tally, create, capacity, seed, if capacity < 6 { 2000 } else { 300 });
        }
        // A store of one node at C = 4,094 is longer than a script's memory.
        if capacity <= 64 {
            record::scripts(&mut tally, capacity, if capacity < 6 { 400 } else { 40 });
        }
        if capacity % 10 == 0 {
            tally.say(&format!("C up to {capacity}: fills, random sequences and scripts"));
        }
    }
    tally.say("fills, random sequences and scripts at every C");
    tally.print()
}

fn main() -> ExitCode {
    // Panics of the listed Rust are caught and compared; others are told.
    let tell = std::panic::take_hook();
    std::panic::set_hook(Box::new(move |p| {
        if p.location().is_none_or(|l| l.file().contains("oracle/src/")) {
            tell(p);
        }
    }));
    let args: Vec<String> = std::env::args().skip(1).collect();
    let good = match &args.iter().map(String::as_str).collect::<Vec<_>>()[..] {
        [] => compare(|_| true),
        ["record", folder] => record::write(folder.as_ref()),
        ["fuzz", count, seed] => fuzz::run(count.parse().unwrap(), seed.parse().unwrap()),
        numbers => compare(|c| numbers.contains(&c.to_string().as_str())),
    };
    if good { ExitCode::SUCCESS } else { ExitCode::FAILURE }
}
