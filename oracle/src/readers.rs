//! Two readers of document 01 beside the compiled library, without the listed Rust: `readers histories [CALLS [SEED]]` and
//! `readers cuts`. `readers sample FOLDER` writes a sample of both as lines for the program `store`, with its answers.
//! `readers bytes [COUNT [SEED]]` tries inputs, good and bad, on that program.
mod beside;
mod bytes;
mod cuts;
mod histories;
mod ledger;
mod lines;
#[allow(dead_code)]
mod places;
mod planted;
mod program;
mod progress;
mod pruned;
mod seeded;
#[allow(dead_code)]
mod store;
mod trees;

use lines::Lines;
use std::fs;
use std::path::Path;
use std::process::ExitCode;

/// The files `stdin` and `stdout` in a folder; false where something differs.
fn sample(folder: &Path) -> bool {
    let mut lines = Lines::new();
    if !histories::record(&mut lines) || !cuts::record(&mut lines) {
        return false;
    }
    println!("calls: {:?}; refusals by number: {:?}", lines.calls, lines.refusals);
    println!("{} calls compared", lines.calls.values().sum::<u64>());
    fs::create_dir_all(folder).unwrap();
    fs::write(folder.join("stdin"), lines.input).unwrap();
    fs::write(folder.join("stdout"), lines.output).unwrap();
    true
}

fn main() -> ExitCode {
    let args: Vec<String> = std::env::args().skip(1).collect();
    let number = |i: usize, usual: u64| args.get(i).map_or(usual, |a| a.parse().expect("a number"));
    let good = match args.first().map(String::as_str) {
        Some("histories") => histories::run(number(1, 20_000_000), number(2, 1)),
        Some("cuts") => cuts::run(),
        Some("bytes") => bytes::run(number(1, 100_000), number(2, 1)),
        Some("sample") => sample(args.get(1).expect("a folder").as_ref()),
        _ => panic!("readers histories [CALLS [SEED]], readers cuts, readers bytes [COUNT [SEED]], or readers sample FOLDER"),
    };
    if good { ExitCode::SUCCESS } else { ExitCode::FAILURE }
}
