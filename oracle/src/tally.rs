//! What was compared: calls of each kind at each capacity, differences that are listed, and those that are not.
use crate::progress::Progress;
use std::collections::BTreeMap;

#[derive(Debug, Clone, Copy, PartialEq, Eq, PartialOrd, Ord)]
pub enum Kind {
    Create,
    Append,
    Find,
    Prune,
    Walk,
    Release,
    Check,
    Shape,
    /// A record of a script.
    Script,
}

pub const KINDS: [Kind; 9] =
    [Kind::Create, Kind::Append, Kind::Find, Kind::Prune, Kind::Walk, Kind::Release, Kind::Check, Kind::Shape, Kind::Script];

/// The points of docs/DIFFERENCES.md, by their numbers there.
#[derive(Debug, Clone, Copy, PartialEq, Eq, PartialOrd, Ord)]
pub enum Difference {
    WalkStops = 1,
    LostNodes = 2,
    NoRows = 3,
    RowsAbove = 4,
    FreeOrder = 5,
    Assertion = 6,
    Added = 7,
    SeekNone = 8,
}

pub const DIFFERENCES: [(Difference, &str); 8] = [
    (Difference::WalkStops, "the Rust's walk stops where a branch of height 1 ends at NONE though others follow"),
    (Difference::LostNodes, "an append without room: the Rust loses nodes"),
    (Difference::NoRows, "an append of no rows: the Rust accepts it"),
    (Difference::RowsAbove, "rows above 2^62: the Rust accepts them, or its sum overflows"),
    (Difference::FreeOrder, "prune frees in another order"),
    (Difference::Assertion, "a refusal where the Rust panics"),
    (Difference::Added, "what the port alone has: closed stores, list lengths, create's 1, other words"),
    (Difference::SeekNone, "a seek to NONE: a debug assertion of the Rust"),
];

/// Counted for a create whose capacity is out of range, and for records before a create.
pub const OTHER: u64 = 0;

#[derive(Default)]
pub struct Tally {
    pub calls: BTreeMap<u64, BTreeMap<Kind, u64>>,
    pub met: BTreeMap<Difference, u64>,
    /// The port's refusals that were compared, by number.
    refusals: BTreeMap<u64, u64>,
    /// Calls on lent arrays of any words, by the number that they returned, and those that gave none.
    lent: BTreeMap<u64, u64>,
    none: u64,
    /// How many, and the shortest of them.
    unlisted: u64,
    shortest: Vec<String>,
    /// All calls, and those told on standard error.
    made: u64,
    progress: Progress,
}

impl Tally {
    pub fn call(&mut self, capacity: u64, kind: Kind) {
        *self.calls.entry(capacity).or_default().entry(kind).or_default() += 1;
        self.turn();
    }

    fn turn(&mut self) {
        self.made += 1;
        // The clock costs more than some calls.
        if self.made.is_multiple_of(64) {
            self.progress.step(|| format!("{} calls", self.made));
        }
    }

    /// A stage is done.
    pub fn say(&mut self, text: &str) {
        self.progress.say(&format!("{text}; {} calls", self.made));
    }

    pub fn difference(&mut self, d: Difference) {
        *self.met.entry(d).or_default() += 1;
    }

    pub fn refusal(&mut self, number: u64) {
        *self.refusals.entry(number).or_default() += 1;
    }

    pub fn lent(&mut self, number: u64, none: bool) {
        *self.lent.entry(number).or_default() += 1;
        self.none += none as u64;
        self.turn();
    }

    pub fn unlisted(&mut self, text: String) {
        self.unlisted += 1;
        self.shortest.push(text);
        self.shortest.sort_by_key(String::len);
        self.shortest.truncate(5);
    }

    /// Calls of each kind at each capacity, then the differences. True where none is unlisted.
    pub fn print(&self) -> bool {
        print!("{:>8}", "C");
        KINDS.iter().for_each(|k| print!("{:>10}", format!("{k:?}").to_lowercase()));
        println!();
        let mut sums = [0; KINDS.len()];
        for (c, counts) in &self.calls {
            print!("{:>8}", if *c == OTHER { "other".into() } else { c.to_string() });
            for (k, sum) in KINDS.iter().zip(&mut sums) {
                let n = counts.get(k).copied().unwrap_or(0);
                *sum += n;
                print!("{n:>10}");
            }
            println!();
        }
        print!("{:>8}", "all");
        sums.iter().for_each(|n| print!("{n:>10}"));
        println!("\n{} calls compared", sums.iter().sum::<u64>());
        print!("refusals by number:");
        self.refusals.iter().for_each(|(number, n)| print!(" {number}: {n}"));
        println!();
        print!("{} calls on lent arrays of any words, {} gave none; by number:", self.lent.values().sum::<u64>(), self.none);
        self.lent.iter().for_each(|(number, n)| print!(" {number}: {n}"));
        println!();
        for (d, text) in DIFFERENCES {
            println!("difference {}: met {} times ({text})", d as u8, self.met.get(&d).copied().unwrap_or(0));
        }
        self.shortest.iter().for_each(|t| println!("unlisted: {t}"));
        println!("{} unlisted differences", self.unlisted);
        self.unlisted == 0
    }
}
