//! All sequences of appends and prunes up to a length, and all outlines of trees that they reach with few entries.
use crate::pair::Pair;
use crate::probe;
use crate::shape;
use crate::tally::Tally;
use calls::Create;
use std::collections::{HashSet, VecDeque};

/// Ranges of different lengths, page ids that do not rise and repeat.
fn append(tally: &mut Tally, pair: &mut Pair, turn: u64) {
    pair.append(tally, [10, 1, 7][turn as usize % 3], 1000 - turn * turn % 17);
}

/// Every sequence of this many calls more, an append or a prune of 1 to all entries.
fn sequences_from(tally: &mut Tally, pair: &Pair, length: u64, turn: u64) {
    for count in 0..=pair.entries.len() {
        let mut copy = pair.copy();
        match count {
            0 => append(tally, &mut copy, turn),
            _ => copy.prune_first(tally, count),
        }
        copy.compare_shape(tally);
        copy.check(tally);
        copy.walk(tally, copy.start);
        copy.find(tally, copy.end.saturating_sub(1));
        if length > 1 {
            sequences_from(tally, &copy, length - 1, turn + 1);
        }
    }
}

pub fn sequences(tally: &mut Tally, create: Create, capacity: u64, nodes: u64, length: u64) {
    let pair = Pair::new(tally, create, capacity, nodes, 5);
    sequences_from(tally, &pair, length, 0);
}

/// Every outline that appends and prunes reach with at most so many entries: what the calls do depends on it and not on how it
/// was reached. How many there are.
pub fn outlines(tally: &mut Tally, create: Create, capacity: u64, entries: usize) -> usize {
    let mut seen = HashSet::new();
    let mut waiting = VecDeque::from([Pair::new(tally, create, capacity, 200, 3)]);
    while let Some(mut pair) = waiting.pop_front() {
        if !seen.insert(shape::outline(&pair.rust.shape())) {
            continue;
        }
        probe::all(tally, &mut pair);
        for count in 0..=pair.entries.len() {
            let mut copy = pair.copy();
            match count {
                0 => append(tally, &mut copy, pair.end),
                _ => copy.prune_first(tally, count),
            }
            copy.compare_shape(tally);
            if copy.entries.len() <= entries && !seen.contains(&shape::outline(&copy.rust.shape())) {
                waiting.push_back(copy);
            }
        }
    }
    seen.len()
}
