//! Lengths around the fill of nodes, and seeded random sequences.
use crate::pair::{LIMIT, Pair};
use crate::probe;
pub use crate::seeded::Random;
use crate::tally::Tally;
use calls::Create;

/// At most one away from a multiple of a power of C that lies among the first few of these.
fn around_fill(capacity: u64, length: u64) -> bool {
    let mut power = capacity;
    let mut near = length <= 2;
    while power <= length + 1 {
        let rest = length % power;
        near |= (rest <= 1 || rest == power - 1) && length <= 2 * power + 1;
        power *= capacity;
    }
    near
}

/// Appends up to a length; at every length around a node's fill, all calls at the entries around a node's fill.
pub fn fills(tally: &mut Tally, create: Create, capacity: u64, length: u64) {
    let nodes = (3 * length / capacity + 40).min(65_535);
    let mut pair = Pair::new(tally, create, capacity, nodes, 0);
    for n in 1..=length {
        pair.append(tally, 1 + n % 5, n * 3);
        if around_fill(capacity, n) {
            pair.compare_shape(tally);
            let mut places: Vec<usize> = (1..=n)
                .filter(|k| around_fill(capacity, *k) || around_fill(capacity, n - k))
                .map(|k| k as usize - 1)
                .collect();
            if places.len() > 24 {
                let step = places.len() / 12;
                places = places
                    .iter()
                    .enumerate()
                    .filter(|(i, _)| i % step < 2 || i + 6 > places.len())
                    .map(|(_, p)| *p)
                    .collect();
            }
            probe::at(tally, &mut pair, &places);
        }
    }
}

/// How many entries a random prune names: a few, around a node's fill, all but a few, all, or any number.
pub fn named(r: &mut Random, capacity: u64, entries: u64) -> u64 {
    let near = match r.below(6) {
        0 => 1 + r.below(3),
        1 => capacity * (1 + r.below(4)) + r.below(3) - 1,
        2 => capacity * capacity * (1 + r.below(2)) + r.below(3) - 1,
        3 => entries.saturating_sub(r.below(3)),
        4 => entries,
        _ => 1 + r.below(entries),
    };
    near.clamp(1, entries)
}

/// Arguments near those of a prune that is accepted: start, end, ids.
pub fn odd_prune(pair: &Pair, r: &mut Random) -> (u64, u64, Vec<u64>) {
    let count = r.below(pair.entries.len() as u64 + 1);
    let (end, mut ids) = pair.prefix(count as usize);
    let (mut start, mut end) = (pair.start, end);
    match r.below(5) {
        0 => end = end.wrapping_add(r.below(5)).wrapping_sub(2),
        1 => start = start.wrapping_add(r.below(3)).wrapping_sub(1),
        2 => ids.push(r.below(9)),
        3 => ids.truncate(r.below(count + 1) as usize),
        _ if ids.is_empty() => {}
        _ => {
            let place = r.below(count) as usize;
            ids[place] = ids[place].wrapping_add(r.below(2));
        }
    }
    (start, end, ids)
}

/// A row at or beside an entry, in or past the range, or any.
pub fn row(pair: &Pair, r: &mut Random) -> u64 {
    let entries = pair.entries.len() as u64;
    match r.below(3) {
        0 if entries > 0 => pair.entries[r.below(entries) as usize].0.wrapping_add(r.below(3)).wrapping_sub(1),
        1 => pair.start.wrapping_add(r.below(pair.end - pair.start + 10)),
        _ => r.word() >> r.below(64),
    }
}

fn step(tally: &mut Tally, pair: &mut Pair, r: &mut Random) {
    let (capacity, entries) = (pair.capacity, pair.entries.len() as u64);
    let row = row(pair, r);
    match r.below(40) {
        0..4 if entries > 0 => pair.prune_first(tally, named(r, capacity, entries) as usize),
        4..7 => {
            let (start, end, ids) = odd_prune(pair, r);
            pair.prune(tally, start, end, &ids);
        }
        7..16 => {
            pair.find(tally, row);
        }
        16..18 => {
            pair.walk(tally, row);
        }
        18 => {
            pair.copy().release(tally, if r.below(2) == 0 { 0 } else { row });
        }
        19 => {
            pair.append(tally, r.word() >> r.below(64), r.word());
        }
        _ => {
            let burst = match r.below(12) {
                0 => (capacity * capacity / 2).min(6000),
                1..4 => capacity,
                _ => 1 + r.below(4),
            };
            // A refused append is refused again until something is pruned.
            (0..burst).all(|_| pair.append(tally, 1 + r.below(100), r.word() >> r.below(60)).is_ok());
        }
    }
}

/// A first row: 0, a small one, one near 2^62, or any.
pub fn start(r: &mut Random) -> u64 {
    match r.below(4) {
        0 => 0,
        1 => r.below(1000),
        2 => LIMIT - r.below(100_000),
        _ => r.below(LIMIT),
    }
}

/// One seeded run of so many steps, in a pool that is small or large.
pub fn run(tally: &mut Tally, create: Create, capacity: u64, seed: u64, steps: u64) {
    let mut r = Random::new(seed * 65_537 + capacity);
    let nodes = match r.below(3) {
        0 => 1 + r.below(12),
        1 => 12 + r.below(60),
        _ => 20_000 / capacity + 60,
    };
    let start = start(&mut r);
    let mut pair = Pair::new(tally, create, capacity, nodes, start);
    for _ in 0..steps {
        step(tally, &mut pair, &mut r);
        pair.compare_shape(tally);
        pair.check(tally);
        if r.below(40) == 0 && !pair.entries.is_empty() {
            let places: Vec<usize> = (0..4).map(|_| r.below(pair.entries.len() as u64) as usize).collect();
            probe::at(tally, &mut pair, &places);
        }
    }
    pair.release(tally, 0);
}
