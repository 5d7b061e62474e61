//! Seeded histories of calls, each of which is held to a ledger. A history begins with a create or with a planted store; the
//! arguments are made from the ledger, so that calls are accepted, or refused at a limit.
use crate::beside::{Beside, Call, Counts, Step};
use crate::ledger::{LIMIT, Ledger, NONE};
use crate::lines::{FILL, Lines};
use crate::places;
use crate::planted;
use crate::progress::Progress;
use crate::seeded::Random;
use std::collections::BTreeMap;

const CAPACITIES: [u64; 6] = [2, 3, 4, 5, 16, 64];

/// The words of a memory before the first call; none of them makes a header.
fn memory(seed: u64, length: usize) -> Vec<u64> {
    let mut r = Random::new(seed);
    (0..length).map(|_| r.word() | 1 << 40).collect()
}

/// The most nodes that this memory has room for.
fn most(length: usize, capacity: u64) -> u64 {
    (length.saturating_sub(places::STORE_HEADER) / places::node_size(capacity as usize)).min(65_535) as u64
}

fn create(r: &mut Random, length: usize, usual: u64) -> Call {
    let capacity = if r.below(4) == 0 { CAPACITIES[r.below(6) as usize] } else { usual };
    let room = most(length, capacity);
    let pool = if r.below(3) == 0 { 1 + r.below(room.max(1)) } else { room.max(1) };
    let start = match r.below(40) {
        0 => LIMIT,
        1 => LIMIT + 1,
        2 => NONE - r.below(2),
        3..6 => LIMIT - r.below(400),
        6..10 => 0,
        _ => r.below(1000),
    };
    let length_of = |c, p| places::store_length(c, p) as usize;
    let exact = length_of(capacity, pool);
    let (c, p, lent) = match r.below(20) {
        0 => ([4095, 4096, NONE][r.below(3) as usize], pool, exact),
        1 => (capacity, [65_536, NONE][r.below(2) as usize], exact),
        5 => (0, pool, length_of(0, pool)),
        6 => (1, pool, length_of(1, pool)),
        7 => (capacity, 0, length_of(capacity, 0)),
        2 => (capacity, pool, exact - 1),
        3 => (capacity, pool, exact + 1),
        4 => (capacity, pool, r.below(length as u64 + 1) as usize),
        _ => (capacity, pool, exact),
    };
    Call::Create(c, p, start, lent.min(length))
}

/// Mostly up to 20 rows; none, as many as there are, one more, or any number.
fn append(r: &mut Random, ledger: &Ledger) -> Call {
    let room = LIMIT.saturating_sub(ledger.end);
    let count = match r.below(1000) {
        0 => room,
        1..6 => 0,
        6..11 => room + 1,
        11..14 => NONE - ledger.end,
        14..17 => (NONE - ledger.end).saturating_add(1),
        17..22 => r.word() >> r.below(64),
        _ => 1 + r.below(20),
    };
    Call::Append(count, r.word() >> [0, 62][r.below(2) as usize])
}

/// A row at a boundary or beside it, or any.
fn row(r: &mut Random, ledger: &Ledger) -> u64 {
    let entries = ledger.entries.len() as u64;
    let edge = match r.below(12) {
        0 => ledger.start,
        1 => ledger.end,
        2 => LIMIT,
        3 => NONE,
        4 => return r.word() >> r.below(64),
        _ if entries == 0 => ledger.end,
        _ => ledger.entries[r.below(entries) as usize].row,
    };
    edge.wrapping_add(r.below(3)).wrapping_sub(1)
}

/// The right arguments for a prefix; or wrong ones, so that each of 7 to 11 comes, alone or beside another.
fn prune(r: &mut Random, ledger: &Ledger) -> Call {
    let entries = ledger.entries.len() as u64;
    let capacity = ledger.capacity as u64;
    let count = match r.below(8) {
        0 => entries,
        1 => entries.saturating_sub(1),
        2 => (capacity + r.below(3)).saturating_sub(1),
        3 => r.below(entries + 1),
        _ => 1 + r.below(7),
    };
    let count = count.min(entries) as usize;
    let mut ids: Vec<u64> = ledger.entries[..count].iter().map(|e| e.page).collect();
    let mut start = ledger.start;
    let mut end = count.checked_sub(1).map_or(start, |i| ledger.end_of(i));
    for _ in 0..[0, 0, 0, 1, 1, 2][r.below(6) as usize] {
        match r.below(9) {
            0 => ids.clear(),
            1 => end = [start, start.wrapping_sub(1), 0][r.below(3) as usize],
            2 => start = start.wrapping_add([1, NONE, r.below(100)][r.below(3) as usize]),
            3 => end = end.wrapping_add(1),
            4 => end = end.wrapping_sub(1),
            5 => end = row(r, ledger),
            6 => {
                ids.extend(ledger.entries[count.min(ids.len())..].iter().map(|e| e.page));
                ids.push(r.below(4));
                end = ledger.end.wrapping_add(1);
            }
            7 if !ids.is_empty() => {
                let place = r.below(ids.len() as u64) as usize;
                ids[place] ^= 1 + r.below(3);
            }
            _ => ids.push(ledger.entries.get(ids.len()).map_or(r.word(), |e| e.page)),
        }
    }
    Call::Prune(start, end, ids)
}

/// Lists of every length around the one wanted; pivots at and beside rows. Few are accepted.
fn release(r: &mut Random, ledger: &Ledger) -> Call {
    let entries = ledger.entries.len();
    let words = match r.below(8) {
        0 => entries,
        1 => entries + 1 + r.below(3) as usize,
        2 => r.below(entries as u64 + 1) as usize,
        3 => 0,
        _ => entries.saturating_sub(1),
    };
    let pivot = match r.below(4) {
        0 => 0,
        1 => ledger.start,
        2 => row(r, ledger),
        _ => ledger.start.saturating_add(1),
    };
    Call::Release(pivot, words)
}

/// Any call; so many of 128 are prunes.
fn call(r: &mut Random, ledger: &Ledger, usual: u64, cuts: u64) -> Call {
    let length = ledger.words.len();
    let records = 2 * ledger.capacity as u64;
    match r.below(128) {
        0..32 if !ledger.open => create(r, length, usual),
        k if k < cuts => prune(r, ledger),
        0..90 => append(r, ledger),
        90..100 => Call::Find(row(r, ledger)),
        100..103 => Call::Seek(row(r, ledger)),
        103..113 => Call::Next((records + [0, 0, 0, 1, 3].get(r.below(8) as usize).unwrap_or(&0)) as usize),
        113 => Call::Next(records.saturating_sub(1 + r.below(3)) as usize),
        114..117 => Call::Walk(row(r, ledger)),
        117..120 => release(r, ledger),
        120 => Call::ReleaseEmpty,
        121..124 => Call::Check,
        124 => create(r, length, usual),
        _ => Call::Sweep,
    }
}

/// The length of a memory for a history at one capacity: room for few nodes, or for some more.
fn length(r: &mut Random, capacity: u64) -> usize {
    let nodes = match r.below(8) {
        0 => 1 + r.below(3),
        1..4 => 1 + r.below(12),
        4..6 => 8 + r.below(24),
        6 if capacity == 2 => 560 + r.below(60),
        6 if r.below(8) == 0 => 70 + r.below(30),
        _ => 30 + r.below(30),
    };
    places::store_length(capacity, nodes) as usize + r.below(20) as usize
}

/// The first step that differs, and how.
fn fault(words: &[u64], steps: &[Step]) -> Option<(usize, String)> {
    let mut beside = Beside::new(words);
    steps.iter().enumerate().find_map(|(i, s)| beside.make(s).err().map(|text| (i, text)))
}

/// Drops steps while the rest still differs.
fn smallest(words: &[u64], mut steps: Vec<Step>) -> Vec<Step> {
    let mut piece = steps.len();
    while piece > 0 {
        let mut from = 0;
        while from < steps.len() {
            let mut fewer = steps.clone();
            fewer.drain(from..(from + piece).min(steps.len()));
            match fault(words, &fewer) {
                Some((last, _)) => {
                    fewer.truncate(last + 1);
                    steps = fewer;
                }
                None => from += piece,
            }
        }
        piece /= 2;
    }
    steps
}

fn tell(seed: u64, words: &[u64], steps: Vec<Step>) {
    let steps = smallest(words, steps);
    println!("history of seed {seed}, in {} words; the smallest that differs:", words.len());
    for Step { call, off } in &steps {
        let off = if *off == 0 { String::new() } else { format!(", {off:+} words lent") };
        match call {
            Call::Plant(l) => {
                println!("  Plant(C {}, P {}, {:?}, end {}, chain {:?})", l.capacity, l.pool, l.entries, l.end, l.chain)
            }
            call => println!("  {call:?}{off}"),
        }
    }
    println!("differs: {}", fault(words, &steps).expect("it still differs").1);
}

/// How many appends in a row: a node's fill, or that of a branch over leaves.
fn burst(r: &mut Random, capacity: u64) -> u64 {
    match r.below(400) {
        0 => capacity * (capacity + 1),
        1 => capacity * capacity / 2,
        2..5 => capacity,
        _ => 0,
    }
}

/// One history; none where it differs.
fn history(seed: u64, capacity: u64) -> Option<Beside> {
    let mut r = Random::new(seed);
    let words = memory(seed, length(&mut r, capacity));
    let turns = if r.below(40) == 0 { 5000 } else { 40 + r.below(300) };
    calls(&mut r, seed, capacity, &words, turns, true).map(|(beside, _)| beside)
}

/// So many calls on these words, and bursts of appends; some begin with a planted store, where that is wanted.
fn calls(r: &mut Random, seed: u64, capacity: u64, words: &[u64], turns: u64, plants: bool) -> Option<(Beside, Vec<Step>)> {
    let mut beside = Beside::new(words);
    let mut steps = Vec::new();
    let (cuts, mut turns, mut appends) = (2 + r.below(22), turns, 0);
    while turns > 0 {
        let ledger = &beside.ledger;
        let entries = ledger.entries.len();
        let call = match steps.len() {
            // Memory for 560 nodes at C = 2 is there for the highest trees.
            0 if plants && (r.below(4) == 0 || (capacity == 2 && words.len() > 560 * 8 && r.below(4) > 0)) => {
                Call::Plant(Box::new(planted::random(r, capacity as usize, words.len())))
            }
            1 => Call::Sweep,
            _ if !ledger.made && r.below(4) > 0 => create(r, words.len(), capacity),
            _ if appends > 0 => Call::Append(1 + r.below(5), r.word()),
            _ => call(r, ledger, capacity, cuts),
        };
        let off = [-1, 1, 8].get(r.below(400) as usize).copied().unwrap_or(0);
        let step = Step { call, off };
        let fault = beside.make(&step);
        steps.push(step);
        if fault.is_err() {
            tell(seed, words, steps);
            return None;
        }
        // A refused append ends a burst.
        if appends > 0 && beside.ledger.entries.len() > entries {
            appends -= 1;
        } else {
            appends = burst(r, capacity);
            turns -= 1;
        }
    }
    Some((beside, steps))
}

/// Some short histories at C = 2 to 5 and 16 as lines for `store`; false where one differs.
pub fn record(lines: &mut Lines) -> bool {
    for k in 0..40 {
        let capacity = CAPACITIES[k as usize % 5];
        let mut r = Random::new(k);
        let nodes = if capacity == 16 { 1 + r.below(6) } else { 1 + r.below(15) };
        let words = vec![FILL; places::store_length(capacity, nodes) as usize + r.below(9) as usize];
        let Some((_, steps)) = calls(&mut r, k, capacity, &words, 50, false) else { return false };
        lines.begin(&format!("History {k} at C = {capacity}, in {} words", words.len()), words.len());
        steps.iter().for_each(|step| lines.make(step));
        lines.end();
    }
    true
}

/// A store at the limits of C and P, or one past them, in memory of exactly its length. None where something differs.
fn limit(capacity: u64, pool: u64) -> Option<Beside> {
    let length = places::store_length(capacity, pool) as usize;
    let words = memory(capacity + pool, length);
    let calls = [
        Call::Create(capacity, pool, LIMIT + 1, length),
        Call::Create(capacity, pool, 7, length),
        Call::Append(1, 5),
        Call::Append(2, 6),
        Call::Append(3, 7),
        Call::Sweep,
        Call::Prune(7, 8, vec![5]),
        Call::Release(0, 2),
    ];
    let steps: Vec<Step> = calls.into_iter().map(|call| Step { call, off: 0 }).collect();
    let mut beside = Beside::new(&words);
    if steps.iter().any(|step| beside.make(step).is_err()) {
        tell(capacity + pool, &words, steps);
        return None;
    }
    Some(beside)
}

const LIMITS: [(u64, u64); 10] =
    [(0, 1), (1, 1), (1, 65_535), (2, 0), (2, 1), (2, 65_535), (2, 65_536), (4094, 0), (4094, 1), (4095, 1)];

fn print(all: &BTreeMap<usize, Counts>) {
    let kinds = ["created", "appended", "found", "not found", "pruned", "leaf", "none", "checked", "released"];
    print!("{:>6}", "C");
    kinds.iter().for_each(|k| print!("{k:>10}"));
    println!("{:>10}{:>10}  refusals by number", "height", "entries");
    for (capacity, counts) in all {
        print!("{:>6}", if *capacity == 0 { "none".into() } else { capacity.to_string() });
        kinds.iter().for_each(|k| print!("{:>10}", counts.kinds.get(k).copied().unwrap_or(0)));
        println!("{:>10}{:>10}  {:?}", counts.highest, counts.entries, counts.refusals);
    }
}

/// Histories until so many calls were compared; false where one differs.
pub fn run(wanted: u64, seed: u64) -> bool {
    println!("histories from seed {seed}");
    let (mut all, mut calls, mut progress) = (BTreeMap::<usize, Counts>::new(), 0, Progress::default());
    let mut histories = 0;
    while calls < wanted {
        let beside = match LIMITS.get(histories as usize) {
            Some((capacity, pool)) => limit(*capacity, *pool),
            None => history(seed + histories, CAPACITIES[histories as usize % CAPACITIES.len()]),
        };
        let Some(beside) = beside else {
            println!("{calls} calls compared before it\n1 differences");
            return false;
        };
        calls += beside.calls;
        for (capacity, counts) in beside.counts {
            all.entry(capacity).or_default().join(counts);
        }
        histories += 1;
        progress.step(|| format!("histories: {histories}, {calls} calls of {wanted}"));
    }
    progress.say(&format!("histories: {histories}, {calls} calls"));
    print(&all);
    println!("{histories} histories, {calls} calls compared\n0 differences");
    // So many calls meet every refusal, or the arguments are made badly.
    let missing: Vec<u64> = (1..=13).filter(|n| all.values().all(|c| !c.refusals.contains_key(n))).collect();
    if calls >= 1_000_000 && !missing.is_empty() {
        println!("refusals that were not met: {missing:?}");
    }
    calls < 1_000_000 || missing.is_empty()
}
