//! Times of the public calls of the listed Rust and of the port at one capacity, made by one program in one run. It is no
//! test: no time fails it. What both answer has to be the same. Each line begins with the number of the table it belongs to.

#[allow(dead_code)]
#[path = "../oracle/src/store.rs"]
mod index;
#[path = "../oracle/src/places.rs"]
mod places;
#[allow(dead_code)]
mod plain;
#[allow(dead_code)]
mod store;

/// The listed Rust at the capacity that is timed, written by oracle/rust. One only: where several are in one program the
/// compiler joins their functions, and then places none of them into its callers.
mod listed {
    include!(concat!(env!("ORACLE_LISTED"), "/all.rs"));
}

use calls::Index;
use index::{Cursor, Store};
use std::collections::BTreeMap;
use std::hint::black_box;
use std::time::Instant;

/// Rows of a page.
const ROWS: u64 = 10;

/// Nanoseconds of an operation, one number for each round.
#[derive(Default)]
struct Times(BTreeMap<&'static str, Vec<f64>>);

impl Times {
    fn keep(&mut self, name: &'static str, since: Instant, operations: u64) {
        let each = since.elapsed().as_nanos() as f64 / operations.max(1) as f64;
        self.0.entry(name).or_default().push(each);
    }

    fn median(&self, name: &str) -> f64 {
        let mut all = self.0[name].clone();
        all.sort_by(f64::total_cmp);
        all[all.len() / 2]
    }

    fn least(&self, name: &str) -> f64 {
        self.0[name].iter().copied().fold(f64::MAX, f64::min)
    }
}

/// Random rows below a limit (xorshift64).
struct Rows(u64, u64);

impl Rows {
    fn new(limit: u64) -> Self {
        Rows(0x9E37_79B9_7F4A_7C15, limit)
    }

    fn next(&mut self) -> u64 {
        self.0 ^= self.0 << 13;
        self.0 ^= self.0 >> 7;
        self.0 ^= self.0 << 17;
        (self.0 as u128 * self.1 as u128 >> 64) as u64
    }
}

/// Only reading: the wrapping sum of the words in use of the nodes on the path to a row.
fn read_path(w: &[u64], row: u64) -> u64 {
    let c = w[0] as usize;
    let (mut n, mut sum) = (w[2] as usize, 0u64);
    loop {
        let node = places::node(w, c, n);
        let count = node[1] as usize;
        for part in places::used(node, c, count) {
            sum = part.iter().fold(sum, |a, b| a.wrapping_add(*b));
        }
        if node[0] == 0 {
            return sum;
        }
        let rows = places::rows(node, count).chunks_exact(places::STEP);
        let place = rows.len() - 1 - rows.rev().position(|r| r[0] <= row).unwrap_or(0);
        n = node[places::number(c, place)] as usize;
    }
}

/// `next` as a Rattle crate calls it: the cursor by value, the row alone in it. The end of the leaf.
fn next_by_value(w: &[u64], row: u64, records: &mut [u64]) -> u64 {
    unsafe extern "C" {
        fn bench_next(w: *const u64, len: usize, row: u64, records: *mut u64, records_len: usize) -> u64;
    }
    unsafe { bench_next(w.as_ptr(), w.len(), row, records.as_mut_ptr(), records.len()) }
}

/// What the two sides are asked: so many appends, so many lookups, and the page ids of a prune.
struct Work {
    entries: u64,
    lookups: u64,
    ids: Vec<u64>,
}

impl Work {
    fn new(entries: u64) -> Self {
        Work { entries, lookups: entries.clamp(20_000, 100_000), ids: (1..=entries).collect() }
    }

    fn end(&self) -> u64 {
        ROWS * self.entries
    }
}

/// A round of the Rust: its leaves, nodes freed by the prune, nodes freed by the release.
fn rust_round(create: calls::Create, work: &Work, times: &mut Times) -> [u64; 3] {
    let mut index = create(0, 1 << 32).unwrap();
    let append_all = |index: &mut Box<dyn Index>, name, times: &mut Times| {
        let t = Instant::now();
        for k in 0..work.entries {
            black_box(index.append(ROWS, k + 1).unwrap().1);
        }
        times.keep(name, t, work.entries);
    };
    append_all(&mut index, "append, first", times);
    let mut rows = Rows::new(work.end());
    let t = Instant::now();
    for _ in 0..work.lookups {
        let row = rows.next();
        assert!(index.find(row).unwrap() == Some(row / ROWS + 1));
    }
    times.keep("lookup", t, work.lookups);
    // Where the Rust ends a walk too early, it is sought again.
    let (mut leaves, mut entries, mut at) = (0, 0, 0);
    let t = Instant::now();
    while at < work.end() {
        let from = at;
        let seen = &mut |end, count| (leaves, entries, at) = (leaves + 1, entries + count, end);
        index.leaves(from, seen).unwrap();
    }
    times.keep("next", t, leaves);
    assert_eq!(entries, work.entries);
    let nodes = index.taken();
    let t = Instant::now();
    let pruned = index.prune(0, work.end(), &work.ids).unwrap();
    times.keep("prune", t, work.entries);
    // The same appends once more: now every node comes from the free list, as in the port.
    append_all(&mut index, "append", times);
    let t = Instant::now();
    assert_eq!(index.destroy(work.end()).unwrap().len() as u64, work.entries);
    times.keep("release", t, nodes);
    [leaves, pruned[1], nodes]
}

/// A round of the port.
fn port_round(store: &mut Store, copy: &mut Store, c: u64, nodes: u64, work: &Work, times: &mut Times) -> [u64; 3] {
    store.create(c, nodes, 0).unwrap();
    let t = Instant::now();
    for k in 0..work.entries {
        black_box(store.append(ROWS, k + 1).unwrap().end);
    }
    times.keep("append", t, work.entries);
    copy.words.copy_from_slice(&store.words);
    let t = Instant::now();
    let pruned = copy.prune(0, work.end(), &work.ids).unwrap();
    times.keep("prune", t, work.entries);
    let mut rows = Rows::new(work.end());
    let t = Instant::now();
    for _ in 0..work.lookups {
        let row = rows.next();
        assert!(store.find(row).unwrap() == Some(row / ROWS + 1));
    }
    times.keep("lookup", t, work.lookups);
    let mut rows = Rows::new(work.end());
    let t = Instant::now();
    for _ in 0..work.lookups / 10 {
        black_box(read_path(black_box(&store.words), rows.next()));
    }
    times.keep("lookup, only read", t, work.lookups / 10);
    let t = Instant::now();
    for _ in 0..work.lookups / 10 {
        black_box(read_path(black_box(&store.words), work.end()));
    }
    times.keep("append, only read", t, work.lookups / 10);
    let mut records = vec![1; 2 * c as usize];
    let (mut cursor, mut leaves, mut entries) = (Cursor::new(), 0, 0);
    let t = Instant::now();
    cursor.seek(0);
    while let Some(leaf) = store.next(&mut cursor, &mut records).unwrap() {
        (leaves, entries) = (leaves + 1, entries + leaf.count);
    }
    times.keep("next, C function", t, leaves);
    assert_eq!(entries, work.entries);
    let mut row = 0;
    let t = Instant::now();
    for _ in 0..leaves {
        row = next_by_value(black_box(&store.words), row, &mut records);
    }
    times.keep("next", t, leaves);
    assert_eq!(row, work.end());
    let t = Instant::now();
    let held = store.check().unwrap();
    times.keep("check", t, held.nodes);
    assert_eq!((held.entries, held.nodes + held.free), (work.entries, nodes));
    let t = Instant::now();
    assert_eq!(black_box(plain::check::<false>(black_box(&store.words))), held.nodes);
    times.keep("check, plain", t, held.nodes);
    let t = Instant::now();
    assert_eq!(black_box(plain::check_once::<false>(black_box(&store.words))), held.nodes);
    times.keep("check, plain, once", t, held.nodes);
    let mut pages = vec![1; work.entries as usize];
    copy.words.copy_from_slice(&store.words);
    let t = Instant::now();
    assert_eq!(plain::destroy::<false>(black_box(&mut copy.words), &mut pages), held.nodes);
    times.keep("release, plain", t, held.nodes);
    let t = Instant::now();
    assert_eq!(store.destroy(0, &mut pages).unwrap().nodes, held.nodes);
    times.keep("release", t, held.nodes);
    assert!(copy.words == store.words && pages == work.ids);
    [leaves, pruned.freed, held.nodes]
}

struct Measured {
    rust: Times,
    port: Times,
}

/// Rounds of both sides in turn, the first of them not counted.
fn measure(entries: u64, rounds: u64) -> Measured {
    let [(c, create)] = listed::ALL;
    let work = Work::new(entries);
    // At C = 2 an append takes about one node; the pool has at most 65,535.
    let nodes = if c == 2 { 65_535 } else { (entries / c + entries / c / (c / 2) + 64).min(65_535) };
    // New words in each round, for where they lie in memory tells in the times; written once, so that their pages are there.
    let words = || Store { words: vec![1; Store::length(c, nodes) as usize] };
    let mut m = Measured { rust: Times::default(), port: Times::default() };
    for round in 0..=rounds {
        if round == 1 {
            (m.rust, m.port) = (Times::default(), Times::default());
        }
        let ours = port_round(&mut words(), &mut words(), c, nodes, &work, &mut m.port);
        assert_eq!(ours, rust_round(create, &work, &mut m.rust));
    }
    m
}

/// A cell: median and least.
fn cell(times: &Times, name: &str) -> String {
    format!("{:.1} ({:.1})", times.median(name), times.least(name))
}

const CALLS: [(&str, &str, &str); 7] = [
    ("append", "append", "append"),
    ("append, the Rust's nodes allocated", "append", "append, first"),
    ("lookup", "lookup", "lookup"),
    ("next, a leaf", "next", "next"),
    ("next, a leaf, by the host's C function", "next, C function", "next"),
    ("prune of all, an entry", "prune", "prune"),
    ("release, a node", "release", "release"),
];

const PLAIN: [(&str, &str, &str); 5] = [
    ("full check, a node", "check", "check, plain"),
    ("full check, a node; the loop reads the tree once", "check", "check, plain, once"),
    ("release, a node", "release", "release, plain"),
    ("lookup; the words of its path only read", "lookup", "lookup, only read"),
    ("append; the words of its path only read", "append", "append, only read"),
];

fn main() {
    let [(c, _)] = listed::ALL;
    let m = measure(60_000, 25);
    for (call, ours, theirs) in CALLS {
        let ratio = m.port.median(ours) / m.rust.median(theirs);
        println!("1| {c} | {call} | {} | {} | {ratio:.2} |", cell(&m.port, ours), cell(&m.rust, theirs));
    }
    for (call, ours, plain) in PLAIN {
        let ratio = m.port.median(ours) / m.port.median(plain);
        println!("2| {c} | {call} | {} | {} | {ratio:.2} |", cell(&m.port, ours), cell(&m.port, plain));
    }
    // A pool has at most 65,535 nodes.
    let most = match c {
        2 => 60_000,
        16 => 900_000,
        _ => 1_000_000,
    };
    for entries in [1_000, 10_000, 100_000, 1_000_000].map(|n| most.min(n)) {
        let m = measure(entries, (1_000_000 / entries).clamp(5, 25));
        let mut line = format!("3| {c} | {entries} |");
        for call in ["append", "lookup", "next", "prune", "release"] {
            line += &format!(" {:.1} / {:.1} |", m.port.median(call), m.rust.median(call));
        }
        println!("{line} {:.1} |", m.port.median("check"));
        if entries == most {
            return;
        }
    }
}
