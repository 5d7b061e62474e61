//! Well-formed stores that were not made by calls: any outline up to height 31, any numbers of the nodes, any order of the free
//! chain, any words where none is in use.
use crate::ledger::{Begun, Entry, LIMIT, Ledger, NONE};
use crate::places;
use crate::seeded::Random;

/// How many nodes begin with each entry after the first, on a right edge that is kept as the counts of its nodes.
#[derive(Clone)]
pub struct Outline {
    pub capacity: usize,
    pub levels: Vec<usize>,
    counts: Vec<usize>,
    pub nodes: usize,
}

impl Outline {
    /// A tree of one entry.
    pub fn new(capacity: usize, height: usize) -> Outline {
        Outline { capacity, levels: vec![], counts: vec![1; height + 1], nodes: height + 1 }
    }

    /// One entry more, with which so many nodes begin; false where the node above them is full.
    pub fn add(&mut self, level: usize) -> bool {
        if self.counts[level] == self.capacity {
            return false;
        }
        self.counts[level] += 1;
        self.counts[..level].fill(1);
        self.levels.push(level);
        self.nodes += level;
        true
    }

    /// The last nodes of all heights become full.
    fn fill(&mut self) {
        for level in (0..self.counts.len()).rev() {
            while self.add(level) {}
        }
    }
}

/// The store of an outline: the rows and pages of its entries, the end, the numbers of its nodes, then those of the chain. Branches
/// off the right edge end at NONE or with their last leaf, by `ends`.
pub fn store(
    outline: &Outline,
    entries: &[(u64, u64)],
    end: u64,
    mut numbers: Vec<u64>,
    mut words: Vec<u64>,
    mut ends: impl FnMut() -> bool,
) -> Ledger {
    let (capacity, pool) = (outline.capacity, numbers.len() as u64);
    words[..2].copy_from_slice(&[capacity as u64, pool]);
    let mut ledger = Ledger::new(words);
    (ledger.capacity, ledger.pool, ledger.made, ledger.open) = (capacity, pool, true, true);
    (ledger.start, ledger.end) = (entries[0].0, end);
    let levels = [outline.counts.len()].into_iter().chain(outline.levels.iter().copied());
    for (level, (row, page)) in levels.zip(entries) {
        // A node ends where one of its height or above begins.
        for h in 1..level.min(outline.counts.len()) {
            let ended = ledger.entries.iter().rposition(|e| e.nodes.len() > h);
            if let Some(i) = ended.filter(|_| ends()) {
                ledger.entries[i].nodes[h].end = *row;
            }
        }
        let nodes = (0..level).map(|_| Begun { number: numbers.pop().unwrap(), end: NONE }).collect();
        ledger.entries.push(Entry { row: *row, page: *page, nodes });
    }
    ledger.root = ledger.entries[0].nodes.last().unwrap().number;
    numbers.into_iter().for_each(|n| ledger.free(n));
    for j in 0..ledger.entries.len() {
        (0..ledger.entries[j].nodes.len()).for_each(|h| ledger.write(h, j));
    }
    ledger.write_header();
    ledger
}

/// A random one in words of this length. Some are ready for a split of the root, some end at 2^62.
pub fn random(r: &mut Random, capacity: usize, length: usize) -> Ledger {
    let most = (length - places::STORE_HEADER) / places::node_size(capacity);
    let height = match r.below(4) {
        0..2 if capacity == 2 && most > 540 => 31 - r.below(2) as usize,
        2 => r.below(2) as usize,
        _ => r.below(5) as usize,
    }
    .min(most - 1);
    let mut outline = Outline::new(capacity, height);
    let wanted = r.below(if height > 5 { 4 } else { 60 });
    for _ in 0..wanted {
        let level = r.below(height as u64 + 1).min(r.below(height as u64 + 1)) as usize;
        if outline.nodes + level < most / 2 {
            outline.add(level);
        }
    }
    let added = (capacity - 1) * height * (height + 1) / 2;
    if r.below(3) > 0 && outline.nodes + added <= most {
        outline.fill();
    }
    let pool = outline.nodes + (r.below(2 * height as u64 + 6) as usize).min(most - outline.nodes);
    let mut numbers: Vec<u64> = (0..pool as u64).collect();
    (1..pool).rev().for_each(|i| numbers.swap(i, r.below(i as u64 + 1) as usize));
    let count = outline.levels.len() as u64 + 1;
    let mut row = if r.below(4) == 0 { LIMIT - 20 * count } else { r.below(1000) };
    let mut entries = Vec::new();
    for _ in 0..count {
        entries.push((row, r.word() >> (60 * r.below(2))));
        row += 1 + r.below(20);
    }
    let words = (0..length).map(|_| r.word()).collect();
    store(&outline, &entries, row, numbers, words, || r.below(2) == 0)
}
