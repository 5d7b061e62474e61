//! Stores in memory, with the words that appends would leave.

use crate::places;

pub const FREE_MARK: u64 = u32::MAX as u64;
pub const NONE: u64 = u64::MAX;
pub const ROW_LIMIT: u64 = 1 << 62;
pub const MAX_HEIGHT: u64 = 31;
pub const MAX_POOL: usize = 65535;
/// Rows of a page.
pub const ROWS: u64 = 10;

/// The nodes of a store, each with all its words; node 0 is the root.
pub struct Builder {
    capacity: usize,
    nodes: Vec<Vec<u64>>,
}

impl Builder {
    pub fn new(capacity: usize) -> Self {
        let mut b = Builder { capacity, nodes: Vec::new() };
        b.take(0, 0);
        b
    }

    pub fn len(&self) -> usize {
        self.nodes.len()
    }

    /// The next node of the pool, without entries.
    pub fn take(&mut self, height: u64, start: u64) -> usize {
        let mut words = vec![0; places::node_size(self.capacity)];
        words[..places::HEADER].copy_from_slice(&[height, 0, start, NONE]);
        self.nodes.push(words);
        self.nodes.len() - 1
    }

    pub fn set_end(&mut self, n: usize, end: u64) {
        self.nodes[n][3] = end;
    }

    pub fn add_pair(&mut self, n: usize, row: u64, number: u64) {
        let words = &mut self.nodes[n];
        let count = words[1] as usize;
        words[places::row(count)] = row;
        words[places::number(self.capacity, count)] = number;
        words[1] += 1;
    }

    fn is_full(&self, n: usize) -> bool {
        self.nodes[n][1] as usize == self.capacity
    }

    /// Nodes of one entry from this height down to a leaf with the page, top first.
    fn new_path(&mut self, height: u64, row: u64, page: u64) -> usize {
        let n = self.take(height, row);
        if height == 0 {
            self.add_pair(n, row, page);
            self.set_end(n, row + ROWS);
        } else {
            let child = self.new_path(height - 1, row, page);
            self.add_pair(n, row, child as u64);
        }
        n
    }

    /// One page more; how many nodes it took.
    pub fn append(&mut self, page: u64) -> usize {
        let before = self.len();
        let mut edge = vec![0];
        loop {
            let words = &self.nodes[edge[edge.len() - 1]];
            if words[0] == 0 {
                break;
            }
            edge.push(words[places::number(self.capacity, words[1] as usize - 1)] as usize);
        }
        let leaf = edge[edge.len() - 1];
        let row = if self.nodes[leaf][1] == 0 { self.nodes[leaf][2] } else { self.nodes[leaf][3] };
        match edge.iter().rev().find(|n| !self.is_full(**n)) {
            Some(&n) if n == leaf => {
                self.add_pair(n, row, page);
                self.set_end(n, row + ROWS);
            }
            Some(&n) => {
                let top = self.new_path(self.nodes[n][0] - 1, row, page);
                self.add_pair(n, row, top as u64);
            }
            None => {
                let (height, start) = (self.nodes[0][0], self.nodes[0][2]);
                let copy = self.take(height, start);
                self.nodes[copy] = self.nodes[0].clone();
                self.set_end(copy, row);
                let top = self.new_path(height, row, page);
                self.nodes[0][..places::HEADER].copy_from_slice(&[height + 1, 0, start, NONE]);
                self.add_pair(0, start, copy as u64);
                self.add_pair(0, row, top as u64);
            }
        }
        self.len() - before
    }

    /// The words of a store of these nodes, none of them free.
    pub fn words(&self) -> Vec<u64> {
        let pool = self.len() as u64;
        assert!(self.len() <= MAX_POOL);
        let mut words = vec![self.capacity as u64, pool, 0, pool, 0];
        words.resize(places::STORE_HEADER, 0);
        words.extend(self.nodes.iter().flatten());
        words
    }
}

/// A tree of so many entries.
pub fn tree(capacity: usize, entries: u64) -> Vec<u64> {
    let mut b = Builder::new(capacity);
    for page in 1..=entries {
        b.append(page);
    }
    b.words()
}

/// A full branch of height 1, node 0, and a full leaf that follows it, node 1. The branch's child numbers are in range
/// and lead nowhere: the node test does not follow them.
pub fn two_full(capacity: usize) -> Vec<u64> {
    let mut b = Builder { capacity, nodes: Vec::new() };
    let branch = b.take(1, 0);
    let leaf = b.take(0, ROWS * capacity as u64);
    for i in 0..capacity as u64 {
        b.add_pair(branch, ROWS * i, i % 2);
        b.add_pair(leaf, ROWS * (capacity as u64 + i), i + 1);
    }
    b.set_end(branch, ROWS * capacity as u64);
    b.set_end(leaf, 2 * ROWS * capacity as u64);
    b.words()
}
