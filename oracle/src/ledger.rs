//! A store as document 01 describes it, kept as a plain ledger: the entries in order and, for each, the nodes that begin with it,
//! from its leaf up. The first entry begins every node of the left edge. Heights, counts, nodes wanted, freed and left, and the
//! leaves of a walk follow from that. Beside it stand the words that the calls have to leave. No word of a store is read.
use crate::places;

pub const NONE: u64 = u64::MAX;
pub const LIMIT: u64 = 1 << 62;
pub const HIGHEST: usize = 31;
pub const HEADER_UNSOUND: u64 = 65_535;
const FREE: u64 = u32::MAX as u64;

/// The seven words that a call writes: 0 and how many values, or the refusal's number and 1; the values or the detail; zeros.
pub type Answer = [u64; 7];

pub fn done<const N: usize>(values: [u64; N]) -> Answer {
    let mut answer = [0; 7];
    answer[1] = N as u64;
    answer[2..2 + N].copy_from_slice(&values);
    answer
}

pub fn refused(number: u64, detail: u64) -> Answer {
    [number, 1, detail, 0, 0, 0, 0]
}

/// A node, and the end that stands in it where it is a branch: NONE, or the row at which the root was split. The end of a leaf
/// follows from the entries.
#[derive(Debug, Clone, Copy)]
pub struct Begun {
    pub number: u64,
    pub end: u64,
}

#[derive(Debug, Clone)]
pub struct Entry {
    pub row: u64,
    pub page: u64,
    pub nodes: Vec<Begun>,
}

#[derive(Debug, Clone)]
pub struct Ledger {
    pub capacity: usize,
    pub pool: u64,
    /// No create was accepted so far: the words are no store.
    pub made: bool,
    pub open: bool,
    pub root: u64,
    /// The first row, and the row where the next range begins.
    pub start: u64,
    pub end: u64,
    pub entries: Vec<Entry>,
    /// The free nodes; the last one is the head.
    pub chain: Vec<u64>,
    /// What the memory has to hold. A store has the first words of it.
    pub words: Vec<u64>,
}

impl Ledger {
    pub fn new(words: Vec<u64>) -> Ledger {
        let (entries, chain) = (vec![], vec![]);
        Ledger { capacity: 0, pool: 0, made: false, open: false, root: 0, start: 0, end: 0, entries, chain, words }
    }

    /// The words that are lent to a call.
    pub fn length(&self) -> usize {
        if self.made { places::store_length(self.capacity as u64, self.pool) as usize } else { self.words.len() }
    }

    /// The refusal that every call but create begins with, where so many words are lent.
    pub fn first_refusal(&self, lent: usize) -> Option<Answer> {
        if !self.made || lent != self.length() {
            return Some(refused(2, HEADER_UNSOUND));
        }
        (!self.open).then_some(refused(3, 0))
    }

    pub fn height(&self) -> usize {
        self.entries.first().map_or(0, |e| e.nodes.len() - 1)
    }

    pub fn tree_nodes(&self) -> u64 {
        self.entries.iter().map(|e| e.nodes.len() as u64).sum::<u64>().max(1)
    }

    /// Where entry i ends.
    pub fn end_of(&self, i: usize) -> u64 {
        self.entries.get(i + 1).map_or(self.end, |e| e.row)
    }

    /// The entry with which the node of height h that holds entry i begins.
    fn holder(&self, h: usize, i: usize) -> usize {
        (0..=i).rev().find(|j| self.entries[*j].nodes.len() > h).unwrap()
    }

    /// The entries of the ledger that lead on from the node of height h beginning with entry j, one for each of its slots.
    fn slots(&self, h: usize, j: usize) -> Vec<usize> {
        let mut slots = vec![j];
        for (i, entry) in self.entries.iter().enumerate().skip(j + 1) {
            if entry.nodes.len() > h {
                break;
            }
            if entry.nodes.len() == h {
                slots.push(i);
            }
        }
        slots
    }

    /// The height of the lowest node of the right edge that is not full.
    fn room(&self) -> Option<usize> {
        let last = self.entries.len().checked_sub(1)?;
        (0..=self.height()).find(|h| self.slots(*h, self.holder(*h, last)).len() < self.capacity)
    }

    /// The nodes that an append takes.
    pub fn needed(&self) -> u64 {
        if self.entries.is_empty() { 0 } else { self.room().unwrap_or(self.height() + 2) as u64 }
    }

    /// The nodes of the tree, children before parents, left to right: after each entry those that end with it.
    fn postorder(&self) -> Vec<u64> {
        let mut order = Vec::new();
        for i in 0..self.entries.len() {
            let ended = self.entries.get(i + 1).map_or(self.height() + 1, |e| e.nodes.len());
            order.extend((0..ended).map(|h| self.entries[self.holder(h, i)].nodes[h].number));
        }
        if order.is_empty() { vec![self.root] } else { order }
    }

    /// Number, height, count, start and end of each node in reading order, a line each: with an entry come the nodes that begin
    /// with it, the highest first.
    pub fn shape(&self) -> String {
        if self.entries.is_empty() {
            return format!("node {} 0 0 {} {NONE}\n", self.root, self.start);
        }
        let mut text = String::new();
        for (j, entry) in self.entries.iter().enumerate() {
            for (h, Begun { number, end }) in entry.nodes.iter().enumerate().rev() {
                let slots = self.slots(h, j);
                let end = if h == 0 { self.end_of(slots[slots.len() - 1]) } else { *end };
                text += &format!("node {number} {h} {} {} {end}\n", slots.len(), entry.row);
            }
        }
        text
    }

    fn first(&self, number: u64) -> usize {
        places::first(self.capacity, number as usize)
    }

    /// Writes the node of height h that begins with entry j: its header and the slots in use.
    pub fn write(&mut self, h: usize, j: usize) {
        let Begun { number, end } = self.entries[j].nodes[h];
        let (at, slots) = (self.first(number), self.slots(h, j));
        let end = if h == 0 { self.end_of(slots[slots.len() - 1]) } else { end };
        self.words[at..at + 4].copy_from_slice(&[h as u64, slots.len() as u64, self.entries[j].row, end]);
        for (slot, i) in slots.into_iter().enumerate() {
            let entry = &self.entries[i];
            self.words[at + places::row(slot)] = entry.row;
            self.words[at + places::number(self.capacity, slot)] =
                if h == 0 { entry.page } else { entry.nodes[h - 1].number };
        }
    }

    fn write_empty_root(&mut self) {
        let at = self.first(self.root);
        self.words[at..at + 4].copy_from_slice(&[0, 0, self.start, NONE]);
    }

    fn copy_node(&mut self, from: u64, to: u64) {
        let (from, to) = (self.first(from), self.first(to));
        self.words.copy_within(from..from + places::node_size(self.capacity), to);
    }

    /// Root, head of the chain and free count.
    pub fn write_header(&mut self) {
        self.words[2] = if self.open { self.root } else { self.pool };
        self.words[3] = self.chain.last().copied().unwrap_or(self.pool);
        self.words[4] = self.chain.len() as u64;
    }

    pub fn free(&mut self, number: u64) {
        let at = self.first(number);
        self.words[at] = FREE;
        self.words[at + 1] = self.chain.last().copied().unwrap_or(self.pool);
        self.chain.push(number);
    }

    pub fn create(&mut self, capacity: u64, pool: u64, start: u64, lent: usize) -> Answer {
        let in_range = (2..=4094).contains(&capacity) && (1..=65_535).contains(&pool);
        if !in_range || places::store_length(capacity, pool) != lent as u64 {
            return refused(1, 0);
        }
        if start > LIMIT {
            return refused(4, 0);
        }
        (self.capacity, self.pool, self.made, self.open, self.root) = (capacity as usize, pool, true, true, 0);
        (self.start, self.end) = (start, start);
        self.entries.clear();
        self.chain.clear();
        (1..pool).rev().for_each(|n| self.free(n));
        self.words[..8].copy_from_slice(&[capacity, pool, 0, 0, 0, 0, 0, 0]);
        self.write_header();
        self.write_empty_root();
        done([])
    }

    pub fn append(&mut self, count: u64, page: u64) -> Answer {
        let (row, end) = (self.end, self.end as u128 + count as u128);
        if count == 0 || end > LIMIT as u128 {
            return refused(4, 0);
        }
        let (room, height, needed) = (self.room(), self.height(), self.needed());
        if room.is_none() && height == HIGHEST {
            return refused(6, 0);
        }
        if needed > self.chain.len() as u64 {
            return refused(5, needed);
        }
        let mut taken = self.chain.split_off(self.chain.len() - needed as usize);
        self.end = end as u64;
        if self.entries.is_empty() {
            self.entries.push(Entry { row, page, nodes: vec![Begun { number: self.root, end: NONE }] });
            self.write(0, 0);
            return done([row, self.end, 0]);
        }
        if room.is_none() {
            let copy = taken.pop().unwrap();
            self.copy_node(self.root, copy);
            let edge = &mut self.entries[0].nodes;
            edge[height] = Begun { number: copy, end: row };
            edge.push(Begun { number: self.root, end: NONE });
        }
        // The path's top node was taken first, and the last one taken is the leaf.
        let nodes = taken.into_iter().map(|number| Begun { number, end: NONE }).collect();
        self.entries.push(Entry { row, page, nodes });
        let last = self.entries.len() - 1;
        (0..=room.unwrap_or(height + 1)).for_each(|h| self.write(h, self.holder(h, last)));
        if room.is_none() {
            self.write(height, 0);
        }
        self.write_header();
        done([row, self.end, needed])
    }

    pub fn find(&self, row: u64) -> Answer {
        match self.entries.iter().rposition(|e| e.row <= row) {
            Some(i) if row < self.end_of(i) => done([self.entries[i].page]),
            _ => done([]),
        }
    }

    pub fn prune(&mut self, start: u64, end: u64, ids: &[u64]) -> Answer {
        if ids.is_empty() || start >= end {
            return refused(7, 0);
        }
        if start != self.start {
            return refused(8, self.start);
        }
        for (i, id) in ids.iter().enumerate() {
            match self.entries.get(i) {
                None => return refused(11, self.entries.len() as u64),
                Some(e) if e.page != *id => return refused(9, i as u64),
                Some(_) if self.end_of(i) > end => return refused(10, i as u64),
                Some(_) => {}
            }
        }
        if self.end_of(ids.len() - 1) < end {
            return refused(10, ids.len() as u64);
        }
        self.cut(ids.len(), end)
    }

    /// The first k entries go, which end at a row.
    fn cut(&mut self, k: usize, end: u64) -> Answer {
        let former = self.postorder();
        let height = self.height();
        self.start = end;
        let levels = if k == self.entries.len() {
            self.entries.clear();
            self.write_empty_root();
            0
        } else {
            let edge = (0..=height).map(|h| self.entries[self.holder(h, k)].nodes[h]).collect();
            self.entries.drain(..k);
            self.entries[0].nodes = edge;
            (0..=height).for_each(|h| self.write(h, 0));
            self.collapse()
        };
        let left = self.postorder();
        let freed: Vec<u64> = former.into_iter().filter(|n| !left.contains(n)).collect();
        freed.iter().for_each(|n| self.free(*n));
        self.write_header();
        done([k as u64, freed.len() as u64, levels])
    }

    /// While the root is a branch of one entry, its child is copied into it.
    fn collapse(&mut self) -> u64 {
        let mut levels = 0;
        while self.height() > 0 && self.slots(self.height(), 0).len() == 1 {
            let edge = &mut self.entries[0].nodes;
            edge.pop();
            let child = edge.last_mut().unwrap();
            let copied = child.number;
            child.number = self.root;
            self.copy_node(copied, self.root);
            levels += 1;
        }
        levels
    }

    /// The leaf that a row reaches: its first entry, and the entry after it. None where the root is empty.
    fn leaf(&self, row: u64) -> Option<(usize, usize)> {
        let i = self.entries.iter().rposition(|e| e.row <= row).unwrap_or(0);
        (!self.entries.is_empty()).then(|| {
            let from = self.holder(0, i);
            (from, from + self.slots(0, from).len())
        })
    }

    /// The leaf reached for the cursor's row; row and page of its entries go into `list`, and the cursor keeps its end.
    pub fn next(&self, cursor: &mut [u64], list: &mut [u64]) -> Answer {
        if list.len() / 2 < self.capacity {
            return refused(13, self.capacity as u64);
        }
        if cursor[1] != 0 {
            return done([]);
        }
        let Some((from, to)) = self.leaf(cursor[0]) else {
            cursor.copy_from_slice(&[NONE, 1]);
            return done([self.start, NONE, 0]);
        };
        let (entries, end) = (&self.entries[from..to], self.end_of(to - 1));
        list.chunks_mut(2).zip(entries).for_each(|(pair, e)| pair.copy_from_slice(&[e.row, e.page]));
        cursor.copy_from_slice(&[end, u64::from(to == self.entries.len())]);
        done([entries[0].row, end, entries.len() as u64])
    }

    /// Into `list` go the page ids, left to right.
    pub fn release(&mut self, pivot: u64, list: &mut [u64]) -> Answer {
        let (nodes, entries) = (self.tree_nodes(), self.entries.len());
        if let Some(e) = self.entries.iter().find(|e| e.row < pivot) {
            return refused(12, e.row);
        }
        if list.len() < entries {
            return refused(13, entries as u64);
        }
        list.iter_mut().zip(&self.entries).for_each(|(word, e)| *word = e.page);
        self.close();
        done([nodes, entries as u64])
    }

    pub fn release_empty(&mut self) -> Answer {
        if !self.entries.is_empty() {
            return refused(12, 0);
        }
        self.close();
        done([1, 0])
    }

    fn close(&mut self) {
        self.postorder().into_iter().for_each(|n| self.free(n));
        self.entries.clear();
        self.open = false;
        self.write_header();
    }

    pub fn check(&self) -> Answer {
        done([self.entries.len() as u64, self.tree_nodes(), self.chain.len() as u64])
    }
}
