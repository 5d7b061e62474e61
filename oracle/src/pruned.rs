//! 01, 'Prune' and 'Release', on the words of a store: the tree is read from the words before a call, and from it follow the answer,
//! the words after it and the order of what is freed. The ledger of the histories has no part in it.
use crate::ledger::{Answer, NONE, done};
use crate::places;

/// A node as it stands in the words, with the nodes below it.
pub struct Node {
    pub number: u64,
    pub height: u64,
    pub start: u64,
    pub end: u64,
    pub slots: Vec<(u64, u64)>,
    below: Vec<Node>,
}

impl Node {
    pub fn read(words: &[u64], number: u64) -> Node {
        let capacity = words[0] as usize;
        let node = places::node(words, capacity, number as usize);
        let slot = |i: usize| (node[places::row(i)], node[places::number(capacity, i)]);
        let slots: Vec<(u64, u64)> = (0..node[1] as usize).map(slot).collect();
        let below = if node[0] == 0 { vec![] } else { slots.iter().map(|s| Node::read(words, s.1)).collect() };
        Node { number, height: node[0], start: node[2], end: node[3], slots, below }
    }

    /// The end of its last leaf.
    fn rows_end(&self) -> u64 {
        self.below.last().map_or(self.end, Node::rows_end)
    }

    /// Where the rows of a slot end.
    fn slot_end(&self, i: usize) -> u64 {
        match self.below.get(i) {
            Some(child) => child.rows_end(),
            None => self.slots.get(i + 1).map_or(self.end, |s| s.0),
        }
    }

    /// Height, count and whether the end is NONE, of each node.
    pub fn outline(&self) -> Vec<(u64, usize, bool)> {
        self.postorder().iter().map(|n| (n.height, n.slots.len(), n.end == NONE)).collect()
    }

    /// The nodes, children before parents, left to right.
    pub fn postorder(&self) -> Vec<&Node> {
        let mut order: Vec<&Node> = self.below.iter().flat_map(Node::postorder).collect();
        order.push(self);
        order
    }
}

fn free(words: &mut [u64], number: u64) {
    let at = places::first(words[0] as usize, number as usize);
    words[at] = (1 << 32) - 1;
    words[at + 1] = words[3];
    words[3] = number;
    words[4] += 1;
}

/// What stays of a node that loses rows below `end` goes to its front.
fn trim(words: &mut [u64], node: &Node, end: u64) {
    let capacity = words[0] as usize;
    let at = places::first(capacity, node.number as usize);
    let stays: Vec<(u64, u64)> = (0..node.slots.len()).filter(|i| node.slot_end(*i) > end).map(|i| node.slots[i]).collect();
    for (i, (row, number)) in stays.iter().enumerate() {
        words[at + places::row(i)] = if i == 0 { end } else { *row };
        words[at + places::number(capacity, i)] = *number;
    }
    words[at + 1] = stays.len() as u64;
    words[at + 2] = end;
}

/// While the root is a branch of one entry, its child is copied into it. The nodes copied.
fn collapse(words: &mut [u64]) -> Vec<u64> {
    let capacity = words[0] as usize;
    let root = places::first(capacity, words[2] as usize);
    let mut copied = Vec::new();
    while words[root] > 0 && words[root + 1] == 1 {
        let child = words[root + places::number(capacity, 0)];
        let from = places::first(capacity, child as usize);
        words.copy_within(from..from + places::node_size(capacity), root);
        copied.push(child);
    }
    copied
}

/// The answer and the words of a prune that removes so many entries, those below a row.
pub fn pruned(before: &[u64], removed: u64, end: u64) -> (Answer, Vec<u64>) {
    let mut words = before.to_vec();
    let root = Node::read(before, before[2]);
    let former = root.postorder();
    let gone = |n: &Node| n.rows_end() <= end;
    let mut copied = Vec::new();
    if gone(&root) {
        let at = places::first(before[0] as usize, root.number as usize);
        words[at..at + 4].copy_from_slice(&[0, 0, end, NONE]);
    } else {
        former.iter().filter(|n| !gone(n) && n.start < end).for_each(|n| trim(&mut words, n, end));
        copied = collapse(&mut words);
    }
    let freed = former.iter().filter(|n| n.number != root.number && (gone(n) || copied.contains(&n.number)));
    freed.for_each(|n| free(&mut words, n.number));
    (done([removed, words[4] - before[4], copied.len() as u64]), words)
}

/// The answer and the words of a release that is accepted, where there are so many entries.
pub fn released(before: &[u64], entries: u64) -> (Answer, Vec<u64>) {
    let mut words = before.to_vec();
    let root = Node::read(before, before[2]);
    let order = root.postorder();
    order.iter().for_each(|n| free(&mut words, n.number));
    words[2] = words[1];
    (done([order.len() as u64, entries]), words)
}
