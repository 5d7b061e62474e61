//! Where the words of a store stand: document 01, 'Node words'. Nothing else in the oracle and the benchmarks knows it, but
//! for the words of the two headers by their numbers: of a store C, P, root, head of the free chain and free count; of a
//! node height, count, start and end.
// Three programs have this file, and each uses a part of it.
#![allow(dead_code)]

/// The words of a store before its nodes.
pub const STORE_HEADER: usize = 8;
/// The words of a node before its rows and numbers.
pub const HEADER: usize = 4;
/// From a row of a node to the next one, and from a page or child number to the next one.
pub const STEP: usize = 2;
/// Which of a number's STEP words has it; a row is the first of its words.
pub const NUMBER: usize = 1;

/// The words of a node.
#[inline(always)]
pub fn node_size(capacity: usize) -> usize {
    HEADER + 2 * capacity
}

/// The greatest capacity at which a node fits so many words.
#[inline(always)]
pub fn widest(size: usize) -> usize {
    (size - HEADER) / 2
}

/// The words of a store.
#[inline(always)]
pub fn store_length(capacity: u64, nodes: u64) -> u64 {
    first(capacity as usize, nodes as usize) as u64
}

/// The place of node n's first word in a store.
#[inline(always)]
pub fn first(capacity: usize, n: usize) -> usize {
    STORE_HEADER + n * node_size(capacity)
}

/// The words of node n of a store.
#[inline(always)]
pub fn node(words: &[u64], capacity: usize, n: usize) -> &[u64] {
    &words[first(capacity, n)..][..node_size(capacity)]
}

/// The place of row i in a node.
#[inline(always)]
pub fn row(i: usize) -> usize {
    HEADER + STEP * i
}

/// The place of page or child number i in a node. A number stands beside its row; that the capacity is asked for keeps the
/// callers from relying on it.
#[inline(always)]
pub fn number(_capacity: usize, i: usize) -> usize {
    row(i) + NUMBER
}

/// The words that have a node's first `count` rows, STEP words each.
#[inline(always)]
pub fn rows(node: &[u64], count: usize) -> &[u64] {
    &node[row(0)..row(count)]
}

/// The words that have a node's first `count` page or child numbers, STEP words each.
#[inline(always)]
pub fn numbers(node: &[u64], _capacity: usize, count: usize) -> &[u64] {
    rows(node, count)
}

/// The words in use of a node with `count` entries, in the pieces in which they stand.
#[inline(always)]
pub fn used(node: &[u64], _capacity: usize, count: usize) -> [&[u64]; 1] {
    [&node[..row(count)]]
}
