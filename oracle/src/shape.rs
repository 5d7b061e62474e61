//! The shape of a tree: the nodes in reading order, each as height, count, start, end, rows, and in a leaf the pages.
use crate::places;
use calls::Leaf;

pub const NONE: u64 = u64::MAX;

/// The words of a node.
fn node(words: &[u64], number: u64) -> &[u64] {
    places::node(words, words[0] as usize, number as usize)
}

/// The page or child numbers in use of a node.
fn numbers(words: &[u64], number: u64) -> impl Iterator<Item = &u64> {
    let node = node(words, number);
    places::numbers(node, words[0] as usize, node[1] as usize).iter().skip(places::NUMBER).step_by(places::STEP)
}

/// The shape of the tree in a store's words.
pub fn of_words(words: &[u64]) -> Vec<u64> {
    let mut out = Vec::new();
    before_children(words, words[2], &mut out);
    out
}

fn before_children(words: &[u64], number: u64, out: &mut Vec<u64>) {
    let node = node(words, number);
    out.extend(&node[..places::HEADER]);
    out.extend(places::rows(node, node[1] as usize).iter().step_by(places::STEP));
    if node[0] == 0 {
        out.extend(numbers(words, number));
    } else {
        numbers(words, number).for_each(|n| before_children(words, *n, out));
    }
}

/// The number, height and start of each node of a store's tree, children before parents, left to right.
pub fn postorder(words: &[u64]) -> Vec<[u64; 3]> {
    let mut out = Vec::new();
    after_children(words, words[2], &mut out);
    out
}

fn after_children(words: &[u64], number: u64, out: &mut Vec<[u64; 3]>) {
    let node = node(words, number);
    if node[0] > 0 {
        numbers(words, number).for_each(|n| after_children(words, *n, out));
    }
    out.push([number, node[0], node[2]]);
}

/// The first word of a node.
pub fn height(words: &[u64], number: u64) -> u64 {
    node(words, number)[0]
}

/// The first so many numbers of a store's free chain.
pub fn chain(words: &[u64], count: usize) -> Vec<u64> {
    let mut out = Vec::new();
    let mut number = words[3];
    while out.len() < count && number < words[1] {
        out.push(number);
        number = node(words, number)[1];
    }
    out
}

/// A leaf of a shape, and whether the listed Rust's cursor stops after it: it is the last child of a branch of height 1 that
/// ends at NONE, or the root.
#[derive(Debug, Clone)]
pub struct LeafAt {
    pub leaf: Leaf,
    pub stops: bool,
}

pub fn leaves(shape: &[u64]) -> Vec<LeafAt> {
    let mut out = Vec::new();
    let rest = leaves_of(shape, true, &mut out);
    assert!(rest.is_empty());
    out
}

fn leaves_of<'a>(shape: &'a [u64], stops: bool, out: &mut Vec<LeafAt>) -> &'a [u64] {
    let [height, count, start, end, ..] = *shape else { panic!("a shape begins with a node") };
    let (rows, mut rest) = shape[4..].split_at(count as usize);
    if height == 0 {
        let (pages, rest) = rest.split_at(count as usize);
        let entries = rows.iter().copied().zip(pages.iter().copied()).collect();
        out.push(LeafAt { leaf: Leaf { start, end, entries }, stops });
        return rest;
    }
    for i in 0..count {
        rest = leaves_of(rest, height == 1 && i + 1 == count && end == NONE, out);
    }
    rest
}

/// Height, count and whether the end is NONE, of each node: what is left of a shape without its rows and pages.
pub fn outline(shape: &[u64]) -> Vec<u32> {
    let mut out = Vec::new();
    let mut rest = shape;
    while let [height, count, _, end, ..] = *rest {
        out.push((height as u32) << 20 | (count as u32) << 1 | u32::from(end == NONE));
        rest = &rest[4 + count as usize * if height == 0 { 2 } else { 1 }..];
    }
    out
}
