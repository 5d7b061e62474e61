//! What the proved functions are compared with: plain safe Rust that makes the same checks, and a sum.

use crate::places::{self, NUMBER, STEP};
use crate::store::{FREE_MARK, MAX_HEIGHT, MAX_POOL, NONE, ROW_LIMIT};

pub const REFUSED: u64 = u64::MAX;
pub const UNSOUND: u64 = u64::MAX - 1;

/// All the words, added up.
#[inline(never)]
pub fn sum(words: &[u64]) -> u64 {
    words.iter().fold(0, |a, w| a.wrapping_add(*w))
}

#[derive(Clone, Copy)]
struct Store<'a> {
    words: &'a [u64],
    capacity: usize,
    pool: usize,
    root: usize,
}

fn open(words: &[u64]) -> Option<Store<'_>> {
    let &[capacity, pool, root, free_head, free_count, ..] = words else { return None };
    let good = (2..=4094).contains(&capacity)
        && (1..=MAX_POOL as u64).contains(&pool)
        && words.len() as u64 == places::store_length(capacity, pool)
        && root < pool
        && free_head <= pool
        && free_count <= pool;
    good.then_some(Store { words, capacity: capacity as usize, pool: pool as usize, root: root as usize })
}

/// Whether these rows rise strictly, above `before`. With FOUR, four rows a turn.
fn rise<const FOUR: bool>(mut before: u64, rows: &[u64]) -> bool {
    let mut rest = rows;
    if FOUR {
        let mut turns = rows.chunks_exact(4 * STEP);
        for r in &mut turns {
            if r[0] <= before || r[STEP] <= r[0] || r[2 * STEP] <= r[STEP] || r[3 * STEP] <= r[2 * STEP] {
                return false;
            }
            before = r[3 * STEP];
        }
        rest = turns.remainder();
    }
    for r in rest.chunks_exact(STEP) {
        if r[0] <= before {
            return false;
        }
        before = r[0];
    }
    true
}

fn end_fits(node: &[u64], height: u64, next: Option<u64>) -> bool {
    height == 0 || node[3] == NONE || next == Some(node[3])
}

impl<'a> Store<'a> {
    fn node(&self, n: usize) -> &'a [u64] {
        places::node(self.words, self.capacity, n)
    }

    /// The node test: the first child number out of range, or the count.
    fn test<const FOUR: bool>(&self, node: &[u64], height: u64, row: u64, next: Option<u64>) -> Option<usize> {
        let count = node[1] as usize;
        if node[0] != height || count < 1 || self.capacity < count || node[2] != row || node[places::row(0)] != row {
            return None;
        }
        let (end, rows) = (node[3], places::rows(node, count));
        let last = rows[STEP * (count - 1)];
        let ends = if height == 0 {
            last < end && end <= ROW_LIMIT && next.is_none_or(|r| end == r)
        } else {
            end == NONE || last < end
        };
        if !ends {
            return None;
        }
        if !rise::<FOUR>(row, &rows[STEP..]) {
            return None;
        }
        if height == 0 {
            return Some(count);
        }
        let mut numbers = places::numbers(node, self.capacity, count).chunks_exact(STEP);
        Some(numbers.position(|n| self.pool as u64 <= n[NUMBER]).unwrap_or(count))
    }

    /// The node test, and with ends the test of a branch's end.
    fn pass<const FOUR: bool>(&self, node: &[u64], ends: bool, height: u64, row: u64, next: Option<u64>) -> Option<usize> {
        if ends && !end_fits(node, height, next) {
            return None;
        }
        self.test::<FOUR>(node, height, row, next)
    }
}

/// As `bench_test_node`.
pub fn test_node(words: &[u64], node: u64, height: u64, row: u64, next: Option<u64>) -> u64 {
    match open(words) {
        Some(s) if node < s.pool as u64 => s.test::<false>(s.node(node as usize), height, row, next).map_or(UNSOUND, |first| first as u64),
        _ => REFUSED,
    }
}

struct Frame<'a> {
    node: &'a [u64],
    index: usize,
    first: usize,
    next: Option<u64>,
}

/// As `bench_survey`: the nodes of a sound tree.
#[inline(never)]
pub fn survey<const FOUR: bool>(words: &[u64], ends: bool) -> u64 {
    walk::<FOUR, false>(words, ends)
}

/// With ONCE, a branch whose end is wrong refuses the tree after all nodes were tested.
#[inline(always)]
fn walk<const FOUR: bool, const ONCE: bool>(words: &[u64], ends: bool) -> u64 {
    let Some(s) = open(words) else { return REFUSED };
    let root = s.node(s.root);
    if root[0] == 0 && root[1] == 0 && root[2] <= ROW_LIMIT && root[3] == NONE {
        return 1;
    }
    if MAX_HEIGHT < root[0] {
        return REFUSED;
    }
    let Some(first) = s.pass::<FOUR>(root, ends, root[0], root[2], None) else { return REFUSED };
    let mut right = !ONCE || end_fits(root, root[0], None);
    let mut nodes = 1;
    let mut stack = vec![Frame { node: root, index: 0, first, next: None }];
    while let Some(top) = stack.last_mut() {
        let (node, index) = (top.node, top.index);
        let count = node[1] as usize;
        if node[0] == 0 || count <= index {
            stack.pop();
            continue;
        }
        if top.first <= index {
            return REFUSED;
        }
        top.index += 1;
        let rows = places::rows(node, count);
        let next = if index + 1 < count { Some(rows[STEP * (index + 1)]) } else { top.next };
        let child = s.node(node[places::number(s.capacity, index)] as usize);
        let Some(first) = s.pass::<FOUR>(child, ends, node[0] - 1, rows[STEP * index], next) else { return REFUSED };
        right &= !ONCE || end_fits(child, node[0] - 1, next);
        nodes += 1;
        stack.push(Frame { node: child, index: 0, first, next });
    }
    if right { nodes } else { REFUSED }
}

/// As `bench_check`: both readings of the tree, then the chain and the counts.
#[inline(never)]
pub fn check<const FOUR: bool>(words: &[u64]) -> u64 {
    let nodes = survey::<FOUR>(words, false);
    if nodes == REFUSED || survey::<FOUR>(words, true) == REFUSED {
        return REFUSED;
    }
    chain(words, nodes)
}

/// The same, with the tree read once.
#[inline(never)]
pub fn check_once<const FOUR: bool>(words: &[u64]) -> u64 {
    match walk::<FOUR, true>(words, false) {
        REFUSED => REFUSED,
        nodes => chain(words, nodes),
    }
}

/// The chain and the counts, after a tree of so many nodes.
#[inline(always)]
fn chain(words: &[u64], nodes: u64) -> u64 {
    let Some(s) = open(words) else { return REFUSED };
    let mut n = words[3];
    for _ in 0..words[4] {
        if s.pool as u64 <= n {
            return REFUSED;
        }
        let node = s.node(n as usize);
        if node[0] != FREE_MARK {
            return REFUSED;
        }
        n = node[1];
    }
    if n == s.pool as u64 && nodes + words[4] == n { nodes } else { REFUSED }
}

/// As `bench_destroy`: the tree read, then its page ids listed and its nodes freed, children first.
#[inline(never)]
pub fn destroy<const FOUR: bool>(words: &mut [u64], pages: &mut [u64]) -> u64 {
    let nodes = survey::<FOUR>(words, false);
    if nodes == REFUSED {
        return REFUSED;
    }
    let (capacity, pool, root) = (words[0] as usize, words[1], words[2]);
    let mut stack = vec![(root, 0usize)];
    let mut place = 0;
    while let Some(top) = stack.last_mut() {
        let (n, index) = *top;
        let at = places::first(capacity, n as usize);
        if words[at] != 0 && index < words[at + 1] as usize {
            top.1 = index + 1;
            stack.push((words[at + places::number(capacity, index)], 0));
            continue;
        }
        if words[at] == 0 {
            for i in 0..words[at + 1] as usize {
                let Some(page) = pages.get_mut(place) else { return REFUSED };
                *page = words[at + places::number(capacity, i)];
                place += 1;
            }
        }
        stack.pop();
    }
    let mut stack = vec![(root, 0usize)];
    while let Some(top) = stack.last_mut() {
        let (n, index) = *top;
        let at = places::first(capacity, n as usize);
        if words[at] != 0 && index < words[at + 1] as usize {
            top.1 = index + 1;
            stack.push((words[at + places::number(capacity, index)], 0));
            continue;
        }
        words[at] = FREE_MARK;
        words[at + 1] = words[3];
        words[3] = n;
        words[4] += 1;
        stack.pop();
    }
    words[2] = pool;
    nodes
}
