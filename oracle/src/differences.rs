//! Each point of docs/DIFFERENCES.md at its smallest input, at C = 2: what the Rust does and what the port does, exactly.
use crate::exhaustive;
use crate::listed_at;
use crate::pair::{LIMIT, Pair};
use crate::shape::{self, NONE};
use crate::store::{Appended, Checked, Pruned, Refusal, Store};
use crate::tally::{Difference, Tally};
use calls::{Failure, Index};
use std::fmt::Debug;

const UNLIMITED: u64 = 1000;

fn refusal(number: u64, detail: u64) -> Refusal {
    Refusal { number, detail }
}

/// Appends of 10 rows with pages 1, 2, … to the Rust and to the port.
fn appended(count: u64, nodes: u64) -> (Box<dyn Index>, Store) {
    let mut rust = listed_at(2)(0, nodes).unwrap();
    let mut ours = Store::new(2, nodes, 0).unwrap();
    for page in 1..=count {
        assert!(rust.append(10, page).is_ok() && ours.append(10, page).is_ok());
    }
    (rust, ours)
}

struct Point<'a> {
    tally: &'a mut Tally,
    difference: Difference,
}

impl Point<'_> {
    /// Demands it of the smallest input, or of a smaller one.
    fn holds<T: PartialEq + Debug>(&mut self, what: &str, found: T, wanted: T) {
        if found != wanted {
            let d = self.difference as u8;
            self.tally.unlisted(format!("difference {d}, smallest input: {what} {found:?}, listed {wanted:?}"));
        }
    }
}

pub fn smallest(tally: &mut Tally) {
    let points: [(Difference, fn(Point)); 7] = [
        (Difference::WalkStops, walk_stops),
        (Difference::LostNodes, lost_nodes),
        (Difference::NoRows, no_rows),
        (Difference::RowsAbove, rows_above),
        (Difference::FreeOrder, free_order),
        (Difference::Assertion, assertion),
        (Difference::SeekNone, seek_none),
    ];
    for (difference, check) in points {
        check(Point { tally, difference });
        tally.difference(difference);
    }
}

/// Nine appends; walk from 0. No sequence of fewer calls has it.
fn walk_stops(mut point: Point) {
    let pair = |tally: &mut Tally, count| {
        let mut pair = Pair::new(tally, listed_at(2), 2, 50, 0);
        for page in 1..=count {
            pair.append(tally, 10, page);
        }
        pair
    };
    let mut nine = pair(point.tally, 9);
    let starts = |leaves: Vec<calls::Leaf>| leaves.iter().map(|l| l.start).collect::<Vec<u64>>();
    point.holds("Rust", starts(nine.rust.walk(Some(0)).unwrap()), vec![0, 20, 40, 60]);
    point.holds("port", starts(nine.our_leaves(Some(0)).unwrap()), vec![0, 20, 40, 60, 80]);
    let mut fewer = Tally::default();
    exhaustive::sequences(&mut fewer, listed_at(2), 2, 50, 8);
    point.holds("met by fewer calls", fewer.met.get(&Difference::WalkStops).copied(), None);
}

/// A pool of 2 nodes, three appends: the third needs 2, and 1 is free.
fn lost_nodes(mut point: Point) {
    let (mut rust, mut ours) = appended(2, 2);
    let before = (rust.shape(), ours.clone());
    let failed = rust.append(10, 3).err();
    let wanted = "IndexAccess; BufferPageAllocation; operation=allocate_row_page_index_node";
    point.holds("Rust", failed, Some(Failure::Error(wanted.into())));
    point.holds("the Rust's tree", (rust.shape(), rust.taken()), (before.0, 2));
    rust.recover();
    point.holds("nodes that the Rust reaches", rust.taken(), 1);
    point.holds("port", ours.append(10, 3).err(), Some(refusal(5, 2)));
    point.holds("the port's words", &ours, &before.1);
    point.holds("the port's counts", ours.check(), Ok(Checked { entries: 2, nodes: 1, free: 1 }));
    lost_later(point);
}

/// A pool of 10 nodes, nine appends, prune 0 to 20, an append: 4 nodes are needed and free, but the Rust lost 3.
fn lost_later(mut point: Point) {
    let (mut rust, mut ours) = appended(8, 10);
    point.holds("port, ninth append", ours.append(10, 9).err(), Some(refusal(5, 4)));
    point.holds("Rust, ninth append", rust.append(10, 9).is_err(), true);
    point.holds("prune", (rust.prune(0, 20, &[1, 2]).is_ok(), ours.prune(0, 20, &[1, 2]).is_ok()), (true, true));
    point.holds("port, later append", ours.append(10, 9), Ok(Appended { start: 80, end: 90, taken: 4 }));
    point.holds("Rust, later append", rust.append(10, 9).is_err(), true);
}

/// An append of 0 rows to an empty store.
fn no_rows(mut point: Point) {
    let (mut rust, mut ours) = appended(0, UNLIMITED);
    point.holds("Rust", (rust.append(0, 1), rust.append(0, 2)), (Ok((0, 0)), Ok((0, 0))));
    point.holds("the Rust's root", rust.shape(), vec![0, 2, 0, 0, 0, 0, 1, 2]);
    point.holds("port", ours.append(0, 1).err(), Some(refusal(4, 0)));
}

/// An append of 2^62 + 1 rows to an empty store, and a create that starts there.
fn rows_above(mut point: Point) {
    let (mut rust, mut ours) = appended(0, UNLIMITED);
    point.holds("port", ours.append(LIMIT + 1, 1).err(), Some(refusal(4, 0)));
    let most = Appended { start: 0, end: LIMIT, taken: 0 };
    point.holds("port, one row less", ours.append(LIMIT, 1), Ok(most));
    point.holds("Rust", rust.append(LIMIT + 1, 1), Ok((0, LIMIT + 1)));
    point.holds("Rust, create", listed_at(2)(LIMIT + 1, 1).is_ok(), true);
    point.holds("port, create", Store::new(2, 1, LIMIT + 1).err(), Some(refusal(4, 0)));
}

/// The numbers of the nodes that a prune of `named` entries frees: the Rust's, then the port's. Before a first freeing both
/// number nodes alike.
fn freed(count: u64, named: u64) -> (Vec<u64>, Vec<u64>, Pruned) {
    let (mut rust, mut ours) = appended(count, UNLIMITED);
    let ids: Vec<u64> = (1..=named).collect();
    rust.prune(0, 10 * named, &ids).unwrap();
    let answer = ours.prune(0, 10 * named, &ids).unwrap();
    let mut chain = shape::chain(&ours.words, answer.freed as usize);
    chain.reverse();
    (rust.freed().iter().map(|f| f.node).collect(), chain, answer)
}

/// Five appends, prune 0 to 40. No smaller tree and no shorter prefix has it.
fn free_order(mut point: Point) {
    let (rust, ours, answer) = freed(5, 4);
    point.holds("Rust", rust, vec![3, 2, 1, 4, 5]);
    point.holds("port", ours, vec![1, 2, 3, 5, 4]);
    point.holds("answer", answer, Pruned { removed: 4, freed: 5, levels: 2 });
    for (count, named) in (1..=5).flat_map(|c| (1..=c).map(move |n| (c, n))).take_while(|i| *i != (5, 4)) {
        let (rust, ours, _) = freed(count, named);
        point.holds("order in a smaller tree", rust, ours);
    }
}

/// A prune without ids on an empty store; one append and a prune 0 to 20 of page 1.
fn assertion(mut point: Point) {
    let (mut rust, mut ours) = appended(0, UNLIMITED);
    let panics = |text: &str| Some(Failure::Panic(text.into()));
    point.holds("Rust", rust.prune(0, 1, &[]).err(), panics("checkpoint row-page prefix has no page ids"));
    point.holds("port", ours.prune(0, 1, &[]).err(), Some(refusal(7, 0)));
    let (mut rust, mut ours) = appended(1, UNLIMITED);
    let mismatch =
        "assertion `left == right` failed: checkpoint row-page prefix end mismatch\n  left: RowID(10)\n right: RowID(20)";
    point.holds("Rust", rust.prune(0, 20, &[1]).err(), panics(mismatch));
    point.holds("port", ours.prune(0, 20, &[1]).err(), Some(refusal(10, 1)));
}

/// A walk from NONE on an empty store.
fn seek_none(mut point: Point) {
    let mut pair = Pair::new(point.tally, listed_at(2), 2, 1, 0);
    let assertion = Failure::Panic("assertion failed: row_id != INVALID_ROW_ID".into());
    point.holds("Rust", pair.rust.walk(Some(NONE)).err(), Some(assertion));
    let root = calls::Leaf { start: 0, end: NONE, entries: vec![] };
    point.holds("port", pair.our_leaves(Some(NONE)), Ok(vec![root]));
}
