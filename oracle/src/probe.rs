//! Calls on one state of a pair: lookups, walks, cuts, releases, and calls that are refused. What is accepted and changes
//! something is made on a copy.
use crate::pair::{LIMIT, Pair};
use crate::places;
use crate::shape::NONE;
use crate::store::{Cursor, Refusal, Store};
use crate::tally::{Difference, Kind, OTHER, Tally};

/// Rows at and around these entries, the start, the end and the limits.
fn rows(pair: &Pair, places: &[usize]) -> Vec<u64> {
    let mut rows = vec![0, pair.start, pair.end, pair.end + 1, LIMIT - 1, LIMIT, NONE - 1, NONE];
    for i in places {
        let row = pair.entries[*i].0;
        rows.extend([row, row + 1, row.saturating_sub(1)]);
    }
    rows.extend([pair.start.saturating_sub(1), pair.end.saturating_sub(1)]);
    rows.sort();
    rows.dedup();
    rows
}

/// Everything at every entry.
pub fn all(tally: &mut Tally, pair: &mut Pair) {
    let places: Vec<usize> = (0..pair.entries.len()).collect();
    at(tally, pair, &places);
}

/// Everything at these entries: lookups and walks around them, cuts that end before and after them.
pub fn at(tally: &mut Tally, pair: &mut Pair, places: &[usize]) {
    pair.check(tally);
    for row in rows(pair, places) {
        pair.find(tally, row);
        pair.walk(tally, row);
    }
    pair.never_sought(tally);
    for count in places.iter().map(|i| i + 1) {
        cut(tally, pair, count);
        refused_cuts(tally, pair, count);
    }
    other_refused_cuts(tally, pair);
    releases(tally, pair);
    appends(tally, pair);
}

fn cut(tally: &mut Tally, pair: &Pair, count: usize) {
    let mut copy = pair.copy();
    copy.prune_first(tally, count);
    copy.compare_shape(tally);
    copy.check(tally);
}

/// A prune of so many entries with each argument wrong in turn, and with two of them wrong.
fn refused_cuts(tally: &mut Tally, pair: &mut Pair, count: usize) {
    let (start, (end, ids)) = (pair.start, pair.prefix(count));
    let last = count - 1;
    let mut wrong = ids.clone();
    wrong[last] ^= 1;
    pair.prune(tally, start, end, &wrong);
    pair.prune(tally, start, end - 1, &wrong);
    wrong[0] ^= 2;
    pair.prune(tally, start, end, &wrong);
    pair.prune(tally, start, end - 1, &ids);
    pair.prune(tally, start, end + 1, &ids);
    pair.prune(tally, start, NONE, &ids);
    pair.copy().prune(tally, start, start + 1 + (end - start) / 2, &ids[..last]);
    pair.prune(tally, start + 1, end, &ids);
    pair.prune(tally, end, end + 1, &ids);
    pair.prune(tally, end, start, &ids);
    if count > 1 {
        pair.prune(tally, start, end, &ids[..last]);
        pair.prune(tally, start, end, &ids[1..]);
    }
}

/// Prunes without ids, of an empty range, and of more entries than there are.
fn other_refused_cuts(tally: &mut Tally, pair: &mut Pair) {
    let (start, (end, mut ids)) = (pair.start, pair.prefix(pair.entries.len()));
    pair.prune(tally, start, start + 1, &[]);
    pair.prune(tally, start + 1, start, &[]);
    ids.push(17);
    pair.prune(tally, start, start, &ids);
    pair.prune(tally, start, end.max(start + 1), &ids);
    pair.prune(tally, start, end + 10, &ids);
    pair.prune(tally, 0, 1, &ids);
    pair.prune(tally, NONE - 1, NONE, &ids);
}

fn releases(tally: &mut Tally, pair: &mut Pair) {
    pair.copy().release_empty(tally);
    let mut pivots = vec![0, pair.start, pair.start + 1, pair.end, NONE];
    pivots.extend(pair.entries.iter().skip(1).step_by(1 + pair.entries.len() / 4).map(|e| e.0));
    pivots.dedup();
    for pivot in pivots {
        pair.copy().release(tally, pivot);
    }
    let mut copy = pair.copy();
    copy.release(tally, 0);
    closed(tally, copy);
    short_lists(tally, pair);
}

/// Difference 7: the Rust's index is gone after a release; the port answers 3.
fn closed(tally: &mut Tally, pair: Pair) {
    let capacity = pair.capacity as usize;
    let mut store = pair.ours;
    let before = store.clone();
    let wanted = Refusal { number: 3, detail: 0 };
    let mut cursor = Cursor::new();
    cursor.seek(0);
    let answers = [
        store.append(1, 1).err(),
        store.find(0).err(),
        store.prune(0, 1, &[1]).err(),
        store.next(&mut cursor, &mut vec![0; 2 * capacity]).err(),
        store.destroy(0, &mut []).err(),
        store.destroy_empty().err(),
        store.check().err(),
    ];
    if answers != [Some(wanted); 7] || store != before {
        tally.unlisted(format!("on a closed store: {answers:?}"));
    }
    answers.iter().for_each(|_| tally.refusal(3));
    tally.difference(Difference::Added);
}

/// Difference 7: the Rust lends no lists. Too short a list is 13 with the length wanted, and an exact one is enough.
fn short_lists(tally: &mut Tally, pair: &Pair) {
    let (entries, capacity) = (pair.entries.len(), pair.capacity);
    let mut cursor = Cursor::new();
    cursor.seek(0);
    let kept = cursor;
    let next = pair.ours.next(&mut cursor, &mut vec![0; 2 * capacity as usize - 1]).err();
    tally.refusal(13);
    let mut good = next == Some(Refusal { number: 13, detail: capacity }) && cursor == kept;
    if entries > 0 {
        let mut store = pair.ours.clone();
        let short = store.destroy(0, &mut vec![0; entries - 1]).err();
        good &= short == Some(Refusal { number: 13, detail: entries as u64 }) && store == pair.ours;
        good &= store.destroy(0, &mut vec![0; entries]).is_ok();
        tally.refusal(13);
    }
    if !good {
        tally.unlisted(format!("short lists at C = {capacity}, {entries} entries"));
    }
    tally.difference(Difference::Added);
}

fn appends(tally: &mut Tally, pair: &mut Pair) {
    pair.append(tally, 0, 1);
    pair.append(tally, LIMIT - pair.end + 1, 1);
    pair.append(tally, NONE - pair.end, 1);
    pair.append(tally, NONE, 1);
    let mut copy = pair.copy();
    if copy.end < LIMIT {
        copy.append(tally, LIMIT - copy.end, 1);
        copy.compare_shape(tally);
        copy.find(tally, LIMIT - 1);
    }
    if copy.end == LIMIT {
        copy.append(tally, 1, 2);
        copy.compare_shape(tally);
    }
}

/// Difference 7: create's refusals 1. The Rust has its capacity at build time and a pool of its own.
pub fn creates(tally: &mut Tally) {
    let one = |tally: &mut Tally, length: u64, c: u64, p: u64, start: u64, number: u64| {
        tally.call(if (2..=4094).contains(&c) { c } else { OTHER }, Kind::Create);
        let mut store = Store { words: vec![5; length as usize] };
        let before = store.clone();
        if store.create(c, p, start) != Err(Refusal { number, detail: 0 }) || store != before {
            tally.unlisted(format!("create of C {c}, P {p}, start {start} in {length} words"));
        }
        tally.refusal(number);
        tally.difference(if number == 1 { Difference::Added } else { Difference::RowsAbove });
    };
    for c in [0, 1, 4095, NONE] {
        one(tally, 100, c, 1, 0, 1);
    }
    for p in [0, 65_536, NONE] {
        one(tally, 100, 2, p, 0, 1);
    }
    for c in [2, 3, 64, 4094] {
        let (header, exact) = (places::STORE_HEADER as u64, Store::length(c, 3));
        for length in [0, header - 1, header, exact - 1, exact + 1] {
            one(tally, length, c, 3, LIMIT + 1, 1);
        }
        for start in [LIMIT + 1, NONE] {
            one(tally, exact, c, 3, start, 4);
        }
    }
}
