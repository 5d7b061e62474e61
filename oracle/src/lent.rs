//! What a call leaves of everything that it was lent, through the C functions: stores of any words and any length, cursors of any
//! flag and any length, lists and answers of any length. A refusal, and a lookup or a step of a walk that gives none, change
//! nothing but the answer. The Rust has no part in it.
use crate::places;
use crate::random::Random;
use crate::store::{Answer, Store, lent};
use crate::tally::Tally;

const NONE: u64 = u64::MAX;
/// What the lists and the answer's array hold before a call.
const STALE: u64 = 0xABAD_1DEA;

#[derive(Debug, Clone, PartialEq, Eq)]
struct Arrays {
    words: Vec<u64>,
    pages: Vec<u64>,
    cursor: Vec<u64>,
    records: Vec<u64>,
}

#[derive(Debug, Clone)]
enum Call {
    Create(u64, u64, u64),
    Append(u64, u64),
    Find(u64),
    Prune(u64, u64, Vec<u64>),
    Destroy(u64),
    DestroyEmpty,
    Check,
    Next,
}

impl Call {
    fn make(&self, on: &mut Arrays, answer: &mut [u64]) -> u64 {
        match self {
            Call::Create(c, p, start) => lent::create(&mut on.words, *c, *p, *start, answer),
            Call::Append(count, page) => lent::append(&mut on.words, *count, *page, answer),
            Call::Find(row) => lent::find(&on.words, *row, answer),
            Call::Prune(start, end, ids) => lent::prune(&mut on.words, *start, *end, ids, answer),
            Call::Destroy(pivot) => lent::destroy(&mut on.words, *pivot, &mut on.pages, answer),
            Call::DestroyEmpty => lent::destroy_empty(&mut on.words, answer),
            Call::Check => lent::check(&on.words, answer),
            Call::Next => lent::next(&on.words, &mut on.cursor, &mut on.records, answer),
        }
    }

    /// Whether an answer without values means none.
    fn may_give_none(&self) -> bool {
        matches!(self, Call::Find(_) | Call::Next)
    }
}

/// A number at a limit, near another one, or any.
fn number(r: &mut Random, near: u64) -> u64 {
    match r.below(8) {
        0 => 0,
        1 => NONE,
        2 => (1 << 62) + r.below(3) - 1,
        3 => r.word(),
        _ => near.wrapping_add(r.below(30)).wrapping_sub(10),
    }
}

/// A store as appends, a prune and perhaps a release leave it.
fn made(r: &mut Random) -> Store {
    let start = r.below(2) * 100;
    let mut store = Store::new(2 + r.below(4), 1 + r.below(24), start).expect("create accepts");
    let (mut ids, mut ends) = (Vec::new(), Vec::new());
    for page in 0..r.below(40) {
        if let Ok(range) = store.append(1 + r.below(10), page) {
            ids.push(page);
            ends.push(range.end);
        }
    }
    if r.below(2) == 0 && !ids.is_empty() {
        let last = r.below(ids.len() as u64) as usize;
        store.prune(start, ends[last], &ids[..=last]).expect("a prefix");
    }
    if r.below(8) == 0 {
        store.destroy(0, &mut [0; 40]).expect("released");
    }
    store
}

/// The store with some words changed, or with another length.
fn damage(r: &mut Random, words: &mut Vec<u64>) {
    for _ in 0..[0, 0, 1, 1, 2, 4][r.below(6) as usize] {
        let i = match r.below(3) {
            0 => r.below(5),
            _ => r.below(words.len() as u64),
        } as usize;
        words[i] = match r.below(4) {
            0 => words[1],
            1 => r.below(40),
            _ => number(r, words[i]),
        };
    }
    match r.below(16) {
        0 => words.truncate(r.below(places::STORE_HEADER as u64 + 1) as usize),
        1 => words.truncate(words.len() - 1),
        2 => words.push(r.word()),
        _ => {}
    }
}

fn calls(r: &mut Random, words: &[u64]) -> Vec<Call> {
    let (c, p) = (words.first().copied().unwrap_or(2), words.get(1).copied().unwrap_or(1));
    let ids = (0..r.below(5)).collect();
    vec![
        Call::Create([c, 2, 1, 4095, NONE][r.below(5) as usize], [p, 1, 0, 65_536, NONE][r.below(5) as usize], number(r, 50)),
        Call::Append([1, 10, 0, NONE][r.below(4) as usize], r.word()),
        Call::Find(number(r, 60)),
        Call::Prune(number(r, 0), number(r, 20), ids),
        Call::Destroy(number(r, 0)),
        Call::DestroyEmpty,
        Call::Check,
        Call::Next,
    ]
}

/// A cursor of any length; its flag is that of a walk under way in most.
fn cursor(r: &mut Random) -> Vec<u64> {
    let flag = [0, 0, 0, 1, 2, 7, NONE][r.below(7) as usize];
    let mut c = vec![number(r, 60), flag, r.word(), r.word()];
    c.truncate([2, 2, 2, 4, 3, 1, 0][r.below(7) as usize]);
    c
}

fn list(r: &mut Random, enough: u64) -> Vec<u64> {
    vec![STALE; [enough, enough + 3, r.below(enough + 1)][r.below(3) as usize] as usize]
}

/// What is wrong with what a call left, if anything is.
fn fault(call: &Call, before: &Arrays, after: &Arrays, a: &Answer, number: u64) -> Option<&'static str> {
    if number != a[0] || a[2 + a[1] as usize..].iter().any(|w| *w != 0) {
        return Some("the answer's words");
    }
    if number != 0 || (call.may_give_none() && a[1] == 0) {
        return (before != after).then_some("a refusal or none changed what was lent");
    }
    if let Call::Next = call {
        let (mut wanted, given) = (before.clone(), 2 * a[4] as usize);
        wanted.cursor[..2].copy_from_slice(&[a[3], after.cursor[1].min(1)]);
        wanted.records[..given].copy_from_slice(&after.records[..given]);
        return (wanted != *after).then_some("a step changed more than it gave");
    }
    None
}

/// Lent arrays for each call, then the same call with answers of other lengths.
fn one(tally: &mut Tally, r: &mut Random) {
    let mut words = made(r).words;
    let capacity = words[0];
    damage(r, &mut words);
    for call in calls(r, &words) {
        let before =
            Arrays { words: words.clone(), pages: list(r, 40), cursor: cursor(r), records: list(r, 2 * capacity) };
        let (mut after, mut answer) = (before.clone(), [STALE; 7]);
        let number = call.make(&mut after, &mut answer);
        tally.lent(number, number == 0 && call.may_give_none() && answer[1] == 0);
        if let Some(text) = fault(&call, &before, &after, &answer, number) {
            tally.unlisted(format!("{text}: {call:?} on {before:?} answers {answer:?}"));
        }
        let (mut again, mut other) = (before.clone(), vec![STALE; r.below(10) as usize]);
        let same = call.make(&mut again, &mut other) == number && again == after;
        let fits = other.len().min(7);
        if !same || other[..fits] != answer[..fits] || other[fits..].iter().any(|w| *w != STALE) {
            tally.unlisted(format!("an answer of {} words: {call:?} on {before:?}", other.len()));
        }
    }
    let (mut c, row) = (cursor(r), r.word());
    let mut wanted = c.clone();
    wanted.iter_mut().zip([row, 0]).for_each(|(w, x)| *w = x);
    lent::seek(&mut c, row);
    if c != wanted {
        tally.unlisted(format!("seek of {row} leaves {c:?}"));
    }
}

pub fn run(tally: &mut Tally, count: u64) {
    let (mut c, mut answer) = ([0, 2], [STALE; 7]);
    let number = lent::next(&[], &mut c, &mut [], &mut answer);
    if (number, c, answer) != (2, [0, 2], [2, 1, 65_535, 0, 0, 0, 0]) {
        tally.unlisted(format!("next on no words with cursor 0, 2: {answer:?}, cursor {c:?}"));
    }
    for seed in 1..=count {
        one(tally, &mut Random::new(seed));
    }
}
