//! A store of the port beside an index of the listed Rust. Every call is made on both, and what they answer is compared; where
//! they may differ, the exact difference is demanded. The calls give the port's answer.
use crate::shape::{self, NONE};
use crate::store::{Appended, Checked, Cursor, Pruned, Refusal, Released, Store};
use crate::tally::{Difference, Kind, Tally};
use calls::{Create, Failure, Index, Leaf};
use std::fmt::Debug;

pub const LIMIT: u64 = 1 << 62;
/// More nodes than any store here has.
const UNLIMITED: u64 = 1 << 20;

/// A call as it is logged and recorded.
#[derive(Debug, Clone, PartialEq, Eq)]
pub enum Call {
    Create(u64, u64, u64),
    Append(u64, u64),
    Find(u64),
    Prune(u64, u64, Vec<u64>),
    Walk(u64),
    NeverSought,
    Release(u64),
    ReleaseEmpty,
    Shape,
}

pub struct Pair {
    pub capacity: u64,
    pub nodes: u64,
    pub ours: Store,
    pub rust: Box<dyn Index>,
    /// Row and page of each entry, and where the next one begins; arguments are made from it.
    pub entries: Vec<(u64, u64)>,
    pub start: u64,
    pub end: u64,
    /// The calls that changed the two.
    log: Vec<Call>,
}

fn refusal(number: u64, detail: u64) -> Refusal {
    Refusal { number, detail }
}

/// The number that follows `name` in a message.
fn number_after(message: &str, name: &str) -> Option<u64> {
    let rest = &message[message.find(name)? + name.len()..];
    let digits = rest.find(|c: char| !c.is_ascii_digit()).unwrap_or(rest.len());
    rest[..digits].parse().ok()
}

impl Pair {
    /// Both accept: the start is at most 2^62, and there is a node.
    pub fn new(tally: &mut Tally, create: Create, capacity: u64, nodes: u64, start: u64) -> Pair {
        tally.call(capacity, Kind::Create);
        let ours = Store::new(capacity, nodes, start).expect("create accepts");
        let rust = create(start, nodes).expect("the Rust creates");
        let log = vec![Call::Create(capacity, nodes, start)];
        let pair = Pair { capacity, nodes, ours, rust, entries: vec![], start, end: start, log };
        pair.compare_shape(tally);
        pair
    }

    pub fn copy(&self) -> Pair {
        Pair {
            ours: self.ours.clone(),
            rust: self.rust.copy(self.nodes),
            entries: self.entries.clone(),
            log: self.log.clone(),
            ..*self
        }
    }

    fn unlisted(&self, tally: &mut Tally, call: &Call, text: String) {
        tally.unlisted(format!("{:?} then {call:?}: {text}", self.log));
    }

    /// Demands that the two are equal.
    fn same<T: PartialEq + Debug>(&self, tally: &mut Tally, call: &Call, ours: T, rust: T) {
        if ours != rust {
            self.unlisted(tally, call, format!("port {ours:?}, wanted {rust:?}"));
        }
    }

    /// The words before a call, where they are few enough to be kept.
    fn before(&self) -> Option<Vec<u64>> {
        (self.ours.words.len() < 40_000).then(|| self.ours.words.clone())
    }

    /// A refusal has changed nothing. What the port should have refused is told by the comparison of the answers.
    fn unchanged<T>(&self, tally: &mut Tally, call: &Call, ours: &Result<T, Refusal>, before: Option<Vec<u64>>) {
        ours.as_ref().err().map(|r| tally.refusal(r.number));
        if ours.is_err() && before.is_some_and(|b| b != self.ours.words) {
            self.unlisted(tally, call, "the port refused and changed words".into());
        }
    }

    /// The ids of the first so many entries, and where they end.
    pub fn prefix(&self, count: usize) -> (u64, Vec<u64>) {
        let end = self.entries.get(count).map_or(self.end, |e| e.0);
        (end, self.entries[..count].iter().map(|e| e.1).collect())
    }

    pub fn append(&mut self, tally: &mut Tally, count: u64, page: u64) -> Result<Appended, Refusal> {
        let call = Call::Append(count, page);
        tally.call(self.capacity, Kind::Append);
        let before = self.before();
        let ours = self.ours.append(count, page);
        let end = self.end as u128 + count as u128;
        if count == 0 || end > LIMIT as u128 {
            self.same(tally, &call, ours, Err(refusal(4, 0)));
            self.unchanged(tally, &call, &ours, before);
            self.append_beyond(tally, &call, count, page);
            return ours;
        }
        let taken = self.rust.taken();
        match self.rust.append(count, page) {
            Ok((start, end)) => {
                let rust = Appended { start, end, taken: self.rust.taken() - taken };
                self.same(tally, &call, ours, Ok(rust));
                self.entries.push((start, page));
                self.end = end;
                self.log.push(call);
            }
            Err(Failure::Error(t)) if t.contains("BufferPageAllocation") => {
                self.unchanged(tally, &call, &ours, before);
                self.no_room(tally, &call, ours, taken);
            }
            Err(f) => self.unlisted(tally, &call, format!("port {ours:?}, Rust {f:?}")),
        }
        ours
    }

    /// Differences 3 and 4: on a copy, the Rust accepts the range, or the sum is no 64-bit number.
    fn append_beyond(&self, tally: &mut Tally, call: &Call, count: u64, page: u64) {
        tally.difference(if count == 0 { Difference::NoRows } else { Difference::RowsAbove });
        let rust = self.rust.copy(UNLIMITED).append(count, page);
        let wanted = match self.end.checked_add(count) {
            Some(end) => Ok((self.end, end)),
            None => Err(Failure::Panic("attempt to add with overflow".into())),
        };
        self.same(tally, call, rust, wanted);
    }

    /// Difference 2: the Rust has taken every free node, and its tree is as before.
    fn no_room(&mut self, tally: &mut Tally, call: &Call, ours: Result<Appended, Refusal>, taken: u64) {
        let Call::Append(count, page) = *call else { unreachable!() };
        let mut free = self.rust.copy(UNLIMITED);
        let lost = free.taken();
        free.append(count, page).expect("the Rust appends where there is room");
        self.same(tally, call, ours, Err(refusal(5, free.taken() - lost)));
        self.same(tally, call, lost, self.nodes);
        if lost > taken {
            tally.difference(Difference::LostNodes);
        }
        self.compare_shape(tally);
        self.rust.recover();
        self.same(tally, call, self.rust.taken(), taken);
    }

    pub fn find(&mut self, tally: &mut Tally, row: u64) -> Result<Option<u64>, Refusal> {
        tally.call(self.capacity, Kind::Find);
        let ours = self.ours.find(row);
        match self.rust.find(row) {
            Ok(rust) => self.same(tally, &Call::Find(row), ours, Ok(rust)),
            Err(f) => self.unlisted(tally, &Call::Find(row), format!("Rust {f:?}")),
        }
        ours
    }

    /// Difference 6: the refusal that stands for a panic of the Rust, by its message.
    fn refusal_of(&self, message: &str, ids: usize) -> Option<Refusal> {
        let holds = |text: &str| message.contains(text);
        if holds("checkpoint row-page prefix has no page ids") || holds("checkpoint row-page prefix has invalid range") {
            Some(refusal(7, 0))
        } else if holds("checkpoint row-page prefix does not start at index boundary") {
            Some(refusal(8, number_after(message, "left: RowID(")?))
        } else if holds("checkpoint row-page prefix page-id mismatch") {
            Some(refusal(9, number_after(message, "page-id mismatch at index ")?))
        } else if holds("checkpoint row-page prefix range mismatch") {
            let row = number_after(message, "entry_start=")?;
            Some(refusal(10, self.entries.iter().position(|e| e.0 == row)? as u64))
        } else if holds("checkpoint row-page prefix end mismatch") {
            Some(refusal(10, ids as u64))
        } else if holds("checkpoint row-page prefix exceeds index") {
            Some(refusal(11, self.entries.len() as u64))
        } else if holds("row-page index retains entry below pivot during destroy") {
            Some(refusal(12, number_after(message, "entry_row_id=")?))
        } else if holds("row-page-index construction cleanup requires an empty leaf root") {
            Some(refusal(12, 0))
        } else {
            None
        }
    }

    fn refused(&self, tally: &mut Tally, call: &Call, ours: Option<Refusal>, failure: Failure, ids: usize) {
        let wanted = match &failure {
            Failure::Panic(m) => self.refusal_of(m, ids),
            Failure::Error(_) => None,
        };
        if wanted.is_none() || ours != wanted {
            return self.unlisted(tally, call, format!("port {ours:?}, Rust {failure:?}"));
        }
        tally.difference(Difference::Assertion);
    }

    pub fn prune(&mut self, tally: &mut Tally, start: u64, end: u64, ids: &[u64]) -> Result<Pruned, Refusal> {
        let call = Call::Prune(start, end, ids.to_vec());
        tally.call(self.capacity, Kind::Prune);
        let before = self.before();
        let taken = self.rust.taken();
        let ours = self.ours.prune(start, end, ids);
        match self.rust.prune(start, end, ids) {
            Ok([removed, freed, levels]) => {
                self.same(tally, &call, ours, Ok(Pruned { removed, freed, levels }));
                self.same(tally, &call, taken - self.rust.taken(), freed);
                self.freed_by_prune(tally, &call, before, freed);
                self.entries.drain(..removed as usize);
                self.start = end;
                self.log.push(call);
            }
            Err(f) => {
                self.unchanged(tally, &call, &ours, before);
                self.refused(tally, &call, ours.err(), f, ids.len());
            }
        }
        ours
    }

    /// Difference 5: as many nodes of each height, in any order. The chain begins with the last one freed.
    fn freed_by_prune(&mut self, tally: &mut Tally, call: &Call, before: Option<Vec<u64>>, freed: u64) {
        let mut rust: Vec<u64> = self.rust.freed().iter().map(|f| f.height).collect();
        let Some(before) = before else { return };
        let chain = shape::chain(&self.ours.words, freed as usize);
        let mut ours: Vec<u64> = chain.iter().rev().map(|n| shape::height(&before, *n)).collect();
        if ours != rust {
            tally.difference(Difference::FreeOrder);
            ours.sort();
            rust.sort();
        }
        self.same(tally, call, ours, rust);
    }

    pub fn prune_first(&mut self, tally: &mut Tally, count: usize) {
        let (end, ids) = self.prefix(count);
        let answer = self.prune(tally, self.start, end, &ids);
        if answer.is_err() {
            self.unlisted(tally, &Call::Prune(self.start, end, ids), format!("a prefix is refused: {answer:?}"));
        }
    }

    /// The port's leaves from a row, or of a cursor never sought.
    pub fn our_leaves(&self, row: Option<u64>) -> Result<Vec<Leaf>, Refusal> {
        let mut cursor = Cursor::new();
        if let Some(row) = row {
            cursor.seek(row);
        }
        let mut records = vec![0; 2 * self.capacity as usize];
        let mut leaves = Vec::new();
        while let Some(l) = self.ours.next(&mut cursor, &mut records)? {
            let entries = records.chunks(2).take(l.count as usize).map(|r| (r[0], r[1])).collect();
            leaves.push(Leaf { start: l.start, end: l.end, entries });
        }
        Ok(leaves)
    }

    /// Difference 1: the port gives every leaf from the one that the row reaches; the Rust the same up to the first leaf where
    /// its cursor stops. Difference 8: it asserts that a row sought is not NONE.
    pub fn walk(&mut self, tally: &mut Tally, row: u64) -> Result<Vec<Leaf>, Refusal> {
        tally.call(self.capacity, Kind::Walk);
        let call = Call::Walk(row);
        let leaves = shape::leaves(&self.rust.shape());
        let from = leaves.iter().rposition(|l| l.leaf.start <= row).unwrap_or(0);
        let all: Vec<Leaf> = leaves[from..].iter().map(|l| l.leaf.clone()).collect();
        let stop = leaves[from..].iter().position(|l| l.stops).map_or(all.len(), |i| i + 1);
        let ours = self.our_leaves(Some(row));
        self.same(tally, &call, ours.clone(), Ok(all.clone()));
        match self.rust.walk(Some(row)) {
            Ok(given) => {
                self.same(tally, &call, given, all[..stop].to_vec());
                if stop < all.len() {
                    tally.difference(Difference::WalkStops);
                }
            }
            Err(Failure::Panic(m)) if row == NONE && m == "assertion failed: row_id != INVALID_ROW_ID" => {
                tally.difference(Difference::SeekNone)
            }
            Err(f) => self.unlisted(tally, &call, format!("Rust {f:?}")),
        }
        ours
    }

    pub fn never_sought(&mut self, tally: &mut Tally) {
        tally.call(self.capacity, Kind::Walk);
        let rust = self.rust.walk(None).expect("the Rust's cursor answers none");
        self.same(tally, &Call::NeverSought, self.our_leaves(None), Ok(rust));
    }

    /// Closes both, or neither.
    pub fn release(&mut self, tally: &mut Tally, pivot: u64) -> Result<Released, Refusal> {
        let call = Call::Release(pivot);
        tally.call(self.capacity, Kind::Release);
        let before = self.before();
        let order = shape::postorder(&self.ours.words);
        let taken = self.rust.taken();
        let mut pages = vec![7; self.entries.len() + 1];
        let ours = self.ours.destroy(pivot, &mut pages);
        self.rust.freed();
        match self.rust.destroy(pivot) {
            Ok(ids) => {
                let wanted = Released { nodes: taken - self.rust.taken(), pages: ids.len() as u64 };
                self.same(tally, &call, ours, Ok(wanted));
                self.same(tally, &call, &pages[..ids.len()], &ids[..]);
                self.same(tally, &call, pages[ids.len()..].iter().all(|p| *p == 7), true);
                self.freed_in_order(tally, &call, &order);
            }
            Err(f) => {
                self.unchanged(tally, &call, &ours, before);
                self.same(tally, &call, pages.iter().all(|p| *p == 7), true);
                self.refused(tally, &call, ours.err(), f, 0);
            }
        }
        ours
    }

    /// Both free children before parents, left to right: the same heights and starts. The chain begins with the last one.
    fn freed_in_order(&mut self, tally: &mut Tally, call: &Call, order: &[[u64; 3]]) {
        let rust: Vec<[u64; 2]> = self.rust.freed().iter().map(|f| [f.height, f.start]).collect();
        let mut ours = shape::chain(&self.ours.words, order.len());
        ours.reverse();
        self.same(tally, call, ours, order.iter().map(|n| n[0]).collect());
        self.same(tally, call, order.iter().map(|n| [n[1], n[2]]).collect(), rust);
        self.same(tally, call, [self.ours.words[2], self.ours.words[4]], [self.nodes, self.nodes]);
    }

    pub fn release_empty(&mut self, tally: &mut Tally) {
        let call = Call::ReleaseEmpty;
        tally.call(self.capacity, Kind::Release);
        let before = self.before();
        let taken = self.rust.taken();
        let ours = self.ours.destroy_empty();
        match self.rust.destroy_empty() {
            Ok(()) => {
                let wanted = Released { nodes: taken - self.rust.taken(), pages: 0 };
                self.same(tally, &call, ours, Ok(wanted));
            }
            Err(f) => {
                self.unchanged(tally, &call, &ours, before);
                self.refused(tally, &call, ours.err(), f, 0);
            }
        }
    }

    /// The whole tree, and the height that the Rust keeps beside it.
    pub fn compare_shape(&self, tally: &mut Tally) {
        tally.call(self.capacity, Kind::Shape);
        let (ours, rust) = (shape::of_words(&self.ours.words), self.rust.shape());
        self.same(tally, &Call::Shape, ours[0], self.rust.height());
        self.same(tally, &Call::Shape, ours, rust);
    }

    /// The full check accepts, and counts what the Rust's pool counts.
    pub fn check(&self, tally: &mut Tally) {
        tally.call(self.capacity, Kind::Check);
        let taken = self.rust.taken();
        let wanted = Checked { entries: self.entries.len() as u64, nodes: taken, free: self.nodes - taken };
        self.same(tally, &Call::Shape, self.ours.check(), Ok(wanted));
    }
}
