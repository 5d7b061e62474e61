//! A store beside a ledger. Each call is made on the store's words through the C functions; its answer, the whole memory, the list
//! and the cursor have to be what the ledger says.
use crate::ledger::{Answer, LIMIT, Ledger, NONE};
use crate::store::lent;
use std::collections::BTreeMap;

/// Words on both sides of the memory and of a list that no call may touch.
const PAD: usize = 8;
const STALE: u64 = 0xABAD_1DEA;

#[derive(Debug, Clone)]
pub enum Call {
    /// The memory becomes that of a store which no call made.
    Plant(Box<Ledger>),
    /// C, P, start, and how many words are lent.
    Create(u64, u64, u64, usize),
    Append(u64, u64),
    Find(u64),
    Prune(u64, u64, Vec<u64>),
    Seek(u64),
    /// With a list of so many words.
    Next(usize),
    /// All leaves from a row, with another cursor.
    Walk(u64),
    /// Pivot, and a list of so many words.
    Release(u64, usize),
    ReleaseEmpty,
    Check,
    /// The full check, a lookup on both sides of every boundary, a walk from the start.
    Sweep,
}

/// A call, and how many words more than the store's are lent.
#[derive(Debug, Clone)]
pub struct Step {
    pub call: Call,
    pub off: isize,
}

/// What was compared at one capacity: accepted calls by kind, refused ones by number, the highest tree and the most entries.
#[derive(Default, Clone)]
pub struct Counts {
    pub kinds: BTreeMap<&'static str, u64>,
    pub refusals: BTreeMap<u64, u64>,
    pub highest: usize,
    pub entries: usize,
}

impl Counts {
    fn add(&mut self, kind: &'static str, want: &Answer) {
        match want[0] {
            0 => *self.kinds.entry(kind).or_default() += 1,
            number => *self.refusals.entry(number).or_default() += 1,
        }
    }

    pub fn join(&mut self, other: Counts) {
        other.kinds.into_iter().for_each(|(kind, n)| *self.kinds.entry(kind).or_default() += n);
        other.refusals.into_iter().for_each(|(number, n)| *self.refusals.entry(number).or_default() += n);
        self.highest = self.highest.max(other.highest);
        self.entries = self.entries.max(other.entries);
    }
}

pub struct Beside {
    pub ledger: Ledger,
    words: Vec<u64>,
    /// The cursor of Seek and Next between two words that no call may touch: the one lent, and the one wanted.
    cursor: [u64; 4],
    wanted: [u64; 4],
    /// By capacity; 0 before a create.
    pub counts: BTreeMap<usize, Counts>,
    pub calls: u64,
}

fn padded(words: &[u64]) -> Vec<u64> {
    [&[STALE; PAD], words, &[STALE; PAD]].concat()
}

fn list(words: usize) -> Vec<u64> {
    vec![STALE; words + 2 * PAD]
}

/// The part of a list that is lent.
fn inner(list: &mut [u64]) -> &mut [u64] {
    let end = list.len() - PAD;
    &mut list[PAD..end]
}

fn same(what: &str, got: &[u64], want: &[u64]) -> Result<(), String> {
    if got == want {
        return Ok(());
    }
    let place = got.iter().zip(want).position(|(g, w)| g != w).unwrap();
    Err(format!("{what}, word {}: {}, wanted {}", place as isize - PAD as isize, got[place], want[place]))
}

impl Beside {
    /// The memory holds these words, which are no store.
    pub fn new(words: &[u64]) -> Beside {
        let (ledger, cursor) = (Ledger::new(words.to_vec()), [STALE, 0, 1, STALE]);
        Beside { ledger, words: padded(words), cursor, wanted: cursor, counts: BTreeMap::new(), calls: 0 }
    }

    /// Makes a call on so many words of the memory and compares the answer and the memory.
    fn ask(
        &mut self,
        kind: &'static str,
        lent: usize,
        want: Answer,
        call: impl FnOnce(&mut [u64], &mut [u64]) -> u64,
    ) -> Result<(), String> {
        self.calls += 1;
        let counts = self.counts.entry(self.ledger.capacity).or_default();
        counts.add(kind, &want);
        counts.highest = counts.highest.max(self.ledger.height());
        counts.entries = counts.entries.max(self.ledger.entries.len());
        let mut answer = [STALE; 7];
        let number = call(&mut self.words[PAD..PAD + lent], &mut answer);
        if answer != want || number != want[0] {
            return Err(format!("{number} and {answer:?}, wanted {want:?}"));
        }
        let (before, memory) = self.words.split_at(PAD);
        let (memory, after) = memory.split_at(self.ledger.words.len());
        if memory == self.ledger.words && before == [STALE; PAD] && after == [STALE; PAD] {
            return Ok(());
        }
        same("memory", &self.words, &padded(&self.ledger.words))
    }

    /// The words lent to a call other than create.
    fn lent(&self, off: isize) -> usize {
        self.ledger.length().saturating_add_signed(off).min(self.ledger.words.len())
    }

    fn find(&mut self, lent: usize, row: u64) -> Result<(), String> {
        let want = self.ledger.first_refusal(lent).unwrap_or_else(|| self.ledger.find(row));
        let kind = if want[1] == 1 { "found" } else { "not found" };
        self.ask(kind, lent, want, |w, a| lent::find(w, row, a)).map_err(|e| format!("find {row}: {e}"))
    }

    fn check(&mut self, lent: usize) -> Result<(), String> {
        let want = self.ledger.first_refusal(lent).unwrap_or_else(|| self.ledger.check());
        self.ask("checked", lent, want, |w, a| lent::check(w, a)).map_err(|e| format!("check: {e}"))
    }

    /// Whether the walk goes on.
    fn next(&mut self, lent: usize, words: usize) -> Result<bool, String> {
        let (mut got, mut want) = (list(words), list(words));
        let answer = self.ledger.first_refusal(lent);
        let answer = answer.unwrap_or_else(|| self.ledger.next(&mut self.wanted[1..3], inner(&mut want)));
        let kind = if answer[1] == 3 { "leaf" } else { "none" };
        let mut cursor = self.cursor;
        self.ask(kind, lent, answer, |w, a| lent::next(w, &mut cursor[1..3], inner(&mut got), a))?;
        self.cursor = cursor;
        same("list", &got, &want)?;
        if self.cursor != self.wanted {
            return Err(format!("cursor {:?}, wanted {:?}", &self.cursor[1..3], &self.wanted[1..3]));
        }
        Ok(answer[0] == 0 && answer[1] == 3)
    }

    fn seek(&mut self, row: u64) {
        lent::seek(&mut self.cursor[1..3], row);
        self.wanted[1..3].copy_from_slice(&[row, 0]);
    }

    fn walk(&mut self, lent: usize, row: u64) -> Result<(), String> {
        let kept = (self.cursor, self.wanted);
        self.seek(row);
        let told = |e: String| format!("walk from {row}: {e}");
        while self.next(lent, 2 * self.ledger.capacity).map_err(told)? {}
        // A second none, and nothing moves.
        self.next(lent, 2 * self.ledger.capacity).map_err(told)?;
        (self.cursor, self.wanted) = kept;
        Ok(())
    }

    fn sweep(&mut self, lent: usize) -> Result<(), String> {
        self.check(lent)?;
        let mut rows: Vec<u64> = self.ledger.entries.iter().flat_map(|e| [e.row, e.row.wrapping_sub(1)]).collect();
        let (start, end) = (self.ledger.start, self.ledger.end);
        rows.extend([0, start, end, end.wrapping_sub(1), end + 1, LIMIT - 1, LIMIT, LIMIT + 1, NONE - 1, NONE]);
        rows.into_iter().try_for_each(|row| self.find(lent, row))?;
        self.walk(lent, 0)
    }

    fn release(&mut self, lent: usize, pivot: u64, words: usize) -> Result<(), String> {
        let (mut got, mut want) = (list(words), list(words));
        let answer = self.ledger.first_refusal(lent);
        let answer = answer.unwrap_or_else(|| self.ledger.release(pivot, inner(&mut want)));
        self.ask("released", lent, answer, |w, a| lent::destroy(w, pivot, inner(&mut got), a))?;
        same("list", &got, &want)
    }

    /// What differs, if anything does.
    pub fn make(&mut self, step: &Step) -> Result<(), String> {
        let lent = self.lent(step.off);
        let first = self.ledger.first_refusal(lent);
        match &step.call {
            Call::Plant(ledger) => {
                self.ledger = (**ledger).clone();
                self.words = padded(&self.ledger.words);
                Ok(())
            }
            Call::Create(c, p, start, words) => {
                let want = self.ledger.create(*c, *p, *start, *words);
                self.ask("created", *words, want, |w, a| lent::create(w, *c, *p, *start, a))
            }
            Call::Append(count, page) => {
                let want = first.unwrap_or_else(|| self.ledger.append(*count, *page));
                self.ask("appended", lent, want, |w, a| lent::append(w, *count, *page, a))
            }
            Call::Prune(start, end, ids) => {
                let want = first.unwrap_or_else(|| self.ledger.prune(*start, *end, ids));
                self.ask("pruned", lent, want, |w, a| lent::prune(w, *start, *end, ids, a))
            }
            Call::Release(pivot, words) => self.release(lent, *pivot, *words),
            Call::ReleaseEmpty => {
                let want = first.unwrap_or_else(|| self.ledger.release_empty());
                self.ask("released", lent, want, lent::destroy_empty)
            }
            Call::Seek(row) => {
                self.seek(*row);
                (self.cursor == self.wanted).then_some(()).ok_or(format!("seek leaves {:?}", self.cursor))
            }
            Call::Next(words) => self.next(lent, *words).map(|_| ()),
            Call::Find(row) => self.find(lent, *row),
            Call::Walk(row) => self.walk(lent, *row),
            Call::Check => self.check(lent),
            Call::Sweep => self.sweep(lent),
        }
    }
}
