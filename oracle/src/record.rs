//! Scripts and their listings from the Rust's answers, in the forms of 01, 'Script program'. The port is called beside the
//! Rust and has to give the same lines, and so has the C function `row_page_script`.
use crate::listed_at;
use crate::pair::{Call, LIMIT, Pair};
use crate::random::{self, Random};
use crate::script::{self, LONGEST, Record, lines};
use crate::store::Store;
use crate::tally::{Kind, OTHER, Tally};
use std::collections::BTreeMap;
use std::fmt::Write as _;
use std::fs;
use std::path::Path;

/// The most ids that a prune's record has.
const IDS: usize = (LONGEST - 2) / 8 - 2;

fn record_of(call: &Call) -> Record {
    let (kind, words) = match call {
        Call::Create(c, p, start) => (1, vec![*c, *p, *start]),
        Call::Append(count, page) => (2, vec![*count, *page]),
        Call::Find(row) => (3, vec![*row]),
        Call::Prune(start, end, ids) => (4, [&[*start, *end], &ids[..]].concat()),
        Call::Walk(row) => (5, vec![*row]),
        Call::Release(pivot) => (6, vec![*pivot]),
        Call::NeverSought | Call::ReleaseEmpty | Call::Shape => panic!("the script program has no such call"),
    };
    Record { kind, words }
}

struct Recorder<'a> {
    tally: &'a mut Tally,
    /// None before a create, and once the store is closed.
    pair: Option<Pair>,
    /// C and P of the last accepted create.
    made: Option<(u64, u64)>,
    input: Vec<u8>,
    listing: String,
    /// The records at each C, by kind; the refusals by number.
    records: BTreeMap<u64, [u64; 7]>,
    refusals: BTreeMap<u64, u64>,
}

impl<'a> Recorder<'a> {
    fn new(tally: &'a mut Tally) -> Self {
        let (records, refusals) = (BTreeMap::new(), BTreeMap::new());
        Recorder { tally, pair: None, made: None, input: vec![], listing: String::new(), records, refusals }
    }

    /// Both answer; the listing gets the lines.
    fn call(&mut self, call: Call) {
        let record = record_of(&call);
        record.write(&mut self.input);
        let text = self.answer(&call);
        let capacity = self.made.map_or(OTHER, |m| m.0);
        self.records.entry(capacity).or_default()[record.kind as usize] += 1;
        if let Some(refusal) = text.strip_prefix("no ") {
            *self.refusals.entry(refusal.split(' ').next().unwrap().parse().unwrap()).or_default() += 1;
        }
        self.listing += &text;
    }

    fn answer(&mut self, call: &Call) -> String {
        let (pair, tally) = (self.pair.as_mut(), &mut *self.tally);
        match (call, pair) {
            (Call::Create(c, p, start), _) => self.create(*c, *p, *start),
            // The words are zero, which is no header.
            (_, None) if self.made.is_none() => "no 2 65535\n".into(),
            (_, None) => "no 3 0\n".into(),
            (Call::Append(count, page), Some(pair)) => {
                lines(pair.append(tally, *count, *page), |a| format!("append {} {} {}\n", a.start, a.end, a.taken))
            }
            (Call::Find(row), Some(pair)) => {
                lines(pair.find(tally, *row), |p| p.map_or("none\n".into(), |p| format!("page {p}\n")))
            }
            (Call::Prune(start, end, ids), Some(pair)) => {
                lines(pair.prune(tally, *start, *end, ids), |p| format!("prune {} {} {}\n", p.removed, p.freed, p.levels))
            }
            (Call::Walk(row), Some(pair)) => lines(pair.walk(tally, *row), |leaves| {
                let mut text = String::new();
                for l in leaves {
                    writeln!(text, "leaf {} {} {}", l.start, l.end, l.entries.len()).unwrap();
                }
                text + "end\n"
            }),
            (Call::Release(pivot), Some(pair)) => {
                let answer = pair.release(tally, *pivot);
                if answer.is_ok() {
                    self.pair = None;
                }
                lines(answer, |r| format!("release {} {}\n", r.nodes, r.pages))
            }
            _ => panic!("the script program has no such call"),
        }
    }

    /// A create that is refused leaves the store as it was; the Rust refuses none.
    fn create(&mut self, c: u64, p: u64, start: u64) -> String {
        let length = script::create_length(c, p);
        let answer = Store { words: vec![0; length as usize] }.create(c, p, start);
        if answer.is_ok() {
            self.pair = Some(Pair::new(self.tally, listed_at(c), c, p, start));
            self.made = Some((c, p));
        }
        lines(answer, |()| "create\n".into())
    }

    fn append(&mut self, count: u64, page: u64) {
        self.call(Call::Append(count, page));
    }

    /// The last line of the listing; then the C function has to give it all.
    fn end(&mut self) {
        // A closed store has every node in its chain.
        let free = self.pair.as_ref().map_or(self.made.map_or(0, |m| m.1), |p| p.ours.words[4]);
        writeln!(self.listing, "free {free}").unwrap();
        for (capacity, kinds) in &self.records {
            (0..kinds.iter().sum()).for_each(|_| self.tally.call(*capacity, Kind::Script));
        }
        let given = script::listing(&self.input);
        if given != self.listing.as_bytes() {
            let given = String::from_utf8_lossy(&given).into_owned();
            let place = given.lines().zip(self.listing.lines()).take_while(|(g, w)| g == w).count();
            let line = |text: &str| text.lines().nth(place).unwrap_or("").to_string();
            self.tally.unlisted(format!(
                "row_page_script at line {}: {:?}, wanted {:?}; script {:x?}",
                place + 1,
                line(&given),
                line(&self.listing),
                self.input
            ));
        }
    }
}

/// 01's example, then its cuts and edges at C = 2.
fn edges(r: &mut Recorder) {
    let five = |r: &mut Recorder| {
        r.call(Call::Create(2, 16, 0));
        (1..=5).for_each(|page| r.append(10, page));
    };
    five(r);
    r.call(Call::Prune(0, 20, vec![1, 2]));
    r.call(Call::Find(20));
    r.call(Call::Find(5));
    for end in [30, 40, 50] {
        five(r);
        r.call(Call::Prune(0, end, (1..=end / 10).collect()));
        [0, 49, 50].map(|row| r.call(Call::Find(row)));
        r.call(Call::Walk(0));
        r.append(10, 6);
    }
    five(r);
    for (start, end, ids) in [(0, 20, vec![1, 3]), (0, 25, vec![1, 2, 3]), (0, 20, vec![1]), (0, 60, (1..=6).collect())] {
        r.call(Call::Prune(start, end, ids));
    }
    for (start, end, ids) in [(10, 20, vec![2]), (0, 20, vec![]), (20, 20, vec![1])] {
        r.call(Call::Prune(start, end, ids));
    }
    (6..=9).for_each(|page| r.append(10, page));
    [9, 10, 89, 90].map(|row| r.call(Call::Find(row)));
    [0, 45, 80, 1000, u64::MAX].map(|row| r.call(Call::Walk(row)));
    [1, 0, 0].map(|pivot| r.call(Call::Release(pivot)));
    r.call(Call::Find(9));
    r.call(Call::Create(2, 2, 0));
    (1..=3).for_each(|page| r.append(10, page));
    r.call(Call::Create(2, 2, 0));
    [0, LIMIT + 1, LIMIT, 1].map(|count| r.append(count, 1));
    r.call(Call::Create(2, 2, LIMIT + 1));
    r.call(Call::Create(1, 2, 0));
    r.call(Call::Create(2, 600, 0));
    r.call(Call::Walk(0));
}

/// Every call but a create.
fn others(r: &mut Recorder, row: u64) {
    r.append(1 + row % 2, row);
    r.call(Call::Find(row));
    r.call(Call::Prune(0, row, vec![1]));
    r.call(Call::Walk(row));
    r.call(Call::Release(row));
}

/// A create that is refused: C, P or the length out of range, or a start above 2^62.
fn refused_create(r: &mut Recorder, random: &mut Random, capacity: u64) {
    let (mut c, mut p, mut start) = (capacity, 1, random::start(random));
    match random.below(6) {
        0 => c = random.below(2),
        1 => c = 4095 + random.below(3),
        2 => p = 0,
        3 => p = 65_536 + random.below(3),
        4 => p = script::most_nodes(capacity) + 1 + random.below(1000),
        _ => start = LIMIT + 1 + (random.word() >> 2),
    }
    r.call(Call::Create(c, p, start));
}

/// A call on the open store, or some appends with page ids that are shifted right by so many bits.
fn step(r: &mut Recorder, random: &mut Random, pages: u64) {
    let Some(pair) = &r.pair else { return };
    let (capacity, entries) = (pair.capacity, pair.entries.len() as u64);
    let row = random::row(pair, random);
    match random.below(24) {
        0 | 1 if entries > 0 => {
            let count = random::named(random, capacity, entries).min(IDS as u64) as usize;
            let (end, ids) = pair.prefix(count);
            r.call(Call::Prune(pair.start, end, ids));
        }
        2 | 3 => {
            let (start, end, mut ids) = random::odd_prune(pair, random);
            ids.truncate(IDS);
            r.call(Call::Prune(start, end, ids));
        }
        4..8 => r.call(Call::Find(row)),
        8 | 9 => r.call(Call::Walk(row)),
        10 if entries > 0 => r.call(Call::Release(pair.start + 1 + random.below(100))),
        11 => r.append(random.word() >> random.below(64), random.word()),
        12 => refused_create(r, random, capacity),
        _ => (0..1 + random.below(capacity)).for_each(|_| r.append(1 + random.below(50), random.word() >> pages)),
    }
}

/// So many steps at one capacity in a pool that fits the script's words, then a release and calls on the closed store.
fn sample(r: &mut Recorder, random: &mut Random, capacity: u64, nodes: u64, start: u64, steps: u64) {
    r.call(Call::Create(capacity, nodes, start));
    // Page ids below 256, or any.
    let pages = 56 * random.below(2);
    (0..steps).for_each(|_| step(r, random, pages));
    if random.below(3) > 0 {
        r.call(Call::Release(0));
        others(r, random.below(100));
    }
}

/// Seeded scripts at one capacity, each of two stores in the same words.
pub fn scripts(tally: &mut Tally, capacity: u64, count: u64) {
    let most = script::most_nodes(capacity);
    for seed in 0..count {
        let mut random = Random::new(seed * 65_537 + capacity);
        let mut r = Recorder::new(tally);
        if random.below(2) == 0 {
            others(&mut r, random.word() >> random.below(64));
        }
        for _ in 0..2 {
            let nodes = if random.below(2) == 0 { most } else { 1 + random.below(most) };
            let start = random::start(&mut random);
            let steps = 20 + random.below(100);
            sample(&mut r, &mut random, capacity, nodes, start, steps);
        }
        r.end();
    }
}

/// The files `stdin` and `stdout` in a folder; false where the port differs in a way that is not listed.
pub fn write(folder: &Path) -> bool {
    let mut tally = Tally::default();
    let mut r = Recorder::new(&mut tally);
    others(&mut r, 5);
    edges(&mut r);
    for capacity in [2, 3, 4, 5, 8, 16, 64] {
        let mut random = Random::new(capacity);
        for nodes in [12, script::most_nodes(capacity)] {
            sample(&mut r, &mut random, capacity, nodes, 100 * capacity, 20 + 200 / capacity);
        }
    }
    r.end();
    let mut kinds = [0; 7];
    r.records.values().for_each(|k| k.iter().zip(&mut kinds).for_each(|(n, sum)| *sum += n));
    println!("records of kind 1 to 6: {:?}; refusals by number: {:?}", &kinds[1..], r.refusals);
    let (input, listing) = (std::mem::take(&mut r.input), std::mem::take(&mut r.listing));
    if !tally.print() {
        return false;
    }
    println!("{} bytes of records, {} bytes of listing", input.len(), listing.len());
    fs::create_dir_all(folder).unwrap();
    fs::write(folder.join("stdin"), input).unwrap();
    fs::write(folder.join("stdout"), listing).unwrap();
    true
}
