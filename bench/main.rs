//! Times of the proved node test and of the proved reading of a whole tree, beside plain Rust. Prints tables in Markdown.

#[path = "../oracle/src/places.rs"]
mod places;
#[allow(dead_code)]
mod plain;
#[allow(dead_code)]
mod store;

use std::hint::black_box;
use std::time::Instant;

/// The functions of crates/bench_host. A `&[u64]` is a pointer and then a length.
mod rattle {
    unsafe extern "C" {
        fn bench_open(words: *const u64, len: usize) -> u64;
        fn bench_test_node(words: *const u64, len: usize, node: u64, height: u64, row: u64, bounded: u64, next: u64) -> u64;
        fn bench_survey(words: *const u64, len: usize, ends: u64) -> u64;
    }

    pub fn open(w: &[u64]) -> u64 {
        unsafe { bench_open(w.as_ptr(), w.len()) }
    }

    pub fn test_node(w: &[u64], node: u64, height: u64, row: u64, next: Option<u64>) -> u64 {
        unsafe { bench_test_node(w.as_ptr(), w.len(), node, height, row, next.is_some() as u64, next.unwrap_or(0)) }
    }

    pub fn survey(w: &[u64], ends: bool) -> u64 {
        unsafe { bench_survey(w.as_ptr(), w.len(), ends as u64) }
    }
}

type Call<'a> = Box<dyn FnMut() -> u64 + 'a>;

/// Functions that are measured side by side.
struct Case<'a> {
    label: String,
    /// The times are stated for one of so many parts of a call.
    parts: f64,
    /// Repeats in a pass, and calls in a repeat.
    repeats: usize,
    calls: usize,
    fns: Vec<Call<'a>>,
    times: Vec<Vec<f64>>,
}

impl<'a> Case<'a> {
    fn new(label: String, parts: u64, repeats: usize, calls: usize, fns: Vec<Call<'a>>) -> Self {
        let times = vec![Vec::new(); fns.len()];
        Case { label, parts: parts as f64, repeats, calls, fns, times }
    }

    /// One round to warm up, then the repeats: in each, every function in turn is called `calls` times.
    fn pass(&mut self) {
        for round in 0..1 + self.repeats {
            for (f, times) in self.fns.iter_mut().zip(&mut self.times) {
                let t = Instant::now();
                for _ in 0..self.calls {
                    black_box(f());
                }
                let ns = t.elapsed().as_nanos() as f64 / self.calls as f64 / self.parts;
                if 0 < round {
                    times.push(ns);
                }
            }
        }
    }

    /// Least and median time of function i.
    fn times(&mut self, i: usize) -> (f64, f64) {
        let t = &mut self.times[i];
        t.sort_by(f64::total_cmp);
        (t[0], t[t.len() / 2])
    }

    /// The times of all functions, then the ratios of the first to those listed.
    fn row(&mut self, ratios: &[usize]) -> String {
        let all: Vec<(f64, f64)> = (0..self.fns.len()).map(|i| self.times(i)).collect();
        let mut row = self.label.clone();
        for (least, median) in &all {
            row += &format!(" {least:.1} ({median:.1}) |");
        }
        for i in ratios {
            row += &format!(" {:.2} ({:.2}) |", all[0].0 / all[*i].0, all[0].1 / all[*i].1);
        }
        row
    }
}

struct Random(u64);

impl Random {
    fn below(&mut self, n: u64) -> u64 {
        self.0 ^= self.0 << 13;
        self.0 ^= self.0 >> 7;
        self.0 ^= self.0 << 17;
        (self.0 as u128 * n as u128 >> 64) as u64
    }
}

/// The builder takes nodes as the appends of the document do, and both sides answer alike, on sound and on damaged words.
fn check() {
    let mut b = store::Builder::new(2);
    let taken: Vec<usize> = (1..=9).map(|page| b.append(page)).collect();
    assert_eq!(taken, [0, 0, 2, 0, 3, 0, 1, 0, 4]);
    assert_eq!(rattle::survey(&b.words(), true), 11);
    let mut random = Random(0x9E37_79B9_7F4A_7C15);
    let (mut sound, mut unsound) = (0, 0);
    for (capacity, entries) in [(2, 0), (2, 1), (2, 9), (3, 40), (16, 16), (16, 300), (64, 5000)] {
        let good = store::tree(capacity, entries);
        assert_eq!(rattle::open(&good), good[1]);
        assert_eq!(rattle::survey(&good, true), good[1]);
        for _ in 0..20_000 {
            let mut words = good.clone();
            for _ in 0..1 + random.below(2) {
                let at = random.below(words.len() as u64) as usize;
                let from = words[random.below(words.len() as u64) as usize];
                words[at] = match random.below(6) {
                    0 => words[at].wrapping_add(1),
                    1 => words[at].wrapping_sub(1),
                    2 => store::NONE,
                    3 => store::ROW_LIMIT,
                    4 => 0,
                    _ => from,
                };
            }
            for ends in [false, true] {
                let answer = rattle::survey(&words, ends);
                assert_eq!(answer, plain::survey::<false>(&words, ends));
                assert_eq!(answer, plain::survey::<true>(&words, ends));
                if answer == plain::REFUSED { unsound += 1 } else { sound += 1 }
            }
            let n = random.below(good[1] + 1);
            let at = places::first(capacity, n as usize);
            let header = words.get(at..at + places::HEADER);
            let (height, row, end) = header.map_or((0, 0, 0), |node| (node[0], node[2], node[3]));
            for next in [None, Some(end), Some(row)] {
                assert_eq!(rattle::test_node(&words, n, height, row, next), plain::test_node(&words, n, height, row, next));
            }
        }
    }
    println!("Answers of both sides agree on {} damaged stores ({sound} answers sound, {unsound} not).", 7 * 20_000);
}

const PASSES: usize = 20;

fn main() {
    check();
    let full: Vec<(usize, Vec<u64>)> = [2, 16, 64, 4094].map(|capacity| (capacity, store::two_full(capacity))).into();
    let trees: Vec<(usize, u64, Vec<u64>)> = [(2, 60_000), (16, 60_000), (64, 60_000), (4094, 300 * 4094)]
        .map(|(capacity, entries)| (capacity, entries, store::tree(capacity, entries)))
        .into();
    let mut tests = Vec::new();
    for (kind, node, height) in [("full leaf", 1, 0), ("full branch", 0, 1)] {
        for (capacity, words) in &full {
            let used = places::node(words, *capacity, node as usize);
            let (size, row, next) = (used.len(), used[2], Some(used[3]));
            assert_eq!(rattle::test_node(words, node, height, row, next), *capacity as u64);
            assert_eq!(plain::test_node(words, node, height, row, next), *capacity as u64);
            let fns: Vec<Call> = vec![
                Box::new(move || rattle::test_node(black_box(words), node, height, row, next)),
                Box::new(move || rattle::open(black_box(words))),
                Box::new(move || plain::sum(black_box(used))),
            ];
            tests.push(Case::new(format!("| {kind} | {capacity} | {size} |"), 1, 100, 40_000 / (capacity + 10) + 1, fns));
        }
    }
    let mut walks = Vec::new();
    for (capacity, entries, words) in &trees {
        let nodes = words[1];
        assert_eq!(rattle::survey(words, true), nodes);
        assert_eq!(plain::survey::<false>(words, true), nodes);
        assert_eq!(plain::survey::<true>(words, true), nodes);
        let fns: Vec<Call> = vec![
            Box::new(move || rattle::survey(black_box(words), true)),
            Box::new(move || plain::survey::<false>(black_box(words), true)),
            Box::new(move || plain::survey::<true>(black_box(words), true)),
        ];
        walks.push(Case::new(format!("| {capacity} | {entries} | {nodes} |"), nodes, 20, 1, fns));
    }
    for _ in 0..PASSES {
        for case in tests.iter_mut().chain(&mut walks) {
            case.pass();
        }
    }
    println!("Each time is the least of its repeats in nanoseconds, with the median in parentheses.");
    println!();
    println!("| Node test of a | C | words | Rattle | header test alone | plain sum | Rattle to the sum |");
    println!("|---|---|---|---|---|---|---|");
    for case in &mut tests {
        println!("{}", case.row(&[2]));
    }
    println!();
    println!("| Walk, C | entries | nodes | Rattle, a node | Rust | Rust, four rows a turn | Rattle to Rust | Rattle to Rust, four rows |");
    println!("|---|---|---|---|---|---|---|---|");
    for case in &mut walks {
        println!("{}", case.row(&[1, 2]));
    }
}
