//! Seeded inputs, good and bad, to the C function `row_page_script` and to the script program. Both have to give what
//! `script::read` says, and the function may touch nothing but its two slices.
use crate::guarded::Guarded;
use crate::pair::LIMIT;
use crate::places;
use crate::progress::Progress;
use crate::random::{self, Random};
use crate::script::{self, LONGEST, Memory, Read, Record, WORDS};
use std::collections::BTreeMap;
use std::fs;
use std::io::{self, Read as _, Write as _};
use std::process::{Command, Stdio};

/// While it runs, the input that is tried, which stays if a call ends the process; then the shortest one that differs.
const FAILURE: &str = "target/oracle/fuzz-failure.bin";
const PROGRAM: &str = "target/bin/script_run";
/// The most ids that a prune's record has.
const IDS: u64 = 509;

/// 0, 1, the limits and what is beside them, or any word.
fn edge(r: &mut Random) -> u64 {
    match r.below(12) {
        0 => 0,
        1 => 1,
        2 => LIMIT - 1,
        3 => LIMIT,
        4 => LIMIT + 1,
        5 => 1 << 63,
        6 => u64::MAX,
        7 => u64::MAX - r.below(3),
        _ => r.word() >> r.below(64),
    }
}

/// Mostly one that is accepted, of few entries a node.
fn create(r: &mut Random) -> Vec<u64> {
    let good = r.below(6) > 0;
    let widest = places::widest(WORDS as usize - places::STORE_HEADER) as u64;
    let capacity = match r.below(20) {
        0 if !good => edge(r),
        0..4 if !good => r.below(5000),
        0 => 2 + r.below(widest - 1),
        1..4 => 2 + r.below(70),
        _ => 2 + r.below(3),
    };
    let most = script::most_nodes(capacity.min(5000)).max(1);
    let nodes = match r.below(8) {
        0 if !good => edge(r),
        0..4 if !good => r.below(70_000),
        4 if !good => most + 1,
        0..2 => 1 + r.below(12).min(most - 1),
        2..4 => 1 + r.below(most),
        _ => most,
    };
    vec![capacity, nodes, if good { random::start(r) } else { edge(r) }]
}

/// A prune of a prefix that the store has, or one with something wrong; the ids are at most 509.
fn prune(r: &mut Random, memory: &Memory) -> Vec<u64> {
    let (leaves, _) = memory.walk(0);
    let entries: Vec<(u64, u64)> = leaves.iter().flat_map(|(_, e)| e.chunks(2).map(|e| (e[0], e[1]))).collect();
    let (mut start, last) = leaves.first().zip(leaves.last()).map_or((0, 0), |(f, l)| (f.0.start, l.0.end));
    let most = (entries.len() as u64).min(IDS);
    let count = match r.below(4) {
        0 => most,
        1 => r.below(3).min(most),
        _ => r.below(most + 1),
    } as usize;
    let mut end = entries.get(count).map_or(last, |e| e.0);
    let mut ids: Vec<u64> = entries[..count].iter().map(|e| e.1).collect();
    match r.below(12) {
        0 => end = if r.below(2) == 0 { edge(r) } else { end.wrapping_add(r.below(5)).wrapping_sub(2) },
        1 => start = if r.below(2) == 0 { edge(r) } else { start.wrapping_add(r.below(3)).wrapping_sub(1) },
        2 => ids.clear(),
        3 => ids.resize(if r.below(2) == 0 { IDS } else { r.below(IDS + 1) } as usize, edge(r)),
        4 if count > 0 => ids[r.below(count as u64) as usize] ^= 1,
        _ => {}
    }
    ids.truncate(IDS as usize);
    [&[start, end], &ids[..]].concat()
}

/// A tree that fills the memory at C = 2 or 3, and walks over it: a listing longer than a pipe holds.
fn deep(r: &mut Random) -> Vec<Record> {
    let capacity = 2 + r.below(2);
    let nodes = script::most_nodes(capacity);
    let mut records = vec![Record { kind: 1, words: vec![capacity, nodes, random::start(r)] }];
    records.extend((0..700).map(|k| Record { kind: 2, words: vec![1 + r.below(5), k] }));
    records.extend((0..20 + r.below(40)).map(|_| Record { kind: 5, words: vec![r.below(2)] }));
    records
}

/// Mostly one create and many appends, so that the trees grow.
fn records(r: &mut Random) -> Vec<Record> {
    if r.below(200) == 0 {
        return deep(r);
    }
    let mut memory = Memory::new();
    let mut records = Vec::new();
    let length = match r.below(40) {
        0 => r.below(3),
        1 => 100 + r.below(300),
        2..8 => 20 + r.below(80),
        _ => 1 + r.below(25),
    };
    let prunes = 1 + r.below(6);
    while (records.len() as u64) < length {
        let w = &memory.store.words;
        // No store yet, or one that is closed.
        let none = w[0] == 0 || w[2] == w[1];
        let (kind, words) = match r.below(60) {
            0..40 if none => (1, create(r)),
            0 => (1, create(r)),
            1..4 => (3, vec![edge(r)]),
            4..6 => (3, vec![r.below(300)]),
            6 => (5, vec![edge(r)]),
            7 => (5, vec![r.below(300)]),
            8 => (6, vec![if r.below(2) == 0 { edge(r) } else { r.below(20) }]),
            9 => (2, vec![edge(r), edge(r)]),
            k if k < 10 + prunes => (4, prune(r, &memory)),
            _ => (2, vec![1 + r.below(20), r.below(1000)]),
        };
        let record = Record { kind, words };
        memory.perform(&record);
        records.push(record);
    }
    records
}

fn written(records: &[Record]) -> Vec<u8> {
    let mut bytes = Vec::new();
    records.iter().for_each(|record| record.write(&mut bytes));
    bytes
}

/// A length, a kind, and so many bytes.
fn wrong(length: u64, kind: u16, body: &[u8]) -> Vec<u8> {
    [&(length as u32).to_le_bytes()[..], &kind.to_le_bytes(), body].concat()
}

fn bytes(r: &mut Random, length: u64) -> Vec<u8> {
    (0..length).map(|_| r.word() as u8).collect()
}

const SORTS: [&str; 9] = [
    "random bytes",
    "good scripts",
    "cut at a byte",
    "bytes changed",
    "another length",
    "another kind",
    "another size",
    "up to 509 page ids",
    "long records",
];

/// Any bytes, or small ones, which make lengths and kinds that may be good.
fn random_bytes(r: &mut Random) -> Vec<u8> {
    let length = r.below(301);
    match r.below(2) {
        0 => bytes(r, length),
        _ => (0..length).map(|_| if r.below(3) > 0 { 0 } else { r.below(32) as u8 }).collect(),
    }
}

/// A good script, changed as its sort says.
fn changed(r: &mut Random, sort: usize, mut script: Vec<u8>) -> Vec<u8> {
    match sort {
        2 => script.truncate(r.below(script.len() as u64 + 1) as usize),
        3 => {
            for _ in 0..1 + r.below(4) {
                let at = r.below(script.len() as u64) as usize;
                script[at] = if r.below(2) == 0 { r.word() as u8 } else { script[at] ^ (1 << r.below(8)) };
            }
        }
        _ => {}
    }
    script
}

/// What stands in place of a record of this kind and body.
fn instead(r: &mut Random, sort: usize, kind: u16, mut body: Vec<u8>) -> Vec<u8> {
    let length = 2 + body.len() as u64;
    match sort {
        4 => {
            let length = match r.below(12) {
                k @ 0..4 => k,
                4 => 4096,
                5 => 4097,
                6 => u32::MAX as u64,
                7 => r.below(4200),
                8 => r.word() >> 32,
                _ => length.wrapping_add(r.below(17)).wrapping_sub(8),
            };
            wrong(length, kind, &body)
        }
        5 => wrong(length, if r.below(2) == 0 { r.below(9) } else { r.word() >> r.below(64) } as u16, &body),
        6 => {
            let size = match r.below(3) {
                0 => r.below(60),
                1 => 8 * r.below(6),
                _ => (length + r.below(5)).saturating_sub(4),
            };
            body.resize(size as usize, r.word() as u8);
            wrong(2 + size, kind, &body)
        }
        7 => {
            let count = [0, 1, IDS - 1, IDS, r.below(IDS + 1)][r.below(5) as usize];
            let mut words = vec![r.below(30), r.below(300)];
            (0..count).for_each(|k| words.push(if r.below(2) == 0 { k } else { edge(r) }));
            written(&[Record { kind: 4, words }])
        }
        _ => {
            let length = LONGEST as u64 - r.below(10);
            let body = bytes(r, length - 2);
            wrong(length, 1 + r.below(6) as u16, &body)
        }
    }
}

fn input(r: &mut Random, sort: usize) -> Vec<u8> {
    if sort == 0 {
        return random_bytes(r);
    }
    let mut all = records(r);
    let place = r.below(all.len() as u64 + 1) as usize;
    if place == all.len() {
        all.push(Record { kind: 3, words: vec![edge(r)] });
    }
    if sort < 4 {
        return changed(r, sort, written(&all));
    }
    let body = all[place].words.iter().flat_map(|w| w.to_le_bytes()).collect();
    let bytes = instead(r, sort, all[place].kind, body);
    [written(&all[..place]), bytes, written(&all[place + 1..])].concat()
}

/// What the program prints for a script that comes in two pieces.
fn program(script: &[u8], cut: usize) -> io::Result<Vec<u8>> {
    let mut child = Command::new(PROGRAM).stdin(Stdio::piped()).stdout(Stdio::piped()).spawn()?;
    let mut stdin = child.stdin.take().unwrap();
    let mut out = Vec::new();
    std::thread::scope(|s| {
        s.spawn(move || {
            // A program that has met a bad record does not read on.
            let _ = stdin.write_all(&script[..cut]).and_then(|()| stdin.write_all(&script[cut..]));
        });
        child.stdout.take().unwrap().read_to_end(&mut out)
    })?;
    let status = child.wait()?;
    if status.success() { Ok(out) } else { Err(io::Error::other(format!("{PROGRAM}: {status}"))) }
}

/// The function with an output of this length, filled before: what it wrote, what it left, and what it returned.
fn function(r: &mut Random, script: &[u8], length: usize, wanted: &[u8]) -> Result<(), String> {
    let fill = r.word() as u8;
    let given = Guarded::new(script, r.below(2) == 0);
    let mut out = Guarded::new(&vec![fill; length], r.below(2) == 0);
    let returned = script::row_page_script(&given, &mut out);
    let fits = length.min(wanted.len());
    if returned != wanted.len() {
        return Err(format!("row_page_script returned {returned}, wanted {}", wanted.len()));
    }
    if out[..fits] != wanted[..fits] {
        return Err(format!("row_page_script wrote other bytes into {length}"));
    }
    if out[fits..].iter().any(|b| *b != fill) {
        return Err(format!("row_page_script wrote past its listing into {length}"));
    }
    if *given != *script {
        return Err("row_page_script changed its script".into());
    }
    Ok(())
}

fn compare(r: &mut Random, script: &[u8], read: &Read) -> Result<(), String> {
    let wanted = read.listing.as_bytes();
    let shorter = r.below(wanted.len() as u64) as usize;
    let longer = wanted.len() + r.below(100) as usize;
    for length in [wanted.len(), longer, shorter, 0] {
        function(r, script, length, wanted)?;
    }
    // The same on the heap, whose ends the allocator checks.
    if script::listing(&script.to_vec()) != wanted {
        return Err("row_page_script gives another listing on the heap".into());
    }
    let cut = r.below(script.len() as u64 + 1) as usize;
    match program(script, cut) {
        Ok(printed) if printed == wanted => Ok(()),
        Ok(printed) => Err(format!("{PROGRAM} printed {} other bytes, wanted {}", printed.len(), wanted.len())),
        Err(e) => Err(format!("{PROGRAM}: {e}")),
    }
}

/// So many inputs; false where one differs.
pub fn run(count: u64, seed: u64) -> bool {
    let mut r = Random::new(seed);
    let mut sorts = [(0u64, 0u64); SORTS.len()];
    let (mut records, mut bytes, mut listed, mut longest, mut differences) = (0, 0, 0, 0, 0);
    let mut refusals = BTreeMap::<u64, u64>::new();
    let mut shortest: Option<Vec<u8>> = None;
    let mut progress = Progress::default();
    for k in 0..count {
        // A third of them are good.
        let sort = match r.below(SORTS.len() as u64 + 3) as usize {
            k if k < SORTS.len() => k,
            _ => 1,
        };
        let script = input(&mut r, sort);
        fs::write(FAILURE, &script).unwrap();
        let read = script::read(&script);
        if let Err(text) = compare(&mut r, &script, &read) {
            println!("input {k} ({}, {} bytes): {text}", SORTS[sort], script.len());
            differences += 1;
            if shortest.as_ref().is_none_or(|s| script.len() < s.len()) {
                shortest = Some(script.clone());
            }
        }
        sorts[sort].0 += 1;
        sorts[sort].1 += read.bad as u64;
        records += read.records;
        bytes += script.len();
        listed += read.listing.len();
        longest = longest.max(read.listing.len());
        for refusal in read.listing.lines().filter_map(|l| l.strip_prefix("no ")) {
            *refusals.entry(refusal.split(' ').next().unwrap().parse().unwrap()).or_default() += 1;
        }
        progress.step(|| format!("{} scripts of {count}, {records} records", k + 1));
    }
    println!("{:>20}{:>10}{:>14}", "inputs", "all", "bad record");
    let all = sorts.iter().fold((0, 0), |a, b| (a.0 + b.0, a.1 + b.1));
    for (name, (inputs, bad)) in SORTS.iter().zip(sorts).chain([(&"all", all)]) {
        println!("{name:>20}{inputs:>10}{bad:>14}");
    }
    println!("{bytes} bytes of input, {records} records run, {listed} bytes of listing, the longest {longest}");
    print!("refusals by number:");
    refusals.iter().for_each(|(number, n)| print!(" {number}: {n}"));
    println!("\n{differences} differences");
    match shortest {
        None => fs::remove_file(FAILURE).unwrap(),
        Some(script) => fs::write(FAILURE, script).unwrap(),
    }
    differences == 0
}
