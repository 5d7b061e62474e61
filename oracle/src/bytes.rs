//! Seeded inputs, good and bad, for the program `store`. What it writes has to be what `program` says, so that each wrong line is named
//! with its number and none else; its status is 0, and it ends in time. A store lives on from input to input: many go to one process.
use crate::ledger::{LIMIT, NONE};
use crate::program::{BEGINS, LINE, NAMES, Program};
use crate::progress::Progress;
use crate::seeded::Random;
use std::collections::BTreeMap;
use std::fs;
use std::io::{Read as _, Write as _};
use std::process::{Command, Stdio};
use std::sync::mpsc;
use std::time::Duration;

const PROGRAM: &str = "target/bin/store";
const FAILURE: &str = "target/oracle/fuzz-failure.txt";
const INPUTS: u64 = 50;
const MOST: Duration = Duration::from_secs(20);

const SORTS: [&str; 7] =
    ["random bytes", "words and digits", "good lines", "bytes changed", "words changed", "long lines", "damaged stores"];

/// 0, 1, a limit or what is beside it, or any word.
fn edge(r: &mut Random) -> u64 {
    match r.below(8) {
        0 => r.below(3),
        1 => LIMIT.wrapping_add(r.below(3)).wrapping_sub(1),
        2 => NONE - r.below(2),
        3 => [4094, 4095, 65_535, 65_536, 32_768, 32_769][r.below(6) as usize],
        _ => r.word() >> r.below(64),
    }
}

/// Mostly small.
fn number(r: &mut Random) -> u64 {
    if r.below(8) == 0 { edge(r) } else { r.below(60) }
}

fn create(r: &mut Random) -> String {
    let capacity = match r.below(12) {
        0 => r.below(5000),
        1 => edge(r),
        _ => 2 + r.below(4),
    };
    let nodes = match r.below(10) {
        0 => edge(r),
        1 => r.below(9000),
        _ => 1 + r.below(30),
    };
    format!("create {capacity} {nodes} {}", if r.below(10) == 0 { edge(r) } else { r.below(50) })
}

/// The name and some numbers, at least so many and below as many more.
fn with_numbers(r: &mut Random, name: &str, least: u64, more: u64) -> String {
    (0..least + r.below(more)).fold(name.to_string(), |line, _| format!("{line} {}", number(r)))
}

/// A change of a word, mostly of one that is in use.
fn damage(r: &mut Random) -> String {
    match r.below(6) {
        0 => format!("set {} {}", r.below(8), number(r)),
        1 => format!("set {} {}", r.below(150), number(r)),
        2 => with_numbers(r, "load", 2, 9),
        _ => format!("put {} {} {}", r.below(8), r.below(9), number(r)),
    }
}

fn line(r: &mut Random) -> String {
    match r.below(40) {
        0..3 => create(r),
        3..16 => format!("append {} {}", 1 + r.below(20), r.below(9)),
        16..19 => format!("find {}", number(r)),
        19 | 20 => with_numbers(r, "prune 0", 1, 6),
        21 => with_numbers(r, "prune", 2, 5),
        22 => format!("seek {}", number(r)),
        23 | 24 => "next".into(),
        25 => format!("walk {}", number(r)),
        26 => format!("release {}", number(r)),
        27 => "release_empty".into(),
        28 => "check".into(),
        29 => with_numbers(r, "words", 0, 2),
        30 => with_numbers(r, "list", 0, 2),
        31 => damage(r),
        32 => format!("fill {}", number(r)),
        33 if r.below(4) == 0 => "dump".into(),
        33 | 34 => with_numbers(r, "dump", 2, 1),
        35 => "shape".into(),
        36 => "chain".into(),
        37 => "cursor".into(),
        38 => "picture".into(),
        _ => ["", "# 1", "  find 3 # 4", "\tcheck\r", "find 0000000000000000000000007"][r.below(5) as usize].into(),
    }
}

fn lines(r: &mut Random, count: u64) -> String {
    (0..count).map(|_| line(r) + "\n").collect()
}

/// A good store, some damage, and every way to look at it.
fn damaged(r: &mut Random) -> String {
    let (capacity, pages) = (2 + r.below(3), r.below(12));
    let mut text = format!("words\nlist\ncreate {capacity} {} {}\n", 1 + r.below(20), r.below(9));
    text += &(0..pages).map(|i| format!("append {} {i}\n", 1 + r.below(9))).collect::<String>();
    for _ in 0..1 + r.below(3) {
        text += &damage(r);
        text += &format!("\npicture\nshape\nchain\ncheck\nwalk {}\n", number(r));
    }
    text + &format!("append 1 1\nprune 0 {} 0 1\nrelease 0\npicture\n", number(r))
}

/// A line whose words are changed: one more, one less, another, too large, or not a number.
fn changed(r: &mut Random) -> String {
    let text = line(r);
    let mut words: Vec<String> = text.split(' ').map(str::to_string).collect();
    let place = r.below(words.len() as u64) as usize;
    match r.below(8) {
        0 => words.insert(place, number(r).to_string()),
        1 => words.push(number(r).to_string()),
        2 => drop(words.remove(place)),
        3 => {
            words[place] =
                ["18446744073709551616", "99999999999999999999999999x", "-1", "1.", "0x1"][r.below(5) as usize].into()
        }
        4 => words[place] = NAMES[r.below(NAMES.len() as u64) as usize].0.into(),
        5 => words[place] = words[place].to_uppercase(),
        6 => words[place] += &"x".repeat(1 + r.below(60) as usize),
        _ => words.truncate(1),
    }
    words.join(" ") + "\n"
}

/// A line around the most bytes that one has: of one word, of spaces, of many numbers, or a comment.
fn long(r: &mut Random) -> Vec<u8> {
    let length = (LINE as u64 + r.below(5) - 2 + [0, 0, 0, 70_000][r.below(4) as usize]) as usize;
    let mut line = match r.below(4) {
        0 => b"find 1".to_vec(),
        1 => b"find ".to_vec(),
        2 => b"prune 0 9".to_vec(),
        _ => b"check#".to_vec(),
    };
    let more: &[u8] = match r.below(3) {
        0 => b" ",
        1 => b"7",
        _ => b" 7",
    };
    while line.len() < length {
        line.extend(more);
    }
    line.truncate(length);
    line
}

fn input(r: &mut Random, sort: usize) -> Vec<u8> {
    let length = r.below(200) as usize;
    match sort {
        0 => (0..length).map(|_| r.word() as u8).collect(),
        1 => {
            let bytes = b"  \t\r\n\n##0123456789abcdefghijklmnopqrstuvwxyz_-.";
            let mut out = Vec::new();
            while out.len() < length {
                match r.below(6) {
                    0 => out.extend(NAMES[r.below(NAMES.len() as u64) as usize].0.as_bytes()),
                    1 => out.push(b' '),
                    _ => out.push(bytes[r.below(bytes.len() as u64) as usize]),
                }
            }
            out
        }
        2 => lines(r, 1 + length as u64 / 8).into_bytes(),
        3 => {
            let mut bytes = lines(r, 1 + length as u64 / 8).into_bytes();
            for _ in 0..1 + r.below(4) {
                let at = r.below(bytes.len() as u64) as usize;
                bytes[at] = if r.below(2) == 0 { r.word() as u8 } else { bytes[at] ^ (1 << r.below(8)) };
            }
            bytes
        }
        4 => (0..1 + length / 16)
            .map(|_| if r.below(2) == 0 { line(r) + "\n" } else { changed(r) })
            .collect::<String>()
            .into_bytes(),
        5 => long(r),
        _ => damaged(r).into_bytes(),
    }
}

/// What the program writes.
fn written(input: Vec<u8>) -> Result<Vec<u8>, String> {
    let mut child = Command::new(PROGRAM)
        .stdin(Stdio::piped())
        .stdout(Stdio::piped())
        .spawn()
        .map_err(|e| format!("{PROGRAM}: {e}"))?;
    let (mut stdin, mut stdout) = (child.stdin.take().unwrap(), child.stdout.take().unwrap());
    let (send, receive) = mpsc::channel();
    std::thread::spawn(move || stdin.write_all(&input));
    std::thread::spawn(move || {
        let mut out = Vec::new();
        let read = stdout.read_to_end(&mut out);
        let _ = send.send(read.map(|_| out));
    });
    let Ok(out) = receive.recv_timeout(MOST) else {
        child.kill().unwrap();
        return Err(format!("longer than {} s", MOST.as_secs()));
    };
    let status = child.wait().unwrap();
    if status.success() { out.map_err(|e| e.to_string()) } else { Err(status.to_string()) }
}

/// The first line that differs.
fn compare(got: &[u8], wanted: &str) -> Result<(), String> {
    let got = String::from_utf8_lossy(got);
    let (mut g, mut w) = (got.split('\n'), wanted.split('\n'));
    for number in 1.. {
        let (g, w) = match (g.next(), w.next()) {
            (None, None) => return Ok(()),
            (g, w) => (g.unwrap_or("no line"), w.unwrap_or("no line")),
        };
        let same = match w.strip_suffix(BEGINS) {
            Some(begins) => g.starts_with(begins) && g.len() > begins.len(),
            None => g == w,
        };
        if !same {
            return Err(format!("line {number} of the output is {g:?}, wanted {w:?}"));
        }
    }
    Ok(())
}

/// What the program has to write for these bytes.
fn wanted(bytes: &[u8]) -> Program {
    let mut program = Program::new();
    let mut lines: Vec<&[u8]> = bytes.split(|b| *b == b'\n').collect();
    // What stands after the last line end is a line where it has bytes.
    if lines.last().is_some_and(|l| l.is_empty()) {
        lines.pop();
    }
    lines.into_iter().for_each(|line| program.take(line));
    program
}

/// Inputs for one process.
fn batch(r: &mut Random, count: u64, sorts: &mut [u64]) -> Vec<u8> {
    let mut all = Vec::new();
    for k in 0..count {
        let sort = match r.below(60) {
            0 => 5,
            n => [0, 1, 2, 3, 3, 4, 6][n as usize % 7],
        };
        sorts[sort] += 1;
        let mut bytes = input(r, sort);
        // The last line of a process may have no end.
        if k + 1 < count || r.below(2) == 0 {
            bytes.push(b'\n');
        }
        all.extend(bytes);
    }
    all
}

/// The gate's cases: what the crate has for them is what `program` says.
fn cases() -> Result<(), String> {
    let read = |name: &str| fs::read(format!("crates/store/{name}")).map_err(|e| e.to_string());
    compare(&read("stdout")?, &wanted(&read("stdin")?).output)
}

/// So many inputs; false where one differs.
pub fn run(count: u64, seed: u64) -> bool {
    let (mut r, mut progress) = (Random::new(seed), Progress::default());
    let (mut sorts, mut seen) = ([0; SORTS.len()], BTreeMap::<String, u64>::new());
    let (mut made, mut bytes, mut differences) = (0, 0, 0);
    if let Err(text) = cases() {
        println!("crates/store/stdout: {text}");
        differences += 1;
    }
    while made < count {
        let inputs = INPUTS.min(count - made);
        let all = batch(&mut r, inputs, &mut sorts);
        let program = wanted(&all);
        bytes += all.len();
        let told = written(all.clone()).and_then(|got| compare(&got, &program.output));
        if let Err(text) = told {
            println!("inputs {made} to {}: {text}", made + inputs - 1);
            fs::write(FAILURE, &all).unwrap();
            differences += 1;
        }
        program.seen.into_iter().for_each(|(kind, n)| *seen.entry(kind).or_default() += n);
        made += inputs;
        progress.step(|| format!("{made} inputs of {count} for store"));
    }
    SORTS.iter().zip(sorts).for_each(|(name, n)| println!("{name:>20}{n:>10}"));
    println!("lines: {seen:?}");
    let lines: u64 = seen.values().sum();
    println!("{made} inputs, {bytes} bytes, {lines} lines compared\n{differences} differences");
    differences == 0
}
