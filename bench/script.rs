//! A script of lookups, by the C function on all of it and by the script program from a file and through a pipe. The best of
//! five runs of each; the program's memory is the most that it had resident.
use std::fs::File;
use std::io::{Read, Write};
use std::process::{Command, Stdio};
use std::time::{Duration, Instant};

unsafe extern "C" {
    fn row_page_script(script: *const u8, len: usize, out: *mut u8, room: usize) -> usize;
}

fn record(script: &mut Vec<u8>, kind: u16, words: &[u64]) {
    script.extend((2 + 8 * words.len() as u32).to_le_bytes());
    script.extend(kind.to_le_bytes());
    for word in words {
        script.extend(word.to_le_bytes());
    }
}

/// 200 pages at C = 8, then lookups all over their rows and a few past them.
fn lookups(bytes: usize) -> Vec<u8> {
    let mut script = Vec::with_capacity(bytes + 64);
    record(&mut script, 1, &[8, 200, 0]);
    for page in 0..200 {
        record(&mut script, 2, &[10, page]);
    }
    let mut row: u64 = 1;
    while script.len() < bytes {
        row = row.wrapping_mul(6364136223846793005).wrapping_add(1442695040888963407);
        record(&mut script, 3, &[(row >> 33) % 2010]);
    }
    script
}

fn best(mut run: impl FnMut() -> Duration) -> Duration {
    (0..5).map(|_| run()).min().unwrap()
}

fn say(name: &str, time: Duration, script: &[u8], base: Duration) {
    let seconds = time.as_secs_f64();
    let speed = script.len() as f64 / 1e6 / seconds;
    println!("{name:22} {seconds:7.3} s {speed:7.0} MB/s {:5.2}", seconds / base.as_secs_f64());
}

/// The most KB that a process had resident.
fn most(process: u32) -> u64 {
    let status = std::fs::read_to_string(format!("/proc/{process}/status")).unwrap();
    let line = status.lines().find(|line| line.starts_with("VmHWM:")).unwrap();
    line.split_whitespace().nth(1).unwrap().parse().unwrap()
}

/// The program's time, and its memory after three quarters of its listing, which has to be the function's.
fn program(path: &str, script: &[u8], listing: &[u8], piped: bool) -> (Duration, u64) {
    let begin = Instant::now();
    let mut command = Command::new("target/bin/script_run");
    command.stdout(Stdio::piped());
    let mut child = match piped {
        true => command.stdin(Stdio::piped()).spawn().unwrap(),
        false => command.stdin(File::open(path).unwrap()).spawn().unwrap(),
    };
    let mut got = vec![0; listing.len() / 4 * 3];
    let mut memory = 0;
    std::thread::scope(|scope| {
        if let Some(mut stdin) = child.stdin.take() {
            scope.spawn(move || stdin.write_all(script).unwrap());
        }
        let mut stdout = child.stdout.take().unwrap();
        stdout.read_exact(&mut got).unwrap();
        memory = most(child.id());
        stdout.read_to_end(&mut got).unwrap();
    });
    assert!(child.wait().unwrap().success() && got == listing, "the program's listing differs from the function's");
    (begin.elapsed(), memory)
}

fn main() {
    let megabytes: usize = std::env::args().nth(1).map_or(100, |a| a.parse().unwrap());
    let script = lookups(megabytes * 1_000_000);
    let path = "target/bench_script.bin";
    std::fs::write(path, &script).unwrap();
    let mut listing = vec![0u8; 2 * script.len()];
    let mut length = 0;
    let function = best(|| {
        let begin = Instant::now();
        length = unsafe { row_page_script(script.as_ptr(), script.len(), listing.as_mut_ptr(), listing.len()) };
        begin.elapsed()
    });
    listing.truncate(length);
    println!("{} bytes, {} bytes of lines", script.len(), listing.len());
    say("row_page_script", function, &script, function);
    let mut memory = 0;
    for (name, piped) in [("script_run, a file", false), ("script_run, a pipe", true)] {
        let time = best(|| {
            let (time, kilobytes) = program(path, &script, &listing, piped);
            memory = memory.max(kilobytes);
            time
        });
        say(name, time, &script, function);
    }
    println!("script_run had at most {memory} KB");
    std::fs::remove_file(path).unwrap();
}
