//! The C function `row_page_script` of `include/row_page_index.h`; and 01, 'Script program', read here a second time, over the
//! C functions of a store.
use crate::places;
use crate::store::{Cursor, Leaf, Refusal, Store};
use std::fmt::Write as _;

mod library {
    unsafe extern "C" {
        pub fn row_page_script(script: *const u8, script_len: usize, out: *mut u8, out_len: usize) -> usize;
    }
}

/// The bytes of the listing that fit go into the front of `out`, the rest of which stays. The length of the whole listing.
pub fn row_page_script(script: &[u8], out: &mut [u8]) -> usize {
    unsafe { library::row_page_script(script.as_ptr(), script.len(), out.as_mut_ptr(), out.len()) }
}

/// The whole listing: the first call gives its length.
pub fn listing(script: &[u8]) -> Vec<u8> {
    let mut out = vec![0; row_page_script(script, &mut [])];
    let length = row_page_script(script, &mut out);
    assert_eq!(length, out.len(), "the same script has a listing of the same length");
    out
}

/// The words of a script's memory.
pub const WORDS: u64 = 4096;
/// The most that the length of a record may be.
pub const LONGEST: usize = 4096;

/// A record's words, after its kind.
#[derive(Debug, Clone, PartialEq, Eq)]
pub struct Record {
    pub kind: u16,
    pub words: Vec<u64>,
}

impl Record {
    /// As a script has it; also a wrong one.
    pub fn write(&self, out: &mut Vec<u8>) {
        out.extend((2 + 8 * self.words.len() as u32).to_le_bytes());
        out.extend(self.kind.to_le_bytes());
        self.words.iter().for_each(|w| out.extend(w.to_le_bytes()));
    }

    /// The record that these bytes begin with, and the bytes after it; none for a bad one.
    pub fn read(bytes: &[u8]) -> Option<(Record, &[u8])> {
        let (length, rest) = bytes.split_at_checked(4)?;
        let length = u32::from_le_bytes(length.try_into().ok()?) as usize;
        if length > LONGEST {
            return None;
        }
        let (body, rest) = rest.split_at_checked(length)?;
        let (kind, body) = body.split_at_checked(2)?;
        let kind = u16::from_le_bytes(kind.try_into().ok()?);
        let words: Vec<u64> = body.chunks_exact(8).map(|w| u64::from_le_bytes(w.try_into().unwrap())).collect();
        let good = match kind {
            1 => words.len() == 3,
            2 => words.len() == 2,
            4 => words.len() >= 2,
            3 | 5 | 6 => words.len() == 1,
            _ => false,
        };
        (good && body.len() % 8 == 0).then_some((Record { kind, words }, rest))
    }
}

/// The lines of an answer, or of a refusal.
pub fn lines<T>(answer: Result<T, Refusal>, text: impl FnOnce(T) -> String) -> String {
    match answer {
        Ok(values) => text(values),
        Err(r) => format!("no {} {}\n", r.number, r.detail),
    }
}

/// The words that a create gets.
pub fn create_length(capacity: u64, nodes: u64) -> u64 {
    let fits = (2..=4094).contains(&capacity) && (1..=65_535).contains(&nodes);
    if fits { Store::length(capacity, nodes).min(WORDS) } else { WORDS }
}

/// The most nodes that a store of this capacity has in a script's memory.
pub fn most_nodes(capacity: u64) -> u64 {
    (WORDS - places::STORE_HEADER as u64) / places::node_size(capacity as usize) as u64
}

/// The words that the calls get, and those after them.
pub struct Memory {
    pub store: Store,
    rest: Vec<u64>,
}

impl Memory {
    pub fn new() -> Memory {
        Memory { store: Store { words: vec![0; WORDS as usize] }, rest: vec![] }
    }

    fn give(&mut self, length: usize) {
        self.store.words.append(&mut self.rest);
        self.rest = self.store.words.split_off(length);
    }

    fn create(&mut self, capacity: u64, nodes: u64, start: u64) -> Result<(), Refusal> {
        let used = self.store.words.len();
        self.give(create_length(capacity, nodes) as usize);
        let answer = self.store.create(capacity, nodes, start);
        if answer.is_err() {
            self.give(used);
        }
        answer
    }

    /// The leaves from a row, with row and page of each entry, and the refusal that stops the walk.
    pub fn walk(&self, row: u64) -> (Vec<(Leaf, Vec<u64>)>, Option<Refusal>) {
        let mut cursor = Cursor::new();
        cursor.seek(row);
        let mut records = vec![0; 2 * WORDS as usize];
        let mut leaves = Vec::new();
        loop {
            match self.store.next(&mut cursor, &mut records) {
                Ok(Some(leaf)) => leaves.push((leaf, records[..2 * leaf.count as usize].to_vec())),
                Ok(None) => return (leaves, None),
                Err(refusal) => return (leaves, Some(refusal)),
            }
        }
    }

    fn walk_lines(&self, row: u64) -> String {
        let (leaves, refusal) = self.walk(row);
        let mut text = String::new();
        for (l, _) in leaves {
            writeln!(text, "leaf {} {} {}", l.start, l.end, l.count).unwrap();
        }
        text + &refusal.map_or("end\n".into(), |r| format!("no {} {}\n", r.number, r.detail))
    }

    /// The lines of a record.
    pub fn perform(&mut self, record: &Record) -> String {
        let w = &record.words;
        match record.kind {
            1 => lines(self.create(w[0], w[1], w[2]), |()| "create\n".into()),
            2 => lines(self.store.append(w[0], w[1]), |a| format!("append {} {} {}\n", a.start, a.end, a.taken)),
            3 => lines(self.store.find(w[0]), |p| p.map_or("none\n".into(), |p| format!("page {p}\n"))),
            4 => lines(self.store.prune(w[0], w[1], &w[2..]), |p| format!("prune {} {} {}\n", p.removed, p.freed, p.levels)),
            5 => self.walk_lines(w[0]),
            6 => lines(self.store.destroy(w[0], &mut [0; WORDS as usize]), |r| format!("release {} {}\n", r.nodes, r.pages)),
            kind => panic!("no record has the kind {kind}"),
        }
    }
}

/// What a script should print, and the records before its end or before a bad one.
pub struct Read {
    pub listing: String,
    pub records: u64,
    pub bad: bool,
}

pub fn read(script: &[u8]) -> Read {
    let mut memory = Memory::new();
    let mut read = Read { listing: String::new(), records: 0, bad: false };
    let mut rest = script;
    while !rest.is_empty() {
        let Some((record, after)) = Record::read(rest) else {
            read.listing += "bad record\n";
            read.bad = true;
            return read;
        };
        read.listing += &memory.perform(&record);
        read.records += 1;
        rest = after;
    }
    writeln!(read.listing, "free {}", memory.store.words[4]).unwrap();
    read
}
