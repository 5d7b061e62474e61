//! The program `store` as docs/STORE.md has it, over the C functions: what it has to write for a line. Of what a picture says to be
//! wrong only the beginning is here.
use crate::ledger::{Answer, NONE};
use crate::places;
use crate::store::lent;
use std::collections::BTreeMap;
use std::fmt::Display;

/// The words of the program, its longest list, the most records of a leaf, the longest line.
pub const WORDS: usize = 65_536;
pub const LISTS: usize = 32_768;
const RECORDS: usize = 4094;
pub const LINE: usize = 65_535;
/// After the beginning of a line whose end is not compared.
pub const BEGINS: char = '\u{1}';
/// The names of all lines, and how many numbers they take.
pub const NAMES: [(&str, Takes); 21] = [
    ("create", Takes::Exactly(3)),
    ("append", Takes::Exactly(2)),
    ("find", Takes::Exactly(1)),
    ("prune", Takes::AtLeast(2)),
    ("seek", Takes::Exactly(1)),
    ("next", Takes::Exactly(0)),
    ("walk", Takes::Exactly(1)),
    ("release", Takes::Exactly(1)),
    ("release_empty", Takes::Exactly(0)),
    ("check", Takes::Exactly(0)),
    ("words", Takes::NoneOr(1)),
    ("list", Takes::NoneOr(1)),
    ("set", Takes::Exactly(2)),
    ("put", Takes::Exactly(3)),
    ("fill", Takes::Exactly(1)),
    ("load", Takes::AtLeast(2)),
    ("dump", Takes::NoneOr(2)),
    ("shape", Takes::Exactly(0)),
    ("chain", Takes::Exactly(0)),
    ("cursor", Takes::Exactly(0)),
    ("picture", Takes::Exactly(0)),
];

#[derive(Clone, Copy)]
pub enum Takes {
    Exactly(usize),
    NoneOr(usize),
    AtLeast(usize),
}

impl Takes {
    /// What is wrong with so many numbers.
    fn wrong(self, n: usize) -> Option<String> {
        match self {
            Takes::Exactly(k) if n < k => Some(format!("too few numbers ({n}, wanted {k}): ")),
            Takes::Exactly(k) if n > k => Some(format!("too many numbers ({n}, wanted {k}): ")),
            Takes::AtLeast(k) if n < k => Some(format!("too few numbers ({n}, wanted {k} or more): ")),
            Takes::NoneOr(k) if n > 0 && n != k => Some(format!("wrong count of numbers ({n}, wanted none or {k}): ")),
            _ => None,
        }
    }
}

#[derive(PartialEq)]
enum Header {
    Open,
    Closed,
    Wrong,
}

pub struct Program {
    words: Vec<u64>,
    pub lent: usize,
    fixed: bool,
    list: usize,
    cursor: [u64; 2],
    line: u64,
    pub output: String,
    /// Lines by what they are: the name of a right one, or what is wrong.
    pub seen: BTreeMap<String, u64>,
}

fn numbers<T: Display>(all: impl IntoIterator<Item = T>) -> String {
    all.into_iter().map(|n| format!(" {n}")).collect()
}

fn told(name: &str, a: &Answer) -> String {
    if a[0] > 0 { format!("no {} {}", a[0], a[2]) } else { format!("{name}{}", numbers(&a[2..2 + a[1] as usize])) }
}

/// A word as a message has it: at most 40 bytes, and a `?` for one that does not print.
fn shown(word: &[u8]) -> String {
    let text: String = word.iter().take(40).map(|b| if b.is_ascii_graphic() { *b as char } else { '?' }).collect();
    if word.len() > 40 { text + ".." } else { text }
}

fn row_or_none(row: u64) -> String {
    if row == NONE { "NONE".into() } else { row.to_string() }
}

impl Program {
    pub fn new() -> Program {
        let (words, output, seen) = (vec![0; WORDS], String::new(), BTreeMap::new());
        Program { words, lent: 0, fixed: false, list: LISTS, cursor: [0, 1], line: 0, output, seen }
    }

    fn say(&mut self, text: &str) {
        self.output += text;
        self.output += "\n";
    }

    /// Word i; 0 where none is lent.
    pub fn word(&self, i: usize) -> u64 {
        self.words[..self.lent].get(i).copied().unwrap_or(0)
    }

    /// Where word j of node n stands; none where none is lent.
    fn place(&self, n: u64, j: u64) -> Option<usize> {
        let capacity = self.word(0) as usize;
        let is_there = capacity <= RECORDS && n <= 65_535 && j < places::node_size(capacity) as u64;
        is_there.then(|| places::first(capacity, n as usize) + j as usize).filter(|i| *i < self.lent)
    }

    fn part(&self, n: u64, j: usize) -> u64 {
        self.place(n, j as u64).map_or(0, |i| self.words[i])
    }

    fn ask(&mut self, call: impl FnOnce(&mut [u64], &mut [u64]) -> u64) -> Answer {
        let mut answer = [0; 7];
        let number = call(&mut self.words[..self.lent], &mut answer);
        assert_eq!(number, answer[0]);
        answer
    }

    fn header(&mut self) -> Header {
        match self.ask(|w, a| lent::find(w, 0, a)) {
            [2, _, 65_535, ..] => Header::Wrong,
            [3, ..] => Header::Closed,
            _ => Header::Open,
        }
    }

    fn create(&mut self, n: &[u64]) {
        let in_range = (2..=4094).contains(&n[0]) && (1..=65_535).contains(&n[1]);
        let needed = if in_range { places::store_length(n[0], n[1]) as usize } else { WORDS };
        let (before, fixed) = (self.lent, self.fixed);
        self.lent = if fixed { before } else { needed.min(WORDS) };
        let answer = self.ask(|w, a| lent::create(w, n[0], n[1], n[2], a));
        if answer[0] > 0 {
            self.lent = before;
        }
        self.say(&told("create", &answer));
    }

    fn step(&mut self, mut cursor: [u64; 2]) -> (Answer, [u64; 2], Vec<u64>) {
        let mut records = vec![0; 2 * self.list.min(RECORDS)];
        let answer = self.ask(|w, a| lent::next(w, &mut cursor, &mut records, a));
        (answer, cursor, records)
    }

    fn next(&mut self) {
        let (answer, cursor, records) = self.step(self.cursor);
        self.cursor = cursor;
        let is_leaf = answer[0] == 0 && answer[1] == 3;
        self.say(&told(if is_leaf { "leaf" } else { "end" }, &answer));
        if is_leaf {
            self.say(&format!("entries{}", numbers(&records[..2 * answer[4] as usize])));
        }
    }

    fn walk(&mut self, row: u64) {
        let mut cursor = [row, 0];
        loop {
            let (answer, after, _) = self.step(cursor);
            let is_leaf = answer[0] == 0 && answer[1] == 3;
            self.say(&told(if is_leaf { "leaf" } else { "end" }, &answer));
            if !is_leaf {
                return;
            }
            cursor = after;
        }
    }

    fn release(&mut self, pivot: u64) {
        let mut list = vec![0; self.list];
        let answer = self.ask(|w, a| lent::destroy(w, pivot, &mut list, a));
        self.say(&told("release", &answer));
        if answer[0] == 0 {
            self.say(&format!("pages{}", numbers(&list[..answer[3] as usize])));
        }
    }

    /// The free nodes in the chain's order, and the number after them.
    fn free(&self) -> (Vec<u64>, u64) {
        let (mut nodes, mut n) = (vec![], self.word(3));
        while (nodes.len() as u64) < self.word(4).min(65_535) && n < self.word(1) {
            nodes.push(n);
            n = self.part(n, 1);
        }
        (nodes, n)
    }

    /// The nodes in reading order, each with its depth: at most P, at most 32 deep, at most C entries of each.
    fn reading_order(&self) -> Vec<(usize, u64)> {
        let (pool, root) = (self.word(1), self.word(2));
        let height = self.part(root, 0).min(31) as usize;
        let (mut order, mut path) = (vec![(1, root)], vec![(root, 0)]);
        while (order.len() as u64) < pool {
            let depth = path.len();
            let Some((node, index)) = path.last_mut() else { break };
            let (n, i) = (*node, *index);
            if depth > height || i >= self.part(n, 1).min(self.word(0)) {
                path.pop();
                continue;
            }
            *index += 1;
            let child = self.part(n, places::number(0, i as usize));
            if child < pool {
                path.push((child, 0));
                order.push((depth + 1, child));
            }
        }
        order
    }

    fn shape(&mut self) {
        if self.header() != Header::Open {
            let answer = self.ask(|w, a| lent::find(w, 0, a));
            return self.say(&told("", &answer));
        }
        for (_, n) in self.reading_order() {
            let parts: Vec<u64> = (0..4).map(|j| self.part(n, j)).collect();
            self.say(&format!("node {n}{}", numbers(parts)));
        }
    }

    fn chain(&mut self) {
        if self.header() == Header::Wrong {
            return self.say("no 2 65535");
        }
        let (nodes, last) = self.free();
        self.say(&format!("chain{}", numbers(nodes.iter().chain([&last]))));
    }

    fn draw(&mut self, depth: usize, n: u64) {
        let height = self.part(n, 0);
        let mut text = "  ".repeat(depth - 1);
        text += &format!("#{n} height {height} rows {}..{}", row_or_none(self.part(n, 2)), row_or_none(self.part(n, 3)));
        for i in 0..self.part(n, 1).min(self.word(0)) as usize {
            let to = if height == 0 { "page " } else { "#" };
            text += &format!("  {}:{to}{}", row_or_none(self.part(n, places::row(i))), self.part(n, places::number(0, i)));
        }
        self.say(&text);
    }

    fn picture(&mut self) {
        let [capacity, nodes, root] = [0, 1, 2].map(|i| self.word(i));
        self.say(&format!("store of {} words, capacity {capacity}, nodes {nodes}, root #{root}", self.lent));
        let header = self.header();
        let answer = self.ask(|w, a| lent::check(w, a));
        match header {
            Header::Wrong => return self.say(&format!("wrong: {BEGINS}\n{}", told("check", &answer))),
            Header::Closed => self.say("closed"),
            Header::Open => self.reading_order().into_iter().for_each(|(depth, n)| self.draw(depth, n)),
        }
        let free: String = self.free().0.iter().map(|n| format!(" #{n}")).collect();
        self.say(&format!("free {}:{free}", self.word(4)));
        match answer {
            [2, _, 65_535, ..] => self.say(&format!("wrong: {BEGINS}")),
            [2, _, n, ..] => self.say(&format!("wrong: #{n}: {BEGINS}")),
            _ => {}
        }
        self.say(&told("check", &answer));
    }

    fn dump(&mut self, from: usize, to: usize) {
        for i in (from..to).step_by(8) {
            let text = numbers(&self.words[i..to.min(i + 8)]);
            self.say(&format!("load {i}{text}"));
        }
    }

    /// One of the tools that change or show words; what is wrong.
    fn tool(&mut self, name: &str, n: &[u64]) -> Result<(), &'static str> {
        const NO_WORD: &str = "no such word is lent";
        match (name, n) {
            ("words", []) => self.fixed = false,
            ("words", [many]) if *many > WORDS as u64 => return Err("the program has 65,536 words"),
            ("words", [many]) => (self.lent, self.fixed) = (*many as usize, true),
            ("list", []) => self.list = LISTS,
            ("list", [many]) if *many > LISTS as u64 => return Err("the program has lists of 32,768"),
            ("list", [many]) => self.list = *many as usize,
            ("set", [place, _]) if *place >= self.lent as u64 => return Err(NO_WORD),
            ("set", [place, value]) => self.words[*place as usize] = *value,
            ("put", [node, word, value]) => {
                let place = self.place(*node, *word).ok_or("no such word of a node is lent")?;
                self.words[place] = *value;
            }
            ("fill", [value]) => self.words[..self.lent].fill(*value),
            ("load", [place, words @ ..]) => {
                let end = (*place as usize).checked_add(words.len()).filter(|e| *e <= self.lent).ok_or(NO_WORD)?;
                self.words[*place as usize..end].copy_from_slice(words);
            }
            ("dump", []) => self.dump(0, self.lent),
            ("dump", [from, many]) => {
                let end = from.checked_add(*many).filter(|e| *e <= self.lent as u64).ok_or(NO_WORD)?;
                self.dump(*from as usize, end as usize);
            }
            _ => panic!("{name} takes no {} numbers", n.len()),
        }
        match (name, n) {
            ("words" | "list", _) => self.say(&format!("{name}{}", numbers(n))),
            ("dump", _) => {}
            _ => self.say(name),
        }
        Ok(())
    }

    fn perform(&mut self, name: &str, n: &[u64]) -> Result<(), &'static str> {
        match name {
            "create" => self.create(n),
            "append" => {
                let answer = self.ask(|w, a| lent::append(w, n[0], n[1], a));
                self.say(&told("append", &answer));
            }
            "find" => {
                let answer = self.ask(|w, a| lent::find(w, n[0], a));
                self.say(&told(if answer[1] == 1 { "page" } else { "none" }, &answer));
            }
            "prune" => {
                let answer = self.ask(|w, a| lent::prune(w, n[0], n[1], &n[2..], a));
                self.say(&told("prune", &answer));
            }
            "seek" => {
                self.cursor = [n[0], 0];
                self.say("seek");
            }
            "next" => self.next(),
            "walk" => self.walk(n[0]),
            "release" => self.release(n[0]),
            "release_empty" => {
                let answer = self.ask(lent::destroy_empty);
                self.say(&told("release", &answer));
            }
            "check" => {
                let answer = self.ask(|w, a| lent::check(w, a));
                self.say(&told("check", &answer));
            }
            "shape" => self.shape(),
            "chain" => self.chain(),
            "cursor" => self.say(&format!("cursor{}", numbers(self.cursor))),
            "picture" => self.picture(),
            _ => return self.tool(name, n),
        }
        Ok(())
    }

    /// What is wrong with a line, its kind first; the name of a right one.
    fn read(&mut self, line: &[u8]) -> Result<String, (&'static str, String)> {
        if line.len() > LINE {
            return Err(("long line", "longer than 65,535 bytes".into()));
        }
        let line = line.split(|b| *b == b'#').next().unwrap();
        let mut words = line.split(|b| b" \t\r".contains(b)).filter(|w| !w.is_empty());
        let Some(first) = words.next() else { return Ok("nothing".into()) };
        let Some((name, takes)) = NAMES.into_iter().find(|(name, _)| name.as_bytes() == first) else {
            return Err(("unknown name", format!("no call has this name: {}", shown(first))));
        };
        let mut n: Vec<u64> = Vec::new();
        for word in words {
            if !word.iter().all(u8::is_ascii_digit) {
                return Err(("no number", format!("no number: {}", shown(word))));
            }
            let value = str::from_utf8(word).unwrap().parse();
            n.push(value.map_err(|_| ("large number", format!("no number below 2^64: {}", shown(word))))?);
        }
        if let Some(text) = takes.wrong(n.len()) {
            return Err(("count of numbers", text + name));
        }
        self.perform(name, &n).map_err(|text| ("no such place", text.into()))?;
        Ok(name.into())
    }

    /// A line without its end.
    pub fn take(&mut self, line: &[u8]) {
        self.line += 1;
        let kind = self.read(line).unwrap_or_else(|(kind, text)| {
            self.say(&format!("line {}: {text}", self.line));
            kind.into()
        });
        *self.seen.entry(kind).or_default() += 1;
    }
}
