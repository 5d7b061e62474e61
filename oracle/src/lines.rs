//! Calls as lines for the program `store`, with the answers that it has to write by the ledger. Nothing is asked of the library.
use crate::beside::{Call, Step};
use crate::ledger::{Answer, LIMIT, Ledger, NONE};
use crate::places;
use std::collections::BTreeMap;
use std::fmt::Display;

/// The words of the program, and the longest list that it lends.
const WORDS: usize = 65_536;
const LONGEST: usize = 32_768;
/// What a history's words hold before it: they are no store, since no capacity is as large.
pub const FILL: u64 = 4095;

pub struct Lines {
    pub input: String,
    pub output: String,
    pub ledger: Ledger,
    /// The cursor of the program; the words lent to a call, and whether a create is lent as many; the list's length.
    cursor: [u64; 2],
    lent: usize,
    fixed: bool,
    list: usize,
    /// Calls of the library by name, refused ones by number.
    pub calls: BTreeMap<String, u64>,
    pub refusals: BTreeMap<u64, u64>,
}

fn numbers<T: Display>(all: impl IntoIterator<Item = T>) -> String {
    all.into_iter().map(|n| format!(" {n}")).collect()
}

/// The name and the values of an answer, or its refusal.
fn told(name: &str, answer: &Answer) -> String {
    match answer[0] {
        0 => format!("{name}{}", numbers(&answer[2..2 + answer[1] as usize])),
        number => format!("no {number} {}", answer[2]),
    }
}

impl Lines {
    /// The first lines give the program a state that does not depend on what came before.
    pub fn new() -> Lines {
        let (input, output, ledger) = (String::new(), String::new(), Ledger::new(vec![FILL; WORDS]));
        let (calls, refusals) = (BTreeMap::new(), BTreeMap::new());
        let mut lines =
            Lines { input, output, ledger, cursor: [0, 0], lent: WORDS, fixed: true, list: LONGEST, calls, refusals };
        lines.say(&format!("words {WORDS}"), &format!("words {WORDS}"));
        lines.comment("The recorded sample, from the line above to the end: `oracle/sample` makes it anew and compares it");
        lines.say(&format!("fill {FILL}"), "fill");
        lines.say("list", "list");
        lines.say("seek 0", "seek");
        lines
    }

    fn say(&mut self, line: &str, answer: &str) {
        self.input += &format!("{line}\n");
        self.output += &format!("{answer}\n");
    }

    pub fn comment(&mut self, text: &str) {
        self.input += &format!("# {text}\n");
    }

    /// A call of the library.
    fn ask(&mut self, line: &str, name: &str, answer: &Answer) {
        self.say(line, &told(name, answer));
        let name = line.split(' ').next().unwrap();
        *self.calls.entry(name.into()).or_default() += 1;
        if answer[0] > 0 {
            *self.refusals.entry(answer[0]).or_default() += 1;
        }
    }

    /// Words for another history: so many, which are no store.
    pub fn begin(&mut self, text: &str, length: usize) {
        self.input += "\n";
        self.comment(text);
        self.say(&format!("words {length}"), &format!("words {length}"));
        self.say(&format!("fill {FILL}"), "fill");
        (self.lent, self.fixed) = (length, true);
        self.ledger = Ledger::new(vec![FILL; length]);
    }

    fn lend(&mut self, words: usize) {
        if self.lent != words {
            self.say(&format!("words {words}"), &format!("words {words}"));
            (self.lent, self.fixed) = (words, true);
        }
    }

    fn lend_list(&mut self, length: usize) {
        if self.list != length {
            let line = if length == LONGEST { "list".into() } else { format!("list {length}") };
            self.say(&line, &line);
            self.list = length;
        }
    }

    /// A create that is lent what C and P need has no line of `words` before it, but one that ends the lending of so many.
    fn create(&mut self, c: u64, p: u64, start: u64, lent: usize) {
        let in_range = (2..=4094).contains(&c) && (1..=65_535).contains(&p);
        let exact = in_range && places::store_length(c, p) == lent as u64;
        if exact && self.fixed && self.lent != lent {
            self.say("words", "words");
            self.fixed = false;
        } else if !exact && (!self.fixed || self.lent != lent) {
            self.say(&format!("words {lent}"), &format!("words {lent}"));
            (self.lent, self.fixed) = (lent, true);
        }
        let answer = self.ledger.create(c, p, start, lent);
        self.ask(&format!("create {c} {p} {start}"), "create", &answer);
        if answer[0] == 0 {
            self.lent = lent;
        }
    }

    fn find(&mut self, row: u64, first: Option<Answer>) {
        let answer = first.unwrap_or_else(|| self.ledger.find(row));
        let name = if answer[1] == 1 { "page" } else { "none" };
        self.ask(&format!("find {row}"), name, &answer);
    }

    fn next(&mut self, words: usize, first: Option<Answer>) {
        self.lend_list(words / 2);
        let mut list = vec![0; 2 * self.list];
        let answer = first.unwrap_or_else(|| self.ledger.next(&mut self.cursor, &mut list));
        self.ask("next", if answer[1] == 3 { "leaf" } else { "end" }, &answer);
        if answer[0] == 0 && answer[1] == 3 {
            self.output += &format!("entries{}\n", numbers(&list[..2 * answer[4] as usize]));
        }
        self.say("cursor", &format!("cursor{}", numbers(self.cursor)));
    }

    fn walk(&mut self, row: u64, first: Option<Answer>) {
        if self.list < self.ledger.capacity {
            self.lend_list(LONGEST);
        }
        let (mut cursor, mut list) = ([row, 0], vec![0; 2 * self.ledger.capacity]);
        let mut answer = first.unwrap_or_else(|| self.ledger.next(&mut cursor, &mut list));
        let mut leaves = String::new();
        while answer[0] == 0 && answer[1] == 3 {
            leaves += &format!("{}\n", told("leaf", &answer));
            answer = self.ledger.next(&mut cursor, &mut list);
        }
        self.output += &leaves;
        self.ask(&format!("walk {row}"), "end", &answer);
    }

    fn release(&mut self, pivot: u64, length: usize, first: Option<Answer>) {
        self.lend_list(length);
        let mut list = vec![0; length];
        let answer = first.unwrap_or_else(|| self.ledger.release(pivot, &mut list));
        self.ask(&format!("release {pivot}"), "release", &answer);
        if answer[0] == 0 {
            self.output += &format!("pages{}\n", numbers(&list[..answer[3] as usize]));
        }
    }

    fn check(&mut self, first: Option<Answer>) {
        let answer = first.unwrap_or_else(|| self.ledger.check());
        self.ask("check", "check", &answer);
    }

    /// The full check, lookups around the first and the last row, all leaves.
    fn sweep(&mut self, first: Option<Answer>) {
        let (start, end) = (self.ledger.start, self.ledger.end);
        self.check(first);
        for row in [start.wrapping_sub(1), start, end.wrapping_sub(1), end, LIMIT, NONE] {
            self.find(row, first);
        }
        self.walk(0, first);
    }

    /// A step of a history. A planted store is no call.
    pub fn make(&mut self, step: &Step) {
        let memory = self.ledger.words.len();
        let lent = self.ledger.length().saturating_add_signed(step.off).min(memory);
        if !matches!(step.call, Call::Create(..) | Call::Seek(_)) {
            self.lend(lent);
        }
        let first = self.ledger.first_refusal(lent);
        match &step.call {
            Call::Plant(_) => panic!("a planted store has no line"),
            Call::Create(c, p, start, words) => self.create(*c, *p, *start, *words),
            Call::Append(count, page) => {
                let answer = first.unwrap_or_else(|| self.ledger.append(*count, *page));
                self.ask(&format!("append {count} {page}"), "append", &answer);
            }
            Call::Prune(start, end, ids) => {
                let answer = first.unwrap_or_else(|| self.ledger.prune(*start, *end, ids));
                self.ask(&format!("prune {start} {end}{}", numbers(ids)), "prune", &answer);
            }
            Call::Release(pivot, words) => self.release(*pivot, *words, first),
            Call::ReleaseEmpty => {
                let answer = first.unwrap_or_else(|| self.ledger.release_empty());
                self.ask("release_empty", "release", &answer);
            }
            Call::Seek(row) => {
                self.cursor = [*row, 0];
                self.say(&format!("seek {row}"), "seek");
            }
            Call::Next(words) => self.next(*words, first),
            Call::Find(row) => self.find(*row, first),
            Call::Walk(row) => self.walk(*row, first),
            Call::Check => self.check(first),
            Call::Sweep => self.sweep(first),
        }
    }

    /// The nodes of the tree in reading order.
    fn shape(&mut self) {
        let first = self.ledger.first_refusal(self.lent);
        let text = first.map_or_else(|| self.ledger.shape(), |r| told("", &r) + "\n");
        self.input += "shape\n";
        self.output += &text;
    }

    /// The free nodes, of a closed store too.
    fn chain(&mut self) {
        let l = &self.ledger;
        let free = numbers(l.chain.iter().rev().chain([&l.pool]));
        let text = if l.made { format!("chain{free}") } else { "no 2 65535".into() };
        self.say("chain", &text);
    }

    /// Every word of the store.
    pub fn dump(&mut self) {
        self.lend(self.ledger.length());
        self.input += "dump\n";
        for (i, words) in self.ledger.words[..self.lent].chunks(8).enumerate() {
            self.output += &format!("load {}{}\n", 8 * i, numbers(words));
        }
    }

    /// The store by all the ways to look at it.
    pub fn end(&mut self) {
        self.lend(self.ledger.length());
        let first = self.ledger.first_refusal(self.lent);
        self.sweep(first);
        self.shape();
        self.chain();
        self.dump();
    }
}
