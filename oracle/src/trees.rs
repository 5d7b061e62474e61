//! Small trees with the plan by which they were made: grown by calls, or planted whether calls reach them or not.
use crate::ledger::{Ledger, done};
use crate::places;
use crate::planted::{self, Outline};
use crate::seeded::Random;
use crate::store::lent;
use std::fmt::{self, Display, Formatter};

#[derive(Clone)]
pub struct Tree {
    pub words: Vec<u64>,
    /// Row and page of each entry, and where the last one ends.
    pub pages: Vec<(u64, u64)>,
    pub end: u64,
    /// How many pages there ever were.
    made: u64,
    story: String,
}

impl Display for Tree {
    fn fmt(&self, f: &mut Formatter) -> fmt::Result {
        write!(f, "C = {}, {} entries ({}), words {:?}", self.words[0], self.pages.len(), self.story, self.words)
    }
}

/// The rows of page i, and its id. The ids do not rise, and some come again.
pub fn plan(i: u64) -> (u64, u64) {
    (1 + i % 3, 1000 + i * i % 97)
}

impl Tree {
    /// An empty store in words that were not zero.
    pub fn new(capacity: u64, nodes: u64) -> Result<Tree, String> {
        let mut r = Random::new(capacity);
        let mut words: Vec<u64> = (0..places::store_length(capacity, nodes)).map(|_| r.word()).collect();
        let mut answer = [1; 7];
        lent::create(&mut words, capacity, nodes, 0, &mut answer);
        let tree = Tree { words, pages: vec![], end: 0, made: 0, story: "create".into() };
        if answer == done([]) { Ok(tree) } else { Err(format!("create {capacity} {nodes} 0: {answer:?}")) }
    }

    /// The store of a ledger.
    pub fn of(ledger: &Ledger) -> Tree {
        let pages: Vec<(u64, u64)> = ledger.entries.iter().map(|e| (e.row, e.page)).collect();
        let made = pages.len() as u64;
        Tree { words: ledger.words.clone(), pages, end: ledger.end, made, story: "lines".into() }
    }

    pub fn start(&self) -> u64 {
        self.row(0)
    }

    /// Where entry i begins, or the last one ends.
    pub fn row(&self, i: usize) -> u64 {
        self.pages.get(i).map_or(self.end, |p| p.0)
    }

    pub fn ids(&self, count: usize) -> Vec<u64> {
        self.pages[..count].iter().map(|p| p.1).collect()
    }

    pub fn page_of(&self, row: u64) -> Option<u64> {
        (0..self.pages.len()).find(|i| self.row(*i) <= row && row < self.row(i + 1)).map(|i| self.pages[i].1)
    }

    /// The rows and the id of the next page.
    pub fn next_page(&self) -> (u64, u64) {
        plan(self.made)
    }

    /// With the next page, in these words.
    pub fn grown(&self, words: Vec<u64>) -> Tree {
        let (rows, page) = self.next_page();
        let pages = [&self.pages[..], &[(self.end, page)]].concat();
        let story = format!("{}, append {rows} {page}", self.story);
        Tree { words, pages, end: self.end + rows, made: self.made + 1, story }
    }

    /// Without the first so many pages, in these words.
    pub fn cut(&self, count: usize, words: Vec<u64>) -> Tree {
        let story = format!("{}, prune {count}", self.story);
        Tree { words, pages: self.pages[count..].to_vec(), end: self.end, made: self.made, story }
    }
}

/// A planted tree of this outline, with node numbers and words of a seed.
fn plant(outline: &Outline, ends: bool, seed: u64) -> Tree {
    let mut r = Random::new(seed);
    let (mut end, mut pages) = (7, Vec::new());
    for i in 0..=outline.levels.len() as u64 {
        let (rows, page) = plan(i);
        pages.push((end, page));
        end += rows;
    }
    let mut numbers: Vec<u64> = (0..outline.nodes as u64 + 2).collect();
    (1..numbers.len()).rev().for_each(|i| numbers.swap(i, r.below(i as u64 + 1) as usize));
    let length = places::store_length(outline.capacity as u64, numbers.len() as u64);
    let words = (0..length).map(|_| r.word()).collect();
    let story = format!("planted, levels {:?}, ends {ends}", outline.levels);
    let words = planted::store(outline, &pages, end, numbers, words, || ends).words;
    Tree { words, made: pages.len() as u64, pages, end, story }
}

fn grow(outline: &Outline, height: usize, entries: usize, out: &mut Vec<Tree>) {
    out.extend([true, false].map(|ends| plant(outline, ends, out.len() as u64)));
    if outline.levels.len() + 1 == entries {
        return;
    }
    for level in 0..=height {
        let mut more = outline.clone();
        if more.add(level) {
            grow(&more, height, entries, out);
        }
    }
}

/// All well-formed trees of up to this height with up to so many entries, each with branches that end at NONE and with branches
/// that end with their last leaf.
pub fn planted(capacity: usize, height: usize, entries: usize) -> Vec<Tree> {
    let mut out = Vec::new();
    (0..=height).for_each(|h| grow(&Outline::new(capacity, h), h, entries, &mut out));
    out
}
