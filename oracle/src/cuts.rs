//! Every cut of every small tree: the answer and every word, what is freed and in which order, the chain, and the store after it.
//! Trees and words are read by `pruned`; rows and pages come from the plan by which a tree was made.
use crate::beside::{Call, Step};
use crate::ledger::{Answer, NONE, done, refused};
use crate::lines::Lines;
use crate::places;
use crate::progress::Progress;
use crate::pruned::{Node, pruned, released};
use crate::store::lent;
use crate::trees::{self, Tree, plan};
use std::collections::{BTreeMap, HashSet, VecDeque};

const STALE: u64 = 0xABAD_1DEA;

const FIRST: (u8, &str) = (1, "first cut");
const ONE_MORE: (u8, &str) = (2, "cut again, 1 page more");
const FIVE_MORE: (u8, &str) = (3, "cut again, 5 pages more");
const REACHED: (u8, &str) = (4, "all outlines reached");
const PLANTED: (u8, &str) = (5, "all planted");

/// What was seen in one stage at one capacity.
#[derive(Default)]
struct Seen {
    trees: u64,
    cuts: u64,
    freed: u64,
    levels: u64,
    refused: BTreeMap<u64, u64>,
    releases: u64,
    calls: u64,
}

struct Cuts {
    /// The stage at hand; what was seen, by the order of the stages.
    stage: (u8, &'static str),
    seen: BTreeMap<(u8, &'static str, u64), Seen>,
    progress: Progress,
}

fn outline(tree: &Tree) -> Vec<(u64, usize, bool)> {
    Node::read(&tree.words, tree.words[2]).outline()
}

/// A prune wrong in one argument, for the first k pages of a tree, with the refusal that it has to give.
fn wrong(tree: &Tree, k: usize) -> Vec<(u64, u64, Vec<u64>, Answer)> {
    let (start, end, n) = (tree.start(), tree.row(k), tree.pages.len());
    let (ids, all): (Vec<u64>, Vec<u64>) = (tree.ids(k), tree.ids(n));
    let changed = |place: usize| {
        let mut ids = ids.clone();
        ids[place] ^= 1;
        ids
    };
    let place = |number: u64, place: usize| refused(number, place as u64);
    // No rows, if the range is empty so.
    let or_empty = |start: u64, end: u64, other: Answer| if start < end { other } else { refused(7, 0) };
    let more = |last: u64| [&all[..], &[last]].concat();
    let longer = |last: u64| tree.pages.get(k).map_or(more(last), |p| [&ids[..], &[p.1 ^ last]].concat());
    let mut lists = vec![
        (start, end, vec![], refused(7, 0)),
        (start, start, ids.clone(), refused(7, 0)),
        (end, end, ids.clone(), refused(7, 0)),
        (end, start, ids.clone(), refused(7, 0)),
        (start + 1, end, ids.clone(), or_empty(start + 1, end, refused(8, start))),
        (NONE - 1, NONE, ids.clone(), refused(8, start)),
        (start, end, changed(0), place(9, 0)),
        (start, end, changed(k - 1), place(9, k - 1)),
        (start, end - 1, ids.clone(), or_empty(start, end - 1, place(10, k - 1))),
        (start, end + 1, ids.clone(), place(10, k)),
        (start, NONE, ids.clone(), place(10, k)),
        (start, end, ids[..k - 1].to_vec(), if k == 1 { refused(7, 0) } else { place(10, k - 1) }),
        (start, end, longer(0), if k == n { place(11, n) } else { place(10, k) }),
        (start, end, longer(1), if k == n { place(11, n) } else { place(9, k) }),
        (start, tree.end, more(1000), place(11, n)),
        (start, tree.end + 1, more(1000), place(11, n)),
    ];
    if start > 0 {
        lists.push((start - 1, end, ids.clone(), refused(8, start)));
    }
    lists
}

impl Cuts {
    /// Makes a call on a copy of the tree's words, compares the answer and the words left, and gives these.
    fn ask(
        &mut self,
        tree: &Tree,
        what: impl FnOnce() -> String,
        wanted: (Answer, &[u64]),
        call: impl FnOnce(&mut [u64], &mut [u64]) -> u64,
    ) -> Result<Vec<u64>, String> {
        self.seen(tree).calls += 1;
        let (mut words, mut answer) = ([&tree.words[..], &[STALE; 8]].concat(), [STALE; 7]);
        let length = tree.words.len();
        let number = call(&mut words[..length], &mut answer);
        let beyond = words.split_off(length);
        if (number, answer) != (wanted.0[0], wanted.0) {
            return Err(format!("{} on {tree}: {answer:?}, wanted {:?}", what(), wanted.0));
        }
        if let Some(i) = (0..length).find(|i| words[*i] != wanted.1[*i]) {
            return Err(format!("{} on {tree}: word {i} is {}, wanted {}", what(), words[i], wanted.1[i]));
        }
        if beyond != [STALE; 8] {
            return Err(format!("{} on {tree}: words past the store changed", what()));
        }
        Ok(words)
    }

    /// Lookups at both ends of every page, and beside the first and the last row.
    fn lookups(&mut self, tree: &Tree) -> Result<(), String> {
        let mut rows = vec![0, tree.start().wrapping_sub(1), tree.end, NONE];
        rows.extend((0..tree.pages.len()).flat_map(|i| [tree.row(i), tree.row(i + 1) - 1]));
        for row in rows {
            let answer = tree.page_of(row).map_or(done([]), |p| done([p]));
            self.ask(tree, || format!("find {row}"), (answer, &tree.words), |w, a| lent::find(w, row, a))?;
        }
        Ok(())
    }

    /// The full check, and a walk over all leaves as they stand in the words; then none.
    fn walk(&mut self, tree: &Tree) -> Result<(), String> {
        let root = Node::read(&tree.words, tree.words[2]);
        let nodes = root.postorder();
        let leaves: Vec<&Node> = nodes.iter().copied().filter(|n| n.height == 0).collect();
        let held: Vec<(u64, u64)> = leaves.iter().flat_map(|l| l.slots.iter().copied()).collect();
        if held != tree.pages {
            return Err(format!("{tree}: holds {held:?}, wanted {:?}", tree.pages));
        }
        let counts = done([held.len() as u64, nodes.len() as u64, tree.words[1] - nodes.len() as u64]);
        self.ask(tree, || "check".into(), (counts, &tree.words), |w, a| lent::check(w, a))?;
        let (mut cursor, mut kept) = ([0, 0], [0, 0]);
        let last = leaves.len();
        for (i, leaf) in leaves.into_iter().map(Some).chain([None]).enumerate() {
            let mut records = vec![STALE; 2 * tree.words[0] as usize];
            let mut wanted = records.clone();
            let answer = leaf.map_or(done([]), |l| done([l.start, l.end, l.slots.len() as u64]));
            let slots = leaf.iter().flat_map(|l| l.slots.iter());
            wanted.chunks_mut(2).zip(slots).for_each(|(w, s)| w.copy_from_slice(&[s.0, s.1]));
            self.ask(tree, || "next".into(), (answer, &tree.words), |w, a| lent::next(w, &mut cursor, &mut records, a))?;
            kept = leaf.map_or(kept, |l| [l.end, u64::from(i + 1 == last)]);
            if (&records, cursor) != (&wanted, kept) {
                return Err(format!("{tree}: a walk gives {records:?} and {cursor:?}, wanted {wanted:?} and {kept:?}"));
            }
        }
        Ok(())
    }

    /// The first k pages go, after the wrong lists. What is left.
    fn cut(&mut self, tree: &Tree, k: usize) -> Result<Tree, String> {
        for (start, end, ids, answer) in wrong(tree, k) {
            let what = || format!("prune {start} {end} {ids:?}");
            self.ask(tree, what, (answer, &tree.words), |w, a| lent::prune(w, start, end, &ids, a))?;
            *self.seen(tree).refused.entry(answer[0]).or_default() += 1;
        }
        let (start, end, ids) = (tree.start(), tree.row(k), tree.ids(k));
        let (answer, wanted) = pruned(&tree.words, k as u64, end);
        let what = || format!("prune {start} {end} {ids:?}");
        let words = self.ask(tree, what, (answer, &wanted), |w, a| lent::prune(w, start, end, &ids, a))?;
        let left = tree.cut(k, words);
        self.walk(&left)?;
        self.lookups(&left)?;
        let seen = self.seen(tree);
        seen.cuts += 1;
        seen.freed += answer[3];
        seen.levels += answer[4];
        let (cuts, calls) = (seen.cuts, seen.calls);
        self.progress.step(|| format!("cuts at C = {}, {}: {cuts} cuts, {calls} calls", tree.words[0], self.stage.1));
        Ok(left)
    }

    /// Releases with lists of every length around the one wanted, and the empty form.
    fn releases(&mut self, tree: &Tree) -> Result<(), String> {
        let n = tree.pages.len();
        let (accepted, closed) = released(&tree.words, n as u64);
        let first = tree.pages.first().map_or(NONE, |p| p.0);
        for (pivot, length) in
            (n.saturating_sub(2)..n + 3).map(|l| (tree.start(), l)).chain([(tree.start() + 1, n), (NONE, 0)])
        {
            let answer = if first < pivot {
                refused(12, first)
            } else if length < n {
                refused(13, n as u64)
            } else {
                accepted
            };
            let (mut list, mut wanted) = (vec![STALE; length], vec![STALE; length]);
            if answer == accepted {
                wanted[..n].copy_from_slice(&tree.ids(n));
            }
            let words = if answer == accepted { &closed } else { &tree.words };
            let what = || format!("release {pivot} into {length}");
            self.ask(tree, what, (answer, words), |w, a| lent::destroy(w, pivot, &mut list, a))?;
            if list != wanted {
                return Err(format!("{tree}: a release gives {list:?}, wanted {wanted:?}"));
            }
            self.seen(tree).releases += 1;
        }
        let (answer, words) = if n == 0 { (accepted, &closed) } else { (refused(12, 0), &tree.words) };
        self.ask(tree, || "empty release".into(), (answer, words), lent::destroy_empty)?;
        self.seen(tree).releases += 1;
        Ok(())
    }

    fn seen(&mut self, tree: &Tree) -> &mut Seen {
        self.seen.entry((self.stage.0, self.stage.1, tree.words[0])).or_default()
    }

    /// Everything on one tree: reading it, releases, every cut. What the cuts leave.
    fn all(&mut self, tree: &Tree) -> Result<Vec<Tree>, String> {
        self.seen(tree).trees += 1;
        self.walk(tree)?;
        self.lookups(tree)?;
        self.releases(tree)?;
        (1..=tree.pages.len()).map(|k| self.cut(tree, k)).collect()
    }

    /// One page more, which the store gives the range after the last one.
    fn append(&mut self, tree: &Tree) -> Result<Tree, String> {
        let (rows, page) = tree.next_page();
        let (mut words, mut answer) = (tree.words.clone(), [STALE; 7]);
        self.seen(tree).calls += 1;
        lent::append(&mut words, rows, page, &mut answer);
        if answer[..4] != [0, 3, tree.end, tree.end + rows] {
            return Err(format!("append {rows} {page} on {tree}: {answer:?}"));
        }
        Ok(tree.grown(words))
    }

    /// Trees of up to so many pages, every cut of each, some pages more, and every cut again.
    fn twice(&mut self, capacity: u64, nodes: u64, pages: usize) -> Result<(), String> {
        let mut tree = Tree::new(capacity, nodes)?;
        for _ in 0..pages {
            self.stage = FIRST;
            tree = self.append(&tree)?;
            for mut left in self.all(&tree)? {
                self.stage = ONE_MORE;
                left = self.append(&left)?;
                self.all(&left)?;
                self.stage = FIVE_MORE;
                for _ in 1..5 {
                    left = self.append(&left)?;
                }
                self.all(&left)?;
            }
        }
        Ok(())
    }

    /// Every outline that appends and prunes reach with up to so many entries.
    fn reached(&mut self, capacity: u64, nodes: u64, entries: usize) -> Result<(), String> {
        self.stage = REACHED;
        let (mut seen, mut waiting) = (HashSet::new(), VecDeque::from([Tree::new(capacity, nodes)?]));
        while let Some(tree) = waiting.pop_front() {
            if !seen.insert(outline(&tree)) {
                continue;
            }
            let mut left = self.all(&tree)?;
            if tree.pages.len() < entries {
                left.push(self.append(&tree)?);
            }
            waiting.extend(left.into_iter().filter(|t| !seen.contains(&outline(t))));
        }
        Ok(())
    }

    fn every(&mut self) -> Result<(), String> {
        self.twice(2, 120, 40)?;
        self.twice(3, 95, 60)?;
        self.reached(2, 110, 32)?;
        self.reached(3, 90, 36)?;
        self.stage = PLANTED;
        for (capacity, height, entries) in [(2, 4, 8), (3, 3, 8)] {
            for tree in trees::planted(capacity, height, entries) {
                self.all(&tree)?;
            }
        }
        Ok(())
    }
}

/// All of it; false where something differs.
pub fn run() -> bool {
    let mut cuts = Cuts { stage: FIRST, seen: BTreeMap::new(), progress: Progress::default() };
    let fault = cuts.every().err();
    let calls: u64 = cuts.seen.values().map(|s| s.calls).sum();
    let number: u64 = cuts.seen.values().map(|s| s.cuts).sum();
    cuts.progress.say(&format!("cuts: {number}, {calls} calls"));
    print!("{:>4}{:>25}", "C", "");
    ["trees", "cuts", "freed", "levels", "releases", "calls"].iter().for_each(|name| print!("{name:>10}"));
    println!("  lists refused by number");
    for ((_, stage, capacity), s) in &cuts.seen {
        print!("{capacity:>4}{stage:>25}");
        [s.trees, s.cuts, s.freed, s.levels, s.releases, s.calls].iter().for_each(|n| print!("{n:>10}"));
        println!("  {:?}", s.refused);
    }
    fault.iter().for_each(|text| println!("differs: {text}"));
    println!("{number} cuts, {calls} calls compared\n{} differences", fault.iter().count());
    fault.is_none()
}

/// A tree of so many pages as lines; the comment says what follows.
fn grown(lines: &mut Lines, capacity: u64, nodes: u64, pages: u64, text: &str) {
    let length = places::store_length(capacity, nodes) as usize;
    lines.begin(text, length);
    let create = Call::Create(capacity, nodes, 0, length);
    let appends = (0..pages).map(plan).map(|(rows, page)| Call::Append(rows, page));
    [create].into_iter().chain(appends).for_each(|call| lines.make(&Step { call, off: 0 }));
}

/// The first k pages go, by both readers; the store after it with every word.
fn cut_lines(lines: &mut Lines, k: usize) -> Result<(), String> {
    let (start, end) = (lines.ledger.start, lines.ledger.end_of(k - 1));
    let ids: Vec<u64> = lines.ledger.entries[..k].iter().map(|e| e.page).collect();
    let (_, words) = pruned(&lines.ledger.words, k as u64, end);
    for call in [Call::Prune(start, end, ids), Call::Check, Call::Walk(0)] {
        lines.make(&Step { call, off: 0 });
    }
    lines.dump();
    if lines.ledger.words == words { Ok(()) } else { Err(format!("the readers differ on a cut of {k} pages")) }
}

/// Every cut of every tree of up to so many pages, each with a page more and cut again, as lines for `store`. Up to four pages each
/// cut comes after the wrong lists.
fn record_at(lines: &mut Lines, capacity: u64, nodes: u64, pages: u64) -> Result<u64, String> {
    let mut cuts = 0;
    for (n, k) in (1..=pages).flat_map(|n| (1..=n).map(move |k| (n, k))) {
        let text = format!("C = {capacity}, {n} pages: the first {k} go; a page more, and some go again");
        grown(lines, capacity, nodes, n, &text);
        if n <= 4 {
            let tree = Tree::of(&lines.ledger);
            for (start, end, ids, answer) in wrong(&tree, k as usize) {
                let told = lines.output.len();
                lines.make(&Step { call: Call::Prune(start, end, ids), off: 0 });
                if lines.output[told..] != format!("no {} {}\n", answer[0], answer[2]) {
                    return Err(format!("the readers differ on a refusal: {answer:?}"));
                }
            }
        }
        cut_lines(lines, k as usize)?;
        let (rows, page) = plan(n);
        lines.make(&Step { call: Call::Append(rows, page), off: 0 });
        cut_lines(lines, 1 + (n * k % (n - k + 1)) as usize)?;
        cuts += 2;
    }
    Ok(cuts)
}

/// Lines for `store`; false where the readers differ.
pub fn record(lines: &mut Lines) -> bool {
    let made = record_at(lines, 2, 12, 7).and_then(|a| record_at(lines, 3, 8, 7).map(|b| a + b));
    match &made {
        Ok(cuts) => println!("{cuts} cuts"),
        Err(text) => println!("{text}"),
    }
    made.is_ok()
}
