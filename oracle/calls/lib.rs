//! The calls of the listed Rust as a trait: each capacity is a crate of its own, and one program drives them all.

/// What the listed Rust did in place of an answer.
#[derive(Debug, Clone, PartialEq, Eq)]
pub enum Failure {
    /// It panicked, with this message.
    Panic(String),
    /// It returned an error, printed.
    Error(String),
}

/// A leaf that a walk gives: start, end, and row and page of each entry.
#[derive(Debug, Clone, PartialEq, Eq)]
pub struct Leaf {
    pub start: u64,
    pub end: u64,
    pub entries: Vec<(u64, u64)>,
}

/// A node that was freed: its number, and its height and start at that time.
#[derive(Debug, Clone, Copy, PartialEq, Eq)]
pub struct Freed {
    pub node: u64,
    pub height: u64,
    pub start: u64,
}

/// One index of the listed Rust over a pool of its own.
pub trait Index {
    /// Start and end of the range.
    fn append(&mut self, count: u64, page: u64) -> Result<(u64, u64), Failure>;
    fn find(&mut self, row: u64) -> Result<Option<u64>, Failure>;
    /// Entries removed, nodes freed, levels collapsed.
    fn prune(&mut self, start: u64, end: u64, ids: &[u64]) -> Result<[u64; 3], Failure>;
    /// A new cursor, a seek unless the row is none, then next until it answers none twice.
    fn walk(&mut self, row: Option<u64>) -> Result<Vec<Leaf>, Failure>;
    /// A seek, then next until it answers none: end and count of each leaf. Nothing is kept, so that it can be timed.
    fn leaves(&mut self, row: u64, seen: &mut dyn FnMut(u64, u64)) -> Result<(), Failure>;
    /// The page ids in the order of freeing.
    fn destroy(&mut self, pivot: u64) -> Result<Vec<u64>, Failure>;
    fn destroy_empty(&mut self) -> Result<(), Failure>;
    /// The nodes in reading order, each as height, count, start, end, rows, and in a leaf the pages.
    fn shape(&self) -> Vec<u64>;
    /// The height that the index keeps beside its root.
    fn height(&self) -> u64;
    /// Nodes taken from the pool and not freed.
    fn taken(&self) -> u64;
    /// Nodes that were freed since the last call of this, in order; none in a build without debug assertions.
    fn freed(&mut self) -> Vec<Freed>;
    /// Frees the nodes that the pool has taken and the tree does not reach.
    fn recover(&mut self);
    /// The same index over a copy of its pool, which may now have this many nodes.
    fn copy(&self, limit: u64) -> Box<dyn Index>;
}

/// Makes an index whose pool has `limit` nodes, with rows from `start`.
pub type Create = fn(start: u64, limit: u64) -> Result<Box<dyn Index>, Failure>;
