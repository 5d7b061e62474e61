//! The C functions of `include/row_page_index.h`: on slices as they are (`lent`), and as methods of a store that owns its words.
//! Every call answers with its values or with a refusal, which changed nothing.

/// A slice is a pointer and then a length. A null pointer never occurs here: the pointer of an empty slice is not null.
mod library {
    unsafe extern "C" {
        pub fn row_page_index_create(
            words: *mut u64,
            words_len: usize,
            capacity: u64,
            nodes: u64,
            start: u64,
            answer: *mut u64,
            answer_len: usize,
        ) -> u64;
        pub fn row_page_index_append(
            words: *mut u64,
            words_len: usize,
            count: u64,
            page: u64,
            answer: *mut u64,
            answer_len: usize,
        ) -> u64;
        pub fn row_page_index_find(
            words: *const u64,
            words_len: usize,
            row: u64,
            answer: *mut u64,
            answer_len: usize,
        ) -> u64;
        pub fn row_page_index_prune(
            words: *mut u64,
            words_len: usize,
            start: u64,
            end: u64,
            ids: *const u64,
            ids_len: usize,
            answer: *mut u64,
            answer_len: usize,
        ) -> u64;
        pub fn row_page_index_destroy(
            words: *mut u64,
            words_len: usize,
            pivot: u64,
            pages: *mut u64,
            pages_len: usize,
            answer: *mut u64,
            answer_len: usize,
        ) -> u64;
        pub fn row_page_index_destroy_empty(words: *mut u64, words_len: usize, answer: *mut u64, answer_len: usize) -> u64;
        pub fn row_page_index_check(words: *const u64, words_len: usize, answer: *mut u64, answer_len: usize) -> u64;
        pub fn row_page_index_seek(cursor: *mut u64, cursor_len: usize, row: u64);
        pub fn row_page_index_next(
            words: *const u64,
            words_len: usize,
            cursor: *mut u64,
            cursor_len: usize,
            records: *mut u64,
            records_len: usize,
            answer: *mut u64,
            answer_len: usize,
        ) -> u64;
    }
}

/// The C functions on slices of any length. Each returns the answer's first word.
pub mod lent {
    use super::library::*;

    pub fn create(words: &mut [u64], capacity: u64, nodes: u64, start: u64, answer: &mut [u64]) -> u64 {
        let (w, a) = (words, answer);
        unsafe { row_page_index_create(w.as_mut_ptr(), w.len(), capacity, nodes, start, a.as_mut_ptr(), a.len()) }
    }

    pub fn append(words: &mut [u64], count: u64, page: u64, answer: &mut [u64]) -> u64 {
        let (w, a) = (words, answer);
        unsafe { row_page_index_append(w.as_mut_ptr(), w.len(), count, page, a.as_mut_ptr(), a.len()) }
    }

    pub fn find(words: &[u64], row: u64, answer: &mut [u64]) -> u64 {
        let (w, a) = (words, answer);
        unsafe { row_page_index_find(w.as_ptr(), w.len(), row, a.as_mut_ptr(), a.len()) }
    }

    pub fn prune(words: &mut [u64], start: u64, end: u64, ids: &[u64], answer: &mut [u64]) -> u64 {
        let (w, i, a) = (words, ids, answer);
        unsafe {
            row_page_index_prune(w.as_mut_ptr(), w.len(), start, end, i.as_ptr(), i.len(), a.as_mut_ptr(), a.len())
        }
    }

    pub fn destroy(words: &mut [u64], pivot: u64, pages: &mut [u64], answer: &mut [u64]) -> u64 {
        let (w, p, a) = (words, pages, answer);
        unsafe {
            row_page_index_destroy(w.as_mut_ptr(), w.len(), pivot, p.as_mut_ptr(), p.len(), a.as_mut_ptr(), a.len())
        }
    }

    pub fn destroy_empty(words: &mut [u64], answer: &mut [u64]) -> u64 {
        let (w, a) = (words, answer);
        unsafe { row_page_index_destroy_empty(w.as_mut_ptr(), w.len(), a.as_mut_ptr(), a.len()) }
    }

    pub fn check(words: &[u64], answer: &mut [u64]) -> u64 {
        let (w, a) = (words, answer);
        unsafe { row_page_index_check(w.as_ptr(), w.len(), a.as_mut_ptr(), a.len()) }
    }

    pub fn seek(cursor: &mut [u64], row: u64) {
        unsafe { row_page_index_seek(cursor.as_mut_ptr(), cursor.len(), row) }
    }

    pub fn next(words: &[u64], cursor: &mut [u64], records: &mut [u64], answer: &mut [u64]) -> u64 {
        let (w, c, r, a) = (words, cursor, records, answer);
        unsafe {
            row_page_index_next(
                w.as_ptr(),
                w.len(),
                c.as_mut_ptr(),
                c.len(),
                r.as_mut_ptr(),
                r.len(),
                a.as_mut_ptr(),
                a.len(),
            )
        }
    }
}

/// Number and detail of the table in document 01, 'Refusals'.
#[derive(Debug, Clone, Copy, PartialEq, Eq)]
pub struct Refusal {
    pub number: u64,
    pub detail: u64,
}

#[derive(Debug, Clone, Copy, PartialEq, Eq)]
pub struct Appended {
    pub start: u64,
    pub end: u64,
    pub taken: u64,
}

#[derive(Debug, Clone, Copy, PartialEq, Eq)]
pub struct Pruned {
    pub removed: u64,
    pub freed: u64,
    pub levels: u64,
}

#[derive(Debug, Clone, Copy, PartialEq, Eq)]
pub struct Released {
    pub nodes: u64,
    pub pages: u64,
}

#[derive(Debug, Clone, Copy, PartialEq, Eq)]
pub struct Checked {
    pub entries: u64,
    pub nodes: u64,
    pub free: u64,
}

/// A leaf that a walk gives; its entries are in the records.
#[derive(Debug, Clone, Copy, PartialEq, Eq)]
pub struct Leaf {
    pub start: u64,
    pub end: u64,
    pub count: u64,
}

/// The seven words of an answer: 0 and how many values there are, or the refusal's number and 1; then the values, up to five.
pub type Answer = [u64; 7];

/// The values of an answer, none where it has none. No call has more than three.
fn values(number: u64, answer: Answer) -> Result<Option<[u64; 3]>, Refusal> {
    assert_eq!(number, answer[0], "the number returned is the answer's first word");
    match answer {
        [0, 0, ..] => Ok(None),
        [0, _, a, b, c, ..] => Ok(Some([a, b, c])),
        [number, _, detail, ..] => Err(Refusal { number, detail }),
    }
}

/// The values of a call that writes its answer.
fn asked(call: impl FnOnce(&mut [u64]) -> u64) -> Result<Option<[u64; 3]>, Refusal> {
    let mut answer = Answer::default();
    let number = call(&mut answer);
    values(number, answer)
}

/// Row and whether it is done. A new cursor was never sought: it is done.
#[derive(Debug, Clone, Copy, PartialEq, Eq)]
pub struct Cursor([u64; 2]);

impl Cursor {
    pub fn new() -> Self {
        Cursor([0, 1])
    }

    pub fn seek(&mut self, row: u64) {
        lent::seek(&mut self.0, row)
    }
}

/// A store and the words that it lends to the calls.
#[derive(Debug, Clone, PartialEq, Eq)]
pub struct Store {
    pub words: Vec<u64>,
}

impl Store {
    /// The words that a store of so many nodes for `capacity` entries each has.
    pub fn length(capacity: u64, nodes: u64) -> u64 {
        crate::places::store_length(capacity, nodes)
    }

    /// A store in zero words of the length that it needs.
    pub fn new(capacity: u64, nodes: u64, start: u64) -> Result<Self, Refusal> {
        let mut store = Store { words: vec![0; Self::length(capacity, nodes) as usize] };
        store.create(capacity, nodes, start)?;
        Ok(store)
    }

    /// A new store in the words that are here.
    pub fn create(&mut self, capacity: u64, nodes: u64, start: u64) -> Result<(), Refusal> {
        asked(|a| lent::create(&mut self.words, capacity, nodes, start, a)).map(|_| ())
    }

    pub fn append(&mut self, count: u64, page: u64) -> Result<Appended, Refusal> {
        let [start, end, taken] = asked(|a| lent::append(&mut self.words, count, page, a))?.unwrap();
        Ok(Appended { start, end, taken })
    }

    /// The page of a row.
    pub fn find(&self, row: u64) -> Result<Option<u64>, Refusal> {
        Ok(asked(|a| lent::find(&self.words, row, a))?.map(|v| v[0]))
    }

    pub fn prune(&mut self, start: u64, end: u64, ids: &[u64]) -> Result<Pruned, Refusal> {
        let [removed, freed, levels] = asked(|a| lent::prune(&mut self.words, start, end, ids, a))?.unwrap();
        Ok(Pruned { removed, freed, levels })
    }

    /// The page ids go into the front of `pages`.
    pub fn destroy(&mut self, pivot: u64, pages: &mut [u64]) -> Result<Released, Refusal> {
        let [nodes, pages, _] = asked(|a| lent::destroy(&mut self.words, pivot, pages, a))?.unwrap();
        Ok(Released { nodes, pages })
    }

    pub fn destroy_empty(&mut self) -> Result<Released, Refusal> {
        let [nodes, pages, _] = asked(|a| lent::destroy_empty(&mut self.words, a))?.unwrap();
        Ok(Released { nodes, pages })
    }

    pub fn check(&self) -> Result<Checked, Refusal> {
        let [entries, nodes, free] = asked(|a| lent::check(&self.words, a))?.unwrap();
        Ok(Checked { entries, nodes, free })
    }

    /// The leaf that the cursor reaches, none where it is done; row and page of each entry go into the front of `records`,
    /// which has two words for each of a node's entries.
    pub fn next(&self, cursor: &mut Cursor, records: &mut [u64]) -> Result<Option<Leaf>, Refusal> {
        let given = asked(|a| lent::next(&self.words, &mut cursor.0, records, a))?;
        Ok(given.map(|[start, end, count]| Leaf { start, end, count }))
    }
}
