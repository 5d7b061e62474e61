//! Writes the listed Rust that the oracle is built over: `prepare SOURCE TARGET`, SOURCE being the folder doradb-storage/src.
//! Four files are copied as they are; of two others whole lines are taken; in one the page size is replaced, which sets C.
use std::{env, fs, path::PathBuf};

/// The lines from the one that starts with `from` to the one before that which starts with `to`, or to the last.
fn lines(text: &str, from: &str, to: Option<&str>) -> String {
    let mut taken = String::new();
    let mut on = false;
    for l in text.lines() {
        if !on && l.starts_with(from) {
            on = true;
        } else if on && to.is_some_and(|t| l.starts_with(t)) {
            return taken;
        }
        if on {
            taken.push_str(l);
            taken.push('\n');
        }
    }
    assert!(on && to.is_none(), "no lines from {from:?} to {to:?}");
    taken
}

fn main() {
    let folders: Vec<PathBuf> = env::args().skip(1).map(PathBuf::from).collect();
    let [source, target] = &folders[..] else { panic!("usage: prepare SOURCE TARGET") };
    let read = |name: &str| {
        let path = source.join(name);
        fs::read_to_string(&path).unwrap_or_else(|e| panic!("{}: {e}", path.display()))
    };
    let write = |name: &str, text: &str| fs::write(target.join(name), text).unwrap();
    write("row_page_index.rs", &read("index/row_page_index.rs"));
    write("util.rs", &read("index/util.rs"));
    write("guard.rs", &read("buffer/guard.rs"));
    write("pool_guard.rs", &read("buffer/pool_guard.rs"));
    let error = read("error.rs");
    write("error_validation.rs", &lines(&error, "/// Validation of optimistic lock", None));
    write("error_traits.rs", &lines(&error, "/// Minimal result extensions", Some("/// Public storage error")));
    let pool = read("buffer/mod.rs");
    write("pool_trait.rs", &lines(&pool, "/// Abstraction of buffer pool.", Some("/// Return the resident page count")));
    write("pool_versioned.rs", &lines(&pool, "/// Locks a specific page version", Some("impl Component for MetaPool")));
    let page = read("buffer/page.rs");
    let size = "pub(crate) const PAGE_SIZE: usize = 64 * 1024;";
    assert_eq!(page.matches(size).count(), 1, "the line of PAGE_SIZE in buffer/page.rs");
    write("page.rs", &page.replace(size, "pub(crate) const PAGE_SIZE: usize = crate::capacity::PAGE_SIZE;"));
}
