//! The calls, each run to its end on one thread, with panics caught.
use crate::buffer::guard::PageGuard;
use crate::buffer::{BufferPool, FixedBufferPool, PoolGuard, RowPool};
use crate::capacity::C;
use crate::id::{PageID, RowID};
use crate::index::row_page_index::{
    NBR_ENTRIES_IN_BRANCH, NBR_ROW_PAGE_ENTRIES_IN_LEAF, RowLocation, RowPageIndex, RowPageIndexNode, append, find, open,
};
use crate::latch::LatchFallbackMode;
use crate::quiescent::QuiescentGuard;
use calls::{Failure, Freed, Index, Leaf};
use std::any::Any;
use std::fmt::Debug;
use std::future::Future;
use std::panic::{AssertUnwindSafe, catch_unwind};
use std::pin::pin;
use std::sync::Arc;
use std::task::{Context, Poll, Waker};

const _: () = assert!(NBR_ENTRIES_IN_BRANCH == C && NBR_ROW_PAGE_ENTRIES_IN_LEAF == C);

/// With one thread and the direct pools nothing waits.
fn block_on<T>(f: impl Future<Output = T>) -> T {
    match pin!(f).poll(&mut Context::from_waker(Waker::noop())) {
        Poll::Ready(v) => v,
        Poll::Pending => panic!("oracle: a future waits"),
    }
}

fn message(payload: Box<dyn Any + Send>) -> String {
    match payload.downcast::<String>() {
        Ok(s) => *s,
        Err(p) => p.downcast::<&str>().map_or_else(|_| String::from("?"), |s| s.to_string()),
    }
}

/// The call's result, or its failure.
fn caught<T, E: Debug>(f: impl Future<Output = Result<T, E>>) -> Result<T, Failure> {
    match catch_unwind(AssertUnwindSafe(|| block_on(f))) {
        Ok(Ok(v)) => Ok(v),
        Ok(Err(e)) => Err(Failure::Error(format!("{e:?}"))),
        Err(p) => Err(Failure::Panic(message(p))),
    }
}

struct Driver {
    /// None once it is destroyed.
    index: Option<RowPageIndex>,
    pool: QuiescentGuard<FixedBufferPool>,
    guard: PoolGuard,
    rows: RowPool,
    row_guard: PoolGuard,
}

/// An index whose pool has `limit` nodes, with rows from `start`.
pub fn create(start: u64, limit: u64) -> Result<Box<dyn Index>, Failure> {
    let pool = QuiescentGuard(Arc::new(FixedBufferPool::new(limit as usize)));
    let guard = pool.create_base_guard();
    let index = caught(RowPageIndex::new(pool.clone(), &guard, RowID::new(start)))?;
    Ok(Box::new(Driver::new(Some(index), pool, guard)))
}

impl Driver {
    fn new(index: Option<RowPageIndex>, pool: QuiescentGuard<FixedBufferPool>, guard: PoolGuard) -> Self {
        let rows = RowPool::new();
        let row_guard = rows.create_base_guard();
        Driver { index, pool, guard, rows, row_guard }
    }

    fn index(&self) -> &RowPageIndex {
        self.index.as_ref().expect("oracle: the index is destroyed")
    }

    fn node<R>(&self, id: PageID, f: impl FnOnce(&RowPageIndexNode) -> R) -> R {
        let g = block_on(self.pool.must_get_page::<RowPageIndexNode>(&self.guard, id, LatchFallbackMode::Shared));
        f(block_on(g.lock_shared_async()).unwrap().page())
    }

    fn children(&self, id: PageID) -> Vec<PageID> {
        self.node(id, |n| if n.is_leaf() { vec![] } else { n.branch_entries().iter().map(|e| e.page_id).collect() })
    }

    fn shape_of(&self, id: PageID, out: &mut Vec<u64>) {
        self.node(id, |n| {
            let h = &n.header;
            out.extend([h.height as u64, h.count as u64, h.start_row_id.as_u64(), h.end_row_id.as_u64()]);
            let entries = if n.is_leaf() { n.leaf_entries() } else { n.branch_entries() };
            out.extend(entries.iter().map(|e| e.row_id.as_u64()));
            if n.is_leaf() {
                out.extend(entries.iter().map(|e| e.page_id.as_u64()));
            }
        });
        self.children(id).into_iter().for_each(|c| self.shape_of(c, out));
    }

    fn reached(&self, id: PageID, out: &mut Vec<u64>) {
        out.push(id.as_u64());
        self.children(id).into_iter().for_each(|c| self.reached(c, out));
    }

    /// Both destroys take the index; where one panics, nothing was freed and the index is opened again.
    fn released<T>(&mut self, f: impl FnOnce(&Driver, RowPageIndex) -> Result<T, Failure>) -> Result<T, Failure> {
        let index = self.index.take().expect("oracle: the index is destroyed");
        let (root, height) = (index.root_page_id(), index.height());
        let r = f(self, index);
        if r.is_err() {
            self.index = Some(open(self.pool.clone(), root, height));
        }
        r
    }
}

impl Index for Driver {
    fn append(&mut self, count: u64, page: u64) -> Result<(u64, u64), Failure> {
        let (start, end) = caught(append(self.index(), &self.guard, count, PageID::new(page)))?;
        Ok((start.as_u64(), end.as_u64()))
    }

    fn find(&mut self, row: u64) -> Result<Option<u64>, Failure> {
        // With debug assertions `find_row` rejects some rows; without them it is what a user calls, and what is timed.
        let location = if cfg!(debug_assertions) {
            caught(find(self.index(), &self.guard, RowID::new(row)))
        } else {
            caught(self.index().find_row(&self.guard, RowID::new(row)))
        };
        match location? {
            RowLocation::RowPage(p) => Ok(Some(p.as_u64())),
            RowLocation::NotFound => Ok(None),
            RowLocation::LwcBlock(_) => unreachable!(),
        }
    }

    fn prune(&mut self, start: u64, end: u64, ids: &[u64]) -> Result<[u64; 3], Failure> {
        let expected: Vec<PageID> = ids.iter().map(|i| PageID::new(*i)).collect();
        let (start, end) = (RowID::new(start), RowID::new(end));
        let r = caught(self.index().prune_checkpoint_prefix(&self.guard, start, end, &expected))?;
        assert!(*r.page_ids == *expected);
        Ok([r.page_ids.len() as u64, r.reclaimed_nodes as u64, r.collapsed_levels as u64])
    }

    fn walk(&mut self, row: Option<u64>) -> Result<Vec<Leaf>, Failure> {
        caught(async {
            let mut cursor = self.index().mem_cursor(&self.guard);
            if let Some(row) = row {
                cursor.seek(RowID::new(row)).await?;
            }
            let mut leaves = Vec::new();
            while let Some(leaf) = cursor.next().await? {
                let leaf = leaf.must_shared();
                let (h, entries) = (&leaf.page().header, leaf.page().leaf_entries());
                leaves.push(Leaf {
                    start: h.start_row_id.as_u64(),
                    end: h.end_row_id.as_u64(),
                    entries: entries.iter().map(|e| (e.row_id.as_u64(), e.page_id.as_u64())).collect(),
                });
            }
            assert!(cursor.next().await?.is_none(), "oracle: a leaf after none");
            Ok::<_, error_stack::Report<crate::error::RuntimeError>>(leaves)
        })
    }

    fn leaves(&mut self, row: u64, seen: &mut dyn FnMut(u64, u64)) -> Result<(), Failure> {
        caught(async {
            let mut cursor = self.index().mem_cursor(&self.guard);
            cursor.seek(RowID::new(row)).await?;
            while let Some(leaf) = cursor.next().await? {
                let leaf = leaf.must_shared();
                let h = &leaf.page().header;
                seen(h.end_row_id.as_u64(), h.count as u64);
            }
            Ok::<_, error_stack::Report<crate::error::RuntimeError>>(())
        })
    }

    fn destroy(&mut self, pivot: u64) -> Result<Vec<u64>, Failure> {
        self.rows.freed.borrow_mut().clear();
        self.released(|d, index| caught(index.destroy(&d.guard, &d.rows, &d.row_guard, RowID::new(pivot))))?;
        Ok(self.rows.freed.take())
    }

    fn destroy_empty(&mut self) -> Result<(), Failure> {
        self.released(|d, index| {
            caught(async {
                crate::index::destroy_empty(index, &d.guard).await;
                Ok::<_, ()>(())
            })
        })
    }

    fn shape(&self) -> Vec<u64> {
        let mut out = Vec::new();
        self.shape_of(self.index().root_page_id(), &mut out);
        out
    }

    fn height(&self) -> u64 {
        self.index().height() as u64
    }

    fn taken(&self) -> u64 {
        self.pool.taken() as u64
    }

    fn freed(&mut self) -> Vec<Freed> {
        self.pool.freed.take()
    }

    fn recover(&mut self) {
        let mut reached = Vec::new();
        self.reached(self.index().root_page_id(), &mut reached);
        self.pool.keep(&reached);
    }

    fn copy(&self, limit: u64) -> Box<dyn Index> {
        let pool = QuiescentGuard(Arc::new(self.pool.copy(limit as usize)));
        let guard = pool.create_base_guard();
        let index = self.index.as_ref().map(|i| open(pool.clone(), i.root_page_id(), i.height()));
        Box::new(Driver::new(index, pool, guard))
    }
}
