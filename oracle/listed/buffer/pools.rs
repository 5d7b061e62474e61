//! The direct pools: boxed nodes in a `Vec` with a free list (last freed, first taken) and a limit; and a pool of row pages
//! that has one page for every id. One thread only.
use super::frame::BufferFrame;
use super::guard::{FacadePageGuard, PageExclusiveGuard, PageLatchGuard, RowVersionMapGuard};
use super::page::{BufferPage, PAGE_SIZE, VersionedPageID};
use super::{BufferPool, PoolGuard, PoolRole};
use crate::error::{RuntimeError, Validation, Validation::Invalid, Validation::Valid};
use crate::id::PageID;
use crate::latch::{Latch, LatchFallbackMode, RawHybridGuard};
use crate::ptr::UnsafePtr;
use crate::quiescent::SyncQuiescentGuard;
use crate::trx::ver_map::RowVersionMap;
use calls::Freed;
use error_stack::Report;
use std::alloc::{Layout, alloc_zeroed, dealloc};
use std::cell::{Cell, RefCell, UnsafeCell};
use std::future::{Future, ready};
use std::marker::PhantomData;

/// A page with its frame. The latch stands beside the frame, since guards take `&mut` of the frame.
struct Slot {
    latch: Latch,
    frame: UnsafeCell<BufferFrame>,
    taken: Cell<bool>,
}
impl Slot {
    fn layout() -> Layout {
        Layout::from_size_align(PAGE_SIZE, 64).unwrap()
    }
    fn new(id: u64) -> Box<Slot> {
        let page = unsafe { alloc_zeroed(Self::layout()) };
        assert!(!page.is_null());
        Box::new(Slot {
            latch: Latch::default(),
            frame: UnsafeCell::new(BufferFrame {
                page_id: PageID::new(id),
                page: page.cast(),
                generation: 0,
                vmap: RowVersionMap,
            }),
            taken: Cell::new(false),
        })
    }
    fn copy(&self) -> Box<Slot> {
        let (from, taken) = (unsafe { &*self.frame.get() }, self.taken.get());
        let to = Slot::new(from.page_id.as_u64());
        unsafe { std::ptr::copy_nonoverlapping(from.page.cast::<u8>(), (*to.frame.get()).page.cast::<u8>(), PAGE_SIZE) };
        to.taken.set(taken);
        to
    }
    #[inline]
    fn facade<T: BufferPage>(&self, keep: &PoolGuard, raw: RawHybridGuard) -> FacadePageGuard<T> {
        FacadePageGuard::new(PageLatchGuard::new(keep.clone(), raw), UnsafePtr(self.frame.get()))
    }
}
impl Drop for Slot {
    fn drop(&mut self) {
        unsafe { dealloc(self.frame.get_mut().page.cast(), Self::layout()) }
    }
}

pub(crate) struct FixedBufferPool {
    slots: UnsafeCell<Vec<Box<Slot>>>,
    free: UnsafeCell<Vec<u64>>,
    taken: Cell<usize>,
    limit: usize,
    pub(crate) freed: RefCell<Vec<Freed>>,
}
// One thread only; the traits are asked for by `BufferPool`.
unsafe impl Send for FixedBufferPool {}
unsafe impl Sync for FixedBufferPool {}

impl FixedBufferPool {
    pub(crate) fn new(limit: usize) -> Self {
        FixedBufferPool {
            slots: UnsafeCell::default(),
            free: UnsafeCell::default(),
            taken: Cell::new(0),
            limit,
            freed: RefCell::default(),
        }
    }
    /// Nodes taken and not freed.
    pub(crate) fn taken(&self) -> usize {
        self.taken.get()
    }
    /// Frees all nodes but these.
    pub(crate) fn keep(&self, numbers: &[u64]) {
        let (slots, free) = unsafe { (&*self.slots.get(), &mut *self.free.get()) };
        slots.iter().for_each(|s| s.taken.set(false));
        numbers.iter().for_each(|n| slots[*n as usize].taken.set(true));
        free.clear();
        free.extend((0..slots.len() as u64).filter(|n| !slots[*n as usize].taken.get()));
        self.taken.set(numbers.len());
    }
    /// The same nodes, free list included, under another limit.
    pub(crate) fn copy(&self, limit: usize) -> Self {
        let (slots, free) = unsafe { (&*self.slots.get(), &*self.free.get()) };
        FixedBufferPool {
            slots: UnsafeCell::new(slots.iter().map(|s| s.copy()).collect()),
            free: UnsafeCell::new(free.clone()),
            taken: Cell::new(self.taken.get()),
            limit,
            freed: RefCell::default(),
        }
    }
    // The boxes never move and never go before the pool does; no reference into the Vec outlives a call.
    #[inline]
    fn slot(&self, id: PageID) -> &Slot {
        let s: &Slot = unsafe { &(&*self.slots.get())[id.as_u64() as usize] };
        assert!(s.taken.get(), "oracle pool: node {id} isn't taken");
        s
    }
    fn take(&self) -> Result<&Slot, Report<RuntimeError>> {
        let (slots, free) = unsafe { (&mut *self.slots.get(), &mut *self.free.get()) };
        let id = match free.pop() {
            Some(id) => id,
            None if slots.len() < self.limit => {
                slots.push(Slot::new(slots.len() as u64));
                slots.len() as u64 - 1
            }
            None => return Err(Report::new(RuntimeError::BufferPageAllocation)),
        };
        slots[id as usize].taken.set(true);
        self.taken.set(self.taken.get() + 1);
        Ok(self.slot(PageID::new(id)))
    }
    #[inline]
    pub(crate) async fn must_get_page<T: BufferPage>(
        &self,
        guard: &PoolGuard,
        id: PageID,
        _: LatchFallbackMode,
    ) -> FacadePageGuard<T> {
        let s = self.slot(id);
        s.facade(guard, RawHybridGuard::optimistic(&s.latch))
    }
    #[inline]
    pub(crate) async fn must_get_child_page<T: BufferPage>(
        &self,
        guard: &PoolGuard,
        parent: &FacadePageGuard<T>,
        id: PageID,
        mode: LatchFallbackMode,
    ) -> Validation<FacadePageGuard<T>> {
        let g = self.must_get_page(guard, id, mode).await;
        if parent.validate_bool() { Valid(g) } else { Invalid }
    }
}

type Err = Report<RuntimeError>;
impl BufferPool for FixedBufferPool {
    type Error = Err;
    fn capacity(&self) -> usize {
        self.limit
    }
    fn is_allocated(&self, id: PageID) -> bool {
        unsafe { (&*self.slots.get()).get(id.as_u64() as usize).is_some_and(|s| s.taken.get()) }
    }
    fn create_base_guard(&self) -> PoolGuard {
        PoolGuard::new(PoolRole::Meta, SyncQuiescentGuard(PhantomData))
    }
    #[inline]
    fn allocate_page<T: BufferPage>(
        &self,
        guard: &PoolGuard,
    ) -> impl Future<Output = Result<PageExclusiveGuard<T>, Err>> + Send {
        ready(self.take().map(|s| s.facade(guard, RawHybridGuard::exclusive(&s.latch)).must_exclusive()))
    }
    fn allocate_page_at<T: BufferPage>(
        &self,
        _: &PoolGuard,
        _: PageID,
    ) -> impl Future<Output = Result<PageExclusiveGuard<T>, Err>> + Send {
        async { unimplemented!() }
    }
    fn get_page<T: BufferPage>(
        &self,
        guard: &PoolGuard,
        id: PageID,
        mode: LatchFallbackMode,
    ) -> impl Future<Output = Result<FacadePageGuard<T>, Err>> + Send {
        async move { Ok(self.must_get_page(guard, id, mode).await) }
    }
    fn get_page_versioned<T: BufferPage>(
        &self,
        _: &PoolGuard,
        _: VersionedPageID,
        _: LatchFallbackMode,
    ) -> impl Future<Output = Result<Option<FacadePageGuard<T>>, Err>> + Send {
        async { unimplemented!() }
    }
    fn get_row_version_map(
        &self,
        _: &PoolGuard,
        _: VersionedPageID,
    ) -> impl Future<Output = Option<RowVersionMapGuard>> + Send {
        ready(None)
    }
    fn deallocate_page<T: BufferPage>(&self, mut g: PageExclusiveGuard<T>) {
        let id = g.page_id();
        g.bf_mut().generation += 1;
        // Where calls are timed, nothing is kept of a freed node.
        if cfg!(debug_assertions) {
            let words = g.bf().page.cast::<u64>();
            let (height, start) = unsafe { (words.cast::<u32>().read() as u64, words.add(1).read()) };
            self.freed.borrow_mut().push(Freed { node: id.as_u64(), height, start });
        }
        drop(g);
        self.slot(id).taken.set(false);
        unsafe { (&mut *self.free.get()).push(id.as_u64()) };
        self.taken.set(self.taken.get() - 1);
    }
    fn get_child_page<T: BufferPage>(
        &self,
        guard: &PoolGuard,
        parent: &FacadePageGuard<T>,
        id: PageID,
        mode: LatchFallbackMode,
    ) -> impl Future<Output = Result<Validation<FacadePageGuard<T>>, Err>> + Send {
        async move { Ok(self.must_get_child_page(guard, parent, id, mode).await) }
    }
}

/// Row pages of any 64-bit id, all in one page; freeing notes the id.
pub(crate) struct RowPool {
    scratch: Box<Slot>,
    pub(crate) freed: RefCell<Vec<u64>>,
}
unsafe impl Send for RowPool {}
unsafe impl Sync for RowPool {}
impl RowPool {
    pub(crate) fn new() -> Self {
        RowPool { scratch: Slot::new(0), freed: RefCell::default() }
    }
    #[inline]
    fn at<T: BufferPage>(&self, guard: &PoolGuard, id: PageID, exclusive: bool) -> FacadePageGuard<T> {
        let s = &self.scratch;
        let raw = RawHybridGuard::exclusive(&s.latch); // no other guard on it
        unsafe { (*s.frame.get()).page_id = id };
        s.facade(guard, if exclusive { raw } else { raw.downgrade() })
    }
}
impl BufferPool for RowPool {
    type Error = Err;
    fn capacity(&self) -> usize {
        usize::MAX
    }
    fn is_allocated(&self, _: PageID) -> bool {
        true
    }
    fn create_base_guard(&self) -> PoolGuard {
        PoolGuard::new(PoolRole::Mem, SyncQuiescentGuard(PhantomData))
    }
    fn allocate_page<T: BufferPage>(
        &self,
        _: &PoolGuard,
    ) -> impl Future<Output = Result<PageExclusiveGuard<T>, Err>> + Send {
        async { unimplemented!() }
    }
    #[inline]
    fn allocate_page_at<T: BufferPage>(
        &self,
        guard: &PoolGuard,
        id: PageID,
    ) -> impl Future<Output = Result<PageExclusiveGuard<T>, Err>> + Send {
        ready(Ok(self.at(guard, id, true).must_exclusive()))
    }
    fn get_page<T: BufferPage>(
        &self,
        guard: &PoolGuard,
        id: PageID,
        _: LatchFallbackMode,
    ) -> impl Future<Output = Result<FacadePageGuard<T>, Err>> + Send {
        ready(Ok(self.at(guard, id, false)))
    }
    fn get_page_versioned<T: BufferPage>(
        &self,
        _: &PoolGuard,
        _: VersionedPageID,
        _: LatchFallbackMode,
    ) -> impl Future<Output = Result<Option<FacadePageGuard<T>>, Err>> + Send {
        async { unimplemented!() }
    }
    fn get_row_version_map(
        &self,
        _: &PoolGuard,
        _: VersionedPageID,
    ) -> impl Future<Output = Option<RowVersionMapGuard>> + Send {
        ready(None)
    }
    fn deallocate_page<T: BufferPage>(&self, g: PageExclusiveGuard<T>) {
        self.freed.borrow_mut().push(g.page_id().as_u64());
    }
    fn get_child_page<T: BufferPage>(
        &self,
        _: &PoolGuard,
        _: &FacadePageGuard<T>,
        _: PageID,
        _: LatchFallbackMode,
    ) -> impl Future<Output = Result<Validation<FacadePageGuard<T>>, Err>> + Send {
        async { unimplemented!() }
    }
}
