//! Stub of latch.rs for one thread: a version, a count of readers, one writer. Where another thread would have to let go
//! first it panics.
use crate::error::{Validation, Validation::Invalid, Validation::Valid};
use std::cell::Cell;

#[derive(Debug, Clone, Copy, PartialEq, Eq)]
pub(crate) enum LatchFallbackMode {
    Spin,
    Shared,
    Exclusive,
}
#[derive(Debug, Clone, Copy, PartialEq, Eq)]
pub(crate) enum GuardState {
    Optimistic,
    Shared,
    Exclusive,
}
/// Odd version: held exclusively.
#[derive(Default)]
pub(crate) struct Latch {
    version: Cell<u64>,
    readers: Cell<u32>,
}
pub(crate) struct RawHybridGuard {
    latch: *const Latch,
    state: GuardState,
    version: u64,
}
// One thread only; the traits are asked for by the signatures.
unsafe impl Send for RawHybridGuard {}
unsafe impl Sync for RawHybridGuard {}

impl RawHybridGuard {
    #[inline]
    pub(crate) fn optimistic(latch: &Latch) -> Self {
        let version = latch.version.get();
        assert!(version & 1 == 0, "oracle latch: page is held exclusively by this thread");
        RawHybridGuard { latch, state: GuardState::Optimistic, version }
    }
    #[inline]
    pub(crate) fn exclusive(latch: &Latch) -> Self {
        let mut g = Self::optimistic(latch);
        g.take_exclusive();
        g
    }
    #[inline]
    fn latch(&self) -> &Latch {
        unsafe { &*self.latch }
    }
    #[inline]
    fn take_shared(&mut self) {
        let l = self.latch();
        assert!(l.version.get() & 1 == 0, "oracle latch: would wait (shared)");
        l.readers.set(l.readers.get() + 1);
        self.version = self.latch().version.get();
        self.state = GuardState::Shared;
    }
    #[inline]
    fn take_exclusive(&mut self) {
        let l = self.latch();
        assert!(l.version.get() & 1 == 0 && l.readers.get() == 0, "oracle latch: would wait (exclusive)");
        l.version.set(l.version.get() + 1);
        self.version = self.latch().version.get();
        self.state = GuardState::Exclusive;
    }
    #[inline]
    fn release(&mut self) {
        let l = self.latch();
        match self.state {
            GuardState::Optimistic => {}
            GuardState::Shared => l.readers.set(l.readers.get() - 1),
            GuardState::Exclusive => l.version.set(l.version.get() + 1),
        }
        self.version = self.latch().version.get();
        self.state = GuardState::Optimistic;
    }
    #[inline]
    pub(crate) fn state(&self) -> GuardState {
        self.state
    }
    #[inline]
    pub(crate) fn validate(&self) -> bool {
        self.version == self.latch().version.get()
    }
    #[inline]
    pub(crate) fn downgrade(mut self) -> Self {
        // An optimistic guard keeps the version it saw.
        if self.state != GuardState::Optimistic {
            self.release();
        }
        self
    }
    #[inline]
    pub(crate) fn downgrade_exclusive_to_shared(mut self) -> Self {
        assert_eq!(self.state, GuardState::Exclusive);
        self.release();
        self.take_shared();
        self
    }
    #[inline]
    pub(crate) fn try_shared(&mut self) -> Validation<()> {
        match self.state {
            GuardState::Shared => return Valid(()),
            GuardState::Exclusive => panic!("oracle latch: try_shared by the writer"),
            GuardState::Optimistic => {}
        }
        if !self.validate() {
            return Invalid;
        }
        self.take_shared();
        Valid(())
    }
    #[inline]
    pub(crate) fn try_exclusive(&mut self) -> Validation<()> {
        match self.state {
            GuardState::Exclusive => return Valid(()),
            GuardState::Shared => panic!("oracle latch: try_exclusive by a reader"),
            GuardState::Optimistic => {}
        }
        if !self.validate() {
            return Invalid;
        }
        self.take_exclusive();
        Valid(())
    }
    pub(crate) async fn verify_shared_async<const PRE_VERIFY: bool>(&mut self) -> Validation<()> {
        self.try_shared()
    }
    pub(crate) async fn verify_exclusive_async<const PRE_VERIFY: bool>(&mut self) -> Validation<()> {
        self.try_exclusive()
    }
    #[inline]
    pub(crate) async fn shared_async(mut self) -> Self {
        self.take_shared();
        self
    }
    #[inline]
    pub(crate) async fn exclusive_async(mut self) -> Self {
        self.take_exclusive();
        self
    }
    pub(crate) fn rollback_exclusive_bit(mut self) {
        self.rollback_exclusive_bit_in_place();
    }
    pub(crate) fn rollback_exclusive_bit_in_place(&mut self) {
        assert_eq!(self.state, GuardState::Exclusive);
        self.release();
    }
    pub(crate) fn rollback_shared_lock_in_place(&mut self) {
        assert_eq!(self.state, GuardState::Shared);
        self.release();
    }
    pub(crate) fn refresh_version(&mut self) {
        self.version = self.latch().version.get();
    }
}
impl Drop for RawHybridGuard {
    #[inline]
    fn drop(&mut self) {
        self.release();
    }
}
