//! The small modules: catalog, file, io, notify, ptr, quiescent, row, trx.
pub(crate) mod catalog {
    pub(crate) struct TableColumnLayout;
}
pub(crate) mod file {
    pub(crate) struct BlockKey;
    pub(crate) mod block_integrity {
        pub(crate) const BLOCK_INTEGRITY_TRAILER_SIZE: usize = crate::capacity::TRAILER;
    }
}
pub(crate) mod io {
    pub(crate) struct Operation;
    pub(crate) trait IOSubmission {
        fn operation(&mut self) -> &mut Operation;
    }
}
pub(crate) mod notify {
    pub(crate) struct EventNotifyOnDrop;
}
pub(crate) mod ptr {
    pub(crate) struct UnsafePtr<T>(pub(crate) *mut T);
    impl<T> Clone for UnsafePtr<T> {
        fn clone(&self) -> Self {
            UnsafePtr(self.0)
        }
    }
    unsafe impl<T> Send for UnsafePtr<T> {}
    unsafe impl<T> Sync for UnsafePtr<T> {}
}
pub(crate) mod quiescent {
    use std::marker::PhantomData;
    use std::sync::Arc;
    pub(crate) struct QuiescentGuard<T>(pub(crate) Arc<T>);
    impl<T> Clone for QuiescentGuard<T> {
        fn clone(&self) -> Self {
            QuiescentGuard(self.0.clone())
        }
    }
    impl<T> std::ops::Deref for QuiescentGuard<T> {
        type Target = T;
        #[inline]
        fn deref(&self) -> &T {
            &self.0
        }
    }
    /// Keeps nothing: the driver's pools outlive every guard.
    #[derive(Clone)]
    pub struct SyncQuiescentGuard<T>(pub(crate) PhantomData<T>);
}
pub(crate) mod row {
    use crate::buffer::page::{BufferPage, PAGE_SIZE};
    use crate::catalog::TableColumnLayout;
    use crate::id::RowID;
    use zerocopy_derive::{FromBytes, IntoBytes, KnownLayout};
    pub(crate) const INVALID_ROW_ID: RowID = RowID::new(u64::MAX);
    /// Holds what `init` was told.
    #[repr(C)]
    #[derive(FromBytes, IntoBytes, KnownLayout)]
    pub(crate) struct RowPage {
        pub(crate) start: u64,
        pub(crate) count: u64,
        rest: [u8; PAGE_SIZE - 16],
    }
    unsafe impl BufferPage for RowPage {}
    impl RowPage {
        #[inline]
        pub(crate) fn init(&mut self, start: RowID, count: usize, _: &TableColumnLayout) {
            self.start = start.as_u64();
            self.count = count as u64;
        }
    }
}
pub(crate) mod trx {
    use crate::id::{PageID, RowID, TableID, TrxID};
    pub(crate) mod ver_map {
        pub(crate) struct RowVersionMap;
        impl RowVersionMap {
            pub(crate) fn set_create_cts(&self, _: crate::id::TrxID) {}
        }
    }
    /// Redo is not part of the oracle; no redo context is made.
    pub(crate) mod sys {
        use super::*;
        pub(crate) struct TransactionSystem;
        pub(crate) struct SysTrx;
        impl TransactionSystem {
            pub(crate) fn begin_sys_trx(&self) -> SysTrx {
                unimplemented!()
            }
            pub(crate) fn commit_sys(&self, _: SysTrx) -> crate::error::RuntimeOrFatalResult<TrxID> {
                unimplemented!()
            }
        }
        impl SysTrx {
            pub(crate) fn create_row_page(&mut self, _: TableID, _: PageID, _: RowID, _: RowID) {
                unimplemented!()
            }
        }
    }
}
