//! `crate::buffer`: guard.rs, page.rs and pool_guard.rs of the listed files, the trait of mod.rs, and the direct pools.
mod pools;
pub(crate) mod frame {
    use crate::buffer::page::Page;
    use crate::catalog::TableColumnLayout;
    use crate::id::{PageID, RowID};
    use crate::trx::ver_map::RowVersionMap;
    use std::sync::Arc;
    pub(crate) struct BufferFrame {
        pub(crate) page_id: PageID,
        pub(crate) page: *mut Page,
        pub(crate) generation: u64,
        pub(crate) vmap: RowVersionMap,
    }
    impl BufferFrame {
        #[inline]
        pub(crate) fn generation(&self) -> u64 {
            self.generation
        }
        pub(crate) fn is_dirty(&self) -> bool {
            true
        }
        pub(crate) fn set_dirty(&self, _: bool) {}
        pub(crate) fn unwrap_vmap(&self) -> &RowVersionMap {
            &self.vmap
        }
        #[inline]
        pub(crate) fn init_undo_map(&mut self, _: Arc<TableColumnLayout>, _: RowID, _: usize) {}
    }
}
pub(crate) mod guard {
    include!(concat!(env!("ORACLE_LISTED"), "/guard.rs"));
}
mod identity {
    #[derive(Debug, Clone, Copy, PartialEq, Eq)]
    pub enum PoolRole {
        Invalid,
        Meta,
        Index,
        Mem,
        Disk,
    }
    pub(crate) type PoolIdentity = PoolRole;
    #[derive(Clone, Copy)]
    pub(crate) struct RowPoolRole;
    impl From<RowPoolRole> for PoolRole {
        fn from(_: RowPoolRole) -> Self {
            PoolRole::Mem
        }
    }
}
pub(crate) mod page {
    include!(concat!(env!("ORACLE_LISTED"), "/page.rs"));
}
mod pool_guard {
    include!(concat!(env!("ORACLE_LISTED"), "/pool_guard.rs"));
}

pub(crate) use identity::PoolRole;
pub(crate) use pool_guard::PoolGuard;
pub(crate) use pools::{FixedBufferPool, RowPool};

use crate::buffer::guard::{FacadePageGuard, PageExclusiveGuard, PageSharedGuard, RowVersionMapGuard};
use crate::buffer::page::{BufferPage, VersionedPageID};
use crate::error::{RuntimeError, RuntimeOrFatalError, Validation};
use crate::id::PageID;
use crate::latch::LatchFallbackMode;
use error_stack::Report;
use std::fmt::Debug;
use std::future::Future;
use std::result::Result as StdResult;

pub(crate) const INVALID_PAGE_ID: PageID = PageID::new(u64::MAX);

include!(concat!(env!("ORACLE_LISTED"), "/pool_trait.rs"));
include!(concat!(env!("ORACLE_LISTED"), "/pool_versioned.rs"));
