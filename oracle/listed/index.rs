//! `crate::index` with the two listed files in it, and ways to what they keep private.
pub(crate) mod row_page_index {
    include!(concat!(env!("ORACLE_LISTED"), "/row_page_index.rs"));

    /// `insert_row_page`, whose row page is not part of the oracle. One thread never has to retry.
    pub(crate) async fn append(
        index: &RowPageIndex,
        guard: &PoolGuard,
        count: u64,
        page: PageID,
    ) -> RuntimeResult<(RowID, RowID)> {
        match index.insert_row_page(guard, count, page, None).await? {
            Valid(i) => Ok((i.start_row_id, i.end_row_id)),
            Invalid => panic!("oracle: insert_row_page asked for a retry"),
        }
    }

    /// `try_find_row`; `find_row` above it rejects deleted ids in debug builds.
    pub(crate) async fn find(index: &RowPageIndex, guard: &PoolGuard, row: RowID) -> RuntimeResult<RowLocation> {
        match index.try_find_row(guard, row).await? {
            Valid(location) => Ok(location),
            Invalid => panic!("oracle: try_find_row asked for a retry"),
        }
    }

    /// The index of a tree that is in the pool.
    pub(crate) fn open(pool: QuiescentGuard<FixedBufferPool>, root: PageID, height: usize) -> RowPageIndex {
        RowPageIndex {
            root_page_id: root,
            height: AtomicUsize::new(height),
            insert_free_list: Mutex::new(Vec::new()),
            pool,
        }
    }
}
pub(crate) mod util {
    include!(concat!(env!("ORACLE_LISTED"), "/util.rs"));
}

/// `destroy_empty` is visible to this module only.
pub(crate) async fn destroy_empty(index: row_page_index::RowPageIndex, guard: &crate::buffer::PoolGuard) {
    index.destroy_empty(guard).await
}
