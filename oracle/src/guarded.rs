//! Bytes beside pages that may not be touched: a read or write outside them ends the process.
use std::ops::{Deref, DerefMut};
use std::ptr::null_mut;

mod system {
    unsafe extern "C" {
        pub fn mmap(address: *mut u8, length: usize, protection: i32, flags: i32, file: i32, offset: i64) -> *mut u8;
        pub fn mprotect(address: *mut u8, length: usize, protection: i32) -> i32;
        pub fn munmap(address: *mut u8, length: usize) -> i32;
    }
}

const PAGE: usize = 4096;
const PROT_NONE: i32 = 0;
const PROT_READ_WRITE: i32 = 3;
const MAP_PRIVATE_ANONYMOUS: i32 = 0x22;
const MAP_FAILED: usize = usize::MAX;

pub struct Guarded {
    map: *mut u8,
    mapped: usize,
    first: *mut u8,
    length: usize,
}

impl Guarded {
    /// A copy of the bytes, which ends where the page after it begins, or begins where the page before it ends.
    pub fn new(bytes: &[u8], at_end: bool) -> Guarded {
        let (length, between) = (bytes.len(), bytes.len().next_multiple_of(PAGE));
        let mapped = between + 2 * PAGE;
        let first = if at_end { PAGE + between - length } else { PAGE };
        unsafe {
            let map = system::mmap(null_mut(), mapped, PROT_NONE, MAP_PRIVATE_ANONYMOUS, -1, 0);
            assert_ne!(map as usize, MAP_FAILED, "mmap of {mapped} bytes");
            if between > 0 {
                assert_eq!(system::mprotect(map.add(PAGE), between, PROT_READ_WRITE), 0, "mprotect of {between} bytes");
            }
            let mut guarded = Guarded { map, mapped, first: map.add(first), length };
            guarded.copy_from_slice(bytes);
            guarded
        }
    }
}

impl Deref for Guarded {
    type Target = [u8];
    fn deref(&self) -> &[u8] {
        unsafe { std::slice::from_raw_parts(self.first, self.length) }
    }
}

impl DerefMut for Guarded {
    fn deref_mut(&mut self) -> &mut [u8] {
        unsafe { std::slice::from_raw_parts_mut(self.first, self.length) }
    }
}

impl Drop for Guarded {
    fn drop(&mut self) {
        unsafe { system::munmap(self.map, self.mapped) };
    }
}
