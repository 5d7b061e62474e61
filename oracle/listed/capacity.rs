//! The capacity of a node, set at build time by ORACLE_C.

const fn number(text: &str) -> usize {
    let digits = text.as_bytes();
    let (mut n, mut i) = (0, 0);
    while i < digits.len() {
        assert!(digits[i].is_ascii_digit());
        n = 10 * n + (digits[i] - b'0') as usize;
        i += 1;
    }
    n
}

/// Entries of a node.
pub(crate) const C: usize = number(env!("ORACLE_C"));
/// The footer of a node; its real size is not in the listed files.
pub(crate) const TRAILER: usize = 8;
/// 65,536 at C = 4094, which is the Rust's own.
pub(crate) const PAGE_SIZE: usize = 24 + 16 * C + TRAILER;

const _: () = assert!(C >= 2 && C <= 4094);
