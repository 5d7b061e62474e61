//! The listed Rust at one capacity, over stubs of what it uses and direct pools.
#![allow(dead_code, unused_imports, unfulfilled_lint_expectations, unexpected_cfgs, private_interfaces)]
#[macro_use]
mod error;
mod buffer;
mod capacity;
mod driver;
mod id;
mod index;
mod latch;
mod layout;
mod stubs;
pub use driver::create;
use stubs::{catalog, file, io, notify, ptr, quiescent, row, trx};
