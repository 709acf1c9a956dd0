//! The original Rust heap, compiled as it stands, with a small door to it.
//!
//! The modules below that say `include!` are the original files, taken at
//! build time and not changed. The rest is ours; the README lists it.

// `heap.rs` says `use crate::cell`, which names the module and, since the file
// comes in by `include!`, also a macro of that name that nobody uses here.
#![allow(macro_expanded_macro_exports_accessed_by_absolute_paths)]

#[allow(warnings)]
pub mod cell {
    include!(concat!(env!("MARWOOD"), "/cell.rs"));
}

pub mod char;
pub mod error;
pub mod number;
pub mod vm;

pub mod history;
pub mod random;
pub mod text;

pub use cell::Cell;
pub use history::{History, Stop};
pub use vm::vcell::VCell;
