//! The slot planner as a firmware engineer would ship it without proofs: the same table of bytes, the same packed
//! replies, O(n log n) in the rows, no loop over the slots left, no heap. `bench/run` measures the library against it.
//!
//! Due slots are counted from the current slot: `ahead` is due slot − current slot.

pub mod boundary;
pub mod calls;
mod close;
mod count;
mod easy;
mod leap;
mod lightest;
mod plan;
mod questions;
mod sealed;
mod segments;
mod send;
mod sound;
mod substitute;
mod table;
