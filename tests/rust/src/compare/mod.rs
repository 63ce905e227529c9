//! Comparing a library with the second implementation: each reply, and each
//! byte of the lent table after the call.

pub mod bench;
pub mod bytes;
pub mod classes;
pub mod damage;
pub mod draw;
pub mod extremes;
pub mod fullest;
pub mod hands;
pub mod kinds;
pub mod large;
pub mod lengths;
pub mod library;
pub mod lists;
pub mod sealed;
pub mod sound;
pub mod store;
pub mod tables;
pub mod tally;
pub mod ties;
pub mod unused;
