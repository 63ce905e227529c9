//! Comparing programs with the second implementation: what they print for
//! drawn input, byte for byte.

pub mod files;
pub mod noise;
pub mod pipes;
pub mod process;
pub mod requests;
pub mod rounds;
pub mod trial;
