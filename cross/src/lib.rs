//! Battenplum's calls, held against solvers that share nothing with the proved code.
//!
//! `solver` follows the paper's sentences one by one and is slow; `fast` is written for speed and is what the benchmarks measure
//! against; `calls` is the C library. All three are compared on the same books.

pub mod bench;
pub mod book;
pub mod calls;
pub mod differ;
pub mod fast;
pub mod random;
pub mod solver;
