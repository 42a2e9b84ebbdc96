//! An independent implementation of document 01 (`papers/01-scope.md`) and of requests 1, 2, 4, 5 and 6 of
//! document 02 in plain Rust, written from the papers alone, and what compares it with the proved archive.
//!
//! - [`reference`]: the papers' rules.
//! - `abi`: the ten C functions of the archive, with safe wrappers. Only where they are linked.
//! - [`gen`]: seeded generators of inputs, for the tests and the benchmarks.

#[cfg(kav_linked)]
pub mod abi;
pub mod gen;
#[cfg(kav_linked)]
pub mod kav;
pub mod reference;
