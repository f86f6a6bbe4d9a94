// SPDX-License-Identifier: Apache-2.0
//! HyperLogLog sketches in the format of Apache DataSketches, over the C library `libhll`.
//!
//! Proved calls of the C library hash and add values, read, merge and write images, and estimate from registers. What a counter (a
//! sketch that grows by itself) counts, merges and writes, and what it estimates from registers, is decided by proved calls alone.
//! Bounds, and estimates from few values, are plain C (`estimate.c`). The C of a counter allocates memory, copies bytes to it and frees
//! it. What is plain C is tested, not proved.
//!
//! The module [`hll`] has the names of the module `hll` of the crate `datasketches` (0.6.0), the original. To switch, change
//! the crate's name in `Cargo.toml` and in `use`. The README says what differs.

#![deny(unsafe_code)]
// build.rs sets hll_missing and hll_versioned; older compilers don't know the second lint
#![allow(unknown_lints, unexpected_cfgs)]
#![warn(missing_docs, clippy::missing_errors_doc, clippy::must_use_candidate)]

pub mod common;
pub mod error;
pub mod hash;
pub mod hll;
#[allow(unsafe_code)]
mod libhll;

pub use crate::error::Result;

/// Returns for which processors the code of `libhll` was compiled that runs: `x86-64-v2`, `x86-64-v3`, `aarch64` or `riscv64`. On
/// Linux on x86-64 the first call chooses, and the environment variable `HLL_CPU=x86-64-v2` keeps the first.
///
/// ```
/// println!("{}", hll_sketches::processor());
/// ```
#[must_use]
pub fn processor() -> &'static str {
    libhll::processor()
}

/// The README's programs are tests of the documentation.
#[cfg(doctest)]
#[doc = include_str!("../README.md")]
pub struct Readme;
