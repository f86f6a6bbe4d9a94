// SPDX-License-Identifier: Apache-2.0
//! A sketch that grows: a counter of hll.h ("counters"), with errors of this crate.

#![forbid(unsafe_code)]

use std::hash::Hash;

use crate::common::Estimation;
use crate::error::{or_abort, Error, Result};
use crate::hash::with_bytes_of;
use crate::libhll::{self, Counter, Status};

/// A sketch. With at most 14 values, or fewer if they repeat, it owns no memory of the heap.
pub(super) struct State(Counter);

impl Clone for State {
    fn clone(&self) -> Self {
        or_abort(self.try_clone())
    }
}

/// Converts the result of a call that fails only if an allocation fails.
fn owned<T>(result: Result<T, Status>) -> Result<T> {
    result.map_err(|status| Error::of_image(status, 0))
}

/// Checks that no bytes follow an image. What is no image is left to the call that reads it.
pub(super) fn check_end(image: &[u8]) -> Result<()> {
    match libhll::trailing(image) {
        more if more > 0 && libhll::image_check(image).is_ok() => Err(Error::of_trailing(more, image.len())),
        _ => Ok(()),
    }
}

impl State {
    /// An empty sketch of an `lg_k` that is known to be 4 to 21. Of sketches with another `lg_k` the smaller is taken.
    #[inline]
    pub(super) fn new(lg_k: u8) -> Self {
        Self(Counter::new(lg_k))
    }

    /// An empty sketch, into which only sketches of one `lg_k` are merged. It takes theirs.
    pub(super) fn open() -> Self {
        Self(Counter::new(0))
    }

    /// Reads the image with which the bytes begin. If its header is not one, the error says why.
    pub(super) fn read(image: &[u8]) -> Result<Self> {
        let mut made = Self::new(libhll::head(image).lg_k.max(4));
        made.join_first(image)?;
        Ok(made)
    }

    /// Its `lg_k`; if that is not decided, the greatest of the empty sketches that were merged.
    pub(super) fn lg_k(&self) -> u8 {
        self.0.info().lg_k
    }

    /// Whether only empty sketches were merged into one that is open.
    pub(super) fn is_open(&self) -> bool {
        self.0.info().is_open()
    }

    pub(super) fn is_empty(&self) -> bool {
        self.0.info().is_empty()
    }

    /// The bits of a register of the images that were merged; 8 if they differ, or there were none.
    pub(super) fn width(&self) -> u8 {
        self.0.info().width
    }

    /// The bytes of the heap that it has allocated.
    pub(super) fn allocated(&self) -> usize {
        self.0.allocated()
    }

    pub(super) fn try_clone(&self) -> Result<Self> {
        owned(self.0.try_clone()).map(Self)
    }

    /// Adds what the value's `Hash` writes.
    #[inline]
    pub(super) fn add_value<T: Hash>(&mut self, value: T) -> Result<()> {
        owned(with_bytes_of(value, |bytes| self.0.add_value(bytes)).unwrap_or(Err(libhll::MEMORY)))
    }

    /// Adds a value by these bytes.
    #[inline]
    pub(super) fn add_bytes(&mut self, value: &[u8]) -> Result<()> {
        owned(self.0.add_value(value))
    }

    /// Adds a raw coupon, of a value of at least 1.
    #[inline]
    pub(super) fn add(&mut self, coupon: u32) -> Result<()> {
        owned(self.0.add(coupon))
    }

    /// Merges an image. Bytes after it are an error.
    pub(super) fn join(&mut self, image: &[u8]) -> Result<()> {
        check_end(image)?;
        self.join_first(image)
    }

    /// Merges the image with which the bytes begin.
    fn join_first(&mut self, image: &[u8]) -> Result<()> {
        self.0.join(image).map_err(|status| match status {
            libhll::OTHER_LG_K => Error::of_other_lg_k(self.lg_k(), image),
            status => Error::of_image(status, image.len()),
        })
    }

    /// Merges another sketch into one that is not open.
    pub(super) fn join_state(&mut self, other: &Self) -> Result<()> {
        owned(self.0.join_counter(&other.0))
    }

    pub(super) fn estimation(&self) -> Result<Estimation> {
        owned(self.0.estimation())
    }

    /// The image, of registers of 4, 6 or 8 bits.
    pub(super) fn image(&self, width: u8) -> Result<Vec<u8>> {
        owned(self.0.image(width))
    }
}
