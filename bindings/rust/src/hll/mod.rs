// SPDX-License-Identifier: Apache-2.0
//! HyperLogLog sketches and their unions.
//!
//! A sketch counts distinct values in 2^`lg_k` registers, with a relative standard error of 1.04 / sqrt(2^`lg_k`): 1.6 % at
//! `lg_k` 12. It is serialized to an *image*, the bytes that each DataSketches library reads.
//!
//! ```
//! use hll_sketches::hll::{HllSketch, HllType, HllUnion};
//!
//! let mut monday = HllSketch::new(12, HllType::Hll8)?;
//! let mut tuesday = HllSketch::new(12, HllType::Hll8)?;
//! (0..600u64).for_each(|user| monday.update(user));
//! (400..1000u64).for_each(|user| tuesday.update(user));
//!
//! let mut both = HllUnion::new(12)?;
//! both.update(&monday);
//! both.update_image(&tuesday.serialize())?;
//! assert!((both.estimate() - 1000.0).abs() < 30.0);
//! # Ok::<(), hll_sketches::error::Error>(())
//! ```
//!
//! **What a value is.** [`HllSketch::update`] hashes what the value's `Hash` writes. A `str` writes its bytes and a byte ff,
//! and an `i32` writes four bytes, so C, C++, Java, Python and SQL count the same text or number as another value. If
//! sketches are merged with those of other languages, add texts by [`HllSketch::update_bytes`], and integers as `i64` or
//! `u64`.
//!
//! **Memory.** The calls with the names of the original end the program if an allocation fails, as `Vec` does. The calls with
//! `try_` in their name, and those that return a `Result` anyhow, return [`ErrorKind::OutOfMemory`](crate::error::ErrorKind),
//! and then the sketch is as it was. A sketch takes 128 bytes with up to 14 values (fewer if they repeat). Then it allocates four bytes for each
//! value, with room for half as many more, and one byte for each register later.
//!
//! **Threads.** Sketches and unions are `Send` and `Sync`. A call on `&self` copies coupons that aren't sorted, and sorts the
//! copy.

#![forbid(unsafe_code)]

#[cfg(feature = "serde")]
mod serial;
mod sketch;
mod state;
mod union;

use std::fmt;
use std::hash::Hash;
use std::str::FromStr;

pub use self::sketch::HllSketch;
pub use self::union::{merge_images, union_of, HllUnion};
use crate::common::Estimation;
use crate::error::{or_abort, Cause, Error, Result};
use crate::libhll;

/// The number of bits of a register in an image. It changes only the size of images. Its text is `HLL_4`, `HLL_6` or `HLL_8`,
/// which `parse` reads.
#[derive(Debug, Clone, Copy, PartialEq, Eq, Hash)]
pub enum HllType {
    /// 4 bits: about 2^`lg_k` / 2 bytes.
    Hll4,
    /// 6 bits: 3 * 2^`lg_k` / 4 bytes.
    Hll6,
    /// 8 bits: 2^`lg_k` bytes, the fastest to read and write.
    Hll8,
}

impl HllType {
    fn width(self) -> u8 {
        match self {
            Self::Hll4 => 4,
            Self::Hll6 => 6,
            Self::Hll8 => 8,
        }
    }

    fn of_width(width: u8) -> Self {
        Self::try_from(width).unwrap_or(Self::Hll8)
    }

    fn name(self) -> &'static str {
        match self {
            Self::Hll4 => "HLL_4",
            Self::Hll6 => "HLL_6",
            Self::Hll8 => "HLL_8",
        }
    }
}

impl TryFrom<u8> for HllType {
    type Error = Error;

    /// Returns the type of this number of bits, or `InvalidArgument` for another number than 4, 6 and 8.
    fn try_from(bits: u8) -> Result<Self> {
        match bits {
            4 => Ok(Self::Hll4),
            6 => Ok(Self::Hll6),
            8 => Ok(Self::Hll8),
            given => Err(Error::new(Cause::Number { name: "the number of bits", given, wanted: "4, 6 or 8" })),
        }
    }
}

impl FromStr for HllType {
    type Err = Error;

    /// Reads `"HLL_4"`, `"HLL_6"` or `"HLL_8"`, or returns `InvalidArgument`.
    fn from_str(text: &str) -> Result<Self> {
        let found = [Self::Hll4, Self::Hll6, Self::Hll8].into_iter().find(|it| it.name() == text);
        found.ok_or_else(|| Error::of_text("the type of registers", text, "HLL_4, HLL_6 or HLL_8"))
    }
}

impl fmt::Display for HllType {
    fn fmt(&self, f: &mut fmt::Formatter<'_>) -> fmt::Result {
        f.pad(self.name())
    }
}

/// The hash of a value, as a sketch keeps it: a slot below 2^26 and a value from 1 to 63.
///
/// Compute it once, and add it to several sketches of any `lg_k` by
/// [`HllSketch::update_with_coupon`].
#[derive(Debug, Clone, Copy, PartialEq, Eq, PartialOrd, Ord, Hash)]
pub struct Coupon(u32);

const SLOT_BITS: u32 = 26;
const SLOTS: u32 = 1 << SLOT_BITS;

impl Coupon {
    /// Returns the coupon of what the value's `Hash` writes. A `str` writes a byte ff after its bytes, which other languages
    /// don't hash: see [`from_bytes`](Self::from_bytes).
    #[inline]
    pub fn from_value<T: Hash>(value: T) -> Self {
        or_abort(Self::try_from_value(value))
    }

    /// Returns the coupon of what the value's `Hash` writes.
    ///
    /// # Errors
    ///
    /// `OutOfMemory`, which values that write at most 40 bytes don't cause.
    #[inline]
    pub fn try_from_value<T: Hash>(value: T) -> Result<Self> {
        crate::hash::with_bytes_of(value, libhll::coupon).map(Self).ok_or_else(|| Error::new(Cause::Memory))
    }

    /// Returns the coupon of these bytes alone, as other languages count them.
    ///
    /// ```
    /// use hll_sketches::hll::Coupon;
    /// assert_eq!(Coupon::from_bytes("ann").raw(), 0x046011f8); // also in C, Python and SQL
    /// assert_eq!(Coupon::from_value("ann").raw(), 0x0781afe8); // with a byte ff
    /// ```
    #[inline]
    pub fn from_bytes(value: impl AsRef<[u8]>) -> Self {
        Self(libhll::coupon(value.as_ref()))
    }

    /// Returns the coupon with this slot and value. Of the slot the lower 26 bits count. A value of 0 becomes 1, and a value
    /// above 63 becomes 63.
    #[must_use]
    pub fn pack(slot: u32, value: u8) -> Self {
        Self((u32::from(value.clamp(1, 63)) << SLOT_BITS) | (slot % SLOTS))
    }

    /// Returns the coupon of a number that [`raw`](Self::raw) returned, here or in another language (`hll_coupons` in C).
    ///
    /// # Errors
    ///
    /// `InvalidArgument` if the number is below 2^26, so the coupon's value would be 0.
    pub fn from_raw(raw: u32) -> Result<Self> {
        if raw < SLOTS {
            return Err(Error::new(Cause::Coupon(raw)));
        }
        Ok(Self(raw))
    }

    /// Returns the coupon as a number: its value * 2^26 + its slot.
    #[must_use]
    pub fn raw(self) -> u32 {
        self.0
    }

    /// Returns the slot, below 2^26.
    #[must_use]
    pub fn slot(self) -> u32 {
        self.0 % SLOTS
    }

    /// Returns the value, 1 to 63.
    #[must_use]
    pub fn value(self) -> u8 {
        (self.0 >> SLOT_BITS) as u8
    }
}

fn check_lg_k(name: &'static str, given: u8) -> Result<u8> {
    match given {
        4..=21 => Ok(given),
        _ => Err(Error::new(Cause::Number { name, given, wanted: "4 to 21" })),
    }
}

/// Checks whether the bytes begin with the image of a sketch. Bytes after the image are not read.
///
/// # Errors
///
/// `InvalidData` with the first check that the bytes fail, or `OutOfMemory`.
pub fn check(image: &[u8]) -> Result<()> {
    libhll::image_check(image).map_err(|status| Error::of_image(status, image.len()))
}

/// Returns the HIP estimate that the writer of an image kept in it, with its bounds. Returns `None` if the image has none: if
/// it has few values, was merged, or was made by this library.
///
/// A HIP estimate is made while values are added one by one. It scatters by a fifth less than
/// [`HllSketch::estimate`], and is lost in a merge.
///
/// # Errors
///
/// `InvalidData` if the bytes are not an image, or `OutOfMemory`.
pub fn hip_estimate(image: &[u8]) -> Result<Option<Estimation>> {
    match libhll::hip_estimate(image) {
        Ok(found) => Ok(Some(found)),
        Err(libhll::ARGUMENT) => Ok(None),
        Err(status) => Err(Error::of_image(status, image.len())),
    }
}

/// Limits for untrusted images. Each image is checked whole when it is read, but one of a megabyte can be made to take a
/// second.
///
/// The default accepts ordinary images of `lg_k` 12, of which the slowest takes milliseconds:
///
/// ```
/// use hll_sketches::hll::{HllSketch, HllType, Limits};
///
/// let upload = HllSketch::new(12, HllType::Hll8)?.serialize();
/// Limits::default().check(&upload)?;
/// let sketch = HllSketch::deserialize(&upload)?;
/// # assert!(sketch.is_empty());
/// # Ok::<(), hll_sketches::error::Error>(())
/// ```
#[derive(Debug, Clone, Copy, PartialEq, Eq)]
pub struct Limits {
    /// The largest `lg_k`.
    pub lg_k: u8,
    /// The largest number of bytes.
    pub len: usize,
}

impl Default for Limits {
    fn default() -> Self {
        Self { lg_k: 12, len: 8192 }
    }
}

impl Limits {
    /// Checks the number of bytes, and the `lg_k` in the header. A header that has a fault is within the limits: it is rejected at
    /// once.
    ///
    /// # Errors
    ///
    /// `InvalidData` with the reason `"limits"` if one is above its limit.
    pub fn check(&self, image: &[u8]) -> Result<()> {
        let (lg_k, len) = (libhll::head(image).lg_k, image.len());
        if lg_k <= self.lg_k && len <= self.len {
            return Ok(());
        }
        Err(Error::new(Cause::Limits { lg_k, len, most_lg_k: self.lg_k, most_len: self.len }))
    }
}
