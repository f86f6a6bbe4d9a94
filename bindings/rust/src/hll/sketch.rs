// SPDX-License-Identifier: Apache-2.0
#![forbid(unsafe_code)]

use std::hash::Hash;
use std::{fmt, io};

use super::state::{check_end, State};
use super::{check_lg_k, Coupon, HllType};
use crate::common::{Estimation, NumStdDev};
use crate::error::{or_abort, Error, Result};
use crate::libhll;

/// The `lg_k` of a sketch for which none is given.
pub(super) const DEFAULT_LG_K: u8 = 12;

/// A sketch, which counts distinct values.
///
/// Two sketches are equal if they have the same image. As a string, a sketch is one line with its estimate. `default()`, and
/// `collect()` of values, make sketches of `lg_k` 12 and `Hll8`. `extend` and `collect` add values as
/// [`update`](Self::update) does.
///
/// ```
/// use hll_sketches::hll::HllSketch;
///
/// let sketch: HllSketch = (0..600u64).collect();
/// println!("{sketch}"); // sketch of lg_k 12, 8 bits a register: about 592 distinct values, ..
/// # assert!(sketch.to_string().contains("about 592 distinct"));
/// ```
#[derive(Clone)]
pub struct HllSketch {
    pub(super) state: State,
    pub(super) hll_type: HllType,
}

impl HllSketch {
    /// Returns an empty sketch of 2^`lg_config_k` registers. It allocates nothing.
    ///
    /// # Errors
    ///
    /// `InvalidArgument` if `lg_config_k` is not 4 to 21.
    pub fn new(lg_config_k: u8, hll_type: HllType) -> Result<Self> {
        Ok(Self { state: State::new(check_lg_k("lg_config_k", lg_config_k)?), hll_type })
    }

    /// Reads an image of any DataSketches library. The image is checked whole; bytes after it are not read, as by the original
    /// crate: [`deserialize_exact`](Self::deserialize_exact) rejects them. Of untrusted bytes check the
    /// [`Limits`](super::Limits) first.
    ///
    /// A HIP estimate that the image has stays in it until a register changes. [`estimate`](Self::estimate) doesn't use it:
    /// see [`hip_estimate`](super::hip_estimate).
    ///
    /// # Errors
    ///
    /// `InvalidData` with the first check that the bytes fail.
    ///
    /// # Errors
    ///
    /// `OutOfMemory`.
    pub fn deserialize(bytes: &[u8]) -> Result<Self> {
        let state = State::read(bytes)?;
        let hll_type = HllType::of_width(libhll::head(bytes).width); // also that of an empty sketch
        Ok(Self { state, hll_type })
    }

    /// Reads an image as [`deserialize`](Self::deserialize) does, and rejects bytes after it, which may be a second image.
    ///
    /// # Errors
    ///
    /// As [`deserialize`](Self::deserialize), and `InvalidData` with the reason `"trailing"` if bytes follow the image.
    pub fn deserialize_exact(bytes: &[u8]) -> Result<Self> {
        check_end(bytes)?;
        Self::deserialize(bytes)
    }

    /// Returns the image, which other DataSketches libraries read. The same sketch has the same image.
    #[must_use]
    pub fn serialize(&self) -> Vec<u8> {
        or_abort(self.try_serialize())
    }

    /// Returns the image.
    ///
    /// # Errors
    ///
    /// `OutOfMemory`.
    pub fn try_serialize(&self) -> Result<Vec<u8>> {
        self.state.image(self.hll_type.width())
    }

    /// Writes the image to a file or another writer. It isn't buffered: it is written by one `write_all`.
    ///
    /// # Errors
    ///
    /// The error of the writer.
    ///
    /// # Errors
    ///
    /// `OutOfMemory`.
    pub fn write_to(&self, mut out: impl io::Write) -> io::Result<()> {
        out.write_all(&self.try_serialize()?)
    }

    /// Adds a value: what its `Hash` writes. A `str` writes a byte ff after its bytes, and smaller integers than 64 bits write
    /// fewer than eight bytes, so other languages count them as other values. For values that these count too, see
    /// [`update_bytes`](Self::update_bytes).
    #[inline]
    pub fn update<T: Hash>(&mut self, value: T) {
        or_abort(self.try_update(value));
    }

    /// Adds a value as [`update`](Self::update) does.
    ///
    /// # Errors
    ///
    /// `OutOfMemory`.
    #[inline]
    pub fn try_update<T: Hash>(&mut self, value: T) -> Result<()> {
        self.state.add_value(value)
    }

    /// Adds values, each as [`update`](Self::update) does.
    ///
    /// ```
    /// # let mut sketch = hll_sketches::hll::HllSketch::default();
    /// sketch.update_many(["ann", "bob", "ann"]);
    /// assert_eq!(sketch.estimate().round(), 2.0);
    /// ```
    pub fn update_many<T: Hash>(&mut self, values: impl IntoIterator<Item = T>) {
        values.into_iter().for_each(|value| self.update(value));
    }

    /// Adds a value by these bytes alone, as C, C++, Java, Python and SQL count it: the UTF-8 of a text, or the eight
    /// little-endian bytes of an integer. For a float, call [`update`](Self::update) with
    /// [`canonical_float`](crate::hash::value::canonical_float): the others count -0.0 as 0.0, and every NaN as one value.
    ///
    /// ```
    /// use hll_sketches::hll::{HllSketch, HllType};
    ///
    /// let mut sketch = HllSketch::new(12, HllType::Hll8)?;
    /// sketch.update_bytes("ann");
    /// sketch.update_bytes(7i64.to_le_bytes());
    /// sketch.update(7i64); // the same value: 64 bits are hashed as their eight bytes
    /// assert_eq!(sketch.estimate().round(), 2.0);
    /// # Ok::<(), hll_sketches::error::Error>(())
    /// ```
    #[inline]
    pub fn update_bytes(&mut self, value: impl AsRef<[u8]>) {
        or_abort(self.try_update_bytes(value));
    }

    /// Adds a value as [`update_bytes`](Self::update_bytes) does.
    ///
    /// # Errors
    ///
    /// `OutOfMemory`.
    #[inline]
    pub fn try_update_bytes(&mut self, value: impl AsRef<[u8]>) -> Result<()> {
        self.state.add_bytes(value.as_ref())
    }

    /// Adds a value by its coupon, without hashing it again.
    #[inline]
    pub fn update_with_coupon(&mut self, coupon: Coupon) {
        or_abort(self.try_update_with_coupon(coupon));
    }

    /// Adds a coupon.
    ///
    /// # Errors
    ///
    /// `OutOfMemory`.
    #[inline]
    pub fn try_update_with_coupon(&mut self, coupon: Coupon) -> Result<()> {
        self.state.add(coupon.raw())
    }

    /// Removes all values, and frees the memory. The `lg_k` and the type stay.
    pub fn reset(&mut self) {
        self.state = State::new(self.lg_config_k());
    }

    /// Returns whether no value was added.
    #[must_use]
    pub fn is_empty(&self) -> bool {
        self.state.is_empty()
    }

    /// Returns the type of registers in the image.
    #[must_use]
    pub fn target_type(&self) -> HllType {
        self.hll_type
    }

    /// Returns the logarithm of the number of registers, 4 to 21.
    #[must_use]
    pub fn lg_config_k(&self) -> u8 {
        self.state.lg_k()
    }

    /// Returns the estimated number of distinct values. It doesn't depend on the order in which values came.
    #[must_use]
    pub fn estimate(&self) -> f64 {
        self.estimation().estimate
    }

    /// Returns [`estimate`](Self::estimate). In the original the two differ.
    #[must_use]
    pub fn composite_estimate(&self) -> f64 {
        self.estimate()
    }

    /// Returns the upper bound at this number of standard deviations.
    #[must_use]
    pub fn upper_bound(&self, num_std_dev: NumStdDev) -> f64 {
        self.estimation().upper_bound(num_std_dev)
    }

    /// Returns the lower bound at this number of standard deviations. It is never below the number of coupons, or of
    /// registers above 0, as each of them came from a value of its own.
    #[must_use]
    pub fn lower_bound(&self, num_std_dev: NumStdDev) -> f64 {
        self.estimation().lower_bound(num_std_dev)
    }

    /// Returns the estimate with all its bounds, in the time of one of the calls above.
    #[must_use]
    pub fn estimation(&self) -> Estimation {
        or_abort(self.try_estimation())
    }

    /// Returns the estimate with all its bounds.
    ///
    /// # Errors
    ///
    /// `OutOfMemory`.
    pub fn try_estimation(&self) -> Result<Estimation> {
        self.state.estimation()
    }

    /// Returns a copy.
    ///
    /// # Errors
    ///
    /// `OutOfMemory`.
    pub fn try_clone(&self) -> Result<Self> {
        Ok(Self { state: self.state.try_clone()?, hll_type: self.hll_type })
    }

    /// Returns the number of bytes of memory that the sketch takes.
    #[must_use]
    pub fn estimated_size(&self) -> usize {
        std::mem::size_of::<Self>() + self.state.allocated()
    }
}

/// Returns an empty sketch of `lg_k` 12, whose standard error is 1.6 %, and of the type `Hll8`.
impl Default for HllSketch {
    fn default() -> Self {
        Self { state: State::new(DEFAULT_LG_K), hll_type: HllType::Hll8 }
    }
}

/// Adds values as [`HllSketch::update_many`] does.
impl<T: Hash> Extend<T> for HllSketch {
    fn extend<I: IntoIterator<Item = T>>(&mut self, values: I) {
        self.update_many(values);
    }
}

/// Counts values in a [default](HllSketch::default) sketch, of `lg_k` 12.
impl<T: Hash> FromIterator<T> for HllSketch {
    fn from_iter<I: IntoIterator<Item = T>>(values: I) -> Self {
        let mut made = Self::default();
        made.update_many(values);
        made
    }
}

/// Reads one image, as [`HllSketch::deserialize_exact`] does: bytes after it are rejected.
impl TryFrom<&[u8]> for HllSketch {
    type Error = Error;

    fn try_from(image: &[u8]) -> Result<Self> {
        Self::deserialize_exact(image)
    }
}

impl PartialEq for HllSketch {
    fn eq(&self, other: &Self) -> bool {
        self.hll_type == other.hll_type
            && self.lg_config_k() == other.lg_config_k()
            && self.serialize() == other.serialize()
    }
}

impl fmt::Display for HllSketch {
    fn fmt(&self, f: &mut fmt::Formatter<'_>) -> fmt::Result {
        let found = self.estimation();
        write!(
            f,
            "sketch of lg_k {}, {} bits a register: about {} distinct values, with 95% certainty {} to {}",
            self.lg_config_k(),
            self.hll_type.width(),
            found.estimate.round(),
            found.lower[1].floor(),
            found.upper[1].ceil()
        )
    }
}

impl fmt::Debug for HllSketch {
    fn fmt(&self, f: &mut fmt::Formatter<'_>) -> fmt::Result {
        let found = self.estimation();
        let stage = libhll::head(&self.serialize()).stage;
        f.debug_struct("HllSketch")
            .field("lg_config_k", &self.lg_config_k())
            .field("target_type", &self.target_type())
            .field("mode", &["List", "Set", "Hll"][usize::from(stage.min(2))])
            .field("is_empty", &self.is_empty())
            .field("estimate", &found.estimate)
            .field("bounds", &(found.lower[0]..=found.upper[0]))
            .finish()
    }
}
