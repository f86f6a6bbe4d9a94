// SPDX-License-Identifier: Apache-2.0
#![forbid(unsafe_code)]

use std::fmt;
use std::hash::Hash;
use std::ops::BitOrAssign;

use super::sketch::DEFAULT_LG_K;
use super::state::{check_end, State};
use super::{check_lg_k, Coupon, HllSketch, HllType};
use crate::common::{Estimation, NumStdDev};
use crate::error::{or_abort, Error, Result};
use crate::libhll;

/// A union: the sketch of all values that any of the merged sketches has.
///
/// Its `lg_k` is the smallest of its bound and of the merged sketches that have registers. Merge sketches in any order, any
/// number of times, in any grouping: as long as every merge uses the same bound, the result is the same.
///
/// `union |= &sketch` and `union.extend(sketches)` merge as [`update`](Self::update) does. `a | b` of two sketches is not here, and a
/// union has no `default()`: neither says at which `lg_k` sketches of different `lg_k` are merged. [`union_of`] returns an
/// error for them.
#[derive(Clone)]
pub struct HllUnion {
    lg_max_k: u8,
    state: State,
}

impl HllUnion {
    /// Returns an empty union of at most 2^`lg_max_k` registers. It allocates nothing.
    ///
    /// # Errors
    ///
    /// `InvalidArgument` if `lg_max_k` is not 4 to 21.
    pub fn new(lg_max_k: u8) -> Result<Self> {
        Ok(Self { lg_max_k, state: State::new(check_lg_k("lg_max_k", lg_max_k)?) })
    }

    /// Merges a sketch of any type and `lg_k`.
    pub fn update(&mut self, sketch: &HllSketch) {
        or_abort(self.try_update(sketch));
    }

    /// Merges a sketch.
    ///
    /// # Errors
    ///
    /// `OutOfMemory`.
    pub fn try_update(&mut self, sketch: &HllSketch) -> Result<()> {
        self.state.join_state(&sketch.state)
    }

    /// Merges an image from its bytes, without making a sketch of it. The image is checked whole. Of untrusted bytes check the
    /// [`Limits`](super::Limits) first.
    ///
    /// # Errors
    ///
    /// `InvalidData` with the first check that the bytes fail, or `"trailing"` if bytes follow the image; or `OutOfMemory`.
    pub fn update_image(&mut self, image: &[u8]) -> Result<()> {
        self.state.join(image)
    }

    /// Adds a value as [`HllSketch::update`] does: with the byte ff after a `str`.
    #[inline]
    pub fn update_value<T: Hash>(&mut self, value: T) {
        or_abort(self.try_update_value(value));
    }

    /// Adds a value as [`HllSketch::update`] does.
    ///
    /// # Errors
    ///
    /// `OutOfMemory`.
    #[inline]
    pub fn try_update_value<T: Hash>(&mut self, value: T) -> Result<()> {
        self.state.add_value(value)
    }

    /// Adds a value by its bytes, as [`HllSketch::update_bytes`] does.
    #[inline]
    pub fn update_bytes(&mut self, value: impl AsRef<[u8]>) {
        or_abort(self.try_update_bytes(value));
    }

    /// Adds a value by its bytes.
    ///
    /// # Errors
    ///
    /// `OutOfMemory`.
    #[inline]
    pub fn try_update_bytes(&mut self, value: impl AsRef<[u8]>) -> Result<()> {
        self.state.add_bytes(value.as_ref())
    }

    /// Adds a value by its coupon.
    #[inline]
    pub fn update_with_coupon(&mut self, coupon: Coupon) {
        or_abort(self.try_update_with_coupon(coupon));
    }

    /// Adds a coupon.
    ///
    /// # Errors
    ///
    /// `OutOfMemory`.
    #[inline]
    pub fn try_update_with_coupon(&mut self, coupon: Coupon) -> Result<()> {
        self.state.add(coupon.raw())
    }

    /// Returns the union as a sketch of this type.
    #[must_use]
    pub fn to_sketch(&self, hll_type: HllType) -> HllSketch {
        or_abort(self.try_to_sketch(hll_type))
    }

    /// Returns the union as a sketch of this type.
    ///
    /// # Errors
    ///
    /// `OutOfMemory`.
    pub fn try_to_sketch(&self, hll_type: HllType) -> Result<HllSketch> {
        Ok(HllSketch { state: self.state.try_clone()?, hll_type })
    }

    /// Returns the `lg_k` of the union so far, at most [`lg_max_k`](Self::lg_max_k).
    #[must_use]
    pub fn lg_config_k(&self) -> u8 {
        self.state.lg_k()
    }

    /// Returns the bound that [`new`](Self::new) got.
    #[must_use]
    pub fn lg_max_k(&self) -> u8 {
        self.lg_max_k
    }

    /// Returns whether nothing was merged or added.
    #[must_use]
    pub fn is_empty(&self) -> bool {
        self.state.is_empty()
    }

    /// Forgets all that was merged and added, and frees the memory. The bound stays.
    pub fn reset(&mut self) {
        self.state = State::new(self.lg_max_k);
    }

    /// Returns the estimated number of distinct values.
    #[must_use]
    pub fn estimate(&self) -> f64 {
        self.estimation().estimate
    }

    /// Returns [`estimate`](Self::estimate). In the original the two can differ.
    #[must_use]
    pub fn composite_estimate(&self) -> f64 {
        self.estimate()
    }

    /// Returns the upper bound at this number of standard deviations.
    #[must_use]
    pub fn upper_bound(&self, num_std_dev: NumStdDev) -> f64 {
        self.estimation().upper_bound(num_std_dev)
    }

    /// Returns the lower bound at this number of standard deviations.
    #[must_use]
    pub fn lower_bound(&self, num_std_dev: NumStdDev) -> f64 {
        self.estimation().lower_bound(num_std_dev)
    }

    /// Returns the estimate with all its bounds, in the time of one of the calls above.
    #[must_use]
    pub fn estimation(&self) -> Estimation {
        or_abort(self.try_estimation())
    }

    /// Returns the estimate with all its bounds.
    ///
    /// # Errors
    ///
    /// `OutOfMemory`.
    pub fn try_estimation(&self) -> Result<Estimation> {
        self.state.estimation()
    }

    /// Returns a copy.
    ///
    /// # Errors
    ///
    /// `OutOfMemory`.
    pub fn try_clone(&self) -> Result<Self> {
        Ok(Self { lg_max_k: self.lg_max_k, state: self.state.try_clone()? })
    }

    /// Returns the number of bytes of memory that the union takes.
    #[must_use]
    pub fn estimated_size(&self) -> usize {
        std::mem::size_of::<Self>() + self.state.allocated()
    }
}

/// Merges a sketch, as [`HllUnion::update`] does.
impl BitOrAssign<&HllSketch> for HllUnion {
    fn bitor_assign(&mut self, sketch: &HllSketch) {
        self.update(sketch);
    }
}

/// Merges sketches, each as [`HllUnion::update`] does.
impl<'a> Extend<&'a HllSketch> for HllUnion {
    fn extend<I: IntoIterator<Item = &'a HllSketch>>(&mut self, sketches: I) {
        sketches.into_iter().for_each(|sketch| self.update(sketch));
    }
}

/// Merges sketches, each as [`HllUnion::update`] does.
impl Extend<HllSketch> for HllUnion {
    fn extend<I: IntoIterator<Item = HllSketch>>(&mut self, sketches: I) {
        sketches.into_iter().for_each(|sketch| self.update(&sketch));
    }
}

impl fmt::Debug for HllUnion {
    fn fmt(&self, f: &mut fmt::Formatter<'_>) -> fmt::Result {
        f.debug_struct("HllUnion")
            .field("lg_max_k", &self.lg_max_k)
            .field("gadget", &self.to_sketch(HllType::Hll8))
            .finish()
    }
}

/// Returns the union of images of one `lg_k`, which are read one at a time. Its type is that of the images, or `Hll8` if they
/// differ. Images without values count for nothing; if all are empty, the union has their greatest `lg_k`. The union of no
/// images is an empty sketch of `lg_k` 12.
///
/// No precision is lost by mistake: an image of another `lg_k` is an error. To merge images of different `lg_k`, give a bound
/// to [`HllUnion::new`] and call [`update_image`](HllUnion::update_image), or call [`merge_images`].
///
/// # Errors
///
/// With the [`index`](Error::index) of the image: `InvalidData` if it is not an image or bytes follow it, `InvalidArgument` if it has values and
/// another `lg_k` than the images with values before it. Or `OutOfMemory`.
pub fn union_of<I>(images: I) -> Result<HllSketch>
where
    I: IntoIterator,
    I::Item: AsRef<[u8]>,
{
    let (mut state, mut number) = (State::open(), 0);
    for image in images {
        state.join(image.as_ref()).map_err(|error| error.at(number))?;
        number += 1;
    }
    let hll_type = HllType::of_width(state.width());
    if state.is_open() {
        state = State::new(if number > 0 { state.lg_k() } else { DEFAULT_LG_K });
    }
    Ok(HllSketch { state, hll_type })
}

/// Returns the image of the union of images of any `lg_k`, under a bound. This is the fastest way to merge many images.
///
/// # Errors
///
/// `InvalidArgument` if `lg_max_k` is not 4 to 21; `InvalidData` with the [`index`](Error::index) of the first that is not an
/// image or that bytes follow; or `OutOfMemory`.
pub fn merge_images(lg_max_k: u8, hll_type: HllType, images: &[impl AsRef<[u8]>]) -> Result<Vec<u8>> {
    let lg_max_k = check_lg_k("lg_max_k", lg_max_k)?;
    for (number, image) in images.iter().enumerate() {
        check_end(image.as_ref()).map_err(|error| error.at(number))?;
    }
    libhll::images_union(lg_max_k, hll_type.width(), images).map_err(|(status, number)| {
        let len = images.get(number).map_or(0, |image| image.as_ref().len());
        Error::of_image(status, len).at(number)
    })
}
