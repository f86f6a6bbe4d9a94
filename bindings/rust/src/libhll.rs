// SPDX-License-Identifier: Apache-2.0
//! The calls of hll.h over slices. All unsafe code of the crate is here.
//!
//! hll.h says what a caller must ensure ("What the caller must ensure"). It holds for each call below: a pointer comes from a slice or a
//! `Vec` together with its length; what a call writes is borrowed as `&mut`, or is memory that nobody else has, so it
//! overlaps nothing; and no input changes while a call runs, because it is borrowed.

use std::ffi::{c_void, CStr};
use std::mem::{size_of, MaybeUninit};
use std::os::raw::{c_char, c_uint};

use crate::common::Estimation;

/// A `hll_status`.
pub(crate) type Status = u8;

pub(crate) const OK: Status = 0;
pub(crate) const ARGUMENT: Status = 12;
pub(crate) const MEMORY: Status = 13;
pub(crate) const BUFFER: Status = 14;
pub(crate) const OTHER_LG_K: Status = 16;

/// A `hll_bytes`.
#[repr(C)]
struct Bytes {
    bytes: *const u8,
    len: usize,
}

/// Declares the calls. A library that build.rs has made has MINOR in its names. Where there is none for a system, each call
/// says so.
macro_rules! calls {
    ($($versioned:literal fn $name:ident($($argument:ident: $type:ty),*) -> $result:ty;)*) => {
        #[cfg(not(hll_missing))]
        extern "C" {
            $(#[cfg_attr(hll_versioned, link_name = $versioned)]
            fn $name($($argument: $type),*) -> $result;)*
        }

        $(#[cfg(hll_missing)]
        #[allow(clippy::too_many_arguments)]
        unsafe fn $name($(_: $type),*) -> $result {
            panic!(
                "hll-sketches has no library for {} on {} in its directory prebuilt: install libhll there, and set \
                 HLL_SYSTEM=1 when the crate is built",
                std::env::consts::OS,
                std::env::consts::ARCH
            )
        })*
    };
}

// scripts/calls.py writes what follows, from bindings/c/hll.h
calls! {
    "hll_0_2_processor" fn hll_processor() -> *const c_char;
    "hll_0_2_counter_init" fn hll_counter_init(
        counter: *mut Counter,
        lg_k: c_uint,
        allocator: Option<Allocator>,
        context: *mut c_void
    ) -> Status;
    "hll_0_2_counter_free" fn hll_counter_free(counter: *mut Counter) -> ();
    "hll_0_2_counter_add" fn hll_counter_add(counter: *mut Counter, value: *const u8, len: usize) -> Status;
    "hll_0_2_counter_add_coupons" fn hll_counter_add_coupons(
        counter: *mut Counter,
        coupons: *const u32,
        n: usize
    ) -> Status;
    "hll_0_2_counter_join" fn hll_counter_join(counter: *mut Counter, image: *const u8, len: usize) -> Status;
    "hll_0_2_counter_join_counter" fn hll_counter_join_counter(counter: *mut Counter, other: *const Counter) -> Status;
    "hll_0_2_counter_copy" fn hll_counter_copy(to: *mut Counter, from: *const Counter) -> Status;
    "hll_0_2_counter_image" fn hll_counter_image(
        counter: *const Counter,
        width: c_uint,
        out: *mut u8,
        room: usize,
        size: *mut usize
    ) -> Status;
    "hll_0_2_counter_estimate" fn hll_counter_estimate(counter: *const Counter, estimation: *mut Estimation) -> Status;
    "hll_0_2_counter_info" fn hll_counter_info(
        counter: *const Counter,
        summary: *mut Summary,
        summary_size: usize
    ) -> Status;
    "hll_0_2_image_head" fn hll_image_head(image: *const u8, len: usize, head: *mut Head, head_size: usize) -> Status;
    "hll_0_2_image_check" fn hll_image_check(image: *const u8, len: usize) -> Status;
    "hll_0_2_image_trailing" fn hll_image_trailing(bytes: *const u8, len: usize, more: *mut usize) -> Status;
    "hll_0_2_images_unionv" fn hll_images_unionv(
        lg_max_k: c_uint,
        width: c_uint,
        parts: *const Bytes,
        n: usize,
        out: *mut u8,
        room: usize,
        size: *mut usize,
        failed: *mut usize
    ) -> Status;
    "hll_0_2_coupon" fn hll_coupon(value: *const u8, len: usize) -> u32;
    "hll_0_2_hip_estimate" fn hll_hip_estimate(image: *const u8, len: usize, estimation: *mut Estimation) -> Status;
}
// end of what scripts/calls.py writes

pub(crate) fn checked(status: Status) -> Result<(), Status> {
    match status {
        OK => Ok(()),
        _ => Err(status),
    }
}

/// For which processors the code was compiled that runs.
pub(crate) fn processor() -> &'static str {
    // SAFETY: the call returns a string that never changes, with a 0 after it.
    unsafe { CStr::from_ptr(hll_processor()) }.to_str().unwrap_or("unknown")
}

/// The image that a call writes into a buffer. The call is made again with more room where it asks for it.
fn written(room: usize, mut call: impl FnMut(*mut u8, usize, *mut usize) -> Status) -> Result<Vec<u8>, Status> {
    let (mut out, mut size) = (Vec::new(), room);
    loop {
        out.try_reserve_exact(size).map_err(|_| MEMORY)?;
        let status = call(out.as_mut_ptr(), out.capacity(), &mut size);
        if status != BUFFER {
            checked(status)?;
            // SAFETY: on OK the call has written `size` bytes, at most the capacity that it was given.
            unsafe { out.set_len(size) };
            return fitted(out);
        }
    }
}

/// The bytes without room for much more.
fn fitted(bytes: Vec<u8>) -> Result<Vec<u8>, Status> {
    if bytes.capacity() <= 2 * bytes.len() + 64 {
        return Ok(bytes);
    }
    let mut fit = Vec::new();
    fit.try_reserve_exact(bytes.len()).map_err(|_| MEMORY)?;
    fit.extend_from_slice(&bytes);
    Ok(fit)
}

// ---- images and values

/// A `hll_head`.
#[repr(C)]
#[derive(Default)]
pub(crate) struct Head {
    _size: u64,
    _count: u32,
    pub(crate) lg_k: u8,
    pub(crate) width: u8,
    pub(crate) stage: u8,
    _others: [u8; 3],
}

/// What the header of an image says. All is 0 if the header has a fault.
pub(crate) fn head(image: &[u8]) -> Head {
    let mut head = Head::default();
    // SAFETY: "What the caller must ensure", as said at the top; and so it is below.
    let status = unsafe { hll_image_head(image.as_ptr(), image.len(), &mut head, size_of::<Head>()) };
    debug_assert_eq!(status, OK);
    head
}

/// How many bytes follow an image.
pub(crate) fn trailing(image: &[u8]) -> usize {
    let mut more = 0;
    let status = unsafe { hll_image_trailing(image.as_ptr(), image.len(), &mut more) };
    debug_assert_eq!(status, OK);
    more
}

pub(crate) fn image_check(image: &[u8]) -> Result<(), Status> {
    checked(unsafe { hll_image_check(image.as_ptr(), image.len()) })
}

/// The union of images; or the status, and the number of the image that is rejected.
pub(crate) fn images_union<Image: AsRef<[u8]>>(
    lg_max_k: u8,
    width: u8,
    images: &[Image],
) -> Result<Vec<u8>, (Status, usize)> {
    let mut parts = Vec::new();
    parts.try_reserve_exact(images.len()).map_err(|_| (MEMORY, 0))?;
    parts.extend(images.iter().map(AsRef::as_ref).map(|image| Bytes { bytes: image.as_ptr(), len: image.len() }));
    let room = 64 + (1 << lg_max_k) * usize::from(width) / 8;
    let mut failed = 0;
    written(room, |out, room, size| unsafe {
        let (lg_max_k, width) = (lg_max_k.into(), width.into());
        hll_images_unionv(lg_max_k, width, parts.as_ptr(), parts.len(), out, room, size, &mut failed)
    })
    .map_err(|status| (status, failed))
}

/// The HIP estimate that an image brings; `ARGUMENT` if it has none.
pub(crate) fn hip_estimate(image: &[u8]) -> Result<Estimation, Status> {
    let mut found = Estimation::default();
    checked(unsafe { hll_hip_estimate(image.as_ptr(), image.len(), &mut found) })?;
    Ok(found)
}

#[inline]
pub(crate) fn coupon(value: &[u8]) -> u32 {
    unsafe { hll_coupon(value.as_ptr(), value.len()) }
}

// ---- counters

/// A `hll_allocator`.
type Allocator = unsafe extern "C" fn(context: *mut c_void, memory: *mut c_void, size: usize) -> *mut c_void;

/// A `hll_counter`, whose memory is from malloc.
#[repr(C)]
pub(crate) struct Counter {
    _allocator: Option<Allocator>,
    _context: *mut c_void,
    room: u32,
    lg_max_k: u8,
    _flags: [u8; 2],
    _at: [u64; 12],
}

// SAFETY: a counter and its memory belong to no thread, and calls through a shared reference change nothing (hll.h, "counters").
unsafe impl Send for Counter {}
unsafe impl Sync for Counter {}

/// What a counter is (`hll_state_summary`).
#[repr(C)]
#[derive(Clone, Copy, Default)]
pub(crate) struct Summary {
    /// The bytes of its state.
    pub(crate) size: u64,
    pub(crate) lg_k: u8,
    pub(crate) width: u8,
    _stage: u8,
    empty: u8,
    open: u8,
}

impl Summary {
    pub(crate) fn is_empty(self) -> bool {
        self.empty == 1
    }

    /// Whether its `lg_k` is not decided.
    pub(crate) fn is_open(self) -> bool {
        self.open == 1
    }
}

impl Counter {
    /// An empty counter of an `lg_k` that is known to be 4 to 21, or 0 for one that is open.
    #[inline]
    pub(crate) fn new(lg_k: u8) -> Self {
        let mut made = MaybeUninit::uninit();
        let status = unsafe { hll_counter_init(made.as_mut_ptr(), lg_k.into(), None, std::ptr::null_mut()) };
        assert!(status == OK, "the lg_k was checked");
        unsafe { made.assume_init() }
    }

    pub(crate) fn info(&self) -> Summary {
        let mut said = Summary::default();
        let status = unsafe { hll_counter_info(self, &mut said, size_of::<Summary>()) };
        debug_assert!(status == OK, "the sizes agree");
        said
    }

    /// The bytes of the heap that it has allocated.
    pub(crate) fn allocated(&self) -> usize {
        self.room as usize
    }

    pub(crate) fn try_clone(&self) -> Result<Self, Status> {
        let mut copy = Self::new(self.lg_max_k);
        checked(unsafe { hll_counter_copy(&mut copy, self) })?;
        Ok(copy)
    }

    /// Adds a value by its bytes.
    #[inline]
    pub(crate) fn add_value(&mut self, value: &[u8]) -> Result<(), Status> {
        checked(unsafe { hll_counter_add(self, value.as_ptr(), value.len()) })
    }

    /// Adds a raw coupon, of a value of at least 1.
    #[inline]
    pub(crate) fn add(&mut self, coupon: u32) -> Result<(), Status> {
        checked(unsafe { hll_counter_add_coupons(self, &coupon, 1) })
    }

    pub(crate) fn join(&mut self, image: &[u8]) -> Result<(), Status> {
        checked(unsafe { hll_counter_join(self, image.as_ptr(), image.len()) })
    }

    pub(crate) fn join_counter(&mut self, other: &Self) -> Result<(), Status> {
        checked(unsafe { hll_counter_join_counter(self, other) })
    }

    pub(crate) fn image(&self, width: u8) -> Result<Vec<u8>, Status> {
        let size = self.info().size as usize;
        written(size, |out, room, size| unsafe { hll_counter_image(self, width.into(), out, room, size) })
    }

    pub(crate) fn estimation(&self) -> Result<Estimation, Status> {
        let mut found = Estimation::default();
        checked(unsafe { hll_counter_estimate(self, &mut found) })?;
        Ok(found)
    }
}

impl Drop for Counter {
    fn drop(&mut self) {
        unsafe { hll_counter_free(self) }
    }
}

#[cfg(test)]
mod tests {
    #[test]
    #[cfg(target_pointer_width = "64")]
    fn a_counter_has_the_size_that_it_has_in_c() {
        assert_eq!(std::mem::size_of::<super::Counter>(), 120); // counter.c asserts it
    }
}
