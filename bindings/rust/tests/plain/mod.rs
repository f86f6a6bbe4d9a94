// SPDX-License-Identifier: Apache-2.0
//! Plain calls of hll.h on images, which walks are compared with; and random numbers.
#![allow(dead_code)] // each test takes what it needs
#![allow(unknown_lints, unexpected_cfgs)] // build.rs sets hll_versioned

use std::os::raw::c_uint;

use hll_sketches::common::Estimation;
use hll_sketches::hll::HllType;

extern "C" {
    #[cfg_attr(hll_versioned, link_name = "hll_0_2_image_new")]
    fn hll_image_new(lg_k: c_uint, width: c_uint, out: *mut u8, room: usize, size: *mut usize) -> u8;
    #[cfg_attr(hll_versioned, link_name = "hll_0_2_image_add")]
    fn hll_image_add(
        image: *const u8,
        len: usize,
        values: *const u8,
        values_len: usize,
        ends: *const usize,
        n: usize,
        out: *mut u8,
        room: usize,
        size: *mut usize,
    ) -> u8;
    #[cfg_attr(hll_versioned, link_name = "hll_0_2_image_add_coupon")]
    fn hll_image_add_coupon(
        image: *const u8,
        len: usize,
        slot: u32,
        value: c_uint,
        out: *mut u8,
        room: usize,
        size: *mut usize,
    ) -> u8;
    #[cfg_attr(hll_versioned, link_name = "hll_0_2_image_convert")]
    fn hll_image_convert(
        image: *const u8,
        len: usize,
        width: c_uint,
        out: *mut u8,
        room: usize,
        size: *mut usize,
    ) -> u8;
    #[cfg_attr(hll_versioned, link_name = "hll_0_2_images_union")]
    fn hll_images_union(
        lg_max_k: c_uint,
        width: c_uint,
        images: *const u8,
        images_len: usize,
        ends: *const usize,
        n: usize,
        out: *mut u8,
        room: usize,
        size: *mut usize,
        failed: *mut usize,
    ) -> u8;
    #[cfg_attr(hll_versioned, link_name = "hll_0_2_image_check")]
    fn hll_image_check(image: *const u8, len: usize) -> u8;
    #[cfg_attr(hll_versioned, link_name = "hll_0_2_estimate")]
    fn hll_estimate(image: *const u8, len: usize, found: *mut Estimation) -> u8;
}

fn written(lg_k: u8, call: impl FnOnce(*mut u8, usize, *mut usize) -> u8) -> Vec<u8> {
    let mut out = vec![0; 40 + (5 << lg_k)];
    let mut size = 0;
    assert_eq!(call(out.as_mut_ptr(), out.len(), &mut size), 0);
    out.truncate(size);
    out
}

fn ends_of<Bytes: AsRef<[u8]>>(parts: &[Bytes]) -> (Vec<u8>, Vec<usize>) {
    let (mut bytes, mut ends) = (Vec::new(), Vec::new());
    for part in parts {
        bytes.extend_from_slice(part.as_ref());
        ends.push(bytes.len());
    }
    (bytes, ends)
}

pub fn new(lg_k: u8, width: u8) -> Vec<u8> {
    written(lg_k, |out, room, size| unsafe { hll_image_new(lg_k.into(), width.into(), out, room, size) })
}

pub fn add<Bytes: AsRef<[u8]>>(image: &[u8], values: &[Bytes]) -> Vec<u8> {
    let (bytes, ends) = ends_of(values);
    written(image[3], |out, room, size| unsafe {
        let (image, len, bytes, bytes_len) = (image.as_ptr(), image.len(), bytes.as_ptr(), bytes.len());
        hll_image_add(image, len, bytes, bytes_len, ends.as_ptr(), ends.len(), out, room, size)
    })
}

pub fn add_coupon(image: &[u8], slot: u32, value: u8) -> Vec<u8> {
    written(image[3], |out, room, size| unsafe {
        hll_image_add_coupon(image.as_ptr(), image.len(), slot, value.into(), out, room, size)
    })
}

pub fn convert(image: &[u8], width: u8) -> Vec<u8> {
    written(image[3], |out, room, size| unsafe {
        hll_image_convert(image.as_ptr(), image.len(), width.into(), out, room, size)
    })
}

pub fn union<Bytes: AsRef<[u8]>>(lg_max_k: u8, width: u8, images: &[Bytes]) -> Vec<u8> {
    let (bytes, ends) = ends_of(images);
    let mut failed = 0;
    written(lg_max_k, |out, room, size| unsafe {
        let (lg_max_k, width, bytes, bytes_len) = (lg_max_k.into(), width.into(), bytes.as_ptr(), bytes.len());
        hll_images_union(lg_max_k, width, bytes, bytes_len, ends.as_ptr(), ends.len(), out, room, size, &mut failed)
    })
}

pub fn check(image: &[u8]) -> u8 {
    unsafe { hll_image_check(image.as_ptr(), image.len()) }
}

pub fn estimation(image: &[u8]) -> Estimation {
    let mut found = Estimation::default();
    assert_eq!(unsafe { hll_estimate(image.as_ptr(), image.len(), &mut found) }, 0);
    found
}

pub fn type_of(width: u8) -> HllType {
    match width {
        4 => HllType::Hll4,
        6 => HllType::Hll6,
        _ => HllType::Hll8,
    }
}

/// Xorshift, multiplied.
pub struct Random(pub u64);

impl Random {
    pub fn next(&mut self) -> u64 {
        self.0 ^= self.0 << 13;
        self.0 ^= self.0 >> 7;
        self.0 ^= self.0 << 17;
        self.0.wrapping_mul(0x2545_f491_4f6c_dd1d) >> 11
    }

    pub fn below(&mut self, n: usize) -> usize {
        (self.next() % n as u64) as usize
    }

    pub fn width(&mut self) -> u8 {
        4 + 2 * self.below(3) as u8
    }

    pub fn lg_k(&mut self) -> u8 {
        4 + self.below(11) as u8
    }
}

/// The number of rounds of a test: that in the environment, or the default.
pub fn rounds(default: usize) -> usize {
    std::env::var("ROUNDS").ok().and_then(|text| text.parse().ok()).unwrap_or(default)
}
