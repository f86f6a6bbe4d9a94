// SPDX-License-Identifier: Apache-2.0
//! Allocations that fail, of the crate and of the library: the calls with `try_` return it, and nothing has changed.
use std::cell::{Cell, RefCell};
use std::ffi::c_void;
use std::ptr::null_mut;

use hll_sketches::error::{Error, ErrorKind};
use hll_sketches::hll::{check, hip_estimate, merge_images, union_of, Coupon, HllSketch, HllType, HllUnion};

thread_local! {
    /// The number of the allocation that fails, from 1 on; 0: none.
    static FAILS_AT: Cell<usize> = const { Cell::new(0) };
}

fn fails() -> bool {
    FAILS_AT.with(|at| {
        let left = at.get();
        at.set(left.saturating_sub(1));
        left == 1
    })
}

// The functions of libc, which Rust's allocator and libhll call, with those of glibc behind them.

extern "C" {
    fn __libc_malloc(size: usize) -> *mut c_void;
    fn __libc_calloc(n: usize, size: usize) -> *mut c_void;
    fn __libc_realloc(memory: *mut c_void, size: usize) -> *mut c_void;
    fn malloc_usable_size(memory: *mut c_void) -> usize;
}

#[no_mangle]
unsafe extern "C" fn malloc(size: usize) -> *mut c_void {
    if fails() {
        null_mut()
    } else {
        __libc_malloc(size)
    }
}

#[no_mangle]
unsafe extern "C" fn calloc(n: usize, size: usize) -> *mut c_void {
    if fails() {
        null_mut()
    } else {
        __libc_calloc(n, size)
    }
}

/// What is made smaller stays where it is, and can't fail.
#[no_mangle]
unsafe extern "C" fn realloc(memory: *mut c_void, size: usize) -> *mut c_void {
    if size > malloc_usable_size(memory) && fails() {
        null_mut()
    } else {
        __libc_realloc(memory, size)
    }
}

/// Makes a call with each of its allocations failing in turn, until none does. Returns how many there are.
fn fail_each<T>(mut call: impl FnMut() -> Result<T, Error>, is_unchanged: impl Fn() -> bool) -> usize {
    for at in 1.. {
        FAILS_AT.with(|place| place.set(at));
        let answer = call();
        let has_failed = FAILS_AT.with(|place| place.replace(0)) == 0;
        match answer {
            Err(error) => assert!(has_failed && error.kind() == ErrorKind::OutOfMemory && error.reason() == "memory"),
            Ok(_) => {
                assert!(!has_failed, "a failed allocation was overlooked");
                return at - 1;
            }
        }
        assert!(is_unchanged());
    }
    unreachable!()
}

fn filled(n: u64) -> HllSketch {
    let mut sketch = HllSketch::new(12, HllType::Hll6).unwrap();
    (0..n).for_each(|value| sketch.update(value));
    sketch
}

/// How many values a sketch has in the object itself.
const OWN: u64 = 14;
const SIZES: [u64; 8] = [0, 1, OWN, 32, 48, 288, 383, 20_000];

#[test]
fn reads() {
    for n in SIZES {
        let sketch = filled(n);
        let image = sketch.serialize();
        let is_unchanged = || sketch.serialize() == image;
        assert_eq!(fail_each(|| sketch.try_clone(), is_unchanged), usize::from(n > OWN));
        assert!(fail_each(|| sketch.try_serialize(), is_unchanged) >= 2); // the library's image, and the answer
        assert_eq!(fail_each(|| sketch.try_estimation(), is_unchanged), 0);
        assert!(fail_each(|| HllSketch::deserialize(&image), is_unchanged) >= usize::from(n > OWN));
        assert!(fail_each(|| HllSketch::try_from(&image[..]), is_unchanged) >= usize::from(n > OWN));
        FAILS_AT.with(|place| place.set(1));
        assert_eq!(sketch.write_to(std::io::sink()).unwrap_err().kind(), std::io::ErrorKind::OutOfMemory);
        assert!(fail_each(|| union_of([&image, &image]), is_unchanged) >= usize::from(n >= OWN));
        assert!(fail_each(|| merge_images(12, HllType::Hll8, &[&image, &image]), is_unchanged) >= 3);
        fail_each(|| check(&image), is_unchanged);
        fail_each(|| hip_estimate(&image), is_unchanged);
    }
}

/// To read a set whose coupons don't ascend takes memory of the library.
#[test]
fn a_set_in_another_order() {
    let sketch = filled(300);
    let mut image = sketch.serialize();
    image[12..].reverse();
    image[12..].chunks_exact_mut(4).for_each(<[u8]>::reverse);
    assert!(fail_each(|| check(&image), || true) >= 1);
    assert!(fail_each(|| HllSketch::deserialize(&image), || true) >= 2);
    assert_eq!(HllSketch::deserialize(&image).unwrap(), sketch);
}

#[test]
fn updates() {
    let (long, medium) = ("a".repeat(300), "a".repeat(256));
    for n in SIZES {
        let start = filled(n);
        let before = start.serialize();
        let one = RefCell::new(start.clone());
        let is_unchanged = || one.borrow().serialize() == before;
        let begun = |call: &dyn Fn(&mut HllSketch) -> Result<(), Error>| call(&mut one.borrow_mut());
        fail_each(|| begun(&|sketch| sketch.try_update(-1i64)), is_unchanged);
        let wanted = with(&start, |sketch| sketch.update(-1i64));
        assert_eq!(*one.borrow(), wanted);
        *one.borrow_mut() = start.clone();
        assert!(fail_each(|| begun(&|sketch| sketch.try_update(long.as_str())), is_unchanged) >= 1);
        *one.borrow_mut() = start.clone();
        fail_each(|| begun(&|sketch| sketch.try_update_with_coupon(Coupon::pack(9, 63))), is_unchanged);
        assert_eq!(*one.borrow(), with(&start, |sketch| sketch.update_with_coupon(Coupon::pack(9, 63))));
    }
    assert!(fail_each(|| Coupon::try_from_value(long.as_str()), || true) >= 1);
    assert_eq!(fail_each(|| Coupon::try_from_value(medium.as_str()), || true), 0);
}

fn with(start: &HllSketch, change: impl Fn(&mut HllSketch)) -> HllSketch {
    let mut made = start.clone();
    change(&mut made);
    made
}

#[test]
fn unions() {
    for n in SIZES {
        let part = filled(n);
        let image = part.serialize();
        let mut wanted = HllUnion::new(11).unwrap();
        (15_000..15_018u64).for_each(|value| wanted.update_value(value));
        let union = RefCell::new(wanted.clone());
        let before = wanted.to_sketch(HllType::Hll8);
        wanted.update(&part);
        let is_unchanged = || union.borrow().to_sketch(HllType::Hll8) == before;
        let begin = || {
            *union.borrow_mut() = {
                let mut begun = HllUnion::new(11).unwrap();
                begun.update(&before);
                begun
            }
        };
        begin();
        fail_each(|| union.borrow_mut().try_update(&part), is_unchanged);
        assert_eq!(union.borrow().to_sketch(HllType::Hll8), wanted.to_sketch(HllType::Hll8));
        begin();
        fail_each(|| union.borrow_mut().update_image(&image), is_unchanged);
        assert_eq!(union.borrow().to_sketch(HllType::Hll8), wanted.to_sketch(HllType::Hll8));
        assert_eq!(fail_each(|| wanted.try_to_sketch(HllType::Hll4), || true), 1);
        assert_eq!(fail_each(|| wanted.try_clone(), || true), 1);
    }
}
