// SPDX-License-Identifier: Apache-2.0
//! Times sketches and unions at lg_k 12: nanoseconds, the least of 31 turns.
//!
//!     cargo --config debian.toml run --release --example bench
//!
//! It calls nothing that the original lacks, so the same file times that: build it in a package whose dependency
//! `hll_sketches` is the original.
//!
//! Targets, as ratios to the time of the original:
//!
//! - `new` and `update`: 1.5
//! - a union of images or sketches: 0.3 for registers, 1 for sets
use std::ptr;
use std::time::Instant;

use hll_sketches::hll::{Coupon, HllSketch, HllType, HllUnion};

const LG_K: u8 = 12;
const TURNS: usize = 31;
const IMAGES: usize = 1000;
const TYPES: [(HllType, &str); 3] = [(HllType::Hll8, "8"), (HllType::Hll6, "6"), (HllType::Hll4, "4")];

static NOBODY: fn(*const u8) = |_| ();

/// Makes the compiler compute a value: it can't know who gets the address. (`std::hint::black_box` needs Rust 1.66.)
fn keep<T>(value: T) {
    // SAFETY: it reads a static.
    let reader = unsafe { ptr::read_volatile(&NOBODY) };
    reader((&value as *const T).cast());
}

/// Prints the least time of a run, divided by a number of calls.
fn time<T>(name: &str, calls: usize, mut run: impl FnMut() -> T) {
    let mut least = f64::INFINITY;
    for _ in 0..TURNS {
        let start = Instant::now();
        keep(run());
        least = least.min(start.elapsed().as_nanos() as f64);
    }
    println!("{:.1}\t{name}", least / calls as f64);
}

fn new(hll_type: HllType) -> HllSketch {
    HllSketch::new(LG_K, hll_type).unwrap()
}

fn filled(hll_type: HllType, values: std::ops::Range<u64>) -> HllSketch {
    let mut sketch = new(hll_type);
    values.for_each(|value| sketch.update(value));
    sketch
}

// ---- updates

fn time_new_sketches() {
    time("new", 10_000, || (0..10_000).for_each(|_| keep(new(HllType::Hll8))));
    for n in [1, 7, 20, 100, 300, 1000, 100_000] {
        let sketches = (100_000 / n).max(1);
        time(&format!("update, a new sketch of {n} values"), n * sketches, || {
            (0..sketches).for_each(|i| keep(filled(HllType::Hll8, (i * n) as u64..(i * n + n) as u64)))
        });
    }
}

fn time_held_values() {
    for n in [20, 300, 20_000] {
        let mut sketch = filled(HllType::Hll8, 0..n);
        let times = 40_000 / n as usize;
        time(&format!("update of values that are held, of {n}"), times * n as usize, || {
            (0..times).for_each(|_| (0..n).for_each(|value| sketch.update(value)))
        });
    }
}

fn time_registers() {
    for (hll_type, bits) in TYPES {
        let mut sketch = filled(hll_type, 0..20_000);
        let mut next = 20_000u64;
        time(&format!("update, registers of {bits} bits"), 10_000, || {
            next += 10_000;
            (next - 10_000..next).for_each(|value| sketch.update(value))
        });
    }
    let mut sketch = filled(HllType::Hll8, 0..20_000);
    let texts: Vec<String> = (0..1000).map(|i| format!("user-{i:07}")).collect();
    time("update, registers, texts of 12 bytes", 10_000, || {
        (0..10).for_each(|_| texts.iter().for_each(|text| sketch.update(text.as_str())))
    });
    let coupons: Vec<Coupon> = (0..10_000u64).map(Coupon::from_value).collect();
    time("update_with_coupon, registers", 10_000, || {
        coupons.iter().for_each(|&coupon| sketch.update_with_coupon(coupon))
    });
    time("Coupon::from_value, u64", 10_000, || (0..10_000u64).for_each(|value| keep(Coupon::from_value(value))));
}

// ---- unions

fn time_unions(n: u64, hll_type: HllType, name: &str) {
    let sketches: Vec<HllSketch> = (0..IMAGES as u64).map(|i| filled(hll_type, i * 97..i * 97 + n)).collect();
    let images: Vec<Vec<u8>> = sketches.iter().map(HllSketch::serialize).collect();
    time(&format!("union of 1,000 images of {name}, read and merged"), IMAGES, || {
        let mut union = HllUnion::new(LG_K).unwrap();
        images.iter().for_each(|image| union.update(&HllSketch::deserialize(image).unwrap()));
        union
    });
    time(&format!("union of 1,000 sketches of {name}"), IMAGES, || {
        let mut union = HllUnion::new(LG_K).unwrap();
        sketches.iter().for_each(|sketch| union.update(sketch));
        union
    });
    let (sketch, image) = (&sketches[0], &images[0]);
    time(&format!("serialize, {name}"), 1000, || (0..1000).for_each(|_| keep(sketch.serialize())));
    time(&format!("deserialize, {name}"), 1000, || {
        (0..1000).for_each(|_| keep(HllSketch::deserialize(image).unwrap()))
    });
    time(&format!("clone, {name}"), 1000, || (0..1000).for_each(|_| keep(sketch.clone())));
    time(&format!("estimate, {name}"), 1000, || (0..1000).for_each(|_| keep(sketch.estimate())));
}

fn time_estimates() {
    for n in [20, 1000u64] {
        time(&format!("update and estimate after each, of {n} values"), n as usize, || {
            let mut sketch = new(HllType::Hll8);
            (0..n).map(|value| (sketch.update(value), sketch.estimate()).1).sum::<f64>()
        });
    }
}

fn main() {
    time_new_sketches();
    time_held_values();
    time_registers();
    time_unions(5, HllType::Hll8, "lists of 5 values");
    time_unions(20, HllType::Hll8, "sets of 20 values");
    time_unions(300, HllType::Hll8, "sets of 300 values");
    for (hll_type, bits) in TYPES {
        time_unions(20_000, hll_type, &format!("registers of {bits} bits"));
    }
    time_estimates();
}
