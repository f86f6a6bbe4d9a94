// SPDX-License-Identifier: Apache-2.0
//! Sketches are shared and sent between threads.
use std::thread;

use hll_sketches::common::Estimation;
use hll_sketches::error::Error;
use hll_sketches::hll::{Coupon, HllSketch, HllType, HllUnion, Limits};

/// The compiler refuses a call where a type is not `Send` and `Sync`.
const fn shared<T: Send + Sync + Clone>() -> usize {
    std::mem::size_of::<T>()
}

const SIZES: [usize; 7] = [
    shared::<HllSketch>(),
    shared::<HllUnion>(),
    shared::<HllType>(),
    shared::<Coupon>(),
    shared::<Limits>(),
    shared::<Estimation>(),
    shared::<Error>(),
];

#[test]
fn sizes_of_shared_types() {
    assert!(SIZES.iter().all(|&size| 0 < size && size <= 128), "{SIZES:?}");
}

fn filled(values: std::ops::Range<u64>) -> HllSketch {
    let mut sketch = HllSketch::new(12, HllType::Hll4).unwrap();
    values.rev().for_each(|value| sketch.update(value));
    sketch
}

/// Threads read one sketch and one union at once, with sorted coupons and with others. Each reads what one thread alone read.
#[test]
fn one_sketch_is_read_by_many() {
    for n in [0, 3, 16, 17, 30, 300, 390, 500, 30_000] {
        let (sketch, other) = (filled(0..n), filled(n / 2..2 * n));
        let (image, found, both) = (sketch.serialize(), sketch.estimation(), filled(0..2 * n));
        let mut all = HllUnion::new(12).unwrap();
        all.update(&sketch);
        all.update(&other);
        let estimate = all.clone().estimate();
        thread::scope(|scope| {
            for _ in 0..8 {
                scope.spawn(|| {
                    for _ in 0..100 {
                        assert_eq!(sketch.serialize(), image);
                        assert_eq!(sketch.estimation(), found);
                        assert_eq!((sketch.clone(), sketch.is_empty()), (sketch.clone(), n == 0));
                        let mut union = HllUnion::new(12).unwrap();
                        union.update(&sketch);
                        union.update(&other);
                        assert_eq!(union.to_sketch(HllType::Hll4), both);
                        assert_eq!((all.to_sketch(HllType::Hll4), all.estimate()), (both.clone(), estimate));
                    }
                });
            }
        });
    }
}

/// Threads fill sketches, which are merged where they are joined.
#[test]
fn parts_of_many_threads() {
    let parts: Vec<_> = (0..8u64).map(|i| thread::spawn(move || filled(i * 5000..(i + 2) * 5000))).collect();
    let mut union = HllUnion::new(12).unwrap();
    parts.into_iter().for_each(|part| union.update(&part.join().unwrap()));
    assert_eq!(union.to_sketch(HllType::Hll4), filled(0..45_000));
}
