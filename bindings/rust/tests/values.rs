// SPDX-License-Identifier: Apache-2.0
//! What values, arguments, images and errors mean.
use hll_sketches::common::NumStdDev;
use hll_sketches::error::{Error, ErrorKind};
use hll_sketches::hash::value::{canonical_float, natural_extend, raw_bytes, sign_extend};
use hll_sketches::hll::{check, hip_estimate, merge_images, union_of, Coupon, HllSketch, HllType, HllUnion, Limits};

fn hex(bytes: &[u8]) -> String {
    bytes.iter().map(|byte| format!("{byte:02x}")).collect()
}

fn of_coupons(lg_k: u8, hll_type: HllType, coupons: impl IntoIterator<Item = (u32, u8)>) -> HllSketch {
    let mut sketch = HllSketch::new(lg_k, hll_type).unwrap();
    coupons.into_iter().for_each(|(slot, value)| sketch.update_with_coupon(Coupon::pack(slot, value)));
    sketch
}

fn filled(lg_k: u8, hll_type: HllType, n: u64) -> HllSketch {
    let mut sketch = HllSketch::new(lg_k, hll_type).unwrap();
    (0..n).for_each(|value| sketch.update(value));
    sketch
}

// ---- values

#[test]
fn a_str_is_hashed_with_a_byte_ff() {
    assert_eq!(Coupon::from_bytes(b"ann\xff"), Coupon::from_value("ann"));
    assert_eq!(Coupon::from_value(raw_bytes::from_str("ann")), Coupon::from_bytes("ann"));
    assert_eq!(Coupon::from_value(raw_bytes::from_slice(b"ann")), Coupon::from_bytes("ann"));
    let mut sketch = HllSketch::new(12, HllType::Hll8).unwrap();
    sketch.update("ann");
    sketch.update(String::from("ann"));
    sketch.update_bytes("ann");
    assert_eq!(sketch.estimate().round(), 2.0);
    let mut union = HllUnion::new(12).unwrap();
    union.update_value("ann");
    union.update_bytes("ann");
    union.try_update_value("ann").unwrap();
    union.try_update_bytes("ann").unwrap();
    assert_eq!(union.to_sketch(HllType::Hll8), sketch);
}

#[test]
fn long_values_are_hashed_whole() {
    for len in [0, 1, 38, 39, 40, 41, 79, 80, 131, 132, 255, 256, 263, 264, 265, 1000] {
        let text = "a".repeat(len);
        let bytes = [text.as_bytes(), &[0xff]].concat();
        assert_eq!(Coupon::from_value(&text), Coupon::from_bytes(&bytes), "{len}");
        let parts = (text.as_str(), 7u8, text.as_str());
        assert_eq!(Coupon::from_value(parts), Coupon::from_bytes([&bytes[..], &[7], &bytes[..]].concat()), "{len}");
    }
}

#[test]
fn each_nan_is_one_value() {
    let of = |value: f64| Coupon::from_value(canonical_float::from_f64(value));
    for odd in [-f64::NAN, f64::from_bits(0x7ff0_0000_0000_0001), f64::from_bits(u64::MAX)] {
        assert_eq!(of(odd), of(f64::NAN));
    }
    assert_eq!(Coupon::from_value(canonical_float::from_f32(-f32::NAN)), of(f64::NAN));
}

#[test]
fn integers_of_fewer_bits_are_extended() {
    let of = |value: i64| Coupon::from_bytes(value.to_le_bytes());
    for value in [0, 1, -1, 100, -128, 127] {
        let wide = i64::from(value);
        for coupon in [
            Coupon::from_value(natural_extend::from_i8(value)),
            Coupon::from_value(natural_extend::from_i16(value.into())),
            Coupon::from_value(natural_extend::from_i32(value.into())),
            Coupon::from_value(sign_extend::from_i8(value)),
            Coupon::from_value(sign_extend::from_i16(value.into())),
            Coupon::from_value(sign_extend::from_i32(value.into())),
        ] {
            assert_eq!(coupon, of(wide));
        }
    }
    assert_eq!(Coupon::from_value(natural_extend::from_u8(255)), of(255));
    assert_eq!(Coupon::from_value(natural_extend::from_u16(65535)), of(65535));
    assert_eq!(Coupon::from_value(natural_extend::from_u32(u32::MAX)), of(4_294_967_295));
    assert_eq!(Coupon::from_value(sign_extend::from_u8(255)), of(-1));
    assert_eq!(Coupon::from_value(sign_extend::from_u16(65535)), of(-1));
    assert_eq!(Coupon::from_value(sign_extend::from_u32(u32::MAX)), of(-1));
    assert_eq!(Coupon::from_value(sign_extend::from_u32(7)), of(7));
}

#[test]
fn coupons() {
    let coupon = Coupon::pack(12345, 42);
    assert_eq!((coupon.slot(), coupon.value(), coupon.raw()), (12345, 42, 42 << 26 | 12345));
    assert_eq!(Coupon::from_raw(coupon.raw()).unwrap(), coupon);
    assert_eq!(Coupon::pack(u32::MAX, 0).raw(), 1 << 26 | ((1 << 26) - 1));
    assert_eq!(Coupon::pack(0, 255).value(), 63);
    let error = Coupon::from_raw(12345).unwrap_err();
    assert_eq!((error.kind(), error.reason()), (ErrorKind::InvalidArgument, "argument"));
}

// ---- images

#[test]
fn images() {
    assert_eq!(hex(&of_coupons(10, HllType::Hll8, []).serialize()), "0201070a030c0008");
    assert_eq!(hex(&of_coupons(10, HllType::Hll6, [(5, 3), (5, 3)]).serialize()), "0201070a030801040500000c");
    let set = of_coupons(12, HllType::Hll8, (0..8).map(|i| (16 + i, i as u8 + 1)));
    let coupons = "10000004110000081200000c130000101400001415000018160000".to_string() + "1c17000020";
    assert_eq!(hex(&set.serialize()), "0301070c0508000908000000".to_string() + &coupons);
    let registers = of_coupons(4, HllType::Hll8, (0..8).map(|i| (i, i as u8 + 1))).serialize();
    assert_eq!(hex(&registers[32..]), "080000000000000001020304050607080000000000000000");
}

#[test]
fn stages() {
    for (count, mode) in [(0, "List"), (7, "List"), (8, "Set"), (24, "Set"), (25, "Hll")] {
        let sketch = of_coupons(8, HllType::Hll4, (0..count).map(|i| (i, 1)));
        let text = format!("{sketch:?}");
        let start = format!("HllSketch {{ lg_config_k: 8, target_type: Hll4, mode: {mode:?}, is_empty: {}", count == 0);
        assert!(text.starts_with(&start), "{text}");
    }
    let text = format!("{:?}", HllUnion::new(9).unwrap());
    assert!(text.starts_with("HllUnion { lg_max_k: 9, gadget: HllSketch { lg_config_k: 9"), "{text}");
}

#[test]
fn equality_is_that_of_images() {
    let ascending = of_coupons(12, HllType::Hll8, (0..30).map(|i| (i, 1)));
    let descending = of_coupons(12, HllType::Hll8, (0..30).rev().map(|i| (i, 1)));
    assert_eq!(ascending, descending); // what waits is another half
    assert_eq!(ascending, HllSketch::deserialize(&descending.serialize()).unwrap());
    let twice = of_coupons(12, HllType::Hll8, (0..60).map(|i| (i / 2, 1)));
    assert_eq!(ascending, twice);
    assert_ne!(ascending, of_coupons(12, HllType::Hll8, (0..31).map(|i| (i, 1))));
    assert_ne!(ascending, of_coupons(12, HllType::Hll6, (0..30).map(|i| (i, 1))));
    assert_ne!(ascending, of_coupons(11, HllType::Hll8, (0..30).map(|i| (i, 1))));
    assert_eq!(filled(9, HllType::Hll4, 5000), filled(9, HllType::Hll4, 5000));
    assert_ne!(filled(9, HllType::Hll4, 5000), filled(9, HllType::Hll4, 9000));
}

#[test]
fn life_copied() {
    for n in [0, 5, 16, 17, 300, 20_000] {
        let mut one = filled(12, HllType::Hll8, n);
        let before = one.serialize();
        let (mut copy, tried) = (one.clone(), one.try_clone().unwrap());
        (0..500u64).for_each(|value| copy.update(!value));
        assert_eq!((one.serialize(), tried.serialize()), (before.clone(), before.clone()), "{n}");
        let changed = copy.serialize();
        assert_ne!(changed, before);
        one.update("more");
        assert_eq!((copy.serialize(), tried.serialize()), (changed, before), "{n}");
    }
}

#[test]
fn no_value_is_lost_as_memory_grows() {
    for lg_k in [4, 8, 12, 14] {
        let mut sketch = HllSketch::new(lg_k, HllType::Hll8).unwrap();
        for n in 1..3000u64 {
            sketch.update(n);
            assert!(!sketch.is_empty());
            if n % 97 < 2 || n < 80 {
                let wanted = (1..=n).fold(HllUnion::new(lg_k).unwrap(), |mut union, value| {
                    union.update_value(value);
                    union
                });
                assert_eq!(sketch, wanted.to_sketch(HllType::Hll8));
                let error = (sketch.estimate() - n as f64).abs() / n as f64;
                assert!(error < 4.5 * 1.04 / f64::from(1 << lg_k).sqrt() + 1e-6, "{n} at {lg_k}: {error}");
            }
        }
    }
}

#[test]
fn memory() {
    assert!(std::mem::size_of::<HllSketch>() <= 128);
    let heap = |n| filled(12, HllType::Hll8, n).estimated_size() - std::mem::size_of::<HllSketch>();
    assert_eq!(heap(0), 0);
    assert_eq!(heap(14), 0);
    assert!(heap(17) <= 160 && heap(200) <= 40 + 4 * 300);
    assert_eq!(heap(100_000), 4136);
    let registers = filled(12, HllType::Hll8, 100_000);
    assert_eq!(registers.clone().estimated_size(), registers.clone().clone().estimated_size());
    assert!(registers.clone().estimated_size() <= registers.estimated_size());
    let small = filled(12, HllType::Hll8, 5).serialize();
    for image in [merge_images(21, HllType::Hll8, &[&small]).unwrap(), small] {
        assert!(image.capacity() <= 128, "{}", image.capacity());
    }
}

#[test]
fn the_estimate_of_another_writer() {
    let mut image = filled(10, HllType::Hll8, 5000).serialize();
    assert_eq!(hip_estimate(&image).unwrap(), None);
    image[5] &= !16; // added in order
    image[8..16].copy_from_slice(&4321.5f64.to_le_bytes());
    let found = hip_estimate(&image).unwrap().unwrap();
    assert_eq!(found.estimate, 4321.5);
    assert!(found.lower[0] < 4321.5 && 4321.5 < found.upper[0]);
    let mut read = HllSketch::deserialize(&image).unwrap();
    assert_eq!(read.estimate(), filled(10, HllType::Hll8, 5000).estimate()); // from the registers
    read.update(7u64); // changes no register
    assert_eq!(read.serialize(), image);
    read.update_with_coupon(Coupon::pack(0, 63));
    assert_eq!(hip_estimate(&read.serialize()).unwrap(), None);
    assert_eq!(hip_estimate(&image[..9]).unwrap_err().reason(), "truncated");
    assert_eq!(hip_estimate(&filled(10, HllType::Hll8, 5).serialize()).unwrap(), None);
}

// ---- estimates

#[test]
fn estimates() {
    for n in [5u64, 300, 100_000] {
        let (sketch, n) = (filled(12, HllType::Hll4, n), n as f64);
        assert!((sketch.estimate() - n).abs() <= n * 0.05);
        assert_eq!(sketch.composite_estimate(), sketch.estimate());
        let found = sketch.estimation();
        let deviations = [NumStdDev::One, NumStdDev::Two, NumStdDev::Three];
        for (at, deviation) in deviations.iter().enumerate() {
            assert_eq!(sketch.upper_bound(*deviation), found.upper[at]);
            assert_eq!(sketch.lower_bound(*deviation), found.lower[at]);
        }
        assert!(
            found.lower[2] <= found.lower[1] && found.lower[1] <= found.lower[0] && found.lower[0] <= found.estimate
        );
        assert!(
            found.estimate <= found.upper[0] && found.upper[0] <= found.upper[1] && found.upper[1] <= found.upper[2]
        );
        let mut union = HllUnion::new(12).unwrap();
        union.update(&sketch);
        assert_eq!((union.estimate(), union.composite_estimate()), (found.estimate, found.estimate));
        assert_eq!(union.upper_bound(NumStdDev::Two), found.upper[1]);
        assert_eq!(union.lower_bound(NumStdDev::One), found.lower[0]);
        assert_eq!(union.estimation(), found);
    }
}

// ---- errors

/// What the cases of tests/behaviour don't have: the kinds of errors, and all words of one.
#[test]
fn errors() {
    let kinds = |errors: [Error; 4]| errors.map(|error| (error.kind(), error.reason(), error.index()));
    let (good, other) = (filled(12, HllType::Hll8, 5).serialize(), filled(10, HllType::Hll8, 5).serialize());
    let more = [&good[..], &[0]].concat();
    let found = kinds([
        HllSketch::new(22, HllType::Hll8).unwrap_err(),
        union_of([&good, &other]).unwrap_err(),
        merge_images(12, HllType::Hll8, &[&good[..], &good[..9]]).unwrap_err(),
        HllSketch::deserialize_exact(&more).unwrap_err(),
    ]);
    let (data, argument) = (ErrorKind::InvalidData, ErrorKind::InvalidArgument);
    assert_eq!(
        found,
        [
            (argument, "argument", None),
            (argument, "other_lg_k", Some(1)),
            (data, "truncated", Some(1)),
            (data, "trailing", None)
        ]
    );
    let wanted =
        "these 0 bytes are not the image of a sketch: the bytes end inside what the header asks for (truncated)";
    assert_eq!(check(&[]).unwrap_err().to_string(), wanted);
    let wanted = "these 29 bytes are more than the image of a sketch, which takes 28 of them (trailing)";
    assert_eq!(HllSketch::deserialize_exact(&more).unwrap_err().to_string(), wanted);
}

#[test]
fn limits() {
    let (usual, fine) = (filled(12, HllType::Hll8, 9000).serialize(), filled(13, HllType::Hll4, 5).serialize());
    assert_eq!(Limits::default(), Limits { lg_k: 12, len: 8192 });
    assert_eq!(Limits::default().check(&usual), Ok(()));
    assert_eq!(Limits::default().check(&[]), Ok(()));
    let error = Limits::default().check(&fine).unwrap_err();
    assert_eq!((error.kind(), error.reason()), (ErrorKind::InvalidData, "limits"));
    assert!(error.to_string().starts_with("the image has 28 bytes and lg_k 13; the limits are 8192 bytes and lg_k 12"));
    assert_eq!(Limits { lg_k: 13, len: 28 }.check(&fine), Ok(()));
    assert!(Limits { lg_k: 13, len: 27 }.check(&fine).is_err());
    assert!(Limits { lg_k: 12, len: 4135 }.check(&usual).is_err());
}

#[test]
fn unions_of_images() {
    let none: [&[u8]; 0] = [];
    assert_eq!(union_of(none).unwrap(), HllSketch::new(12, HllType::Hll8).unwrap());
    let (one, other) = (filled(10, HllType::Hll4, 800), filled(10, HllType::Hll4, 900));
    assert_eq!(union_of([one.serialize(), other.serialize()].iter()).unwrap(), other);
    let wide = filled(10, HllType::Hll8, 900).serialize();
    assert_eq!(union_of([one.serialize(), wide]).unwrap().target_type(), HllType::Hll8);
    let error = union_of([one.serialize(), filled(12, HllType::Hll8, 3).serialize()]).unwrap_err();
    let wanted = "images[1]: its lg_k is 12, and that of the images before it 10: to merge both at the smaller lg_k, give a bound, \
                  as in HllUnion::new(10)";
    assert_eq!(error.to_string(), wanted);
    let empty = HllSketch::new(12, HllType::Hll8).unwrap().serialize();
    assert_eq!(union_of([&empty, &one.serialize(), &empty]).unwrap(), one);
}

/// `check` runs the tests with `HLL_CPU=x86-64-v2`, too.
#[test]
fn the_code_that_runs_is_chosen() {
    let name = hll_sketches::processor();
    let is_asked = std::env::var("HLL_CPU").as_deref() == Ok("x86-64-v2");
    if cfg!(all(target_os = "linux", target_arch = "x86_64")) && is_asked {
        assert_eq!(name, "x86-64-v2");
    }
    assert!(["x86-64-v2", "x86-64-v3", "aarch64", "riscv64"].contains(&name), "{name}");
}
