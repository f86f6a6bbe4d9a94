// SPDX-License-Identifier: Apache-2.0
//! Random walks next to plain calls of hll.h, byte for byte. ROUNDS in the environment is the number of walks.
mod plain;

use hll_sketches::common::NumStdDev;
use hll_sketches::hll::{check, merge_images, union_of, Coupon, HllSketch, HllUnion};
use plain::{type_of, Random};

/// A sketch, and the image of the same values by plain calls.
#[derive(Clone)]
struct Pair {
    made: HllSketch,
    image: Vec<u8>,
}

impl Pair {
    fn new(lg_k: u8, width: u8) -> Self {
        Self { made: HllSketch::new(lg_k, type_of(width)).unwrap(), image: plain::new(lg_k, width) }
    }

    fn expect_same(&self) {
        assert_eq!(self.made.serialize(), self.image);
        assert_eq!(self.made.lg_config_k(), self.image[3]);
        let wanted = plain::estimation(&self.image);
        assert_eq!(self.made.estimation(), wanted);
        assert_eq!(self.made.upper_bound(NumStdDev::Two), wanted.upper[1]);
        assert_eq!(self.made.lower_bound(NumStdDev::Three), wanted.lower[2]);
        assert_eq!(self.made.is_empty(), wanted.estimate == 0.0);
        assert_eq!(self.made.try_serialize().unwrap(), self.image);
    }

    fn add_numbers(&mut self, random: &mut Random) {
        let most = [8, 40, 3000][random.below(3)];
        let (n, from) = (random.below(most), random.below(5000) as u64);
        let values: Vec<u64> = (0..n).map(|_| from + random.below(1 + 2 * n) as u64).collect();
        values.iter().for_each(|&value| self.made.update(value));
        let bytes: Vec<[u8; 8]> = values.iter().map(|value| value.to_le_bytes()).collect();
        self.image = plain::add(&self.image, &bytes);
    }

    fn add_texts(&mut self, random: &mut Random) {
        let values: Vec<String> =
            (0..random.below(60)).map(|_| "abcdef"[..random.below(7)].repeat(1 + random.below(9))).collect();
        values.iter().for_each(|value| self.made.update_bytes(value));
        self.image = plain::add(&self.image, &values);
        let hashed: Vec<String> = values.iter().map(|value| format!("{value}!")).collect();
        hashed.iter().for_each(|value| self.made.update(value)); // a str: with ff
        let bytes: Vec<Vec<u8>> = hashed.iter().map(|value| [value.as_bytes(), &[0xff]].concat()).collect();
        self.image = plain::add(&self.image, &bytes);
    }

    fn add_coupons(&mut self, random: &mut Random) {
        for _ in 0..random.below(20) {
            let (slot, value) = (random.below(1 << 26) as u32, 1 + random.below(63) as u8);
            self.made.update_with_coupon(Coupon::pack(slot, value));
            self.image = plain::add_coupon(&self.image, slot, value);
        }
    }

    fn read_again(&mut self, random: &mut Random) {
        let mut bytes = plain::convert(&self.image, random.width());
        self.image = bytes.clone();
        bytes.extend(vec![0xee; random.below(9)]); // bytes after the image are not read
        self.made = HllSketch::deserialize(&bytes).unwrap();
    }

    fn step(&mut self, random: &mut Random) {
        let steps = [Self::add_numbers, Self::add_texts, Self::add_coupons, Self::read_again];
        steps[random.below(4)](self, random);
    }

    /// A sketch after a few steps.
    fn some(lg_k: u8, random: &mut Random) -> Self {
        let mut made = Self::new(lg_k, random.width());
        (0..random.below(4)).for_each(|_| made.step(random));
        made
    }
}

#[test]
fn sketches() {
    let mut random = Random(1);
    for _ in 0..plain::rounds(60) {
        let mut pairs: Vec<Pair> = (0..4).map(|_| Pair::new(random.lg_k(), random.width())).collect();
        for _ in 0..24 {
            let (one, other) = (random.below(4), random.below(4));
            match random.below(6) {
                0 => pairs[one] = pairs[other].clone(),
                1 => pairs.swap(one, other),
                _ => pairs[one].step(&mut random),
            }
            pairs.iter().for_each(Pair::expect_same); // all of them: copies are independent
            assert_eq!(pairs[one].made == pairs[other].made, pairs[one].image == pairs[other].image);
        }
    }
}

/// The largest `lg_k`, in coupons and in registers.
#[test]
fn large_sketches() {
    for (lg_k, n) in [(15, 3000), (15, 4000), (16, 20_000), (20, 50_000), (21, 196_000), (21, 198_000u64)] {
        let mut pair = Pair::new(lg_k, 4);
        let values: Vec<[u8; 8]> = (0..n).map(u64::to_le_bytes).collect();
        values.iter().for_each(|value| pair.made.update_bytes(value));
        pair.image = plain::add(&pair.image, &values);
        pair.expect_same();
        pair.clone().expect_same();
        pair.made = HllSketch::deserialize(&pair.image).unwrap();
        pair.expect_same();
    }
}

// ---- unions

fn merge_in_some_way(union: &mut HllUnion, part: &Pair, random: &mut Random) {
    match random.below(3) {
        0 => union.update(&part.made),
        1 => union.update_image(&part.image).unwrap(),
        _ => union.try_update(&part.made.try_clone().unwrap()).unwrap(),
    }
}

fn expect_union(union: &HllUnion, lg_max_k: u8, images: &[Vec<u8>], random: &mut Random) {
    let width = random.width();
    let wanted = plain::union(lg_max_k, width, images);
    let made = union.to_sketch(type_of(width));
    assert_eq!(made.serialize(), wanted);
    assert_eq!((made.lg_config_k(), union.lg_config_k()), (wanted[3], wanted[3]));
    assert_eq!(union.estimation(), plain::estimation(&wanted));
    assert_eq!(merge_images(lg_max_k, type_of(width), images).unwrap(), wanted);
}

#[test]
fn unions() {
    let mut random = Random(2);
    for _ in 0..plain::rounds(120) {
        let lg_max_k = random.lg_k();
        let mut union = HllUnion::new(lg_max_k).unwrap();
        let mut images: Vec<Vec<u8>> = Vec::new();
        for _ in 0..12 {
            let part = Pair::some(random.lg_k(), &mut random);
            merge_in_some_way(&mut union, &part, &mut random);
            images.push(part.image);
            if random.below(3) == 0 {
                let value = random.next();
                union.update_value(value);
                images.push(plain::add(&plain::new(lg_max_k, 8), &[value.to_le_bytes()]));
            }
            expect_union(&union, lg_max_k, &images, &mut random);
        }
        let copy = union.clone();
        union.reset();
        assert!(union.is_empty() && union.lg_config_k() == lg_max_k && union.lg_max_k() == lg_max_k);
        expect_union(&copy, lg_max_k, &images, &mut random);
    }
}

/// A sketch that would have registers with what waits lowers a finer union, as its image does.
#[test]
fn few_values_of_a_coarse_sketch() {
    let mut random = Random(3);
    for n in 0..40 {
        for lg_k in [4, 7, 8, 9] {
            let mut coarse = HllSketch::new(lg_k, type_of(8)).unwrap();
            (0..n).for_each(|_| coarse.update(random.next()));
            let mut union = HllUnion::new(12).unwrap();
            union.update_value(1u64);
            union.update(&coarse);
            let one = plain::add(&plain::new(12, 8), &[1u64.to_le_bytes()]);
            assert_eq!(union.to_sketch(type_of(8)).serialize(), plain::union(12, 8, &[one, coarse.serialize()]));
        }
    }
}

#[test]
fn unions_of_one_lg_k() {
    let mut random = Random(4);
    for _ in 0..plain::rounds(120) {
        let lg_k = random.lg_k();
        let images: Vec<Vec<u8>> = (0..1 + random.below(9)).map(|_| Pair::some(lg_k, &mut random).image).collect();
        let made = union_of(&images).unwrap();
        let width = made.serialize()[7] >> 2 & 3;
        assert_eq!(made.serialize(), plain::union(lg_k, 4 + 2 * width, &images));
        expect_other_lg_k(images, lg_k, &mut random);
    }
}

/// Images without values count for nothing, but among themselves.
#[test]
fn unions_of_empty_images() {
    let empty = [plain::new(9, 4), plain::new(11, 4), plain::new(10, 4)];
    let made = union_of(&empty).unwrap();
    assert_eq!(made.serialize(), plain::new(11, 4));
    let full = plain::add(&plain::new(5, 6), &["a value"]);
    for at in 0..=empty.len() {
        let mut images = empty.to_vec();
        images.insert(at, full.clone());
        assert_eq!(union_of(&images).unwrap().serialize(), full);
    }
    assert_eq!(union_of::<[Vec<u8>; 0]>([]).unwrap().lg_config_k(), 12);
}

/// An image with values at another `lg_k` is an error, and it says which.
fn expect_other_lg_k(mut images: Vec<Vec<u8>>, lg_k: u8, random: &mut Random) {
    let other = 4 + (lg_k - 3) % 11;
    images.insert(0, plain::add(&plain::new(lg_k, 8), &["first"]));
    let at = 1 + random.below(images.len());
    images.insert(at, plain::add(&plain::new(other, 8), &["another"]));
    let error = union_of(&images).unwrap_err();
    assert_eq!((error.reason(), error.index()), ("other_lg_k", Some(at)));
    let wanted = format!("images[{at}]: its lg_k is {other}, and that of the images before it {lg_k}: ");
    assert!(error.to_string().starts_with(&wanted), "{error}");
}

// ---- bytes of attackers

fn honest_images() -> Vec<Vec<u8>> {
    let mut images = Vec::new();
    for lg_k in [4, 8, 12] {
        for width in [4, 6, 8] {
            let mut image = plain::new(lg_k, width);
            for (from, to) in [(0, 3), (3, 40), (40, 1000u64)] {
                image = plain::add(&image, &(from..to).map(u64::to_le_bytes).collect::<Vec<_>>());
                images.push(image.clone());
            }
        }
    }
    images
}

/// Bytes are read as plain calls read them, or rejected for the same reason; and then nothing has changed.
fn expect_as_plain(bytes: &[u8], union: &mut HllUnion) {
    let words = [
        "",
        "truncated",
        "family",
        "version",
        "lgk",
        "width",
        "stage",
        "preamble",
        "lgarr",
        "count",
        "coupon",
        "register",
    ];
    let status = plain::check(bytes);
    if status == 0 {
        let read = HllSketch::deserialize(bytes).unwrap();
        let width = 4 + 2 * (bytes[7] >> 2 & 3);
        assert_eq!(read.serialize(), plain::union(bytes[3], width, &[bytes]));
        assert!(!format!("{read:?}").is_empty() && check(bytes).is_ok());
        return;
    }
    let before = union.to_sketch(type_of(8)).serialize();
    let errors = [
        check(bytes).unwrap_err(),
        HllSketch::deserialize(bytes).unwrap_err(),
        union.update_image(bytes).unwrap_err(),
        union_of([&before[..], bytes]).unwrap_err(),
        merge_images(12, type_of(8), &[&before[..], bytes]).unwrap_err(),
    ];
    for (number, error) in errors.iter().enumerate() {
        assert_eq!(error.reason(), words[usize::from(status)]);
        assert_eq!(error.index(), if number < 3 { None } else { Some(1) });
        assert!(error.to_string().contains(&format!("these {} bytes are not the image of a sketch", bytes.len())));
    }
    assert_eq!(union.to_sketch(type_of(8)).serialize(), before);
}

#[test]
fn changed_images() {
    let mut random = Random(5);
    let mut union = HllUnion::new(12).unwrap();
    (0..20u64).for_each(|value| union.update_value(value));
    let images = honest_images();
    for image in &images {
        (0..=image.len().min(100)).for_each(|len| expect_as_plain(&image[..len], &mut union));
    }
    for _ in 0..100 * plain::rounds(100) {
        let mut bytes = images[random.below(images.len())].clone();
        for _ in 0..1 + random.below(3) {
            let at = if random.below(2) == 0 { random.below(8) } else { random.below(bytes.len()) };
            bytes[at] = random.next() as u8;
        }
        if random.below(4) == 0 {
            bytes.truncate(1 + random.below(bytes.len()));
        }
        expect_as_plain(&bytes, &mut union);
    }
}
