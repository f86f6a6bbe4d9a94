// SPDX-License-Identifier: Apache-2.0
//! The traits of the standard library, as a program uses them.
use std::collections::HashSet;
use std::io;

use hll_sketches::common::NumStdDev;
use hll_sketches::error::{Error, ErrorKind};
use hll_sketches::hll::{HllSketch, HllType, HllUnion};

/// The sketch of values that are added one by one.
fn one_by_one<T: std::hash::Hash>(values: impl IntoIterator<Item = T>) -> HllSketch {
    let mut sketch = HllSketch::new(12, HllType::Hll8).unwrap();
    for value in values {
        sketch.update(value);
    }
    sketch
}

#[test]
fn life_zero() {
    let mut sketch = HllSketch::default();
    assert_eq!(sketch, HllSketch::new(12, HllType::Hll8).unwrap());
    sketch.update("ann");
    let taken = std::mem::take(&mut sketch);
    assert!(sketch.is_empty() && taken == one_by_one(["ann"]));
}

#[test]
fn values_are_collected() {
    for n in [0, 5, 300, 20_000u64] {
        let mut sketch: HllSketch = (0..n).collect();
        assert_eq!(sketch, one_by_one(0..n));
        sketch.extend(n..2 * n);
        sketch.update_many((0..n).rev());
        assert_eq!(sketch, one_by_one(0..2 * n));
    }
    let names = vec!["ann".to_string(), "bob".to_string(), "ann".to_string()];
    let mut sketch = names.iter().collect::<HllSketch>();
    assert_eq!(sketch, one_by_one(["ann", "bob"]));
    sketch.update_many(&names);
    sketch.extend(names);
    assert_eq!(sketch, one_by_one(["ann", "bob"]));
}

#[test]
fn sketches_are_merged() -> hll_sketches::Result<()> {
    let shards: Vec<HllSketch> = (0..4u64).map(|i| (1000 * i..1000 * i + 2000).collect()).collect();
    let whole = one_by_one(0..5000u64);
    let mut all = HllUnion::new(12)?;
    all.extend(&shards);
    assert_eq!(all.to_sketch(HllType::Hll8), whole);
    all.reset();
    shards.iter().for_each(|shard| all |= shard);
    assert_eq!(all.to_sketch(HllType::Hll8), whole);
    all.reset();
    all.extend(shards);
    assert_eq!(all.to_sketch(HllType::Hll8), whole);
    Ok(())
}

#[test]
fn a_sketch_is_reset() {
    for n in [0, 5, 300, 20_000] {
        let mut union = HllUnion::new(12).unwrap();
        let mut coarse = HllSketch::new(10, HllType::Hll4).unwrap();
        coarse.update_many(0..n);
        union.update(&coarse);
        for mut sketch in [union.to_sketch(HllType::Hll4), coarse] {
            let lg_k = sketch.lg_config_k();
            sketch.reset();
            assert_eq!(sketch, HllSketch::new(lg_k, HllType::Hll4).unwrap());
            assert_eq!(sketch.estimated_size(), std::mem::size_of::<HllSketch>());
        }
    }
}

#[test]
fn images_are_converted() -> hll_sketches::Result<()> {
    let sketch: HllSketch = (0..300u64).collect();
    let mut image = sketch.serialize();
    assert_eq!(HllSketch::try_from(&image[..])?, sketch);
    image.push(0);
    assert_eq!(HllSketch::try_from(&image[..]).unwrap_err().reason(), "trailing");
    Ok(())
}

/// A writer that has room for so many bytes.
struct Full(usize);

impl io::Write for Full {
    fn write(&mut self, bytes: &[u8]) -> io::Result<usize> {
        let some = bytes.len().min(self.0);
        self.0 -= some;
        Ok(some)
    }

    fn flush(&mut self) -> io::Result<()> {
        Ok(())
    }
}

#[test]
fn images_are_written() -> io::Result<()> {
    let sketch: HllSketch = (0..300u64).collect();
    let mut out = b"before ".to_vec();
    sketch.write_to(&mut out)?;
    assert_eq!(out[7..], sketch.serialize());
    assert_eq!(sketch.write_to(Full(20)).unwrap_err().kind(), io::ErrorKind::WriteZero);
    Ok(())
}

#[test]
fn errors_of_files() {
    let read = |image: &[u8]| -> io::Result<HllSketch> { Ok(HllSketch::try_from(image)?) };
    let error = read(b"ann").unwrap_err();
    assert_eq!(error.kind(), io::ErrorKind::InvalidData);
    assert_eq!(error.get_ref().unwrap().downcast_ref::<Error>().unwrap().reason(), "truncated");
    let error = io::Error::from(HllSketch::new(3, HllType::Hll8).unwrap_err());
    assert_eq!(
        (error.kind(), error.to_string().as_str()),
        (io::ErrorKind::InvalidInput, "lg_config_k is 3; it must be 4 to 21")
    );
}

#[test]
fn sketches_are_printed() {
    let sketch = one_by_one(["ann", "bob"]);
    let wanted = "sketch of lg_k 12, 8 bits a register: about 2 distinct values, with 95% certainty 2 to 3";
    assert_eq!(format!("{sketch}"), wanted);
}

#[test]
fn names_of_types() {
    for (hll_type, name, bits) in
        [(HllType::Hll4, "HLL_4", 4u8), (HllType::Hll6, "HLL_6", 6), (HllType::Hll8, "HLL_8", 8)]
    {
        assert_eq!((hll_type.to_string().as_str(), name.parse()), (name, Ok(hll_type)));
        assert_eq!(HllType::try_from(bits), Ok(hll_type));
    }
    assert_eq!(format!("{:>6}", HllType::Hll4), " HLL_4");
    let said = |error: Error| (error.kind(), error.reason(), error.to_string());
    let wanted = "the number of bits is 5; it must be 4, 6 or 8";
    assert_eq!(said(HllType::try_from(5).unwrap_err()), (ErrorKind::InvalidArgument, "argument", wanted.into()));
    let wanted = "the type of registers is \"HLL_5\"; it must be HLL_4, HLL_6 or HLL_8";
    assert_eq!(said("HLL_5".parse::<HllType>().unwrap_err()), (ErrorKind::InvalidArgument, "argument", wanted.into()));
}

#[test]
fn numbers_of_deviations() {
    for (deviations, number) in [(NumStdDev::One, 1u8), (NumStdDev::Two, 2), (NumStdDev::Three, 3)] {
        assert_eq!(NumStdDev::try_from(number), Ok(deviations));
        assert_eq!((deviations.to_string(), number.to_string().parse()), (number.to_string(), Ok(deviations)));
    }
    let wanted = "the number of standard deviations is 4; it must be 1, 2 or 3";
    assert_eq!(NumStdDev::try_from(4).unwrap_err().to_string(), wanted);
    let wanted = "the number of standard deviations is \"+1\"; it must be 1, 2 or 3";
    assert_eq!("+1".parse::<NumStdDev>().unwrap_err().to_string(), wanted);
}

#[test]
fn keys_of_tables() {
    assert_eq!(HashSet::from([HllType::Hll4, HllType::Hll8, HllType::Hll4]).len(), 2);
    assert_eq!(HashSet::from([NumStdDev::One, NumStdDev::One]).len(), 1);
    assert_eq!(HashSet::from([ErrorKind::InvalidData, ErrorKind::InvalidArgument]).len(), 2);
    assert_eq!(ErrorKind::InvalidData.to_string(), "InvalidData");
}
