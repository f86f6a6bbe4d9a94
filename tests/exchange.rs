// SPDX-License-Identifier: Apache-2.0
//! Makes, reads and merges images with the Rust crate `datasketches`, for tests/exchange.py. Each line of standard input is a
//! request. The result is printed in hexadecimal, or `error` and its text.
//!
//!     integers LG_K WIDTH COUNT       the image of a sketch of COUNT 64-bit integers from 0 on
//!     bytes LG_K WIDTH VALUE ..       the image of a sketch of byte strings
//!     read IMAGE                      the image that is written again for the sketch of an image
//!     union LG_MAX_K WIDTH IMAGE ..   the image of the union of images
use datasketches::hll::{HllSketch, HllType, HllUnion};
use std::error::Error;
use std::fmt::Write;
use std::hash::{Hash, Hasher};
use std::io;

/// A value that is hashed by its bytes alone.
struct Bytes(Vec<u8>);

impl Hash for Bytes {
    fn hash<H: Hasher>(&self, state: &mut H) {
        state.write(&self.0);
    }
}

fn hll_type(width: &str) -> HllType {
    match width {
        "4" => HllType::Hll4,
        "6" => HllType::Hll6,
        _ => HllType::Hll8,
    }
}

fn bytes_of(hex: &str) -> Result<Vec<u8>, Box<dyn Error>> {
    let bytes: Result<_, _> = (0..hex.len()).step_by(2).map(|at| u8::from_str_radix(&hex[at..at + 2], 16)).collect();
    Ok(bytes?)
}

fn sketch_of_integers(lg_k: &str, width: &str, count: &str) -> Result<HllSketch, Box<dyn Error>> {
    let mut sketch = HllSketch::new(lg_k.parse()?, hll_type(width))?;
    for value in 0..count.parse::<u64>()? {
        sketch.update(value);
    }
    Ok(sketch)
}

fn sketch_of_bytes(lg_k: &str, width: &str, values: &[&str]) -> Result<HllSketch, Box<dyn Error>> {
    let mut sketch = HllSketch::new(lg_k.parse()?, hll_type(width))?;
    for value in values {
        sketch.update(Bytes(bytes_of(value)?));
    }
    Ok(sketch)
}

fn sketch_of(image: &str) -> Result<HllSketch, Box<dyn Error>> {
    Ok(HllSketch::deserialize(&bytes_of(image)?)?)
}

fn union_of(lg_max_k: &str, width: &str, images: &[&str]) -> Result<HllSketch, Box<dyn Error>> {
    let mut union = HllUnion::new(lg_max_k.parse()?)?;
    for image in images {
        union.update(&sketch_of(image)?);
    }
    Ok(union.to_sketch(hll_type(width)))
}

fn result_of(request: &str) -> Result<HllSketch, Box<dyn Error>> {
    let words: Vec<&str> = request.split_whitespace().collect();
    match words[..] {
        ["integers", lg_k, width, count] => sketch_of_integers(lg_k, width, count),
        ["bytes", lg_k, width, ref values @ ..] => sketch_of_bytes(lg_k, width, values),
        ["read", image] => sketch_of(image),
        ["union", lg_max_k, width, ref images @ ..] => union_of(lg_max_k, width, images),
        _ => Err("not a request".into()),
    }
}

fn main() {
    for request in io::stdin().lines().map_while(Result::ok) {
        let mut line = String::new();
        match result_of(&request) {
            Ok(sketch) => sketch.serialize().iter().for_each(|byte| write!(line, "{byte:02x}").unwrap()),
            Err(error) => write!(line, "error {error}").unwrap(),
        }
        println!("{line}");
    }
}
