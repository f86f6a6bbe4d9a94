// SPDX-License-Identifier: Apache-2.0
//! Sketches in the formats of serde: one of text, and one of bytes.
use std::collections::BTreeMap;

use hll_sketches::hll::{HllSketch, HllType};

fn filled(n: u64) -> HllSketch {
    let mut sketch = HllSketch::new(11, HllType::Hll6).unwrap();
    sketch.update_many(0..n);
    sketch
}

#[test]
fn life_json() {
    for n in [0, 5, 300, 20_000] {
        let days = BTreeMap::from([("monday", filled(n)), ("tuesday", filled(n / 2))]);
        let text = serde_json::to_string(&days).unwrap();
        assert_eq!(serde_json::from_str::<BTreeMap<&str, HllSketch>>(&text).unwrap(), days);
    }
    let mut sketch = HllSketch::default();
    sketch.update_bytes("ann");
    sketch.update_bytes("bob");
    let text = r#""AgEHDAMIAgj4EWAEvyBkHA==""#; // as in Go, JavaScript and Python
    assert_eq!(serde_json::to_string(&sketch).unwrap(), text);
    assert_eq!(serde_json::from_str::<HllSketch>(text).unwrap(), sketch);
}

#[test]
fn bytes() {
    for n in [0, 5, 300, 20_000] {
        let sketch = filled(n);
        let bytes = bincode::serialize(&sketch).unwrap();
        assert_eq!(bytes[8..], sketch.serialize()); // after the length
        assert_eq!(bincode::deserialize::<HllSketch>(&bytes).unwrap(), sketch);
    }
}

#[test]
fn what_is_no_sketch() {
    for (text, why) in [
        (r#""ann""#, "these 3 characters are not the image of a sketch in base64"),
        (r#""AgEKDAMIAgj4EWAEvyBkHA==""#, "(family)"),
        (r#""AgEHDAMIAgj4EWAEvyBk""#, "(truncated)"),
        (r#""AgEHDAMIAgj4EWAEvyBkHAA=""#, "(trailing)"),
        ("12", "expected the image of a sketch"),
    ] {
        let error = serde_json::from_str::<HllSketch>(text).unwrap_err().to_string();
        assert!(error.contains(why), "{error}");
    }
    let twice = [filled(5).serialize(), filled(5).serialize()].concat();
    let error = bincode::deserialize::<HllSketch>(&bincode::serialize(&twice).unwrap()).unwrap_err();
    assert!(error.to_string().contains("(trailing)"), "{error}");
}
