// SPDX-License-Identifier: Apache-2.0
//! The traits of the crate serde.

#![forbid(unsafe_code)]

use std::fmt;

use data_encoding::BASE64;
use serde::de::{Deserialize, Deserializer, Error, Visitor};
use serde::ser::{self, Serialize, Serializer};

use super::HllSketch;

/// Writes the image: its bytes, or in a format of text, such as JSON, a string of base64 with padding.
impl Serialize for HllSketch {
    fn serialize<S: Serializer>(&self, serializer: S) -> Result<S::Ok, S::Error> {
        let image = self.try_serialize().map_err(ser::Error::custom)?;
        if serializer.is_human_readable() {
            serializer.serialize_str(&BASE64.encode(&image))
        } else {
            serializer.serialize_bytes(&image)
        }
    }
}

/// Reads what `Serialize` writes, as [`HllSketch::deserialize_exact`] does: bytes after the image are rejected.
impl<'de> Deserialize<'de> for HllSketch {
    fn deserialize<D: Deserializer<'de>>(deserializer: D) -> Result<Self, D::Error> {
        if deserializer.is_human_readable() {
            deserializer.deserialize_str(Reader)
        } else {
            deserializer.deserialize_bytes(Reader)
        }
    }
}

struct Reader;

impl Visitor<'_> for Reader {
    type Value = HllSketch;

    fn expecting(&self, f: &mut fmt::Formatter<'_>) -> fmt::Result {
        f.write_str("the image of a sketch, as bytes or as base64")
    }

    fn visit_str<E: Error>(self, text: &str) -> Result<HllSketch, E> {
        let image = BASE64.decode(text.as_bytes()).map_err(|error| {
            E::custom(format_args!("these {} characters are not the image of a sketch in base64: {error}", text.len()))
        })?;
        self.visit_bytes(&image)
    }

    fn visit_bytes<E: Error>(self, image: &[u8]) -> Result<HllSketch, E> {
        HllSketch::deserialize_exact(image).map_err(E::custom)
    }
}
