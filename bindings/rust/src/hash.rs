// SPDX-License-Identifier: Apache-2.0
//! The bytes that a value is hashed as.

#![forbid(unsafe_code)]

use std::hash::{Hash, Hasher};

use crate::libhll;

const SHORT: usize = 40;

/// A string of 256 bytes and the byte ff after it, rounded up.
const MEDIUM: usize = 264;

/// Collects the bytes that a value's `Hash` writes; up to 264 of them without an allocation.
struct Collector {
    used: usize,
    short: [u8; SHORT],
    /// All bytes, if `short` is too short.
    medium: Option<[u8; MEDIUM]>,
    /// All bytes, if `medium` is too short.
    long: Vec<u8>,
    has_failed: bool,
}

impl Collector {
    #[inline]
    fn new() -> Self {
        Self { used: 0, short: [0; SHORT], medium: None, long: Vec::new(), has_failed: false }
    }

    #[inline]
    fn bytes(&self) -> &[u8] {
        match &self.medium {
            _ if !self.long.is_empty() => &self.long,
            Some(medium) => &medium[..self.used],
            None => &self.short[..self.used],
        }
    }

    #[cold]
    fn write_longer(&mut self, bytes: &[u8]) {
        let end = self.used + bytes.len();
        if end > MEDIUM || !self.long.is_empty() {
            return self.write_long(bytes);
        }
        let (short, used) = (&self.short[..self.used.min(SHORT)], self.used);
        let medium = self.medium.get_or_insert_with(|| {
            let mut medium = [0; MEDIUM];
            medium[..used].copy_from_slice(short);
            medium
        });
        medium[used..end].copy_from_slice(bytes);
        self.used = end;
    }

    /// Appends to `long`, after what was collected. There is room for the byte that follows a `str`.
    fn write_long(&mut self, bytes: &[u8]) {
        let mut long = std::mem::take(&mut self.long);
        let collected = if long.is_empty() { self.bytes() } else { &[] };
        if self.has_failed || long.try_reserve(collected.len() + bytes.len() + 1).is_err() {
            self.has_failed = true;
            return;
        }
        long.extend_from_slice(collected);
        long.extend_from_slice(bytes);
        self.long = long;
    }
}

impl Hasher for Collector {
    #[inline]
    fn write(&mut self, bytes: &[u8]) {
        let end = self.used + bytes.len();
        if end > SHORT || !self.long.is_empty() {
            return self.write_longer(bytes);
        }
        self.short[self.used..end].copy_from_slice(bytes);
        self.used = end;
    }

    /// A `Hash` doesn't call this. It returns the raw coupon.
    fn finish(&self) -> u64 {
        libhll::coupon(self.bytes()).into()
    }
}

/// What a call returns for the bytes that the value's `Hash` writes; `None`, without a call, if an allocation failed.
#[inline]
pub(crate) fn with_bytes_of<T: Hash, R>(value: T, call: impl FnOnce(&[u8]) -> R) -> Option<R> {
    let mut collector = Collector::new();
    value.hash(&mut collector);
    (!collector.has_failed).then(|| call(collector.bytes()))
}

/// Wrappers whose `Hash` writes the bytes that other languages hash.
pub mod value {
    /// Values that are counted by their bytes alone.
    pub mod raw_bytes {
        use std::hash::{Hash, Hasher};

        /// Bytes that are hashed as they are, without the byte ff that Rust's `Hash` writes after a `str`, and without the
        /// length that it writes before a slice.
        #[derive(Debug, Clone, Copy)]
        pub struct RawBytes<'a>(&'a [u8]);

        /// Returns the UTF-8 bytes of a string.
        #[allow(clippy::should_implement_trait)] // the name of the original
        #[must_use]
        pub fn from_str(text: &str) -> RawBytes<'_> {
            RawBytes(text.as_bytes())
        }

        /// Returns these bytes.
        #[must_use]
        pub fn from_slice(bytes: &[u8]) -> RawBytes<'_> {
            RawBytes(bytes)
        }

        impl Hash for RawBytes<'_> {
            #[inline]
            fn hash<H: Hasher>(&self, state: &mut H) {
                state.write(self.0);
            }
        }
    }

    /// Eight bytes that are hashed as they are.
    #[derive(Debug, Clone, Copy)]
    pub struct EightBytes([u8; 8]);

    impl std::hash::Hash for EightBytes {
        #[inline]
        fn hash<H: std::hash::Hasher>(&self, state: &mut H) {
            state.write(&self.0);
        }
    }

    /// Floats, which are not `Hash`, by the eight bytes that the other languages hash.
    pub mod canonical_float {
        pub use super::EightBytes;

        /// Returns the bytes of a float: its own, but for -0.0, which counts as 0.0, and for NaN, of which all count as one.
        #[must_use]
        pub fn from_f64(value: f64) -> EightBytes {
            let bits = if value.is_nan() {
                0x7ff8_0000_0000_0000
            } else if value == 0.0 {
                0
            } else {
                value.to_bits()
            };
            EightBytes(bits.to_le_bytes())
        }

        /// Returns the bytes of the `f64` with the same value.
        #[must_use]
        pub fn from_f32(value: f32) -> EightBytes {
            from_f64(value.into())
        }
    }

    macro_rules! extensions {
        ($($(#[$meta:meta])* $name:ident: $from:ty => $through:ty),+ $(,)?) => {
            $($(#[$meta])*
            #[must_use]
            #[allow(clippy::cast_possible_wrap, clippy::cast_lossless)]
            pub fn $name(value: $from) -> super::EightBytes {
                super::EightBytes((value as $through as i64).to_le_bytes())
            })+
        };
    }

    /// Integers of fewer bits as numbers: what C++, Python, SQL and C of this library count.
    pub mod natural_extend {
        extensions! {
            /// Returns the bytes of the number as an `i64`.
            from_i8: i8 => i64,
            /// Returns the bytes of the number as an `i64`.
            from_i16: i16 => i64,
            /// Returns the bytes of the number as an `i64`.
            from_i32: i32 => i64,
            /// Returns the bytes of the number as an `u64`.
            from_u8: u8 => u64,
            /// Returns the bytes of the number as an `u64`.
            from_u16: u16 => u64,
            /// Returns the bytes of the number as an `u64`.
            from_u32: u32 => u64,
        }
    }

    /// Integers of fewer bits by their bits as signed numbers: what datasketches-cpp counts. It takes 4294967295 as a `u32` for
    /// -1.
    pub mod sign_extend {
        extensions! {
            /// Returns the bytes of the number as an `i64`.
            from_i8: i8 => i64,
            /// Returns the bytes of the number as an `i64`.
            from_i16: i16 => i64,
            /// Returns the bytes of the number as an `i64`.
            from_i32: i32 => i64,
            /// Returns the bytes of the `i8` with the same bits as an `i64`.
            from_u8: u8 => i8,
            /// Returns the bytes of the `i16` with the same bits as an `i64`.
            from_u16: u16 => i16,
            /// Returns the bytes of the `i32` with the same bits as an `i64`.
            from_u32: u32 => i32,
        }
    }
}
