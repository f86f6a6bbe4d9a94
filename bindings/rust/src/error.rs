// SPDX-License-Identifier: Apache-2.0
//! Why a call failed.

#![forbid(unsafe_code)]

use std::alloc::{handle_alloc_error, Layout};
use std::{fmt, io};

use crate::libhll::{self, Status};

/// What the calls of this crate return, unless another error is named.
pub type Result<T, E = Error> = std::result::Result<T, E>;

/// What kind of error it is. Its text is its name.
#[derive(Debug, Clone, Copy, PartialEq, Eq, Hash)]
#[non_exhaustive]
pub enum ErrorKind {
    /// An argument is out of its range.
    InvalidArgument,
    /// The bytes are not the image of a sketch, or exceed the limits.
    InvalidData,
    /// An allocation failed. The call can be made again.
    OutOfMemory,
}

impl fmt::Display for ErrorKind {
    fn fmt(&self, f: &mut fmt::Formatter<'_>) -> fmt::Result {
        fmt::Debug::fmt(self, f)
    }
}

/// Why a call failed. What the call was to change is as it was before.
#[derive(Debug, Clone, PartialEq, Eq)]
pub struct Error {
    cause: Cause,
}

#[derive(Debug, Clone, PartialEq, Eq)]
pub(crate) enum Cause {
    /// Returns the error for bytes of this length that are rejected with a status.
    Image {
        status: Status,
        len: usize,
        index: Option<usize>,
    },
    /// Returns the error for bytes of this length, of which `more` follow an image.
    Trailing {
        more: usize,
        len: usize,
        index: Option<usize>,
    },
    Limits {
        lg_k: u8,
        len: usize,
        most_lg_k: u8,
        most_len: usize,
    },
    /// Returns the error for a number that is not what is wanted.
    Number {
        name: &'static str,
        given: u8,
        wanted: &'static str,
    },
    /// Returns the error for a string that is not what is wanted.
    Text {
        name: &'static str,
        given: String,
        wanted: &'static str,
    },
    /// Returns the error for an image after images of another `lg_k`.
    OtherLgK {
        lg_k: u8,
        other: u8,
        index: Option<usize>,
    },
    Coupon(u32),
    Memory,
}

/// The word and the sentence of each status of an image, from 1 on, as in hll.h.
// scripts/calls.py writes what follows, from bindings/c/hll.h
const REASONS: [(&str, &str); 11] = [
    ("truncated", "the bytes end inside what the header asks for"),
    ("family", "the family byte is not 7"),
    ("version", "the serial version is not 1"),
    ("lgk", "the lg_k byte is outside 4 to 21"),
    ("width", "the width bits are 3"),
    ("stage", "the stage bits are 3"),
    ("preamble", "the preamble size does not fit the stage"),
    ("lgarr", "the size of a table is outside its range"),
    ("count", "a count is above its bound, or not the number of filled buckets"),
    ("coupon", "a coupon has the value 0 where a coupon is needed, or comes twice"),
    ("register", "a register is above 63, or nibbles and exceptions do not agree"),
];
// end of what scripts/calls.py writes

impl Error {
    pub(crate) fn new(cause: Cause) -> Self {
        Self { cause }
    }

    /// The error of a string that is not what is wanted.
    pub(crate) fn of_text(name: &'static str, given: &str, wanted: &'static str) -> Self {
        Self::new(Cause::Text { name, given: given.into(), wanted })
    }

    /// The error of a call that read an image of this length.
    pub(crate) fn of_image(status: Status, len: usize) -> Self {
        match status {
            libhll::MEMORY => Self::new(Cause::Memory),
            _ => Self::new(Cause::Image { status, len, index: None }),
        }
    }

    /// The error of a call that read an image of which `more` bytes of `len` are no part.
    pub(crate) fn of_trailing(more: usize, len: usize) -> Self {
        Self::new(Cause::Trailing { more, len, index: None })
    }

    /// The error of a checked image, whose `lg_k` is not that of the images before it.
    pub(crate) fn of_other_lg_k(lg_k: u8, image: &[u8]) -> Self {
        Self::new(Cause::OtherLgK { lg_k, other: libhll::head(image).lg_k, index: None })
    }

    /// Returns the error with the index of the image.
    pub(crate) fn at(mut self, number: usize) -> Self {
        if let Cause::Image { index, .. } | Cause::Trailing { index, .. } | Cause::OtherLgK { index, .. } =
            &mut self.cause
        {
            *index = Some(number);
        }
        self
    }

    /// Returns what kind of error it is.
    #[must_use]
    pub fn kind(&self) -> ErrorKind {
        match self.cause {
            Cause::Image { .. } | Cause::Trailing { .. } | Cause::Limits { .. } => ErrorKind::InvalidData,
            Cause::Number { .. } | Cause::Text { .. } | Cause::OtherLgK { .. } | Cause::Coupon(_) => {
                ErrorKind::InvalidArgument
            }
            Cause::Memory => ErrorKind::OutOfMemory,
        }
    }

    /// Returns one word: for a rejected image the first check that it fails (`"truncated"`, `"family"`, .., as in the table
    /// of docs/FORMAT.md, "Reasons"), else `"trailing"`, `"limits"`, `"argument"`,
    /// `"other_lg_k"` or `"memory"`.
    #[must_use]
    pub fn reason(&self) -> &'static str {
        match self.cause {
            Cause::Image { status, .. } => reason(status).0,
            Cause::Trailing { .. } => "trailing",
            Cause::Limits { .. } => "limits",
            Cause::Number { .. } | Cause::Text { .. } | Cause::Coupon(_) => "argument",
            Cause::OtherLgK { .. } => "other_lg_k",
            Cause::Memory => "memory",
        }
    }

    /// Returns which of several images was rejected, from 0; `None` if there was only one image, or none.
    #[must_use]
    pub fn index(&self) -> Option<usize> {
        match self.cause {
            Cause::Image { index, .. } | Cause::Trailing { index, .. } | Cause::OtherLgK { index, .. } => index,
            _ => None,
        }
    }
}

fn reason(status: Status) -> (&'static str, &'static str) {
    let found = usize::from(status).checked_sub(1).and_then(|at| REASONS.get(at));
    found.copied().unwrap_or(("unknown", "the status is unknown"))
}

impl fmt::Display for Error {
    fn fmt(&self, f: &mut fmt::Formatter<'_>) -> fmt::Result {
        if let Some(number) = self.index() {
            write!(f, "images[{number}]: ")?;
        }
        match &self.cause {
            Cause::Image { status, len, .. } => {
                let (word, sentence) = reason(*status);
                write!(f, "these {len} bytes are not the image of a sketch: {sentence} ({word})")
            }
            Cause::Trailing { more, len, .. } => {
                write!(f, "these {len} bytes are more than the image of a sketch, which takes {} of them (trailing)", len - more)
            }
            Cause::Limits { lg_k, len, most_lg_k, most_len } => write!(
                f,
                "the image has {len} bytes and lg_k {lg_k}; the limits are {most_len} bytes and lg_k {most_lg_k}: \
                 set higher ones in hll::Limits if you trust the image"
            ),
            Cause::Number { name, given, wanted } => write!(f, "{name} is {given}; it must be {wanted}"),
            Cause::Text { name, given, wanted } => write!(f, "{name} is {given:?}; it must be {wanted}"),
            Cause::OtherLgK { lg_k, other, .. } => write!(
                f,
                "its lg_k is {other}, and that of the images before it {lg_k}: to merge both at the smaller lg_k, give a \
                 bound, as in HllUnion::new({lg_k})"
            ),
            Cause::Coupon(raw) => write!(f, "the coupon {raw} has the value 0; the value of a coupon is 1 to 63"),
            Cause::Memory => write!(f, "an allocation failed"),
        }
    }
}

impl std::error::Error for Error {}

/// For functions that return an `io::Result`: `InvalidInput`, `InvalidData` or `OutOfMemory`, with this error in the first two.
impl From<Error> for io::Error {
    fn from(error: Error) -> Self {
        match error.kind() {
            ErrorKind::InvalidArgument => Self::new(io::ErrorKind::InvalidInput, error),
            ErrorKind::InvalidData => Self::new(io::ErrorKind::InvalidData, error),
            ErrorKind::OutOfMemory => io::ErrorKind::OutOfMemory.into(), // without an allocation
        }
    }
}

/// Returns the value of a call on memory that a sketch owns. The call fails only if an allocation fails. Then this ends the
/// program, as a `Vec` does that can't grow.
pub(crate) fn or_abort<T>(result: Result<T, Error>) -> T {
    match result {
        Ok(value) => value,
        Err(error) if error.kind() == ErrorKind::OutOfMemory => handle_alloc_error(Layout::new::<[u8; 64]>()),
        Err(error) => unreachable!("the memory of a sketch is damaged: {error}"),
    }
}

#[cfg(test)]
mod tests {
    use super::*;

    #[test]
    fn each_status_has_its_word() {
        assert_eq!(Error::of_image(1, 0).reason(), "truncated");
        assert_eq!(Error::of_image(11, 0).reason(), "register");
        assert_eq!(Error::of_image(0, 0).reason(), "unknown");
        assert_eq!(Error::of_image(12, 0).reason(), "unknown");
        assert_eq!(Error::of_image(libhll::MEMORY, 0).kind(), ErrorKind::OutOfMemory);
        assert_eq!(Error::of_image(libhll::MEMORY, 0).at(3).index(), None);
    }
}
