// SPDX-License-Identifier: Apache-2.0
//! What estimates have in common.

#![forbid(unsafe_code)]

use std::fmt;
use std::str::FromStr;

use crate::error::{Cause, Error, Result};

/// The number of standard deviations between an estimate and its bounds.
///
/// The number of distinct values is between the bounds in at least about 68, 95 and 99.7 of 100 cases (docs/NUMBERS.md,
/// "Estimates"). Its text is the number, which `parse` reads.
#[derive(Debug, Clone, Copy, PartialEq, Eq, Hash)]
pub enum NumStdDev {
    /// One standard deviation.
    One = 1,
    /// Two standard deviations.
    Two = 2,
    /// Three standard deviations.
    Three = 3,
}

const DEVIATIONS: &str = "the number of standard deviations";
const ONE_TO_THREE: &str = "1, 2 or 3";

impl TryFrom<u8> for NumStdDev {
    type Error = Error;

    /// Returns this number of standard deviations, or `InvalidArgument` for another number than 1, 2 and 3.
    fn try_from(number: u8) -> Result<Self> {
        match number {
            1 => Ok(Self::One),
            2 => Ok(Self::Two),
            3 => Ok(Self::Three),
            given => Err(Error::new(Cause::Number { name: DEVIATIONS, given, wanted: ONE_TO_THREE })),
        }
    }
}

impl FromStr for NumStdDev {
    type Err = Error;

    /// Reads `"1"`, `"2"` or `"3"`, or returns `InvalidArgument`.
    fn from_str(text: &str) -> Result<Self> {
        match text {
            "1" => Ok(Self::One),
            "2" => Ok(Self::Two),
            "3" => Ok(Self::Three),
            _ => Err(Error::of_text(DEVIATIONS, text, ONE_TO_THREE)),
        }
    }
}

impl fmt::Display for NumStdDev {
    fn fmt(&self, f: &mut fmt::Formatter<'_>) -> fmt::Result {
        fmt::Display::fmt(&(*self as u8), f)
    }
}

/// An estimate of the number of distinct values with all its bounds.
#[derive(Debug, Clone, Copy, Default, PartialEq)]
#[repr(C)]
pub struct Estimation {
    /// The estimated number; infinite if every register is 63.
    pub estimate: f64,
    /// The standard deviation of the estimate, divided by the number of values.
    pub relative_standard_error: f64,
    /// The lower bounds at 1, 2 and 3 standard deviations.
    pub lower: [f64; 3],
    /// The upper bounds at 1, 2 and 3 standard deviations.
    pub upper: [f64; 3],
}

impl Estimation {
    /// Returns the lower bound at this number of standard deviations.
    #[must_use]
    pub fn lower_bound(&self, num_std_dev: NumStdDev) -> f64 {
        self.lower[num_std_dev as usize - 1]
    }

    /// Returns the upper bound at this number of standard deviations.
    #[must_use]
    pub fn upper_bound(&self, num_std_dev: NumStdDev) -> f64 {
        self.upper[num_std_dev as usize - 1]
    }
}
