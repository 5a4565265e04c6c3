//! No number where none was measured. The Rust has an infinite chi-square there, and so have a track's bytes.

use crate::{Claim, agreement, bits};

/// The bits of a chi-square, or none where it is positive infinity: there the two are unmeasurable. Nothing else maps the Rust's infinity.
pub fn measured(chi2: f64) -> Option<u64> {
    if chi2 == f64::INFINITY { None } else { Some(bits(chi2)) }
}

/// How a larger fix stands to a smaller one, with the bits of the chi-square and of its limit where there are such.
#[derive(Clone, Copy, Debug, PartialEq, Eq)]
pub enum Outcome {
    Inside { chi2: u64, limit: u64 },
    Outside { chi2: u64, limit: u64 },
    Unmeasurable,
}

/// What the Rust's agreement comes to. A chi-square of zero has no sign here, since it is free.
pub fn outcome(smaller: &Claim, larger: &Claim) -> Outcome {
    let (chi2, limit) = agreement(smaller, larger);
    match (measured(chi2 + 0.0), limit.to_bits()) {
        (None, _) => Outcome::Unmeasurable,
        (Some(bits), at) if chi2 <= limit => Outcome::Inside { chi2: bits, limit: at },
        (Some(bits), at) => Outcome::Outside { chi2: bits, limit: at },
    }
}

impl std::fmt::Display for Outcome {
    fn fmt(&self, f: &mut std::fmt::Formatter<'_>) -> std::fmt::Result {
        match self {
            Self::Inside { chi2, limit } => write!(f, "inside chi2={chi2:016x} limit={limit:016x}"),
            Self::Outside { chi2, limit } => write!(f, "outside chi2={chi2:016x} limit={limit:016x}"),
            Self::Unmeasurable => write!(f, "unmeasurable"),
        }
    }
}

/// A chi-square as it is written: 16 hex digits, or `none` where none was measured.
pub fn digits(chi2: Option<u64>) -> String {
    chi2.map_or("none".to_string(), |bits| format!("{bits:016x}"))
}
