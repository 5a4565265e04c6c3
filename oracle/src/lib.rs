//! The oracle: the Rust's agreement, decide and track behind the layouts of the specification.

pub mod decide;
pub mod formed;
pub mod hex;
pub mod layout;
pub mod lines;
pub mod measured;
pub mod record;
pub mod shelf;
pub mod track;

pub use record::Record;

use tally_wire::EnuCovariance;

/// What a fix claims, as the specification has it.
#[derive(Clone, Copy, Debug, PartialEq)]
pub struct Claim {
    pub lat: i32,
    pub lon: i32,
    pub height: Option<i32>,
    pub covariance: [f64; 6],
}

/// The bits of a chi-square; each NaN is 7ff8000000000000.
pub fn bits(x: f64) -> u64 {
    if x.is_nan() { 0x7ff8_0000_0000_0000 } else { x.to_bits() }
}

pub fn enu(c: &[f64; 6]) -> EnuCovariance {
    EnuCovariance { xx: c[0], xy: c[1], xz: c[2], yy: c[3], yz: c[4], zz: c[5] }
}

macro_rules! rule {
    ($name:ident, $solver:ident) => {
        /// One compilation of the Rust's rule.
        pub mod $name {
            use crate::Claim;
            use $solver::standing::Claimed;

            pub fn claimed(claim: &Claim) -> Claimed {
                Claimed {
                    lat_e7: claim.lat,
                    lon_e7: claim.lon,
                    alt_hae_mm: claim.height,
                    covariance: crate::enu(&claim.covariance),
                    transmitted: 0,
                }
            }

            /// The chi-square and its limit.
            pub fn agreement(smaller: &Claim, larger: &Claim) -> (f64, f64) {
                let found = $solver::standing::agreement(&claimed(smaller), &claimed(larger));
                (found.chi2, found.limit)
            }
        }
    };
}

rule!(standin, solver);
#[cfg(real_libm)]
rule!(real, solver_real);

/// The Rust's own numbers: where the chi-square is infinite, `measured` says what that is.
pub fn agreement(smaller: &Claim, larger: &Claim) -> (f64, f64) {
    standin::agreement(smaller, larger)
}

pub fn horizontal_sigma(covariance: &[f64; 6]) -> f64 {
    tally_merge::horizontal_sigma_m(&enu(covariance))
}

pub fn blake2s256(input: &[u8]) -> [u8; 32] {
    blake2::blake2s256(input)
}

/// The sine and cosine of an angle in 1e-7 degree, and that angle found again in radians.
pub fn sincos(v: i64) -> (f64, f64) {
    ::standin::sincos_units(v)
}

pub fn units(radians: f64) -> i64 {
    ::standin::units(radians)
}

/// Whether the stand-in finds v again in the radians that the Rust makes of it.
pub fn found_again(v: i32) -> bool {
    units((f64::from(v) * 1e-7).to_radians()) == i64::from(v)
}
