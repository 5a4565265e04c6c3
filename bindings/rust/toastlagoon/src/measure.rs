use toastlagoon_sys as sys;

use crate::bytes::start;
use crate::record::{Covariance, Hash};

/// The version of the library that is linked: a million for each major number, a thousand for each minor one.
pub fn version() -> u32 {
    // It reads and writes no memory.
    unsafe { sys::tl_version() }
}

/// The BLAKE2s-256 hash (RFC 7693, no key) of any bytes.
pub fn blake2s256(bytes: &[u8]) -> Hash {
    let mut out = [0; sys::TL_HASH_SIZE];
    // The bytes are read within their length, and the whole of `out` is written.
    unsafe { sys::tl_blake2s256(start(bytes), bytes.len(), &mut out) };
    out
}

/// The square root, rounded to nearest. NaN for NaN and for a negative number.
pub fn root(x: f64) -> f64 {
    // It reads and writes no memory.
    unsafe { sys::tl_root(x) }
}

/// The horizontal deviation in metres of a covariance.
pub fn horizontal_sigma(c: &Covariance) -> f64 {
    // It reads and writes no memory.
    unsafe { sys::tl_horizontal_sigma(c.xx, c.xy, c.xz, c.yy, c.yz, c.zz) }
}

/// A fix, as far as an agreement looks at it.
#[derive(Clone, Copy, Debug, PartialEq)]
pub struct Claim {
    /// Latitude, in 1e-7 degree.
    pub lat: i32,
    /// Longitude, in 1e-7 degree.
    pub lon: i32,
    /// Height in millimetres, where it is known.
    pub height: Option<i32>,
    /// In m^2.
    pub covariance: Covariance,
}

/// Whether a larger fix lies within a smaller one's uncertainty.
#[derive(Clone, Copy, Debug, PartialEq)]
pub enum Agreement {
    /// The chi-square is at most the limit.
    Inside { chi2: f64, limit: f64 },
    /// The chi-square is above the limit.
    Outside { chi2: f64, limit: f64 },
    /// There is no chi-square: the two count as disagreeing.
    Unmeasurable,
}

/// Whether the larger fix lies within the smaller one's uncertainty.
pub fn agreement(smaller: &Claim, larger: &Claim) -> Agreement {
    let (a, b) = (smaller, larger);
    let (c, d) = (&a.covariance, &b.covariance);
    let (mut chi2, mut limit) = (0.0, 0.0);
    // Nothing but the two numbers is written.
    #[rustfmt::skip]
    let outcome = unsafe {
        sys::tl_agreement(
            a.lat, a.lon, a.height.is_some(), a.height.unwrap_or(0), c.xx, c.xy, c.xz, c.yy, c.yz, c.zz,
            b.lat, b.lon, b.height.is_some(), b.height.unwrap_or(0), d.xx, d.xy, d.xz, d.yy, d.yz, d.zz, &mut chi2, &mut limit,
        )
    };
    match outcome {
        sys::TL_INSIDE => Agreement::Inside { chi2, limit },
        sys::TL_OUTSIDE => Agreement::Outside { chi2, limit },
        _ => Agreement::Unmeasurable,
    }
}
