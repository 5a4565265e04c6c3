//! Stands where the Rust's `libm` stood: the specification's sine and cosine. There is no `libm` here, so both sides of the
//! comparison use this; what the real one would change is counted beside it.

/// What `f64::to_radians` multiplies by: the f64 nearest pi / 180.
const RADIANS: f64 = std::f64::consts::PI / 180.0;

/// The angle in 1e-7 degree. The Rust makes radians of a whole number of 1e-7 degrees by two products, each rounded once, so
/// dividing back is off by far less than a half: the whole number comes back for each of the 2^32 (`oracle angles` runs them all).
pub fn units(radians: f64) -> i64 {
    (radians / RADIANS * 1e7).round() as i64
}

/// 1 / n!, a factorial below 2^53 being exact.
const fn coefficient(n: u64) -> f64 {
    let mut product = 1;
    let mut k = 2;
    while k <= n {
        product *= k;
        k += 1;
    }
    1.0 / product as f64
}

/// The nine coefficients from 1 / first! downwards in steps of two, signs alternating, the first positive.
const fn coefficients(first: u64) -> [f64; 9] {
    let mut all = [0.0; 9];
    let mut i = 0;
    while i < 9 {
        let one = coefficient(first - 2 * i);
        all[i as usize] = if i % 2 == 0 { one } else { -one };
        i += 1;
    }
    all
}

const SINE: [f64; 9] = coefficients(17);
const COSINE: [f64; 9] = coefficients(16);

/// Times u, then plus the next: two roundings a step.
fn series(u: f64, coefficients: &[f64; 9]) -> f64 {
    let mut sum = coefficients[0];
    for next in &coefficients[1..] {
        sum = sum * u + next;
    }
    sum
}

/// The sine and cosine of v, in 1e-7 degree, as the specification says.
pub fn sincos_units(v: i64) -> (f64, f64) {
    let q = (v + 450_000_000).div_euclid(900_000_000);
    let r = v - 900_000_000 * q;
    let t = r as f64 * 1e-7 * RADIANS;
    let u = t * t;
    let s = series(u, &SINE) * t;
    let c = series(u, &COSINE);
    match q.rem_euclid(4) {
        0 => (s, c),
        1 => (c, -s),
        2 => (-s, -c),
        _ => (-c, s),
    }
}

pub fn sincos(radians: f64) -> (f64, f64) {
    sincos_units(units(radians))
}

/// Only `geo::from_ecef` asks for these, which nothing here calls.
pub fn atan2(y: f64, x: f64) -> f64 {
    y.atan2(x)
}

pub fn hypot(x: f64, y: f64) -> f64 {
    x.hypot(y)
}
