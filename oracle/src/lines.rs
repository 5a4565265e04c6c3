//! The lines of the specification's board, which a listing has too.

use crate::measured::digits;

/// The nearest whole metre, and the even one of two equally near, by the standard library's rounding. The quotient is
/// a half where the height is an exact half, and every other height is a thousandth of a metre or more from one, far more than it is off.
pub fn metres(height: i32) -> i64 {
    (f64::from(height) / 1000.0).round_ties_even() as i64
}

/// What a line says of a fix.
pub struct Said {
    pub time: u64,
    pub lat: i32,
    pub lon: i32,
    pub height: Option<i32>,
    pub weight: u64,
    pub signers: u32,
}

/// A fix's line without its end.
pub fn line(role: &str, said: &Said) -> String {
    let Said { time, lat, lon, weight, signers, .. } = said;
    let height = said.height.map_or("none".to_string(), |h| metres(h).to_string());
    format!("role={role} time={time} lat={lat} lon={lon} height={height} weight={weight} signers={signers:08x}")
}

/// A refused fix's line without its end: its chi-square comes last, or `none` where none was measured.
pub fn refused(said: &Said, chi2: Option<u64>) -> String {
    format!("{} chi2={}", line("refused", said), digits(chi2))
}

pub fn header(number: usize, ranked: usize, dominated: usize, refused: usize) -> String {
    format!("transmission={number} ranked={ranked} dominated={dominated} refused={refused}\n")
}
