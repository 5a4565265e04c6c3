//! The heights at which a rule of rounding shows, and which of them were written.

/// Exact halves of a metre and what lies a millimetre beside them, zero, and the ends of an i32.
pub const EDGES: [i32; 27] = [
    499,
    500,
    501,
    1_499,
    1_500,
    1_501,
    2_499,
    2_500,
    2_501,
    2_147_483_499,
    2_147_483_500,
    2_147_483_501,
    -499,
    -500,
    -501,
    -1_499,
    -1_500,
    -1_501,
    -2_499,
    -2_500,
    -2_501,
    -2_147_483_499,
    -2_147_483_500,
    -2_147_483_501,
    0,
    i32::MIN,
    i32::MAX,
];

const EVEN: &str = "heights written: an exact half between an even metre and the next away from zero";
const ODD: &str = "heights written: an exact half between an odd metre and the next away from zero";
const EVEN_BELOW: &str = "heights written: the same below zero, an even metre";
const ODD_BELOW: &str = "heights written: the same below zero, an odd metre";
const BESIDE: &str = "heights written: a millimetre beside an exact half";

/// The kinds that a run must have, with a name for one of them.
pub const KINDS: (&str, [&str; 5]) = ("a kind of height", [EVEN, ODD, EVEN_BELOW, ODD_BELOW, BESIDE]);

fn kind(height: i32) -> Option<&'static str> {
    let size = height.unsigned_abs();
    match (size % 1_000, size / 1_000 % 2, height < 0) {
        (500, 0, false) => Some(EVEN),
        (500, _, false) => Some(ODD),
        (500, 0, true) => Some(EVEN_BELOW),
        (500, _, true) => Some(ODD_BELOW),
        (499 | 501, ..) => Some(BESIDE),
        _ => None,
    }
}

/// What is counted of these heights.
pub fn kinds(heights: impl Iterator<Item = i32>) -> impl Iterator<Item = &'static str> {
    heights.filter_map(kind)
}
