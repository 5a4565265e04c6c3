//! The map: the first ranked fix of each transmission of the board, as a point of a GeoJSON FeatureCollection.

use crate::board;
use crate::register::Register;
use oracle::lines::Said;

pub const ROOM: usize = 4_096;

/// 180 degrees of longitude and 90 of latitude, in 1e-7 degree.
const LIMITS: (i64, i64) = (1_800_000_000, 900_000_000);

/// A whole number of units of the last of so many decimals: its digits, at least one before the point.
fn decimals(v: i32, places: usize) -> String {
    let digits = format!("{:0width$}", i64::from(v).abs(), width = places + 1);
    let (whole, rest) = digits.split_at(digits.len() - places);
    format!("{}{whole}.{rest}", if v < 0 { "-" } else { "" })
}

/// Whether a fix is within the degrees.
pub fn within(said: &Said) -> bool {
    i64::from(said.lon).abs() <= LIMITS.0 && i64::from(said.lat).abs() <= LIMITS.1
}

fn feature(said: &Said) -> String {
    let mut coordinates = vec![decimals(said.lon, 7), decimals(said.lat, 7)];
    coordinates.extend(said.height.map(|height| decimals(height, 3)));
    format!(
        r#"{{"type":"Feature","geometry":{{"type":"Point","coordinates":[{}]}},"properties":{{"time":"{}","weight":{},"signers":"{:08x}"}}}}"#,
        coordinates.join(","),
        said.time,
        said.weight,
        said.signers
    )
}

/// The map of a well-formed register.
pub fn text(register: &Register) -> String {
    let features: Vec<String> = board::firsts(register).iter().filter(|said| within(said)).map(feature).collect();
    format!(r#"{{"type":"FeatureCollection","features":[{}]}}"#, features.join(","))
}

/// Map: 1, 14, or the length of what was written.
pub fn map(memory: &[u8], out: &mut [u8]) -> usize {
    let Some(register) = Register::read(memory) else {
        return 1;
    };
    if out.len() < ROOM {
        return 14;
    }
    let text = text(&register);
    out[..text.len()].copy_from_slice(text.as_bytes());
    text.len()
}
