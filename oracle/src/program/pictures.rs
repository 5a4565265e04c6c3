//! All small pictures, decided by the Rust: the lines that the program `pictures` prints.

use oracle::Record;
use oracle::decide::{SIZE, decide};
use oracle::layout::{CONSISTENT_AT, RECORD, STANDING_AT};
use std::fmt::Write;

/// The fix of this number, whose tags are those of the mask.
fn item(number: u8, mask: u64, unit: u64) -> [u8; SIZE] {
    let tags: Vec<u64> = (1..=3).filter(|tag| mask >> (tag - 1) & 1 == 1).collect();
    let variance = unit as f64;
    let record = Record {
        time: 0,
        lat: 0,
        lon: 0,
        height: Some(0),
        message: vec![0; 14],
        used: (1 << tags.len()) - 1,
        tags,
        models: Vec::new(),
        spec: 0,
        covariance: [variance, 0.0, 0.0, variance, 0.0, variance],
    };
    let mut item = [0; SIZE];
    item[..RECORD].copy_from_slice(&record.write());
    item[STANDING_AT - 1] = number;
    item[CONSISTENT_AT] = 1;
    item
}

fn numbers(places: impl Iterator<Item = u8>) -> String {
    let words: Vec<String> = places.map(|at| (at + 1).to_string()).collect();
    if words.is_empty() { "none".to_string() } else { words.join(",") }
}

/// The line of every case: the first fix's tags slowest, the third's covariance fastest.
pub fn all() -> String {
    let mut out = String::new();
    for case in 0..7 * 7 * 7 * 8 {
        let masks = [case / 392 + 1, case / 56 % 7 + 1, case / 8 % 7 + 1];
        let units = [case >> 2 & 1, case >> 1 & 1, case & 1];
        let items: Vec<u8> = (0..3u8).flat_map(|k| item(k + 1, masks[usize::from(k)], units[usize::from(k)])).collect();
        let told = decide(&items).expect("items that can be decided");
        let refused = told.refusals.iter().map(|one| one.refused);
        let (ranked, dominated) = (numbers(told.ranked.into_iter()), numbers(told.dominated.into_iter()));
        writeln!(out, "case={} ranked={ranked} dominated={dominated} refused={}", case + 1, numbers(refused))
            .expect("room for a line");
    }
    out
}
