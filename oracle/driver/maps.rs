//! Maps: the library's beside the peer's, and which kinds of them came up.

use crate::binding;
use crate::random::Random;
use peer::map::{self, ROOM};
use peer::register::Register;

/// Longitudes and latitudes at which a rule shows: the limits and a unit beyond them, those next to zero, and the ends of an i32.
const EDGES: [i32; 18] = [
    1_800_000_000,
    1_800_000_001,
    -1_800_000_000,
    -1_800_000_001,
    900_000_000,
    900_000_001,
    -900_000_000,
    -900_000_001,
    i32::MIN,
    i32::MAX,
    -1,
    0,
    1,
    -5,
    9_999_999,
    -9_999_999,
    10_000_000,
    -10_000_001,
];

/// A longitude or a latitude: mostly this one, now and then one of the edges, and now and then any.
pub fn place(random: &mut Random, mostly: i32) -> i32 {
    match random.below(24) {
        0 => random.pick(&EDGES),
        1 => random.next() as i32 % 900_000_000,
        _ => mostly,
    }
}

const MALFORMED: &str = "maps refused with 1";
const MALFORMED_SMALL: &str = "maps refused with 1, with too little room";
const SMALL: &str = "maps refused with 14";
const NONE: &str = "maps of no points though the board has some transmissions";
const EMPTY: &str = "maps of no points and of no transmissions";
const ALL: &str = "maps with a point for each transmission";
const LEFT: &str = "maps with a transmission left out";
const EIGHT: &str = "maps of eight points";
const FLAT: &str = "maps with a point without a height";
const BELOW: &str = "maps with a number between -1 and 0";
const LIMIT: &str = "maps with a point at a limit";

/// The kinds that a run must have, with a name for one of them.
pub const KINDS: (&str, [&str; 11]) =
    ("a kind of map", [MALFORMED, MALFORMED_SMALL, SMALL, NONE, EMPTY, ALL, LEFT, EIGHT, FLAT, BELOW, LIMIT]);

fn refused(answer: usize, room: usize) -> Vec<&'static str> {
    match answer {
        1 if room < ROOM => vec![MALFORMED, MALFORMED_SMALL],
        1 => vec![MALFORMED],
        _ => vec![SMALL],
    }
}

fn drawn(memory: &[u8], text: &str) -> Vec<&'static str> {
    let firsts = peer::board::firsts(&Register::read(memory).expect("a register, since its map is not refused"));
    let points = text.matches("\"Point\"").count();
    let at_limit = |said: &oracle::lines::Said| {
        map::within(said) && (said.lon.unsigned_abs() == 1_800_000_000 || said.lat.unsigned_abs() == 900_000_000)
    };
    let kinds = [
        (EMPTY, firsts.is_empty()),
        (NONE, points == 0 && !firsts.is_empty()),
        (ALL, points == firsts.len() && points > 0),
        (LEFT, 0 < points && points < firsts.len()),
        (EIGHT, points == 8),
        (FLAT, firsts.iter().any(|said| map::within(said) && said.height.is_none())),
        (BELOW, text.contains("-0.")),
        (LIMIT, firsts.iter().any(at_limit)),
    ];
    kinds.into_iter().filter(|kind| kind.1).map(|kind| kind.0).collect()
}

/// Maps on two memories that are alike, into outputs of every room that is told apart: what is counted of them, or the difference in words.
pub fn compare(a: &[u8], b: &[u8]) -> Result<Vec<&'static str>, String> {
    let mut kinds = Vec::new();
    for room in [0, ROOM - 1, ROOM, 16_384] {
        let (mut ours, mut theirs) = (vec![7u8; room], vec![7u8; room]);
        let (x, y) = (binding::map(a, &mut ours), map::map(b, &mut theirs));
        if x != y || ours != theirs {
            return Err(format!("map into {room} bytes: library {x}, peer {y}"));
        }
        kinds.extend(match x {
            1 | 14 => refused(x, room),
            _ => drawn(b, str::from_utf8(&ours[..x]).expect("the peer's text")),
        });
    }
    Ok(kinds)
}
