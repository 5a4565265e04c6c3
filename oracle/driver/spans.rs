//! Times around the limit of a link, and which cases of it came up.

use crate::random::Random;
use peer::board::{LINK_SPAN, Spans};

/// A whole number of links after zero, or a nanosecond beside that; some an hour later, and now and then the ends of what a time can be.
pub fn time(random: &mut Random) -> u64 {
    let near = LINK_SPAN * (1 + random.below(4)) + random.below(3) - 1;
    match random.below(16) {
        0 => u64::MAX - random.below(2),
        1 => 0,
        2 | 3 => near + 3_600_000_000_000,
        _ => near,
    }
}

const UNDER: &str = "fixes with a common tag: 1,999,999,999 ns apart";
const EXACTLY: &str = "fixes with a common tag: 2,000,000,000 ns apart";
const OVER: &str = "fixes with a common tag: 2,000,000,001 ns apart";
const FAR: &str = "fixes with a common tag: an hour apart or more";
const ENDS: &str = "fixes with a common tag: 2^64 - 1 ns apart";
const LONG: &str = "transmissions longer than a link";
const TWO_TIMES: &str = "identities with times further apart than a link";

/// The kinds that a run must have, with a name for one of them.
pub const KINDS: (&str, [&str; 7]) = ("a case of the limit of a link", [UNDER, EXACTLY, OVER, FAR, ENDS, LONG, TWO_TIMES]);

fn of_pair(apart: u64) -> Option<&'static str> {
    match apart {
        1_999_999_999 => Some(UNDER),
        2_000_000_000 => Some(EXACTLY),
        2_000_000_001 => Some(OVER),
        u64::MAX => Some(ENDS),
        3_600_000_000_000.. => Some(FAR),
        _ => None,
    }
}

/// What is counted of a board.
pub fn kinds(spans: &Spans) -> impl Iterator<Item = &'static str> {
    let pairs = spans.tied.iter().filter_map(|&apart| of_pair(apart));
    let long = spans.transmissions.iter().filter(|&&span| span > LINK_SPAN).map(|_| LONG);
    let times = spans.identities.iter().filter(|&&span| span > LINK_SPAN).map(|_| TWO_TIMES);
    pairs.chain(long).chain(times)
}
