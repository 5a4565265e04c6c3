//! Where nothing was measured: what it came from, how it was written, and which cases of it came up.

use crate::kinds;
use oracle::Claim;
use oracle::decide::{Decision, Refusal};
use oracle::measured::{Outcome, outcome};
use solver::geo::{self, Geodetic};
use solver::linalg;

const INSIDE: &str = "outcome: inside";
const OUTSIDE: &str = "outcome: outside";
const NO_FACTOR: [&str; 2] =
    ["outcome: unmeasurable, two rows without a factor", "outcome: unmeasurable, three rows without a factor"];
const INFINITE: [&str; 2] =
    ["outcome: unmeasurable, a sum of infinity, two rows", "outcome: unmeasurable, a sum of infinity, three rows"];
const BELOW: [&str; 2] = [
    "outcome: unmeasurable, a sum of negative infinity, two rows",
    "outcome: unmeasurable, a sum of negative infinity, three rows",
];
const NAN: [&str; 2] =
    ["outcome: unmeasurable, a sum that is NaN, two rows", "outcome: unmeasurable, a sum that is NaN, three rows"];

/// The kinds of pairs that a run must have, with a name for one of them.
pub const PAIRS: (&str, [&str; 10]) = (
    "an outcome of agreement",
    [INSIDE, OUTSIDE, NO_FACTOR[0], NO_FACTOR[1], INFINITE[0], INFINITE[1], BELOW[0], BELOW[1], NAN[0], NAN[1]],
);

fn place(c: &Claim) -> Geodetic {
    Geodetic {
        lat_deg: f64::from(c.lat) * 1e-7,
        lon_deg: f64::from(c.lon) * 1e-7,
        height_m: f64::from(c.height.unwrap_or(0)) / 1000.0,
    }
}

/// The sum that the Rust has before it makes infinity of what is not finite; nothing where there is no factor.
fn sum(a: &Claim, b: &Claim, rows: usize) -> Option<f64> {
    let (from, to) = (place(a), place(b));
    let difference = linalg::sub(geo::to_ecef(to), geo::to_ecef(from));
    let enu = geo::enu_basis(from.lat_deg, from.lon_deg).map(|axis| linalg::dot(axis, difference));
    let solved = kinds::leading(&a.covariance, rows).cholesky()?.solve(&enu[..rows]);
    Some(enu.iter().zip(solved).map(|(e, x)| e * x).sum())
}

/// What kind of pair this is.
pub fn pair(a: &Claim, b: &Claim) -> &'static str {
    let three = a.height.is_some() && b.height.is_some();
    match outcome(a, b) {
        Outcome::Inside { .. } => INSIDE,
        Outcome::Outside { .. } => OUTSIDE,
        Outcome::Unmeasurable => match sum(a, b, if three { 3 } else { 2 }) {
            None => NO_FACTOR[usize::from(three)],
            Some(f64::INFINITY) => INFINITE[usize::from(three)],
            Some(f64::NEG_INFINITY) => BELOW[usize::from(three)],
            Some(x) if x.is_nan() => NAN[usize::from(three)],
            Some(x) => unreachable!("a sum of {x}"),
        },
    }
}

const CONTESTED: [&str; 2] = ["refusals: contested, unmeasurable", "refusals: contested, with a chi-square"];
const SUPERSEDED: [&str; 2] = ["refusals: superseded, unmeasurable", "refusals: superseded, with a chi-square"];

/// The kinds of refusals that a run must have, with a name for one of them.
pub const REFUSALS: (&str, [&str; 4]) = ("a kind of refusal", [CONTESTED[0], CONTESTED[1], SUPERSEDED[0], SUPERSEDED[1]]);

/// What is counted of a decision.
pub fn refusals(d: &Decision) -> impl Iterator<Item = &'static str> {
    let kind = |r: &Refusal| if r.superseded { SUPERSEDED } else { CONTESTED }[usize::from(r.chi2.is_some())];
    d.refusals.iter().map(kind)
}

/// The chi-squares that a board or a listing writes.
fn written(text: &str) -> impl Iterator<Item = &str> {
    text.lines().filter_map(|line| Some(line.split_once(" chi2=")?.1))
}

pub fn writes_none(text: &str) -> bool {
    written(text).any(|chi2| chi2 == "none")
}

const DIGITS_OF_NAN: &str = "7ff8000000000000";
const DIGITS_BELOW: &str = "fff0000000000000";

pub fn writes_number(text: &str) -> bool {
    written(text).any(|chi2| !["none", DIGITS_OF_NAN, DIGITS_BELOW].contains(&chi2))
}

/// Kinds of texts, each a name and whether one is of it.
type Texts<const N: usize> = [(&'static str, fn(&str) -> bool); N];

const BOARDS: Texts<2> = [("boards with chi2=none", writes_none), ("boards with a chi-square that is a number", writes_number)];

/// Only a lent track has one of the last two: no agreement gives them.
const LISTINGS: Texts<4> = [
    ("listings with chi2=none", writes_none),
    ("listings with a chi-square that is a number", writes_number),
    ("listings with chi2=7ff8000000000000", |text| written(text).any(|chi2| chi2 == DIGITS_OF_NAN)),
    ("listings with chi2=fff0000000000000", |text| written(text).any(|chi2| chi2 == DIGITS_BELOW)),
];

fn of(kinds: &'static [(&'static str, fn(&str) -> bool)], text: &str) -> impl Iterator<Item = &'static str> {
    kinds.iter().filter(move |kind| kind.1(text)).map(|kind| kind.0)
}

/// What is counted of a board.
pub fn board(text: &str) -> impl Iterator<Item = &'static str> {
    of(&BOARDS, text)
}

/// What is counted of a listing.
pub fn listing(text: &str) -> impl Iterator<Item = &'static str> {
    of(&LISTINGS, text)
}

/// The kinds that a run must have, with a name for one of them: of boards, of listings after calls from a fresh track, and of listings of
/// lent tracks.
pub fn boards() -> (&'static str, impl Iterator<Item = &'static str>) {
    ("a kind of chi-square on a board", BOARDS.iter().map(|kind| kind.0))
}

pub fn listings() -> (&'static str, impl Iterator<Item = &'static str>) {
    ("a kind of chi-square in a listing", LISTINGS[..2].iter().map(|kind| kind.0))
}

pub fn lent_listings() -> (&'static str, impl Iterator<Item = &'static str>) {
    ("a kind of chi-square in a listing of a lent track", LISTINGS.iter().map(|kind| kind.0))
}

/// Kinds of chi-squares that a lent track holds, by their bits; a number and a NaN stand next to infinity.
const STORED: [(&str, fn(u64) -> bool); 6] = [
    ("lent: a chi-square of infinity", |bits| bits == 0x7ff0_0000_0000_0000),
    ("lent: a chi-square of negative infinity", |bits| bits == 0xfff0_0000_0000_0000),
    ("lent: a chi-square of the largest number", |bits| bits == 0x7fef_ffff_ffff_ffff),
    ("lent: a chi-square of the NaN after infinity", |bits| bits == 0x7ff0_0000_0000_0001),
    ("lent: a chi-square that is a NaN", |bits| f64::from_bits(bits).is_nan()),
    ("lent: a chi-square that is a number", |bits| f64::from_bits(bits).is_finite()),
];

/// What is counted of a lent track that holds these chi-squares.
pub fn stored(bits: &[u64]) -> impl Iterator<Item = &'static str> {
    STORED.iter().filter(|kind| bits.iter().any(|&one| kind.1(one))).map(|kind| kind.0)
}

/// The kinds that a run must have, with a name for one of them.
pub fn lent() -> (&'static str, impl Iterator<Item = &'static str>) {
    ("a kind of chi-square in a lent track", STORED.iter().map(|kind| kind.0))
}
