//! Pairs of claims: likely ones, and the ones where arithmetic goes wrong first.

use crate::random::Random;
use oracle::Claim;

/// f64 patterns at the edges: zeros, subnormals, the largest, infinities, NaNs with and without payload and sign, and numbers
/// whose products and squares overflow or vanish.
const PATTERNS: [u64; 24] = [
    0x0000_0000_0000_0000,
    0x8000_0000_0000_0000,
    0x0000_0000_0000_0001,
    0x8000_0000_0000_0001,
    0x000f_ffff_ffff_ffff,
    0x0010_0000_0000_0000,
    0x7fef_ffff_ffff_ffff,
    0xffef_ffff_ffff_ffff,
    0x7ff0_0000_0000_0000,
    0xfff0_0000_0000_0000,
    0x7ff8_0000_0000_0000,
    0xfff8_0000_0000_0000,
    0x7ff0_0000_0000_0001,
    0xffff_ffff_ffff_ffff,
    0x3ff0_0000_0000_0000,
    0xbff0_0000_0000_0000,
    0x7e37_e43c_8800_759c,
    0x0000_0000_0000_07e8,
    0x2000_0000_0000_0000,
    0x5ff0_0000_0000_0000,
    0x4059_0000_0000_0000,
    0x3ff0_0000_0000_0001,
    0x3fef_ffff_ffff_ffff,
    0x1ff0_0000_0000_0000,
];

/// Where the quadrant changes, the ends of the i32, and their neighbours.
const EDGES: [i64; 12] = [
    0,
    450_000_000,
    -450_000_000,
    900_000_000,
    -900_000_000,
    1_350_000_000,
    -1_350_000_000,
    1_800_000_000,
    -1_800_000_000,
    2_147_483_647,
    -2_147_483_648,
    1,
];

/// The last and the first angle on either side of each edge between quadrants, and the ends of the i32.
pub const SIDES: [i32; 10] = [
    i32::MIN,
    -1_350_000_001,
    -1_350_000_000,
    -450_000_001,
    -450_000_000,
    449_999_999,
    450_000_000,
    1_349_999_999,
    1_350_000_000,
    i32::MAX,
];

pub fn pattern(random: &mut Random) -> f64 {
    match random.below(4) {
        0 => f64::from_bits(random.next()),
        1 => f64::from_bits(random.pick(&PATTERNS).wrapping_add(random.below(5)).wrapping_sub(2)),
        _ => f64::from_bits(random.pick(&PATTERNS)),
    }
}

fn angle(random: &mut Random) -> i32 {
    match random.below(3) {
        0 => random.next() as i32,
        1 => (random.pick(&EDGES) + random.below(7) as i64 - 3).clamp(i32::MIN.into(), i32::MAX.into()) as i32,
        _ => (random.below(1_800_000_001) as i64 - 900_000_000) as i32,
    }
}

fn height(random: &mut Random) -> Option<i32> {
    match random.below(8) {
        0 | 1 => None,
        2 => Some(random.pick(&[i32::MIN, i32::MAX, 0, -1, 1])),
        3 => Some(random.next() as i32),
        _ => Some(random.below(12_000_000) as i32),
    }
}

/// L Lᵀ of a random L: a covariance as an engine would state it.
fn likely(random: &mut Random) -> [f64; 6] {
    let mut l = || random.unit() * 40.0;
    let (a, b, c, d, e, f) = (l(), l(), l(), l(), l(), l());
    let scale = random.pick(&[1.0, 1.0, 1.0, 0.01, 100.0]);
    [a * a, a * b, a * d, b * b + c * c, b * d + c * e, d * d + e * e + f * f].map(|x: f64| x * scale)
}

/// Symmetric, and as often as not without a factor.
fn doubtful(random: &mut Random) -> [f64; 6] {
    let mut x = || random.pick(&[0.0, -0.0, 1.0, -1.0, 2.0, 4.0, 9.0, 0.5, 1e-3, 100.0]);
    [x(), x(), x(), x(), x(), x()]
}

pub fn covariance(random: &mut Random) -> [f64; 6] {
    match random.below(8) {
        0 => [0.0; 6].map(|_: f64| pattern(random)),
        1 => {
            let mut c = likely(random);
            c[random.below(6) as usize] = pattern(random);
            c
        }
        2 | 3 => doubtful(random),
        4 => {
            let mut scale = || 10f64.powi(random.below(660) as i32 - 330);
            [scale(), 0.0, 0.0, scale(), 0.0, scale()]
        }
        _ => likely(random),
    }
}

/// Two claims. Three in four pairs are near each other, so that the verdict is open.
pub fn pair(random: &mut Random) -> (Claim, Claim) {
    let claim = |random: &mut Random| Claim {
        lat: angle(random),
        lon: angle(random),
        height: height(random),
        covariance: covariance(random),
    };
    let smaller = claim(random);
    let mut larger = claim(random);
    if !random.one_in(4) {
        let reach = random.pick(&[0i32, 3, 300, 10_000, 100_000]);
        let near = |random: &mut Random, x: i32| x.wrapping_add((f64::from(reach) * random.unit()) as i32);
        larger.lat = near(random, smaller.lat);
        larger.lon = near(random, smaller.lon);
        if let (Some(a), Some(b)) = (smaller.height, larger.height.as_mut()) {
            *b = near(random, a);
        }
    }
    (smaller, larger)
}

/// Pairs whose chi-square is the limit or within a few f64 of it: from a pair's chi-square under the unit matrix, the variance
/// that would bring it to the limit, and its neighbours.
pub fn at_limit(random: &mut Random) -> Vec<(Claim, Claim)> {
    let (mut smaller, mut larger) = pair(random);
    smaller.covariance = [1.0, 0.0, 0.0, 1.0, 0.0, 1.0];
    larger.lat = smaller.lat.wrapping_add(random.below(2_000) as i32 - 1_000);
    let (chi2, limit) = oracle::agreement(&smaller, &larger);
    let variance = (chi2 / limit).to_bits();
    let neighbour = |step: u64| {
        let v = f64::from_bits(variance.wrapping_add(step).wrapping_sub(4));
        (Claim { covariance: [v, 0.0, 0.0, v, 0.0, v], ..smaller }, larger)
    };
    (0..9).map(neighbour).collect()
}

/// Variances whose factor is not zero, and under which nine degrees have a quotient or a product that overflows.
const TINY: [f64; 4] = [5e-324, 1e-320, 1e-306, 1e-300];

/// Two rows with a common term of either sign: to the north, what is solved for the east overflows to either side, and the difference to
/// the east is not zero but an error of rounding. Their product, and so the sum, is infinite with either sign.
fn leaning(random: &mut Random) -> [f64; 6] {
    [1e-320, random.pick(&[1e-306, -1e-306]), 0.0, 2e-292, 0.0, 1.0]
}

/// A pair whose covariance has a factor, mostly without a finite sum: nine degrees to the north, under tiny variances.
pub fn overflowing(random: &mut Random) -> (Claim, Claim) {
    let (mut smaller, mut larger) = pair(random);
    let tiny = random.pick(&TINY);
    smaller.covariance = if random.one_in(2) { leaning(random) } else { [tiny, 0.0, 0.0, tiny, 0.0, tiny] };
    (larger.lat, larger.lon) = (smaller.lat.wrapping_add(90_000_000), smaller.lon);
    (smaller, larger)
}

/// Tries simpler pairs that still differ.
pub fn shrink(mut pair: (Claim, Claim), differs: &dyn Fn(&Claim, &Claim) -> bool) -> (Claim, Claim) {
    loop {
        let (a, b) = pair;
        let mut simpler = vec![
            (Claim { lat: 0, ..a }, Claim { lat: b.lat.wrapping_sub(a.lat), ..b }),
            (Claim { lon: 0, ..a }, Claim { lon: b.lon.wrapping_sub(a.lon), ..b }),
            (a, Claim { lat: 0, ..b }),
            (a, Claim { lon: 0, ..b }),
            (Claim { height: None, ..a }, b),
            (a, Claim { height: None, ..b }),
            (Claim { height: Some(0), ..a }, b),
            (a, Claim { height: Some(0), ..b }),
            (a, Claim { lat: b.lat / 2, ..b }),
            (a, Claim { lon: b.lon / 2, ..b }),
        ];
        for i in 0..6 {
            for value in [0.0, 1.0] {
                let (mut c, mut d) = (a, b);
                c.covariance[i] = value;
                d.covariance[i] = value;
                simpler.push((c, b));
                simpler.push((a, d));
            }
        }
        let size = |p: &(Claim, Claim)| size(&p.0) + size(&p.1);
        let found = simpler.into_iter().find(|p| size(p) < size(&pair) && differs(&p.0, &p.1));
        match found {
            Some(p) => pair = p,
            None => return pair,
        }
    }
}

/// How much there is to read in a claim.
fn size(claim: &Claim) -> u64 {
    let number = |x: i32| u64::from(x.unsigned_abs()).min(1 << 32) + u64::from(x != 0);
    let float = |x: f64| match x {
        _ if x.to_bits() == 0 => 0u64,
        1.0 => 1,
        _ => 2,
    };
    number(claim.lat) * 8
        + number(claim.lon) * 8
        + claim.height.map_or(0, |h| 1 + number(h))
        + claim.covariance.iter().map(|&x| float(x)).sum::<u64>()
}
