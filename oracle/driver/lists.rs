//! Item lists with few messages, tags, places and inputs, so that subsets, ties, disagreement and superseding really occur.

use crate::claims;
use crate::random::Random;
use oracle::decide::SIZE;
use oracle::layout::{
    CONSISTENT_AT, IDENTITY_AT, INPUTS_AT, MAX_TAGS, MESSAGE_LENGTH_AT, MODEL_COUNT_AT, MODELS_AT, Mask, PREFERRED_AT, RECORD,
    SPEC_AT, STANDING_AT, TAG_COUNT_AT, TAGS_AT, USED_AT, VERIFIED_AT,
};
use oracle::{Claim, Record};
use std::sync::LazyLock;

/// The latitudes that lists start from.
const BASES: [i32; 2] = [0, 480_123_457];

/// Variances under which 2700 (1e-7 degree) north is just within, at, and just outside the limit, for each of the bases.
static AT_LIMIT: LazyLock<[Vec<f64>; 2]> = LazyLock::new(|| BASES.map(at_limit));

fn at_limit(base: i32) -> Vec<f64> {
    let claim = |lat: i32, v: f64| Claim { lat, lon: 0, height: Some(1_500), covariance: [v, 0.0, 0.0, v, 0.0, v] };
    let judged = |v: f64| oracle::agreement(&claim(base, v), &claim(base + 2_700, v));
    let (unit, limit) = judged(1.0);
    let around = (unit / limit).to_bits();
    let near = |v: &f64| (judged(*v).0.to_bits() as i64 - limit.to_bits() as i64).abs() <= 1;
    (around - 20..around + 20).map(f64::from_bits).filter(near).collect()
}

/// What a list is made of.
struct Style {
    base: usize,
    tags: u64,
    messages: u64,
    steps: u64,
    inputs: u64,
    standings: u64,
    odd: u64,
}

fn tags(random: &mut Random, style: &Style) -> Vec<u64> {
    if random.one_in(3) {
        // A chain: the first tags, so that lists nest.
        return (1..=1 + random.below(style.tags)).collect();
    }
    let chosen: Vec<u64> = (1..=style.tags).filter(|_| random.one_in(2)).collect();
    if chosen.is_empty() { vec![1 + random.below(style.tags)] } else { chosen }
}

fn record(random: &mut Random, style: &Style) -> Record {
    let tags = tags(random, style);
    let all = ((1u32 << tags.len()) - 1) as Mask;
    let message = match random.below(style.messages) {
        0 => vec![0x8d, 0, 0, 0, 0, 0, 0],
        1 => [vec![0x8d], vec![0; 13]].concat(),
        _ => vec![0x8d, 0, 0, 0, 0, 0, 1],
    };
    let covariance = match random.below(style.odd) {
        0 => [0.0; 6],
        1 => [0.0; 6].map(|_: f64| claims::pattern(random)),
        2 => {
            let v = random.pick(&AT_LIMIT[style.base]);
            [v, 0.0, 0.0, v, 0.0, v]
        }
        _ => [100.0, 0.0, 0.0, 100.0, 0.0, 100.0],
    };
    Record {
        time: random.below(3),
        lat: BASES[style.base] + 2_700 * random.below(style.steps) as i32,
        lon: 0,
        height: if random.one_in(8) { None } else { Some(1_500) },
        used: if random.one_in(2) { all } else { random.next() as Mask & all },
        message,
        tags,
        models: Vec::new(),
        spec: 0,
        covariance,
    }
}

fn item(random: &mut Random, style: &Style, identity: [u8; 32]) -> [u8; SIZE] {
    let mut b = [0u8; SIZE];
    b[..RECORD].copy_from_slice(&record(random, style).write());
    b[INPUTS_AT] = random.below(style.inputs) as u8;
    b[IDENTITY_AT..STANDING_AT].copy_from_slice(&identity);
    let standing = match random.below(16) {
        0 => u64::MAX - random.below(2),
        1 => 1 << (random.below(8) * 8),
        _ => random.below(style.standings),
    };
    b[STANDING_AT..CONSISTENT_AT].copy_from_slice(&standing.to_le_bytes());
    b[CONSISTENT_AT] = u8::from(!random.one_in(8)) * random.pick(&[1, 1, 1, 255]);
    b[PREFERRED_AT] = u8::from(random.one_in(12));
    b[VERIFIED_AT] = random.pick(&[0, 1, 1, 2, 3]);
    b
}

/// Different identities that often begin alike.
fn identity(random: &mut Random, at: usize) -> [u8; 32] {
    let mut identity = [0u8; 32];
    match random.below(3) {
        0 => identity[31] = 1,
        1 => identity[0] = random.next() as u8,
        _ => identity.copy_from_slice(&random.bytes(32)),
    }
    identity[16] = at as u8;
    identity
}

fn count(random: &mut Random) -> usize {
    match random.below(40) {
        0 => 96,
        1 => random.below(97) as usize,
        2..=5 => random.below(25) as usize,
        _ => random.below(9) as usize,
    }
}

pub fn list(random: &mut Random) -> Vec<u8> {
    let style = Style {
        base: random.below(2) as usize,
        tags: random.pick(&[2, 3, 3, 4, 6, MAX_TAGS as u64]),
        messages: random.pick(&[1, 1, 1, 3]),
        steps: random.pick(&[1, 2, 3, 3, 4]),
        inputs: random.pick(&[1, 1, 2, 3]),
        standings: random.pick(&[1, 2, 3, 4]),
        odd: random.pick(&[5, 5, 100, 10_000]),
    };
    let mut places: Vec<usize> = (0..count(random)).collect();
    for i in (1..places.len()).rev() {
        places.swap(i, random.below(i as u64 + 1) as usize);
    }
    let mut bytes = Vec::new();
    for at in places {
        let identity = identity(random, at);
        bytes.extend_from_slice(&item(random, &style, identity));
    }
    if random.one_in(32) {
        spoil(random, &mut bytes);
    }
    bytes
}

/// Where the fields of a record begin, and some places within them.
const EDGES: [usize; 13] = [
    16,
    17,
    MESSAGE_LENGTH_AT,
    30,
    TAG_COUNT_AT,
    USED_AT,
    USED_AT + 1,
    TAGS_AT,
    60,
    MODEL_COUNT_AT - 7,
    MODEL_COUNT_AT,
    MODELS_AT,
    SPEC_AT - 1,
];

/// Makes one of the faults that refusal 8 is for, or something near it that is none.
fn spoil(random: &mut Random, bytes: &mut Vec<u8>) {
    let n = bytes.len() / SIZE;
    match random.below(4) {
        0 => {
            let style = Style { base: 0, tags: 3, messages: 1, steps: 3, inputs: 1, standings: 2, odd: 10 };
            while bytes.len() / SIZE < 97 {
                let identity = identity(random, 100 + bytes.len() / SIZE);
                bytes.extend_from_slice(&item(random, &style, identity));
            }
        }
        1 if n > 1 => {
            let (from, to) = (random.below(n as u64) as usize * SIZE, random.below(n as u64) as usize * SIZE);
            bytes.copy_within(from + IDENTITY_AT..from + STANDING_AT, to + IDENTITY_AT);
        }
        2 if n > 0 => {
            let at = random.below(n as u64) as usize * SIZE + random.pick(&EDGES);
            bytes[at] = random.pick(&[0, 1, 2, 7, 14, 16, 17, 64, 255]);
        }
        3 => bytes.extend(random.bytes(1 + random.0 as usize % (SIZE - 1))),
        _ => {}
    }
}

/// Drops items while the lists still differ, then makes fields plain.
pub fn shrink(mut bytes: Vec<u8>, differs: &dyn Fn(&[u8]) -> bool) -> Vec<u8> {
    let mut at = 0;
    while at + SIZE <= bytes.len() {
        let mut fewer = bytes.clone();
        fewer.drain(at..at + SIZE);
        if differs(&fewer) {
            bytes = fewer;
        } else {
            at += SIZE;
        }
    }
    for i in 0..bytes.len() {
        if bytes[i] != 0 {
            let was = std::mem::replace(&mut bytes[i], 0);
            if !differs(&bytes) {
                bytes[i] = was;
            }
        }
    }
    bytes
}
