//! Records as values: the library's four functions beside the peer's, and which kinds of their arguments came up.

use crate::binding::value as ours;
use crate::random::Random;
use crate::{binding, tried};
use oracle::layout::{MAX_TAGS, MODEL_COUNT_AT, Mask, RECORD, SPEC_AT, TAGS_AT, USED_AT};
use oracle::{Record, hex};
use peer::values as theirs;
use std::collections::BTreeMap;

type Counts = BTreeMap<&'static str, u64>;

const PAINT: u8 = 7;

const WRITTEN: &str = "records written";
const NOT_WRITTEN: &str = "records not written, since no record says what is passed";

/// Bytes with each first failing check, by its number, from 0: none.
const FAULTS: [&str; 14] = [
    "bytes that are a record",
    "bytes of another length",
    "bytes with a bad height flag",
    "bytes with a height behind no flag",
    "bytes with a bad message length",
    "bytes behind the message",
    "bytes with no tag",
    "bytes with too many tags",
    "bytes with a mask beyond the tags",
    "bytes with tags that do not ascend",
    "bytes behind the tags",
    "bytes with too many models",
    "bytes with a model over 63",
    "bytes behind the models",
];

const INPUTS: [&str; 5] = [
    "model inputs written",
    "model inputs refused with 1",
    "model inputs refused with 3",
    "model inputs refused with 24",
    "model inputs refused with 7",
];

/// Fields, of which one in four is changed so that mostly no record says them.
fn fields(random: &mut Random) -> Record {
    let count = match random.below(4) {
        0 => random.pick(&[1, 2, 23, 24]),
        _ => 1 + random.below(MAX_TAGS as u64) as usize,
    };
    let first = random.pick(&[0, 1, 1 << 31, u64::MAX >> 1]);
    let step = 1 + random.below(1 << 20);
    let length = random.pick(&[7, 14]);
    let mut said = Record {
        time: random.next(),
        lat: random.next() as i32,
        lon: random.next() as i32,
        height: if random.one_in(2) { None } else { Some(random.pick(&[0, -1, i32::MIN, i32::MAX, 1_500_000])) },
        message: random.bytes(length),
        tags: (0..count as u64).map(|i| first + step * i).collect(),
        used: random.next() as Mask & ((1 << count) - 1) as Mask,
        models: (0..random.below(5)).map(|_| random.below(64) as u8).collect(),
        spec: random.next() as u16,
        covariance: [0.0; 6].map(|_: f64| f64::from_bits(random.next())),
    };
    if random.one_in(4) {
        spoil(random, &mut said);
    }
    said
}

fn spoil(random: &mut Random, said: &mut Record) {
    let count = said.tags.len();
    match random.below(9) {
        0 => said.message.truncate(random.below(14) as usize),
        1 => said.tags.clear(),
        2 => said.tags.resize(MAX_TAGS + 1 + random.below(3) as usize, u64::MAX),
        3 => said.tags[count - 1] = said.tags[random.below(count as u64) as usize],
        4 => said.tags.reverse(),
        5 => said.used |= 1u32.checked_shl(count as u32 + random.below(3) as u32).unwrap_or(0),
        6 => said.models.resize(5 + random.below(2) as usize, 0),
        7 => said.models.push(63),
        _ => said.models.push(64 + random.below(192) as u8),
    }
}

fn write(random: &mut Random, said: &Record) -> Result<&'static str, String> {
    let no_height = random.pick(&[0, -1, i32::MIN]);
    let (mut a, mut b) = ([PAINT; RECORD], [PAINT; RECORD]);
    let (x, y) = (ours::write(said, no_height, &mut a), theirs::write(said, &mut b));
    if x != y || a != b {
        return Err(format!("write {said:?}: library {x} {}, peer {y} {}", hex::write(&a), hex::write(&b)));
    }
    Ok(if x == 0 { WRITTEN } else { NOT_WRITTEN })
}

/// Bytes of a record, of which up to three that a check looks at are changed, or which are cut or longer.
fn bytes(random: &mut Random) -> Vec<u8> {
    let mut said = fields(random);
    while theirs::write(&said, &mut [0; RECORD]) != 0 {
        said = fields(random);
    }
    let mut bytes = said.write().to_vec();
    for _ in 0..random.below(4) {
        let at = match random.below(8) {
            0 => 16 + random.below(6),
            1 => 22 + random.below(15),
            2 => USED_AT as u64 + random.below(4),
            3 | 4 => TAGS_AT as u64 + random.below(8 * MAX_TAGS as u64),
            5 => 36,
            _ => MODEL_COUNT_AT as u64 + random.below((SPEC_AT - MODEL_COUNT_AT) as u64),
        };
        bytes[at as usize] = if random.one_in(2) { random.below(26) as u8 } else { random.next() as u8 };
    }
    if random.one_in(20) {
        bytes.resize(random.below(2 * RECORD as u64) as usize, 0);
    }
    bytes
}

/// Why they are no record, which is where the oracle reads none, and their identity.
fn known(random: &mut Random, record: &[u8]) -> Result<&'static str, String> {
    let (x, y) = (ours::fault(record), theirs::fault(record));
    if x != y || (x == 0) != Record::read(record).is_some() {
        return Err(format!("fault of {}: library {x}, peer {y}", hex::write(record)));
    }
    let inputs: [u8; 32] = random.bytes(32).try_into().expect("32 bytes");
    let (mut a, mut b) = ([PAINT; 32], [PAINT; 32]);
    let (c, d) = (ours::identity(record, &inputs, &mut a), theirs::identity_of(record, &inputs, &mut b));
    if c != d || a != b {
        return Err(format!("identity of {}: library {c} {}, peer {d} {}", hex::write(record), hex::write(&a), hex::write(&b)));
    }
    Ok(FAULTS[x as usize])
}

/// A record's model inputs by two memories that are alike: what is counted of them, or the difference in words.
pub fn inputs(a: &[u8], b: &[u8], record: &[u8]) -> Result<&'static str, String> {
    let (mut p, mut q) = ([PAINT; 32], [PAINT; 32]);
    let (x, y) = (ours::inputs(a, record, &mut p), theirs::inputs_of(b, record, &mut q));
    if x != y || p != q {
        return Err(format!("inputs of {}: library {x} {}, peer {y} {}", hex::write(record), hex::write(&p), hex::write(&q)));
    }
    Ok(INPUTS[match x {
        0 => 0,
        1 => 1,
        3 => 2,
        24 => 3,
        _ => 4,
    }])
}

/// The kinds of model inputs that lists of a register's calls must have, with a name for one of them.
pub const INPUTS_KINDS: (&str, [&str; 5]) = ("a kind of a record's model inputs", INPUTS);

pub fn compare(random: &mut Random, times: u64) {
    if !binding::VALUES {
        return println!("records as values: not in the library");
    }
    let mut counts = Counts::new();
    for _ in 0..times {
        let said = fields(random);
        let record = bytes(random);
        for kind in [write(random, &said), known(random, &record)] {
            match kind {
                Ok(kind) => *counts.entry(kind).or_default() += 1,
                Err(words) => {
                    println!("DIFFERENT: {words}");
                    std::process::exit(1);
                }
            }
        }
    }
    println!("records as values: {times} records written, {times} strings of bytes, library and peer alike");
    for (what, times) in &counts {
        println!("  {times:>9}  {what}");
    }
    let kinds = FAULTS.into_iter().chain([WRITTEN, NOT_WRITTEN]);
    tried::all(("a kind of record or of bytes", kinds), |kind| counts.contains_key(kind), times);
}
