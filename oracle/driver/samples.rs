//! The sample of track calls for a program that has no Rust at hand: tracks.bin, its input, and tracks.out, what it must print.
//! README.md has the formats.

use crate::calls::{self, Call};
use crate::cases::{self, Counts, Seen};
use crate::random::Random;
use oracle::layout::RECORD;
use oracle::shelf::{self, Shelved};
use oracle::track::SIZE;
use oracle::{Record, blake2s256, hex};
use std::collections::{BTreeMap, BTreeSet};

/// How many lists show each case, how many lists are looked through for them, and how many there are at least, by short ones as they come.
const OF_A_CASE: usize = 3;
const TRIED: usize = 60_000;
const AT_LEAST: usize = 184;
/// The most calls of a list that is taken as it comes.
const SHORT: usize = 9;

/// One kind of call in the sample: the library's calls, and the listing.
fn put_call(out: &mut Vec<u8>, call: &Call) {
    match call {
        Call::Report { engine, record } => {
            out.extend_from_slice(&[0, *engine]);
            out.extend_from_slice(record);
        }
        Call::Summary { engine, model, spec, inputs } => {
            out.extend_from_slice(&[1, *engine, *model]);
            out.extend_from_slice(&spec.to_le_bytes());
            out.extend_from_slice(inputs);
        }
        Call::Convict { engine } => out.extend_from_slice(&[2, *engine]),
    }
}

/// Whether the sample's layout has room for these calls: records and inputs of another length are not in it.
fn fits(calls: &[Call]) -> bool {
    calls.iter().all(|call| match call {
        Call::Report { record, .. } => record.len() == RECORD,
        Call::Summary { inputs, .. } => inputs.len() == 32,
        Call::Convict { .. } => true,
    })
}

/// What comes up in a list, on the Rust's track beside the second writing of the shelf.
fn seen(calls: &[Call]) -> Counts {
    let (mut both, mut counts) = (Shelved::default(), Counts::new());
    let (mut before, mut after) = (vec![0u8; SIZE], vec![0u8; SIZE]);
    for call in calls {
        std::mem::swap(&mut before, &mut after);
        let told = call.on_shelved(&mut both);
        both.track.write(&mut after);
        Seen { before: &before, after: &after, counts: &mut counts }.call(call, told);
    }
    cases::count_heights(&after, &mut counts);
    counts
}

/// Lists that show each case, without the calls that it does not need.
fn chosen(random: &mut Random) -> (Vec<Vec<Call>>, BTreeMap<&'static str, usize>) {
    let (mut lists, mut kept) = (Vec::new(), BTreeMap::new());
    for _ in 0..TRIED {
        let calls = calls::list(random);
        if !fits(&calls) {
            continue;
        }
        for case in seen(&calls).into_keys() {
            let held: &mut usize = kept.entry(case).or_default();
            if *held < OF_A_CASE {
                *held += 1;
                lists.push(calls::shrink(calls.clone(), &|fewer| seen(fewer).contains_key(case)));
            }
        }
    }
    while lists.len() < AT_LEAST {
        let calls = calls::list(random);
        if fits(&calls) && calls.len() <= SHORT {
            lists.push(calls);
        }
    }
    (lists, kept)
}

/// S in M in L, of which S and L disagree, as S M L and as L S M.
fn nested() -> [Vec<Call>; 2] {
    let fix = |tags: u64| Record {
        time: 1000,
        lat: 2700 * (tags as i32 - 1),
        lon: 0,
        height: Some(1500),
        message: vec![0x8d, 0, 0, 0, 0, 0, 0],
        tags: (1..=tags).collect(),
        used: (1 << tags) - 1,
        models: Vec::new(),
        spec: 0,
        covariance: [100.0, 0.0, 0.0, 100.0, 0.0, 100.0],
    };
    let report = |tags: u64| Call::Report { engine: 1, record: fix(tags).write().to_vec() };
    [[1, 2, 3], [3, 1, 2]].map(|order| order.map(report).to_vec())
}

/// A list and what is printed of it: after each call the answer and the hashes of all bytes of the track and of the shelf, in the end
/// (and in the middle of a longer list) the listing.
fn put_list(bin: &mut Vec<u8>, out: &mut String, calls: &[Call]) {
    let middle = if calls.len() > 3 { calls.len() / 2 } else { 0 };
    let count = calls.len() + 1 + usize::from(middle > 0);
    bin.extend_from_slice(&(count as u16).to_le_bytes());
    let mut both = Shelved::default();
    for (n, call) in calls.iter().enumerate() {
        put_call(bin, call);
        let told = call.on_shelved(&mut both).number();
        let hash = |bytes: &[u8]| hex::write(&blake2s256(bytes));
        *out += &format!("answer={told} hash={} shelf={}\n", hash(&both.track.bytes()), hash(&shelf::write(&both.waiting)));
        if n + 1 == middle {
            bin.push(3);
            *out += &both.track.listing();
        }
    }
    bin.push(3);
    *out += &both.track.listing();
    out.push('\n');
}

/// Both files, and how many lists show each case.
pub fn tracks(random: &mut Random) -> (Vec<u8>, String, BTreeMap<&'static str, u64>) {
    let (lists, kept) = chosen(random);
    let (mut bin, mut out, mut shown) = (Vec::new(), String::new(), BTreeMap::new());
    let mut written = BTreeSet::new();
    for calls in nested().iter().chain(&lists) {
        let mut one = Vec::new();
        calls.iter().for_each(|call| put_call(&mut one, call));
        if written.insert(one) {
            seen(calls).into_keys().for_each(|case| *shown.entry(case).or_default() += 1);
            put_list(&mut bin, &mut out, calls);
        }
    }
    assert!(kept.keys().all(|case| shown.contains_key(case)), "each case found is shown");
    shown.insert("lists in all", written.len() as u64);
    (bin, out, shown)
}
