//! Writes the replayed lists: a sample of the Rust's answers that covers every branch, for programs that have no Rust at hand.
//! README.md has the formats.

#[path = "binding.rs"]
mod binding;
#[path = "calls.rs"]
mod calls;
#[path = "cases.rs"]
mod cases;
#[path = "claims.rs"]
mod claims;
#[path = "heights.rs"]
mod heights;
#[path = "kinds.rs"]
mod kinds;
#[path = "lists.rs"]
mod lists;
#[path = "random.rs"]
mod random;
#[path = "samples.rs"]
mod samples;

use oracle::Claim;
use oracle::decide::{SIZE, decide, items};
use oracle::measured::{Outcome, outcome};
use random::Random;
use std::collections::BTreeMap;

/// How many cases of each kind are kept, and how many in all at least.
const OF_A_KIND: u64 = 16;
const AT_LEAST: usize = 340;

type Kept = BTreeMap<(&'static str, bool), u64>;

/// Whether one more of this kind is wanted.
fn wanted(kept: &mut Kept, kind: (&'static str, bool), most: u64) -> bool {
    let held = kept.entry(kind).or_default();
    *held += 1;
    *held <= most
}

fn put_claim(out: &mut Vec<u8>, c: &Claim) {
    out.extend_from_slice(&c.lat.to_le_bytes());
    out.extend_from_slice(&c.lon.to_le_bytes());
    out.push(u8::from(c.height.is_some()));
    out.extend_from_slice(&c.height.unwrap_or(0).to_le_bytes());
    for value in &c.covariance {
        out.extend_from_slice(&value.to_bits().to_le_bytes());
    }
}

/// The bytes of an agreement.
const AGREEMENT: usize = 2 * 61 + 17;

fn put_agreement(out: &mut Vec<u8>, a: &Claim, b: &Claim) {
    let (measured, chi2, limit) = match outcome(a, b) {
        Outcome::Inside { chi2, limit } | Outcome::Outside { chi2, limit } => (1, chi2, limit),
        Outcome::Unmeasurable => (0, 0, 0),
    };
    put_claim(out, a);
    put_claim(out, b);
    out.push(measured);
    out.extend_from_slice(&chi2.to_le_bytes());
    out.extend_from_slice(&limit.to_le_bytes());
}

fn agreements(random: &mut Random) -> (Vec<u8>, Kept) {
    let (mut out, mut kept) = (Vec::new(), Kept::new());
    for round in 0..60_000 {
        let pairs = if round % 4 == 0 { claims::at_limit(random) } else { vec![claims::pair(random)] };
        for (a, b) in pairs {
            let (chi2, limit) = oracle::agreement(&a, &b);
            let three = a.height.is_some() && b.height.is_some();
            if wanted(&mut kept, (kinds::kind(&a, chi2, limit, three), three), OF_A_KIND) {
                put_agreement(&mut out, &a, &b);
            }
        }
    }
    (out, kept)
}

/// One decision: the items' length u32, the items, the answer's length u16, the answer.
fn put_decision(out: &mut Vec<u8>, bytes: &[u8]) {
    let mut answer = vec![8];
    if let Some(d) = decide(bytes) {
        answer = vec![0, d.ranked.len() as u8];
        answer.extend_from_slice(&d.ranked);
        answer.push(d.dominated.len() as u8);
        answer.extend_from_slice(&d.dominated);
        answer.push(d.refusals.len() as u8);
        for r in &d.refusals {
            answer.extend_from_slice(&[r.refused, r.kept, u8::from(r.superseded), u8::from(r.chi2.is_some())]);
            answer.extend_from_slice(&r.chi2.unwrap_or(0).to_le_bytes());
        }
    }
    out.extend_from_slice(&(bytes.len() as u32).to_le_bytes());
    out.extend_from_slice(bytes);
    out.extend_from_slice(&(answer.len() as u16).to_le_bytes());
    out.extend_from_slice(&answer);
}

/// The kinds of a list, and how many of each to keep. Long lists are few, since they are large.
fn kinds_of(bytes: &[u8]) -> Vec<(&'static str, u64)> {
    let Some(all) = items(bytes) else {
        let kind = kinds::refusal_kind(bytes);
        return vec![(kind, if bytes.len() > 8 * SIZE { 1 } else { 6 })];
    };
    let long = bytes.len() > 4 * SIZE;
    let found = kinds::features(&all, &decide(bytes).unwrap());
    if all.len() == 96 {
        return vec![("lists of 96 items", 1)];
    }
    found.into_iter().filter(|_| !long).map(|(kind, _)| (kind, OF_A_KIND)).collect()
}

fn decisions(random: &mut Random) -> (Vec<u8>, Kept, usize) {
    let (mut out, mut kept, mut count) = (Vec::new(), Kept::new(), 0);
    for _ in 0..40_000 {
        let bytes = lists::list(random);
        let mut any = false;
        for (kind, most) in kinds_of(&bytes) {
            any |= wanted(&mut kept, (kind, false), most.min(if kind == "lists without items" { 1 } else { most }));
        }
        if any {
            put_decision(&mut out, &bytes);
            count += 1;
        }
    }
    // What is still missing to the least number: short lists, as they come.
    while count < AT_LEAST {
        let bytes = lists::list(random);
        if (2 * SIZE..=4 * SIZE).contains(&bytes.len()) {
            put_decision(&mut out, &bytes);
            count += 1;
        }
    }
    (out, kept, count)
}

fn print(title: &str, kept: &Kept) {
    println!("{title}");
    for ((kind, three), times) in kept {
        println!("  {times:>7} seen  {kind}{}", if *three { ", both heights" } else { "" });
    }
}

fn main() -> std::io::Result<()> {
    let folder = std::env::args().nth(1).expect("a folder");
    let mut random = Random(20);
    let (bytes, kept) = agreements(&mut random);
    print(&format!("agreement.bin: {} cases, {} bytes", bytes.len() / AGREEMENT, bytes.len()), &kept);
    std::fs::write(format!("{folder}/agreement.bin"), bytes)?;
    let (bytes, kept, count) = decisions(&mut random);
    print(&format!("decide.bin: {count} cases, {} bytes", bytes.len()), &kept);
    std::fs::write(format!("{folder}/decide.bin"), bytes)?;
    let (bytes, text, shown) = samples::tracks(&mut Random(20));
    println!("tracks.bin: {} bytes, tracks.out: {} bytes; the lists that show", bytes.len(), text.len());
    cases::print(&shown);
    std::fs::write(format!("{folder}/tracks.bin"), bytes)?;
    std::fs::write(format!("{folder}/tracks.out"), text)
}
