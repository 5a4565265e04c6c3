//! Calls on tracks that nobody reached. The bytes are made at random, well-formed by the specification's rules and by no others, and the Rust's
//! merge is built from them. And tracks with one byte changed, which are refused exactly where the specification's rules are broken.

use crate::calls::{Call, Growing, inputs};
use crate::cases::{self, Counts, Seen};
use crate::random::Random;
use crate::tracks::{Both, ROOM};
use crate::{binding, claims, measured, tried};
use oracle::formed::formed;
use oracle::layout::{
    CHI2_AT, MAX_TAGS, MESSAGE_LENGTH_AT, MODEL_COUNT_AT, MODELS_AT, Mask, PLACE, RECORD, SHELF, TAGS_AT, USED_AT,
};
use oracle::track::{FIX, FIXES_AT, REFUSED, REFUSED_AT, SIZE, SUMMARIES_AT, SUMMARY, TRANSMISSION, TRANSMISSIONS_AT, Track};
use oracle::{Record, hex};

/// The fixes of a transmission, and the refused.
type Parts = (Vec<Vec<u8>>, Vec<Vec<u8>>);

/// The parts of a track, so that some can be left out again.
#[derive(Clone, Default)]
pub struct Lent {
    convicted: u32,
    contested: u64,
    summaries: Vec<Vec<u8>>,
    transmissions: Vec<Parts>,
}

impl Lent {
    pub fn bytes(&self) -> Vec<u8> {
        let mut b = vec![0u8; SIZE];
        b[..4].copy_from_slice(&self.convicted.to_le_bytes());
        b[4..6].copy_from_slice(&(self.summaries.len() as u16).to_le_bytes());
        b[6] = self.transmissions.len() as u8;
        b[8..16].copy_from_slice(&self.contested.to_le_bytes());
        for (i, summary) in self.summaries.iter().enumerate() {
            b[SUMMARIES_AT + SUMMARY * i..][..SUMMARY].copy_from_slice(summary);
        }
        for (t, (fixes, refused)) in self.transmissions.iter().enumerate() {
            let one = &mut b[TRANSMISSIONS_AT + TRANSMISSION * t..][..TRANSMISSION];
            (one[0], one[1]) = (fixes.len() as u8, refused.len() as u8);
            for (k, fix) in fixes.iter().enumerate() {
                one[FIXES_AT + FIX * k..][..FIX].copy_from_slice(fix);
            }
            for (k, place) in refused.iter().enumerate() {
                one[REFUSED_AT + REFUSED * k..][..REFUSED].copy_from_slice(place);
            }
        }
        b
    }

    /// The same with one part less, for each part.
    fn fewer(&self) -> Vec<Self> {
        let mut all = Vec::new();
        for i in 0..self.summaries.len() {
            let mut less = self.clone();
            less.summaries.remove(i);
            all.push(less);
        }
        for t in 0..self.transmissions.len() {
            let mut less = self.clone();
            less.transmissions.remove(t);
            all.push(less);
            let (fixes, refused) = &self.transmissions[t];
            for k in 0..if fixes.len() > 1 { fixes.len() } else { 0 } {
                let mut less = self.clone();
                less.transmissions[t].0.remove(k);
                all.push(less);
            }
            for k in 0..refused.len() {
                let mut less = self.clone();
                less.transmissions[t].1.remove(k);
                all.push(less);
            }
        }
        all
    }
}

/// Who signed: one engine or more, none of them convicted.
fn signers(random: &mut Random, convicted: u32) -> u32 {
    let some = match random.below(4) {
        0 => random.next() as u32,
        1 => 3 << random.below(5),
        _ => 1 << random.below(5),
    };
    match some & !convicted {
        0 => !convicted & convicted.wrapping_add(1),
        left => left,
    }
}

/// The inputs that a fix was checked under: what its models say now, or anything else.
fn under(random: &mut Random, growing: &Growing, models: &[u8]) -> Vec<u8> {
    let said = |model: &u8| growing.said.iter().find(|((_, other), _)| other == model).map(|(_, (_, first))| inputs(*first));
    let all: Option<Vec<Vec<u8>>> = models.iter().map(said).collect();
    match (random.below(8), all) {
        (0, _) => vec![0; 32],
        (1, _) => random.bytes(32),
        (2, _) | (_, None) => vec![random.below(3) as u8; 32],
        (_, Some(all)) => solver::publish::cited_inputs(all.iter().map(|one| one[..].try_into().unwrap())).to_vec(),
    }
}

/// A record whose tags are those of a transmission of its own, `apart` from the others, or from all.
fn record(random: &mut Random, growing: &Growing, apart: u64) -> Vec<u8> {
    let mut one = growing.record(random);
    one.tags.iter_mut().for_each(|tag| *tag += apart);
    one.write().to_vec()
}

/// A fix; one in four has the message and tags of one before.
fn fix(random: &mut Random, growing: &mut Growing, apart: u64) -> Vec<u8> {
    let again = if random.one_in(4) { growing.repeated(random) } else { None };
    let record = again.unwrap_or_else(|| record(random, growing, apart));
    growing.calls.push(Call::Report { engine: 0, record: record.clone() });
    let models = record[MODELS_AT..][..usize::from(record[MODEL_COUNT_AT])].to_vec();
    let mut fix = record;
    fix.extend_from_slice(&signers(random, growing.convicted).to_le_bytes());
    fix.extend(under(random, growing, &models));
    fix
}

/// A refused fix: any identity that it is kept against, any chi-square.
fn refused(random: &mut Random, growing: &mut Growing, apart: u64) -> Vec<u8> {
    let mut place = fix(random, growing, apart);
    place.extend(if random.one_in(2) { vec![0; 32] } else { random.bytes(32) });
    let chi2 = if random.one_in(2) { 20.0 } else { claims::pattern(random) };
    place.extend_from_slice(&chi2.to_bits().to_le_bytes());
    place
}

fn summaries(random: &mut Random, growing: &mut Growing) -> Vec<Vec<u8>> {
    let wanted = random.pick(&[0, 1, 2, 3, 6, 6, 40, 256]);
    let mut tries = 0;
    while growing.said.len() < wanted && tries < 4_000 {
        let engine = random.below(if wanted > 6 { 32 } else { 5 }) as u8;
        let model = random.below(if wanted > 6 { 64 } else { 3 }) as u8;
        if growing.convicted >> engine & 1 == 0 {
            let first = if random.one_in(8) { 9 } else { model };
            growing.said.insert((engine, model), (u16::from(random.one_in(12)), first));
        }
        tries += 1;
    }
    let place = |((engine, model), (spec, first)): (&(u8, u8), &(u16, u8))| {
        let mut place = vec![*engine, *model];
        place.extend_from_slice(&spec.to_le_bytes());
        place.extend(inputs(*first));
        place
    };
    growing.said.iter().map(place).collect()
}

/// A well-formed track, and what its calls are chosen by.
pub fn track(random: &mut Random) -> (Lent, Growing) {
    let mut growing = Growing::new(random);
    let convicted = match random.below(3) {
        0 => 0,
        1 => 1 << random.below(32),
        _ => random.next() as u32 & random.next() as u32 & 0x7fff_ffff,
    };
    growing.convicted = convicted;
    let contested = random.pick(&[0, 1, 9, u64::MAX, u64::MAX - 1, 1 << 63]);
    let summaries = summaries(random, &mut growing);
    let mut transmissions = Vec::new();
    let apart = random.pick(&[0, 10_000, 10_000, 10_000]);
    for t in 0..random.pick(&[0, 1, 1, 2, 3, 5, 8, 8]) {
        let fixes = (0..1 + random.below(5)).map(|_| fix(random, &mut growing, apart * t)).collect();
        let some = random.pick(&[0, 0, 1, 2, 4]);
        transmissions.push((fixes, (0..some).map(|_| refused(random, &mut growing, apart * t)).collect()));
    }
    (Lent { convicted, contested, summaries, transmissions }, growing)
}

/// A report near a held fix: the tags of its record with one more or one less, so that it is tied to its transmission.
fn near(random: &mut Random, growing: &Growing) -> Option<Call> {
    let mut record = Record::read(&growing.repeated(random)?)?;
    if record.tags.len() > 1 && random.one_in(2) {
        record.tags.remove(random.below(record.tags.len() as u64) as usize);
    } else if record.tags.len() < MAX_TAGS {
        record.tags.push(record.tags[record.tags.len() - 1] + 1 + random.below(3));
    }
    record.used = ((1u32 << record.tags.len()) - 1) as Mask;
    Some(Call::Report { engine: growing.engine(random), record: record.write().to_vec() })
}

fn call(random: &mut Random, growing: &mut Growing) -> Call {
    match random.below(10) {
        0 => growing.conviction(random),
        1 | 2 => growing.summary(random, false),
        3..=6 => near(random, growing).unwrap_or_else(|| growing.report(random)),
        _ => growing.report(random),
    }
}

/// What no list of calls would lead to, or only seldom.
fn features(lent: &Lent, counts: &mut Counts) {
    let mut add = |what: &'static str, so: bool| *counts.entry(what).or_default() += u64::from(so);
    let set = |fix: &Vec<u8>| {
        (fix[MESSAGE_LENGTH_AT..USED_AT].to_vec(), fix[TAGS_AT..MODEL_COUNT_AT].to_vec(), fix[PLACE..FIX].to_vec())
    };
    let twice = |one: &Parts| {
        let mut sets: Vec<_> = one.0.iter().chain(&one.1).map(set).collect();
        sets.sort();
        sets.windows(2).any(|two| two[0] == two[1])
    };
    let time = |one: &Parts| u64::from_le_bytes(one.0[0][..8].try_into().unwrap());
    let all = &lent.transmissions;
    add("lent: one identity twice in a transmission", all.iter().any(twice));
    add("lent: transmissions not in the order of their times", all.windows(2).any(|two| time(&two[0]) > time(&two[1])));
    add("lent: contested of 2^64 - 1", lent.contested == u64::MAX);
    add("lent: 256 summaries", lent.summaries.len() == 256);
    add("lent: 8 transmissions", all.len() == 8);
    let bits = |place: &Vec<u8>| u64::from_le_bytes(place[CHI2_AT..REFUSED].try_into().unwrap());
    let chi2s: Vec<u64> = all.iter().flat_map(|one| one.1.iter().map(bits)).collect();
    measured::stored(&chi2s).for_each(|kind| add(kind, true));
}

/// Makes these calls on a lent track; what is wrong first, in words.
fn run(lent: &Lent, calls: &[Call], both: &mut Both, counts: &mut Counts) -> Result<(), String> {
    let bytes = lent.bytes();
    let Some(rust) = Track::read(&bytes) else {
        return Err("the track is not well-formed".to_string());
    };
    if rust.bytes() != bytes {
        return Err("the Rust's merge does not hold what was lent".to_string());
    }
    both.begin(rust, &bytes);
    both.listing(counts)?;
    for (n, call) in calls.iter().enumerate() {
        let Some(told) = both.call(call, counts).map_err(|words| format!("call {n}: {words}"))? else {
            continue;
        };
        Seen { before: &both.before, after: &both.after, counts }.call(call, told);
        if both.after[15] < both.before[15] {
            *counts.entry("contested passed 2^64").or_default() += 1;
        }
        if !formed(&both.after) {
            return Err(format!("call {n}: the Rust's state breaks the specification's rules"));
        }
    }
    both.listing(counts)
}

fn shrunk(mut lent: Lent, mut calls: Vec<Call>) -> (Lent, Vec<Call>) {
    let wrong = |lent: &Lent, calls: &[Call]| run(lent, calls, &mut Both::fresh(), &mut Counts::new()).is_err();
    calls = crate::calls::shrink(calls, &|calls| wrong(&lent, calls));
    while let Some(less) = lent.fewer().into_iter().find(|less| wrong(less, &calls)) {
        lent = less;
    }
    (lent, calls)
}

fn different(lent: Lent, calls: Vec<Call>) -> ! {
    let (lent, calls) = shrunk(lent, calls);
    let words = run(&lent, &calls, &mut Both::fresh(), &mut Counts::new()).unwrap_err();
    println!("DIFFERENT: lent track, {words}\n  track {}", hex::write(&lent.bytes()));
    calls.iter().for_each(|call| println!("  {call}"));
    std::process::exit(1)
}

/// A byte of the track that is worth changing: in its header, in a used place, or anywhere.
fn place(random: &mut Random, b: &[u8]) -> usize {
    let (said, count) = (u64::from(u16::from_le_bytes([b[4], b[5]])), u64::from(b[6]));
    match random.below(8) {
        0 => random.below(8) as usize,
        1 if said > 0 => SUMMARIES_AT + SUMMARY * random.below(said) as usize + random.below(3) as usize,
        2..=5 if count > 0 => {
            let at = TRANSMISSIONS_AT + TRANSMISSION * random.below(count) as usize;
            match random.below(6) {
                0 => at + random.below(2) as usize,
                1 => at + FIXES_AT + RECORD + random.below(4) as usize,
                2 => at + REFUSED_AT + random.below(REFUSED as u64) as usize,
                _ => at + FIXES_AT + random.below(RECORD as u64) as usize,
            }
        }
        _ => random.below(b.len() as u64) as usize,
    }
}

fn area(at: usize) -> &'static str {
    match at {
        0..4 => "a byte changed: convicted engines",
        4..8 => "a byte changed: counts and the zero byte",
        8..SUMMARIES_AT => "a byte changed: contested",
        SUMMARIES_AT..TRANSMISSIONS_AT => "a byte changed: summaries",
        _ => match (at - TRANSMISSIONS_AT) % TRANSMISSION {
            0 | 1 => "a byte changed: counts of a transmission",
            2..REFUSED_AT => "a byte changed: fixes",
            _ => "a byte changed: refused",
        },
    }
}

/// Whether a call on these bytes is answered 1 and leaves them, and the listing's output too.
fn refuses(bytes: &[u8], call: &Call) -> bool {
    let (mut memory, mut shelf, mut out) = (bytes.to_vec(), vec![0u8; SHELF], vec![7u8; ROOM]);
    let told = call.on_library(&mut memory, &mut shelf);
    let stays = memory == bytes && shelf.iter().all(|&b| b == 0);
    told == 1 && stays && binding::track::listing(bytes, &mut out) == 1 && out.iter().all(|&b| b == 7)
}

/// One byte changed: refused with 1 exactly where the specification's rules are broken. What is still a track is called as any other.
fn damaged(random: &mut Random, bytes: &mut [u8], call: &Call, both: &mut Both, counts: &mut Counts) -> Result<(), String> {
    let at = place(random, bytes);
    bytes[at] = if random.one_in(2) { bytes[at] ^ (1 << random.below(8)) } else { random.next() as u8 };
    let whole = formed(bytes);
    *counts.entry(area(at)).or_default() += 1;
    *counts.entry(if whole { "a byte changed: still a track" } else { "a byte changed: no track, answered 1" }).or_default() += 1;
    let Some(rust) = Track::read(bytes) else {
        let ok = !binding::TRACK || refuses(bytes, call);
        return if ok { Ok(()) } else { Err(format!("byte {at} changed: not well-formed, and not refused with 1")) };
    };
    both.begin(rust, bytes);
    both.call(call, counts).map_err(|words| format!("byte {at} changed: {words}"))?;
    both.listing(counts)
}

/// Lengths that no track has.
fn other_lengths(bytes: &[u8], call: &Call) -> Result<(), String> {
    let mut longer = bytes.to_vec();
    longer.push(0);
    let short = [0, 16, SIZE - 1].map(|length| &bytes[..length]);
    let all = short.into_iter().chain([&longer[..]]);
    for b in all {
        if binding::TRACK && !refuses(b, call) {
            return Err(format!("{} bytes are taken for a track", b.len()));
        }
    }
    Ok(())
}

/// Numbers and outputs that are refused, also where they are one that is taken, modulo 256.
fn other_arguments(bytes: &[u8], counts: &mut Counts) -> Result<(), String> {
    if !binding::TRACK {
        return Ok(());
    }
    *counts.entry("tracks called with engines over 31, models over 63 and outputs too small").or_default() += 1;
    let (mut memory, mut shelf, record, text) = (bytes.to_vec(), vec![0u8; SHELF], [0u8; RECORD], [0u8; 32]);
    let mut told = Vec::new();
    for number in [256, 287, u32::MAX] {
        told.push((binding::track::report(&mut memory, &mut shelf, number, &record), 2));
        told.push((binding::track::convict(&mut memory, &mut shelf, number), 2));
        told.push((binding::track::summary(&mut memory, &mut shelf, number, 64, 0, &[]), 2));
        told.push((binding::track::summary(&mut memory, &mut shelf, 0, number, 0, &text), 9));
    }
    for length in [0, 12, ROOM - 1] {
        let mut out = vec![7u8; length];
        told.push((binding::track::listing(&memory, &mut out) as u32, if out.iter().all(|&b| b == 7) { 10 } else { 0 }));
        told.push((binding::track::listing(&memory[1..], &mut out) as u32, 1));
    }
    let fine = memory == bytes && shelf.iter().all(|&b| b == 0) && told.iter().all(|(a, b)| a == b);
    if fine { Ok(()) } else { Err(format!("answers and what was due {told:?}, bytes alike: {}", memory == bytes)) }
}

fn check_damage(random: &mut Random, lent: &Lent, call: &Call, both: &mut Both, counts: &mut Counts) {
    let mut bytes = lent.bytes();
    let found = other_lengths(&bytes, call)
        .and_then(|()| other_arguments(&bytes, counts))
        .and_then(|()| damaged(random, &mut bytes, call, both, counts));
    if let Err(words) = found {
        println!("DIFFERENT: lent track, {words}\n  track {}\n  {call}", hex::write(&bytes));
        std::process::exit(1);
    }
}

pub fn compare(random: &mut Random, calls: u64) {
    let (mut both, mut counts) = (Both::fresh(), Counts::new());
    let (mut made, mut tracks) = (0, 0);
    while made < calls {
        let (lent, mut growing) = track(random);
        let list: Vec<Call> = (0..1 + random.below(3)).map(|_| call(random, &mut growing)).collect();
        made += list.len() as u64;
        tracks += 1;
        features(&lent, &mut counts);
        if run(&lent, &list, &mut both, &mut counts).is_err() {
            different(lent, list);
        }
        check_damage(random, &lent, &list[0], &mut both, &mut counts);
    }
    println!("lent tracks: {made} calls on {tracks} tracks that nobody reached, {}", crate::beside(binding::TRACK));
    cases::print(&counts);
    let came = |kind: &str| counts.contains_key(kind);
    tried::all(measured::lent(), came, made);
    tried::all(measured::lent_listings(), came, made);
}
