//! The board: what a register's counting records come to; and the board as it would be after a conviction.

use crate::register::{ANALYST, CREW, MANAGER, Register, struck};
use oracle::decide::Decision;
use oracle::layout::RECORD;
use oracle::lines::{self, Said};
use oracle::{Record, blake2s256};

pub const ROOM: usize = 16_384;
const LATEST: usize = 8;
/// How much the times of two that link may differ, in nanoseconds.
pub const LINK_SPAN: u64 = 2_000_000_000;

/// A representative: the first record, by bytes, of its identity.
struct Fix {
    bytes: [u8; RECORD],
    record: Record,
    inputs: [u8; 32],
    identity: [u8; 32],
    signers: u32,
    /// Of all records of its identity.
    times: Vec<u64>,
}

/// A model's spec and inputs, if it has a summary and all its summaries have the same.
fn agreed(register: &Register, model: u8) -> Option<&[u8]> {
    let mut said = register.summaries.iter().filter(|s| s[1] == model).map(|s| &s[2..]);
    let first = said.next()?;
    said.all(|other| other == first).then_some(first)
}

/// What the model inputs of a record are the hash of, if it counts.
pub(crate) fn cited(register: &Register, record: &Record) -> Option<Vec<u8>> {
    let mut bytes = b"tally pair model cited inputs\0".to_vec();
    for &model in &record.models {
        let (spec, inputs) = agreed(register, model)?.split_at(2);
        if spec != record.spec.to_le_bytes() {
            return None;
        }
        bytes.extend_from_slice(inputs);
    }
    Some(bytes)
}

pub(crate) fn identity(record: &Record, inputs: &[u8; 32]) -> [u8; 32] {
    let mut set = vec![record.message.len() as u8];
    set.extend_from_slice(&record.message);
    set.push(record.tags.len() as u8);
    for tag in &record.tags {
        set.extend_from_slice(&tag.to_le_bytes());
    }
    let mut bytes = b"tally merge input set\0".to_vec();
    bytes.extend_from_slice(&blake2s256(&set));
    bytes.extend_from_slice(inputs);
    blake2s256(&bytes)
}

/// The representatives, ascending by identity. Records ascend by bytes, so the first come represents.
fn representatives(register: &Register) -> Vec<Fix> {
    let mut fixes: Vec<Fix> = Vec::new();
    for (bytes, signers) in &register.records {
        let record = Record::read(bytes).expect("a well-formed record");
        let Some(inputs) = cited(register, &record).map(|bytes| blake2s256(&bytes)) else {
            continue;
        };
        let identity = identity(&record, &inputs);
        match fixes.iter_mut().find(|fix| fix.identity == identity) {
            Some(fix) => {
                fix.signers |= signers;
                fix.times.push(record.time);
            }
            None => fixes.push(Fix { bytes: *bytes, times: vec![record.time], record, inputs, identity, signers: *signers }),
        }
    }
    fixes.sort_by_key(|fix| fix.identity);
    fixes
}

/// Message and at least one tag are common.
fn tied(a: &Record, b: &Record) -> bool {
    a.message == b.message && a.tags.iter().any(|tag| b.tags.contains(tag))
}

fn linked(a: &Record, b: &Record) -> bool {
    tied(a, b) && a.time.abs_diff(b.time) <= LINK_SPAN
}

/// Everything linked through any chain, each transmission ascending by identity.
fn transmissions(fixes: &[Fix]) -> Vec<Vec<usize>> {
    let mut left: Vec<usize> = (0..fixes.len()).collect();
    let mut all = Vec::new();
    while !left.is_empty() {
        let mut one = vec![left.remove(0)];
        let mut at = 0;
        while at < one.len() {
            let from = &fixes[one[at]].record;
            let (near, far): (Vec<usize>, Vec<usize>) = left.iter().partition(|&&i| linked(from, &fixes[i].record));
            one.extend(near);
            left = far;
            at += 1;
        }
        one.sort();
        all.push(one);
    }
    all
}

fn decided(fixes: &[Fix], one: &[usize]) -> Decision {
    let mut items = Vec::new();
    for &i in one {
        let fix = &fixes[i];
        items.extend_from_slice(&fix.bytes);
        items.extend_from_slice(&fix.inputs);
        items.extend_from_slice(&fix.identity);
        items.extend_from_slice(&[0; 8]);
        items.extend_from_slice(&[1, 0, 0]);
    }
    oracle::decide::decide(&items).expect("items that can be decided")
}

fn said(fix: &Fix) -> Said {
    let r = &fix.record;
    Said { time: r.time, lat: r.lat, lon: r.lon, height: r.height, weight: r.weight(), signers: fix.signers }
}

/// What is decided of a fix.
#[derive(Clone, Copy, Debug, PartialEq, Eq)]
pub enum Standing {
    Ranked,
    Dominated,
    Refused,
}

/// The record of each representative of a well-formed register, of all transmissions, and what is decided of it.
pub fn standings(register: &Register) -> Vec<([u8; RECORD], Standing)> {
    let fixes = representatives(register);
    let mut all = Vec::new();
    for one in transmissions(&fixes) {
        let d = decided(&fixes, &one);
        let bytes = |at: u8| fixes[one[usize::from(at)]].bytes;
        all.extend(d.ranked.iter().map(|&at| (bytes(at), Standing::Ranked)));
        all.extend(d.dominated.iter().map(|&at| (bytes(at), Standing::Dominated)));
        all.extend(d.refusals.iter().map(|refusal| (bytes(refusal.refused), Standing::Refused)));
    }
    all
}

/// The latest transmissions, oldest first, each with what is decided of its fixes.
fn latest(fixes: &[Fix]) -> Vec<(Vec<usize>, Decision)> {
    let mut decisions: Vec<(Vec<usize>, Decision)> =
        transmissions(fixes).into_iter().map(|one| (one.clone(), decided(fixes, &one))).collect();
    decisions.sort_by_key(|(one, d)| {
        let first = &fixes[one[usize::from(d.ranked[0])]];
        (first.record.time, first.identity)
    });
    decisions.split_off(decisions.len().saturating_sub(LATEST))
}

/// The first ranked fix of each of the latest transmissions, oldest first.
pub fn firsts(register: &Register) -> Vec<Said> {
    let fixes = representatives(register);
    latest(&fixes).iter().map(|(one, d)| said(&fixes[one[usize::from(d.ranked[0])]])).collect()
}

/// The records of a well-formed register that count.
pub fn counting(register: &Register) -> Vec<[u8; RECORD]> {
    let counts = |bytes: &[u8; RECORD]| cited(register, &Record::read(bytes).expect("a well-formed record")).is_some();
    register.records.iter().map(|(bytes, _)| *bytes).filter(counts).collect()
}

/// The heights, in millimetres, that the board of a well-formed register writes: each fix of the latest transmissions has a line.
pub fn heights(register: &Register) -> Vec<i32> {
    let fixes = representatives(register);
    latest(&fixes).iter().flat_map(|(one, _)| one).filter_map(|&at| fixes[at].record.height).collect()
}

/// How times lie in a well-formed register, in nanoseconds.
pub struct Spans {
    /// Between two fixes with a common message and tag.
    pub tied: Vec<u64>,
    /// From the first to the last of a transmission.
    pub transmissions: Vec<u64>,
    /// From the first to the last of the records of one identity.
    pub identities: Vec<u64>,
}

fn span(times: impl Iterator<Item = u64> + Clone) -> u64 {
    times.clone().max().unwrap_or(0) - times.min().unwrap_or(0)
}

pub fn spans(register: &Register) -> Spans {
    let fixes = representatives(register);
    let pairs = fixes.iter().enumerate().flat_map(|(i, a)| fixes[..i].iter().map(move |b| (&a.record, &b.record)));
    Spans {
        tied: pairs.filter(|(a, b)| tied(a, b)).map(|(a, b)| a.time.abs_diff(b.time)).collect(),
        transmissions: transmissions(&fixes).iter().map(|one| span(one.iter().map(|&i| fixes[i].record.time))).collect(),
        identities: fixes.iter().map(|fix| span(fix.times.iter().copied())).collect(),
    }
}

/// The board of a well-formed register.
pub fn text(register: &Register) -> String {
    let fixes = representatives(register);
    let mut out = String::new();
    for (n, (one, d)) in latest(&fixes).iter().enumerate() {
        let fix = |at: u8| &fixes[one[usize::from(at)]];
        let counts = (d.ranked.len(), d.dominated.len(), d.refusals.len());
        out += &lines::header(n + 1, counts.0, counts.1, counts.2);
        for &at in &d.ranked {
            out += &format!("{}\n", lines::line("ranked", &said(fix(at))));
        }
        for &at in &d.dominated {
            out += &format!("{}\n", lines::line("dominated", &said(fix(at))));
        }
        for refusal in &d.refusals {
            out += &format!("{}\n", lines::refused(&said(fix(refusal.refused)), refusal.chi2));
        }
    }
    out
}

/// The board of a well-formed register as a crew sees it: the ranked lines, under headers that give only the number.
pub fn crew_text(register: &Register) -> String {
    let fixes = representatives(register);
    let mut out = String::new();
    for (n, (one, d)) in latest(&fixes).iter().enumerate() {
        out += &format!("transmission={}\n", n + 1);
        for &at in &d.ranked {
            out += &format!("{}\n", lines::line("ranked", &said(&fixes[one[usize::from(at)]])));
        }
    }
    out
}

/// Writes the board of a well-formed register: 10, or the length of what was written.
fn draw(desk: u32, register: &Register, out: &mut [u8]) -> usize {
    if out.len() < ROOM {
        return 10;
    }
    let text = if desk == CREW { crew_text(register) } else { text(register) };
    out[..text.len()].copy_from_slice(text.as_bytes());
    text.len()
}

/// The bytes of a fix of a board as a value: number, role, place and index refused against, signers, identity, whether there is a
/// chi-square, and its bits.
pub const SHOWN: usize = 4 + 4 + 32 + 1 + 8;
pub const FIXES_ROOM: usize = 96 * SHOWN;

/// The fixes of the board of a well-formed register as values, in the order of the lines.
pub fn entries(register: &Register) -> Vec<u8> {
    let fixes = representatives(register);
    let mut out = Vec::new();
    for (n, (one, d)) in latest(&fixes).iter().enumerate() {
        let before = out.len() / SHOWN;
        let refused: Vec<u8> = d.refusals.iter().map(|refusal| refusal.refused).collect();
        let order = [&d.ranked[..], &d.dominated[..], &refused[..]].concat();
        let index = |at: u8| before + order.iter().position(|&other| other == at).expect("a fix of the transmission");
        let mut put = |role: u8, at: u8, against: u8, chi2: Option<u64>| {
            let fix = &fixes[one[usize::from(at)]];
            let place = register.records.iter().position(|(bytes, _)| *bytes == fix.bytes).expect("a held record");
            out.extend_from_slice(&[(n + 1) as u8, role, place as u8, index(against) as u8]);
            out.extend_from_slice(&fix.signers.to_le_bytes());
            out.extend_from_slice(&fix.identity);
            out.push(u8::from(chi2.is_some()));
            out.extend_from_slice(&chi2.unwrap_or(0).to_le_bytes());
        };
        d.ranked.iter().for_each(|&at| put(0, at, at, None));
        d.dominated.iter().for_each(|&at| put(1, at, at, None));
        d.refusals.iter().for_each(|refusal| put(2, refusal.refused, refusal.kept, refusal.chi2));
    }
    out
}

/// These: 1, 10, or how many bytes were written.
pub fn fixes(memory: &[u8], out: &mut [u8]) -> usize {
    let Some(register) = Register::read(memory) else {
        return 1;
    };
    if out.len() < FIXES_ROOM {
        return 10;
    }
    let bytes = entries(&register);
    out[..bytes.len()].copy_from_slice(&bytes);
    bytes.len()
}

/// Board of a desk: 15, 1, 10, or the length of what was written.
pub fn board(desk: u32, memory: &[u8], out: &mut [u8]) -> usize {
    match Register::read(memory) {
        _ if desk > MANAGER => 15,
        Some(register) => draw(desk, &register, out),
        None => 1,
    }
}

/// Preview of a conviction, for an analyst and a manager: the board of what the conviction would leave. It is refused for its desk, then as
/// the conviction is, then as the board is: 15, 16, 1, 2, 10, or the length of what was written.
pub fn preview(desk: u32, memory: &[u8], engine: u32, out: &mut [u8]) -> usize {
    match (desk, struck(memory, engine)) {
        (CREW, _) => 16,
        (ANALYST | MANAGER, Ok(register)) => draw(desk, &register, out),
        (ANALYST | MANAGER, Err(refused)) => refused as usize,
        _ => 15,
    }
}
