//! The library's join and what is lacking beside the peer's, on pairs of registers that lists of calls leave, and on bytes that are none.
//! Prints what occurred; stops at the first pair that differs, and where a kind that is counted did not occur.

use peer::register::SIZE;
use std::collections::BTreeMap;

#[allow(dead_code)]
#[path = "../driver/random.rs"]
mod random;
use random::Random;

unsafe extern "C" {
    fn tl_register_report(memory: *mut u8, memory_len: usize, engine: u32, record: *const u8, record_len: usize) -> u32;
    fn tl_register_summary(memory: *mut u8, memory_len: usize, engine: u32, model: u32, spec: u16, inputs: *const u8, inputs_len: usize) -> u32;
    fn tl_register_conviction(desk: u32, memory: *mut u8, memory_len: usize, engine: u32) -> u32;
    fn tl_register_join(memory: *mut u8, memory_len: usize, other: *const u8, other_len: usize) -> u32;
    fn tl_register_lacks(memory: *const u8, memory_len: usize, other: *const u8, other_len: usize, out: *mut u8, out_len: usize) -> u32;
}

const MANAGER: u32 = 2;
const RECORD: usize = 288;
const PLACE: usize = RECORD + 4;
const RECORDS_AT: usize = SIZE - 96 * PLACE;
/// What an output holds before.
const FOUND: u8 = 0x5a;

const KINDS: [&str; 22] = [
    "joins taken", "joins refused as full", "full of records", "full of summaries", "joins refused with 1", "with a damaged register", "with a damaged other", "of another length",
    "joins that fill a table to the last place", "joins that change nothing", "joins with a conviction on one side", "joins with convictions on both sides",
    "joins that leave out a record of both", "joins that unite signers", "lists refused as full midway", "lacks of everything there is", "lacks nothing", "lacks only convictions",
    "lacks refused with 1", "lacks refused with 10", "an output longer than a register", "given as calls",
];

#[derive(Default)]
struct Seen(BTreeMap<&'static str, u64>);

impl Seen {
    fn note(&mut self, kind: &'static str, occurred: bool) {
        assert!(KINDS.contains(&kind), "{kind}");
        *self.0.entry(kind).or_default() += u64::from(occurred);
    }
}

fn join(memory: &mut [u8], other: &[u8]) -> u32 {
    unsafe { tl_register_join(memory.as_mut_ptr(), memory.len(), other.as_ptr(), other.len()) }
}

fn lacks(memory: &[u8], other: &[u8], out: &mut [u8]) -> u32 {
    unsafe { tl_register_lacks(memory.as_ptr(), memory.len(), other.as_ptr(), other.len(), out.as_mut_ptr(), out.len()) }
}

fn report(memory: &mut [u8], engine: u32, record: &[u8]) -> u32 {
    unsafe { tl_register_report(memory.as_mut_ptr(), memory.len(), engine, record.as_ptr(), record.len()) }
}

fn convict(memory: &mut [u8], engine: u32) -> u32 {
    unsafe { tl_register_conviction(MANAGER, memory.as_mut_ptr(), memory.len(), engine) }
}

fn state(memory: &mut [u8], engine: u32, model: u32, spec: u16, inputs: &[u8]) -> u32 {
    unsafe { tl_register_summary(memory.as_mut_ptr(), memory.len(), engine, model, spec, inputs.as_ptr(), inputs.len()) }
}

fn record(k: u64) -> [u8; RECORD] {
    let mut r = [0; RECORD];
    r[..8].copy_from_slice(&(k / 3).to_le_bytes());
    r[21] = 7;
    r[36] = 1;
    r[37] = 1;
    r[41..49].copy_from_slice(&(k % 3 + 1).to_le_bytes());
    r
}

/// What a list of calls is made of: so many reports and summaries, of so many engines, records and inputs.
struct Plan {
    reports: u64,
    summaries: u64,
    convictions: u64,
    engines: u64,
    records: u64,
    inputs: u64,
}

fn plan(r: &mut Random) -> Plan {
    let full = r.one_in(12);
    Plan {
        reports: if full { r.pick(&[48, 96, 130]) } else { r.pick(&[0, 1, 2, 5, 12, 40]) },
        summaries: if full { r.pick(&[0, 128, 300]) } else { r.pick(&[0, 0, 1, 3, 10]) },
        convictions: r.pick(&[0, 0, 0, 1, 2]),
        engines: r.pick(&[2, 4, 32]),
        records: r.pick(&[3, 10, 48, 96, 97, 200]),
        inputs: r.pick(&[1, 2, 5]),
    }
}

/// A register that a list of calls leaves, and whether one of them was refused as full.
fn register(r: &mut Random, plan: &Plan) -> (Vec<u8>, bool) {
    let mut memory = vec![0; SIZE];
    let mut full = false;
    let all = plan.reports + plan.summaries;
    let when: Vec<u64> = (0..plan.convictions).map(|_| r.below(all + 1)).collect();
    for k in 0..=all {
        if when.contains(&k) {
            assert_eq!(convict(&mut memory, r.below(plan.engines) as u32), 0);
        }
        if k == all {
            break;
        }
        let engine = r.below(plan.engines) as u32;
        full |= 5 == if r.below(all) < plan.reports {
            report(&mut memory, engine, &record(r.below(plan.records)))
        } else {
            let (model, spec, inputs) = (r.below(64) as u32, r.below(2) as u16, [r.below(plan.inputs) as u8; 32]);
            state(&mut memory, engine, model, spec, &inputs)
        };
    }
    (memory, full)
}

/// Now and then another byte, or another length.
fn damage(r: &mut Random, memory: &mut Vec<u8>) {
    match r.below(4) {
        0 => memory.truncate(r.pick(&[0, 8, SIZE - 1])),
        1 => memory.push(0),
        2 => memory[r.below(8) as usize] ^= 1 << r.below(8),
        _ => memory[r.below(SIZE as u64) as usize] ^= 1 << r.below(8),
    }
}

fn mask(memory: &[u8]) -> u32 {
    u32::from_le_bytes(memory[..4].try_into().unwrap())
}

fn counts(memory: &[u8]) -> (usize, usize) {
    (u16::from_le_bytes([memory[4], memory[5]]).into(), u16::from_le_bytes([memory[6], memory[7]]).into())
}

fn places(memory: &[u8]) -> BTreeMap<&[u8], u32> {
    let place = |p: &'_ [u8]| u32::from_le_bytes(p[RECORD..].try_into().unwrap());
    memory[RECORDS_AT..].chunks_exact(PLACE).take(counts(memory).1).map(|p| (&p[..RECORD], place(p))).collect()
}

/// Gives a register what it lacks, call by call.
fn give(memory: &mut [u8], lacking: &[u8]) -> bool {
    let in_set = |set: u32| (0..32).filter(move |engine| set >> engine & 1 == 1);
    let (summaries, _) = counts(lacking);
    in_set(mask(lacking)).all(|engine| convict(memory, engine) == 0)
        && lacking[8..].chunks_exact(36).take(summaries).all(|p| {
            state(memory, p[0].into(), p[1].into(), u16::from_le_bytes([p[2], p[3]]), &p[4..]) == 0
        })
        && places(lacking).into_iter().all(|(record, signers)| in_set(signers).all(|engine| report(memory, engine, record) == 0))
}

fn differs(number: u64, what: &str, a: u32, b: u32) -> ! {
    eprintln!("oracle/joins: pair {number} differs: {what}: ours {a}, the peer's {b}");
    std::process::exit(1)
}

/// One register lacks of another.
fn compare_lacking(r: &mut Random, number: u64, seen: &mut Seen, memory: &[u8], other: &[u8]) -> Option<Vec<u8>> {
    let size = if r.one_in(20) { r.pick(&[0, SIZE - 1, SIZE + 1, SIZE + 100]) } else { SIZE };
    let (mut ours, mut theirs) = (vec![FOUND; size], vec![FOUND; size]);
    let (a, b) = (lacks(memory, other, &mut ours), peer::join::lacks(memory, other, &mut theirs));
    if a != b || ours != theirs {
        differs(number, "lacks", a, b);
    }
    seen.note("lacks refused with 1", a == 1);
    seen.note("lacks refused with 10", a == 10);
    seen.note("an output longer than a register", a == 0 && size > SIZE);
    if a != 0 {
        return None;
    }
    ours.truncate(SIZE);
    let nothing = ours[4..].iter().all(|&x| x == 0);
    seen.note("lacks nothing", nothing && mask(&ours) == 0);
    seen.note("lacks only convictions", nothing && mask(&ours) != 0);
    seen.note("lacks of everything there is", !nothing && ours == other);
    Some(ours)
}

fn note_join(seen: &mut Seen, memory: &[u8], other: &[u8], joined: &[u8]) {
    let (first, second, both) = (places(memory), places(other), places(joined));
    let convictions = u32::from(mask(memory) != 0) + u32::from(mask(other) != 0);
    seen.note("joins with a conviction on one side", convictions == 1);
    seen.note("joins with convictions on both sides", convictions == 2);
    seen.note("joins that change nothing", memory == joined);
    seen.note("joins that fill a table to the last place", counts(joined).0 == 256 || counts(joined).1 == 96);
    seen.note("joins that leave out a record of both", first.keys().any(|k| second.contains_key(k) && !both.contains_key(k)));
    seen.note("joins that unite signers", both.iter().any(|(k, mask)| first.get(k).is_some_and(|m| m != mask) && second.get(k).is_some_and(|m| m != mask)));
}

fn note_full(seen: &mut Seen, memory: &[u8], other: &[u8]) {
    let convicted = mask(memory) | mask(other);
    let mut records = places(memory);
    for (record, signers) in places(other) {
        *records.entry(record).or_default() |= signers;
    }
    let many = records.values().filter(|signers| **signers & !convicted != 0).count() > 96;
    seen.note("full of records", many);
    seen.note("full of summaries", !many);
}

fn compare(r: &mut Random, number: u64, seen: &mut Seen) {
    let shared = plan(r);
    let (first, second) = if r.one_in(3) { (plan(r), plan(r)) } else { (shared, plan(r)) };
    let second = Plan { records: first.records, inputs: first.inputs, engines: first.engines, ..second };
    let ((mut memory, full), (mut other, also)) = (register(r, &first), register(r, &second));
    seen.note("lists refused as full midway", full || also);
    let damaged = [r.one_in(25), r.one_in(25)];
    if damaged[0] {
        damage(r, &mut memory);
    }
    if damaged[1] {
        damage(r, &mut other);
    }
    let (mut ours, mut theirs) = (memory.clone(), memory.clone());
    let (a, b) = (join(&mut ours, &other), peer::join::join(&mut theirs, &other));
    if a != b || ours != theirs {
        differs(number, "join", a, b);
    }
    seen.note("joins taken", a == 0);
    seen.note("joins refused as full", a == 5);
    seen.note("joins refused with 1", a == 1);
    seen.note("with a damaged register", a == 1 && damaged[0] && !damaged[1]);
    seen.note("with a damaged other", a == 1 && damaged[1] && !damaged[0]);
    seen.note("of another length", a == 1 && (memory.len() != SIZE || other.len() != SIZE));
    let lacking = compare_lacking(r, number, seen, &memory, &other);
    compare_lacking(r, number, seen, &other, &memory);
    if a == 5 {
        note_full(seen, &memory, &other);
    }
    if a != 0 {
        return;
    }
    note_join(seen, &memory, &other, &ours);
    let mut turned = other.clone();
    if join(&mut turned, &memory) != 0 || turned != ours {
        differs(number, "the join in the other order", 0, 0);
    }
    if let Some(lacking) = lacking {
        let (mut joined, mut called) = (memory.clone(), memory.clone());
        if join(&mut joined, &lacking) != 0 || joined != ours {
            differs(number, "the join of what is lacking", 0, 0);
        }
        seen.note("given as calls", true);
        if !give(&mut called, &lacking) || called != ours {
            differs(number, "what is lacking, given as calls", 0, 0);
        }
    }
}

fn main() {
    let word = |name: &str, usual: u64| {
        let words: Vec<String> = std::env::args().collect();
        words.iter().position(|w| w == name).and_then(|i| words.get(i + 1)).and_then(|w| w.parse().ok()).unwrap_or(usual)
    };
    let (count, seed) = (word("--count", 200_000), word("--seed", 52));
    let (mut r, mut seen) = (Random(seed), Seen::default());
    for number in 0..count {
        compare(&mut r, number, &mut seen);
    }
    println!("{count} pairs of registers, library and peer alike");
    for kind in KINDS {
        let n = seen.0.get(kind).copied().unwrap_or(0);
        println!("{n:11}  {kind}");
        if count >= 10_000 && n == 0 {
            eprintln!("oracle/joins: {count} pairs, and none of the kind '{kind}'");
            std::process::exit(1);
        }
    }
}
