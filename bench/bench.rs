//! Times the static library beside others in one run and prints the ratios.

#[path = "../oracle/driver/binding.rs"]
mod binding;
#[path = "../oracle/driver/calls.rs"]
mod calls;
#[path = "../oracle/driver/claims.rs"]
mod claims;
#[path = "../oracle/driver/heights.rs"]
mod heights;
#[path = "../oracle/driver/random.rs"]
mod random;
mod tracks;

use binding::value;
use oracle::decide::{SIZE, candidates};
use oracle::layout::{CONSISTENT_AT, IDENTITY_AT, MAX_TAGS, Mask, RECORD, STANDING_AT};
use oracle::{Claim, Record};
use peer::register::{CREW, MANAGER};
use random::Random;
use std::hint::black_box;
use std::time::Instant;

unsafe extern "C" {
    /// libb2's one-call form.
    fn blake2s(out: *mut u8, input: *const u8, key: *const u8, outlen: usize, inlen: usize, keylen: usize) -> i32;
    /// The C library's.
    fn memcmp(a: *const u8, b: *const u8, n: usize) -> i32;
}

/// How long one batch should take, and how many batches of each side are timed.
const BATCH_NS: f64 = 4e6;
const ROUNDS: usize = 25;

fn batch(times: u64, work: &mut dyn FnMut()) -> f64 {
    let start = Instant::now();
    for _ in 0..times {
        work();
    }
    start.elapsed().as_nanos() as f64 / times as f64
}

/// How often to call so that a batch is long enough.
fn enough(work: &mut dyn FnMut()) -> u64 {
    let mut times = 1;
    loop {
        let each = batch(times, work);
        if each * times as f64 > BATCH_NS / 8.0 {
            return (BATCH_NS / each).ceil() as u64;
        }
        times *= 2;
    }
}

fn median(mut all: Vec<f64>) -> f64 {
    all.sort_by(f64::total_cmp);
    all[all.len() / 2]
}

fn least(all: &[f64]) -> f64 {
    all.iter().copied().fold(f64::INFINITY, f64::min)
}

/// The two sides take turns, so that what else the machine does falls on both.
fn race(ours: &mut dyn FnMut(), theirs: &mut dyn FnMut()) -> (Vec<f64>, Vec<f64>) {
    let (a, b) = (enough(ours), enough(theirs));
    (0..ROUNDS).map(|_| (batch(a, ours), batch(b, theirs))).unzip()
}

/// A line of the table; `per` calls are in one piece of work.
fn line(what: &str, against: &str, per: f64, has: bool, ours: &mut dyn FnMut(), theirs: &mut dyn FnMut()) {
    if !has {
        let times = enough(theirs);
        let all: Vec<f64> = (0..ROUNDS).map(|_| batch(times, theirs)).collect();
        return println!("| {what} | {against} | not in the library | {:.1} | - | - |", least(&all) / per);
    }
    let (a, b) = race(ours, theirs);
    let paired = median(a.iter().zip(&b).map(|(x, y)| x / y).collect());
    let (x, y) = (least(&a), least(&b));
    println!("| {what} | {against} | {:.1} | {:.1} | {:.2} | {paired:.2} |", x / per, y / per, x / y);
}

fn hash(random: &mut Random, length: usize) {
    let input = random.bytes(length);
    let mut ours = || {
        black_box(binding::blake2s256(black_box(&input)));
    };
    let mut theirs = || {
        let mut out = [0u8; 32];
        let from = black_box(&input);
        unsafe { blake2s(out.as_mut_ptr(), from.as_ptr(), std::ptr::null(), 32, from.len(), 0) };
        black_box(out);
    };
    line(&format!("hash, {length} bytes"), "libb2", 1.0, binding::HASH, &mut ours, &mut theirs);
}

fn root(random: &mut Random) {
    let values: Vec<f64> = (0..1024).map(|_| (random.unit() + 1.0) * 10f64.powi(random.below(12) as i32 - 4)).collect();
    let mut ours = || {
        for x in &values {
            black_box(binding::root(black_box(*x)));
        }
    };
    let mut theirs = || {
        for x in &values {
            black_box(black_box(*x).sqrt());
        }
    };
    line("root", "the machine's sqrt", 1024.0, binding::ROOT, &mut ours, &mut theirs);
}

fn pairs(random: &mut Random) -> Vec<(Claim, Claim)> {
    let one = |random: &mut Random| {
        let lat = (random.below(1_200_000_000) as i64 - 600_000_000) as i32;
        let lon = (random.below(3_600_000_000) as i64 - 1_800_000_000) as i32;
        let smaller = Claim { lat, lon, height: Some(1_500_000), covariance: [100.0, 10.0, 5.0, 90.0, -7.0, 400.0] };
        let near = random.below(2_000) as i32 - 1_000;
        (smaller, Claim { lat: lat + near, lon: lon - near, height: Some(1_510_000), ..smaller })
    };
    (0..256).map(|_| one(random)).collect()
}

fn agreement(random: &mut Random) {
    let pairs = pairs(random);
    let mut ours = || {
        for (a, b) in &pairs {
            black_box(binding::agreement(black_box(a), black_box(b)));
        }
    };
    let mut theirs = || {
        for (a, b) in &pairs {
            black_box(oracle::agreement(black_box(a), black_box(b)));
        }
    };
    line("agreement", "the Rust, with our sine", 256.0, binding::AGREEMENT, &mut ours, &mut theirs);
    #[cfg(real_libm)]
    {
        let mut real = || {
            for (a, b) in &pairs {
                black_box(oracle::real::agreement(black_box(a), black_box(b)));
            }
        };
        line("agreement", "the Rust, with the real libm", 256.0, binding::AGREEMENT, &mut ours, &mut real);
    }
}

/// Nested items: the first has one tag, the next two, and so on to 16, then again from one.
fn nested(random: &mut Random, n: usize) -> Vec<u8> {
    let mut bytes = Vec::new();
    for i in 0..n {
        let count = i % 16 + 1;
        let record = Record {
            time: 1_000,
            lat: 480_000_000 + random.below(200) as i32,
            lon: 110_000_000 + random.below(200) as i32,
            height: Some(1_500_000 + random.below(5_000) as i32),
            message: vec![0x8d, 1, 2, 3, 4, 5, 6, 7, 8, 9, 10, 11, 12, 13],
            tags: (1..=count as u64).collect(),
            used: ((1u32 << count) - 1) as Mask,
            models: vec![5],
            spec: 3,
            covariance: [100.0, 10.0, 5.0, 90.0, -7.0, 400.0],
        };
        let mut item = [0u8; SIZE];
        item[..RECORD].copy_from_slice(&record.write());
        item[IDENTITY_AT..STANDING_AT].copy_from_slice(&random.bytes(32));
        item[CONSISTENT_AT] = 1;
        bytes.extend_from_slice(&item);
    }
    bytes
}

fn decide(random: &mut Random, n: usize) {
    let bytes = nested(random, n);
    let ready = candidates(&bytes).expect("well-formed items");
    let mut answer = [0u8; binding::ANSWER];
    let mut ours = || {
        black_box(binding::decide_into(black_box(&bytes), &mut answer));
        black_box(&answer);
    };
    let mut theirs = || {
        black_box(solver::standing::decide(black_box(&ready)));
    };
    let mut from_bytes = || {
        let ready = candidates(black_box(&bytes)).unwrap();
        black_box(solver::standing::decide(&ready));
    };
    let what = format!("decide, {n} items");
    line(&what, "the Rust, items in structs", 1.0, binding::DECIDE, &mut ours, &mut theirs);
    line(&what, "the Rust, items read from the same bytes", 1.0, binding::DECIDE, &mut ours, &mut from_bytes);
    let (mut answer, mut given) = ([0u8; binding::ANSWER], [0u8; binding::ANSWER]);
    let mut any = || {
        black_box(binding::decide_any_into(black_box(&bytes), &mut answer));
        black_box(&answer);
    };
    let mut in_order = || {
        black_box(binding::decide_into(black_box(&bytes), &mut given));
        black_box(&given);
    };
    let mut sorted = || {
        black_box(oracle::decide::decide_any(black_box(&bytes)));
    };
    let what = format!("decide in any order, {n} items");
    line(&what, "the decision in the order given", 1.0, binding::DECIDE_ANY, &mut any, &mut in_order);
    line(&what, "the Rust, items read from the same bytes and sorted", 1.0, binding::DECIDE_ANY, &mut any, &mut sorted);
}

/// A full register, made by the peer: 96 records of 24 tags and 256 summaries, with the last record and summary put in. They differ
/// in their first bytes, or, where they are alike, in their last alone, so that each is compared whole with the next.
fn full_register(alike: bool) -> (Vec<u8>, Vec<u8>, [u8; 32]) {
    let mut memory = vec![0u8; peer::register::SIZE];
    let (mut record, mut inputs) = (Vec::new(), [7u8; 32]);
    for i in 0..96u32 {
        let one = Record {
            time: if alike { 1_000 } else { u64::from(1_000 + i) },
            lat: 480_000_000,
            lon: 110_000_000,
            height: Some(1_500_000),
            message: vec![0x8d, 1, 2, 3, 4, 5, 6, 7, 8, 9, 10, 11, 12, 13],
            tags: (1..=MAX_TAGS as u64).collect(),
            used: ((1u64 << MAX_TAGS) - 1) as Mask,
            models: vec![5],
            spec: 3,
            covariance: [100.0, 10.0, 5.0, 90.0, -7.0, if alike { 400.0 + f64::from(i) } else { 400.0 }],
        };
        record = one.write().to_vec();
        assert_eq!(peer::register::report(&mut memory, 3, &record), 0);
    }
    for i in 0..256u32 {
        inputs[31] = i as u8;
        let (engine, model) = if alike { (3, 63) } else { (i / 64, i % 64) };
        assert_eq!(peer::register::summary(&mut memory, engine, model, 3, &inputs), 0);
    }
    (memory, record, inputs)
}

/// Calls that leave a full register as it is: what is held is reported or given again, and a new record finds no place. Each reads
/// the register once, to see that it is one, and looks for the place.
fn register(alike: bool) {
    let (memory, held, inputs) = full_register(alike);
    let copy = memory.clone();
    let mut compared = || {
        let (a, b) = (black_box(&memory), black_box(&copy));
        black_box(unsafe { memcmp(a.as_ptr(), b.as_ptr(), a.len()) });
    };
    let mut new = held.clone();
    new[RECORD - 1] ^= 1;
    let (mut m, mut n) = (memory.clone(), memory.clone());
    let mut peers = || {
        black_box(peer::register::report(&mut n, 3, black_box(&held)));
    };
    let name = |what: &str| format!("{what}, full register{}", if alike { ", all but the last bytes alike" } else { "" });
    let against = "memcmp of 37,256 bytes";
    let has = binding::REGISTER;
    assert!(!has || binding::report(&mut m, 3, &held) == 0 && binding::report(&mut m, 3, &new) == 5);
    assert!(!has || binding::summary(&mut m, 3, 63, 3, &inputs) == 0 && m == memory);
    let mut report = || {
        black_box(binding::report(&mut m, 3, black_box(&held)));
    };
    line(&name("report"), against, 1.0, has, &mut report, &mut compared);
    line(&name("report"), "the peer", 1.0, has, &mut report, &mut peers);
    let mut refused = || {
        black_box(binding::report(&mut m, 3, black_box(&new)));
    };
    line(&name("report refused"), against, 1.0, has, &mut refused, &mut compared);
    let mut summary = || {
        black_box(binding::summary(&mut m, 3, 63, 3, black_box(&inputs)));
    };
    line(&name("summary"), against, 1.0, has, &mut summary, &mut compared);
}

/// The time and the tags of one of 96 fixes in so many transmissions. The tags of one transmission are nested, so that its fixes are
/// compared.
fn grouped(transmissions: u64, i: u64) -> (u64, Vec<u64>) {
    let each = 96 / transmissions;
    let (group, depth) = (i / each, i % each);
    // A chain: each fix has the group's first tag, and ever more others.
    (1_000 + group, (0..=depth % 15).map(|k| 1_000 * group + if k == 0 { 0 } else { 16 * (depth / 15) + k }).collect())
}

/// The same of one that has a tag in common with all others, and is an hour from each.
fn restarted(i: u64) -> (u64, Vec<u64>) {
    (3_600_000_000_000 * i, vec![1, 2 + i])
}

/// A register of 96 records, made by the peer: the time and the tags of each, and the engine that reports it.
fn reported(chosen: impl Fn(u64) -> (u64, Vec<u64>), engine: impl Fn(u64) -> u32) -> Vec<u8> {
    let mut memory = vec![0u8; peer::register::SIZE];
    for i in 0..96u64 {
        let (time, tags) = chosen(i);
        let one = Record {
            time,
            lat: 480_000_000 + i as i32,
            lon: 110_000_000,
            height: Some(1_500_000),
            message: vec![0x8d, 1, 2, 3, 4, 5, 6, 7, 8, 9, 10, 11, 12, 13],
            used: ((1u64 << tags.len()) - 1) as Mask,
            tags,
            models: vec![],
            spec: 3,
            covariance: [100.0, 10.0, 5.0, 90.0, -7.0, 400.0],
        };
        assert_eq!(peer::register::report(&mut memory, engine(i), &one.write()), 0);
    }
    memory
}

/// Full boards: 96 records.
fn board(what: &str, chosen: impl Fn(u64) -> (u64, Vec<u64>)) {
    let memory = reported(chosen, |_| 3);
    let (mut a, mut b) = (vec![0u8; 16_384], vec![0u8; 16_384]);
    let has = binding::BOARD;
    assert!(!has || binding::board(MANAGER, &memory, &mut a) == peer::board::board(MANAGER, &memory, &mut b) && a == b);
    let mut ours = || {
        black_box(binding::board(MANAGER, black_box(&memory), &mut a));
    };
    let mut theirs = || {
        black_box(peer::board::board(MANAGER, black_box(&memory), &mut b));
    };
    line(&format!("board, 96 records {what}"), "the peer", 1.0, has, &mut ours, &mut theirs);
    crew(what, &memory);
}

/// A crew's board beside the full one.
fn crew(what: &str, memory: &[u8]) {
    let (mut a, mut b) = (vec![0u8; 16_384], vec![0u8; 16_384]);
    let mut ours = || {
        black_box(binding::board(CREW, black_box(memory), &mut a));
    };
    let mut full = || {
        black_box(binding::board(MANAGER, black_box(memory), &mut b));
    };
    line(&format!("a crew's board, 96 records {what}"), "the full board", 1.0, binding::BOARD, &mut ours, &mut full);
}

/// A map of 96 records, beside the library's own board of the same register, and beside the peer's map.
fn map(what: &str, memory: &[u8]) {
    if !binding::MAP {
        return println!("| map, {what} | a board of the same register | not in the library | - | - | - |");
    }
    let (mut a, mut b, mut board) = (vec![7u8; 4_096], vec![7u8; 4_096], vec![7u8; 16_384]);
    assert!(binding::map(memory, &mut a) == peer::map::map(memory, &mut b) && a == b);
    let mut ours = || {
        black_box(binding::map(black_box(memory), &mut a));
    };
    let mut drawn = || {
        black_box(binding::board(MANAGER, black_box(memory), &mut board));
    };
    let mut theirs = || {
        black_box(peer::map::map(black_box(memory), &mut b));
    };
    line(&format!("map, {what}"), "a board of the same register", 1.0, true, &mut ours, &mut drawn);
    line(&format!("map, {what}"), "the peer", 1.0, true, &mut ours, &mut theirs);
}

/// The fixes of a board as values, beside the library's own board of the same register, and beside the peer's.
fn fixes(what: &str, memory: &[u8]) {
    if !binding::FIXES {
        return println!("| fixes of a board, {what} | a board of the same register | not in the library | - | - | - |");
    }
    let room = peer::board::FIXES_ROOM;
    let (mut a, mut b, mut board) = (vec![7u8; room], vec![7u8; room], vec![7u8; 16_384]);
    assert!(binding::fixes(memory, &mut a) == peer::board::fixes(memory, &mut b) && a == b);
    let mut ours = || {
        black_box(binding::fixes(black_box(memory), &mut a));
    };
    let mut drawn = || {
        black_box(binding::board(MANAGER, black_box(memory), &mut board));
    };
    let mut theirs = || {
        black_box(peer::board::fixes(black_box(memory), &mut b));
    };
    line(&format!("fixes of a board, {what}"), "a board of the same register", 1.0, true, &mut ours, &mut drawn);
    line(&format!("fixes of a board, {what}"), "the peer", 1.0, true, &mut ours, &mut theirs);
}

/// A record as a value, beside the peer; and its model inputs by a full register, beside a memcmp of that too.
fn values() {
    if !binding::VALUES {
        return println!("| records as values | the peer | not in the library | - | - | - |");
    }
    let (memory, held, inputs) = full_register(false);
    let said = Record::read(&held).expect("a held record");
    let (mut a, mut b) = ([0u8; RECORD], [0u8; RECORD]);
    let mut ours = || {
        black_box(value::write(black_box(&said), 0, &mut a));
    };
    let mut theirs = || {
        black_box(peer::values::write(black_box(&said), &mut b));
    };
    line("record written, 24 tags", "the peer", 1.0, true, &mut ours, &mut theirs);
    let mut ours = || {
        black_box(value::fault(black_box(&held)));
    };
    let mut theirs = || {
        black_box(peer::values::fault(black_box(&held)));
    };
    line("fault of a record, 24 tags: none", "the peer", 1.0, true, &mut ours, &mut theirs);
    let (mut a, mut b) = ([0u8; 32], [0u8; 32]);
    let mut ours = || {
        black_box(value::identity(black_box(&held), &inputs, &mut a));
    };
    let mut theirs = || {
        black_box(peer::values::identity_of(black_box(&held), &inputs, &mut b));
    };
    line("identity of a record, 24 tags", "the peer", 1.0, true, &mut ours, &mut theirs);
    model_inputs(&memory, &held);
}

fn model_inputs(memory: &[u8], held: &[u8]) {
    let copy = memory.to_vec();
    let (mut a, mut b) = ([0u8; 32], [0u8; 32]);
    let mut ours = || {
        black_box(value::inputs(black_box(memory), black_box(held), &mut a));
    };
    let mut theirs = || {
        black_box(peer::values::inputs_of(black_box(memory), black_box(held), &mut b));
    };
    let mut compared = || {
        let (a, b) = (black_box(memory), black_box(&copy));
        black_box(unsafe { memcmp(a.as_ptr(), b.as_ptr(), a.len()) });
    };
    let name = "model inputs of a record, full register";
    line(name, "memcmp of 37,256 bytes", 1.0, true, &mut ours, &mut compared);
    line(name, "the peer", 1.0, true, &mut ours, &mut theirs);
}

/// Maps, and fixes as values, of registers whose records are one transmission, eight, or one each; and a map of none.
fn maps() {
    map("empty register", &vec![0u8; peer::register::SIZE]);
    for transmissions in [1, 8, 96] {
        let memory = reported(|i| grouped(transmissions, i), |_| 3);
        map(&format!("96 records in {transmissions} transmissions"), &memory);
        fixes(&format!("96 records in {transmissions} transmissions"), &memory);
    }
}

/// A preview of a conviction, beside the library's own conviction and board on a copy that is made each time.
fn preview(what: &str, memory: &[u8], engine: u32) {
    let (name, against) = (format!("preview, {what}"), "conviction and board on a copy by memcpy");
    if !binding::PREVIEW {
        return println!("| {name} | {against} | not in the library | - | - | - |");
    }
    let on_copy = |copy: &mut [u8], out: &mut [u8]| {
        copy.copy_from_slice(black_box(memory));
        assert_eq!(binding::convict(MANAGER, copy, engine), 0);
        binding::board(MANAGER, copy, out)
    };
    let (mut copy, mut a, mut b) = (memory.to_vec(), vec![7u8; 16_384], vec![7u8; 16_384]);
    assert!(binding::preview(MANAGER, memory, engine, &mut a) == on_copy(&mut copy, &mut b) && a == b);
    let mut ours = || {
        black_box(binding::preview(MANAGER, black_box(memory), engine, &mut a));
    };
    let mut theirs = || {
        black_box(on_copy(&mut copy, &mut b));
    };
    line(&name, against, 1.0, true, &mut ours, &mut theirs);
}

/// Previews of registers in which nothing goes, half of the records go, or all do.
fn previews() {
    preview("empty register", &vec![0u8; peer::register::SIZE], 3);
    for transmissions in [1, 8, 96] {
        let memory = reported(|i| grouped(transmissions, i), |i| 3 + i as u32 % 2);
        preview(&format!("96 records in {transmissions} transmissions, half of them go"), &memory, 3);
    }
    let memory = reported(|i| grouped(8, i), |_| 3);
    preview("96 records in 8 transmissions, none goes", &memory, 4);
    preview("96 records in 8 transmissions, all go", &memory, 3);
    let (memory, _, _) = full_register(false);
    preview("full register, 64 of 256 summaries go", &memory, 0);
    preview("full register, 64 of 256 summaries and all records go", &memory, 3);
}

/// The sessions of the program `test_sessions`, each behind its length.
fn sessions_read() -> Vec<&'static [u8]> {
    let (mut rest, mut all) = (&include_bytes!("../crates/test_sessions/stdin")[..], Vec::new());
    while let Some((size, behind)) = rest.split_first_chunk() {
        let (session, behind) = behind.split_at(u32::from_le_bytes(*size) as usize);
        all.push(session);
        rest = behind;
    }
    all
}

/// A whole session in one call on a register of zeros, and its board, beside the peer's.
fn session(what: &str, input: &[u8]) {
    if !binding::SESSION {
        return println!("| session and board, {what} | the peer | not in the library | - | - | - |");
    }
    let (mut memory, mut out, mut board) = (vec![0u8; peer::register::SIZE], vec![7u8; 65_536], vec![7u8; 16_384]);
    let mut perform = || {
        memory.fill(0);
        let length = binding::session(&mut memory, black_box(input), &mut out);
        (length, binding::board(MANAGER, &memory, &mut board))
    };
    let (length, drawn) = perform();
    let printed = peer::session::session(input);
    let quiet = b"transmissions=0\n";
    assert!([&out[..length], if drawn == 0 { quiet } else { &board[..drawn] }].concat() == printed.as_bytes());
    let mut perform = || {
        memory.fill(0);
        black_box(binding::session(&mut memory, black_box(input), &mut out));
        black_box(binding::board(MANAGER, &memory, &mut board));
    };
    let mut theirs = || {
        black_box(peer::session::session(black_box(input)));
    };
    line(&format!("session and board, {what}"), "the peer", 1.0, true, &mut perform, &mut theirs);
}

/// Sessions of two reports, of 98, and of 3,276 convictions.
fn sessions() {
    let all = sessions_read();
    let count = |input: &[u8], word: &[u8]| input.windows(word.len()).filter(|part| *part == word).count();
    session("the worked one", all[0]);
    let reports = all.iter().filter(|s| count(s, b"op=report") > 90).max_by_key(|s| s.len()).expect("a long session");
    session("98 reports", reports);
    let convictions = all.iter().filter(|s| count(s, b"op=convict") > 3000 && s.len() <= 65_536 && s.ends_with(b"\n"));
    session("3,276 convictions", convictions.max_by_key(|s| s.len()).expect("a session of convictions"));
}

/// All but the track's.
fn others(random: &mut Random) {
    // Of an identity; of the sets of a long message with 16 and with 24 tags; and of a long text.
    for length in [86, 144, 208, 4096] {
        hash(random, length);
    }
    root(random);
    agreement(random);
    for n in [1, 2, 4, 10, 32, 96] {
        decide(random, n);
    }
    register(false);
    register(true);
    for transmissions in [1, 8, 96] {
        board(&format!("in {transmissions} transmissions"), |i| grouped(transmissions, i));
    }
    board("with a common tag, an hour apart", restarted);
    maps();
    values();
    previews();
    sessions();
}

fn main() {
    let mut random = Random(7);
    let words: Vec<String> = std::env::args().skip(1).collect();
    if let [alone, name, times] = words.as_slice() {
        assert_eq!(alone, "alone");
        return tracks::alone(name, times.parse().expect("a number"));
    }
    println!("Nanoseconds are the least of {ROUNDS} batches; the last column is the median of the batches' own ratios.\n");
    println!("| what | against | ours, ns | theirs, ns | ours / theirs | median |");
    println!("|---|---|---|---|---|---|");
    if words.is_empty() {
        others(&mut random);
    }
    tracks::run();
}
