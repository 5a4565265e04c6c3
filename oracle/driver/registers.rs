//! The library's register beside the peer's: lists of calls on two memories, each answer and all bytes; and the boards and previews,
//! where the library has them.

use crate::binding::{self, register as ours};
use crate::heights::{self, EDGES};
use crate::random::Random;
use crate::{maps, measured, previews, shown, spans, tried, values};
use oracle::layout::{Mask, RECORD};
use oracle::{Record, hex};
use peer::register::{self as theirs, MANAGER, SIZE};
use std::collections::BTreeMap;

type Counts = BTreeMap<String, u64>;

/// The desks whose boards are compared; the last two are none.
const DESKS: [u32; 5] = [MANAGER, theirs::CREW, theirs::ANALYST, 3, 258];

fn count(kinds: impl IntoIterator<Item = &'static str>, counts: &mut Counts) {
    kinds.into_iter().for_each(|kind| *counts.entry(kind.to_string()).or_default() += 1);
}

/// One call, kept so that a list can be run again.
#[derive(Clone, Debug)]
enum Call {
    Report {
        engine: u32,
        record: Vec<u8>,
    },
    Summary {
        engine: u32,
        model: u32,
        spec: u16,
        inputs: Vec<u8>,
    },
    Convict {
        desk: u32,
        engine: u32,
    },
    /// Of a conviction, into an output of so many bytes.
    Preview {
        desk: u32,
        engine: u32,
        room: usize,
    },
    /// Changes a byte of the memory, which is then mostly malformed; it is changed back after the next call.
    Spoil {
        at: usize,
        byte: u8,
    },
}

fn engine(random: &mut Random) -> u32 {
    match random.below(40) {
        0 => random.pick(&[31, 32, 255, 256, u32::MAX]),
        _ => random.below(6) as u32,
    }
}

/// What the calls of a list are chosen from.
struct Style {
    /// How many times and first bytes of inputs there are.
    wide: u64,
    /// `summaries` of 60 calls that are no previews are summaries.
    summaries: u64,
    /// Whether the times lie around the limit of a link.
    spread: bool,
}

fn flat(variance: f64) -> [f64; 6] {
    [variance, 0.0, 0.0, variance, 0.0, variance]
}

fn record(random: &mut Random, style: &Style) -> Vec<u8> {
    let tags: Vec<u64> = (0..1 + random.below(3)).map(|i| 4 * i + random.below(4)).collect();
    let one = Record {
        time: if style.spread { spans::time(random) } else { random.below(style.wide) },
        lat: { let north = 2_700 * random.below(3) as i32; maps::place(random, north) },
        lon: maps::place(random, 0),
        height: match random.below(4) {
            0 => None,
            1 => Some(random.pick(&EDGES)),
            _ => Some(random.next() as i32 % 10_000),
        },
        message: random.pick(&[&[0x8d, 0, 0, 0, 0, 0, 0][..], &[0x8d; 14][..]]).to_vec(),
        used: random.next() as Mask & ((1 << tags.len()) - 1),
        tags,
        models: (0..random.below(3)).map(|_| random.below(3) as u8).collect(),
        spec: random.below(2) as u16,
        covariance: random.pick(&[[0.0; 6], flat(100.0), flat(1e-320), [f64::NAN; 6]]),
    };
    let mut bytes = one.write().to_vec();
    if random.one_in(40) {
        bytes[random.below(RECORD as u64) as usize] = random.next() as u8;
    }
    if random.one_in(200) {
        bytes.pop();
    }
    bytes
}

fn call(random: &mut Random, style: &Style) -> Call {
    if binding::PREVIEW && random.one_in(24) {
        return Call::Preview { desk: previews::desk(random), engine: previews::engine(random), room: previews::room(random) };
    }
    match random.below(60) {
        0 if random.one_in(3) => Call::Convict { desk: previews::desk(random), engine: engine(random) },
        1 => Call::Spoil { at: random.below(SIZE as u64) as usize, byte: random.next() as u8 },
        2 => Call::Spoil { at: random.below(12) as usize, byte: random.below(4) as u8 },
        n if n < 3 + style.summaries => {
            let mut inputs = vec![0u8; if random.one_in(60) { 31 } else { 32 }];
            inputs[0] = random.below(style.wide.min(200)) as u8;
            let models = if random.one_in(20) { 66 } else { 3 };
            Call::Summary { engine: engine(random), model: random.below(models) as u32, spec: random.below(2) as u16, inputs }
        }
        _ => Call::Report { engine: engine(random), record: record(random, style) },
    }
}

/// What heights a board writes, and how the times lie of what it is drawn from.
#[cfg(has_board)]
fn count_kinds(memory: &[u8], counts: &mut Counts) {
    if let Some(register) = theirs::Register::read(memory) {
        let heights = heights::kinds(peer::board::heights(&register).into_iter());
        count(heights.chain(spans::kinds(&peer::board::spans(&register))), counts);
    }
}

/// Both boards, where the library has one; the difference in words. Of the last board of a list heights and times are counted.
#[cfg(has_board)]
fn compare_boards(a: &[u8], b: &[u8], n: usize, last: bool, counts: &mut Counts) -> Option<String> {
    for desk in DESKS {
        let (mut c, mut d) = (vec![7u8; 16_384], vec![7u8; 16_384]);
        let (x, y) = (ours::board(desk, a, &mut c), peer::board::board(desk, b, &mut d));
        if x != y || c != d {
            return Some(format!("board of desk {desk} after call {n}: library {x}, peer {y}"));
        }
        if desk == MANAGER {
            count_board(x, &c, counts);
        } else {
            count([desk_kind(desk, x)], counts);
        }
    }
    if last {
        count_kinds(b, counts);
    }
    None
}

/// The kinds of boards of other desks that a run must have.
const DESK_KINDS: [&str; 6] = [
    "boards refused with 15",
    "boards of a crew or an analyst refused with 1",
    "boards of a crew without bytes",
    "boards of a crew",
    "boards of an analyst without bytes",
    "boards of an analyst",
];

/// What came up of the boards of other desks than a manager's.
#[cfg(has_board)]
fn desk_kind(desk: u32, answer: usize) -> &'static str {
    match (desk, answer) {
        (_, 15) => "boards refused with 15",
        (_, 1) => "boards of a crew or an analyst refused with 1",
        (theirs::CREW, 0) => "boards of a crew without bytes",
        (theirs::CREW, _) => "boards of a crew",
        (_, 0) => "boards of an analyst without bytes",
        _ => "boards of an analyst",
    }
}

#[cfg(has_board)]
fn count_board(x: usize, c: &[u8], counts: &mut Counts) {
    let text = str::from_utf8(&c[..if x == 1 { 0 } else { x }]).expect("the peer's text");
    let kind = match (x, text.lines().count()) {
        (1, _) => "boards refused with 1",
        (_, 0) => "boards of no bytes",
        (_, 1..10) => "boards of less than 10 lines",
        _ => "boards of 10 lines or more",
    };
    count([kind], counts);
    count(measured::board(text), counts);
}

/// Both maps, where the library has one; the difference in words.
fn compare_maps(a: &[u8], b: &[u8], n: usize, counts: &mut Counts) -> Option<String> {
    match maps::compare(a, b) {
        Ok(kinds) => count(kinds, counts),
        Err(words) => return Some(format!("after call {n}: {words}")),
    }
    None
}

/// Both boards' fixes as values, where the library has them; the difference in words.
fn compare_fixes(a: &[u8], b: &[u8], n: usize, counts: &mut Counts) -> Option<String> {
    match shown::compare(a, b) {
        Ok(kinds) => count(kinds, counts),
        Err(words) => return Some(format!("after call {n}: {words}")),
    }
    None
}

/// Model inputs of a few of a list's records by both, where the library has them; the difference in words.
fn compare_inputs(a: &[u8], b: &[u8], n: usize, calls: &[Call], counts: &mut Counts) -> Option<String> {
    for call in &calls[n.saturating_sub(8)..=n] {
        let Call::Report { record, .. } = call else {
            continue;
        };
        match values::inputs(a, b, record) {
            Ok(kind) => count([kind], counts),
            Err(words) => return Some(format!("after call {n}: {words}")),
        }
    }
    None
}

/// A preview on both memories: what both answer, or the difference in words.
fn preview(desk: u32, engine: u32, room: usize, a: &[u8], b: &[u8], counts: &mut Counts) -> Result<usize, String> {
    let (answer, kinds) = previews::compare(a, b, desk, engine, room)?;
    count(kinds, counts);
    Ok(answer)
}

/// One call on both memories: what both answer, or the difference in words.
fn answer(call: &Call, a: &mut [u8], b: &mut [u8], counts: &mut Counts) -> Result<usize, String> {
    let (x, y, kind) = match call {
        Call::Report { engine, record } => (ours::report(a, *engine, record), theirs::report(b, *engine, record), "report"),
        Call::Summary { engine, model, spec, inputs } => {
            let x = ours::summary(a, *engine, *model, *spec, inputs);
            (x, theirs::summary(b, *engine, *model, *spec, inputs), "summary")
        }
        Call::Convict { desk, engine } => (ours::convict(*desk, a, *engine), theirs::convict(*desk, b, *engine), "conviction"),
        Call::Preview { desk, engine, room } => return preview(*desk, *engine, *room, a, b, counts),
        Call::Spoil { at, byte } => {
            if let (Some(x), Some(y)) = (a.get_mut(*at), b.get_mut(*at)) {
                (*x, *y) = (*byte, *byte);
            }
            (0, 0, "spoiling")
        }
    };
    if x != y || a != b {
        let alike = if a == b { "alike" } else { "differ" };
        return Err(format!("library answers {x}, peer {y}; memories {alike}"));
    }
    *counts.entry(format!("{kind} answered {x}")).or_default() += 1;
    Ok(x as usize)
}

/// What a list of calls comes to on two memories of `size` bytes; the first difference in words. A spoilt byte is put back after the
/// next call, if that was refused for it.
fn run(size: usize, calls: &[Call], counts: &mut Counts) -> Option<String> {
    let (mut a, mut b) = (vec![0u8; size], vec![0u8; size]);
    let mut back: Option<(usize, u8)> = None;
    for (n, call) in calls.iter().enumerate() {
        if let Call::Spoil { at, .. } = call {
            if let Some((was, held)) = back.take() {
                (a[was], b[was]) = (held, held);
            }
            back = a.get(*at).map(|held| (*at, *held));
        }
        let answer = match answer(call, &mut a, &mut b, counts) {
            Ok(answer) => answer,
            Err(words) => return Some(format!("call {n}: {words}")),
        };
        #[cfg(has_board)]
        if (n % 8 == 0 || n + 1 == calls.len() || back.is_some())
            && let Some(words) = compare_boards(&a, &b, n, n + 1 == calls.len(), counts)
        {
            return Some(words);
        }
        if binding::MAP
            && (n + 1 == calls.len() || back.is_some())
            && let Some(words) = compare_maps(&a, &b, n, counts)
        {
            return Some(words);
        }
        if binding::FIXES
            && (n + 1 == calls.len() || back.is_some())
            && let Some(words) = compare_fixes(&a, &b, n, counts)
        {
            return Some(words);
        }
        if binding::VALUES
            && (n + 1 == calls.len() || back.is_some())
            && let Some(words) = compare_inputs(&a, &b, n, calls, counts)
        {
            return Some(words);
        }
        if !matches!(call, Call::Spoil { .. })
            && let (Some((at, byte)), 1) = (back.take(), answer)
        {
            (a[at], b[at]) = (byte, byte);
        }
    }
    None
}

/// Drops calls while the two still differ.
fn shrink(size: usize, mut calls: Vec<Call>) -> Vec<Call> {
    let mut at = 0;
    while at < calls.len() {
        let mut fewer = calls.clone();
        fewer.remove(at);
        if run(size, &fewer, &mut Counts::new()).is_some() { calls = fewer } else { at += 1 }
    }
    calls
}

/// Mostly short lists; one in forty is long enough to fill a register. And whether the times of its records lie around the limit of a
/// link.
fn list(random: &mut Random) -> (Vec<Call>, bool) {
    let style = Style { wide: random.pick(&[2, 8, 300]), summaries: random.pick(&[5, 20, 50]), spread: random.one_in(2) };
    let length = if random.one_in(40) { random.pick(&[300, 600]) } else { random.pick(&[4, 12, 30]) };
    ((0..length).map(|_| call(random, &style)).collect(), style.spread)
}

fn compared() -> &'static str {
    match (cfg!(has_board), binding::PREVIEW, binding::MAP) {
        (false, ..) => "register, no board in the library",
        (true, false, _) => "register and board, no preview in the library",
        (true, true, false) => "register, board and preview, no map in the library",
        (true, true, true) => "register, board, preview and map",
    }
}

pub fn compare(random: &mut Random, lists: u64) {
    let mut counts = Counts::new();
    for _ in 0..lists {
        let size = if random.one_in(400) { random.pick(&[0, 4, SIZE - 1, SIZE + 1]) } else { SIZE };
        let (calls, spread) = list(random);
        *counts.entry("lists with times around the limit of a link".to_string()).or_default() += u64::from(spread);
        if run(size, &calls, &mut counts).is_some() {
            let least = shrink(size, calls);
            println!("DIFFERENT: register of {size} bytes, {}", run(size, &least, &mut Counts::new()).unwrap());
            for call in &least {
                match call {
                    Call::Report { engine, record } => println!("  report {engine} {}", hex::write(record)),
                    other => println!("  {other:?}"),
                }
            }
            std::process::exit(1);
        }
    }
    println!("{}: {lists} lists of calls, library and peer alike", compared());
    for (what, times) in &counts {
        println!("  {times:>9}  {what}");
    }
    let came = |kind: &str| counts.contains_key(kind);
    if cfg!(has_board) {
        tried::all(heights::KINDS, came, lists);
        tried::all(spans::KINDS, came, lists);
        tried::all(measured::boards(), came, lists);
        tried::all(("a kind of board by its desk", DESK_KINDS.into_iter()), came, lists);
    }
    if binding::MAP {
        tried::all(maps::KINDS, came, lists);
    }
    if binding::FIXES {
        tried::all(shown::KINDS, came, lists);
    }
    if binding::VALUES {
        tried::all(values::INPUTS_KINDS, came, lists);
    }
    if binding::PREVIEW {
        tried::all(previews::kinds(), came, lists);
    }
}
