//! The track's calls beside the Rust's merge on the same state.
//!
//! What is timed is the call alone, with a clock around each: both sides get their state put back before it, outside of what is
//! timed, and the clock's own time is taken off. The Rust is timed twice, with its records in structs, and from the same bytes.

use crate::calls::{self, Call};
use crate::random::Random;
use crate::{ROUNDS, binding, least, median};
use oracle::Record;
use oracle::layout::{Mask, SHELF};
use oracle::shelf;
use oracle::track::{SIZE, Sent, Track};
use std::hint::black_box;
use std::time::Instant;

/// How long one batch should take, with what is not timed.
const BATCH_NS: f64 = 6e6;

/// A call as the Rust takes it, its record read before.
enum Ready {
    Report(u8, Sent),
    Summary(u8, u8, u16, Vec<u8>),
    Convict(u8),
    Refused,
}

fn ready(call: &Call) -> Ready {
    match call {
        Call::Report { engine, record } => match Record::read(record) {
            Some(record) if *engine < 32 => Ready::Report(*engine, Sent::of(&record)),
            _ => Ready::Refused,
        },
        Call::Summary { engine, model, spec, inputs } => Ready::Summary(*engine, *model, *spec, inputs.clone()),
        Call::Convict { engine } => Ready::Convict(*engine),
    }
}

fn take(track: &mut Track, ready: &Ready) {
    match ready {
        Ready::Report(engine, sent) => {
            black_box(track.sent(*engine, sent));
        }
        Ready::Summary(engine, model, spec, inputs) => {
            black_box(track.summary(*engine, *model, *spec, inputs));
        }
        Ready::Convict(engine) => {
            black_box(track.convict(*engine));
        }
        Ready::Refused => {}
    }
}

/// A state and the calls that are timed on it.
pub struct Row {
    pub name: String,
    state: Track,
    pub bytes: Vec<u8>,
    shelf: Vec<u8>,
    pub calls: Vec<Call>,
}

fn record(tags: &[u64], step: i32, time: u64) -> Record {
    Record {
        time,
        lat: 480_000_000 + 2_700 * step,
        lon: 110_000_000,
        height: Some(1_500_000),
        message: vec![0x8d, 1, 2, 3, 4, 5, 6, 7, 8, 9, 10, 11, 12, 13],
        tags: tags.to_vec(),
        used: ((1u32 << tags.len()) - 1) as Mask,
        models: vec![5],
        spec: 3,
        covariance: [100.0, 0.0, 0.0, 100.0, 0.0, 100.0],
    }
}

/// Four tags that all fixes of a transmission have, and some of its own.
fn set(transmission: u64, own: &[u64]) -> Vec<u64> {
    let base = 1_000 * transmission;
    (1..=4).chain(own.iter().copied()).map(|tag| base + tag).collect()
}

fn report(record: &Record, engine: u8) -> Call {
    Call::Report { engine, record: record.write().to_vec() }
}

/// The k-th fix of a transmission: five stand, none a subset of another; then four that each disagree with the first.
fn fix(transmission: u64, k: u64) -> Record {
    let time = 1_000 + transmission;
    match k {
        0..5 => record(&set(transmission, &[10 + k]), 0, time),
        _ => record(&set(transmission, &[10, 20 + k]), 2, time),
    }
}

fn summary(engine: u8, inputs: u8) -> Call {
    Call::Summary { engine, model: 5, spec: 3, inputs: vec![inputs; 32] }
}

/// Tracks of so many transmissions of so many fixes (at most five stand, the others are refused), each signed by engines 1 and 2.
fn held(transmissions: u64, fixes: u64) -> Vec<Call> {
    let mut calls = vec![summary(1, 7), summary(2, 7)];
    for t in 0..transmissions {
        for k in 0..fixes {
            calls.push(report(&fix(t, k), 1));
            calls.push(report(&fix(t, k), 2));
        }
    }
    calls
}

/// The same calls, all reports with one transmit time: then identities alone tell which transmission is older.
fn at_one_time(calls: &[Call]) -> Vec<Call> {
    let mut calls = calls.to_vec();
    for call in &mut calls {
        if let Call::Report { record, .. } = call {
            record[..8].copy_from_slice(&1_000u64.to_le_bytes());
        }
    }
    calls
}

/// The same track, every other transmission under a model of which engine 2 alone has a summary.
fn held_of_two_models(transmissions: u64, fixes: u64) -> Vec<Call> {
    let mut calls = vec![summary(1, 7), Call::Summary { engine: 2, model: 6, spec: 3, inputs: vec![7; 32] }];
    for t in 0..transmissions {
        for k in 0..fixes {
            let record = Record { models: vec![5 + (t % 2) as u8], ..fix(t, k) };
            calls.push(report(&record, 1));
            calls.push(report(&record, 2));
        }
    }
    calls
}

impl Row {
    fn new(name: &str, before: &[Call], calls: Vec<Call>) -> Self {
        let mut state = Track::default();
        for call in before {
            let told = call.on_rust(&mut state);
            assert!(!matches!(told.number(), 1..=9), "{name}: {told}");
        }
        // Of a row all that waits waits for one model, so that the Rust's order is the shelf's.
        let (bytes, shelf) = (state.bytes(), shelf::write(&state.waiting()));
        Self { name: name.to_string(), state, bytes, shelf, calls }
    }

    /// A row of one call, which is answered so.
    fn of(name: &str, before: &[Call], call: Call, answer: u32, counts: &[(usize, usize)]) -> Self {
        let row = Self::new(name, before, vec![call]);
        let mut track = row.state.clone();
        assert_eq!(row.calls[0].on_rust(&mut track).number(), answer, "{name}");
        assert_eq!(track.counts(), counts, "{name}");
        row
    }
}

fn joins() -> Vec<Row> {
    let larger = |own: &[u64]| report(&record(&set(0, own), 1, 1_000), 3);
    let apart = report(&record(&set(0, &[30, 31]), 0, 1_000), 3);
    vec![
        Row::of("report that joins one fix and takes its place", &held(1, 1), larger(&[10, 11]), 20, &[(1, 0)]),
        Row::of("report that joins 3 fixes (4 are decided)", &held(1, 3), larger(&[10, 30]), 20, &[(3, 0)]),
        Row::of("report that joins 8 fixes (9 are decided)", &held(1, 8), apart.clone(), 20, &[(5, 3)]),
        Row::of("report that joins 9 fixes (10 are decided)", &held(1, 9), apart.clone(), 20, &[(5, 4)]),
        Row::of("report that joins 9 fixes, 8 transmissions held", &held(8, 9), apart.clone(), 20, &[(5, 4); 8]),
        Row::of(
            "report that joins 9 fixes, 8 transmissions of one time held",
            &at_one_time(&held(8, 9)),
            apart,
            20,
            &[(5, 4); 8],
        ),
    ]
}

fn reports() -> Vec<Row> {
    let again = |t: u64| report(&fix(t, 0), 1);
    let new = |t: u64| report(&fix(t, 0), 1);
    vec![
        Row::of("report, duplicate, one fix held", &held(1, 1), again(0), 22, &[(1, 0)]),
        Row::of("report, duplicate, 8 transmissions of one fix held", &held(8, 1), again(7), 22, &[(1, 0); 8]),
        Row::of("report, duplicate, 72 fixes held", &held(8, 9), again(7), 22, &[(5, 4); 8]),
        Row::of("report, duplicate of the fourth refused, 72 fixes held", &held(8, 9), report(&fix(7, 8), 1), 22, &[(5, 4); 8]),
        Row::of("report, new, one fix held", &held(1, 1), new(1), 20, &[(1, 0); 2]),
        Row::of("report, new, 8 transmissions of one fix held", &held(8, 1), new(8), 20, &[(1, 0); 8]),
        Row::of(
            "report, new, 7 transmissions of one time held",
            &at_one_time(&held(7, 1)),
            at_one_time(&[new(8)])[0].clone(),
            20,
            &[(1, 0); 8],
        ),
        Row::of(
            "report, new, 36 fixes in 4 transmissions held",
            &held(4, 9),
            new(4),
            20,
            &[(5, 4), (5, 4), (5, 4), (5, 4), (1, 0)],
        ),
    ]
}

fn others() -> Vec<Row> {
    let full = held(8, 9);
    let convict = |engine| Call::Convict { engine };
    let mut half = full.clone();
    for t in 0..8 {
        half.retain(
            |call| !matches!(call, Call::Report { engine: 1, record } if (5..9).any(|k| record[..] == fix(t, k).write())),
        );
    }
    vec![
        Row::of("conviction, 72 fixes held, none falls", &full, convict(2), 0, &[(5, 4); 8]),
        Row::of("conviction, 72 fixes held, the 32 refused fall", &half, convict(2), 0, &[(5, 0); 8]),
        Row::of("conviction, 72 fixes held, 36 fall with their model", &held_of_two_models(8, 9), convict(2), 0, &[(5, 4); 4]),
        Row::of("conviction, 72 fixes of one time held, none falls", &at_one_time(&full), convict(2), 0, &[(5, 4); 8]),
        Row::of("conviction, one fix held", &held(1, 1), convict(2), 0, &[(1, 0)]),
        Row::of("summary that disputes, 72 fixes held, all fall", &full, summary(3, 8), 0, &[]),
        Row::of("summary that disputes, one fix held, it falls", &held(1, 1), summary(3, 8), 0, &[]),
    ]
}

/// The rows of one call beside an empty shelf that stays empty.
pub fn of_one_call() -> Vec<Row> {
    let mut all = reports();
    all.extend(joins());
    all.extend(others());
    all
}

/// The bytes of a track of 72 fixes.
pub fn full_track() -> Vec<u8> {
    Row::new("a full track", &held(8, 9), Vec::new()).bytes
}

/// The comparison's own lists, each from a fresh track; the same in each run.
fn mix() -> Vec<Row> {
    let mut random = Random(1);
    (0..400).map(|_| Row::new("calls of the comparison's lists", &[], calls::list(&mut random))).collect()
}

/// An aircraft as three engines hear it: each of 24 transmissions is reported by all of them, and once more by all when two further
/// receptions have come, which agree.
fn usual() -> Row {
    let mut calls = vec![summary(1, 7), summary(2, 7), summary(3, 7)];
    for t in 0..24 {
        for own in [&[10, 11][..], &[10, 11, 12, 13][..]] {
            for engine in 1..=3 {
                calls.push(report(&record(&set(t, own), own.len() as i32 / 4, 1_000 + t), engine));
            }
        }
    }
    Row::new("calls of three engines that hear 24 transmissions", &[], calls)
}

/// Nanoseconds that the clock itself takes.
fn clock() -> f64 {
    let times = 100_000;
    let all: Vec<f64> = (0..25)
        .map(|_| {
            let total: u128 = (0..times).map(|_| Instant::now().elapsed().as_nanos()).sum();
            total as f64 / f64::from(times)
        })
        .collect();
    median(all)
}

/// One batch: nanoseconds for each time that the work was done, where `back` puts the state back.
fn batch<T>(times: u64, clock: f64, back: &dyn Fn(&mut T), work: &mut dyn FnMut(&mut T), on: &mut T) -> f64 {
    let mut total = 0.0;
    for _ in 0..times {
        back(on);
        let start = Instant::now();
        work(on);
        total += start.elapsed().as_nanos() as f64 - clock;
    }
    total / times as f64
}

/// One side of a race.
struct Side<'a, T> {
    on: T,
    back: &'a dyn Fn(&mut T),
    work: &'a mut dyn FnMut(&mut T),
    /// How often the work is done in a batch: each row of those that are timed as one equally often.
    times: u64,
    rows: u64,
}

impl<'a, T> Side<'a, T> {
    fn new(on: T, back: &'a dyn Fn(&mut T), work: &'a mut dyn FnMut(&mut T), rows: usize) -> Self {
        Self { on, back, work, times: 0, rows: rows as u64 }
    }

    fn prepare(&mut self, clock: f64) {
        let start = Instant::now();
        let tries = 20.max(self.rows);
        batch(tries, clock, self.back, self.work, &mut self.on);
        let each = start.elapsed().as_nanos() as f64 / tries as f64;
        self.times = ((BATCH_NS / each).ceil() as u64).next_multiple_of(self.rows);
    }

    fn batch(&mut self, clock: f64) -> f64 {
        batch(self.times, clock, self.back, self.work, &mut self.on)
    }
}

fn race<A, B>(name: &str, against: &str, per: f64, clock: f64, mut ours: Side<A>, mut theirs: Side<B>) {
    ours.prepare(clock);
    theirs.prepare(clock);
    let (a, b): (Vec<f64>, Vec<f64>) = (0..ROUNDS).map(|_| (ours.batch(clock), theirs.batch(clock))).unzip();
    let paired = median(a.iter().zip(&b).map(|(x, y)| x / y).collect());
    let (x, y) = (least(&a), least(&b));
    println!("| {name} | {against} | {:.1} | {:.1} | {:.2} | {paired:.2} |", x / per, y / per, x / y);
}

/// All calls of a row on our memory.
fn on_ours(row: &Row, memory: &mut [u8], shelf: &mut [u8]) {
    for call in &row.calls {
        black_box(call.on_library(black_box(memory), black_box(shelf)));
    }
}

/// Both sides of rows that are timed as one, in turn. Where no record is read, the Rust is timed once.
fn time(rows: &[Row], clock: f64) {
    let ready: Vec<Vec<Ready>> = rows.iter().map(|row| row.calls.iter().map(ready).collect()).collect();
    let per = rows.iter().map(|row| row.calls.len()).sum::<usize>() as f64 / rows.len() as f64;
    let back = |on: &mut (usize, Vec<u8>, Vec<u8>)| {
        on.0 = (on.0 + 1) % rows.len();
        on.1.copy_from_slice(&rows[on.0].bytes);
        on.2.copy_from_slice(&rows[on.0].shelf);
    };
    let again = |on: &mut (usize, Track)| {
        on.0 = (on.0 + 1) % rows.len();
        on.1 = rows[on.0].state.clone();
    };
    let mut work = |on: &mut (usize, Vec<u8>, Vec<u8>)| on_ours(&rows[on.0], &mut on.1, &mut on.2);
    let fresh = || (0, vec![0; SIZE], vec![0; SHELF]);
    let mut structs = |on: &mut (usize, Track)| ready[on.0].iter().for_each(|one| take(&mut on.1, one));
    let mut bytes = |on: &mut (usize, Track)| {
        for call in &rows[on.0].calls {
            black_box(call.on_rust(&mut on.1));
        }
    };
    let name = &rows[0].name;
    let reads = rows.iter().any(|row| row.calls.iter().any(|call| matches!(call, Call::Report { .. })));
    let ours = Side::new(fresh(), &back, &mut work, rows.len());
    let theirs = Side::new((0, Track::default()), &again, &mut structs, rows.len());
    race(name, if reads { "the Rust, records in structs" } else { "the Rust" }, per, clock, ours, theirs);
    if reads {
        let ours = Side::new(fresh(), &back, &mut work, rows.len());
        let theirs = Side::new((0, Track::default()), &again, &mut bytes, rows.len());
        race(name, "the Rust, records read from the same bytes", per, clock, ours, theirs);
    }
}

/// A call that only reads the track, to see that it is one: beside memcmp of as many bytes.
fn read_through(clock: f64) {
    let row = Row::new("summary that is held already, 72 fixes held", &held(8, 9), vec![summary(2, 7)]);
    let (copy, mut memory, mut shelf) = (row.bytes.clone(), row.bytes.clone(), row.shelf.clone());
    let nothing = |_: &mut ()| {};
    let mut work = |_: &mut ()| on_ours(&row, &mut memory, &mut shelf);
    let mut compared = |_: &mut ()| {
        let (a, b) = (black_box(&row.bytes), black_box(&copy));
        black_box(unsafe { crate::memcmp(a.as_ptr(), b.as_ptr(), a.len()) });
    };
    let ours = Side::new((), &nothing, &mut work, 1);
    let theirs = Side::new((), &nothing, &mut compared, 1);
    race(&row.name, "memcmp of 33,856 bytes", 1.0, clock, ours, theirs);
}

/// The Rust has no listing: the other side is the oracle's text of the Rust's state.
fn listing(name: &str, before: &[Call], clock: f64) {
    let row = Row::new(name, before, Vec::new());
    let mut out = vec![0u8; 16_384];
    let length = binding::track::listing(&row.bytes, &mut out);
    assert_eq!(String::from_utf8_lossy(&out[..length]), row.state.listing(), "{name}");
    let nothing = |_: &mut ()| {};
    let mut work = |_: &mut ()| {
        black_box(binding::track::listing(black_box(&row.bytes), &mut out));
    };
    let mut text = |_: &mut ()| {
        black_box(black_box(&row.state).listing());
    };
    let ours = Side::new((), &nothing, &mut work, 1);
    let theirs = Side::new((), &nothing, &mut text, 1);
    race(name, "the oracle's text of the Rust's state", 1.0, clock, ours, theirs);
}

/// A fix that cites model 6 too, or 6 and then 7.
fn early(transmission: u64, k: u64, models: &[u8]) -> Call {
    report(&Record { models: models.to_vec(), ..fix(transmission, k) }, 1)
}

/// What takes a fix to the shelf, and what takes it from there.
fn shelves() -> Vec<Row> {
    let of_six = |engine| Call::Summary { engine, model: 6, spec: 3, inputs: vec![7; 32] };
    let waiting = |count: u64, models: &[u8]| {
        let mut calls = vec![summary(1, 7)];
        calls.extend((0..count).map(|n| early(n / 8, n % 8, models)));
        calls
    };
    let apart = |count: u64| {
        let mut calls = vec![summary(1, 7)];
        calls.extend((0..count).map(|n| early(n, 0, &[5, 6])));
        calls
    };
    vec![
        Row::of("report that has to wait, none waits", &held(1, 1), early(1, 0, &[5, 6]), 24, &[(1, 0)]),
        Row::of("report that has to wait, 63 wait", &waiting(63, &[5, 6]), early(7, 7, &[5, 6]), 24, &[]),
        Row::of("summary of a model for which 1 waits, no fix held", &waiting(1, &[5, 6]), of_six(1), 0, &[(1, 0)]),
        Row::of("summary of a model for which 64 wait, in 8 transmissions", &waiting(64, &[5, 6]), of_six(1), 0, &[(5, 3); 8]),
        Row::of("summary of a model for which 64 wait, each a transmission", &apart(64), of_six(1), 0, &[(1, 0); 8]),
        Row::of("summary of a model for which 64 wait, which then wait for another", &waiting(64, &[6, 9]), of_six(1), 0, &[]),
    ]
}

fn rows() -> Vec<Row> {
    let mut all = of_one_call();
    all.extend(shelves());
    all
}

pub fn run() {
    if !binding::TRACK {
        return println!("| track | the Rust | not in the library | - | - | - |");
    }
    let clock = clock();
    for row in rows() {
        time(std::slice::from_ref(&row), clock);
    }
    read_through(clock);
    listing("listing, one fix held", &held(1, 1), clock);
    listing("listing, 72 fixes held", &held(8, 9), clock);
    time(std::slice::from_ref(&usual()), clock);
    time(&mix(), clock);
}

/// Our side alone of the row that has this in its name, so many times: for a profile.
pub fn alone(name: &str, times: u64) {
    let mut all = rows();
    all.push(usual());
    all.push(Row::new("listing, 72 fixes held", &held(8, 9), Vec::new()));
    if "mix" == name {
        all = mix();
    }
    let (mut memory, mut shelf) = (vec![0u8; SIZE], vec![0u8; SHELF]);
    let mut out = vec![0u8; 16_384];
    for row in all.iter().filter(|row| name == "mix" || row.name.contains(name)) {
        println!("{} times {}", times, row.name);
        for _ in 0..times {
            memory.copy_from_slice(&row.bytes);
            shelf.copy_from_slice(&row.shelf);
            on_ours(row, &mut memory, &mut shelf);
            if row.calls.is_empty() {
                black_box(binding::track::listing(&memory, &mut out));
            }
        }
    }
}
