//! The same calls of two libraries, by turns: of one before and of today's. The library before may have the layout in which a record had
//! room for 16 tags, and tracks without a shelf; then it is given the same records, tracks and registers in its own layout, and what both
//! leave must be the same but for that.

#[path = "../oracle/driver/binding.rs"]
mod binding;
#[path = "../oracle/driver/calls.rs"]
mod calls;
#[path = "../oracle/driver/claims.rs"]
mod claims;
#[path = "../oracle/driver/heights.rs"]
mod heights;
#[path = "../oracle/driver/opened.rs"]
mod opened;
#[path = "../oracle/driver/random.rs"]
mod random;
mod tracks;

use calls::Call;
use opened::{Bytes, Lent, Library, function, narrow_pieces, narrow_register, narrow_track};
use oracle::Record;
use oracle::decide::SIZE as ITEM;
use oracle::layout::{CONSISTENT_AT, IDENTITY_AT, Mask, RECORD, SHELF, STANDING_AT};
use oracle::track::SIZE as TRACK;
use peer::register::{CREW, MANAGER, SIZE as REGISTER};
use random::Random;
use std::hint::black_box;
use std::time::Instant;

const ROUNDS: usize = 25;

unsafe extern "C" {
    fn memcmp(a: *const u8, b: *const u8, n: usize) -> i32;
}

fn median(mut all: Vec<f64>) -> f64 {
    all.sort_by(f64::total_cmp);
    all[all.len() / 2]
}

fn least(all: &[f64]) -> f64 {
    all.iter().copied().fold(f64::INFINITY, f64::min)
}

/// What a call may change, and its output.
struct Memory {
    bytes: Vec<u8>,
    shelf: Vec<u8>,
    out: Vec<u8>,
}

/// A call, ready to be made on the memory of its library.
type Ready = Box<dyn Fn(&mut Memory) -> u32>;

/// A call that is timed, in today's layout.
enum Timed {
    Report(u32, Vec<u8>),
    Summary(u32, u32, u16, [u8; 32]),
    Conviction(u32),
    Board(u32),
    Preview(u32),
    Track(Call),
    Listing,
    Hash(Vec<u8>),
    Decide(Vec<u8>),
}

fn on_track(library: &Library, call: &Call) -> Ready {
    match (call.clone(), library.shelves) {
        (Call::Report { engine, record }, true) => {
            let f = function!(library, "tl_track_report", Lent, usize, Lent, usize, u32, Bytes, usize);
            let b = library.record(&record);
            Box::new(move |m| unsafe {
                f(m.bytes.as_mut_ptr(), m.bytes.len(), m.shelf.as_mut_ptr(), m.shelf.len(), engine.into(), b.as_ptr(), b.len())
            })
        }
        (Call::Report { engine, record }, false) => {
            let f = function!(library, "tl_track_report", Lent, usize, u32, Bytes, usize);
            let b = library.record(&record);
            Box::new(move |m| unsafe { f(m.bytes.as_mut_ptr(), m.bytes.len(), engine.into(), b.as_ptr(), b.len()) })
        }
        (Call::Summary { engine, model, spec, inputs }, true) => {
            let f = function!(library, "tl_track_summary", Lent, usize, Lent, usize, u32, u32, u16, Bytes, usize);
            Box::new(move |m| unsafe {
                let (shelf, shelf_len) = (m.shelf.as_mut_ptr(), m.shelf.len());
                let (e, n) = (engine.into(), model.into());
                f(m.bytes.as_mut_ptr(), m.bytes.len(), shelf, shelf_len, e, n, spec, inputs.as_ptr(), inputs.len())
            })
        }
        (Call::Summary { engine, model, spec, inputs }, false) => {
            let f = function!(library, "tl_track_summary", Lent, usize, u32, u32, u16, Bytes, usize);
            Box::new(move |m| unsafe {
                f(m.bytes.as_mut_ptr(), m.bytes.len(), engine.into(), model.into(), spec, inputs.as_ptr(), inputs.len())
            })
        }
        (Call::Convict { engine }, true) => {
            let f = function!(library, "tl_track_conviction", Lent, usize, Lent, usize, u32);
            Box::new(move |m| unsafe {
                f(m.bytes.as_mut_ptr(), m.bytes.len(), m.shelf.as_mut_ptr(), m.shelf.len(), engine.into())
            })
        }
        (Call::Convict { engine }, false) => {
            let f = function!(library, "tl_track_conviction", Lent, usize, u32);
            Box::new(move |m| unsafe { f(m.bytes.as_mut_ptr(), m.bytes.len(), engine.into()) })
        }
    }
}

impl Timed {
    fn ready(&self, library: &Library) -> Ready {
        match self {
            Self::Report(engine, record) => {
                let f = function!(library, "tl_register_report", Lent, usize, u32, Bytes, usize);
                let (e, b) = (*engine, library.record(record));
                Box::new(move |m| unsafe { f(m.bytes.as_mut_ptr(), m.bytes.len(), e, b.as_ptr(), b.len()) })
            }
            Self::Summary(engine, model, spec, inputs) => {
                let f = function!(library, "tl_register_summary", Lent, usize, u32, u32, u16, Bytes, usize);
                let (e, n, s, i) = (*engine, *model, *spec, *inputs);
                Box::new(move |m| unsafe { f(m.bytes.as_mut_ptr(), m.bytes.len(), e, n, s, i.as_ptr(), i.len()) })
            }
            Self::Conviction(engine) => {
                let f = function!(library, "tl_register_conviction", u32, Lent, usize, u32);
                let e = *engine;
                Box::new(move |m| unsafe { f(MANAGER, m.bytes.as_mut_ptr(), m.bytes.len(), e) })
            }
            Self::Board(desk) => {
                let f = function!(library, "tl_board", u32, Bytes, usize, Lent, usize);
                let d = *desk;
                Box::new(move |m| unsafe { f(d, m.bytes.as_ptr(), m.bytes.len(), m.out.as_mut_ptr(), m.out.len()) })
            }
            Self::Preview(engine) => {
                let f = function!(library, "tl_register_preview", u32, Bytes, usize, u32, Lent, usize);
                let e = *engine;
                Box::new(move |m| unsafe { f(MANAGER, m.bytes.as_ptr(), m.bytes.len(), e, m.out.as_mut_ptr(), m.out.len()) })
            }
            Self::Track(call) => on_track(library, call),
            Self::Listing => {
                let f = function!(library, "tl_track_listing", Bytes, usize, Lent, usize);
                Box::new(move |m| unsafe { f(m.bytes.as_ptr(), m.bytes.len(), m.out.as_mut_ptr(), m.out.len()) })
            }
            Self::Hash(input) => {
                let f = function!(library, "tl_blake2s256", Bytes, usize, Lent);
                let b = input.clone();
                Box::new(move |m| unsafe { f(b.as_ptr(), b.len(), m.out.as_mut_ptr()) })
            }
            Self::Decide(items) => {
                let f = function!(library, "tl_decide", Bytes, usize, Lent);
                let b = if library.narrow { narrow_pieces(items, ITEM) } else { items.clone() };
                Box::new(move |m| unsafe { f(b.as_ptr(), b.len(), m.out.as_mut_ptr()) })
            }
        }
    }

    fn is_of_track(&self) -> bool {
        matches!(self, Self::Track(_) | Self::Listing)
    }

    /// Whether a call of this kind changes no memory but its output.
    fn only_reads(&self) -> bool {
        matches!(self, Self::Board(_) | Self::Preview(_) | Self::Listing | Self::Hash(_) | Self::Decide(_))
    }
}

/// A call on a memory, which is put back before each time.
struct Row {
    name: String,
    memory: Vec<u8>,
    call: Timed,
}

fn row(name: impl Into<String>, memory: &[u8], call: Timed) -> Row {
    Row { name: name.into(), memory: memory.to_vec(), call }
}

// ---- what is timed

fn record(n: u64, tags: u64, transmissions: u64) -> Record {
    let base = 1_000 * (n % transmissions);
    let mut set: Vec<u64> = (1..=4).map(|tag| base + tag).collect();
    set.extend((0..tags - 4).map(|k| base + 100 + 20 * (n / transmissions) + k));
    Record {
        time: 1_000 + n % transmissions,
        lat: 480_000_000,
        lon: 110_000_000,
        height: Some(1_500_000),
        message: vec![0x8d, 1, 2, 3, 4, 5, 6, 7, 8, 9, 10, 11, 12, 13],
        tags: set,
        used: ((1u32 << tags) - 1) as Mask,
        models: vec![5],
        spec: 3,
        covariance: [100.0, 10.0, 5.0, 90.0, -7.0, 400.0],
    }
}

/// A register of these records, reported by engine 3 and every other one by engine 4 alone, with so many summaries.
fn register(records: &[Record], summaries: u32) -> Vec<u8> {
    let mut memory = vec![0u8; REGISTER];
    for (i, one) in records.iter().enumerate() {
        assert_eq!(peer::register::report(&mut memory, 3 + i as u32 % 2, &one.write()), 0);
    }
    for i in 0..summaries {
        let (engine, model) = if i == 0 { (5, 5) } else { (i / 60, 6 + i % 58) };
        assert_eq!(peer::register::summary(&mut memory, engine, model, 3, &[i as u8; 32]), 0);
    }
    memory
}

/// Of registers; only those of this name are made ready, where one is given.
fn register_rows(only: Option<&str>) -> Vec<Row> {
    let wanted = |name: &str| only.is_none_or(|only| only == name);
    let mut all = Vec::new();
    for tags in [4, 8, 16] {
        for alike in [false, true] {
            let words = if alike { ", all but the last bytes alike" } else { "" };
            let [report, summary] = ["report", "summary"].map(|what| format!("{what}, full register of {tags} tags each{words}"));
            if !wanted(&report) && !wanted(&summary) {
                continue;
            }
            let alone = |i: u64| Record {
                time: if alike { 1_000 } else { 1_000 + i },
                tags: (1..=tags).collect(),
                covariance: [100.0, 10.0, 5.0, 90.0, -7.0, if alike { 400.0 + i as f64 } else { 400.0 }],
                ..record(0, tags, 1)
            };
            let records: Vec<Record> = (0..96).map(alone).collect();
            let memory = register(&records, 256);
            all.push(row(report, &memory, Timed::Report(4, records[95].write().to_vec())));
            all.push(row(summary, &memory, Timed::Summary(5, 5, 3, [0; 32])));
        }
    }
    if only.is_some() && !all.is_empty() {
        return all;
    }
    let empty = vec![0u8; REGISTER];
    all.push(row("report, empty register", &empty, Timed::Report(3, record(0, 8, 1).write().to_vec())));
    all.push(row(
        "report of what is held, one record",
        &register(&[record(0, 8, 1)], 1),
        Timed::Report(3, record(0, 8, 1).write().to_vec()),
    ));
    for transmissions in [1, 8, 96] {
        let records: Vec<Record> = (0..96).map(|n| record(n, 8, transmissions)).collect();
        let memory = register(&records, 1);
        let what = format!("96 records in {transmissions} transmissions");
        all.push(row(format!("board, {what}"), &memory, Timed::Board(MANAGER)));
        all.push(row(format!("a crew's board, {what}"), &memory, Timed::Board(CREW)));
        all.push(row(format!("preview, {what}, half of them go"), &memory, Timed::Preview(4)));
        all.push(row(format!("conviction, {what}, half of them go"), &memory, Timed::Conviction(4)));
    }
    all.push(row("preview, empty register", &empty, Timed::Preview(4)));
    all
}

fn others() -> Vec<Row> {
    let mut random = Random(7);
    let mut all: Vec<Row> =
        [86, 144, 208, 4096].map(|n| row(format!("hash, {n} bytes"), &[], Timed::Hash(random.bytes(n)))).into();
    for n in [1, 2, 4, 10, 32, 96] {
        let mut items = Vec::new();
        for i in 0..n {
            let mut item = [0u8; ITEM];
            let nested =
                Record { tags: (1..=i % 16 + 1).collect(), used: ((1u32 << (i % 16 + 1)) - 1) as Mask, ..record(0, 4, 1) };
            item[..RECORD].copy_from_slice(&nested.write());
            item[IDENTITY_AT..STANDING_AT].copy_from_slice(&random.bytes(32));
            item[CONSISTENT_AT] = 1;
            items.extend_from_slice(&item);
        }
        all.push(row(format!("decide, {n} items"), &[], Timed::Decide(items)));
    }
    all
}

fn track_rows() -> Vec<Row> {
    let mut all = Vec::new();
    for one in tracks::of_one_call() {
        all.push(row(one.name.clone(), &one.bytes, Timed::Track(one.calls[0].clone())));
    }
    let (empty, held) = (vec![0u8; TRACK], tracks::full_track());
    let lone = Record { models: Vec::new(), ..record(0, 8, 1) };
    all.push(row("report, empty track", &empty, Timed::Track(Call::Report { engine: 1, record: lone.write().to_vec() })));
    all.push(row("conviction, empty track", &empty, Timed::Track(Call::Convict { engine: 1 })));
    // What only looks at the memory, and what besides puts in a summary.
    let told = |engine: u8| Call::Report { engine, record: lone.write().to_vec() };
    let said = |engine: u8| Call::Summary { engine, model: 5, spec: 3, inputs: vec![7; 32] };
    for (words, memory) in [("empty track", &empty), ("72 fixes held", &held)] {
        all.push(row(format!("report of engine 32, {words}"), memory, Timed::Track(told(32))));
        all.push(row(format!("summary of engine 32, {words}"), memory, Timed::Track(said(32))));
        all.push(row(format!("summary of one that says what another says, {words}"), memory, Timed::Track(said(2))));
        all.push(row(format!("listing, {words}"), memory, Timed::Listing));
    }
    all
}

// ---- timing

/// A row as it is run on one library.
struct Side<'a> {
    library: &'a Library,
    start: Vec<u8>,
    memory: Memory,
    call: Ready,
    keeps: bool,
}

impl<'a> Side<'a> {
    fn new(library: &'a Library, row: &Row) -> Self {
        let narrowed = || if row.call.is_of_track() { narrow_track(&row.memory) } else { narrow_register(&row.memory) };
        let start = if library.narrow && !row.memory.is_empty() { narrowed() } else { row.memory.clone() };
        let memory = Memory { bytes: start.clone(), shelf: vec![0; SHELF], out: vec![0; 16_384] };
        Self { library, start, memory, call: row.call.ready(library), keeps: row.call.only_reads() }
    }

    fn once(&mut self) -> u32 {
        self.memory.bytes.copy_from_slice(&self.start);
        (self.call)(&mut self.memory)
    }

    /// Nanoseconds of a call.
    fn batch(&mut self, times: u64, clock: f64) -> f64 {
        if self.keeps {
            let start = Instant::now();
            for _ in 0..times {
                black_box((self.call)(&mut self.memory));
            }
            return (start.elapsed().as_nanos() as f64 - clock) / times as f64;
        }
        let mut total = 0.0;
        for _ in 0..times {
            self.memory.bytes.copy_from_slice(&self.start);
            let start = Instant::now();
            black_box((self.call)(&mut self.memory));
            total += start.elapsed().as_nanos() as f64 - clock;
        }
        total / times as f64
    }
}

fn clock() -> f64 {
    let times = 100_000;
    let each = |_| (0..times).map(|_| Instant::now().elapsed().as_nanos()).sum::<u128>() as f64 / f64::from(times);
    least(&(0..25).map(each).collect::<Vec<f64>>())
}

/// Both answer the same and leave the same, but for the layout.
fn alike(row: &Row, a: &mut Side, b: &mut Side) {
    let (x, y) = (a.once(), b.once());
    assert_eq!(x, y, "{}: answers", row.name);
    assert!(b.memory.shelf.iter().all(|&byte| byte == 0), "{}: the shelf", row.name);
    assert!(a.memory.out == b.memory.out, "{}: outputs", row.name);
    let narrowed = match () {
        () if !a.library.narrow || row.memory.is_empty() => b.memory.bytes.clone(),
        () if row.call.is_of_track() => narrow_track(&b.memory.bytes),
        () => narrow_register(&b.memory.bytes),
    };
    assert!(a.memory.bytes == narrowed, "{}: memory", row.name);
}

fn main() {
    let words: Vec<String> = std::env::args().skip(1).collect();
    let [before, layout, after, rest @ ..] = words.as_slice() else {
        panic!("before: BEFORE LAYOUT AFTER [BATCHES | count before|after TIMES NAME]");
    };
    let (before, after) = (Library::open(before, layout), Library::open(after, "shelves"));
    if let [count, which, times, name] = rest {
        assert_eq!(count, "count");
        let mut rows = register_rows(Some(name));
        if !rows.iter().any(|row| row.name == *name) {
            rows.extend(others());
            rows.extend(track_rows());
        }
        let found = rows.iter().find(|row| row.name == *name).expect("a row of this name");
        let mut side = Side::new(if which == "before" { &before } else { &after }, found);
        for _ in 0..times.parse().expect("a number") {
            black_box(side.once());
        }
        return;
    }
    let mut rows = register_rows(None);
    rows.extend(others());
    rows.extend(track_rows());
    if rest.first().is_some_and(|word| word == "names") {
        return rows.iter().for_each(|row| println!("{}", row.name));
    }
    let batches: usize = rest.first().map_or(200, |word| word.parse().expect("a number"));
    let clock = clock();
    println!(
        "The least of {batches} batches each, by turns; nanoseconds.\n\n| call | before | after | after / before | after - before |\n|---|---|---|---|---|"
    );
    for row in &rows {
        let (mut a, mut b) = (Side::new(&before, row), Side::new(&after, row));
        alike(row, &mut a, &mut b);
        let each = a.batch(20, clock).max(1.0);
        let times = ((150_000.0 / each) as u64).clamp(4, 2_000);
        let (x, y): (Vec<f64>, Vec<f64>) = (0..batches).map(|_| (a.batch(times, clock), b.batch(times, clock))).unzip();
        let (x, y) = (least(&x), least(&y));
        println!("| {} | {x:.1} | {y:.1} | {:.2} | {:.0} |", row.name, y / x, y - x);
    }
}
