//! Every old list, widened, gives the old answers and texts: lists of register and track calls are drawn in the layout in which a record
//! had room for 16 tags, and made on a library of then; the same calls, with each record widened, are made on today's. After each call the
//! answers are compared, and the memory of then, widened, with today's; now and then, and in the end, boards at every desk, maps, previews
//! and listings. A track of then had no shelf: today's has a fresh one at each call, and where a fix would wait there, it was answered 6.

#[path = "binding.rs"]
mod binding;
mod calls;
mod claims;
mod heights;
mod opened;
mod random;

use calls::Call;
use opened::{
    BEFORE_RECORD, BEFORE_TAGS, Bytes, Lent, Library, function, narrow_record, widen_record, widen_register, widen_track,
};
use oracle::layout::{Mask, SHELF};
use oracle::{Record, hex};
use random::Random;
use std::collections::BTreeMap;

type Counts = BTreeMap<String, u64>;

const REGISTER: [usize; 2] = [30_920, 37_256];
const TRACK: [usize; 2] = [29_104, 33_856];
const DESKS: [u32; 4] = [0, 1, 2, 3];

/// A call in the layout of then.
enum Old {
    Report(u8, Vec<u8>),
    Summary(u8, u8, u16, Vec<u8>),
    Convict(u32, u8),
    Preview(u32, u8),
    /// Another byte in the memory, which is then mostly malformed; it is put back after the next call.
    Spoil(usize, u8),
}

impl std::fmt::Display for Old {
    fn fmt(&self, f: &mut std::fmt::Formatter<'_>) -> std::fmt::Result {
        match self {
            Self::Report(engine, record) => write!(f, "report {engine} {}", hex::write(record)),
            Self::Summary(engine, model, spec, inputs) => write!(f, "summary {engine} {model} {spec} {}", hex::write(inputs)),
            Self::Convict(desk, engine) => write!(f, "convict {engine} by {desk}"),
            Self::Preview(desk, engine) => write!(f, "preview {engine} by {desk}"),
            Self::Spoil(at, byte) => write!(f, "spoil {at} {byte}"),
        }
    }
}

/// The record in the layout of then, with no more tags than it had room for. Of one that is malformed, or of another length, another that
/// is malformed then, or of another length.
fn old_record(random: &mut Random, bytes: &[u8]) -> Vec<u8> {
    let Some(mut record) = Record::read(bytes) else {
        let mut any = vec![0u8; BEFORE_RECORD];
        any[21] = 7;
        any[36] = random.pick(&[0, 1, 16, 17, 24]);
        let at = random.below(BEFORE_RECORD as u64) as usize;
        any[at] = random.next() as u8;
        any.truncate(BEFORE_RECORD - usize::from(random.one_in(4)));
        return any;
    };
    record.tags.truncate(BEFORE_TAGS);
    record.used &= ((1u32 << record.tags.len()) - 1) as Mask;
    let mut old = narrow_record(&record.write());
    if random.one_in(60) {
        old[random.below(BEFORE_RECORD as u64) as usize] = random.next() as u8;
    }
    old
}

/// A list as the comparison draws it, of either kind.
fn list(random: &mut Random, of_track: bool) -> Vec<Old> {
    let mut all = Vec::new();
    for call in calls::list(random) {
        if random.one_in(40) {
            all.push(Old::Spoil(random.next() as usize, random.next() as u8));
        }
        if !of_track && random.one_in(24) {
            all.push(Old::Preview(random.pick(&[0, 1, 1, 2, 2, 2, 3]), random.below(6) as u8));
        }
        all.push(match call {
            Call::Report { engine, record } => Old::Report(engine, old_record(random, &record)),
            Call::Summary { engine, model, spec, inputs } => Old::Summary(engine, model, spec, inputs),
            Call::Convict { engine } => Old::Convict(random.pick(&[2, 2, 2, 2, 2, 1, 0, 3]), engine),
        });
    }
    all
}

/// The two libraries' functions, then's first.
struct Both {
    libraries: [Library; 2],
}

/// A call's answer and the output that it was given.
type Told = (u32, Vec<u8>);

impl Both {
    fn record(&self, which: usize, old: &[u8]) -> Vec<u8> {
        if which == 1 && old.len() == BEFORE_RECORD { widen_record(old) } else { old.to_vec() }
    }

    fn on_register(&self, which: usize, m: &mut [u8], call: &Old) -> Told {
        let library = &self.libraries[which];
        let (bytes, len) = (m.as_mut_ptr(), m.len());
        let mut out = Vec::new();
        let answer = match call {
            Old::Report(engine, record) => {
                let f = function!(library, "tl_register_report", Lent, usize, u32, Bytes, usize);
                let record = self.record(which, record);
                unsafe { f(bytes, len, (*engine).into(), record.as_ptr(), record.len()) }
            }
            Old::Summary(engine, model, spec, inputs) => {
                let f = function!(library, "tl_register_summary", Lent, usize, u32, u32, u16, Bytes, usize);
                unsafe { f(bytes, len, (*engine).into(), (*model).into(), *spec, inputs.as_ptr(), inputs.len()) }
            }
            Old::Convict(desk, engine) => {
                let f = function!(library, "tl_register_conviction", u32, Lent, usize, u32);
                unsafe { f(*desk, bytes, len, (*engine).into()) }
            }
            Old::Preview(desk, engine) => {
                let f = function!(library, "tl_register_preview", u32, Bytes, usize, u32, Lent, usize);
                out = vec![7u8; 16_384];
                unsafe { f(*desk, bytes, len, (*engine).into(), out.as_mut_ptr(), out.len()) }
            }
            Old::Spoil(..) => 0,
        };
        (answer, out)
    }

    fn on_track(&self, which: usize, m: &mut [u8], call: &Old) -> Told {
        let library = &self.libraries[which];
        let (bytes, len) = (m.as_mut_ptr(), m.len());
        let mut shelf = [0u8; SHELF];
        let (place, room) = (shelf.as_mut_ptr(), shelf.len());
        let answer = match call {
            Old::Report(engine, record) => {
                let (e, record) = ((*engine).into(), self.record(which, record));
                if library.shelves {
                    let f = function!(library, "tl_track_report", Lent, usize, Lent, usize, u32, Bytes, usize);
                    match unsafe { f(bytes, len, place, room, e, record.as_ptr(), record.len()) } {
                        24 => 6,
                        other => other,
                    }
                } else {
                    let f = function!(library, "tl_track_report", Lent, usize, u32, Bytes, usize);
                    unsafe { f(bytes, len, e, record.as_ptr(), record.len()) }
                }
            }
            Old::Summary(engine, model, spec, inputs) => {
                let (e, n) = ((*engine).into(), (*model).into());
                if library.shelves {
                    let f = function!(library, "tl_track_summary", Lent, usize, Lent, usize, u32, u32, u16, Bytes, usize);
                    unsafe { f(bytes, len, place, room, e, n, *spec, inputs.as_ptr(), inputs.len()) }
                } else {
                    let f = function!(library, "tl_track_summary", Lent, usize, u32, u32, u16, Bytes, usize);
                    unsafe { f(bytes, len, e, n, *spec, inputs.as_ptr(), inputs.len()) }
                }
            }
            Old::Convict(_, engine) if library.shelves => {
                let f = function!(library, "tl_track_conviction", Lent, usize, Lent, usize, u32);
                unsafe { f(bytes, len, place, room, (*engine).into()) }
            }
            Old::Convict(_, engine) => {
                let f = function!(library, "tl_track_conviction", Lent, usize, u32);
                unsafe { f(bytes, len, (*engine).into()) }
            }
            Old::Preview(..) | Old::Spoil(..) => 0,
        };
        (answer, Vec::new())
    }

    /// A text of a memory, in an output of so many bytes.
    fn text(&self, which: usize, name: &str, desk: Option<u32>, m: &[u8], room: usize) -> Told {
        let library = &self.libraries[which];
        let mut out = vec![7u8; room];
        let answer = match desk {
            Some(desk) => {
                let f = function!(library, name, u32, Bytes, usize, Lent, usize);
                unsafe { f(desk, m.as_ptr(), m.len(), out.as_mut_ptr(), out.len()) }
            }
            None => {
                let f = function!(library, name, Bytes, usize, Lent, usize);
                unsafe { f(m.as_ptr(), m.len(), out.as_mut_ptr(), out.len()) }
            }
        };
        (answer, out)
    }
}

fn texts(both: &Both, of_track: bool, then: &[u8], now: &[u8], counts: &mut Counts) -> Result<(), String> {
    let mut same = |name: &str, desk: Option<u32>, room: usize| {
        let (a, b) = (both.text(0, name, desk, then, room), both.text(1, name, desk, now, room));
        let kind = match a.0 {
            0 => "of no bytes",
            1..40 => "refused",
            _ => "with bytes",
        };
        *counts.entry(format!("{name} {kind}")).or_default() += 1;
        if a == b { Ok(()) } else { Err(format!("{name} at desk {desk:?}: {} then, {} now", a.0, b.0)) }
    };
    if of_track {
        return same("tl_track_listing", None, 16_384);
    }
    for desk in DESKS {
        same("tl_board", Some(desk), 16_384)?;
    }
    same("tl_register_map", None, 4_096)
}

/// A list on both; the first difference in words.
fn run(both: &Both, of_track: bool, list: &[Old], counts: &mut Counts) -> Result<(), String> {
    let [then, now] = if of_track { TRACK } else { REGISTER };
    let (mut then, mut now) = (vec![0u8; then], vec![0u8; now]);
    let widen = |b: &[u8]| if of_track { widen_track(b) } else { widen_register(b) };
    let mut back = None;
    for (n, call) in list.iter().enumerate() {
        if let Old::Spoil(at, byte) = call {
            let at = at % if n % 2 == 0 { then.len() } else { 16 };
            back.get_or_insert((at, then[at]));
            then[at] = *byte;
            now = widen(&then);
        }
        let on =
            |which: usize, m: &mut [u8]| if of_track { both.on_track(which, m, call) } else { both.on_register(which, m, call) };
        let (a, b) = (on(0, &mut then), on(1, &mut now));
        let kind = match call {
            Old::Report(..) => "report",
            Old::Summary(..) => "summary",
            Old::Convict(..) => "conviction",
            Old::Preview(..) => "preview",
            Old::Spoil(..) => "spoiling",
        };
        let answer = if kind == "preview" && a.0 > 40 { "a length".to_string() } else { a.0.to_string() };
        *counts.entry(format!("{} {kind} answered {answer}", if of_track { "track" } else { "register" })).or_default() += 1;
        if a != b {
            return Err(format!("call {n}: {} then, {} now", a.0, b.0));
        }
        if widen(&then) != now {
            return Err(format!("call {n}: both answer {}, and the memory of then, widened, is not that of now", a.0));
        }
        if n % 8 == 7 || n + 1 == list.len() || back.is_some() {
            texts(both, of_track, &then, &now, counts).map_err(|words| format!("after call {n}: {words}"))?;
        }
        if !matches!(call, Old::Spoil(..))
            && let Some((at, byte)) = back.take()
            && a.0 == 1
        {
            then[at] = byte;
            now = widen(&then);
        }
    }
    Ok(())
}

fn main() {
    let words: Vec<String> = std::env::args().skip(1).collect();
    let [then, now, lists, seed] = words.as_slice() else {
        panic!("widened: THEN NOW LISTS SEED");
    };
    let both = Both { libraries: [Library::open(then, "tags16"), Library::open(now, "shelves")] };
    let (mut random, mut counts, mut made) = (Random(seed.parse().expect("a number")), Counts::new(), 0);
    let lists: u64 = lists.parse().expect("a number");
    for n in 0..lists {
        let of_track = n % 2 == 1;
        let mut list = list(&mut random, of_track);
        made += list.len();
        if run(&both, of_track, &list, &mut counts).is_err() {
            let mut at = list.len();
            while at > 0 {
                at -= 1;
                let call = list.remove(at);
                if run(&both, of_track, &list, &mut Counts::new()).is_ok() {
                    list.insert(at, call);
                }
            }
            println!("DIFFERENT: {}", run(&both, of_track, &list, &mut Counts::new()).unwrap_err());
            list.iter().for_each(|call| println!("  {call}"));
            std::process::exit(1);
        }
    }
    println!("{lists} lists of {made} calls, half on a register and half on a track: then and now alike");
    counts.iter().for_each(|(what, times)| println!("  {times:>9}  {what}"));
    println!("no difference");
}
