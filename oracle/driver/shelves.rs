//! The shelf beside a second writing of it (oracle/src/shelf.rs) in all that it does, and so also where the Rust does something else with
//! what waits: full shelves, reports that wait already, convictions of engines whose fixes wait. Lists of calls begin with a fresh track
//! and shelf, or with ones that nobody reached, well-formed by the specification's rules and by no others. And shelves with a byte changed,
//! or beside a track with one changed, which are refused exactly where those rules are broken.

use crate::calls::{self, Call, Growing, inputs};
use crate::cases::{self, Counts};
use crate::lent::{self, Lent};
use crate::random::Random;
use crate::{binding, tried};
use oracle::layout::{MAX_WAITING, SHELF, WAITING, WAITING_AT};
use oracle::shelf::{self, Shelved, Waiting};
use oracle::track::{Answer, SIZE, SUMMARIES_AT, SUMMARY, Track};
use oracle::{Record, hex};

/// What was to occur in a run.
const KINDS: (&str, [&str; 29]) = (
    "shelves",
    [
        "report answered 13",
        "report answered 13, of what waits already",
        "report answered 7, and fixes wait",
        "report merged, and 64 fixes wait",
        "report answered 24",
        "report answered 24, of what waits already",
        "report answered 24, of what waits for another engine",
        "report answered 24, under another than its first model",
        "report answered 24, the last place",
        "tried: Changed",
        "tried: Contested",
        "tried: Duplicate",
        "tried: Dropped",
        "tried: gone, its model is disputed or of another spec",
        "tried: waits again",
        "tried: 64 fixes in one summary",
        "tried: of one summary some wait again, some do not, others were not due",
        "conviction: threw out all that waits",
        "conviction: threw out some",
        "conviction: of an engine convicted already, and fixes wait",
        "conviction: left a waiting fix without the summary of a model that it cites before its own",
        "passed: 64 fixes wait",
        "passed: a fix waits under a later missing model than its first",
        "passed: the same place twice",
        "a byte changed: no shelf, answered 1",
        "a byte changed: still a shelf",
        "a byte of the track changed: no shelf beside it, answered 1",
        "a byte of the track changed: still its shelf",
        "shelves of another length",
    ],
);

/// A track with its shelf, as the library holds them and as the second writing does.
struct Pair {
    second: Shelved,
    /// The Rust with its own waiting, as long as it does the same by design; of a shelf on which nothing waited at the start.
    rust: Option<Track>,
    ours: Vec<u8>,
    shelf: Vec<u8>,
    due: Vec<u8>,
}

impl Pair {
    fn begin(start: &Shelved) -> Self {
        let bytes = start.track.bytes();
        let rust = start.waiting.is_empty().then(|| start.track.clone());
        Self { second: start.clone(), rust, ours: bytes.clone(), shelf: shelf::write(&start.waiting), due: bytes }
    }

    /// One call on both; what differs, in words.
    fn call(&mut self, call: &Call, counts: &mut Counts) -> Result<(), String> {
        let (waited, convicted) = (self.second.waiting.clone(), self.second.track.convicted());
        self.rust.take_if(|rust| call.parts_from_rust(rust, &waited));
        let told = call.on_shelved(&mut self.second);
        count(call, told, (&waited, convicted), &self.second, counts);
        self.second.track.write(&mut self.due);
        self.beside_rust(call, told, counts)?;
        if !binding::TRACK {
            return Ok(());
        }
        let shelf_due = shelf::write(&self.second.waiting);
        let ours = call.on_library(&mut self.ours, &mut self.shelf);
        if ours == told.number() && self.ours == self.due && self.shelf == shelf_due {
            return Ok(());
        }
        let track_at = self.ours.iter().zip(&self.due).position(|(a, b)| a != b);
        let shelf_at = self.shelf.iter().zip(&shelf_due).position(|(a, b)| a != b);
        Err(format!(
            "library {ours}, second writing {told}; first other byte of the track {track_at:?}, of the shelf {shelf_at:?}"
        ))
    }
}

impl Pair {
    /// The same call on the Rust that lets fixes wait itself; what differs from the second writing, in words.
    fn beside_rust(&mut self, call: &Call, told: Answer, counts: &mut Counts) -> Result<(), String> {
        let Some(rust) = &mut self.rust else {
            return Ok(());
        };
        *counts.entry("calls of which the second writing was compared with the Rust").or_default() += 1;
        let theirs = call.on_rust(rust);
        let mut waiting = self.second.waiting.clone();
        waiting.sort_by_key(|one| one.model);
        if theirs == told && rust.bytes() == self.due && rust.waiting() == waiting {
            return Ok(());
        }
        Err(format!("the second writing {told}, the Rust {theirs}"))
    }
}

/// What a call did to what waits; before it this waited, and these engines were convicted.
fn count(call: &Call, told: Answer, (waited, convicted): (&[Waiting], u32), now: &Shelved, counts: &mut Counts) {
    let mut add = |what: &'static str, so: bool| *counts.entry(what).or_default() += u64::from(so);
    let left = &now.waiting;
    match call {
        Call::Report { engine, record } => {
            let same = |one: &&Waiting| one.record == *record;
            let repeated = waited.iter().filter(same).any(|one| one.engine == *engine);
            add("report answered 13", told == Answer::Number(13));
            add("report answered 13, of what waits already", told == Answer::Number(13) && repeated);
            add("report answered 7, and fixes wait", told == Answer::Number(7) && !waited.is_empty());
            add("report merged, and 64 fixes wait", (20..24).contains(&told.number()) && waited.len() == MAX_WAITING);
            add("report answered 24", told == Answer::Waiting);
            if told == Answer::Waiting {
                let models = Record::read(record).expect("a record").models;
                add("report answered 24, of what waits already", repeated);
                add("report answered 24, of what waits for another engine", !repeated && waited.iter().any(|one| same(&one)));
                add("report answered 24, under another than its first model", left[waited.len()].model != models[0]);
                add("report answered 24, the last place", left.len() == MAX_WAITING);
            }
        }
        Call::Summary { .. } if told == Answer::Number(0) => {
            let again = now.tried.iter().filter(|one| **one == Answer::Waiting).count();
            let some = (1..now.tried.len()).contains(&again);
            for answer in &now.tried {
                add(trial(*answer), true);
            }
            add("tried: two fixes or more in one summary", now.tried.len() > 1);
            add("tried: 64 fixes in one summary", now.tried.len() == MAX_WAITING);
            let all = "tried: of one summary some wait again, some do not, others were not due";
            add(all, some && waited.len() > now.tried.len());
        }
        Call::Summary { .. } => {}
        Call::Convict { engine } => {
            add("conviction: threw out all that waits", !waited.is_empty() && left.is_empty());
            add("conviction: threw out some", left.len() < waited.len() && !left.is_empty());
            add("conviction: threw out none of those that wait", !waited.is_empty() && left.len() == waited.len());
            add(
                "conviction: of an engine convicted already, and fixes wait",
                *engine < 32 && convicted >> engine & 1 == 1 && !waited.is_empty(),
            );
            add(
                "conviction: left a waiting fix without the summary of a model that it cites before its own",
                left.iter().any(|one| waits_late(one, &now.track)),
            );
        }
    }
}

/// Whether a fix waits under another model than the first that has no summary now.
fn waits_late(one: &Waiting, track: &Track) -> bool {
    let models = Record::read(&one.record).expect("a record").models;
    models.iter().find(|model| !track.has_summary(**model)) != Some(&one.model)
}

fn trial(answer: Answer) -> &'static str {
    match answer {
        Answer::Changed => "tried: Changed",
        Answer::Contested => "tried: Contested",
        Answer::Duplicate => "tried: Duplicate",
        Answer::Dropped => "tried: Dropped",
        Answer::Waiting => "tried: waits again",
        Answer::Number(7) => "tried: gone, its model is disputed or of another spec",
        Answer::Number(_) => "tried: answered what no trial may be",
    }
}

// ---- lists of calls

/// One that waits, or waited, once more; a summary of a model that is waited for; a conviction of an engine whose fix waits; or any call.
fn call(random: &mut Random, growing: &mut Growing, waiting: &[Waiting]) -> Call {
    let one = if waiting.is_empty() { None } else { Some(&waiting[random.below(waiting.len() as u64) as usize]) };
    match (random.below(12), one) {
        (0..=3, Some(one)) => growing.summary_of(random, one.model),
        (4, Some(one)) => Call::Convict { engine: one.engine },
        (5, Some(one)) => Call::Report { engine: one.engine, record: one.record.clone() },
        (6, Some(one)) => Call::Report { engine: growing.engine(random), record: one.record.clone() },
        (7, _) => growing.conviction(random),
        (8, _) => growing.summary(random, false),
        _ => growing.report(random),
    }
}

/// Calls from a fresh track: as the comparison with the Rust has them, or with so many fixes that wait that a shelf is full.
fn list(random: &mut Random) -> Vec<Call> {
    match random.below(6) {
        0 => calls::heap(random),
        _ => calls::list(random),
    }
}

fn run(start: &Shelved, list: &[Call], counts: &mut Counts) -> Result<(), String> {
    let mut pair = Pair::begin(start);
    for (n, call) in list.iter().enumerate() {
        pair.call(call, counts).map_err(|words| format!("call {n}: {words}"))?;
        if shelf::read(&shelf::write(&pair.second.waiting), &pair.second.track).is_none() {
            return Err(format!("call {n}: the shelf breaks the specification's rules"));
        }
    }
    Ok(())
}

// ---- shelves that nobody reached

/// A fix that may wait beside this track, if any may.
fn waiting(random: &mut Random, growing: &Growing, track: &Track, models: u64) -> Option<Waiting> {
    let missing: Vec<u8> = (0..models as u8).filter(|model| !track.has_summary(*model)).collect();
    let engines: Vec<u8> = (0..32).filter(|engine| !track.is_convicted(*engine)).collect();
    if missing.is_empty() || engines.is_empty() {
        return None;
    }
    let model = random.pick(&missing);
    let mut record = growing.record(random);
    record.models = (0..1 + random.below(4)).map(|_| random.below(models) as u8).collect();
    let at = random.below(record.models.len() as u64) as usize;
    record.models[at] = model;
    let few = engines.len().min(random.pick(&[1, 3, 32]));
    Some(Waiting { model, engine: engines[random.below(few as u64) as usize], record: record.write().to_vec() })
}

/// A track and a shelf that are well-formed, and what their calls are chosen by.
fn passed(random: &mut Random) -> (Shelved, Growing) {
    let (lent, growing): (Lent, Growing) = lent::track(random);
    let track = Track::read(&lent.bytes()).expect("a well-formed track");
    let models = random.pick(&[3, 5, 64]);
    let mut held = Vec::new();
    for _ in 0..random.pick(&[0, 1, 2, 3, 5, 20, 63, 64]) {
        match held.is_empty() || !random.one_in(12) {
            true => held.extend(waiting(random, &growing, &track, models)),
            false => held.push(Waiting::clone(&held[random.below(held.len() as u64) as usize])),
        }
    }
    (Shelved { track, waiting: held, tried: Vec::new() }, growing)
}

fn features(start: &Shelved, counts: &mut Counts) {
    let mut add = |what: &'static str, so: bool| *counts.entry(what).or_default() += u64::from(so);
    let all = &start.waiting;
    add("passed: 64 fixes wait", all.len() == MAX_WAITING);
    add("passed: a fix waits under a later missing model than its first", all.iter().any(|one| waits_late(one, &start.track)));
    add("passed: the same place twice", all.iter().enumerate().any(|(i, one)| all[i + 1..].contains(one)));
}

// ---- damage

/// Whether a call on these bytes is answered 1 and leaves them.
fn refuses(track: &[u8], bytes: &[u8], call: &Call) -> bool {
    let (mut memory, mut shelf) = (track.to_vec(), bytes.to_vec());
    call.on_library(&mut memory, &mut shelf) == 1 && memory == track && shelf == bytes
}

/// A byte of a shelf that is worth changing: its count, in a used place, or anywhere.
fn place(random: &mut Random, b: &[u8]) -> usize {
    let used = u64::from(b[0]).min(MAX_WAITING as u64);
    match random.below(8) {
        0 => 0,
        1..=5 if used > 0 => {
            let at = WAITING_AT + WAITING * random.below(used) as usize;
            at + if random.one_in(2) { random.below(2) as usize } else { random.below(WAITING as u64) as usize }
        }
        _ => random.below(b.len() as u64) as usize,
    }
}

fn changed(random: &mut Random, byte: u8) -> u8 {
    if random.one_in(2) { byte ^ (1 << random.below(8)) } else { random.next() as u8 }
}

/// One byte of the shelf or of the track changed: refused with 1 exactly where the rules are broken. What is still a track and its shelf
/// is called as any other.
fn damaged(random: &mut Random, start: &Shelved, call: &Call, counts: &mut Counts) -> Result<(), String> {
    let (mut track, mut bytes) = (start.track.bytes(), shelf::write(&start.waiting));
    let of_track = random.one_in(3);
    if of_track {
        let said = u64::from(u16::from_le_bytes([track[4], track[5]]));
        let at = match random.below(3) {
            1 if said > 0 => SUMMARIES_AT + SUMMARY * random.below(said) as usize + random.below(2) as usize,
            _ => random.below(4) as usize,
        };
        track[at] = changed(random, track[at]);
    } else {
        let at = place(random, &bytes);
        bytes[at] = changed(random, bytes[at]);
    }
    let Some(rust) = Track::read(&track) else {
        return if !binding::TRACK || refuses(&track, &bytes, call) {
            Ok(())
        } else {
            Err("a broken track is not refused with 1".into())
        };
    };
    let held = shelf::read(&bytes, &rust);
    let kind = match (of_track, held.is_some()) {
        (false, false) => "a byte changed: no shelf, answered 1",
        (false, true) => "a byte changed: still a shelf",
        (true, false) => "a byte of the track changed: no shelf beside it, answered 1",
        (true, true) => "a byte of the track changed: still its shelf",
    };
    *counts.entry(kind).or_default() += 1;
    match held {
        Some(waiting) => run(&Shelved { track: rust, waiting, tried: Vec::new() }, std::slice::from_ref(call), counts),
        None if !binding::TRACK || refuses(&track, &bytes, call) => Ok(()),
        None => Err(format!("not refused with 1: track {} shelf {}", used(&track), used(&bytes))),
    }
}

/// Lengths that no shelf has; and a broken shelf comes before a wrong number.
fn other_lengths(start: &Shelved, call: &Call, counts: &mut Counts) -> Result<(), String> {
    if !binding::TRACK {
        return Ok(());
    }
    *counts.entry("shelves of another length").or_default() += 1;
    let (track, mut bytes) = (start.track.bytes(), shelf::write(&start.waiting));
    bytes.push(0);
    let wrong = [Call::Convict { engine: 32 }, Call::Summary { engine: 32, model: 64, spec: 0, inputs: inputs(0) }];
    for length in [0, 1, WAITING_AT + WAITING, SHELF - 1, SHELF + 1] {
        for call in wrong.iter().chain([call]) {
            if !refuses(&track, &bytes[..length], call) {
                return Err(format!("{length} bytes are taken for a shelf"));
            }
        }
    }
    Ok(())
}

// ---- the comparison

/// Bytes in hex, without the zeros at their end.
fn used(b: &[u8]) -> String {
    hex::write(&b[..b.iter().rposition(|&x| x != 0).map_or(0, |at| at + 1)])
}

/// Leaves out calls and fixes that wait, while something is still wrong, and stops.
fn different(start: Shelved, list: Vec<Call>) -> ! {
    let mut start = start;
    let wrong = |start: &Shelved, list: &[Call]| run(start, list, &mut Counts::new()).is_err();
    let list = calls::shrink(list, &|fewer| wrong(&start, fewer));
    let mut at = start.waiting.len();
    while at > 0 {
        at -= 1;
        let mut fewer = start.clone();
        fewer.waiting.remove(at);
        if wrong(&fewer, &list) {
            start = fewer;
        }
    }
    let words = run(&start, &list, &mut Counts::new()).unwrap_err();
    println!(
        "DIFFERENT: shelf, {words}\n  track {}\n  shelf {}",
        used(&start.track.bytes()),
        used(&shelf::write(&start.waiting))
    );
    list.iter().for_each(|call| println!("  {call}"));
    std::process::exit(1)
}

/// A list on a track and a shelf that nobody reached, and the same with a byte changed.
fn on_passed(random: &mut Random, counts: &mut Counts) -> u64 {
    let (start, mut growing) = passed(random);
    features(&start, counts);
    let list: Vec<Call> = (0..1 + random.below(4)).map(|_| call(random, &mut growing, &start.waiting)).collect();
    if run(&start, &list, counts).is_err() {
        different(start, list);
    }
    let found = other_lengths(&start, &list[0], counts).and_then(|()| damaged(random, &start, &list[0], counts));
    if let Err(words) = found {
        println!("DIFFERENT: shelf, {words}\n  {}", list[0]);
        std::process::exit(1);
    }
    list.len() as u64
}

pub fn compare(random: &mut Random, lists: u64) {
    let (mut counts, mut made, fresh) = (Counts::new(), 0, Shelved::default());
    for n in 0..lists {
        if n % 2 == 0 {
            made += on_passed(random, &mut counts);
            continue;
        }
        let list = list(random);
        made += list.len() as u64;
        if run(&fresh, &list, &mut counts).is_err() {
            different(fresh, list);
        }
    }
    let beside =
        if binding::TRACK { "library and second writing alike" } else { "the second writing alone (not in the library)" };
    println!("shelf: {lists} lists of {made} calls, half of them on tracks and shelves that nobody reached, {beside}");
    cases::print(&counts);
    let came = |kind: &str| counts.get(kind).is_some_and(|times| *times > 0);
    tried::all(KINDS, came, if binding::TRACK { lists } else { 0 });
    assert!(!counts.contains_key("tried: answered what no trial may be"));
    assert_eq!(fresh.track.bytes(), [0; SIZE]);
}
