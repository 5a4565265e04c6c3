//! Lists of track calls on a fresh track, on the library and on the Rust: each answer, all bytes after each call, what waits then, and
//! the listing. Calls at which the Rust does something else with what waits are left out (`Call::parts_from_rust`); shelves.rs has them.

use crate::binding;
use crate::calls::{self, Call};
use crate::cases::{self, Counts, Seen};
use crate::random::Random;
use crate::{heights, measured, tried};
use oracle::formed::formed;
use oracle::layout::SHELF;
use oracle::shelf::{self, Waiting};
use oracle::track::{Answer, SIZE, Track};

/// A listing's output has to be so large.
pub const ROOM: usize = 16_384;

/// What a summary may do with what waits, as far as it was to occur in a run.
const TRIALS: (&str, [&str; 6]) = (
    "fixes that wait",
    [
        "report answered 24",
        "summary: tried one fix that waited",
        "summary: tried two fixes or more",
        "summary: fixes of two engines were tried",
        "summary: a tried fix waits again",
        "summary: of the tried some wait again, some do not",
    ],
);

/// One track twice: as the library holds it and as the Rust does, with room for what is compared.
pub struct Both {
    pub rust: Track,
    pub ours: Vec<u8>,
    shelf: Vec<u8>,
    pub before: Vec<u8>,
    pub after: Vec<u8>,
    text: Vec<u8>,
}

impl Both {
    pub fn fresh() -> Self {
        let bytes = || vec![0u8; SIZE];
        Self {
            rust: Track::default(),
            ours: bytes(),
            shelf: vec![0; SHELF],
            before: bytes(),
            after: bytes(),
            text: vec![0; ROOM],
        }
    }

    pub fn begin(&mut self, rust: Track, bytes: &[u8]) {
        self.rust = rust;
        self.ours.copy_from_slice(bytes);
        self.shelf.fill(0);
        self.after.copy_from_slice(bytes);
    }

    /// One call on both; what differs, in words. None where the Rust parts from the library, and then the call is not made.
    pub fn call(&mut self, call: &Call, counts: &mut Counts) -> Result<Option<Answer>, String> {
        let waited = if self.rust.waits() == 0 { Vec::new() } else { self.rust.waiting() };
        if call.parts_from_rust(&self.rust, &waited) {
            *counts.entry(left_out(call)).or_default() += 1;
            return Ok(None);
        }
        std::mem::swap(&mut self.before, &mut self.after);
        let told = call.on_rust(&mut self.rust);
        self.rust.write(&mut self.after);
        let waits = if self.rust.waits() == 0 { Vec::new() } else { self.rust.waiting() };
        count_trials(call, &waited, &waits, counts);
        if !binding::TRACK {
            return Ok(Some(told));
        }
        let ours = call.on_library(&mut self.ours, &mut self.shelf);
        if ours != told.number() || self.ours != self.after {
            let at = self.ours.iter().zip(&self.after).position(|(a, b)| a != b);
            return Err(format!("library {ours}, Rust {told}; first other byte {at:?}"));
        }
        if waits.is_empty() && waited.is_empty() {
            return if self.shelf.iter().all(|&b| b == 0) { Ok(Some(told)) } else { Err("the shelf is not empty".to_string()) };
        }
        match by_model(&self.shelf, &self.rust) {
            Some(held) if held == waits => Ok(Some(told)),
            held => Err(format!("the library's shelf {held:?}, what waits in the Rust {waits:?}")),
        }
    }

    /// Both listings; the Rust has none, so its state is written by the oracle.
    pub fn listing(&mut self, counts: &mut Counts) -> Result<(), String> {
        let expected = self.rust.listing();
        let lines = expected.bytes().filter(|&b| b == b'\n').count();
        *counts.entry(listed(lines)).or_default() += 1;
        cases::count_heights(&self.after, counts);
        measured::listing(&expected).for_each(|kind| *counts.entry(kind).or_default() += 1);
        if !binding::TRACK {
            return Ok(());
        }
        let paint = (lines % 251) as u8;
        self.text.fill(paint);
        let length = binding::track::listing(&self.ours, &mut self.text);
        let same = length == expected.len() && self.text[..length] == *expected.as_bytes();
        if same && self.text[length..].iter().all(|&b| b == paint) {
            return Ok(());
        }
        let ours = String::from_utf8_lossy(self.text.get(..length).unwrap_or_default());
        Err(format!("listings differ: library {length}\n{ours}\nexpected {}\n{expected}", expected.len()))
    }
}

/// What waits on the library's shelf, by ascending model and for each in the shelf's order; none where the bytes are no shelf.
fn by_model(b: &[u8], track: &Track) -> Option<Vec<Waiting>> {
    let mut held = shelf::read(b, track)?;
    held.sort_by_key(|one| one.model);
    Some(held)
}

fn left_out(call: &Call) -> &'static str {
    match call {
        Call::Convict { .. } => "left out: a conviction of an engine whose fix waits",
        _ => "left out: a report that waits already, or a fix too many",
    }
}

/// What a summary tried, from what waited before and after it.
fn count_trials(call: &Call, waited: &[Waiting], waits: &[Waiting], counts: &mut Counts) {
    let Call::Summary { model, .. } = call else {
        return;
    };
    let tried: Vec<&Waiting> = waited.iter().filter(|one| one.model == *model).collect();
    let left = waits.iter().filter(|one| one.model == *model).count();
    if tried.is_empty() || left > 0 {
        return;
    }
    let again = waits.len() + tried.len() - waited.len();
    let mut add = |what: &'static str, so: bool| *counts.entry(what).or_default() += u64::from(so);
    add("summary: tried one fix that waited", tried.len() == 1);
    add("summary: tried two fixes or more", tried.len() > 1);
    add("summary: fixes of two engines were tried", tried.iter().any(|one| one.engine != tried[0].engine));
    add("summary: tried fixes, and others went on waiting", waited.len() > tried.len());
    add("summary: a tried fix waits again", again > 0);
    add("summary: of the tried some wait again, some do not", again > 0 && again < tried.len());
}

fn listed(lines: usize) -> &'static str {
    match lines {
        1 => "listings of one line",
        2..=9 => "listings of 2 to 9 lines",
        10..=29 => "listings of 10 to 29 lines",
        _ => "listings of 30 lines or more",
    }
}

/// Runs a list; what is wrong first, in words.
fn run(calls: &[Call], both: &mut Both, counts: &mut Counts) -> Result<(), String> {
    both.begin(Track::default(), &[0; SIZE]);
    for (n, call) in calls.iter().enumerate() {
        if let Some(told) = both.call(call, counts).map_err(|words| format!("call {n}: {words}"))? {
            Seen { before: &both.before, after: &both.after, counts }.call(call, told);
        }
        if n % 16 == 7 || n + 1 == calls.len() {
            both.listing(counts).map_err(|words| format!("after call {n}: {words}"))?;
        }
    }
    if formed(&both.after) { Ok(()) } else { Err("the Rust's state breaks the specification's rules".to_string()) }
}

pub fn compare(random: &mut Random, lists: u64) {
    let (mut both, mut counts, mut made) = (Both::fresh(), Counts::new(), 0);
    for _ in 0..lists {
        let calls = calls::list(random);
        made += calls.len();
        if run(&calls, &mut both, &mut counts).is_err() {
            let wrong = |calls: &[Call]| run(calls, &mut Both::fresh(), &mut Counts::new()).is_err();
            let least = calls::shrink(calls, &wrong);
            let words = run(&least, &mut Both::fresh(), &mut Counts::new()).unwrap_err();
            println!("DIFFERENT: track, {words}");
            least.iter().for_each(|call| println!("  {call}"));
            std::process::exit(1);
        }
    }
    println!("track: {lists} lists of {made} calls from a fresh track, {}", crate::beside(binding::TRACK));
    cases::print(&counts);
    let came = |kind: &str| counts.contains_key(kind);
    tried::all(heights::KINDS, came, lists);
    tried::all(TRIALS, came, lists);
    tried::all(measured::listings(), came, lists);
}
