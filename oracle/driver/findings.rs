//! Runs the Rust on the smallest inputs where its own comments, or a paper, say something else, and the library on those that concern a
//! track or an agreement without a number. Each finding prints what was seen; the run fails where that is not what docs/DIFFERENCES.md
//! says.
//!
//! `fix(tags, step)` has message 8d000000000000, time 1000, latitude `step`, longitude 0, height 1500 mm, all tags used, no
//! models, spec 0, covariance diag(100, 100, 100). Steps 0, 2700 and 5400 are 0, about 30 and about 60 m north: neighbours agree,
//! the ends do not. S = fix({1}, 0), M = fix({1,2}, 2700), L = fix({1,2,3}, 5400).

#[path = "binding.rs"]
mod binding;

use oracle::decide::{Decision, SIZE, decide};
use oracle::layout::{CONSISTENT_AT, IDENTITY_AT, Mask, RECORD, SHELF, STANDING_AT, VERIFIED_AT};
use oracle::measured::{Outcome, outcome};
use oracle::track::{FIX, FIXES_AT, REFUSED, REFUSED_AT, SIZE as TRACK_SIZE, TRANSMISSION, TRANSMISSIONS_AT, Track};
use oracle::{Claim, Record};

fn fix(tags: &[u64], step: i32) -> Record {
    Record {
        time: 1000,
        lat: step,
        lon: 0,
        height: Some(1500),
        message: vec![0x8d, 0, 0, 0, 0, 0, 0],
        tags: tags.to_vec(),
        used: ((1u32 << tags.len()) - 1) as Mask,
        models: Vec::new(),
        spec: 0,
        covariance: [100.0, 0.0, 0.0, 100.0, 0.0, 100.0],
    }
}

fn s() -> Record {
    fix(&[1], 0)
}

fn m() -> Record {
    fix(&[1, 2], 2700)
}

fn l() -> Record {
    fix(&[1, 2, 3], 5400)
}

/// Tags and step of a record in bytes.
fn short(b: &[u8]) -> String {
    let r = Record::read(&b[..RECORD]).expect("a record");
    let tags: Vec<String> = r.tags.iter().map(u64::to_string).collect();
    format!("{{{}}}@{}", tags.join(","), r.lat)
}

/// What a track holds: `contested | transmission; ...`, a transmission being its fixes, then `refused` ones.
fn view(b: &[u8]) -> String {
    let mut parts = Vec::new();
    for t in 0..usize::from(b[6]) {
        let at = TRANSMISSIONS_AT + TRANSMISSION * t;
        let fixes: Vec<String> = (0..usize::from(b[at])).map(|k| short(&b[at + FIXES_AT + FIX * k..])).collect();
        let refused: Vec<String> = (0..usize::from(b[at + 1])).map(|k| short(&b[at + REFUSED_AT + REFUSED * k..])).collect();
        parts.push(match refused.as_slice() {
            [] => fixes.join(" "),
            some => format!("{} refused {}", fixes.join(" "), some.join(" ")),
        });
    }
    format!("contested={} [{}]", contested(b), parts.join("; "))
}

fn contested(b: &[u8]) -> u64 {
    u64::from_le_bytes(b[8..16].try_into().unwrap())
}

/// The answer by its name.
fn name(number: u32) -> String {
    match number {
        20 => "Changed".to_string(),
        21 => "Contested".to_string(),
        22 => "Duplicate".to_string(),
        23 => "Dropped".to_string(),
        24 => "Waiting".to_string(),
        other => other.to_string(),
    }
}

/// Whose track is run.
#[derive(Clone, Copy, PartialEq, Eq)]
enum Whose {
    Rust,
    Ours,
}

enum Held {
    Rust(Box<Track>),
    /// A track and its shelf.
    Ours(Vec<u8>, Vec<u8>),
}

impl Held {
    fn fresh(whose: Whose) -> Self {
        match whose {
            Whose::Rust => Self::Rust(Box::default()),
            Whose::Ours => Self::Ours(vec![0; TRACK_SIZE], vec![0; SHELF]),
        }
    }

    fn bytes(&self) -> Vec<u8> {
        match self {
            Self::Rust(track) => track.bytes(),
            Self::Ours(bytes, _) => bytes.clone(),
        }
    }

    fn report(&mut self, engine: u8, record: &[u8]) -> u32 {
        match self {
            Self::Rust(track) => track.report(engine, record).number(),
            Self::Ours(bytes, shelf) => binding::track::report(bytes, shelf, engine.into(), record),
        }
    }

    fn summary(&mut self, engine: u8, model: u8, inputs: &[u8]) -> u32 {
        match self {
            Self::Rust(track) => track.summary(engine, model, 0, inputs).into(),
            Self::Ours(bytes, shelf) => binding::track::summary(bytes, shelf, engine.into(), model.into(), 0, inputs),
        }
    }

    fn convict(&mut self, engine: u8) -> u32 {
        match self {
            Self::Rust(track) => track.convict(engine).into(),
            Self::Ours(bytes, shelf) => binding::track::convict(bytes, shelf, engine.into()),
        }
    }
}

struct Session {
    track: Held,
    answers: Vec<String>,
}

impl Session {
    fn report(&mut self, engine: u8, record: &Record) -> &mut Self {
        let told = self.track.report(engine, &record.write());
        self.answers.push(name(told));
        self
    }

    fn summary(&mut self, engine: u8, model: u8, first: u8) -> &mut Self {
        let mut inputs = [0u8; 32];
        inputs[0] = first;
        assert_eq!(self.track.summary(engine, model, &inputs), 0);
        self
    }

    fn convict(&mut self, engine: u8) -> &mut Self {
        assert_eq!(self.track.convict(engine), 0);
        self
    }

    fn told(&self) -> String {
        format!("{} {}", self.answers.join(","), view(&self.track.bytes()))
    }

    fn transmissions(&self) -> u8 {
        self.track.bytes()[6]
    }
}

struct Findings {
    whose: Whose,
    wrong: u32,
}

impl Findings {
    /// A fresh track of the one that is run.
    fn session(&self) -> Session {
        Session { track: Held::fresh(self.whose), answers: Vec::new() }
    }

    fn reports(&self, records: &[Record]) -> Session {
        let mut session = self.session();
        for record in records {
            session.report(1, record);
        }
        session
    }

    fn see(&mut self, what: &str, seen: String, expected: &str) {
        let ok = seen == expected;
        self.wrong += u32::from(!ok);
        println!("{what}\n    {seen}");
        if !ok {
            println!("    EXPECTED {expected}");
        }
    }
}

fn order(f: &mut Findings) {
    f.see("R-01 reports S M L", f.reports(&[s(), m(), l()]).told(), "Changed,Changed,Changed contested=0 [{1,2,3}@5400]");
    f.see(
        "R-01 reports L S M",
        f.reports(&[l(), s(), m()]).told(),
        "Changed,Changed,Changed contested=1 [{1,2}@2700 refused {1,2,3}@5400]",
    );
    f.see(
        "R-02 reports S M L S",
        f.reports(&[s(), m(), l(), s()]).told(),
        "Changed,Changed,Changed,Changed contested=1 [{1}@0 refused {1,2,3}@5400]",
    );
    f.see(
        "R-02 reports S M L S M",
        f.reports(&[s(), m(), l(), s(), m()]).told(),
        "Changed,Changed,Changed,Changed,Changed contested=1 [{1,2}@2700 refused {1,2,3}@5400]",
    );
    let mut first = f.session();
    first.report(1, &fix(&[1], 0)).report(2, &fix(&[1], 2700));
    f.see("R-03 {1}@0 by engine 1, {1}@2700 by engine 2", first.told(), "Changed,Duplicate contested=0 [{1}@0]");
    let signers = first.track.bytes()[TRANSMISSIONS_AT + FIXES_AT + RECORD];
    f.see("R-03 signers of {1}@0", format!("{signers:b}"), "110");
    let mut other = f.session();
    other.report(2, &fix(&[1], 2700)).report(1, &fix(&[1], 0));
    f.see("R-03 the other order", other.told(), "Changed,Duplicate contested=0 [{1}@2700]");
}

fn convictions(f: &mut Findings) {
    let mut session = f.reports(&[l(), s(), m()]);
    session.convict(30);
    f.see(
        "R-04 reports L S M by engine 1, convict 30, who signed nothing",
        session.told(),
        "Changed,Changed,Changed contested=1 [{1,2,3}@5400]",
    );
    let mut late = f.session();
    late.report(1, &fix(&[1], 0)).report(2, &fix(&[1, 2], 0)).convict(2);
    f.see("R-05 {1} by engine 1, {1,2} by engine 2, convict 2", late.told(), "Changed,Changed contested=0 []");
    let mut early = f.session();
    early.convict(2).report(1, &fix(&[1], 0)).report(2, &fix(&[1, 2], 0));
    f.see("R-05 convict 2 first", early.told(), "Changed,4 contested=0 [{1}@0]");
    let cites = Record { models: vec![5], ..fix(&[1], 0) };
    let mut dispute = f.session();
    dispute.summary(1, 5, 1).report(1, &cites).summary(2, 5, 2).convict(2);
    f.see("R-06 summary(1, 5, X), report citing 5, summary(2, 5, Y), convict 2", dispute.told(), "Changed contested=0 []");
    let mut settled = f.session();
    settled.summary(1, 5, 1).summary(2, 5, 2).convict(2).report(1, &cites);
    f.see("R-06 the dispute settled before the report", settled.told(), "Changed contested=0 [{1}@0]");
}

fn ties(f: &mut Findings) {
    let (one, two, both) = (fix(&[1], 0), fix(&[2], 0), fix(&[1, 2], 0));
    let joined = f.reports(&[both.clone(), one.clone(), two.clone()]);
    f.see("R-07 {1,2} {1} {2}", joined.told(), "Changed,Dropped,Dropped contested=0 [{1,2}@0]");
    let apart = f.reports(&[one.clone(), two.clone(), both.clone()]);
    f.see("R-07 {1} {2} {1,2}: transmissions", apart.transmissions().to_string(), "3");
    let again = f.reports(&[one.clone(), two.clone(), both.clone(), both.clone()]);
    f.see("R-07 {1,2} once more", format!("{} {}", again.answers[3], again.transmissions()), "Changed 4");
    let late = Record { time: one.time + 2_000_000_001, ..both.clone() };
    let joined = f.reports(&[one.clone(), late]);
    f.see("limit of a link: {1}, and {1,2} 2,000,000,001 ns later", joined.told(), "Changed,Changed contested=0 [{1,2}@0]");
    let mut many = vec![one, two];
    many.extend(std::iter::repeat_n(both.clone(), 10));
    let many = f.reports(&many);
    let held = view(&many.track.bytes());
    f.see("R-07 {1} {2}, then {1,2} ten times: copies of {1,2} held", held.matches("{1,2}").count().to_string(), "8");
    let at = |record: Record, time: u64| Record { time, ..record };
    let mut pushed = f.session();
    pushed.report(1, &at(fix(&[1], 0), 5)).report(1, &at(fix(&[2], 0), 5)).report(1, &at(both.clone(), 9));
    for tag in 10..15 {
        pushed.report(1, &at(fix(&[tag], 0), 6));
    }
    let before = pushed.track.bytes();
    pushed.report(2, &at(both, 1));
    let same = pushed.track.bytes() == before;
    f.see(
        "R-08 {1}t5 {2}t5 {1,2}t9, five others t6, then {1,2}t1 by engine 2: answer, bytes unchanged",
        format!("{} {same}", pushed.answers[8]),
        "Changed true",
    );
}

fn dropped(f: &mut Findings) {
    let second = Record { models: vec![5], used: 1, ..fix(&[1, 3], 5400) };
    let mut session = f.session();
    session.summary(1, 5, 1).report(1, &fix(&[1, 2], 0)).report(1, &second);
    f.see("R-09 {1,2}@0, {1,3}@5400 citing 5", session.told(), "Changed,Changed contested=0 [{1,2}@0 {1,3}@5400]");
    session.report(1, &fix(&[1], 0));
    f.see("R-09 then {1}@0", session.told(), "Changed,Changed,Dropped contested=1 [{1,2}@0 refused {1,3}@5400]");
    session.convict(30);
    f.see("R-09 convict a bystander", session.told(), "Changed,Changed,Dropped contested=1 [{1,2}@0 {1,3}@5400]");
    session.report(1, &fix(&[1], 0));
    f.see("R-09 {1}@0 again", session.told(), "Changed,Changed,Dropped,Dropped contested=2 [{1,2}@0 refused {1,3}@5400]");
    let zero = |tags: &[u64]| Record { covariance: [0.0; 6], ..fix(tags, 0) };
    let mut cut = f.session();
    cut.report(1, &zero(&[1]));
    for _ in 0..2 {
        for tag in 10..16 {
            cut.report(1, &zero(&[1, tag]));
        }
    }
    f.see(
        "R-10 {1} and six supersets {1,10}..{1,15} with zero covariance, all reported twice",
        cut.told(),
        "Changed,Contested,Contested,Contested,Contested,Contested,Contested,Duplicate,Duplicate,Dropped,Dropped,Duplicate,Duplicate \
         contested=6 [{1}@0 refused {1,10}@0 {1,14}@0 {1,11}@0 {1,15}@0]",
    );
    let refused = cut.track.bytes()[9_232 + 1];
    let entered = cut.answers.iter().filter(|a| *a == "Contested").count();
    let gone = cut.answers.iter().filter(|a| *a == "Dropped").count();
    f.see("R-10 refused held; some of the six are Dropped, none of those held is", format!("{refused} {}", gone > 0), "4 true");
    f.see("R-10 contested counts entries into the list", format!("{}", contested(&cut.track.bytes()) == entered as u64), "true");
}

fn models(f: &mut Findings) {
    let mut untouched = f.reports(&[l(), s(), m()]);
    untouched.summary(2, 7, 1).summary(3, 7, 2);
    f.see(
        "R-11 reports L S M, then a dispute about a model that nothing cites",
        untouched.told(),
        "Changed,Changed,Changed contested=1 [{1,2}@2700 refused {1,2,3}@5400]",
    );
    let old = Record { models: vec![7], time: 1, ..fix(&[50], 0) };
    let mut flipped = f.session();
    flipped.summary(2, 7, 1).report(1, &old).report(1, &l()).report(1, &s()).report(1, &m()).summary(3, 7, 2);
    f.see(
        "R-11 the same where an old fix of another transmission cites it",
        flipped.told(),
        "Changed,Changed,Changed,Changed contested=1 [{1,2,3}@5400]",
    );
    let cites = Record { models: vec![5], ..fix(&[1], 0) };
    let mut changed = f.session();
    changed.summary(1, 5, 1).report(1, &cites).summary(1, 5, 2);
    f.see("R-12 a model changed by its only signer", changed.told(), "Changed contested=0 [{1}@0]");
    changed.report(1, &cites);
    f.see("R-12 the same record again", changed.told(), "Changed,Changed contested=0 [{1}@0 {1}@0]");
    changed.convict(30);
    f.see("R-12 convict a bystander", changed.told(), "Changed,Changed contested=0 [{1}@0]");
    let mut other = f.session();
    other.summary(1, 5, 1).report(1, &cites).summary(1, 5, 2).summary(2, 9, 1).summary(3, 9, 2);
    f.see(
        "R-12 a dispute about a model that nothing cites, in the place of the conviction",
        other.told(),
        "Changed contested=0 []",
    );
}

/// Fixes that come before their model. The first is a difference: what it is said to do is the Rust's, then ours.
fn waiting(f: &mut Findings) {
    let cites = |tags: &[u64], models: &[u8]| Record { models: models.to_vec(), ..fix(tags, 0) };
    let mut convicted = f.session();
    convicted.report(1, &cites(&[1], &[5])).convict(1).summary(2, 5, 1);
    let left = if f.whose == Whose::Rust { "Waiting contested=0 [{1}@0]" } else { "Waiting contested=0 []" };
    f.see("waiting: report by 1 citing 5, which is missing, convict 1, summary(2, 5, X)", convicted.told(), left);
    let mut again = f.session();
    let (one, two, both) = (cites(&[1], &[5]), cites(&[2], &[5]), cites(&[1, 2], &[5]));
    again.report(1, &one).report(1, &two).report(1, &both).report(1, &both).summary(2, 5, 1);
    f.see(
        "waiting: a repeat waits too, {1} {2} {1,2} {1,2} citing 5, then summary(2, 5, X): transmissions",
        format!("{} {}", again.answers.join(","), again.transmissions()),
        "Waiting,Waiting,Waiting,Waiting 4",
    );
    let many: Vec<Record> = (0..65).map(|n| Record { time: 1000 + n, ..cites(&[10 + n], &[5]) }).collect();
    let many = f.reports(&many);
    let last = if f.whose == Whose::Rust { "Waiting" } else { "13" };
    f.see("waiting: 65 fixes that wait, the last", many.answers[64].clone(), last);
    let mut order = f.session();
    order.report(1, &cites(&[1], &[6, 5])).summary(1, 5, 1).summary(1, 6, 2);
    f.see(
        "waiting: a fix citing [6,5] waits for 6, its first, and is merged when 6 comes",
        order.told(),
        "Waiting contested=0 [{1}@0]",
    );
}

/// Models in any order, and twice.
fn citations(f: &mut Findings) {
    let cites = |models: &[u8]| Record { models: models.to_vec(), ..fix(&[1], 0) };
    let mut session = f.session();
    session.summary(1, 5, 1).summary(1, 6, 2).report(1, &cites(&[6, 5])).report(1, &cites(&[5, 6])).report(1, &cites(&[5, 5]));
    f.see("R-18 models [6,5], [5,6] and [5,5]", session.answers.join(","), "Changed,Changed,Changed");
}

fn flat(variance: f64) -> [f64; 6] {
    [variance, 0.0, 0.0, variance, 0.0, variance]
}

fn here(covariance: [f64; 6]) -> Claim {
    Claim { lat: 0, lon: 0, height: Some(0), covariance }
}

fn there(lat: i32) -> Claim {
    Claim { lat, ..here([0.0; 6]) }
}

fn agreements(f: &mut Findings) {
    // The variance whose chi-square is exactly the limit, found among the neighbours of the quotient.
    let (unit, limit) = oracle::agreement(&here(flat(1.0)), &there(100));
    let first = (unit / limit).to_bits() - 8;
    let equal = (0..17).map(|k| flat(f64::from_bits(first + k))).find(|c| oracle::agreement(&here(*c), &there(100)).0 == limit);
    f.see("R-13 a chi-square equal to 16.266 can be reached", equal.is_some().to_string(), "true");
    if let Some(c) = equal {
        println!("    lat 0 and lat 100, diag of {:016x}: chi2={limit}", c[0].to_bits());
        let list = [(fix(&[1], 0), c), (fix(&[1, 2], 100), c)].map(|(r, c)| Record { covariance: c, height: Some(0), ..r });
        let told = decide(&items(&list, |_, _| {})).unwrap();
        f.see("R-13 decided", told.line(), "ranked=1 dominated=0 refused=none");
    }
    let tiny = here(flat(1e-320));
    let seen = [oracle::agreement(&tiny, &there(0)).0, oracle::agreement(&tiny, &there(1)).0];
    f.see("R-14 diag(1e-320): at its own place, and 1e-7 degree away", format!("{seen:?}"), "[0.0, inf]");
    let singular = here([1e300, 1e300, 0.0, 1e300, 0.0, 1.0]);
    let seen = oracle::agreement(&singular, &there(0)).0;
    f.see("R-14 (1e300, 1e300, 0, 1e300, 0, 1), which is singular, at its own place", format!("{seen:?}"), "0.0");
    let seen = oracle::agreement(&here([f64::INFINITY, 0.0, 0.0, 1.0, 0.0, 1.0]), &Claim { lon: 1000, ..there(0) }).0;
    println!("R-14 an infinite variance to the east, 1e-4 degree east\n    {seen:?}");
}

/// An outcome without its numbers.
fn bare(outcome: Outcome) -> &'static str {
    match outcome {
        Outcome::Inside { .. } => "inside",
        Outcome::Outside { .. } => "outside",
        Outcome::Unmeasurable => "unmeasurable",
    }
}

/// What the Rust's numbers are taken for, and what the library answers. Its bits are compared elsewhere.
fn outcomes(f: &mut Findings) {
    for (what, smaller, larger, expected) in [
        ("a covariance of zeros, at its own place", here([0.0; 6]), there(0), "unmeasurable"),
        ("diag(1e-320), at its own place", here(flat(1e-320)), there(0), "inside"),
        ("diag(1e-320), 1e-7 degree away", here(flat(1e-320)), there(1), "unmeasurable"),
        ("diag(100), 5400e-7 degree away", here(flat(100.0)), there(5400), "outside"),
    ] {
        f.see(&format!("unmeasurable: {what}"), bare(outcome(&smaller, &larger)).to_string(), expected);
        if let Some(ours) = binding::outcome(&smaller, &larger) {
            f.see(
                &format!("unmeasurable: {what}, the library"),
                ours.map_or_else(|words| words, |o| bare(o).to_string()),
                expected,
            );
        }
    }
}

/// Items of these records: identity i + 1, consistent, unjudged, standing 0; `with` changes one.
fn items(records: &[Record], with: impl Fn(usize, &mut [u8])) -> Vec<u8> {
    let mut bytes = Vec::new();
    for (i, record) in records.iter().enumerate() {
        let mut item = [0u8; SIZE];
        item[..RECORD].copy_from_slice(&record.write());
        item[IDENTITY_AT] = i as u8 + 1;
        item[CONSISTENT_AT] = 1;
        with(i, &mut item);
        bytes.extend_from_slice(&item);
    }
    bytes
}

fn decisions(f: &mut Findings) {
    let line = |d: Option<Decision>| d.expect("a decision").line();
    let apart = [fix(&[1], 0), fix(&[1, 2], 5400)];
    let told = decide(&items(&apart, |i, item| item[CONSISTENT_AT] = u8::from(i != 0)));
    f.see("R-15 an inconsistent {1}@0 with {1,2}@5400, equal inputs", line(told), "ranked=1 dominated=0 refused=none");
    let zero = [1, 2, 3].map(|n| Record { covariance: [0.0; 6], ..fix(&(1..=n).collect::<Vec<_>>(), 0) });
    let told = decide(&items(&zero, |i, item| item[IDENTITY_AT] = [2, 1, 3][i]));
    f.see(
        "R-16 {1} {1,2} {1,2,3} with zero covariance, identities 2 1 3",
        line(told),
        "ranked=0 dominated=none refused=1:0:none:0,2:1:none:0",
    );
    let told = decide(&items(&zero, |i, item| (item[STANDING_AT], item[VERIFIED_AT]) = (i as u8, u8::from(i > 0))));
    f.see(
        "R-16 the same, standing 0 1 2, the larger two verified",
        line(told),
        "ranked=2 dominated=none refused=0:1:none:1,1:2:none:1",
    );
    let heavy = [fix(&[1, 3], 0), Record { used: 1, models: vec![5, 6, 7], ..fix(&[1, 2], 0) }];
    let told = decide(&items(&heavy, |i, item| item[IDENTITY_AT] = 9 - i as u8));
    f.see(
        "R-17 two used tags against one used tag and three models, the latter with the lower identity",
        line(told),
        "ranked=0,1 dominated=none refused=none",
    );
    let mut orders = std::collections::BTreeSet::new();
    let set = [fix(&[1], 0), fix(&[2], 0), fix(&[1, 2, 3], 5400)];
    for p in [[0, 1, 2], [0, 2, 1], [1, 0, 2], [1, 2, 0], [2, 0, 1], [2, 1, 0]] {
        let told = decide(&items(&p.map(|k| set[k].clone()), |i, item| item[IDENTITY_AT] = p[i] as u8 + 1)).unwrap();
        let kept: Vec<usize> = told.refusals.iter().map(|r| p[usize::from(r.kept)]).collect();
        orders.insert(kept);
    }
    f.see("R-19 {1}, {2} and {1,2,3} disagreeing with both, in all six orders: who is named", format!("{orders:?}"), "{[0]}");
}

/// What concerns a track, on the one that is run.
fn tracks(f: &mut Findings) {
    order(f);
    convictions(f);
    ties(f);
    dropped(f);
    models(f);
    citations(f);
    waiting(f);
}

fn main() {
    println!("The Rust:");
    let mut f = Findings { whose: Whose::Rust, wrong: 0 };
    tracks(&mut f);
    agreements(&mut f);
    outcomes(&mut f);
    decisions(&mut f);
    if binding::TRACK {
        println!("The library's track:");
        f.whose = Whose::Ours;
        tracks(&mut f);
    } else {
        println!("The library's track: not in the library");
    }
    println!("findings: {} not as docs/DIFFERENCES.md says", f.wrong);
    std::process::exit(i32::from(f.wrong > 0));
}
