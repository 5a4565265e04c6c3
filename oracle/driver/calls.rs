//! Lists of track calls: how they are made, and how they are run on the Rust and on the library.

use crate::heights::EDGES;
use crate::random::Random;
use crate::{binding, claims};
use oracle::layout::{
    MAX_TAGS, MAX_WAITING, MESSAGE_LENGTH_AT, MODEL_COUNT_AT, MODELS_AT, Mask, SPEC_AT, TAG_COUNT_AT, TAGS_AT, USED_AT,
};
use oracle::shelf::{Shelved, Waiting};
use oracle::track::{Answer, Track};
use oracle::{Record, hex};
use std::collections::BTreeMap;

#[derive(Clone, Debug)]
pub enum Call {
    Report { engine: u8, record: Vec<u8> },
    Summary { engine: u8, model: u8, spec: u16, inputs: Vec<u8> },
    Convict { engine: u8 },
}

impl Call {
    pub fn on_rust(&self, track: &mut Track) -> Answer {
        match self {
            Self::Report { engine, record } => track.report(*engine, record),
            Self::Summary { engine, model, spec, inputs } => Answer::Number(track.summary(*engine, *model, *spec, inputs)),
            Self::Convict { engine } => Answer::Number(track.convict(*engine)),
        }
    }

    /// The same beside the second writing of the shelf.
    pub fn on_shelved(&self, both: &mut Shelved) -> Answer {
        match self {
            Self::Report { engine, record } => both.report(*engine, record),
            Self::Summary { engine, model, spec, inputs } => Answer::Number(both.summary(*engine, *model, *spec, inputs)),
            Self::Convict { engine } => Answer::Number(both.convict(*engine)),
        }
    }

    pub fn on_library(&self, memory: &mut [u8], shelf: &mut [u8]) -> u32 {
        match self {
            Self::Report { engine, record } => binding::track::report(memory, shelf, (*engine).into(), record),
            Self::Summary { engine, model, spec, inputs } => {
                binding::track::summary(memory, shelf, (*engine).into(), (*model).into(), *spec, inputs)
            }
            Self::Convict { engine } => binding::track::convict(memory, shelf, (*engine).into()),
        }
    }

    /// Whether the Rust does something else by design where this waits in it: where a fix has to wait and a shelf is full, where what is
    /// reported waits already, and at the conviction of an engine whose fixes wait.
    pub fn parts_from_rust(&self, track: &Track, waiting: &[Waiting]) -> bool {
        match self {
            Self::Report { engine, record } => {
                let repeated = waiting.iter().any(|one| one.engine == *engine && one.record == *record);
                let must_wait = || Record::read(record).is_some_and(|r| r.models.iter().any(|model| !track.has_summary(*model)));
                let refused = *engine > 31 || track.is_convicted(*engine);
                !refused && (repeated || waiting.len() == MAX_WAITING && must_wait())
            }
            Self::Summary { .. } => false,
            Self::Convict { engine } => waiting.iter().any(|one| one.engine == *engine),
        }
    }

    pub fn kind(&self) -> &'static str {
        match self {
            Self::Report { .. } => "report",
            Self::Summary { .. } => "summary",
            Self::Convict { .. } => "conviction",
        }
    }
}

impl std::fmt::Display for Call {
    fn fmt(&self, f: &mut std::fmt::Formatter<'_>) -> std::fmt::Result {
        match self {
            Self::Report { engine, record } => write!(f, "report {engine} {}", hex::write(record)),
            Self::Summary { engine, model, spec, inputs } => write!(f, "summary {engine} {model} {spec} {}", hex::write(inputs)),
            Self::Convict { engine } => write!(f, "convict {engine}"),
        }
    }
}

/// How the tags of a list's records are chosen.
#[derive(Clone, Copy)]
enum Shape {
    /// Any of so many tags.
    Any(u64),
    /// The first tags, ever more of them: nested sets.
    Nested(u64),
    /// One tag, alone or with some of so many others: supersets of one smallest.
    Star(u64),
    /// So many transmissions without a common tag, and now and then a record that is tied to two of them.
    Apart(u64),
}

/// How the times of a list's records are chosen.
#[derive(Clone, Copy)]
enum Times {
    Below(u64),
    Later,
    Earlier,
    Any,
}

/// How long the messages of a list's records are.
#[derive(Clone, Copy, PartialEq)]
enum Length {
    Seven,
    Fourteen,
    /// Some of 7 bytes, and some of the same with seven zeros behind them.
    Either,
}

/// What the records, summaries and engines of a list are chosen from.
struct Style {
    shape: Shape,
    /// What is added to each tag.
    base: u64,
    times: Times,
    /// Latitude and longitude of the first place, and how many places 30 m apart there are.
    lat: i32,
    lon: i32,
    steps: u64,
    /// One record in so many has a covariance of zeros, one in so many any covariance at all.
    zeros: u64,
    odd: u64,
    /// How long messages are, and how many differ.
    length: Length,
    messages: u64,
    engines: u64,
    models: u64,
    /// One report in so many that cite anything cites any models, whether or not they have a summary.
    blind: u64,
    /// One call in so many is a summary, one in so many a conviction; one report in so many repeats an earlier one.
    summaries: u64,
    convictions: u64,
    repeats: u64,
}

fn style(random: &mut Random) -> Style {
    let shape = match random.below(10) {
        0..=2 => Shape::Any(random.pick(&[3, 4, 5, 8])),
        3..=4 => Shape::Nested(random.pick(&[3, 5, MAX_TAGS as u64])),
        5..=6 => Shape::Star(random.pick(&[3, 7, 9])),
        _ => Shape::Apart(random.pick(&[2, 4, 10, 14])),
    };
    let star = matches!(shape, Shape::Star(_));
    Style {
        shape,
        base: random.pick(&[0, 0, 0, 0xfffe, 1 << 40, (1 << 63) - 5, u64::MAX - 200_000]),
        times: random.pick(&[Times::Below(1), Times::Below(3), Times::Below(1_000), Times::Later, Times::Earlier, Times::Any]),
        lat: random.pick(&[0, 0, 500_000_000, 449_999_000, -450_000_000, 900_000_000, i32::MAX, i32::MIN]),
        lon: random.pick(&[0, 0, 100_000_000, 1_800_000_000, -1_350_000_000]),
        steps: random.pick(&[1, 2, 3, 3, 4]),
        zeros: if star { random.pick(&[1, 2, 3]) } else { random.pick(&[4, 12, 100]) },
        odd: random.pick(&[6, 30, 200]),
        length: random.pick(&[Length::Seven, Length::Seven, Length::Seven, Length::Seven, Length::Fourteen, Length::Either]),
        messages: random.pick(&[1, 1, 1, 2]),
        engines: random.pick(&[2, 3, 5, 32]),
        models: random.pick(&[0, 1, 2, 3, 6, 64]),
        blind: random.pick(&[3, 24, 24]),
        summaries: random.pick(&[4, 8, 20]),
        convictions: random.pick(&[12, 30, 100, 400]),
        repeats: random.pick(&[3, 6, 20]),
    }
}

/// A list as it grows: what its calls have said so far, so that most reports cite what a track knows.
pub struct Growing {
    style: Style,
    pub calls: Vec<Call>,
    /// By engine and model: the spec and the first byte of the inputs.
    pub said: BTreeMap<(u8, u8), (u16, u8)>,
    pub convicted: u32,
}

/// The spec of most summaries of a model.
fn usual_spec(model: u8) -> u16 {
    u16::from(model % 8 == 7)
}

pub fn inputs(first: u8) -> Vec<u8> {
    let mut inputs = vec![0; 32];
    inputs[0] = first;
    inputs
}

fn tags(random: &mut Random, shape: Shape) -> Vec<u64> {
    let some = |random: &mut Random, base: u64, n: u64| {
        let mut tags: Vec<u64> = (1..=n).filter(|_| random.one_in(2)).map(|tag| base + tag).collect();
        if tags.is_empty() {
            tags.push(base + 1 + random.below(n));
        }
        tags
    };
    match shape {
        Shape::Any(n) => some(random, 0, n),
        Shape::Nested(n) => (1..=1 + random.below(n)).collect(),
        Shape::Star(_) if random.one_in(4) => vec![1],
        Shape::Star(n) => {
            let mut tags = vec![1, 10 + random.below(n)];
            tags.extend(random.one_in(4).then(|| 20 + random.below(3)));
            tags
        }
        Shape::Apart(groups) => {
            let (one, other) = (random.below(groups), random.below(groups));
            let mut tags = some(random, 256 * one, 3);
            if one < other && random.one_in(6) {
                tags.extend(some(random, 256 * other, 3));
            }
            tags
        }
    }
}

fn covariance(random: &mut Random, style: &Style) -> [f64; 6] {
    match () {
        () if random.one_in(style.zeros) => [0.0; 6],
        () if random.one_in(style.odd) => claims::covariance(random),
        () => [100.0, 0.0, 0.0, 100.0, 0.0, 100.0],
    }
}

impl Growing {
    pub fn new(random: &mut Random) -> Self {
        Self { style: style(random), calls: Vec::new(), said: BTreeMap::new(), convicted: 0 }
    }

    /// One that is not convicted, but for one in sixteen.
    pub fn engine(&self, random: &mut Random) -> u8 {
        let mut engine = random.below(self.style.engines) as u8;
        for _ in 0..8 {
            if self.convicted >> engine & 1 == 0 || random.one_in(16) {
                break;
            }
            engine = random.below(self.style.engines) as u8;
        }
        engine
    }

    /// Models that all their summaries agree about, with their spec.
    fn agreed(&self) -> Vec<(u8, u16)> {
        let mut all: BTreeMap<u8, Option<(u16, u8)>> = BTreeMap::new();
        for ((_, model), said) in &self.said {
            let held = all.entry(*model).or_insert(Some(*said));
            if *held != Some(*said) {
                *held = None;
            }
        }
        all.into_iter().filter_map(|(model, said)| said.map(|(spec, _)| (model, spec))).collect()
    }

    /// What a record cites, and its spec: mostly models that a track would take it with.
    fn cited(&self, random: &mut Random) -> (Vec<u8>, u16) {
        let agreed = self.agreed();
        if self.style.models == 0 || random.one_in(3) {
            return (Vec::new(), random.below(2) as u16);
        }
        if random.one_in(self.style.blind) {
            let count = random.pick(&[1, 1, 2, 3, 4]);
            let any: Vec<u8> = (0..count).map(|_| random.below(self.style.models) as u8).collect();
            let spec = usual_spec(any[0]);
            return (any, if random.one_in(6) { spec ^ 1 } else { spec });
        }
        if let (true, Some(((_, model), (spec, _)))) = (random.one_in(12), self.said.iter().next()) {
            return (vec![*model], *spec);
        }
        if agreed.is_empty() {
            return (Vec::new(), 0);
        }
        let spec = random.pick(&agreed).1;
        let fit: Vec<u8> = agreed.iter().filter(|(_, other)| *other == spec).map(|(model, _)| *model).collect();
        let count = random.pick(&[1, 1, 1, 2, 3, 4]);
        ((0..count).map(|_| random.pick(&fit)).collect(), if random.one_in(30) { spec ^ 1 } else { spec })
    }

    fn time(&self, random: &mut Random) -> u64 {
        match self.style.times {
            Times::Below(n) => random.below(n),
            Times::Later => 1_000 + 3 * self.calls.len() as u64 + random.below(4),
            Times::Earlier => 1_000_000 - 3 * self.calls.len() as u64,
            Times::Any => random.next(),
        }
    }

    pub fn record(&self, random: &mut Random) -> Record {
        let style = &self.style;
        let tags: Vec<u64> = tags(random, style.shape).iter().map(|tag| style.base + tag).collect();
        let all = ((1u32 << tags.len()) - 1) as Mask;
        let (models, spec) = self.cited(random);
        let mut message = vec![0x8d, 1, 2, 3, 4, 5, random.below(style.messages) as u8];
        match style.length {
            Length::Seven => {}
            Length::Fourteen => message.extend_from_slice(&[7, 8, 9, 10, 11, 12, 13]),
            Length::Either => message.extend_from_slice(if random.one_in(2) { &[0; 7] } else { &[] }),
        }
        Record {
            time: self.time(random),
            lat: style.lat.wrapping_add(2_700 * random.below(style.steps) as i32),
            lon: style.lon.wrapping_add(if random.one_in(8) { 900 } else { 0 }),
            height: match random.below(24) {
                0..=2 => None,
                3 => Some(random.pick(&EDGES)),
                _ => Some(1_500),
            },
            message,
            used: if random.one_in(2) { all } else { random.next() as Mask & all },
            tags,
            models,
            spec,
            covariance: covariance(random, style),
        }
    }

    /// An earlier record once more: the same, at another place or time, or with another covariance.
    pub fn repeated(&self, random: &mut Random) -> Option<Vec<u8>> {
        let past = |call: &Call| if let Call::Report { record, .. } = call { Some(record.clone()) } else { None };
        let all: Vec<Vec<u8>> = self.calls.iter().rev().take(12).filter_map(past).collect();
        let bytes = all.get(random.below(12) as usize % all.len().max(1))?.clone();
        let mut record = Record::read(&bytes)?;
        match random.below(6) {
            0 => record.lat = record.lat.wrapping_add(2_700),
            1 => record.time = self.time(random),
            2 => record.covariance = covariance(random, &self.style),
            _ => return Some(bytes),
        }
        Some(record.write().to_vec())
    }

    pub fn report(&self, random: &mut Random) -> Call {
        let again = if random.one_in(self.style.repeats) { self.repeated(random) } else { None };
        let mut record = again.unwrap_or_else(|| self.record(random).write().to_vec());
        if random.one_in(600) {
            record[random.pick(&[
                16,
                MESSAGE_LENGTH_AT,
                TAG_COUNT_AT,
                USED_AT,
                USED_AT + 1,
                TAGS_AT,
                MODEL_COUNT_AT,
                MODELS_AT,
                SPEC_AT - 1,
            ])] = random.next() as u8;
        }
        if random.one_in(4_000) {
            record.pop();
        }
        let engine = if random.one_in(2_000) { random.pick(&[32, 255]) } else { self.engine(random) };
        Call::Report { engine, record }
    }

    /// Mostly what others say of the model too; now and then something else, which disputes it or changes it.
    pub fn summary(&mut self, random: &mut Random, first: bool) -> Call {
        let engine = if random.one_in(2_000) { 32 } else { self.engine(random) };
        let model = if random.one_in(2_000) { 64 } else { random.below(self.style.models.max(1)) as u8 };
        let usual = (usual_spec(model), model);
        let (spec, said) = match random.below(if first { 40 } else { 8 }) {
            0 => (usual.0, model.wrapping_add(1)),
            1 if random.one_in(3) => (usual.0 ^ 1, model),
            _ => usual,
        };
        if engine < 32 && self.convicted >> engine & 1 == 0 && model < 64 {
            self.said.insert((engine, model), (spec, said));
        }
        let mut inputs = inputs(said);
        if random.one_in(2_000) {
            inputs.pop();
        }
        Call::Summary { engine, model, spec, inputs }
    }

    /// What most say of a model, or now and then something else, by an engine that is not convicted.
    pub fn summary_of(&mut self, random: &mut Random, model: u8) -> Call {
        let engine = self.engine(random);
        let spec = if random.one_in(6) { usual_spec(model) ^ 1 } else { usual_spec(model) };
        if self.convicted >> engine & 1 == 0 {
            self.said.insert((engine, model), (spec, model));
        }
        Call::Summary { engine, model, spec, inputs: inputs(model) }
    }

    /// An engine that calls, one that is convicted already, or one that nobody heard of.
    pub fn conviction(&mut self, random: &mut Random) -> Call {
        let engine = match random.below(4) {
            0 => 31 - random.below(4) as u8,
            1 if self.convicted != 0 => self.convicted.trailing_zeros() as u8,
            _ => random.below(self.style.engines) as u8,
        };
        self.convicted |= 1 << engine;
        self.said.retain(|(other, _), _| *other != engine);
        Call::Convict { engine: if random.one_in(2_000) { 32 } else { engine } }
    }

    fn grow(&mut self, random: &mut Random) {
        let call = if self.style.models > 0 && random.one_in(self.style.summaries) {
            self.summary(random, false)
        } else if random.one_in(self.style.convictions) {
            self.conviction(random)
        } else {
            self.report(random)
        };
        self.calls.push(call);
    }
}

/// Summaries until a table is full, and some more.
fn full(random: &mut Random, growing: &mut Growing) {
    growing.style.models = 64;
    growing.style.engines = 32;
    growing.convicted = 0;
    for i in 0..256u32 {
        let (engine, model) = ((i % 32) as u8, (i / 32) as u8);
        growing.said.insert((engine, model), (0, model));
        growing.calls.push(Call::Summary { engine, model, spec: 0, inputs: inputs(model) });
    }
    for _ in 0..6 {
        let call = growing.summary(random, false);
        growing.calls.push(call);
    }
}

/// A list of calls: mostly short, one in a hundred long, one in some thousands with a full table of summaries.
pub fn list(random: &mut Random) -> Vec<Call> {
    let mut growing = Growing::new(random);
    let length = match random.below(100) {
        0 => 100 + random.below(100),
        1..=9 => 25 + random.below(36),
        10..=39 => 9 + random.below(16),
        _ => 2 + random.below(7),
    };
    if random.one_in(4_000) {
        full(random, &mut growing);
    }
    if growing.style.models > 0 && !random.one_in(4) {
        for _ in 0..1 + random.below(growing.style.models.min(4)) {
            let call = growing.summary(random, true);
            growing.calls.push(call);
        }
    }
    for _ in 0..length {
        growing.grow(random);
    }
    growing.calls
}

/// Reports of about as many fixes that must wait as a shelf holds, and then calls that mostly concern what waits.
pub fn heap(random: &mut Random) -> Vec<Call> {
    let mut growing = Growing::new(random);
    growing.style.models = random.pick(&[1, 2, 4]);
    growing.style.engines = random.pick(&[2, 3, 5]);
    growing.style.blind = 1;
    let due = MAX_WAITING as u64 - 6 + random.below(12);
    let (mut wait, mut due_models) = (0, Vec::new());
    while wait < due {
        let call = growing.report(random);
        if let Call::Report { record, .. } = &call
            && let Some(record) = Record::read(record)
        {
            wait += u64::from(!record.models.is_empty());
            due_models.extend(record.models);
        }
        growing.calls.push(call);
    }
    for _ in 0..4 + random.below(20) {
        match random.below(3) {
            0 if !due_models.is_empty() => {
                let model = random.pick(&due_models);
                let call = growing.summary_of(random, model);
                growing.calls.push(call);
            }
            _ => growing.grow(random),
        }
    }
    growing.calls
}

/// Drops calls, from the last, while something is still wrong.
pub fn shrink(mut calls: Vec<Call>, wrong: &dyn Fn(&[Call]) -> bool) -> Vec<Call> {
    let mut at = calls.len();
    while at > 0 {
        at -= 1;
        let mut fewer = calls.clone();
        fewer.remove(at);
        if wrong(&fewer) {
            calls = fewer;
        }
    }
    calls
}
