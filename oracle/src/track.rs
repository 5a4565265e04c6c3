//! The Rust's merge of one aircraft behind the specification's track: its calls, its refusals, its bytes, and what waits in it.

use crate::layout::{CHI2_AT, KEPT_AT, Mask, PLACE, RECORD};
pub use crate::layout::{FIX, REFUSED};
use crate::lines::{self, Said};
use crate::measured::measured;
use crate::shelf::Waiting;
use crate::{Record, formed};
use tally_merge::{Contest, Fix, Merge, Settings, Transmission, link::Told};
use tally_wire::{ClientClockModel, ClientClockModelContent, EnuCovariance, TaggedFix, TaggedSet};

pub const SIZE: usize = TRANSMISSIONS_AT + TRANSMISSIONS * TRANSMISSION;
pub const SUMMARIES: usize = 256;
pub const SUMMARIES_AT: usize = 16;
pub const SUMMARY: usize = 36;
pub const TRANSMISSIONS: usize = 8;
pub const TRANSMISSIONS_AT: usize = SUMMARIES_AT + SUMMARIES * SUMMARY;
pub const TRANSMISSION: usize = REFUSED_AT + REFUSALS * REFUSED;
pub const FIXES: usize = 5;
pub const FIXES_AT: usize = 2;
pub const REFUSALS: usize = 4;
pub const REFUSED_AT: usize = FIXES_AT + FIXES * FIX;

/// What a track call is answered: the number of a refusal, 0, or what became of a report.
#[derive(Clone, Copy, Debug, PartialEq, Eq)]
pub enum Answer {
    Number(u8),
    Changed,
    Contested,
    Duplicate,
    Dropped,
    Waiting,
}

impl Answer {
    /// As the library answers; the last five numbers are ours.
    pub fn number(self) -> u32 {
        match self {
            Self::Number(n) => n.into(),
            Self::Changed => 20,
            Self::Contested => 21,
            Self::Duplicate => 22,
            Self::Dropped => 23,
            Self::Waiting => 24,
        }
    }
}

impl std::fmt::Display for Answer {
    fn fmt(&self, f: &mut std::fmt::Formatter<'_>) -> std::fmt::Result {
        match self {
            Self::Number(n) => write!(f, "{n}"),
            other => write!(f, "{other:?}"),
        }
    }
}

pub struct Track(Merge);

fn id(model: u8) -> [u8; 32] {
    let mut id = [0; 32];
    id[0] = model;
    id
}

impl Default for Track {
    fn default() -> Self {
        Self(Merge::new(Settings::default()))
    }
}

impl Clone for Track {
    fn clone(&self) -> Self {
        Self(self.0.copied())
    }
}

/// A report as the Rust is sent it.
pub struct Sent {
    spec: u16,
    fix: TaggedFix,
}

impl Sent {
    pub fn of(record: &Record) -> Self {
        let fix = TaggedFix {
            address: 0,
            transmitted: record.time,
            lat_e7: record.lat,
            lon_e7: record.lon,
            alt_hae_mm: record.height,
            covariance: crate::enu(&record.covariance),
            models: record.models.iter().map(|&model| id(model)).collect(),
            considered: TaggedSet::new(record.message.clone(), record.tags.clone()),
            used: TaggedSet::new(record.message.clone(), record.used_tags()),
        };
        Self { spec: record.spec, fix }
    }
}

impl Track {
    pub fn report(&mut self, engine: u8, bytes: &[u8]) -> Answer {
        if engine > 31 {
            return Answer::Number(2);
        }
        match Record::read(bytes) {
            Some(record) => self.sent(engine, &Sent::of(&record)),
            None => Answer::Number(3),
        }
    }

    /// A report by an engine under 32.
    pub fn sent(&mut self, engine: u8, sent: &Sent) -> Answer {
        answer(self.0.told(u32::from(engine), sent.spec, &sent.fix))
    }

    /// The same of a fix none of whose models is missing.
    pub fn taken(&mut self, engine: u8, sent: &Sent) -> Answer {
        answer(self.0.taken(u32::from(engine), sent.spec, &sent.fix))
    }

    pub fn convicted(&self) -> u32 {
        self.0.faulted().iter().fold(0u32, |mask, engine| mask | 1 << engine)
    }

    pub fn is_convicted(&self, engine: u8) -> bool {
        self.0.is_faulted(&u32::from(engine))
    }

    pub fn has_summary(&self, model: u8) -> bool {
        self.0.has_summary(&id(model))
    }

    /// What waits in the Rust: by ascending model, and for each in the Rust's order.
    pub fn waiting(&self) -> Vec<Waiting> {
        let place = |(id, (engine, spec, fix)): (&[u8; 32], &(u32, u16, TaggedFix))| Waiting {
            model: id[0],
            engine: *engine as u8,
            record: wire_record(*spec, fix).write().to_vec(),
        };
        self.0.waiting().map(place).collect()
    }

    pub fn waits(&self) -> usize {
        self.0.waiting().count()
    }

    pub fn summary(&mut self, engine: u8, model: u8, spec: u16, inputs: &[u8]) -> u8 {
        if engine > 31 {
            return 2;
        }
        let Ok(inputs) = <[u8; 32]>::try_from(inputs) else {
            return 9;
        };
        if model > 63 {
            return 9;
        }
        if self.0.is_faulted(&u32::from(engine)) {
            return 4;
        }
        if self.0.summary_count() == SUMMARIES && !self.0.has_said(u32::from(engine), &id(model)) {
            return 5;
        }
        let content = ClientClockModelContent { spec_version: spec, model: id(model), inputs };
        self.0.summarised(&ClientClockModel { engine: u32::from(engine), content });
        0
    }

    pub fn convict(&mut self, engine: u8) -> u8 {
        if engine > 31 {
            return 2;
        }
        self.0.convicted(u32::from(engine));
        0
    }

    /// The first fix of the last transmission: what the Rust serves.
    pub fn serves(&self) -> Option<Record> {
        self.0.track(0)?.current().map(record_of)
    }

    pub fn contested(&self) -> u64 {
        self.0.contested()
    }

    fn transmissions(&self) -> &[Transmission] {
        self.0.track(0).map_or(&[][..], |track| &track.transmissions)
    }

    /// For each transmission the numbers of its fixes and of its refused.
    pub fn counts(&self) -> Vec<(usize, usize)> {
        self.transmissions().iter().map(|one| (one.fixes.len(), one.refused.len())).collect()
    }

    /// All that is held, in the specification's layout.
    pub fn bytes(&self) -> Vec<u8> {
        let mut out = vec![0u8; SIZE];
        self.write(&mut out);
        out
    }

    /// The same into lent bytes, of which there are SIZE.
    pub fn write(&self, out: &mut [u8]) {
        out.fill(0);
        out[..4].copy_from_slice(&self.convicted().to_le_bytes());
        out[8..16].copy_from_slice(&self.contested().to_le_bytes());
        put_summaries(out, &mut self.0.summaries());
        out[6] = self.transmissions().len() as u8;
        for (t, one) in self.transmissions().iter().enumerate() {
            put_transmission(&mut out[TRANSMISSIONS_AT + TRANSMISSION * t..][..TRANSMISSION], one);
        }
    }

    /// The merge that holds what these bytes say, if they are a well-formed track. No calls need lead to it.
    pub fn read(b: &[u8]) -> Option<Self> {
        if !formed::formed(b) {
            return None;
        }
        let convicted = u32::from_le_bytes(b[..4].try_into().unwrap());
        let faulted: Vec<u32> = (0..32).filter(|engine| convicted >> engine & 1 == 1).collect();
        let said = usize::from(u16::from_le_bytes([b[4], b[5]]));
        let summary = |s: &[u8]| (u32::from(s[0]), id(s[1]), u16::from_le_bytes([s[2], s[3]]), s[4..].try_into().unwrap());
        let summaries: Vec<_> = b[SUMMARIES_AT..][..SUMMARY * said].chunks_exact(SUMMARY).map(summary).collect();
        let blocks = b[TRANSMISSIONS_AT..][..TRANSMISSION * usize::from(b[6])].chunks_exact(TRANSMISSION);
        let contested = u64::from_le_bytes(b[8..16].try_into().unwrap());
        Some(Self(Merge::holding(&faulted, &summaries, contested, blocks.map(read_transmission).collect())))
    }

    /// the specification's listing: a line `contested=N`, then board lines in the track's order with `dominated=0`.
    pub fn listing(&self) -> String {
        let mut out = format!("contested={}\n", self.contested());
        for (n, one) in self.transmissions().iter().enumerate() {
            out += &lines::header(n + 1, one.fixes.len(), 0, one.refused.len());
            for fix in &one.fixes {
                out += &lines::line("ranked", &said(fix));
                out.push('\n');
            }
            for (fix, contest) in one.refused.iter().zip(&one.contests) {
                out += &lines::refused(&said(fix), measured(contest.chi2));
                out.push('\n');
            }
        }
        out
    }
}

fn answer(told: Told) -> Answer {
    match told {
        Told::Faulted => Answer::Number(4),
        Told::Waits => Answer::Waiting,
        Told::Failed => Answer::Number(7),
        Told::Changed => Answer::Changed,
        Told::Contested => Answer::Contested,
        Told::Duplicate => Answer::Duplicate,
        Told::Dropped => Answer::Dropped,
    }
}

fn signers(fix: &Fix) -> u32 {
    fix.engines.iter().fold(0u32, |mask, engine| mask | 1 << engine)
}

fn said(fix: &Fix) -> Said {
    Said {
        time: fix.transmitted,
        lat: fix.lat_e7,
        lon: fix.lon_e7,
        height: fix.alt_hae_mm,
        weight: fix.weight,
        signers: signers(fix),
    }
}

fn put_summaries(out: &mut [u8], summaries: &mut [(u32, [u8; 32], u16, [u8; 32])]) {
    summaries.sort();
    out[4..6].copy_from_slice(&(summaries.len() as u16).to_le_bytes());
    for (i, (engine, id, spec, inputs)) in summaries.iter().enumerate() {
        let place = &mut out[SUMMARIES_AT + SUMMARY * i..][..SUMMARY];
        place[0] = *engine as u8;
        place[1] = id[0];
        place[2..4].copy_from_slice(&spec.to_le_bytes());
        place[4..].copy_from_slice(inputs);
    }
}

fn put_transmission(out: &mut [u8], one: &Transmission) {
    out[0] = one.fixes.len() as u8;
    out[1] = one.refused.len() as u8;
    for (k, fix) in one.fixes.iter().enumerate() {
        put_fix(&mut out[FIXES_AT + FIX * k..][..FIX], fix);
    }
    for (k, fix) in one.refused.iter().enumerate() {
        let place = &mut out[REFUSED_AT + REFUSED * k..][..REFUSED];
        let contest = &one.contests[k];
        assert_eq!(contest.refused, fix.input_set, "contests stand beside the refused");
        put_fix(&mut place[..FIX], fix);
        place[KEPT_AT..CHI2_AT].copy_from_slice(&contest.kept);
        // An agreement has no NaN, so that only one that was lent with the track can stand here: with its payload.
        place[CHI2_AT..REFUSED].copy_from_slice(&contest.chi2.to_bits().to_le_bytes());
    }
}

/// Which of these tags were used.
fn mask(considered: &TaggedSet, used: &TaggedSet) -> Mask {
    let bit = |(i, tag): (usize, &u64)| Mask::from(used.tags().contains(tag)) << i;
    considered.tags().iter().enumerate().map(bit).sum()
}

fn numbers(c: &EnuCovariance) -> [f64; 6] {
    [c.xx, c.xy, c.xz, c.yy, c.yz, c.zz]
}

/// The record that a fix was made of.
fn record_of(fix: &Fix) -> Record {
    Record {
        time: fix.transmitted,
        lat: fix.lat_e7,
        lon: fix.lon_e7,
        height: fix.alt_hae_mm,
        message: fix.considered.message().to_vec(),
        used: mask(&fix.considered, &fix.used),
        tags: fix.considered.tags().to_vec(),
        models: fix.models.iter().map(|id| id[0]).collect(),
        spec: fix.spec,
        covariance: numbers(&fix.covariance),
    }
}

/// The record that a fix was sent as.
fn wire_record(spec: u16, fix: &TaggedFix) -> Record {
    Record {
        time: fix.transmitted,
        lat: fix.lat_e7,
        lon: fix.lon_e7,
        height: fix.alt_hae_mm,
        message: fix.considered.message().to_vec(),
        used: mask(&fix.considered, &fix.used),
        tags: fix.considered.tags().to_vec(),
        models: fix.models.iter().map(|id| id[0]).collect(),
        spec,
        covariance: numbers(&fix.covariance),
    }
}

fn put_fix(place: &mut [u8], fix: &Fix) {
    place[..RECORD].copy_from_slice(&record_of(fix).write());
    place[RECORD..PLACE].copy_from_slice(&signers(fix).to_le_bytes());
    place[PLACE..FIX].copy_from_slice(&fix.model_inputs);
}

/// The fix in a place of a well-formed track: the inputs are those that stand there, whatever the summaries say.
fn read_fix(b: &[u8]) -> Fix {
    let record = Record::read(&b[..RECORD]).expect("a well-formed record");
    let signers = u32::from_le_bytes(b[RECORD..PLACE].try_into().unwrap());
    let model_inputs: [u8; 32] = b[PLACE..FIX].try_into().unwrap();
    let Sent { spec, fix } = Sent::of(&record);
    Fix {
        address: 0,
        transmitted: fix.transmitted,
        lat_e7: fix.lat_e7,
        lon_e7: fix.lon_e7,
        alt_hae_mm: fix.alt_hae_mm,
        altitude_ft: None,
        horizontal_sigma_m: tally_merge::horizontal_sigma_m(&fix.covariance),
        covariance: fix.covariance,
        input_set: tally_merge::input_set(&fix.considered, &model_inputs),
        considered: fix.considered,
        used: fix.used,
        models: fix.models,
        spec,
        model_inputs,
        weight: record.weight(),
        engines: (0..32).filter(|engine| signers >> engine & 1 == 1).collect(),
    }
}

fn read_transmission(b: &[u8]) -> Transmission {
    let fixes = (0..usize::from(b[0])).map(|k| read_fix(&b[FIXES_AT + FIX * k..])).collect();
    let places: Vec<&[u8]> = (0..usize::from(b[1])).map(|k| &b[REFUSED_AT + REFUSED * k..][..REFUSED]).collect();
    let refused: Vec<Fix> = places.iter().map(|place| read_fix(place)).collect();
    let contest = |(place, fix): (&&[u8], &Fix)| Contest {
        kept: place[KEPT_AT..CHI2_AT].try_into().unwrap(),
        refused: fix.input_set,
        chi2: f64::from_bits(u64::from_le_bytes(place[CHI2_AT..REFUSED].try_into().unwrap())),
        added: Vec::new(),
    };
    let contests = places.iter().zip(&refused).map(contest).collect();
    Transmission { fixes, refused, contests }
}
