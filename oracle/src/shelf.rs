//! The shelf beside a track, written a second time from docs/REFERENCE.md ('Track and listing', 'Layouts') over the Rust's merge, which
//! never lets a fix wait here: what waits, where it stands and when it goes is decided below, in the cases too in which the Rust does
//! something else (a full shelf, a report that waits already, the conviction of an engine whose fixes wait).

use crate::Record;
use crate::layout::{MAX_WAITING, RECORD, SHELF, WAITING, WAITING_AT, WAITING_RECORD_AT};
use crate::track::{Answer, Sent, Track};

/// A fix that waits: the model that it waits for, the engine that reported it, and its record.
#[derive(Clone, Debug, PartialEq, Eq)]
pub struct Waiting {
    pub model: u8,
    pub engine: u8,
    pub record: Vec<u8>,
}

/// The bytes of a shelf on which this waits.
pub fn write(waiting: &[Waiting]) -> Vec<u8> {
    let mut out = vec![0u8; SHELF];
    out[0] = waiting.len() as u8;
    for (place, one) in out[WAITING_AT..].chunks_exact_mut(WAITING).zip(waiting) {
        (place[0], place[1]) = (one.model, one.engine);
        place[WAITING_RECORD_AT..].copy_from_slice(&one.record);
    }
    out
}

/// What waits on a shelf; none where the bytes are no shelf beside this track.
pub fn read(b: &[u8], track: &Track) -> Option<Vec<Waiting>> {
    if b.len() != SHELF || usize::from(b[0]) > MAX_WAITING {
        return None;
    }
    let (used, free) = b[WAITING_AT..].split_at(WAITING * usize::from(b[0]));
    let place = |p: &[u8]| Waiting { model: p[0], engine: p[1], record: p[WAITING_RECORD_AT..][..RECORD].to_vec() };
    let waiting: Vec<Waiting> = used.chunks_exact(WAITING).map(place).collect();
    let may_wait = |one: &Waiting| {
        let cites = Record::read(&one.record).is_some_and(|record| record.models.contains(&one.model));
        one.engine < 32 && cites && !track.is_convicted(one.engine) && !track.has_summary(one.model)
    };
    (free.iter().all(|&x| x == 0) && waiting.iter().all(may_wait)).then_some(waiting)
}

/// A track and what waits beside it.
#[derive(Clone, Default)]
pub struct Shelved {
    pub track: Track,
    pub waiting: Vec<Waiting>,
    /// What the fixes that the last summary tried came to.
    pub tried: Vec<Answer>,
}

impl Shelved {
    pub fn report(&mut self, engine: u8, bytes: &[u8]) -> Answer {
        if engine > 31 {
            return Answer::Number(2);
        }
        let Some(record) = Record::read(bytes) else {
            return Answer::Number(3);
        };
        if self.track.is_convicted(engine) {
            return Answer::Number(4);
        }
        match record.models.iter().find(|model| !self.track.has_summary(**model)) {
            Some(_) if self.waiting.len() == MAX_WAITING => Answer::Number(13),
            Some(&model) => {
                self.waiting.push(Waiting { model, engine, record: bytes.to_vec() });
                Answer::Waiting
            }
            None => self.track.taken(engine, &Sent::of(&record)),
        }
    }

    pub fn summary(&mut self, engine: u8, model: u8, spec: u16, inputs: &[u8]) -> u8 {
        let told = self.track.summary(engine, model, spec, inputs);
        self.tried.clear();
        if told == 0 {
            let due: Vec<Waiting>;
            (due, self.waiting) = std::mem::take(&mut self.waiting).into_iter().partition(|one| one.model == model);
            for one in due {
                let came = self.report(one.engine, &one.record);
                self.tried.push(came);
            }
        }
        told
    }

    pub fn convict(&mut self, engine: u8) -> u8 {
        let told = self.track.convict(engine);
        if told == 0 {
            self.waiting.retain(|one| one.engine != engine);
        }
        told
    }
}
