use toastlagoon_sys as sys;

use crate::bytes::{u32_at, u64_at, zeros};
use crate::error::{Error, done};
use crate::record::{Hash, Record};
use crate::text::{Listing, written};

/// What a report did to a track.
#[derive(Clone, Copy, Debug, PartialEq, Eq, Hash)]
pub enum Effect {
    /// A fix of its identity stands, or the transmission that it joined has another first fix than before.
    Changed,
    /// A smaller fix disagrees with it, and it is kept among the refused.
    Contested,
    /// Its identity was held, and gained the signer.
    Duplicate,
    /// It is not kept.
    Dropped,
    /// A model that it cites has no summary: it waits on the shelf.
    Waiting,
}

/// A fix that waits beside a track.
#[derive(Clone, Debug, PartialEq, Eq)]
pub struct Waiting {
    /// The model that it waits for.
    pub model: u8,
    /// The engine that reported it.
    pub engine: u8,
    /// What was reported.
    pub record: Record,
}

/// The shelf beside a track: the fixes that came before a summary of each model that they cite.
#[derive(Clone, Debug, PartialEq, Eq)]
pub struct Shelf(Box<[u8; sys::TL_SHELF_SIZE]>);

impl Shelf {
    /// Its bytes, to be stored with those of its track.
    pub fn as_bytes(&self) -> &[u8; sys::TL_SHELF_SIZE] {
        &self.0
    }

    /// The fixes that wait, in their order.
    pub fn waiting(&self) -> impl ExactSizeIterator<Item = Waiting> + '_ {
        let count = usize::from(self.0[sys::TL_SHELF_COUNT_AT]);
        (0..count).map(|i| {
            let at = sys::TL_SHELF_PLACES_AT + i * sys::TL_WAITING_SIZE;
            let (model, engine) = (self.0[at + sys::TL_WAITING_MODEL_AT], self.0[at + sys::TL_WAITING_ENGINE_AT]);
            Waiting { model, engine, record: Record::found(&self.0[..], at + sys::TL_WAITING_RECORD_AT) }
        })
    }
}

/// What the merge of sky-commons/tally holds of one aircraft, decided report by report, with its shelf. It depends on the order
/// of the calls.
#[derive(Clone, Debug, PartialEq, Eq)]
pub struct Track {
    memory: Box<[u8; sys::TL_TRACK_SIZE]>,
    shelf: Shelf,
}

impl Default for Track {
    fn default() -> Track {
        Track::new()
    }
}

impl Track {
    /// An empty track and an empty shelf.
    pub fn new() -> Track {
        Track { memory: zeros(), shelf: Shelf(zeros()) }
    }

    /// A stored track and its shelf. [`Error::Malformed`] where the one is no track, or the other no shelf of it.
    pub fn from_bytes(memory: &[u8], shelf: &[u8]) -> Result<Track, Error> {
        let memory: &[u8; sys::TL_TRACK_SIZE] = memory.try_into().map_err(|_| Error::Malformed)?;
        let shelf: &[u8; sys::TL_SHELF_SIZE] = shelf.try_into().map_err(|_| Error::Malformed)?;
        let mut track = Track { memory: Box::new(*memory), shelf: Shelf(Box::new(*shelf)) };
        // An engine that there is not is refused, and only of a track with its shelf for being none.
        match track.convict(u32::MAX) {
            Err(Error::EngineOver31) => Ok(track),
            Err(other) => Err(other),
            Ok(()) => Err(Error::Malformed),
        }
    }

    /// Its bytes, to be stored with those of its shelf.
    pub fn as_bytes(&self) -> &[u8; sys::TL_TRACK_SIZE] {
        &self.memory
    }

    /// The shelf beside it.
    pub fn shelf(&self) -> &Shelf {
        &self.shelf
    }

    /// Reports a record for an engine.
    pub fn report(&mut self, engine: u32, record: &Record) -> Result<Effect, Error> {
        let (memory, shelf, record) = (&mut self.memory, &mut self.shelf.0, record.as_bytes());
        // All are read, and memory and shelf written, within their lengths; the borrows keep them apart.
        #[rustfmt::skip]
        let answer = unsafe {
            sys::tl_track_report(
                memory.as_mut_ptr(), memory.len(), shelf.as_mut_ptr(), shelf.len(), engine, record.as_ptr(), record.len(),
            )
        };
        match answer {
            sys::TL_CHANGED => Ok(Effect::Changed),
            sys::TL_CONTESTED => Ok(Effect::Contested),
            sys::TL_DUPLICATE => Ok(Effect::Duplicate),
            sys::TL_DROPPED => Ok(Effect::Dropped),
            sys::TL_WAITING => Ok(Effect::Waiting),
            refused => Err(Error::of(refused)),
        }
    }

    /// Puts in what an engine says of a model; what waited for the model is tried.
    pub fn summary(&mut self, engine: u32, model: u32, spec: u16, inputs: &Hash) -> Result<(), Error> {
        let (memory, shelf) = (&mut self.memory, &mut self.shelf.0);
        // As for a report.
        #[rustfmt::skip]
        let answer = unsafe {
            sys::tl_track_summary(
                memory.as_mut_ptr(), memory.len(), shelf.as_mut_ptr(), shelf.len(), engine, model, spec, inputs.as_ptr(), inputs.len(),
            )
        };
        done(answer)
    }

    /// Convicts an engine.
    pub fn convict(&mut self, engine: u32) -> Result<(), Error> {
        let (memory, shelf) = (&mut self.memory, &mut self.shelf.0);
        // Both are written within their lengths.
        done(unsafe { sys::tl_track_conviction(memory.as_mut_ptr(), memory.len(), shelf.as_mut_ptr(), shelf.len(), engine) })
    }

    /// The listing: its transmissions and their fixes.
    pub fn listing(&self) -> Result<Listing, Error> {
        let least = sys::TL_OUTPUT_TOO_SMALL as usize + 1;
        // The track is read, and the output written, within their lengths.
        written(sys::TL_LISTING_SIZE, least, |out, size| unsafe {
            sys::tl_track_listing(self.memory.as_ptr(), self.memory.len(), out, size)
        })
        .map(Listing)
    }

    /// The convicted engines: bit n for engine n.
    pub fn convicted(&self) -> u32 {
        u32_at(&self.memory[..], sys::TL_TRACK_CONVICTED_AT)
    }

    /// How many reports were contested.
    pub fn contested(&self) -> u64 {
        u64_at(&self.memory[..], sys::TL_TRACK_CONTESTED_AT)
    }
}
