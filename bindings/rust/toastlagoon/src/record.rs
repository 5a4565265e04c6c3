use toastlagoon_sys as sys;

use crate::bytes::{f64_at, part, start, u16_at, u32_at, u64_at};
use crate::error::{Error, done};

/// A hash: of model inputs, or the identity of a record.
pub type Hash = [u8; sys::TL_HASH_SIZE];

/// A covariance in m^2; x is east, y north and z up.
#[derive(Clone, Copy, Debug, Default, PartialEq)]
#[allow(missing_docs)]
pub struct Covariance {
    pub xx: f64,
    pub xy: f64,
    pub xz: f64,
    pub yy: f64,
    pub yz: f64,
    pub zz: f64,
}

impl Covariance {
    /// The same variance on each axis, in m^2, and no other terms.
    pub fn diagonal(variance: f64) -> Covariance {
        Covariance { xx: variance, yy: variance, zz: variance, ..Covariance::default() }
    }
}

/// What a record says. `..Fields::default()` leaves out what it does not say: so no height, and no models.
#[derive(Clone, Copy, Debug, Default, PartialEq)]
pub struct Fields<'a> {
    /// Transmit time, in nanoseconds.
    pub time: u64,
    /// Latitude, in 1e-7 degree.
    pub lat: i32,
    /// Longitude, in 1e-7 degree.
    pub lon: i32,
    /// Height in millimetres, where it is known.
    pub height: Option<i32>,
    /// 7 or 14 bytes.
    pub message: &'a [u8],
    /// 1 to 24, strictly ascending.
    pub tags: &'a [u64],
    /// Bit i for the i-th tag, from 0.
    pub used: u32,
    /// Up to 4 models that the record cites, each at most 63.
    pub models: &'a [u8],
    /// The spec of the models.
    pub spec: u16,
    /// In m^2; every bit is kept.
    pub covariance: Covariance,
}

/// The first check that bytes fail which are no record, in the order in which a record's fields stand.
#[derive(Clone, Copy, Debug, PartialEq, Eq, Hash)]
#[non_exhaustive]
pub enum Fault {
    /// There are not as many as a record has.
    Length,
    /// The height's flag is neither 0 nor 1.
    HeightFlag,
    /// There is no height, and its bytes are not zero.
    HeightRoom,
    /// The message has neither 7 nor 14 bytes.
    MessageLength,
    /// Bytes behind the message are not zero.
    MessageRoom,
    /// There is no tag.
    NoTag,
    /// There are over 24 tags.
    TooManyTags,
    /// A tag that is not there was used.
    UsedMask,
    /// Tags do not ascend strictly.
    TagOrder,
    /// Bytes behind the tags are not zero.
    TagRoom,
    /// There are over 4 models.
    TooManyModels,
    /// A model is over 63.
    Model,
    /// Bytes behind the models are not zero.
    ModelRoom,
    /// A check that this version of the bindings does not know, by its number.
    Other(u32),
}

/// Each fault, with its number.
const FAULTS: [(u32, Fault); 13] = [
    (sys::TL_FAULT_LENGTH, Fault::Length),
    (sys::TL_FAULT_HEIGHT_FLAG, Fault::HeightFlag),
    (sys::TL_FAULT_HEIGHT_ROOM, Fault::HeightRoom),
    (sys::TL_FAULT_MESSAGE_LENGTH, Fault::MessageLength),
    (sys::TL_FAULT_MESSAGE_ROOM, Fault::MessageRoom),
    (sys::TL_FAULT_NO_TAG, Fault::NoTag),
    (sys::TL_FAULT_TOO_MANY_TAGS, Fault::TooManyTags),
    (sys::TL_FAULT_USED_MASK, Fault::UsedMask),
    (sys::TL_FAULT_TAG_ORDER, Fault::TagOrder),
    (sys::TL_FAULT_TAG_ROOM, Fault::TagRoom),
    (sys::TL_FAULT_TOO_MANY_MODELS, Fault::TooManyModels),
    (sys::TL_FAULT_MODEL, Fault::Model),
    (sys::TL_FAULT_MODEL_ROOM, Fault::ModelRoom),
];

impl Fault {
    /// Why these bytes are no record; none where they are one.
    pub fn of(bytes: &[u8]) -> Option<Fault> {
        // The bytes are read within their length.
        match unsafe { sys::tl_record_fault(start(bytes), bytes.len()) } {
            sys::TL_FAULT_NONE => None,
            found => Some(FAULTS.iter().find(|(number, _)| *number == found).map_or(Fault::Other(found), |(_, fault)| *fault)),
        }
    }
}

/// A record: what an engine reports.
#[derive(Clone, Debug, PartialEq, Eq, PartialOrd, Ord, Hash)]
pub struct Record([u8; sys::TL_RECORD_SIZE]);

impl Record {
    /// The record that says this, or [`Error::MalformedRecord`] where none does.
    pub fn new(fields: &Fields) -> Result<Record, Error> {
        let c = &fields.covariance;
        let mut record = Record([0; sys::TL_RECORD_SIZE]);
        // Message, tags and models are read within their lengths, and nothing but the record is written.
        #[rustfmt::skip]
        let answer = unsafe {
            sys::tl_record_write(
                fields.time, fields.lat, fields.lon, fields.height.is_some(), fields.height.unwrap_or(0), start(fields.message),
                fields.message.len(), start(fields.tags), fields.tags.len(), fields.used, start(fields.models), fields.models.len(),
                fields.spec, &[c.xx, c.xy, c.xz, c.yy, c.yz, c.zz], &mut record.0,
            )
        };
        done(answer).map(|()| record)
    }

    /// The record that these bytes are, or [`Error::MalformedRecord`]; [`Fault::of`] says why.
    pub fn from_bytes(bytes: &[u8]) -> Result<Record, Error> {
        match Fault::of(bytes) {
            None => Ok(Record::found(bytes, 0)),
            Some(_) => Err(Error::MalformedRecord),
        }
    }

    /// A record that the library put into memory.
    pub(crate) fn found(bytes: &[u8], at: usize) -> Record {
        Record(part(bytes, at))
    }

    /// Its bytes.
    pub fn as_bytes(&self) -> &[u8; sys::TL_RECORD_SIZE] {
        &self.0
    }

    /// Its identity with these model inputs, as [`crate::Register::inputs`] has them.
    pub fn identity(&self, inputs: &Hash) -> Result<Hash, Error> {
        let mut out = [0; sys::TL_IDENTITY_SIZE];
        // Record and inputs are read, and the whole of `out` is written.
        let answer = unsafe { sys::tl_record_identity(self.0.as_ptr(), self.0.len(), inputs, &mut out) };
        done(answer).map(|()| out)
    }

    /// Transmit time, in nanoseconds.
    pub fn time(&self) -> u64 {
        u64_at(&self.0, sys::TL_RECORD_TIME_AT)
    }

    /// Latitude, in 1e-7 degree.
    pub fn lat(&self) -> i32 {
        u32_at(&self.0, sys::TL_RECORD_LAT_AT) as i32
    }

    /// Longitude, in 1e-7 degree.
    pub fn lon(&self) -> i32 {
        u32_at(&self.0, sys::TL_RECORD_LON_AT) as i32
    }

    /// Height in millimetres, where it is known.
    pub fn height(&self) -> Option<i32> {
        (self.0[sys::TL_RECORD_HAS_HEIGHT_AT] == 1).then(|| u32_at(&self.0, sys::TL_RECORD_HEIGHT_AT) as i32)
    }

    /// The message, of 7 or 14 bytes.
    pub fn message(&self) -> &[u8] {
        let length = usize::from(self.0[sys::TL_RECORD_MESSAGE_LENGTH_AT]);
        &self.0[sys::TL_RECORD_MESSAGE_AT..sys::TL_RECORD_MESSAGE_AT + length]
    }

    /// The tags, ascending.
    pub fn tags(&self) -> impl Iterator<Item = u64> + '_ {
        let count = usize::from(self.0[sys::TL_RECORD_TAG_COUNT_AT]);
        (0..count).map(|i| u64_at(&self.0, sys::TL_RECORD_TAGS_AT + i * sys::TL_TAG_SIZE))
    }

    /// Bit i for the i-th tag that was used.
    pub fn used(&self) -> u32 {
        u32_at(&self.0, sys::TL_RECORD_USED_AT)
    }

    /// The models that it cites.
    pub fn models(&self) -> &[u8] {
        let count = usize::from(self.0[sys::TL_RECORD_MODEL_COUNT_AT]);
        &self.0[sys::TL_RECORD_MODELS_AT..sys::TL_RECORD_MODELS_AT + count]
    }

    /// The spec of the models.
    pub fn spec(&self) -> u16 {
        u16_at(&self.0, sys::TL_RECORD_SPEC_AT)
    }

    /// In m^2.
    pub fn covariance(&self) -> Covariance {
        Covariance {
            xx: f64_at(&self.0, sys::TL_RECORD_XX_AT),
            xy: f64_at(&self.0, sys::TL_RECORD_XY_AT),
            xz: f64_at(&self.0, sys::TL_RECORD_XZ_AT),
            yy: f64_at(&self.0, sys::TL_RECORD_YY_AT),
            yz: f64_at(&self.0, sys::TL_RECORD_YZ_AT),
            zz: f64_at(&self.0, sys::TL_RECORD_ZZ_AT),
        }
    }
}
