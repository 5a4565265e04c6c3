use std::fmt;

use toastlagoon_sys as sys;

/// Why a call was refused. Nothing has changed then. `Display` has the library's words.
#[derive(Clone, Copy, Debug, PartialEq, Eq, Hash)]
#[non_exhaustive]
pub enum Error {
    /// The bytes are no well-formed register, or no well-formed track with its shelf.
    Malformed,
    /// The engine is over 31.
    EngineOver31,
    /// No record says this, or the bytes are none.
    MalformedRecord,
    /// The engine is convicted.
    EngineConvicted,
    /// There is no place left.
    Full,
    /// The summaries of a cited model disagree, or are of another spec.
    ModelDisputed,
    /// Over 96 items, or two of one identity.
    BadItems,
    /// The model is over 63.
    BadSummary,
    /// A line of a session is not the one that is due; [`crate::session_reason`] says which.
    BadLine,
    /// The session has over 65,536 bytes.
    SessionTooLong,
    /// As many fixes wait beside the track as may.
    ShelfFull,
    /// The desk may not do this.
    NoRight,
    /// The bytes have not the length of a register.
    BadLength,
    /// A model that the record cites has no summary.
    ModelMissing,
    /// An answer that this version of the bindings does not know, by its number.
    Other(u32),
}

use Error::*;

/// Each answer that a call of these bindings can be refused with.
const NUMBERS: [(u32, Error); 14] = [
    (sys::TL_MALFORMED_REGISTER, Malformed),
    (sys::TL_ENGINE_OVER_31, EngineOver31),
    (sys::TL_MALFORMED_RECORD, MalformedRecord),
    (sys::TL_ENGINE_CONVICTED, EngineConvicted),
    (sys::TL_FULL, Full),
    (sys::TL_MODEL_DISPUTED, ModelDisputed),
    (sys::TL_BAD_ITEMS, BadItems),
    (sys::TL_BAD_SUMMARY, BadSummary),
    (sys::TL_BAD_LINE, BadLine),
    (sys::TL_SESSION_TOO_LONG, SessionTooLong),
    (sys::TL_SHELF_FULL, ShelfFull),
    (sys::TL_NO_RIGHT, NoRight),
    (sys::TL_BAD_LENGTH, BadLength),
    (sys::TL_WAITING, ModelMissing),
];

impl Error {
    /// The number of the answer, as the header of the library has it.
    pub fn number(self) -> u32 {
        match self {
            Other(number) => number,
            known => NUMBERS.iter().find(|(_, error)| *error == known).map_or(sys::TL_OK, |(number, _)| *number),
        }
    }

    pub(crate) fn of(answer: u32) -> Error {
        NUMBERS.iter().find(|(number, _)| *number == answer).map_or(Other(answer), |(_, error)| *error)
    }
}

/// An answer as a result: `TL_OK`, or the refusal.
pub(crate) fn done(answer: u32) -> Result<(), Error> {
    match answer {
        sys::TL_OK => Ok(()),
        refused => Err(Error::of(refused)),
    }
}

impl fmt::Display for Error {
    fn fmt(&self, f: &mut fmt::Formatter<'_>) -> fmt::Result {
        let mut words = [0; sys::TL_ANSWER_TEXT_SIZE];
        // At most as many bytes are written as the length that is passed says.
        let length = unsafe { sys::tl_answer_text(self.number(), words.as_mut_ptr(), words.len()) };
        f.write_str(&String::from_utf8_lossy(&words[..length as usize]))
    }
}

impl std::error::Error for Error {}
