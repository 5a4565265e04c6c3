use toastlagoon_sys as sys;

use crate::bytes::{f64_at, part, u16_at, u32_at, zeros};
use crate::error::{Error, done};
use crate::record::{Hash, Record};
use crate::text::{Board, Map, well_formed, written};

/// Who asks. The library believes it.
#[derive(Clone, Copy, Debug, PartialEq, Eq, Hash)]
#[repr(u32)]
pub enum Desk {
    /// Its board has the ranked lines alone.
    Crew = sys::TL_CREW,
    /// Has the full board, and previews a conviction.
    Analyst = sys::TL_ANALYST,
    /// May do everything: a manager alone convicts.
    Manager = sys::TL_MANAGER,
}

/// A record that a register holds.
#[derive(Clone, Debug, PartialEq, Eq)]
pub struct Held {
    /// What was reported.
    pub record: Record,
    /// By which engines: bit n for engine n.
    pub signers: u32,
}

/// What is decided of a fix in its transmission.
#[derive(Clone, Copy, Debug, PartialEq, Eq, Hash)]
pub enum Role {
    /// To show, the best first.
    Ranked,
    /// A larger fix repeats it.
    Dominated,
    /// A smaller fix disagrees with it.
    Refused,
}

/// A fix of a board: one for each line of the full board.
#[derive(Clone, Copy, Debug, PartialEq)]
pub struct Shown {
    /// The number of its transmission, from 1.
    pub transmission: u8,
    /// What is decided of it.
    pub role: Role,
    /// The record that represents it, by its place among [`Register::records`].
    pub place: usize,
    /// The engines that reported a record of its identity: bit n for engine n.
    pub signers: u32,
    /// Its identity.
    pub identity: Hash,
    /// The fix that it is refused against, by its index on the board.
    pub against: Option<usize>,
    /// The chi-square between the two, where there is one.
    pub chi_square: Option<f64>,
}

fn shown_at(bytes: &[u8]) -> Shown {
    let role = match u32::from(bytes[sys::TL_SHOWN_ROLE_AT]) {
        sys::TL_RANKED => Role::Ranked,
        sys::TL_DOMINATED => Role::Dominated,
        _ => Role::Refused,
    };
    let refused = role == Role::Refused;
    Shown {
        transmission: bytes[sys::TL_SHOWN_NUMBER_AT],
        role,
        place: usize::from(bytes[sys::TL_SHOWN_PLACE_AT]),
        signers: u32_at(bytes, sys::TL_SHOWN_SIGNERS_AT),
        identity: part(bytes, sys::TL_SHOWN_IDENTITY_AT),
        against: refused.then(|| usize::from(bytes[sys::TL_SHOWN_AGAINST_AT])),
        chi_square: (bytes[sys::TL_SHOWN_MEASURED_AT] == 1).then(|| f64_at(bytes, sys::TL_SHOWN_CHI2_AT)),
    }
}

/// What an engine says of a model.
#[derive(Clone, Copy, Debug, PartialEq, Eq)]
pub struct Summary {
    /// The engine.
    pub engine: u8,
    /// The model.
    pub model: u8,
    /// Its spec.
    pub spec: u16,
    /// The hash of its inputs.
    pub inputs: Hash,
}

pub(crate) fn summary_at(bytes: &[u8], at: usize) -> Summary {
    Summary {
        engine: bytes[at + sys::TL_SUMMARY_ENGINE_AT],
        model: bytes[at + sys::TL_SUMMARY_MODEL_AT],
        spec: u16_at(bytes, at + sys::TL_SUMMARY_SPEC_AT),
        inputs: part(bytes, at + sys::TL_SUMMARY_INPUTS_AT),
    }
}

/// Why a session is refused, in a sentence that ends with a line feed; `None` where it is not refused.
pub fn session_reason(session: impl AsRef<[u8]>) -> Option<String> {
    let session = session.as_ref();
    let mut out = [0; sys::TL_REASON_SIZE];
    // The session is read within its length, and at most the whole of `out` is written.
    let length = unsafe { sys::tl_session_reason(crate::bytes::start(session), session.len(), &mut out) } as usize;
    (length != 0).then(|| String::from_utf8_lossy(&out[..length]).into_owned())
}

/// Every report of one aircraft and one window of time. Two are equal where all of their bytes are.
#[derive(Clone, Debug, PartialEq, Eq)]
pub struct Register(Box<[u8; sys::TL_REGISTER_SIZE]>);

impl Default for Register {
    fn default() -> Register {
        Register::new()
    }
}

impl Register {
    /// An empty register.
    pub fn new() -> Register {
        Register(zeros())
    }

    /// A stored register: [`Error::BadLength`] where it has another length, [`Error::Malformed`] where it is not well-formed.
    pub fn from_bytes(bytes: &[u8]) -> Result<Register, Error> {
        let bytes: &[u8; sys::TL_REGISTER_SIZE] = bytes.try_into().map_err(|_| Error::BadLength)?;
        let register = Register(Box::new(*bytes));
        let mut nothing = [0; 1];
        // The register is read within its length, and nothing is written where there is no room.
        let answer = unsafe { sys::tl_board(sys::TL_MANAGER, register.0.as_ptr(), register.0.len(), nothing.as_mut_ptr(), 0) };
        well_formed(answer).map(|()| register)
    }

    /// Its bytes, to be stored.
    pub fn as_bytes(&self) -> &[u8; sys::TL_REGISTER_SIZE] {
        &self.0
    }

    /// Reports a record for an engine. A record that cites a model without an agreed summary is held, and is on no board until
    /// it is agreed.
    pub fn report(&mut self, engine: u32, record: &Record) -> Result<(), Error> {
        let record = record.as_bytes();
        // Both are read, and the register written, within their lengths; the borrows keep them apart.
        done(unsafe { sys::tl_register_report(self.0.as_mut_ptr(), self.0.len(), engine, record.as_ptr(), record.len()) })
    }

    /// Puts in what an engine says of a model: its spec and the hash of its inputs.
    pub fn summary(&mut self, engine: u32, model: u32, spec: u16, inputs: &Hash) -> Result<(), Error> {
        // As for a report.
        done(unsafe {
            sys::tl_register_summary(self.0.as_mut_ptr(), self.0.len(), engine, model, spec, inputs.as_ptr(), inputs.len())
        })
    }

    /// Convicts an engine: removes all that it reported, before and after. A manager alone may.
    pub fn convict(&mut self, desk: Desk, engine: u32) -> Result<(), Error> {
        // The register is written within its length.
        done(unsafe { sys::tl_register_conviction(desk as u32, self.0.as_mut_ptr(), self.0.len(), engine) })
    }

    /// Performs the operations of a session, a text of lines, as a manager: the answer of each, in their order. Where the session is refused,
    /// none is performed, and [`session_reason`] says why.
    pub fn perform(&mut self, session: impl AsRef<[u8]>) -> Result<Vec<Result<(), Error>>, Error> {
        let session = session.as_ref();
        let mut out = vec![0; sys::TL_SESSION_SIZE];
        // The session is read, and the register and the output written, within their lengths; the borrows keep them apart.
        let returned = unsafe {
            let (memory, input) = (&mut self.0, crate::bytes::start(session));
            sys::tl_register_session(memory.as_mut_ptr(), memory.len(), input, session.len(), out.as_mut_ptr(), out.len())
        };
        let length = returned as usize;
        if length % sys::TL_ANSWER_LINE_SIZE != 0 {
            return Err(Error::of(returned));
        }
        // The digit of a line stands before its line feed.
        let digit = |line: &[u8]| u32::from(line[sys::TL_ANSWER_LINE_SIZE - 2] - b'0');
        Ok(out[..length].chunks_exact(sys::TL_ANSWER_LINE_SIZE).map(|line| done(digit(line))).collect())
    }

    /// Joins what another register of the same aircraft and window holds. [`Error::Full`] where both together hold too much.
    pub fn join(&mut self, other: &Register) -> Result<(), Error> {
        // As for a report.
        done(unsafe { sys::tl_register_join(self.0.as_mut_ptr(), self.0.len(), other.0.as_ptr(), other.0.len()) })
    }

    /// What another register holds and this one does not: a register too, which is empty exactly where joining the other
    /// changes nothing.
    pub fn lacks(&self, other: &Register) -> Result<Register, Error> {
        let mut out = Register::new();
        let (memory, theirs, room) = (&self.0, &other.0, &mut out.0);
        // The two are read, and the third written, within their lengths.
        let answer = unsafe {
            sys::tl_register_lacks(memory.as_ptr(), memory.len(), theirs.as_ptr(), theirs.len(), room.as_mut_ptr(), room.len())
        };
        done(answer).map(|()| out)
    }

    /// The board, in the form of a desk.
    pub fn board(&self, desk: Desk) -> Result<Board, Error> {
        let least = sys::TL_MIN_CREW_LENGTH;
        // The register is read, and the output written, within their lengths.
        written(sys::TL_BOARD_SIZE, least, |out, size| unsafe {
            sys::tl_board(desk as u32, self.0.as_ptr(), self.0.len(), out, size)
        })
        .map(Board)
    }

    /// The full board as it would be if an engine were convicted. An analyst and a manager may.
    pub fn preview(&self, desk: Desk, engine: u32) -> Result<Board, Error> {
        let least = sys::TL_MIN_LENGTH;
        // As for a board.
        written(sys::TL_BOARD_SIZE, least, |out, size| unsafe {
            sys::tl_register_preview(desk as u32, self.0.as_ptr(), self.0.len(), engine, out, size)
        })
        .map(Board)
    }

    /// The position to show of each transmission on the board, as GeoJSON.
    pub fn map(&self) -> Result<Map, Error> {
        let least = sys::TL_MIN_MAP_LENGTH;
        // As for a board.
        written(sys::TL_MAP_SIZE, least, |out, size| unsafe { sys::tl_register_map(self.0.as_ptr(), self.0.len(), out, size) })
            .map(Map)
    }

    /// The fixes of the board as values: one for each line of the full board, in the order of the lines.
    pub fn fixes(&self) -> Vec<Shown> {
        let mut out = vec![0; sys::TL_FIXES_SIZE];
        // The register is read, and the output written, within their lengths. It is well-formed and the output large enough, so
        // nothing is refused, and what is returned is a length.
        let length = unsafe { sys::tl_register_fixes(self.0.as_ptr(), self.0.len(), out.as_mut_ptr(), out.len()) };
        out.truncate(length as usize);
        out.chunks_exact(sys::TL_SHOWN_SIZE).map(shown_at).collect()
    }

    /// The model inputs of a record by the summaries here. [`Error::ModelMissing`] or [`Error::ModelDisputed`] say why a record
    /// that is held is on no board.
    pub fn inputs(&self, record: &Record) -> Result<Hash, Error> {
        let mut out = [0; sys::TL_INPUTS_SIZE];
        let record = record.as_bytes();
        // The two are read within their lengths, and the whole of `out` is written.
        let answer = unsafe { sys::tl_register_inputs(self.0.as_ptr(), self.0.len(), record.as_ptr(), record.len(), &mut out) };
        done(answer).map(|()| out)
    }

    /// The bytes turned for an archive that packs them; [`Register::from_columns`] undoes it.
    pub fn to_columns(&self) -> Vec<u8> {
        let mut out = vec![0; sys::TL_REGISTER_SIZE];
        // The register is read, and the output written, within their lengths, which are those that it takes.
        unsafe { sys::tl_register_columns(self.0.as_ptr(), self.0.len(), out.as_mut_ptr(), out.len()) };
        out
    }

    /// A register from an archive.
    pub fn from_columns(columns: &[u8]) -> Result<Register, Error> {
        let mut out: Box<[u8; sys::TL_REGISTER_SIZE]> = zeros();
        // The columns are read, and the output written, within their lengths.
        done(unsafe { sys::tl_register_uncolumns(crate::bytes::start(columns), columns.len(), out.as_mut_ptr(), out.len()) })?;
        Register::from_bytes(&out[..])
    }

    /// The convicted engines: bit n for engine n.
    pub fn convicted(&self) -> u32 {
        u32_at(&self.0[..], sys::TL_REGISTER_CONVICTED_AT)
    }

    /// The records that it holds, in byte order.
    pub fn records(&self) -> impl ExactSizeIterator<Item = Held> + '_ {
        let count = usize::from(u16_at(&self.0[..], sys::TL_REGISTER_RECORD_COUNT_AT));
        (0..count).map(|i| {
            let at = sys::TL_REGISTER_RECORDS_AT + i * sys::TL_HELD_SIZE;
            let record = Record::found(&self.0[..], at + sys::TL_HELD_RECORD_AT);
            Held { record, signers: u32_at(&self.0[..], at + sys::TL_HELD_SIGNERS_AT) }
        })
    }

    /// The summaries that it holds, in byte order.
    pub fn summaries(&self) -> impl ExactSizeIterator<Item = Summary> + '_ {
        let count = usize::from(u16_at(&self.0[..], sys::TL_REGISTER_SUMMARY_COUNT_AT));
        (0..count).map(|i| summary_at(&self.0[..], sys::TL_REGISTER_SUMMARIES_AT + i * sys::TL_SUMMARY_SIZE))
    }
}
