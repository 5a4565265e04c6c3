//! The register, board and track of one aircraft, for control rooms: a library proved in Rattle, called from Rust.
//!
//! ```
//! use toastlagoon::{Covariance, Desk, Fields, Record, Register};
//!
//! let record = Record::new(&Fields {
//!     time: 1_731_679_200_000_000_000,
//!     lat: 481_372_700,
//!     lon: 115_820_000,
//!     message: &[0x8d, 0x3c, 0x6d, 0xd0, 0, 0, 1],
//!     tags: &[101, 102],
//!     used: 0b11,
//!     covariance: Covariance::diagonal(100.0),
//!     ..Fields::default()
//! })?;
//! let mut register = Register::new();
//! register.report(2, &record)?;
//! print!("{}", register.board(Desk::Manager)?);
//! # Ok::<(), toastlagoon::Error>(())
//! ```
//!
//! What each call does is in docs/REFERENCE.md of the library. A refused call returns an [`Error`] and changes nothing. Every
//! value owns its memory, so no `unsafe` is left to a caller. A call takes up to 144 KB of stack; the floating-point
//! environment is that in which a thread begins.

mod bytes;
mod decision;
mod error;
mod measure;
mod record;
mod register;
mod text;
mod track;

pub use decision::{Answer, Item, Refusal, Verdict, decide, decide_any};
pub use error::Error;
pub use measure::{Agreement, Claim, agreement, blake2s256, horizontal_sigma, root, version};
pub use record::{Covariance, Fault, Fields, Hash, Record};
pub use register::{Desk, Held, Register, Role, Shown, Summary, session_reason};
pub use text::{Board, Listing, Map};
pub use track::{Effect, Shelf, Track, Waiting};
