//! Where the parts of a record, an item, a held fix, a track and a shelf begin, each from the one before it (docs/REFERENCE.md, 'Layouts').

pub const MAX_TAGS: usize = 24;
/// Which tags were used: bit i stands for the i-th.
pub type Mask = u32;

pub const MESSAGE_LENGTH_AT: usize = 21;
pub const TAG_COUNT_AT: usize = 36;
pub const USED_AT: usize = TAG_COUNT_AT + 1;
pub const TAGS_AT: usize = USED_AT + size_of::<Mask>();
pub const MODEL_COUNT_AT: usize = TAGS_AT + 8 * MAX_TAGS;
pub const MODELS_AT: usize = MODEL_COUNT_AT + 1;
pub const SPEC_AT: usize = MODELS_AT + 4;
pub const COVARIANCE_AT: usize = SPEC_AT + 2;
pub const RECORD: usize = COVARIANCE_AT + 6 * 8;

/// A record and its signers.
pub const PLACE: usize = RECORD + 4;

pub const INPUTS_AT: usize = RECORD;
pub const IDENTITY_AT: usize = INPUTS_AT + 32;
pub const STANDING_AT: usize = IDENTITY_AT + 32;
pub const CONSISTENT_AT: usize = STANDING_AT + 8;
pub const PREFERRED_AT: usize = CONSISTENT_AT + 1;
pub const VERIFIED_AT: usize = PREFERRED_AT + 1;
pub const ITEM: usize = VERIFIED_AT + 1;

/// A fix that a track holds: a record, its signers, and its model inputs.
pub const FIX: usize = PLACE + 32;

/// A refused fix that a track holds: the fix, the identity that it is refused against, and the chi-square.
pub const KEPT_AT: usize = FIX;
pub const CHI2_AT: usize = KEPT_AT + 32;
pub const REFUSED: usize = CHI2_AT + 8;

/// A fix that waits beside a track: the model that it waits for, the engine that reported it, and the record.
pub const WAITING_RECORD_AT: usize = 2;
pub const WAITING: usize = WAITING_RECORD_AT + RECORD;

/// The shelf beside a track: how many fixes wait, and a place for each.
pub const MAX_WAITING: usize = 64;
pub const WAITING_AT: usize = 1;
pub const SHELF: usize = WAITING_AT + MAX_WAITING * WAITING;
