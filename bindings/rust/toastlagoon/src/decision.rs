use toastlagoon_sys as sys;

use crate::bytes::{f64_at, start};
use crate::error::{Error, done};
use crate::record::{Hash, Record};

/// What a check of an item said.
#[derive(Clone, Copy, Debug, Default, PartialEq, Eq)]
#[repr(u32)]
pub enum Verdict {
    /// There was none.
    #[default]
    Unjudged = sys::TL_UNJUDGED,
    /// It passed.
    Passed = sys::TL_PASSED,
    /// It failed.
    Failed = sys::TL_FAILED,
}

/// A fix that is decided on.
#[derive(Clone, Debug, PartialEq, Eq)]
pub struct Item {
    /// What was reported.
    pub record: Record,
    /// Its model inputs ([`crate::Register::inputs`]).
    pub inputs: Hash,
    /// Its identity ([`Record::identity`]).
    pub identity: Hash,
    /// The greater ranks first.
    pub standing: u64,
    /// An item that is not consistent refuses nobody.
    pub consistent: bool,
    /// Whether it is preferred.
    pub preferred: bool,
    /// What a check said.
    pub verified: Verdict,
}

/// An item that is refused.
#[derive(Clone, Copy, Debug, PartialEq)]
pub struct Refusal {
    /// Its index.
    pub index: usize,
    /// The index of the item that it is refused against.
    pub against: usize,
    /// Whether that one supersedes it; else it is contested.
    pub superseded: bool,
    /// The chi-square between the two, where there is one.
    pub chi2: Option<f64>,
}

/// What is decided of one transmission's items, by their indices.
#[derive(Clone, Debug, Default, PartialEq)]
pub struct Answer {
    /// Those that stand, the first in rank first.
    pub ranked: Vec<usize>,
    /// Those that a larger one repeats.
    pub dominated: Vec<usize>,
    /// Those with which a smaller one disagrees.
    pub refusals: Vec<Refusal>,
}

fn push(bytes: &mut Vec<u8>, item: &Item) {
    bytes.extend_from_slice(item.record.as_bytes());
    bytes.extend_from_slice(&item.inputs);
    bytes.extend_from_slice(&item.identity);
    bytes.extend_from_slice(&item.standing.to_le_bytes());
    bytes.extend_from_slice(&[u8::from(item.consistent), u8::from(item.preferred), item.verified as u8]);
}

type Call = unsafe extern "C" fn(*const u8, usize, *mut [u8; sys::TL_ANSWER_SIZE]) -> u32;

fn decided(call: Call, items: &[Item]) -> Result<Answer, Error> {
    let mut bytes = Vec::with_capacity(items.len() * sys::TL_ITEM_SIZE);
    items.iter().for_each(|item| push(&mut bytes, item));
    let mut answer = [0; sys::TL_ANSWER_SIZE];
    // The items are read within their length, and the whole of the answer is written.
    done(unsafe { call(start(&bytes), bytes.len(), &mut answer) })?;
    let indices = |at: usize| answer[at + 1..][..usize::from(answer[at])].iter().map(|index| usize::from(*index)).collect();
    let refusal = |i: usize| {
        let r = &answer[sys::TL_REFUSALS_AT + 1 + i * sys::TL_REFUSAL_SIZE..];
        Refusal {
            index: usize::from(r[sys::TL_REFUSAL_INDEX_AT]),
            against: usize::from(r[sys::TL_REFUSAL_AGAINST_AT]),
            superseded: r[sys::TL_REFUSAL_SUPERSEDED_AT] == 1,
            chi2: (r[sys::TL_REFUSAL_MEASURED_AT] == 1).then(|| f64_at(r, sys::TL_REFUSAL_CHI2_AT)),
        }
    };
    let refusals = (0..usize::from(answer[sys::TL_REFUSALS_AT])).map(refusal).collect();
    Ok(Answer { ranked: indices(sys::TL_RANKED_AT), dominated: indices(sys::TL_DOMINATED_AT), refusals })
}

/// Which of one transmission's items stand, which are dominated and which are refused; the last two by ascending index.
pub fn decide(items: &[Item]) -> Result<Answer, Error> {
    decided(sys::tl_decide, items)
}

/// The same decision for items in no fixed order: the dominated and the refusals are by ascending identity.
pub fn decide_any(items: &[Item]) -> Result<Answer, Error> {
    decided(sys::tl_decide_any, items)
}
