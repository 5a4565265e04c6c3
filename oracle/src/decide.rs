//! `standing::decide` over the specification's items.
//!
//! An item is a record, model inputs (32 bytes), identity (32), standing u64, consistent, preferred (zero or not) and
//! verified (1 passed, 2 failed, else unjudged).

use crate::Record;
use crate::layout::{CONSISTENT_AT, IDENTITY_AT, INPUTS_AT, ITEM, PREFERRED_AT, RECORD, STANDING_AT, VERIFIED_AT};
use crate::measured::{digits, measured};
use tally_wire::TaggedSet;
use tally_wire::batch::Hash;

pub const SIZE: usize = ITEM;
pub const MOST: usize = 96;

#[derive(Clone, Debug)]
pub struct Item {
    pub record: Record,
    pub inputs: Hash,
    pub identity: Hash,
    pub standing: u64,
    pub consistent: bool,
    pub preferred: bool,
    pub verified: Option<bool>,
    set: TaggedSet,
}

impl Item {
    pub fn read(b: &[u8]) -> Option<Self> {
        let record = Record::read(&b[..RECORD])?;
        let set = TaggedSet::new(record.message.clone(), record.tags.clone());
        Some(Self {
            record,
            inputs: b[INPUTS_AT..IDENTITY_AT].try_into().unwrap(),
            identity: b[IDENTITY_AT..STANDING_AT].try_into().unwrap(),
            standing: u64::from_le_bytes(b[STANDING_AT..CONSISTENT_AT].try_into().unwrap()),
            consistent: b[CONSISTENT_AT] != 0,
            preferred: b[PREFERRED_AT] != 0,
            verified: match b[VERIFIED_AT] {
                1 => Some(true),
                2 => Some(false),
                _ => None,
            },
            set,
        })
    }
}

macro_rules! candidate {
    ($name:ident, $solver:ident, $rule:ident) => {
        pub struct $name(pub Item);

        impl $solver::standing::Candidate for $name {
            type Set = TaggedSet;

            fn observations(&self) -> &TaggedSet {
                &self.0.set
            }

            fn model_inputs(&self) -> &Hash {
                &self.0.inputs
            }

            fn claimed(&self) -> $solver::standing::Claimed {
                crate::$rule::claimed(&self.0.record.claim())
            }

            fn standing(&self) -> u64 {
                self.0.standing
            }

            fn weight(&self) -> u64 {
                self.0.record.weight()
            }

            fn identity(&self) -> Hash {
                self.0.identity
            }

            fn consistent(&self) -> bool {
                self.0.consistent
            }

            fn preferred(&self) -> bool {
                self.0.preferred
            }

            fn verified(&self) -> Option<bool> {
                self.0.verified
            }
        }
    };
}

candidate!(Candidate, solver, standin);
#[cfg(real_libm)]
candidate!(RealCandidate, solver_real, real);

#[derive(Clone, Debug, PartialEq, Eq)]
pub struct Refusal {
    pub refused: u8,
    pub kept: u8,
    /// Its bits, where one was measured.
    pub chi2: Option<u64>,
    pub superseded: bool,
}

#[derive(Clone, Debug, Default, PartialEq, Eq)]
pub struct Decision {
    pub ranked: Vec<u8>,
    pub dominated: Vec<u8>,
    pub refusals: Vec<Refusal>,
}

/// The items, or `None` where `tl_decide` answers `TL_BAD_ITEMS`: the bytes are no whole items, there are more than 96, one is malformed, or two have one identity.
pub fn items(bytes: &[u8]) -> Option<Vec<Item>> {
    if !bytes.len().is_multiple_of(SIZE) || bytes.len() / SIZE > MOST {
        return None;
    }
    let items: Vec<Item> = bytes.chunks_exact(SIZE).map(Item::read).collect::<Option<_>>()?;
    let repeated = |i: usize| items[..i].iter().any(|before| before.identity == items[i].identity);
    if (0..items.len()).any(repeated) { None } else { Some(items) }
}

macro_rules! plain {
    ($found:expr) => {{
        let found = $found;
        let byte = |list: &[usize]| list.iter().map(|&at| at as u8).collect();
        Decision {
            ranked: byte(&found.ranked),
            dominated: byte(&found.dominated),
            refusals: found
                .refusals
                .iter()
                .map(|one| Refusal {
                    refused: one.refused as u8,
                    kept: one.kept as u8,
                    chi2: measured(one.chi2),
                    superseded: one.superseded,
                })
                .collect(),
        }
    }};
}

pub fn candidates(bytes: &[u8]) -> Option<Vec<Candidate>> {
    Some(items(bytes)?.into_iter().map(Candidate).collect())
}

pub fn decided(candidates: &[Candidate]) -> Decision {
    plain!(solver::standing::decide(candidates))
}

/// The Rust's decision, or `None` where the items are bad.
pub fn decide(bytes: &[u8]) -> Option<Decision> {
    Some(decided(&candidates(bytes)?))
}

/// The Rust's decision of the items in ascending identity, with their places in the order given, or `None` where the items are bad.
pub fn decide_any(bytes: &[u8]) -> Option<Decision> {
    let mut all: Vec<(u8, Candidate)> = (0u8..).zip(candidates(bytes)?).collect();
    all.sort_by_key(|(_, candidate)| candidate.0.identity);
    let (places, sorted): (Vec<u8>, Vec<Candidate>) = all.into_iter().unzip();
    let mut told = decided(&sorted);
    let lists = told.ranked.iter_mut().chain(&mut told.dominated);
    for place in lists.chain(told.refusals.iter_mut().flat_map(|one| [&mut one.refused, &mut one.kept])) {
        *place = places[*place as usize];
    }
    Some(told)
}

/// The same as `decide`, with the real `libm`.
#[cfg(real_libm)]
pub fn decide_real(bytes: &[u8]) -> Option<Decision> {
    let all: Vec<RealCandidate> = items(bytes)?.into_iter().map(RealCandidate).collect();
    Some(plain!(solver_real::standing::decide(&all)))
}

impl Decision {
    /// The same with the dominated and the refusals ascending by their places.
    pub fn in_places(mut self) -> Self {
        self.dominated.sort_unstable();
        self.refusals.sort_unstable_by_key(|one| one.refused);
        self
    }

    /// One line: `ranked=1,0 dominated=none refused=2:0:4041d3951c37e7a3:0`, a refusal being refused:kept:chi-square:superseded, with
    /// `none` for a chi-square where none was measured.
    pub fn line(&self) -> String {
        let list = |list: &[u8]| match list {
            [] => "none".to_string(),
            some => some.iter().map(u8::to_string).collect::<Vec<_>>().join(","),
        };
        let one = |r: &Refusal| format!("{}:{}:{}:{}", r.refused, r.kept, digits(r.chi2), u8::from(r.superseded));
        let refused = match self.refusals.as_slice() {
            [] => "none".to_string(),
            some => some.iter().map(one).collect::<Vec<_>>().join(","),
        };
        format!("ranked={} dominated={} refused={}", list(&self.ranked), list(&self.dominated), refused)
    }
}
