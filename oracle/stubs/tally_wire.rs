//! Stands where the Rust's `tally_wire` stood, which is not to be had: the specification's stand-ins, and the records that the
//! merge reads, without signatures. Engines and models are numbers; a model's number is the first byte of its id.

pub mod batch {
    pub type Hash = [u8; 32];
}

use batch::Hash;

pub type PublicKey = u32;
pub type TransmitTime = u64;
pub type ReceptionTag = u64;

/// Six f64 in the place of `EnuCovariance`.
#[derive(Clone, Copy, Debug, PartialEq)]
pub struct EnuCovariance {
    pub xx: f64,
    pub xy: f64,
    pub xz: f64,
    pub yy: f64,
    pub yz: f64,
    pub zz: f64,
}

#[derive(Clone, Copy, Debug, PartialEq, Eq)]
pub enum Relation {
    Equal,
    Subset,
    Superset,
    Incomparable,
}

/// A message and the tags of its receptions, ascending.
#[derive(Clone, Debug, PartialEq, Eq)]
pub struct TaggedSet {
    message: Vec<u8>,
    tags: Vec<ReceptionTag>,
}

/// Whether all of `a` are in `b`; both ascend.
fn contained(a: &[ReceptionTag], b: &[ReceptionTag]) -> bool {
    let mut rest = b.iter();
    a.iter().all(|tag| rest.any(|other| other == tag))
}

impl TaggedSet {
    pub fn new(message: Vec<u8>, tags: Vec<ReceptionTag>) -> Self {
        Self { message, tags }
    }

    pub fn message(&self) -> &[u8] {
        &self.message
    }

    pub fn tags(&self) -> &[ReceptionTag] {
        &self.tags
    }

    /// A subset has the same message and fewer tags, each of them the other's.
    pub fn relation(&self, other: &Self) -> Relation {
        if self.message != other.message {
            return Relation::Incomparable;
        }
        match self.tags.len().cmp(&other.tags.len()) {
            std::cmp::Ordering::Less if contained(&self.tags, &other.tags) => Relation::Subset,
            std::cmp::Ordering::Greater if contained(&other.tags, &self.tags) => Relation::Superset,
            std::cmp::Ordering::Equal if self.tags == other.tags => Relation::Equal,
            _ => Relation::Incomparable,
        }
    }
}

/// A relay's set, which nothing here makes.
#[derive(Clone, Debug, PartialEq, Eq)]
pub enum ObservationSet {}

impl ObservationSet {
    pub fn relation(&self, _: &Self) -> Relation {
        match *self {}
    }
}

/// A relay's fix, of which only a claim is read.
pub struct Fix<O = ObservationSet> {
    pub lat_e7: i32,
    pub lon_e7: i32,
    pub alt_hae_mm: Option<i32>,
    pub covariance: EnuCovariance,
    pub transmitted: TransmitTime,
    pub sets: O,
}

pub mod products {
    use super::{TaggedSet, batch::Hash};
    use blake2::blake2s256;

    /// the specification's stand-in: over the length byte, the message, the tag count byte and that many tags, little-endian.
    pub fn set_hash(set: &TaggedSet) -> Hash {
        let mut bytes = vec![set.message().len() as u8];
        bytes.extend_from_slice(set.message());
        bytes.push(set.tags().len() as u8);
        for tag in set.tags() {
            bytes.extend_from_slice(&tag.to_le_bytes());
        }
        blake2s256(&bytes)
    }

    pub fn input_set(observations: &TaggedSet, model_inputs: &Hash) -> Hash {
        let mut bytes = b"tally merge input set\0".to_vec();
        bytes.extend_from_slice(&set_hash(observations));
        bytes.extend_from_slice(model_inputs);
        blake2s256(&bytes)
    }
}

/// A fix as a client is sent it.
#[derive(Clone, Debug)]
pub struct TaggedFix {
    pub address: u32,
    pub transmitted: TransmitTime,
    pub lat_e7: i32,
    pub lon_e7: i32,
    pub alt_hae_mm: Option<i32>,
    pub covariance: EnuCovariance,
    pub models: Vec<Hash>,
    pub considered: TaggedSet,
    pub used: TaggedSet,
}

impl TaggedFix {
    pub fn considered(&self) -> &TaggedSet {
        &self.considered
    }

    pub fn used(&self) -> &TaggedSet {
        &self.used
    }
}

/// What a record that isn't signed would give. Nothing here gives it.
#[derive(Debug)]
pub struct Unsigned;

impl std::fmt::Display for Unsigned {
    fn fmt(&self, f: &mut std::fmt::Formatter<'_>) -> std::fmt::Result {
        f.write_str("not signed")
    }
}

type Signed<T> = Result<T, Unsigned>;

#[derive(Clone)]
pub struct ClientClockModelContent {
    pub spec_version: u16,
    pub model: Hash,
    pub inputs: Hash,
}

pub struct ClientClockModel {
    pub engine: PublicKey,
    pub content: ClientClockModelContent,
}

impl ClientClockModel {
    pub fn signer(&self) -> Signed<PublicKey> {
        Ok(self.engine)
    }

    pub fn verify(&self) -> Signed<()> {
        Ok(())
    }

    pub fn content(&self) -> Signed<ClientClockModelContent> {
        Ok(self.content.clone())
    }
}

#[derive(Clone)]
pub struct TaggedFixes {
    pub spec_version: u16,
    pub fixes: Vec<TaggedFix>,
}

pub struct Positions {
    pub engine: PublicKey,
    pub content: TaggedFixes,
}

impl Positions {
    /// A client's positions are told apart from a relay's by a wrapper, which is left out here.
    pub fn get(&self) -> &Self {
        self
    }

    pub fn engine(&self) -> Signed<PublicKey> {
        Ok(self.engine)
    }

    pub fn verify(&self) -> Signed<()> {
        Ok(())
    }

    pub fn tagged_fixes(&self) -> Signed<TaggedFixes> {
        Ok(self.content.clone())
    }
}

pub struct Tolerance;

impl Tolerance {
    pub fn for_spec(_: u16) -> Option<Self> {
        Some(Self)
    }
}

/// A proof against one engine, taken as checked.
pub struct ClientFaultProof {
    pub engine: PublicKey,
}

impl ClientFaultProof {
    pub fn get(&self) -> &Self {
        self
    }

    pub fn spec_version(&self) -> Signed<u16> {
        Ok(0)
    }

    pub fn check(&self, _: &Tolerance) -> Signed<&Self> {
        Ok(self)
    }

    pub fn engines(&self) -> [PublicKey; 1] {
        [self.engine]
    }
}

pub enum ClientRecord {
    ClockModel(ClientClockModel),
    Positions(Positions),
    FaultProof(ClientFaultProof),
    Other,
}
