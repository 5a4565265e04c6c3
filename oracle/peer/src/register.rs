//! The register, and the calls that change them.

use oracle::Record;
use oracle::layout::{PLACE, RECORD};

pub const SIZE: usize = RECORDS_AT + RECORDS * PLACE;
pub const SUMMARIES: usize = 256;
pub const RECORDS: usize = 96;
const SUMMARIES_AT: usize = 8;
const SUMMARY: usize = 36;
const RECORDS_AT: usize = SUMMARIES_AT + SUMMARIES * SUMMARY;

/// What a well-formed register says. Summaries and records ascend by their bytes.
#[derive(Clone, Debug, Default, PartialEq, Eq)]
pub struct Register {
    pub convicted: u32,
    pub summaries: Vec<[u8; 36]>,
    pub records: Vec<([u8; RECORD], u32)>,
}

fn u16_at(b: &[u8], at: usize) -> usize {
    usize::from(u16::from_le_bytes([b[at], b[at + 1]]))
}

fn u32_at(b: &[u8], at: usize) -> u32 {
    u32::from_le_bytes(b[at..at + 4].try_into().unwrap())
}

fn has(mask: u32, engine: u8) -> bool {
    mask >> engine & 1 == 1
}

impl Register {
    /// The register in these bytes, if they are well-formed.
    pub fn read(b: &[u8]) -> Option<Self> {
        if b.len() != SIZE {
            return None;
        }
        let (summaries, records) = (u16_at(b, 4), u16_at(b, 6));
        if summaries > SUMMARIES || records > RECORDS {
            return None;
        }
        let end = SUMMARIES_AT + SUMMARY * summaries;
        let last = RECORDS_AT + PLACE * records;
        if b[end..RECORDS_AT].iter().chain(&b[last..]).any(|&x| x != 0) {
            return None;
        }
        let register = Self {
            convicted: u32_at(b, 0),
            summaries: b[SUMMARIES_AT..end].chunks_exact(SUMMARY).map(|p| p.try_into().unwrap()).collect(),
            records: b[RECORDS_AT..last]
                .chunks_exact(PLACE)
                .map(|p| (p[..RECORD].try_into().unwrap(), u32_at(p, RECORD)))
                .collect(),
        };
        register.keeps_its_rules().then_some(register)
    }

    fn keeps_its_rules(&self) -> bool {
        let summary = |s: &[u8; 36]| s[0] <= 31 && s[1] <= 63 && !has(self.convicted, s[0]);
        let record =
            |(r, signers): &([u8; RECORD], u32)| *signers != 0 && signers & self.convicted == 0 && Record::read(r).is_some();
        self.summaries.iter().all(summary)
            && self.records.iter().all(record)
            && self.summaries.windows(2).all(|w| w[0] < w[1])
            && self.records.windows(2).all(|w| w[0].0 < w[1].0)
    }

    /// Takes an engine out: its summaries go, its signature goes from every record, and so does a record that has no signer left.
    fn strike(&mut self, engine: u32) {
        self.convicted |= 1 << engine;
        self.summaries.retain(|s| u32::from(s[0]) != engine);
        for (_, signers) in &mut self.records {
            *signers &= !(1 << engine);
        }
        self.records.retain(|(_, signers)| *signers != 0);
    }

    pub fn write(&self, b: &mut [u8]) {
        b.fill(0);
        b[..4].copy_from_slice(&self.convicted.to_le_bytes());
        b[4..6].copy_from_slice(&(self.summaries.len() as u16).to_le_bytes());
        b[6..8].copy_from_slice(&(self.records.len() as u16).to_le_bytes());
        for (i, summary) in self.summaries.iter().enumerate() {
            b[SUMMARIES_AT + SUMMARY * i..][..SUMMARY].copy_from_slice(summary);
        }
        for (i, (record, signers)) in self.records.iter().enumerate() {
            let place = &mut b[RECORDS_AT + PLACE * i..][..PLACE];
            place[..RECORD].copy_from_slice(record);
            place[RECORD..].copy_from_slice(&signers.to_le_bytes());
        }
    }
}

/// Register report. Engine and model are taken wider than they are held, so that each number can be tried.
pub fn report(memory: &mut [u8], engine: u32, record: &[u8]) -> u32 {
    let Some(mut register) = Register::read(memory) else {
        return 1;
    };
    if engine > 31 {
        return 2;
    }
    if Record::read(record).is_none() {
        return 3;
    }
    let record: [u8; RECORD] = record.try_into().unwrap();
    if has(register.convicted, engine as u8) {
        return 4;
    }
    match register.records.binary_search_by(|held| held.0.cmp(&record)) {
        Ok(at) => register.records[at].1 |= 1 << engine,
        Err(_) if register.records.len() == RECORDS => return 5,
        Err(at) => register.records.insert(at, (record, 1 << engine)),
    }
    register.write(memory);
    0
}

/// Register summary.
pub fn summary(memory: &mut [u8], engine: u32, model: u32, spec: u16, inputs: &[u8]) -> u32 {
    let Some(mut register) = Register::read(memory) else {
        return 1;
    };
    if engine > 31 {
        return 2;
    }
    if model > 63 || inputs.len() != 32 {
        return 9;
    }
    if has(register.convicted, engine as u8) {
        return 4;
    }
    let mut place = [0u8; 36];
    place[0] = engine as u8;
    place[1] = model as u8;
    place[2..4].copy_from_slice(&spec.to_le_bytes());
    place[4..].copy_from_slice(inputs);
    if let Err(at) = register.summaries.binary_search(&place) {
        if register.summaries.len() == SUMMARIES {
            return 5;
        }
        register.summaries.insert(at, place);
    }
    register.write(memory);
    0
}

pub const CREW: u32 = 0;
pub const ANALYST: u32 = 1;
pub const MANAGER: u32 = 2;

/// The register that a conviction leaves, or the number that it is refused with. The memory keeps its bytes.
pub fn struck(memory: &[u8], engine: u32) -> Result<Register, u32> {
    let mut register = Register::read(memory).ok_or(1u32)?;
    if engine > 31 {
        return Err(2);
    }
    register.strike(engine);
    Ok(register)
}

/// Register conviction, of a desk: 0 a crew, 1 an analyst, 2 a manager, who alone convicts.
pub fn convict(desk: u32, memory: &mut [u8], engine: u32) -> u32 {
    match desk {
        MANAGER => match struck(memory, engine) {
            Ok(register) => {
                register.write(memory);
                0
            }
            Err(refused) => refused,
        },
        CREW | ANALYST => 16,
        _ => 15,
    }
}
