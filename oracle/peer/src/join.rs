//! Two registers: what both hold, and what one lacks of the other, by sets and maps.

use crate::register::{RECORDS, Register, SIZE, SUMMARIES};
use oracle::layout::RECORD;
use std::collections::{BTreeMap, BTreeSet};

/// Convicted engines, summaries, and the signers of each record.
struct Room {
    convicted: u32,
    summaries: BTreeSet<[u8; 36]>,
    signers: BTreeMap<[u8; RECORD], u32>,
}

impl Room {
    fn read(bytes: &[u8]) -> Option<Self> {
        let register = Register::read(bytes)?;
        Some(Self {
            convicted: register.convicted,
            summaries: register.summaries.into_iter().collect(),
            signers: register.records.into_iter().collect(),
        })
    }

    /// Without what convicted engines said and signed.
    fn settle(&mut self, convicted: u32) {
        self.summaries.retain(|summary| convicted >> summary[0] & 1 == 0);
        self.signers.values_mut().for_each(|signers| *signers &= !convicted);
        self.signers.retain(|_, signers| *signers != 0);
    }

    fn write(self, bytes: &mut [u8]) {
        let register = Register {
            convicted: self.convicted,
            summaries: self.summaries.into_iter().collect(),
            records: self.signers.into_iter().collect(),
        };
        register.write(bytes);
    }
}

/// Joins what another register holds to one: 1 where either is none, 5 where both together have no room.
pub fn join(memory: &mut [u8], other: &[u8]) -> u32 {
    let (Some(mut room), Some(theirs)) = (Room::read(memory), Room::read(other)) else {
        return 1;
    };
    room.convicted |= theirs.convicted;
    room.summaries.extend(theirs.summaries);
    for (record, signers) in theirs.signers {
        *room.signers.entry(record).or_default() |= signers;
    }
    room.settle(room.convicted);
    if room.signers.len() > RECORDS || room.summaries.len() > SUMMARIES {
        return 5;
    }
    room.write(memory);
    0
}

/// What another register holds and this one does not: 1 where either is none, 10 for an output that is smaller than a register.
pub fn lacks(memory: &[u8], other: &[u8], out: &mut [u8]) -> u32 {
    let (Some(mine), Some(mut lacking)) = (Room::read(memory), Room::read(other)) else {
        return 1;
    };
    if out.len() < SIZE {
        return 10;
    }
    lacking.convicted &= !mine.convicted;
    lacking.summaries.retain(|summary| !mine.summaries.contains(summary));
    for (record, signers) in &mut lacking.signers {
        *signers &= !mine.signers.get(record).copied().unwrap_or(0);
    }
    lacking.settle(mine.convicted);
    lacking.write(&mut out[..SIZE]);
    0
}
