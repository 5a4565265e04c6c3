//! Records as values: the bytes that say them, why bytes are no record, an identity, and what a register's summaries say of a record.

use crate::board::{cited, identity};
use crate::register::Register;
use oracle::layout::{MAX_TAGS, MODEL_COUNT_AT, MODELS_AT, Mask, RECORD, SPEC_AT, TAGS_AT, USED_AT};
use oracle::{Record, blake2s256};

fn zero(bytes: &[u8]) -> bool {
    bytes.iter().all(|&b| b == 0)
}

/// What each byte of the record of these fields is, or 3 where no record says them.
pub fn write(said: &Record, out: &mut [u8; RECORD]) -> u32 {
    let ascend = said.tags.windows(2).all(|two| two[0] < two[1]);
    let tags = (1..=MAX_TAGS).contains(&said.tags.len()) && ascend && u64::from(said.used) >> said.tags.len() == 0;
    let models = said.models.len() <= 4 && said.models.iter().all(|&model| model <= 63);
    if !(matches!(said.message.len(), 7 | 14) && tags && models) {
        return 3;
    }
    *out = said.write();
    0
}

/// The first check that bytes fail, in the order of a record's fields; 0 where they are a record.
pub fn fault(b: &[u8]) -> u32 {
    if b.len() != RECORD {
        return 1;
    }
    let used = Mask::from_le_bytes(b[USED_AT..TAGS_AT].try_into().unwrap());
    let (message, tags, models) = (usize::from(b[21]), usize::from(b[36]), usize::from(b[MODEL_COUNT_AT]));
    let tag = |i: usize| u64::from_le_bytes(b[TAGS_AT + 8 * i..][..8].try_into().unwrap());
    if b[16] > 1 {
        2
    } else if b[16] == 0 && !zero(&b[17..21]) {
        3
    } else if message != 7 && message != 14 {
        4
    } else if !zero(&b[22 + message..36]) {
        5
    } else if tags == 0 {
        6
    } else if tags > MAX_TAGS {
        7
    } else if u64::from(used) >> tags != 0 {
        8
    } else if (1..tags).any(|i| tag(i - 1) >= tag(i)) {
        9
    } else if !zero(&b[TAGS_AT + 8 * tags..MODEL_COUNT_AT]) {
        10
    } else if models > 4 {
        11
    } else if b[MODELS_AT..][..models].iter().any(|&model| model > 63) {
        12
    } else if !zero(&b[MODELS_AT + models..SPEC_AT]) {
        13
    } else {
        0
    }
}

/// The identity of a record with these model inputs: 0, or 3.
pub fn identity_of(record: &[u8], inputs: &[u8; 32], out: &mut [u8; 32]) -> u32 {
    let Some(record) = Record::read(record) else {
        return 3;
    };
    *out = identity(&record, inputs);
    0
}

/// The model inputs of a record by a register's summaries: 0, or 1, 3, 24, 7.
pub fn inputs_of(memory: &[u8], record: &[u8], out: &mut [u8; 32]) -> u32 {
    let Some(register) = Register::read(memory) else {
        return 1;
    };
    let Some(record) = Record::read(record) else {
        return 3;
    };
    if record.models.iter().any(|model| register.summaries.iter().all(|said| said[1] != *model)) {
        return 24;
    }
    let Some(bytes) = cited(&register, &record) else {
        return 7;
    };
    *out = blake2s256(&bytes);
    0
}
