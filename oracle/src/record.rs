//! The record of the specification.

use crate::Claim;
pub use crate::layout::RECORD as SIZE;
use crate::layout::{COVARIANCE_AT, MAX_TAGS, MODEL_COUNT_AT, MODELS_AT, Mask, SPEC_AT, TAGS_AT, USED_AT};

#[derive(Clone, Debug, PartialEq)]
pub struct Record {
    pub time: u64,
    pub lat: i32,
    pub lon: i32,
    pub height: Option<i32>,
    pub message: Vec<u8>,
    pub tags: Vec<u64>,
    pub used: Mask,
    pub models: Vec<u8>,
    pub spec: u16,
    pub covariance: [f64; 6],
}

fn u16_at(b: &[u8], at: usize) -> u16 {
    u16::from_le_bytes(b[at..at + 2].try_into().unwrap())
}

fn i32_at(b: &[u8], at: usize) -> i32 {
    i32::from_le_bytes(b[at..at + 4].try_into().unwrap())
}

fn u64_at(b: &[u8], at: usize) -> u64 {
    u64::from_le_bytes(b[at..at + 8].try_into().unwrap())
}

impl Record {
    /// The record in these bytes, unless they are malformed.
    pub fn read(b: &[u8]) -> Option<Self> {
        if b.len() != SIZE {
            return None;
        }
        let height = match b[16] {
            0 if i32_at(b, 17) == 0 => None,
            1 => Some(i32_at(b, 17)),
            _ => return None,
        };
        let length = usize::from(b[21]);
        if (length != 7 && length != 14) || b[22 + length..36].iter().any(|&x| x != 0) {
            return None;
        }
        let count = usize::from(b[36]);
        let used = Mask::from_le_bytes(b[USED_AT..TAGS_AT].try_into().unwrap());
        if !(1..=MAX_TAGS).contains(&count) || u64::from(used) >> count != 0 {
            return None;
        }
        let tags: Vec<u64> = (0..count).map(|i| u64_at(b, TAGS_AT + 8 * i)).collect();
        if tags.windows(2).any(|pair| pair[0] >= pair[1]) || b[TAGS_AT + 8 * count..MODEL_COUNT_AT].iter().any(|&x| x != 0) {
            return None;
        }
        let cited = usize::from(b[MODEL_COUNT_AT]);
        if cited > 4
            || b[MODELS_AT..MODELS_AT + cited].iter().any(|&m| m > 63)
            || b[MODELS_AT + cited..SPEC_AT].iter().any(|&x| x != 0)
        {
            return None;
        }
        let mut covariance = [0.0; 6];
        for (i, value) in covariance.iter_mut().enumerate() {
            *value = f64::from_bits(u64_at(b, COVARIANCE_AT + 8 * i));
        }
        Some(Self {
            time: u64_at(b, 0),
            lat: i32_at(b, 8),
            lon: i32_at(b, 12),
            height,
            message: b[22..22 + length].to_vec(),
            tags,
            used,
            models: b[MODELS_AT..MODELS_AT + cited].to_vec(),
            spec: u16_at(b, SPEC_AT),
            covariance,
        })
    }

    /// The bytes; only of a record that could have been read.
    pub fn write(&self) -> [u8; SIZE] {
        let mut b = [0u8; SIZE];
        b[..8].copy_from_slice(&self.time.to_le_bytes());
        b[8..12].copy_from_slice(&self.lat.to_le_bytes());
        b[12..16].copy_from_slice(&self.lon.to_le_bytes());
        if let Some(height) = self.height {
            b[16] = 1;
            b[17..21].copy_from_slice(&height.to_le_bytes());
        }
        b[21] = self.message.len() as u8;
        b[22..22 + self.message.len()].copy_from_slice(&self.message);
        b[36] = self.tags.len() as u8;
        b[USED_AT..TAGS_AT].copy_from_slice(&self.used.to_le_bytes());
        for (i, tag) in self.tags.iter().enumerate() {
            b[TAGS_AT + 8 * i..][..8].copy_from_slice(&tag.to_le_bytes());
        }
        b[MODEL_COUNT_AT] = self.models.len() as u8;
        b[MODELS_AT..][..self.models.len()].copy_from_slice(&self.models);
        b[SPEC_AT..COVARIANCE_AT].copy_from_slice(&self.spec.to_le_bytes());
        for (i, value) in self.covariance.iter().enumerate() {
            b[COVARIANCE_AT + 8 * i..][..8].copy_from_slice(&value.to_bits().to_le_bytes());
        }
        b
    }

    pub fn claim(&self) -> Claim {
        Claim { lat: self.lat, lon: self.lon, height: self.height, covariance: self.covariance }
    }

    /// The tags that the mask marks.
    pub fn used_tags(&self) -> Vec<u64> {
        let marked = |i: &usize| self.used >> i & 1 == 1;
        (0..self.tags.len()).filter(marked).map(|i| self.tags[i]).collect()
    }

    pub fn weight(&self) -> u64 {
        u64::from(self.used.count_ones())
    }
}
