//! The specification's rules for a track's bytes (docs/REFERENCE.md, 'Layouts').

use crate::Record;
use crate::layout::{PLACE, RECORD};
use crate::track::{
    FIX, FIXES, FIXES_AT, REFUSALS, REFUSED, REFUSED_AT, SIZE, SUMMARIES, SUMMARIES_AT, SUMMARY, TRANSMISSION, TRANSMISSIONS,
    TRANSMISSIONS_AT,
};

fn zero(b: &[u8]) -> bool {
    b.iter().all(|&x| x == 0)
}

/// A well-formed record, and signers of whom none is convicted.
fn fix(b: &[u8], convicted: u32) -> bool {
    let signers = u32::from_le_bytes(b[RECORD..PLACE].try_into().unwrap());
    signers != 0 && signers & convicted == 0 && Record::read(&b[..RECORD]).is_some()
}

fn transmission(b: &[u8], convicted: u32) -> bool {
    let (fixes, refused) = (usize::from(b[0]), usize::from(b[1]));
    (1..=FIXES).contains(&fixes)
        && refused <= REFUSALS
        && (0..fixes).all(|k| fix(&b[FIXES_AT + FIX * k..], convicted))
        && (0..refused).all(|k| fix(&b[REFUSED_AT + REFUSED * k..], convicted))
        && zero(&b[FIXES_AT + FIX * fixes..REFUSED_AT])
        && zero(&b[REFUSED_AT + REFUSED * refused..])
}

/// Used places first, ascending by engine and model, one a pair; the rest zero.
fn summaries(b: &[u8], count: usize, convicted: u32) -> bool {
    let places: Vec<&[u8]> = b[..SUMMARY * count].chunks_exact(SUMMARY).collect();
    places.iter().all(|s| s[0] <= 31 && s[1] <= 63 && convicted >> s[0] & 1 == 0)
        && places.windows(2).all(|two| two[0][..2] < two[1][..2])
        && zero(&b[SUMMARY * count..])
}

/// Whether these bytes are a well-formed track.
pub fn formed(b: &[u8]) -> bool {
    if b.len() != SIZE {
        return false;
    }
    let convicted = u32::from_le_bytes(b[..4].try_into().unwrap());
    let (said, count) = (usize::from(u16::from_le_bytes([b[4], b[5]])), usize::from(b[6]));
    let all = &b[TRANSMISSIONS_AT..];
    said <= SUMMARIES
        && count <= TRANSMISSIONS
        && b[7] == 0
        && summaries(&b[SUMMARIES_AT..TRANSMISSIONS_AT], said, convicted)
        && all[..TRANSMISSION * count].chunks_exact(TRANSMISSION).all(|one| transmission(one, convicted))
        && zero(&all[TRANSMISSION * count..])
}
