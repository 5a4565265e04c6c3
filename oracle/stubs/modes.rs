//! The caller has checked the message's address, and `altitude_ft` is left out. So each message names aircraft 0
//! and has no altitude.

pub enum AltitudeKind {
    Barometric,
}

impl PartialEq for AltitudeKind {
    fn eq(&self, _: &Self) -> bool {
        true
    }
}

pub struct Altitude {
    pub kind: AltitudeKind,
    pub feet: i32,
}

pub fn address(_: &[u8]) -> Option<u32> {
    Some(0)
}

pub fn altitude(_: &[u8]) -> Option<Altitude> {
    None
}
