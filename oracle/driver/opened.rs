//! A library that is opened while a program runs, so that two can be called in one process; and today's records, registers and tracks in
//! the layout in which a record had room for 16 tags (and mask and tags are all that has moved).

use oracle::layout::{MODEL_COUNT_AT, Mask, PLACE, RECORD, TAGS_AT};
use oracle::track::{FIX, FIXES_AT, REFUSED, REFUSED_AT, TRANSMISSION, TRANSMISSIONS_AT};
use std::ffi::{CString, c_char, c_int, c_void};

unsafe extern "C" {
    fn dlopen(file: *const c_char, flags: c_int) -> *mut c_void;
    fn dlsym(handle: *mut c_void, name: *const c_char) -> *mut c_void;
}

// ---- the layout in which a record had room for 16 tags

pub const BEFORE_TAGS: usize = 16;
const BEFORE_MASK: usize = 2;
const USED_AT: usize = TAGS_AT - size_of::<Mask>();
const BEFORE_TAGS_AT: usize = USED_AT + BEFORE_MASK;
const BEFORE_MODELS_AT: usize = BEFORE_TAGS_AT + 8 * BEFORE_TAGS;
pub const BEFORE_RECORD: usize = BEFORE_MODELS_AT + RECORD - MODEL_COUNT_AT;
const REGISTER_PLACES_AT: usize = 8 + 256 * 36;

/// The record without the second half of its mask and the last eight tags, which no record has here.
pub fn narrow_record(b: &[u8]) -> Vec<u8> {
    assert!(b[BEFORE_TAGS_AT..TAGS_AT].iter().chain(&b[TAGS_AT + 8 * BEFORE_TAGS..MODEL_COUNT_AT]).all(|&x| x == 0));
    [&b[..BEFORE_TAGS_AT], &b[TAGS_AT..][..8 * BEFORE_TAGS], &b[MODEL_COUNT_AT..]].concat()
}

/// Each piece of so many bytes begins with a record.
pub fn narrow_pieces(b: &[u8], size: usize) -> Vec<u8> {
    b.chunks_exact(size)
        .flat_map(|piece| narrow_record(&piece[..RECORD]).into_iter().chain(piece[RECORD..].iter().copied()))
        .collect()
}

pub fn narrow_register(b: &[u8]) -> Vec<u8> {
    [b[..REGISTER_PLACES_AT].to_vec(), narrow_pieces(&b[REGISTER_PLACES_AT..], PLACE)].concat()
}

pub fn narrow_track(b: &[u8]) -> Vec<u8> {
    let mut out = b[..TRANSMISSIONS_AT].to_vec();
    for one in b[TRANSMISSIONS_AT..].chunks_exact(TRANSMISSION) {
        out.extend_from_slice(&one[..FIXES_AT]);
        out.extend(narrow_pieces(&one[FIXES_AT..REFUSED_AT], FIX));
        out.extend(narrow_pieces(&one[REFUSED_AT..], REFUSED));
    }
    out
}

/// Zeros behind the mask, and zeros behind the tags; all other bytes stay, in their order.
pub fn widen_record(b: &[u8]) -> Vec<u8> {
    let (mask, tags) = ([0; TAGS_AT - BEFORE_TAGS_AT], [0; MODEL_COUNT_AT - TAGS_AT - 8 * BEFORE_TAGS]);
    [&b[..BEFORE_TAGS_AT], &mask, &b[BEFORE_TAGS_AT..BEFORE_MODELS_AT], &tags, &b[BEFORE_MODELS_AT..]].concat()
}

fn widen_pieces(b: &[u8], size: usize) -> Vec<u8> {
    let piece = |piece: &[u8]| [&widen_record(&piece[..BEFORE_RECORD]), &piece[BEFORE_RECORD..]].concat();
    b.chunks_exact(size + BEFORE_RECORD - RECORD).flat_map(piece).collect()
}

pub fn widen_register(b: &[u8]) -> Vec<u8> {
    [b[..REGISTER_PLACES_AT].to_vec(), widen_pieces(&b[REGISTER_PLACES_AT..], PLACE)].concat()
}

pub fn widen_track(b: &[u8]) -> Vec<u8> {
    let narrower = RECORD - BEFORE_RECORD;
    let refused_at = REFUSED_AT - oracle::track::FIXES * narrower;
    let mut out = b[..TRANSMISSIONS_AT].to_vec();
    for one in b[TRANSMISSIONS_AT..].chunks_exact(TRANSMISSION - (oracle::track::FIXES + oracle::track::REFUSALS) * narrower) {
        out.extend_from_slice(&one[..FIXES_AT]);
        out.extend(widen_pieces(&one[FIXES_AT..refused_at], FIX));
        out.extend(widen_pieces(&one[refused_at..], REFUSED));
    }
    out
}

// ---- a library

pub type Bytes = *const u8;
pub type Lent = *mut u8;

pub struct Library {
    handle: *mut c_void,
    pub narrow: bool,
    pub shelves: bool,
}

impl Library {
    /// `layout` is `tags16`, `tags24` (no shelves yet) or `shelves`.
    pub fn open(file: &str, layout: &str) -> Self {
        let name = CString::new(file).unwrap();
        // Names are bound now, and are of no use to another library.
        let handle = unsafe { dlopen(name.as_ptr(), 2) };
        assert!(!handle.is_null(), "{file} is not a shared library");
        assert!(["tags16", "tags24", "shelves"].contains(&layout), "no such layout: {layout}");
        Self { handle, narrow: layout == "tags16", shelves: layout == "shelves" }
    }

    pub fn address(&self, name: &str) -> *mut c_void {
        let name = CString::new(name).unwrap();
        let found = unsafe { dlsym(self.handle, name.as_ptr()) };
        assert!(!found.is_null(), "{name:?} is not in the library");
        found
    }

    pub fn record(&self, b: &[u8]) -> Vec<u8> {
        if self.narrow { narrow_record(b) } else { b.to_vec() }
    }
}

macro_rules! function {
    ($library:expr, $name:expr, $($kind:ty),*) => {
        // The types are those of include/toastlagoon.h.
        unsafe { std::mem::transmute::<*mut ::std::ffi::c_void, unsafe extern "C" fn($($kind),*) -> u32>($library.address($name)) }
    };
}

pub(crate) use function;
