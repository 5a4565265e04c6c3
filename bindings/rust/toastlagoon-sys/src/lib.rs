//! The C names of the library toastlagoon, and the constants of its header, include/toastlagoon.h, which says what each
//! function does and what its caller owes. The crate `toastlagoon` calls them safely.
//!
//! A slice is a pointer and a length in bytes; the pointer is never null, and points to some byte of the caller's also where
//! the length is 0. What a call may write overlaps nothing else that is passed to it.

#![no_std]

mod constants;

pub use constants::*;

#[rustfmt::skip]
unsafe extern "C" {
    pub fn tl_version() -> u32;
    pub fn tl_answer_text(answer: u32, out: *mut u8, out_len: usize) -> u32;
    pub fn tl_blake2s256(input: *const u8, input_len: usize, out: *mut [u8; TL_HASH_SIZE]) -> u32;
    pub fn tl_root(x: f64) -> f64;
    pub fn tl_horizontal_sigma(xx: f64, xy: f64, xz: f64, yy: f64, yz: f64, zz: f64) -> f64;
    pub fn tl_agreement(
        lat: i32, lon: i32, has_height: bool, height: i32, xx: f64, xy: f64, xz: f64, yy: f64, yz: f64, zz: f64,
        lat2: i32, lon2: i32, has_height2: bool, height2: i32, xx2: f64, xy2: f64, xz2: f64, yy2: f64, yz2: f64, zz2: f64,
        chi2: *mut f64, limit: *mut f64
    ) -> u32;
    pub fn tl_record_write(
        time: u64, lat: i32, lon: i32, has_height: bool, height: i32, message: *const u8, message_len: usize, tags: *const u64,
        tags_len: usize, used: u32, models: *const u8, models_len: usize, spec: u16, covariance: *const [f64; 6],
        out: *mut [u8; TL_RECORD_SIZE]
    ) -> u32;
    pub fn tl_record_fault(record: *const u8, record_len: usize) -> u32;
    pub fn tl_record_identity(
        record: *const u8, record_len: usize, inputs: *const [u8; TL_INPUTS_SIZE], out: *mut [u8; TL_IDENTITY_SIZE]
    ) -> u32;
    pub fn tl_register_inputs(
        memory: *const u8, memory_len: usize, record: *const u8, record_len: usize, out: *mut [u8; TL_INPUTS_SIZE]
    ) -> u32;
    pub fn tl_decide(items: *const u8, items_len: usize, answer: *mut [u8; TL_ANSWER_SIZE]) -> u32;
    pub fn tl_decide_any(items: *const u8, items_len: usize, answer: *mut [u8; TL_ANSWER_SIZE]) -> u32;
    pub fn tl_register_report(memory: *mut u8, memory_len: usize, engine: u32, record: *const u8, record_len: usize) -> u32;
    pub fn tl_register_summary(
        memory: *mut u8, memory_len: usize, engine: u32, model: u32, spec: u16, inputs: *const u8, inputs_len: usize
    ) -> u32;
    pub fn tl_register_conviction(desk: u32, memory: *mut u8, memory_len: usize, engine: u32) -> u32;
    pub fn tl_register_join(memory: *mut u8, memory_len: usize, other: *const u8, other_len: usize) -> u32;
    pub fn tl_register_lacks(
        memory: *const u8, memory_len: usize, other: *const u8, other_len: usize, out: *mut u8, out_len: usize
    ) -> u32;
    pub fn tl_board(desk: u32, memory: *const u8, memory_len: usize, out: *mut u8, out_len: usize) -> u32;
    pub fn tl_register_preview(
        desk: u32, memory: *const u8, memory_len: usize, engine: u32, out: *mut u8, out_len: usize
    ) -> u32;
    pub fn tl_register_map(memory: *const u8, memory_len: usize, out: *mut u8, out_len: usize) -> u32;
    pub fn tl_register_fixes(memory: *const u8, memory_len: usize, out: *mut u8, out_len: usize) -> u32;
    pub fn tl_register_session(
        memory: *mut u8, memory_len: usize, input: *const u8, input_len: usize, out: *mut u8, out_len: usize
    ) -> u32;
    pub fn tl_session_reason(input: *const u8, input_len: usize, out: *mut [u8; TL_REASON_SIZE]) -> u32;
    pub fn tl_register_columns(input: *const u8, input_len: usize, out: *mut u8, out_len: usize) -> u32;
    pub fn tl_register_uncolumns(input: *const u8, input_len: usize, out: *mut u8, out_len: usize) -> u32;
    pub fn tl_track_report(
        memory: *mut u8, memory_len: usize, shelf: *mut u8, shelf_len: usize, engine: u32, record: *const u8, record_len: usize
    ) -> u32;
    pub fn tl_track_summary(
        memory: *mut u8, memory_len: usize, shelf: *mut u8, shelf_len: usize, engine: u32, model: u32, spec: u16,
        inputs: *const u8, inputs_len: usize
    ) -> u32;
    pub fn tl_track_conviction(memory: *mut u8, memory_len: usize, shelf: *mut u8, shelf_len: usize, engine: u32) -> u32;
    pub fn tl_track_listing(memory: *const u8, memory_len: usize, out: *mut u8, out_len: usize) -> u32;
}
