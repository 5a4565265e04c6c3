//! The static library's functions, and the only place that knows how they are called (include/toastlagoon.h). A slice is passed as
//! a pointer and a length. What the library at hand does not have is `None` (the `cfg`s are set from its symbols).

use oracle::decide::{Decision, Refusal};
use oracle::measured::Outcome;
use oracle::{Claim, hex};

#[cfg(has_tl_blake2s256)]
unsafe extern "C" {
    fn tl_blake2s256(input: *const u8, len: usize, out: *mut u8) -> u32;
}

#[cfg(has_tl_root)]
unsafe extern "C" {
    fn tl_root(x: f64) -> f64;
}

#[cfg(has_tl_horizontal_sigma)]
unsafe extern "C" {
    fn tl_horizontal_sigma(xx: f64, xy: f64, xz: f64, yy: f64, yz: f64, zz: f64) -> f64;
}

#[cfg(has_tl_agreement)]
unsafe extern "C" {
    fn tl_agreement(
        lat: i32,
        lon: i32,
        has_height: bool,
        height: i32,
        xx: f64,
        xy: f64,
        xz: f64,
        yy: f64,
        yz: f64,
        zz: f64,
        lat2: i32,
        lon2: i32,
        has_height2: bool,
        height2: i32,
        xx2: f64,
        xy2: f64,
        xz2: f64,
        yy2: f64,
        yz2: f64,
        zz2: f64,
        chi2: *mut f64,
        limit: *mut f64,
    ) -> u32;
}

#[cfg(has_tl_decide)]
unsafe extern "C" {
    fn tl_decide(items: *const u8, len: usize, answer: *mut u8) -> u32;
}

#[cfg(has_tl_decide_any)]
unsafe extern "C" {
    fn tl_decide_any(items: *const u8, len: usize, answer: *mut u8) -> u32;
}

#[cfg(has_register)]
unsafe extern "C" {
    fn tl_register_report(memory: *mut u8, len: usize, engine: u32, record: *const u8, record_len: usize) -> u32;
    fn tl_register_summary(
        memory: *mut u8,
        len: usize,
        engine: u32,
        model: u32,
        spec: u16,
        inputs: *const u8,
        inputs_len: usize,
    ) -> u32;
    fn tl_register_conviction(desk: u32, memory: *mut u8, len: usize, engine: u32) -> u32;
}

#[cfg(has_board)]
unsafe extern "C" {
    fn tl_board(desk: u32, memory: *const u8, len: usize, out: *mut u8, out_len: usize) -> u32;
}

#[cfg(has_map)]
unsafe extern "C" {
    fn tl_register_map(memory: *const u8, len: usize, out: *mut u8, out_len: usize) -> u32;
}

#[cfg(has_fixes)]
unsafe extern "C" {
    fn tl_register_fixes(memory: *const u8, len: usize, out: *mut u8, out_len: usize) -> u32;
}

#[cfg(has_session)]
unsafe extern "C" {
    fn tl_register_session(memory: *mut u8, len: usize, input: *const u8, input_len: usize, out: *mut u8, out_len: usize) -> u32;
}

#[cfg(has_values)]
unsafe extern "C" {
    fn tl_record_write(
        time: u64,
        lat: i32,
        lon: i32,
        has_height: bool,
        height: i32,
        message: *const u8,
        message_len: usize,
        tags: *const u64,
        tags_len: usize,
        used: u32,
        models: *const u8,
        models_len: usize,
        spec: u16,
        covariance: *const f64,
        out: *mut u8,
    ) -> u32;
    fn tl_record_fault(record: *const u8, len: usize) -> u32;
    fn tl_record_identity(record: *const u8, len: usize, inputs: *const u8, out: *mut u8) -> u32;
    fn tl_register_inputs(memory: *const u8, len: usize, record: *const u8, record_len: usize, out: *mut u8) -> u32;
}

#[cfg(has_preview)]
unsafe extern "C" {
    fn tl_register_preview(desk: u32, memory: *const u8, len: usize, engine: u32, out: *mut u8, out_len: usize) -> u32;
}

#[cfg(has_register)]
pub mod register {
    pub fn report(m: &mut [u8], engine: u32, record: &[u8]) -> u32 {
        unsafe { super::tl_register_report(m.as_mut_ptr(), m.len(), engine, record.as_ptr(), record.len()) }
    }

    pub fn summary(m: &mut [u8], engine: u32, model: u32, spec: u16, inputs: &[u8]) -> u32 {
        unsafe { super::tl_register_summary(m.as_mut_ptr(), m.len(), engine, model, spec, inputs.as_ptr(), inputs.len()) }
    }

    pub fn convict(desk: u32, m: &mut [u8], engine: u32) -> u32 {
        unsafe { super::tl_register_conviction(desk, m.as_mut_ptr(), m.len(), engine) }
    }

    #[cfg(has_board)]
    pub fn board(desk: u32, m: &[u8], out: &mut [u8]) -> usize {
        unsafe { super::tl_board(desk, m.as_ptr(), m.len(), out.as_mut_ptr(), out.len()) as usize }
    }

    #[cfg(has_map)]
    pub fn map(m: &[u8], out: &mut [u8]) -> usize {
        unsafe { super::tl_register_map(m.as_ptr(), m.len(), out.as_mut_ptr(), out.len()) as usize }
    }

    #[cfg(has_fixes)]
    pub fn fixes(m: &[u8], out: &mut [u8]) -> usize {
        unsafe { super::tl_register_fixes(m.as_ptr(), m.len(), out.as_mut_ptr(), out.len()) as usize }
    }

    #[cfg(has_session)]
    pub fn session(m: &mut [u8], input: &[u8], out: &mut [u8]) -> usize {
        unsafe {
            super::tl_register_session(m.as_mut_ptr(), m.len(), input.as_ptr(), input.len(), out.as_mut_ptr(), out.len()) as usize
        }
    }

    #[cfg(has_preview)]
    pub fn preview(desk: u32, m: &[u8], engine: u32, out: &mut [u8]) -> usize {
        unsafe { super::tl_register_preview(desk, m.as_ptr(), m.len(), engine, out.as_mut_ptr(), out.len()) as usize }
    }
}

#[cfg(has_track)]
unsafe extern "C" {
    fn tl_track_report(
        memory: *mut u8,
        len: usize,
        shelf: *mut u8,
        shelf_len: usize,
        engine: u32,
        record: *const u8,
        record_len: usize,
    ) -> u32;
    fn tl_track_summary(
        memory: *mut u8,
        len: usize,
        shelf: *mut u8,
        shelf_len: usize,
        engine: u32,
        model: u32,
        spec: u16,
        inputs: *const u8,
        inputs_len: usize,
    ) -> u32;
    fn tl_track_conviction(memory: *mut u8, len: usize, shelf: *mut u8, shelf_len: usize, engine: u32) -> u32;
    fn tl_track_listing(memory: *const u8, len: usize, out: *mut u8, out_len: usize) -> u32;
}

/// The track's calls, each with the number that it answers; behind the track stands its shelf. Without a track in the library nobody
/// may call them.
pub const TRACK: bool = cfg!(has_track);

#[cfg(has_track)]
pub mod track {
    #[inline(always)]
    pub fn report(m: &mut [u8], s: &mut [u8], engine: u32, record: &[u8]) -> u32 {
        let (shelf, shelf_len) = (s.as_mut_ptr(), s.len());
        unsafe { super::tl_track_report(m.as_mut_ptr(), m.len(), shelf, shelf_len, engine, record.as_ptr(), record.len()) }
    }

    #[inline(always)]
    pub fn summary(m: &mut [u8], s: &mut [u8], engine: u32, model: u32, spec: u16, inputs: &[u8]) -> u32 {
        let (memory, len, shelf, shelf_len) = (m.as_mut_ptr(), m.len(), s.as_mut_ptr(), s.len());
        unsafe { super::tl_track_summary(memory, len, shelf, shelf_len, engine, model, spec, inputs.as_ptr(), inputs.len()) }
    }

    #[inline(always)]
    pub fn convict(m: &mut [u8], s: &mut [u8], engine: u32) -> u32 {
        unsafe { super::tl_track_conviction(m.as_mut_ptr(), m.len(), s.as_mut_ptr(), s.len(), engine) }
    }

    #[inline(always)]
    pub fn listing(m: &[u8], out: &mut [u8]) -> usize {
        unsafe { super::tl_track_listing(m.as_ptr(), m.len(), out.as_mut_ptr(), out.len()) as usize }
    }
}

#[cfg(not(has_track))]
pub mod track {
    pub fn report(m: &mut [u8], s: &mut [u8], engine: u32, record: &[u8]) -> u32 {
        unreachable!("{} {} {engine} {}", m.len(), s.len(), record.len())
    }

    pub fn summary(m: &mut [u8], s: &mut [u8], engine: u32, model: u32, spec: u16, inputs: &[u8]) -> u32 {
        unreachable!("{} {} {engine} {model} {spec} {}", m.len(), s.len(), inputs.len())
    }

    pub fn convict(m: &mut [u8], s: &mut [u8], engine: u32) -> u32 {
        unreachable!("{} {} {engine}", m.len(), s.len())
    }

    pub fn listing(m: &[u8], out: &mut [u8]) -> usize {
        unreachable!("{} {}", m.len(), out.len())
    }
}

/// The register's calls for the bench and for previews, which are compiled without them too (and then make none).
pub const REGISTER: bool = cfg!(has_register);

#[inline(always)]
pub fn report(m: &mut [u8], engine: u32, record: &[u8]) -> u32 {
    #[cfg(has_register)]
    return register::report(m, engine, record);
    #[cfg(not(has_register))]
    unreachable!("{} {engine} {}", m.len(), record.len())
}

#[inline(always)]
pub fn summary(m: &mut [u8], engine: u32, model: u32, spec: u16, inputs: &[u8]) -> u32 {
    #[cfg(has_register)]
    return register::summary(m, engine, model, spec, inputs);
    #[cfg(not(has_register))]
    unreachable!("{} {engine} {model} {spec} {}", m.len(), inputs.len())
}

#[inline(always)]
pub fn convict(desk: u32, m: &mut [u8], engine: u32) -> u32 {
    #[cfg(has_register)]
    return register::convict(desk, m, engine);
    #[cfg(not(has_register))]
    unreachable!("{desk} {} {engine}", m.len())
}

pub const BOARD: bool = cfg!(has_board);

#[inline(always)]
pub fn board(desk: u32, m: &[u8], out: &mut [u8]) -> usize {
    #[cfg(has_board)]
    return register::board(desk, m, out);
    #[cfg(not(has_board))]
    unreachable!("{desk} {} {}", m.len(), out.len())
}

/// A library that has it also has the register and the board.
pub const MAP: bool = cfg!(has_map);

#[inline(always)]
pub fn map(m: &[u8], out: &mut [u8]) -> usize {
    #[cfg(has_map)]
    return register::map(m, out);
    #[cfg(not(has_map))]
    unreachable!("{} {}", m.len(), out.len())
}

/// A library that has it also has the register and the board.
pub const FIXES: bool = cfg!(has_fixes);

#[inline(always)]
pub fn fixes(m: &[u8], out: &mut [u8]) -> usize {
    #[cfg(has_fixes)]
    return register::fixes(m, out);
    #[cfg(not(has_fixes))]
    unreachable!("{} {}", m.len(), out.len())
}

/// A library that has it also has the register and the board.
pub const SESSION: bool = cfg!(has_session);

#[inline(always)]
pub fn session(m: &mut [u8], input: &[u8], out: &mut [u8]) -> usize {
    #[cfg(has_session)]
    return register::session(m, input, out);
    #[cfg(not(has_session))]
    unreachable!("{} {} {}", m.len(), input.len(), out.len())
}

/// Records as values. A library that has them also has the register.
pub const VALUES: bool = cfg!(has_values);

#[cfg(has_values)]
pub mod value {
    use oracle::Record;
    use oracle::layout::RECORD;

    /// What is passed as the height where the record has none must make no difference.
    #[inline(always)]
    pub fn write(said: &Record, no_height: i32, out: &mut [u8; RECORD]) -> u32 {
        let (message, tags, models) = (&said.message, &said.tags, &said.models);
        let (has_height, height) = (said.height.is_some(), said.height.unwrap_or(no_height));
        unsafe {
            super::tl_record_write(
                said.time,
                said.lat,
                said.lon,
                has_height,
                height,
                message.as_ptr(),
                message.len(),
                tags.as_ptr(),
                tags.len(),
                said.used,
                models.as_ptr(),
                models.len(),
                said.spec,
                said.covariance.as_ptr(),
                out.as_mut_ptr(),
            )
        }
    }

    #[inline(always)]
    pub fn fault(record: &[u8]) -> u32 {
        unsafe { super::tl_record_fault(record.as_ptr(), record.len()) }
    }

    #[inline(always)]
    pub fn identity(record: &[u8], inputs: &[u8; 32], out: &mut [u8; 32]) -> u32 {
        unsafe { super::tl_record_identity(record.as_ptr(), record.len(), inputs.as_ptr(), out.as_mut_ptr()) }
    }

    #[inline(always)]
    pub fn inputs(m: &[u8], record: &[u8], out: &mut [u8; 32]) -> u32 {
        unsafe { super::tl_register_inputs(m.as_ptr(), m.len(), record.as_ptr(), record.len(), out.as_mut_ptr()) }
    }
}

#[cfg(not(has_values))]
pub mod value {
    use oracle::Record;
    use oracle::layout::RECORD;

    pub fn write(said: &Record, no_height: i32, out: &mut [u8; RECORD]) -> u32 {
        unreachable!("{} {no_height} {}", said.time, out.len())
    }

    pub fn fault(record: &[u8]) -> u32 {
        unreachable!("{}", record.len())
    }

    pub fn identity(record: &[u8], inputs: &[u8; 32], out: &mut [u8; 32]) -> u32 {
        unreachable!("{} {} {}", record.len(), inputs.len(), out.len())
    }

    pub fn inputs(m: &[u8], record: &[u8], out: &mut [u8; 32]) -> u32 {
        unreachable!("{} {} {}", m.len(), record.len(), out.len())
    }
}

/// Of a conviction. A library that has it also has the register and the board.
pub const PREVIEW: bool = cfg!(has_preview);

#[inline(always)]
pub fn preview(desk: u32, m: &[u8], engine: u32, out: &mut [u8]) -> usize {
    #[cfg(has_preview)]
    return register::preview(desk, m, engine, out);
    #[cfg(not(has_preview))]
    unreachable!("{desk} {} {engine} {}", m.len(), out.len())
}

pub const HASH: bool = cfg!(has_tl_blake2s256);
pub const ROOT: bool = cfg!(has_tl_root);
pub const SIGMA: bool = cfg!(has_tl_horizontal_sigma);
pub const AGREEMENT: bool = cfg!(has_tl_agreement);
pub const DECIDE: bool = cfg!(has_tl_decide);
pub const DECIDE_ANY: bool = cfg!(has_tl_decide_any);

pub fn blake2s256(input: &[u8]) -> Option<[u8; 32]> {
    #[cfg(has_tl_blake2s256)]
    {
        let mut out = [0u8; 32];
        // The input is read within its length; 32 bytes are written.
        unsafe { tl_blake2s256(input.as_ptr(), input.len(), out.as_mut_ptr()) };
        Some(out)
    }
    #[cfg(not(has_tl_blake2s256))]
    {
        let _ = input;
        None
    }
}

#[inline(always)]
pub fn root(x: f64) -> Option<f64> {
    #[cfg(has_tl_root)]
    return Some(unsafe { tl_root(x) });
    #[cfg(not(has_tl_root))]
    {
        let _ = x;
        None
    }
}

pub fn horizontal_sigma(c: &[f64; 6]) -> Option<f64> {
    #[cfg(has_tl_horizontal_sigma)]
    return Some(unsafe { tl_horizontal_sigma(c[0], c[1], c[2], c[3], c[4], c[5]) });
    #[cfg(not(has_tl_horizontal_sigma))]
    {
        let _ = c;
        None
    }
}

/// What the two numbers are that an agreement is lent: NaNs whose bits no agreement writes.
const AS_FOUND: [u64; 2] = [0x7ff8_0000_0000_00c2, 0x7ff8_0000_0000_0011];

/// What is answered, and the two lent numbers after the call: the chi-square and its limit, or as they were found.
#[inline(always)]
pub fn agreement(a: &Claim, b: &Claim) -> Option<(u32, f64, f64)> {
    #[cfg(has_tl_agreement)]
    {
        let (c, d) = (&a.covariance, &b.covariance);
        let [mut chi2, mut limit] = AS_FOUND.map(f64::from_bits);
        // Two numbers are written or none, nothing is kept.
        let answer = unsafe {
            tl_agreement(
                a.lat,
                a.lon,
                a.height.is_some(),
                a.height.unwrap_or(0),
                c[0],
                c[1],
                c[2],
                c[3],
                c[4],
                c[5],
                b.lat,
                b.lon,
                b.height.is_some(),
                b.height.unwrap_or(0),
                d[0],
                d[1],
                d[2],
                d[3],
                d[4],
                d[5],
                &mut chi2,
                &mut limit,
            )
        };
        Some((answer, chi2, limit))
    }
    #[cfg(not(has_tl_agreement))]
    {
        let _ = (a, b);
        None
    }
}

/// What an answer and the two lent numbers say; in words where they say nothing that the library may. A chi-square of zero has no sign.
fn read_outcome((answer, chi2, limit): (u32, f64, f64)) -> Result<Outcome, String> {
    let (chi2, limit) = (if chi2 == 0.0 { 0 } else { chi2.to_bits() }, limit.to_bits());
    match answer {
        0 => Ok(Outcome::Inside { chi2, limit }),
        1 => Ok(Outcome::Outside { chi2, limit }),
        2 if [chi2, limit] == AS_FOUND => Ok(Outcome::Unmeasurable),
        _ => Err(format!("answer {answer}, lent numbers {chi2:016x} and {limit:016x}")),
    }
}

/// The library's agreement of two claims, or what is wrong with it.
pub fn outcome(a: &Claim, b: &Claim) -> Option<Result<Outcome, String>> {
    agreement(a, b).map(read_outcome)
}

/// The bytes of a refusal: refused, kept, superseded, measured, chi-square little-endian (zeros where none was measured).
const REFUSAL: usize = 12;
const REFUSALS_AT: usize = 97 + 97;

/// The bytes of an answer: ranked count and 96 indices; dominated count and 96 indices; refusal count and 96 refusals. What is not used
/// is zero.
pub const ANSWER: usize = REFUSALS_AT + 1 + 96 * REFUSAL;

/// The number that the library answers; an answer is written into the lent bytes.
#[inline(always)]
pub fn decide_into(items: &[u8], answer: &mut [u8; ANSWER]) -> Option<u32> {
    #[cfg(has_tl_decide)]
    return Some(unsafe { tl_decide(items.as_ptr(), items.len(), answer.as_mut_ptr()) });
    #[cfg(not(has_tl_decide))]
    {
        let _ = (items, answer);
        None
    }
}

/// The same of the items in ascending identity.
#[inline(always)]
pub fn decide_any_into(items: &[u8], answer: &mut [u8; ANSWER]) -> Option<u32> {
    #[cfg(has_tl_decide_any)]
    return Some(unsafe { tl_decide_any(items.as_ptr(), items.len(), answer.as_mut_ptr()) });
    #[cfg(not(has_tl_decide_any))]
    {
        let _ = (items, answer);
        None
    }
}

/// One of the library's two functions that decide items.
pub type Decide = fn(&[u8], &mut [u8; ANSWER]) -> Option<u32>;

/// The bytes that an answer has before it is written.
const PAINT: u8 = 7;

fn put_list(b: &mut [u8], list: &[u8]) {
    b[0] = list.len() as u8;
    b[1..][..list.len()].copy_from_slice(list);
}

fn put_refusal(b: &mut [u8], r: &Refusal) {
    b[..4].copy_from_slice(&[r.refused, r.kept, u8::from(r.superseded), u8::from(r.chi2.is_some())]);
    b[4..REFUSAL].copy_from_slice(&r.chi2.unwrap_or(0).to_le_bytes());
}

/// All bytes of the answer that says this.
fn write_answer(d: &Decision) -> [u8; ANSWER] {
    let mut b = [0u8; ANSWER];
    put_list(&mut b, &d.ranked);
    put_list(&mut b[97..], &d.dominated);
    b[REFUSALS_AT] = d.refusals.len() as u8;
    for (place, refusal) in b[REFUSALS_AT + 1..].chunks_exact_mut(REFUSAL).zip(&d.refusals) {
        put_refusal(place, refusal);
    }
    b
}

/// The used bytes of any answer, in hex.
fn used_bytes(b: &[u8; ANSWER]) -> String {
    let list = |at: usize| hex::write(&b[at + 1..][..usize::from(b[at]).min(96)]);
    let refusals: Vec<String> = b[REFUSALS_AT + 1..].chunks_exact(REFUSAL).map(hex::write).collect();
    let count = usize::from(b[REFUSALS_AT]).min(96);
    format!("ranked {} dominated {} refused {}", list(0), list(97), refusals[..count].join(" "))
}

/// What is wrong, in words, with the library's answer to items of which this is decided; without a decision they are refused with 8, and
/// the answer stays as it is. All its bytes are compared.
pub fn decide_differs(decide: Decide, items: &[u8], decided: Option<&Decision>) -> Option<String> {
    let mut answer = [PAINT; ANSWER];
    let number = decide(items, &mut answer)?;
    let (due, bytes) = decided.map_or((8, [PAINT; ANSWER]), |d| (0, write_answer(d)));
    if number == due && answer == bytes {
        return None;
    }
    let at = answer.iter().zip(&bytes).position(|(a, b)| a != b);
    Some(format!("answer={number} first other byte {at:?}: {}", used_bytes(&answer)))
}
