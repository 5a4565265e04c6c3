//! The C example's hash, agreements, reports and boards, called from Rust: a slice goes over as a pointer and a length, a desk as its
//! number, and what an agreement answers comes back as an enum, in which there is no number where none was measured.

#[rustfmt::skip]
unsafe extern "C" {
    fn tl_blake2s256(input: *const u8, input_len: usize, out: *mut [u8; 32]) -> u32;
    fn tl_agreement(
        lat: i32, lon: i32, has_height: bool, height: i32, xx: f64, xy: f64, xz: f64, yy: f64, yz: f64, zz: f64,
        lat2: i32, lon2: i32, has_height2: bool, height2: i32, xx2: f64, xy2: f64, xz2: f64, yy2: f64, yz2: f64, zz2: f64,
        chi2: *mut f64, limit: *mut f64,
    ) -> u32;
    fn tl_register_report(memory: *mut u8, memory_len: usize, engine: u32, record: *const u8, record_len: usize) -> u32;
    fn tl_board(desk: u32, memory: *const u8, memory_len: usize, out: *mut u8, out_len: usize) -> u32;
}

const REGISTER_SIZE: usize = 37_256;
const BOARD_SIZE: usize = 16_384;
const INSIDE: u32 = 0;
const OUTSIDE: u32 = 1;
const UNMEASURABLE: u32 = 2;

fn blake2s256(input: &[u8]) -> [u8; 32] {
    let mut out = [0; 32];
    // The input is read within its length, and 32 bytes are written.
    unsafe { tl_blake2s256(input.as_ptr(), input.len(), &mut out) };
    out
}

/// A fix, as far as an agreement looks at it.
struct Claim {
    lat: i32,
    lon: i32,
    height: Option<i32>,
    covariance: [f64; 6],
}

enum Agreement {
    Inside { chi2: f64, limit: f64 },
    Outside { chi2: f64, limit: f64 },
    Unmeasurable,
}

fn agreement(smaller: &Claim, larger: &Claim) -> Agreement {
    let has = |claim: &Claim| (claim.height.is_some(), claim.height.unwrap_or(0));
    let ((flag, height), (flag2, height2)) = (has(smaller), has(larger));
    let ([xx, xy, xz, yy, yz, zz], [xx2, xy2, xz2, yy2, yz2, zz2]) = (smaller.covariance, larger.covariance);
    let (mut chi2, mut limit) = (0.0, 0.0);
    // Nothing but the two numbers is written, and they only where the outcome has them.
    #[rustfmt::skip]
    let outcome = unsafe {
        tl_agreement(
            smaller.lat, smaller.lon, flag, height, xx, xy, xz, yy, yz, zz,
            larger.lat, larger.lon, flag2, height2, xx2, xy2, xz2, yy2, yz2, zz2, &mut chi2, &mut limit,
        )
    };
    match outcome {
        INSIDE => Agreement::Inside { chi2, limit },
        OUTSIDE => Agreement::Outside { chi2, limit },
        UNMEASURABLE => Agreement::Unmeasurable,
        other => unreachable!("tl_agreement answers {other}"),
    }
}

/// Of a larger fix, `step` 1e-7 degree north of a smaller one, whose variance is the same on each axis.
fn show_agreement(what: &str, step: i32, variance: f64) {
    let claim = |lat, v| Claim { lat, lon: 0, height: Some(1_500), covariance: [v, 0.0, 0.0, v, 0.0, v] };
    print!("agreement, {what}: ");
    match agreement(&claim(0, variance), &claim(step, 100.0)) {
        Agreement::Inside { chi2, limit } => println!("inside, chi-square {:016x}, limit {limit}", chi2.to_bits()),
        Agreement::Outside { chi2, limit } => println!("outside, chi-square {:016x}, limit {limit}", chi2.to_bits()),
        Agreement::Unmeasurable => println!("unmeasurable"),
    }
}

fn report(memory: &mut [u8], engine: u32, record: &[u8]) -> u32 {
    // Both are read, and the memory written, within their lengths; they don't overlap.
    unsafe { tl_register_report(memory.as_mut_ptr(), memory.len(), engine, record.as_ptr(), record.len()) }
}

/// Who asks for a board.
#[derive(Clone, Copy, Debug)]
enum Desk {
    Crew = 0,
    Analyst = 1,
    Manager = 2,
}

fn board(desk: Desk, memory: &[u8], out: &mut [u8]) -> u32 {
    // The memory is read, and the output written, within their lengths; they don't overlap.
    unsafe { tl_board(desk as u32, memory.as_ptr(), memory.len(), out.as_mut_ptr(), out.len()) }
}

/// Of an empty register, which has no lines at any desk, and into an output that is too small for each.
fn show_board(desk: Desk, memory: &[u8]) {
    let mut out = vec![0; BOARD_SIZE];
    let (length, refused) = (board(desk, memory, &mut out), board(desk, memory, &mut out[1..]));
    println!("board at the desk of the {desk:?}: {length} bytes; into too little: answer {refused}");
}

fn main() {
    let hex: String = blake2s256(b"abc").iter().map(|b| format!("{b:02x}")).collect();
    println!("hash of abc: {hex}");
    show_agreement("30 m north", 2_700, 100.0);
    show_agreement("60 m north", 5_400, 100.0);
    show_agreement("the same place, variances of zero", 0, 0.0);
    show_agreement("1 cm north, variances of 1e-320", 1, 1e-320);
    let mut memory = vec![0; REGISTER_SIZE];
    println!("report of no bytes: answer {}", report(&mut memory, 4, &[]));
    println!("report into no register: answer {}", report(&mut memory[1..], 4, &[]));
    for desk in [Desk::Crew, Desk::Analyst, Desk::Manager] {
        show_board(desk, &memory);
    }
}
