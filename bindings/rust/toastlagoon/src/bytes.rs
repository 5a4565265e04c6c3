//! Memory: where a slice begins, for C, and what stands in it.

/// Where a slice begins; of an empty one some place that can be read, since the library takes no other.
pub fn start<T>(slice: &[T]) -> *const T {
    static SOME: [u64; 1] = [0];
    if slice.is_empty() { SOME.as_ptr().cast() } else { slice.as_ptr() }
}

/// The `N` bytes from `at` on.
pub fn part<const N: usize>(bytes: &[u8], at: usize) -> [u8; N] {
    let mut part = [0; N];
    part.copy_from_slice(&bytes[at..at + N]);
    part
}

pub fn u16_at(bytes: &[u8], at: usize) -> u16 {
    u16::from_le_bytes(part(bytes, at))
}

pub fn u32_at(bytes: &[u8], at: usize) -> u32 {
    u32::from_le_bytes(part(bytes, at))
}

pub fn u64_at(bytes: &[u8], at: usize) -> u64 {
    u64::from_le_bytes(part(bytes, at))
}

pub fn f64_at(bytes: &[u8], at: usize) -> f64 {
    f64::from_le_bytes(part(bytes, at))
}

/// `N` zeros on the heap.
pub fn zeros<const N: usize>() -> Box<[u8; N]> {
    Box::new([0; N])
}
