//! The exported functions of the crate `leaf_speed`, as safe calls.
//!
//! Each takes a slice as a pointer and a length, asks nothing of its caller and touches no byte outside its slices.

/// Bytes of a state area.
pub const AREA: usize = 65_536;

/// An area that starts at a page, so that every run compares the same addresses.
#[repr(C, align(4096))]
#[derive(Clone)]
pub struct Area(pub [u8; AREA]);

mod exported {
    use super::Area;

    extern "C" {
        pub fn leaf_copy(src: *const u8, src_len: usize, dst: *mut u8, dst_len: usize) -> bool;
        pub fn leaf_copy_prefix(
            src: *const u8,
            src_len: usize,
            count: usize,
            dst: *mut u8,
            dst_len: usize,
        ) -> bool;
        // Returns 65,536 bytes by value, which x86-64 does through a pointer that comes first.
        pub fn leaf_scratch(result: *mut Area, src: *const u8, src_len: usize);
        pub fn leaf_fill_zero(s: *mut u8, len: usize);
        pub fn leaf_is_zero(s: *const u8, len: usize) -> bool;
        pub fn leaf_run_before(
            s: *const u8,
            s_len: usize,
            p: usize,
            t: *const u8,
            t_len: usize,
            q: usize,
            size: usize,
        ) -> bool;
        pub fn leaf_run_same(
            s: *const u8,
            s_len: usize,
            p: usize,
            t: *const u8,
            t_len: usize,
            q: usize,
            size: usize,
        ) -> bool;
        pub fn leaf_ids_before(ids: *const u8, len: usize) -> usize;
        pub fn leaf_ids_same(ids: *const u8, len: usize) -> usize;
        pub fn leaf_read_u64(s: *const u8, len: usize) -> u64;
        pub fn leaf_read_u16(s: *const [u8; 8]) -> u16;
        pub fn leaf_read_u32(s: *const [u8; 8]) -> u32;
        pub fn leaf_write_u16(s: *mut [u8; 8], n: u16);
        pub fn leaf_write_u32(s: *mut [u8; 8], n: u32);
        pub fn leaf_write_u64(s: *mut [u8; 8], n: u64);
    }
}

pub fn copy(src: &[u8], dst: &mut [u8]) -> bool {
    // SAFETY: both pairs are whole slices, and `dst` is borrowed alone.
    unsafe { exported::leaf_copy(src.as_ptr(), src.len(), dst.as_mut_ptr(), dst.len()) }
}

pub fn copy_prefix(src: &[u8], count: usize, dst: &mut [u8]) -> bool {
    // SAFETY: as `copy`; a count that is too large is refused.
    unsafe {
        exported::leaf_copy_prefix(src.as_ptr(), src.len(), count, dst.as_mut_ptr(), dst.len())
    }
}

pub fn scratch(src: &[u8], result: &mut Area) {
    // SAFETY: the result is 65,536 bytes long and borrowed alone.
    unsafe { exported::leaf_scratch(result, src.as_ptr(), src.len()) }
}

pub fn fill_zero(s: &mut [u8]) {
    // SAFETY: a whole slice, borrowed alone.
    unsafe { exported::leaf_fill_zero(s.as_mut_ptr(), s.len()) }
}

pub fn is_zero(s: &[u8]) -> bool {
    // SAFETY: a whole slice.
    unsafe { exported::leaf_is_zero(s.as_ptr(), s.len()) }
}

pub fn run_before(s: &[u8], p: usize, t: &[u8], q: usize, size: usize) -> bool {
    // SAFETY: two whole slices; runs that leave them are refused.
    unsafe { exported::leaf_run_before(s.as_ptr(), s.len(), p, t.as_ptr(), t.len(), q, size) }
}

pub fn run_same(s: &[u8], p: usize, t: &[u8], q: usize, size: usize) -> bool {
    // SAFETY: as `run_before`.
    unsafe { exported::leaf_run_same(s.as_ptr(), s.len(), p, t.as_ptr(), t.len(), q, size) }
}

pub fn ids_before(ids: &[[u8; 32]]) -> usize {
    // SAFETY: the bytes of a whole slice of arrays.
    unsafe { exported::leaf_ids_before(ids.as_ptr().cast(), ids.len() * 32) }
}

pub fn ids_same(ids: &[[u8; 32]]) -> usize {
    // SAFETY: the bytes of a whole slice of arrays.
    unsafe { exported::leaf_ids_same(ids.as_ptr().cast(), ids.len() * 32) }
}

/// All words of s together, by `^`.
pub fn read_u64(s: &[u8]) -> u64 {
    // SAFETY: a whole slice.
    unsafe { exported::leaf_read_u64(s.as_ptr(), s.len()) }
}

pub fn read_u16(s: &[u8; 8]) -> u16 {
    // SAFETY: a whole array.
    unsafe { exported::leaf_read_u16(s) }
}

pub fn read_u32(s: &[u8; 8]) -> u32 {
    // SAFETY: a whole array.
    unsafe { exported::leaf_read_u32(s) }
}

pub fn write_u16(s: &mut [u8; 8], n: u16) {
    // SAFETY: an array, borrowed alone.
    unsafe { exported::leaf_write_u16(s, n) }
}

pub fn write_u32(s: &mut [u8; 8], n: u32) {
    // SAFETY: an array, borrowed alone.
    unsafe { exported::leaf_write_u32(s, n) }
}

pub fn write_u64(s: &mut [u8; 8], n: u64) {
    // SAFETY: an array, borrowed alone.
    unsafe { exported::leaf_write_u64(s, n) }
}
