//! The library that is measured, through its C interface.

#![allow(dead_code)]

#[path = "../../rust/desk.rs"]
mod interface;
#[allow(unused_imports)]
use interface::c::*;
pub use interface::PAGE_BYTES;

#[cfg(with_holding)]
pub fn verdict(n: usize, table: &[u64], k: usize, set: &[u64]) -> [u64; 2] {
    let mut verdict = 0;
    let refusal = unsafe { desk_verdict(n, table.as_ptr(), table.len(), k, set.as_ptr(), set.len(), &mut verdict) };
    [refusal, verdict]
}

#[cfg(with_files)]
pub fn read(bytes: &[u8], serials: &mut [u32], table: &mut [u64]) -> [u64; 4] {
    let mut out = [0; 4];
    let [refusal, version, n, links] = &mut out;
    *refusal = unsafe {
        desk_read(bytes.as_ptr(), bytes.len(), serials.as_mut_ptr(), serials.len(), table.as_mut_ptr(), table.len(), version, n, links)
    };
    out
}

#[cfg(with_files)]
pub fn write(n: usize, serials: &[u32], table: &[u64], bytes: &mut [u8]) -> [u64; 2] {
    let mut length = 0;
    let refusal = unsafe {
        desk_write(n, serials.as_ptr(), serials.len(), table.as_ptr(), table.len(), bytes.as_mut_ptr(), bytes.len(), &mut length)
    };
    [refusal, length]
}

#[cfg(with_routes)]
pub fn routes(n: usize, table: &[u64], a: usize, b: usize) -> [u64; 3] {
    let (mut joined, mut count) = (0, 0);
    let refusal = unsafe { desk_routes(n, table.as_ptr(), table.len(), a, b, &mut joined, &mut count) };
    [refusal, joined, count]
}

#[cfg(with_holding)]
pub fn holding(n: usize, table: &[u64], k: usize, set: &[u64]) -> [u64; 6] {
    let mut out = [0; 6];
    let [refusal, verdict, w0, w1, w2, w3] = &mut out;
    *refusal = unsafe { desk_holding(n, table.as_ptr(), table.len(), k, set.as_ptr(), set.len(), verdict, w0, w1, w2, w3) };
    out
}

#[cfg(with_list)]
pub fn list(n: usize, table: &[u64], k: usize, list: &mut [u64]) -> [u64; 2] {
    let mut groups = 0;
    let refusal = unsafe { desk_list(n, table.as_ptr(), table.len(), k, list.as_mut_ptr(), list.len(), &mut groups) };
    [refusal, groups]
}

/// Refusal, length of the page.
#[cfg(with_night)]
pub fn night_list(bytes: &[u8], page: &mut [u8]) -> [u64; 2] {
    let mut length = 0;
    let refusal = unsafe { desk_night_list(bytes.as_ptr(), bytes.len(), page.as_mut_ptr(), page.len(), &mut length) };
    [refusal, length]
}
