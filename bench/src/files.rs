//! The plain Rust peer of the survey reader and writer: every record tested before the first store, then the buffers filled.

use crate::question::table_refusal;

fn short(b: &[u8], i: usize) -> usize {
    b[i] as usize + 256 * b[i + 1] as usize
}

fn long(b: &[u8], i: usize) -> u32 {
    b[i] as u32 + 256 * (b[i + 1] as u32 + 256 * (b[i + 2] as u32 + 256 * b[i + 3] as u32))
}

/// Refusal, version, n, links.
pub fn read(b: &[u8], serials: &mut [u32], table: &mut [u64]) -> [u64; 4] {
    if b.len() < 9 || b[0] != b'R' || b[1] != b'L' || b[2] != b'M' {
        return [8, 0, 0, 0];
    }
    if short(b, 3) != 1 {
        return [9, 0, 0, 0];
    }
    let (n, m) = (short(b, 5), short(b, 7));
    if n > 256 || m > 8192 {
        return [10, 0, 0, 0];
    }
    if b.len() != 9 + 4 * n + 4 * m {
        return [11, 0, 0, 0];
    }
    if serials.len() < n || table.len() < 4 * n {
        return [14, 0, 0, 0];
    }
    let mut last = 0;
    for i in 0..n {
        let serial = long(b, 9 + 4 * i);
        if serial <= last {
            return [12, 0, 0, 0];
        }
        last = serial;
    }
    let base = 9 + 4 * n;
    let mut last = 0;
    for j in 0..m {
        let (x, y) = (short(b, base + 4 * j), short(b, base + 4 * j + 2));
        let rank = x * 65536 + y + 1;
        if x >= y || y >= n || rank <= last {
            return [13, 0, 0, 0];
        }
        last = rank;
    }
    for i in 0..n {
        serials[i] = long(b, 9 + 4 * i);
    }
    for word in &mut table[..4 * n] {
        *word = 0;
    }
    for j in 0..m {
        let (x, y) = (short(b, base + 4 * j), short(b, base + 4 * j + 2));
        table[4 * x + y / 64] |= 1 << (y % 64);
        table[4 * y + x / 64] |= 1 << (x % 64);
    }
    [0, 1, n as u64, m as u64]
}

/// The bits of a row from station i + 1 up.
fn above(table: &[u64], i: usize, q: usize) -> u64 {
    let word = table[4 * i + q];
    let from = i + 1;
    if from <= 64 * q {
        word
    } else if from >= 64 * (q + 1) {
        0
    } else {
        word >> (from % 64) << (from % 64)
    }
}

/// Refusal, length.
pub fn write(n: usize, serials: &[u32], table: &[u64], b: &mut [u8]) -> [u64; 2] {
    let refusal = table_refusal(n, table);
    if refusal != 0 {
        return [refusal, 0];
    }
    if serials.len() != n || serials.first() == Some(&0) || serials.windows(2).any(|w| w[0] >= w[1]) {
        return [12, 0];
    }
    let m = table.iter().map(|w| w.count_ones() as usize).sum::<usize>() / 2;
    if m > 8192 {
        return [10, 0];
    }
    let length = 9 + 4 * n + 4 * m;
    if b.len() < length {
        return [14, 0];
    }
    b[..3].copy_from_slice(b"RLM");
    b[3..5].copy_from_slice(&1u16.to_le_bytes());
    b[5..7].copy_from_slice(&(n as u16).to_le_bytes());
    b[7..9].copy_from_slice(&(m as u16).to_le_bytes());
    for i in 0..n {
        b[9 + 4 * i..13 + 4 * i].copy_from_slice(&serials[i].to_le_bytes());
    }
    let mut at = 9 + 4 * n;
    for i in 0..n {
        for q in 0..4 {
            let mut left = above(table, i, q);
            while left != 0 {
                let j = 64 * q + left.trailing_zeros() as usize;
                b[at..at + 2].copy_from_slice(&(i as u16).to_le_bytes());
                b[at + 2..at + 4].copy_from_slice(&(j as u16).to_le_bytes());
                at += 4;
                left &= left - 1;
            }
        }
    }
    [0, length as u64]
}
