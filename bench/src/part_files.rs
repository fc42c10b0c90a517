//! Reading and writing the largest file, 256 stations and 8,192 links, against plain Rust.

use crate::files;
use crate::measure::{keep, nanos, ratio, repeat, Best};

#[cfg(with_files)]
use crate::desk;

#[cfg(with_files)]
fn library_read(b: &[u8], serials: &mut [u32], table: &mut [u64]) -> Option<[u64; 4]> {
    Some(desk::read(b, serials, table))
}

#[cfg(not(with_files))]
fn library_read(_b: &[u8], _serials: &mut [u32], _table: &mut [u64]) -> Option<[u64; 4]> {
    None
}

#[cfg(with_files)]
fn library_write(n: usize, serials: &[u32], table: &[u64], b: &mut [u8]) -> Option<[u64; 2]> {
    Some(desk::write(n, serials, table, b))
}

#[cfg(not(with_files))]
fn library_write(_n: usize, _serials: &[u32], _table: &[u64], _b: &mut [u8]) -> Option<[u64; 2]> {
    None
}

/// Each station linked to the 64 nearest, 32 on each side of the ring: 8,192 links.
fn largest() -> (Vec<u32>, Vec<u64>) {
    let serials = (0..256u32).map(|i| 1000 + 7 * i).collect();
    let mut table = vec![0; 1024];
    for i in 0..256 {
        for d in 1..=32 {
            let j = (i + d) % 256;
            table[4 * i + j / 64] |= 1u64 << (j % 64);
            table[4 * j + i / 64] |= 1u64 << (i % 64);
        }
    }
    (serials, table)
}

fn line(what: &str, bytes: usize, lib: f64, peer: f64) {
    let rate = |t: f64| if t.is_finite() { format!("{:.0} MB/s", bytes as f64 / t * 1.0e3) } else { "-".to_string() };
    println!("| {} | {} | {} | {} | {} | {} |", what, nanos(lib), rate(lib), nanos(peer), rate(peer), ratio(lib, peer));
}

pub fn run(times: usize) {
    let (serials, table) = largest();
    let mut file = vec![7u8; 33801];
    assert_eq!(files::write(256, &serials, &table, &mut file), [0, 33801]);
    let (mut s, mut t) = (vec![7u32; 256], vec![7u64; 1024]);
    let (mut s2, mut t2) = (vec![7u32; 256], vec![7u64; 1024]);
    let (mut b, mut b2) = (vec![7u8; 33801], vec![7u8; 33801]);
    let (mut lr, mut pr, mut lw, mut pw) = (Best::new(), Best::new(), Best::new(), Best::new());
    repeat(times * 20, || {
        lr.take(|| keep(library_read(&file, &mut s, &mut t)));
        pr.take(|| keep(Some(files::read(&file, &mut s2, &mut t2))));
        lw.take(|| keep(library_write(256, &serials, &table, &mut b)));
        pw.take(|| keep(Some(files::write(256, &serials, &table, &mut b2))));
    });
    assert!(lr.value.is_none() || (lr.value == pr.value && s == serials && t == table), "the reader differs");
    assert!(lw.value.is_none() || (lw.value == pw.value && b == file), "the writer differs");
    assert!(s2 == serials && t2 == table && b2 == file);
    println!("| The largest file, 33,801 bytes | Library | | Plain Rust | | Ratio |");
    println!("|---|---|---|---|---|---|");
    line("reading", 33801, lr.time, pr.time);
    line("writing", 33801, lw.time, pw.time);
}
