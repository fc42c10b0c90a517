//! The list at all levels of every family at 256 stations, and how time grows with n at a fixed number of links,
//! against the plain Rust engine.

use crate::families::{self, Mesh};
use crate::measure::{agrees, keep, nanos, ratio, repeat, Best};
use crate::question::list_question;

#[cfg(with_list)]
fn library(n: usize, table: &[u64], k: usize, list: &mut [u64]) -> Option<u64> {
    Some(crate::desk::list(n, table, k, list)[1])
}

#[cfg(not(with_list))]
fn library(_n: usize, _table: &[u64], _k: usize, _list: &mut [u64]) -> Option<u64> {
    None
}

fn peer(n: usize, table: &[u64], k: usize, list: &mut [u64]) -> Option<u64> {
    Some(list_question(n, table, k, list)[1])
}

/// All levels, one after the other: the number of groups of all.
fn levels(mesh: &Mesh, lists: &mut [u64], ask: fn(usize, &[u64], usize, &mut [u64]) -> Option<u64>) -> Option<u64> {
    let mut sum = 0;
    for k in 1..=16 {
        sum += keep(ask(mesh.n, &mesh.table, k, &mut lists[1024 * (k - 1)..1024 * k])?);
    }
    Some(sum)
}

fn line(mesh: &Mesh, times: usize) -> (f64, f64) {
    let mut lists = vec![7; 16 * 1024];
    let mut peers = vec![7; 16 * 1024];
    let (mut lib, mut rust) = (Best::new(), Best::new());
    repeat(times, || {
        lib.take(|| levels(mesh, &mut lists, library));
        rust.take(|| levels(mesh, &mut peers, peer));
    });
    let same = lib.value.is_none() || lists == peers;
    assert!(same && agrees(&lib.value, &rust.value), "lists differ on {}", mesh.name);
    let groups = rust.value.unwrap_or(0);
    println!(
        "| {} | {} | {} | {} | {} | {} |",
        mesh.name,
        mesh.n,
        groups,
        nanos(lib.time),
        nanos(rust.time),
        ratio(lib.time, rust.time)
    );
    (lib.time, rust.time)
}

pub fn run(times: usize) {
    println!("| Mesh | Stations | Groups of all levels | Library, all levels | Plain Rust | Ratio |");
    println!("|---|---|---|---|---|---|");
    let mut sums = (0.0, 0.0);
    for mesh in families::all(256) {
        let (lib, peer) = line(&mesh, times);
        sums = (sums.0 + lib, sums.1 + peer);
    }
    println!("\nIn total: {} against {}, {}.\n", nanos(sums.0), nanos(sums.1), ratio(sums.0, sums.1));
    println!("How time grows with n at a fixed number of links a station:\n");
    println!("| Mesh | Stations | Groups of all levels | Library, all levels | Plain Rust | Ratio |");
    println!("|---|---|---|---|---|---|");
    for n in [64, 128, 256] {
        for mesh in families::growing(n) {
            line(&mesh, times);
        }
    }
}

/// All levels of the meshes of 64 stations, for the peers in Python: name, a tab, the library's nanoseconds.
pub fn write_times(times: usize) {
    for mesh in families::for_routes(64) {
        let mut lists = vec![7; 16 * 1024];
        let mut lib = Best::new();
        repeat(times, || lib.take(|| levels(&mesh, &mut lists, library)));
        println!("{}, {}\t{:.0}", mesh.name, mesh.n, lib.time);
    }
}
