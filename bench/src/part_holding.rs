//! Holding on the whole mesh of every family at levels 2, 4, 8, 16, and the verdict alone, against the plain Rust engine.

use crate::families;
use crate::measure::{agrees, keep, nanos, ratio, repeat, Best};
use crate::question::{holding_question, verdict_question};
use crate::set::Set;

const VERDICTS: [&str; 3] = ["HOLDS", "FEW", "WEAK"];

#[cfg(with_holding)]
fn library(n: usize, table: &[u64], k: usize, set: &[u64]) -> Option<[u64; 6]> {
    Some(crate::desk::holding(n, table, k, set))
}

#[cfg(not(with_holding))]
fn library(_n: usize, _table: &[u64], _k: usize, _set: &[u64]) -> Option<[u64; 6]> {
    None
}

#[cfg(with_holding)]
fn library_verdict(n: usize, table: &[u64], k: usize, set: &[u64]) -> Option<[u64; 2]> {
    Some(crate::desk::verdict(n, table, k, set))
}

#[cfg(not(with_holding))]
fn library_verdict(_n: usize, _table: &[u64], _k: usize, _set: &[u64]) -> Option<[u64; 2]> {
    None
}

pub fn run(times: usize) {
    println!("| Mesh | Level | Reply | Library | Plain Rust | Ratio | Verdict alone, library | Plain Rust | Ratio |");
    println!("|---|---|---|---|---|---|---|---|---|");
    for mesh in families::all(256) {
        let all = Set::first_n(mesh.n);
        let set = [all.a, all.b, all.c, all.d];
        for k in [2, 4, 8, 16] {
            let (mut lib, mut rust) = (Best::new(), Best::new());
            let (mut brief, mut peer) = (Best::new(), Best::new());
            repeat(times, || {
                brief.take(|| keep(library_verdict(mesh.n, &mesh.table, k, &set)));
                peer.take(|| keep(Some(verdict_question(mesh.n, &mesh.table, k, &set))));
                lib.take(|| keep(library(mesh.n, &mesh.table, k, &set)));
                rust.take(|| keep(Some(holding_question(mesh.n, &mesh.table, k, &set))));
            });
            assert!(agrees(&lib.value, &rust.value), "replies differ on {} at {}", mesh.name, k);
            assert!(agrees(&brief.value, &peer.value), "verdicts differ on {} at {}", mesh.name, k);
            let verdict = VERDICTS[rust.value.map_or(0, |reply| reply[1]) as usize];
            println!(
                "| {} | {} | {} | {} | {} | {} | {} | {} | {} |",
                mesh.name,
                k,
                verdict,
                nanos(lib.time),
                nanos(rust.time),
                ratio(lib.time, rust.time),
                nanos(brief.time),
                nanos(peer.time),
                ratio(brief.time, peer.time)
            );
        }
    }
}
