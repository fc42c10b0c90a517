//! Routes: all unlinked pairs of six families at 64 and 256 stations, against the same algorithm in plain Rust,
//! and some of the pairs against LEMON's preflow.

use crate::families::{self, Mesh};
use crate::flow::{routes, Cut};
use crate::measure::{agrees, keep, nanos, ratio, repeat, Best, ABSENT};
use crate::question::routes_question;
use crate::set::Set;
use std::collections::HashMap;

/// Pairs a mesh for LEMON and for the painted stack, evenly spread over all.
const SOME: usize = 400;

fn meshes() -> Vec<Mesh> {
    let mut all = families::for_routes(64);
    all.extend(families::for_routes(256));
    all
}

fn title(mesh: &Mesh) -> String {
    format!("{}, {}", mesh.name, mesh.n)
}

/// The meshes as text, for the programs in other languages:
/// `mesh n links pairs name`, then a line for each link and each pair.
pub fn write_meshes() {
    for mesh in meshes() {
        let (links, pairs) = (mesh.links(), mesh.some_unlinked_pairs(SOME));
        println!("mesh {} {} {} {}", mesh.n, links.len(), pairs.len(), title(&mesh).replace(' ', "_"));
        for (a, b) in links.iter().chain(&pairs) {
            println!("{} {}", a, b);
        }
    }
}

/// Lines of the LEMON program: name, sum of the counts, best nanoseconds for its pairs.
fn lemon_times(file: &str) -> HashMap<String, (u64, f64)> {
    let mut times = HashMap::new();
    for line in std::fs::read_to_string(file).unwrap_or_default().lines() {
        let words: Vec<&str> = line.split_whitespace().collect();
        if let [name, sum, time] = words[..] {
            times.insert(name.replace('_', " "), (sum.parse().unwrap(), time.parse().unwrap()));
        }
    }
    times
}

/// The sum of the counts of all pairs; nothing if the question is not there to be asked.
fn total(pairs: &[(usize, usize)], mut count: impl FnMut(usize, usize) -> Option<u64>) -> Option<u64> {
    let mut sum = 0;
    for &(a, b) in pairs {
        sum += keep(count(a, b)?);
    }
    Some(sum)
}

fn flow_alone(mesh: &Mesh, a: usize, b: usize) -> Option<u64> {
    match routes(&mesh.table, Set::first_n(mesh.n), a, b, 256) {
        Cut::Few(count, _) => Some(count as u64),
        Cut::Many => Some(256),
    }
}

fn peer(mesh: &Mesh, a: usize, b: usize) -> Option<u64> {
    Some(routes_question(mesh.n, &mesh.table, a, b)[2])
}

#[cfg(with_routes)]
fn library(mesh: &Mesh, a: usize, b: usize) -> Option<u64> {
    Some(crate::desk::routes(mesh.n, &mesh.table, a, b)[2])
}

#[cfg(not(with_routes))]
fn library(_mesh: &Mesh, _a: usize, _b: usize) -> Option<u64> {
    None
}

pub fn run(times: usize, lemon_file: &str) {
    let lemon = lemon_times(lemon_file);
    println!("| Mesh | Pairs | Mean count | Library a pair | Plain Rust, same tests | Ratio | Plain Rust, flow alone | Library / flow alone | LEMON a pair | Library / LEMON |");
    println!("|---|---|---|---|---|---|---|---|---|---|");
    let mut sums = (0.0, 0.0);
    for mesh in meshes() {
        let (pairs, some) = (mesh.unlinked_pairs(), mesh.some_unlinked_pairs(SOME));
        let (mut lib, mut rust, mut alone, mut lib_some) = (Best::new(), Best::new(), Best::new(), Best::new());
        // all take turns, so that a busy moment of the machine does not fall on one alone
        repeat(times, || {
            lib.take(|| total(&pairs, |a, b| library(&mesh, a, b)));
            rust.take(|| total(&pairs, |a, b| peer(&mesh, a, b)));
            alone.take(|| total(&pairs, |a, b| flow_alone(&mesh, a, b)));
            lib_some.take(|| total(&some, |a, b| library(&mesh, a, b)));
        });
        assert!(rust.value == alone.value && agrees(&lib.value, &rust.value), "counts differ on {}", title(&mesh));
        let lemon_time = match lemon.get(&title(&mesh)) {
            Some(&(sum, time)) => {
                assert!(total(&some, |a, b| peer(&mesh, a, b)) == Some(sum), "LEMON counts other routes on {}", title(&mesh));
                time
            }
            None => ABSENT,
        };
        let each = pairs.len() as f64;
        sums = (sums.0 + lib.time / each, sums.1 + rust.time / each);
        println!(
            "| {} | {} | {:.1} | {} | {} | {} | {} | {} | {} | {} |",
            title(&mesh),
            pairs.len(),
            rust.value.unwrap_or(0) as f64 / each,
            nanos(lib.time / each),
            nanos(rust.time / each),
            ratio(lib.time, rust.time),
            nanos(alone.time / each),
            ratio(lib.time, alone.time),
            nanos(lemon_time / some.len() as f64),
            ratio(lib_some.time, lemon_time),
        );
    }
    if sums.0 < ABSENT {
        println!("\nIn total (a pair of each): {} of plain Rust.", ratio(sums.0, sums.1));
    }
}
