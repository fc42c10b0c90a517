//! The page of a survey, of every family at 256 stations and of the meshes with the largest pages, against plain Rust; then the program that prints
//! it, as a process.

use crate::desk::PAGE_BYTES;
use crate::families::{self, Mesh};
use crate::files;
use crate::measure::{keep, nanos, ratio, repeat, Best};
use crate::page;
use std::io::Write;
use std::process::{Command, Stdio};

#[cfg(with_night)]
fn library(survey: &[u8], page: &mut [u8]) -> Option<[u64; 2]> {
    Some(crate::desk::night_list(survey, page))
}

#[cfg(not(with_night))]
fn library(_survey: &[u8], _page: &mut [u8]) -> Option<[u64; 2]> {
    None
}

/// Rising serials of 4 to 10 digits, of each length about as many.
fn serials(n: usize) -> Vec<u32> {
    (0..n).map(|i| 10u32.pow(3 + (7 * i / n) as u32) + 37 * i as u32).collect()
}

/// The mesh's survey file; nothing where it has more links than a file has room for.
fn survey(mesh: &Mesh) -> Option<Vec<u8>> {
    let mut file = vec![0; 33801];
    let [refusal, length] = files::write(mesh.n, &serials(mesh.n), &mesh.table, &mut file);
    file.truncate(length as usize);
    match refusal {
        0 => Some(file),
        10 => None,
        _ => panic!("no survey of {}", mesh.name),
    }
}

/// A survey and its page.
#[derive(Default)]
struct Printed {
    name: String,
    survey: Vec<u8>,
    page: Vec<u8>,
}

impl Printed {
    fn lines(&self) -> usize {
        self.page.iter().filter(|&&byte| byte == b'\n').count()
    }
}

fn line(mesh: &Mesh, survey: Vec<u8>, times: usize) -> (f64, f64, Printed) {
    let mut page = vec![7; PAGE_BYTES];
    let mut plain = Vec::with_capacity(PAGE_BYTES);
    let (mut lib, mut rust) = (Best::new(), Best::new());
    repeat(times, || {
        lib.take(|| keep(library(&survey, &mut page)));
        rust.take(|| page::night_list(&survey, &mut plain).ok());
    });
    if let Some([refusal, length]) = lib.value {
        assert!(refusal == 0 && page[..length as usize] == plain, "pages differ on {}", mesh.name);
    }
    let printed = Printed { name: mesh.name.clone(), survey, page: plain };
    println!(
        "| {} | {} | {} | {} | {} |",
        mesh.name,
        printed.lines(),
        nanos(lib.time),
        nanos(rust.time),
        ratio(lib.time, rust.time)
    );
    (lib.time, rust.time, printed)
}

/// What the program prints for the survey, both through pipes. A survey is shorter than what a pipe takes, so it is written before the page is read.
fn process(program: &str, survey: &[u8]) -> std::io::Result<Vec<u8>> {
    let mut child = Command::new(program).stdin(Stdio::piped()).stdout(Stdio::piped()).spawn()?;
    child.stdin.take().unwrap().write_all(survey)?;
    Ok(child.wait_with_output()?.stdout)
}

fn run_program(program: &str, largest: &Printed, times: usize) {
    let mut best = Best::new();
    let mut runs = 0;
    repeat(times, || {
        best.take(|| process(program, &largest.survey).ok());
        runs += 1;
    });
    assert!(best.value.as_ref() == Some(&largest.page), "the program's page differs on {}", largest.name);
    println!(
        "\nThe program `night_list` as a process, on the page with most bytes ({}, {}): {:.6} s from its start to its end, the best of {} runs.",
        largest.name,
        largest.page.len(),
        best.time / 1.0e9,
        runs
    );
}

/// The table, and behind it the program, if one is named.
pub fn run(times: usize, program: &str) {
    println!("| Mesh of 256 stations | Lines of the page | Library | Plain Rust, `write!` | Ratio |");
    println!("|---|---|---|---|---|");
    let mut sums = (0.0, 0.0);
    let mut largest = Printed::default();
    let mut too_many = Vec::new();
    for mesh in families::all(256).into_iter().chain(families::large_pages()) {
        let Some(survey) = survey(&mesh) else {
            too_many.push(mesh.name);
            continue;
        };
        let (lib, peer, printed) = line(&mesh, survey, times);
        sums = (sums.0 + lib, sums.1 + peer);
        if printed.page.len() > largest.page.len() {
            largest = printed;
        }
    }
    println!("\nIn total: {} against {}, {}.", nanos(sums.0), nanos(sums.1), ratio(sums.0, sums.1));
    if !too_many.is_empty() {
        println!("\nNo survey file has room for the links of: {}.", too_many.join("; "));
    }
    if !program.is_empty() {
        run_program(program, &largest, times);
    }
}
