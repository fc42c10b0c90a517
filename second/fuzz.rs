//! Surveys without end for the night list program: good ones of many shapes, changed record by record so that they stay
//! good, then some damaged in their records and bytes. Each goes to a process of its own through a pipe, and what that
//! prints is compared with `page`.
//!
//!     second fuzz [--seconds S] [--turns N] [--seed N] [--keep FOLDER] -- PROGRAM [WORDS..]
//!
//! It ends after S seconds or N turns; after 60 seconds where neither is named. One seed gives the same surveys again. A
//! survey that the program fails on is kept in FOLDER. The exit status is 0 only where there was no crash, no hang and no
//! difference.

use crate::draft::{self, serials, Draft};
use crate::mesh::{self, Mesh};
use crate::page;
use crate::rand::Rand;
use std::io::{Read, Write};
use std::os::unix::process::ExitStatusExt;
use std::process::{Child, Command, ExitStatus, Stdio};
use std::sync::mpsc;
use std::thread;
use std::time::{Duration, Instant};

/// A run that takes longer hangs.
const PATIENCE: Duration = Duration::from_secs(10);
/// The good surveys that later ones are made of.
const POOL: usize = 64;
const SHOWN: u64 = 20;

// Good surveys.

#[derive(Clone)]
struct Survey {
    serials: Vec<u32>,
    mesh: Mesh,
}

impl Survey {
    fn fresh(rand: &mut Rand) -> Survey {
        let n = match rand.below(100) {
            0 => 256,
            1 | 2 => rand.from_to(40, 255),
            3..=15 => rand.from_to(13, 40),
            _ => rand.from_to(0, 12),
        };
        let mesh = match rand.below(8) {
            0 => mesh::pairs_over_hubs(n, rand.below(n.min(15) + 1)),
            1 => {
                let size = rand.from_to(2, 17);
                let shared = rand.below(size);
                mesh::clique_tree(n, size, shared, 8192, rand)
            }
            2 if n > 12 => mesh::wide(n, rand),
            _ => mesh::any(n, rand),
        };
        Survey { serials: serials(n, rand), mesh }
    }

    fn bytes(&self) -> Vec<u8> {
        Draft::of(self.serials.clone(), &self.mesh).bytes()
    }

    /// The stations numbered `place[0]`, `place[1]`, .. among `n`, with new serials where there are more or fewer.
    fn place(&mut self, n: usize, place: &[usize], rand: &mut Rand) {
        self.mesh = self.mesh.placed(n, place);
        if n != self.serials.len() {
            self.serials = serials(n, rand);
        }
    }

    /// A change of one or a few records, after which the survey is as good as before.
    fn change(&mut self, other: &Survey, rand: &mut Rand) {
        let n = self.mesh.n;
        if n == 0 {
            *self = other.clone();
            return;
        }
        let (a, b) = (rand.below(n), rand.below(n));
        match rand.below(10) {
            0 | 1 if self.mesh.linked(a, b) => self.mesh.unlink(a, b),
            0 | 1 => self.mesh.link(a, b),
            2 => {
                for _ in 0..rand.from_to(1, 6) {
                    self.mesh.link(a, rand.below(n));
                }
            }
            3 => {
                let count = rand.from_to(2, 7).min(n);
                self.mesh.join_all(&mesh::places(count, n, rand));
            }
            4 => (0..n).for_each(|c| self.mesh.unlink(a, c)),
            5 if n < 256 => {
                // a station more, and all from a on one number up
                let place: Vec<usize> = (0..n).map(|c| c + (c >= a) as usize).collect();
                self.place(n + 1, &place, rand);
            }
            6 => {
                // a station fewer
                (0..n).for_each(|c| self.mesh.unlink(a, c));
                let place: Vec<usize> = (0..n).map(|c| c - (c > a) as usize).collect();
                self.place(n - 1, &place, rand);
            }
            7 => {
                let mut place: Vec<usize> = (0..n).collect();
                place.swap(a, b);
                self.place(n, &place, rand);
            }
            8 if n + other.mesh.n <= 60 => {
                // the other survey beside this one, sharing a few stations with it
                let shared = rand.below(4).min(n).min(other.mesh.n);
                let all = n + other.mesh.n - shared;
                let place: Vec<usize> = (0..n).collect();
                self.place(all, &place, rand);
                for (x, y) in other.mesh.links() {
                    self.mesh.link(x + n - shared, y + n - shared);
                }
            }
            _ => self.serials = serials(n, rand),
        }
    }
}

// Damage.

fn two(bytes: &[u8], at: usize) -> usize {
    bytes[at] as usize + 256 * bytes[at + 1] as usize
}

fn set_two(bytes: &mut [u8], at: usize, number: usize) {
    bytes[at] = number as u8;
    bytes[at + 1] = (number >> 8) as u8;
}

/// Records of four bytes swapped, copied, lost, more, turned; fields off by a little; counts changed.
fn damage_records(bytes: &mut Vec<u8>, rand: &mut Rand) {
    let records = bytes.len().saturating_sub(9) / 4;
    if records == 0 {
        return damage_bytes(bytes, &[], rand);
    }
    let (x, y) = (9 + 4 * rand.below(records), 9 + 4 * rand.below(records));
    let (n, m) = (two(bytes, 5), two(bytes, 7));
    match rand.below(11) {
        0 => (0..4).for_each(|i| bytes.swap(x + i, y + i)),
        1 => bytes.copy_within(x..x + 4, y),
        2 => {
            bytes.drain(x..x + 4);
        }
        3 => {
            let record = bytes[y..y + 4].to_vec();
            bytes.splice(x..x, record);
        }
        4 => bytes[x..x + 4].rotate_left(2),
        5 => {
            let field = x + 2 * rand.below(2);
            let number = two(bytes, field) + rand.pick(&[1, 2, 0xffff, 0xfffe]);
            set_two(bytes, field, number);
        }
        6 => {
            let number = rand.pick(&[0, 1, n.saturating_sub(1), n, 255, 256, 0xffff]);
            set_two(bytes, x + 2 * rand.below(2), number);
        }
        // a station more or fewer by the count alone, then with the links of as many bytes
        7 => set_two(bytes, 5, n + rand.pick(&[1, 0xffff])),
        8 => {
            let more = rand.pick(&[1, 0xffff]);
            set_two(bytes, 5, n + more);
            set_two(bytes, 7, m + 0x10000 - more);
        }
        // the count of links, with and without the record
        9 => set_two(bytes, 7, m + rand.pick(&[1, 0xffff])),
        _ => {
            set_two(bytes, 7, m + 0xffff);
            bytes.drain(x..x + 4);
        }
    }
}

fn damage_bytes(bytes: &mut Vec<u8>, other: &[u8], rand: &mut Rand) {
    let at = rand.below(bytes.len().max(1));
    let any = rand.next() as u8;
    match rand.below(12) {
        0..=2 if !bytes.is_empty() => bytes[at] ^= 1 << rand.below(8),
        3 if !bytes.is_empty() => bytes[at] = rand.pick(&[0, 1, 2, 0x7f, 0x80, 0xff, any]),
        4 if !bytes.is_empty() => {
            let to = rand.below(bytes.len());
            bytes.swap(at, to);
        }
        5 if !bytes.is_empty() => {
            bytes.remove(at);
        }
        6 => bytes.insert(at.min(bytes.len()), any),
        7 => bytes.truncate(at),
        8 => bytes.extend((0..rand.from_to(1, 9)).map(|_| any)),
        9 => {
            let length = rand.pick(&[9, 33_800, 33_801, 33_802, 33_803, 70_000]);
            bytes.resize(length, any);
        }
        10 if bytes.len() > 9 => {
            // any head, most often one of few stations and links
            let (n, m) = (rand.below(8), rand.below(8));
            set_two(bytes, 5, n);
            set_two(bytes, 7, m);
            if rand.chance(70) {
                bytes.resize(9 + 4 * n + 4 * m, any);
            }
        }
        _ => {
            bytes.truncate(at);
            bytes.extend(&other[rand.below(other.len().max(1)).min(other.len())..]);
        }
    }
}

fn raw(rand: &mut Rand) -> Vec<u8> {
    let mut bytes: Vec<u8> = (0..rand.below(80)).map(|_| rand.next() as u8).collect();
    for (byte, good) in bytes.iter_mut().zip(*b"RLM\x01\0").take(rand.below(6)) {
        *byte = good;
    }
    bytes
}

/// The next survey, good or not. The pool has good ones only.
fn next(pool: &mut Vec<Survey>, rand: &mut Rand) -> Vec<u8> {
    if rand.chance(2) {
        return raw(rand);
    }
    let other = pool[rand.below(POOL)].clone();
    let mut survey = if rand.chance(30) { Survey::fresh(rand) } else { pool[rand.below(POOL)].clone() };
    for _ in 0..rand.below(5) {
        survey.change(&other, rand);
    }
    pool[rand.below(POOL)] = survey.clone();
    let mut bytes = survey.bytes();
    match rand.below(20) {
        0..=2 => {
            let mut draft = Draft::of(survey.serials, &survey.mesh);
            draft::spoil(&mut draft, rand.below(draft::FAULTS), rand);
            bytes = draft.bytes();
        }
        3..=5 => (0..rand.from_to(1, 3)).for_each(|_| damage_records(&mut bytes, rand)),
        6..=8 => (0..rand.from_to(1, 3)).for_each(|_| damage_bytes(&mut bytes, &other.bytes(), rand)),
        _ => {}
    }
    bytes
}

// Runs.

/// What the program prints and how it ends; none where it hangs.
fn run(command: &[String], bytes: &[u8], rand: &mut Rand) -> Option<(ExitStatus, Vec<u8>)> {
    let deadline = Instant::now() + PATIENCE;
    let mut child = Command::new(&command[0])
        .args(&command[1..])
        .stdin(Stdio::piped())
        .stdout(Stdio::piped())
        .spawn()
        .unwrap_or_else(|error| {
            eprintln!("{}: {}", command[0], error);
            std::process::exit(2)
        });
    let (mut input, mut output) = (child.stdin.take().unwrap(), child.stdout.take().unwrap());
    // one survey in eight comes in pieces, so that it is read in several goes
    let piece = if rand.chance(12) { rand.from_to(1 + bytes.len() / 20, 9 + bytes.len()) } else { bytes.len().max(1) };
    let bytes = bytes.to_vec();
    thread::spawn(move || {
        for part in bytes.chunks(piece) {
            // a program that has read enough may be gone
            if input.write_all(part).is_err() {
                return;
            }
            if part.len() < bytes.len() {
                thread::sleep(Duration::from_micros(200));
            }
        }
    });
    let (send, receive) = mpsc::channel();
    thread::spawn(move || {
        let mut printed = Vec::new();
        let _ = output.read_to_end(&mut printed);
        let _ = send.send(printed);
    });
    let printed = receive.recv_timeout(PATIENCE);
    match (printed, end(&mut child, deadline)) {
        (Ok(printed), Some(status)) => Some((status, printed)),
        _ => None,
    }
}

/// How the child ends, if it does before the deadline; otherwise it is ended.
fn end(child: &mut Child, deadline: Instant) -> Option<ExitStatus> {
    loop {
        if let Ok(Some(status)) = child.try_wait() {
            return Some(status);
        }
        if Instant::now() >= deadline {
            let _ = child.kill();
            let _ = child.wait();
            return None;
        }
        thread::sleep(Duration::from_micros(20));
    }
}

#[derive(Default)]
struct Counts {
    runs: u64,
    accepted: u64,
    refused: [u64; 6],
    crashes: u64,
    hangs: u64,
    differences: u64,
}

impl Counts {
    /// Counts one run; says what went wrong, if anything did.
    fn count(&mut self, page: &[u8], ran: &Option<(ExitStatus, Vec<u8>)>) -> Option<String> {
        self.runs += 1;
        match (8..14).find(|number| page == format!("refused {}\n", number).as_bytes()) {
            Some(number) => self.refused[number - 8] += 1,
            None => self.accepted += 1,
        }
        match ran {
            None => {
                self.hangs += 1;
                Some("it hangs".to_string())
            }
            Some((status, _)) if !status.success() => {
                self.crashes += 1;
                Some(match status.signal() {
                    Some(signal) => format!("ended by signal {}", signal),
                    None => format!("ended with {}", status),
                })
            }
            Some((_, printed)) if printed != page => {
                self.differences += 1;
                let text = |bytes: &[u8]| String::from_utf8_lossy(&bytes[..bytes.len().min(400)]).into_owned();
                Some(format!("it prints\n{}\nand the page is\n{}", text(printed), text(page)))
            }
            Some(_) => None,
        }
    }

    fn failures(&self) -> u64 {
        self.crashes + self.hangs + self.differences
    }

    fn report(&self) {
        let refused: Vec<String> = (8..14).zip(self.refused).map(|(number, count)| format!("{}: {}", number, count)).collect();
        println!("{} programs run: {} surveys accepted, refused {}", self.runs, self.accepted, refused.join(", "));
        println!("{} crashes, {} hangs, {} differences", self.crashes, self.hangs, self.differences);
    }
}

struct Wishes {
    seconds: Option<u64>,
    turns: Option<u64>,
    seed: u64,
    keep: String,
}

impl Wishes {
    fn met(&self, start: Instant, turns: u64) -> bool {
        let seconds = if self.turns.is_none() { Some(60) } else { None };
        let out_of = |limit: Option<u64>, have| limit.is_some_and(|limit| have >= limit);
        out_of(self.seconds.or(seconds), start.elapsed().as_secs()) || out_of(self.turns, turns)
    }
}

fn wishes(words: &[String]) -> Option<Wishes> {
    let mut wishes = Wishes { seconds: None, turns: None, seed: 1, keep: ".".to_string() };
    for pair in words.chunks(2) {
        let [name, value] = pair else { return None };
        match name.as_str() {
            "--seconds" => wishes.seconds = Some(value.parse().ok()?),
            "--turns" => wishes.turns = Some(value.parse().ok()?),
            "--seed" => wishes.seed = value.parse().ok()?,
            "--keep" => wishes.keep = value.clone(),
            _ => return None,
        }
    }
    Some(wishes)
}

/// The exit status.
pub fn main(words: &[String], command: &[String]) -> i32 {
    let Some(wishes) = wishes(words).filter(|_| !command.is_empty()) else {
        eprintln!("use: fuzz [--seconds S] [--turns N] [--seed N] [--keep FOLDER] -- PROGRAM [WORDS..]");
        return 2;
    };
    let start = Instant::now();
    let mut rand = Rand::new(wishes.seed);
    let mut pool: Vec<Survey> = (0..POOL).map(|_| Survey::fresh(&mut rand)).collect();
    let mut counts = Counts::default();
    while !wishes.met(start, counts.runs) {
        let bytes = next(&mut pool, &mut rand);
        let ran = run(command, &bytes, &mut rand);
        // the program reads no more than this
        let read = &bytes[..bytes.len().min(page::MOST_READ as usize)];
        if let Some(wrong) = counts.count(&page::page(read), &ran) {
            let file = format!("{}/seed-{}-turn-{}.rlm", wishes.keep, wishes.seed, counts.runs);
            if counts.failures() <= SHOWN {
                let kept = std::fs::create_dir_all(&wishes.keep).and_then(|_| std::fs::write(&file, &bytes));
                println!("FAILED: {} ({})\n{}", file, if kept.is_ok() { "kept" } else { "it could not be kept" }, wrong);
            }
        }
    }
    println!("seed {}, {} s", wishes.seed, start.elapsed().as_secs());
    counts.report();
    (counts.failures() > 0) as i32
}
