//! The reader and the writer: files of every size up to the limits, damaged files, tables and serials, and
//! round trips both ways. Buffers are filled with a pattern beforehand and compared to the end of their guards.

use crate::damage;
use crate::desk::Desk;
use crate::draft::{self, serials, with_links, Draft};
use crate::mesh::{self, Mesh};
use crate::rand::Rand;
use crate::survey;
use crate::tally::Tally;

const GUARD: usize = 8;

fn ask_read(desk: &mut Desk, tally: &mut Tally, rand: &mut Rand, bytes: &[u8], serial_room: usize, table_room: usize) {
    let seed = rand.next() | 1;
    let mut serials: Vec<u32> = (0..serial_room + GUARD).map(|i| (seed >> 7).wrapping_mul(2 * i as u64 + 1) as u32).collect();
    let mut table: Vec<u64> = (0..table_room + GUARD).map(|i| seed.wrapping_mul(2 * i as u64 + 1)).collect();
    let (mut serials_here, mut table_here) = (serials.clone(), table.clone());
    let here = match survey::read(bytes, serial_room, table_room) {
        Err(refusal) => [refusal, 0, 0, 0],
        Ok(survey) => {
            serials_here[..survey.mesh.n].copy_from_slice(&survey.serials);
            table_here[..4 * survey.mesh.n].copy_from_slice(&survey.mesh.table);
            [0, 1, survey.mesh.n as u64, survey.links as u64]
        }
    };
    let library = desk.read(bytes, &mut serials, serial_room, &mut table, table_room);
    tally.same(here[0], &(library, &serials, &table), &(here, &serials_here, &table_here), || {
        format!("read serial room {} table room {} bytes {:x?}", serial_room, table_room, bytes)
    });
}

fn ask_write(desk: &mut Desk, tally: &mut Tally, rand: &mut Rand, n: usize, serials: &[u32], table: &[u64], room: usize) {
    let seed = rand.next() as usize | 1;
    let mut bytes: Vec<u8> = (0..room + GUARD).map(|i| seed.wrapping_mul(2 * i + 1) as u8).collect();
    let mut bytes_here = bytes.clone();
    let here = match survey::write(n, serials, table, room) {
        Err(refusal) => [refusal, 0],
        Ok(file) => {
            bytes_here[..file.len()].copy_from_slice(&file);
            [0, file.len() as u64]
        }
    };
    let library = desk.write(n, serials, table, &mut bytes, room);
    tally.same(here[0], &(library, &bytes), &(here, &bytes_here), || {
        format!("write n {} room {} serials {:x?} table {:x?}", n, room, serials, table)
    });
}

/// Reading by the library and writing what it read gives the same bytes; and writing, then reading, the same survey.
fn round_trips(desk: &mut Desk, tally: &mut Tally, draft: &Draft) {
    let bytes = draft.bytes();
    let mut serials = vec![7; draft.n];
    let mut table = vec![7; 4 * draft.n];
    let read = desk.read(&bytes, &mut serials, draft.n, &mut table, 4 * draft.n);
    let mut again = vec![7; bytes.len()];
    let written = desk.write(draft.n, &serials, &table, &mut again, bytes.len());
    let here = ([0, 1, draft.n as u64, draft.m as u64], [0, bytes.len() as u64], &bytes);
    tally.same(0, &(read, written, &again), &here, || format!("read and write {:x?}", bytes));
    let mesh = Mesh::of_links(draft.n, &draft.links);
    let mut file = vec![7; bytes.len()];
    let written = desk.write(draft.n, &draft.serials, &mesh.table, &mut file, bytes.len());
    let read = desk.read(&file, &mut serials, draft.n, &mut table, 4 * draft.n);
    let here = ([0, bytes.len() as u64], [0, 1, draft.n as u64, draft.m as u64], &draft.serials, &mesh.table);
    tally.same(0, &(written, read, &serials, &table), &here, || format!("write and read {:x?}", bytes));
}

fn valid(desk: &mut Desk, tally: &mut Tally, rand: &mut Rand, draft: &Draft) {
    let bytes = draft.bytes();
    let mesh = Mesh::of_links(draft.n, &draft.links);
    let (more, words) = (rand.pick(&[0, 1, 5]), rand.pick(&[0, 1, 3, 4, 40]));
    ask_read(desk, tally, rand, &bytes, draft.n + more, 4 * draft.n + words);
    let longer = rand.pick(&[0, 1, 9, 1000]);
    ask_write(desk, tally, rand, draft.n, &draft.serials, &mesh.table, bytes.len() + longer);
    round_trips(desk, tally, draft);
}

/// Every n from 0 to 256 with no link, with as many as may be and with a number between; and the limits of m.
fn sizes(desk: &mut Desk, tally: &mut Tally, rand: &mut Rand, times: usize) {
    for _ in 0..times {
        for n in 0..=256usize {
            let top = (n * n.saturating_sub(1) / 2).min(8192);
            for m in [0, top, rand.below(top + 1)] {
                let mesh = with_links(n, m, rand);
                let draft = Draft::of(serials(n, rand), &mesh);
                valid(desk, tally, rand, &draft);
            }
        }
        for n in [129, 255, 256] {
            for m in [0, 1, 8190, 8191, 8192] {
                let mesh = with_links(n, m, rand);
                let draft = Draft::of(serials(n, rand), &mesh);
                valid(desk, tally, rand, &draft);
            }
        }
    }
}

fn ask_draft(desk: &mut Desk, tally: &mut Tally, rand: &mut Rand, draft: &Draft) {
    ask_read(desk, tally, rand, &draft.bytes(), draft.serial_room, draft.table_room);
}

/// Files whose counts pass a limit while every other rule is kept.
fn past_the_limits(desk: &mut Desk, tally: &mut Tally, rand: &mut Rand) {
    let mesh = with_links(256, 8193, rand);
    let draft = Draft::of(serials(256, rand), &mesh);
    ask_draft(desk, tally, rand, &draft);
    ask_write(desk, tally, rand, 256, &draft.serials, &mesh.table, 40_000);
    let mesh = Mesh::unlinked(257);
    let draft = Draft::of(serials(257, rand), &mesh);
    ask_draft(desk, tally, rand, &draft);
    ask_write(desk, tally, rand, 257, &draft.serials, &mesh.table, 40_000);
    let mut all = Mesh::unlinked(256);
    all.join_all(&(0..256).collect::<Vec<usize>>());
    let list = serials(256, rand);
    ask_write(desk, tally, rand, 256, &list, &all.table, 0);
}

fn prefixes_and_flips(desk: &mut Desk, tally: &mut Tally, rand: &mut Rand, rounds: usize) {
    for turn in 0..rounds {
        let n = rand.from_to(0, 6);
        let mesh = mesh::any(n, rand);
        let draft = Draft::of(serials(n, rand), &mesh);
        let bytes = draft.bytes();
        for length in 0..=bytes.len() {
            ask_read(desk, tally, rand, &bytes[..length], n, 4 * n);
        }
        for at in 0..bytes.len() {
            let mut flipped = bytes.clone();
            flipped[at] ^= if turn % 2 == 0 { 1 << rand.below(8) } else { rand.from_to(1, 255) as u8 };
            ask_read(desk, tally, rand, &flipped, 300, 1200);
        }
        // records of random small numbers, now and then good ones
        let m = rand.from_to(1, 3);
        let links: Vec<(usize, usize)> = (0..m).map(|_| (rand.below(5), rand.below(5))).collect();
        let few: Vec<u32> = (0..3).map(|_| rand.below(6) as u32).collect();
        ask_read(desk, tally, rand, &survey::file(1, 3, m, &[1, 2, 3], &links), 3, 12);
        ask_read(desk, tally, rand, &survey::file(1, 3, 0, &few, &[]), 3, 12);
    }
}

const SERIAL_FAULTS: usize = 7;

fn spoil_serials(list: &mut Vec<u32>, fault: usize, rand: &mut Rand) {
    let count = list.len();
    match fault {
        1 => list.truncate(count.saturating_sub(1)),
        2 => list.push(u32::MAX),
        3 if count > 0 => list[0] = 0,
        4 if count > 1 => list[count - 1] = list[count - 2],
        5 if count > 1 => {
            let i = rand.from_to(1, count - 1);
            list.swap(i - 1, i);
        }
        6 => list.clear(),
        _ => {}
    }
}

/// Each fault of n with each of the length, the table, the serials, the count of links and the room.
fn refused_writes(desk: &mut Desk, tally: &mut Tally, rand: &mut Rand, rounds: usize) {
    for turn in 0..rounds {
        let n = rand.pick(&[0, 1, 2, 5, 9, 64, 65, 255, 256]);
        let many = damage::STATIONS[turn % damage::STATIONS.len()];
        for table_fault in 0..damage::TABLE_FAULTS {
            for length_fault in 0..damage::LENGTH_FAULTS {
                for serial_fault in 0..SERIAL_FAULTS {
                    let percent = if n >= 255 && rand.chance(50) { 30 } else { 10 };
                    let mut mesh = mesh::random(n, percent, rand);
                    let length = 9 + 4 * n + 4 * mesh.links().len();
                    damage::spoil_table(&mut mesh, table_fault, rand);
                    damage::spoil_length(&mut mesh.table, length_fault);
                    let mut list = serials(n, rand);
                    spoil_serials(&mut list, serial_fault, rand);
                    let room = rand.pick(&[length, length - 1, 0, 8]);
                    ask_write(desk, tally, rand, n, &list, &mesh.table, length);
                    ask_write(desk, tally, rand, n, &list, &mesh.table, room);
                    ask_write(desk, tally, rand, many, &list, &mesh.table, room);
                }
            }
        }
    }
}

pub fn run(desk: &mut Desk, times: usize) -> bool {
    let mut tally = Tally::new("files");
    let mut rand = Rand::new(0x6669_6c65_73);
    sizes(desk, &mut tally, &mut rand, times);
    for _ in 0..20 * times {
        draft::each_damage(&mut rand, |draft, rand| ask_draft(desk, &mut tally, rand, draft));
    }
    past_the_limits(desk, &mut tally, &mut rand);
    prefixes_and_flips(desk, &mut tally, &mut rand, 100 * times);
    refused_writes(desk, &mut tally, &mut rand, 12 * times);
    tally.report()
}
