//! The list question: all levels of small meshes by all subsets, wide meshes by `pieces`, refused inputs.
//! Each buffer is filled with a pattern beforehand and compared word by word to the end of its guard.

use crate::brute::Brute;
use crate::card;
use crate::damage;
use crate::desk::Desk;
use crate::hand::{self, Asked};
use crate::mesh::{self, Mesh};
use crate::pieces;
use crate::rand::Rand;
use crate::tally::Tally;

const GUARD: usize = 8;

fn pattern(words: usize, rand: &mut Rand) -> Vec<u64> {
    let start = rand.next();
    (0..words as u64).map(|i| start.wrapping_mul(2 * i + 1)).collect()
}

/// Words to lend: exactly enough, more, or too few.
fn room(rows: usize, rand: &mut Rand) -> usize {
    let enough = 4 * rows;
    match rand.below(8) {
        0 | 1 => enough + rand.from_to(1, 9),
        2 => enough + rand.from_to(10, 300),
        3 => enough.saturating_sub(rand.from_to(1, 5)),
        4 => rand.below(enough + 1),
        _ => enough,
    }
}

/// What the buffer must hold afterwards.
fn filled(before: &[u64], n: usize, k: usize, groups: &[[u64; 4]]) -> Vec<u64> {
    let mut after = before.to_vec();
    let rows = card::rows(n, k);
    assert!(groups.len() <= rows, "more groups than rows");
    for word in &mut after[..4 * rows] {
        *word = 0;
    }
    for (i, group) in groups.iter().enumerate() {
        after[4 * i..4 * i + 4].copy_from_slice(group);
    }
    after
}

fn ask(
    desk: &mut Desk,
    tally: &mut Tally,
    rand: &mut Rand,
    n: usize,
    table: &[u64],
    k: usize,
    lent: usize,
    groups: &dyn Fn() -> Vec<[u64; 4]>,
) {
    let refusal = card::first(&[&|| card::table(n, table), &|| card::level(k), &|| card::list_room(n, k, lent)]);
    let before = pattern(lent + GUARD, rand);
    let (numbers, after) = if refusal != 0 {
        ([refusal, 0], before.clone())
    } else {
        let groups = groups();
        ([0, groups.len() as u64], filled(&before, n, k, &groups))
    };
    let mut list = before;
    let library = desk.list(n, table, k, &mut list, lent);
    tally.same(refusal, &(library, &list), &(numbers, &after), || {
        format!("list n {} k {} words {} table {:x?}", n, k, lent, table)
    });
    #[cfg(with_holding)]
    if refusal == 0 && n > 9 {
        // every listed group, asked about where it stands in the list
        for i in 0..numbers[1] as usize {
            let verdict = desk.holding(n, table, k, &list[4 * i..4 * i + 4]);
            tally.same(0, &verdict, &[0, crate::ask_holding::HOLDS, 0, 0, 0, 0, 0, crate::ask_holding::HOLDS], || {
                format!("row {} of list n {} k {} table {:x?}", i, n, k, table)
            });
        }
    }
}

fn spread(mask: u32, place: &[usize]) -> [u64; 4] {
    let stations: Vec<usize> = (0..place.len()).filter(|&i| mask >> i & 1 == 1).map(|i| place[i]).collect();
    pieces::to_set(&stations)
}

/// All levels and a bad one of each mesh; one mesh in sixteen is spread over up to 256 numbers.
fn small(desk: &mut Desk, tally: &mut Tally, rand: &mut Rand, meshes: usize, low: usize, high: usize) {
    for turn in 0..meshes {
        let n = rand.from_to(low, high);
        let mesh = mesh::any(n, rand);
        let brute = Brute::all(&mesh);
        let losses = brute.smallest_losses();
        let wide = if turn % 16 == 15 { rand.from_to(n, 256) } else { n };
        let place = mesh::places(n, wide, rand);
        let lent = mesh.placed(wide, &place);
        let bad = rand.pick(&damage::LEVELS);
        for k in (1..=16).chain([bad]) {
            // past n no set can hold, so the levels from there to 16 are asked of one mesh in four
            if k <= 16 && k > n && turn % 4 != 0 {
                continue;
            }
            let words = room(card::rows(wide, k), rand);
            ask(desk, tally, rand, wide, &lent.table, k, words, &|| {
                brute.groups(&losses, k).iter().map(|&mask| spread(mask, &place)).collect()
            });
        }
    }
}

fn wide(desk: &mut Desk, tally: &mut Tally, rand: &mut Rand, meshes: usize, low: usize, high: usize, top: usize) {
    for turn in 0..meshes {
        let n = if turn % 4 == 0 { high } else { rand.from_to(low, high) };
        let mesh = if turn % 3 == 0 { mesh::any(n, rand) } else { mesh::wide(n, rand) };
        for k in 1..=top {
            let words = 4 * card::rows(n, k) + rand.pick(&[0, 0, 1, 7, 64]);
            ask(desk, tally, rand, n, &mesh.table, k, words, &|| pieces::groups(&mesh, k));
        }
    }
}

/// Each fault of n with each of the length, the table, the level and the room.
fn refused(desk: &mut Desk, tally: &mut Tally, rand: &mut Rand, rounds: usize) {
    for turn in 0..rounds {
        let n = rand.pick(&[0, 1, 2, 5, 9, 17, 18, 63, 64, 65, 128, 200, 255, 256]);
        let bad = damage::LEVELS[turn % damage::LEVELS.len()];
        let many = damage::STATIONS[turn % damage::STATIONS.len()];
        for table_fault in 0..damage::TABLE_FAULTS {
            for length_fault in 0..damage::LENGTH_FAULTS {
                let mut mesh = mesh::random(n, 3, rand);
                damage::spoil_table(&mut mesh, table_fault, rand);
                damage::spoil_length(&mut mesh.table, length_fault);
                for k in [rand.from_to(1, 4), rand.from_to(1, 16), bad] {
                    for missing in [0, 1, 4] {
                        let words = (4 * card::rows(n, k)).saturating_sub(missing);
                        let table = &mesh.table;
                        ask(desk, tally, rand, n, table, k, words, &|| pieces::groups(&Mesh { n, table: table.clone() }, k));
                        ask(desk, tally, rand, many, table, k, words, &|| Vec::new());
                    }
                }
            }
        }
    }
}

/// The rows of the table of small meshes.
fn by_hand(desk: &mut Desk, tally: &mut Tally, rand: &mut Rand) {
    for row in hand::rows() {
        if let Asked::List(k, groups) = &row.asked {
            let words = 4 * card::rows(row.mesh.n, *k) + 4;
            ask(desk, tally, rand, row.mesh.n, &row.mesh.table, *k, words, &|| {
                groups.iter().map(|group| pieces::to_set(group)).collect()
            });
        }
    }
}

pub fn run(desk: &mut Desk, times: usize) -> bool {
    let mut tally = Tally::new("list");
    let mut rand = Rand::new(0x6c69_7374);
    by_hand(desk, &mut tally, &mut rand);
    small(desk, &mut tally, &mut rand, 24_000 * times, 0, 9);
    small(desk, &mut tally, &mut rand, 40 * times, 10, 12);
    wide(desk, &mut tally, &mut rand, 60 * times, 20, 256, 4);
    wide(desk, &mut tally, &mut rand, 40 * times, 20, 64, 16);
    refused(desk, &mut tally, &mut rand, 28 * times);
    tally.report()
}
