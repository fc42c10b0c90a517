//! The holding question: exact weak sets by all parts of small sets, weak sets of middling sets station by
//! station, refused inputs.

use crate::brute::{Brute, Verdict};
use crate::card;
use crate::damage;
use crate::desk::Desk;
use crate::hand::{self, Asked};
use crate::mesh::{self, Mesh};
use crate::pieces;
use crate::rand::Rand;
use crate::tally::Tally;

pub const HOLDS: u64 = 0;
const FEW: u64 = 1;
const WEAK: u64 = 2;

fn ask(desk: &mut Desk, tally: &mut Tally, n: usize, table: &[u64], k: usize, set: &[u64], here: [u64; 6]) {
    let library = desk.holding(n, table, k, set);
    // the verdict alone says the same, without the set
    let [refusal, verdict, w0, w1, w2, w3] = here;
    let here = [refusal, verdict, w0, w1, w2, w3, refusal, verdict];
    tally.same(refusal, &library, &here, || format!("holding n {} k {} set {:x?} table {:x?}", n, k, set, table));
}

/// The stations `place[i]` of the mask's i, as four words.
fn spread(mask: u32, place: &[usize]) -> [u64; 4] {
    let stations: Vec<usize> = (0..place.len()).filter(|&i| mask >> i & 1 == 1).map(|i| place[i]).collect();
    pieces::to_set(&stations)
}

fn reply_of(verdict: Verdict, place: &[usize]) -> [u64; 6] {
    match verdict {
        Verdict::Holds => [0, HOLDS, 0, 0, 0, 0],
        Verdict::Few => [0, FEW, 0, 0, 0, 0],
        Verdict::Weak(loss) => {
            let w = spread(loss, place);
            [0, WEAK, w[0], w[1], w[2], w[3]]
        }
    }
}

fn level(size: usize, rand: &mut Rand) -> usize {
    match rand.below(20) {
        0 => rand.pick(&damage::LEVELS),
        1 | 2 => rand.from_to(1, 16),
        3 | 4 | 5 => size.max(2).min(17) - 1,
        _ => rand.from_to(1, size.max(1).min(16)),
    }
}

/// `per_mesh` sets and levels of each mesh of `low` to `high` stations; one mesh in sixteen has its stations
/// spread over up to 256 numbers, and links outside of the set.
fn small(desk: &mut Desk, tally: &mut Tally, rand: &mut Rand, meshes: usize, per_mesh: usize, low: usize, high: usize) {
    for turn in 0..meshes {
        let n = rand.from_to(low, high);
        let mesh = mesh::any(n, rand);
        let brute = Brute::all(&mesh);
        let wide = if turn % 16 == 15 { rand.from_to(n, 256) } else { n };
        let place = mesh::places(n, wide, rand);
        let mut lent = mesh.placed(wide, &place);
        let inside = pieces::to_set(&place);
        for _ in 0..(wide - n) {
            let (a, b) = (rand.below(wide), rand.below(wide));
            if inside[a / 64] >> (a % 64) & 1 == 0 {
                lent.link(a, b);
            }
        }
        let all = (1u32 << n) - 1;
        for asked in 0..per_mesh {
            let mask = match asked % 4 {
                0 => all,
                1 => rand.next() as u32 & all,
                _ => (rand.next() | rand.next()) as u32 & all,
            };
            let k = level(mask.count_ones() as usize, rand);
            let here = match card::level(k) {
                0 => reply_of(brute.holding(mask, k), &place),
                refusal => [refusal, 0, 0, 0, 0, 0],
            };
            ask(desk, tally, wide, &lent.table, k, &spread(mask, &place), here);
        }
    }
}

/// Sets of 16 to 40 stations, the weak set found station by station.
fn middling(desk: &mut Desk, tally: &mut Tally, rand: &mut Rand, meshes: usize) {
    for turn in 0..meshes {
        let n = rand.from_to(19, 40);
        let mesh = if turn % 3 == 0 { mesh::wide(n, rand) } else { mesh::any(n, rand) };
        let leave = if turn % 2 == 0 { 0 } else { rand.below(4) };
        let set = mesh::places(n - leave, n, rand);
        for _ in 0..4 {
            let k = rand.from_to(1, 16);
            let here = if set.len() <= k {
                [0, FEW, 0, 0, 0, 0]
            } else {
                match pieces::weak_set(&mesh, &set, k) {
                    None => [0, HOLDS, 0, 0, 0, 0],
                    Some(loss) => {
                        let w = pieces::to_set(&loss);
                        [0, WEAK, w[0], w[1], w[2], w[3]]
                    }
                }
            };
            ask(desk, tally, n, &mesh.table, k, &pieces::to_set(&set), here);
        }
    }
}

fn reply(n: usize, table: &[u64], k: usize, set: &[u64]) -> [u64; 6] {
    let refusal = card::first(&[&|| card::table(n, table), &|| card::level(k), &|| card::set(n, set)]);
    if refusal != 0 {
        return [refusal, 0, 0, 0, 0, 0];
    }
    let mesh = Mesh { n, table: table.to_vec() };
    let place = pieces::stations_of(set);
    let brute = Brute::of(&mesh, &place);
    reply_of(brute.holding(((1u64 << place.len()) - 1) as u32, k), &place)
}

/// Each fault of n with each of the length, the table, the level and the set.
fn refused(desk: &mut Desk, tally: &mut Tally, rand: &mut Rand, rounds: usize) {
    for turn in 0..rounds {
        let n = rand.pick(&[0, 1, 2, 5, 9, 63, 64, 65, 128, 192, 200, 255, 256]);
        let bad = damage::LEVELS[turn % damage::LEVELS.len()];
        let many = damage::STATIONS[turn % damage::STATIONS.len()];
        for table_fault in 0..damage::TABLE_FAULTS {
            for length_fault in 0..damage::LENGTH_FAULTS {
                let mut mesh = mesh::random(n, 20, rand);
                damage::spoil_table(&mut mesh, table_fault, rand);
                damage::spoil_length(&mut mesh.table, length_fault);
                for set_fault in 0..damage::SET_FAULTS {
                    let mut set = pieces::to_set(&mesh::places(n.min(6), n, rand)).to_vec();
                    damage::spoil_set(&mut set, n, set_fault, rand);
                    for k in [rand.from_to(1, 16), bad] {
                        ask(desk, tally, n, &mesh.table, k, &set, reply(n, &mesh.table, k, &set));
                        ask(desk, tally, many, &mesh.table, k, &set, [card::STATIONS, 0, 0, 0, 0, 0]);
                    }
                }
            }
        }
    }
}

/// The rows of the table of small meshes.
fn by_hand(desk: &mut Desk, tally: &mut Tally) {
    for row in hand::rows() {
        if let Asked::Whole(k, verdict) = row.asked {
            let all: Vec<usize> = (0..row.mesh.n).collect();
            ask(desk, tally, row.mesh.n, &row.mesh.table, k, &pieces::to_set(&all), reply_of(verdict, &all));
        }
    }
}

pub fn run(desk: &mut Desk, times: usize) -> bool {
    let mut tally = Tally::new("holding");
    let mut rand = Rand::new(0x686f_6c64_696e_67);
    by_hand(desk, &mut tally);
    small(desk, &mut tally, &mut rand, 28_000 * times, 40, 0, 9);
    small(desk, &mut tally, &mut rand, 400 * times, 20, 10, 13);
    small(desk, &mut tally, &mut rand, 6 * times, 20, 17, 18);
    middling(desk, &mut tally, &mut rand, 120 * times);
    refused(desk, &mut tally, &mut rand, 36 * times);
    tally.report()
}
