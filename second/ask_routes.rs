//! The routes question: every pair of small meshes by chains and by losses, wide meshes by `flow`, refused inputs.

use crate::brute::Brute;
use crate::card;
use crate::damage;
use crate::desk::Desk;
use crate::flow::Net;
use crate::hand::{self, Asked};
use crate::mesh::{self, Mesh};
use crate::rand::Rand;
use crate::tally::Tally;

fn ask(desk: &mut Desk, tally: &mut Tally, n: usize, table: &[u64], a: usize, b: usize, here: [u64; 3]) {
    let library = desk.routes(n, table, a, b);
    tally.same(here[0], &library, &here, || format!("routes n {} a {} b {} table {:x?}", n, a, b, table));
}

/// The reply where it is refused or joined; the count is left to the caller.
fn refused_or_joined(n: usize, table: &[u64], a: usize, b: usize) -> Option<[u64; 3]> {
    let refusal = card::first(&[&|| card::table(n, table), &|| card::pair(n, a, b)]);
    if refusal != 0 {
        return Some([refusal, 0, 0]);
    }
    let mesh = Mesh { n, table: table.to_vec() };
    if mesh.linked(a, b) {
        return Some([0, 1, 0]);
    }
    None
}

fn small(desk: &mut Desk, tally: &mut Tally, rand: &mut Rand, meshes: usize) {
    for turn in 0..meshes {
        let n = if turn % 4 == 0 { rand.from_to(0, 6) } else { rand.from_to(5, 9) };
        let mesh = mesh::any(n, rand);
        let brute = Brute::all(&mesh);
        // one in eight is spread over up to 256 numbers, with the rest unlinked
        let wide = if turn % 8 == 7 { rand.from_to(n, 256) } else { n };
        let place = mesh::places(n, wide, rand);
        let spread = mesh.placed(wide, &place);
        for a in 0..n {
            for b in 0..n {
                let here = match refused_or_joined(n, &mesh.table, a, b) {
                    Some(reply) => reply,
                    None => {
                        let (chains, loss) = (brute.chains(a, b), brute.parting_loss(a, b));
                        assert_eq!(chains, loss, "Menger, n {} a {} b {} table {:x?}", n, a, b, mesh.table);
                        [0, 0, chains]
                    }
                };
                ask(desk, tally, wide, &spread.table, place[a], place[b], here);
            }
        }
    }
}

fn wide(desk: &mut Desk, tally: &mut Tally, rand: &mut Rand, meshes: usize) {
    for turn in 0..meshes {
        let n = match turn % 4 {
            0 => 256,
            1 => rand.pick(&[63, 64, 65, 127, 128, 129, 191, 192, 193, 255]),
            _ => rand.from_to(10, 256),
        };
        let mesh = if turn % 5 == 0 { mesh::any(n, rand) } else { mesh::wide(n, rand) };
        let all: Vec<usize> = (0..n).collect();
        let mut net = Net::of(&mesh, &all);
        for _ in 0..60 {
            let (a, b) = (rand.below(n), rand.below(n));
            let here = match refused_or_joined(n, &mesh.table, a, b) {
                Some(reply) => reply,
                None => [0, 0, net.routes(a, b, usize::MAX).0 as u64],
            };
            ask(desk, tally, n, &mesh.table, a, b, here);
        }
    }
}

/// Between the two ends of woven chains, with all numbers shuffled.
fn woven(desk: &mut Desk, tally: &mut Tally, rand: &mut Rand, meshes: usize) {
    for turn in 0..meshes {
        let n = if turn % 8 == 0 { rand.from_to(80, 256) } else { rand.from_to(8, 40) };
        let mut place: Vec<usize> = (0..n).collect();
        rand.shuffle(&mut place);
        let mesh = mesh::woven(n, rand).placed(n, &place);
        for (a, b) in [(place[0], place[1]), (place[1], place[0]), (rand.below(n), rand.below(n))] {
            ask(desk, tally, n, &mesh.table, a, b, reply(n, &mesh.table, a, b));
        }
    }
}

fn reply(n: usize, table: &[u64], a: usize, b: usize) -> [u64; 3] {
    match refused_or_joined(n, table, a, b) {
        Some(reply) => reply,
        None => {
            let mesh = Mesh { n, table: table.to_vec() };
            let all: Vec<usize> = (0..n).collect();
            [0, 0, Net::of(&mesh, &all).routes(a, b, usize::MAX).0 as u64]
        }
    }
}

/// Each fault of n with each of the length, of the table and of the two numbers.
fn refused(desk: &mut Desk, tally: &mut Tally, rand: &mut Rand, rounds: usize) {
    for turn in 0..rounds {
        let n = rand.pick(&[0, 1, 2, 5, 9, 63, 64, 65, 128, 192, 200, 255, 256]);
        for table_fault in 0..damage::TABLE_FAULTS {
            for length_fault in 0..damage::LENGTH_FAULTS {
                let mut mesh = mesh::random(n, 20, rand);
                damage::spoil_table(&mut mesh, table_fault, rand);
                damage::spoil_length(&mut mesh.table, length_fault);
                for (a, b) in damage::pairs(n, rand) {
                    ask(desk, tally, n, &mesh.table, a, b, reply(n, &mesh.table, a, b));
                }
                let many = damage::STATIONS[turn % damage::STATIONS.len()];
                for (a, b) in damage::pairs(n, rand) {
                    ask(desk, tally, many, &mesh.table, a, b, [card::STATIONS, 0, 0]);
                }
            }
        }
        // 257 stations with a good table of their own length, and with a bad one
        let mut mesh = Mesh::unlinked(257);
        ask(desk, tally, 257, &mesh.table, 0, 1, [card::STATIONS, 0, 0]);
        mesh.table[4] = 1;
        ask(desk, tally, 257, &mesh.table, 0, 0, [card::STATIONS, 0, 0]);
    }
}

/// The rows of the table of small meshes: their counts, and every pair of every mesh of the table.
fn by_hand(desk: &mut Desk, tally: &mut Tally) {
    for row in hand::rows() {
        let (n, table) = (row.mesh.n, &row.mesh.table);
        if let Asked::Routes(a, b, count) = row.asked {
            ask(desk, tally, n, table, a, b, [0, 0, count]);
        }
        for a in 0..n {
            for b in 0..n {
                ask(desk, tally, n, table, a, b, reply(n, table, a, b));
            }
        }
    }
}

pub fn run(desk: &mut Desk, times: usize) -> bool {
    let mut tally = Tally::new("routes");
    let mut rand = Rand::new(0x726f_7574_6573);
    by_hand(desk, &mut tally);
    small(desk, &mut tally, &mut rand, 3000 * times);
    wide(desk, &mut tally, &mut rand, 300 * times);
    woven(desk, &mut tally, &mut rand, 8000 * times);
    refused(desk, &mut tally, &mut rand, 40 * times);
    tally.report()
}
