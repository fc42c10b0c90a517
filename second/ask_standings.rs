//! The standings of stations and pairs: all of small meshes by all subsets, some of wide meshes by `pieces`,
//! refused inputs.

use crate::brute::Brute;
use crate::card;
use crate::damage;
use crate::desk::Desk;
use crate::mesh::{self, Mesh};
use crate::pieces;
use crate::rand::Rand;
use crate::tally::Tally;

fn ask_station(desk: &mut Desk, tally: &mut Tally, n: usize, table: &[u64], a: usize, here: [u64; 2]) {
    let library = desk.station_standing(n, table, a);
    tally.same(here[0], &library, &here, || format!("standing n {} a {} table {:x?}", n, a, table));
}

fn ask_pair(desk: &mut Desk, tally: &mut Tally, n: usize, table: &[u64], a: usize, b: usize, here: [u64; 2]) {
    let library = desk.pair_standing(n, table, a, b);
    tally.same(here[0], &library, &here, || format!("standing n {} a {} b {} table {:x?}", n, a, b, table));
}

fn small(desk: &mut Desk, tally: &mut Tally, rand: &mut Rand, meshes: usize) {
    for turn in 0..meshes {
        let n = rand.from_to(0, 9);
        let mesh = mesh::any(n, rand);
        let brute = Brute::all(&mesh);
        let standings = brute.standings(&brute.smallest_losses());
        let wide = if turn % 16 == 15 { rand.from_to(n, 256) } else { n };
        let place = mesh::places(n, wide, rand);
        let lent = mesh.placed(wide, &place);
        for a in 0..n {
            ask_station(desk, tally, wide, &lent.table, place[a], [0, standings[a]]);
            for b in 0..n {
                let here = if a == b { [card::STATION, 0] } else { [0, standings[a].min(standings[b])] };
                ask_pair(desk, tally, wide, &lent.table, place[a], place[b], here);
            }
        }
    }
}

/// The standings of a wide mesh from its lists.
fn standings(mesh: &Mesh) -> Vec<u64> {
    let mut standings = vec![0; mesh.n];
    for k in 1..=16 {
        for group in pieces::groups(mesh, k) {
            for a in pieces::stations_of(&group) {
                standings[a] = k as u64;
            }
        }
    }
    standings
}

fn wide(desk: &mut Desk, tally: &mut Tally, rand: &mut Rand, meshes: usize) {
    for _ in 0..meshes {
        let n = rand.from_to(17, 60);
        let mesh = mesh::wide(n, rand);
        let standings = standings(&mesh);
        for _ in 0..4 {
            let (a, b) = (rand.below(n), rand.below(n));
            ask_station(desk, tally, n, &mesh.table, a, [0, standings[a]]);
            let here = if a == b { [card::STATION, 0] } else { [0, standings[a].min(standings[b])] };
            ask_pair(desk, tally, n, &mesh.table, a, b, here);
        }
    }
}

fn refused(desk: &mut Desk, tally: &mut Tally, rand: &mut Rand, rounds: usize) {
    for turn in 0..rounds {
        let n = rand.pick(&[0, 1, 2, 5, 9, 63, 64, 65, 200, 255, 256]);
        let many = damage::STATIONS[turn % damage::STATIONS.len()];
        for table_fault in 0..damage::TABLE_FAULTS {
            for length_fault in 0..damage::LENGTH_FAULTS {
                let mut mesh = mesh::random(n, 2, rand);
                damage::spoil_table(&mut mesh, table_fault, rand);
                damage::spoil_length(&mut mesh.table, length_fault);
                let table = &mesh.table;
                let bad = card::table(n, table);
                let known = if bad == 0 { standings(&mesh) } else { Vec::new() };
                for (a, b) in damage::pairs(n, rand) {
                    let here = match card::first(&[&|| bad, &|| card::station(n, a)]) {
                        0 => [0, known[a]],
                        refusal => [refusal, 0],
                    };
                    ask_station(desk, tally, n, table, a, here);
                    let here = match card::first(&[&|| bad, &|| card::pair(n, a, b)]) {
                        0 => [0, known[a].min(known[b])],
                        refusal => [refusal, 0],
                    };
                    ask_pair(desk, tally, n, table, a, b, here);
                    ask_station(desk, tally, many, table, a, [card::STATIONS, 0]);
                    ask_pair(desk, tally, many, table, a, b, [card::STATIONS, 0]);
                }
            }
        }
    }
}

pub fn run(desk: &mut Desk, times: usize) -> bool {
    let mut tally = Tally::new("standings");
    let mut rand = Rand::new(0x7374_616e_64);
    small(desk, &mut tally, &mut rand, 1500 * times);
    wide(desk, &mut tally, &mut rand, 60 * times);
    refused(desk, &mut tally, &mut rand, 11 * times);
    tally.report()
}
