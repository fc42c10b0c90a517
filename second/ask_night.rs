//! The night list: pages of small and wide meshes, of damaged files, at the limits and with the largest lists, compared
//! byte for byte; the bytes past the page, to the end of a guard, must stay, and a short buffer gets 14 and no page.

use crate::card;
use crate::desk::Desk;
use crate::draft::{self, serials, with_links, Draft};
use crate::hand;
use crate::mesh::{self, Mesh};
use crate::page;
use crate::rand::Rand;
use crate::survey;
use crate::tally::Tally;

/// The bytes that a buffer for a page must have.
const ROOM: usize = 262_144;
const GUARD: usize = 64;

fn ask_in(desk: &mut Desk, tally: &mut Tally, rand: &mut Rand, bytes: &[u8], lent: usize) {
    let (numbers, page) = if lent < ROOM {
        ([card::ROOM, 0, 0], Vec::new())
    } else {
        let page = page::page(bytes);
        ([0, page.len() as u64, 0], page)
    };
    let refused = (numbers[0] != 0 || page.starts_with(b"refused")) as u64;
    let old = rand.pick(&[0, 1, b'0', b'\n', 0x80, 0xa7, 0xff]);
    let (have, printed) = desk.night(bytes, lent, GUARD, old);
    let same = have == numbers && printed == page;
    let text = |page: Vec<u8>| if same { String::new() } else { String::from_utf8_lossy(&page).into_owned() };
    tally.same(refused, &(have, text(printed)), &(numbers, text(page)), || {
        format!("night list in {} bytes of {:x?}", lent, bytes)
    });
}

fn ask(desk: &mut Desk, tally: &mut Tally, rand: &mut Rand, bytes: &[u8]) {
    let more = rand.pick(&[0, 0, 0, 1, 1000]);
    ask_in(desk, tally, rand, bytes, ROOM + more);
}

fn ask_mesh(desk: &mut Desk, tally: &mut Tally, rand: &mut Rand, mesh: &Mesh) {
    let bytes = Draft::of(serials(mesh.n, rand), mesh).bytes();
    ask(desk, tally, rand, &bytes);
}

/// By all subsets; one mesh in sixteen is spread over up to 256 stations, and by `pieces`.
fn small(desk: &mut Desk, tally: &mut Tally, rand: &mut Rand, meshes: usize) {
    for turn in 0..meshes {
        let n = rand.from_to(0, 9);
        let mesh = mesh::any(n, rand);
        let wide = if turn % 16 == 15 { rand.from_to(n, 256) } else { n };
        let place = mesh::places(n, wide, rand);
        ask_mesh(desk, tally, rand, &mesh.placed(wide, &place));
    }
}

fn wide(desk: &mut Desk, tally: &mut Tally, rand: &mut Rand, meshes: usize) {
    for turn in 0..meshes {
        let n = if turn % 8 == 0 { 256 } else { rand.from_to(10, 256) };
        let mesh = if turn % 3 == 0 { mesh::any(n, rand) } else { mesh::wide(n, rand) };
        ask_mesh(desk, tally, rand, &mesh);
    }
}

fn prefixes_and_flips(desk: &mut Desk, tally: &mut Tally, rand: &mut Rand, rounds: usize) {
    for _ in 0..rounds {
        let n = rand.from_to(0, 6);
        let mesh = mesh::any(n, rand);
        let bytes = Draft::of(serials(n, rand), &mesh).bytes();
        for length in 0..=bytes.len() {
            ask(desk, tally, rand, &bytes[..length]);
        }
        for at in 0..bytes.len() {
            let mut flipped = bytes.clone();
            flipped[at] ^= 1 << rand.below(8);
            ask(desk, tally, rand, &flipped);
        }
    }
}

/// The limits of n and m, serials of ten digits, and files that go on past the longest.
fn limits(desk: &mut Desk, tally: &mut Tally, rand: &mut Rand) {
    for (n, m) in [(0, 0), (1, 0), (256, 0), (257, 0), (129, 8192), (256, 8191), (256, 8192), (256, 8193), (257, 8193)] {
        let mesh = with_links(n.min(256), m, rand);
        let mut draft = Draft::of((0..n).map(|i| u32::MAX - 256 + i as u32).collect(), &mesh);
        draft.n = n;
        let mut bytes = draft.bytes();
        ask(desk, tally, rand, &bytes);
        for length in [bytes.len() - 1, bytes.len() + 1, 33_802, 100_000] {
            bytes.resize(length, 0);
            ask(desk, tally, rand, &bytes);
        }
    }
}

/// As many groups as a level can have, at each level; cliques that share stations; cliques of 17, which are groups at
/// all levels; rings.
fn largest(rand: &mut Rand) -> Vec<Mesh> {
    let mut meshes = Vec::new();
    for k in 1..=16 {
        let pairs = mesh::pairs_over_hubs(256, k - 1);
        meshes.push(pairs.shuffled(rand));
        meshes.push(pairs);
        let shared = rand.below(k);
        meshes.push(mesh::clique_tree(256, k + 1, shared, 8192, rand).shuffled(rand));
        meshes.push(mesh::clique_tree(256, 17, k - 1, 8192, rand));
    }
    meshes.extend([1, 2, 7, 32].map(|reach| mesh::ring(256, reach)));
    meshes
}

/// Buffers of fewer bytes than a page may need: refused for every survey.
fn short(desk: &mut Desk, tally: &mut Tally, rand: &mut Rand) {
    for turn in 0..40 {
        let mut draft = draft::any(rand);
        if turn % 2 == 1 {
            draft::spoil(&mut draft, rand.below(draft::FAULTS), rand);
        }
        let bytes = draft.bytes();
        for lent in [0, 1, 9, 10, 31, rand.below(ROOM), ROOM - 1, ROOM, ROOM + 1] {
            ask_in(desk, tally, rand, &bytes, lent);
        }
    }
}

pub fn run(desk: &mut Desk, times: usize) -> bool {
    let mut tally = Tally::new("night");
    let mut rand = Rand::new(0x6e69_6768_74);
    for row in hand::rows() {
        ask_mesh(desk, &mut tally, &mut rand, &row.mesh);
    }
    ask(desk, &mut tally, &mut rand, &survey::file(1, 0, 0, &[], &[]));
    small(desk, &mut tally, &mut rand, 6000 * times);
    wide(desk, &mut tally, &mut rand, 150 * times);
    for _ in 0..6 * times {
        draft::each_damage(&mut rand, |draft, rand| ask(desk, &mut tally, rand, &draft.bytes()));
    }
    prefixes_and_flips(desk, &mut tally, &mut rand, 30 * times);
    limits(desk, &mut tally, &mut rand);
    for mesh in largest(&mut rand) {
        ask_mesh(desk, &mut tally, &mut rand, &mesh);
    }
    short(desk, &mut tally, &mut rand);
    tally.report()
}
