//! The table of small meshes of the rules, P and not P, with its replies. `run` has this program
//! alone answer them, by all subsets and by the other ways, before anything is compared; each question then asks
//! them of the library too.

use crate::brute::{Brute, Verdict};
use crate::card;
use crate::flow::Net;
use crate::mesh::{self, Mesh};
use crate::page;
use crate::pieces;
use crate::survey;

fn mask(stations: &[usize]) -> u32 {
    stations.iter().fold(0, |set, &a| set | 1 << a)
}

/// What is asked of a mesh, with the table's reply.
pub enum Asked {
    Whole(usize, Verdict),
    List(usize, Vec<Vec<usize>>),
    Routes(usize, usize, u64),
}

pub struct Row {
    pub name: &'static str,
    pub mesh: Mesh,
    pub asked: Asked,
}

/// The night list that the rules print.
const PAGE_OF_FIVE: &str = "\
RLM 1 stations 5 links 6
1 1 101 102 103 104 105
2 1 101 102 103
2 2 103 104 105
end 2
";

/// The five stations of the night list.
fn five() -> Mesh {
    Mesh::of_links(5, &[(0, 1), (0, 2), (1, 2), (2, 3), (2, 4), (3, 4)])
}

/// Every row of the table, in its order.
pub fn rows() -> Vec<Row> {
    let mut four = Mesh::unlinked(4);
    four.join_all(&[0, 1, 2, 3]);
    let mut fours = Mesh::unlinked(6);
    fours.join_all(&[0, 1, 2, 3]);
    fours.join_all(&[2, 3, 4, 5]);
    let mut but_three = Mesh::unlinked(6);
    but_three.join_all(&[0, 1, 2, 3, 4, 5]);
    for a in [0, 2, 4] {
        but_three.unlink(a, a + 1);
    }
    let mut triangles = Mesh::unlinked(7);
    for a in [0, 2, 4] {
        triangles.join_all(&[a, a + 1, a + 2]);
    }
    let row = |name, mesh: &Mesh, asked| Row { name, mesh: mesh.clone(), asked };
    let whole = |k, verdict| Asked::Whole(k, verdict);
    let list = |k, groups: &[&[usize]]| Asked::List(k, groups.iter().map(|group| group.to_vec()).collect());
    vec![
        row("no stations, list 1", &Mesh::unlinked(0), list(1, &[])),
        row("one station, whole mesh 1", &Mesh::unlinked(1), whole(1, Verdict::Few)),
        row("two linked, list 1", &Mesh::of_links(2, &[(0, 1)]), list(1, &[&[0, 1]])),
        row("three, no links, whole mesh 1", &Mesh::unlinked(3), whole(1, Verdict::Weak(0))),
        row("the five, list 2", &five(), list(2, &[&[0, 1, 2], &[2, 3, 4]])),
        row("the five, whole mesh 2", &five(), whole(2, Verdict::Weak(mask(&[2])))),
        row("ring of six, whole mesh 3", &mesh::ring(6, 1), whole(3, Verdict::Weak(mask(&[0, 2])))),
        row("four all linked, whole mesh 3", &four, whole(3, Verdict::Holds)),
        row("four all linked, whole mesh 4", &four, whole(4, Verdict::Few)),
        row("two overlapping fours, list 3", &fours, list(3, &[&[0, 1, 2, 3], &[2, 3, 4, 5]])),
        row("six but for three pairs, whole mesh 4", &but_three, whole(4, Verdict::Holds)),
        row("six but for three pairs, whole mesh 5", &but_three, whole(5, Verdict::Weak(mask(&[0, 1, 2, 3])))),
        row("three triangles, list 2", &triangles, list(2, &[&[0, 1, 2], &[2, 3, 4], &[4, 5, 6]])),
        row("ring of six, routes 0 to 3", &mesh::ring(6, 1), Asked::Routes(0, 3, 2)),
        // the levels of the night list's five stations
        row("the five, list 1", &five(), list(1, &[&[0, 1, 2, 3, 4]])),
        row("the five, list 3", &five(), list(3, &[])),
    ]
}

/// Does this program reply what the table says?
fn agrees(row: &Row) -> bool {
    let mesh = &row.mesh;
    let all: Vec<usize> = (0..mesh.n).collect();
    let brute = Brute::all(mesh);
    match &row.asked {
        Asked::Whole(k, verdict) => {
            let other = if mesh.n <= *k {
                Verdict::Few
            } else {
                match pieces::weak_set(mesh, &all, *k) {
                    None => Verdict::Holds,
                    Some(loss) => Verdict::Weak(mask(&loss)),
                }
            };
            brute.holding(mask(&all), *k) == *verdict && other == *verdict
        }
        Asked::List(k, groups) => {
            let masks: Vec<u32> = groups.iter().map(|group| mask(group)).collect();
            let sets: Vec<[u64; 4]> = groups.iter().map(|group| pieces::to_set(group)).collect();
            brute.groups(&brute.smallest_losses(), *k) == masks && pieces::groups(mesh, *k) == sets
        }
        Asked::Routes(a, b, count) => {
            let flow = Net::of(mesh, &all).routes(*a, *b, usize::MAX).0 as u64;
            [brute.chains(*a, *b), brute.parting_loss(*a, *b), flow] == [*count; 3]
        }
    }
}

/// True if every row and every limit comes out as the rules say.
pub fn run() -> bool {
    let file = survey::write(5, &[101, 102, 103, 104, 105], &five().table, 53).unwrap_or_default();
    let mut tests: Vec<(&str, bool)> = rows().iter().map(|row| (row.name, agrees(row))).collect();
    tests.extend([
        ("n 256 taken", card::table(256, &[0; 1024]) == 0),
        ("n 257 refused", card::table(257, &[0; 1028]) == card::STATIONS),
        ("level 16 taken", card::level(16) == 0),
        ("levels 17 and 0 refused", card::level(17) == card::LEVEL && card::level(0) == card::LEVEL),
        ("m 8,192 taken, in 33,801 bytes", links_of_file(8192) == (33_801, Ok(8192))),
        ("m 8,193 refused", links_of_file(8193).1 == Err(card::COUNT)),
        (
            "the file of the five",
            file.len() == 53 && survey::read(&file, 5, 20).map(|survey| survey.mesh.table) == Ok(five().table),
        ),
        ("the page of the five", page::page(&file) == PAGE_OF_FIVE.as_bytes()),
        ("the page of no stations", page::page(&survey::file(1, 0, 0, &[], &[])) == b"RLM 1 stations 0 links 0\nend 0\n"),
        ("the page of no bytes", page::page(&[]) == b"refused 8\n"),
    ]);
    let mut differences = 0;
    for (name, good) in &tests {
        if !good {
            println!("DIFFERENCE by hand: {}", name);
            differences += 1;
        }
    }
    println!("by hand: {} rows and limits, {} differences", tests.len(), differences);
    differences == 0
}

/// A file of 256 stations with the first `m` pairs linked: its length, and the links that are read.
fn links_of_file(m: usize) -> (usize, Result<usize, u64>) {
    let mut links = Vec::new();
    for a in 0..256 {
        for b in a + 1..256 {
            if links.len() < m {
                links.push((a, b));
            }
        }
    }
    let serials: Vec<u32> = (1..=256).collect();
    let bytes = survey::file(1, 256, m, &serials, &links);
    (bytes.len(), survey::read(&bytes, 256, 1024).map(|survey| survey.links))
}
