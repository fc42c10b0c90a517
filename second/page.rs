//! The page of the night list for any bytes, as rules N1 to N4 have it. The groups of a few stations come from all
//! subsets, those of more from `pieces`.

use crate::brute::Brute;
use crate::mesh::Mesh;
use crate::pieces;
use crate::survey;
use std::io::{self, Read, Write};

/// The program reads no more of a survey: one byte past the longest, so a longer one is refused 11.
pub const MOST_READ: u64 = 33_802;

/// Up to this many stations all subsets are tried.
const FEW_STATIONS: usize = 9;

/// The groups at the levels from 1 up, each as rising stations, in order; the last level is the last with a group.
fn levels(mesh: &Mesh) -> Vec<Vec<Vec<usize>>> {
    let groups_at: Box<dyn Fn(usize) -> Vec<Vec<usize>>> = if mesh.n <= FEW_STATIONS {
        let brute = Brute::all(mesh);
        let losses = brute.smallest_losses();
        let stations = |set: u32| (0..32).filter(|&a| set >> a & 1 == 1).collect();
        Box::new(move |k| brute.groups(&losses, k).into_iter().map(stations).collect())
    } else {
        Box::new(move |k| pieces::groups(mesh, k).iter().map(|group| pieces::stations_of(group)).collect())
    };
    (1..=16).map(groups_at).take_while(|groups| !groups.is_empty()).collect()
}

pub fn page(bytes: &[u8]) -> Vec<u8> {
    let survey = match survey::read(bytes, 256, 1024) {
        Err(refusal) => return format!("refused {}\n", refusal).into_bytes(),
        Ok(survey) => survey,
    };
    let levels = levels(&survey.mesh);
    let mut page = format!("RLM 1 stations {} links {}\n", survey.mesh.n, survey.links);
    for (above, groups) in levels.iter().enumerate() {
        for (before, group) in groups.iter().enumerate() {
            page += &format!("{} {}", above + 1, before + 1);
            for &a in group {
                page += &format!(" {}", survey.serials[a]);
            }
            page += "\n";
        }
    }
    page += &format!("end {}\n", levels.len());
    page.into_bytes()
}

/// `second page`: the page of standard input, and nothing else.
pub fn print() -> io::Result<()> {
    let mut bytes = Vec::new();
    io::stdin().take(MOST_READ).read_to_end(&mut bytes)?;
    io::stdout().write_all(&page(&bytes))
}
