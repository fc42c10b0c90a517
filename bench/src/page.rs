//! The plain Rust peer of the night list: the survey is read, the groups of each level are listed upward until a level has none, and each line is
//! formatted behind the last.

use crate::engine;
use crate::files;
use crate::set::Set;
use std::io::{Result, Write};

/// The page of a survey. The buffer is emptied first and keeps its room.
pub fn night_list(survey: &[u8], page: &mut Vec<u8>) -> Result<()> {
    page.clear();
    let (mut serials, mut table) = ([0; 256], [0; 1024]);
    let [refusal, version, n, links] = files::read(survey, &mut serials, &mut table);
    if refusal != 0 {
        return writeln!(page, "refused {}", refusal);
    }
    writeln!(page, "RLM {} stations {} links {}", version, n, links)?;
    let top = levels(page, n as usize, &table[..4 * n as usize], &serials)?;
    writeln!(page, "end {}", top)
}

/// The lines of all levels; the highest with a group.
fn levels(page: &mut Vec<u8>, n: usize, table: &[u64], serials: &[u32]) -> Result<usize> {
    let mut list = [0; 512];
    for k in 1..=16 {
        let groups = engine::list(table, n, k, &mut list);
        if groups == 0 {
            return Ok(k - 1);
        }
        for i in 0..groups {
            write!(page, "{} {}", k, i + 1)?;
            let mut rest = Set::of_row(&list, i);
            while let Some(j) = rest.first() {
                write!(page, " {}", serials[j])?;
                rest = rest.without(j);
            }
            page.push(b'\n');
        }
    }
    Ok(16)
}
