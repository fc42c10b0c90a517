//! Survey files to be, field by field, so that each rule of the card can be broken alone.

use crate::mesh::{self, Mesh};
use crate::rand::Rand;
use crate::survey;

/// A file to be, with the rooms that the reader is lent for it.
#[derive(Clone)]
pub struct Draft {
    pub mark: [u8; 3],
    pub version: usize,
    pub n: usize,
    pub m: usize,
    pub serials: Vec<u32>,
    pub links: Vec<(usize, usize)>,
    pub cut: Option<usize>,
    pub more: usize,
    pub serial_room: usize,
    pub table_room: usize,
}

impl Draft {
    pub fn of(serials: Vec<u32>, mesh: &Mesh) -> Draft {
        let links = mesh.links();
        Draft {
            mark: *b"RLM",
            version: 1,
            n: mesh.n,
            m: links.len(),
            serials,
            links,
            cut: None,
            more: 0,
            serial_room: mesh.n,
            table_room: 4 * mesh.n,
        }
    }

    pub fn bytes(&self) -> Vec<u8> {
        let mut bytes = survey::file(self.version, self.n, self.m, &self.serials, &self.links);
        bytes[..3].copy_from_slice(&self.mark);
        bytes.extend(vec![0x5a; self.more]);
        if let Some(length) = self.cut {
            bytes.truncate(length);
        }
        bytes
    }
}

/// Good serials: from 101 up, the last ones there are, or any.
pub fn serials(count: usize, rand: &mut Rand) -> Vec<u32> {
    let mut list: Vec<u32> = Vec::new();
    match rand.below(4) {
        0 => list.extend((0..count).map(|i| 101 + i as u32)),
        1 => list.extend((0..count).map(|i| u32::MAX - (count - 1 - i) as u32)),
        _ => {
            while list.len() < count {
                list.extend((0..count - list.len()).map(|_| (rand.next() as u32).max(1)));
                list.sort();
                list.dedup();
            }
        }
    }
    list
}

/// A mesh of `n` stations with exactly `m` links.
pub fn with_links(n: usize, m: usize, rand: &mut Rand) -> Mesh {
    let mut all: Vec<(usize, usize)> = Vec::new();
    for a in 0..n {
        for b in a + 1..n {
            all.push((a, b));
        }
    }
    rand.shuffle(&mut all);
    Mesh::of_links(n, &all[..m])
}

/// The ways to damage a file, each breaking one rule of the card where the file has room for it.
pub const FAULTS: usize = 28;

pub fn spoil(draft: &mut Draft, fault: usize, rand: &mut Rand) {
    let (serials, links) = (draft.serials.len(), draft.links.len());
    match fault {
        // 8
        0 => draft.mark[rand.below(3)] ^= 1 << rand.below(8),
        1 => draft.mark = *b"MLR",
        2 => draft.cut = Some(rand.below(9)),
        3 => draft.cut = Some(8),
        // 9
        4 => draft.version = 0,
        5 => draft.version = 2,
        6 => draft.version = 256,
        7 => draft.version = 257,
        // 10
        8 => draft.n = 257,
        9 => draft.n = 65_535,
        10 => draft.m = 8193,
        11 => draft.m = 65_535,
        // 11
        12 => draft.more = 1,
        13 => draft.cut = Some((9 + 4 * serials + 4 * links).saturating_sub(1)),
        14 => draft.m = draft.m.saturating_sub(1),
        15 => draft.n += 1,
        // 14
        16 => draft.serial_room = draft.serial_room.saturating_sub(1),
        17 => draft.table_room = draft.table_room.saturating_sub(1),
        18 => draft.serial_room = 0,
        19 => draft.table_room = 0,
        // 12
        20 if serials > 0 => draft.serials[0] = 0,
        21 if serials > 1 => draft.serials[serials - 1] = draft.serials[serials - 2],
        22 if serials > 1 => {
            let i = rand.from_to(1, serials - 1);
            draft.serials.swap(i - 1, i);
        }
        // 13
        23 if links > 0 => {
            let i = rand.below(links);
            draft.links[i].1 = draft.links[i].0;
        }
        24 if links > 0 => {
            let i = rand.below(links);
            draft.links[i] = (draft.links[i].1, draft.links[i].0);
        }
        25 if links > 0 => draft.links[links - 1].1 = serials,
        26 if links > 1 => draft.links[links - 1] = draft.links[links - 2],
        27 if links > 1 => {
            let i = rand.from_to(1, links - 1);
            draft.links.swap(i - 1, i);
        }
        _ => {}
    }
}

pub fn any(rand: &mut Rand) -> Draft {
    let n = rand.pick(&[0, 1, 2, 3, 4, 5, 6, 8, 11, 20, 64, 65]);
    let mesh = mesh::any(n, rand);
    Draft::of(serials(n, rand), &mesh)
}

/// A good draft with each fault alone and each with each other.
pub fn each_damage(rand: &mut Rand, mut look: impl FnMut(&Draft, &mut Rand)) {
    let good = any(rand);
    for one in 0..FAULTS {
        for two in 0..FAULTS {
            let mut draft = good.clone();
            spoil(&mut draft, one, rand);
            if two != one {
                spoil(&mut draft, two, rand);
            }
            look(&draft, rand);
        }
    }
}
