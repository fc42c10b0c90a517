//! What the rules (docs/RULES.md) say, over all subsets of a few stations. A set is a mask of `u32`.
//! `Brute` knows of every set whether it is whole; all replies come from that by trying every part.

use crate::mesh::Mesh;

pub struct Brute {
    pub n: usize,
    pub rows: Vec<u32>,
    whole: Vec<bool>,
}

/// Order of two different sets: the one that has the smallest station in one and not the other.
pub fn before(a: u32, b: u32) -> bool {
    let apart = a ^ b;
    let smallest = apart & apart.wrapping_neg();
    a & smallest != 0
}

/// The stations in touch with `start` by chains inside `set`.
pub fn touched(rows: &[u32], set: u32, start: usize) -> u32 {
    let mut seen = 1u32 << start;
    loop {
        let mut more = seen;
        for a in 0..rows.len() {
            if seen >> a & 1 == 1 {
                more |= rows[a] & set;
            }
        }
        if more == seen {
            return seen;
        }
        seen = more;
    }
}

#[derive(Clone, Copy, Debug, PartialEq)]
pub enum Verdict {
    Holds,
    Few,
    Weak(u32),
}

impl Brute {
    /// `stations` of the mesh become 0, 1, .. in the given order.
    pub fn of(mesh: &Mesh, stations: &[usize]) -> Brute {
        let n = stations.len();
        let rows: Vec<u32> =
            stations.iter().map(|&a| (0..n).fold(0, |row, j| row | (mesh.linked(a, stations[j]) as u32) << j)).collect();
        let whole = (0..1u32 << n).map(|set| set == 0 || touched(&rows, set, set.trailing_zeros() as usize) == set).collect();
        Brute { n, rows, whole }
    }

    pub fn all(mesh: &Mesh) -> Brute {
        let stations: Vec<usize> = (0..mesh.n).collect();
        Brute::of(mesh, &stations)
    }

    pub fn whole(&self, set: u32) -> bool {
        self.whole[set as usize]
    }

    /// Each part of `set`, the empty one and `set` included, is given to `look`.
    fn each_part(set: u32, mut look: impl FnMut(u32)) {
        let mut part = set;
        loop {
            look(part);
            if part == 0 {
                return;
            }
            part = (part - 1) & set;
        }
    }

    pub fn holding(&self, set: u32, k: usize) -> Verdict {
        if set.count_ones() as usize <= k {
            return Verdict::Few;
        }
        let mut best: Option<u32> = None;
        Brute::each_part(set, |loss| {
            if (loss.count_ones() as usize) < k && !self.whole(set & !loss) {
                best = match best {
                    None => Some(loss),
                    Some(old) => {
                        let (x, y) = (loss.count_ones(), old.count_ones());
                        if x < y || (x == y && loss != old && before(loss, old)) {
                            Some(loss)
                        } else {
                            Some(old)
                        }
                    }
                };
            }
        });
        match best {
            None => Verdict::Holds,
            Some(loss) => Verdict::Weak(loss),
        }
    }

    /// For every set the size of the smallest part without which the rest is not whole, 99 if there is none.
    pub fn smallest_losses(&self) -> Vec<u32> {
        (0..1u32 << self.n)
            .map(|set| {
                let mut least = 99;
                Brute::each_part(set, |loss| {
                    if !self.whole(set & !loss) {
                        least = least.min(loss.count_ones());
                    }
                });
                least
            })
            .collect()
    }

    /// The groups at `k` in order, given `smallest_losses`.
    pub fn groups(&self, losses: &[u32], k: usize) -> Vec<u32> {
        let mut holding: Vec<u32> =
            (0..1u32 << self.n).filter(|&set| set.count_ones() as usize > k && losses[set as usize] as usize >= k).collect();
        holding.sort_by_key(|set| 32 - set.count_ones());
        let mut groups: Vec<u32> = Vec::new();
        for set in holding {
            if !groups.iter().any(|&group| group & set == set) {
                groups.push(set);
            }
        }
        in_order(&mut groups);
        groups
    }

    /// The standing of each station.
    pub fn standings(&self, losses: &[u32]) -> Vec<u64> {
        let mut standings = vec![0; self.n];
        for k in 1..=16 {
            for group in self.groups(losses, k) {
                for (a, standing) in standings.iter_mut().enumerate() {
                    if group >> a & 1 == 1 {
                        *standing = k as u64;
                    }
                }
            }
        }
        standings
    }

    /// The greatest number of chains from `a` to `b` that share no station but the ends; no link a-b.
    pub fn chains(&self, a: usize, b: usize) -> u64 {
        let mut inner = vec![false; 1 << self.n];
        self.walk(a, b, 0, 1 << a, &mut inner);
        let masks: Vec<u32> = (0..1u32 << self.n).filter(|&mask| inner[mask as usize]).collect();
        let mut known = vec![u64::MAX; 1 << self.n];
        let others = ((1u32 << self.n) - 1) & !(1 << a) & !(1 << b);
        most(&masks, others, &mut known)
    }

    /// Marks the inner stations of every chain that goes on from `here` to `b`.
    fn walk(&self, here: usize, b: usize, passed: u32, seen: u32, inner: &mut [bool]) {
        for next in 0..self.n {
            if self.rows[here] >> next & 1 == 0 || seen >> next & 1 == 1 {
                continue;
            }
            if next == b {
                inner[passed as usize] = true;
            } else {
                self.walk(next, b, passed | 1 << next, seen | 1 << next, inner);
            }
        }
    }

    /// The smallest number of other stations whose loss parts `a` and `b`; no link a-b.
    pub fn parting_loss(&self, a: usize, b: usize) -> u64 {
        let all = (1u32 << self.n) - 1;
        let others = all & !(1 << a) & !(1 << b);
        let mut least = u32::MAX;
        Brute::each_part(others, |loss| {
            if touched(&self.rows, all & !loss, a) >> b & 1 == 0 {
                least = least.min(loss.count_ones());
            }
        });
        least as u64
    }
}

/// The greatest number of masks, each inside `left`, that share no station.
fn most(masks: &[u32], left: u32, known: &mut [u64]) -> u64 {
    if known[left as usize] == u64::MAX {
        let mut best = 0;
        for &mask in masks {
            if mask & left == mask {
                best = best.max(1 + most(masks, left & !mask, known));
            }
        }
        known[left as usize] = best;
    }
    known[left as usize]
}

pub fn in_order(sets: &mut Vec<u32>) {
    sets.sort_by(|&a, &b| {
        if a == b {
            std::cmp::Ordering::Equal
        } else if before(a, b) {
            std::cmp::Ordering::Less
        } else {
            std::cmp::Ordering::Greater
        }
    });
}
