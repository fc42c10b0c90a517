//! Groups of wide meshes by other ways than the definitions: level 1 by islands, level 2 by the parts
//! without a cutting station (lowest points of a depth-first walk), levels from 3 up by dividing at losses
//! that `flow` finds from k start stations: a loss of fewer than k misses one of them.
//! Also the smallest and first weak set, station by station.

use crate::flow::Net;
use crate::mesh::Mesh;

/// The islands of `stations`.
pub fn islands(mesh: &Mesh, stations: &[usize]) -> Vec<Vec<usize>> {
    let mut root: Vec<usize> = (0..stations.len()).collect();
    fn top(root: &mut Vec<usize>, mut i: usize) -> usize {
        while root[i] != i {
            root[i] = root[root[i]];
            i = root[i];
        }
        i
    }
    for i in 0..stations.len() {
        for j in 0..i {
            if mesh.linked(stations[i], stations[j]) {
                let (x, y) = (top(&mut root, i), top(&mut root, j));
                root[x] = y;
            }
        }
    }
    let mut parts: Vec<Vec<usize>> = vec![Vec::new(); stations.len()];
    for i in 0..stations.len() {
        let x = top(&mut root, i);
        parts[x].push(stations[i]);
    }
    parts.retain(|part| !part.is_empty());
    parts
}

struct Walk<'a> {
    mesh: &'a Mesh,
    time: usize,
    when: Vec<usize>,
    low: Vec<usize>,
    open: Vec<usize>,
    parts: Vec<Vec<usize>>,
}

impl<'a> Walk<'a> {
    fn visit(&mut self, a: usize, parent: usize) {
        self.time += 1;
        self.when[a] = self.time;
        self.low[a] = self.time;
        self.open.push(a);
        for b in 0..self.mesh.n {
            if !self.mesh.linked(a, b) || b == parent {
                continue;
            }
            if self.when[b] != 0 {
                self.low[a] = self.low[a].min(self.when[b]);
                continue;
            }
            self.visit(b, a);
            self.low[a] = self.low[a].min(self.low[b]);
            if self.low[b] >= self.when[a] {
                let mut part = vec![a];
                loop {
                    let c = self.open.pop().unwrap();
                    part.push(c);
                    if c == b {
                        break;
                    }
                }
                self.parts.push(part);
            }
        }
    }
}

/// The largest parts that no single station cuts.
fn uncut_parts(mesh: &Mesh) -> Vec<Vec<usize>> {
    let n = mesh.n;
    let mut walk = Walk { mesh, time: 0, when: vec![0; n], low: vec![0; n], open: Vec::new(), parts: Vec::new() };
    for a in 0..n {
        if walk.when[a] == 0 {
            walk.visit(a, n);
            walk.open.clear();
        }
    }
    walk.parts
}

/// Leaves out stations with fewer than `k` links inside, again and again: no set that holds has one.
fn pruned(mesh: &Mesh, piece: &[usize], k: usize) -> Vec<usize> {
    let mut left = piece.to_vec();
    loop {
        let kept: Vec<usize> =
            left.iter().copied().filter(|&a| left.iter().filter(|&&b| mesh.linked(a, b)).count() >= k).collect();
        if kept.len() == left.len() {
            return kept;
        }
        left = kept;
    }
}

/// Some loss of fewer than `limit` stations, of the smallest size seen, after which the piece is not whole.
/// The piece has more than `limit` stations. With `smallest` all pairs are tried, else the first found will do.
fn loss_below(mesh: &Mesh, piece: &[usize], limit: usize, smallest: bool) -> Option<Vec<usize>> {
    if limit == 0 {
        return None;
    }
    if islands(mesh, piece).len() > 1 {
        return Some(Vec::new());
    }
    let mut net = Net::of(mesh, piece);
    let mut limit = limit;
    let mut best = None;
    for i in 0..limit.min(piece.len()) {
        let linked = |j: usize, l: usize| mesh.linked(piece[j], piece[l]);
        // the stations that no loss of fewer than `limit` parts from i
        let mut firm: Vec<bool> = (0..piece.len()).map(|j| i == j || linked(i, j)).collect();
        for j in 0..piece.len() {
            // with that many links to firm ones, one of those is left after any such loss
            if firm[j] || (0..piece.len()).filter(|&l| firm[l] && linked(j, l)).count() >= limit {
                firm[j] = true;
                continue;
            }
            if let (count, Some(loss)) = net.routes(i, j, limit) {
                best = Some(loss.iter().map(|&x| piece[x]).collect());
                if !smallest {
                    return best;
                }
                limit = count;
            }
            firm[j] = true;
        }
    }
    best
}

fn divided(mesh: &Mesh, k: usize) -> Vec<Vec<usize>> {
    let mut pieces = vec![(0..mesh.n).collect::<Vec<usize>>()];
    let mut groups = Vec::new();
    while let Some(piece) = pieces.pop() {
        let piece = pruned(mesh, &piece, k);
        if piece.len() <= k {
            continue;
        }
        match loss_below(mesh, &piece, k, false) {
            None => groups.push(piece),
            Some(loss) => {
                let rest: Vec<usize> = piece.iter().copied().filter(|a| !loss.contains(a)).collect();
                for mut island in islands(mesh, &rest) {
                    island.extend(&loss);
                    island.sort();
                    pieces.push(island);
                }
            }
        }
    }
    groups
}

pub fn to_set(stations: &[usize]) -> [u64; 4] {
    let mut set = [0; 4];
    for &a in stations {
        set[a / 64] |= 1 << (a % 64);
    }
    set
}

pub fn stations_of(set: &[u64]) -> Vec<usize> {
    (0..256).filter(|&a| set[a / 64] >> (a % 64) & 1 == 1).collect()
}

fn has(set: &[u64; 4], a: usize) -> bool {
    set[a / 64] >> (a % 64) & 1 == 1
}

/// Order of two sets; the smallest station in one and not the other decides.
pub fn order(x: &[u64; 4], y: &[u64; 4]) -> std::cmp::Ordering {
    for a in 0..256 {
        if has(x, a) != has(y, a) {
            return if has(x, a) { std::cmp::Ordering::Less } else { std::cmp::Ordering::Greater };
        }
    }
    std::cmp::Ordering::Equal
}

/// The groups of the whole mesh at `k`, in order.
pub fn groups(mesh: &Mesh, k: usize) -> Vec<[u64; 4]> {
    let all: Vec<usize> = (0..mesh.n).collect();
    let parts = match k {
        1 => islands(mesh, &all),
        2 => uncut_parts(mesh),
        _ => divided(mesh, k),
    };
    let mut sets: Vec<[u64; 4]> = parts.iter().filter(|part| part.len() > k).map(|part| to_set(part)).collect();
    sets.sort_by(order);
    sets
}

/// The smallest weak set of `set` at `k`, the first in order; none if the set holds. The set has more than k stations.
pub fn weak_set(mesh: &Mesh, set: &[usize], k: usize) -> Option<Vec<usize>> {
    let size = loss_below(mesh, set, k, true)?.len();
    let mut chosen: Vec<usize> = Vec::new();
    let mut left = set.to_vec();
    for &a in set {
        if chosen.len() == size {
            break;
        }
        let without: Vec<usize> = left.iter().copied().filter(|&b| b != a).collect();
        // a is in such a weak set exactly when the rest parts with one station fewer
        if loss_below(mesh, &without, size - chosen.len(), false).is_some() {
            chosen.push(a);
            left = without;
        }
    }
    Some(chosen)
}
