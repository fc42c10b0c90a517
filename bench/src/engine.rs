//! The plain Rust peer of the engine: weak pair search, smallest and first weak set, list of groups.

use crate::flow::{flow, Cut};
use crate::set::Set;

/// One station u against the aims inside p: each holds with it at the level, or a loss parts one from it.
fn firm(table: &[u64], p: Set, aims: Set, u: usize, level: usize) -> Option<Set> {
    let mut known = Set::of_row(table, u).with(u);
    let mut left = aims.minus(known);
    while let Some(v) = left.first() {
        let d = p.without(u).without(v);
        if let Cut::Few(_, loss) = flow(table, d, Set::of_row(table, v), known, level) {
            return Some(loss);
        }
        known = known.with(v);
        left = left.without(v);
    }
    None
}

/// The links of u, one by one, each against the later ones and then taken out, while the level falls.
fn peel(table: &[u64], p: Set, u: usize, k: usize) -> Option<Set> {
    let mut q = p.without(u);
    let mut rest = Set::of_row(table, u).cut(q);
    let mut level = k - 1;
    while level > 0 {
        let l = rest.first()?;
        rest = rest.without(l);
        if let Some(loss) = firm(table, q, rest, l, level) {
            return Some(loss.join(p.minus(q)));
        }
        q = q.without(l);
        level -= 1;
    }
    None
}

/// The station of p with the fewest links inside p.
fn fewest(table: &[u64], p: Set) -> Option<usize> {
    let mut at = p.first()?;
    let mut least = 257;
    let mut rest = p;
    while let Some(v) = rest.first() {
        rest = rest.without(v);
        let links = Set::of_row(table, v).cut(p).size();
        if links < least {
            least = links;
            at = v;
        }
    }
    Some(at)
}

/// A loss of fewer than k stations that leaves p not whole, or none.
pub fn weak(table: &[u64], p: Set, k: usize) -> Option<Set> {
    let u = fewest(table, p)?;
    match firm(table, p, p, u, k) {
        Some(loss) => Some(loss),
        None => peel(table, p, u, k),
    }
}

/// The smallest loss below k, if any: each one found lowers the level asked for.
fn smallest(table: &[u64], p: Set, k: usize) -> Option<Set> {
    let mut best = None;
    let mut limit = k;
    while limit > 0 {
        match weak(table, p, limit) {
            None => return best,
            Some(loss) => {
                limit = loss.size();
                best = Some(loss);
            }
        }
    }
    best
}

/// The smallest weak set, the first in order: rising j, taken when some smallest loss has the taken ones and j.
pub fn first_weak(table: &[u64], p: Set, k: usize) -> Option<Set> {
    let mut witness = smallest(table, p, k)?;
    let mut taken = Set::EMPTY;
    let mut left = witness.size();
    let mut rest = p;
    while left > 0 {
        let j = rest.first()?;
        rest = rest.without(j);
        let mut take = witness.has(j);
        if !take {
            if let Some(loss) = peel(table, p.minus(taken), j, left + 1) {
                take = true;
                witness = taken.join(loss);
            }
        }
        if take {
            taken = taken.with(j);
            left -= 1;
        }
    }
    Some(taken)
}

fn island(table: &[u64], p: Set, j: usize) -> Set {
    let mut seen = Set::one(j);
    let mut todo = seen;
    while let Some(w) = todo.first() {
        let fresh = Set::of_row(table, w).cut(p).minus(seen);
        seen = seen.join(fresh);
        todo = todo.without(w).join(fresh);
    }
    seen
}

fn prune(table: &[u64], p: Set, k: usize) -> Set {
    let mut q = p;
    loop {
        let old = q;
        let mut rest = q;
        while let Some(v) = rest.first() {
            rest = rest.without(v);
            if Set::of_row(table, v).cut(q).size() < k {
                q = q.without(v);
            }
        }
        if q == old {
            return q;
        }
    }
}

pub fn rows(n: usize, k: usize) -> usize {
    if n <= k {
        0
    } else {
        (n - k + 1) / 2
    }
}

/// Puts the islands of p without the loss, each joined with it and of more than k stations, at rows at, at + 1, ..
fn divide(table: &[u64], p: Set, loss: Set, k: usize, list: &mut [u64], at: usize) -> usize {
    let mut rest = p.minus(loss);
    let mut put = 0;
    while let Some(j) = rest.first() {
        let island = island(table, rest, j);
        rest = rest.minus(island);
        let piece = island.join(loss);
        if piece.size() > k {
            piece.put_row(list, at + put);
            put += 1;
        }
    }
    put
}

fn sort(list: &mut [u64], groups: usize) {
    for i in 1..groups {
        let s = Set::of_row(list, i);
        let mut j = i;
        while j > 0 && s.before(Set::of_row(list, j - 1)) {
            Set::of_row(list, j - 1).put_row(list, j);
            j -= 1;
        }
        s.put_row(list, j);
    }
}

/// The groups at k in the first R rows of the list: rows 0 .. g are finished, q more are pieces.
pub fn list(table: &[u64], n: usize, k: usize, list: &mut [u64]) -> usize {
    let r = rows(n, k);
    if r == 0 {
        return 0;
    }
    Set::first_n(n).put_row(list, 0);
    let mut g = 0;
    let mut q = 1;
    while q > 0 {
        q -= 1;
        let p = prune(table, Set::of_row(list, g + q), k);
        if p.size() > k {
            match weak(table, p, k) {
                Some(loss) => q += divide(table, p, loss, k, list, g + q),
                None => {
                    Set::of_row(list, g).put_row(list, g + q);
                    p.put_row(list, g);
                    g += 1;
                }
            }
        }
    }
    for i in g..r {
        Set::EMPTY.put_row(list, i);
    }
    sort(list, g);
    g
}
