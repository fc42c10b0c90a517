//! The plain Rust peer of the flow: the same algorithm over bit rows, the same arrays.
//! Stations of `first` start a chain; every other station w holds `pred[w]`, itself when idle.

use crate::set::Set;

/// As many chains as asked for, or how many there are with as many stations whose loss leaves none.
pub enum Cut {
    Many,
    Few(usize, Set),
}

enum Sought {
    Way(usize),
    Shut(Set),
}

/// A station of `todo`, an end if there is one.
#[inline]
fn choose(todo: Set, ends: Set) -> Option<usize> {
    match todo.cut(ends).first() {
        Some(j) => Some(j),
        None => todo.first(),
    }
}

#[inline]
fn mark_in(from: &mut [u8; 256], base: usize, word: u64, g: u8) {
    let mut left = word;
    while left != 0 {
        from[base + left.trailing_zeros() as usize] = g;
        left &= left - 1;
    }
}

#[inline]
fn mark(from: &mut [u8; 256], s: Set, g: u8) {
    mark_in(from, 0, s.a, g);
    mark_in(from, 64, s.b, g);
    mark_in(from, 128, s.c, g);
    mark_in(from, 192, s.d, g);
}

fn search(table: &[u64], d: Set, na: Set, nb: Set, first: Set, pred: &[u8; 256], from: &mut [u8; 256]) -> Sought {
    let mut into = na.cut(d);
    let mut out = Set::EMPTY;
    let mut todo = into.minus(first);
    while let Some(w) = choose(todo, nb) {
        let v = pred[w] as usize;
        if nb.has(v) {
            return Sought::Way(w);
        }
        let fresh = Set::of_row(table, v).with(v).cut(d).minus(into);
        into = into.join(fresh);
        out = out.with(v);
        todo = todo.without(w).join(fresh);
        mark(from, fresh, w as u8);
    }
    Sought::Shut(into.minus(out))
}

/// The way back from the station that holds an end; the start of the new chain.
fn turn(pred: &mut [u8; 256], from: &[u8; 256], na: Set, last: usize) -> usize {
    let mut h = last;
    while !na.has(h) {
        let g = from[h] as usize;
        pred[h] = pred[g];
        h = g;
    }
    h
}

/// Chains inside `d`, from a station of `na` to one of `nb`, that share no station.
pub fn flow(table: &[u64], d: Set, na: Set, nb: Set, limit: usize) -> Cut {
    let mut first = d.cut(na).cut(nb);
    let mut count = first.size();
    if limit <= count {
        return Cut::Many;
    }
    let mut pred = [0u8; 256];
    let mut from = [0u8; 256];
    for i in 0..256 {
        pred[i] = i as u8;
    }
    while count < limit {
        match search(table, d, na, nb, first, &pred, &mut from) {
            Sought::Way(h) => {
                first = first.with(turn(&mut pred, &from, na, h));
                count += 1;
            }
            Sought::Shut(loss) => return Cut::Few(count, loss),
        }
    }
    Cut::Many
}

/// Chains between two stations of a set that share no station but these two; their own link is left out.
pub fn routes(table: &[u64], set: Set, a: usize, b: usize, limit: usize) -> Cut {
    flow(table, set.without(a).without(b), Set::of_row(table, a), Set::of_row(table, b), limit)
}
