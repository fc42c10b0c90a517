//! The plain Rust peer of the questions: the tests of the card in order, then the engine.

use crate::engine;
use crate::flow::{routes, Cut};
use crate::set::Set;

/// 2, 3, 4, or 0.
pub fn table_refusal(n: usize, table: &[u64]) -> u64 {
    if n > 256 {
        return 2;
    }
    if table.len() != 4 * n {
        return 3;
    }
    let all = Set::first_n(n);
    for i in 0..n {
        let row = Set::of_row(table, i);
        if row.has(i) || !row.minus(all).is_empty() {
            return 4;
        }
        if !mirrored(table, i, 0, row.a) || !mirrored(table, i, 64, row.b) || !mirrored(table, i, 128, row.c) || !mirrored(table, i, 192, row.d) {
            return 4;
        }
    }
    0
}

/// Each station base + j, for a set bit j of the word, has station i in its row.
fn mirrored(table: &[u64], i: usize, base: usize, word: u64) -> bool {
    let mut left = word;
    while left != 0 {
        let j = base + left.trailing_zeros() as usize;
        if table[j * 4 + i / 64] >> (i % 64) & 1 != 1 {
            return false;
        }
        left &= left - 1;
    }
    true
}

/// Refusal, joined, count.
pub fn routes_question(n: usize, table: &[u64], a: usize, b: usize) -> [u64; 3] {
    let refusal = table_refusal(n, table);
    if refusal != 0 {
        return [refusal, 0, 0];
    }
    if a >= n || b >= n || a == b {
        return [7, 0, 0];
    }
    if Set::of_row(table, a).has(b) {
        return [0, 1, 0];
    }
    match routes(table, Set::first_n(n), a, b, 256) {
        Cut::Few(count, _) => [0, 0, count as u64],
        Cut::Many => [0, 0, 256],
    }
}

/// Refusal, verdict, four words of the weak set.
pub fn holding_question(n: usize, table: &[u64], k: usize, set: &[u64]) -> [u64; 6] {
    let refusal = table_refusal(n, table);
    if refusal != 0 {
        return [refusal, 0, 0, 0, 0, 0];
    }
    if k == 0 || k > 16 {
        return [1, 0, 0, 0, 0, 0];
    }
    if set.len() != 4 || !Set::of_row(set, 0).minus(Set::first_n(n)).is_empty() {
        return [6, 0, 0, 0, 0, 0];
    }
    let p = Set::of_row(set, 0);
    if p.size() <= k {
        return [0, 1, 0, 0, 0, 0];
    }
    match engine::first_weak(table, p, k) {
        None => [0, 0, 0, 0, 0, 0],
        Some(s) => [0, 2, s.a, s.b, s.c, s.d],
    }
}

/// Refusal, verdict.
pub fn verdict_question(n: usize, table: &[u64], k: usize, set: &[u64]) -> [u64; 2] {
    let refusal = table_refusal(n, table);
    if refusal != 0 {
        return [refusal, 0];
    }
    if k == 0 || k > 16 {
        return [1, 0];
    }
    if set.len() != 4 || !Set::of_row(set, 0).minus(Set::first_n(n)).is_empty() {
        return [6, 0];
    }
    let p = Set::of_row(set, 0);
    if p.size() <= k {
        return [0, 1];
    }
    match engine::weak(table, p, k) {
        None => [0, 0],
        Some(_) => [0, 2],
    }
}

/// Refusal, number of groups; the list is filled.
pub fn list_question(n: usize, table: &[u64], k: usize, list: &mut [u64]) -> [u64; 2] {
    let refusal = table_refusal(n, table);
    if refusal != 0 {
        return [refusal, 0];
    }
    if k == 0 || k > 16 {
        return [1, 0];
    }
    if list.len() < 4 * engine::rows(n, k) {
        return [5, 0];
    }
    [0, engine::list(table, n, k, list) as u64]
}
