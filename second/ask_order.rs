//! The order question: pairs of rows near and far apart, equal ones, and rows of other lengths. The reply is 0 where the
//! first row comes first and 1 where the second does, and the words of the part that is handed back.

use crate::desk::Desk;
use crate::pieces;
use crate::rand::Rand;
use crate::tally::Tally;
use std::cmp::Ordering;

fn here(x: &[u64], y: &[u64]) -> [u64; 2] {
    match (x, y) {
        (&[a, b, c, d], &[e, f, g, h]) => [(pieces::order(&[a, b, c, d], &[e, f, g, h]) == Ordering::Greater) as u64, 4],
        _ => [0, 0],
    }
}

fn ask(desk: &mut Desk, tally: &mut Tally, x: &[u64], y: &[u64]) {
    let library = desk.first_row(x, y);
    tally.same(0, &library, &here(x, y), || format!("first row of {:x?} and {:x?}", x, y));
}

/// A set with none, few, half, most or all of 256 stations.
fn any_set(rand: &mut Rand) -> [u64; 4] {
    let kind = rand.below(6);
    std::array::from_fn(|_| match kind {
        0 => 0,
        1 => u64::MAX,
        2 => rand.next() & rand.next() & rand.next() & rand.next(),
        3 => rand.next() | rand.next() | rand.next(),
        4 => rand.pick(&[0, 1, 1 << 63, u64::MAX]),
        _ => rand.next(),
    })
}

/// The set with a few stations put in or taken out.
fn near(set: &[u64; 4], rand: &mut Rand) -> [u64; 4] {
    let mut near = *set;
    for _ in 0..rand.below(4) {
        let a = rand.below(256);
        near[a / 64] ^= 1 << (a % 64);
    }
    near
}

fn pairs(desk: &mut Desk, tally: &mut Tally, rand: &mut Rand, count: usize) {
    for _ in 0..count {
        let x = any_set(rand);
        for y in [any_set(rand), near(&x, rand), x] {
            ask(desk, tally, &x, &y);
            ask(desk, tally, &y, &x);
        }
    }
}

/// Every station alone against every other, with the stations above it in either set.
fn single(desk: &mut Desk, tally: &mut Tally, rand: &mut Rand) {
    for a in 0..256 {
        for b in 0..256 {
            let x = pieces::to_set(&[a, rand.from_to(a, 255)]);
            let y = pieces::to_set(&[b, rand.from_to(b, 255)]);
            ask(desk, tally, &x, &y);
        }
    }
}

/// Rows where they stand in one list, a row with itself among them, and parts of it of other lengths.
fn parts(desk: &mut Desk, tally: &mut Tally, rand: &mut Rand, lists: usize) {
    for _ in 0..lists {
        let list: Vec<u64> = (0..8).flat_map(|_| any_set(rand)).collect();
        for i in 0..8 {
            for j in 0..8 {
                ask(desk, tally, &list[4 * i..4 * i + 4], &list[4 * j..4 * j + 4]);
            }
        }
        for x_words in 0..10 {
            for y_words in 0..10 {
                let (x, y) = (rand.below(32 - x_words), rand.below(32 - y_words));
                ask(desk, tally, &list[x..x + x_words], &list[y..y + y_words]);
            }
        }
    }
}

pub fn run(desk: &mut Desk, times: usize) -> bool {
    let mut tally = Tally::new("order");
    let mut rand = Rand::new(0x6f72_6465_72);
    pairs(desk, &mut tally, &mut rand, 10_000 * times);
    single(desk, &mut tally, &mut rand);
    parts(desk, &mut tally, &mut rand, 200 * times);
    tally.report()
}
