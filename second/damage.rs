//! Tables, levels, sets and station numbers with one or more faults, so that the order of refusals shows.

use crate::mesh::Mesh;
use crate::rand::Rand;

pub const LEVELS: [usize; 12] = [0, 17, 18, 32, 33, 255, 256, 257, 1 << 16, 1 << 32, (1 << 32) + 1, usize::MAX];

pub const STATIONS: [usize; 9] = [257, 258, 300, 512, 1 << 16, 1 << 32, 1 << 62, (1 << 62) + 1, usize::MAX];

/// Ways to spoil a table: none, a self link, a one-sided link in each direction, a bit from n up.
pub const TABLE_FAULTS: usize = 5;

pub fn spoil_table(mesh: &mut Mesh, fault: usize, rand: &mut Rand) {
    let n = mesh.n;
    if n == 0 {
        return;
    }
    let a = rand.below(n);
    match fault {
        1 => mesh.table[4 * a + a / 64] |= 1 << (a % 64),
        2 | 3 if n > 1 => {
            let b = (a + rand.from_to(1, n - 1)) % n;
            let (low, high) = (a.min(b), a.max(b));
            let (x, y) = if fault == 2 { (low, high) } else { (high, low) };
            mesh.table[4 * x + y / 64] ^= 1 << (y % 64);
        }
        4 if n < 256 => {
            let any = rand.from_to(n, 255);
            let b = rand.pick(&[n, 255, any]);
            mesh.table[4 * a + b / 64] |= 1 << (b % 64);
        }
        _ => {}
    }
}

/// Ways to give a table another length than 4n words: none, and six others.
pub const LENGTH_FAULTS: usize = 7;

pub fn spoil_length(table: &mut Vec<u64>, fault: usize) {
    let words = table.len();
    match fault {
        1 => table.truncate(words.saturating_sub(1)),
        2 => table.push(0),
        3 => table.truncate(words.saturating_sub(4)),
        4 => table.extend([0; 4]),
        5 => table.clear(),
        6 => table.extend(vec![0; 1028]),
        _ => {}
    }
}

/// A set for a mesh of `n` stations: four words, other lengths, bits from n up.
pub const SET_FAULTS: usize = 9;

pub fn spoil_set(set: &mut Vec<u64>, n: usize, fault: usize, rand: &mut Rand) {
    match fault {
        1 => set.truncate(3),
        2 => set.push(0),
        3 => set.clear(),
        4 => set.extend([0; 4]),
        5 if n < 256 => set[n / 64] |= 1 << (n % 64),
        6 if n < 256 => set[3] |= 1 << 63,
        7 if n < 256 => {
            let b = rand.from_to(n, 255);
            set[b / 64] |= 1 << (b % 64);
        }
        8 if n < 256 => {
            // both faults of the set at once
            set[n / 64] |= 1 << (n % 64);
            set.push(1);
        }
        _ => {}
    }
}

/// Pairs of station numbers, good ones first, then each way to be refused.
pub fn pairs(n: usize, rand: &mut Rand) -> Vec<(usize, usize)> {
    let a = rand.below(n.max(1));
    let b = rand.below(n.max(1));
    vec![
        (a, b),
        (b, a),
        (a, a),
        (a, n),
        (n, a),
        (n, n),
        (n + 1, a),
        (a, 255),
        (a, 256),
        (256, 257),
        (a, usize::MAX),
        (usize::MAX, a),
        (usize::MAX, usize::MAX),
        (a + (1 << 32), b),
    ]
}
