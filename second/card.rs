//! The refusal card, in the order of each question.

pub const LEVEL: u64 = 1;
pub const STATIONS: u64 = 2;
pub const TABLE_LENGTH: u64 = 3;
pub const TABLE: u64 = 4;
pub const LIST_ROOM: u64 = 5;
pub const SET: u64 = 6;
pub const STATION: u64 = 7;
pub const MARK: u64 = 8;
pub const VERSION: u64 = 9;
pub const COUNT: u64 = 10;
pub const LENGTH: u64 = 11;
pub const SERIAL: u64 = 12;
pub const LINK: u64 = 13;
pub const ROOM: u64 = 14;

fn bit(row: &[u64], j: usize) -> bool {
    row[j / 64] >> (j % 64) & 1 == 1
}

/// 2, 3, 4, or 0.
pub fn table(n: usize, table: &[u64]) -> u64 {
    if n > 256 {
        return STATIONS;
    }
    if table.len() != 4 * n {
        return TABLE_LENGTH;
    }
    for a in 0..n {
        for b in 0..256 {
            let here = bit(&table[4 * a..], b);
            if here && (b >= n || a == b || !bit(&table[4 * b..], a)) {
                return TABLE;
            }
        }
    }
    0
}

pub fn level(k: usize) -> u64 {
    if k == 0 || k > 16 {
        LEVEL
    } else {
        0
    }
}

pub fn set(n: usize, set: &[u64]) -> u64 {
    if set.len() != 4 || (n..256).any(|j| bit(set, j)) {
        SET
    } else {
        0
    }
}

/// The rows R of a list.
pub fn rows(n: usize, k: usize) -> usize {
    if n <= k {
        0
    } else {
        (n - k + 1) / 2
    }
}

pub fn list_room(n: usize, k: usize, words: usize) -> u64 {
    if words < 4 * rows(n, k) {
        LIST_ROOM
    } else {
        0
    }
}

pub fn station(n: usize, a: usize) -> u64 {
    if a >= n {
        STATION
    } else {
        0
    }
}

pub fn pair(n: usize, a: usize, b: usize) -> u64 {
    if a >= n || b >= n || a == b {
        STATION
    } else {
        0
    }
}

/// The first refusal that is not 0.
pub fn first(tests: &[&dyn Fn() -> u64]) -> u64 {
    for test in tests {
        let refusal = test();
        if refusal != 0 {
            return refusal;
        }
    }
    0
}
