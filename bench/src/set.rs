//! A set of stations as four words, by value.

#[derive(Clone, Copy, PartialEq, Eq, Debug)]
pub struct Set {
    pub a: u64,
    pub b: u64,
    pub c: u64,
    pub d: u64,
}

impl Set {
    pub const EMPTY: Set = Set { a: 0, b: 0, c: 0, d: 0 };

    #[inline]
    pub fn one(j: usize) -> Set {
        let bit = 1u64 << (j % 64);
        let word = |i: usize| if j / 64 == i { bit } else { 0 };
        Set { a: word(0), b: word(1), c: word(2), d: word(3) }
    }

    /// {0 .. n - 1}
    pub fn first_n(n: usize) -> Set {
        let word = |i: usize| {
            let left = n.saturating_sub(64 * i);
            if left >= 64 {
                u64::MAX
            } else {
                (1u64 << left) - 1
            }
        };
        Set { a: word(0), b: word(1), c: word(2), d: word(3) }
    }

    #[inline]
    pub fn of_row(table: &[u64], i: usize) -> Set {
        let row = &table[4 * i..4 * i + 4];
        Set { a: row[0], b: row[1], c: row[2], d: row[3] }
    }

    #[inline]
    pub fn put_row(self, table: &mut [u64], i: usize) {
        table[4 * i..4 * i + 4].copy_from_slice(&[self.a, self.b, self.c, self.d]);
    }

    #[inline]
    pub fn has(self, j: usize) -> bool {
        let word = match j / 64 {
            0 => self.a,
            1 => self.b,
            2 => self.c,
            _ => self.d,
        };
        word >> (j % 64) & 1 == 1
    }

    #[inline]
    pub fn join(self, o: Set) -> Set {
        Set { a: self.a | o.a, b: self.b | o.b, c: self.c | o.c, d: self.d | o.d }
    }

    #[inline]
    pub fn cut(self, o: Set) -> Set {
        Set { a: self.a & o.a, b: self.b & o.b, c: self.c & o.c, d: self.d & o.d }
    }

    #[inline]
    pub fn minus(self, o: Set) -> Set {
        Set { a: self.a & !o.a, b: self.b & !o.b, c: self.c & !o.c, d: self.d & !o.d }
    }

    #[inline]
    pub fn with(self, j: usize) -> Set {
        self.join(Set::one(j))
    }

    #[inline]
    pub fn without(self, j: usize) -> Set {
        self.minus(Set::one(j))
    }

    #[inline]
    pub fn is_empty(self) -> bool {
        self.a | self.b | self.c | self.d == 0
    }

    #[inline]
    pub fn size(self) -> usize {
        (self.a.count_ones() + self.b.count_ones() + self.c.count_ones() + self.d.count_ones()) as usize
    }

    /// The smallest station.
    #[inline]
    pub fn first(self) -> Option<usize> {
        if self.a != 0 {
            Some(self.a.trailing_zeros() as usize)
        } else if self.b != 0 {
            Some(64 + self.b.trailing_zeros() as usize)
        } else if self.c != 0 {
            Some(128 + self.c.trailing_zeros() as usize)
        } else if self.d != 0 {
            Some(192 + self.d.trailing_zeros() as usize)
        } else {
            None
        }
    }

    /// Does this set come before the other?
    pub fn before(self, o: Set) -> bool {
        let apart = Set { a: self.a ^ o.a, b: self.b ^ o.b, c: self.c ^ o.c, d: self.d ^ o.d };
        match apart.first() {
            Some(j) => self.has(j),
            None => false,
        }
    }
}
