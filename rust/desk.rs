//! The questions of the desk for Rust callers: a safe module around the library's C interface, with nothing but the
//! standard library. docs/RULES.md has the rules that the replies follow, examples/desk.rs asks each question once.
//!
//! Take the file into a program as it is. With Cargo:
//!
//! ```text
//! src/desk.rs     this file; `mod desk;` in src/main.rs
//! build.rs        rust/build.rs, which links the library
//! ```
//!
//! and without:
//!
//! ```text
//! rustc --edition 2024 -L target/staticlib -l static=desk program.rs
//! ```
//!
//! It is written for edition 2024, and edition 2021 takes it too. `tools/proved library` makes the library, for x86-64 Linux;
//! for another processor a program with this module can be checked and not linked.
//!
//! Every question takes every input, replies, and ends. The library tests all lengths and numbers itself, so nothing is
//! tested here. Bad input is refused by a number of the card, the first in the question's order, and then every lent
//! buffer is as it was. Nothing is read or written outside what is lent, and each reply is the only one that its words
//! below allow: that is proved (docs/PROMISES.md). No function here panics, whatever it is given.
//!
//! The stations are the numbers below n, and n is at most 256. A table has a set for each station, its row: those that it
//! is linked to. So it has 4n words. A station is not in its own row, is in the row of each that is in its own, and no row
//! has a bit from n up. Levels go from 1 to 16.
//!
//! The library keeps nothing between calls, so questions can be asked in several threads at once. They need stack, some
//! kilobytes, and `night_list` about 17 (bench/RESULTS.md).

// a program need not ask every question
#![allow(dead_code)]

/// The version of the C interface, `DESK_VERSION` of include/desk.h.
pub const VERSION: u32 = 1;

/// The most stations.
pub const STATIONS: usize = 256;
/// The least level.
pub const LEVEL_LEAST: usize = 1;
/// The highest level.
pub const LEVEL_MOST: usize = 16;
/// The most links of a survey file.
pub const LINKS: usize = 8_192;
/// The words of a table of `STATIONS` stations.
pub const TABLE_WORDS: usize = 1_024;
/// The words of a list that has room at every level, whatever the number of stations.
pub const LIST_WORDS: usize = 512;
/// The bytes of the longest survey file.
pub const FILE_BYTES: usize = 33_801;
/// The bytes that a page needs.
pub const PAGE_BYTES: usize = 262_144;

/// A set of stations: 0 to 63 in the first word, the lowest bit for the lowest, and so on up to 255.
pub type Set = [u64; 4];

/// Makes the card of its lines, each a variant, its number, its name and its reason.
macro_rules! card {
    ($($variant:ident = $number:literal $name:literal $reason:literal)*) => {
        /// The refusal card, docs/CARD.md.
        #[derive(Clone, Copy, Debug, PartialEq, Eq)]
        pub enum Refusal {
            $(#[doc = $reason] $variant = $number,)*
        }

        impl Refusal {
            /// The number on the card.
            pub fn number(self) -> u64 {
                self as u64
            }

            /// The name on the card.
            pub fn name(self) -> &'static str {
                match self {
                    $(Refusal::$variant => $name,)*
                }
            }

            /// When it is given.
            pub fn reason(self) -> &'static str {
                match self {
                    $(Refusal::$variant => $reason,)*
                }
            }
        }

        /// The returned number: 0 where the question is answered. The library returns no number that is not on the card, nor
        /// 15: these are proved. So another one comes from another library, and `Rows` is what tells.
        fn answered(number: u64) -> Result<(), Refusal> {
            match number {
                0 => Ok(()),
                $($number => Err(Refusal::$variant),)*
                _ => Err(Refusal::Rows),
            }
        }
    };
}

card! {
    Level = 1 "LEVEL" "the level is 0 or above 16"
    Stations = 2 "STATIONS" "more than 256 stations"
    TableLength = 3 "TABLE LENGTH" "the table is not 4n words"
    Table = 4 "TABLE" "a station linked to itself, a link in one row only, or a bit from n up"
    ListRoom = 5 "LIST ROOM" "the list has fewer than 4R words"
    Set = 6 "SET" "the set has not four words, or has a bit from n up"
    Station = 7 "STATION" "a station's number is n or more, or the two of a pair are one"
    Mark = 8 "MARK" "fewer than 9 bytes, or not the mark RLM"
    Version = 9 "VERSION" "the version is not 1"
    Count = 10 "COUNT" "more than 256 stations in a file, or more than 8,192 links"
    Length = 11 "LENGTH" "not 9 + 4n + 4m bytes"
    Serial = 12 "SERIAL" "a serial is 0 or not above the one before, or (writer) there are not n"
    Link = 13 "LINK" "a link is not a < b < n, or not behind the one before"
    Room = 14 "ROOM" "what is to be written has no room in its buffer"
    Rows = 15 "ROWS" "on the card, and never given"
}

/// As `refused 5 LIST ROOM: the list has fewer than 4R words`.
impl std::fmt::Display for Refusal {
    fn fmt(&self, out: &mut std::fmt::Formatter) -> std::fmt::Result {
        write!(out, "refused {} {}: {}", self.number(), self.name(), self.reason())
    }
}

impl std::error::Error for Refusal {}

/// The reply of the routes question.
#[derive(Clone, Copy, Debug, PartialEq, Eq)]
pub enum Routes {
    /// So many separate routes, for two stations without a link.
    Counted(u64),
    /// The two stations are linked.
    Joined,
}

/// How many separate routes there are between stations a and b at most, which is how many other stations must be lost at
/// least to part the two. Refused in the order 2, 3, 4, 7.
pub fn routes(n: usize, table: &[u64], a: usize, b: usize) -> Result<Routes, Refusal> {
    let (mut joined, mut count) = (0, 0);
    // SAFETY: a slice with its length, and two locals
    answered(unsafe { c::desk_routes(n, table.as_ptr(), table.len(), a, b, &mut joined, &mut count) })?;
    Ok(if joined == 1 { Routes::Joined } else { Routes::Counted(count) })
}

/// The reply of the holding question.
#[derive(Clone, Copy, Debug, PartialEq, Eq)]
pub enum Holding {
    /// More than k stations, and the loss of any fewer than k of them leaves the others in touch through each other.
    Holds,
    /// k stations or fewer.
    Few,
    /// The weak set: the smallest loss that parts the set, the first in order among equals.
    Weak(Set),
}

/// Does the set hold at level k? The set is any part of four words, a row of a list among them. Refused in the order 2, 3,
/// 4, 1, 6.
pub fn holding(n: usize, table: &[u64], k: usize, set: &[u64]) -> Result<Holding, Refusal> {
    let mut verdict = 0;
    let mut weak = [0; 4];
    let [w0, w1, w2, w3] = &mut weak;
    let (words, count) = (table.as_ptr(), table.len());
    // SAFETY: two slices with their lengths, and five locals, no two the same
    answered(unsafe { c::desk_holding(n, words, count, k, set.as_ptr(), set.len(), &mut verdict, w0, w1, w2, w3) })?;
    Ok(match verdict {
        0 => Holding::Holds,
        1 => Holding::Few,
        _ => Holding::Weak(weak),
    })
}

/// The reply of the holding question without the weak set.
#[derive(Clone, Copy, Debug, PartialEq, Eq)]
pub enum Verdict {
    Holds,
    Few,
    Weak,
}

/// Does the set hold at level k? The verdict of the holding question alone, by one search. Refused in the order 2, 3, 4, 1,
/// 6.
pub fn verdict(n: usize, table: &[u64], k: usize, set: &[u64]) -> Result<Verdict, Refusal> {
    let mut verdict = 0;
    // SAFETY: two slices with their lengths, and a local
    answered(unsafe { c::desk_verdict(n, table.as_ptr(), table.len(), k, set.as_ptr(), set.len(), &mut verdict) })?;
    Ok(match verdict {
        0 => Verdict::Holds,
        1 => Verdict::Few,
        _ => Verdict::Weak,
    })
}

/// The rows R that a list needs at level k, four words each: the most groups that there can be, (n - k + 1) / 2 rounded down
/// for n above k, and 0 otherwise.
pub fn rows(n: usize, k: usize) -> usize {
    n.saturating_sub(k).div_ceil(2)
}

/// All groups at level k, each once, in order, and nothing else, four words a group from the start of the list; replies how
/// many. Every set that holds lies inside a listed group. The words of the R rows past the groups become 0, and words past
/// 4R stay. Refused in the order 2, 3, 4, 1, 5.
pub fn list(n: usize, table: &[u64], k: usize, list: &mut [u64]) -> Result<usize, Refusal> {
    let mut groups = 0;
    // SAFETY: two slices with their lengths, of which the list is borrowed for writing, and a local
    answered(unsafe { c::desk_list(n, table.as_ptr(), table.len(), k, list.as_mut_ptr(), list.len(), &mut groups) })?;
    Ok(groups as usize)
}

/// Row i of a list where it stands, to ask about; an empty part, which is no set, where the list ends before.
pub fn row(list: &[u64], i: usize) -> &[u64] {
    list.chunks_exact(4).nth(i).unwrap_or_default()
}

/// The highest level from 1 to 16 with a group that has the station; 0 where there is none. Refused in the order 2, 3, 4, 7.
pub fn station_standing(n: usize, table: &[u64], a: usize) -> Result<u64, Refusal> {
    let mut standing = 0;
    // SAFETY: a slice with its length, and a local
    answered(unsafe { c::desk_station_standing(n, table.as_ptr(), table.len(), a, &mut standing) })?;
    Ok(standing)
}

/// The smaller of the two stations' standings. Refused in the order 2, 3, 4, 7.
pub fn pair_standing(n: usize, table: &[u64], a: usize, b: usize) -> Result<u64, Refusal> {
    let mut standing = 0;
    // SAFETY: a slice with its length, and a local
    answered(unsafe { c::desk_pair_standing(n, table.as_ptr(), table.len(), a, b, &mut standing) })?;
    Ok(standing)
}

/// What a survey file says of itself.
#[derive(Clone, Copy, Debug, PartialEq, Eq)]
pub struct Survey {
    pub version: u64,
    pub n: usize,
    pub links: u64,
}

/// Reads a survey file into the first n serials and the first 4n words of the table; what is behind them stays. Writing what
/// was read gives the same bytes.
/// Refused in the order 8, 9, 10, 11, 14, 12, 13.
pub fn read(bytes: &[u8], serials: &mut [u32], table: &mut [u64]) -> Result<Survey, Refusal> {
    let (mut version, mut n, mut links) = (0, 0, 0);
    let (file, count) = (bytes.as_ptr(), bytes.len());
    let (words, room) = (table.as_mut_ptr(), table.len());
    let serial_room = serials.len();
    // SAFETY: three slices with their lengths, of which serials and table are borrowed for writing, and three locals
    answered(unsafe {
        c::desk_read(file, count, serials.as_mut_ptr(), serial_room, words, room, &mut version, &mut n, &mut links)
    })?;
    Ok(Survey { version, n: n as usize, links })
}

/// Writes the survey file, version 1, of n serials and a table; replies its length, and fills exactly so many bytes.
/// Reading what was written gives the same serials and table. Refused in the order 2, 3, 4, 12, 10, 14.
pub fn write(n: usize, serials: &[u32], table: &[u64], bytes: &mut [u8]) -> Result<usize, Refusal> {
    let mut length = 0;
    let (words, count) = (table.as_ptr(), table.len());
    let (file, room) = (bytes.as_mut_ptr(), bytes.len());
    // SAFETY: three slices with their lengths, of which the bytes are borrowed for writing, and a local
    answered(unsafe { c::desk_write(n, serials.as_ptr(), serials.len(), words, count, file, room, &mut length) })?;
    Ok(length as usize)
}

/// The caller's own row that comes first: of two different sets, the one that has the smallest station in one and not the
/// other. Equal rows give x. Where either has not four words, an empty part of x, and no refusal.
pub fn first_row<'a>(x: &'a [u64], y: &'a [u64]) -> &'a [u64] {
    let mut words = 0;
    // SAFETY: two slices with their lengths, and a local
    let first = unsafe { c::desk_first_row(x.as_ptr(), x.len(), y.as_ptr(), y.len(), &mut words) };
    match (words, first) {
        (4, 0) => x,
        (4, _) => y,
        _ => &x[..0],
    }
}

/// The night list: the page that the program of that name prints for the survey, from the start of a lent buffer; replies
/// how many bytes it has, and bytes past these stay. The page of a refused survey is its line `refused N`. Refused, by 14,
/// only where the buffer has fewer than `PAGE_BYTES` bytes.
pub fn night_list(bytes: &[u8], page: &mut [u8]) -> Result<usize, Refusal> {
    let mut length = 0;
    // SAFETY: two slices with their lengths, of which the page is borrowed for writing, and a local
    answered(unsafe { c::desk_night_list(bytes.as_ptr(), bytes.len(), page.as_mut_ptr(), page.len(), &mut length) })?;
    Ok(length as usize)
}

/// The set of the stations named; `None` where one is above 255 and has no place in four words.
pub fn set_of(stations: &[usize]) -> Option<Set> {
    let mut set = [0; 4];
    for &j in stations {
        *set.get_mut(j / 64)? |= 1 << (j % 64);
    }
    Some(set)
}

/// The stations of a set, rising.
pub fn stations(set: &[u64]) -> Vec<usize> {
    (0..64 * set.len()).filter(|j| set[j / 64] >> (j % 64) & 1 == 1).collect()
}

/// The table of n stations with these links, each in both rows; `None` where n is above 256, or a link is not between two
/// different stations below n.
pub fn table(n: usize, links: &[(usize, usize)]) -> Option<Vec<u64>> {
    if n > STATIONS {
        return None;
    }
    let mut rows = vec![0; 4 * n];
    for &(a, b) in links {
        if a == b || a.max(b) >= n {
            return None;
        }
        // both are below 256, so a row's word is one of its four
        rows[4 * a + b / 64] |= 1 << (b % 64);
        rows[4 * b + a / 64] |= 1 << (a % 64);
    }
    Some(rows)
}

/// The functions of include/desk.h.
///
/// # Safety
///
/// A slice's pointer leads to as many elements of its type as its count says, and every other pointer to one number. What a
/// `*mut` leads to overlaps nothing else that is lent to the call. References keep to all of this, and an empty slice may lie
/// anywhere. Every other argument may be anything.
pub mod c {
    // SAFETY: these are the functions and types that libdesk.a exports (tests/header compares them with its source)
    unsafe extern "C" {
        pub fn desk_routes(
            n: usize,
            table: *const u64,
            table_words: usize,
            a: usize,
            b: usize,
            joined: *mut u64,
            count: *mut u64,
        ) -> u64;
        pub fn desk_holding(
            n: usize,
            table: *const u64,
            table_words: usize,
            k: usize,
            set: *const u64,
            set_words: usize,
            verdict: *mut u64,
            w0: *mut u64,
            w1: *mut u64,
            w2: *mut u64,
            w3: *mut u64,
        ) -> u64;
        pub fn desk_verdict(
            n: usize,
            table: *const u64,
            table_words: usize,
            k: usize,
            set: *const u64,
            set_words: usize,
            verdict: *mut u64,
        ) -> u64;
        pub fn desk_list(
            n: usize,
            table: *const u64,
            table_words: usize,
            k: usize,
            list: *mut u64,
            list_words: usize,
            groups: *mut u64,
        ) -> u64;
        pub fn desk_station_standing(n: usize, table: *const u64, table_words: usize, a: usize, standing: *mut u64) -> u64;
        pub fn desk_pair_standing(
            n: usize,
            table: *const u64,
            table_words: usize,
            a: usize,
            b: usize,
            standing: *mut u64,
        ) -> u64;
        pub fn desk_read(
            bytes: *const u8,
            count: usize,
            serials: *mut u32,
            serial_count: usize,
            table: *mut u64,
            table_words: usize,
            version: *mut u64,
            n: *mut u64,
            links: *mut u64,
        ) -> u64;
        pub fn desk_write(
            n: usize,
            serials: *const u32,
            serial_count: usize,
            table: *const u64,
            table_words: usize,
            bytes: *mut u8,
            count: usize,
            length: *mut u64,
        ) -> u64;
        pub fn desk_first_row(x: *const u64, x_words: usize, y: *const u64, y_words: usize, words: *mut u64) -> u64;
        pub fn desk_night_list(bytes: *const u8, count: usize, page: *mut u8, page_bytes: usize, length: *mut u64) -> u64;
    }
}
