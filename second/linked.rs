//! The library under test, linked through its C interface. Each reply comes back as its numbers, the
//! refusal number first. Lent buffers are given with a guard behind the lent part, so that a store past it shows.
//! The numbers that the library must write are set to a pattern beforehand.

// the declarations of the C interface alone
#[path = "../rust/desk.rs"]
mod interface;
#[allow(unused_imports)]
use interface::c::*;

const UNWRITTEN: u64 = 0xdead_beef_dead_beef;

pub struct Desk {}

impl Desk {
    pub fn open(_runner: &[String]) -> Desk {
        Desk {}
    }

    #[cfg(with_routes)]
    pub fn routes(&mut self, n: usize, table: &[u64], a: usize, b: usize) -> [u64; 3] {
        let mut out = [UNWRITTEN; 3];
        let [refusal, joined, count] = &mut out;
        *refusal = unsafe { desk_routes(n, table.as_ptr(), table.len(), a, b, joined, count) };
        out
    }

    #[cfg(with_holding)]
    /// The holding question, and then the verdict alone.
    pub fn holding(&mut self, n: usize, table: &[u64], k: usize, set: &[u64]) -> [u64; 8] {
        let mut out = [UNWRITTEN; 8];
        let [refusal, verdict, w0, w1, w2, w3, alone, brief] = &mut out;
        *refusal = unsafe { desk_holding(n, table.as_ptr(), table.len(), k, set.as_ptr(), set.len(), verdict, w0, w1, w2, w3) };
        *alone = unsafe { desk_verdict(n, table.as_ptr(), table.len(), k, set.as_ptr(), set.len(), brief) };
        out
    }

    #[cfg(with_list)]
    pub fn list(&mut self, n: usize, table: &[u64], k: usize, list: &mut [u64], lent: usize) -> [u64; 2] {
        let mut out = [UNWRITTEN; 2];
        let [refusal, groups] = &mut out;
        let lent = &mut list[..lent];
        *refusal = unsafe { desk_list(n, table.as_ptr(), table.len(), k, lent.as_mut_ptr(), lent.len(), groups) };
        out
    }

    #[cfg(with_standings)]
    pub fn station_standing(&mut self, n: usize, table: &[u64], a: usize) -> [u64; 2] {
        let mut out = [UNWRITTEN; 2];
        let [refusal, standing] = &mut out;
        *refusal = unsafe { desk_station_standing(n, table.as_ptr(), table.len(), a, standing) };
        out
    }

    #[cfg(with_standings)]
    pub fn pair_standing(&mut self, n: usize, table: &[u64], a: usize, b: usize) -> [u64; 2] {
        let mut out = [UNWRITTEN; 2];
        let [refusal, standing] = &mut out;
        *refusal = unsafe { desk_pair_standing(n, table.as_ptr(), table.len(), a, b, standing) };
        out
    }

    #[cfg(with_files)]
    pub fn read(
        &mut self,
        bytes: &[u8],
        serials: &mut [u32],
        serials_lent: usize,
        table: &mut [u64],
        table_lent: usize,
    ) -> [u64; 4] {
        let mut out = [UNWRITTEN; 4];
        let [refusal, version, n, links] = &mut out;
        let serials = &mut serials[..serials_lent];
        let table = &mut table[..table_lent];
        *refusal = unsafe {
            desk_read(
                bytes.as_ptr(),
                bytes.len(),
                serials.as_mut_ptr(),
                serials.len(),
                table.as_mut_ptr(),
                table.len(),
                version,
                n,
                links,
            )
        };
        out
    }

    #[cfg(with_files)]
    pub fn write(&mut self, n: usize, serials: &[u32], table: &[u64], bytes: &mut [u8], lent: usize) -> [u64; 2] {
        let mut out = [UNWRITTEN; 2];
        let [refusal, length] = &mut out;
        let bytes = &mut bytes[..lent];
        *refusal = unsafe {
            desk_write(n, serials.as_ptr(), serials.len(), table.as_ptr(), table.len(), bytes.as_mut_ptr(), bytes.len(), length)
        };
        out
    }
    #[cfg(with_order)]
    pub fn first_row(&mut self, x: &[u64], y: &[u64]) -> [u64; 2] {
        let mut out = [UNWRITTEN; 2];
        let [first, words] = &mut out;
        *first = unsafe { desk_first_row(x.as_ptr(), x.len(), y.as_ptr(), y.len(), words) };
        out
    }

    #[cfg(with_night)]
    /// Every byte of the buffer is `old` beforehand, to the end of its guard. Replies the refusal, the length and how
    /// many bytes past the page changed; then the page.
    pub fn night(&mut self, bytes: &[u8], lent: usize, guard: usize, old: u8) -> ([u64; 3], Vec<u8>) {
        let mut out = [UNWRITTEN; 3];
        let [refusal, length, changed] = &mut out;
        let mut page = vec![old; lent + guard];
        *refusal = unsafe { desk_night_list(bytes.as_ptr(), bytes.len(), page.as_mut_ptr(), lent, length) };
        let end = (*length).min((lent + guard) as u64) as usize;
        *changed = page[end..].iter().filter(|&&byte| byte != old).count() as u64;
        page.truncate(end);
        (out, page)
    }
}
