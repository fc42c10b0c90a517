//! A reader and a writer of survey files of version 1, from the rules F1 to F9 alone.

use crate::card;
use crate::mesh::Mesh;

pub struct Survey {
    pub serials: Vec<u32>,
    pub mesh: Mesh,
    pub links: usize,
}

fn two(bytes: &[u8], at: usize) -> usize {
    bytes[at] as usize + 256 * bytes[at + 1] as usize
}

fn four(bytes: &[u8], at: usize) -> u32 {
    (two(bytes, at) + 65_536 * two(bytes, at + 2)) as u32
}

/// The survey, or the refusal in the reader's order 8, 9, 10, 11, 14, 12, 13.
pub fn read(bytes: &[u8], serial_room: usize, table_room: usize) -> Result<Survey, u64> {
    if bytes.len() < 9 || bytes[0] != b'R' || bytes[1] != b'L' || bytes[2] != b'M' {
        return Err(card::MARK);
    }
    if two(bytes, 3) != 1 {
        return Err(card::VERSION);
    }
    let (n, m) = (two(bytes, 5), two(bytes, 7));
    if n > 256 || m > 8192 {
        return Err(card::COUNT);
    }
    if bytes.len() != 9 + 4 * n + 4 * m {
        return Err(card::LENGTH);
    }
    if serial_room < n || table_room < 4 * n {
        return Err(card::ROOM);
    }
    let serials: Vec<u32> = (0..n).map(|i| four(bytes, 9 + 4 * i)).collect();
    if !good_serials(&serials) {
        return Err(card::SERIAL);
    }
    let mut mesh = Mesh::unlinked(n);
    let mut last: Option<(usize, usize)> = None;
    for i in 0..m {
        let at = 9 + 4 * n + 4 * i;
        let (a, b) = (two(bytes, at), two(bytes, at + 2));
        let rises = match last {
            None => true,
            Some((x, y)) => a > x || (a == x && b > y),
        };
        if !(a < b && b < n && rises) {
            return Err(card::LINK);
        }
        mesh.link(a, b);
        last = Some((a, b));
    }
    Ok(Survey { serials, mesh, links: m })
}

pub fn good_serials(serials: &[u32]) -> bool {
    let mut last = 0;
    for &serial in serials {
        if serial <= last {
            return false;
        }
        last = serial;
    }
    true
}

/// The file, or the refusal in the writer's order 2, 3, 4, 12, 10, 14.
pub fn write(n: usize, serials: &[u32], table: &[u64], room: usize) -> Result<Vec<u8>, u64> {
    let refusal = card::table(n, table);
    if refusal != 0 {
        return Err(refusal);
    }
    if serials.len() != n || !good_serials(serials) {
        return Err(card::SERIAL);
    }
    let links = Mesh { n, table: table.to_vec() }.links();
    if links.len() > 8192 {
        return Err(card::COUNT);
    }
    let bytes = file(1, n, links.len(), serials, &links);
    if room < bytes.len() {
        return Err(card::ROOM);
    }
    Ok(bytes)
}

/// The bytes of these fields, good or not.
pub fn file(version: usize, n: usize, m: usize, serials: &[u32], links: &[(usize, usize)]) -> Vec<u8> {
    let mut bytes = b"RLM".to_vec();
    for number in [version, n, m] {
        bytes.push((number % 256) as u8);
        bytes.push((number / 256 % 256) as u8);
    }
    for &serial in serials {
        for shift in [0, 8, 16, 24] {
            bytes.push((serial >> shift) as u8);
        }
    }
    for &(a, b) in links {
        for number in [a, b] {
            bytes.push((number % 256) as u8);
            bytes.push((number / 256 % 256) as u8);
        }
    }
    bytes
}
