//! Meshes as tables of 4n words, and makers of many kinds of random meshes.

use crate::rand::Rand;

#[derive(Clone, Debug)]
pub struct Mesh {
    pub n: usize,
    pub table: Vec<u64>,
}

impl Mesh {
    pub fn unlinked(n: usize) -> Mesh {
        Mesh { n, table: vec![0; 4 * n] }
    }

    pub fn of_links(n: usize, links: &[(usize, usize)]) -> Mesh {
        let mut mesh = Mesh::unlinked(n);
        for &(a, b) in links {
            mesh.link(a, b);
        }
        mesh
    }

    pub fn linked(&self, a: usize, b: usize) -> bool {
        self.table[4 * a + b / 64] >> (b % 64) & 1 == 1
    }

    pub fn link(&mut self, a: usize, b: usize) {
        if a != b {
            self.table[4 * a + b / 64] |= 1 << (b % 64);
            self.table[4 * b + a / 64] |= 1 << (a % 64);
        }
    }

    pub fn unlink(&mut self, a: usize, b: usize) {
        self.table[4 * a + b / 64] &= !(1 << (b % 64));
        self.table[4 * b + a / 64] &= !(1 << (a % 64));
    }

    /// The links a < b, rising by a, then b.
    pub fn links(&self) -> Vec<(usize, usize)> {
        let mut list = Vec::new();
        for a in 0..self.n {
            for b in a + 1..self.n {
                if self.linked(a, b) {
                    list.push((a, b));
                }
            }
        }
        list
    }

    /// All stations of `members` linked with each other.
    pub fn join_all(&mut self, members: &[usize]) {
        for (i, &a) in members.iter().enumerate() {
            for &b in &members[i + 1..] {
                self.link(a, b);
            }
        }
    }

    /// The same mesh with its stations numbered `place[0]`, `place[1]`, .. among `n` stations.
    pub fn placed(&self, n: usize, place: &[usize]) -> Mesh {
        let mut mesh = Mesh::unlinked(n);
        for (a, b) in self.links() {
            mesh.link(place[a], place[b]);
        }
        mesh
    }

    pub fn shuffled(&self, rand: &mut Rand) -> Mesh {
        let mut place: Vec<usize> = (0..self.n).collect();
        rand.shuffle(&mut place);
        self.placed(self.n, &place)
    }
}

/// `count` different numbers below `n`, rising.
pub fn places(count: usize, n: usize, rand: &mut Rand) -> Vec<usize> {
    let mut all: Vec<usize> = (0..n).collect();
    rand.shuffle(&mut all);
    all.truncate(count);
    all.sort();
    all
}

/// Each pair linked in `percent` of a hundred cases.
pub fn random(n: usize, percent: usize, rand: &mut Rand) -> Mesh {
    let mut mesh = Mesh::unlinked(n);
    for a in 0..n {
        for b in a + 1..n {
            if rand.chance(percent) {
                mesh.link(a, b);
            }
        }
    }
    mesh
}

/// Islands, each linked at random.
fn islands(n: usize, rand: &mut Rand) -> Mesh {
    let count = rand.from_to(2, 4);
    let percent = rand.pick(&[30, 60, 80, 100]);
    let home: Vec<usize> = (0..n).map(|_| rand.below(count)).collect();
    let mut mesh = Mesh::unlinked(n);
    for a in 0..n {
        for b in a + 1..n {
            if home[a] == home[b] && rand.chance(percent) {
                mesh.link(a, b);
            }
        }
    }
    mesh
}

/// Cliques in a row, each sharing its last stations with the next: the shared ones are the only weak sets.
fn clique_row(n: usize, rand: &mut Rand) -> Mesh {
    let mut mesh = Mesh::unlinked(n);
    let shared = rand.from_to(0, 3);
    let size = shared + rand.from_to(1, 4);
    let mut start = 0;
    while start < n {
        let members: Vec<usize> = (start..(start + size).min(n)).collect();
        mesh.join_all(&members);
        start += size - shared;
    }
    mesh
}

/// Cliques of `size` stations, each but the first made of `shared` stations of an earlier one and new ones, while there
/// are new stations and no more than `most` links. At a level above `shared` and below `size` each clique is a group.
pub fn clique_tree(n: usize, size: usize, shared: usize, most: usize, rand: &mut Rand) -> Mesh {
    let mut mesh = Mesh::unlinked(n);
    let mut cliques: Vec<Vec<usize>> = Vec::new();
    let (mut used, mut links) = (0, 0);
    loop {
        let mut members: Vec<usize> = match cliques.len() {
            0 => Vec::new(),
            count => {
                let old = &cliques[rand.below(count)];
                places(shared, size, rand).iter().map(|&i| old[i]).collect()
            }
        };
        let old = members.len();
        links += (size * (size - 1) - old * old.saturating_sub(1)) / 2;
        if used + size - old > n || links > most {
            return mesh;
        }
        members.extend(used..used + size - old);
        used += size - old;
        mesh.join_all(&members);
        cliques.push(members);
    }
}

/// Stations 0 to `hubs` - 1 linked with all others, which are linked in pairs: at level `hubs` + 1 a group for each
/// pair, which is as many as a level can have.
pub fn pairs_over_hubs(n: usize, hubs: usize) -> Mesh {
    let mut mesh = Mesh::unlinked(n);
    for a in 0..n {
        for b in 0..hubs.min(n) {
            mesh.link(a, b);
        }
    }
    for a in (hubs..n.saturating_sub(1)).step_by(2) {
        mesh.link(a, a + 1);
    }
    mesh
}

/// Station i linked with the next `reach` around the ring.
pub fn ring(n: usize, reach: usize) -> Mesh {
    let mut mesh = Mesh::unlinked(n);
    for a in 0..n {
        for step in 1..=reach {
            mesh.link(a, (a + step) % n);
        }
    }
    mesh
}

/// All stations linked but for a few pairs.
fn nearly_all(n: usize, rand: &mut Rand) -> Mesh {
    let mut mesh = random(n, 100, rand);
    if n >= 2 {
        for _ in 0..rand.below(n + 1) {
            let a = rand.below(n);
            let b = rand.below(n);
            if a != b {
                mesh.unlink(a, b);
            }
        }
    }
    mesh
}

fn bipartite(n: usize, rand: &mut Rand) -> Mesh {
    let side = rand.below(n + 1);
    let percent = rand.pick(&[60, 90, 100]);
    let mut mesh = Mesh::unlinked(n);
    for a in 0..side {
        for b in side..n {
            if rand.chance(percent) {
                mesh.link(a, b);
            }
        }
    }
    mesh
}

/// A few stations linked with all others, which are linked at random.
fn hubs(n: usize, rand: &mut Rand) -> Mesh {
    let count = rand.from_to(1, 3);
    let percent = rand.pick(&[0, 10, 30, 50]);
    let mut mesh = random(n, percent, rand);
    for a in 0..count.min(n) {
        for b in 0..n {
            mesh.link(a, b);
        }
    }
    mesh
}

/// Chains from station 0 to station 1 with a few links across: a count of routes has to lead chains back that it
/// laid before, over several stations.
pub fn woven(n: usize, rand: &mut Rand) -> Mesh {
    let mut mesh = Mesh::unlinked(n);
    if n < 4 {
        return mesh;
    }
    let chains = rand.from_to(2, (n / 3).max(2).min(12));
    let mut last = vec![0; chains];
    let mut home = vec![chains; n];
    for a in 2..n {
        let chain = if a - 2 < chains { a - 2 } else { rand.below(chains) };
        mesh.link(last[chain], a);
        last[chain] = a;
        home[a] = chain;
    }
    for a in last {
        mesh.link(a, 1);
    }
    for _ in 0..rand.from_to(1, n / 2) {
        let (a, b) = (rand.from_to(2, n - 1), rand.from_to(2, n - 1));
        if home[a] != home[b] {
            mesh.link(a, b);
        }
    }
    mesh
}

/// Two cliques joined by a few stations that have few links: those stations are in every weak set, and a search
/// from the station with the fewest links alone finds none.
fn thinly_joined(n: usize, rand: &mut Rand) -> Mesh {
    let mut mesh = Mesh::unlinked(n);
    let between = rand.from_to(1, 3);
    let half = (n - between) / 2;
    let one: Vec<usize> = (between..between + half).collect();
    let other: Vec<usize> = (between + half..n).collect();
    for clique in [&one, &other] {
        mesh.join_all(clique);
        for a in 0..between {
            for _ in 0..rand.from_to(1, 4) {
                mesh.link(a, clique[rand.below(clique.len())]);
            }
        }
    }
    if rand.chance(50) {
        mesh.join_all(&(0..between).collect::<Vec<usize>>());
    }
    mesh
}

/// A mesh of `n` stations, of any kind, most often with its numbers shuffled.
pub fn any(n: usize, rand: &mut Rand) -> Mesh {
    if n == 0 {
        return Mesh::unlinked(0);
    }
    let mesh = match rand.below(12) {
        0 | 1 | 2 => {
            let percent = rand.from_to(0, 100);
            random(n, percent, rand)
        }
        3 => islands(n, rand),
        4 | 5 => clique_row(n, rand),
        6 => ring(n, rand.from_to(1, 3)),
        7 => nearly_all(n, rand),
        8 => bipartite(n, rand),
        9 => woven(n, rand),
        10 if n >= 7 => thinly_joined(n, rand),
        _ => hubs(n, rand),
    };
    if rand.chance(75) {
        mesh.shuffled(rand)
    } else {
        mesh
    }
}

/// Stations thrown on a square and linked when near.
fn near(n: usize, rand: &mut Rand) -> Mesh {
    let spots: Vec<(i64, i64)> = (0..n).map(|_| (rand.below(1000) as i64, rand.below(1000) as i64)).collect();
    let degree = rand.from_to(3, 14);
    let reach = (1_000_000.0 * degree as f64 / (3.14 * n as f64)) as i64;
    let mut mesh = Mesh::unlinked(n);
    for a in 0..n {
        for b in a + 1..n {
            let (x, y) = (spots[a].0 - spots[b].0, spots[a].1 - spots[b].1);
            if x * x + y * y <= reach {
                mesh.link(a, b);
            }
        }
    }
    mesh
}

fn grid(n: usize, rand: &mut Rand) -> Mesh {
    let width = rand.from_to(2, 16).min(n);
    let slanted = rand.chance(50);
    let mut mesh = Mesh::unlinked(n);
    for a in 0..n {
        if a % width + 1 < width && a + 1 < n {
            mesh.link(a, a + 1);
        }
        if a + width < n {
            mesh.link(a, a + width);
        }
        if slanted && a % width + 1 < width && a + width + 1 < n {
            mesh.link(a, a + width + 1);
        }
    }
    mesh
}

/// Dense parts joined by few stations.
fn parts(n: usize, rand: &mut Rand) -> Mesh {
    let mut mesh = Mesh::unlinked(n);
    let shared = rand.from_to(0, 4);
    let size = rand.from_to(6, 30);
    let percent = rand.pick(&[40, 70, 100]);
    let mut start = 0;
    while start < n {
        let end = (start + size).min(n);
        for a in start..end {
            for b in a + 1..end {
                if rand.chance(percent) {
                    mesh.link(a, b);
                }
            }
        }
        start += size - shared;
    }
    mesh
}

/// A wide mesh of up to 256 stations, of any kind.
pub fn wide(n: usize, rand: &mut Rand) -> Mesh {
    let mesh = match rand.below(8) {
        0 | 1 => near(n, rand),
        2 => grid(n, rand),
        3 | 4 => parts(n, rand),
        5 => {
            let percent = rand.from_to(1, 4);
            random(n, percent, rand)
        }
        6 => clique_row(n, rand),
        _ => ring(n, rand.from_to(1, 4)),
    };
    if rand.chance(60) {
        mesh.shuffled(rand)
    } else {
        mesh
    }
}
