//! The mesh families that are measured, each from a fixed seed.

pub struct Mesh {
    pub name: String,
    pub n: usize,
    pub table: Vec<u64>,
}

pub struct Rand {
    state: u64,
}

impl Rand {
    fn new(seed: u64) -> Rand {
        Rand { state: seed }
    }

    fn next(&mut self) -> u64 {
        self.state = self.state.wrapping_add(0x9e37_79b9_7f4a_7c15);
        let mut z = self.state;
        z = (z ^ (z >> 30)).wrapping_mul(0xbf58_476d_1ce4_e5b9);
        z = (z ^ (z >> 27)).wrapping_mul(0x94d0_49bb_1331_11eb);
        z ^ (z >> 31)
    }

    fn below(&mut self, limit: usize) -> usize {
        ((self.next() >> 32) * limit as u64 >> 32) as usize
    }

    fn shuffle<T>(&mut self, list: &mut [T]) {
        for i in (1..list.len()).rev() {
            let j = self.below(i + 1);
            list.swap(i, j);
        }
    }
}

impl Mesh {
    fn new(name: String, n: usize) -> Mesh {
        Mesh { name, n, table: vec![0; 4 * n] }
    }

    pub fn linked(&self, a: usize, b: usize) -> bool {
        self.table[4 * a + b / 64] >> (b % 64) & 1 == 1
    }

    fn link(&mut self, a: usize, b: usize) {
        if a != b {
            self.table[4 * a + b / 64] |= 1 << (b % 64);
            self.table[4 * b + a / 64] |= 1 << (a % 64);
        }
    }

    pub fn links(&self) -> Vec<(usize, usize)> {
        self.pairs(true)
    }

    pub fn unlinked_pairs(&self) -> Vec<(usize, usize)> {
        self.pairs(false)
    }

    fn pairs(&self, linked: bool) -> Vec<(usize, usize)> {
        let mut list = Vec::new();
        for a in 0..self.n {
            for b in a + 1..self.n {
                if self.linked(a, b) == linked {
                    list.push((a, b));
                }
            }
        }
        list
    }

    /// At most `most` of the unlinked pairs, evenly spread.
    pub fn some_unlinked_pairs(&self, most: usize) -> Vec<(usize, usize)> {
        let all = self.unlinked_pairs();
        if all.len() <= most {
            return all;
        }
        (0..most).map(|i| all[i * all.len() / most]).collect()
    }

    /// The same mesh with its numbers shuffled.
    fn shuffled(self, rand: &mut Rand) -> Mesh {
        let mut place: Vec<usize> = (0..self.n).collect();
        rand.shuffle(&mut place);
        let mut mesh = Mesh::new(self.name.clone(), self.n);
        for (a, b) in self.links() {
            mesh.link(place[a], place[b]);
        }
        mesh
    }
}

/// Stations thrown on a square and linked when near; `degree` links a station, about.
fn geometric(n: usize, degree: usize) -> Mesh {
    let mut rand = Rand::new(1000 + (n * degree) as u64);
    let mut mesh = Mesh::new(format!("geometric {} links", degree), n);
    let spots: Vec<(i64, i64)> = (0..n).map(|_| (rand.below(10_000) as i64, rand.below(10_000) as i64)).collect();
    let reach = (1.0e8 * degree as f64 / (std::f64::consts::PI * n as f64)) as i64;
    for a in 0..n {
        for b in a + 1..n {
            let (x, y) = (spots[a].0 - spots[b].0, spots[a].1 - spots[b].1);
            if x * x + y * y <= reach {
                mesh.link(a, b);
            }
        }
    }
    mesh
}

/// Cliques of `size` stations in a row, each sharing `shared` with the next, numbers shuffled.
fn clique_chain(n: usize, size: usize, shared: usize) -> Mesh {
    let mut rand = Rand::new(2000 + (n * size) as u64);
    let mut mesh = Mesh::new(format!("clique chain {}/{}", size, shared), n);
    let mut start = 0;
    while start + shared < n {
        for a in start..(start + size).min(n) {
            for b in a + 1..(start + size).min(n) {
                mesh.link(a, b);
            }
        }
        start += size - shared;
    }
    mesh.shuffled(&mut rand)
}

/// Small lattices of `side` by `side` stations in a ring, each joined with the next by `side` links.
fn lattice_ring(n: usize, side: usize) -> Mesh {
    let mut mesh = Mesh::new(format!("ring of lattices {0}x{0}", side), n);
    let block = side * side;
    let blocks = n / block;
    for at in 0..blocks {
        let base = at * block;
        for i in 0..side {
            for j in 0..side {
                mesh.link(base + i * side + j, base + (i + 1) % side * side + j);
                mesh.link(base + i * side + j, base + i * side + (j + 1) % side);
            }
            mesh.link(base + i * side + side - 1, (at + 1) % blocks * block + i * side);
        }
    }
    for a in blocks * block..n {
        mesh.link(a, a - 1);
    }
    mesh
}

fn grid(n: usize, slanted: bool) -> Mesh {
    let mut mesh = Mesh::new(if slanted { "grid with slants" } else { "grid" }.to_string(), n);
    let width = (n as f64).sqrt() as usize;
    for a in 0..n {
        if a % width + 1 < width && a + 1 < n {
            mesh.link(a, a + 1);
        }
        if a + width < n {
            mesh.link(a, a + width);
        }
        if slanted && a % width + 1 < width && a + width + 1 < n {
            mesh.link(a, a + width + 1);
        }
        if slanted && a % width > 0 && a + width - 1 < n {
            mesh.link(a, a + width - 1);
        }
    }
    mesh
}

/// `degree` links a station on average, anywhere.
fn random(kind: &str, n: usize, degree: usize) -> Mesh {
    let mut rand = Rand::new(3000 + (n * degree) as u64);
    let mut mesh = Mesh::new(format!("{} {} links", kind, degree), n);
    let mut made = 0;
    while made < n * degree / 2 {
        let (a, b) = (rand.below(n), rand.below(n));
        if a != b && !mesh.linked(a, b) {
            mesh.link(a, b);
            made += 1;
        }
    }
    mesh
}

/// Dense blocks, each joined with the next through `cut` stations that both are linked with.
fn planted_cuts(n: usize, block: usize, cut: usize) -> Mesh {
    let mut rand = Rand::new(4000 + (n * block + cut) as u64);
    let mut mesh = Mesh::new(format!("planted cuts {} of {}", cut, block), n);
    let mut start = 0;
    while start + cut < n {
        let end = (start + block).min(n);
        for a in start..end {
            for b in a + 1..end {
                if rand.below(100) < 60 || b - a <= 4 {
                    mesh.link(a, b);
                }
            }
        }
        start = end - cut.min(end);
        if end == n {
            break;
        }
    }
    mesh.shuffled(&mut rand)
}

/// Each station linked with the `half` next ones on both sides: connectivity 2 * half.
fn harary(n: usize, half: usize) -> Mesh {
    let mut mesh = Mesh::new(format!("Harary {}", 2 * half), n);
    for a in 0..n {
        for step in 1..=half {
            mesh.link(a, (a + step) % n);
        }
    }
    mesh
}

/// The union of random rings, `degree` links a station but for links that fall together.
fn regular(n: usize, degree: usize) -> Mesh {
    let mut rand = Rand::new(5000 + (n * degree) as u64);
    let mut mesh = Mesh::new(format!("regular {}", degree), n);
    for _ in 0..degree / 2 {
        let mut ring: Vec<usize> = (0..n).collect();
        rand.shuffle(&mut ring);
        for i in 0..n {
            mesh.link(ring[i], ring[(i + 1) % n]);
        }
    }
    mesh
}

/// Islands of `size` stations, each dense, numbers shuffled.
fn islands(n: usize, size: usize, percent: usize) -> Mesh {
    let mut rand = Rand::new(6000 + (n * size) as u64);
    let mut mesh = Mesh::new(format!("islands of {}", size), n);
    for a in 0..n {
        for b in a + 1..n {
            if a / size == b / size && rand.below(100) < percent {
                mesh.link(a, b);
            }
        }
    }
    mesh.shuffled(&mut rand)
}

/// `hubs` stations linked with all, the others not with each other.
fn star(n: usize, hubs: usize) -> Mesh {
    let mut mesh = Mesh::new(format!("star of {}", hubs), n);
    for a in 0..hubs {
        for b in 0..n {
            mesh.link(a, b);
        }
    }
    mesh
}

/// Two sides, links only across.
fn bipartite(n: usize, side: usize, percent: usize) -> Mesh {
    let mut rand = Rand::new(7000 + (n * side + percent) as u64);
    let mut mesh = Mesh::new(format!("bipartite {} at {}%", side, percent), n);
    for a in 0..side {
        for b in side..n {
            if rand.below(100) < percent {
                mesh.link(a, b);
            }
        }
    }
    mesh
}

/// Cliques of `size` stations, as many as there is room for, all linked with the last `hubs` stations, which are linked too.
fn cliques_over_hubs(n: usize, size: usize, hubs: usize) -> Mesh {
    let mut mesh = Mesh::new(format!("cliques of {} over {} hubs", size, hubs), n);
    for a in 0..n {
        for b in a + 1..n {
            if b >= n - hubs || a / size == b / size {
                mesh.link(a, b);
            }
        }
    }
    mesh
}

/// The six families of the routes question.
pub fn for_routes(n: usize) -> Vec<Mesh> {
    vec![
        grid(n, false),
        geometric(n, 10),
        regular(n, 8),
        clique_chain(n, 10, 3),
        random("sparse", n, 4),
        random("dense", n, n / 4),
    ]
}

/// All families.
pub fn all(n: usize) -> Vec<Mesh> {
    let mut meshes = vec![
        geometric(n, 4),
        geometric(n, 8),
        geometric(n, 12),
        geometric(n, 20),
        geometric(n, 32),
        clique_chain(n, 4, 1),
        clique_chain(n, 6, 2),
        clique_chain(n, 12, 4),
        clique_chain(n, 20, 10),
        lattice_ring(n, 4),
        lattice_ring(n, 5),
        lattice_ring(n, 8),
        grid(n, false),
        grid(n, true),
        random("sparse", n, 3),
        random("sparse", n, 6),
        random("dense", n, n / 8),
        random("dense", n, n / 4),
        random("dense", n, n / 2),
        planted_cuts(n, n / 8, 3),
        planted_cuts(n, n / 4, 7),
        planted_cuts(n, n / 4, 15),
        planted_cuts(n, n / 2, 15),
        harary(n, 8),
        regular(n, 6),
        regular(n, 12),
        regular(n, 16),
        regular(n, 20),
        islands(n, 8, 90),
        islands(n, n / 4, 40),
        star(n, 1),
        star(n, 5),
        star(n, 16),
        bipartite(n, n / 2, 10),
        bipartite(n, n / 2, 50),
        bipartite(n, 16, 100),
    ];
    // Harary graphs whose stations carry shuffled numbers
    let mut rand = Rand::new(8000 + n as u64);
    let mut shuffled = harary(n, 8).shuffled(&mut rand);
    shuffled.name = "Harary 16, shuffled".to_string();
    meshes.push(shuffled);
    meshes
}

/// Large pages of the night list: the most groups of a level, chains of many cliques and of many lines, and the most bytes.
pub fn large_pages() -> Vec<Mesh> {
    let mut pairs = islands(256, 2, 100);
    pairs.name = "128 linked pairs".to_string();
    vec![pairs, clique_chain(256, 3, 1), clique_chain(256, 17, 1), cliques_over_hubs(256, 4, 13)]
}

/// Families at a fixed number of links a station, to see how time grows with n.
pub fn growing(n: usize) -> Vec<Mesh> {
    vec![geometric(n, 12), regular(n, 8), clique_chain(n, 12, 4), harary(n, 8)]
}
