//! Routes on wide meshes: the greatest flow in a network where each station is an arc of one unit,
//! grown one shortest chain at a time. When it stops, the full station arcs on the border of what the
//! start still reaches are a smallest loss that parts the two.

use crate::mesh::Mesh;

const MANY: u32 = 1 << 20;

pub struct Net {
    /// The arcs that leave each node; station i of the piece enters at node 2i and leaves at 2i + 1.
    leaving: Vec<Vec<usize>>,
    to: Vec<usize>,
    room: Vec<u32>,
    fresh: Vec<u32>,
    came_by: Vec<usize>,
}

impl Net {
    /// The network of the mesh inside `stations`, which become 0, 1, ..
    pub fn of(mesh: &Mesh, stations: &[usize]) -> Net {
        let nodes = 2 * stations.len();
        let mut net = Net {
            leaving: vec![Vec::new(); nodes],
            to: Vec::new(),
            room: Vec::new(),
            fresh: Vec::new(),
            came_by: vec![0; nodes],
        };
        for i in 0..stations.len() {
            net.arc(2 * i, 2 * i + 1, 1);
            for j in 0..stations.len() {
                if mesh.linked(stations[i], stations[j]) {
                    net.arc(2 * i + 1, 2 * j, MANY);
                }
            }
        }
        net.fresh = net.room.clone();
        net
    }

    fn arc(&mut self, from: usize, to: usize, room: u32) {
        self.leaving[from].push(self.to.len());
        self.to.push(to);
        self.room.push(room);
        self.leaving[to].push(self.to.len());
        self.to.push(from);
        self.room.push(0);
    }

    /// The routes from `a` to `b`, not linked, counted up to `limit`; below it, with a loss of that many.
    pub fn routes(&mut self, a: usize, b: usize, limit: usize) -> (usize, Option<Vec<usize>>) {
        self.room.copy_from_slice(&self.fresh);
        let (start, end) = (2 * a + 1, 2 * b);
        let mut count = 0;
        while count < limit {
            let reached = self.reach(start, end);
            if !reached[end] {
                let loss: Vec<usize> =
                    (0..reached.len() / 2).filter(|&i| reached[2 * i] && !reached[2 * i + 1] && 2 * i != start - 1).collect();
                return (count, Some(loss));
            }
            let mut node = end;
            while node != start {
                let arc = self.came_by[node];
                self.room[arc] -= 1;
                self.room[arc ^ 1] += 1;
                node = self.to[arc ^ 1];
            }
            count += 1;
        }
        (count, None)
    }

    fn reach(&mut self, start: usize, end: usize) -> Vec<bool> {
        let mut reached = vec![false; self.leaving.len()];
        let mut queue = vec![start];
        reached[start] = true;
        let mut next = 0;
        while next < queue.len() && !reached[end] {
            let node = queue[next];
            next += 1;
            for &arc in &self.leaving[node] {
                let to = self.to[arc];
                if self.room[arc] > 0 && !reached[to] {
                    reached[to] = true;
                    self.came_by[to] = arc;
                    queue.push(to);
                }
            }
        }
        reached
    }
}
