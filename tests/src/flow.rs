//! Maximum flow by Dinic's method, on a graph of numbered vertices.

pub struct Graph {
    /// Edges in pairs: edge e and its reverse e ^ 1. To which vertex, and what capacity is left.
    to: Vec<usize>,
    left: Vec<u64>,
    out: Vec<Vec<usize>>,
}

impl Graph {
    pub fn new(vertices: usize) -> Graph {
        Graph { to: Vec::new(), left: Vec::new(), out: vec![Vec::new(); vertices] }
    }

    /// Adds an edge and answers its number.
    pub fn edge(&mut self, from: usize, to: usize, capacity: u64) -> usize {
        let e = self.to.len();
        self.to.extend([to, from]);
        self.left.extend([capacity, 0]);
        self.out[from].push(e);
        self.out[to].push(e + 1);
        e
    }

    /// What flows along an edge.
    pub fn flow(&self, edge: usize) -> u64 {
        self.left[edge + 1]
    }

    /// The distance of each vertex from `source` along edges with capacity left.
    fn distances(&self, source: usize) -> Vec<usize> {
        let mut distance = vec![usize::MAX; self.out.len()];
        distance[source] = 0;
        let mut queue = vec![source];
        let mut next = 0;
        while next < queue.len() {
            let v = queue[next];
            next += 1;
            for &e in &self.out[v] {
                let u = self.to[e];
                if self.left[e] > 0 && distance[u] == usize::MAX {
                    distance[u] = distance[v] + 1;
                    queue.push(u);
                }
            }
        }
        distance
    }

    /// Sends up to `amount` from v to the sink along edges that lead one step further.
    fn send(&mut self, v: usize, sink: usize, amount: u64, distance: &[usize], tried: &mut [usize]) -> u64 {
        if v == sink {
            return amount;
        }
        let mut sent = 0;
        while tried[v] < self.out[v].len() {
            let e = self.out[v][tried[v]];
            let u = self.to[e];
            if self.left[e] > 0 && distance[u] == distance[v] + 1 {
                let part = self.send(u, sink, (amount - sent).min(self.left[e]), distance, tried);
                self.left[e] -= part;
                self.left[e ^ 1] += part;
                sent += part;
                if sent == amount {
                    return sent;
                }
            }
            tried[v] += 1;
        }
        sent
    }

    pub fn maximum(&mut self, source: usize, sink: usize) -> u64 {
        let mut total = 0;
        loop {
            let distance = self.distances(source);
            if distance[sink] == usize::MAX {
                return total;
            }
            let mut tried = vec![0; self.out.len()];
            total += self.send(source, sink, u64::MAX, &distance, &mut tried);
        }
    }

    /// The vertices from which the sink can be reached along edges with capacity left.
    pub fn reaching(&self, sink: usize) -> Vec<bool> {
        let mut reaching = vec![false; self.out.len()];
        reaching[sink] = true;
        let mut stack = vec![sink];
        while let Some(v) = stack.pop() {
            for &e in &self.out[v] {
                let u = self.to[e];
                if self.left[e ^ 1] > 0 && !reaching[u] {
                    reaching[u] = true;
                    stack.push(u);
                }
            }
        }
        reaching
    }
}
