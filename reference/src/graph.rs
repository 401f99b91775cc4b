//! Directed graphs held in adjacency arrays, one for each direction.

/// One end of an edge, as seen from the other.
#[derive(Clone, Copy, Debug, Default)]
pub struct Link {
    pub vertex: u32,
    pub width: u32,
}

impl Link {
    pub fn at(&self) -> usize {
        self.vertex as usize
    }
}

#[derive(Clone, Copy, Debug)]
pub struct Edge {
    pub from: u32,
    pub to: u32,
    pub width: u32,
}

pub struct Graph {
    pub weights: Vec<u32>,
    forward: Adjacency,
    backward: Adjacency,
}

struct Adjacency {
    first: Vec<u32>,
    links: Vec<Link>,
}

impl Adjacency {
    /// The same edges from their other ends, by a counting sort.
    fn turned(&self, n: usize) -> Adjacency {
        let mut first = starts_of(n, self.links.iter().map(Link::at));
        let mut links = vec![Link::default(); self.links.len()];
        for v in 0..n {
            for link in self.of(v) {
                let next = &mut first[link.at() + 1];
                links[*next as usize] = Link { vertex: v as u32, width: link.width };
                *next += 1;
            }
        }
        Adjacency { first, links }
    }

    fn of(&self, v: usize) -> &[Link] {
        &self.links[self.first[v] as usize..self.first[v + 1] as usize]
    }

    fn degree(&self, v: usize) -> u32 {
        self.first[v + 1] - self.first[v]
    }
}

/// For a counting sort that counts up in entry v + 1: where the items with key v begin.
/// Once all are placed, those with key v lie from entry v to entry v + 1.
fn starts_of(count: usize, keys: impl Iterator<Item = usize>) -> Vec<u32> {
    let mut first = vec![0; count + 2];
    for key in keys {
        first[key + 2] += 1;
    }
    for v in 2..count + 2 {
        first[v] += first[v - 1];
    }
    first
}

/// Stable counting sort of items by their keys: those with key v are `sorted[first[v]..first[v + 1]]`.
pub fn bucket<T: Copy + Default>(
    count: usize,
    items: impl Iterator<Item = (usize, T)> + Clone,
) -> (Vec<u32>, Vec<T>) {
    let mut first = starts_of(count, items.clone().map(|(key, _)| key));
    let mut sorted = vec![T::default(); first[count + 1] as usize];
    for (key, item) in items {
        sorted[first[key + 1] as usize] = item;
        first[key + 1] += 1;
    }
    (first, sorted)
}

impl Graph {
    pub fn new(weights: Vec<u32>, edges: impl Iterator<Item = Edge> + Clone) -> Graph {
        let link = |e: Edge| (e.from as usize, Link { vertex: e.to, width: e.width });
        let (first, links) = bucket(weights.len(), edges.map(link));
        Graph::grouped(weights, first, links)
    }

    /// The successors of v are the links from `first[v]` to `first[v + 1]`.
    pub fn grouped(weights: Vec<u32>, first: Vec<u32>, links: Vec<Link>) -> Graph {
        let forward = Adjacency { first, links };
        let backward = forward.turned(weights.len());
        Graph { weights, forward, backward }
    }

    pub fn size(&self) -> usize {
        self.weights.len()
    }

    /// Receivers of v.
    pub fn successors(&self, v: usize) -> &[Link] {
        self.forward.of(v)
    }

    /// Senders of v.
    pub fn predecessors(&self, v: usize) -> &[Link] {
        self.backward.of(v)
    }

    pub fn receives_once(&self, v: usize) -> bool {
        self.backward.degree(v) == 1
    }

    pub fn sends_once(&self, v: usize) -> bool {
        self.forward.degree(v) == 1
    }

    pub fn total_width(&self) -> u64 {
        self.forward.links.iter().map(|l| l.width as u64).sum()
    }

    /// Play order: always the lowest vertex whose predecessors have all been taken.
    /// Shorter than the graph exactly if there is a cycle.
    pub fn topological_order(&self) -> Vec<u16> {
        let n = self.size();
        let mut waiting: Vec<u32> = (0..n).map(|v| self.backward.degree(v)).collect();
        let mut ready = vec![0u64; n.div_ceil(64)];
        for v in (0..n).filter(|&v| waiting[v] == 0) {
            ready[v / 64] |= 1 << (v % 64);
        }
        let mut order = Vec::with_capacity(n);
        let mut word = 0; // no vertex below 64 * word is ready
        while word < ready.len() {
            if ready[word] == 0 {
                word += 1;
                continue;
            }
            let v = 64 * word + ready[word].trailing_zeros() as usize;
            ready[word] &= ready[word] - 1;
            order.push(v as u16);
            for link in self.successors(v) {
                let w = link.at();
                waiting[w] -= 1;
                if waiting[w] == 0 {
                    ready[w / 64] |= 1 << (w % 64);
                    word = word.min(w / 64);
                }
            }
        }
        order
    }

    /// Edges on the longest path ending at each vertex, given a topological order.
    pub fn levels(&self, order: &[u16]) -> Vec<u16> {
        let mut level = vec![0; self.size()];
        for &v in order {
            let next = level[v as usize] + 1;
            for link in self.successors(v as usize) {
                level[link.at()] = level[link.at()].max(next);
            }
        }
        level
    }

    /// The graph of the clusters; parallel edges become one with the summed width.
    pub fn contract(&self, cluster: &[u16], count: usize) -> Graph {
        let keys = cluster.iter().enumerate().map(|(v, &c)| (c as usize, v as u16));
        let (begins, members) = bucket(count, keys);
        let mut weights = vec![0; count];
        let mut first = Vec::with_capacity(count + 1);
        let mut links: Vec<Link> = Vec::with_capacity(self.forward.links.len());
        let mut slot = vec![0; count]; // one past the last link made to this cluster
        first.push(0);
        for from in 0..count {
            let begin = links.len();
            for &v in &members[begins[from] as usize..begins[from + 1] as usize] {
                weights[from] += self.weights[v as usize];
                for link in self.successors(v as usize) {
                    let to = cluster[link.at()] as usize;
                    if to == from {
                        continue;
                    }
                    if slot[to] > begin {
                        links[slot[to] - 1].width += link.width;
                    } else {
                        links.push(Link { vertex: to as u32, width: link.width });
                        slot[to] = links.len();
                    }
                }
            }
            first.push(links.len() as u32);
        }
        Graph::grouped(weights, first, links)
    }

    /// The lowest vertex on a cycle, by Tarjan's strongly connected components.
    pub fn lowest_on_cycle(&self) -> Option<usize> {
        let n = self.size();
        let (mut found, mut low) = (vec![0; n], vec![0; n]);
        let (mut open, mut path) = (Vec::new(), Vec::new());
        let (mut count, mut lowest) = (0, None);
        for root in 0..n {
            if found[root] == 0 {
                path.push((root, 0));
            }
            while let Some(&mut (v, ref mut next)) = path.last_mut() {
                if *next == 0 {
                    count += 1;
                    (found[v], low[v]) = (count, count);
                    open.push(v);
                }
                if let Some(link) = self.successors(v).get(*next) {
                    *next += 1;
                    let w = link.at();
                    if found[w] == 0 {
                        path.push((w, 0));
                    } else {
                        low[v] = low[v].min(found[w]);
                    }
                    continue;
                }
                path.pop();
                if let Some(&(parent, _)) = path.last() {
                    low[parent] = low[parent].min(low[v]);
                }
                if low[v] == found[v] {
                    let begin = open.iter().rposition(|&w| w == v).expect("v is open");
                    if open.len() - begin > 1 {
                        lowest = open[begin..].iter().copied().chain(lowest).min();
                    }
                    for w in open.drain(begin..) {
                        found[w] = usize::MAX; // closed: never lowers anything again
                    }
                }
            }
        }
        lowest
    }
}
