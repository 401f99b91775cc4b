//! Joining: matchings and the hierarchy of coarser graphs (the rungs).

use crate::graph::Graph;

pub const MAX_ROUNDS: usize = 8;

/// One rung: its graph, its play order, and for each vertex its cluster one rung up.
pub struct Level {
    pub graph: Graph,
    pub order: Vec<u16>,
    pub cluster: Vec<u16>,
}

/// All kept rungs, the blocks first. The last one's `cluster` is empty.
pub fn hierarchy(graph: Graph, order: Vec<u16>, k: usize, bound: u32) -> Vec<Level> {
    let mut levels = vec![Level { graph, order, cluster: Vec::new() }];
    while levels.len() <= MAX_ROUNDS {
        let top = levels.last_mut().expect("never empty");
        let size = top.graph.size();
        if size <= 2 * k {
            break;
        }
        let pairs = matching(&top.graph, &top.order, bound);
        if 10 * pairs.len() < size {
            break;
        }
        top.cluster = clusters(size, &pairs);
        let graph = top.graph.contract(&top.cluster, size - pairs.len());
        let order = graph.topological_order();
        levels.push(Level { graph, order, cluster: Vec::new() });
    }
    levels
}

#[derive(Clone, Copy, PartialEq)]
enum Role {
    Unmatched,
    Tail, // u of a pair
    Head, // v of a pair
}

/// One round: the pairs (u, v) in the order they were taken.
pub fn matching(graph: &Graph, order: &[u16], bound: u32) -> Vec<(u16, u16)> {
    let level = graph.levels(order);
    let mut role = vec![Role::Unmatched; graph.size()];
    let mut pairs = Vec::with_capacity(graph.size() / 2);
    for &u in order {
        let u = u as usize;
        // Join rule 2, where the other pair has the head.
        let barred = |w: usize| role[w] == Role::Head && level[w] == level[u] + 1;
        if role[u] != Role::Unmatched || graph.successors(u).iter().any(|l| barred(l.at())) {
            continue;
        }
        let mut best = (0, usize::MAX); // width and vertex; widths are above 0
        for link in graph.successors(u) {
            let v = link.at();
            let wider = link.width > best.0 || (link.width == best.0 && v < best.1);
            if wider
                && role[v] == Role::Unmatched
                && graph.weights[u] + graph.weights[v] <= bound
                && keeps_rule_1(graph, &level, u, v)
                && keeps_rule_2(graph, &level, &role, v)
            {
                best = (link.width, v);
            }
        }
        if best.0 > 0 {
            (role[u], role[best.1]) = (Role::Tail, Role::Head);
            pairs.push((u as u16, best.1 as u16));
        }
    }
    pairs
}

/// Of an edge u to v.
fn keeps_rule_1(graph: &Graph, level: &[u16], u: usize, v: usize) -> bool {
    level[v] == level[u] + 1 || graph.sends_once(u) || graph.receives_once(v)
}

/// Join rule 2, where the other pair has the tail.
fn keeps_rule_2(graph: &Graph, level: &[u16], role: &[Role], v: usize) -> bool {
    let barred = |w: usize| role[w] == Role::Tail && level[w] + 1 == level[v];
    !graph.predecessors(v).iter().any(|l| barred(l.at()))
}

/// Numbers the clusters in the order of their lowest vertices.
fn clusters(size: usize, pairs: &[(u16, u16)]) -> Vec<u16> {
    let mut cluster: Vec<u16> = (0..size as u16).collect(); // the cluster's lowest vertex, at first
    for &(u, v) in pairs {
        cluster[u.max(v) as usize] = u.min(v);
    }
    let mut count = 0;
    for v in 0..size {
        let lowest = cluster[v] as usize;
        if lowest == v {
            cluster[v] = count;
            count += 1;
        } else {
            cluster[v] = cluster[lowest];
        }
    }
    cluster
}
