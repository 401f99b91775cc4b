//! Refusals, checks 1 to 8 of document 01, and the check of a kit that is being drawn (document 02, b).

use crate::graph::{Edge, Graph};

pub const MAX_VERTICES: usize = 512;
pub const MAX_EDGES: usize = 1024;
pub const MAX_PARTS: usize = 16;

/// A row of the table in document 01 and the place that it returns.
#[derive(Clone, Copy, Debug, PartialEq, Eq)]
pub struct Refusal {
    pub number: u32,
    pub place: u32,
}

pub fn refuse<T>(number: u32, place: usize) -> Result<T, Refusal> {
    Err(Refusal { number, place: place as u32 })
}

/// What the checks gave, and how many edges the search for a repeated one tried.
#[derive(Clone, Copy, Debug, PartialEq, Eq)]
pub struct Checked<T> {
    pub result: Result<T, Refusal>,
    pub tried: usize,
}

/// The lists that a call lends.
#[derive(Clone, Copy)]
pub struct Lists<'a> {
    pub costs: &'a [u16],
    pub starts: &'a [u16],
    pub ends: &'a [u16],
    pub widths: &'a [u16],
}

impl Lists<'_> {
    fn graph(&self) -> Graph {
        let edges = self.starts.iter().zip(self.ends).zip(self.widths);
        let edge =
            |((&a, &b), &w): ((&u16, &u16), &u16)| Edge { from: a.into(), to: b.into(), width: w.into() };
        Graph::new(self.costs.iter().map(|&c| c as u32).collect(), edges.map(edge))
    }
}

/// Checks 1 to 3 and 5 to 8 of a kit that is being drawn: no table is lent with it.
pub fn check_kit(
    costs: &[u16],
    starts: &[u16],
    ends: &[u16],
    widths: &[u16],
    k: u32,
    bound: u32,
) -> Checked<()> {
    check(Lists { costs, starts, ends, widths }, k, bound, |_| true, acyclic)
}

/// Checks 1 to 8. `room` says whether the lent tables are long enough (check 4). `order` gets the lists that pass
/// 1 to 7; it hands back what is to be known of them, or the lowest vertex on a cycle (check 8).
pub fn check<T>(
    lists: Lists,
    k: u32,
    bound: u32,
    room: impl Fn(usize) -> bool,
    order: impl FnOnce(Lists) -> Result<T, usize>,
) -> Checked<T> {
    if let Err(refusal) = check_lists(lists, k, bound, room) {
        return Checked { result: Err(refusal), tried: 0 };
    }
    let (repeat, tried) = first_repeat(lists.starts, lists.ends);
    let result = match repeat {
        Some(e) => refuse(7, e),
        None => order(lists).or_else(|v| refuse(8, v)),
    };
    Checked { result, tried }
}

/// Checks 1 to 6.
fn check_lists(lists: Lists, k: u32, bound: u32, room: impl Fn(usize) -> bool) -> Result<(), Refusal> {
    let Lists { costs, starts, ends, widths } = lists;
    let (n, m) = (costs.len(), starts.len());
    if n == 0 || n > MAX_VERTICES {
        return refuse(1, 0);
    }
    if k == 0 || k as usize > MAX_PARTS || k as usize > n {
        return refuse(2, 0);
    }
    if ends.len() != m || widths.len() != m || m > MAX_EDGES {
        return refuse(3, 0);
    }
    if !room(n) {
        return refuse(4, 0);
    }
    if let Some(v) = lowest(costs.iter(), |&c| (c == 0) | (c as u32 > bound)) {
        return refuse(5, v);
    }
    let n = n as u16;
    let bad = |((&a, &b), &w): ((&u16, &u16), &u16)| (a >= n) | (b >= n) | (a == b) | (w == 0);
    lowest(starts.iter().zip(ends).zip(widths), bad).map_or(Ok(()), |e| refuse(6, e))
}

/// Where the lowest bad item is. Most kits have none, which is seen without a branch an item.
fn lowest<T>(mut items: impl Iterator<Item = T> + Clone, bad: impl Fn(T) -> bool) -> Option<usize> {
    let any = items.clone().fold(false, |any, item| any | bad(item));
    any.then(|| items.position(bad)).flatten()
}

/// Tries the edges from the lowest up as repeats of earlier ones, to the first find: which one it is, and how many
/// were tried. A hash table holds those before it; few edges get a small one, which is soon cleared.
fn first_repeat(starts: &[u16], ends: &[u16]) -> (Option<usize>, usize) {
    const FEW: usize = 128;
    match starts.len() {
        ..=FEW => first_repeat_in([0; 2 * FEW], starts, ends),
        _ => first_repeat_in([0; 2 * MAX_EDGES], starts, ends),
    }
}

/// The same in a table with more slots than edges, all free: a 0 there is no edge, since none runs from 0 to 0.
fn first_repeat_in<const SLOTS: usize>(
    mut seen: [u32; SLOTS],
    starts: &[u16],
    ends: &[u16],
) -> (Option<usize>, usize) {
    let mut tried = 0;
    for (e, (&a, &b)) in starts.iter().zip(ends).enumerate() {
        tried += 1;
        let edge = (a as u32) << 16 | b as u32;
        let mut slot = edge.wrapping_mul(0x9e37_79b1) as usize >> (32 - SLOTS.ilog2());
        while seen[slot % SLOTS] != 0 {
            if seen[slot % SLOTS] == edge {
                return (Some(e), tried);
            }
            slot += 1;
        }
        seen[slot % SLOTS] = edge;
    }
    (None, tried)
}

/// The graph with its topological order.
pub fn ordered(lists: Lists) -> Result<(Graph, Vec<u16>), usize> {
    let graph = lists.graph();
    let order = graph.topological_order();
    if order.len() < graph.size() {
        return Err(graph.lowest_on_cycle().expect("no order, so there is a cycle"));
    }
    Ok((graph, order))
}

/// Nothing but that there is no cycle: any vertex whose predecessors have all been taken may be the next.
fn acyclic(lists: Lists) -> Result<(), usize> {
    let n = lists.costs.len();
    // one more than the last edge from each vertex, and than the one before each edge; 0 is none
    let (mut last, mut before) = (vec![0u16; n], vec![0u16; lists.starts.len()]);
    let mut waiting = vec![0u16; n];
    for (e, (&a, &b)) in lists.starts.iter().zip(lists.ends).enumerate() {
        before[e] = std::mem::replace(&mut last[a as usize], e as u16 + 1);
        waiting[b as usize] += 1;
    }
    let mut taken: Vec<u16> = (0..n as u16).filter(|&v| waiting[v as usize] == 0).collect();
    let mut at = 0;
    while let Some(&v) = taken.get(at) {
        at += 1;
        let mut edge = last[v as usize];
        while edge > 0 {
            let b = lists.ends[edge as usize - 1];
            edge = before[edge as usize - 1];
            waiting[b as usize] -= 1;
            if waiting[b as usize] == 0 {
                taken.push(b);
            }
        }
    }
    if taken.len() < n {
        return Err(lists.graph().lowest_on_cycle().expect("some are never taken, so there is a cycle"));
    }
    Ok(())
}
