//! Moves of single vertices between parts, on one rung: document 01's, with the candidates of document 02 a.

use crate::graph::{Graph, Link};

#[derive(Clone, Copy, Debug)]
pub struct Move {
    pub vertex: usize,
    pub from: u16,
    pub to: u16,
    /// Above 0, or 0 for a move that only evens out the two parts.
    pub gain: i64,
}

/// Passes until one moves nothing, and how many there were, with that one. `loads` holds the cost of each
/// part. `after` sees every move of both kinds, with the parts as they then stand.
pub fn refine(
    graph: &Graph,
    parts: &mut [u16],
    loads: &mut [u32],
    bound: u32,
    mut after: impl FnMut(Move, &[u16]),
) -> u32 {
    let mut passes = 1;
    while pass(graph, parts, loads, bound, &mut after) {
        passes += 1;
    }
    passes
}

/// Visits the vertices in number order. Whether it moved something.
#[inline(never)] // its loop is compiled better apart from the one around it
fn pass(
    graph: &Graph,
    parts: &mut [u16],
    loads: &mut [u32],
    bound: u32,
    after: &mut impl FnMut(Move, &[u16]),
) -> bool {
    let mut moved = false;
    for vertex in 0..graph.size() {
        if let Some(step) = best_move(graph, parts, loads, bound, vertex) {
            parts[vertex] = step.to;
            loads[step.from as usize] -= graph.weights[vertex];
            loads[step.to as usize] += graph.weights[vertex];
            after(step, parts);
            moved = true;
        }
    }
    moved
}

/// A part, and the width of the vertex's edges to or from it.
#[derive(Clone, Copy)]
struct Side {
    part: u16,
    width: u32,
}

/// The candidates are the parts from `low` to `high`, other than the own one. No edge runs backward, so the
/// vertex has none to a part strictly between, the own one apart.
struct Range {
    low: Side,
    high: Side,
    own: Side,
}

impl Range {
    fn of(graph: &Graph, parts: &[u16], vertex: usize, last: u16) -> Range {
        let from = parts[vertex];
        let low = outermost(graph.predecessors(vertex), parts, 0, |part, low| part > low);
        let high = outermost(graph.successors(vertex), parts, last, |part, high| part < high);
        let inside = |side: Side| if side.part == from { side.width } else { 0 };
        Range { low, high, own: Side { part: from, width: inside(low) + inside(high) } }
    }
}

/// The part that no other among the neighbours' is beyond, or `none` without neighbours.
fn outermost(links: &[Link], parts: &[u16], none: u16, beyond: impl Fn(u16, u16) -> bool) -> Side {
    let mut side = Side { part: none, width: 0 };
    for link in links {
        let part = parts[link.at()];
        if part == side.part {
            side.width += link.width;
        } else if beyond(part, side.part) {
            side = Side { part, width: link.width };
        }
    }
    side
}

fn best_move(graph: &Graph, parts: &[u16], loads: &[u32], bound: u32, vertex: usize) -> Option<Move> {
    let from = parts[vertex];
    let weight = graph.weights[vertex];
    let rest = loads[from as usize] - weight;
    if rest == 0 {
        return None; // it would be emptied
    }
    let range = Range::of(graph, parts, vertex, loads.len() as u16 - 1);
    if range.low.part == range.high.part {
        return None; // the own part alone
    }
    if let Some(to) = gaining(&range, |part| loads[part as usize] + weight <= bound) {
        let gain = (to.width - range.own.width) as i64;
        return Some(Move { vertex, from, to: to.part, gain });
    }
    let to = evening(&range, loads, rest)?;
    Some(Move { vertex, from, to, gain: 0 })
}

/// The candidate with the largest gain above 0, ties to the lower. Only the two ends of the range can gain.
fn gaining(range: &Range, fits: impl Fn(u16) -> bool) -> Option<Side> {
    let mut best = range.own;
    for side in [range.low, range.high] {
        if side.width > best.width && side.part != range.own.part && fits(side.part) {
            best = side;
        }
    }
    (best.part != range.own.part).then_some(best)
}

/// The lowest candidate of gain 0 whose load with the vertex is below that of the own part now; it is then
/// within the bound, as the own part is. `rest` is what the own part keeps, so that part itself never passes.
fn evening(range: &Range, loads: &[u32], rest: u32) -> Option<u16> {
    let Range { low, high, own } = *range;
    if own.width > 0 {
        let even =
            |side: Side| (side.width == own.width && loads[side.part as usize] < rest).then_some(side.part);
        return even(low).or_else(|| even(high));
    }
    let first = low.part + (low.width > 0) as u16;
    let end = high.part + (high.width == 0) as u16;
    let found = loads[first as usize..end as usize].iter().position(|&load| load < rest)?;
    Some(first + found as u16)
}
