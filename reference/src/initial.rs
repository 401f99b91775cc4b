//! The first cut: the best division of a topological order into k runs.

use crate::check::MAX_PARTS;
use crate::graph::Graph;

/// Stands for "no division"; sums of widths stay below 2^27, so it stays below 0.
const NONE: i32 = i32::MIN / 2;

/// The part of each vertex, and the cut. Of all divisions of the order into k non-empty
/// runs within the bound: the least cut, then the first list of run starts.
pub fn first_cut(graph: &Graph, order: &[u16], k: usize, bound: u32) -> Option<(Vec<u16>, u64)> {
    if graph.size() < k || fewest_runs(graph, order, bound) > k {
        return None;
    }
    match k {
        0..=2 => divide::<2>(graph, order, k, bound),
        3..=4 => divide::<4>(graph, order, k, bound),
        5..=8 => divide::<8>(graph, order, k, bound),
        _ => divide::<MAX_PARTS>(graph, order, k, bound),
    }
}

/// For k up to K: the table has K columns, so that the loop over them has a fixed length.
fn divide<const K: usize>(graph: &Graph, order: &[u16], k: usize, bound: u32) -> Option<(Vec<u16>, u64)> {
    let mut place = vec![0; order.len()];
    for (at, &v) in order.iter().enumerate() {
        place[v as usize] = at as u16;
    }
    let kept = most_kept::<K>(graph, order, &place, bound);
    let most = kept[0][k - 1];
    if most < 0 {
        return None;
    }
    Some((trace(graph, order, &place, k, &kept), graph.total_width() - most as u64))
}

/// How many runs it takes when each is filled up to the bound.
fn fewest_runs(graph: &Graph, order: &[u16], bound: u32) -> usize {
    let (mut runs, mut load) = (1, 0);
    for &v in order {
        let weight = graph.weights[v as usize];
        load += weight;
        if load > bound {
            runs += 1;
            load = weight;
        }
    }
    runs
}

/// `kept[x][j]` is the most width that stays inside runs when the places from x on
/// are divided into j + 1 runs. (A cut is the total width less the width kept inside.)
#[inline(never)] // its loops are compiled alike wherever it is called from
fn most_kept<const K: usize>(graph: &Graph, order: &[u16], place: &[u16], bound: u32) -> Vec<[i32; K]> {
    let size = order.len();
    let weights: Vec<u32> = order.iter().map(|&v| graph.weights[v as usize]).collect();
    let mut kept = vec![[NONE; K]; size];
    let mut inward = vec![0; size]; // width into this place from place x or later
    for x in (0..size).rev() {
        for link in graph.successors(order[x] as usize) {
            inward[place[link.at()] as usize] += link.width as i32;
        }
        let (front, later) = kept.split_at_mut(x + 1);
        let mut row = [NONE; K]; // the best with j + 1 runs after the first
        let (mut load, mut inside) = (weights[x], inward[x]);
        let mut ends = x + 1; // one past the first run's last place
        for ((rest, weight), width) in later.iter().zip(&weights[x + 1..]).zip(&inward[x + 1..]) {
            for j in 0..K {
                row[j] = row[j].max(inside + rest[j]);
            }
            load += weight;
            if load > bound {
                break;
            }
            inside += width;
            ends += 1;
        }
        if ends == size {
            front[x][0] = inside;
        }
        front[x][1..].copy_from_slice(&row[..K - 1]);
    }
    kept
}

/// Walks forward through the table, ending each run at the first place that is best.
fn trace<const K: usize>(
    graph: &Graph,
    order: &[u16],
    place: &[u16],
    k: usize,
    kept: &[[i32; K]],
) -> Vec<u16> {
    let mut part = vec![k as u16 - 1; order.len()];
    let mut x = 0;
    for left in (1..k).rev() {
        let start = x;
        let mut inside = 0;
        loop {
            let v = order[x] as usize;
            part[v] = (k - 1 - left) as u16;
            for link in graph.predecessors(v) {
                if place[link.at()] as usize >= start {
                    inside += link.width as i32;
                }
            }
            x += 1;
            if inside + kept[x][left - 1] == kept[start][left] {
                break;
            }
        }
    }
    part
}
