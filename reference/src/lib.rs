//! An acyclic graph partitioner by document 01 with requests a and b of document 02: joining, first cut, moves.
//!
//! Document 01's blocks, wires, groups and stages are vertices, edges, clusters and parts
//! here. Its rungs are the levels of a hierarchy.

pub mod check;
pub mod coarsen;
pub mod damage;
pub mod digest;
pub mod generate;
pub mod graph;
pub mod initial;
pub mod inspect;
pub mod refine;
pub mod text;

pub use check::{check_kit, Checked, Refusal};
pub use inspect::inspect;
pub use text::{read_kit, Kit};

use check::{check, ordered, refuse, Lists};
use coarsen::{hierarchy, Level};

/// What a split answers beside the two tables.
#[derive(Clone, Copy, Debug, PartialEq, Eq)]
pub struct Split {
    pub cut: u64,
    /// Rounds kept.
    pub rounds: u32,
    /// The rung that was cut.
    pub rung: u32,
    /// Moves that lowered the cut; those that only evened out parts are not counted.
    pub moves: u32,
}

/// What the passes did on one rung.
#[derive(Clone, Copy, Debug, Default)]
pub struct Passes {
    pub rung: usize,
    /// With the last one, which moves nothing.
    pub passes: u32,
    /// Moves of gain above 0, and those that only evened out parts.
    pub gained: u32,
    pub evened: u32,
}

/// Splits a kit: writes the stage table (`parts`) and the ladder.
#[allow(clippy::too_many_arguments)]
pub fn split(
    costs: &[u16],
    starts: &[u16],
    ends: &[u16],
    widths: &[u16],
    k: u32,
    bound: u32,
    parts: &mut [u16],
    ladder: &mut [u16],
) -> Result<Split, Refusal> {
    split_telling(costs, starts, ends, widths, k, bound, parts, ladder, |_| ())
}

/// The same; `tell` hears of the passes on each rung.
#[allow(clippy::too_many_arguments)]
#[inline]
pub fn split_telling(
    costs: &[u16],
    starts: &[u16],
    ends: &[u16],
    widths: &[u16],
    k: u32,
    bound: u32,
    parts: &mut [u16],
    ladder: &mut [u16],
    mut tell: impl FnMut(Passes),
) -> Result<Split, Refusal> {
    let room = |n| parts.len() >= n && ladder.len() >= 9 * n;
    let (graph, order) = check(Lists { costs, starts, ends, widths }, k, bound, room, ordered).result?;
    let k = k as usize;
    let levels = hierarchy(graph, order, k, bound);
    write_rows(&levels, costs.len(), ladder);

    let cut_level = |(rung, level): (usize, &Level)| {
        let (part, cut) = initial::first_cut(&level.graph, &level.order, k, bound)?;
        Some((rung, part, cut))
    };
    let Some((rung, part, mut cut)) = levels.iter().enumerate().rev().find_map(cut_level) else {
        return refuse(9, 0);
    };

    let mut loads = vec![0; k];
    for (&p, &weight) in part.iter().zip(&levels[rung].graph.weights) {
        loads[p as usize] += weight;
    }
    let mut part = part;
    let mut moves = 0;
    for (below, level) in levels[..=rung].iter().enumerate().rev() {
        if below < rung {
            part = level.cluster.iter().map(|&c| part[c as usize]).collect();
        }
        let mut done = Passes { rung: below, ..Passes::default() };
        done.passes = refine::refine(&level.graph, &mut part, &mut loads, bound, |step, _| {
            done.gained += (step.gain > 0) as u32;
            done.evened += (step.gain == 0) as u32;
            cut -= step.gain as u64;
        });
        moves += done.gained;
        tell(done);
    }
    parts[..part.len()].copy_from_slice(&part);
    Ok(Split { cut, rounds: levels.len() as u32 - 1, rung: rung as u32, moves })
}

/// Row r of the ladder holds the cluster of each block on rung r.
fn write_rows(levels: &[Level], n: usize, ladder: &mut [u16]) {
    for (b, entry) in ladder[..n].iter_mut().enumerate() {
        *entry = b as u16;
    }
    for (rung, level) in levels[..levels.len() - 1].iter().enumerate() {
        let (below, above) = ladder[rung * n..(rung + 2) * n].split_at_mut(n);
        for (entry, &b) in above.iter_mut().zip(&*below) {
            *entry = level.cluster[b as usize];
        }
    }
}
