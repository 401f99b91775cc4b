//! Inspection of a given table of parts.

use crate::check::{check, ordered, refuse, Lists, Refusal};

/// Checks 1 to 8 and 10 to 13. Writes the start order and answers the cut.
#[allow(clippy::too_many_arguments)]
pub fn inspect(
    costs: &[u16],
    starts: &[u16],
    ends: &[u16],
    widths: &[u16],
    k: u32,
    bound: u32,
    parts: &[u16],
    order: &mut [u16],
) -> Result<u64, Refusal> {
    let room = |n| parts.len() >= n && order.len() >= k as usize;
    let (graph, _) = check(Lists { costs, starts, ends, widths }, k, bound, room, ordered).result?;
    let k = k as usize;
    let parts = &parts[..costs.len()];
    if let Some(v) = parts.iter().position(|&p| p as usize >= k) {
        return refuse(10, v);
    }
    let quotient = graph.contract(parts, k); // costs are at least 1, so weight 0 is empty
    if let Some(p) = quotient.weights.iter().position(|&w| w == 0) {
        return refuse(11, p);
    }
    if let Some(p) = quotient.weights.iter().position(|&w| w > bound) {
        return refuse(12, p);
    }
    if let Some(p) = quotient.lowest_on_cycle() {
        return refuse(13, p);
    }
    for (place, p) in quotient.topological_order().into_iter().enumerate() {
        order[place] = p;
    }
    Ok(quotient.total_width())
}
