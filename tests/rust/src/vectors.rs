//! The archive on the kits of tests/vectors, whose answers another implementation made.

#[path = "../../vectors/lines.rs"]
mod lines;

use crate::calls::{Lent, Outcome, GUARD};
pub use lines::NAME;
use lines::{vectors, Wanted};

/// What is wanted as an outcome of the archive, whose cells past a refusal's place are 0.
fn outcome(wanted: Wanted) -> Outcome {
    let mut cells: Vec<usize> = wanted.values.iter().map(|&value| value as usize).collect();
    cells.resize(4, 0);
    Outcome { number: wanted.number, cells, tables: vec![wanted.table, wanted.ladder] }
}

/// How many lines were run.
pub fn run() -> usize {
    let vectors = vectors();
    for (at, vector) in vectors.iter().enumerate() {
        let (n, wanted) = (vector.costs.len(), vector.wanted(GUARD));
        let kit = Lent {
            costs: vector.costs.clone(),
            wires: vector.wires.clone(),
            k: vector.k as usize,
            limit: vector.limit,
        };
        let split = kit.split(n, 9 * n);
        assert_eq!(split, outcome(wanted), "{NAME}, line {}", at + 1);
        kit.check_beside(&split, || format!("{NAME}, line {}", at + 1));
    }
    vectors.len()
}
