//! The reference on the kits of tests/vectors, whose answers another implementation made.

#[path = "../../tests/vectors/lines.rs"]
mod lines;

use lines::{vectors, Wanted, NAME};
use reference::split;

const GUARD: u16 = 0xA5A5;

#[test]
fn the_reference_answers_every_line() {
    let vectors = vectors();
    for (at, kit) in vectors.iter().enumerate() {
        let n = kit.costs.len();
        let (mut table, mut ladder) = (vec![GUARD; n], vec![GUARD; 9 * n]);
        let [starts, ends, widths] = &kit.wires;
        let answer = split(&kit.costs, starts, ends, widths, kit.k, kit.limit, &mut table, &mut ladder);
        let (number, values) = match answer {
            Ok(s) => (0, vec![s.cut, s.rounds.into(), s.rung.into(), s.moves.into()]),
            Err(refusal) => (refusal.number, vec![refusal.place.into()]),
        };
        assert_eq!(Wanted { number, values, table, ladder }, kit.wanted(GUARD), "{NAME}, line {}", at + 1);
    }
    println!("vectors: the reference answers {} lines of {NAME}", vectors.len());
}
