//! The cases of document 01, and its text formats.

use reference::text::{answer, read_table, verdict};
use reference::{check_kit, inspect, read_kit, split, Checked, Kit, Refusal, Split};

struct Made {
    answer: Result<Split, Refusal>,
    stages: Vec<u16>,
    rows: Vec<Vec<u16>>,
}

/// Splits; wires are (start, end, width).
fn run(costs: &[u16], k: u32, limit: u32, wires: &[(u16, u16, u16)]) -> Made {
    let n = costs.len();
    let starts: Vec<u16> = wires.iter().map(|w| w.0).collect();
    let ends: Vec<u16> = wires.iter().map(|w| w.1).collect();
    let widths: Vec<u16> = wires.iter().map(|w| w.2).collect();
    let (mut stages, mut ladder) = (vec![99; n], vec![99; 9 * n]);
    let answer = split(costs, &starts, &ends, &widths, k, limit, &mut stages, &mut ladder);
    Made { answer, stages, rows: ladder.chunks(n.max(1)).map(<[u16]>::to_vec).collect() }
}

fn refused<T>(number: u32, place: u32) -> Result<T, Refusal> {
    Err(Refusal { number, place })
}

const CASE_1: &str = "(kit (blocks 6) (stages 2) (limit 4))
(block (cost 1))
(block (cost 1))
(block (cost 1))
(block (cost 1))
(block (cost 1))
(block (cost 1))
(wire (from 0) (to 1) (width 4))
(wire (from 1) (to 2) (width 1))
(wire (from 2) (to 3) (width 4))
(wire (from 3) (to 4) (width 1))
(wire (from 4) (to 5) (width 4))
";

const TABLE_1: &str = "(split (cut 1) (rungs 1) (cutat 1) (moves 0))
(block 0 (stage 0))
(block 1 (stage 0))
(block 2 (stage 1))
(block 3 (stage 1))
(block 4 (stage 1))
(block 5 (stage 1))
";

#[test]
fn case_1() {
    assert_eq!(String::from_utf8(answer(CASE_1.as_bytes())).unwrap(), TABLE_1);
    let parts = read_table(TABLE_1.as_bytes()).unwrap();
    let printed = verdict(CASE_1.as_bytes(), &parts);
    let expected = "(inspected (cut 1))\n(start 0 (stage 0))\n(start 1 (stage 1))\n";
    assert_eq!(String::from_utf8(printed).unwrap(), expected);
}

#[test]
fn case_2() {
    let made = run(&[1; 4], 2, 3, &[(0, 3, 5), (1, 2, 5)]);
    assert_eq!(made.answer, Ok(Split { cut: 0, rounds: 0, rung: 0, moves: 1 }));
    assert_eq!(made.stages, [0, 1, 1, 0]);
}

#[test]
fn case_3() {
    let made = run(&[1; 4], 1, 4, &[(0, 2, 1), (0, 3, 1), (1, 2, 1), (1, 3, 1)]);
    assert_eq!(made.answer, Ok(Split { cut: 0, rounds: 2, rung: 2, moves: 0 }));
    assert_eq!(made.rows[..4], [[0, 1, 2, 3], [0, 1, 0, 2], [0, 0, 0, 1], [99; 4]]);
    assert_eq!(made.stages, [0; 4]);
}

#[test]
fn case_4() {
    let mut order = [99; 4];
    let table = [0, 1, 1, 2, 2, 0];
    let made = inspect(&[1; 6], &[0, 2, 4], &[1, 3, 5], &[1; 3], 3, 3, &table, &mut order);
    assert_eq!(made, refused(13, 0));
    assert_eq!(order, [99; 4]);
}

#[test]
fn case_5() {
    let made = run(&[2, 4, 2], 2, 4, &[]);
    assert_eq!(made.answer, refused(9, 0));
    assert_eq!(made.stages, [99; 3]);
    assert_eq!(made.rows[..2], [[0, 1, 2], [99; 3]]);
}

#[test]
fn cases_6_to_9() {
    assert_eq!(run(&[1], 1, 1, &[]).answer, Ok(Split { cut: 0, rounds: 0, rung: 0, moves: 0 }));
    assert_eq!(run(&[1], 1, 0, &[]).answer, refused(5, 0));
    assert_eq!(run(&[], 1, 1, &[]).answer, refused(1, 0));
    assert_eq!(run(&[1; 2], 1, 2, &[(0, 1, 1), (1, 0, 1)]).answer, refused(8, 0));
    assert_eq!(run(&[1], 1, 1, &[(0, 0, 1)]).answer, refused(6, 0));
}

#[test]
fn case_10() {
    assert!(run(&[1; 16], 16, 1, &[]).answer.is_ok());
    assert_eq!(run(&[1; 17], 17, 1, &[]).answer, refused(2, 0));
    assert_eq!(run(&[1; 17], 0, 1, &[]).answer, refused(2, 0));
}

#[test]
fn case_11() {
    assert!(run(&[1; 512], 1, 512, &[]).answer.is_ok());
    assert_eq!(run(&[1; 513], 1, 513, &[]).answer, refused(1, 0));
    let wires: Vec<(u16, u16, u16)> = (0..1_025).map(|w| (w % 500, w % 500 + 1 + w / 500, 1)).collect();
    assert!(run(&[1; 512], 1, 512, &wires[..1_024]).answer.is_ok());
    assert_eq!(run(&[1; 512], 1, 512, &wires).answer, refused(3, 0));
}

/// Block 2 may go to stage 0 or 2, each for a gain of 1. Stages of cost 2, 2 and 1 are as even as they can be.
#[test]
fn equal_gains_go_to_the_lowest_stage() {
    let made = run(&[1; 5], 3, 3, &[(0, 2, 1), (2, 4, 1), (1, 3, 5)]);
    assert_eq!(made.answer, Ok(Split { cut: 1, rounds: 0, rung: 0, moves: 1 }));
    assert_eq!(made.stages, [0, 1, 0, 1, 2]);
}

/// Request a of document 02: moves that even out stages are made and are not counted.
#[test]
fn stages_are_evened_out() {
    let evened = Ok(Split { cut: 0, rounds: 0, rung: 0, moves: 0 });
    // first 0,1,2,2: block 3 leaves stage 2 for the lowest stage by which the larger cost falls
    let made = run(&[2, 1, 2, 1], 3, 3, &[]);
    assert_eq!((made.answer, &made.stages[..]), (evened, &[0, 1, 2, 1][..]));
    // first 0,1,1: block 1 in the first pass, block 0 in the second
    let made = run(&[1, 3, 2], 2, 5, &[]);
    assert_eq!((made.answer, &made.stages[..]), (evened, &[1, 0, 1][..]));
}

/// Checks a kit of costs 1 under a limit of 1; wires are (start, end). The number and place, and how many were tried.
fn checked(n: usize, k: u32, wires: &[(u16, u16)]) -> (u32, u32, usize) {
    let starts: Vec<u16> = wires.iter().map(|w| w.0).collect();
    let ends: Vec<u16> = wires.iter().map(|w| w.1).collect();
    let Checked { result, tried } = check_kit(&vec![1; n], &starts, &ends, &vec![1; wires.len()], k, 1);
    let (number, place) = result.map_or_else(|refusal| (refusal.number, refusal.place), |()| (0, 0));
    (number, place, tried)
}

/// Request b of document 02: the place and one more at a find, m otherwise; 0 if the search is not come to.
#[test]
fn wires_tried_are_counted() {
    assert_eq!(checked(3, 1, &[]), (0, 0, 0));
    assert_eq!(checked(3, 1, &[(0, 1), (0, 2), (1, 2)]), (0, 0, 3));
    assert_eq!(checked(3, 1, &[(0, 1), (0, 1)]), (7, 1, 2));
    assert_eq!(checked(3, 1, &[(1, 2), (1, 2), (0, 1), (0, 2)]), (7, 1, 2));
    assert_eq!(checked(3, 1, &[(0, 1), (1, 2), (0, 2), (0, 1)]), (7, 3, 4));
    // wire 3 repeats a lower one than wire 2 does
    assert_eq!(checked(3, 1, &[(0, 1), (1, 2), (1, 2), (0, 1)]), (7, 2, 3));
    // turned round it is no repeat, and a repeat is found before a loop is looked for
    assert_eq!(checked(2, 1, &[(0, 1), (1, 0)]), (8, 0, 2));
    assert_eq!(checked(3, 1, &[(2, 1), (1, 2), (0, 1)]), (8, 1, 3));
    assert_eq!(checked(2, 1, &[(0, 1), (1, 0), (1, 0)]), (7, 2, 3));
    assert_eq!(checked(2, 1, &[(0, 1), (0, 1), (1, 1)]), (6, 2, 0));
    assert_eq!(checked(2, 3, &[(0, 1), (0, 1)]), (2, 0, 0));
    assert_eq!(checked(0, 1, &[(0, 1), (0, 1)]), (1, 0, 0));
    let ragged = check_kit(&[1; 2], &[0, 0], &[1, 1], &[1], 1, 1);
    assert_eq!(ragged, Checked { result: refused(3, 0), tried: 0 });
    let dear = check_kit(&[1, 2], &[0, 0], &[1, 1], &[1; 2], 1, 1);
    assert_eq!(dear, Checked { result: refused(5, 1), tried: 0 });
}

/// Two hubs of 511 wires each, one between them, and three wires more: a kit of full size.
#[test]
fn two_hubs_are_tried_to_the_end() {
    let from = |hub: u16| (hub + 1..512).map(move |b| (hub, b));
    let mut wires: Vec<(u16, u16)> = from(0).chain(from(1)).chain([(2, 3), (3, 4), (4, 5)]).collect();
    assert_eq!(checked(512, 2, &wires), (0, 0, 1_024));
    wires[1_023] = (1, 511);
    assert_eq!(checked(512, 2, &wires), (7, 1_023, 1_024));
    wires[1_023] = (511, 0);
    assert_eq!(checked(512, 2, &wires), (8, 0, 1_024));
}

#[test]
fn short_tables_are_refused_with_4() {
    let call = |parts: usize, ladder: usize, costs: &[u16]| {
        split(costs, &[], &[], &[], 2, 9, &mut vec![0; parts], &mut vec![0; ladder])
    };
    assert!(call(3, 27, &[1; 3]).is_ok());
    assert_eq!(call(2, 27, &[1; 3]), refused(4, 0));
    assert_eq!(call(3, 26, &[1; 3]), refused(4, 0));
    assert_eq!(call(3, 26, &[0; 3]), refused(4, 0));
    let look =
        |parts: &[u16], order: usize| inspect(&[1; 3], &[], &[], &[], 2, 9, parts, &mut vec![0; order]);
    assert_eq!(look(&[0, 1, 1], 2), Ok(0));
    assert_eq!(look(&[0, 1], 2), refused(4, 0));
    assert_eq!(look(&[0, 1, 1], 1), refused(4, 0));
    let ragged = split(&[1], &[0], &[], &[], 1, 9, &mut [], &mut []);
    assert_eq!(ragged, refused(3, 0));
}

/// Reads into lists of the given lengths; says whether anything was written past the named.
fn read(text: &str, lengths: [usize; 4]) -> Result<Kit, Refusal> {
    let [mut costs, mut starts, mut ends, mut widths] = lengths.map(|length| vec![777; length]);
    let made = read_kit(text.as_bytes(), &mut costs, &mut starts, &mut ends, &mut widths);
    let (n, m) = made.map_or((0, 0), |kit| (kit.blocks, kit.wires));
    let rest = costs[n..].iter().chain(&starts[m..]).chain(&ends[m..]).chain(&widths[m..]);
    assert!(rest.into_iter().all(|&entry| entry == 777));
    assert!(costs[..n].iter().all(|&entry| entry != 777));
    made
}

#[test]
fn kit_text() {
    const FULL: [usize; 4] = [512, 1_024, 1_024, 1_024];
    let kit = Kit { blocks: 6, wires: 5, stages: 2, limit: 4 };
    assert_eq!(read(CASE_1, FULL), Ok(kit));
    assert_eq!(read(CASE_1, [6, 5, 5, 5]), Ok(kit));
    for short in [[5, 5, 5, 5], [6, 4, 5, 5], [6, 5, 4, 5], [6, 5, 5, 4]] {
        assert_eq!(read(CASE_1, short), refused(4, 0));
    }
    let edit = |from: &str, to: &str| read(&CASE_1.replacen(from, to, 1), FULL);
    assert_eq!(edit("blocks 6", "blocks 7"), refused(16, 0));
    assert_eq!(edit("limit 4", "limit 99999999"), Ok(Kit { limit: 99_999_999, ..kit }));
    assert_eq!(edit("limit 4", "limit 100000000"), refused(15, 1));
    assert_eq!(edit("stages 2", "stages 65535"), Ok(Kit { stages: 65_535, ..kit }));
    assert_eq!(edit("stages 2", "stages 65536"), refused(15, 1));
    assert_eq!(edit("stages 2", "stages 0"), Ok(Kit { stages: 0, ..kit }));
    assert_eq!(edit("(cost 1", "(cost 01"), refused(15, 2));
    assert_eq!(edit("(wire (from", "(wire  (from"), refused(15, 8));
    assert_eq!(edit("(width 1))\n", "(width 1))\r\n"), refused(15, 9));
    assert_eq!(edit("(width 1))\n", "(width 1))\n(block (cost 1))\n"), refused(15, 10));
    assert_eq!(read("", FULL), refused(15, 1));
    assert_eq!(read(CASE_1.trim_end(), FULL), refused(15, 12));
    assert_eq!(read(&" ".repeat(65_537), FULL), refused(14, 0));
    assert_eq!(read(&" ".repeat(65_536), FULL), refused(15, 1));
    let blocks =
        |n: usize| format!("(kit (blocks {n}) (stages 1) (limit 9))\n{}", "(block (cost 1))\n".repeat(n));
    assert!(read(&blocks(512), FULL).is_ok());
    assert_eq!(read(&blocks(513), FULL), refused(15, 514));
    let wires = |m: usize| blocks(2) + &"(wire (from 0) (to 1) (width 1))\n".repeat(m);
    assert!(read(&wires(1_024), FULL).is_ok());
    assert_eq!(read(&wires(1_025), FULL), refused(15, 1_028));
}
