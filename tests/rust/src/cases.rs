//! Cases with their answers: document 01's for the bench that the checker does not compute (10 and 11), some that it
//! does, tables that hit each refusal of inspection, and checks with how many wires they tried. Each is run by the archive
//! and by the reference.

use crate::calls::{Lent, Outcome, GUARD};

const ONES: [u16; 1_025] = [1; 1_025];

/// Wires of width 1.
fn lent(costs: &[u16], wires: &[(u16, u16)], k: usize, limit: u32) -> Lent {
    let lists =
        [wires.iter().map(|w| w.0).collect(), wires.iter().map(|w| w.1).collect(), vec![1; wires.len()]];
    Lent { costs: costs.to_vec(), wires: lists, k, limit }
}

/// Different wires among 512 blocks: each to the next, to the second and to the third.
fn wires(m: usize) -> Vec<(u16, u16)> {
    (1..4).flat_map(|d| (0..512 - d).map(move |v| (v, v + d))).take(m).collect()
}

/// A refusal of inspection leaves the order, of the split both tables; 9 is not among these.
fn refused(number: u32, place: usize, cells: usize, tables: &[usize]) -> Outcome {
    let mut told = vec![0; cells];
    told[0] = place;
    Outcome { number, cells: told, tables: tables.iter().map(|&t| vec![GUARD; t]).collect() }
}

struct Runs(usize);

impl Runs {
    /// A table is inspected: the cut and the order are answered, or a number and a place.
    fn inspect(
        &mut self,
        name: &str,
        kit: &Lent,
        table: &[u16],
        answer: Result<(usize, &[u16]), (u32, usize)>,
    ) {
        let k = kit.k;
        let wanted = match answer {
            Ok((cut, order)) => Outcome { number: 0, cells: vec![cut], tables: vec![order.to_vec()] },
            Err((number, place)) => refused(number, place, 1, &[k]),
        };
        assert_eq!(kit.inspect(table, k), wanted, "{name}");
        assert_eq!(kit.inspect_by_reference(table, k), wanted, "{name}, the reference");
        self.0 += 1;
    }

    /// A kit is split: the four values are answered, or a number and a place.
    fn split(&mut self, name: &str, kit: &Lent, answer: Result<[usize; 4], (u32, usize)>) {
        let n = kit.costs.len();
        let ours = kit.split(n, 9 * n);
        assert_eq!(ours, kit.split_by_reference(n, 9 * n), "{name}, the reference");
        kit.check_beside(&ours, || name.to_string());
        match answer {
            Ok(values) => assert_eq!((ours.number, ours.cells), (0, values.to_vec()), "{name}"),
            Err((9, place)) => assert_eq!((ours.number, ours.cells[0]), (9, place), "{name}"),
            Err((number, place)) => assert_eq!(ours, refused(number, place, 4, &[n, 9 * n]), "{name}"),
        }
        self.0 += 1;
    }

    /// A kit whose stages are evened out: this table with a cut of 0, on rung 0, and so many moves counted.
    fn evened(&mut self, name: &str, kit: &Lent, table: &[u16], moves: usize) {
        self.split(name, kit, Ok([0, 0, 0, moves]));
        assert_eq!(kit.split(table.len(), 9 * table.len()).tables[0], table, "{name}");
    }

    /// A kit is checked: the number, the place, and how many wires were tried as repeats.
    fn check(&mut self, name: &str, kit: &Lent, number: u32, place: usize, tried: usize) {
        let wanted = Outcome { number, cells: vec![place, tried], tables: vec![] };
        assert_eq!(kit.check(), wanted, "{name}");
        assert_eq!(kit.check_by_reference(), wanted, "{name}, the reference");
        self.0 += 1;
    }

    /// The same refusal by both calls.
    fn both(&mut self, name: &str, kit: &Lent, number: u32, place: usize) {
        self.split(name, kit, Err((number, place)));
        self.inspect(name, kit, &vec![0; kit.costs.len()], Err((number, place)));
    }
}

fn tables(runs: &mut Runs) {
    let six = |limit| lent(&[1; 6], &[(0, 1), (2, 3), (4, 5)], 3, limit);
    runs.inspect("case 4", &six(3), &[0, 1, 1, 2, 2, 0], Err((13, 0)));
    runs.inspect("in order", &six(3), &[0, 0, 1, 1, 2, 2], Ok((0, &[0, 1, 2])));
    runs.inspect("backwards", &six(3), &[2, 1, 1, 0, 2, 0], Ok((3, &[2, 1, 0])));
    runs.inspect("entry of k", &six(3), &[0, 1, 3, 1, 2, 2], Err((10, 2)));
    runs.inspect("entry of 65,535", &six(3), &[0, 1, 1, 1, 65_535, 2], Err((10, 4)));
    runs.inspect("empty", &six(3), &[0, 0, 0, 2, 2, 2], Err((11, 1)));
    runs.inspect("over", &six(3), &[0, 1, 1, 1, 1, 2], Err((12, 1)));
    runs.inspect("short table", &six(3), &[0, 1, 1, 2, 2], Err((4, 0)));
    runs.inspect("long table", &six(3), &[0, 0, 1, 1, 2, 2, 65_535], Ok((0, &[0, 1, 2])));
    runs.inspect("cost above the limit", &six(0), &[0; 6], Err((5, 0)));
}

fn kits(runs: &mut Runs) {
    runs.both("case 7", &lent(&[], &[], 1, 1), 1, 0);
    runs.both("case 6, limit 0", &lent(&[1], &[], 1, 0), 5, 0);
    runs.split("case 6", &lent(&[1], &[], 1, 1), Ok([0; 4]));
    runs.both("case 8", &lent(&[1; 2], &[(0, 1), (1, 0)], 1, 2), 8, 0);
    runs.both("a loop behind a path", &lent(&[1; 4], &[(0, 1), (1, 2), (2, 3), (3, 1)], 1, 4), 8, 1);
    runs.both("case 9", &lent(&[1], &[(0, 0)], 1, 1), 6, 0);
    runs.both("end not a block", &lent(&[1; 2], &[(0, 1), (0, 2)], 1, 2), 6, 1);
    runs.both("repeated", &lent(&[1; 3], &[(0, 1), (1, 2), (0, 1), (1, 2)], 1, 3), 7, 2);
    runs.both("cost 0", &lent(&[1, 0], &[], 1, 3), 5, 1);
    runs.split("case 5", &lent(&[2, 4, 2], &[], 2, 4), Err((9, 0)));
    let mut two = lent(&[1; 4], &[(0, 3), (1, 2)], 2, 3);
    two.wires[2] = vec![5; 2];
    runs.split("case 2", &two, Ok([0, 0, 0, 1]));
    two.wires[2] = vec![0, 5];
    runs.both("width 0", &two, 6, 0);
    two.wires[2] = vec![5];
    runs.both("unequal lists", &two, 3, 0);
}

/// Moves of gain 0, which request a of document 02 adds and which are not counted.
fn evened(runs: &mut Runs) {
    runs.evened("to the lowest lighter stage", &lent(&[2, 1, 2, 1], &[], 3, 3), &[0, 1, 2, 1], 0);
    runs.evened("in two passes", &lent(&[1, 3, 2], &[], 2, 5), &[1, 0, 1], 0);
    // block 2 goes to stage 0 for nothing but evenness; only then does block 3 gain by following it
    runs.evened("then a gain", &lent(&[4, 4, 1, 1], &[(0, 2), (2, 3)], 2, 10), &[0, 1, 0, 0], 1);
}

fn case_ten(runs: &mut Runs) {
    let own: Vec<u16> = (0..17).collect();
    runs.inspect("case 10, 16 stages", &lent(&[1; 16], &[], 16, 1), &own, Ok((0, &own[..16])));
    runs.split("case 10, 16 stages", &lent(&[1; 16], &[], 16, 1), Ok([0; 4]));
    runs.both("case 10, 17 stages", &lent(&[1; 17], &[], 17, 1), 2, 0);
    runs.both("0 stages", &lent(&[1; 2], &[], 0, 1), 2, 0);
    runs.both("more stages than blocks", &lent(&[1; 2], &[], 3, 1), 2, 0);
}

fn case_eleven(runs: &mut Runs) {
    let kit = |n: usize, m: usize| lent(&ONES[..n], &wires(m), 1, 513);
    runs.inspect("case 11, 512 blocks and 1,024 wires", &kit(512, 1_024), &[0; 512], Ok((0, &[0])));
    let n = 512;
    let (ours, theirs) = (kit(n, 1_024).split(n, 9 * n), kit(n, 1_024).split_by_reference(n, 9 * n));
    assert_eq!((ours.number, ours == theirs), (0, true), "case 11, split");
    runs.both("case 11, 513 blocks", &kit(513, 1_024), 1, 0);
    runs.both("case 11, 1,025 wires", &kit(512, 1_025), 3, 0);
}

/// Request b of document 02: the place and one more at a find, m otherwise; 0 if the search is not come to.
fn tried(runs: &mut Runs) {
    let three = |wires: &[(u16, u16)]| lent(&[1; 3], wires, 1, 1);
    runs.check("no wires", &three(&[]), 0, 0, 0);
    runs.check("no repeat", &three(&[(0, 1), (0, 2), (1, 2)]), 0, 0, 3);
    runs.check("wire 1 repeats", &three(&[(0, 1), (0, 1), (0, 1), (1, 0)]), 7, 1, 2);
    runs.check("the last repeats", &three(&[(1, 2), (0, 1), (0, 2), (1, 2)]), 7, 3, 4);
    runs.check("a later repeat of a lower wire", &three(&[(0, 1), (1, 2), (1, 2), (0, 1)]), 7, 2, 3);
    runs.check("turned round", &three(&[(0, 1), (2, 1), (1, 2)]), 8, 1, 3);
    runs.check("to itself behind a repeat", &three(&[(0, 1), (0, 1), (1, 1)]), 6, 2, 0);
    runs.check("end not a block behind a repeat", &three(&[(0, 1), (0, 1), (1, 3)]), 6, 2, 0);
    let repeated = [(0, 1), (0, 1)];
    runs.check("cost above the limit", &lent(&[1, 2], &repeated, 1, 1), 5, 1, 0);
    runs.check("cost 0", &lent(&[0, 1], &repeated, 1, 1), 5, 0, 0);
    runs.check("no blocks", &lent(&[], &repeated, 1, 1), 1, 0, 0);
    for at in 0..3 {
        let mut kit = lent(&[1; 2], &repeated, 1, 1);
        kit.wires[at].pop();
        runs.check("a list one short", &kit, 3, 0, 0);
        kit.wires[at].clear();
        runs.check("a list empty", &kit, 3, 0, 0);
        kit.wires[at] = vec![1; 3];
        runs.check("a list one longer", &kit, 3, 0, 0);
    }
}

/// Stage count and limit at their ends.
fn check_ends(runs: &mut Runs) {
    let kit = |k: usize, limit: u32| lent(&ONES[..17], &[(0, 16), (16, 1)], k, limit);
    for k in [1, 16] {
        runs.check("stages and limit", &kit(k, 1), 0, 0, 2);
        runs.check("highest limit", &kit(k, u32::MAX), 0, 0, 2);
    }
    for k in [0, 17, 1 << 32, (1 << 32) + 1, usize::MAX] {
        runs.check("stages", &kit(k, u32::MAX), 2, 0, 0);
    }
    runs.check("limit 0", &kit(1, 0), 5, 0, 0);
    let costs = [65_535, 65_535];
    runs.check("limit below the highest cost", &lent(&costs, &[(1, 0)], 2, 65_534), 5, 0, 0);
    runs.check("limit of the highest cost", &lent(&costs, &[(1, 0)], 2, 65_535), 0, 0, 1);
}

/// Kits of full size: 512 blocks and 1,024 wires, among them two hubs of 511 wires each.
fn check_largest(runs: &mut Runs) {
    let kit = |n: usize, wires: &[(u16, u16)]| lent(&ONES[..n], wires, 16, 1);
    runs.check("1,024 wires", &kit(512, &wires(1_024)), 0, 0, 1_024);
    runs.check("1,025 wires", &kit(512, &wires(1_025)), 3, 0, 0);
    runs.check("513 blocks", &kit(513, &wires(1_024)), 1, 0, 0);
    let from = |hub: u16| (hub + 1..512).map(move |b| (hub, b));
    let mut hubs: Vec<(u16, u16)> = from(0).chain(from(1)).chain([(2, 3), (3, 4), (4, 5)]).collect();
    runs.check("two hubs", &kit(512, &hubs), 0, 0, 1_024);
    hubs[1_023] = (1, 511);
    runs.check("two hubs, the last wire repeated", &kit(512, &hubs), 7, 1_023, 1_024);
    hubs[1_023] = (511, 0);
    runs.check("two hubs, the last wire back", &kit(512, &hubs), 8, 0, 1_024);
    hubs.reverse();
    runs.check("two hubs, from the last wire", &kit(512, &hubs), 8, 0, 1_024);
}

/// How many were run.
pub fn run() -> usize {
    let mut runs = Runs(0);
    tables(&mut runs);
    kits(&mut runs);
    evened(&mut runs);
    case_ten(&mut runs);
    case_eleven(&mut runs);
    tried(&mut runs);
    check_ends(&mut runs);
    check_largest(&mut runs);
    runs.0
}
