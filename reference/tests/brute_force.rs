//! Some thousands of small kits against document 01 and requests a and b written down naively.

mod naive;

use reference::generate::Rng;
use reference::graph::{Edge, Graph};
use reference::{check_kit, coarsen, initial, inspect, refine, split, Checked, Refusal};

const GUARD: u16 = 777;

struct Small {
    costs: Vec<u16>,
    starts: Vec<u16>,
    ends: Vec<u16>,
    widths: Vec<u16>,
    k: u32,
    limit: u32,
}

impl Small {
    fn wires(&self) -> [&[u16]; 3] {
        [&self.starts, &self.ends, &self.widths]
    }

    fn put_wire(&mut self, at: usize, start: u16, end: u16) {
        self.starts.insert(at, start);
        self.ends.insert(at, end);
        self.widths.insert(at, 1);
    }

    /// The check, which the naive one has to equal.
    fn check(&self, what: &str) -> Checked<()> {
        let made = check_kit(&self.costs, &self.starts, &self.ends, &self.widths, self.k, self.limit);
        assert_eq!(made, naive::check(&self.costs, self.wires(), self.k, self.limit), "{what}");
        made
    }
}

fn sound(r: &mut Rng) -> Small {
    let rare = r.range(1, 7);
    kit(r, 10, 5, rare)
}

/// Without a loop: wires run upward in a drawn order of the blocks.
fn kit(r: &mut Rng, most_blocks: usize, most_stages: usize, rare: usize) -> Small {
    let n = r.range(1, most_blocks);
    let mut label: Vec<u16> = (0..n as u16).collect();
    r.shuffle(&mut label);
    let highest_cost = r.pick(&[1, 3, 65_535]);
    let highest_width = r.pick(&[1, 3, 65_535]);
    let costs: Vec<u16> = (0..n).map(|_| r.range(1, highest_cost) as u16).collect();
    let (mut starts, mut ends, mut widths) = (vec![], vec![], vec![]);
    for a in 0..n {
        for b in a + 1..n {
            if r.one_in(rare) {
                starts.push(label[a]);
                ends.push(label[b]);
                widths.push(r.range(1, highest_width) as u16);
            }
        }
    }
    let k = r.range(1, n.min(most_stages)) as u32;
    let highest = *costs.iter().max().unwrap() as u32;
    let total: u32 = costs.iter().map(|&c| c as u32).sum();
    let even = total.div_ceil(k);
    let limit = r.pick(&[even, even + highest / 2, even + highest, total]).max(highest);
    Small { costs, starts, ends, widths, k, limit }
}

/// Few wires or none, uneven costs, loose limits and up to 16 stages: what evens out for many passes.
fn uneven(r: &mut Rng) -> Small {
    let rare = r.pick(&[6, 12, 1_000]);
    let mut kit = kit(r, 18, 16, rare);
    let n = kit.costs.len();
    if n > 11 {
        kit.k = (n.min(16) - r.below(2)) as u32; // others have too many divisions to write down
    }
    let highest = r.pick(&[3, 9, 300]);
    kit.costs.iter_mut().for_each(|cost| *cost = r.range(1, highest) as u16);
    let total: u32 = kit.costs.iter().map(|&c| c as u32).sum();
    let share = total.div_ceil(kit.k) + highest as u32;
    kit.limit = r.pick(&[share, 2 * share, total]).max(highest as u32);
    kit
}

#[test]
fn splits_agree_with_the_naive_split() {
    let small = (0..6_000).map(|index| sound(&mut Rng::new(1, index)));
    agree(small, Seen { uncut: 100, moves: 100, evened: 100, both: 20, below: 100, high: 0 });
    let loose = (0..2_000).map(|index| uneven(&mut Rng::new(6, index)));
    agree(loose, Seen { uncut: 0, moves: 100, evened: 500, both: 40, below: 0, high: 0 });
    let medium = (0..600).map(|index| {
        let mut r = Rng::new(5, index);
        let rare = r.range(10, 40);
        kit(&mut r, 48, 3, rare)
    });
    agree(medium, Seen { uncut: 20, moves: 40, evened: 100, both: 20, below: 20, high: 100 });
}

/// How many kits there were of a kind.
#[derive(Debug, Default)]
struct Seen {
    /// Refused with 9.
    uncut: u32,
    /// With moves that gain, with moves that even out, and with both.
    moves: u32,
    evened: u32,
    both: u32,
    /// Cut below the top rung.
    below: u32,
    /// With 4 or more rungs.
    high: u32,
}

impl Seen {
    fn count(&mut self, made: &naive::Split) {
        let (gained, evened) = (made.moves > 0, made.evened > 0);
        self.moves += gained as u32;
        self.evened += evened as u32;
        self.both += (gained && evened) as u32;
        self.below += (made.rung < made.rounds) as u32;
        self.high += (made.rounds >= 4) as u32;
    }

    fn counts(&self) -> [u32; 6] {
        [self.uncut, self.moves, self.evened, self.both, self.below, self.high]
    }
}

fn agree(kits: impl Iterator<Item = Small>, least: Seen) {
    let mut seen = Seen::default();
    for (index, kit) in kits.enumerate() {
        let n = kit.costs.len();
        let blocks = naive::rung(&kit.costs, kit.wires());
        let expected = naive::split(&blocks, kit.k as usize, kit.limit as u64);
        let mut parts = vec![GUARD; n + 2];
        let mut ladder = vec![GUARD; 9 * n + 2];
        let answer =
            split(&kit.costs, &kit.starts, &kit.ends, &kit.widths, kit.k, kit.limit, &mut parts, &mut ladder);

        let mut rows: Vec<u16> = expected.rows.iter().flatten().map(|&g| g as u16).collect();
        rows.resize(9 * n + 2, GUARD);
        assert_eq!(ladder, rows, "index {index}");
        for row in &expected.rows {
            assert_eq!(blocks.joined(row).lowest_on_loop(), None, "index {index}");
        }

        match expected.split {
            None => {
                let refusal = answer.unwrap_err();
                assert_eq!((refusal.number, refusal.place), (9, 0), "index {index}");
                assert!(parts.iter().all(|&p| p == GUARD));
                seen.uncut += 1;
            }
            Some(made) => {
                let a = answer.unwrap();
                let numbers = (a.cut, a.rounds as usize, a.rung as usize, a.moves as usize);
                assert_eq!(numbers, (made.cut, made.rounds, made.rung, made.moves), "index {index}");
                let mut table: Vec<u16> = made.stages.iter().map(|&s| s as u16).collect();
                table.resize(n + 2, GUARD);
                assert_eq!(parts, table, "index {index}");
                seen.count(&made);

                let mut order = vec![GUARD; kit.k as usize + 2];
                let inspected = inspect(
                    &kit.costs,
                    &kit.starts,
                    &kit.ends,
                    &kit.widths,
                    kit.k,
                    kit.limit,
                    &parts,
                    &mut order,
                );
                assert_eq!(inspected, Ok(made.cut), "index {index}");
                let straight = (0..kit.k as u16).chain([GUARD; 2]);
                assert_eq!(order, straight.collect::<Vec<_>>(), "index {index}");
            }
        }
    }
    assert!(seen.counts().iter().zip(least.counts()).all(|(&seen, least)| seen >= least), "{seen:?}");
}

#[test]
fn first_cut_is_the_least_and_first_on_every_rung() {
    for index in 0..3_000 {
        let kit = sound(&mut Rng::new(4, index));
        let (k, limit) = (kit.k as usize, kit.limit);
        for level in &levels(&kit) {
            let rung = naive_copy(&level.graph);
            assert_eq!(
                rung.play_order(),
                level.order.iter().map(|&v| v as usize).collect::<Vec<_>>(),
                "index {index}"
            );
            let divisions = rung.divisions(k, limit as u64);
            let cuts: Vec<u64> = divisions.iter().map(|d| naive::widths_between(&rung, d)).collect();
            let least = cuts.iter().min();
            let made = initial::first_cut(&level.graph, &level.order, k, limit);
            assert_eq!(made.as_ref().map(|m| m.1), least.copied(), "index {index}");
            if let Some((parts, cut)) = made {
                let first = cuts.iter().position(|&c| c == cut).unwrap();
                let parts: Vec<usize> = parts.iter().map(|&p| p as usize).collect();
                assert_eq!(parts, divisions[first], "index {index}");
            }
        }
    }
}

/// Σ cost² over the stages.
fn spread(rung: &naive::Rung, stage: &[usize], k: usize) -> u64 {
    (0..k).map(|s| naive::stage_cost(rung, stage, s).pow(2)).sum()
}

/// No backward wire, and every stage filled and within the limit.
fn good(rung: &naive::Rung, stage: &[usize], k: usize, limit: u32) -> bool {
    rung.wires.keys().all(|&(u, v)| stage[u] <= stage[v])
        && (0..k).all(|s| (1..=limit as u64).contains(&naive::stage_cost(rung, stage, s)))
}

/// The passes on one rung from its first cut, each move looked at: how many gained and how many evened out.
/// Each lowers the cut, or the spread at the same cut, so the passes end.
fn watched_passes(kit: &Small, level: &coarsen::Level, what: &str) -> Option<[u64; 2]> {
    let (k, limit) = (kit.k as usize, kit.limit);
    let (mut parts, first_cut) = initial::first_cut(&level.graph, &level.order, k, limit)?;
    let rung = naive_copy(&level.graph);
    let table = |parts: &[u16]| parts.iter().map(|&p| p as usize).collect::<Vec<_>>();
    let mut stage = table(&parts);
    let mut loads: Vec<u32> = (0..k).map(|s| naive::stage_cost(&rung, &stage, s) as u32).collect();
    let (mut cut, mut moves) = (first_cut, [0, 0]);
    refine::refine(&level.graph, &mut parts, &mut loads, limit, |step, parts| {
        let (to, gain) = (step.to as usize, step.gain);
        assert_eq!(Some((to, gain)), rung.step(&stage, step.vertex, k, limit as u64), "{what}");
        let now = table(parts);
        assert_eq!(now, naive::moved(&stage, step.vertex, to), "{what}");
        assert!(good(&rung, &now, k, limit), "{what}");
        let cut_now = naive::widths_between(&rung, &now);
        assert_eq!(cut as i64 - cut_now as i64, gain, "{what}");
        assert!(gain > 0 || gain == 0 && spread(&rung, &now, k) < spread(&rung, &stage, k), "{what}");
        moves[(gain == 0) as usize] += 1;
        (stage, cut) = (now, cut_now);
    });
    assert!((0..stage.len()).all(|g| rung.step(&stage, g, k, limit as u64).is_none()), "{what}");
    assert!(moves[0] <= first_cut - cut, "{what}");
    Some(moves)
}

#[test]
fn each_move_gains_or_evens_out() {
    let mut moves = [0, 0];
    let mut watch = |kit: Small, what: String| {
        for level in &levels(&kit) {
            let [gained, evened] = watched_passes(&kit, level, &what).unwrap_or_default();
            moves = [moves[0] + gained, moves[1] + evened];
        }
    };
    (0..6_000).for_each(|index| watch(sound(&mut Rng::new(4, index)), format!("sound, index {index}")));
    (0..4_000).for_each(|index| watch(uneven(&mut Rng::new(7, index)), format!("uneven, index {index}")));
    assert!(moves[0] > 1_000 && moves[1] > 5_000, "{moves:?}");
}

/// Demand 3's lists: whoever picked the moves, in any order and whatever they gain.
#[test]
fn any_moves_to_allowed_candidates_keep_the_table_good() {
    let mut moves = 0;
    for index in 0..2_000 {
        let mut r = Rng::new(8, index);
        let kit = if index % 2 == 0 { sound(&mut r) } else { uneven(&mut r) };
        let (k, limit) = (kit.k as usize, kit.limit);
        for level in &levels(&kit) {
            let Some((parts, _)) = initial::first_cut(&level.graph, &level.order, k, limit) else { continue };
            let rung = naive_copy(&level.graph);
            let mut stage: Vec<usize> = parts.iter().map(|&p| p as usize).collect();
            for _ in 0..8 {
                let g = r.below(stage.len());
                let mut open = rung.candidates(&stage, g, k);
                open.retain(|&to| rung.allowed(&stage, g, to, limit as u64));
                if open.is_empty() {
                    continue;
                }
                let to = r.pick(&open);
                let now = naive::moved(&stage, g, to);
                let fall =
                    naive::widths_between(&rung, &stage) as i64 - naive::widths_between(&rung, &now) as i64;
                assert_eq!(fall, rung.gain(&stage, g, to), "index {index}");
                assert!(good(&rung, &now, k, limit), "index {index}");
                stage = now;
                moves += 1;
            }
        }
    }
    assert!(moves > 2_000, "{moves}");
}

/// Pairs picked at random rather than by the paper's visit: the groups never form a loop.
#[test]
fn any_pairs_that_keep_the_rules_are_free_of_loops() {
    let mut joined = 0;
    for index in 0..2_000 {
        let mut r = Rng::new(2, index);
        let kit = sound(&mut r);
        let mut rung = naive::rung(&kit.costs, kit.wires());
        for _ in 0..4 {
            let n = rung.costs.len();
            let level: Vec<usize> = (0..n).map(|g| rung.level(g)).collect();
            let mut wires: Vec<(usize, usize)> = rung.wires.keys().copied().collect();
            r.shuffle(&mut wires);
            let mut pairs = Vec::new();
            for pair in wires {
                pairs.push(pair);
                if !rung.keeps_rules(&pairs, &level) {
                    pairs.pop();
                }
            }
            joined += pairs.len();
            let mut group: Vec<usize> = (0..n).collect();
            for &(u, v) in &pairs {
                group[v] = group[u];
            }
            let mut names = group.clone();
            names.sort();
            names.dedup();
            let group: Vec<usize> = group.iter().map(|g| names.binary_search(g).unwrap()).collect();
            rung = rung.joined(&group);
            assert_eq!(rung.lowest_on_loop(), None, "index {index}");
        }
    }
    assert!(joined > 2_000, "{joined}");
}

#[test]
fn refusals_and_verdicts_agree_with_the_naive_ones() {
    let mut seen = [0; 14];
    for index in 0..20_000 {
        let mut r = Rng::new(3, index);
        let mut kit = sound(&mut r);
        let n = kit.costs.len();
        for _ in 0..r.pick(&[0, 0, 1, 1, 2]) {
            disturb(&mut r, &mut kit);
        }
        let k = kit.k as usize;
        let high = if r.one_in(4) { k } else { k.max(1) - 1 };
        let mut table: Vec<u16> = (0..kit.costs.len()).map(|_| r.range(0, high) as u16).collect();
        if r.one_in(2) && !table.is_empty() {
            let mut ladder = vec![0; 9 * n + 9];
            let _ = split(
                &kit.costs,
                &kit.starts,
                &kit.ends,
                &kit.widths,
                kit.k,
                kit.limit,
                &mut table,
                &mut ladder,
            );
        }
        let mut order = vec![GUARD; 20];
        let made =
            inspect(&kit.costs, &kit.starts, &kit.ends, &kit.widths, kit.k, kit.limit, &table, &mut order);
        let expected = match kit.check(&format!("index {index}")).result {
            Err(refusal) => {
                let (mut parts, mut ladder) = (vec![GUARD; n + 1], vec![GUARD; 9 * n + 9]);
                let made = split(
                    &kit.costs,
                    &kit.starts,
                    &kit.ends,
                    &kit.widths,
                    kit.k,
                    kit.limit,
                    &mut parts,
                    &mut ladder,
                );
                assert_eq!(made, Err(refusal), "index {index}");
                assert!(parts.iter().chain(&ladder).all(|&entry| entry == GUARD));
                Err(refusal)
            }
            Ok(()) => {
                let table: Vec<usize> = table.iter().map(|&p| p as usize).collect();
                naive::verdict(&naive::rung(&kit.costs, kit.wires()), k, kit.limit as u64, &table)
            }
        };
        assert_eq!(made, expected.as_ref().map(|e| e.0).map_err(|r| *r), "index {index}");
        let mut written: Vec<u16> =
            expected.as_ref().map_or(Vec::new(), |e| e.1.iter().map(|&s| s as u16).collect());
        written.resize(20, GUARD);
        assert_eq!(order, written, "index {index}");
        seen[expected.err().map_or(0, |r| r.number as usize)] += 1;
    }
    for number in [0, 1, 2, 3, 5, 6, 7, 8, 10, 11, 12, 13] {
        assert!(seen[number] > 50, "refusal {number}: {seen:?}");
    }
}

/// Wires repeated anywhere in kits with other faults or none.
#[test]
fn checks_agree_with_the_naive_check() {
    let (mut seen, mut finds) = ([0; 9], Finds::default());
    for index in 0..20_000 {
        let mut r = Rng::new(9, index);
        let mut kit = match index % 50 {
            0 => kit(&mut r, 45, 5, 1 + index as usize / 50 % 3), // up to 990 wires
            _ => sound(&mut r),
        };
        for _ in 0..r.pick(&[0, 0, 1, 2, 3]) {
            repeat(&mut r, &mut kit);
        }
        for _ in 0..r.pick(&[0, 0, 0, 1, 2]) {
            disturb(&mut r, &mut kit);
        }
        let made = kit.check(&format!("index {index}"));
        let number = made.result.map_or_else(|refusal| refusal.number, |()| 0);
        seen[number as usize] += 1;
        if number == 7 {
            finds.count(&kit, made.tried);
        }
    }
    for number in [0, 1, 2, 3, 5, 6, 7, 8] {
        assert!(seen[number] > 100, "refusal {number}: {seen:?}");
    }
    assert_eq!((seen[4], finds.rarest() > 100), (0, true), "{finds:?}");
}

/// A wire once more, anywhere behind it; in one case of four turned round.
fn repeat(r: &mut Rng, kit: &mut Small) {
    let m = kit.starts.len();
    if m > 0 {
        let wire = r.below(m);
        let (start, end) = (kit.starts[wire], kit.ends[wire]);
        let (start, end) = if r.one_in(4) { (end, start) } else { (start, end) };
        kit.put_wire(r.range(wire + 1, m), start, end);
    }
}

/// Kits of full size: without a repeat all wires are tried, and every wire is found again if it comes once more at the end.
#[test]
fn every_wire_of_a_large_kit_is_found_again() {
    let check = |n: usize, [starts, ends]: &[Vec<u16>; 2]| {
        check_kit(&vec![1; n], starts, ends, &vec![1; starts.len()], 1, 1)
    };
    for index in 0..9 {
        let mut r = Rng::new(10, index);
        let n = [47, 100, 512][index as usize % 3];
        let mut pairs: Vec<(usize, usize)> = (0..n).flat_map(|a| (a + 1..n).map(move |b| (a, b))).collect();
        r.shuffle(&mut pairs);
        let list = |end: fn(&(usize, usize)) -> usize| pairs[..1_023].iter().map(|p| end(p) as u16).collect();
        let mut wires: [Vec<u16>; 2] = [list(|p| p.0), list(|p| p.1)];
        assert_eq!(check(n, &wires), Checked { result: Ok(()), tried: 1_023 }, "index {index}");
        for wire in 0..1_023 {
            wires.iter_mut().for_each(|list| list.push(list[wire]));
            let found = Checked { result: Err(Refusal { number: 7, place: 1_023 }), tried: 1_024 };
            assert_eq!(check(n, &wires), found, "index {index}, wire {wire}");
            wires.iter_mut().for_each(|list| list.truncate(1_023));
        }
    }
}

/// How many kits were refused with 7 in a certain way.
#[derive(Debug, Default)]
struct Finds {
    /// The repeat is wire 1, is the last wire, is another one.
    first: u32,
    last: u32,
    between: u32,
    /// A later repeat is of a lower wire than the one found.
    lower_later: u32,
}

impl Finds {
    fn count(&mut self, kit: &Small, tried: usize) {
        let (m, wire) = (kit.starts.len(), |w: usize| (kit.starts[w], kit.ends[w]));
        let first_like = |w: usize| (0..=w).find(|&e| wire(e) == wire(w)).unwrap();
        self.first += (tried == 2) as u32;
        self.last += (tried == m) as u32;
        self.between += (2 < tried && tried < m) as u32;
        self.lower_later += (tried..m).any(|w| first_like(w) < first_like(tried - 1)) as u32;
    }

    fn rarest(&self) -> u32 {
        self.first.min(self.last).min(self.between).min(self.lower_later)
    }
}

fn disturb(r: &mut Rng, kit: &mut Small) {
    let n = kit.costs.len();
    let m = kit.starts.len();
    match r.below(9) {
        0 => kit.costs.clear(),
        1 => kit.k = r.pick(&[0, 17, n as u32 + 1, u32::MAX]),
        2 => kit.ends.push(0),
        3 if n > 0 => kit.costs[r.below(n)] = 0,
        4 => kit.limit /= 2,
        5 if m > 0 => kit.widths[r.below(m)] = 0,
        6 if m > 0 => kit.ends[r.below(m)] = r.below(n + 2) as u16,
        _ => {
            for _ in 0..r.range(1, 3) {
                kit.starts.push(r.below(n.max(1)) as u16);
                kit.ends.push(r.below(n.max(1)) as u16);
                kit.widths.push(1);
            }
        }
    }
}

fn levels(kit: &Small) -> Vec<coarsen::Level> {
    let edge =
        |e: usize| Edge { from: kit.starts[e] as u32, to: kit.ends[e] as u32, width: kit.widths[e] as u32 };
    let graph = Graph::new(kit.costs.iter().map(|&c| c as u32).collect(), (0..kit.starts.len()).map(edge));
    let order = graph.topological_order();
    coarsen::hierarchy(graph, order, kit.k as usize, kit.limit)
}

fn naive_copy(graph: &Graph) -> naive::Rung {
    let mut wires = std::collections::BTreeMap::new();
    for u in 0..graph.size() {
        for link in graph.successors(u) {
            assert_eq!(wires.insert((u, link.at()), link.width as u64), None);
        }
    }
    naive::Rung { costs: graph.weights.iter().map(|&w| w as u64).collect(), wires }
}
