//! Document 01 with the moves of document 02 a and the count of b, written down as directly as possible, with no
//! regard for speed.

use reference::{Checked, Refusal};
use std::collections::BTreeMap;

/// Groups with their costs, and one wire for each pair of groups.
#[derive(Clone)]
pub struct Rung {
    pub costs: Vec<u64>,
    pub wires: BTreeMap<(usize, usize), u64>,
}

pub fn widths_between(rung: &Rung, stage: &[usize]) -> u64 {
    let crossing = rung.wires.iter().filter(|((u, v), _)| stage[*u] != stage[*v]);
    crossing.map(|(_, width)| width).sum()
}

pub fn stage_cost(rung: &Rung, stage: &[usize], s: usize) -> u64 {
    (0..stage.len()).filter(|&g| stage[g] == s).map(|g| rung.costs[g]).sum()
}

impl Rung {
    pub fn wire(&self, u: usize, v: usize) -> bool {
        self.wires.contains_key(&(u, v))
    }

    /// The groups given by a set of groups each; group numbers are taken as they are.
    pub fn joined(&self, group: &[usize]) -> Rung {
        let count = group.iter().max().unwrap() + 1;
        let costs = (0..count).map(|c| stage_cost(self, group, c)).collect();
        let mut wires = BTreeMap::new();
        for (&(u, v), width) in &self.wires {
            if group[u] != group[v] {
                *wires.entry((group[u], group[v])).or_insert(0) += width;
            }
        }
        Rung { costs, wires }
    }

    pub fn lowest_on_loop(&self) -> Option<usize> {
        let n = self.costs.len();
        let mut way: Vec<Vec<bool>> = (0..n).map(|u| (0..n).map(|v| self.wire(u, v)).collect()).collect();
        for via in 0..n {
            for u in 0..n {
                for v in 0..n {
                    way[u][v] |= way[u][via] && way[via][v];
                }
            }
        }
        (0..n).find(|&v| way[v][v])
    }

    pub fn play_order(&self) -> Vec<usize> {
        let n = self.costs.len();
        let mut taken: Vec<usize> = Vec::new();
        while taken.len() < n {
            let ready =
                |g: &usize| !taken.contains(g) && (0..n).all(|s| !self.wire(s, *g) || taken.contains(&s));
            taken.push((0..n).find(ready).expect("no loop"));
        }
        taken
    }

    pub fn level(&self, g: usize) -> usize {
        let senders = (0..self.costs.len()).filter(|&s| self.wire(s, g));
        senders.map(|s| self.level(s) + 1).max().unwrap_or(0)
    }

    pub fn keeps_rules(&self, pairs: &[(usize, usize)], level: &[usize]) -> bool {
        let n = self.costs.len();
        let rule_1 = |&(u, v): &(usize, usize)| {
            self.wire(u, v)
                && (level[v] == level[u] + 1
                    || (0..n).all(|w| w == v || !self.wire(u, w))
                    || (0..n).all(|w| w == u || !self.wire(w, v)))
        };
        let rule_2 = |a: usize, b: usize| {
            let ((u, v), (x, y)) = (pairs[a], pairs[b]);
            let apart = u != x && u != y && v != x && v != y;
            a == b || (apart && !(self.wire(u, y) && level[y] == level[u] + 1))
        };
        pairs.iter().all(rule_1) && (0..pairs.len()).all(|a| (0..pairs.len()).all(|b| rule_2(a, b)))
    }

    pub fn round(&self, limit: u64) -> Vec<(usize, usize)> {
        let level: Vec<usize> = (0..self.costs.len()).map(|g| self.level(g)).collect();
        let mut pairs: Vec<(usize, usize)> = Vec::new();
        for u in self.play_order() {
            let mut fitting: Vec<(u64, usize)> = Vec::new();
            for (&(from, v), &width) in &self.wires {
                let with = [&pairs[..], &[(u, v)]].concat();
                let fits = self.costs[u] + self.costs[v] <= limit;
                if from == u && fits && self.keeps_rules(&with, &level) {
                    fitting.push((width, v));
                }
            }
            if let Some(&(_, v)) = fitting.iter().max_by_key(|&&(width, v)| (width, usize::MAX - v)) {
                pairs.push((u, v));
            }
        }
        pairs
    }

    /// Every division of the play order into k filled runs within the limit, by its starts
    /// in the order of the lists, as the stages that the runs give.
    pub fn divisions(&self, k: usize, limit: u64) -> Vec<Vec<usize>> {
        let order = self.play_order();
        let mut lists = vec![vec![0]];
        for _ in 1..k {
            let longer = |list: &Vec<usize>| {
                let list = list.clone();
                (list.last().unwrap() + 1..order.len()).map(move |s| [&list[..], &[s]].concat())
            };
            lists = lists.iter().flat_map(longer).collect();
        }
        let stages = |starts: &Vec<usize>| {
            let mut stage = vec![0; order.len()];
            for (place, &g) in order.iter().enumerate() {
                stage[g] = starts.iter().filter(|&&s| s <= place).count() - 1;
            }
            stage
        };
        let within = |stage: &Vec<usize>| (0..k).all(|s| stage_cost(self, stage, s) <= limit);
        lists.iter().map(stages).filter(within).collect()
    }

    /// Every stage from the highest of the senders (0 if none) to the lowest of the receivers (k - 1 if none),
    /// other than the group's own.
    pub fn candidates(&self, stage: &[usize], g: usize, k: usize) -> Vec<usize> {
        let n = self.costs.len();
        let lowest = (0..n).filter(|&s| self.wire(s, g)).map(|s| stage[s]).max().unwrap_or(0);
        let highest = (0..n).filter(|&r| self.wire(g, r)).map(|r| stage[r]).min().unwrap_or(k - 1);
        (lowest..=highest).filter(|&s| s != stage[g]).collect()
    }

    /// The new stage stays within the limit, and the old one is not emptied.
    pub fn allowed(&self, stage: &[usize], g: usize, to: usize, limit: u64) -> bool {
        stage_cost(self, stage, to) + self.costs[g] <= limit
            && (0..stage.len()).any(|other| other != g && stage[other] == stage[g])
    }

    /// The width of wires to or from groups of the new stage, less that to or from others of its own.
    pub fn gain(&self, stage: &[usize], g: usize, to: usize) -> i64 {
        let width_to = |s: usize| {
            let other = |u: usize, v: usize| if u == g { v } else { u };
            let wires = self.wires.iter().filter(|((u, v), _)| *u == g || *v == g);
            wires.filter(|((u, v), _)| stage[other(*u, *v)] == s).map(|(_, &width)| width as i64).sum::<i64>()
        };
        width_to(to) - width_to(stage[g])
    }

    /// The larger cost of the two stages touched becomes smaller.
    pub fn evens(&self, stage: &[usize], g: usize, to: usize) -> bool {
        let larger = |table: &[usize]| stage_cost(self, table, stage[g]).max(stage_cost(self, table, to));
        larger(&moved(stage, g, to)) < larger(stage)
    }

    /// The move that a visit makes, with its gain: the two sentences of request a, one after the other.
    pub fn step(&self, stage: &[usize], g: usize, k: usize, limit: u64) -> Option<(usize, i64)> {
        let mut candidates = self.candidates(stage, g, k);
        candidates.retain(|&to| self.allowed(stage, g, to, limit));
        let gain = |to: usize| self.gain(stage, g, to);
        let most = candidates.iter().map(|&to| gain(to)).max()?;
        if most > 0 {
            return candidates.into_iter().find(|&to| gain(to) == most).map(|to| (to, most));
        }
        candidates.into_iter().find(|&to| gain(to) == 0 && self.evens(stage, g, to)).map(|to| (to, 0))
    }
}

/// The table after a group's move.
pub fn moved(stage: &[usize], g: usize, to: usize) -> Vec<usize> {
    let mut table = stage.to_vec();
    table[g] = to;
    table
}

pub struct Answer {
    /// None for a 9.
    pub split: Option<Split>,
    pub rows: Vec<Vec<usize>>,
}

pub struct Split {
    pub cut: u64,
    pub rounds: usize,
    pub rung: usize,
    /// Moves of gain above 0, which alone are answered, and those of gain 0.
    pub moves: usize,
    pub evened: usize,
    pub stages: Vec<usize>,
}

/// The split of a sound kit.
pub fn split(blocks: &Rung, k: usize, limit: u64) -> Answer {
    let n = blocks.costs.len();
    let mut rows: Vec<Vec<usize>> = vec![(0..n).collect()];
    loop {
        let row = rows.last().unwrap();
        let rung = blocks.joined(row);
        let count = rung.costs.len();
        if count <= 2 * k || rows.len() > 8 {
            break;
        }
        let pairs = rung.round(limit);
        if 10 * pairs.len() < count {
            break;
        }
        // Name each block's new group by its lowest block, then number the names.
        let mate = |g: usize| {
            let pair = pairs.iter().find(|p| p.0 == g || p.1 == g);
            pair.map_or((g, g), |&p| p)
        };
        let lowest = |b: usize| (0..n).find(|&c| mate(row[c]) == mate(row[b])).unwrap();
        let mut names: Vec<usize> = (0..n).map(lowest).collect();
        names.sort();
        names.dedup();
        let next = (0..n).map(|b| names.iter().position(|&name| name == lowest(b)).unwrap());
        let next = next.collect();
        rows.push(next);
    }
    let split = (0..rows.len()).rev().find_map(|at| first_and_moves(blocks, &rows, at, k, limit));
    Answer { split, rows }
}

fn first_and_moves(blocks: &Rung, rows: &[Vec<usize>], at: usize, k: usize, limit: u64) -> Option<Split> {
    let rung = blocks.joined(&rows[at]);
    let divisions = rung.divisions(k, limit);
    // min_by_key takes the first among equals.
    let stage = divisions.iter().min_by_key(|stage| widths_between(&rung, stage))?;
    let mut stage_of_block: Vec<usize> = rows[at].iter().map(|&g| stage[g]).collect();
    let (mut moves, mut evened) = (0, 0);
    for row in rows[..=at].iter().rev() {
        let rung = blocks.joined(row);
        let block = |g: usize| row.iter().position(|&other| other == g).unwrap();
        let mut stage: Vec<usize> = (0..rung.costs.len()).map(|g| stage_of_block[block(g)]).collect();
        let mut moved = true;
        while moved {
            moved = false;
            for g in 0..stage.len() {
                if let Some((to, gain)) = rung.step(&stage, g, k, limit) {
                    stage[g] = to;
                    moves += (gain > 0) as usize;
                    evened += (gain == 0) as usize;
                    moved = true;
                }
            }
        }
        stage_of_block = row.iter().map(|&g| stage[g]).collect();
    }
    let cut = widths_between(blocks, &stage_of_block);
    Some(Split { cut, rounds: rows.len() - 1, rung: at, moves, evened, stages: stage_of_block })
}

/// The fault, and how many wires were tried as repeats: none if the search was not come to, the place and one
/// more at a find, all of them otherwise.
pub fn check(costs: &[u16], wires: [&[u16]; 3], k: u32, limit: u32) -> Checked<()> {
    let fault = fault(costs, wires, k, limit);
    let tried = match fault {
        Some(refusal) if refusal.number < 7 => 0,
        Some(refusal) if refusal.number == 7 => refusal.place as usize + 1,
        _ => wires[0].len(),
    };
    Checked { result: fault.map_or(Ok(()), Err), tried }
}

/// Checks 1 to 3 and 5 to 8, on whatever is lent.
fn fault(costs: &[u16], wires: [&[u16]; 3], k: u32, limit: u32) -> Option<Refusal> {
    let refused = |number, place: usize| Some(Refusal { number, place: place as u32 });
    let n = costs.len();
    let [starts, ends, widths] = wires;
    let m = starts.len();
    if !(1..=512).contains(&n) {
        return refused(1, 0);
    }
    if k == 0 || k > 16 || k as usize > n {
        return refused(2, 0);
    }
    if ends.len() != m || widths.len() != m || m > 1_024 {
        return refused(3, 0);
    }
    if let Some(b) = (0..n).find(|&b| costs[b] == 0 || costs[b] as u32 > limit) {
        return refused(5, b);
    }
    let outside = |b: u16| b as usize >= n;
    let bad = |w: usize| outside(starts[w]) || outside(ends[w]) || starts[w] == ends[w] || widths[w] == 0;
    if let Some(w) = (0..m).find(|&w| bad(w)) {
        return refused(6, w);
    }
    let repeats = |w: usize| (0..w).any(|e| starts[e] == starts[w] && ends[e] == ends[w]);
    if let Some(w) = (0..m).find(|&w| repeats(w)) {
        return refused(7, w);
    }
    rung(costs, wires).lowest_on_loop().and_then(|b| refused(8, b))
}

pub fn rung(costs: &[u16], [starts, ends, widths]: [&[u16]; 3]) -> Rung {
    let wire = |w: usize| ((starts[w] as usize, ends[w] as usize), widths[w] as u64);
    Rung { costs: costs.iter().map(|&c| c as u64).collect(), wires: (0..starts.len()).map(wire).collect() }
}

/// Checks 10 to 13 and the verdict: the cut and the start order.
pub fn verdict(blocks: &Rung, k: usize, limit: u64, table: &[usize]) -> Result<(u64, Vec<usize>), Refusal> {
    let refused = |number, place: usize| Err(Refusal { number, place: place as u32 });
    if let Some(b) = (0..table.len()).find(|&b| table[b] >= k) {
        return refused(10, b);
    }
    if let Some(s) = (0..k).find(|s| !table.contains(s)) {
        return refused(11, s);
    }
    if let Some(s) = (0..k).find(|&s| stage_cost(blocks, table, s) > limit) {
        return refused(12, s);
    }
    let stages = blocks.joined(table);
    match stages.lowest_on_loop() {
        Some(s) => refused(13, s),
        None => Ok((widths_between(blocks, table), stages.play_order())),
    }
}
