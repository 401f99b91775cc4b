//! A fixed sequence of kits from a very simple generator, and a digest of their splits and checks.
//! The README states the generator, so that another program can mirror it.

use crate::generate::Instance;
use crate::{check_kit, split};

pub const KITS: u32 = 512;
pub const KITS_A_LINE: u32 = 32;
const GUARD: u16 = 65_535;

struct Lcg(u64);

impl Lcg {
    fn draw(&mut self, below: u32) -> u32 {
        self.0 = (self.0 * 1_103_515_245 + 12_345) % 2_147_483_648;
        (self.0 / 65_536) as u32 % below
    }
}

/// A kit and how much is lent with it: parts, ladder and widths may be short by one.
pub struct Lent {
    pub kit: Instance,
    pub short_parts: usize,
    pub short_ladder: usize,
    pub short_widths: usize,
}

pub fn kit(index: u32) -> Lent {
    let mut x = Lcg(index as u64);
    let large = index % 32 == 31;
    let n = if large { 512 } else { 1 + x.draw(64) };
    let most = if large { 1_024 } else { x.draw(2 * n + 1) };
    let mut k = 1 + x.draw(n.min(16));
    let span = 1 + x.draw(n);
    let highest_cost = [1, 9, 32_768][x.draw(3) as usize];
    let highest_width = [1, 9, 32_768][x.draw(3) as usize];
    let mut label: Vec<u32> = (0..n).collect();
    if x.draw(2) == 1 {
        for i in 1..n {
            label.swap(i as usize, x.draw(i + 1) as usize);
        }
    }
    let mut weights: Vec<u32> = (0..n).map(|_| 1 + x.draw(highest_cost)).collect();
    let mut edges: Vec<(u32, u32, u32)> = Vec::new();
    for _ in 0..4 * most {
        let a = x.draw(n);
        let b = a + 1 + x.draw(span);
        let width = 1 + x.draw(highest_width);
        if b < n && (edges.len() as u32) < most {
            let (from, to) = (label[a as usize], label[b as usize]);
            if !edges.iter().any(|&(f, t, _)| (f, t) == (from, to)) {
                edges.push((from, to, width));
            }
        }
    }
    let total: u32 = weights.iter().sum();
    let bound = total / k * (8 + x.draw(9)) / 8 + x.draw(highest_cost + 1);

    let (mut short_parts, mut short_ladder, mut short_widths) = (0, 0, 0);
    if index % 8 == 3 {
        let fault = x.draw(10);
        let v = x.draw(n);
        let e = x.draw(edges.len().max(1) as u32) as usize;
        match fault {
            0 => weights.clear(),
            1 => k = 17 * x.draw(2),
            2 => k = n + 1,
            4 => short_parts = 1,
            5 => short_ladder = 1,
            6 => weights[v as usize] = 0,
            _ if edges.is_empty() => {}
            3 => short_widths = 1,
            7 => edges[e].2 = 0,
            8 => edges.push(edges[e]),
            _ => edges.push((edges[e].1, edges[e].0, 1)),
        }
    }
    Lent { kit: Instance { weights, edges, k, bound }, short_parts, short_ladder, short_widths }
}

/// The digest's lines of this implementation.
pub fn lines() -> String {
    lines_of(values)
}

/// One line for every 32 kits: how many so far, and the digest so far of the values of each.
pub fn lines_of(values: impl Fn(&Lent) -> Vec<u64>) -> String {
    let mut out = String::new();
    let mut digest = 0;
    for index in 0..KITS {
        for value in values(&kit(index)) {
            digest = (digest * 31 + value) % 1_000_000_007;
        }
        if (index + 1) % KITS_A_LINE == 0 {
            out += &format!("(digest {} {})\n", index + 1, digest);
        }
    }
    out
}

/// The answer (0, cut, rounds, rung, moves) or the refusal (number, place), then both
/// tables as they stand afterwards, untouched entries being 65,535, then the check's values.
fn values(lent: &Lent) -> Vec<u64> {
    let kit = &lent.kit;
    let n = kit.weights.len();
    let costs: Vec<u16> = kit.weights.iter().map(|&w| w as u16).collect();
    let [starts, ends, mut widths] = kit.edge_lists();
    widths.truncate(widths.len() - lent.short_widths);
    let mut parts = vec![GUARD; n - lent.short_parts];
    let mut ladder = vec![GUARD; 9 * n - lent.short_ladder];
    let answer = split(&costs, &starts, &ends, &widths, kit.k, kit.bound, &mut parts, &mut ladder);
    let mut values = match answer {
        Ok(s) => vec![0, s.cut, s.rounds.into(), s.rung.into(), s.moves.into()],
        Err(r) => vec![r.number.into(), r.place.into()],
    };
    values.extend(parts.iter().chain(&ladder).map(|&entry| entry as u64));
    let check = check_kit(&costs, &starts, &ends, &widths, kit.k, kit.bound);
    let (number, place) = check.result.map_or_else(|r| (r.number, r.place), |()| (0, 0));
    values.extend([number.into(), place.into(), check.tried as u64]);
    values
}
