//! Generated kits. Everything follows from a seed and an index.

use crate::damage;
use std::fmt::Write;

pub struct Rng(u64);

impl Rng {
    pub fn new(seed: u64, index: u64) -> Rng {
        let mut rng = Rng(seed.wrapping_mul(0x9e37_79b9_7f4a_7c15) ^ index);
        rng.next();
        Rng(rng.next())
    }

    fn next(&mut self) -> u64 {
        self.0 = self.0.wrapping_add(0x9e37_79b9_7f4a_7c15);
        let z = (self.0 ^ (self.0 >> 30)).wrapping_mul(0xbf58_476d_1ce4_e5b9);
        let z = (z ^ (z >> 27)).wrapping_mul(0x94d0_49bb_1331_11eb);
        z ^ (z >> 31)
    }

    pub fn below(&mut self, n: usize) -> usize {
        (self.next() % n as u64) as usize
    }

    /// From a to b, both included.
    pub fn range(&mut self, a: usize, b: usize) -> usize {
        a + self.below(b - a + 1)
    }

    pub fn one_in(&mut self, n: usize) -> bool {
        self.below(n) == 0
    }

    pub fn pick<T: Copy>(&mut self, items: &[T]) -> T {
        items[self.below(items.len())]
    }

    pub fn shuffle<T>(&mut self, items: &mut [T]) {
        for i in 1..items.len() {
            items.swap(i, self.below(i + 1));
        }
    }
}

/// A kit, sound or not.
#[derive(Clone)]
pub struct Instance {
    pub weights: Vec<u32>,
    pub edges: Vec<(u32, u32, u32)>,
    pub k: u32,
    pub bound: u32,
}

impl Instance {
    pub fn text(&self) -> String {
        let n = self.weights.len();
        let mut out = format!("(kit (blocks {n}) (stages {}) (limit {}))\n", self.k, self.bound);
        for cost in &self.weights {
            writeln!(out, "(block (cost {cost}))").unwrap();
        }
        for (from, to, width) in &self.edges {
            writeln!(out, "(wire (from {from}) (to {to}) (width {width}))").unwrap();
        }
        out
    }

    /// Starts, ends and widths.
    pub fn edge_lists(&self) -> [Vec<u16>; 3] {
        [
            self.edges.iter().map(|e| e.0 as u16).collect(),
            self.edges.iter().map(|e| e.1 as u16).collect(),
            self.edges.iter().map(|e| e.2 as u16).collect(),
        ]
    }
}

pub type Pairs = Vec<(usize, usize)>;
type Shape = fn(&mut Rng) -> (usize, Pairs);

/// Shapes of sound kits, as pairs of lower and higher places.
pub const SHAPES: [(&str, Shape); 12] = [
    ("chain", |r| {
        let n = size(r);
        let mut pairs: Pairs = (1..n).map(|v| (v - 1, v)).collect();
        if n > 2 && r.one_in(2) {
            add_random(r, n, n / 4, &mut pairs);
        }
        (n, pairs)
    }),
    ("layers", |r| layers(r, false)),
    ("layers with skips", |r| layers(r, true)),
    ("tree", |r| {
        let n = size(r);
        let spread = r.range(1, n);
        (n, (1..n).map(|v| (v - 1 - r.below(spread.min(v)), v)).collect())
    }),
    ("in-tree", |r| {
        let n = size(r);
        let spread = r.range(1, n);
        (n, (1..n).map(|v| (n - 1 - v, n - 1 - (v - 1 - r.below(spread.min(v))))).collect())
    }),
    ("dense", |r| {
        let n = r.range(2, 46);
        let missing = r.range(2, 20);
        let all = (0..n).flat_map(|a| (a + 1..n).map(move |b| (a, b)));
        (n, all.filter(|_| !r.one_in(missing)).collect())
    }),
    ("sparse", |r| {
        let n = size(r).max(2);
        let mut pairs = Vec::new();
        add_random(r, n, n / 2, &mut pairs);
        (n, pairs)
    }),
    ("no wires", |r| (size(r), Vec::new())),
    ("random", |r| {
        let n = size(r).max(2);
        let mut pairs = Vec::new();
        let m = r.range(0, 1_024.min(3 * n));
        add_random(r, n, m, &mut pairs);
        (n, pairs)
    }),
    ("strands", |r| {
        let n = size(r);
        let strands = r.range(1, 12);
        let mut pairs: Pairs = (strands..n).map(|v| (v - strands, v)).collect();
        if n > 2 && r.one_in(3) {
            add_random(r, n, n / 8, &mut pairs);
        }
        (n, pairs)
    }),
    ("tiny", |r| {
        let n = r.range(1, 9);
        let keep = r.range(1, 6);
        let all = (0..n).flat_map(|a| (a + 1..n).map(move |b| (a, b)));
        (n, all.filter(|_| r.one_in(keep)).collect())
    }),
    ("full size", |r| {
        let mut pairs = match r.below(4) {
            0 => (1..512).map(|v| (v - 1, v)).collect(),
            1 => (1..512).map(|v| (v - 1 - r.below(v), v)).collect(),
            _ => Vec::new(),
        };
        let span = r.pick(&[4, 20, 511]);
        while pairs.len() < 1_024 {
            let a = r.below(511);
            let pair = (a, (a + r.range(1, span)).min(511));
            if !pairs.contains(&pair) {
                pairs.push(pair);
            }
        }
        (512, pairs)
    }),
];

fn size(r: &mut Rng) -> usize {
    let top = 1 << r.below(10);
    r.range(1, top)
}

fn add_random(r: &mut Rng, n: usize, count: usize, pairs: &mut Pairs) {
    for _ in 0..count {
        let (a, b) = (r.below(n), r.below(n));
        if a != b {
            pairs.push((a.min(b), a.max(b)));
        }
    }
}

fn layers(r: &mut Rng, skips: bool) -> (usize, Pairs) {
    let wide = r.range(1, 16);
    let n = (wide * r.range(1, 32)).min(512);
    let links = r.range(1, 4);
    let mut pairs = Vec::new();
    for v in wide..n {
        let layer = v / wide;
        for _ in 0..links {
            let sender = if skips && r.one_in(3) { r.below(layer) } else { layer - 1 };
            pairs.push((sender * wide + r.below(wide), v));
        }
    }
    (n, pairs)
}

/// A sound kit of the shape: numbers, costs, widths, stage count and limit are drawn.
pub fn sound(r: &mut Rng, shape: Shape) -> Instance {
    let (n, mut pairs) = shape(r);
    pairs.sort_unstable();
    pairs.dedup();
    if pairs.len() > 1_024 || r.one_in(2) {
        r.shuffle(&mut pairs);
    }
    pairs.truncate(1_024);
    let mut label: Vec<u32> = (0..n as u32).collect();
    match r.below(4) {
        0 | 1 => r.shuffle(&mut label),
        2 => label.reverse(),
        _ => {}
    }
    let weights = values(r, n);
    let widths = values(r, pairs.len());
    let edge = |(&(a, b), width): (&(usize, usize), u32)| (label[a], label[b], width);
    let edges = pairs.iter().zip(widths).map(edge).collect();
    let k = match r.below(4) {
        0 => r.range(1, n.min(3)),
        1 => n.min(16),
        _ => r.range(1, n.min(16)),
    } as u32;
    let bound = bound(r, &weights, k);
    Instance { weights, edges, k, bound }
}

/// A sound kit whose first cut is uneven and whose stages are then evened out: few wires, all of one width
/// so that many moves gain 0, costs of every magnitude, mostly 16 stages, and a limit that matters little.
pub fn uneven(r: &mut Rng) -> Instance {
    let name = r.pick(&["chain", "in-tree", "sparse", "no wires", "strands"]);
    let (_, shape) = *SHAPES.iter().find(|shape| shape.0 == name).expect("a shape's name");
    let mut kit = sound(r, shape);
    while kit.weights.len() < 20 {
        kit = sound(r, shape); // as many blocks as stages leave nothing to move
    }
    let width = r.range(1, 3) as u32;
    kit.edges.iter_mut().for_each(|edge| edge.2 = width);
    for weight in &mut kit.weights {
        let highest = 1 << r.below(16);
        *weight = r.range(1, highest) as u32;
    }
    kit.k = if r.one_in(3) { r.range(1, 16) } else { 16 } as u32;
    let total: u32 = kit.weights.iter().sum();
    let highest = *kit.weights.iter().max().expect("at least one vertex");
    kit.bound = r.pick(&[total, total, total / 2, 2 * total.div_ceil(kit.k)]).max(highest);
    kit
}

fn values(r: &mut Rng, count: usize) -> Vec<u32> {
    let highest = r.pick(&[1, 1, 2, 9, 300, 65_535]);
    let rare = r.one_in(8).then(|| r.range(2, 20));
    let mut value = || match rare {
        Some(n) if r.one_in(n) => 65_535,
        _ => r.range(1, highest) as u32,
    };
    (0..count).map(|_| value()).collect()
}

/// A limit that no single cost exceeds: tight, somewhat loose, or without any effect.
fn bound(r: &mut Rng, weights: &[u32], k: u32) -> u32 {
    let highest = *weights.iter().max().expect("at least one vertex");
    let total: u32 = weights.iter().sum();
    let even = total.div_ceil(k);
    let bound = match r.below(8) {
        0 => even,
        1 | 2 => even + r.below(highest as usize + 1) as u32,
        3 | 4 => even + r.below(even as usize + 1) as u32,
        5 => even + highest,
        6 => total,
        _ => 99_999_999,
    };
    bound.max(highest)
}

/// A generated text with the name of its kind.
pub struct Case {
    pub kind: &'static str,
    pub text: Vec<u8>,
}

/// Two thirds of the cases are sound kits, the others damaged ones.
pub fn case(seed: u64, index: u64) -> Case {
    let mut r = Rng::new(seed, index);
    let at = (index / 3) as usize;
    if index % 3 == 2 {
        let (kind, damage) = damage::DAMAGES[at % damage::DAMAGES.len()];
        let shape = if r.one_in(2) { r.pick(&SHAPES).1 } else { SHAPES[10].1 };
        let kit = sound(&mut r, shape);
        return Case { kind, text: damage(&mut r, kit) };
    }
    let (kind, kit) = match SHAPES.get((2 * at + (index % 3) as usize) % (SHAPES.len() + 1)) {
        Some(&(kind, shape)) => (kind, sound(&mut r, shape)),
        None => ("uneven", uneven(&mut r)),
    };
    Case { kind, text: kit.text().into_bytes() }
}

/// A table to inspect with the kit of the same seed and index.
pub fn table(seed: u64, index: u64) -> Vec<u16> {
    damage::table(&mut Rng::new(seed, !index), &case(seed, index).text)
}
