//! Damaged kits and texts for every refusal, and tables for inspection.

use crate::generate::{Instance, Rng};
use crate::text::{read_kit, split_text};

type Damage = fn(&mut Rng, Instance) -> Vec<u8>;

/// Refusals 3 and 4 are absent: the programs always lend lists of full and equal size.
pub const DAMAGES: [(&str, Damage); 19] = [
    ("1: no blocks", |r, kit| text(fault_1(r, kit))),
    ("2: stage count", |r, kit| text(fault_2(r, kit))),
    ("5: cost", |r, kit| text(fault_5(r, kit))),
    ("6: wire", |r, kit| text(fault_6(r, kit))),
    ("7: repeated wire", |r, kit| text(fault_7(r, kit))),
    ("8: loop", |r, kit| text(fault_8(r, kit))),
    ("9: limit too tight", |_, mut kit| {
        let highest = *kit.weights.iter().max().unwrap();
        kit.bound = highest.max(kit.weights.iter().sum::<u32>().div_ceil(kit.k));
        text(kit)
    }),
    ("several faults", |r, mut kit| {
        let faults = [fault_2, fault_5, fault_6, fault_7, fault_8];
        for _ in 0..r.range(2, 4) {
            kit = r.pick(&faults)(r, kit);
        }
        text(kit)
    }),
    ("14: long text", |r, kit| {
        let length = r.pick(&[65_537, 65_538, 70_000, 200_000]);
        padded(r, kit, length)
    }),
    ("15: text of 65,536 bytes", |r, kit| padded(r, kit, 65_536)),
    ("15: block lines", |r, mut kit| {
        let n = r.pick(&[512, 513, 513, 514, 600]);
        kit.weights = vec![1; n];
        kit.edges.truncate(r.below(3));
        let kit = text(kit);
        if r.one_in(2) {
            replace_number(&kit, 0, "512")
        } else {
            kit
        }
    }),
    ("15: wire lines", |r, mut kit| {
        kit.weights = vec![1; 512];
        kit.bound = 512;
        let m = r.pick(&[1_024, 1_025, 1_025, 1_026, 1_200]) as u32;
        kit.edges = (0..m).map(|e| (e % 500, e % 500 + 1 + e / 500, 1 + e % 7)).collect();
        text(kit)
    }),
    ("16: count of blocks", |r, kit| {
        let n = kit.weights.len();
        let other = r.pick(&[n + 1, n - 1, 0, 512, 513, 65_535, n * 2]);
        replace_number(&text(kit), 0, &other.to_string())
    }),
    ("15: number", |r, kit| {
        let kit = text(kit);
        let which = if r.one_in(2) { r.below(3) } else { r.below(1_000_000) };
        let value = r.pick(&NUMBERS);
        replace_number(&kit, which, value)
    }),
    ("limits", |r, kit| {
        let value = r.pick(&["99999999", "100000000", "65536", "0", "1", "4294967296"]);
        replace_number(&text(kit), 2, value)
    }),
    ("15: bytes", |r, kit| {
        let mut kit = text(kit);
        for _ in 0..r.pick(&[1, 1, 1, 2, 5]) {
            damage_byte(r, &mut kit);
        }
        kit
    }),
    ("15: lines", |r, kit| damage_lines(r, &text(kit))),
    ("15: ends", |r, kit| damage_end(r, text(kit))),
    ("15: spaces and zeros", |r, kit| {
        let mut kit = text(kit);
        let wanted: fn(u8) -> bool = r.pick(&[|b| b == b' ', |b: u8| b.is_ascii_digit()]);
        let places: Vec<usize> = (0..kit.len()).filter(|&i| wanted(kit[i])).collect();
        let at = r.pick(&places);
        kit.insert(at, if kit[at] == b' ' { b' ' } else { b'0' });
        kit
    }),
];

/// Numbers that are no values, or hardly values.
#[rustfmt::skip]
const NUMBERS: [&str; 20] = [
    "65535", "65536", "65537", "0", "00", "01", "007", "-1", "+1", "", " 1", "1 ", "1.0", "1e3", "0x1",
    "99999999", "100000000", "4294967297", "18446744073709551617",
    "340282366920938463463374607431768211457",
];

fn text(kit: Instance) -> Vec<u8> {
    kit.text().into_bytes()
}

fn fault_1(r: &mut Rng, mut kit: Instance) -> Instance {
    kit.weights.clear();
    kit.edges.truncate(r.below(3));
    kit.k = r.below(3) as u32;
    kit
}

fn fault_2(r: &mut Rng, mut kit: Instance) -> Instance {
    kit.k = r.pick(&[0, 16, 17, kit.weights.len() as u32 + 1, 65_535]);
    kit
}

fn fault_5(r: &mut Rng, mut kit: Instance) -> Instance {
    for _ in 0..r.range(1, 3) {
        let v = r.below(kit.weights.len());
        match r.below(3) {
            0 => kit.bound = kit.weights[v] - kit.weights[v].min(1),
            _ => kit.weights[v] = 0,
        }
    }
    kit
}

fn fault_6(r: &mut Rng, mut kit: Instance) -> Instance {
    let n = kit.weights.len() as u32;
    for _ in 0..r.range(1, 3) {
        let v = r.below(n as usize) as u32;
        let outside = r.pick(&[n, n + 1, 65_535]);
        let edge = r.pick(&[(v, outside, 1), (outside, v, 1), (v, v, 1), (v, (v + 1) % n, 0)]);
        insert(r, &mut kit, edge);
    }
    kit
}

fn fault_7(r: &mut Rng, mut kit: Instance) -> Instance {
    for _ in 0..r.range(1, 3) {
        if !kit.edges.is_empty() {
            let (from, to, width) = r.pick(&kit.edges);
            let other = r.range(1, 65_535) as u32;
            let edge = (from, to, r.pick(&[width, other]));
            insert(r, &mut kit, edge);
        }
    }
    kit
}

/// Closes a random way along wires; what lies before and behind the loop stays.
fn fault_8(r: &mut Rng, mut kit: Instance) -> Instance {
    for _ in 0..r.range(1, 3) {
        if kit.edges.is_empty() {
            break;
        }
        let (first, mut last, _) = r.pick(&kit.edges);
        for _ in 0..r.below(30) {
            let next: Vec<u32> = kit.edges.iter().filter(|e| e.0 == last).map(|e| e.1).collect();
            if next.is_empty() {
                break;
            }
            last = r.pick(&next);
        }
        if last != first {
            insert(r, &mut kit, (last, first, 1));
        }
    }
    kit
}

/// Puts an edge anywhere; with 1,024 edges it takes the place of one.
fn insert(r: &mut Rng, kit: &mut Instance, edge: (u32, u32, u32)) {
    let at = r.below(kit.edges.len() + 1);
    if kit.edges.len() < 1_024 {
        kit.edges.insert(at, edge);
    } else {
        kit.edges[at.min(1_023)] = edge;
    }
}

/// Too many wire lines, or one endless line, of exactly this length together.
fn padded(r: &mut Rng, kit: Instance, length: usize) -> Vec<u8> {
    let mut out = text(kit);
    if r.one_in(3) {
        out.resize(length, r.pick(b"0 )\n"));
    }
    while out.len() < length {
        out.extend_from_slice(b"(wire (from 0) (to 1) (width 65535))\n");
    }
    out.truncate(length);
    *out.last_mut().unwrap() = b'\n';
    out
}

/// Writes something else in place of the number `which` of the text (modulo their count).
fn replace_number(text: &[u8], which: usize, value: &str) -> Vec<u8> {
    let digit = |i: usize| text.get(i).is_some_and(u8::is_ascii_digit);
    let starts: Vec<usize> = (1..text.len()).filter(|&i| digit(i) && !digit(i - 1)).collect();
    let start = starts[which % starts.len()];
    let end = (start..).find(|&i| !digit(i)).unwrap();
    [&text[..start], value.as_bytes(), &text[end..]].concat()
}

fn damage_byte(r: &mut Rng, text: &mut Vec<u8>) {
    if text.is_empty() {
        return;
    }
    let at = r.below(text.len());
    let any = r.below(256) as u8;
    let byte = r.pick(&[0, 9, 10, 13, 32, 40, 41, 48, 57, 127, 128, 160, 255, any, any, any]);
    match r.below(5) {
        0 => drop(text.remove(at)),
        1 => text.insert(at, byte),
        2 => text.insert(at, text[at]),
        3 => text[at] ^= 1 << r.below(8),
        _ => text[at] = byte,
    }
}

fn damage_lines(r: &mut Rng, text: &[u8]) -> Vec<u8> {
    let mut lines: Vec<&[u8]> = text.split_inclusive(|&b| b == b'\n').collect();
    let (a, b) = (r.below(lines.len()), r.below(lines.len()));
    match r.below(6) {
        0 => drop(lines.remove(a)),
        1 => lines.insert(a, lines[b]),
        2 => lines.swap(a, b),
        3 => lines.insert(a, b"\n"),
        4 => lines.insert(a, b"; a note\n"),
        _ => {
            let line = r.pick(&[&b"(block (cost 1))\n"[..], b"(wire (from 0) (to 1) (width 1))\n"]);
            lines.insert(a, line);
        }
    }
    lines.concat()
}

fn damage_end(r: &mut Rng, mut text: Vec<u8>) -> Vec<u8> {
    let first_line = text.iter().position(|&b| b == b'\n').unwrap() + 1;
    match r.below(9) {
        0 => text.clear(),
        1 => text = b"\n".to_vec(),
        2 => text.truncate(r.below(text.len())),
        3 => drop(text.pop()),
        4 => text.push(r.pick(b"\n\r \0)\x1a\xff")),
        5 => text = String::from_utf8_lossy(&text).replace('\n', "\r\n").into_bytes(),
        6 => text.truncate(first_line),
        7 => text.truncate(first_line - 1),
        _ => text.splice(0..0, *b"\xef\xbb\xbf").for_each(drop),
    }
    text
}

/// A table for a kit text: the split's own, renamed, disturbed or drawn anew.
pub fn table(r: &mut Rng, text: &[u8]) -> Vec<u16> {
    let (mut costs, mut wires) = (vec![0; 512], [(); 3].map(|()| vec![0; 1_024]));
    let [starts, ends, widths] = &mut wires;
    let Ok(kit) = read_kit(text, &mut costs, starts, ends, widths) else {
        return vec![0, 1, 2];
    };
    let k = kit.stages.clamp(1, 16) as usize;
    let drawn = |r: &mut Rng| (0..kit.blocks).map(|_| r.below(k) as u16).collect();
    let mut parts: Vec<u16> = match split_text(text) {
        Ok((_, parts)) if !r.one_in(6) => parts,
        _ => drawn(r),
    };
    let mut names: Vec<u16> = (0..k as u16).collect();
    match r.below(3) {
        0 => r.shuffle(&mut names),
        1 => names.reverse(),
        _ => {}
    }
    parts.iter_mut().for_each(|p| *p = names[*p as usize]);
    for _ in 0..r.pick(&[0, 0, 0, 1, 1, 2, 5]) {
        if let Some(at) = parts.len().checked_sub(1).map(|last| r.range(0, last)) {
            let (stage, beyond) = (r.below(k) as u16, r.pick(&[k as u16, k as u16, 65_535]));
            parts[at] = r.pick(&[stage, stage, stage, stage, beyond]);
        }
    }
    parts
}
