//! The text formats: kits and tables in, answers out.

use crate::check::{refuse, Refusal, MAX_EDGES, MAX_VERTICES};
use crate::{inspect, split_telling, Passes, Split};
use std::io::Write;

pub const MAX_TEXT: usize = 65_536;
const MAX_VALUE: u32 = 65_535;
const MAX_LIMIT: u32 = 99_999_999;

/// What the kit line says, and how many lines of each kind follow it.
#[derive(Clone, Copy, Debug, PartialEq, Eq)]
pub struct Kit {
    pub blocks: usize,
    pub wires: usize,
    pub stages: u32,
    pub limit: u32,
}

/// Reads a whole line made of fixed pieces with a number after each, then `end`.
fn form<const N: usize>(line: &[u8], pieces: [(&str, u32); N], end: &str) -> Option<[u32; N]> {
    let mut values = [0; N];
    let mut rest = line;
    for (value, (piece, highest)) in values.iter_mut().zip(pieces) {
        rest = rest.strip_prefix(piece.as_bytes())?;
        let digits = rest.iter().take_while(|b| b.is_ascii_digit()).count();
        *value = number(&rest[..digits], highest)?;
        rest = &rest[digits..];
    }
    (rest == end.as_bytes()).then_some(values)
}

fn number(digits: &[u8], highest: u32) -> Option<u32> {
    if digits.is_empty() || digits.len() > 8 || (digits.len() > 1 && digits[0] == b'0') {
        return None;
    }
    let value = digits.iter().fold(0, |sum, d| 10 * sum + (d - b'0') as u32);
    (value <= highest).then_some(value)
}

fn kit_line(line: &[u8]) -> Option<[u32; 3]> {
    let pieces = [("(kit (blocks ", MAX_VALUE), (") (stages ", MAX_VALUE), (") (limit ", MAX_LIMIT)];
    form(line, pieces, "))")
}

fn block_line(line: &[u8]) -> Option<u16> {
    form(line, [("(block (cost ", MAX_VALUE)], "))").map(|[cost]| cost as u16)
}

fn wire_line(line: &[u8]) -> Option<[u16; 3]> {
    let pieces = [("(wire (from ", MAX_VALUE), (") (to ", MAX_VALUE), (") (width ", MAX_VALUE)];
    form(line, pieces, "))").map(|values| values.map(|v| v as u16))
}

/// The lines, each without its byte 10; a last line that lacks it is None.
fn lines(text: &[u8]) -> impl Iterator<Item = Option<&[u8]>> {
    text.split_inclusive(|&b| b == b'\n').map(|line| line.strip_suffix(b"\n"))
}

/// Reads a kit: checks 14, 15, 16, then 4, and only then writes the lists.
pub fn read_kit(
    text: &[u8],
    costs: &mut [u16],
    starts: &mut [u16],
    ends: &mut [u16],
    widths: &mut [u16],
) -> Result<Kit, Refusal> {
    if text.len() > MAX_TEXT {
        return refuse(14, 0);
    }
    let mut all = lines(text);
    let Some([blocks, stages, limit]) = all.next().flatten().and_then(kit_line) else {
        return refuse(15, 1);
    };
    let mut vertices: Vec<u16> = Vec::new();
    let mut edges: Vec<[u16; 3]> = Vec::new();
    for (at, line) in all.enumerate() {
        let block = line.and_then(block_line);
        let wire = line.and_then(wire_line);
        match (block, wire) {
            (Some(cost), _) if edges.is_empty() && vertices.len() < MAX_VERTICES => vertices.push(cost),
            (_, Some(edge)) if edges.len() < MAX_EDGES => edges.push(edge),
            _ => return refuse(15, at + 2),
        }
    }
    let (n, m) = (vertices.len(), edges.len());
    if n != blocks as usize {
        return refuse(16, 0);
    }
    if costs.len() < n || starts.len() < m || ends.len() < m || widths.len() < m {
        return refuse(4, 0);
    }
    costs[..n].copy_from_slice(&vertices);
    for (e, edge) in edges.iter().enumerate() {
        [starts[e], ends[e], widths[e]] = *edge;
    }
    Ok(Kit { blocks: n, wires: m, stages, limit })
}

/// A kit as read into lists of full size.
struct Loaded {
    kit: Kit,
    costs: Vec<u16>,
    starts: Vec<u16>,
    ends: Vec<u16>,
    widths: Vec<u16>,
}

fn load(text: &[u8]) -> Result<Loaded, Refusal> {
    let mut costs = vec![0; MAX_VERTICES];
    let [mut starts, mut ends, mut widths] = [(); 3].map(|()| vec![0; MAX_EDGES]);
    let kit = read_kit(text, &mut costs, &mut starts, &mut ends, &mut widths)?;
    costs.truncate(kit.blocks);
    for list in [&mut starts, &mut ends, &mut widths] {
        list.truncate(kit.wires);
    }
    Ok(Loaded { kit, costs, starts, ends, widths })
}

/// Reads a kit text and splits it: the answer and the stage table.
pub fn split_text(text: &[u8]) -> Result<(Split, Vec<u16>), Refusal> {
    split_text_telling(text, |_| ())
}

/// The same; `tell` hears of the passes on each rung.
pub fn split_text_telling(text: &[u8], tell: impl FnMut(Passes)) -> Result<(Split, Vec<u16>), Refusal> {
    let Loaded { kit, costs, starts, ends, widths } = load(text)?;
    let (k, limit) = (kit.stages, kit.limit);
    let mut parts = vec![0; MAX_VERTICES];
    let mut ladder = vec![0; 9 * MAX_VERTICES];
    let answer = split_telling(&costs, &starts, &ends, &widths, k, limit, &mut parts, &mut ladder, tell)?;
    parts.truncate(kit.blocks);
    Ok((answer, parts))
}

/// Reads a kit text and inspects a table for it: the cut and the start order.
pub fn inspect_text(text: &[u8], parts: &[u16]) -> Result<(u64, Vec<u16>), Refusal> {
    let Loaded { kit, costs, starts, ends, widths } = load(text)?;
    let mut order = vec![0; crate::check::MAX_PARTS];
    let cut = inspect(&costs, &starts, &ends, &widths, kit.stages, kit.limit, parts, &mut order)?;
    order.truncate(kit.stages as usize);
    Ok((cut, order))
}

pub fn print_refusal(refusal: Refusal) -> Vec<u8> {
    format!("(refused (number {}) (place {}))\n", refusal.number, refusal.place).into_bytes()
}

pub fn print_split(answer: &Split, parts: &[u16]) -> Vec<u8> {
    let Split { cut, rounds, rung, moves } = answer;
    let mut out = Vec::new();
    writeln!(out, "(split (cut {cut}) (rungs {rounds}) (cutat {rung}) (moves {moves}))").unwrap();
    for (block, stage) in parts.iter().enumerate() {
        writeln!(out, "(block {block} (stage {stage}))").unwrap();
    }
    out
}

pub fn print_inspection(cut: u64, order: &[u16]) -> Vec<u8> {
    let mut out = Vec::new();
    writeln!(out, "(inspected (cut {cut}))").unwrap();
    for (place, stage) in order.iter().enumerate() {
        writeln!(out, "(start {place} (stage {stage}))").unwrap();
    }
    out
}

/// What the splitting program prints for this text.
pub fn answer(text: &[u8]) -> Vec<u8> {
    match split_text(text) {
        Ok((answer, parts)) => print_split(&answer, &parts),
        Err(refusal) => print_refusal(refusal),
    }
}

/// A line for each rung, from the one that was cut down: its passes and what they moved.
pub fn passes(text: &[u8]) -> Vec<u8> {
    let mut out = Vec::new();
    let told = split_text_telling(text, |Passes { rung, passes, gained, evened }| {
        writeln!(out, "(rung {rung} (passes {passes}) (gained {gained}) (evened {evened}))").unwrap();
    });
    told.map_or_else(print_refusal, |_| out)
}

/// What the inspecting program prints for this text and table.
pub fn verdict(text: &[u8], parts: &[u16]) -> Vec<u8> {
    match inspect_text(text, parts) {
        Ok((cut, order)) => print_inspection(cut, &order),
        Err(refusal) => print_refusal(refusal),
    }
}

/// Reads a table as the splitting program prints it: the stages, or the line at fault.
pub fn read_table(text: &[u8]) -> Result<Vec<u16>, usize> {
    let pieces = [
        ("(split (cut ", MAX_LIMIT),
        (") (rungs ", MAX_VALUE),
        (") (cutat ", MAX_VALUE),
        (") (moves ", MAX_LIMIT),
    ];
    let mut all = lines(text);
    all.next().flatten().and_then(|line| form(line, pieces, "))")).ok_or(1usize)?;
    let mut parts = Vec::new();
    for (at, line) in all.enumerate() {
        let pieces = [("(block ", MAX_VALUE), (" (stage ", MAX_VALUE)];
        match line.and_then(|line| form(line, pieces, "))")) {
            Some([block, stage]) if block as usize == at && at < MAX_VERTICES => parts.push(stage as u16),
            _ => return Err(at + 2),
        }
    }
    Ok(parts)
}
