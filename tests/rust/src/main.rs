//! Runs the archive beside the reference: document 01's cases with their answers, the vectors, the digest of 512 kits,
//! and generated kits, damaged ones too. Usage: agreement SEED COUNT

mod calls;
mod cases;
mod vectors;

use calls::{read, read_by_reference, Lengths, Lent, Outcome, GUARD};
use reference::digest;
use reference::generate::{case, table, Rng};

const STORED_DIGEST: &str = include_str!("../digest.txt");
const UNTOUCHED: u64 = 65_535;

/// How often each number was answered by the two calls alike.
struct Tally([usize; 17]);

impl Tally {
    /// Both outcomes, which have to be the same one.
    fn same(&mut self, ours: Outcome, theirs: Outcome, what: impl Fn() -> String) -> Outcome {
        assert_eq!(ours, theirs, "{}", what());
        self.0[ours.number as usize] += 1;
        ours
    }
}

/// The reference's digest of a kit's answer, tables and check, taken of the archive's.
fn digest_values(lent: &digest::Lent) -> Vec<u64> {
    let n = lent.kit.weights.len();
    let [starts, ends, mut widths] = lent.kit.edge_lists();
    widths.truncate(widths.len() - lent.short_widths);
    let kit = Lent {
        costs: lent.kit.weights.iter().map(|&w| w as u16).collect(),
        wires: [starts, ends, widths],
        k: lent.kit.k as usize,
        limit: lent.kit.bound,
    };
    let o = kit.split(n - lent.short_parts, 9 * n - lent.short_ladder);
    let told = if o.number == 0 { 4 } else { 1 };
    let entry = |&e: &u16| if e == GUARD { UNTOUCHED } else { e.into() };
    let check = kit.check_beside(&o, || "a kit of the digest".to_string());
    let value = |&v: &usize| v as u64;
    let mut values = vec![o.number.into()];
    values.extend(o.cells[..told].iter().map(value));
    values.extend(o.tables.iter().flatten().map(entry));
    values.push(check.number.into());
    values.extend(check.cells.iter().map(value));
    values
}

/// Lengths as asked for, or in one case of eight with one of them one short.
fn perhaps_short<const N: usize>(r: &mut Rng, mut lengths: [usize; N]) -> [usize; N] {
    if r.one_in(8) {
        let at = r.below(N);
        lengths[at] = lengths[at].saturating_sub(1);
    }
    lengths
}

/// The kit that was read, with one wire list one short in one case of sixteen.
fn lists(r: &mut Rng, o: &Outcome) -> Lent {
    let [blocks, wires, stages, limit] = o.cells[..] else { unreachable!("a reading has four cells") };
    let mut lengths = [wires; 3];
    if r.one_in(16) {
        let at = r.below(3);
        lengths[at] = wires.saturating_sub(1);
    }
    let cut = |i: usize| o.tables[i + 1][..lengths[i]].to_vec();
    Lent {
        costs: o.tables[0][..blocks].to_vec(),
        wires: [cut(0), cut(1), cut(2)],
        k: stages,
        limit: limit as u32,
    }
}

/// One generated kit through all calls; the checks are counted apart.
fn compare(seed: u64, index: u64, tally: &mut Tally, checks: &mut Tally) {
    let what = || format!("reference one {seed} {index} (table: reference table {seed} {index})");
    let text = case(seed, index).text;
    let r = &mut Rng::new(seed ^ 0x5EED, index);
    let full: Lengths = [512, 1_024, 1_024, 1_024];
    let whole = read_by_reference(&text, full);
    let exact: Lengths = match whole.number {
        0 => [whole.cells[0], whole.cells[1], whole.cells[1], whole.cells[1]],
        _ => full,
    };
    let lengths = perhaps_short(r, exact);
    tally.same(read(&text, lengths), read_by_reference(&text, lengths), what);
    let whole = tally.same(read(&text, full), whole, what);
    if whole.number != 0 {
        return;
    }
    let kit = lists(r, &whole);
    let (n, k) = (kit.costs.len(), kit.k);
    let [t, l] = perhaps_short(r, [n, 9 * n]);
    let split = tally.same(kit.split(t, l), kit.split_by_reference(t, l), what);
    checks.0[kit.check_beside(&split, what).number as usize] += 1;
    let given = table(seed, index);
    let [t, o] = perhaps_short(r, [given.len(), k]);
    tally.same(kit.inspect(&given[..t], o), kit.inspect_by_reference(&given[..t], o), what);
    if split.number == 0 {
        let own = kit.inspect(&split.tables[0], k);
        let order: Vec<u16> = (0..k as u16).collect();
        assert_eq!(
            own,
            Outcome { number: 0, cells: vec![split.cells[0]], tables: vec![order] },
            "{}",
            what()
        );
    }
}

fn main() {
    let number = |word: String| word.parse::<u64>().expect("a number");
    let mut arguments = std::env::args().skip(1).map(number);
    let (seed, count) = (arguments.next().expect("a seed"), arguments.next().expect("a count"));
    let cases = cases::run();
    let lines = vectors::run();

    assert_eq!(digest::lines(), STORED_DIGEST, "the reference's digest");
    assert_eq!(digest::lines_of(digest_values), STORED_DIGEST, "the archive's digest");

    let (mut tally, mut checks) = (Tally([0; 17]), Tally([0; 17]));
    (0..count).for_each(|index| compare(seed, index, &mut tally, &mut checks));
    for (number, times) in tally.0.iter().enumerate() {
        assert!(*times > 0, "number {number} never came");
        let checked = number < 9 && number != 4;
        assert_eq!(checks.0[number] > 0, checked, "number {number} of the check: {:?}", checks.0);
    }
    println!(
        "tests/rust: passed: {cases} cases, {lines} lines of {}, the digest of {} kits, {count} generated kits; each number came (times): {:?}; of the check: {:?}",
        vectors::NAME,
        digest::KITS,
        tally.0,
        &checks.0[..9]
    );
}
