//! Times the split and the check of one or two static libraries and of the reference on the same kits, in turns.
//! Usage: bench DIR TURNS CALL...; the calls are named below, and each kit's times go to DIR/../times.txt

use reference::generate::Rng;
use reference::read_kit;
use std::collections::BTreeMap;
use std::fmt::Write;
use std::hint::black_box;
use std::path::Path;
use std::time::Instant;

type Split = unsafe extern "C" fn(
    costs: *const u16,
    costs_len: usize,
    starts: *const u16,
    starts_len: usize,
    ends: *const u16,
    ends_len: usize,
    widths: *const u16,
    widths_len: usize,
    k: usize,
    limit: u32,
    table: *mut u16,
    table_len: usize,
    ladder: *mut u16,
    ladder_len: usize,
    answer: *mut usize,
    answer_len: usize,
) -> u32; // answer_len is for an older archive as the second: a call without it does not look there

type Check = unsafe extern "C" fn(
    costs: *const u16,
    costs_len: usize,
    starts: *const u16,
    starts_len: usize,
    ends: *const u16,
    ends_len: usize,
    widths: *const u16,
    widths_len: usize,
    k: usize,
    limit: u32,
    answer: *mut usize,
) -> u32;

extern "C" {
    fn first_split();
    fn second_split();
    fn first_check();
    fn second_check();
    fn pthread_getattr_np(thread: usize, attr: *mut [u64; 8]) -> i32;
    fn pthread_attr_getstack(attr: *const [u64; 8], base: *mut *mut u8, size: *mut usize) -> i32;
    fn pthread_attr_destroy(attr: *mut [u64; 8]) -> i32;
    fn pthread_self() -> usize;
}

struct Lists {
    costs: Vec<u16>,
    starts: Vec<u16>,
    ends: Vec<u16>,
    widths: Vec<u16>,
    k: usize,
    limit: u32,
}

/// What a split answers and leaves; a check has two cells and leaves the rest.
#[derive(PartialEq)]
struct Outcome {
    number: u32,
    answer: [usize; 4],
    table: Vec<u16>,
    ladder: Vec<u16>,
}

impl Outcome {
    fn new() -> Outcome {
        Outcome { number: 0, answer: [0; 4], table: vec![u16::MAX; 512], ladder: vec![u16::MAX; 9 * 512] }
    }
}

/// The split of an archive.
fn split_by(split: unsafe extern "C" fn(), l: &Lists, o: &mut Outcome) {
    o.number = unsafe {
        std::mem::transmute::<unsafe extern "C" fn(), Split>(split)(
            l.costs.as_ptr(),
            l.costs.len(),
            l.starts.as_ptr(),
            l.starts.len(),
            l.ends.as_ptr(),
            l.ends.len(),
            l.widths.as_ptr(),
            l.widths.len(),
            l.k,
            l.limit,
            o.table.as_mut_ptr(),
            o.table.len(),
            o.ladder.as_mut_ptr(),
            o.ladder.len(),
            o.answer.as_mut_ptr(),
            4,
        )
    };
}

/// The check of an archive.
fn check_by(check: unsafe extern "C" fn(), l: &Lists, o: &mut Outcome) {
    o.number = unsafe {
        std::mem::transmute::<unsafe extern "C" fn(), Check>(check)(
            l.costs.as_ptr(),
            l.costs.len(),
            l.starts.as_ptr(),
            l.starts.len(),
            l.ends.as_ptr(),
            l.ends.len(),
            l.widths.as_ptr(),
            l.widths.len(),
            l.k,
            l.limit,
            o.answer.as_mut_ptr(),
        )
    };
}

fn reference(l: &Lists, o: &mut Outcome) {
    let r = reference::split(
        &l.costs,
        &l.starts,
        &l.ends,
        &l.widths,
        l.k as u32,
        l.limit,
        &mut o.table,
        &mut o.ladder,
    );
    match r {
        Ok(s) => {
            o.number = 0;
            o.answer = [s.cut as usize, s.rounds as usize, s.rung as usize, s.moves as usize];
        }
        Err(r) => {
            o.number = r.number;
            o.answer = [r.place as usize, 0, 0, 0];
        }
    }
}

fn reference_check(l: &Lists, o: &mut Outcome) {
    let check = reference::check_kit(&l.costs, &l.starts, &l.ends, &l.widths, l.k as u32, l.limit);
    (o.number, o.answer[0]) = check.result.map_or_else(|r| (r.number, r.place as usize), |()| (0, 0));
    o.answer[1] = check.tried;
}

/// The passes of a split over all rungs, each rung's last one too, which moves nothing; 0 if it is refused.
fn passes_of(l: &Lists) -> u32 {
    let (mut o, mut passes) = (Outcome::new(), 0);
    let _ = reference::split_telling(
        &l.costs,
        &l.starts,
        &l.ends,
        &l.widths,
        l.k as u32,
        l.limit,
        &mut o.table,
        &mut o.ladder,
        |rung| passes += rung.passes,
    );
    passes
}

fn load(path: &Path) -> Lists {
    let text = std::fs::read(path).expect("a kit file");
    let (mut c, mut s, mut e, mut w) = ([0; 512], [0; 1024], [0; 1024], [0; 1024]);
    let kit = read_kit(&text, &mut c, &mut s, &mut e, &mut w).expect("a kit text");
    Lists {
        costs: c[..kit.blocks].to_vec(),
        starts: s[..kit.wires].to_vec(),
        ends: e[..kit.wires].to_vec(),
        widths: w[..kit.wires].to_vec(),
        k: kit.stages as usize,
        limit: kit.limit,
    }
}

type Run = fn(&Lists, &mut Outcome);

#[derive(Clone, Copy)]
struct Call {
    name: &'static str,
    run: Run,
    /// A check, not a split.
    checks: bool,
}

const CALLS: [Call; 6] = [
    Call { name: "library", run: |l, o| split_by(first_split, l, o), checks: false },
    Call { name: "reference", run: reference, checks: false },
    Call { name: "second", run: |l, o| split_by(second_split, l, o), checks: false },
    Call { name: "library_check", run: |l, o| check_by(first_check, l, o), checks: true },
    Call { name: "reference_check", run: reference_check, checks: true },
    Call { name: "second_check", run: |l, o| check_by(second_check, l, o), checks: true },
];

fn timed(run: Run, l: &Lists, o: &mut Outcome) -> f64 {
    let start = Instant::now();
    run(black_box(l), black_box(o));
    start.elapsed().as_secs_f64() * 1e6
}

fn median(values: impl Iterator<Item = f64>) -> f64 {
    let mut sorted: Vec<f64> = values.collect();
    sorted.sort_by(f64::total_cmp);
    sorted[sorted.len() / 2]
}

/// For each kit the microseconds of each call, a number a turn. A turn goes over all kits, one call of each a kit, so that no
/// kit's branches are learnt: a kit is loaded, or a wire drawn, now and then. The order of the calls is drawn anew each time:
/// what a call finds in the caches is what the one before it left there.
fn measure(calls: &[Call], kits: &[Lists], turns: usize) -> Vec<Vec<Vec<f64>>> {
    let (mut outcome, mut r) = (Outcome::new(), Rng::new(0, 0));
    let mut order: Vec<usize> = (0..calls.len()).collect();
    let mut times = vec![vec![Vec::with_capacity(turns); calls.len()]; kits.len()];
    for _ in 0..turns {
        for (l, times) in kits.iter().zip(&mut times) {
            r.shuffle(&mut order);
            for &c in &order {
                times[c].push(timed(calls[c].run, l, &mut outcome));
            }
        }
    }
    times
}

/// Whether the splits, or the checks, give different outcomes.
fn differ(calls: &[Call], l: &Lists, checks: bool) -> bool {
    let outcome = |call: &Call| {
        let mut o = Outcome::new();
        (call.run)(l, &mut o);
        o
    };
    let outcomes: Vec<Outcome> = calls.iter().filter(|c| c.checks == checks).map(outcome).collect();
    outcomes.iter().any(|o| *o != outcomes[0])
}

/// Bytes of stack that a call writes below its caller.
fn stack_of(run: Run, l: &Lists) -> usize {
    const MARK: u8 = 0xC7;
    std::thread::scope(|scope| {
        let painted = move || unsafe {
            let mut attr = [0u64; 8];
            let (mut base, mut size) = (std::ptr::null_mut(), 0);
            pthread_getattr_np(pthread_self(), &mut attr);
            pthread_attr_getstack(&attr, &mut base, &mut size);
            pthread_attr_destroy(&mut attr);
            let mut outcome = Outcome::new();
            let top = &outcome as *const Outcome as usize - 4096;
            let mut p = base as usize + 65536;
            let bottom = p;
            while p < top {
                (p as *mut u8).write_volatile(MARK);
                p += 1;
            }
            run(l, &mut outcome);
            p = bottom;
            while p < top && (p as *const u8).read_volatile() == MARK {
                p += 1;
            }
            top + 4096 - p
        };
        std::thread::Builder::new().stack_size(1 << 20).spawn_scoped(scope, painted).unwrap().join().unwrap()
    })
}

/// Ratios of a set of kits: their worst, whose it is, and their geometric mean.
#[derive(Default)]
struct Ratios {
    kits: usize,
    logs: f64,
    worst: f64,
    name: String,
}

impl Ratios {
    fn add(&mut self, ratio: f64, name: &str) {
        self.kits += 1;
        self.logs += ratio.ln();
        if ratio > self.worst {
            (self.worst, self.name) = (ratio, name.to_string());
        }
    }

    fn mean(&self) -> f64 {
        (self.logs / self.kits.max(1) as f64).exp()
    }
}

/// One kit's figures.
struct Row {
    name: String,
    blocks: usize,
    wires: usize,
    refused: bool,
    passes: u32,
    /// The bytes of stack and the microseconds of each call, a number a turn.
    stacks: Vec<usize>,
    turns: Vec<Vec<f64>>,
}

impl Row {
    fn new(name: String, l: &Lists, calls: &[Call], turns: Vec<Vec<f64>>) -> Row {
        let mut o = Outcome::new();
        reference(l, &mut o);
        Row {
            name,
            blocks: l.costs.len(),
            wires: l.starts.len(),
            refused: o.number != 0,
            passes: passes_of(l),
            stacks: calls.iter().map(|call| stack_of(call.run, l)).collect(),
            turns,
        }
    }

    /// The median time of a call.
    fn time(&self, call: usize) -> f64 {
        median(self.turns[call].iter().copied())
    }

    /// The median over the turns of one call's time over another's. Both are of the same moment: a machine's pace changes.
    fn ratio(&self, over: usize, under: usize) -> f64 {
        median(self.turns[over].iter().zip(&self.turns[under]).map(|(a, b)| a / b))
    }

    fn shape(&self) -> &str {
        self.name.split('-').next().unwrap()
    }

    /// 512 blocks and 1,024 wires.
    fn full(&self) -> bool {
        (self.blocks, self.wires) == (512, 1_024)
    }

    fn two_hubs(&self) -> bool {
        self.name.contains("two_hubs")
    }
}

/// All rows, and which call is in which column.
struct Figures {
    calls: Vec<Call>,
    rows: Vec<Row>,
}

impl Figures {
    fn column(&self, name: &str) -> Option<usize> {
        self.calls.iter().position(|call| call.name == name)
    }

    /// A line a shape and one for all: kits, worst ratio and mean of one call to another, if both were timed.
    fn print_ratios(&self, over: &str, under: &str) {
        let (Some(over_at), Some(under_at)) = (self.column(over), self.column(under)) else { return };
        let mut shapes: BTreeMap<&str, Ratios> = BTreeMap::new();
        let (mut splits, mut refusals) = (Ratios::default(), Ratios::default());
        for row in &self.rows {
            let ratio = row.ratio(over_at, under_at);
            shapes.entry(row.shape()).or_default().add(ratio, &row.name);
            let all = if row.refused { &mut refusals } else { &mut splits };
            all.add(ratio, &row.name);
        }
        println!("\n{over} / {under}\n{:<20} {:>4} {:>6} {:>6}  worst kit", "shape", "kits", "worst", "mean");
        let totals = [("ALL REFUSED", &refusals), ("ALL SPLIT", &splits)];
        for (shape, r) in shapes.iter().map(|(s, r)| (*s, r)).chain(totals) {
            println!("{shape:<20} {:>4} {:>6.2} {:>6.2}  {}", r.kits, r.worst, r.mean(), r.name);
        }
    }

    /// The library's check over its split of the same kit, for some of the kits, beside the most that is asked for.
    fn print_check(&self, kits: &str, most: Option<f64>, of: impl Fn(&Row) -> bool) {
        let (Some(check), Some(split)) = (self.column("library_check"), self.column("library")) else {
            return;
        };
        let (mut r, mut within) = (Ratios::default(), 0);
        for row in self.rows.iter().filter(|row| of(row)) {
            let ratio = row.ratio(check, split);
            r.add(ratio, &row.name);
            within += most.is_some_and(|most| ratio <= most) as usize;
        }
        let Ratios { kits: count, worst, name, .. } = &r;
        let asked =
            most.map_or(String::new(), |most| format!("; at most {most:.2} is asked for: {within} are"));
        println!(
            "library_check / library, {kits}: {count} kits, worst {worst:.3} ({name}), mean {:.3}{asked}",
            r.mean()
        );
    }

    fn slowest(&self, refused: bool, call: usize) -> String {
        let of = self.rows.iter().filter(|r| r.refused == refused);
        let row = of.max_by(|a, b| a.time(call).total_cmp(&b.time(call)));
        row.map_or("none".to_string(), |row| format!("{:.1} ({})", row.time(call), row.name))
    }

    /// For each call its slowest kits and the most stack.
    fn print_calls(&self) {
        for (at, call) in self.calls.iter().enumerate() {
            let (split, refused) = (self.slowest(false, at), self.slowest(true, at));
            let stack = self.rows.iter().map(|row| row.stacks[at]).max().unwrap_or(0);
            println!(
                "{}, microseconds: slowest of the kits that are split {split}, of those refused {refused}; most stack {stack} bytes",
                call.name
            );
        }
        if let Some(row) = self.rows.iter().max_by_key(|row| row.passes) {
            println!("most passes of a split: {} ({})", row.passes, row.name);
        }
    }

    /// A line a kit.
    fn text(&self, turns: usize) -> String {
        let names: Vec<&str> = self.calls.iter().map(|call| call.name).collect();
        let mut text = format!(
            "median microseconds of {turns} turns: {}; library / reference; passes\n",
            names.join(", ")
        );
        for row in &self.rows {
            let times: Vec<String> = (0..names.len()).map(|call| format!("{:9.2}", row.time(call))).collect();
            let ratio = row.ratio(0, 1);
            writeln!(text, "{:<40} {} {ratio:6.2} {:5}", row.name, times.join(" "), row.passes).unwrap();
        }
        text
    }
}

fn main() {
    let args: Vec<String> = std::env::args().collect();
    let turns: usize = args[2].parse().expect("a number of turns");
    let calls: Vec<Call> =
        CALLS.into_iter().filter(|call| args[3..].iter().any(|a| a == call.name)).collect();
    let mut files: Vec<_> =
        std::fs::read_dir(&args[1]).expect("a folder").map(|f| f.unwrap().path()).collect();
    files.sort();
    let kits: Vec<Lists> = files.iter().map(|file| load(file)).collect();
    let (mut rows, mut different) = (Vec::new(), 0);
    for ((file, l), times) in files.iter().zip(&kits).zip(measure(&calls, &kits, turns)) {
        let name = file.file_stem().unwrap().to_string_lossy().into_owned();
        if differ(&calls, l, false) || differ(&calls, l, true) {
            different += 1;
            println!("{name}: the answers differ");
        }
        rows.push(Row::new(name, l, &calls, times));
    }
    let figures = Figures { calls: calls.clone(), rows };
    let path = Path::new(&args[1]).with_file_name("times.txt");
    std::fs::write(&path, figures.text(turns)).expect("a file for the times");

    println!("medians of {turns} turns over all kits; each kit's times are in {}", path.display());
    for (over, under) in [("library", "reference"), ("second", "reference"), ("library", "second")] {
        figures.print_ratios(over, under);
        figures.print_ratios(&format!("{over}_check"), &format!("{under}_check"));
    }
    println!();
    figures.print_check("512 blocks and 1,024 wires, split", Some(0.1), |row| row.full() && !row.refused);
    figures.print_check("two hubs of 511 wires each, split", Some(1.0), |row| row.two_hubs() && !row.refused);
    figures.print_check("two hubs, the last wire repeated", None, |row| {
        row.two_hubs() && row.shape() == "repeat"
    });
    figures.print_calls();
    println!("{different} answers differ");
    std::process::exit((different > 0) as i32);
}
