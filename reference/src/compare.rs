//! Runs another program on generated kits and compares what it prints.

use reference::generate;
use reference::text::{answer, inspect_text, print_split, split_text, verdict};
use reference::{Refusal, Split};
use std::collections::BTreeMap;
use std::io::{self, Read, Write};
use std::os::unix::process::ExitStatusExt;
use std::path::PathBuf;
use std::process::{Child, Command, ExitCode, Stdio};
use std::sync::atomic::{AtomicBool, AtomicU64, Ordering};
use std::sync::Mutex;
use std::time::{Duration, Instant};
use std::{fs, thread};

const THREADS: usize = 2;
const TIME_LIMIT: Duration = Duration::from_secs(20);
const DIFFERENCES_SHOWN: usize = 3;

#[derive(Default)]
struct Tally {
    compared: u64,
    kinds: BTreeMap<&'static str, u64>,
    split: BTreeMap<u32, u64>,
    inspect: BTreeMap<u32, u64>,
    features: BTreeMap<&'static str, u64>,
    differences: usize,
}

/// The running child of one thread, so that one that hangs can be ended.
type Slot = Mutex<Option<(Instant, Child)>>;

struct Job<'a> {
    seed: u64,
    count: u64,
    split: &'a str,
    inspect: Option<&'a str>,
    directory: PathBuf,
    next: AtomicU64,
    tally: Mutex<Tally>,
    slots: [Slot; THREADS],
}

/// A table text; its first line only has the form, since it is not what is inspected.
pub fn table_text(parts: &[u16]) -> Vec<u8> {
    print_split(&Split { cut: 0, rounds: 0, rung: 0, moves: 0 }, parts)
}

pub fn compare(seed: u64, count: u64, split: &str, inspect: Option<&str>) -> Result<ExitCode, String> {
    let directory = std::env::temp_dir().join(format!("reference-{}", std::process::id()));
    fs::create_dir_all(&directory).map_err(|e| format!("{}: {e}", directory.display()))?;
    let job = Job {
        seed,
        count,
        split,
        inspect,
        directory,
        next: AtomicU64::new(0),
        tally: Mutex::default(),
        slots: Default::default(),
    };
    let done = AtomicBool::new(false);
    let begin = Instant::now();
    let result = thread::scope(|scope| {
        scope.spawn(|| job.end_hanging(&done));
        let job = &job;
        let threads: Vec<_> = (0..THREADS).map(|at| scope.spawn(move || job.work(at))).collect();
        let results: Vec<_> = threads.into_iter().map(|t| t.join()).collect();
        done.store(true, Ordering::Relaxed);
        results.into_iter().try_for_each(|result| result.expect("no panic"))
    });
    let _ = fs::remove_dir_all(&job.directory);
    result?;
    let tally = job.tally.lock().unwrap();
    if tally.differences > 0 {
        return Ok(ExitCode::from(1));
    }
    println!(
        "{} kits of seed {seed} compared in {:.1} s, no difference; kinds: {}; split: {}{}; {}",
        tally.compared,
        begin.elapsed().as_secs_f64(),
        list(&tally.kinds),
        refusals(&tally.split),
        if inspect.is_some() { format!("; inspect: {}", refusals(&tally.inspect)) } else { String::new() },
        list(&tally.features),
    );
    Ok(ExitCode::SUCCESS)
}

fn list(counts: &BTreeMap<&'static str, u64>) -> String {
    let words: Vec<String> = counts.iter().map(|(name, n)| format!("{name} × {n}")).collect();
    words.join(", ")
}

fn refusals(counts: &BTreeMap<u32, u64>) -> String {
    let word = |(&number, n): (&u32, &u64)| match number {
        0 => format!("answered × {n}"),
        _ => format!("refused {number} × {n}"),
    };
    counts.iter().map(word).collect::<Vec<_>>().join(", ")
}

impl Job<'_> {
    fn work(&self, thread: usize) -> Result<(), String> {
        loop {
            let index = self.next.fetch_add(1, Ordering::Relaxed);
            if index >= self.count || self.tally.lock().unwrap().differences >= DIFFERENCES_SHOWN {
                return Ok(());
            }
            self.one(thread, index)?;
        }
    }

    fn one(&self, thread: usize, index: u64) -> Result<(), String> {
        let seed = self.seed;
        let case = generate::case(seed, index);
        let made = self.run(thread, self.split, &[], &case.text)?;
        let expected = answer(&case.text);
        if made.trouble.is_some() || made.bytes != expected {
            let command = format!("reference one {seed} {index} | {}", self.split);
            self.report(index, case.kind, &command, &made, &expected);
        }
        let result = split_text(&case.text);
        let mut inspected = None;
        if let Some(program) = self.inspect {
            let parts = generate::table(seed, index);
            if !parts.is_empty() {
                let expected = verdict(&case.text, &parts);
                let file = |name| self.directory.join(format!("{thread}-{name}"));
                let files = [file("kit"), file("table")];
                let write = |at: usize, bytes: &[u8]| {
                    fs::write(&files[at], bytes).map_err(|e| format!("{}: {e}", files[at].display()))
                };
                write(0, &case.text)?;
                write(1, &table_text(&parts))?;
                let made = self.run(thread, program, &files, b"")?;
                if made.trouble.is_some() || made.bytes != expected {
                    let command = format!(
                        "reference one {seed} {index} > kit; \
                         reference table {seed} {index} > table; {program} kit table"
                    );
                    self.report(index, case.kind, &command, &made, &expected);
                }
                inspected = Some(refusal_number(&inspect_text(&case.text, &parts)));
            }
        }
        self.count(case.kind, &result, inspected);
        Ok(())
    }

    fn count(&self, kind: &'static str, result: &Result<(Split, Vec<u16>), Refusal>, inspected: Option<u32>) {
        let mut tally = self.tally.lock().unwrap();
        tally.compared += 1;
        *tally.kinds.entry(kind).or_default() += 1;
        *tally.split.entry(refusal_number(result)).or_default() += 1;
        if let Some(number) = inspected {
            *tally.inspect.entry(number).or_default() += 1;
        }
        if let Ok((split, _)) = result {
            let features = [
                ("with moves", split.moves > 0),
                ("cut below the top rung", split.rung < split.rounds),
                ("with 3 rungs or more", split.rounds >= 3),
                ("with 8 rungs", split.rounds == 8),
            ];
            for (name, _) in features.into_iter().filter(|f| f.1) {
                *tally.features.entry(name).or_default() += 1;
            }
        }
    }

    fn report(&self, index: u64, kind: &str, command: &str, made: &Output, expected: &[u8]) {
        let mut tally = self.tally.lock().unwrap();
        tally.differences += 1;
        if tally.differences <= DIFFERENCES_SHOWN {
            let trouble = made.trouble.as_ref().map_or(String::new(), |t| format!("the program {t}\n"));
            let report = format!(
                "DIFFERENCE: seed {}, index {index}, {kind}\nto see it again: {command}\n{trouble}\
                 --- expected\n{}--- printed\n{}\n",
                self.seed,
                String::from_utf8_lossy(expected),
                String::from_utf8_lossy(&made.bytes),
            );
            let _ = io::stdout().write_all(report.as_bytes());
        }
    }

    /// Runs a program with this standard input; what it writes to standard error is dropped.
    fn run(&self, thread: usize, program: &str, files: &[PathBuf], input: &[u8]) -> Result<Output, String> {
        let failed = |error: io::Error| format!("{program}: {error}");
        let mut command = Command::new(program);
        command.args(files).stdin(Stdio::piped()).stdout(Stdio::piped()).stderr(Stdio::null());
        let mut child = command.spawn().map_err(failed)?;
        let mut stdin = child.stdin.take().expect("piped");
        let stdout = child.stdout.take().expect("piped");
        *self.slots[thread].lock().unwrap() = Some((Instant::now(), child));
        // A program that has read enough may close its end: not an error here.
        let _ = stdin.write_all(input);
        drop(stdin);
        let mut bytes = Vec::new();
        stdout.take(1 << 20).read_to_end(&mut bytes).map_err(failed)?;
        // It has closed its output; the clock runs on until it has ended.
        let status = loop {
            let mut slot = self.slots[thread].lock().unwrap();
            let (begin, child) = slot.as_mut().expect("set above");
            let long = begin.elapsed() > Duration::from_millis(100);
            if let Some(status) = child.try_wait().map_err(failed)? {
                *slot = None;
                break status;
            }
            drop(slot);
            thread::sleep(Duration::from_micros(if long { 10_000 } else { 50 }));
        };
        let trouble = status.signal().map(|signal| format!("was ended by signal {signal}"));
        Ok(Output { bytes, trouble })
    }

    fn end_hanging(&self, done: &AtomicBool) {
        while !done.load(Ordering::Relaxed) {
            for slot in &self.slots {
                if let Some((begin, child)) = slot.lock().unwrap().as_mut() {
                    if begin.elapsed() > TIME_LIMIT {
                        let _ = child.kill();
                    }
                }
            }
            thread::sleep(Duration::from_millis(100));
        }
    }
}

struct Output {
    bytes: Vec<u8>,
    trouble: Option<String>,
}

fn refusal_number<T>(result: &Result<T, Refusal>) -> u32 {
    result.as_ref().err().map_or(0, |refusal| refusal.number)
}
