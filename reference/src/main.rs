//! The program around the library; README.md lists its commands.

mod compare;

use reference::text::{answer, passes, read_table, verdict, MAX_TEXT};
use reference::{digest, generate};
use std::fs::{self, File};
use std::io::{self, Read, Write};
use std::process::ExitCode;

const USAGE: &str = "usage:
  reference split                      kit text on standard input
  reference passes                     the same text; how many passes each rung took
  reference inspect KITFILE TABLEFILE
  reference one SEED INDEX             print that kit
  reference table SEED INDEX           print the table inspected with it
  reference kits SEED COUNT DIR        write the kits 0 to COUNT - 1
  reference compare SEED COUNT --split PATH [--inspect PATH]
  reference digest [INDEX]             print the digest, or one of its kits";

fn main() -> ExitCode {
    let arguments: Vec<String> = std::env::args().skip(1).collect();
    let arguments: Vec<&str> = arguments.iter().map(String::as_str).collect();
    match run(&arguments) {
        Ok(code) => code,
        Err(sentence) => {
            eprintln!("{sentence}");
            ExitCode::from(2)
        }
    }
}

fn run(arguments: &[&str]) -> Result<ExitCode, String> {
    match *arguments {
        ["split"] => print(&answer(&read(io::stdin(), "standard input")?))?,
        ["passes"] => print(&passes(&read(io::stdin(), "standard input")?))?,
        ["inspect", kit, table] => {
            let text = read(open(kit)?, kit)?;
            let parts = read_table(&read(open(table)?, table)?)
                .map_err(|line| format!("{table}, line {line}: not a line of a table"))?;
            print(&verdict(&text, &parts))?;
        }
        ["one", seed, index] => print(&generate::case(number(seed)?, number(index)?).text)?,
        ["table", seed, index] => {
            print(&compare::table_text(&generate::table(number(seed)?, number(index)?)))?;
        }
        ["kits", seed, count, directory] => write_kits(number(seed)?, number(count)?, directory)?,
        ["compare", seed, count, "--split", split, ref rest @ ..] => {
            let inspect = match *rest {
                [] => None,
                ["--inspect", path] => Some(path),
                _ => return Err(USAGE.into()),
            };
            return compare::compare(number(seed)?, number(count)?, split, inspect);
        }
        ["digest"] => print(digest::lines().as_bytes())?,
        ["digest", index] => {
            let lent = digest::kit(number(index)? as u32);
            if lent.short_parts + lent.short_ladder + lent.short_widths > 0 {
                eprintln!("the digest lends this kit with a list or table that is short by one");
            }
            print(lent.kit.text().as_bytes())?;
        }
        _ => return Err(USAGE.into()),
    }
    Ok(ExitCode::SUCCESS)
}

fn number(word: &str) -> Result<u64, String> {
    word.parse().map_err(|_| format!("{word}: not a number\n{USAGE}"))
}

fn open(path: &str) -> Result<File, String> {
    File::open(path).map_err(|error| format!("{path}: {error}"))
}

/// Reads one byte more than a kit text may have, at most.
fn read(source: impl Read, name: &str) -> Result<Vec<u8>, String> {
    let mut bytes = Vec::new();
    let result = source.take(MAX_TEXT as u64 + 1).read_to_end(&mut bytes);
    result.map_err(|error| format!("{name}: {error}"))?;
    Ok(bytes)
}

fn print(bytes: &[u8]) -> Result<(), String> {
    io::stdout().write_all(bytes).map_err(|error| format!("standard output: {error}"))
}

fn write_kits(seed: u64, count: u64, directory: &str) -> Result<(), String> {
    let failed = |error: io::Error| format!("{directory}: {error}");
    fs::create_dir_all(directory).map_err(failed)?;
    for index in 0..count {
        let path = format!("{directory}/{seed}-{index}.kit");
        fs::write(path, generate::case(seed, index).text).map_err(failed)?;
    }
    Ok(())
}
