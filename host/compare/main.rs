//! Compares the proved tag with the plain Rust tag.
//!
//! `compare FOLDER BENCH` makes seeded calls on the linked library and on the Rust tag, plays bench scripts with the program BENCH, and
//! prints what was met. Its last line is 'N passed, M failed', N being the calls and scripts compared. Words behind these choose a part:
//! `calls` or `scripts`, or with a seed behind it one episode or one script alone, which is printed.

mod coverage;
mod effects;
mod episodes;
mod frames;
mod images;
mod library;
mod pair;
mod player;
mod random;
mod reasons;
mod scripts;
mod table;

use pair::Pair;
use scripts::{Scripts, AT_A_TIME};
use std::fs::File;
use std::ops::Range;
use std::os::unix::fs::FileExt;
use std::path::{Path, PathBuf};
use std::process::ExitCode;
use std::time::Instant;
use table::Table;

const CALLS: u64 = 5_000_000;
const SCRIPTS: u64 = 10_000;

/// What was compared, and what is wrong.
#[derive(Default)]
struct Tally {
    passed: u64,
    failed: u64,
}

impl Tally {
    fn close(self) -> ExitCode {
        println!("{} passed, {} failed", self.passed, self.failed);
        if self.failed == 0 { ExitCode::SUCCESS } else { ExitCode::FAILURE }
    }

    /// A cell that can be met and never was is a failure: less was compared than the tables promise.
    fn judge(&mut self, tables: &[Table], surprises: &[String]) {
        let gaps: Vec<String> = tables.iter().flat_map(Table::gaps).collect();
        for gap in &gaps {
            println!("never met: {gap}");
        }
        for surprise in surprises {
            println!("met and in no table: {surprise}");
        }
        self.failed += u64::from(!gaps.is_empty() || !surprises.is_empty());
    }
}

fn episode(pair: &mut Pair, seed: u64) -> bool {
    let Err(difference) = episodes::play(pair, seed) else { return true };
    println!("\nfirst difference, seed {seed}; the calls since the last loading, with the Rust tag's answers:");
    println!("{}{}", pair.journal(), difference.0);
    false
}

/// The seed is written down before its episode: a library that kills the program leaves it behind.
fn compare_calls(tally: &mut Tally, folder: &Path, calls: u64) {
    let started = Instant::now();
    let note = File::create(folder.join("compare.seed"));
    let mut pair = Pair::new();
    let mut same = true;
    let mut seed = 0;
    while same && pair.calls < calls {
        seed += 1;
        if let Ok(file) = &note {
            let _ = file.write_all_at(format!("{seed:<20}\n").as_bytes(), 0);
        }
        same = episode(&mut pair, seed);
    }
    let seconds = started.elapsed().as_secs_f64();
    println!("library: {} calls in {seed} episodes, {seconds:.1} s", pair.calls);
    tally.passed += pair.calls - u64::from(!same);
    tally.failed += u64::from(!same);
    if same {
        let mut tables = pair.coverage.tables();
        tables.push(pair.reasons.table());
        tables.extend(pair.effects.tables());
        tables.iter().for_each(Table::print);
        tally.judge(&tables, &[pair.coverage.surprises(), pair.reasons.surprises()].concat());
    }
}

/// How many scripts of these seeds gave the same, up to the first that didn't.
fn scripts_same(scripts: &mut Scripts, seeds: Range<u64>) -> u64 {
    let mut same = 0;
    for (result, seed) in scripts.compare(seeds.clone()).into_iter().zip(seeds) {
        if let Err(difference) = result {
            println!("\nfirst difference, script {seed}: {difference}");
            break;
        }
        same += 1;
    }
    same
}

fn compare_scripts(tally: &mut Tally, folder: &Path, program: &Path) {
    let started = Instant::now();
    let mut scripts = Scripts::new(program, folder);
    let mut same = 0;
    let mut going = true;
    while going && same < SCRIPTS {
        let count = scripts_same(&mut scripts, same + 1..same + 1 + AT_A_TIME);
        going = count == AT_A_TIME;
        same += count;
    }
    let seconds = started.elapsed().as_secs_f64();
    println!("\nbench program: {same} scripts with {} right lines, {seconds:.1} s", scripts.lines);
    tally.passed += same;
    tally.failed += u64::from(!going);
    if going {
        let tables = scripts.tables();
        tables.iter().for_each(Table::print);
        tally.judge(&tables, &scripts.surprises());
    }
}

fn replay_calls(tally: &mut Tally, seed: u64) {
    let mut pair = Pair::new();
    let same = episode(&mut pair, seed);
    if same {
        println!("{}", pair.journal());
    }
    tally.passed += pair.calls - u64::from(!same);
    tally.failed += u64::from(!same);
}

fn replay_script(tally: &mut Tally, folder: &Path, program: &Path, seed: u64) {
    let mut scripts = Scripts::new(program, folder);
    let same = scripts_same(&mut scripts, seed..seed + 1);
    if same == 1 {
        println!("{}", scripts.words(seed));
    }
    tally.passed += same;
    tally.failed += 1 - same;
}

fn main() -> ExitCode {
    let words: Vec<String> = std::env::args().skip(1).collect();
    let mut tally = Tally::default();
    let [folder, program, rest @ ..] = &words[..] else {
        println!("compare FOLDER BENCH [calls [SEED | of COUNT] | scripts [SEED]]");
        return ExitCode::FAILURE;
    };
    let (folder, program) = (PathBuf::from(folder), PathBuf::from(program));
    let rest: Vec<&str> = rest.iter().map(String::as_str).collect();
    match rest[..] {
        [] => {
            compare_calls(&mut tally, &folder, CALLS);
            compare_scripts(&mut tally, &folder, &program);
        }
        ["calls"] => compare_calls(&mut tally, &folder, CALLS),
        ["calls", "of", count] => compare_calls(&mut tally, &folder, count.parse().unwrap_or(CALLS)),
        ["scripts"] => compare_scripts(&mut tally, &folder, &program),
        ["calls", seed] => replay_calls(&mut tally, seed.parse().unwrap_or(0)),
        ["scripts", seed] => replay_script(&mut tally, &folder, &program, seed.parse().unwrap_or(0)),
        _ => tally.failed += 1,
    }
    tally.close()
}
