//! Times the calls of unix_path, from the assembly in asm/, and std::path on the same bytes, and
//! pathtool and std_pathtool on the same lines.
//!
//! `cargo run --release --offline -- [only=WORD,..] [reps=9]` prints a row for each call whose name
//! begins with one of the words: the least and the greatest of our time divided by std's, over the
//! corpora. Times are processor times of this thread, or of the programs. A row whose results
//! differ is marked and makes the run fail. `reps` is how often each slice of a corpus is timed.
//! pathtool is the program that UNIX_PATH_PROGRAM names, or else build/pathtool.
mod clock;
mod commands;
mod corpora;
mod jobs;
mod programs;
mod random;
mod rows;
mod sorts;
mod texts;
mod timing;

use corpora::{corpora, realistic, Corpus};
use rows::{Row, ROWS, TEXT_ROWS};
use std::process::ExitCode;
use timing::{Measure, Timer};

/// What the program's arguments ask for.
struct Options {
    only: Vec<String>,
    reps: usize,
}

impl Options {
    /// Returns `None` for an unknown argument.
    fn from_arguments() -> Option<Options> {
        let (only, reps) = (vec![], 9);
        let mut options = Options { only, reps };
        for word in std::env::args().skip(1) {
            match word.split_once('=')? {
                ("only", words) => options.only = words.split(',').map(String::from).collect(),
                ("reps", count) => options.reps = count.parse().ok().filter(|it| *it > 0)?,
                _ => return None,
            }
        }
        Some(options)
    }

    /// Returns true if the row is timed.
    fn has_row(&self, row: &str) -> bool {
        self.only.is_empty() || self.only.iter().any(|word| row.starts_with(word.as_str()))
    }
}

/// Returns our time divided by std's on each slice of the corpus.
fn measure(row: &Row, corpus: &Corpus, timer: &Timer) -> Measure {
    let others = corpus.others(row.other);
    let slices = corpus.slices();
    let sum = |side: rows::Side, slice: usize| {
        let other = |at: usize| others.get(at).map_or(&[][..], |it| it);
        slices[slice].clone().fold(0, |sum: u64, at| {
            sum.rotate_left(7) ^ side(&corpus.paths[at], other(at))
        })
    };
    let found = timer.compare(slices.len(), &|slice| sum(row.ours, slice), &|slice| {
        sum(row.std, slice)
    });
    if !found.is_same && !may_differ(row.name) {
        eprintln!(
            "{}: the results differ on the corpus {}",
            row.name, corpus.name
        );
    }
    found
}

/// Returns true if the results of both sides differ on purpose: each has a hash of its own.
fn may_differ(row: &str) -> bool {
    row.starts_with("hash")
}

/// Prints a row of the table. Returns false if results differ and must not.
fn print(name: &str, measures: &[Measure]) -> bool {
    let ratios = || measures.iter().map(|it| it.ratio);
    let (least, most) = (
        ratios().fold(f64::MAX, f64::min),
        ratios().fold(0.0, f64::max),
    );
    let is_same = may_differ(name) || measures.iter().all(|it| it.is_same);
    let mark = if is_same { "" } else { " DIFFERS" };
    println!("| {name} | {least:.2}–{most:.2}{mark} |");
    is_same
}

/// Prints a row for each of these calls. Returns true if all results are the same.
fn print_rows(rows: &[Row], corpora: &[Corpus], options: &Options, timer: &Timer) -> bool {
    let wanted = rows.iter().filter(|row| options.has_row(row.name));
    wanted.fold(true, |is_same, row| {
        let suited = corpora
            .iter()
            .filter(|it| !it.is_broken || row.name != "to_str");
        let measures: Vec<Measure> = suited.map(|it| measure(row, it, timer)).collect();
        print(row.name, &measures) && is_same
    })
}

/// Prints the rows of jobs. Returns true if all results are the same.
fn print_jobs(options: &Options, timer: &Timer) -> bool {
    let wanted = jobs::JOBS.iter().filter(|job| options.has_row(job.0));
    wanted.fold(true, |is_same, (name, count, ours, std)| {
        let measure = jobs::measure(*count, *ours, *std, timer);
        measure.is_none_or(|it| print(name, &[it])) && is_same
    })
}

/// Prints the rows of sorts. Returns true if all orders are the same.
fn print_sorts(corpora: &[Corpus], options: &Options, timer: &Timer) -> bool {
    let mut is_same = true;
    if options.has_row("sort of paths") {
        let measures: Vec<_> = corpora
            .iter()
            .map(|it| sorts::of_paths(it, timer))
            .collect();
        is_same &= print("sort of paths", &measures);
    }
    if options.has_row("sort of 1,000,000 keys; of paths") {
        let many = Corpus::new("many", realistic(1_000_000));
        is_same &= print(
            "sort of 1,000,000 keys; of paths",
            &sorts::of_keys(&many, timer),
        );
    }
    is_same
}

fn main() -> ExitCode {
    let Some(options) = Options::from_arguments() else {
        eprintln!("usage: calls [only=WORD,..] [reps=N]");
        return ExitCode::FAILURE;
    };
    let corpora = corpora();
    let timer = Timer::of_calls(options.reps);
    println!("| Call | Our time / Rust's |\n|---|---|");
    let mut is_same = print_rows(ROWS, &corpora, &options, &timer);
    is_same &= print_sorts(&corpora, &options, &timer);
    is_same &= print_jobs(&options, &timer);
    let texts: Vec<Corpus> = corpora.into_iter().chain(texts::corpora()).collect();
    is_same &= print_rows(TEXT_ROWS, &texts, &options, &timer);
    if options.has_row("pathtool") {
        is_same &= print("pathtool", &programs::measures(options.reps));
    }
    if is_same {
        ExitCode::SUCCESS
    } else {
        ExitCode::FAILURE
    }
}
