//! The jobs of `crates/path_jobs` over `std::path`. `bench/run` compares their times.
//!
//! `std_jobs JOB SEED COUNT` makes the same inputs from the seed as that program, calls Rust's own
//! library, and prints a digest of all results. `std_jobs all SEED COUNT` runs each job. Both
//! programs print the same for the same arguments, so each run also tests both.
//!
//! Each call of that program is the call of the same name here, except where std has no such call
//! or its meaning differs:
//! - `canonical` collects the components. An edit list is a loop. A table or a tree is a
//!   `BTreeMap`, and the entries below a directory are a range of it. A lookup borrows its path,
//!   which is impossible for a `PathTable` and possible for a `PathTree`. The entry nearest to a
//!   path is looked up among its ancestors.
//! - `within.rs` has what `std::path` lacks for paths from outside, `common_dir` is in `rules.rs`,
//!   and `server.rs` uses these to check a request once.
//! - A JSON value, for which Rust's library has nothing, is the string that it contains.
//! - An empty result of `strip_prefix` may be at another position in its path, and a component
//!   feeds a hasher other bytes. So the digests have the bytes of results, and no hash. Each
//!   `HashMap` hashes as its library does by default, here with SipHash.
//! - A `/` in an extension is an error there and panics here; no job has one. No call here returns
//!   an error if an allocation fails.
mod digest;
mod keyed;
mod lines;
mod long;
mod manifest;
mod pairs;
mod random;
mod requests;
mod rules;
mod server;
mod table;
mod tree;
mod within;

use std::env;
use std::process::ExitCode;

/// A job: its name, and a function that runs it with a seed and a count and returns the digest.
type Job = (&'static str, fn(u64, u64) -> u64);

static JOBS: [Job; 8] = [
    ("manifest", manifest::run),
    ("table", table::run),
    ("requests", requests::run),
    ("rules", rules::run),
    ("long", long::run),
    ("server", server::run),
    ("pairs", pairs::run),
    ("tree", keyed::run),
];

/// Runs the job with this name, or all jobs if the name is `all`, and prints each digest. Returns
/// false if there is no such job.
fn run(name: &str, seed: u64, count: u64) -> bool {
    let asked = JOBS.iter().filter(|job| name == "all" || name == job.0);
    let mut is_job = false;
    for (name, job) in asked {
        println!("{name} {:016x}", job(seed, count));
        is_job = true;
    }
    is_job
}

/// Runs the jobs that the program's arguments request. Returns `None` if the arguments are wrong.
fn answer() -> Option<()> {
    let mut words = env::args().skip(1);
    let job = words.next()?;
    let seed = words.next()?.parse().ok()?;
    let count = words.next()?.parse().ok()?;
    run(&job, seed, count).then_some(())
}

fn main() -> ExitCode {
    if answer().is_none() {
        eprintln!("usage: std_jobs JOB SEED COUNT");
        return ExitCode::FAILURE;
    }
    ExitCode::SUCCESS
}
