//! Holds the static library and the programs to the simulator, group by group, as
//! many at a time as there are processors.
//!
//! Seeds are fixed. `ITHUMECO_LONG=n` makes n times as many random cases.
//! Names of groups as arguments run these groups alone.

mod bench;
mod crowds;
mod damaged;
mod damages;
mod editions;
mod files;
mod gaps;
mod held;
mod kinds;
mod late;
mod opening;
mod patches;
mod programs;
mod promise;
mod records;
mod replay;
mod tally;
mod wrong;

use std::env;
use std::panic::{catch_unwind, AssertUnwindSafe};
use std::process::ExitCode;
use std::sync::Mutex;
use std::thread;
use std::time::Instant;

use bench::Bench;
use tally::Tally;

type Group = fn(&mut Bench);

const GROUPS: [(&str, Group); 11] = [
    ("files", files::run),
    ("opening", opening::run),
    ("replay", replay::run),
    ("records", records::run),
    ("patches", patches::run),
    ("damaged", damaged::run),
    ("late", late::run),
    ("crowds", crowds::run),
    ("gaps", gaps::run),
    ("programs", programs::run),
    ("promise", promise::run),
];

/// The groups that the arguments name, all if there are none.
fn wanted() -> Result<Vec<(&'static str, Group)>, String> {
    // Cargo hands its own options on.
    let names: Vec<String> = env::args()
        .skip(1)
        .filter(|argument| !argument.starts_with('-'))
        .collect();
    let known = GROUPS.map(|(name, _)| name);
    if let Some(name) = names.iter().find(|name| !known.contains(&name.as_str())) {
        let known = known.join(", ");
        return Err(format!("no test group `{name}`; the groups are {known}"));
    }
    let is_wanted = |name: &str| names.is_empty() || names.iter().any(|wanted| wanted == name);
    let mut groups = GROUPS.to_vec();
    groups.retain(|(name, _)| is_wanted(name));
    Ok(groups)
}

/// How many times as many cases to run.
fn factor() -> Result<usize, String> {
    let Ok(text) = env::var("ITHUMECO_LONG") else {
        return Ok(1);
    };
    let factor = text.parse().ok().filter(|&factor| factor > 0);
    factor.ok_or_else(|| format!("ITHUMECO_LONG is no number above 0: {text}"))
}

/// What came of a group.
struct Ran {
    name: &'static str,
    bench: Bench,
    seconds: f64,
    failed: bool,
}

impl Ran {
    fn of(name: &'static str, group: Group, factor: usize) -> Ran {
        let begun = Instant::now();
        let mut bench = Bench::new(factor);
        // A panic says what is wrong; the other groups run all the same.
        let failed = catch_unwind(AssertUnwindSafe(|| group(&mut bench))).is_err();
        let seconds = begun.elapsed().as_secs_f64();
        Ran {
            name,
            bench,
            seconds,
            failed,
        }
    }
}

/// Runs the groups, the last ones first, since they take longest.
fn run_all(groups: Vec<(&'static str, Group)>, factor: usize) -> Vec<Ran> {
    let order: Vec<&str> = groups.iter().map(|(name, _)| *name).collect();
    let left = Mutex::new(groups);
    let ran = Mutex::new(Vec::new());
    let next = || left.lock().expect("no panic in between").pop();
    let work = || {
        while let Some((name, group)) = next() {
            let done = Ran::of(name, group, factor);
            ran.lock().expect("no panic in between").push(done);
        }
    };
    let workers = thread::available_parallelism().map_or(1, usize::from);
    thread::scope(|scope| (0..workers).for_each(|_| drop(scope.spawn(work))));
    let mut ran = ran.into_inner().expect("no panic in between");
    ran.sort_by_key(|done| order.iter().position(|name| *name == done.name));
    ran
}

/// Runs the groups and prints what they have seen.
fn run() -> Result<(), String> {
    let (groups, factor) = (wanted()?, factor()?);
    let all = groups.len() == GROUPS.len();
    let mut tally = Tally::default();
    let mut failed = Vec::new();
    for done in run_all(groups, factor) {
        tally.add(done.name, &done.bench, done.seconds);
        if done.failed {
            failed.push(format!("group {}", done.name));
        }
    }
    tally.print();
    // A group that fails has not seen all that it would.
    if all && failed.is_empty() {
        failed = tally.unseen();
    }
    if failed.is_empty() {
        return Ok(());
    }
    Err(format!("failed: {}", failed.join(", ")))
}

fn main() -> ExitCode {
    match run() {
        Ok(()) => ExitCode::SUCCESS,
        Err(wrong) => {
            eprintln!("{wrong}");
            ExitCode::FAILURE
        }
    }
}
