//! The lines of a table: what was measured, and what it is held to.

use std::fmt;

use crate::clock::{Compared, Other};

/// What a line is held to: a ratio to the first program beside ours, or our
/// nanoseconds.
#[derive(Clone, Copy)]
pub enum Target {
    AtMost(f64),
    Below(f64),
    AtMostNs(f64),
    UnderNs(f64),
}

impl fmt::Display for Target {
    fn fmt(&self, out: &mut fmt::Formatter<'_>) -> fmt::Result {
        match self {
            Target::AtMost(ratio) => write!(out, "at most {ratio}"),
            Target::Below(ratio) => write!(out, "below {ratio}"),
            Target::AtMostNs(ns) => write!(out, "at most {ns} ns"),
            Target::UnderNs(ns) => write!(out, "under {ns} ns"),
        }
    }
}

/// Something measured: our nanoseconds, and the programs beside ours that do it
/// too.
pub struct Line<const N: usize> {
    pub name: &'static str,
    pub ns: f64,
    pub others: [Option<Other>; N],
    pub targets: Vec<Target>,
}

impl<const N: usize> Line<N> {
    pub fn new(name: &'static str, compared: Compared<N>, targets: &[Target]) -> Line<N> {
        Line {
            name,
            ns: compared.ns,
            others: compared.others.map(Some),
            targets: targets.to_vec(),
        }
    }

    /// The ratio to the first program beside ours.
    fn ratio(&self) -> Option<f64> {
        self.others.first()?.map(|first| first.ratio)
    }

    fn meets(&self, target: Target) -> bool {
        match target {
            Target::AtMost(most) => self.ratio().is_some_and(|ratio| ratio <= most),
            Target::Below(limit) => self.ratio().is_some_and(|ratio| ratio < limit),
            Target::AtMostNs(most) => self.ns <= most,
            Target::UnderNs(limit) => self.ns < limit,
        }
    }

    /// Whether the targets are met.
    fn met(&self) -> bool {
        self.targets.iter().all(|&target| self.meets(target))
    }

    /// The targets in words.
    fn told(&self) -> String {
        if self.targets.is_empty() {
            return "none".to_string();
        }
        let targets: Vec<String> = self.targets.iter().map(Target::to_string).collect();
        let met = if self.met() { "met" } else { "missed" };
        format!("{}: {met}", targets.join(", "))
    }
}

/// Prints a table, and gives how many of its lines miss a target. A program that
/// does not do what a line measures has a dash there.
pub fn print<const N: usize>(
    what: &str,
    others: [&str; N],
    lines: impl IntoIterator<Item = Line<N>>,
) -> usize {
    let heads = others.map(|other| format!(" {other} | ratio |")).concat();
    println!("| {what} | ns |{heads} target |");
    println!("|---|---:|{}---|", "---:|---:|".repeat(N));
    let mut missed = 0;
    for line in lines {
        let others = line.others.map(|other| match other {
            Some(Other { ns, ratio }) => format!(" {ns:.2} | {ratio:.3} |"),
            None => " – | – |".to_string(),
        });
        let (name, ns, told) = (line.name, line.ns, line.told());
        println!("| {name} | {ns:.2} |{} {told} |", others.concat());
        missed += usize::from(!line.met());
    }
    println!();
    missed
}
