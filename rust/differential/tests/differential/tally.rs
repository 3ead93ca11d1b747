//! What the groups have seen.

use std::iter;

use crate::bench::Bench;
use crate::editions::Editions;
use crate::kinds::Kinds;

/// The numbers of the documents' refusals, and of bytes and editions that do not
/// fit.
fn refusals() -> impl Iterator<Item = usize> {
    (1..=23).chain(101..=104)
}

/// How often each number was seen from the product, 0 where it did not refuse.
pub type Counts = [u64; 256];

/// The groups that make no call on a port but by a line, which states no join and
/// no leave.
const WITHOUT_PATCHES: [&str; 3] = ["files", "opening", "programs"];

/// What a group has seen: each number, and the joins and the leaves that were
/// taken.
struct Group {
    name: &'static str,
    numbers: Counts,
    patches: [u64; 2],
}

#[derive(Default)]
pub struct Tally {
    groups: Vec<Group>,
    kinds: Kinds,
    editions: Editions,
}

impl Tally {
    pub fn add(&mut self, name: &'static str, bench: &Bench, seconds: f64) {
        println!("{name:<8} {:>8} cases {seconds:>7.2} s", bench.cases);
        self.groups.push(Group {
            name,
            numbers: bench.numbers,
            patches: bench.patches,
        });
        self.kinds.add(&bench.kinds);
        self.editions.add(&bench.editions);
    }

    /// How often each group has seen each number, 0 standing for no refusal, and
    /// has seen a join and a leave taken; and how often all of them have met each
    /// kind of call about the gap and tags, and of file about editions.
    pub fn print(&self) {
        self.line("number", |group| group.name.to_string());
        for number in iter::once(0).chain(refusals()) {
            self.line(&number.to_string(), |group| {
                group.numbers[number].to_string()
            });
        }
        self.line("joins", |group| group.patches[0].to_string());
        self.line("leaves", |group| group.patches[1].to_string());
        self.kinds.print();
        self.editions.print();
    }

    fn line(&self, name: &str, of: impl Fn(&Group) -> String) {
        print!("{name:>6}");
        for group in &self.groups {
            print!(" {:>9}", of(group));
        }
        println!();
    }

    /// The refusals that no group has seen, the groups without a join or a leave,
    /// and the kinds that none has met.
    pub fn unseen(&self) -> Vec<String> {
        let unseen = |&number: &usize| self.groups.iter().all(|group| group.numbers[number] == 0);
        let refusals = refusals().filter(unseen);
        let refusals = refusals.map(|number| format!("refusal {number} is not seen"));
        let without =
            |group: &&Group| !WITHOUT_PATCHES.contains(&group.name) && group.patches.contains(&0);
        let groups = self.groups.iter().filter(without);
        let groups = groups.map(|group| format!("no join or no leave in group {}", group.name));
        let kinds = self.kinds.unmet().into_iter();
        let kinds = kinds.chain(self.editions.unmet());
        refusals.chain(groups).chain(kinds).collect()
    }
}
