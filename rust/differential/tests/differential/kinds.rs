//! What calls do about the gap, the 12 bytes of a frame that are left when it
//! is reported ended, and about tags, and how often it was met.

use cases::driver::Driver;
use simulator::port::LEAST_SIZE;
use simulator::refusal::refuse;
use simulator::table::GAP;
use simulator::{Advance, Call, Class, Refusal, Row};

/// A call with its answer, and the bytes left on the wire ahead of it and
/// behind it, 0 where that is free.
#[derive(Clone, Copy)]
pub struct Step {
    pub ahead: u64,
    pub call: Call,
    pub said: Result<Advance, Refusal>,
    pub behind: u64,
    /// The row that the call is about.
    pub row: Option<Row>,
    /// Whether a row of the record has a tag mark above 1, or its tag alone.
    pub wrong_tag: bool,
    pub tag_alone: bool,
}

/// How calls are made.
#[derive(Clone, Copy)]
pub enum Way {
    OnBytes,
    InAList,
    AsALine,
}

const WAYS: [(Way, &str); 3] = [
    (Way::OnBytes, "on bytes"),
    (Way::InAList, "in a list"),
    (Way::AsALine, "as a line"),
];

/// A kind's name, and what it is.
type Kind = (&'static str, fn(&Step) -> bool);

const KINDS: [Kind; 32] = [
    ("stops a byte-time before a report", |step| {
        step.passes() && step.behind == GAP + 1
    }),
    ("stops at a report, short of its count", |step| {
        step.reports() && step.passed() < step.count()
    }),
    ("stops at a report, at its count", |step| {
        step.reports() && step.passed() == step.count()
    }),
    ("stops in a gap", |step| {
        step.passes() && (1..GAP).contains(&step.behind)
    }),
    ("stops at the end of a gap", |step| {
        step.in_gap() && step.passed() == step.ahead
    }),
    ("ends a gap, then a free wire", |step| {
        step.leaves_gap() && !step.reports() && step.behind == 0
    }),
    ("ends a gap and starts a frame", |step| {
        step.leaves_gap() && !step.reports() && step.behind > 0
    }),
    ("ends a gap, starts a frame and reports it", |step| {
        step.leaves_gap() && step.reports() && !step.pauses()
    }),
    ("the same with a free wire in between", |step| {
        step.leaves_gap() && step.reports() && step.pauses()
    }),
    ("begins with 14 bytes left", |step| step.begins_with(14)),
    ("begins with 13", |step| step.begins_with(13)),
    ("begins with 12", |step| step.begins_with(12)),
    ("begins with 11", |step| step.begins_with(11)),
    ("begins with 1", |step| step.begins_with(1)),
    ("an advance by 0 in a gap", |step| {
        step.in_gap() && step.said.is_ok() && step.call == Call::Advance(0)
    }),
    ("an offer to a row taken in a gap", |step| {
        step.in_gap() && step.said.is_ok() && matches!(step.call, Call::Offer(..))
    }),
    ("best effort taken in a gap", |step| {
        step.in_gap() && step.said.is_ok() && matches!(step.call, Call::OfferBest(_))
    }),
    ("refused in a gap", |step| {
        step.in_gap() && step.said.is_err() && !step.broken()
    }),
    ("a tagged frame of A taken", |step| step.takes(Class::A)),
    ("a tagged frame of B taken", |step| step.takes(Class::B)),
    ("a tagged frame of A reported", |step| {
        step.reports() && step.is_tagged(Class::A)
    }),
    ("a tagged frame of B reported", |step| {
        step.reports() && step.is_tagged(Class::B)
    }),
    ("a tagged frame longer by its tag reported", |step| {
        let ended = step.said.ok().and_then(|advance| advance.ended);
        let tagged = step.row.is_some_and(|row| row.tagged);
        ended.is_some_and(|frame| tagged && frame.size > LEAST_SIZE)
    }),
    ("a tagged frame of more than 1,542 reported", |step| {
        let ended = step.said.ok().and_then(|advance| advance.ended);
        ended.is_some_and(|frame| frame.size > 1542)
    }),
    ("a join taken in a gap", |step| {
        step.in_gap() && step.said.is_ok() && matches!(step.call, Call::Join(..))
    }),
    ("a leave refused in a gap", |step| {
        step.in_gap() && step.said == refuse(21, 0)
    }),
    ("a join of a tagged row of A taken", |step| {
        step.joins() && step.is_tagged(Class::A)
    }),
    ("a join of a tagged row of B taken", |step| {
        step.joins() && step.is_tagged(Class::B)
    }),
    ("a broken record with a frame in its gap", |step| {
        step.in_gap() && step.broken()
    }),
    ("a broken record with 13 or 14 bytes left", |step| {
        (GAP + 1..=GAP + 2).contains(&step.ahead) && step.broken()
    }),
    ("a record with a tag mark above 1", |step| {
        step.wrong_tag && step.broken()
    }),
    ("a record with a number that has its tag alone", |step| {
        step.tag_alone && step.broken()
    }),
];

/// The last kinds, which no list meets, and those ahead of them, which no line
/// does.
const OF_RECORDS_ALONE: usize = 4;
const OF_NO_LINE: usize = 4;

impl Step {
    fn in_gap(&self) -> bool {
        (1..=GAP).contains(&self.ahead)
    }

    fn broken(&self) -> bool {
        self.said == refuse(18, 0)
    }

    /// The count of an advance.
    fn count(&self) -> u64 {
        match self.call {
            Call::Advance(n) => n,
            _ => 0,
        }
    }

    fn passed(&self) -> u64 {
        self.said.map_or(0, |advance| advance.passed)
    }

    fn passes(&self) -> bool {
        self.passed() > 0
    }

    fn reports(&self) -> bool {
        self.said.is_ok_and(|advance| advance.ended.is_some())
    }

    /// Whether the call is about a tagged row of a class.
    fn is_tagged(&self, class: Class) -> bool {
        self.row.is_some_and(|row| row.tagged && row.class == class)
    }

    /// Whether an offer to a tagged row of a class was taken.
    fn takes(&self, class: Class) -> bool {
        let offers = matches!(self.call, Call::Offer(..));
        offers && self.said.is_ok() && self.is_tagged(class)
    }

    fn joins(&self) -> bool {
        self.said.is_ok() && matches!(self.call, Call::Join(..))
    }

    fn begins_with(&self, left: u64) -> bool {
        self.ahead == left && self.passes()
    }

    fn leaves_gap(&self) -> bool {
        self.in_gap() && self.passed() > self.ahead
    }

    /// Whether the wire was free between the end of a gap and the frame that is
    /// reported.
    fn pauses(&self) -> bool {
        let ended = self.said.ok().and_then(|advance| advance.ended);
        let sent = ended.map_or(0, |frame| frame.size - GAP);
        self.passed() > self.ahead + sent
    }
}

/// How often each kind was met in each way.
#[derive(Clone, Default)]
pub struct Kinds([[u64; KINDS.len()]; WAYS.len()]);

impl Kinds {
    pub fn see(&mut self, way: Way, step: Step) {
        for (count, (_, is)) in self.0[way as usize].iter_mut().zip(KINDS) {
            *count += u64::from(is(&step));
        }
    }

    /// A list that the simulator has played.
    pub fn see_list(&mut self, way: Way, driver: &Driver) {
        let behind = driver.lefts.iter().copied().skip(1).chain([driver.left()]);
        let lefts = driver.lefts.iter().zip(behind);
        let calls = driver.calls.iter().zip(&driver.answers);
        let calls = calls.zip(&driver.rows);
        for ((&ahead, behind), ((&call, &said), &row)) in lefts.zip(calls) {
            let step = Step {
                ahead,
                call,
                said,
                behind,
                row,
                wrong_tag: false,
                tag_alone: false,
            };
            self.see(way, step);
        }
    }

    pub fn add(&mut self, other: &Kinds) {
        for (counts, others) in self.0.iter_mut().zip(other.0) {
            for (count, more) in counts.iter_mut().zip(others) {
                *count += more;
            }
        }
    }

    pub fn print(&self) {
        print!("{:<45}", "about the gap and tags");
        for (_, name) in WAYS {
            print!(" {name:>9}");
        }
        println!();
        for (kind, (name, _)) in KINDS.iter().enumerate() {
            print!("{name:<45}");
            for counts in self.0 {
                print!(" {:>9}", counts[kind]);
            }
            println!();
        }
    }

    /// The kinds that were not met in a way that can meet them.
    pub fn unmet(&self) -> Vec<String> {
        let mut unmet = Vec::new();
        for ((way, by), counts) in WAYS.iter().zip(self.0) {
            let can_meet = match way {
                Way::OnBytes => KINDS.len(),
                Way::InAList => KINDS.len() - OF_RECORDS_ALONE,
                Way::AsALine => KINDS.len() - OF_RECORDS_ALONE - OF_NO_LINE,
            };
            let kinds = KINDS.iter().zip(counts).take(can_meet);
            let none = kinds.filter(|(_, count)| *count == 0);
            unmet.extend(none.map(|((name, _), _)| format!("not met {by}: {name}")));
        }
        unmet
    }
}
