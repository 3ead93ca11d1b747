//! What calls do about rows that come and go, and how often it was met.

use simulator::table::MOST_ROWS;
use simulator::{Advance, Call, Class, Port, Refusal, Row, Wire};

use crate::driver::Driver;

/// A call with its answer, and the port ahead of it and behind it.
struct Step<'a> {
    before: &'a Port,
    call: Call,
    answer: Result<Advance, Refusal>,
    after: &'a Port,
    /// Each number's last taken instant, whichever row it had.
    last: &'a [Option<u64>; MOST_ROWS],
    /// The row that has left each number last.
    gone: &'a [Option<Row>; MOST_ROWS],
}

impl Step<'_> {
    /// The number of a join that was taken.
    fn joined(&self) -> Option<usize> {
        match self.call {
            Call::Join(number, _) if self.answer.is_ok() => Some(number as usize),
            _ => None,
        }
    }

    /// The number of a leave that was taken.
    fn left(&self) -> Option<usize> {
        match self.call {
            Call::Leave(number) if self.answer.is_ok() => Some(number as usize),
            _ => None,
        }
    }

    /// The row that a join has brought.
    fn joining(&self) -> Option<&Row> {
        self.after.table.row(self.joined()?)
    }

    /// The row that has left.
    fn leaving(&self) -> Option<&Row> {
        self.before.table.row(self.left()?)
    }

    /// The row count ahead of the call and behind it.
    fn counts(&self) -> (usize, usize) {
        (self.before.table.rows.len(), self.after.table.rows.len())
    }

    fn waits(&self) -> bool {
        !self.before.queue_a.is_empty() || !self.before.queue_b.is_empty()
    }

    fn is_empty(&self) -> bool {
        let no_best = self.before.queue_best.is_empty();
        !self.waits() && no_best && self.before.wire == Wire::Free
    }

    /// Whether a join, or a leave, was refused with a number.
    fn join_refused(&self, number: u8) -> bool {
        matches!(self.call, Call::Join(..)) && self.refused(number)
    }

    fn leave_refused(&self, number: u8) -> bool {
        matches!(self.call, Call::Leave(_)) && self.refused(number)
    }

    fn refused(&self, number: u8) -> bool {
        self.answer.is_err_and(|refusal| refusal.number == number)
    }

    /// Whether an offer was taken sooner than a period after the last one at its
    /// number.
    fn is_soon(&self) -> bool {
        let Call::Offer(number, _) = self.call else {
            return false;
        };
        let number = number as usize;
        let soon = |last| self.after.clock - last < self.after.table.rows[number].period();
        self.answer.is_ok() && self.last[number].is_some_and(soon)
    }

    /// Whether an offer was taken where a row has left whose frames had a tag and
    /// this one's have none, or the other way round.
    fn is_retagged(&self) -> bool {
        let Call::Offer(number, _) = self.call else {
            return false;
        };
        let number = number as usize;
        let other = |gone: Row| gone.tagged != self.after.table.rows[number].tagged;
        self.answer.is_ok() && self.gone[number].is_some_and(other)
    }
}

/// A kind's name, and what it is.
type Kind = (&'static str, fn(&Step) -> bool);

const KINDS: [Kind; 26] = [
    ("a join while a row's frame waits", |step| {
        step.joined().is_some() && step.waits()
    }),
    ("a join with a frame on the wire", |step| {
        step.joined().is_some() && step.before.wire != Wire::Free
    }),
    ("a join with a credit below 0", |step| {
        step.joined().is_some() && step.before.credit_a.min(step.before.credit_b) < 0
    }),
    ("a join with a credit above 0", |step| {
        step.joined().is_some() && step.before.credit_a.max(step.before.credit_b) > 0
    }),
    ("a join at an empty number", |step| {
        step.joined().is_some_and(|number| number < step.counts().0)
    }),
    ("a join at the row count", |step| {
        step.joined() == Some(step.counts().0)
    }),
    ("a join past empty numbers", |step| {
        step.joined().is_some_and(|number| number > step.counts().0)
    }),
    ("a join that moves a bound of the other class", |step| {
        let Call::Join(_, Row { class, .. }) = step.call else {
            return false;
        };
        let mut rows = step.before.table.in_use();
        step.joined().is_some()
            && rows.any(|(number, row)| {
                row.class != class && step.before.bounds[number] != step.after.bounds[number]
            })
    }),
    ("a join of a tagged row of A", |step| {
        let is = |row: &Row| row.tagged && row.class == Class::A;
        step.joining().is_some_and(is)
    }),
    ("a join of a tagged row of B", |step| {
        let is = |row: &Row| row.tagged && row.class == Class::B;
        step.joining().is_some_and(is)
    }),
    ("a join of a tagged row that is the largest", |step| {
        let is = |row: &Row| row.tagged && row.size() > step.before.table.largest(row.class);
        step.joining().is_some_and(is)
    }),
    ("a leave of a tagged row", |step| {
        step.leaving().is_some_and(|row| row.tagged)
    }),
    ("an offer where a row had another tag", |step| {
        step.is_retagged()
    }),
    ("an offer soon after another row's", |step| step.is_soon()),
    ("an offer to an empty number", |step| {
        let below = |number| (number as usize) < step.counts().0;
        let is_below = matches!(step.call, Call::Offer(number, _) if below(number));
        is_below && step.refused(11)
    }),
    ("a leave that empties a lower number", |step| {
        step.left().is_some() && step.counts().0 == step.counts().1
    }),
    ("a leave that lowers the count by one", |step| {
        step.left().is_some() && step.counts().0 == step.counts().1 + 1
    }),
    ("a leave that lowers it by more", |step| {
        step.left().is_some() && step.counts().0 > step.counts().1 + 1
    }),
    ("a join refused with 22", |step| step.join_refused(22)),
    ("a join refused with 5", |step| step.join_refused(5)),
    ("a join refused with 9", |step| step.join_refused(9)),
    ("a join refused with 10", |step| step.join_refused(10)),
    ("a leave refused with 11", |step| step.leave_refused(11)),
    ("a leave refused for a frame", |step| {
        step.leave_refused(21) && !step.is_empty()
    }),
    ("a leave refused for a credit", |step| {
        step.leave_refused(21) && step.is_empty()
    }),
    ("a leave refused with 8", |step| step.leave_refused(8)),
];

/// How often each kind was met.
#[derive(Clone, Copy, Default)]
pub struct Kinds([u64; KINDS.len()]);

impl Kinds {
    /// A list that the simulator has played.
    pub fn see_list(&mut self, driver: &Driver) {
        let mut port = Port::fresh(driver.opened.clone());
        let mut course = Course::new(&port);
        for (&call, &answer) in driver.calls.iter().zip(&driver.answers) {
            assert_eq!(port.make(call), answer);
            course.see(self, call, answer, &port);
        }
    }

    /// Each kind's name with its count.
    pub fn counts(&self) -> impl Iterator<Item = (&'static str, u64)> + '_ {
        KINDS.iter().map(|(name, _)| *name).zip(self.0)
    }

    /// The kind that was met least often.
    pub fn rarest(&self) -> (&'static str, u64) {
        let rarest = self.counts().min_by_key(|(_, count)| *count);
        rarest.expect("some kinds")
    }
}

/// Calls on a port, one after the other: the port behind the last of them, and
/// each number's last taken instant, whichever row it had, with the row that has
/// left it last.
pub struct Course {
    port: Port,
    last: [Option<u64>; MOST_ROWS],
    gone: [Option<Row>; MOST_ROWS],
}

impl Course {
    pub fn new(port: &Port) -> Course {
        let port = port.clone();
        let last = std::array::from_fn(|number| port.table.row(number).and(port.last[number]));
        let gone = [None; MOST_ROWS];
        Course { port, last, gone }
    }

    /// A call with its answer, and the port behind it.
    pub fn see(
        &mut self,
        kinds: &mut Kinds,
        call: Call,
        answer: Result<Advance, Refusal>,
        after: &Port,
    ) {
        let step = Step {
            before: &self.port,
            call,
            answer,
            after,
            last: &self.last,
            gone: &self.gone,
        };
        for (count, (_, is)) in kinds.0.iter_mut().zip(KINDS) {
            *count += u64::from(is(&step));
        }
        match (call, answer) {
            (Call::Offer(number, _), Ok(_)) => self.last[number as usize] = Some(after.clock),
            (Call::Leave(number), Ok(_)) => {
                self.gone[number as usize] = self.port.table.row(number as usize).copied();
            }
            _ => (),
        }
        self.port.clone_from(after);
    }
}
