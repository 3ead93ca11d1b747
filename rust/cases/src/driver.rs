//! A list of calls that is made up while the simulator plays it.

use simulator::port::MOST_ADVANCE;
use simulator::refusal::refuse;
use simulator::table::MOST_IN_CLASS;
use simulator::{Advance, Call, Class, Mark, Port, Refusal, Row, Table, Wire};

/// More calls than any list has.
const MOST_CALLS: usize = 1_000_000;

#[derive(Clone)]
pub struct Driver {
    /// The table that was opened. Joins and leaves change the port's own.
    pub opened: Table,
    pub port: Port,
    /// The calls, and the simulator's answers.
    pub calls: Vec<Call>,
    pub answers: Vec<Result<Advance, Refusal>>,
    /// The bytes left on the wire ahead of each call, 0 where it is free.
    pub lefts: Vec<u64>,
    /// The row that each call is about, if there is one.
    pub rows: Vec<Option<Row>>,
}

/// The bytes left of the frame on a wire, 0 where it is free.
pub fn left_on(wire: &Wire) -> u64 {
    match wire {
        Wire::Free => 0,
        Wire::Sending(_, left) => *left,
    }
}

/// The row that a call is about: the one that it offers to, that joins, or whose
/// frame its answer reports, the port's rows standing `at` their numbers.
pub fn row_about(
    call: Call,
    answer: Result<Advance, Refusal>,
    at: impl FnOnce(usize) -> Option<Row>,
) -> Option<Row> {
    match call {
        Call::Offer(number, _) => at(number as usize),
        Call::Join(_, row) => Some(row),
        Call::Advance(_) => match answer.ok()?.ended?.mark {
            Mark::Row(number) => at(number),
            Mark::BestEffort => None,
        },
        Call::OfferBest(_) | Call::Leave(_) => None,
    }
}

impl Driver {
    pub fn new(table: Table) -> Driver {
        Driver {
            port: Port::fresh(table.clone()),
            opened: table,
            calls: Vec::new(),
            answers: Vec::new(),
            lefts: Vec::new(),
            rows: Vec::new(),
        }
    }

    pub fn make(&mut self, call: Call) {
        self.lefts.push(self.left());
        let answer = self.port.make(call);
        let at = |number| self.port.table.row(number).copied();
        self.rows.push(row_about(call, answer, at));
        assert_ne!(answer, refuse(18, 0), "no list breaks a port");
        for queue in [&self.port.queue_a, &self.port.queue_b] {
            assert!(queue.len() as u64 <= MOST_IN_CLASS, "a class queue is full");
        }
        assert!(self.calls.len() < MOST_CALLS, "a list without an end");
        self.calls.push(call);
        self.answers.push(answer);
    }

    /// Whether the last call was taken.
    pub fn taken(&self) -> bool {
        self.answers.last().is_some_and(Result::is_ok)
    }

    /// The numbers in use.
    pub fn numbers(&self) -> Vec<usize> {
        let in_use = self.port.table.in_use();
        in_use.map(|(number, _)| number).collect()
    }

    /// Offers a row's largest frame.
    pub fn offer(&mut self, row: usize) {
        let payload = self.port.table.rows[row].payload;
        self.make(Call::Offer(row as u64, payload));
    }

    /// Offers the largest best-effort frame.
    pub fn offer_best(&mut self) {
        self.make(Call::OfferBest(self.port.table.best_payload));
    }

    /// How long until a row may be offered to again.
    pub fn wait(&self, row: usize) -> u64 {
        match self.port.last[row] {
            Some(last) => {
                let next = last + self.port.table.rows[row].period();
                next.saturating_sub(self.port.clock)
            }
            None => 0,
        }
    }

    /// The bytes left on the wire, 0 where it is free.
    pub fn left(&self) -> u64 {
        left_on(&self.port.wire)
    }

    /// Whether a frame of a row waits.
    pub fn waits(&self) -> bool {
        !self.port.queue_a.is_empty() || !self.port.queue_b.is_empty()
    }

    /// Whether nothing is in the port and the credits are 0: what a leave waits
    /// for.
    pub fn is_settled(&self) -> bool {
        let port = &self.port;
        let empty = !self.waits() && port.queue_best.is_empty() && port.wire == Wire::Free;
        empty && port.credit_a == 0 && port.credit_b == 0
    }

    /// Advances until that is so, in so many calls at most.
    pub fn settle(&mut self, most: usize) {
        for _ in 0..most {
            if self.is_settled() {
                return;
            }
            let port = &self.port;
            let climb = |class, credit: i64| {
                let below = credit.min(0).unsigned_abs();
                below.div_ceil(port.table.idle(class).max(1))
            };
            let n = match self.left() {
                _ if self.waits() || !port.queue_best.is_empty() => MOST_ADVANCE,
                0 => climb(Class::A, port.credit_a).max(climb(Class::B, port.credit_b)),
                left => left,
            };
            self.make(Call::Advance(n.clamp(1, MOST_ADVANCE)));
        }
    }

    /// Advances until no frame of a row waits and the wire is free.
    pub fn drain(&mut self) {
        while self.waits() {
            self.make(Call::Advance(MOST_ADVANCE));
        }
        self.until_free();
    }

    /// Advances until the frame on the wire has sent its last byte.
    pub fn until_free(&mut self) {
        while self.left() > 0 {
            self.make(Call::Advance(self.left()));
        }
    }
}
