//! The calls and the byte-times.

use simulator::port::{LAST_CLOCK, MOST_ADVANCE, MOST_BEST};
use simulator::refusal::refuse;
use simulator::table::{D, GAP, MOST_ROWS};
use simulator::{Advance, Call, Class, Refusal, TAKEN};

use crate::check::{in_range, Plan};
use crate::convert::row_of;
use crate::record::{wire_size, Frame, Port, Table, Wire, BEST};

/// The bytes of a frame that are left when it is reported ended.
const LEFT_AT_REPORT: u32 = GAP as u32;

impl Port {
    /// Makes a call.
    pub fn make(&mut self, call: Call) -> Result<Advance, Refusal> {
        match call {
            Call::Offer(row, payload) => self.offer(row, payload).map(|()| TAKEN),
            Call::OfferBest(payload) => self.offer_best(payload).map(|()| TAKEN),
            Call::Advance(n) => self.advance(n),
            Call::Join(number, row) => self.join(number, row).map(|()| TAKEN),
            Call::Leave(number) => self.leave(number).map(|()| TAKEN),
        }
    }

    /// Offers a frame to a row.
    pub fn offer(&mut self, row: u64, payload: u64) -> Result<(), Refusal> {
        if self.is_broken() {
            return refuse(18, 0);
        }
        let place = row as usize;
        if !self.table.is_in_use(place) {
            return refuse(11, 0);
        }
        let row = self.table.rows[place];
        if payload > row.payload.into() {
            return refuse(12, 0);
        }
        let is_early = |last| self.clock - last < row.period();
        if self.last[place].is_some_and(is_early) {
            return refuse(13, 0);
        }
        let frame = Frame {
            source: place as u32,
            size: row.size_of(payload as u16) as u32,
            taken: self.clock,
        };
        match row.class {
            Class::A => self.queue_a.push(frame),
            Class::B => self.queue_b.push(frame),
        }
        self.last[place] = Some(self.clock);
        Ok(())
    }

    /// Offers a best-effort frame.
    pub fn offer_best(&mut self, payload: u64) -> Result<(), Refusal> {
        if self.is_broken() {
            return refuse(18, 0);
        }
        if payload > self.table.best_payload.into() {
            return refuse(12, 0);
        }
        if self.queue_best.count >= MOST_BEST {
            return refuse(14, 0);
        }
        self.queue_best.push(Frame {
            source: BEST,
            size: wire_size(payload as u16) as u32,
            taken: self.clock,
        });
        Ok(())
    }

    /// Passes byte-times until a frame is reported ended or n have passed.
    pub fn advance(&mut self, n: u64) -> Result<Advance, Refusal> {
        if self.is_broken() {
            return refuse(18, 0);
        }
        if n > MOST_ADVANCE {
            return refuse(15, 0);
        }
        if self.clock + n > LAST_CLOCK {
            return refuse(16, 0);
        }
        let mut passed = 0;
        while passed < n {
            self.start();
            passed += self.stretch(n - passed);
            if let Wire::Sending(frame, LEFT_AT_REPORT) = self.wire {
                let ended = Some(frame.into());
                return Ok(Advance { passed, ended });
            }
        }
        Ok(Advance {
            passed,
            ended: None,
        })
    }

    /// Puts a row at a number not in use.
    pub fn join(&mut self, number: u64, row: simulator::Row) -> Result<(), Refusal> {
        if self.is_broken() {
            return refuse(18, 0);
        }
        let place = number as usize;
        if place >= MOST_ROWS || self.table.is_in_use(place) {
            return refuse(22, 0);
        }
        let Some(row) = row_of(&row).filter(in_range) else {
            return refuse(5, place);
        };
        self.change_table(self.table.with(place, row))?;
        self.last[place] = None;
        Ok(())
    }

    /// Empties a number in use.
    pub fn leave(&mut self, number: u64) -> Result<(), Refusal> {
        if self.is_broken() {
            return refuse(18, 0);
        }
        let place = number as usize;
        if !self.table.is_in_use(place) {
            return refuse(11, 0);
        }
        let waiting = self.queue_a.count + self.queue_b.count + self.queue_best.count;
        let credits = (self.credit_a, self.credit_b);
        if waiting > 0 || self.wire != Wire::Free || credits != (0, 0) {
            return refuse(21, 0);
        }
        self.change_table(self.table.without(place))
    }

    /// Another table with its bounds, if it is accepted. Its rows are in range.
    fn change_table(&mut self, table: Table) -> Result<(), Refusal> {
        let plan = Plan::of(&table).expect("rows in range");
        self.bounds = plan.bounds()?;
        self.table = table;
        Ok(())
    }
}

/// What the byte-times of a stretch do to a class.
struct Course {
    /// What its credit gains in each, and what it does not rise above.
    gain: i64,
    ceiling: i64,
    /// Whether its head goes out, on a free wire, once its credit is 0.
    may_send: bool,
}

impl Course {
    fn of(idle: u32, on_wire: bool, waits: bool, free: bool) -> Course {
        let idle = i64::from(idle);
        Course {
            gain: if on_wire { idle - D as i64 } else { idle },
            ceiling: if on_wire || waits { i64::MAX } else { 0 },
            may_send: free && waits,
        }
    }

    /// How many byte-times the stretch lasts at most, from a credit below 0 if a
    /// head waits for it.
    fn most(&self, credit: i64) -> u64 {
        if self.may_send {
            credit.unsigned_abs().div_ceil(self.gain as u64)
        } else {
            u64::MAX
        }
    }

    /// The credit after so many of its byte-times.
    fn after(&self, credit: i64, passed: u64) -> i64 {
        (credit + self.gain * passed as i64).min(self.ceiling)
    }
}

/// The byte-times of a sound record.
impl Port {
    /// On a free wire a head goes out, if one may.
    fn start(&mut self) {
        if self.wire != Wire::Free {
            return;
        }
        let head = if self.queue_a.count > 0 && self.credit_a >= 0 {
            self.queue_a.pop()
        } else if self.queue_b.count > 0 && self.credit_b >= 0 {
            self.queue_b.pop()
        } else {
            self.queue_best.pop()
        };
        if let Some(frame) = head {
            self.wire = Wire::Sending(frame, frame.size);
        }
    }

    /// Passes byte-times, at most so many, until the frame on the wire is reported
    /// or has sent its last byte, or until a head may go out on the free wire:
    /// all at once. Gives how many have passed.
    fn stretch(&mut self, most: u64) -> u64 {
        let (on_wire, free, most) = match self.wire {
            Wire::Free => (None, true, most),
            Wire::Sending(frame, left) => {
                let row = self.table.rows.get(frame.source as usize);
                let ahead = match left {
                    ..=LEFT_AT_REPORT => left,
                    _ => left - LEFT_AT_REPORT,
                };
                (row.map(|row| row.class), false, most.min(ahead.into()))
            }
        };
        let (waits_a, waits_b) = (self.queue_a.count > 0, self.queue_b.count > 0);
        let of_a = Course::of(self.table.idle_a, on_wire == Some(Class::A), waits_a, free);
        let of_b = Course::of(self.table.idle_b, on_wire == Some(Class::B), waits_b, free);
        let passed = most
            .min(of_a.most(self.credit_a))
            .min(of_b.most(self.credit_b));
        self.credit_a = of_a.after(self.credit_a, passed);
        self.credit_b = of_b.after(self.credit_b, passed);
        self.clock += passed;
        if let Wire::Sending(_, left) = &mut self.wire {
            *left -= passed as u32;
            if *left == 0 {
                self.wire = Wire::Free;
                self.settle();
            }
        }
        passed
    }

    /// A class with no frame waiting or on the wire has no credit above 0.
    fn settle(&mut self) {
        if self.queue_a.count == 0 {
            self.credit_a = self.credit_a.min(0);
        }
        if self.queue_b.count == 0 {
            self.credit_b = self.credit_b.min(0);
        }
    }
}
