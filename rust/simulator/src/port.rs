//! The port: its record, the check of a record, the calls and the byte-time.

use std::collections::VecDeque;

use crate::refusal::{refuse, Refusal};
use crate::table::{
    accept, check_slopes, wire_size, Class, Row, Table, GAP, MOST_IN_CLASS, MOST_ROWS,
};

/// "a clock (0 to 1,099,511,627,775)"
pub const LAST_CLOCK: u64 = 1_099_511_627_775;

/// "Offer of best effort: at most 16 wait."
pub const MOST_BEST: usize = 16;

/// "Advance by n (0 to 65,535)"
pub const MOST_ADVANCE: u64 = 65_535;

/// The smallest wire size.
pub const LEAST_SIZE: u64 = 84;

/// "ended frame's row (32 best effort, 33 none)"
pub const BEST_EFFORT: u64 = 32;
pub const NO_FRAME: u64 = 33;

/// A frame's "row or best-effort mark".
#[derive(Clone, Copy, Debug, PartialEq, Eq)]
pub enum Mark {
    Row(usize),
    BestEffort,
}

impl Mark {
    /// The number that stands for a mark.
    pub fn number(self) -> u64 {
        match self {
            Mark::Row(row) => row as u64,
            Mark::BestEffort => BEST_EFFORT,
        }
    }

    /// The mark that a number stands for.
    pub fn of(number: u64) -> Mark {
        match number {
            BEST_EFFORT => Mark::BestEffort,
            row => Mark::Row(row as usize),
        }
    }
}

/// "A frame has its row or best-effort mark, wire size and instant taken."
#[derive(Clone, Copy, Debug, PartialEq, Eq)]
pub struct Frame {
    pub mark: Mark,
    pub size: u64,
    pub instant: u64,
}

/// "the wire: free, or a frame with its bytes left"
#[derive(Clone, Copy, Debug, PartialEq, Eq)]
pub enum Wire {
    Free,
    Sending(Frame, u64),
}

/// "A port has its table, a clock, two credits, three first-in-first-out
/// queues (A, B, best effort), the instant of each row's last taken frame, and
/// the wire." C-15: "The port keeps its bounds". The record may hold anything;
/// every call begins with the check.
#[derive(Clone, Debug)]
pub struct Port {
    pub table: Table,
    /// C-15: "0 at an empty number below the row count"
    pub bounds: [u64; MOST_ROWS],
    pub clock: u64,
    pub credit_a: i64,
    pub credit_b: i64,
    pub queue_a: VecDeque<Frame>,
    pub queue_b: VecDeque<Frame>,
    pub queue_best: VecDeque<Frame>,
    /// 32 places, one for each row there may be.
    pub last: Vec<Option<u64>>,
    pub wire: Wire,
}

/// "Ports are compared by these parts; a record's queue and row places not in
/// use belong to none of them and may hold anything." The instant of an empty
/// number's last frame is none of them either.
impl PartialEq for Port {
    fn eq(&self, other: &Port) -> bool {
        self.table == other.table
            && self.kept_bounds().eq(other.kept_bounds())
            && self.clock == other.clock
            && self.credit_a == other.credit_a
            && self.credit_b == other.credit_b
            && self.queue_a == other.queue_a
            && self.queue_b == other.queue_b
            && self.queue_best == other.queue_best
            && self.last_in_use().eq(other.last_in_use())
            && self.wire == other.wire
    }
}

impl Eq for Port {}

/// "gives the count passed and the ended frame or none"
#[derive(Clone, Copy, Debug, PartialEq, Eq)]
pub struct Advance {
    pub passed: u64,
    pub ended: Option<Frame>,
}

/// The three queues and the wire, as places that a frame is in.
#[derive(Clone, Copy, PartialEq, Eq)]
enum Place {
    QueueA,
    QueueB,
    QueueBest,
    Wire,
}

impl Port {
    /// "Fresh: clock and credits 0, no frames, no instants."
    pub fn fresh(table: Table) -> Port {
        Port {
            bounds: bounds_of(&table),
            table,
            clock: 0,
            credit_a: 0,
            credit_b: 0,
            queue_a: VecDeque::with_capacity(MOST_IN_CLASS as usize),
            queue_b: VecDeque::with_capacity(MOST_IN_CLASS as usize),
            queue_best: VecDeque::with_capacity(MOST_BEST),
            last: vec![None; MOST_ROWS],
            wire: Wire::Free,
        }
    }

    /// The bounds of the numbers below the row count.
    fn kept_bounds(&self) -> impl Iterator<Item = &u64> {
        self.bounds.iter().take(self.table.rows.len())
    }

    /// The last instants of the numbers in use.
    fn last_in_use(&self) -> impl Iterator<Item = &Option<u64>> {
        let numbers = self.table.in_use().map(|(number, _)| number);
        numbers.filter_map(|number| self.last.get(number))
    }

    /// Every frame in the port with its place.
    fn frames(&self) -> impl Iterator<Item = (Place, &Frame)> {
        let on_wire = match &self.wire {
            Wire::Free => None,
            Wire::Sending(frame, _) => Some(frame),
        };
        let a = self.queue_a.iter().map(|frame| (Place::QueueA, frame));
        let b = self.queue_b.iter().map(|frame| (Place::QueueB, frame));
        let best = self
            .queue_best
            .iter()
            .map(|frame| (Place::QueueBest, frame));
        let wire = on_wire.into_iter().map(|frame| (Place::Wire, frame));
        a.chain(b).chain(best).chain(wire)
    }

    /// Every row's frame in the port with its row.
    fn row_frames(&self) -> impl Iterator<Item = (usize, &Frame)> {
        self.frames().filter_map(|(_, frame)| match frame.mark {
            Mark::Row(row) => Some((row, frame)),
            Mark::BestEffort => None,
        })
    }
}

/// The bounds of an accepted table. One that is not accepted has none, and its
/// port is broken.
fn bounds_of(table: &Table) -> [u64; MOST_ROWS] {
    accept(table).map_or([0; MOST_ROWS], |accepted| accepted.bounds())
}

/// The names of the clauses by which a record is broken, in the order in which
/// `broken` tries them.
pub const CLAUSES: [&str; 17] = [
    "table not accepted",
    "row count not one above the highest number in use",
    "a bound is not the one worked out afresh",
    "clock out of range",
    "credit of A out of range",
    "credit of B out of range",
    "more than 16 best-effort frames wait",
    "a frame names no row",
    "a frame is in the wrong queue",
    "a frame's size is out of range",
    "bytes left are 0 or above the size",
    "a frame's instant is after the clock",
    "a row's last instant is after the clock",
    "a row has too many frames",
    "two frames of a row were taken less than a period apart",
    "a row's newest frame wasn't taken at the row's last instant",
    "a row's frame is as old as its residence",
];

/// "A record is broken if ...": the name of the first clause that holds, none
/// for a sound record.
pub fn broken(port: &Port) -> Option<&'static str> {
    let table = &port.table;

    // "its table isn't accepted"
    let Ok(accepted) = accept(table) else {
        return Some(CLAUSES[0]);
    };

    // C-15: "A record with other bounds or another row count is broken."
    if table.rows.len() != table.count_in_use() {
        return Some(CLAUSES[1]);
    }
    let afresh = &accepted.bounds()[..table.rows.len()];
    if port.kept_bounds().ne(afresh) {
        return Some(CLAUSES[2]);
    }

    // "its clock or a credit is out of range (−S × L to I × H)"
    if port.clock > LAST_CLOCK {
        return Some(CLAUSES[3]);
    }
    if !accepted.a.credit_range().contains(&port.credit_a) {
        return Some(CLAUSES[4]);
    }
    if !accepted.b.credit_range().contains(&port.credit_b) {
        return Some(CLAUSES[5]);
    }

    // "more than 16 best-effort frames wait"
    if port.queue_best.len() > MOST_BEST {
        return Some(CLAUSES[6]);
    }

    // "a frame names no row of the table"
    if port.row_frames().any(|(row, _)| table.row(row).is_none()) {
        return Some(CLAUSES[7]);
    }

    // "is in the wrong queue"
    let right_queue = |frame: &Frame| match frame.mark {
        Mark::BestEffort => Place::QueueBest,
        Mark::Row(row) => match table.rows[row].class {
            Class::A => Place::QueueA,
            Class::B => Place::QueueB,
        },
    };
    if port
        .frames()
        .any(|(place, frame)| place != Place::Wire && place != right_queue(frame))
    {
        return Some(CLAUSES[8]);
    }

    // "or has a size outside 84 to its row's C (best effort: LC)"
    let largest_size = |frame: &Frame| match frame.mark {
        Mark::BestEffort => table.best_size(),
        Mark::Row(row) => table.rows[row].size(),
    };
    if port
        .frames()
        .any(|(_, frame)| !(LEAST_SIZE..=largest_size(frame)).contains(&frame.size))
    {
        return Some(CLAUSES[9]);
    }

    // "bytes left are 0 or above the size"
    if let Wire::Sending(frame, left) = port.wire {
        if left == 0 || left > frame.size {
            return Some(CLAUSES[10]);
        }
    }

    // "an instant of a frame or of a row in use is after the clock"
    if port.frames().any(|(_, frame)| frame.instant > port.clock) {
        return Some(CLAUSES[11]);
    }
    if port.last_in_use().flatten().any(|&last| last > port.clock) {
        return Some(CLAUSES[12]);
    }

    // The rows' frames, in any places and any order, by row and the oldest
    // first.
    let mut taken = Vec::with_capacity(port.queue_a.len() + port.queue_b.len());
    taken.extend(port.row_frames().map(|(row, frame)| (row, frame.instant)));
    taken.sort_unstable();
    let rows = || taken.chunk_by(|one, next| one.0 == next.0);

    // "a row has two frames in the port", by C-12 "more than that many": "as
    // its bound divided by its period, rounded up". C-13: "The frame count of
    // C-12 and the age in a broken record use the old figure."
    if rows().any(|frames| frames.len() as u64 > accepted.most[frames[0].0]) {
        return Some(CLAUSES[13]);
    }

    // C-12: "or two taken less than a period apart"
    let too_near = |pair: &[(usize, u64)]| {
        let (row, older) = pair[0];
        pair[1].1 - older < table.rows[row].period()
    };
    if rows().any(|frames| frames.windows(2).any(too_near)) {
        return Some(CLAUSES[14]);
    }

    // "a row's frame wasn't taken at the row's last instant", by C-12 "the
    // newest must have the row's last instant"
    if rows()
        .filter_map(|frames| frames.last())
        .any(|&(row, newest)| port.last.get(row) != Some(&Some(newest)))
    {
        return Some(CLAUSES[15]);
    }

    // "a row's frame is as old as its bound or older", by C-13 the old figure
    if taken
        .iter()
        .any(|&(row, instant)| port.clock - instant >= accepted.residences[row])
    {
        return Some(CLAUSES[16]);
    }

    None
}

/// The calls. "Checks run in the order given and the first decides."
impl Port {
    /// "Offer to a row: taken, it joins its class's queue."
    pub fn offer(&mut self, row: u64, payload: u64) -> Result<(), Refusal> {
        // "18, broken record."
        if broken(self).is_some() {
            return refuse(18, 0);
        }
        // "11, no such row." C-15: "An empty number answers 11."
        let place = row as usize;
        let Some(&row) = self.table.row(place) else {
            return refuse(11, 0);
        };
        // "12, payload above the row's."
        if payload > row.payload {
            return refuse(12, 0);
        }
        // "13, early": "clock − last taken instant < P; a first frame is never
        // early"
        if let Some(last) = self.last[place] {
            if self.clock - last < row.period() {
                return refuse(13, 0);
            }
        }
        // "A class queue has no refusal." C-12: "an offer still never meets a
        // full class queue".
        let frame = Frame {
            mark: Mark::Row(place),
            size: row.size_of(payload),
            instant: self.clock,
        };
        match row.class {
            Class::A => self.queue_a.push_back(frame),
            Class::B => self.queue_b.push_back(frame),
        }
        self.last[place] = Some(self.clock);
        Ok(())
    }

    /// "Offer of best effort: at most 16 wait."
    pub fn offer_best(&mut self, payload: u64) -> Result<(), Refusal> {
        // "18."
        if broken(self).is_some() {
            return refuse(18, 0);
        }
        // "12, payload above the table's."
        if payload > self.table.best_payload {
            return refuse(12, 0);
        }
        // "14, 16 waiting."
        if self.queue_best.len() >= MOST_BEST {
            return refuse(14, 0);
        }
        self.queue_best.push_back(Frame {
            mark: Mark::BestEffort,
            size: wire_size(payload),
            instant: self.clock,
        });
        Ok(())
    }

    /// "Advance by n (0 to 65,535) runs byte-times until a frame ends or n
    /// have passed, and gives the count passed and the ended frame or none."
    /// C-13: "A frame is now reported ended when 12 bytes of it are left",
    /// "Advance stops there."
    pub fn advance(&mut self, n: u64) -> Result<Advance, Refusal> {
        // "18."
        if broken(self).is_some() {
            return refuse(18, 0);
        }
        // "15, n above 65,535."
        if n > MOST_ADVANCE {
            return refuse(15, 0);
        }
        // "16, clock + n past its last value."
        if self.clock + n > LAST_CLOCK {
            return refuse(16, 0);
        }
        let mut passed = 0;
        let mut ended = None;
        while passed < n && ended.is_none() {
            ended = self.byte_time();
            passed += 1;
        }
        Ok(Advance { passed, ended })
    }

    /// C-15: "A join puts a row at a named unused number, and the port goes on,
    /// all its other parts as they were, if the enlarged table would be
    /// accepted." "A join checks 18, 22, 5, 8, 9, 10, 20".
    pub fn join(&mut self, number: u64, row: Row) -> Result<(), Refusal> {
        if broken(self).is_some() {
            return refuse(18, 0);
        }
        // "22, a join at a number in use or above 31."
        let place = number as usize;
        if number >= MOST_ROWS as u64 || self.table.row(place).is_some() {
            return refuse(22, 0);
        }
        // An empty number "handed in to be ... joined ... is 5, place its row".
        if !row.in_range() {
            return refuse(5, place);
        }
        // "a first can't join (8)". The other rows are in range.
        let enlarged = self.table.with(place, row);
        accept(&enlarged)?;
        self.change_table(enlarged);
        // "a later join may use the number, with no last instant"
        self.last[place] = None;
        Ok(())
    }

    /// C-15: "A leave empties a row's number and touches no other part". "a
    /// leave checks 18, 11, 21, 8."
    pub fn leave(&mut self, number: u64) -> Result<(), Refusal> {
        if broken(self).is_some() {
            return refuse(18, 0);
        }
        let place = number as usize;
        if self.table.row(place).is_none() {
            return refuse(11, 0);
        }
        // "21, a leave with any frame waiting or on the wire or a credit not 0"
        if self.frames().next().is_some() || self.credit_a != 0 || self.credit_b != 0 {
            return refuse(21, 0);
        }
        // "Slopes never change, so a class's last row can't leave"
        let rest = self.table.without(place);
        check_slopes(&rest)?;
        self.change_table(rest);
        Ok(())
    }

    /// "after each join or leave they equal those worked out afresh"
    fn change_table(&mut self, table: Table) {
        self.bounds = bounds_of(&table);
        self.table = table;
    }
}

/// The byte-time machine.
impl Port {
    /// One byte-time of a sound record. Gives the frame that is reported ended,
    /// if any.
    #[inline]
    pub fn byte_time(&mut self) -> Option<Frame> {
        // 1. "On a free wire, the head of A goes out if A's credit is at least
        // 0; else the head of B likewise; else the best-effort head; else the
        // wire stays free."
        if let Wire::Free = self.wire {
            if let Some(frame) = self.take_next() {
                self.wire = Wire::Sending(frame, frame.size);
            }
        }

        // 2. The credits change.
        let mut sending = self.class_on_wire();
        self.credit_a = changed_credit(
            self.credit_a,
            self.table.idle(Class::A) as i64,
            self.table.send(Class::A) as i64,
            sending == Some(Class::A),
            !self.queue_a.is_empty(),
        );
        self.credit_b = changed_credit(
            self.credit_b,
            self.table.idle(Class::B) as i64,
            self.table.send(Class::B) as i64,
            sending == Some(Class::B),
            !self.queue_b.is_empty(),
        );

        // 3. "One byte passes, the clock gains 1; after the last byte the wire
        // is free". C-13: "A frame is now reported ended when 12 bytes of it are
        // left; those twelve still occupy the wire and cost credit." "A frame is
        // reported no second time when the wire frees."
        let mut ended = None;
        if let Wire::Sending(frame, left) = &mut self.wire {
            *left -= 1;
            if *left == GAP {
                ended = Some(*frame);
            } else if *left == 0 {
                self.wire = Wire::Free;
                sending = None;
            }
        }
        self.clock += 1;

        // 4. "A class with no frame waiting or on the wire and credit above 0
        // goes to 0."
        if self.queue_a.is_empty() && sending != Some(Class::A) && self.credit_a > 0 {
            self.credit_a = 0;
        }
        if self.queue_b.is_empty() && sending != Some(Class::B) && self.credit_b > 0 {
            self.credit_b = 0;
        }
        ended
    }

    /// The head that goes out on a free wire, taken from its queue.
    fn take_next(&mut self) -> Option<Frame> {
        if !self.queue_a.is_empty() && self.credit_a >= 0 {
            self.queue_a.pop_front()
        } else if !self.queue_b.is_empty() && self.credit_b >= 0 {
            self.queue_b.pop_front()
        } else {
            self.queue_best.pop_front()
        }
    }

    /// The class with its frame on the wire.
    fn class_on_wire(&self) -> Option<Class> {
        match self.wire {
            Wire::Sending(frame, _) => match frame.mark {
                Mark::Row(row) => Some(self.table.rows[row].class),
                Mark::BestEffort => None,
            },
            Wire::Free => None,
        }
    }
}

/// Step 2 for one class.
fn changed_credit(credit: i64, idle: i64, send: i64, on_wire: bool, waiting: bool) -> i64 {
    if on_wire {
        // "A class with its frame on the wire loses S."
        credit - send
    } else if waiting {
        // "A class with a waiting frame and none on the wire gains I."
        credit + idle
    } else if credit < 0 {
        // "A class with neither gains I if below 0, but not above 0."
        (credit + idle).min(0)
    } else {
        credit
    }
}
