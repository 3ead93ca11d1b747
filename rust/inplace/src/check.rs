//! The record check: every clause of the simulator's `broken`, worked out anew.
//! The rows in use are passed over for their ranges and sums, and again for what
//! the sums make of each; the frames once, and again only where they stand out
//! of order. No row place behind the row count is looked at. Joins and leaves have
//! their bounds from the same plan of the rows.

use simulator::port::{LAST_CLOCK, LEAST_SIZE};
use simulator::refusal::refuse;
use simulator::table::{
    D, DEADLINE_RANGE, GAP, IDLE_RANGE, MOST_IDLE_TOGETHER, MOST_ROWS, PAYLOAD_RANGE, PERIOD_RANGE,
    RATE_RANGE,
};
use simulator::{Class, Refusal};

use crate::record::{wire_size, Frame, Pace, Port, Row, Table, Wire, BEST, CLASS_PLACES};

/// The places for frames of rows: both class queues', and the wire's.
const MOST_FRAMES: usize = 2 * CLASS_PLACES + 1;

pub(crate) fn in_range(row: &Row) -> bool {
    let pace_ok = match row.pace {
        Pace::Period(period) => PERIOD_RANGE.contains(&period.into()),
        Pace::Rated { rate, samples } => RATE_RANGE.contains(&rate.into()) && samples > 0,
    };
    pace_ok
        && PAYLOAD_RANGE.contains(&row.payload.into())
        && DEADLINE_RANGE.contains(&row.deadline.into())
}

/// The rows of a class taken together.
#[derive(Clone, Copy, Default)]
struct Sums {
    rows: u64,
    largest: u64,
    total: u64,
    shares: u64,
}

/// The sums of A and of B, none if a row is out of range.
fn sums(rows: &[Row]) -> Option<[Sums; 2]> {
    let mut sums = [Sums::default(); 2];
    for row in rows.iter().filter(|row| **row != Row::EMPTY) {
        if !in_range(row) {
            return None;
        }
        let (size, of_class) = (row.size(), &mut sums[row.class as usize]);
        of_class.rows += 1;
        of_class.largest = of_class.largest.max(size);
        of_class.total += size;
        of_class.shares += (D * size).div_ceil(row.period());
    }
    Some(sums)
}

/// What the credit and the residences of a class are made of.
struct Lane {
    idle: u64,
    send: u64,
    sums: Sums,
    /// S × L and I × H: how far the credit may be below 0, and above.
    debt: u64,
    saved: u64,
    /// I × H + D × (sum of C) + S × L. Less S × C it is I × a residence.
    base: u64,
}

impl Lane {
    fn new(idle: u64, sums: Sums, blocking: u64) -> Lane {
        let send = D - idle;
        let (debt, saved) = (send * sums.largest, idle * blocking);
        Lane {
            idle,
            send,
            sums,
            debt,
            saved,
            base: saved + D * sums.total + debt,
        }
    }

    fn credit_ok(&self, credit: i64) -> bool {
        (-(self.debt as i64)..=self.saved as i64).contains(&credit)
    }

    /// I × a row's residence, or up to I − 1 more: rounding down comes later.
    fn scaled(&self, row: &Row) -> u64 {
        self.base - self.send * row.size()
    }

    /// Whether a row's residence is above n. Nothing is divided.
    fn is_above(&self, row: &Row, n: u64) -> bool {
        self.scaled(row) >= self.idle * (n + 1)
    }

    /// Whether it is n. Nothing is divided here either.
    fn is_residence(&self, row: &Row, n: u64) -> bool {
        self.scaled(row) >= self.idle * n && !self.is_above(row, n)
    }
}

/// What a table comes to whose values are in range.
pub(crate) struct Plan<'a> {
    rows: &'a [Row],
    /// Of A and of B.
    lanes: [Lane; 2],
}

impl Plan<'_> {
    /// The plan of a table, none if a value is out of range. Its numbers may be empty.
    #[inline]
    pub(crate) fn of(table: &Table) -> Option<Plan<'_>> {
        let rows = table.rows.get(..table.count)?;
        let (idle_a, idle_b) = (table.idle_a.into(), table.idle_b.into());
        if !IDLE_RANGE.contains(&idle_a)
            || !IDLE_RANGE.contains(&idle_b)
            || !PAYLOAD_RANGE.contains(&table.best_payload.into())
        {
            return None;
        }
        let [a, b] = sums(rows)?;
        let best = wire_size(table.best_payload);
        let behind = (D * best).max(idle_a * b.largest).div_ceil(D - idle_a);
        let lane_a = Lane::new(idle_a, a, b.largest.max(best));
        let lane_b = Lane::new(idle_b, b, a.largest + behind);
        Some(Plan {
            rows,
            lanes: [lane_a, lane_b],
        })
    }

    /// The rules of slopes and shares.
    #[inline]
    fn check_slopes(&self) -> Result<(), Refusal> {
        let [a, b] = &self.lanes;
        let fits = |lane: &Lane| (lane.idle == 0) == (lane.sums.rows == 0);
        if !fits(a) || !fits(b) || a.idle + b.idle > MOST_IDLE_TOGETHER {
            return refuse(8, 0);
        }
        let above = |lane: &Lane| lane.sums.shares > lane.idle;
        let place = self.lanes.iter().position(above);
        place.map_or(Ok(()), |place| refuse(9, place))
    }

    /// The rows' bounds, if the table is accepted.
    pub(crate) fn bounds(&self) -> Result<[u64; MOST_ROWS], Refusal> {
        self.check_slopes()?;
        let mut bounds = [0; MOST_ROWS];
        let mut in_class = [0; 2];
        for (place, row) in self.rows.iter().enumerate() {
            if *row == Row::EMPTY {
                continue;
            }
            let lane = self.lane(row);
            let residence = lane.scaled(row) / lane.idle;
            bounds[place] = residence - GAP;
            if bounds[place] > row.deadline.into() {
                return refuse(10, place);
            }
            in_class[row.class as usize] += most_of(row, residence);
        }
        let above = |&frames: &u64| frames > CLASS_PLACES as u64;
        let place = in_class.iter().position(above);
        place.map_or(Ok(bounds), |place| refuse(20, place))
    }

    /// Whether the highest number is in use, the table accepted and its bounds are
    /// these.
    fn is_sound(&self, bounds: &[u64; MOST_ROWS]) -> bool {
        let top = self.rows.last();
        top.is_some_and(|row| *row != Row::EMPTY)
            && self.check_slopes().is_ok()
            && self.is_kept(bounds)
    }

    /// Whether the bounds are the rows' and none is above its deadline, and the
    /// frames that a class's rows may have in the port have places.
    fn is_kept(&self, bounds: &[u64; MOST_ROWS]) -> bool {
        let mut in_class = [0; 2];
        for (row, &bound) in self.rows.iter().zip(bounds) {
            if *row == Row::EMPTY {
                if bound != 0 {
                    return false;
                }
                continue;
            }
            if bound > row.deadline.into() || !self.lane(row).is_residence(row, bound + GAP) {
                return false;
            }
            in_class[row.class as usize] += most_of(row, bound + GAP);
        }
        in_class.iter().all(|&frames| frames <= CLASS_PLACES as u64)
    }

    fn lane(&self, row: &Row) -> &Lane {
        &self.lanes[row.class as usize]
    }
}

/// How many frames a row may have in the port.
fn most_of(row: &Row, residence: u64) -> u64 {
    match row.period() {
        period if period < residence => residence.div_ceil(period),
        _ => 1,
    }
}

fn size_ok(frame: &Frame, largest: u64) -> bool {
    (LEAST_SIZE..=largest).contains(&frame.size.into())
}

/// The frames of each row that were seen: how many, and when the newest was
/// taken.
struct Notes<'a> {
    plan: &'a Plan<'a>,
    clock: u64,
    counts: [u64; MOST_ROWS],
    newest: [u64; MOST_ROWS],
    /// Whether each was taken a period or more after those of its row before it.
    rising: bool,
}

impl Notes<'_> {
    /// Notes a frame, and says whether its row lets it be there: in the queue of
    /// a class, or on the wire.
    fn note(&mut self, frame: &Frame, queue: Option<Class>) -> bool {
        let place = frame.source as usize;
        let Some(row) = self.plan.rows.get(place) else {
            return false;
        };
        if *row == Row::EMPTY
            || queue.is_some_and(|class| class != row.class)
            || !size_ok(frame, row.size())
            || frame.taken > self.clock
            || !self.plan.lane(row).is_above(row, self.clock - frame.taken)
        {
            return false;
        }
        let (count, newest) = (&mut self.counts[place], &mut self.newest[place]);
        self.rising &= *count == 0 || frame.taken >= *newest + row.period();
        *count += 1;
        *newest = frame.taken.max(*newest);
        true
    }

    /// Whether no row has more frames than it may, and the newest of each was
    /// taken at its last instant.
    fn fit(&self, last: &[Option<u64>; MOST_ROWS]) -> bool {
        let mut rows = self.plan.rows.iter().enumerate();
        rows.all(|(place, row)| match self.counts[place] {
            0 => true,
            count => {
                self.plan
                    .lane(row)
                    .is_above(row, (count - 1) * row.period())
                    && last[place] == Some(self.newest[place])
            }
        })
    }
}

/// Whether no two frames of a row were taken less than its period apart, in
/// whichever order they stand.
fn are_apart<'a>(plan: &Plan, frames: impl Iterator<Item = &'a Frame>) -> bool {
    let mut places = [(0, 0); MOST_FRAMES];
    let mut count = 0;
    for frame in frames {
        places[count] = (frame.source as usize, frame.taken);
        count += 1;
    }
    let taken = &mut places[..count];
    taken.sort_unstable();
    taken.windows(2).all(|pair| {
        let [(row, older), (next, newer)] = [pair[0], pair[1]];
        row != next || newer - older >= plan.rows[row].period()
    })
}

impl Port {
    /// Whether the record is broken.
    pub fn is_broken(&self) -> bool {
        let Some(plan) = Plan::of(&self.table) else {
            return true;
        };
        let sound = plan.is_sound(&self.bounds)
            && self.clock <= LAST_CLOCK
            && plan.lanes[0].credit_ok(self.credit_a)
            && plan.lanes[1].credit_ok(self.credit_b)
            && self.instants_ok()
            && self.best_frames_ok()
            && self.row_frames_ok(&plan);
        !sound
    }

    /// The last instants of the numbers in use.
    fn instants_ok(&self) -> bool {
        let places = self.last[..self.table.count].iter().zip(&self.table.rows);
        let mut in_use = places.filter(|(_, row)| **row != Row::EMPTY);
        in_use.all(|(last, _)| last.is_none_or(|last| last <= self.clock))
    }

    /// The bytes left on the wire, and the best-effort frames.
    fn best_frames_ok(&self) -> bool {
        let largest = wire_size(self.table.best_payload);
        let frame_ok = |frame: &Frame| {
            frame.source == BEST && size_ok(frame, largest) && frame.taken <= self.clock
        };
        let wire_ok = match &self.wire {
            Wire::Free => true,
            Wire::Sending(frame, left) => {
                (1..=frame.size).contains(left) && (frame.source != BEST || frame_ok(frame))
            }
        };
        let waiting = self.queue_best.waiting();
        wire_ok && waiting.is_some_and(|waiting| waiting.iter().all(frame_ok))
    }

    /// The rows' frames.
    fn row_frames_ok(&self, plan: &Plan) -> bool {
        let (Some(a), Some(b)) = (self.queue_a.waiting(), self.queue_b.waiting()) else {
            return false;
        };
        let on_wire = match &self.wire {
            Wire::Sending(frame, _) if frame.source != BEST => Some(frame),
            _ => None,
        };
        if a.is_empty() && b.is_empty() && on_wire.is_none() {
            return true;
        }
        let mut notes = Notes {
            plan,
            clock: self.clock,
            counts: [0; MOST_ROWS],
            newest: [0; MOST_ROWS],
            rising: true,
        };
        on_wire.is_none_or(|frame| notes.note(frame, None))
            && a.iter().all(|frame| notes.note(frame, Some(Class::A)))
            && b.iter().all(|frame| notes.note(frame, Some(Class::B)))
            && notes.fit(&self.last)
            && (notes.rising || are_apart(plan, on_wire.into_iter().chain(a).chain(b)))
    }
}
