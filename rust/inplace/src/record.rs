//! The record. Its numbers may hold anything; every call begins with the check.

use simulator::port::{BEST_EFFORT, MOST_BEST};
use simulator::table::{MOST_IN_CLASS, MOST_ROWS, SECOND};
use simulator::Class;

/// The best-effort mark of a frame.
pub(crate) const BEST: u32 = BEST_EFFORT as u32;

/// The places of a class queue.
pub(crate) const CLASS_PLACES: usize = MOST_IN_CLASS as usize;

/// How often a row sends: a period in byte-times, or the samples of a frame and
/// their rate in Hz.
#[derive(Clone, Copy, Debug, PartialEq, Eq)]
pub enum Pace {
    Period(u32),
    Rated { rate: u32, samples: u8 },
}

/// A row. (It takes 16 bytes, as the library's does.)
#[derive(Clone, Copy, Debug, PartialEq, Eq)]
pub struct Row {
    pub class: Class,
    pub tagged: bool,
    pub payload: u16,
    pub pace: Pace,
    pub deadline: u32,
}

/// A table: the first `count` places are rows, or empty.
#[derive(Clone, Copy, Debug, PartialEq, Eq)]
pub struct Table {
    pub idle_a: u32,
    pub idle_b: u32,
    pub best_payload: u16,
    pub count: usize,
    pub rows: [Row; MOST_ROWS],
}

/// A frame: its row, or 32 for best effort; its wire size; the instant at which
/// it was taken.
#[derive(Clone, Copy, Debug, Default, PartialEq, Eq)]
pub struct Frame {
    pub source: u32,
    pub size: u32,
    pub taken: u64,
}

/// A queue: the first `count` places are frames that wait, the head first.
#[derive(Clone, Copy, Debug, PartialEq, Eq)]
pub struct Queue<const PLACES: usize> {
    pub count: usize,
    pub frames: [Frame; PLACES],
}

/// The wire: free, or a frame with its bytes left.
#[derive(Clone, Copy, Debug, PartialEq, Eq)]
pub enum Wire {
    Free,
    Sending(Frame, u32),
}

/// A port. It is compared place by place, those not in use too.
#[derive(Clone, Copy, Debug, PartialEq, Eq)]
pub struct Port {
    pub table: Table,
    pub clock: u64,
    pub credit_a: i64,
    pub credit_b: i64,
    pub queue_a: Queue<CLASS_PLACES>,
    pub queue_b: Queue<CLASS_PLACES>,
    pub queue_best: Queue<MOST_BEST>,
    /// Each row's bound, 0 at an empty number.
    pub bounds: [u64; MOST_ROWS],
    /// The instant of each row's last taken frame.
    pub last: [Option<u64>; MOST_ROWS],
    pub wire: Wire,
}

/// The wire size of a payload in a frame without a tag.
pub(crate) fn wire_size(payload: u16) -> u64 {
    42 + u64::from(payload).max(42)
}

/// A tag's bytes.
const TAG: u64 = 6;

impl Row {
    /// What stands at an empty number.
    pub const EMPTY: Row = Row {
        class: Class::A,
        tagged: false,
        payload: 0,
        pace: Pace::Period(0),
        deadline: 0,
    };

    /// C, the wire size.
    pub(crate) fn size(&self) -> u64 {
        self.size_of(self.payload)
    }

    /// The wire size of the row's frame with a payload: a tag takes the place of
    /// padding, as far as there is some.
    pub(crate) fn size_of(&self, payload: u16) -> u64 {
        let tag = if self.tagged { TAG } else { 0 };
        42 + (u64::from(payload) + tag).max(42)
    }

    /// P, the period of a row in range.
    pub(crate) fn period(&self) -> u64 {
        match self.pace {
            Pace::Period(period) => period.into(),
            Pace::Rated { rate, samples } => u64::from(samples) * SECOND / u64::from(rate),
        }
    }
}

impl Table {
    /// Whether a number below the row count is not empty. The count is no larger
    /// than there are places.
    pub(crate) fn is_in_use(&self, number: usize) -> bool {
        number < self.count && self.rows[number] != Row::EMPTY
    }

    /// The table with a row at a number not in use. Those between the row count
    /// and the number are empty.
    pub(crate) fn with(mut self, number: usize, row: Row) -> Table {
        if number >= self.count {
            self.rows[self.count..number].fill(Row::EMPTY);
            self.count = number + 1;
        }
        self.rows[number] = row;
        self
    }

    /// The table with a number emptied, and the row count as it is then.
    pub(crate) fn without(mut self, number: usize) -> Table {
        self.rows[number] = Row::EMPTY;
        let mut rows = self.rows[..self.count].iter();
        let highest = rows.rposition(|row| *row != Row::EMPTY);
        self.count = highest.map_or(0, |highest| highest + 1);
        self
    }
}

impl<const PLACES: usize> Queue<PLACES> {
    /// The frames that wait, none if there are fewer places.
    pub(crate) fn waiting(&self) -> Option<&[Frame]> {
        self.frames.get(..self.count)
    }

    pub(crate) fn push(&mut self, frame: Frame) {
        self.frames[self.count] = frame;
        self.count += 1;
    }

    pub(crate) fn pop(&mut self) -> Option<Frame> {
        let head = *self.waiting()?.first()?;
        self.frames.copy_within(1..self.count, 0);
        self.count -= 1;
        Some(head)
    }
}
