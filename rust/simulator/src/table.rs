//! A table, its bounds, and opening it.

use std::ops::RangeInclusive;

use crate::refusal::{refuse, Refusal};

/// "With D = 1,000,000": the port rate in millionths.
pub const D: u64 = 1_000_000;

/// "1 to 32 rows"
pub const MOST_ROWS: usize = 32;

/// "I of A and of B (0 to 750,000 each)"
pub const IDLE_RANGE: RangeInclusive<u64> = 0..=750_000;

/// "A payload of p bytes, 0 to 1500", "the best-effort payload (0 to 1500)"
pub const PAYLOAD_RANGE: RangeInclusive<u64> = 0..=1500;

/// "period P (84 to 1,000,000,000 byte-times)"
pub const PERIOD_RANGE: RangeInclusive<u64> = 84..=1_000_000_000;

/// C-12: "A deadline may now be 1 to 1,000,000,000, whatever the period"
pub const DEADLINE_RANGE: RangeInclusive<u64> = 1..=1_000_000_000;

/// C-11: "rate u32 (1,000 to 200,000 Hz)"
pub const RATE_RANGE: RangeInclusive<u64> = 1_000..=200_000;

/// C-11: "samples per frame u8 (1 to 255)"
pub const SAMPLES_RANGE: RangeInclusive<u64> = 1..=255;

/// The byte-times of a second: "samples × 125,000,000 / rate"
pub const SECOND: u64 = 125_000_000;

/// "IA + IB ≤ 750,000"
pub const MOST_IDLE_TOGETHER: u64 = 750_000;

/// C-12: "each class queue has space for 64"
pub const MOST_IN_CLASS: u64 = 64;

/// C-13: "A frame is now reported ended when 12 bytes of it are left"
pub const GAP: u64 = 12;

/// The place of a refused header value at opening.
pub const HEADER_PLACE: usize = 32;

/// One of the two shaped classes.
#[derive(Clone, Copy, Debug, PartialEq, Eq)]
pub enum Class {
    A,
    B,
}

/// C-11: "The table remembers which way the period was given."
#[derive(Clone, Copy, Debug, PartialEq, Eq)]
pub enum Pace {
    /// A period in byte-times.
    Period(u64),
    /// A sample rate in Hz, and the samples of a frame.
    Rated { rate: u64, samples: u64 },
}

impl Pace {
    /// "period P (84 to 1,000,000,000 byte-times)", or by C-11 a rate and
    /// samples in their ranges.
    pub fn in_range(&self) -> bool {
        match self {
            Pace::Period(period) => PERIOD_RANGE.contains(period),
            Pace::Rated { rate, samples } => {
                RATE_RANGE.contains(rate) && SAMPLES_RANGE.contains(samples)
            }
        }
    }

    /// C-11: "Its period is samples × 125,000,000 / rate, rounded down". Values
    /// out of range have one too: 0 at a rate of 0.
    pub fn period(&self) -> u64 {
        match *self {
            Pace::Period(period) => period,
            Pace::Rated { rate, samples } => {
                let of_one_hertz = samples.saturating_mul(SECOND);
                of_one_hertz.checked_div(rate).unwrap_or(0)
            }
        }
    }
}

/// "A row has class A or B, payload, period P and deadline." C-16: it may be
/// tagged. The numbers may hold anything until the table is opened.
#[derive(Clone, Copy, Debug, PartialEq, Eq)]
pub struct Row {
    pub class: Class,
    /// C-16: whether its frames have "the 6-byte R-TAG".
    pub tagged: bool,
    pub payload: u64,
    pub pace: Pace,
    pub deadline: u64,
}

/// "A table has I of A and of B, the best-effort payload and 1 to 32 rows,
/// numbered from 0." The numbers and the row count may hold anything until
/// the table is opened. By C-15 a number below the row count may be empty.
#[derive(Clone, Debug, PartialEq, Eq)]
pub struct Table {
    pub idle_a: u64,
    pub idle_b: u64,
    pub best_payload: u64,
    pub rows: Vec<Row>,
}

/// "A payload of p bytes, 0 to 1500, has wire size 42 + max(42, p)." C-16: in a
/// frame with a tag it is another.
pub fn wire_size(payload: u64) -> u64 {
    42 + payload.max(42)
}

/// C-16: "A tagged row's wire size is 48 + max(36, payload), so 84 to 1548."
pub fn tagged_size(payload: u64) -> u64 {
    48 + payload.max(36)
}

impl Row {
    /// What stands at an empty number.
    pub const EMPTY: Row = Row {
        class: Class::A,
        tagged: false,
        payload: 0,
        pace: Pace::Period(0),
        deadline: 0,
    };

    /// Whether the values are in their ranges, "in a row payload, period,
    /// deadline". C-11: "Opening checks rate and samples under 5 where the
    /// period is checked." C-12: the deadline's range is the same "whatever the
    /// period". An empty row's deadline is out of range.
    pub fn in_range(&self) -> bool {
        PAYLOAD_RANGE.contains(&self.payload)
            && self.pace.in_range()
            && DEADLINE_RANGE.contains(&self.deadline)
    }

    /// "C is a row's wire size."
    pub fn size(&self) -> u64 {
        self.size_of(self.payload)
    }

    /// The wire size of the row's frame with a payload. C-16: "Every place that
    /// uses a stream's wire size takes it from its row."
    pub fn size_of(&self, payload: u64) -> u64 {
        if self.tagged {
            tagged_size(payload)
        } else {
            wire_size(payload)
        }
    }

    /// P. C-11: "a stream is early, and is promised its delay, by its rounded
    /// period"
    pub fn period(&self) -> u64 {
        self.pace.period()
    }

    /// "A row's share is D × C / P, rounded up." The row's values are in range.
    pub fn share(&self) -> u64 {
        (D * self.size()).div_ceil(self.period())
    }
}

/// What the slopes and rows of one class come to.
#[derive(Clone, Copy, Debug, PartialEq, Eq)]
pub struct Figures {
    /// I
    pub idle: u64,
    /// S
    pub send: u64,
    /// L
    pub largest: u64,
    /// The sum of C over the class.
    pub sum: u64,
    /// The sum of the shares of the class.
    pub shares: u64,
    /// H
    pub blocking: u64,
}

impl Figures {
    /// How long a row's frame is in the port at most: "C + H + (D × (sum of C
    /// over its class − C) + S × L) / I, the quotient rounded down, S, L and I
    /// being its class's." It was the row's bound until C-13, which calls it
    /// "the old figure".
    pub fn residence(&self, size: u64) -> u64 {
        size + self.blocking + (D * (self.sum - size) + self.send * self.largest) / self.idle
    }

    /// C-13: "A row's bound becomes 12 less"
    pub fn bound(&self, size: u64) -> u64 {
        self.residence(size) - GAP
    }

    /// C-12: "A row may have as many frames in the port as its bound divided
    /// by its period, rounded up". C-13: "The frame count of C-12 and the age
    /// in a broken record use the old figure." The row is one of the class, its
    /// values in range.
    pub fn most_of(&self, row: &Row) -> u64 {
        self.residence(row.size()).div_ceil(row.period())
    }

    /// The range of the class's credit: "−S × L to I × H".
    pub fn credit_range(&self) -> RangeInclusive<i64> {
        let lowest = -((self.send * self.largest) as i64);
        let highest = (self.idle * self.blocking) as i64;
        lowest..=highest
    }
}

/// Which numbers are in use.
impl Table {
    /// The row at a number in use: one below the row count that is not empty.
    pub fn row(&self, number: usize) -> Option<&Row> {
        self.rows.get(number).filter(|row| **row != Row::EMPTY)
    }

    /// The numbers in use with their rows. C-15: "An empty number counts in no
    /// formula".
    pub fn in_use(&self) -> impl DoubleEndedIterator<Item = (usize, &Row)> {
        (0..self.rows.len()).filter_map(|number| Some((number, self.row(number)?)))
    }

    /// C-15: "the row count is one above the highest number in use"
    pub fn count_in_use(&self) -> usize {
        let highest = self.in_use().next_back();
        highest.map_or(0, |(number, _)| number + 1)
    }

    /// The table with a row at a number not in use. Those between the row count
    /// and the number are empty.
    pub fn with(&self, number: usize, row: Row) -> Table {
        let mut table = self.clone();
        let count = table.rows.len().max(number + 1);
        table.rows.resize(count, Row::EMPTY);
        table.rows[number] = row;
        table
    }

    /// The table with a number emptied, and the row count as it is then.
    pub fn without(&self, number: usize) -> Table {
        let mut table = self.clone();
        table.rows[number] = Row::EMPTY;
        table.rows.truncate(table.count_in_use());
        table
    }
}

/// The questions about a table whose row count and values are in range.
impl Table {
    fn of(&self, class: Class) -> impl Iterator<Item = &Row> {
        let rows = self.in_use().map(|(_, row)| row);
        rows.filter(move |row| row.class == class)
    }

    /// The idle slope I of a class.
    pub fn idle(&self, class: Class) -> u64 {
        match class {
            Class::A => self.idle_a,
            Class::B => self.idle_b,
        }
    }

    /// "its send slope is S = D − I"
    pub fn send(&self, class: Class) -> u64 {
        D - self.idle(class)
    }

    /// "LA, LB are the largest C in A and in B, 0 for an empty class"
    pub fn largest(&self, class: Class) -> u64 {
        self.of(class).map(Row::size).max().unwrap_or(0)
    }

    /// "LC is the best-effort wire size." Best effort has no tag.
    pub fn best_size(&self) -> u64 {
        wire_size(self.best_payload)
    }

    /// Blocking H.
    pub fn blocking(&self, class: Class) -> u64 {
        let (la, lb, lc) = (
            self.largest(Class::A),
            self.largest(Class::B),
            self.best_size(),
        );
        match class {
            // "class A: max(LB, LC)"
            Class::A => lb.max(lc),
            // "class B: LA + (max(D × LC, IA × LB) / SA, rounded up), where
            // IA, SA are A's slopes"
            Class::B => {
                let (ia, sa) = (self.idle(Class::A), self.send(Class::A));
                la + (D * lc).max(ia * lb).div_ceil(sa)
            }
        }
    }

    /// All figures of a class.
    pub fn figures(&self, class: Class) -> Figures {
        Figures {
            idle: self.idle(class),
            send: self.send(class),
            largest: self.largest(class),
            sum: self.of(class).map(Row::size).sum(),
            shares: self.of(class).map(Row::share).sum(),
            blocking: self.blocking(class),
        }
    }
}

/// The row count and the header's values.
fn check_header(table: &Table) -> Result<(), Refusal> {
    // "3, row count not 1 to 32."
    if !(1..=MOST_ROWS).contains(&table.rows.len()) {
        return refuse(3, 0);
    }
    // "5, a value out of range, place its row, or 32 for a header value (header
    // first ...)"
    if !IDLE_RANGE.contains(&table.idle_a)
        || !IDLE_RANGE.contains(&table.idle_b)
        || !PAYLOAD_RANGE.contains(&table.best_payload)
    {
        return refuse(5, HEADER_PLACE);
    }
    Ok(())
}

/// Refusals 3 and 5, which opening and writing share. C-15: "Files and openings
/// still have no empty numbers: one handed in to be opened, joined or written
/// is 5, place its row."
pub fn check_ranges(table: &Table) -> Result<(), Refusal> {
    check_header(table)?;
    let wrong = table.rows.iter().position(|row| !row.in_range());
    wrong.map_or(Ok(()), |place| refuse(5, place))
}

/// "8, the slope rules above broken": "a class's I is 0 exactly if it has no
/// row, IA + IB ≤ 750,000"
pub fn check_slopes(table: &Table) -> Result<(), Refusal> {
    let wrong = |class| (table.idle(class) == 0) != table.of(class).next().is_none();
    if wrong(Class::A) || wrong(Class::B) || table.idle_a + table.idle_b > MOST_IDLE_TOGETHER {
        return refuse(8, 0);
    }
    Ok(())
}

/// What an accepted table comes to.
#[derive(Clone, Copy, Debug, PartialEq, Eq)]
pub struct Accepted {
    pub a: Figures,
    pub b: Figures,
    /// How long a frame of each row is in the port at most, 0 at each number
    /// that is not in use.
    pub residences: [u64; MOST_ROWS],
    /// How many frames each row may have in the port, in the same way.
    pub most: [u64; MOST_ROWS],
}

impl Accepted {
    /// The rows' bounds, in the same way.
    pub fn bounds(&self) -> [u64; MOST_ROWS] {
        // C-13: "A row's bound becomes 12 less"
        self.residences
            .map(|residence| residence.saturating_sub(GAP))
    }
}

/// Opening a table.
pub fn open(table: &Table) -> Result<(), Refusal> {
    opening(table).map(|_| ())
}

/// "When bounds are asked for, ... the answer holds 32 bounds, 0 in each place
/// behind the last row." It is refused as opening is.
pub fn bounds(table: &Table) -> Result<[u64; MOST_ROWS], Refusal> {
    opening(table).map(|accepted| accepted.bounds())
}

/// The checks of "Opening a table (also asking for bounds)".
fn opening(table: &Table) -> Result<Accepted, Refusal> {
    check_ranges(table)?;
    accept(table)
}

/// "A table is accepted when ...": the same checks, but an empty number passes.
pub fn accept(table: &Table) -> Result<Accepted, Refusal> {
    check_header(table)?;
    if let Some((place, _)) = table.in_use().find(|(_, row)| !row.in_range()) {
        return refuse(5, place);
    }
    check_slopes(table)?;
    let a = table.figures(Class::A);
    let b = table.figures(Class::B);
    // "9, shares above I, place 0 for A, 1 for B."
    if a.shares > a.idle {
        return refuse(9, 0);
    }
    if b.shares > b.idle {
        return refuse(9, 1);
    }
    // "10, a bound above its deadline, place the lowest such row." C-13: "10
    // compares the new figure".
    let mut residences = [0; MOST_ROWS];
    let mut most = [0; MOST_ROWS];
    let mut in_class = [0, 0];
    for (place, row) in table.in_use() {
        let (class, number) = match row.class {
            Class::A => (&a, 0),
            Class::B => (&b, 1),
        };
        if class.bound(row.size()) > row.deadline {
            return refuse(10, place);
        }
        residences[place] = class.residence(row.size());
        most[place] = class.most_of(row);
        in_class[number] += most[place];
    }
    // C-12: "20, at opening, after 10, those counts sum above 64 in a class,
    // place 0 for A, 1 for B; such a table isn't accepted."
    if let Some(place) = in_class.iter().position(|&sum| sum > MOST_IN_CLASS) {
        return refuse(20, place);
    }
    Ok(Accepted {
        a,
        b,
        residences,
        most,
    })
}
