//! Lists of calls: any at all, dense ones, and dense ones in which rows come and
//! go.

use simulator::port::{LEAST_SIZE, MOST_ADVANCE, MOST_BEST};
use simulator::table::{GAP, MOST_ROWS};
use simulator::{Call, Row, Table};

use crate::driver::Driver;
use crate::random::Random;
use crate::tables;

/// Any call on the port of an accepted table, values out of range among them,
/// where the wire has so many bytes left.
pub fn any_call(random: &mut Random, table: &Table, left: u64) -> Call {
    match random.below(8) {
        0 => any_patch(random, table),
        _ => any_line(random, table, left),
    }
}

/// The same, of the calls that a line of `portrun` states.
pub fn any_line(random: &mut Random, table: &Table, left: u64) -> Call {
    match random.below(8) {
        0..=2 => any_offer(random, table),
        3 => Call::OfferBest(any_payload(random, table.best_payload)),
        _ => Call::Advance(any_count(random, left)),
    }
}

fn any_offer(random: &mut Random, table: &Table) -> Call {
    let rows = table.rows.len();
    if random.one_in(8) {
        let edges = [rows as u64, 31, 32, 33, 255, 1 << 32, u64::MAX];
        return Call::Offer(random.pick(&edges), random.between(0, 1600));
    }
    let row = random.below(rows);
    let payload = any_payload(random, table.rows[row].payload);
    Call::Offer(row as u64, payload)
}

/// A join, most of the time at a number that is not in use, or a leave.
pub fn any_patch(random: &mut Random, table: &Table) -> Call {
    let edges = [table.rows.len(), MOST_ROWS - 1, MOST_ROWS, 255, usize::MAX];
    let (edge, below) = (random.pick(&edges), random.below(table.rows.len()));
    if random.one_in(3) {
        let number = random.pick(&[below, below, below, edge]);
        return Call::Leave(number as u64);
    }
    let number = match random.below(8) {
        0 => edge,
        1 => below,
        _ => any_unused(random, table).unwrap_or(MOST_ROWS),
    };
    let row = tables::joining(random, table, number.min(MOST_ROWS - 1));
    Call::Join(number as u64, row)
}

/// A number that is not in use, if there is one.
fn any_unused(random: &mut Random, table: &Table) -> Option<usize> {
    let unused = (0..MOST_ROWS).filter(|&number| table.row(number).is_none());
    let unused: Vec<usize> = unused.collect();
    (!unused.is_empty()).then(|| random.pick(&unused))
}

fn any_payload(random: &mut Random, most: u64) -> u64 {
    match random.below(8) {
        0 => most + 1,
        1 => random.pick(&[0, 36, 37, 42, 43, 1501, 65_536, 1 << 32, u64::MAX]),
        2 => random.between(0, most),
        _ => most,
    }
}

fn any_count(random: &mut Random, left: u64) -> u64 {
    match random.below(16) {
        0 => random.pick(&[0, 1, MOST_ADVANCE, MOST_ADVANCE + 1, 1 << 32, u64::MAX]),
        1 => random.between(0, MOST_ADVANCE),
        2..=5 => gap_count(random, left),
        _ => random.between(0, 3000),
    }
}

/// Counts about the report of the frame on the wire and about its end; where it
/// is reported, also those that stop in its gap, and on a free wire those of a
/// smallest frame that is about to begin.
pub fn gap_count(random: &mut Random, left: u64) -> u64 {
    let left = match left {
        0 => LEAST_SIZE,
        _ => left,
    };
    if random.one_in(2) && left <= GAP {
        return random.between(0, left);
    }
    let about = random.pick(&[left, left.saturating_sub(GAP)]);
    let more = about.saturating_add(random.between(0, 2));
    more.saturating_sub(1)
}

/// Ways to make up a list of about a count of calls.
pub const TRAFFIC: [fn(&mut Random, &mut Driver, usize); 3] =
    [random_calls, dense_calls, patched_calls];

/// Those in which every call has a line of `portrun`.
pub const LINES: [fn(&mut Random, &mut Driver, usize); 2] = [random_lines, dense_calls];

/// Makes a count of calls, any at all.
pub fn random_calls(random: &mut Random, driver: &mut Driver, count: usize) {
    make_each(random, driver, count, any_call);
}

/// Makes a count of calls, any that have a line.
pub fn random_lines(random: &mut Random, driver: &mut Driver, count: usize) {
    make_each(random, driver, count, any_line);
}

fn make_each(
    random: &mut Random,
    driver: &mut Driver,
    count: usize,
    any: fn(&mut Random, &Table, u64) -> Call,
) {
    for _ in 0..count {
        let call = any(random, &driver.port.table, driver.left());
        driver.make(call);
    }
}

/// Makes at least a count of calls: best effort always full and every row
/// offered as soon as it may be, after a first wait of its own.
pub fn dense_calls(random: &mut Random, driver: &mut Driver, count: usize) {
    let end = driver.calls.len() + count;
    let dense = Dense::begin(random, driver);
    while driver.calls.len() < end {
        dense.round(random, driver);
    }
}

/// The most advances ahead of a leave: where a slope is small, a credit climbs for
/// more time than a list has.
const MOST_SETTLING: usize = 40;

/// Makes at least a count of calls: dense traffic in which rows come and go.
/// Some leave when the port has settled, and then join again one by one, while
/// frames wait and at any numbers.
pub fn patched_calls(random: &mut Random, driver: &mut Driver, count: usize) {
    let end = driver.calls.len() + count;
    let mut away = Vec::new();
    while driver.calls.len() < end {
        driver.settle(MOST_SETTLING);
        leave_some(random, driver, &mut away);
        let dense = Dense::begin(random, driver);
        for _ in 0..random.between(1, 30) {
            match random.below(8) {
                0..=3 => join_one(random, driver, &mut away),
                4 => driver.make(any_patch(random, &driver.port.table)),
                _ => (),
            }
            dense.round(random, driver);
        }
    }
}

/// Some of the rows leave, in any order.
fn leave_some(random: &mut Random, driver: &mut Driver, away: &mut Vec<Row>) {
    let mut numbers = driver.numbers();
    random.shuffle(&mut numbers);
    numbers.truncate(random.below(numbers.len() + 1));
    for number in numbers {
        let row = driver.port.table.rows[number];
        driver.make(Call::Leave(number as u64));
        if driver.taken() {
            away.push(row);
        }
    }
}

/// One of the rows that are away joins again, if there is a number for it.
fn join_one(random: &mut Random, driver: &mut Driver, away: &mut Vec<Row>) {
    random.shuffle(away);
    let number = any_unused(random, &driver.port.table);
    let (Some(number), Some(row)) = (number, away.pop()) else {
        return;
    };
    driver.make(Call::Join(number as u64, row));
    if !driver.taken() {
        away.push(row);
    }
}

struct Dense {
    /// The instant from which on each row is offered to. One that joins later is
    /// at once.
    first: Vec<u64>,
    /// Whether rows are offered to only when no frame of a row waits.
    patient: bool,
}

impl Dense {
    fn begin(random: &mut Random, driver: &mut Driver) -> Dense {
        if random.one_in(2) {
            // A full best-effort frame begins one byte-time ahead of all rows.
            driver.offer_best();
            driver.make(Call::Advance(1));
        }
        let start = driver.port.clock;
        let widest = random.pick(&[0, 0, 100, 5000, 50_000]);
        let rows = &driver.port.table.rows;
        Dense {
            first: rows
                .iter()
                .map(|_| start + random.between(0, widest))
                .collect(),
            patient: random.one_in(4),
        }
    }

    /// Offers all that may be offered, and at times anything else, and advances.
    fn round(&self, random: &mut Random, driver: &mut Driver) {
        while driver.port.queue_best.len() < MOST_BEST {
            driver.offer_best();
        }
        if random.one_in(10) {
            let call = any_line(random, &driver.port.table, driver.left());
            driver.make(call);
        }
        if !(self.patient && driver.waits()) {
            self.offer_all(random, driver);
        }
        let n = match random.below(10) {
            0 => any_count(random, driver.left()),
            1 => gap_count(random, driver.left()),
            _ => self.wait(driver).clamp(1, MOST_ADVANCE),
        };
        driver.make(Call::Advance(n));
    }

    /// How long until a row is to be offered to.
    fn wait_of(&self, driver: &Driver, row: usize) -> u64 {
        let first = self.first.get(row).copied().unwrap_or(0);
        let first = first.saturating_sub(driver.port.clock);
        driver.wait(row).max(first)
    }

    /// How long until any row is.
    fn wait(&self, driver: &Driver) -> u64 {
        let rows = driver.numbers().into_iter();
        let waits = rows.map(|row| self.wait_of(driver, row));
        waits.min().unwrap_or(0)
    }

    /// Offers to every row that may be offered to, from any row on; at times
    /// less than the largest frame.
    fn offer_all(&self, random: &mut Random, driver: &mut Driver) {
        let mut rows = driver.numbers();
        let start = random.below(rows.len());
        rows.rotate_left(start);
        for row in rows {
            if self.wait_of(driver, row) > 0 {
                continue;
            }
            if random.one_in(8) {
                let most = driver.port.table.rows[row].payload;
                driver.make(Call::Offer(row as u64, random.between(0, most)));
            } else {
                driver.offer(row);
            }
        }
    }
}
