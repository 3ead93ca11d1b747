//! Tables: accepted ones of many kinds, and tables at the edges of the rules.

use std::iter;

use simulator::file::{default_payload, default_period};
use simulator::table::{
    accept, D, DEADLINE_RANGE, MOST_IDLE_TOGETHER, MOST_IN_CLASS, MOST_ROWS, PAYLOAD_RANGE,
    PERIOD_RANGE, RATE_RANGE, SAMPLES_RANGE, SECOND,
};
use simulator::{bounds, open, Class, Pace, Row, Table};

use crate::random::Random;

/// The longest period.
const LONGEST: u64 = *PERIOD_RANGE.end();

/// The longest deadline.
const LATEST: u64 = *DEADLINE_RANGE.end();

/// The largest payload.
const LARGEST: u64 = *PAYLOAD_RANGE.end();

/// More tables than have to be tried to find one that is accepted.
const MOST_PROPOSALS: usize = 100_000;

pub fn row(class: Class, payload: u64, period: u64, deadline: u64) -> Row {
    Row {
        class,
        tagged: false,
        payload,
        pace: Pace::Period(period),
        deadline,
    }
}

/// A row that names a sample rate, with its period as its deadline.
pub fn rated(class: Class, payload: u64, rate: u64, samples: u64) -> Row {
    let pace = Pace::Rated { rate, samples };
    Row {
        class,
        tagged: false,
        payload,
        pace,
        deadline: pace.period(),
    }
}

/// A row with a tag in its frames.
pub fn tagged(row: Row) -> Row {
    Row {
        tagged: true,
        ..row
    }
}

/// A table of any kind that opening accepts.
pub fn accepted(random: &mut Random) -> Table {
    within(random, LONGEST)
}

/// An accepted table whose periods are at most `longest`.
pub fn within(random: &mut Random, longest: u64) -> Table {
    let short = |table: &Table| table.rows.iter().all(|row| row.period() <= longest);
    first_accepted(|| proposed(random), short)
}

/// An accepted table, most of the time with periods so short that frames meet.
pub fn lively(random: &mut Random) -> Table {
    let longest = random.pick(&[50_000, 200_000, LONGEST]);
    within(random, longest)
}

/// An accepted table as joins and leaves make them.
pub fn patched(random: &mut Random) -> Table {
    let table = lively(random);
    scattered(random, table)
}

/// Rows of an accepted table, some of them and at any numbers, with empty ones
/// between them.
pub fn scattered(random: &mut Random, mut table: Table) -> Table {
    let mut rows = std::mem::take(&mut table.rows);
    random.shuffle(&mut rows);
    let mut numbers: Vec<usize> = (0..MOST_ROWS).collect();
    random.shuffle(&mut numbers);
    for (row, number) in rows.into_iter().zip(numbers) {
        let is_first = table.largest(row.class) == 0;
        if is_first || random.one_in(2) {
            table = table.with(number, row);
        }
    }
    table
}

/// A row to join an accepted table at a number that is not in use: most of the
/// time one that its slope has room for, else one at an edge of the rules.
pub fn joining(random: &mut Random, table: &Table, number: usize) -> Row {
    let in_use: Vec<&Row> = table.in_use().map(|(_, row)| row).collect();
    let beside = random.pick(&in_use);
    let payload = payload(random, beside.payload);
    let mut joining = row(beside.class, payload, LONGEST, LATEST);
    joining.tagged = random.one_in(3);
    let figures = table.figures(beside.class);
    let rest = figures.idle.saturating_sub(figures.shares).max(1);
    let least = (D * joining.size()).div_ceil(rest);
    let period = random.pick(&[least, 2 * least, 10 * least, 200_000]);
    joining.pace = paced(random, period.min(LONGEST));
    let mut enlarged = table.with(number, joining);
    if random.one_in(2) {
        change_row(random, &mut enlarged, number);
    }
    enlarged.rows[number]
}

/// An accepted table of 32 rows.
pub fn full(random: &mut Random) -> Table {
    first_accepted(|| proposed(random), |table| table.rows.len() == MOST_ROWS)
}

/// An accepted table in which a row may have several frames in the port, its
/// periods at most `longest`.
pub fn crowded(random: &mut Random, longest: u64) -> Table {
    let several = |table: &Table| most_of_any(table) > 1;
    let short = |table: &Table| table.rows.iter().all(|row| row.period() <= longest);
    first_accepted(
        || proposed_with(random, Periods::Short),
        |table| several(table) && short(table),
    )
}

/// The most frames that any row of an accepted table may have in the port.
fn most_of_any(table: &Table) -> u64 {
    let most = accept(table).map(|plan| plan.most);
    most.map_or(0, |most| most.into_iter().max().unwrap_or(0))
}

/// A table that opening refuses with 20.
pub fn overfull(random: &mut Random) -> Table {
    first(
        || proposed_with(random, Periods::Short),
        |table| open(table).is_err_and(|refusal| refusal.number == 20),
    )
}

/// The first of many proposals that opening accepts and that is as wanted.
fn first_accepted(propose: impl FnMut() -> Table, wanted: impl Fn(&Table) -> bool) -> Table {
    first(propose, |table| bounds(table).is_ok() && wanted(table))
}

/// The first of many proposals that is as wanted.
fn first(propose: impl FnMut() -> Table, wanted: impl Fn(&Table) -> bool) -> Table {
    let mut proposals = iter::repeat_with(propose).take(MOST_PROPOSALS);
    proposals
        .find(wanted)
        .expect("a proposal that is as wanted")
}

/// An accepted table in which most rows are of one class, of one size and
/// with a high slope: the part of its bounds that no traffic reaches is small.
pub fn tight(random: &mut Random, class: Class) -> Table {
    let propose = |random: &mut Random| {
        let most = random.between(20, 28);
        proposed_tight(random, class, most, Periods::Long)
    };
    first_accepted(|| propose(random), |_| true)
}

/// The same, with any count of rows and with periods so short that a row may
/// have several frames in the port.
pub fn tight_crowded(random: &mut Random, class: Class) -> Table {
    let propose = |random: &mut Random| {
        let most = random.between(1, 28);
        proposed_tight(random, class, most, Periods::Shortest)
    };
    first_accepted(|| propose(random), |table| most_of_any(table) > 1)
}

fn proposed_tight(random: &mut Random, class: Class, most: u64, periods: Periods) -> Table {
    let others = random.between(0, 4);
    let idle = random.between(500_000, 700_000);
    let slack = if others == 0 { 0 } else { 750_000 - idle };
    let (counts, idles) = match class {
        Class::A => ((most, others), (idle, slack)),
        Class::B => ((others, most), (slack, idle)),
    };
    let size = payload(random, LARGEST);
    let mut table = unfitted(random, counts, idles);
    let tagged = table.rows.iter().any(|row| row.tagged);
    for row in table.rows.iter_mut().filter(|row| row.class == class) {
        (row.payload, row.tagged) = (size, tagged);
    }
    fit(random, &mut table, periods);
    table
}

fn proposed(random: &mut Random) -> Table {
    let periods = random.pick(&[Periods::Stretched, Periods::Short]);
    proposed_with(random, periods)
}

fn proposed_with(random: &mut Random, periods: Periods) -> Table {
    let counts = counts(random);
    let idles = slopes(random, counts);
    let mut table = unfitted(random, counts, idles);
    if random.one_in(4) {
        let same = payload(random, LARGEST);
        table.rows.iter_mut().for_each(|row| row.payload = same);
    }
    fit(random, &mut table, periods);
    table
}

/// How the periods of a table are chosen.
#[derive(Clone, Copy)]
enum Periods {
    /// No shorter than a frame is in the port: a row has one of them there.
    Long,
    /// The same, some of them longer, up to the longest there is.
    Stretched,
    /// From the shortest that the slope lets pass on.
    Short,
    /// The shortest that the slope lets pass.
    Shortest,
}

impl Periods {
    /// A period of a row whose frames are in the port for `residence` at most,
    /// `least` being the shortest by its part of the slope.
    fn of(self, random: &mut Random, least: u64, residence: u64) -> u64 {
        let long = least.max(residence);
        let count = random.between(1, 8);
        match (self, random.below(16)) {
            (Periods::Stretched, 0) => LONGEST.max(long),
            (Periods::Stretched, 1..=4) => long + random.between(0, long),
            (Periods::Short, 0..=3) => long + random.between(0, long),
            (Periods::Short, 4..=7) => least,
            // The shortest for a count of frames, and the longest for one more.
            (Periods::Short, 8..=9) => least.max(residence.div_ceil(count)),
            (Periods::Short, 10..=11) => least.max((residence - 1) / count),
            (Periods::Short, _) => random.between(least, long),
            (Periods::Shortest, _) => least,
            (Periods::Long | Periods::Stretched, _) => long,
        }
    }
}

/// How many rows of A and of B.
fn counts(random: &mut Random) -> (u64, u64) {
    let some = random.between(1, 31);
    match random.below(10) {
        0 => (1, 0),
        1 => (0, 1),
        2 => (32, 0),
        3 => (0, 32),
        4 => (some, 0),
        5 => (0, some),
        6 => (some, 32 - some),
        _ => (random.between(1, 6), random.between(1, 6)),
    }
}

/// The slopes of A and of B.
fn slopes(random: &mut Random, counts: (u64, u64)) -> (u64, u64) {
    let together = match random.below(4) {
        0 => MOST_IDLE_TOGETHER,
        1 => random.between(100, 50_000),
        _ => random.between(50_000, MOST_IDLE_TOGETHER),
    };
    match counts {
        (_, 0) => (together, 0),
        (0, _) => (0, together),
        _ => {
            let a = random.between(1, together - 1);
            (a, together - a)
        }
    }
}

fn payload(random: &mut Random, most: u64) -> u64 {
    match random.below(4) {
        0 => most,
        1 => random.between(0, most.min(43)),
        _ => random.between(0, most),
    }
}

/// Rows in any order with payloads, and periods and deadlines of no meaning. In
/// half of the tables, those meant for AVB2, a third of them is tagged.
fn unfitted(random: &mut Random, counts: (u64, u64), idles: (u64, u64)) -> Table {
    let for_avb2 = random.one_in(2);
    let mut rows = Vec::new();
    for (class, count) in [(Class::A, counts.0), (Class::B, counts.1)] {
        for _ in 0..count {
            let untagged = row(class, payload(random, LARGEST), LONGEST, LONGEST);
            rows.push(Row {
                tagged: for_avb2 && random.one_in(3),
                ..untagged
            });
        }
    }
    random.shuffle(&mut rows);
    Table {
        idle_a: idles.0,
        idle_b: idles.1,
        best_payload: payload(random, LARGEST),
        rows,
    }
}

/// Periods by parts of the slope, and deadlines from the bound on.
fn fit(random: &mut Random, table: &mut Table, periods: Periods) {
    let figures = [table.figures(Class::A), table.figures(Class::B)];
    let weights: Vec<u64> = table.rows.iter().map(|_| random.between(1, 4)).collect();
    let total = |class| -> u64 {
        let rows = table.rows.iter().zip(&weights);
        rows.filter(|(row, _)| row.class == class)
            .map(|(_, weight)| weight)
            .sum()
    };
    let totals = [total(Class::A), total(Class::B)];
    for (row, weight) in table.rows.iter_mut().zip(weights) {
        let class = row.class as usize;
        let part = (figures[class].idle * weight / totals[class]).max(1);
        let bound = figures[class].bound(row.size());
        let least = (D * row.size()).div_ceil(part);
        let period = periods.of(random, least, figures[class].residence(row.size()));
        row.pace = paced(random, period);
        let late = row.period().max(bound);
        row.deadline = match random.below(8) {
            0 | 1 => bound,
            2 | 3 => late,
            4 => random.between(late, LATEST.max(late)),
            _ => random.between(bound, 2 * late),
        };
    }
}

/// A period, or at times a rate whose period is no shorter and not much longer.
fn paced(random: &mut Random, period: u64) -> Pace {
    if random.one_in(2) {
        return Pace::Period(period);
    }
    let pace = near_rate(random, period);
    if pace.period() > 2 * period {
        return Pace::Period(period);
    }
    pace
}

fn near_rate(random: &mut Random, period: u64) -> Pace {
    let (slowest, fastest) = RATE_RANGE.into_inner();
    let most = *SAMPLES_RANGE.end();
    let samples = |rate: u64| (period * rate).div_ceil(SECOND);
    if samples(slowest) > most {
        return Pace::Period(period);
    }
    let rate = random.pick(&[44_100, 48_000, 96_000, 192_000]);
    if random.one_in(2) && samples(rate) <= most {
        let samples = samples(rate);
        return Pace::Rated { rate, samples };
    }
    let samples = random.between(samples(slowest), samples(fastest).min(most));
    let rate = (samples * SECOND / period).min(fastest);
    Pace::Rated { rate, samples }
}

/// Gives some of the rows' values their defaults, which a file leaves out.
pub fn set_defaults(random: &mut Random, table: &mut Table) {
    for row in &mut table.rows {
        if random.one_in(3) {
            row.payload = default_payload(row.tagged);
        }
        if random.one_in(3) {
            let period = default_period(row.class);
            row.pace = match random.below(3) {
                // A rate with the same period is no default.
                0 => Pace::Rated {
                    rate: 48_000,
                    samples: period * 48_000 / SECOND,
                },
                _ => Pace::Period(period),
            };
            row.deadline = random.between(1, 2 * row.period());
        }
        if random.one_in(3) {
            row.deadline = row.period();
        }
    }
}

/// A table at an edge of the rules, on either side of it.
pub fn edge(random: &mut Random) -> Table {
    let mut table = accepted(random);
    for _ in 0..random.between(1, 2) {
        change(random, &mut table);
    }
    table
}

/// Moves one value to an edge.
pub fn change(random: &mut Random, table: &mut Table) {
    if table.rows.is_empty() {
        return;
    }
    let place = random.below(table.rows.len());
    let class = table.rows[place].class;
    let off = random.between(0, 1);
    match random.below(16) {
        0 => {
            let shares = shares(table, class);
            *idle(table, class) = shares.saturating_sub(off);
        }
        1 => *idle(table, class) = 0,
        2 => table.rows.retain(|row| row.class != class),
        3 => {
            let other = MOST_IDLE_TOGETHER.saturating_sub(table.idle(class));
            *idle(table, opposite(class)) = other + off;
        }
        4 => *idle(table, class) = random.pick(&[1, 750_000, 750_001, u64::from(u32::MAX)]),
        5 => table.best_payload = random.pick(&[0, 1500, 1501, 65_535]),
        6 => {
            let row = table.rows[place];
            table.rows.resize(random.pick(&[0, 1, 32, 33, 255]), row);
        }
        7 => table.rows.push(Row::EMPTY),
        _ => change_row(random, table, place),
    }
}

/// Moves one value of a row to an edge.
fn change_row(random: &mut Random, table: &mut Table, place: usize) {
    let off = random.between(0, 1);
    let class = table.rows[place].class;
    match random.below(9) {
        0 => late(table, place, off),
        1 => table.rows[place].class = opposite(class),
        2 => {
            let edges = [83, 84, 15_625, 31_250, LONGEST, LONGEST + 1];
            table.rows[place].pace = Pace::Period(random.pick(&edges));
        }
        3 => {
            let edges = [0, 36, 37, 42, 43, 1500, 1501, 65_535];
            table.rows[place].payload = random.pick(&edges);
        }
        4 => {
            let period = table.rows[place].period();
            let edges = [0, 1, period, period + 1, LATEST, LATEST + 1];
            table.rows[place].deadline = random.pick(&edges);
        }
        5 => table.rows[place].pace = rated_edge(random),
        6 => crowd(random, table, place, off),
        7 => table.rows[place].tagged ^= true,
        _ => table.rows[place] = Row::EMPTY,
    }
}

/// A rate and samples at an edge.
fn rated_edge(random: &mut Random) -> Pace {
    let rates = [0, 999, 1_000, 44_100, 48_000, 200_000, 200_001, 1 << 31];
    Pace::Rated {
        rate: random.pick(&rates),
        samples: random.pick(&[0, 1, 6, 12, 254, 255]),
    }
}

/// Makes a row's deadline its bound, or less by `off`.
pub fn late(table: &mut Table, place: usize, off: u64) {
    if let (Ok(plan), Some(_)) = (accept(table), table.row(place)) {
        table.rows[place].deadline = plan.bounds()[place] - off;
    }
}

/// Makes a row's period so short that the counts of its class sum to 64, or
/// more by `off`: the shortest such period, or the longest.
pub fn crowd(random: &mut Random, table: &mut Table, place: usize, off: u64) {
    let (Ok(plan), Some(&Row { class, .. })) = (accept(table), table.row(place)) else {
        return;
    };
    let others = table.in_use();
    let others = others.filter(|(other, row)| *other != place && row.class == class);
    let others: u64 = others.map(|(other, _)| plan.most[other]).sum();
    let (residence, count) = (plan.residences[place], MOST_IN_CLASS + off - others);
    let period = match random.below(2) {
        0 if count > 1 => (residence - 1) / (count - 1),
        _ => residence.div_ceil(count),
    };
    table.rows[place].pace = Pace::Period(period);
}

/// The sum of a class's shares, of the rows whose periods are not 0.
fn shares(table: &Table, class: Class) -> u64 {
    let rows = table.rows.iter();
    let of_class = rows.filter(|row| row.class == class && row.period() > 0);
    of_class.map(Row::share).sum()
}

fn idle(table: &mut Table, class: Class) -> &mut u64 {
    match class {
        Class::A => &mut table.idle_a,
        Class::B => &mut table.idle_b,
    }
}

fn opposite(class: Class) -> Class {
    match class {
        Class::A => Class::B,
        Class::B => Class::A,
    }
}
