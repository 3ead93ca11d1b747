//! Ports about the report of a frame: with 14 bytes left of the frame on the
//! wire, 13, 12 and so on down to 1, led to by lists and made up, and gone on
//! with from there.

use cases::driver::Driver;
use cases::random::Random;
use cases::tables::row;
use cases::{crowds, rates, specimen, tables, tags};
use differential::readable::port_of;
use ithumeco::{call_bytes, Answer, Record, ANSWER_SIZE, RECORD_SIZE};
use simulator::port::{LEAST_SIZE, MOST_ADVANCE};
use simulator::table::{accept, GAP};
use simulator::{broken, Call, Class, Frame, Mark, Port, Table, Wire};

use crate::bench::Bench;

/// The most bytes left.
const MOST_LEFT: u64 = GAP + 2;

/// The most advances ahead of a leave.
const SETTLING: usize = 10;

pub fn run(bench: &mut Bench) {
    let mut random = Random::new(10);
    let fixed = [specimen::table(), rates::table(), tags::table()];
    for table in fixed.into_iter().chain(crowds::all()) {
        on_table(bench, &table);
    }
    for _ in 0..bench.times(20) {
        let table = tables::within(&mut random, 200_000);
        on_table(bench, &table);
        if random.one_in(4) {
            aged(bench, &tables::scattered(&mut random, table));
        }
    }
}

fn on_table(bench: &mut Bench, table: &Table) {
    for driver in lists(table) {
        go_on_with_bytes(bench, &driver);
        go_on_in_lists(bench, &driver);
    }
    aged(bench, table);
}

/// What is offered: a row's largest frame, or best effort's.
type Source = Option<usize>;

fn offer(driver: &mut Driver, source: Source) {
    match source {
        Some(row) => driver.offer(row),
        None => driver.offer_best(),
    }
}

/// The first and the last row of each class, and best effort.
fn sources(table: &Table) -> Vec<Source> {
    let of = |class| {
        let rows = table.in_use().filter(move |(_, row)| row.class == class);
        rows.map(|(number, _)| number)
    };
    let of_a = [of(Class::A).next(), of(Class::A).next_back()];
    let of_b = [of(Class::B).next(), of(Class::B).next_back()];
    let mut rows: Vec<usize> = of_a.into_iter().chain(of_b).flatten().collect();
    rows.dedup();
    rows.into_iter().map(Some).chain([None]).collect()
}

/// The lists on a table's port: a frame of each kind on the wire with each count
/// of bytes left, and behind it nothing, one frame, or one of each kind.
pub fn lists(table: &Table) -> Vec<Driver> {
    let sources = sources(table);
    let mut lists = Vec::new();
    for &first in &sources {
        let others = sources
            .iter()
            .filter(|&&other| other.is_none() || other != first);
        let others: Vec<Source> = others.copied().collect();
        let alone = others.iter().map(|&other| vec![other]);
        for behind in alone.chain([vec![], others.clone()]) {
            for left in 1..=MOST_LEFT {
                let mut driver = Driver::new(table.clone());
                offer(&mut driver, first);
                driver.make(Call::Advance(1));
                behind.iter().for_each(|&other| offer(&mut driver, other));
                while driver.left() > left {
                    driver.make(Call::Advance(driver.left() - left));
                }
                assert_eq!(driver.left(), left);
                lists.push(driver);
            }
        }
    }
    lists
}

/// Calls on a list's port: advances about the report, the end and the report of
/// the smallest frame behind it, offers, the join of a small row and a leave.
fn next_calls(driver: &Driver) -> impl Iterator<Item = Call> {
    let (left, rows) = (driver.left(), &driver.port.table.rows);
    let report = left.saturating_sub(GAP);
    let edges = [report, left, left + LEAST_SIZE - GAP];
    let about = edges
        .into_iter()
        .flat_map(|n| [n.saturating_sub(1), n, n + 1]);
    let counts = about.chain([0, 5, 700, MOST_ADVANCE]);
    let offers = [Call::Offer(0, 0), Call::OfferBest(0)];
    let small = row(rows[0].class, 0, 1_000_000_000, 1_000_000_000);
    let patches = [Call::Join(31, small), Call::Leave(0)];
    counts.map(Call::Advance).chain(offers).chain(patches)
}

/// A list made one by one on a record's bytes; from there each next call, and
/// advances behind it.
fn go_on_with_bytes(bench: &mut Bench, driver: &Driver) {
    let mut record = [0; RECORD_SIZE];
    let file = bench.file(&driver.opened);
    assert_eq!(ithumeco::open(&file, &mut record), Ok(()));
    for (&call, &answer) in driver.calls.iter().zip(&driver.answers) {
        let said = bench.call(&mut record, &call_bytes(call), ANSWER_SIZE);
        assert_eq!(said, Some(Answer::from(answer)));
    }
    assert!(port_of(&Record::from_bytes(&record)).as_ref() == Some(&driver.port));
    for call in next_calls(driver) {
        let mut saved = record;
        bench.call(&mut saved, &call_bytes(call), ANSWER_SIZE);
        for n in [1, GAP, 2000] {
            bench.call(&mut saved, &call_bytes(Call::Advance(n)), ANSWER_SIZE);
        }
    }
}

/// The list with each next call, played until no frame of a row is left. A row
/// that has joined then leaves, if the credits are soon back.
fn go_on_in_lists(bench: &mut Bench, driver: &Driver) {
    for call in next_calls(driver) {
        let mut driver = driver.clone();
        driver.make(call);
        driver.drain();
        if let Call::Join(number, _) = call {
            driver.settle(SETTLING);
            driver.make(Call::Leave(number));
        }
        bench.replay_played(&driver, 0);
    }
}

/// Records with a row's frame on the wire, of ages about the bound and about
/// the residence: sound below the residence, whatever is left of the frame.
fn aged(bench: &mut Bench, table: &Table) {
    let plan = accept(table).expect("an accepted table");
    for row in sources(table).into_iter().flatten() {
        let residence = plan.residences[row];
        let about_bound = residence - GAP - 2..residence - GAP + 2;
        for age in about_bound.chain(residence - 2..residence + 2) {
            for left in (1..=MOST_LEFT).chain([LEAST_SIZE]) {
                let mut port = Port::fresh(table.clone());
                port.clock = 1 << 32;
                let frame = Frame {
                    mark: Mark::Row(row),
                    size: LEAST_SIZE,
                    instant: port.clock - age,
                };
                port.last[row] = Some(frame.instant);
                port.wire = Wire::Sending(frame, left);
                assert_eq!(broken(&port).is_none(), age < residence);
                advances(bench, &port);
            }
        }
    }
}

/// A record, sound or not, and advances on it.
fn advances(bench: &mut Bench, port: &Port) {
    for n in [0, 1, 2, GAP - 1, GAP, 200] {
        let mut record = Record::from(port).bytes();
        for n in [n, 1, MOST_LEFT] {
            bench.call(&mut record, &call_bytes(Call::Advance(n)), ANSWER_SIZE);
        }
    }
}
