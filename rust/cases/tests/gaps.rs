//! How often random records, lists and tables are about a frame's report and
//! about the two figures that are 12 apart: the bound and the residence.

use std::collections::BTreeMap;

use cases::driver::{left_on, Driver};
use cases::random::Random;
use cases::traffic::TRAFFIC;
use cases::{ports, tables};
use simulator::table::{accept, GAP};
use simulator::{broken, Frame, Mark, Port, Wire};

/// How often each number was seen.
type Counts = BTreeMap<u64, u32>;

fn all_often(counts: &Counts, mut numbers: impl Iterator<Item = u64>, least: u32) {
    let often = |number| counts.get(&number).is_some_and(|&count| count >= least);
    assert!(numbers.all(often), "{counts:?}");
}

/// The frames of rows in a port.
fn row_frames(port: &Port) -> impl Iterator<Item = (usize, &Frame)> {
    let on_wire = match &port.wire {
        Wire::Sending(frame, _) => Some(frame),
        Wire::Free => None,
    };
    let frames = port.queue_a.iter().chain(&port.queue_b).chain(on_wire);
    frames.filter_map(|frame| match frame.mark {
        Mark::Row(row) => Some((row, frame)),
        Mark::BestEffort => None,
    })
}

#[test]
fn made_up_records_are_about_the_report_and_both_figures() {
    let mut random = Random::new(15);
    let (mut lefts, mut younger) = (Counts::new(), Counts::new());
    for _ in 0..2000 {
        let table = tables::lively(&mut random);
        let port = ports::made_up(&mut random, table);
        assert_eq!(broken(&port), None);
        *lefts.entry(left_on(&port.wire)).or_default() += 1;
        let residences = accept(&port.table).unwrap().residences;
        for (row, frame) in row_frames(&port) {
            let age = port.clock - frame.instant;
            *younger.entry(residences[row] - age).or_default() += 1;
        }
    }
    all_often(&lefts, [1, 11, 12, 13, 14].into_iter(), 50);
    // Ages next to the residence and about the bound.
    all_often(&younger, [1, GAP - 1, GAP, GAP + 1].into_iter(), 50);
}

#[test]
fn lists_stop_at_each_byte_of_the_gap() {
    for traffic in TRAFFIC {
        let mut random = Random::new(16);
        let mut lefts = Counts::new();
        for _ in 0..200 {
            let mut driver = Driver::new(tables::lively(&mut random));
            traffic(&mut random, &mut driver, 300);
            for left in driver.lefts {
                *lefts.entry(left).or_default() += 1;
            }
        }
        all_often(&lefts, 0..=GAP + 1, 50);
    }
}

#[test]
fn tables_tell_the_figures_apart() {
    let mut random = Random::new(17);
    let (mut counts, mut deadlines) = (0, 0);
    for _ in 0..2000 {
        let table = tables::lively(&mut random);
        let plan = accept(&table).unwrap();
        for (place, row) in table.rows.iter().enumerate() {
            let by_bound = plan.bounds()[place].div_ceil(row.period());
            counts += u32::from(plan.most[place] != by_bound);
            deadlines += u32::from(row.deadline < plan.residences[place]);
        }
    }
    println!("{counts} rows with other counts, {deadlines} with a deadline below the residence");
    assert!(counts > 100 && deadlines > 1000);
}
