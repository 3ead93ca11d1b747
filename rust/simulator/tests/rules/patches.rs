//! C-15: rows that join and leave, numbers in use and empty ones, and the bounds
//! that a port keeps.

use crate::avb1::write;
use crate::frames::{ended, frame, none};
use crate::refusals::{refusal, refused_open};
use cases::crowds;
use cases::specimen::{table, FOURTH};
use cases::tables::{rated, row, tagged};
use simulator::table::accept;
use simulator::{bounds, broken, open, Call, Class, Pace, Port, Row, Table, Wire, TAKEN};

fn taken(port: &mut Port, call: Call) {
    assert_eq!(port.make(call), Ok(TAKEN), "{call}");
}

/// A refusal changes nothing, also in the places that belong to no part.
fn refused(port: &mut Port, call: Call, number: u8, place: u64) {
    let before = port.clone();
    assert_eq!(port.make(call), Err(refusal(number, place)), "{call}");
    assert_eq!(*port, before, "{call}");
    assert_eq!((&port.last, port.bounds), (&before.last, before.bounds));
}

/// The rows of a port and its bounds, as far as the row count goes.
fn sheet(port: &Port) -> (&[Row], &[u64]) {
    let rows = &port.table.rows;
    (rows, &port.bounds[..rows.len()])
}

/// The specimen's port with the fourth row.
fn with_fourth() -> Port {
    let mut port = Port::fresh(table());
    taken(&mut port, Call::Join(3, FOURTH));
    port
}

/// The specimen's class A alone.
fn without_b() -> Table {
    let mut table = table();
    table.rows.truncate(2);
    table.idle_b = 0;
    table
}

#[test]
fn opening_sets_the_bounds() {
    let port = Port::fresh(table());
    assert_eq!(port.bounds, bounds(&table()).unwrap());
    assert_eq!(port.bounds[..4], [3730, 3130, 4844, 0]);
}

/// A's sum of C becomes 800 and LA 400. So row 0 has 100 + 1542 + (700 + 0.75 ×
/// 400) / 0.25 = 5642, row 1 300 + 1542 + (500 + 300) / 0.25 = 5042 and row 3
/// 400 + 1542 + (400 + 300) / 0.25 = 4742. HB becomes 400 + 2056, so that row 2
/// has 500 + 2456 + 0.8 × 500 / 0.2 = 4956. The bounds are 12 less.
#[test]
fn a_join_moves_the_bounds_of_both_classes() {
    let port = with_fourth();
    assert_eq!(port.table, table().with(3, FOURTH));
    assert_eq!(port.table.rows.len(), 4);
    assert_eq!(port.bounds[..5], [5630, 5030, 4944, 4730, 0]);
    // A row of B that is longer than best effort moves HA from 500 to 1000, and
    // HB from 300 + 0.25 × 500 / 0.75 to 300 + 0.25 × 1000 / 0.75, rounded up.
    let mut short_best = table();
    short_best.best_payload = 0;
    let mut port = Port::fresh(short_best);
    let of_a = [100 + 500 + 2100 - 12, 300 + 500 + 1300 - 12];
    assert_eq!(port.bounds[..3], [of_a[0], of_a[1], 500 + 467 + 2000 - 12]);
    taken(&mut port, Call::Join(3, row(Class::B, 958, 31_250, 31_250)));
    let of_b = [500 + 634 + 5000 + 4000 - 12, 1000 + 634 + 2500 + 4000 - 12];
    assert_eq!(port.bounds[..2], of_a.map(|bound| bound + 500));
    assert_eq!(port.bounds[2..4], of_b);
}

/// A port with a frame on the wire and others waiting, its credits not 0.
fn busy() -> Port {
    let mut port = Port::fresh(table());
    port.offer(0, 58).unwrap();
    port.advance(50).unwrap();
    port.offer(1, 258).unwrap();
    port.offer(2, 458).unwrap();
    port.offer_best(1500).unwrap();
    port.advance(7).unwrap();
    assert_eq!(port.credit_a, -750_000 * 57);
    assert_eq!(port.credit_b, 200_000 * 7);
    port
}

#[test]
fn a_join_leaves_the_other_parts_and_the_port_goes_on() {
    for number in [3, 31] {
        let (mut port, mut other) = (busy(), busy());
        taken(&mut port, Call::Join(number, FOURTH));
        assert_ne!(port, other);
        let joined = Port {
            table: table().with(number as usize, FOURTH),
            bounds: port.bounds,
            ..other.clone()
        };
        assert_eq!(port, joined);
        assert_eq!(port.last[..3], [Some(0), Some(50), Some(50)]);
        while other.clock < 5000 {
            assert_eq!(port.advance(1000), other.advance(1000));
            assert_eq!(port.wire, other.wire);
            assert_eq!(port.credit_a, other.credit_a);
            assert_eq!(port.credit_b, other.credit_b);
        }
    }
}

#[test]
fn a_leave_waits_for_frames_and_credits() {
    let mut port = with_fourth();
    let leave = Call::Leave(3);
    port.offer(3, 358).unwrap();
    refused(&mut port, leave, 21, 0);
    assert_eq!(port.advance(1), none(1));
    assert!(port.queue_a.is_empty());
    refused(&mut port, leave, 21, 0);
    assert_eq!(port.advance(5000), ended(387, frame(3, 400, 0)));
    refused(&mut port, leave, 21, 0);
    assert_eq!(port.advance(11), none(11));
    refused(&mut port, leave, 21, 0);
    assert_eq!(port.advance(1), none(1));
    assert_eq!((port.wire, port.credit_a), (Wire::Free, -300_000_000));
    refused(&mut port, leave, 21, 0);
    assert_eq!(port.advance(1199), none(1199));
    assert_eq!(port.credit_a, -250_000);
    refused(&mut port, leave, 21, 0);
    assert_eq!(port.advance(1), none(1));
    assert_eq!(port.credit_a, 0);
    taken(&mut port, leave);
    // The table and the bounds are the specimen's again.
    assert_eq!(port.table, table());
    assert_eq!(sheet(&port), sheet(&Port::fresh(table())));
    assert_eq!(port.clock, 1600);
    refused(&mut port, Call::Offer(3, 0), 11, 0);
}

#[test]
fn a_leave_waits_for_the_other_class_and_for_best_effort() {
    // Row 2's 500 bytes cost 0.8 of credit each, and a byte-time gives 0.2 back.
    let mut port = Port::fresh(table());
    port.offer(2, 458).unwrap();
    refused(&mut port, Call::Leave(0), 21, 0);
    port.advance(5000).unwrap();
    refused(&mut port, Call::Leave(0), 21, 0);
    assert_eq!(port.advance(12 + 1999), none(2011));
    assert_eq!((port.credit_a, port.credit_b), (0, -200_000));
    refused(&mut port, Call::Leave(0), 21, 0);
    assert_eq!(port.advance(1), none(1));
    taken(&mut port, Call::Leave(0));

    let mut port = Port::fresh(table());
    port.offer_best(0).unwrap();
    refused(&mut port, Call::Leave(0), 21, 0);
    for left in [83, 12, 1] {
        port.advance(84 - left - port.clock).unwrap();
        refused(&mut port, Call::Leave(0), 21, 0);
    }
    assert_eq!(port.advance(1), none(1));
    taken(&mut port, Call::Leave(0));
    // A credit above 0 belongs to a record that no list leads to.
    let mut port = Port::fresh(table());
    port.credit_a = 1;
    refused(&mut port, Call::Leave(0), 21, 0);
    port.credit_a = 0;
    port.credit_b = 1;
    refused(&mut port, Call::Leave(0), 21, 0);
}

#[test]
fn a_leave_leaves_the_other_parts() {
    let mut port = with_fourth();
    port.offer(1, 258).unwrap();
    while port.clock < 2000 {
        port.advance(2000 - port.clock).unwrap();
    }
    let before = port.clone();
    taken(&mut port, Call::Leave(3));
    let left = Port {
        table: table(),
        bounds: Port::fresh(table()).bounds,
        ..before
    };
    assert_eq!(port, left);
    assert_eq!(port.last[1], Some(0));
    refused(&mut port, Call::Offer(1, 0), 13, 0);
}

#[test]
fn a_number_is_used_again_with_no_last_instant() {
    let mut port = with_fourth();
    port.offer(3, 358).unwrap();
    port.advance(5000).unwrap();
    port.advance(12 + 1200).unwrap();
    refused(&mut port, Call::Offer(3, 358), 13, 0);
    taken(&mut port, Call::Leave(3));
    // The same row, and one of the other class.
    for row in [FOURTH, row(Class::B, 358, 31_250, 31_250)] {
        let mut port = port.clone();
        taken(&mut port, Call::Join(3, row));
        assert_eq!(port.last[3], None);
        taken(&mut port, Call::Offer(3, 358));
        refused(&mut port, Call::Offer(3, 358), 13, 0);
        assert_eq!(port.advance(5000), ended(388, frame(3, 400, 1600)));
    }
    // Row 0's number too: the count stays, and it is offered to at once.
    taken(&mut port, Call::Offer(0, 58));
    port.advance(5000).unwrap();
    port.advance(12 + 300).unwrap();
    taken(&mut port, Call::Leave(0));
    assert_eq!(port.table.rows.len(), 3);
    refused(&mut port, Call::Offer(0, 0), 11, 0);
    taken(&mut port, Call::Join(0, table().rows[0]));
    assert_eq!(sheet(&port), sheet(&Port::fresh(table())));
    taken(&mut port, Call::Offer(0, 58));
}

#[test]
fn an_empty_number_counts_in_no_formula() {
    let mut port = Port::fresh(table());
    taken(&mut port, Call::Join(9, FOURTH));
    taken(&mut port, Call::Leave(0));
    let (row_1, row_2) = (table().rows[1], table().rows[2]);
    assert_eq!(port.table.rows[..3], [Row::EMPTY, row_1, row_2]);
    assert_eq!(port.table.rows[3..9], [Row::EMPTY; 6]);
    assert_eq!(port.table.rows[9..], [FOURTH]);
    let in_use: Vec<usize> = port.table.in_use().map(|(number, _)| number).collect();
    assert_eq!(in_use, [1, 2, 9]);
    // Row 1: 300 + 1542 + (400 + 0.75 × 400) / 0.25; row 9: 400 + 1542 + (300 +
    // 300) / 0.25; row 2 as before, behind an LA of 400.
    let kept = [0, 4630, 4944, 0, 0, 0, 0, 0, 0, 4330];
    assert_eq!(port.bounds[..10], kept);
    let compact = Table {
        rows: vec![row_1, row_2, FOURTH],
        ..table()
    };
    for class in [Class::A, Class::B] {
        assert_eq!(port.table.figures(class), compact.figures(class));
    }
    assert_eq!(bounds(&compact).unwrap()[..3], [4630, 4944, 4330]);
    assert_eq!(accept(&port.table).unwrap().most[..3], [0, 1, 1]);
    // It is no row of a class without slope.
    let of_b = Table {
        idle_a: 0,
        rows: vec![Row::EMPTY, row_2],
        ..table()
    };
    assert_eq!(broken(&Port::fresh(of_b)), None);
}

#[test]
fn an_empty_number_answers_11() {
    let mut port = Port::fresh(table());
    taken(&mut port, Call::Join(5, FOURTH));
    for number in [3, 4, 6] {
        refused(&mut port, Call::Offer(number, 0), 11, 0);
        refused(&mut port, Call::Offer(number, 9999), 11, 0);
        refused(&mut port, Call::Leave(number), 11, 0);
    }
    taken(&mut port, Call::Offer(5, 358));
}

#[test]
fn a_join_above_the_count_wakes_no_junk() {
    let mut port = Port::fresh(table());
    port.bounds[3..].fill(4730);
    port.last[3..].fill(Some(u64::MAX));
    let mut clean = Port::fresh(table());
    assert_eq!(port, clean);
    for port in [&mut port, &mut clean] {
        taken(port, Call::Join(7, FOURTH));
        assert_eq!(
            port.table.rows[3..],
            [[Row::EMPTY; 4].as_slice(), &[FOURTH]].concat()
        );
        assert_eq!(port.bounds[..8], [5630, 5030, 4944, 0, 0, 0, 0, 4730]);
        assert_eq!(port.last[7], None);
    }
    assert_eq!(port, clean);
    for port in [&mut port, &mut clean] {
        for number in 3..7 {
            refused(port, Call::Offer(number, 0), 11, 0);
        }
        taken(port, Call::Offer(7, 358));
        // One of the numbers between, where the junk stood.
        taken(port, Call::Join(4, row(Class::A, 0, 15_625, 15_625)));
        assert_eq!(port.last[4], None);
        taken(port, Call::Offer(4, 0));
    }
    assert_eq!(port, clean);
    assert_eq!(broken(&port), None);
}

#[test]
fn the_row_count_is_one_above_the_highest_number_in_use() {
    let mut alone = without_b();
    alone.rows.truncate(1);
    let mut port = Port::fresh(alone.clone());
    taken(&mut port, Call::Join(5, FOURTH));
    assert_eq!(port.table.rows.len(), 6);
    let with_two = port.clone();
    taken(&mut port, Call::Join(3, FOURTH));
    assert_eq!(port.table.rows.len(), 6);
    taken(&mut port, Call::Leave(3));
    assert_eq!(port, with_two);
    // It falls by five.
    taken(&mut port, Call::Leave(5));
    assert_eq!(port, Port::fresh(alone));
    assert_eq!(port.table.rows.len(), 1);
    // And it stays when a lower row leaves.
    let mut port = with_two;
    taken(&mut port, Call::Leave(0));
    assert_eq!(port.table.rows.len(), 6);
    assert_eq!(port.table.count_in_use(), 6);
    taken(&mut port, Call::Join(31, FOURTH));
    assert_eq!(port.table.rows.len(), 32);
    refused(&mut port, Call::Leave(0), 11, 0);
}

#[test]
fn joining_22_a_number_in_use_or_above_31() {
    let mut port = Port::fresh(table());
    for number in [0, 1, 2, 32, 33, 255, 256, 1 << 32, u64::MAX] {
        refused(&mut port, Call::Join(number, FOURTH), 22, 0);
        // Before 5.
        refused(&mut port, Call::Join(number, Row::EMPTY), 22, 0);
    }
    for number in 3..32 {
        taken(&mut port.clone(), Call::Join(number, FOURTH));
    }
}

#[test]
fn joining_5_out_of_range_or_empty() {
    let paced = |pace| Row { pace, ..FOURTH };
    let rated = |rate, samples| paced(Pace::Rated { rate, samples });
    let of_deadline = |deadline| Row { deadline, ..FOURTH };
    let of_payload = |payload| Row { payload, ..FOURTH };
    let wrong = [
        Row::EMPTY,
        tagged(Row::EMPTY),
        of_payload(1501),
        tagged(of_payload(1501)),
        of_payload(u64::MAX),
        paced(Pace::Period(0)),
        paced(Pace::Period(83)),
        paced(Pace::Period(1_000_000_001)),
        rated(999, 6),
        rated(200_001, 6),
        rated(44_100, 0),
        rated(44_100, 256),
        of_deadline(0),
        of_deadline(1_000_000_001),
    ];
    let (mut port, mut without_b) = (Port::fresh(table()), Port::fresh(without_b()));
    for row in wrong {
        for number in [3, 4, 31] {
            refused(&mut port, Call::Join(number, row), 5, number);
            // Before 8.
            let class = Class::B;
            let first = Row { class, ..row };
            refused(&mut without_b, Call::Join(number, first), 5, number);
        }
    }
    taken(&mut port.clone(), Call::Join(3, of_deadline(1_000_000_000)));
    taken(&mut port, Call::Join(3, rated(44_100, 6)));
}

#[test]
fn joining_8_the_first_row_of_a_class() {
    let mut port = Port::fresh(without_b());
    refused(&mut port, Call::Join(2, table().rows[2]), 8, 0);
    // Before 9: a share of 1,000,000.
    refused(&mut port, Call::Join(2, row(Class::B, 0, 84, 1)), 8, 0);
    taken(&mut port, Call::Join(2, FOURTH));
    let mut of_b = table();
    of_b.rows.drain(..2);
    of_b.idle_a = 0;
    refused(&mut Port::fresh(of_b), Call::Join(2, FOURTH), 8, 0);
}

#[test]
fn joining_9_shares_above_i() {
    // A has 224,400 left and B 184,000: 84 bytes in 375 byte-times are 224,000,
    // in 374 224,599; in 457 183,807, in 456 184,211.
    let mut port = Port::fresh(table());
    let of = |class, period| Call::Join(3, row(class, 0, period, 15_625));
    refused(&mut port, of(Class::A, 374), 9, 0);
    taken(&mut port.clone(), of(Class::A, 375));
    refused(&mut port, of(Class::B, 456), 9, 1);
    taken(&mut port.clone(), of(Class::B, 457));
    // Before 10.
    refused(&mut port, Call::Join(3, row(Class::A, 0, 374, 1)), 9, 0);
    refused(&mut port, Call::Join(3, row(Class::B, 0, 456, 1)), 9, 1);
}

#[test]
fn joining_10_a_bound_above_its_deadline() {
    // Row 3's: 100 + 1542 + (400 + 0.75 × 300) / 0.25 − 12.
    let mut port = Port::fresh(table());
    let of_100 = |deadline| row(Class::A, 58, 15_625, deadline);
    refused(&mut port, Call::Join(3, of_100(4129)), 10, 3);
    refused(&mut port, Call::Join(8, of_100(4129)), 10, 8);
    taken(&mut port.clone(), Call::Join(3, of_100(4130)));
    // With 1542 bytes of wire row 1's 6000 is too little too.
    let large = |deadline| row(Class::A, 1500, 1_000_000, deadline);
    refused(&mut port, Call::Join(3, large(1_000_000)), 10, 1);
    refused(&mut port, Call::Join(3, large(1)), 10, 1);
    // The lowest may be the one that joins.
    taken(&mut port, Call::Leave(0));
    refused(&mut port, Call::Join(0, large(1)), 10, 0);
    refused(&mut port, Call::Join(0, large(1_000_000)), 10, 1);
    // A row of the other class.
    let with_deadline = |deadline| {
        let mut table = table();
        table.rows[2].deadline = deadline;
        Port::fresh(table)
    };
    refused(&mut with_deadline(4943), Call::Join(3, FOURTH), 10, 2);
    taken(&mut with_deadline(4944), Call::Join(3, FOURTH));
}

#[test]
fn joining_20_counts_above_64() {
    // 31 rows have one frame each; with the 32nd they have two.
    let mut of_a = crowds::two_of_each();
    let last = of_a.rows.pop().unwrap();
    let mut port = Port::fresh(of_a);
    let paced = |period, deadline| {
        let pace = Pace::Period(period);
        Call::Join(
            31,
            Row {
                pace,
                deadline,
                ..last
            },
        )
    };
    refused(&mut port, paced(2_562, 5_114), 20, 0);
    // After 10.
    refused(&mut port, paced(2_562, 5_113), 10, 31);
    taken(&mut port, paced(2_563, 5_114));
    // 64 in class B, or 65.
    for (period, fits) in [(237, true), (236, false)] {
        let mut of_b = crowds::full_classes();
        of_b.rows[4].pace = Pace::Period(period);
        let last = of_b.rows.pop().unwrap();
        let (mut port, join) = (Port::fresh(of_b), Call::Join(6, last));
        if fits {
            taken(&mut port, join);
        } else {
            refused(&mut port, join, 20, 1);
        }
    }
}

#[test]
fn leaving_11_21_8() {
    let mut port = Port::fresh(table());
    // B's last row, and A's when one has left.
    refused(&mut port, Call::Leave(2), 8, 0);
    taken(&mut port, Call::Leave(1));
    refused(&mut port, Call::Leave(0), 8, 0);
    for number in [1, 3, 31, 32, 255, 1 << 32, u64::MAX] {
        refused(&mut port, Call::Leave(number), 11, 0);
    }
    // 11 before 21, and 21 before 8.
    port.offer(2, 458).unwrap();
    refused(&mut port, Call::Leave(1), 11, 0);
    refused(&mut port, Call::Leave(2), 21, 0);
    port.advance(5000).unwrap();
    port.advance(12 + 2000).unwrap();
    refused(&mut port, Call::Leave(2), 8, 0);
    // The only row of a table.
    let mut alone = without_b();
    alone.rows.truncate(1);
    refused(&mut Port::fresh(alone), Call::Leave(0), 8, 0);
}

#[test]
fn joining_and_leaving_18_before_all_else() {
    let mut port = with_fourth();
    port.bounds[0] += 1;
    for call in [
        Call::Join(4, FOURTH),
        Call::Join(0, FOURTH),
        Call::Join(4, Row::EMPTY),
        Call::Join(u64::MAX, Row::EMPTY),
        Call::Leave(3),
        Call::Leave(99),
    ] {
        refused(&mut port, call, 18, 0);
    }
}

#[test]
fn an_empty_number_is_not_opened_or_written() {
    for place in 0..3 {
        refused_open(|table| table.rows[place] = Row::EMPTY, 5, place as u64);
        let mut table = table();
        table.rows[place] = Row::EMPTY;
        assert_eq!(write(&table, &mut [0; 100]), Err(refusal(5, place as u64)));
    }
    refused_open(|table| table.rows.push(Row::EMPTY), 5, 3);
    refused_open(|table| table.rows.push(tagged(Row::EMPTY)), 5, 3);
    // The header first, and the lowest row.
    let two = |table: &mut Table| {
        table.rows[2] = Row::EMPTY;
        table.rows[1].payload = 1501;
    };
    refused_open(two, 5, 1);
    refused_open(
        |table| {
            two(table);
            table.best_payload = 1501;
        },
        5,
        32,
    );
    // A port's table that is accepted is not one to open.
    let mut port = Port::fresh(table());
    taken(&mut port, Call::Leave(0));
    assert!(accept(&port.table).is_ok());
    assert_eq!(open(&port.table), Err(refusal(5, 0)));
    assert_eq!(bounds(&port.table), Err(refusal(5, 0)));
    assert_eq!(write(&port.table, &mut [0; 100]), Err(refusal(5, 0)));
}

/// A port with rows 0 to 2 and 5: numbers 3 and 4 are empty.
fn with_gap() -> Port {
    let mut port = busy();
    taken(&mut port, Call::Join(5, FOURTH));
    port
}

/// The clause that holds after a change.
fn after(change: impl Fn(&mut Port)) -> Option<&'static str> {
    let mut port = with_gap();
    change(&mut port);
    broken(&port)
}

#[test]
fn a_record_with_other_bounds_is_broken() {
    assert_eq!(after(|_| ()), None);
    let name = Some("a bound is not the one worked out afresh");
    for number in 0..6 {
        assert_eq!(after(|port| port.bounds[number] += 1), name);
        assert_eq!(after(|port| port.bounds[number] = u64::MAX), name);
    }
    for number in [0, 1, 2, 5] {
        assert_eq!(after(|port| port.bounds[number] -= 1), name);
        assert_eq!(after(|port| port.bounds[number] = 0), name);
        // The residence.
        assert_eq!(after(|port| port.bounds[number] += 12), name);
    }
    // Those that opening had set.
    assert_eq!(
        after(|port| port.bounds = Port::fresh(table()).bounds),
        name
    );
    // Behind the row count there may be anything.
    assert_eq!(after(|port| port.bounds[6..].fill(u64::MAX)), None);
}

#[test]
fn a_record_with_another_row_count_is_broken() {
    let name = Some("row count not one above the highest number in use");
    for count in 7..=32 {
        let longer = |port: &mut Port| port.table.rows.resize(count, Row::EMPTY);
        assert_eq!(after(longer), name);
    }
    let emptied = |port: &mut Port| {
        let rest = port.table.without(5);
        port.bounds = Port::fresh(rest).bounds;
        port.table.rows[5] = Row::EMPTY;
    };
    assert_eq!(after(emptied), name);
    let shorter = |port: &mut Port| {
        emptied(port);
        port.table.rows.truncate(3);
    };
    assert_eq!(after(shorter), None);
    // No number in use at all.
    for count in [0, 1, 32] {
        let none = |port: &mut Port| {
            *port = Port::fresh(Table {
                idle_a: 0,
                idle_b: 0,
                rows: vec![Row::EMPTY; count],
                ..table()
            });
        };
        assert!(after(none).is_some(), "{count} empty numbers");
    }
}

#[test]
fn an_empty_number_is_all_zeros() {
    let not_quite = [
        row(Class::B, 0, 0, 0),
        row(Class::A, 1, 0, 0),
        row(Class::A, 0, 1, 0),
        row(Class::A, 0, 0, 1),
        rated(Class::A, 0, 0, 0),
        tagged(Row::EMPTY),
    ];
    for row in not_quite {
        let change = |port: &mut Port| port.table.rows[4] = row;
        assert_eq!(after(change), Some("table not accepted"));
    }
}

#[test]
fn a_frame_of_an_empty_number_names_no_row() {
    let name = Some("a frame names no row");
    for number in [3, 4, 6] {
        let clock = with_gap().clock;
        let of_number = frame(number, 84, clock);
        assert_eq!(after(|port| port.queue_a.push_back(of_number)), name);
        let sent = |port: &mut Port| {
            port.wire = Wire::Sending(of_number, 84);
            port.last[number] = Some(clock);
        };
        assert_eq!(after(sent), name);
    }
}

#[test]
fn the_last_instant_of_an_empty_number_is_no_part() {
    let port = with_gap();
    for number in [3, 4, 6, 31] {
        for last in [Some(0), Some(port.clock + 1), Some(u64::MAX)] {
            let mut other = port.clone();
            other.last[number] = last;
            assert_eq!(broken(&other), None);
            assert_eq!(port, other);
        }
    }
    let mut other = port.clone();
    other.last[5] = Some(0);
    assert_ne!(port, other);
    other.last[5] = Some(port.clock + 1);
    let name = "a row's last instant is after the clock";
    assert_eq!(broken(&other), Some(name));
}

#[test]
fn ports_are_compared_by_the_bounds_below_the_row_count() {
    let port = with_gap();
    for number in 0..32 {
        let mut other = port.clone();
        other.bounds[number] += 1;
        assert_eq!(port == other, number >= 6, "number {number}");
    }
}
