//! C-13: a frame is reported ended when 12 bytes of it are left. Those twelve,
//! the gap, still occupy the wire and cost credit.

use crate::frames::{best, ended, frame, none};
use crate::refusals::refusal;
use cases::crowds;
use cases::specimen::table;
use simulator::table::accept;
use simulator::{broken, open, Frame, Mark, Pace, Port, Wire};

/// A port that has just reported row 0's frame, the first that it took.
fn at_the_report() -> Port {
    let mut port = Port::fresh(table());
    port.offer(0, 58).unwrap();
    assert_eq!(port.advance(5000), ended(88, frame(0, 100, 0)));
    port
}

/// A sound record at clock 1000 with one frame in the port, on the wire.
fn sending(frame: Frame, left: u64) -> Port {
    let mut port = Port::fresh(table());
    port.clock = 1000;
    port.wire = Wire::Sending(frame, left);
    if let Mark::Row(row) = frame.mark {
        port.last[row] = Some(frame.instant);
    }
    assert_eq!(broken(&port), None);
    port
}

#[test]
fn two_figures() {
    let plan = accept(&table()).unwrap();
    assert_eq!(plan.residences[..4], [3742, 3142, 4856, 0]);
    assert_eq!(plan.bounds()[..4], [3730, 3130, 4844, 0]);
}

#[test]
fn reported_in_the_byte_time_that_leaves_12() {
    let mut port = Port::fresh(table());
    port.offer(0, 58).unwrap();
    let sent = frame(0, 100, 0);
    assert_eq!(port.advance(87), none(87));
    assert_eq!(port.wire, Wire::Sending(sent, 13));
    assert_eq!(port.advance(1), ended(1, sent));
    assert_eq!(port.wire, Wire::Sending(sent, 12));
    assert_eq!(port.advance(0), none(0));
    for left in (1..12).rev() {
        assert_eq!(port.advance(1), none(1));
        assert_eq!(port.wire, Wire::Sending(sent, left));
    }
    // No second time when the wire frees.
    assert_eq!(port.advance(1), none(1));
    assert_eq!(port.wire, Wire::Free);
    assert_eq!(port.clock, 100);
}

#[test]
fn the_smallest_and_the_largest() {
    for (payload, size) in [(0, 84), (42, 84), (43, 85), (1500, 1542)] {
        let mut port = Port::fresh(table());
        port.offer_best(payload).unwrap();
        let sent = best(size, 0);
        assert_eq!(port.advance(65_535), ended(size - 12, sent));
        assert_eq!(port.wire, Wire::Sending(sent, 12));
        assert_eq!(port.advance(12), none(12));
        assert_eq!(port.wire, Wire::Free);
    }
}

#[test]
fn an_advance_may_stop_in_the_gap() {
    for left in 1..12 {
        let mut port = at_the_report();
        assert_eq!(port.advance(12 - left), none(12 - left));
        assert_eq!(port.wire, Wire::Sending(frame(0, 100, 0), left));
        assert_eq!(port.credit_a, -75_000_000 + 750_000 * left as i64);
        // Nothing is reported from there.
        assert_eq!(port.clone().advance(left), none(left));
        assert_eq!(port.advance(1000), none(1000));
        assert_eq!(port.wire, Wire::Free);
    }
}

#[test]
fn an_end_without_a_report() {
    for n in [12, 13, 100, 65_535] {
        let mut port = at_the_report();
        assert_eq!(port.advance(n), none(n));
        assert_eq!(port.wire, Wire::Free);
        assert_eq!(port.clock, 88 + n);
    }
}

#[test]
fn an_end_a_start_and_a_report_in_one_advance() {
    // Best effort is ahead of row 0, which goes out as soon as the wire frees.
    let mut port = Port::fresh(table());
    port.offer_best(1500).unwrap();
    port.advance(1).unwrap();
    port.offer(0, 58).unwrap();
    assert_eq!(port.advance(5000), ended(1529, best(1542, 0)));
    let next = frame(0, 100, 1);
    let after = |n, answer, wire| {
        let mut port = port.clone();
        assert_eq!(port.advance(n), answer);
        assert_eq!(port.wire, wire);
    };
    after(11, none(11), Wire::Sending(best(1542, 0), 1));
    after(12, none(12), Wire::Free);
    after(13, none(13), Wire::Sending(next, 99));
    after(99, none(99), Wire::Sending(next, 13));
    after(100, ended(100, next), Wire::Sending(next, 12));
    after(101, ended(100, next), Wire::Sending(next, 12));
}

#[test]
fn an_end_a_free_stretch_a_start_and_a_report_in_one_advance() {
    // Row 1 waits until the credit that row 0's 100 bytes have cost is back,
    // 300 byte-times after the wire frees.
    let mut port = Port::fresh(table());
    port.offer(0, 58).unwrap();
    port.offer(1, 258).unwrap();
    assert_eq!(port.advance(5000), ended(88, frame(0, 100, 0)));
    let next = frame(1, 300, 0);
    let after = |n, answer, wire| {
        let mut port = port.clone();
        assert_eq!(port.advance(n), answer);
        assert_eq!(port.wire, wire);
    };
    after(11, none(11), Wire::Sending(frame(0, 100, 0), 1));
    after(12, none(12), Wire::Free);
    after(312, none(312), Wire::Free);
    after(313, none(313), Wire::Sending(next, 299));
    after(599, none(599), Wire::Sending(next, 13));
    after(600, ended(600, next), Wire::Sending(next, 12));
    after(65_535, ended(600, next), Wire::Sending(next, 12));
}

#[test]
fn the_gap_costs_credit() {
    let mut port = at_the_report();
    assert_eq!(port.credit_a, -66_000_000);
    // With a frame of its class waiting or without, and B gains meanwhile.
    port.offer(2, 458).unwrap();
    let mut with_a_waiting = port.clone();
    with_a_waiting.offer(1, 258).unwrap();
    for mut port in [port, with_a_waiting] {
        for passed in 1..=12 {
            assert_eq!(port.byte_time(), None);
            assert_eq!(port.credit_a, -66_000_000 - 750_000 * passed);
            assert_eq!(port.credit_b, 200_000 * passed);
        }
        assert_eq!(port.wire, Wire::Free);
    }
}

#[test]
fn credit_above_0_stays_until_the_gap_is_over() {
    let mut port = Port::fresh(table());
    port.offer_best(1500).unwrap();
    port.advance(1).unwrap();
    port.offer(0, 58).unwrap();
    port.advance(5000).unwrap();
    assert_eq!(port.advance(5000), ended(100, frame(0, 100, 1)));
    // 1,541 byte-times of waiting, 88 of sending.
    assert_eq!(port.credit_a, 319_250_000);
    assert_eq!(port.advance(11), none(11));
    assert_eq!(port.credit_a, 311_000_000);
    assert_eq!(port.advance(1), none(1));
    assert_eq!(port.credit_a, 0);
}

#[test]
fn nothing_starts_in_the_gap() {
    let mut port = at_the_report();
    port.offer(2, 458).unwrap();
    port.offer_best(0).unwrap();
    assert_eq!(port.advance(11), none(11));
    assert_eq!(port.wire, Wire::Sending(frame(0, 100, 0), 1));
    assert_eq!((port.queue_b.len(), port.queue_best.len()), (1, 1));
    assert_eq!(port.advance(1), none(1));
    assert_eq!(port.wire, Wire::Free);
    assert_eq!((port.queue_b.len(), port.queue_best.len()), (1, 1));
    assert_eq!(port.advance(1), none(1));
    assert_eq!(port.wire, Wire::Sending(frame(2, 500, 88), 499));
    assert_eq!((port.queue_b.len(), port.queue_best.len()), (0, 1));
}

#[test]
fn a_record_with_bytes_left() {
    for sent in [frame(0, 100, 950), frame(2, 500, 950), best(84, 0)] {
        for left in 13..=84 {
            let mut port = sending(sent, left);
            assert_eq!(port.advance(5000), ended(left - 12, sent));
            assert_eq!(port.advance(5000), none(5000));
        }
        for left in 1..=12 {
            let mut port = sending(sent, left);
            assert_eq!(port.advance(5000), none(5000));
        }
    }
}

#[test]
fn what_the_next_advance_reports() {
    // Row 1 waits. It may go out three byte-times after the wire frees for each
    // byte that row 0 has still to send.
    let with_row_1 = |left| {
        let mut port = sending(frame(0, 100, 950), left);
        port.offer(1, 258).unwrap();
        port
    };
    let (sent, next) = (frame(0, 100, 950), frame(1, 300, 1000));
    assert_eq!(with_row_1(14).advance(5000), ended(2, sent));
    assert_eq!(with_row_1(13).advance(5000), ended(1, sent));
    assert_eq!(with_row_1(12).advance(5000), ended(12 + 36 + 288, next));
    assert_eq!(with_row_1(11).advance(5000), ended(11 + 33 + 288, next));
    assert_eq!(with_row_1(1).advance(5000), ended(1 + 3 + 288, next));
}

/// A frame of row 1 of some age on the wire.
fn aged(age: u64, left: u64) -> Port {
    let mut port = Port::fresh(table());
    port.clock = 10_000;
    port.last[1] = Some(port.clock - age);
    port.wire = Wire::Sending(frame(1, 300, port.clock - age), left);
    assert_eq!(broken(&port), None);
    port
}

#[test]
fn reported_at_its_bound_a_frame_leaves_at_its_residence() {
    let mut port = aged(3142 - 13, 13);
    assert_eq!(port.advance(1), ended(1, frame(1, 300, 6871)));
    assert_eq!(port.clock - 6871, 3130);
    for _ in 0..12 {
        assert_eq!(port.advance(1), none(1));
    }
    assert_eq!(port.wire, Wire::Free);
    // One byte-time later no list of calls leads there. The age tells in the
    // last byte of the gap.
    let mut port = aged(3142 - 12, 13);
    assert_eq!(port.advance(1), ended(1, frame(1, 300, 6870)));
    assert_eq!(port.advance(10), none(10));
    assert_eq!(port.advance(1), none(1));
    assert_eq!(port.wire, Wire::Sending(frame(1, 300, 6870), 1));
    assert_eq!(port.advance(1), Err(refusal(18, 0)));
}

#[test]
fn ages_below_the_residence_are_sound() {
    for age in [3142 - 13, 3142 - 12, 3142 - 11, 3142 - 1] {
        for left in [1, 11, 12, 13, 14, 300] {
            let mut port = aged(age, left);
            let sent = frame(1, 300, 10_000 - age);
            match left {
                13 => assert_eq!(port.advance(1), ended(1, sent)),
                _ => assert_eq!(port.advance(1), none(1)),
            }
            // A frame that is as old then and not gone breaks the record.
            let gone = left == 1;
            assert_eq!(broken(&port).is_some(), age + 1 == 3142 && !gone);
        }
    }
}

#[test]
fn a_frame_in_its_gap_is_in_the_port() {
    // Row 4 may have four frames, a period of 600 apart.
    let with_a_fifth = |left, fifth: Option<u64>| {
        let mut port = Port::fresh(crowds::four_of_each());
        port.clock = 12_000;
        port.wire = Wire::Sending(frame(4, 84, 10_000), left);
        for instant in [10_600, 11_200, 11_800].into_iter().chain(fifth) {
            port.queue_a.push_back(frame(4, 84, instant));
        }
        port.last[4] = Some(11_800);
        broken(&port)
    };
    for left in [84, 13, 12, 11, 1] {
        assert_eq!(with_a_fifth(left, None), None);
        let too_many = Some("a row has too many frames");
        assert_eq!(with_a_fifth(left, Some(9_400)), too_many);
    }
    // The only frame of its row: taken at the row's last instant.
    for left in [84, 13, 12, 11, 1] {
        let mut port = sending(frame(0, 100, 950), left);
        for last in [None, Some(949), Some(951)] {
            port.last[0] = last;
            let name = "a row's newest frame wasn't taken at the row's last instant";
            assert_eq!(broken(&port), Some(name));
        }
    }
}

#[test]
fn an_offer_in_the_gap() {
    // Early by the row's last instant, taken at the clock.
    let mut port = at_the_report();
    assert_eq!(port.offer(0, 58), Err(refusal(13, 0)));
    port.advance(5).unwrap();
    assert_eq!(port.offer(1, 258), Ok(()));
    assert_eq!(port.queue_a, [frame(1, 300, 93)]);
    assert_eq!(port.advance(5000), ended(7 + 300 + 288, frame(1, 300, 93)));
    // A third frame of a row while the first is in its gap.
    let mut port = Port::fresh(crowds::four_of_each());
    port.offer_best(1500).unwrap();
    assert_eq!(port.advance(420), none(420));
    assert_eq!(port.offer(4, 42), Ok(()));
    assert_eq!(port.advance(600), none(600));
    assert_eq!(port.offer(4, 42), Ok(()));
    assert_eq!(port.advance(600), ended(510, best(1542, 0)));
    assert_eq!(port.advance(600), ended(84, frame(4, 84, 420)));
    assert_eq!(port.advance(5), none(5));
    assert_eq!(port.offer(4, 42), Err(refusal(13, 0)));
    assert_eq!(port.advance(1), none(1));
    assert_eq!(port.offer(4, 42), Ok(()));
    assert_eq!(port.wire, Wire::Sending(frame(4, 84, 420), 6));
    assert_eq!(port.advance(600), ended(6 + 72, frame(4, 84, 1020)));
}

#[test]
fn best_effort_in_its_gap_does_not_wait() {
    let mut port = Port::fresh(table());
    port.offer_best(0).unwrap();
    assert_eq!(port.advance(5000), ended(72, best(84, 0)));
    for _ in 0..16 {
        assert_eq!(port.offer_best(0), Ok(()));
    }
    assert_eq!(port.offer_best(0), Err(refusal(14, 0)));
    // The next begins in the byte-time behind the gap.
    assert_eq!(port.advance(12), none(12));
    assert_eq!(port.offer_best(0), Err(refusal(14, 0)));
    assert_eq!(port.advance(1), none(1));
    assert_eq!(port.offer_best(0), Ok(()));
}

#[test]
fn the_count_goes_by_the_residence() {
    // 32 rows with a residence of 5,126 and a bound of 5,114.
    let with_periods = |first, others| {
        let mut table = crowds::two_of_each();
        for (place, row) in table.rows.iter_mut().enumerate() {
            row.pace = Pace::Period(if place == 0 { first } else { others });
        }
        table
    };
    let most_of_first = |first| {
        let plan = accept(&with_periods(first, 6_000)).unwrap();
        assert_eq!((plan.residences[0], plan.bounds()[0]), (5_126, 5_114));
        plan.most[0]
    };
    assert_eq!(most_of_first(5_126), 1);
    assert_eq!(most_of_first(5_125), 2);
    assert_eq!(most_of_first(5_114), 2);
    assert_eq!(most_of_first(2_563), 2);
    assert_eq!(most_of_first(2_562), 3);
    assert_eq!(most_of_first(2_557), 3);
    // 64 frames in the class, and 65.
    assert_eq!(open(&with_periods(2_563, 3_700)), Ok(()));
    assert_eq!(open(&with_periods(2_562, 3_700)), Err(refusal(20, 0)));
    assert_eq!(open(&with_periods(2_557, 3_700)), Err(refusal(20, 0)));
}
