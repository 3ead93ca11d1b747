//! C-12: deadlines longer than the period, and rows with several frames in the
//! port.

use crate::avb1::{file_of, read, write};
use crate::frames::{best, ended, frame};
use crate::refusals::refusal;
use cases::crowds;
use cases::ports::{full, full_reversed};
use cases::tables::row;
use simulator::table::{accept, MOST_IN_CLASS};
use simulator::{bounds, broken, open, portsheet, Class, Mark, Pace, Port, Table, Wire};

fn of_row(row: usize) -> impl Fn(&simulator::Frame) -> bool {
    move |frame| frame.mark == Mark::Row(row)
}

/// The most frames of each row of a table.
fn most(table: &Table) -> Vec<u64> {
    accept(table).unwrap().most[..table.rows.len()].to_vec()
}

/// C-13: the count is by the old figure, 12 more than the bound.
#[test]
fn the_residence_by_the_period_rounded_up() {
    let table = crowds::four_of_each();
    assert_eq!(accept(&table).unwrap().residences[..5], [2102; 5]);
    assert_eq!(bounds(&table).unwrap()[..5], [2090; 5]);
    assert_eq!(most(&table), [4; 5]);
    let with_period = |period| {
        let mut table = crowds::four_of_each();
        table.rows[4].pace = Pace::Period(period);
        most(&table)[4]
    };
    assert_eq!(with_period(2103), 1);
    assert_eq!(with_period(2102), 1);
    assert_eq!(with_period(2101), 2);
    assert_eq!(with_period(1051), 2);
    assert_eq!(with_period(1050), 3);
    assert_eq!(with_period(701), 3);
    assert_eq!(with_period(700), 4);
    // A rate counts by its rounded period, 625.
    let mut rated = crowds::four_of_each();
    rated.rows[4].pace = Pace::Rated {
        rate: 200_000,
        samples: 1,
    };
    assert_eq!(most(&rated)[4], 4);
}

#[test]
fn the_most_there_can_be() {
    assert_eq!(most(&crowds::sole()), [1, 29]);
    assert_eq!(most(&crowds::with_two_neighbours()), [1, 1, 1, 62]);
    assert_eq!(most(&crowds::two_of_each()), [2; 32]);
    assert_eq!(most(&crowds::full_classes()), [61, 1, 1, 1, 62, 1, 1]);
}

#[test]
fn opening_20_counts_above_64() {
    assert_eq!(open(&crowds::one_too_many()), Err(refusal(20, 1)));
    assert_eq!(bounds(&crowds::one_too_many()), Err(refusal(20, 1)));
    assert_eq!(
        portsheet(&file_of(&crowds::one_too_many())),
        "refused 20 1\n"
    );
    let shorter = |places: &[usize]| {
        let mut table = crowds::full_classes();
        for &place in places {
            let period = table.rows[place].period();
            table.rows[place].pace = Pace::Period(period - 1);
        }
        open(&table)
    };
    assert_eq!(shorter(&[]), Ok(()));
    assert_eq!(shorter(&[0]), Err(refusal(20, 0)));
    assert_eq!(shorter(&[4]), Err(refusal(20, 1)));
    // A first.
    assert_eq!(shorter(&[0, 4]), Err(refusal(20, 0)));
    // After 10, and reading and writing don't ask.
    let mut late = crowds::one_too_many();
    let bound = {
        let figures = late.figures(Class::B);
        figures.bound(late.rows[3].size())
    };
    late.rows[3].deadline = bound;
    assert_eq!(open(&late), Err(refusal(20, 1)));
    late.rows[3].deadline = bound - 1;
    assert_eq!(open(&late), Err(refusal(10, 3)));
    let file = file_of(&late);
    assert_eq!(read(&file), Ok(late.clone()));
    assert_eq!(write(&late, &mut [0; 100]), Ok(file.len()));
}

#[test]
fn deadlines_whatever_the_period() {
    let opens = |deadline| {
        let mut table = crowds::four_of_each();
        table.rows[2].deadline = deadline;
        open(&table)
    };
    assert_eq!(opens(0), Err(refusal(5, 2)));
    assert_eq!(opens(600), Err(refusal(10, 2)));
    assert_eq!(opens(2089), Err(refusal(10, 2)));
    assert_eq!(opens(2090), Ok(()));
    assert_eq!(opens(1_000_000_000), Ok(()));
    assert_eq!(opens(1_000_000_001), Err(refusal(5, 2)));
    // Its default stays the period: a file has it only where it is another.
    let mut table = crowds::four_of_each();
    let long = file_of(&table).len();
    assert_eq!(read(&file_of(&table)), Ok(table.clone()));
    table.rows[2].deadline = 600;
    assert_eq!(file_of(&table).len(), long - 4);
    assert_eq!(read(&file_of(&table)), Ok(table.clone()));
    table.rows[2].deadline = 601;
    assert_eq!(file_of(&table).len(), long);
    assert_eq!(read(&file_of(&table)), Ok(table));
}

/// Advances to a clock, past reports of frames.
fn to(port: &mut Port, clock: u64) {
    while port.clock < clock {
        port.advance((clock - port.clock).min(65_535)).unwrap();
    }
}

#[test]
fn four_frames_of_a_row_at_once() {
    let mut port = Port::fresh(crowds::four_of_each());
    for row in 0..5 {
        assert_eq!(port.offer(row, 42), Ok(()));
    }
    // Row 4's turn would come at 448. A best-effort frame begins just before.
    to(&mut port, 447);
    assert_eq!(port.offer_best(1500), Ok(()));
    for (clock, count) in [(600, 2), (1200, 3), (1800, 4)] {
        to(&mut port, clock - 1);
        assert_eq!(
            port.offer(4, 42),
            Err(refusal(13, 0)),
            "early at {clock} − 1"
        );
        to(&mut port, clock);
        assert_eq!(port.offer(4, 42), Ok(()));
        assert_eq!(
            port.queue_a.iter().filter(|frame| of_row(4)(frame)).count(),
            count
        );
    }
    assert_eq!(port.queue_a.len(), 4);
    // There is no fifth before the next period, and the first is gone by then.
    assert_eq!(port.offer(4, 42), Err(refusal(13, 0)));
    assert_eq!(port.advance(65_535), ended(177, best(1542, 447)));
    assert_eq!(port.advance(65_535), ended(84, frame(4, 84, 0)));
    assert_eq!(port.clock, 2061);
    assert_eq!(port.advance(65_535), ended(84, frame(4, 84, 600)));
    to(&mut port, 2399);
    assert_eq!(port.offer(4, 42), Err(refusal(13, 0)));
    to(&mut port, 2400);
    assert_eq!(port.offer(4, 42), Ok(()));
}

/// A sound record: row 4 has four frames, the oldest of them on the wire.
fn sound() -> Port {
    let mut port = Port::fresh(crowds::four_of_each());
    port.clock = 12_000;
    port.wire = Wire::Sending(frame(4, 84, 10_000), 84);
    for instant in [10_600, 11_200, 11_800] {
        port.queue_a.push_back(frame(4, 84, instant));
    }
    port.queue_a.push_back(frame(0, 84, 11_900));
    port.last[0] = Some(11_900);
    port.last[4] = Some(11_800);
    assert_eq!(broken(&port), None);
    port
}

fn after(change: impl Fn(&mut Port)) -> Option<&'static str> {
    let mut port = sound();
    change(&mut port);
    let clause = broken(&port);
    let before = port.clone();
    let answer = port.advance(0);
    match clause {
        Some(_) => assert_eq!(answer, Err(refusal(18, 0))),
        None => assert!(answer.is_ok()),
    }
    assert_eq!(port, before);
    clause
}

#[test]
fn one_frame_too_many() {
    let name = Some("a row has too many frames");
    // A fifth, in the queue of its class, as far apart as it may be and not.
    for instant in [9_400, 10_000, 11_000, 11_800, 12_000] {
        let add = |port: &mut Port| port.queue_a.push_back(frame(4, 84, instant));
        assert_eq!(after(add), name);
    }
    // A row with a period no shorter than its residence has one.
    let slow = |port: &mut Port| port.table.rows[0].pace = Pace::Period(2102);
    assert_eq!(after(slow), None);
    let second = |port: &mut Port| {
        slow(port);
        port.queue_a.push_back(frame(0, 84, 9_798));
    };
    assert_eq!(after(second), name);
}

#[test]
fn any_order_is_sound() {
    let swap = |one: usize, other: usize| {
        move |port: &mut Port| port.queue_a.make_contiguous().swap(one, other)
    };
    assert_eq!(after(swap(0, 1)), None);
    assert_eq!(after(swap(0, 2)), None);
    assert_eq!(after(swap(0, 3)), None);
    // The newest on the wire.
    let newest_sent = |port: &mut Port| {
        port.wire = Wire::Sending(frame(4, 84, 11_800), 1);
        port.queue_a[2] = frame(4, 84, 10_000);
    };
    assert_eq!(after(newest_sent), None);
}

#[test]
fn a_period_apart_or_more() {
    let name = Some("two frames of a row were taken less than a period apart");
    let second = |instant| move |port: &mut Port| port.queue_a[0].instant = instant;
    assert_eq!(after(second(10_599)), name);
    assert_eq!(after(second(10_600)), None);
    assert_eq!(after(second(10_601)), name, "too near the next");
    let third_and_second = |third, second| {
        move |port: &mut Port| {
            port.queue_a[1].instant = third;
            port.queue_a[0].instant = second;
        }
    };
    // In any order.
    assert_eq!(after(third_and_second(10_600, 11_200)), None);
    assert_eq!(after(third_and_second(10_600, 11_199)), name);
    assert_eq!(after(third_and_second(10_599, 11_200)), name);
    assert_eq!(after(third_and_second(10_600, 10_600)), name);
    // The one on the wire.
    let sent = |instant| move |port: &mut Port| port.wire = Wire::Sending(frame(4, 84, instant), 1);
    assert_eq!(after(sent(10_001)), name);
    assert_eq!(after(sent(9_999)), None);
    // Frames of two rows may be of one instant.
    let together = |port: &mut Port| {
        port.queue_a[3].instant = 11_800;
        port.last[0] = Some(11_800);
    };
    assert_eq!(after(together), None);
}

#[test]
fn the_newest_has_the_last_instant() {
    let name = Some("a row's newest frame wasn't taken at the row's last instant");
    let last = |last| move |port: &mut Port| port.last[4] = last;
    assert_eq!(after(last(None)), name);
    // The oldest's, the second's, and about the newest's.
    for instant in [10_000, 10_600, 11_200, 11_799, 11_801, 12_000] {
        assert_eq!(after(last(Some(instant))), name);
    }
    let without_the_newest = |port: &mut Port| {
        port.queue_a.remove(2);
    };
    assert_eq!(after(without_the_newest), name);
    let without_the_oldest = |port: &mut Port| port.wire = Wire::Free;
    assert_eq!(after(without_the_oldest), None);
    let without_any = |last| {
        move |port: &mut Port| {
            port.wire = Wire::Free;
            port.queue_a.drain(..3);
            port.last[4] = last;
        }
    };
    for instant in [None, Some(0), Some(11_999), Some(12_000)] {
        assert_eq!(after(without_any(instant)), None);
    }
}

#[test]
fn every_frame_is_younger_than_the_residence() {
    let name = Some("a row's frame is as old as its residence");
    let sent = |instant| move |port: &mut Port| port.wire = Wire::Sending(frame(4, 84, instant), 1);
    for age in [2089, 2090, 2091, 2101] {
        assert_eq!(after(sent(12_000 - age)), None);
    }
    assert_eq!(after(sent(12_000 - 2102)), name);
}

#[test]
fn full_records_are_sound_and_have_room() {
    for table in crowds::all() {
        for port in [full(table.clone()), full_reversed(table.clone())] {
            assert_eq!(broken(&port), None);
            let counts = [&port.queue_a, &port.queue_b].map(|queue| queue.len() as u64);
            assert!(counts.iter().all(|&count| count <= MOST_IN_CLASS));
            for row in 0..port.table.rows.len() as u64 {
                assert_eq!(port.clone().offer(row, 0), Err(refusal(13, 0)));
            }
        }
    }
    let both = full(crowds::full_classes());
    assert_eq!((both.queue_a.len(), both.queue_b.len()), (64, 64));
    assert_eq!(full(crowds::two_of_each()).queue_a.len(), 64);
    assert_eq!(full(crowds::with_two_neighbours()).queue_b.len(), 64);
}

#[test]
fn a_table_with_20_breaks_a_record() {
    let mut port = Port::fresh(crowds::with_two_neighbours());
    assert_eq!(broken(&port), None);
    port.table = crowds::one_too_many();
    assert_eq!(broken(&port), Some("table not accepted"));
}

#[test]
fn a_row_of_a_period_above_its_deadline_is_as_before() {
    let table = Table {
        idle_a: 750_000,
        idle_b: 0,
        best_payload: 1500,
        rows: vec![row(Class::A, 42, 15_625, 2_000)],
    };
    assert_eq!(most(&table), [1]);
}
