//! Every clause by which a record is broken, on both sides of its edge.

use crate::frames::{best, frame};
use cases::specimen::table;
use simulator::port::CLAUSES;
use simulator::{broken, Mark, Pace, Port, Wire};

/// A sound record at clock 1000: row 0 on the wire, rows 1 and 2 and two
/// best-effort frames waiting.
fn sound() -> Port {
    let mut port = Port::fresh(table());
    port.clock = 1000;
    port.last[0] = Some(950);
    port.last[1] = Some(960);
    port.last[2] = Some(970);
    port.wire = Wire::Sending(frame(0, 100, 950), 70);
    port.queue_a.push_back(frame(1, 300, 960));
    port.queue_b.push_back(frame(2, 500, 970));
    port.queue_best.push_back(best(1542, 0));
    port.queue_best.push_back(best(84, 1000));
    assert_eq!(broken(&port), None);
    port
}

/// The clause that holds after a change, and that every call refuses with 18.
fn after(change: impl Fn(&mut Port)) -> Option<&'static str> {
    let mut port = sound();
    change(&mut port);
    let clause = broken(&port);
    let number = |refusal: Option<simulator::Refusal>| refusal.map(|refusal| refusal.number);
    let before = port.clone();
    if clause.is_some() {
        assert_eq!(number(port.offer(0, 0).err()), Some(18));
        assert_eq!(number(port.offer_best(0).err()), Some(18));
        assert_eq!(number(port.advance(1).err()), Some(18));
        assert_eq!(number(port.join(9, table().rows[0]).err()), Some(18));
        assert_eq!(number(port.leave(0).err()), Some(18));
        assert_eq!(port, before);
    } else {
        assert!(port.advance(0).is_ok());
    }
    clause
}

fn is_broken(name: &str, change: impl Fn(&mut Port)) {
    assert!(CLAUSES.contains(&name));
    assert_eq!(after(change), Some(name));
}

fn is_sound(change: impl Fn(&mut Port)) {
    assert_eq!(after(change), None);
}

#[test]
fn fresh_is_sound() {
    assert_eq!(broken(&Port::fresh(table())), None);
}

#[test]
fn table_not_accepted() {
    let name = "table not accepted";
    is_broken(name, |port| port.table.rows.clear());
    is_broken(name, |port| port.table.rows.resize(255, port.table.rows[0]));
    is_broken(name, |port| port.table.best_payload = u64::MAX);
    is_broken(name, |port| port.table.idle_b = 0);
    is_broken(name, |port| port.table.idle_b = 15_999);
    is_broken(name, |port| port.table.rows[1].deadline = 3129);
    is_sound(|port| port.table.rows[1].deadline = 3130);
    let rate = |port: &mut Port, rate| port.table.rows[0].pace = Pace::Rated { rate, samples: 6 };
    is_broken(name, |port| rate(port, 0));
    is_broken(name, |port| rate(port, 999));
    is_sound(|port| rate(port, 48_000));
    // 3,750 byte-times, less than the deadline.
    is_sound(|port| rate(port, 200_000));
    is_broken(name, |port| rate(port, 200_001));
}

#[test]
fn clock_out_of_range() {
    let idle = |port: &mut Port, clock| {
        *port = Port::fresh(table());
        port.clock = clock;
    };
    is_sound(|port| idle(port, 1_099_511_627_775));
    is_broken("clock out of range", |port| idle(port, 1_099_511_627_776));
    is_broken("clock out of range", |port| idle(port, u64::MAX));
}

#[test]
fn credit_out_of_range() {
    // A: −750,000 × 300 to 250,000 × 1542.
    is_sound(|port| port.credit_a = -225_000_000);
    is_broken("credit of A out of range", |port| {
        port.credit_a = -225_000_001
    });
    is_sound(|port| port.credit_a = 385_500_000);
    is_broken("credit of A out of range", |port| {
        port.credit_a = 385_500_001
    });
    // B: −800,000 × 500 to 200,000 × 2356.
    is_sound(|port| port.credit_b = -400_000_000);
    is_broken("credit of B out of range", |port| {
        port.credit_b = -400_000_001
    });
    is_sound(|port| port.credit_b = 471_200_000);
    is_broken("credit of B out of range", |port| {
        port.credit_b = 471_200_001
    });
    is_broken("credit of A out of range", |port| port.credit_a = i64::MAX);
    is_broken("credit of B out of range", |port| port.credit_b = i64::MIN);
    // An empty class has credit 0.
    let without_b = |port: &mut Port| {
        port.table.rows.truncate(2);
        port.table.idle_b = 0;
        port.queue_b.clear();
    };
    is_sound(without_b);
    for credit in [-1, 1] {
        is_broken("credit of B out of range", |port| {
            without_b(port);
            port.credit_b = credit;
        });
    }
}

#[test]
fn more_than_16_best_effort_frames() {
    is_sound(|port| port.queue_best.resize(16, best(84, 0)));
    is_broken("more than 16 best-effort frames wait", |port| {
        port.queue_best.resize(17, best(84, 0))
    });
}

#[test]
fn a_frame_names_no_row() {
    let name = "a frame names no row";
    is_broken(name, |port| port.queue_a[0].mark = Mark::Row(3));
    is_broken(name, |port| port.queue_b[0].mark = Mark::Row(32));
    is_broken(name, |port| port.queue_best[0].mark = Mark::Row(255));
    is_broken(name, |port| {
        port.wire = Wire::Sending(frame(3, 100, 950), 70)
    });
}

#[test]
fn a_frame_in_the_wrong_queue() {
    let name = "a frame is in the wrong queue";
    is_broken(name, |port| {
        let frame = port.queue_b.pop_front().unwrap();
        port.queue_a.push_back(frame);
    });
    is_broken(name, |port| {
        let frame = port.queue_a.pop_front().unwrap();
        port.queue_b.push_back(frame);
    });
    is_broken(name, |port| {
        let frame = port.queue_a.pop_front().unwrap();
        port.queue_best.push_back(frame);
    });
    is_broken(name, |port| port.queue_a.push_back(best(84, 0)));
    is_broken(name, |port| port.queue_b.push_back(best(84, 0)));
    is_sound(|port| port.wire = Wire::Sending(best(84, 0), 1));
}

#[test]
fn a_size_out_of_range() {
    let name = "a frame's size is out of range";
    is_broken(name, |port| port.queue_a[0].size = 83);
    is_sound(|port| port.queue_a[0].size = 84);
    is_broken(name, |port| port.queue_a[0].size = 301);
    is_broken(name, |port| port.queue_b[0].size = 83);
    is_broken(name, |port| port.queue_b[0].size = 501);
    is_broken(name, |port| port.queue_best[1].size = 83);
    is_broken(name, |port| port.queue_best[1].size = 1543);
    is_broken(name, |port| {
        port.wire = Wire::Sending(frame(0, 101, 950), 70)
    });
    is_broken(name, |port| port.wire = Wire::Sending(best(1543, 0), 70));
}

#[test]
fn bytes_left_out_of_range() {
    let name = "bytes left are 0 or above the size";
    let left = |port: &mut Port, left| port.wire = Wire::Sending(frame(0, 100, 950), left);
    is_broken(name, |port| left(port, 0));
    // In the gap, at the report, and before it.
    for bytes in [1, 11, 12, 13, 14, 100] {
        is_sound(|port| left(port, bytes));
    }
    is_broken(name, |port| left(port, 101));
    is_broken(name, |port| left(port, u64::MAX));
}

#[test]
fn an_instant_after_the_clock() {
    let name = "a frame's instant is after the clock";
    is_broken(name, |port| port.queue_best[0].instant = 1001);
    is_broken(name, |port| port.wire = Wire::Sending(best(84, 1001), 1));
    is_broken(name, |port| {
        port.queue_a[0].instant = 1001;
        port.last[1] = Some(1001);
    });
    is_sound(|port| {
        port.queue_a[0].instant = 1000;
        port.last[1] = Some(1000);
    });
    let name = "a row's last instant is after the clock";
    let no_b = |port: &mut Port, last| {
        port.queue_b.clear();
        port.last[2] = last;
    };
    is_sound(|port| no_b(port, None));
    is_sound(|port| no_b(port, Some(1000)));
    is_broken(name, |port| no_b(port, Some(1001)));
    // A row place not in use may hold anything.
    is_sound(|port| port.last[3] = Some(u64::MAX));
}

#[test]
fn a_row_with_too_many_frames() {
    let name = "a row has too many frames";
    is_broken(name, |port| port.queue_a.push_back(frame(1, 300, 960)));
    is_broken(name, |port| port.queue_a.push_back(frame(0, 100, 950)));
    is_broken(name, |port| {
        port.wire = Wire::Sending(frame(2, 500, 970), 500)
    });
    is_broken(name, |port| port.queue_a.resize(40, frame(1, 300, 960)));
}

#[test]
fn a_frame_not_of_the_last_instant() {
    let name = "a row's newest frame wasn't taken at the row's last instant";
    is_broken(name, |port| port.last[1] = None);
    is_broken(name, |port| port.last[1] = Some(961));
    is_broken(name, |port| port.last[2] = Some(969));
    is_broken(name, |port| port.last[0] = Some(0));
}

#[test]
fn a_frame_as_old_as_its_residence() {
    let name = "a row's frame is as old as its residence";
    // Waiting, or on the wire with some bytes left: before its report, at it,
    // and in the gap.
    let aged = |port: &mut Port, row: usize, age: u64, left: Option<u64>| {
        *port = Port::fresh(table());
        port.clock = 10_000;
        let taken = frame(row, 84, port.clock - age);
        port.last[row] = Some(taken.instant);
        match left {
            Some(left) => port.wire = Wire::Sending(taken, left),
            None if row == 2 => port.queue_b.push_back(taken),
            None => port.queue_a.push_back(taken),
        }
    };
    // The bounds are 3730, 3130 and 4844: a frame may be older than that.
    for (row, residence) in [(0, 3742), (1, 3142), (2, 4856)] {
        for left in [None, Some(84), Some(13), Some(12), Some(11), Some(1)] {
            for younger in [13, 12, 11, 1] {
                is_sound(|port| aged(port, row, residence - younger, left));
            }
            is_broken(name, |port| aged(port, row, residence, left));
            is_broken(name, |port| aged(port, row, residence + 1, left));
        }
    }
    // Best effort has no bound.
    is_sound(|port| {
        *port = Port::fresh(table());
        port.clock = 1_099_511_627_775;
        port.queue_best.push_back(best(84, 0));
    });
}

#[test]
fn first_clause_is_named() {
    is_broken("clock out of range", |port| {
        port.clock = u64::MAX;
        port.credit_a = i64::MAX;
        port.queue_a[0].size = 0;
    });
    is_broken("table not accepted", |port| {
        port.clock = u64::MAX;
        port.table.rows.clear();
    });
}
