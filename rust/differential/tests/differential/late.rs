//! Records with a clock near its last value, and beyond it.

use cases::ports::{full, moved, reached};
use cases::random::Random;
use cases::traffic::any_call;
use cases::{crowds, specimen};
use differential::readable::left_of;
use ithumeco::{call_bytes, Answer, Record, ANSWER_SIZE};
use simulator::port::{LAST_CLOCK, MOST_ADVANCE};
use simulator::{Call, Port};

use crate::bench::Bench;

pub fn run(bench: &mut Bench) {
    let mut random = Random::new(6);
    for left in [
        0, 1, 2, 11, 12, 13, 99, 100, 101, 65_534, 65_535, 65_536, 100_000,
    ] {
        for port in ports() {
            let late = moved(port, LAST_CLOCK - left);
            for n in edges(left) {
                advance(bench, &late, left, n);
            }
            for _ in 0..bench.times(10) {
                any_calls(bench, &mut random, &late);
            }
        }
        for _ in 0..bench.times(200) {
            let port = reached(&mut random);
            any_calls(bench, &mut random, &moved(port, LAST_CLOCK - left));
        }
    }
    for clock in [LAST_CLOCK + 1, i64::MAX as u64, 1 << 63, u64::MAX] {
        let mut record = Record::from(&Port::fresh(specimen::table()));
        record.clock = clock;
        let said = bench.call(
            &mut record.bytes(),
            &call_bytes(Call::Advance(0)),
            ANSWER_SIZE,
        );
        assert_eq!(said, Some(Answer::refused(18, 0)));
    }
}

/// The specimen's port: fresh, with a row that has joined past empty numbers, with
/// frames waiting and on the wire, and with one of them just reported; and a port
/// with full class queues.
fn ports() -> [Port; 5] {
    let fresh = Port::fresh(specimen::table());
    let mut patched = fresh.clone();
    patched.join(9, specimen::FOURTH).expect("a row that fits");
    let mut busy = patched.clone();
    for row in 0..3 {
        busy.offer(row, 0).expect("a sound port");
    }
    busy.offer_best(1500).expect("a sound port");
    busy.advance(1).expect("a sound port");
    let mut in_gap = busy.clone();
    in_gap.advance(MOST_ADVANCE).expect("a sound port");
    let full = full(crowds::full_classes());
    [fresh, patched, busy, in_gap, full]
}

/// Calls one by one on a port's record.
fn any_calls(bench: &mut Bench, random: &mut Random, port: &Port) {
    let mut record = Record::from(port).bytes();
    for _ in 0..50 {
        let call = any_call(random, &port.table, left_of(&record));
        bench.call(&mut record, &call_bytes(call), ANSWER_SIZE);
    }
}

/// Counts around the time that is left and around the most there is.
fn edges(left: u64) -> [u64; 8] {
    let most = MOST_ADVANCE;
    let below = left.saturating_sub(1);
    [0, 1, below, left, left + 1, most, most + 1, u64::MAX]
}

/// 15 comes before 16, and an advance to the last value is taken.
fn advance(bench: &mut Bench, port: &Port, left: u64, n: u64) {
    let mut record = Record::from(port).bytes();
    let said = bench.call(&mut record, &call_bytes(Call::Advance(n)), ANSWER_SIZE);
    let number = match n {
        _ if n > MOST_ADVANCE => 15,
        _ if n > left => 16,
        _ => 0,
    };
    assert_eq!(said.map(|answer| answer.number), Some(number));
}
