//! Lists of calls made one by one on a record's bytes.

use cases::driver::Driver;
use cases::random::Random;
use cases::specimen;
use cases::tables;
use cases::traffic::{any_call, TRAFFIC};
use differential::readable::left_of;
use ithumeco::{call_bytes, ANSWER_SIZE, CALL_SIZE, RECORD_SIZE};
use simulator::{Call, Port, Table};

use crate::bench::Bench;
use crate::held::Held;
use crate::wrong::{edge_joins, wrong_calls};

pub fn run(bench: &mut Bench) {
    let mut random = Random::new(4);
    for _ in 0..bench.times(600) {
        let table = tables::lively(&mut random);
        let mut driver = Driver::new(table.clone());
        for traffic in TRAFFIC {
            traffic(&mut random, &mut driver, 100);
        }
        one_by_one(bench, &mut random, table, &driver.calls);
    }
    misfits(bench, &mut random);
}

/// A fresh record, as the library gives it, at times in a longer buffer.
fn opened(random: &mut Random, file: &[u8]) -> Vec<u8> {
    let room = RECORD_SIZE + random.pick(&[0, 0, 1, 24]);
    let mut record = random.bytes(room);
    assert_eq!(ithumeco::open(file, &mut record), Ok(()));
    record
}

/// Makes the calls on the record that the library has opened.
fn one_by_one(bench: &mut Bench, random: &mut Random, table: Table, calls: &[Call]) {
    let file = bench.file(&table);
    let record = opened(random, &file);
    let port = Port::fresh(table);
    let mut held = Held { record, port };
    for call in calls {
        let room = ANSWER_SIZE + random.pick(&[0, 0, 1, 24]);
        let _ = held.make(bench, *call, room);
    }
}

/// Calls of any length, answers of any room.
fn misfits(bench: &mut Bench, random: &mut Random) {
    let mut record = opened(random, &specimen::FILE);
    let table = specimen::table();
    for len in 0..=CALL_SIZE * 2 {
        let call = [call_bytes(Call::Advance(1)); 2].concat();
        bench.call(&mut record, &call[..len], ANSWER_SIZE);
    }
    for room in 0..ANSWER_SIZE * 2 {
        let call = any_call(random, &table, left_of(&record));
        bench.call(&mut record, &call_bytes(call), room);
    }
    for call in wrong_calls() {
        assert_eq!(bench.call(&mut record, &call, ANSWER_SIZE), None);
    }
    for call in edge_joins() {
        assert!(bench.call(&mut record, &call, ANSWER_SIZE).is_some());
    }
    for _ in 0..bench.times(20_000) {
        let mut call = call_bytes(any_call(random, &table, left_of(&record)));
        if random.one_in(2) {
            call[random.below(CALL_SIZE)] ^= 1 << random.below(8);
        }
        let len = CALL_SIZE - random.pick(&[0, 0, 0, 1, 8, 40]);
        bench.call(&mut record, &call[..len], random.pick(&[0, 39, 40, 41, 60]));
    }
}
