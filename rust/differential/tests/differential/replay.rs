//! Lists of calls.

use cases::driver::Driver;
use cases::files::{any_file, damaged};
use cases::random::Random;
use cases::specimen::FILE;
use cases::traffic::TRAFFIC;
use cases::{tables, tags};
use ithumeco::{list_bytes, ANSWER_SIZE, CALL_SIZE};
use simulator::Call;

use crate::bench::Bench;
use crate::wrong::{edge_joins, wrong_calls};

pub fn run(bench: &mut Bench) {
    let mut random = Random::new(3);
    for _ in 0..bench.times(1500) {
        let count = random.below(600);
        played(bench, &mut random, count);
    }
    played(bench, &mut random, 20_000);
    misfits(bench, &mut random);
}

/// Lists on the ports of accepted tables.
fn played(bench: &mut Bench, random: &mut Random, count: usize) {
    for traffic in TRAFFIC {
        let mut driver = Driver::new(tables::lively(random));
        traffic(random, &mut driver, count);
        bench.replay_played(&driver, random.below(50));
    }
}

/// Lists that do not fit: 101, 102, 103, and the file's refusals behind them.
fn misfits(bench: &mut Bench, random: &mut Random) {
    let calls = list_bytes(&[0, 50, 100, 150, 200, 250, 300].map(Call::Advance));
    let answers = 7 * ANSWER_SIZE;
    let others = [wrong_calls(), edge_joins()].concat();
    bench.replay(&FILE, &[], 0);
    for len in 0..=calls.len() {
        bench.replay(&FILE, &calls[..len], answers);
    }
    for room in 0..answers + 50 {
        bench.replay(&FILE, &calls, room);
    }
    for place in 0..7 {
        for other in &others {
            let mut calls = calls.clone();
            calls[place * CALL_SIZE..][..CALL_SIZE].copy_from_slice(other);
            bench.replay(&FILE, &calls, answers);
        }
    }
    for _ in 0..bench.times(40_000) {
        let file = match random.below(6) {
            0 => damaged(random, &FILE),
            1 => any_file(random),
            2 => damaged(random, &tags::FILE),
            3 => tags::FILE.to_vec(),
            _ => FILE.to_vec(),
        };
        let mut calls = calls.clone();
        for _ in 0..random.below(3) {
            let place = random.below(7);
            let other = random.pick(&others);
            calls[place * CALL_SIZE..][..CALL_SIZE].copy_from_slice(&other);
        }
        if random.one_in(2) {
            calls.truncate(random.below(calls.len() + 1));
        }
        bench.replay(&file, &calls, random.below(answers + 50));
    }
}
