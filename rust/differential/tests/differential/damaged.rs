//! Damaged records: the clauses of "broken" alone and in pairs, words of any
//! value at every place, wrong lengths, junk in the words that belong to no
//! part, and changed parts of ports that lists have led to.

use std::collections::BTreeSet;

use cases::driver::Driver;
use cases::ports;
use cases::random::Random;
use cases::tables;
use cases::traffic::{any_call, any_patch};
use differential::readable::{left_of, port_of};
use ithumeco::{call_bytes, put_words, words, Record, ANSWER_SIZE, RECORD_SIZE, WORD_SIZE};
use simulator::port::{CLAUSES, LAST_CLOCK};
use simulator::table::accept;
use simulator::{broken, Call, Class, Mark, Pace, Port, Row, Table, Wire};

use crate::bench::Bench;
use crate::damages::DAMAGES;
use crate::held::over_junk;

/// How much time passes on a port before its record is damaged.
const AGE: u64 = 300_000;

pub fn run(bench: &mut Bench) {
    let mut random = Random::new(5);
    let mut seen = BTreeSet::new();
    for _ in 0..bench.times(3) {
        for port in sound_ports(&mut random) {
            assert_eq!(broken(&port), None);
            clauses(bench, &mut random, &port, &mut seen);
            every_word(bench, &mut random, &port);
            some_words(bench, &mut random, &port);
            lengths(bench, &port);
            junk(bench, &mut random, &port);
        }
    }
    for _ in 0..bench.times(5500) {
        changed(bench, &mut random, &mut seen);
    }
    for clause in CLAUSES {
        assert!(seen.contains(clause), "no record for: {clause}");
    }
}

/// Ports of one table: busy with a row's frame on the wire, busy with a
/// best-effort frame on the wire, and idle; two of these of a table with empty
/// numbers; and one with several frames of a row in each queue.
fn sound_ports(random: &mut Random) -> [Port; 6] {
    let idle = idle_port(random, |_, table| table);
    let with_empty = idle_port(random, tables::scattered);
    let by_row = |idle: &Port| {
        let mut port = offered(idle.clone());
        port.advance(1).expect("a sound port");
        port
    };
    let mut by_best = idle.clone();
    by_best.offer_best(0).expect("a sound port");
    by_best.advance(1).expect("a sound port");
    [
        by_row(&idle),
        offered(by_best),
        idle,
        by_row(&with_empty),
        with_empty,
        crowded_port(random),
    ]
}

/// Whether a table has some rows of each class and of each pace, some with a tag
/// and some without, and some places not in use.
fn is_mixed(table: &Table) -> bool {
    let rows: Vec<&Row> = table.in_use().map(|(_, row)| row).collect();
    let of = |class| rows.iter().filter(|row| row.class == class).count();
    let is_rated = |row: &Row| matches!(row.pace, Pace::Rated { .. });
    let rated = rows.iter().filter(|row| is_rated(row)).count();
    let tagged = rows.iter().filter(|row| row.tagged).count();
    of(Class::A) >= 3
        && of(Class::B) >= 3
        && table.rows.len() <= 30
        && (1..rows.len()).contains(&rated)
        && (1..rows.len()).contains(&tagged)
}

/// A port with several frames of a row in the queue of A and in that of B.
fn crowded_port(random: &mut Random) -> Port {
    loop {
        let table = tables::crowded(random, AGE);
        let plan = accept(&table).expect("an accepted table");
        let several = |class| {
            let mut rows = table.rows.iter().zip(plan.most);
            rows.any(|(row, most)| row.class == class && most > 2)
        };
        if is_mixed(&table) && several(Class::A) && several(Class::B) {
            return ports::made_up(random, table);
        }
    }
}

/// A port whose table is mixed, and is changed first. Each row has been offered to
/// and all frames have ended.
fn idle_port(random: &mut Random, change: fn(&mut Random, Table) -> Table) -> Port {
    loop {
        let table = tables::within(random, AGE);
        let table = change(random, table);
        if !is_mixed(&table) {
            continue;
        }
        let mut driver = Driver::new(table);
        for row in driver.numbers() {
            driver.offer(row);
        }
        while driver.port.clock < AGE {
            driver.make(Call::Advance(65_535));
        }
        driver.drain();
        return driver.port;
    }
}

/// Best effort and all rows but the first of each class offered.
fn offered(mut port: Port) -> Port {
    for _ in 0..5 {
        let payload = port.table.best_payload;
        port.offer_best(payload).expect("a sound port");
    }
    for class in [Class::A, Class::B] {
        let table = port.table.clone();
        let of_class = table.in_use().filter(|(_, row)| row.class == class);
        for (number, row) in of_class.skip(1) {
            let offer = port.offer(number as u64, row.payload);
            offer.expect("a sound port");
        }
    }
    port
}

/// Makes one call on a record's bytes.
fn call(bench: &mut Bench, record: &[u8], call: Call) {
    bench.call(&mut record.to_vec(), &call_bytes(call), ANSWER_SIZE);
}

/// Makes each kind of call on a record's bytes.
fn every_call(bench: &mut Bench, random: &mut Random, port: &Port, record: &[u8]) {
    for row in 0..port.table.rows.len() as u64 {
        call(bench, record, Call::Offer(row, 0));
    }
    call(bench, record, Call::OfferBest(0));
    for n in [0, 1, 5000] {
        call(bench, record, Call::Advance(n));
    }
    for _ in 0..5 {
        call(bench, record, any_patch(random, &port.table));
    }
}

/// Each damage alone, and each two.
fn clauses(bench: &mut Bench, random: &mut Random, port: &Port, seen: &mut BTreeSet<&str>) {
    let plan = accept(&port.table).expect("a sound port");
    let sound = Record::from(port);
    let damaged: Vec<[u8; RECORD_SIZE]> = DAMAGES
        .iter()
        .map(|damage| {
            let mut record = sound.clone();
            damage(&mut record, &plan);
            seen.extend(port_of(&record).and_then(|port| broken(&port)));
            record.bytes()
        })
        .collect();
    let sound = sound.bytes();
    for (place, one) in damaged.iter().enumerate() {
        every_call(bench, random, port, one);
        for other in &damaged[place + 1..] {
            let pair = with_changes(one, &sound, other);
            call(bench, &pair, any_call(random, &port.table, left_of(&pair)));
        }
    }
}

/// The first record with the words that differ between the two others.
fn with_changes(
    first: &[u8; RECORD_SIZE],
    from: &[u8; RECORD_SIZE],
    to: &[u8; RECORD_SIZE],
) -> [u8; RECORD_SIZE] {
    let mut record = *first;
    for at in (0..RECORD_SIZE).step_by(WORD_SIZE) {
        if from[at..at + WORD_SIZE] != to[at..at + WORD_SIZE] {
            record[at..at + WORD_SIZE].copy_from_slice(&to[at..at + WORD_SIZE]);
        }
    }
    record
}

/// Words at the edges of fields and rules.
const EDGES: [u64; 34] = [
    0,
    1,
    2,
    5,
    7,
    11,
    12,
    13,
    14,
    16,
    17,
    32,
    33,
    64,
    65,
    83,
    84,
    200,
    255,
    256,
    999,
    1000,
    1500,
    65_535,
    65_536,
    200_000,
    200_001,
    u32::MAX as u64,
    1 << 32,
    LAST_CLOCK,
    LAST_CLOCK + 1,
    i64::MAX as u64,
    1 << 63,
    u64::MAX,
];

fn put(record: &mut [u8], at: usize, word: u64) {
    put_words(&[word], &mut record[at..]);
}

fn get(record: &[u8], at: usize) -> u64 {
    words(&record[at..]).next().expect("a word")
}

/// Every word at every edge.
fn every_word(bench: &mut Bench, random: &mut Random, port: &Port) {
    let sound = Record::from(port).bytes();
    for at in (0..RECORD_SIZE).step_by(WORD_SIZE) {
        let old = get(&sound, at);
        for word in EDGES
            .into_iter()
            .chain([old.wrapping_add(1), old.wrapping_sub(1)])
        {
            let mut record = sound;
            put(&mut record, at, word);
            let made = any_call(random, &port.table, left_of(&record));
            call(bench, &record, made);
        }
    }
}

/// A few words of any value, or with the value of another.
fn some_words(bench: &mut Bench, random: &mut Random, port: &Port) {
    let sound = Record::from(port).bytes();
    let place = |random: &mut Random| random.below(RECORD_SIZE / WORD_SIZE) * WORD_SIZE;
    for _ in 0..2000 {
        let mut record = sound;
        for _ in 0..random.between(1, 3) {
            let at = place(random);
            let old = get(&record, at);
            let word = match random.below(5) {
                0 => random.word(),
                1 => random.word() >> random.between(32, 63),
                2 => get(&record, place(random)),
                3 => old ^ 1 << random.below(64),
                _ => old.wrapping_add(random.between(0, 20)).wrapping_sub(10),
            };
            put(&mut record, at, word);
        }
        let made = any_call(random, &port.table, left_of(&record));
        call(bench, &record, made);
    }
}

/// Records that are too short or too long.
fn lengths(bench: &mut Bench, port: &Port) {
    let twice = Record::from(port).bytes().repeat(2);
    let around = RECORD_SIZE - 9..RECORD_SIZE + 10;
    for len in (0..10).chain(around).chain([RECORD_SIZE * 2]) {
        call(bench, &twice[..len], Call::Advance(1));
    }
    let mut with_zeros = twice;
    with_zeros[RECORD_SIZE..].fill(0);
    call(bench, &with_zeros, Call::Advance(1));
}

/// Records of a port that a list has led to, or that is made up, with a few of
/// its parts changed.
fn changed(bench: &mut Bench, random: &mut Random, seen: &mut BTreeSet<&str>) {
    let sound = ports::sound(random);
    for _ in 0..40 {
        let mut port = sound.clone();
        for _ in 0..random.between(1, 3) {
            ports::change(random, &mut port);
        }
        seen.extend(broken(&port));
        let mut record = Record::from(&port).bytes();
        for _ in 0..4 {
            let made = any_call(random, &sound.table, left_of(&record));
            bench.call(&mut record, &call_bytes(made), ANSWER_SIZE);
        }
    }
}

/// Junk in the words that belong to no part.
fn junk(bench: &mut Bench, random: &mut Random, port: &Port) {
    for _ in 0..20 {
        // A row that was never offered to.
        let mut port = port.clone();
        if let Some(never) = without_frames(&port) {
            port.last[never] = None;
        }
        let record = over_junk(random, &port);
        every_call(bench, random, &port, &record);
        let mut kept = record;
        for _ in 0..10 {
            let made = any_call(random, &port.table, left_of(&kept));
            bench.call(&mut kept, &call_bytes(made), ANSWER_SIZE);
        }
    }
}

/// The first row that has no frame in the port.
fn without_frames(port: &Port) -> Option<usize> {
    let has = |row| {
        let mark = Mark::Row(row);
        let mut waiting = port.queue_a.iter().chain(&port.queue_b);
        let sent = matches!(port.wire, Wire::Sending(frame, _) if frame.mark == mark);
        sent || waiting.any(|frame| frame.mark == mark)
    };
    let mut rows = port.table.in_use().map(|(row, _)| row);
    rows.find(|&row| !has(row))
}
