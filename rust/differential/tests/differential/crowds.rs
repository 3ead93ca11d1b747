//! Rows with several frames in the port: lists that lead there, and records of
//! it, in order and not, up to full class queues.

use std::collections::BTreeSet;

use cases::driver::Driver;
use cases::hunt::Hunt;
use cases::ports::{change, full, full_reversed, made_up};
use cases::random::Random;
use cases::tags::twins;
use cases::traffic::{any_call, TRAFFIC};
use cases::{crowds, tables};
use differential::readable::left_of;
use ithumeco::{call_bytes, Record, ANSWER_SIZE};
use simulator::port::MOST_ADVANCE;
use simulator::table::{accept, GAP, MOST_IN_CLASS};
use simulator::{broken, Call, Class, Frame, Mark, Port, Table, Wire};

use crate::bench::Bench;
use crate::held::Held;

/// The longest period of a random table.
const LONGEST: u64 = 200_000;

pub fn run(bench: &mut Bench) {
    let mut random = Random::new(9);
    let mut led = Led::default();
    let counts = (1..=62).map(crowds::with_frames);
    let tagged = crowds::all().into_iter().map(twins);
    for table in crowds::all().into_iter().chain(tagged).chain(counts) {
        led_to(bench, &mut random, &mut led, &table);
        records(bench, &mut random, &table);
    }
    for _ in 0..bench.times(60) {
        let table = tables::crowded(&mut random, LONGEST);
        led_to(bench, &mut random, &mut led, &table);
        let table = match random.below(2) {
            0 => tables::scattered(&mut random, table),
            _ => table,
        };
        records(bench, &mut random, &table);
    }
    full_queues(bench);
    led.print();
}

/// How many frames lists have brought into a port at once.
#[derive(Default)]
struct Led {
    of_a_row: BTreeSet<usize>,
    most_in_class: usize,
}

impl Led {
    fn print(&self) {
        let (seen, most) = (&self.of_a_row, self.most_in_class);
        println!("lists lead to {seen:?} frames of a row at most, and to {most} of a class");
        let right = (1..=40).all(|count| seen.contains(&count)) && most > 55;
        assert!(right, "lists that lead to few frames");
    }
}

/// Lists in which rows have as many frames in the port as can be, at times with
/// rows that join while frames wait.
fn led_to(bench: &mut Bench, random: &mut Random, led: &mut Led, table: &Table) {
    let mut most = vec![0; table.rows.len()];
    let mut hunts = Hunt::all(table);
    if random.one_in(8) {
        hunts.extend(Hunt::all_with_joins(table));
    }
    for hunt in hunts {
        let mut driver = Driver::new(table.clone());
        hunt.run(&mut driver);
        if random.one_in(4) {
            random.pick(&TRAFFIC)(random, &mut driver, 300);
        }
        let played = bench.replay_played(&driver, 0);
        for (most, count) in most.iter_mut().zip(played.most) {
            *most = count.max(*most);
        }
        for count in played.most_in_class {
            led.most_in_class = led.most_in_class.max(count);
        }
    }
    led.of_a_row.extend(most);
}

/// Records of a table: full ones, ones that are made up, and each of them
/// changed.
fn records(bench: &mut Bench, random: &mut Random, table: &Table) {
    for port in [full(table.clone()), full_reversed(table.clone())] {
        is_sound(bench, &port);
        edges(bench, &port);
        some_calls(bench, random, table, &port);
    }
    for _ in 0..20 {
        let port = made_up(random, table.clone());
        is_sound(bench, &port);
        edges(bench, &port);
        some_calls(bench, random, table, &port);
        let mut port = port;
        for _ in 0..random.between(1, 3) {
            change(random, &mut port);
        }
        some_calls(bench, random, table, &port);
    }
}

/// Some calls on a table's port, one by one.
fn some_calls(bench: &mut Bench, random: &mut Random, table: &Table, port: &Port) {
    let mut record = Record::from(port).bytes();
    for _ in 0..10 {
        let made = any_call(random, table, left_of(&record));
        bench.call(&mut record, &call_bytes(made), ANSWER_SIZE);
    }
}

/// The number that an advance by 0 answers.
fn number(bench: &mut Bench, port: &Port) -> u64 {
    let mut record = Record::from(port).bytes();
    let said = bench.call(&mut record, &call_bytes(Call::Advance(0)), ANSWER_SIZE);
    said.expect("a call that is made").number
}

fn is_sound(bench: &mut Bench, port: &Port) {
    assert_eq!(broken(port), None);
    assert_eq!(number(bench, port), 0);
}

fn is_broken(bench: &mut Bench, port: &Port) {
    assert_ne!(broken(port), None);
    assert_eq!(number(bench, port), 18);
}

/// The frames of a row in the port, the oldest first.
fn of_row(port: &mut Port, row: usize) -> Vec<&mut Frame> {
    let on_wire = match &mut port.wire {
        Wire::Sending(frame, _) => Some(frame),
        Wire::Free => None,
    };
    let frames = port.queue_a.iter_mut().chain(&mut port.queue_b);
    let frames = frames.chain(on_wire);
    let mut frames: Vec<&mut Frame> = frames
        .filter(|frame| frame.mark == Mark::Row(row))
        .collect();
    frames.sort_by_key(|frame| frame.instant);
    frames
}

/// Each row's frames at the edges of the rules for records, and across them.
fn edges(bench: &mut Bench, sound: &Port) {
    let plan = accept(&sound.table).expect("an accepted table");
    for (row, of_table) in sound.table.rows.iter().enumerate() {
        let mut port = sound.clone();
        let instants = of_row(&mut port, row).into_iter();
        let instants: Vec<u64> = instants.map(|frame| frame.instant).collect();
        let [oldest, .., newest] = instants[..] else {
            continue;
        };
        let period = of_table.period();
        let (count, before) = (instants.len(), instants[instants.len() - 2]);

        // A period apart is sound, and one byte-time less is not: at the front
        // and at the back.
        for (off, sound_too) in [(0, true), (1, false)] {
            let mut port = sound.clone();
            of_row(&mut port, row)[0].instant = instants[1] - period + off;
            held(bench, &port, sound_too);
            let mut port = sound.clone();
            of_row(&mut port, row)[count - 1].instant = before + period - off;
            port.last[row] = Some(before + period - off);
            held(bench, &port, sound_too);
        }
        // The newest is at the row's last instant.
        for last in [None, Some(oldest), Some(before), Some(newest - 1)] {
            let mut port = sound.clone();
            port.last[row] = last;
            held(bench, &port, false);
        }
        // A frame too many, and one that takes the newest's place.
        for instant in [oldest.saturating_sub(period), oldest, newest] {
            if count as u64 == plan.most[row] {
                let mut port = sound.clone();
                let frame = *of_row(&mut port, row)[0];
                let added = Frame { instant, ..frame };
                match of_table.class {
                    Class::A => port.queue_a.push_front(added),
                    Class::B => port.queue_b.push_front(added),
                }
                held(bench, &port, false);
            }
        }
        // The oldest as old as its residence, and younger: also about its bound.
        for younger in [0, 1, GAP - 1, GAP, GAP + 1] {
            let mut port = sound.clone();
            let age = plan.residences[row] - younger;
            of_row(&mut port, row)[0].instant = port.clock - age;
            // The second may be too near then.
            let apart = instants[1].saturating_sub(port.clock - age) >= period;
            held(bench, &port, younger > 0 && apart);
        }
    }
}

/// A record with more frames than places cannot be written.
fn held(bench: &mut Bench, port: &Port, sound: bool) {
    if [&port.queue_a, &port.queue_b]
        .iter()
        .any(|queue| queue.len() as u64 > MOST_IN_CLASS)
    {
        assert_ne!(broken(port), None);
    } else if sound {
        is_sound(bench, port);
    } else {
        is_broken(bench, port);
    }
}

/// A port with 64 frames in each class queue, led on until they have all gone
/// out or one is too old.
fn full_queues(bench: &mut Bench) {
    for port in [
        full(crowds::full_classes()),
        full_reversed(crowds::full_classes()),
        full(crowds::two_of_each()),
        full_reversed(crowds::two_of_each()),
        full(twins(crowds::full_classes())),
    ] {
        assert!(port.queue_a.len() as u64 == MOST_IN_CLASS);
        let rows = port.table.rows.len() as u64;
        let record = Record::from(&port).bytes().to_vec();
        let mut held = Held { record, port };
        for _ in 0..200 {
            let offers = (0..rows).map(|row| Call::Offer(row, 0));
            for call in offers.chain([Call::Advance(MOST_ADVANCE)]) {
                let _ = held.make(bench, call, ANSWER_SIZE);
            }
        }
    }
}
