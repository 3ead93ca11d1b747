//! The record held to the simulator's port: answers and ports, on lists of
//! calls, on ports that are made up or changed, and at the edges of tables. The
//! seeds are fixed.

use std::collections::BTreeSet;

use cases::crowds;
use cases::driver::{left_on, Driver};
use cases::hunt::Hunt;
use cases::ports;
use cases::random::Random;
use cases::rates;
use cases::tables::{self, rated, row, tagged};
use cases::tags;
use cases::traffic::{any_call, TRAFFIC};
use inplace::{Frame, Pace, Port, Queue, Row};
use simulator::port::{CLAUSES, LAST_CLOCK, MOST_BEST};
use simulator::refusal::refuse;
use simulator::table::accept;
use simulator::{broken, wire_size, Call, Class, Mark, Table, Wire};

/// A port of the simulator and two records of it: with zeros in the places that
/// are not in use, and with junk.
struct Held {
    theirs: simulator::Port,
    ours: [Port; 2],
}

impl Held {
    /// None if the port does not fit.
    fn new(random: &mut Random, port: &simulator::Port) -> Option<Held> {
        let record = Port::of(port)?;
        let ours = [record, with_junk(random, record)];
        for record in &ours {
            assert!(simulator::Port::from(record) == *port);
            assert_eq!(record.is_broken(), broken(port).is_some(), "{port:?}");
        }
        let theirs = port.clone();
        Some(Held { theirs, ours })
    }

    /// Makes a call, and gives the refusal's number or 0.
    fn make(&mut self, call: Call) -> u8 {
        let answer = self.theirs.make(call);
        for record in &mut self.ours {
            let before = *record;
            assert_eq!(record.make(call), answer, "{call:?} on {before:?}");
            assert!(simulator::Port::from(&*record) == self.theirs);
            assert!(answer.is_ok() || *record == before);
        }
        answer.map_or_else(|refusal| refusal.number, |_| 0)
    }
}

fn any_row(random: &mut Random) -> Row {
    let paces = [
        Pace::Period(random.word() as u32),
        Pace::Rated {
            rate: random.word() as u32,
            samples: random.word() as u8,
        },
    ];
    Row {
        class: random.pick(&[Class::A, Class::B]),
        tagged: random.one_in(2),
        payload: random.word() as u16,
        pace: random.pick(&paces),
        deadline: random.word() as u32,
    }
}

fn fill<const PLACES: usize>(random: &mut Random, queue: &mut Queue<PLACES>) {
    for place in &mut queue.frames[queue.count..] {
        *place = Frame {
            source: random.pick(&[0, 1, 31, 32, u32::MAX]),
            size: random.pick(&[0, 84, u32::MAX]),
            taken: random.word(),
        };
    }
}

/// A record with junk in the places that are not in use, at times such as rows
/// have.
fn with_junk(random: &mut Random, mut record: Port) -> Port {
    for place in 0..record.table.rows.len() {
        let is_row = place < record.table.count;
        if is_row && record.table.rows[place] != Row::EMPTY {
            continue;
        }
        record.last[place] = Some(random.word());
        if !is_row {
            let any = any_row(random);
            record.table.rows[place] = random.pick(&[any, record.table.rows[0]]);
            let any = random.word();
            record.bounds[place] = random.pick(&[any, record.bounds[0]]);
        }
    }
    fill(random, &mut record.queue_a);
    fill(random, &mut record.queue_b);
    fill(random, &mut record.queue_best);
    record
}

#[test]
fn lists() {
    let mut random = Random::new(20);
    let mut drivers: Vec<Driver> = Vec::new();
    for traffic in TRAFFIC {
        for _ in 0..800 {
            let mut driver = Driver::new(tables::lively(&mut random));
            traffic(&mut random, &mut driver, 150);
            drivers.push(driver);
        }
    }
    let fixed = [rates::table(), tags::table()];
    for table in crowds::all().into_iter().chain(fixed) {
        for hunt in Hunt::all(&table) {
            let mut driver = Driver::new(table.clone());
            hunt.run(&mut driver);
            driver.calls.truncate(1000);
            drivers.push(driver);
        }
    }
    let (mut seen, mut most) = (BTreeSet::new(), 0);
    let (mut offered, mut joined) = ([0; 2], [0; 2]);
    for driver in drivers {
        let about = driver.calls.iter().zip(&driver.rows).zip(&driver.answers);
        for ((call, row), _) in about.filter(|(_, answer)| answer.is_ok()) {
            let tagged = row.filter(|row| row.tagged).map(|row| row.class as usize);
            match (call, tagged) {
                (Call::Offer(..), Some(class)) => offered[class] += 1,
                (Call::Join(..), Some(class)) => joined[class] += 1,
                _ => (),
            }
        }
        let fresh = simulator::Port::fresh(driver.opened);
        let mut held = Held::new(&mut random, &fresh).expect("a table that fits");
        for call in driver.calls {
            seen.insert(held.make(call));
            most = most.max(held.theirs.queue_b.len());
        }
    }
    let of_patches = [5, 8, 9, 10, 20, 21, 22];
    let expected = of_patches.into_iter().chain([0, 11, 12, 13, 14, 15]);
    assert_eq!(seen, expected.collect());
    assert!(most > 50, "{most} frames of B at once");
    println!("{offered:?} frames with a tag and {joined:?} joins of tagged rows in A and B");
    assert!(offered.iter().all(|&count| count > 2000));
    assert!(joined.iter().all(|&count| count > 200));
}

/// A sound port of any kind.
fn sound_port(random: &mut Random) -> simulator::Port {
    let table = match random.below(4) {
        0 => crowds::all()[random.below(5)].clone(),
        1 => tables::patched(random),
        _ => tables::lively(random),
    };
    match random.below(8) {
        0 => ports::full(table),
        1 => ports::full_reversed(table),
        2 => {
            let clock = LAST_CLOCK - random.between(0, 3000);
            ports::moved(ports::made_up(random, table), clock)
        }
        3..=5 => ports::made_up(random, table),
        _ => ports::reached(random),
    }
}

#[test]
fn sound_and_broken_records() {
    let mut random = Random::new(21);
    let (mut clauses, mut numbers, mut misfits) = (BTreeSet::new(), BTreeSet::new(), 0);
    for _ in 0..2000 {
        let sound = sound_port(&mut random);
        for changes in (0..40).map(|time| time % 4) {
            let mut port = sound.clone();
            for _ in 0..changes {
                ports::change(&mut random, &mut port);
            }
            let clause = broken(&port);
            let Some(mut held) = Held::new(&mut random, &port) else {
                assert!(clause.is_some(), "a sound port fits");
                misfits += 1;
                continue;
            };
            clauses.insert(clause);
            for _ in 0..4 {
                let left = left_on(&held.theirs.wire);
                numbers.insert(held.make(any_call(&mut random, &sound.table, left)));
            }
        }
    }
    assert!(misfits < 5000, "{misfits} of 80,000 do not fit");
    // More than 16 best-effort frames have no place.
    let expected = CLAUSES.map(Some).into_iter().chain([None]);
    let expected = expected.filter(|&clause| clause != Some(CLAUSES[6]));
    assert_eq!(clauses, expected.collect());
    let of_patches = [5, 8, 9, 10, 20, 21, 22];
    let expected = [0, 11, 12, 13, 14, 15, 16, 18].into_iter();
    assert_eq!(numbers, expected.chain(of_patches).collect());
}

#[test]
fn tables_at_the_edges() {
    let mut random = Random::new(22);
    let mut seen = BTreeSet::new();
    for time in 0..50_000 {
        let table = match time % 10 {
            0 => tables::overfull(&mut random),
            _ => tables::edge(&mut random),
        };
        let refusal = accept(&table).err();
        let Some(record) = Port::fresh(&table) else {
            assert!(refusal.is_some(), "an accepted table fits");
            continue;
        };
        let broken = broken(&simulator::Port::fresh(table.clone()));
        for record in [record, with_junk(&mut random, record)] {
            assert_eq!(record.is_broken(), broken.is_some(), "{table:?}");
        }
        let class = |place| if place == 0 { "A" } else { "B" };
        seen.extend(refusal.map(|refusal| match refusal.number {
            9 | 20 => (refusal.number, class(refusal.place)),
            number => (number, ""),
        }));
    }
    let (of_9, of_20) = ([(9, "A"), (9, "B")], [(20, "A"), (20, "B")]);
    let others = [3, 5, 8, 10].map(|number| (number, ""));
    let expected = of_9.into_iter().chain(of_20).chain(others);
    assert_eq!(seen, expected.collect());
}

/// Offers with each payload there is, to rows with a tag and without.
#[test]
fn sizes_of_every_payload() {
    let mut random = Random::new(23);
    let of_1500 = |class| row(class, 1500, 1_000_000, 1_000_000);
    let mut table = tags::table();
    table.rows = [Class::A, Class::B].map(of_1500).to_vec();
    table
        .rows
        .extend(table.rows.clone().into_iter().map(tagged));
    let fresh = simulator::Port::fresh(table);
    for payload in 0..=1501 {
        let mut held = Held::new(&mut random, &fresh).expect("a table that fits");
        for number in 0..4 {
            held.make(Call::Offer(number, payload));
        }
    }
}

/// A frame that is longer than it would be without its row's tag, up to its
/// row's size and one byte longer.
#[test]
fn frames_as_long_as_their_tag_lets_them_be() {
    let mut random = Random::new(24);
    let mut longer = 0;
    for _ in 0..1000 {
        let table = tables::lively(&mut random);
        let sound = ports::made_up(&mut random, table);
        for more in [0, 1] {
            let mut port = sound.clone();
            for frame in port.queue_a.iter_mut().chain(&mut port.queue_b) {
                let Mark::Row(number) = frame.mark else {
                    continue;
                };
                let row = port.table.rows[number];
                frame.size = row.size() + more;
                longer += u32::from(frame.size > wire_size(row.payload) && more == 0);
            }
            let held = Held::new(&mut random, &port).expect("a port that fits");
            let frames = port.queue_a.len() + port.queue_b.len();
            let is_broken = broken(&held.theirs).is_some();
            assert_eq!(is_broken, more == 1 && frames > 0);
        }
    }
    println!("{longer} frames that are longer by their tag");
    assert!(longer > 500);
}

/// A sound port with as many frames as its table lets there be.
fn crowded_port(table: Table) -> simulator::Port {
    let mut port = ports::full(table);
    for _ in 0..MOST_BEST {
        port.offer_best(42).expect("a sound port");
    }
    port
}

/// 32 rows in use, and 64 frames in each class: one more has no place.
#[test]
fn counts_above_the_places() {
    let changes: [fn(&mut Port, usize); 4] = [
        |port, more| port.table.count += more,
        |port, more| port.queue_a.count += more,
        |port, more| port.queue_b.count += more,
        |port, more| port.queue_best.count += more,
    ];
    for table in [crowds::two_of_each(), crowds::full_classes()] {
        let sound = Port::of(&crowded_port(table)).expect("a port that fits");
        assert!(!sound.is_broken());
        for change in changes {
            for more in [1, usize::MAX / 2] {
                let mut port = sound;
                change(&mut port, more);
                let before = port;
                for call in [Call::Offer(0, 0), Call::OfferBest(0), Call::Advance(0)] {
                    assert_eq!(port.make(call), refuse(18, 0));
                }
                assert!(port == before);
            }
        }
    }
}

/// A change of a port to a number.
type Change = fn(&mut simulator::Port, u64);

fn put_row(port: &mut simulator::Port, row: simulator::Row) {
    port.table.rows[2] = row;
}

/// Each number that has no place in its field, and the largest that has.
#[test]
fn what_does_not_fit() {
    const U16: u64 = 1 << 16;
    const U32: u64 = 1 << 32;
    let changes: [(u64, Change); 15] = [
        (U32, |port, word| port.table.idle_a = word),
        (U32, |port, word| port.table.idle_b = word),
        (U16, |port, word| port.table.best_payload = word),
        (U16, |port, word| put_row(port, row(Class::A, word, 84, 1))),
        (U32, |port, word| put_row(port, row(Class::A, 42, word, 1))),
        (U32, |port, word| put_row(port, row(Class::A, 42, 84, word))),
        (U32, |port, word| {
            put_row(port, rated(Class::A, 42, word, 1))
        }),
        (1 << 8, |port, word| {
            put_row(port, rated(Class::A, 42, 1000, word))
        }),
        (33, |port, word| {
            port.table.rows.resize(word as usize, port.table.rows[0])
        }),
        (65, |port, word| {
            port.queue_a.resize(word as usize, port.queue_a[0])
        }),
        (65, |port, word| {
            port.queue_b.resize(word as usize, port.queue_b[0])
        }),
        (17, |port, word| {
            port.queue_best.resize(word as usize, port.queue_best[0])
        }),
        (U32, |port, word| port.queue_a[0].size = word),
        (U32, |port, word| {
            port.queue_b[0].mark = Mark::Row(word as usize)
        }),
        (U32, |port, word| {
            port.wire = Wire::Sending(port.queue_a[0], word)
        }),
    ];
    for (first, change) in changes {
        let mut port = crowded_port(crowds::full_classes());
        change(&mut port, first - 1);
        let record = Port::of(&port).expect("a port that fits");
        assert!(simulator::Port::from(&record) == port);
        change(&mut port, first);
        assert!(Port::of(&port).is_none(), "{port:?}");
    }
    // The number 32 stands for best effort.
    let mut port = crowded_port(crowds::full_classes());
    port.queue_best[0].mark = Mark::Row(32);
    assert!(Port::of(&port).is_none());
}
