//! The promise: no frame of a row is older than its row's bound when it is
//! reported ended; where rows join, than the largest that its row has had since
//! it was taken.

use std::io::stdout;

use cases::driver::Driver;
use cases::hunt::Hunt;
use cases::random::Random;
use cases::traffic::{dense_calls, patched_calls};
use cases::{crowds, rates, specimen, tables, tags};
use simulator::{Class, Table};

use crate::bench::{Bench, Played};

/// The longest period of a table that is hunted on.
const LONGEST: u64 = 200_000;

type Traffic = fn(&mut Random, &mut Driver, usize);

pub fn run(bench: &mut Bench) {
    let mut random = Random::new(8);
    let mut closest = Closest::default();
    let fixed = [specimen::table(), rates::table(), tags::table()];
    for table in fixed.into_iter().chain(crowds::all()) {
        on_table(bench, &mut random, &mut closest, table);
    }
    for _ in 0..bench.times(350) {
        for class in [Class::A, Class::B] {
            let table = tables::tight(&mut random, class);
            on_table(bench, &mut random, &mut closest, table);
        }
        let table = tables::within(&mut random, LONGEST);
        on_table(bench, &mut random, &mut closest, table);
    }
    for _ in 0..bench.times(175) {
        for class in [Class::A, Class::B] {
            let table = tables::tight_crowded(&mut random, class);
            on_table(bench, &mut random, &mut closest, table);
        }
        let table = tables::crowded(&mut random, LONGEST);
        on_table(bench, &mut random, &mut closest, table);
    }
    closest.print();
    closest.is_close();
}

/// Hunts for each row's oldest frame, each time from a fresh port or, on some
/// tables, one after the other in one list; then dense traffic. On some tables
/// rows join while frames wait.
fn on_table(bench: &mut Bench, random: &mut Random, closest: &mut Closest, table: Table) {
    let in_one_list = random.one_in(20);
    let (hunts, traffic): (_, Traffic) = match random.below(8) {
        0 => (Hunt::all_with_joins(&table), patched_calls),
        _ => (Hunt::all(&table), dense_calls),
    };
    let mut driver = Driver::new(table.clone());
    for hunt in hunts {
        hunt.run(&mut driver);
        if !in_one_list {
            closest.see(&table, &bench.replay_played(&driver, 0));
            driver = Driver::new(table.clone());
        }
    }
    traffic(random, &mut driver, 1000);
    driver.drain();
    closest.see(&table, &bench.replay_played(&driver, 0));
}

/// The ages that came closest to their limits: in A, in B where there is no
/// row of A, and in B behind A; then the same of frames that were reported with
/// another frame of their row in the port, of frames whose row's bound rose while
/// they were in it, and of frames with a tag.
#[derive(Default)]
struct Closest {
    ages: [(u64, u64); KINDS.len()],
    frames: u64,
    /// The frames that were reported with another of their row in the port.
    beside: u64,
    /// The frames whose row's bound rose, and those of them that were older than it
    /// was when they were taken.
    raised: u64,
    older: u64,
    /// The frames with a tag.
    tagged: u64,
    /// The most frames of a row and of a class that were in the port at once.
    most: usize,
    most_in_class: usize,
}

/// Each of these with the hundredths of its limit that an age is to come to. With
/// B alone the frame that is hunted for is offered behind the last join.
const KINDS: [(&str, u64); 12] = [
    ("A", 97),
    ("B alone", 97),
    ("B behind A", 97),
    ("A, beside another of its row", 97),
    ("B alone, beside another of its row", 97),
    ("B behind A, beside another of its row", 97),
    ("A, with a bound that rose", 97),
    ("B alone, with a bound that rose", 80),
    ("B behind A, with a bound that rose", 97),
    ("A, with a tag", 97),
    ("B alone, with a tag", 97),
    ("B behind A, with a tag", 97),
];

impl Closest {
    fn see(&mut self, table: &Table, played: &Played) {
        let some_a = table.rows.iter().any(|row| row.class == Class::A);
        for frame in &played.reported {
            let kind = match frame.class {
                Class::A => 0,
                Class::B => 1 + usize::from(some_a),
            };
            let (age, limit) = (frame.age, frame.limit);
            self.frames += 1;
            nearer(&mut self.ages[kind], age, limit);
            if frame.together > 1 {
                self.beside += 1;
                nearer(&mut self.ages[kind + 3], age, limit);
            }
            if limit > frame.bound {
                self.raised += 1;
                self.older += u64::from(age > frame.bound);
                nearer(&mut self.ages[kind + 6], age, limit);
            }
            if frame.tagged {
                self.tagged += 1;
                nearer(&mut self.ages[kind + 9], age, limit);
            }
        }
        let most = played.most.iter().copied().max();
        self.most = self.most.max(most.unwrap_or(0));
        for most in played.most_in_class {
            self.most_in_class = self.most_in_class.max(most);
        }
    }

    fn print(&self) {
        let _whole = stdout().lock();
        let (frames, beside, tagged) = (self.frames, self.beside, self.tagged);
        println!("{frames} frames of rows, none older than its limit; {beside} beside another");
        println!("{tagged} with a tag");
        let (raised, older) = (self.raised, self.older);
        println!("{raised} with a bound that rose; {older} older than it was at first");
        let (most, most_in_class) = (self.most, self.most_in_class);
        println!("at most {most} frames of a row in the port, and {most_in_class} of a class");
        for ((kind, _), (age, limit)) in KINDS.iter().zip(self.ages) {
            let ratio = age as f64 / limit as f64;
            println!("closest in {kind}: {age} of {limit} byte-times, {ratio:.4}");
        }
    }

    /// A hunt that comes nowhere near the limits would show nothing.
    fn is_close(&self) {
        for ((kind, part), (age, limit)) in KINDS.iter().zip(self.ages) {
            assert!(age * 100 > limit * part, "{kind}: {age} of {limit}");
        }
        assert!(self.older > 0, "no frame is older than its first bound");
    }
}

/// Keeps the age that is nearer to its limit.
fn nearer(closest: &mut (u64, u64), age: u64, limit: u64) {
    if age * closest.1 >= closest.0 * limit {
        *closest = (age, limit);
    }
}
