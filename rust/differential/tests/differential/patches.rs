//! Rows that come and go, in lists and one by one on a record with junk in the
//! words that belong to no part: dense traffic, ports that no list has led to,
//! numbers that are used again, and every refusal of a join and of a leave at
//! each of its places.

use std::io::stdout;

use cases::driver::{left_on, Driver};
use cases::patches::{Course, Kinds};
use cases::random::Random;
use cases::specimen::{self, FOURTH};
use cases::tables::{rated, row, tagged};
use cases::traffic::{any_call, any_patch, patched_calls, random_calls};
use cases::{crowds, ports, tables, tags};
use ithumeco::ANSWER_SIZE;
use simulator::port::MOST_ADVANCE;
use simulator::refusal::refuse;
use simulator::table::{GAP, MOST_ROWS};
use simulator::{broken, Call, Class, Pace, Port, Row, Table};

use crate::bench::Bench;
use crate::held::{over_junk, Held};

/// How often each kind of call is to be met in each way at least.
const LEAST: u64 = 20;

/// More advances than the specimen's port takes to settle.
const SETTLING: usize = 20;

pub fn run(bench: &mut Bench) {
    let (lists, records) = (bench.times(400), bench.times(400));
    let mut patches = Patches {
        bench,
        random: Random::new(11),
        in_lists: Kinds::default(),
        on_bytes: Kinds::default(),
    };
    for _ in 0..lists {
        let mut driver = Driver::new(tables::lively(&mut patches.random));
        patched_calls(&mut patches.random, &mut driver, 150);
        random_calls(&mut patches.random, &mut driver, 50);
        patches.both_ways(&driver);
    }
    for _ in 0..records {
        patches.not_led_to();
    }
    for number in 3..MOST_ROWS {
        patches.comes_and_goes(number as u64);
    }
    patches.joins_refused();
    patches.rows_out_of_range();
    patches.rows_too_late();
    patches.leaves_refused();
    patches.broken();
    patches.print();
}

struct Patches<'a> {
    bench: &'a mut Bench,
    random: Random,
    in_lists: Kinds,
    on_bytes: Kinds,
}

/// The specimen with one class alone.
fn of_one_class(class: Class) -> Table {
    let mut table = specimen::table();
    table.rows.retain(|row| row.class == class);
    match class {
        Class::A => table.idle_b = 0,
        Class::B => table.idle_a = 0,
    }
    table
}

impl Patches<'_> {
    /// A list, and its calls one by one.
    fn both_ways(&mut self, driver: &Driver) {
        self.bench.replay_played(driver, 0);
        self.in_lists.see_list(driver);
        let port = Port::fresh(driver.opened.clone());
        self.one_by_one(port, driver.calls.len(), |_, _, place| driver.calls[place]);
    }

    /// So many calls on a port's record, each chosen by the port as it is then and
    /// by the calls made.
    fn one_by_one(
        &mut self,
        port: Port,
        count: usize,
        choose: impl Fn(&mut Random, &Port, usize) -> Call,
    ) {
        let mut course = Course::new(&port);
        let record = over_junk(&mut self.random, &port).to_vec();
        let mut held = Held { record, port };
        for made in 0..count {
            let call = choose(&mut self.random, &held.port, made);
            let answer = held.make(self.bench, call, ANSWER_SIZE);
            course.see(&mut self.on_bytes, call, answer, &held.port);
        }
    }

    /// Calls on a record that no list may have led to.
    fn not_led_to(&mut self) {
        let port = ports::sound(&mut self.random);
        self.one_by_one(port, 30, |random, port, _| match random.below(2) {
            0 => any_patch(random, &port.table),
            _ => any_call(random, &port.table, left_on(&port.wire)),
        });
    }

    /// A row that joins the specimen's, leaves, and joins again as it was, in the
    /// other class or with another tag; each time it is offered to at once, a row
    /// joins at a number between, and both leave.
    fn comes_and_goes(&mut self, number: u64) {
        let of_b = Row {
            class: Class::B,
            ..FOURTH
        };
        let pairs = [
            [FOURTH, FOURTH],
            [FOURTH, of_b],
            [of_b, FOURTH],
            [FOURTH, tagged(FOURTH)],
            [tagged(of_b), of_b],
            [tagged(FOURTH), tagged(of_b)],
        ];
        for rows in pairs {
            let mut driver = Driver::new(specimen::table());
            let between = self.random.between(3, number);
            for joining in rows {
                take(&mut driver, Call::Join(number, joining));
                for other in 3..number {
                    driver.make(Call::Offer(other, 0));
                    assert!(!driver.taken());
                }
                take(&mut driver, Call::Offer(number, joining.payload));
                if between < number {
                    let small = row(Class::A, 0, 1_000_000, 1_000_000);
                    take(&mut driver, Call::Join(between, small));
                    take(&mut driver, Call::Offer(between, 0));
                }
                driver.settle(SETTLING);
                take(&mut driver, Call::Leave(number));
                if between < number {
                    take(&mut driver, Call::Leave(between));
                }
            }
            self.both_ways(&driver);
        }
    }

    /// Calls on a table's port, the last of which is refused.
    fn refused(&mut self, table: &Table, calls: &[Call], number: u8, place: usize) {
        let mut driver = Driver::new(table.clone());
        calls.iter().for_each(|&call| driver.make(call));
        assert_eq!(driver.answers.last(), Some(&refuse(number, place)));
        self.both_ways(&driver);
    }

    /// 22, 8, 9 and 20.
    fn joins_refused(&mut self) {
        let table = specimen::table();
        for number in [0, 1, 2, 32, 33, 255, 256, 1 << 32, u64::MAX] {
            // 5 comes later.
            for row in [FOURTH, Row::EMPTY] {
                self.refused(&table, &[Call::Join(number, row)], 22, 0);
            }
        }
        let (of_a, of_b) = (of_one_class(Class::A), of_one_class(Class::B));
        self.refused(&of_a, &[Call::Join(2, table.rows[2])], 8, 0);
        self.refused(&of_b, &[Call::Join(2, FOURTH)], 8, 0);
        // 84 bytes in 374 byte-times are one too many for what A has left, and in
        // 456 for what B has; 90, with a tag, in 401 and in 489.
        let of_84 = |class, period| row(class, 0, period, 15_625);
        let of_90 = |class, period| tagged(row(class, 42, period, 15_625));
        let too_short = [
            (of_84(Class::A, 374), 0),
            (of_84(Class::B, 456), 1),
            (of_90(Class::A, 401), 0),
            (of_90(Class::B, 489), 1),
        ];
        for (joining, place) in too_short {
            let pace = Pace::Period(joining.period() + 1);
            for number in [3, 31] {
                self.refused(&table, &[Call::Join(number, joining)], 9, place);
                self.taken(&table, &[Call::Join(number, Row { pace, ..joining })]);
            }
        }
        // 31 rows that have a frame each, and two with a 32nd; and a row of B with
        // 62 frames beside two others, or with 63.
        let mut pairs = crowds::two_of_each();
        let last = pairs.rows.pop().expect("a row");
        let join = |period| {
            let pace = Pace::Period(period);
            Call::Join(31, Row { pace, ..last })
        };
        self.refused(&pairs, &[join(2_562)], 20, 0);
        self.taken(&pairs, &[join(2_563)]);
        let mut full = crowds::full_classes();
        let last = full.rows.pop().expect("a row");
        self.taken(&full, &[Call::Join(9, last)]);
        full.rows[4].pace = Pace::Period(236);
        self.refused(&full, &[Call::Join(9, last)], 20, 1);
    }

    fn taken(&mut self, table: &Table, calls: &[Call]) {
        let mut driver = Driver::new(table.clone());
        calls.iter().for_each(|&call| take(&mut driver, call));
        self.both_ways(&driver);
    }

    /// 5 at each number, ahead of 8.
    fn rows_out_of_range(&mut self) {
        let mut table = specimen::table();
        table.rows.push(table.rows[2]);
        let wrong = [
            Row::EMPTY,
            tagged(Row::EMPTY),
            row(Class::A, 1501, 15_625, 15_625),
            tagged(row(Class::A, 1501, 15_625, 15_625)),
            row(Class::B, 58, 83, 15_625),
            row(Class::A, 58, 1_000_000_001, 15_625),
            row(Class::B, 58, 15_625, 0),
            row(Class::A, 58, 15_625, 1_000_000_001),
            rated(Class::B, 58, 999, 6),
            rated(Class::A, 58, 200_001, 6),
            rated(Class::B, 58, 48_000, 0),
        ];
        for number in 0..MOST_ROWS {
            let leave = Call::Leave(number as u64);
            for row in wrong {
                let calls = [leave, Call::Join(number as u64, row)];
                let in_use = number < table.rows.len();
                self.refused(&table, &calls[usize::from(!in_use)..], 5, number);
            }
        }
        let first = row(Class::B, 1501, 15_625, 15_625);
        self.refused(&of_one_class(Class::A), &[Call::Join(2, first)], 5, 2);
    }

    /// 10 at each row. 32 rows have their deadlines at their bounds: with one of the
    /// deadlines a byte-time less, the last cannot join.
    fn rows_too_late(&mut self) {
        for late in 0..MOST_ROWS {
            let mut table = crowds::two_of_each();
            table.rows[late].deadline -= 1;
            let join = Call::Join(31, table.rows.pop().expect("a row"));
            self.refused(&table, &[join], 10, late);
            // It can if another has left, which then cannot join again.
            let other = u64::from(late == 0);
            let again = Call::Join(other, table.rows[other as usize]);
            self.refused(&table, &[Call::Leave(other), join, again], 10, late);
        }
    }

    /// 11, 21 and 8.
    fn leaves_refused(&mut self) {
        let table = specimen::table();
        for number in [3, 4, 6, 31, 32, 255, 1 << 32, u64::MAX] {
            let join = Call::Join(5, FOURTH);
            // 21 comes later.
            for ahead in [join, Call::Offer(0, 58)] {
                for last in [Call::Leave(number), Call::Offer(number, 0)] {
                    self.refused(&table, &[ahead, last], 11, 0);
                }
            }
        }
        // An offer, and how long after its frame the credits are 0: without a tag
        // and with one.
        let tagged = tags::table();
        let offers: [(&Table, Call, u64); 6] = [
            (&table, Call::Offer(0, 58), 300),
            (&table, Call::Offer(2, 458), 2000),
            (&table, Call::OfferBest(0), 0),
            (&tagged, Call::Offer(0, 58), 318),
            (&tagged, Call::Offer(2, 458), 2024),
            (&tagged, Call::Offer(3, 36), 336),
        ];
        for (table, offer, wait) in offers {
            let to_report = [offer, Call::Advance(MOST_ADVANCE)];
            let before_leave = |calls: &[Call]| [calls, &[Call::Leave(1)]].concat();
            let behind = |n| before_leave(&[offer, to_report[1], Call::Advance(n)]);
            self.refused(table, &before_leave(&[offer]), 21, 0);
            self.refused(table, &before_leave(&[offer, Call::Advance(1)]), 21, 0);
            self.refused(table, &before_leave(&to_report), 21, 0);
            self.refused(table, &behind(GAP - 1), 21, 0);
            // The wire is free, and the credit is not back.
            let parts = [0, wait / 4, wait / 2, wait.saturating_sub(1)];
            for n in parts.into_iter().filter(|&n| n < wait) {
                self.refused(table, &behind(GAP + n), 21, 0);
            }
            self.taken(table, &behind(GAP + wait));
        }
        // The last row of a class. 21 comes first.
        self.refused(&table, &[Call::Leave(2)], 8, 0);
        self.refused(&table, &[Call::Leave(0), Call::Leave(1)], 8, 0);
        self.refused(&table, &[Call::OfferBest(0), Call::Leave(2)], 21, 0);
    }

    /// 18 comes before all else.
    fn broken(&mut self) {
        let mut port = Port::fresh(specimen::table());
        port.bounds[0] += 1;
        assert!(broken(&port).is_some());
        let calls = [
            Call::Join(3, FOURTH),
            Call::Join(0, FOURTH),
            Call::Join(3, Row::EMPTY),
            Call::Join(u64::MAX, Row::EMPTY),
            Call::Leave(0),
            Call::Leave(2),
            Call::Leave(9),
        ];
        self.one_by_one(port, calls.len(), |_, _, made| calls[made]);
    }

    fn print(&self) {
        let _whole = stdout().lock();
        println!("{:<45} in a list  on bytes", "about joins and leaves");
        for ((kind, listed), (_, on_bytes)) in self.in_lists.counts().zip(self.on_bytes.counts()) {
            println!("{kind:<45} {listed:>9} {on_bytes:>9}");
        }
        for kinds in [&self.in_lists, &self.on_bytes] {
            let (kind, count) = kinds.rarest();
            assert!(count >= LEAST, "{kind} is met {count} times");
        }
    }
}

/// Makes a call that is taken.
fn take(driver: &mut Driver, call: Call) {
    driver.make(call);
    assert!(driver.taken(), "{call}");
}
