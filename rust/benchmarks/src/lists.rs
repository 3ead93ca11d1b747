//! Lists of calls, on the library, on the simulator and in place.

use std::cell::RefCell;
use std::hint::black_box;
use std::iter;

use cases::driver::Driver;
use cases::hunt::Hunt;
use ithumeco::{call_bytes, list_bytes, Answer, Record, ANSWER_SIZE, RECORD_SIZE};
use simulator::{opened, Advance, Call, Port, Refusal, Table};

use crate::clock::{compare, compare_in, Compared};

/// A frame offered to each of 32 rows, then the same call again and again: so
/// many calls in all.
pub fn all_offered(payload: u64, then: Call, calls: usize) -> Vec<Call> {
    let offers = (0..32).map(|row| Call::Offer(row, payload));
    offers.chain(iter::repeat(then)).take(calls).collect()
}

/// The list of a hunt up to where the most frames of class B wait, and how many
/// these are.
pub fn up_to_the_most(table: &Table, hunt: Hunt) -> (Vec<Call>, usize) {
    let mut driver = Driver::new(table.clone());
    hunt.run(&mut driver);
    let mut port = Port::fresh(table.clone());
    let (mut length, mut most) = (0, 0);
    for (place, call) in driver.calls.iter().enumerate() {
        let _ = port.make(*call);
        if port.queue_b.len() > most {
            (length, most) = (place + 1, port.queue_b.len());
        }
    }
    driver.calls.truncate(length);
    (driver.calls, most)
}

/// Makes the calls on a fresh port of the simulator, and gives the byte-times
/// passed.
pub fn simulate(file: &[u8], calls: &[Call]) -> u64 {
    let mut port = Port::fresh(opened(file).expect("the file opens"));
    make_each(calls, |call| port.make(call));
    port.clock
}

/// A list on the library, on the simulator and in place, by so many units.
pub fn replayed(file: &[u8], calls: &[Call], units: u64) -> Compared<2> {
    compare(
        units,
        &mut replay(file, calls),
        [&mut || simulated(file, calls), &mut || {
            in_place(file, calls)
        }],
    )
}

/// A list on the library and on the simulator, by the byte-times that pass.
pub fn by_the_byte_time(file: &[u8], calls: &[Call]) -> Compared<1> {
    compare(
        simulate(file, calls),
        &mut replay(file, calls),
        [&mut || simulated(file, calls)],
    )
}

/// Calls made one by one on a record's bytes, on the simulator, in place, and as
/// a list, by so many units.
pub fn called(file: &[u8], calls: &[Call], units: u64) -> Compared<3> {
    compare(
        units,
        &mut || call_each(file, calls),
        [
            &mut || simulated(file, calls),
            &mut || in_place(file, calls),
            &mut replay(file, calls),
        ],
    )
}

/// One call made again and again on a port's record, on the simulator's port and
/// in place.
pub fn called_on(port: &Port, call: Call, times: usize) -> Compared<2> {
    let calls = vec![call; times];
    compare(
        times as u64,
        &mut || {
            let number = call_each_on(&mut Record::from(port).bytes(), &calls);
            assert_ne!(number, 18, "a broken record");
        },
        [
            &mut || {
                let mut port = port.clone();
                make_each(&calls, |call| port.make(call));
            },
            &mut || {
                let mut port = inplace::Port::of(port).expect("the port fits");
                make_each(&calls, |call| port.make(call));
            },
        ],
    )
}

/// The nanoseconds of each of two calls that are made in turn on a record's
/// bytes. The reading of the clock is in each call's time.
pub fn called_in_turn(file: &[u8], calls: [Call; 2]) -> [f64; 2] {
    const TIMES: usize = 20_000;
    let record = RefCell::new(opened_record(file));
    let [mut first, mut second] = calls.map(|call| {
        let record = &record;
        move || {
            let number = call_each_on(&mut record.borrow_mut(), &[call]);
            assert_eq!(number, 0, "a refusal");
        }
    });
    let compared = compare_in(TIMES, 1, &mut first, [&mut second]);
    [compared.ns, compared.others[0].ns]
}

/// Advances by 0 on the fresh ports of two files: as lists, and on records'
/// bytes.
pub fn beside_each_other(file: &[u8], other: &[u8], times: usize) -> [Compared<1>; 2] {
    let calls = vec![Call::Advance(0); times];
    let units = times as u64;
    [
        compare(
            units,
            &mut replay(file, &calls),
            [&mut replay(other, &calls)],
        ),
        compare(
            units,
            &mut || call_each(file, &calls),
            [&mut || call_each(other, &calls)],
        ),
    ]
}

/// Makes calls on a port. A refusal is an answer too.
fn make_each(calls: &[Call], mut make: impl FnMut(Call) -> Result<Advance, Refusal>) {
    for call in calls {
        let _ = black_box(make(*call));
    }
}

fn simulated(file: &[u8], calls: &[Call]) {
    black_box(simulate(file, calls));
}

fn in_place(file: &[u8], calls: &[Call]) {
    let table = opened(file).expect("the file opens");
    let mut port = inplace::Port::fresh(&table).expect("the table fits");
    make_each(calls, |call| port.make(call));
}

/// A list on the library.
fn replay<'a>(file: &'a [u8], calls: &[Call]) -> impl FnMut() + 'a {
    let bytes = list_bytes(calls);
    let mut answers = vec![0; calls.len() * ANSWER_SIZE];
    move || ithumeco::replay(file, &bytes, &mut answers).expect("the list is made")
}

fn opened_record(file: &[u8]) -> [u8; RECORD_SIZE] {
    let mut record = [0; RECORD_SIZE];
    ithumeco::open(file, &mut record).expect("the file opens");
    record
}

/// Makes calls on a record's bytes, and gives the number of the last answer.
fn call_each_on(record: &mut [u8; RECORD_SIZE], calls: &[Call]) -> u64 {
    let mut answer = [0; ANSWER_SIZE];
    for call in calls {
        ithumeco::call(record, &call_bytes(*call), &mut answer).expect("the call is made");
    }
    Answer::from_bytes(&answer).number
}

fn call_each(file: &[u8], calls: &[Call]) {
    let number = call_each_on(&mut opened_record(file), calls);
    assert_eq!(number, 0, "a refusal");
}
