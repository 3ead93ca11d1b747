//! The watch lets the simulator's lists pass and sees a wrong answer.

use cases::crowds;
use cases::driver::Driver;
use cases::hunt::Hunt;
use cases::random::Random;
use cases::specimen::{table, FOURTH};
use cases::tables::{self, tagged};
use cases::tags;
use cases::traffic::{dense_calls, patched_calls, random_calls};
use cases::watch::{Seen, Watch};
use simulator::refusal::refuse;
use simulator::{bounds, Advance, Call, Frame, Mark, Pace, Refusal, Row, Table, TAKEN};

fn watched(driver: &Driver) -> Seen {
    let bounds = bounds(&driver.opened).unwrap();
    let calls = driver.calls.iter().copied();
    let steps = calls.zip(driver.answers.iter().copied());
    Watch::new(&driver.opened, &bounds).see_all(steps)
}

#[test]
fn the_simulators_lists_pass() {
    let mut random = Random::new(9);
    let mut driver = Driver::new(table());
    random_calls(&mut random, &mut driver, 2000);
    dense_calls(&mut random, &mut driver, 2000);
    driver.drain();
    assert_eq!(watched(&driver), Ok(()));
}

#[test]
fn rows_that_come_and_go_pass() {
    let mut random = Random::new(18);
    for _ in 0..30 {
        let table = tables::within(&mut random, 200_000);
        let mut driver = Driver::new(table.clone());
        for hunt in Hunt::all_with_joins(&table) {
            hunt.run(&mut driver);
        }
        patched_calls(&mut random, &mut driver, 500);
        random_calls(&mut random, &mut driver, 500);
        driver.drain();
        assert_eq!(watched(&driver), Ok(()));
    }
}

#[test]
fn several_frames_of_a_row_pass() {
    let mut random = Random::new(14);
    for table in crowds::all() {
        for hunt in Hunt::all(&table) {
            let mut driver = Driver::new(table.clone());
            hunt.run(&mut driver);
            dense_calls(&mut random, &mut driver, 500);
            driver.drain();
            assert_eq!(watched(&driver), Ok(()));
        }
    }
}

/// README's run: best effort has the wire when each row is offered to.
const RUN: [Call; 9] = [
    Call::OfferBest(1500),
    Call::Advance(1),
    Call::Offer(0, 58),
    Call::Offer(1, 258),
    Call::Offer(2, 458),
    Call::Advance(65_535),
    Call::Advance(65_535),
    Call::Advance(65_535),
    Call::Advance(65_535),
];

/// The place of the advance in which row 0's frame is reported.
const END_OF_ROW_0: usize = 6;

/// The run with another answer at a place is wrong there.
fn wrong(place: usize, answer: Result<Advance, Refusal>) {
    wrong_in(&RUN, place, answer);
}

/// A list on the specimen's port with another answer at a place is wrong there.
fn wrong_in(calls: &[Call], place: usize, answer: Result<Advance, Refusal>) {
    wrong_on(table(), calls, place, answer);
}

/// The same on another table's port.
fn wrong_on(table: Table, calls: &[Call], place: usize, answer: Result<Advance, Refusal>) {
    let mut driver = Driver::new(table);
    calls.iter().for_each(|&call| driver.make(call));
    assert_eq!(watched(&driver), Ok(()));
    assert_ne!(driver.answers[place], answer);
    driver.answers[place] = answer;
    let seen = watched(&driver).unwrap_err();
    assert!(seen.starts_with(&format!("call {place}, ")), "{seen}");
}

fn ended(passed: u64, mark: Mark, size: u64, instant: u64) -> Result<Advance, Refusal> {
    let ended = Some(Frame {
        mark,
        size,
        instant,
    });
    Ok(Advance { passed, ended })
}

#[test]
fn a_reported_frame_is_the_one_taken() {
    wrong(END_OF_ROW_0, ended(100, Mark::Row(0), 101, 1));
    wrong(END_OF_ROW_0, ended(100, Mark::Row(0), 100, 0));
    wrong(END_OF_ROW_0, ended(100, Mark::Row(1), 100, 1));
    wrong(END_OF_ROW_0, ended(100, Mark::Row(3), 100, 1));
    wrong(END_OF_ROW_0, ended(100, Mark::BestEffort, 1542, 0));
    // Reported once: not again when the wire frees, nor later.
    wrong(END_OF_ROW_0 + 1, ended(12, Mark::Row(0), 100, 1));
    wrong(END_OF_ROW_0 + 1, ended(300, Mark::Row(0), 100, 1));
    wrong(END_OF_ROW_0 - 1, ended(1529, Mark::BestEffort, 1541, 0));
}

fn nothing(passed: u64) -> Result<Advance, Refusal> {
    Ok(Advance {
        passed,
        ended: None,
    })
}

#[test]
fn a_frame_is_reported_no_later_than_its_bound() {
    // Row 1's frame is late too.
    wrong(END_OF_ROW_0, ended(3730, Mark::Row(0), 100, 1));
    wrong(END_OF_ROW_0, nothing(65_535));
    // Time passes to the count, or to a report.
    wrong(END_OF_ROW_0, nothing(100));
    wrong(1, nothing(0));
}

/// Row 0's frame is taken at 0, time passes, and a report is answered or none.
fn alone(n: u64, answer: Result<Advance, Refusal>) -> Seen {
    let table = table();
    let bounds = bounds(&table).unwrap();
    let steps = [(Call::Offer(0, 58), Ok(TAKEN)), (Call::Advance(n), answer)];
    Watch::new(&table, &bounds).see_all(steps.into_iter())
}

/// The watch knows the bound, 3,730, and how long the bytes take at least; when
/// between them is the machine's to say.
#[test]
fn a_frame_is_reported_from_its_last_byte_before_the_gap_to_its_bound() {
    let reported = |passed| alone(65_535, ended(passed, Mark::Row(0), 100, 0));
    assert!(reported(87).is_err());
    assert_eq!(reported(88), Ok(()));
    assert_eq!(reported(3730), Ok(()));
    assert!(reported(3731).is_err());
    assert!(reported(3742).is_err());
    assert_eq!(alone(3729, nothing(3729)), Ok(()));
    assert!(alone(3730, nothing(3730)).is_err());
    assert!(alone(3742, nothing(3742)).is_err());
}

/// Another frame's bytes pass when the gap is over.
#[test]
fn no_byte_passes_in_a_gap() {
    let seen = |passed| {
        let mut driver = Driver::new(table());
        driver.offer(0);
        driver.make(Call::OfferBest(0));
        driver.make(Call::Advance(65_535));
        driver.make(Call::Advance(65_535));
        let last = driver.answers.last_mut().unwrap();
        assert_eq!(*last, ended(84, Mark::BestEffort, 84, 0));
        *last = ended(passed, Mark::BestEffort, 84, 0);
        watched(&driver)
    };
    assert!(seen(72).is_err());
    assert!(seen(83).is_err());
    assert_eq!(seen(84), Ok(()));
}

/// In a frame's gap all best-effort frames that are not reported wait.
#[test]
fn sixteen_wait_in_a_gap() {
    let mut driver = Driver::new(table());
    driver.offer_best();
    driver.make(Call::Advance(65_535));
    for _ in 0..17 {
        driver.offer_best();
    }
    assert_eq!(driver.answers.last(), Some(&refuse(14, 0)));
    assert_eq!(watched(&driver), Ok(()));
    let said = driver.answers.pop().unwrap();
    driver.answers.push(Ok(TAKEN));
    assert!(watched(&driver).is_err());
    driver.answers.pop();
    driver.answers.push(said);
    // One of them is on the wire when the gap is over.
    driver.make(Call::Advance(13));
    driver.offer_best();
    assert_eq!(driver.answers.last(), Some(&Ok(TAKEN)));
    assert_eq!(watched(&driver), Ok(()));
}

#[test]
fn offers_are_taken_or_refused_by_the_rules() {
    for number in [11, 12, 13, 14, 18] {
        wrong(0, refuse(number, 0));
        wrong(2, refuse(number, 0));
    }
    wrong(1, refuse(15, 0));
    wrong(1, refuse(18, 0));
    // Taken in no time.
    wrong(2, ended(0, Mark::BestEffort, 1542, 0));
    // Not taken where a rule refuses.
    let mut driver = Driver::new(table());
    for call in [Call::Offer(3, 0), Call::Offer(0, 59), Call::OfferBest(1501)] {
        driver.make(call);
    }
    driver.offer(0);
    driver.offer(0);
    for place in [0, 1, 2, 4] {
        let said = std::mem::replace(&mut driver.answers[place], Ok(TAKEN));
        assert!(watched(&driver).is_err(), "call {place}");
        driver.answers[place] = said;
    }
    assert_eq!(watched(&driver), Ok(()));
}

/// Four frames of a row in the port: they are reported in the order in which
/// they were taken, each once.
#[test]
fn a_rows_frames_are_reported_in_turn() {
    let mut driver = Driver::new(crowds::four_of_each());
    driver.offer_best();
    driver.make(Call::Advance(1));
    for _ in 0..3 {
        driver.offer(4);
        driver.make(Call::Advance(600));
    }
    let first_end = driver.calls.len();
    driver.drain();
    assert_eq!(watched(&driver), Ok(()));
    let ends = |driver: &Driver| {
        let answers = driver.answers.iter().flatten().enumerate();
        let of_row = answers.filter(|(_, answer)| {
            let row = answer.ended.map(|frame| frame.mark);
            row == Some(Mark::Row(4))
        });
        of_row.map(|(place, _)| place).collect::<Vec<_>>()
    };
    let ends = ends(&driver);
    assert!(
        ends.len() == 3 && ends.iter().all(|&end| end >= first_end),
        "{ends:?}"
    );
    let mut swapped = driver.answers.clone();
    swapped.swap(ends[0], ends[1]);
    let said = std::mem::replace(&mut driver.answers, swapped);
    assert!(watched(&driver).is_err());
    driver.answers = said;
    driver.answers[ends[1]] = driver.answers[ends[0]];
    assert!(watched(&driver).is_err());
}

/// A row's frame is taken at 0, another row joins at 1000 or none, and a report
/// is answered so long after the offer, or none.
fn with_a_join(row: usize, joins: bool, age: u64, is_reported: bool) -> Seen {
    let table = table();
    let (payload, size) = (table.rows[row].payload, table.rows[row].size());
    let join = joins.then_some((Call::Join(3, FOURTH), Ok(TAKEN)));
    let last = match is_reported {
        true => ended(age - 1000, Mark::Row(row), size, 0),
        false => nothing(age - 1000),
    };
    let first = [
        (Call::Offer(row as u64, payload), Ok(TAKEN)),
        (Call::Advance(1000), nothing(1000)),
    ];
    let steps = first.into_iter().chain(join);
    let steps = steps.chain([(Call::Advance(age - 1000), last)]);
    Watch::new(&table, &bounds(&table).unwrap()).see_all(steps)
}

#[test]
fn a_frames_limit_is_the_largest_bound_of_its_row() {
    for (row, before, after) in [(0, 3730, 5630), (1, 3130, 5030), (2, 4844, 4944)] {
        for (joins, limit) in [(false, before), (true, after)] {
            assert_eq!(with_a_join(row, joins, limit, true), Ok(()));
            assert!(with_a_join(row, joins, limit + 1, true).is_err());
            assert_eq!(with_a_join(row, joins, limit - 1, false), Ok(()));
            assert!(with_a_join(row, joins, limit, false).is_err());
        }
    }
}

/// A bound that a row had before a frame was taken is nothing to the frame.
#[test]
fn a_limit_falls_with_a_leave() {
    let reported = |age| {
        let table = table();
        let steps = [
            (Call::Join(3, FOURTH), Ok(TAKEN)),
            (Call::Leave(3), Ok(TAKEN)),
            (Call::Offer(1, 258), Ok(TAKEN)),
            (Call::Advance(age), ended(age, Mark::Row(1), 300, 0)),
        ];
        Watch::new(&table, &bounds(&table).unwrap()).see_all(steps.into_iter())
    };
    assert_eq!(reported(3130), Ok(()));
    assert!(reported(3131).is_err());
}

#[test]
fn joins_are_taken_or_refused_by_the_rules() {
    let late = Row {
        deadline: 1,
        ..FOURTH
    };
    let short = Row {
        pace: Pace::Period(84),
        ..FOURTH
    };
    let joins = [
        (Call::Join(2, FOURTH), refuse(22, 0)),
        (Call::Join(32, FOURTH), refuse(22, 0)),
        (Call::Join(u64::MAX, FOURTH), refuse(22, 0)),
        (Call::Join(9, Row::EMPTY), refuse(5, 9)),
        (Call::Join(9, short), refuse(9, 0)),
        (Call::Join(9, late), refuse(10, 9)),
        (Call::Join(9, FOURTH), Ok(TAKEN)),
        (Call::Join(9, FOURTH), refuse(22, 0)),
        (Call::Join(5, FOURTH), refuse(10, 1)),
    ];
    let calls = joins.map(|(call, _)| call);
    let right = joins.map(|(_, answer)| answer);
    let numbers = [5, 8, 9, 10, 18, 20, 22];
    for (place, &meant) in right.iter().enumerate() {
        let others = numbers
            .into_iter()
            .flat_map(|number| [0, 1, 9].map(|at| refuse(number, at)));
        for answer in others.chain([Ok(TAKEN)]).filter(|answer| *answer != meant) {
            wrong_in(&calls, place, answer);
        }
    }
    // A first row of B has no slope.
    let mut without_b = table();
    without_b.rows.truncate(2);
    without_b.idle_b = 0;
    let seen = |answer| {
        let steps = [(Call::Join(2, table().rows[2]), answer)];
        let bounds = bounds(&without_b).unwrap();
        Watch::new(&without_b, &bounds).see_all(steps.into_iter())
    };
    assert_eq!(seen(refuse(8, 0)), Ok(()));
    assert!(seen(Ok(TAKEN)).is_err());
}

/// A row joins, sends a frame of 400 bytes, leaves when its credit is back, 1200
/// byte-times later, and joins again.
const COMES_AND_GOES: [Call; 17] = [
    Call::Join(3, FOURTH),
    Call::Offer(3, 358),
    Call::Leave(3),
    Call::Advance(100),
    Call::Leave(3),
    Call::Advance(65_535),
    Call::Leave(3),
    Call::Advance(12 + 1199),
    Call::Leave(3),
    Call::Advance(1),
    Call::Leave(3),
    Call::Offer(3, 358),
    Call::Leave(3),
    Call::Join(3, FOURTH),
    Call::Offer(3, 358),
    Call::Leave(2),
    Call::Advance(65_535),
];

#[test]
fn leaves_are_taken_or_refused_by_the_rules() {
    let wrong = |place, answer| wrong_in(&COMES_AND_GOES, place, answer);
    // With a frame that waits, on the wire or in its gap.
    for place in [2, 4, 6] {
        for number in [8, 11, 18] {
            wrong(place, refuse(number, 0));
        }
        wrong(place, Ok(TAKEN));
    }
    // The credit is back for sure.
    for number in [8, 11, 18, 21] {
        wrong(10, refuse(number, 0));
    }
    // An empty number, also while a credit may be below 0.
    wrong(12, Ok(TAKEN));
    wrong(12, refuse(21, 0));
    let owing = [
        Call::Offer(0, 58),
        Call::Advance(65_535),
        Call::Advance(12),
        Call::Leave(3),
    ];
    wrong_in(&owing, 3, refuse(21, 0));
    // Frames wait, so that 8 is not asked.
    wrong(15, refuse(8, 0));
    wrong(15, Ok(TAKEN));
    // B's last row.
    wrong_in(&[Call::Leave(2)], 0, Ok(TAKEN));
    wrong_in(&[Call::Leave(2)], 0, refuse(21, 0));
    // Best effort waits, or is in its gap.
    let with_best = [
        Call::OfferBest(0),
        Call::Leave(0),
        Call::Advance(72),
        Call::Leave(0),
    ];
    wrong_in(&with_best, 1, Ok(TAKEN));
    wrong_in(&with_best, 3, Ok(TAKEN));
}

#[test]
fn offers_follow_the_joins_and_leaves() {
    let wrong = |place, answer| wrong_in(&COMES_AND_GOES, place, answer);
    wrong(1, refuse(11, 0));
    // An empty number, and one used again: it has no last instant.
    wrong(11, Ok(TAKEN));
    wrong(14, refuse(11, 0));
    wrong(14, refuse(13, 0));
    // A frame whose row has left was reported: it is not again.
    wrong(16, ended(388, Mark::Row(3), 400, 0));
}

/// A frame's size is worked out with the tag of its row or without, and best
/// effort's without.
#[test]
fn a_tagged_rows_frame_has_its_tag() {
    let offers = [
        (Call::Offer(0, 58), Mark::Row(0), 106),
        (Call::Offer(0, 36), Mark::Row(0), 84),
        (Call::Offer(0, 37), Mark::Row(0), 85),
        (Call::Offer(1, 258), Mark::Row(1), 300),
        (Call::Offer(2, 458), Mark::Row(2), 506),
        (Call::Offer(3, 36), Mark::Row(3), 84),
        (Call::OfferBest(1500), Mark::BestEffort, 1542),
    ];
    for (offer, mark, size) in offers {
        let calls = [offer, Call::Advance(65_535)];
        let reported = |size| ended(size - 12, mark, size, 0);
        let mut driver = Driver::new(tags::table());
        calls.iter().for_each(|&call| driver.make(call));
        assert_eq!(driver.answers[1], reported(size));
        // 6 bytes fewer or more.
        for other in [size - 6, size + 6] {
            wrong_on(tags::table(), &calls, 1, reported(other));
        }
    }
}

/// The row that has the number when a frame is offered: a row that joins there
/// later may have another tag.
#[test]
fn a_joined_rows_frame_has_its_tag() {
    let calls = |joining| {
        [
            Call::Join(3, FOURTH),
            Call::Leave(3),
            Call::Join(3, joining),
            Call::Offer(3, 358),
            Call::Advance(65_535),
        ]
    };
    let reported = |size| ended(size - 12, Mark::Row(3), size, 0);
    wrong_in(&calls(tagged(FOURTH)), 4, reported(400));
    wrong_in(&calls(FOURTH), 4, reported(406));
    // Its credit is back 1,218 byte-times behind the frame.
    let with_leave = |n: u64| {
        let rest = [Call::Advance(12 + n), Call::Leave(3)];
        [&calls(tagged(FOURTH))[..], &rest].concat()
    };
    wrong_in(&with_leave(1218), 6, refuse(21, 0));
    let mut driver = Driver::new(table());
    with_leave(1217).iter().for_each(|&call| driver.make(call));
    assert_eq!(driver.answers[6], refuse(21, 0));
    assert_eq!(watched(&driver), Ok(()));
}

#[test]
fn tagged_frames_are_held_to_their_bounds() {
    let reported = |row: usize, age| {
        let table = tags::table();
        let (payload, size) = (table.rows[row].payload, table.rows[row].size());
        let steps = [
            (Call::Offer(row as u64, payload), Ok(TAKEN)),
            (Call::Advance(age), ended(age, Mark::Row(row), size, 0)),
        ];
        Watch::new(&table, &bounds(&table).unwrap()).see_all(steps.into_iter())
    };
    for (row, size, bound) in [
        (0, 106, 3736),
        (1, 300, 3154),
        (2, 506, 5294),
        (3, 84, 6982),
    ] {
        assert!(reported(row, size - 13).is_err());
        assert_eq!(reported(row, size - 12), Ok(()));
        assert_eq!(reported(row, bound), Ok(()));
        assert!(reported(row, bound + 1).is_err());
    }
}
