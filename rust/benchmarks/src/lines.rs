//! What is measured, and what it should stay below.

use std::hint::black_box;

use cases::crowds;
use cases::hunt::{Hunt, Way};
use cases::ports::{full, full_reversed};
use ithumeco::BOUNDS_SIZE;
use simulator::{file_of, Call, Edition, Port};

use crate::clock::{compare, Compared};
use crate::lists::{
    all_offered, beside_each_other, by_the_byte_time, called, called_in_turn, called_on, replayed,
    simulate, up_to_the_most,
};
use crate::report::{Line, Target};
use crate::tables::{of_31_rows, of_32_rows, of_long_waits, FOURTH, OF_3_ROWS};

/// Calls that are made again and again. A frame is offered in the gap of the one
/// before it, so its advance passes that gap and the frame's bytes up to its own:
/// as many byte-times as the frame has bytes. (The first of a list passes 12
/// fewer.)
const LONG: &[Call] = &[Call::Advance(65_535)];
const FULL_FRAME: &[Call] = &[Call::OfferBest(1500), Call::Advance(1542)];
const SMALL_FRAME: [Call; 2] = [Call::OfferBest(42), Call::Advance(84)];
const NOTHING: &[Call] = &[Call::Advance(0)];

/// A row that joins the specimen's and leaves.
const FOURTH_ROW: [Call; 2] = [Call::Join(3, FOURTH), Call::Leave(3)];

/// What one call on a record's bytes is to stay within.
const OF_A_CALL: &[Target] = &[Target::AtMostNs(1500.0)];

/// A line of what is not done in place.
fn beside_the_simulator(name: &'static str, compared: Compared<1>, targets: &[Target]) -> Line<2> {
    Line {
        name,
        ns: compared.ns,
        others: [Some(compared.others[0]), None],
        targets: targets.to_vec(),
    }
}

/// Lists by the byte-time. In place they do not pass one by one.
pub fn byte_times() -> [Line<2>; 3] {
    let line = |name, file: &[u8], calls: &[Call]| {
        let targets = [Target::AtMost(1.5), Target::UnderNs(2.0)];
        beside_the_simulator(name, by_the_byte_time(file, calls), &targets)
    };
    [
        line(
            "byte-time, free wire, nothing waits (advances by 65,535)",
            &OF_3_ROWS,
            &LONG.repeat(40),
        ),
        line(
            "byte-time of a 1,542-byte frame (its offer and its advance)",
            &OF_3_ROWS,
            &FULL_FRAME.repeat(2_000),
        ),
        line(
            "byte-time where frames wait for credit (32 rows offered at once)",
            &of_long_waits(),
            &all_offered(1500, LONG[0], 94),
        ),
    ]
}

/// Advances in which much time passes.
pub fn long_advances() -> [Line<2>; 2] {
    let line = |name, calls: &[Call], times| {
        let compared = replayed(&OF_3_ROWS, &calls.repeat(times), times as u64);
        Line::new(name, compared, &[Target::AtMost(1.5)])
    };
    [
        line("advance by 65,535, free wire, nothing waits", LONG, 40),
        line(
            "advance by 1,542 in which a frame goes out, with its offer",
            FULL_FRAME,
            2_000,
        ),
    ]
}

/// A file of 31 rows, and a row that joins them and leaves.
fn of_31_and_one() -> (Vec<u8>, [Call; 2]) {
    let (file, last) = of_31_rows();
    (file, [Call::Join(31, last), Call::Leave(31)])
}

/// Calls in which little time passes or none.
pub fn short_calls() -> [Line<2>; 9] {
    let (three, many) = (&OF_3_ROWS[..], &of_32_rows()[..]);
    let (of_31, last_row) = of_31_and_one();
    let listed = |name, file, list: &[Call], times| {
        let compared = replayed(file, list, times as u64);
        Line::new(name, compared, &[Target::AtMost(2.0)])
    };
    let line = |name, file, calls: &[Call], times| listed(name, file, &calls.repeat(times), times);
    let patched = |name, file, calls: &[Call]| Line {
        targets: vec![],
        ..line(name, file, calls, 50_000)
    };
    let early = [Call::Offer(0, 50)];
    [
        Line {
            targets: vec![Target::AtMost(1.2)],
            ..line("advance by 0, 3 rows", three, NOTHING, 100_000)
        },
        line("advance by 0, 32 rows", many, NOTHING, 100_000),
        listed(
            "advance by 0, 32 rows, every row's frame waiting",
            many,
            &all_offered(50, NOTHING[0], 100_000),
            100_000,
        ),
        line(
            "offer to a row, refused as early, 3 rows",
            three,
            &early,
            100_000,
        ),
        line(
            "offer to a row, refused as early, 32 rows",
            many,
            &early,
            100_000,
        ),
        Line {
            targets: vec![Target::AtMost(2.0), Target::UnderNs(672.0)],
            ..line(
                "offer and advance of an 84-byte best-effort frame, 3 rows",
                three,
                &SMALL_FRAME,
                50_000,
            )
        },
        line(
            "offer and advance of an 84-byte best-effort frame, 32 rows",
            many,
            &SMALL_FRAME,
            50_000,
        ),
        patched("join of a row and its leave, 3 rows", three, &FOURTH_ROW),
        patched("join of a row and its leave, 31 rows", &of_31, &last_row),
    ]
}

/// What is asked of a table file. No port is in it.
pub fn files() -> [Line<2>; 2] {
    const TIMES: u64 = 1_000;
    let many = of_32_rows();
    let line = |name, ours: &dyn Fn(), theirs: &dyn Fn()| {
        let again = |program: &dyn Fn()| (0..TIMES).for_each(|_| program());
        let compared = compare(TIMES, &mut || again(ours), [&mut || again(theirs)]);
        beside_the_simulator(name, compared, &[Target::AtMost(2.0)])
    };
    [
        line(
            "read and open a file of 32 rows",
            &|| ithumeco::replay(&many, &[], &mut []).expect("the file opens"),
            &|| {
                black_box(simulate(&many, &[]));
            },
        ),
        line(
            "read a file of 32 rows and write its bounds",
            &|| {
                let mut bounds = [0; BOUNDS_SIZE];
                ithumeco::bounds(&many, &mut bounds).expect("the table has bounds");
            },
            &|| {
                let (_, table) = simulator::read(&many).expect("the file reads");
                let _ = black_box(simulator::bounds(&table));
            },
        ),
    ]
}

/// Calls on a record's bytes: beside the simulator's on its own port, those in
/// place, and the same calls in a list. Of two that are made in turn, each is
/// measured alone as well.
pub fn calls_on_bytes() -> [Line<3>; 11] {
    const TIMES: usize = 20_000;
    let line = |name, file: &[u8], calls: &[Call], targets| {
        let compared = called(file, &calls.repeat(TIMES), TIMES as u64);
        Line::new(name, compared, targets)
    };
    let alone = |name, ns, targets: &[Target]| Line {
        name,
        ns,
        others: [None; 3],
        targets: targets.to_vec(),
    };
    let (of_31, last_row) = of_31_and_one();
    let [offer, advance] = called_in_turn(&OF_3_ROWS, SMALL_FRAME);
    let [join, leave] = called_in_turn(&OF_3_ROWS, FOURTH_ROW);
    let [last_join, last_leave] = called_in_turn(&of_31, last_row);
    [
        line("advance by 0, 3 rows", &OF_3_ROWS, NOTHING, OF_A_CALL),
        line("advance by 0, 32 rows", &of_32_rows(), NOTHING, &[]),
        line(
            "offer and advance of an 84-byte best-effort frame, 3 rows",
            &OF_3_ROWS,
            &SMALL_FRAME,
            &[],
        ),
        alone("its offer alone", offer, OF_A_CALL),
        alone("its advance alone", advance, OF_A_CALL),
        line(
            "join of a row and its leave, 3 rows",
            &OF_3_ROWS,
            &FOURTH_ROW,
            &[],
        ),
        alone("the join alone", join, &[]),
        alone("the leave alone", leave, &[]),
        line(
            "join of a row and its leave, 31 rows",
            &of_31,
            &last_row,
            &[],
        ),
        alone("the join alone", last_join, &[]),
        alone("the leave alone", last_leave, &[]),
    ]
}

/// Advances by 0 on a fresh port of few rows, beside those on one of 32.
pub fn few_rows() -> [Line<1>; 2] {
    let [listed, on_bytes] = beside_each_other(&OF_3_ROWS, &of_32_rows(), 50_000);
    [("in a list", listed), ("on a record's bytes", on_bytes)]
        .map(|(name, compared)| Line::new(name, compared, &[Target::Below(1.0)]))
}

/// Calls in a list that has led to as many frames of a row as lists were found
/// to lead to.
pub fn calls_behind_many_frames() -> [Line<2>; 2] {
    const TIMES: usize = 20_000;
    let table = crowds::with_two_neighbours();
    let hunt = Hunt {
        row: 3,
        way: Way::Blocked,
        again: Some(0),
        joins: false,
    };
    let (list, most) = up_to_the_most(&table, hunt);
    assert_eq!(most, 58, "the frames that the lines' names speak of");
    let file = file_of(Edition::Avb1, &table);
    let line = |name, call| {
        let list = [&list[..], &[call].repeat(TIMES)].concat();
        Line::new(name, replayed(&file, &list, TIMES as u64), &[])
    };
    [
        line(
            "advance by 0 in a list, 4 rows, one of them with 58 frames waiting",
            NOTHING[0],
        ),
        line(
            "offer refused as early in a list, 4 rows, one of them with 58 frames waiting",
            Call::Offer(3, 42),
        ),
    ]
}

/// Calls on a record's bytes with as many frames in the port as there may be,
/// and the same on a fresh port.
pub fn calls_on_full_ports() -> [Line<2>; 9] {
    const TIMES: usize = 20_000;
    let line = |name, port: &Port, call| Line::new(name, called_on(port, call, TIMES), &[]);
    let nothing = Call::Advance(0);
    let (pairs, mixed) = (crowds::two_of_each(), crowds::with_two_neighbours());
    let both = crowds::full_classes();
    [
        line(
            "advance by 0 on a record, 32 rows, no frames",
            &Port::fresh(pairs.clone()),
            nothing,
        ),
        line(
            "advance by 0 on a record, 32 rows of two frames, in order",
            &full(pairs.clone()),
            nothing,
        ),
        line(
            "advance by 0 on a record, 32 rows of two frames, out of order",
            &full_reversed(pairs.clone()),
            nothing,
        ),
        line(
            "offer refused as early on a record, 32 rows of two frames, in order",
            &full(pairs),
            Call::Offer(31, 42),
        ),
        line(
            "advance by 0 on a record, 4 rows, no frames",
            &Port::fresh(mixed.clone()),
            nothing,
        ),
        line(
            "advance by 0 on a record, 4 rows, one of them with 62 frames, in order",
            &full(mixed.clone()),
            nothing,
        ),
        line(
            "advance by 0 on a record, 4 rows, one of them with 62 frames, out of order",
            &full_reversed(mixed.clone()),
            nothing,
        ),
        line(
            "offer refused as early on a record, 4 rows, one of them with 62 frames, in order",
            &full(mixed),
            Call::Offer(3, 42),
        ),
        line(
            "advance by 0 on a record, 7 rows, 64 frames in each class, out of order",
            &full_reversed(both),
            nothing,
        ),
    ]
}
