//! Tables whose rows may have several frames in the port, up to the most that
//! there can be.

use simulator::table::accept;
use simulator::{Class, Pace, Table};

use crate::tables::row;

/// Five rows of class A, each with a bound above three periods: four frames of
/// a row at once.
pub fn four_of_each() -> Table {
    Table {
        idle_a: 750_000,
        idle_b: 0,
        best_payload: 1500,
        rows: vec![row(Class::A, 42, 600, 2_500); 5],
    }
}

/// A sole row of B behind a row of A: 29 frames of it.
pub fn sole() -> Table {
    Table {
        idle_a: 1_000,
        idle_b: 749_000,
        best_payload: 1500,
        rows: vec![
            row(Class::A, 1500, 2_000_000, 2_000_000),
            row(Class::B, 42, 113, 1_000_000_000),
        ],
    }
}

/// A row of B with two neighbours: 62 frames of it, and 64 in the class.
pub fn with_two_neighbours() -> Table {
    let neighbour = row(Class::B, 1234, 1_000_000, 1_000_000);
    let short = row(Class::B, 42, 113, 7_100);
    let mut table = sole();
    table.rows.splice(1.., [neighbour, neighbour, short]);
    table
}

/// The same with another count of frames, from 1 to 62.
pub fn with_frames(count: u64) -> Table {
    let mut table = with_two_neighbours();
    let residence = accept(&table).expect("an accepted table").residences[3];
    table.rows[3].pace = Pace::Period(residence.div_ceil(count));
    table
}

/// The same with one byte more in the neighbours' frames: 65 in class B.
pub fn one_too_many() -> Table {
    let mut table = with_two_neighbours();
    for row in &mut table.rows[1..3] {
        row.payload += 1;
    }
    table
}

/// 32 rows of A with two frames each: 64 in the class. A frame is in the port
/// for 5,126 byte-times at most, one more than the period; the bound, 12 less,
/// is the deadline.
pub fn two_of_each() -> Table {
    Table {
        idle_a: 750_000,
        idle_b: 0,
        best_payload: 1500,
        rows: vec![row(Class::A, 42, 5_125, 5_114); 32],
    }
}

/// A row of A with 61 frames and one of B with 62: 64 in each class. With a
/// period that is one less there are 65.
pub fn full_classes() -> Table {
    let of_a = row(Class::A, 1300, 1_000_000, 1_000_000);
    let of_b = row(Class::B, 1500, 1_000_000, 1_000_000);
    Table {
        idle_a: 375_000,
        idle_b: 375_000,
        best_payload: 1500,
        rows: vec![
            row(Class::A, 42, 240, 15_000),
            of_a,
            of_a,
            of_a,
            row(Class::B, 42, 237, 15_000),
            of_b,
            of_b,
        ],
    }
}

/// All of them that are accepted.
pub fn all() -> [Table; 5] {
    [
        four_of_each(),
        sole(),
        with_two_neighbours(),
        two_of_each(),
        full_classes(),
    ]
}
