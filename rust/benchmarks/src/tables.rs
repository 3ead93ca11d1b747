//! The table files that are measured.

use cases::tables::row;
use simulator::{file_of, Class, Edition, Row, Table};

/// Document 01's specimen: 3 rows; and a row that may join them.
pub use cases::specimen::{FILE as OF_3_ROWS, FOURTH};

/// 32 rows, 16 of each class.
pub fn of_32_rows() -> Vec<u8> {
    file_of(Edition::Avb1, &table_of_32_rows())
}

/// The first 31 of them, and the last, which may join.
pub fn of_31_rows() -> (Vec<u8>, Row) {
    let mut table = table_of_32_rows();
    let last = table.rows.pop().expect("32 rows");
    (file_of(Edition::Avb1, &table), last)
}

fn table_of_32_rows() -> Table {
    let rows = (0..32).map(|place| {
        let class = if place % 2 == 0 { Class::A } else { Class::B };
        row(class, 50 + place, 100_000 + place, 90_000)
    });
    Table {
        idle_a: 300_000,
        idle_b: 300_000,
        best_payload: 1500,
        rows: rows.collect(),
    }
}

/// 32 rows of full frames in a class of small slope: offered at once, they
/// wait for credit most of the time.
pub fn of_long_waits() -> Vec<u8> {
    let table = Table {
        idle_a: 20_000,
        idle_b: 0,
        best_payload: 1500,
        rows: vec![row(Class::A, 1500, 2_500_000, 2_500_000); 32],
    };
    file_of(Edition::Avb1, &table)
}
