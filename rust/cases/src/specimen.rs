//! Document 01's specimen.

use simulator::{Class, Pace, Row, Table};

use crate::tables::row;

/// The specimen's file.
pub const FILE: [u8; 28] = [
    0x41, 0x56, 0x42, 0x31, // AVB1
    0x00, 0x03, 0xD0, 0x90, // IA
    0x00, 0x03, 0x0D, 0x40, // IB
    0x05, 0xDC, // best-effort payload
    0x03, // row count
    0x01, 0x00, 0x3A, // row 0
    0x05, 0x01, 0x02, 0x00, 0x00, 0x17, 0x70, // row 1
    0x81, 0x01, 0xCA, // row 2
];

/// The specimen's table.
pub fn table() -> Table {
    Table {
        idle_a: 250_000,
        idle_b: 200_000,
        best_payload: 1500,
        rows: vec![
            row(Class::A, 58, 15_625, 15_625),
            row(Class::A, 258, 15_625, 6000),
            row(Class::B, 458, 31_250, 31_250),
        ],
    }
}

/// A row that fits beside the specimen's, with 400 bytes on the wire. The bounds
/// are then 5630, 5030, 4944 and 4730, without it 3730, 3130 and 4844.
pub const FOURTH: Row = Row {
    class: Class::A,
    tagged: false,
    payload: 358,
    pace: Pace::Period(15_625),
    deadline: 15_625,
};
