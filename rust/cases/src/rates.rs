//! A small table in which rows name a sample rate.

use simulator::{Class, Table};

use crate::tables::{rated, row};

/// The table's file. A change of one byte makes row 0's deadline its period.
pub const FILE: [u8; 40] = [
    0x41, 0x56, 0x42, 0x31, // AVB1
    0x00, 0x03, 0xD0, 0x90, // IA
    0x00, 0x03, 0x0D, 0x40, // IB
    0x05, 0xDC, // best-effort payload
    0x03, // row count
    0x0D, 0x00, 0x48, 0x00, 0x00, 0x41, 0x6E, 0x00, 0x00, 0xAC, 0x44, 0x06, // row 0
    0x88, 0x00, 0x00, 0xBB, 0x80, 0x0C, // row 1
    0x03, 0x00, 0x48, 0x00, 0x00, 0x42, 0x6E, // row 2
];

/// The table: six samples at 44,100 Hz, twelve at 48,000 Hz, which give the
/// default period, and the period of six at 44,100 Hz without its rate.
pub fn table() -> Table {
    let mut of_six = rated(Class::A, 72, 44_100, 6);
    of_six.deadline = 16_750;
    Table {
        idle_a: 250_000,
        idle_b: 200_000,
        best_payload: 1500,
        rows: vec![
            of_six,
            rated(Class::B, 42, 48_000, 12),
            row(Class::A, 72, 17_006, 17_006),
        ],
    }
}
