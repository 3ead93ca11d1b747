//! A small table with tagged rows, and tables with a tag in place of six bytes of
//! payload.

use simulator::{Class, Row, Table};

use crate::tables::{rated, row, tagged};

/// The table's file, of the edition AVB2. It states every deadline.
pub const FILE: [u8; 46] = [
    0x41, 0x56, 0x42, 0x32, // AVB2
    0x00, 0x03, 0xD0, 0x90, // IA
    0x00, 0x03, 0x0D, 0x40, // IB
    0x05, 0xDC, // best-effort payload
    0x04, // row count
    0x15, 0x00, 0x3A, 0x00, 0x00, 0x2E, 0xE0, // row 0
    0x05, 0x01, 0x02, 0x00, 0x00, 0x17, 0x70, // row 1
    0x95, 0x01, 0xCA, 0x00, 0x00, 0x4E, 0x20, // row 2
    0x9C, 0x00, 0x00, 0x4E, 0x20, 0x00, 0x00, 0xBB, 0x80, 0x0C, // row 3
];

/// The table: the specimen's rows, those of 58 and of 458 bytes tagged, and a
/// tagged row that names a rate and has the default payload. Their bounds are
/// 3736, 3154, 5294 and 6982.
pub fn table() -> Table {
    let of_twelve = Row {
        deadline: 20_000,
        ..rated(Class::B, 36, 48_000, 12)
    };
    Table {
        idle_a: 250_000,
        idle_b: 200_000,
        best_payload: 1500,
        rows: vec![
            tagged(row(Class::A, 58, 15_625, 12_000)),
            row(Class::A, 258, 15_625, 6000),
            tagged(row(Class::B, 458, 31_250, 20_000)),
            tagged(of_twelve),
        ],
    }
}

/// The bytes of a tag.
pub const TAG: u64 = 6;

/// A row with a tag in place of as many bytes of payload: on the wire it is the
/// same. A tagged row, one with padding and one out of range stay as they are.
pub fn twin(row: Row) -> Row {
    if row.tagged || !(42..=1500).contains(&row.payload) {
        return row;
    }
    tagged(Row {
        payload: row.payload - TAG,
        ..row
    })
}

/// A table with the twin of each of its rows.
pub fn twins(table: Table) -> Table {
    let rows = table.rows.iter().copied().map(twin).collect();
    Table { rows, ..table }
}
