//! Files of the edition AVB1, in which the rules of all requests before C-16 are
//! tested.

use simulator::{file, Edition, Refusal, Table};

/// The table of a file, which is of AVB1 if it is not refused.
pub fn read(file: &[u8]) -> Result<Table, Refusal> {
    let (edition, table) = file::read(file)?;
    assert_eq!(edition, Edition::Avb1);
    Ok(table)
}

pub fn write(table: &Table, buffer: &mut [u8]) -> Result<usize, Refusal> {
    file::write(Edition::Avb1, table, buffer)
}

pub fn file_of(table: &Table) -> Vec<u8> {
    file::file_of(Edition::Avb1, table)
}
