//! Each refusal, its place, and that it changes nothing.

use crate::avb1::{read, write};
use cases::specimen::{table, FILE};
use cases::tables::row;
use simulator::{bounds, open, Class, Pace, Port, Refusal, Table};

pub fn refusal(number: u8, place: u64) -> Refusal {
    Refusal { number, place }
}

/// The specimen's file with other bytes from an offset on.
pub fn with(at: usize, bytes: &[u8]) -> Vec<u8> {
    let mut file = FILE.to_vec();
    file[at..at + bytes.len()].copy_from_slice(bytes);
    file
}

/// A file of one row.
pub fn one_row(row: &[u8]) -> Vec<u8> {
    let mut file = FILE[..14].to_vec();
    file.push(1);
    file.extend_from_slice(row);
    file
}

/// Reading refuses a file, of whichever edition.
pub fn refused_read(file: &[u8], number: u8, place: u64) {
    let read = simulator::read(file);
    assert_eq!(read, Err(refusal(number, place)), "{file:02X?}");
}

#[test]
fn reading_1_the_file_ends_early() {
    for size in 0..15 {
        refused_read(&FILE[..size], 1, 0);
    }
    // Tested before all else.
    refused_read(b"wrong", 1, 0);
    // Row 0: map at 15, payload at 16.
    refused_read(&FILE[..15], 1, 15);
    refused_read(&FILE[..16], 1, 16);
    refused_read(&FILE[..17], 1, 16);
    // Row 1: map at 18, payload at 19, deadline at 21.
    refused_read(&FILE[..18], 1, 18);
    refused_read(&FILE[..19], 1, 19);
    refused_read(&FILE[..20], 1, 19);
    for size in 21..25 {
        refused_read(&FILE[..size], 1, 21);
    }
    // Row 2: map at 25, payload at 26.
    refused_read(&FILE[..25], 1, 25);
    refused_read(&FILE[..26], 1, 26);
    refused_read(&FILE[..27], 1, 26);
    // A period.
    refused_read(&one_row(&[0x02, 0, 0, 1]), 1, 16);
}

#[test]
fn reading_2_wrong_letters() {
    for at in 0..4 {
        refused_read(&with(at, b"?"), 2, 0);
    }
    // Before a value out of range.
    refused_read(&with(3, &[b'9', 0xFF]), 2, 0);
}

#[test]
fn reading_3_row_count() {
    refused_read(&with(14, &[0]), 3, 14);
    refused_read(&with(14, &[33]), 3, 14);
    refused_read(&with(14, &[255]), 3, 14);
    // Before the row's map.
    refused_read(&with(14, &[33, 0x78]), 3, 14);
}

#[test]
fn reading_4_map_bits() {
    for bit in 4..=6 {
        refused_read(&with(15, &[0x01 | 1 << bit]), 4, 15);
        refused_read(&with(25, &[0x81 | 1 << bit]), 4, 25);
    }
    // Before the row's fields.
    refused_read(&one_row(&[0x11]), 4, 15);
}

#[test]
fn reading_5_out_of_range() {
    // 750,000 is 000B71B0.
    assert!(read(&with(4, &[0x00, 0x0B, 0x71, 0xB0])).is_ok());
    refused_read(&with(4, &[0x00, 0x0B, 0x71, 0xB1]), 5, 4);
    assert!(read(&with(8, &[0x00, 0x0B, 0x71, 0xB0])).is_ok());
    refused_read(&with(8, &[0x00, 0x0B, 0x71, 0xB1]), 5, 8);
    refused_read(&with(12, &[0x05, 0xDD]), 5, 12);
    assert!(read(&with(16, &[0x05, 0xDC])).is_ok());
    refused_read(&with(16, &[0x05, 0xDD]), 5, 16);
    // The header before the row count.
    refused_read(&with(12, &[0x05, 0xDD, 0]), 5, 12);
    // Periods: 83, 84, 1,000,000,000 (3B9ACA00) and one more.
    refused_read(&one_row(&[0x02, 0, 0, 0, 83]), 5, 16);
    assert!(read(&one_row(&[0x02, 0, 0, 0, 84])).is_ok());
    assert!(read(&one_row(&[0x02, 0x3B, 0x9A, 0xCA, 0x00])).is_ok());
    refused_read(&one_row(&[0x02, 0x3B, 0x9A, 0xCA, 0x01]), 5, 16);
    refused_read(&one_row(&[0x02, 0xFF, 0xFF, 0xFF, 0xFF]), 5, 16);
    // Deadlines: 0, 1, 1,000,000,000 and one more.
    refused_read(&one_row(&[0x04, 0, 0, 0, 0]), 5, 16);
    assert!(read(&one_row(&[0x04, 0, 0, 0, 1])).is_ok());
    assert!(read(&one_row(&[0x04, 0x3B, 0x9A, 0xCA, 0x00])).is_ok());
    refused_read(&one_row(&[0x04, 0x3B, 0x9A, 0xCA, 0x01]), 5, 16);
    refused_read(&one_row(&[0x04, 0xFF, 0xFF, 0xFF, 0xFF]), 5, 16);
    refused_read(
        &one_row(&[0x06, 0, 0, 0, 84, 0x3B, 0x9A, 0xCA, 0x01]),
        5,
        20,
    );
}

#[test]
fn reading_6_a_field_stating_its_default() {
    refused_read(&with(16, &[0, 42]), 6, 16);
    refused_read(&one_row(&[0x02, 0, 0, 0x3D, 0x09]), 6, 16);
    refused_read(&one_row(&[0x82, 0, 0, 0x7A, 0x12]), 6, 16);
    // The other class's default is not the default.
    assert!(read(&one_row(&[0x82, 0, 0, 0x3D, 0x09])).is_ok());
    assert!(read(&one_row(&[0x02, 0, 0, 0x7A, 0x12])).is_ok());
    // The deadline's default is the row's period, stated or not.
    refused_read(&one_row(&[0x04, 0, 0, 0x3D, 0x09]), 6, 16);
    refused_read(&one_row(&[0x06, 0, 0, 0, 84, 0, 0, 0, 84]), 6, 20);
}

#[test]
fn reading_7_bytes_after_the_last_row() {
    let mut file = FILE.to_vec();
    file.push(0);
    refused_read(&file, 7, 28);
    file.push(0);
    refused_read(&file, 7, 28);
    refused_read(&with(14, &[2]), 7, 25);
}

#[test]
fn writing_3_5_and_17() {
    let refused = |table: &Table, size: usize, number, place| {
        let mut buffer = vec![0xEE; size];
        assert_eq!(write(table, &mut buffer), Err(refusal(number, place)));
        assert_eq!(buffer, vec![0xEE; size], "untouched");
    };
    for size in 0..28 {
        refused(&table(), size, 17, 0);
    }
    let mut none = table();
    none.rows.clear();
    refused(&none, 100, 3, 0);
    let mut value = table();
    value.rows[2].pace = Pace::Period(83);
    refused(&value, 100, 5, 2);
    refused(&value, 0, 5, 2);
    value.idle_a = 750_001;
    refused(&value, 100, 5, 32);
    // The slope rules, shares and bounds are not asked.
    let mut unopened = table();
    unopened.idle_b = 0;
    assert_eq!(write(&unopened, &mut [0; 28]), Ok(28));
}

pub fn refused_open(change: impl Fn(&mut Table), number: u8, place: u64) {
    let mut table = table();
    change(&mut table);
    assert_eq!(open(&table), Err(refusal(number, place)), "{table:?}");
    assert_eq!(bounds(&table), Err(refusal(number, place)), "{table:?}");
}

#[test]
fn opening_3_row_count() {
    refused_open(|table| table.rows.clear(), 3, 0);
    refused_open(|table| table.rows.resize(33, table.rows[0]), 3, 0);
    refused_open(|table| table.rows.resize(255, table.rows[0]), 3, 0);
    // Before a value out of range.
    refused_open(
        |table| {
            table.rows.clear();
            table.idle_a = u64::MAX;
        },
        3,
        0,
    );
    // 32 rows are a row count.
    let mut full = table();
    full.rows = vec![row(Class::A, 42, 1_000_000_000, 1_000_000_000); 32];
    full.idle_b = 0;
    assert_eq!(open(&full), Ok(()));
    assert_eq!(
        bounds(&full).unwrap()[31],
        84 + 1542 + (31 * 84 * 4 + 84 * 3) - 12
    );
}

#[test]
fn opening_5_out_of_range() {
    refused_open(|table| table.idle_a = 750_001, 5, 32);
    refused_open(|table| table.idle_b = 750_001, 5, 32);
    refused_open(|table| table.best_payload = 1501, 5, 32);
    refused_open(|table| table.best_payload = u64::MAX, 5, 32);
    refused_open(|table| table.rows[0].payload = 1501, 5, 0);
    let period = |table: &mut Table, period| table.rows[1].pace = Pace::Period(period);
    refused_open(|table| period(table, 83), 5, 1);
    refused_open(|table| period(table, 1_000_000_001), 5, 1);
    refused_open(|table| table.rows[2].deadline = 0, 5, 2);
    refused_open(|table| table.rows[2].deadline = 1_000_000_001, 5, 2);
    refused_open(|table| table.rows[2].deadline = u64::MAX, 5, 2);
    refused_open(|table| table.rows[2].payload = u64::MAX, 5, 2);
    // Header first, then the lowest row.
    refused_open(
        |table| {
            table.rows[0].payload = 1501;
            table.best_payload = 1501;
        },
        5,
        32,
    );
    refused_open(
        |table| {
            table.rows[2].payload = 1501;
            table.rows[1].deadline = 0;
        },
        5,
        1,
    );
}

#[test]
fn opening_8_slope_rules() {
    refused_open(|table| table.idle_a = 0, 8, 0);
    refused_open(|table| table.idle_b = 0, 8, 0);
    refused_open(|table| table.rows.truncate(2), 8, 0);
    refused_open(|table| drop(table.rows.drain(..2)), 8, 0);
    refused_open(|table| table.idle_a = 550_001, 8, 0);
    let mut full = table();
    full.idle_a = 550_000;
    assert_eq!(open(&full), Ok(()));
}

#[test]
fn opening_9_shares_above_i() {
    refused_open(|table| table.idle_a = 25_599, 9, 0);
    refused_open(|table| table.idle_b = 15_999, 9, 1);
    // A before B, and both before a bound.
    refused_open(
        |table| {
            table.idle_a = 25_599;
            table.idle_b = 15_999;
        },
        9,
        0,
    );
    // At I they pass and the bound decides.
    refused_open(|table| table.idle_a = 25_600, 10, 0);
    refused_open(|table| table.idle_b = 16_000, 10, 2);
}

#[test]
fn opening_10_a_bound_above_its_deadline() {
    refused_open(|table| table.rows[0].deadline = 3729, 10, 0);
    refused_open(|table| table.rows[1].deadline = 3129, 10, 1);
    refused_open(|table| table.rows[2].deadline = 4843, 10, 2);
    refused_open(
        |table| {
            table.rows[1].deadline = 1;
            table.rows[2].deadline = 1;
        },
        10,
        1,
    );
    let mut tight = table();
    tight.rows[0].deadline = 3730;
    tight.rows[1].deadline = 3130;
    tight.rows[2].deadline = 4844;
    assert_eq!(open(&tight), Ok(()));
}

/// What each call answers, with no answer but a refusal that changes nothing.
fn refused(port: &mut Port, call: impl Fn(&mut Port) -> Option<Refusal>, number: u8) {
    let before = port.clone();
    assert_eq!(call(port), Some(refusal(number, 0)));
    assert_eq!(*port, before, "changes nothing");
}

#[test]
fn offering_11_12_13() {
    let mut port = Port::fresh(table());
    refused(&mut port, |port| port.offer(3, 0).err(), 11);
    refused(&mut port, |port| port.offer(3, 9999).err(), 11);
    refused(&mut port, |port| port.offer(u64::MAX, 0).err(), 11);
    refused(&mut port, |port| port.offer(0, 59).err(), 12);
    refused(&mut port, |port| port.offer(0, u64::MAX).err(), 12);
    assert_eq!(port.offer(0, 0), Ok(()));
    refused(&mut port, |port| port.offer(0, 59).err(), 12);
    refused(&mut port, |port| port.offer(0, 58).err(), 13);
}

#[test]
fn offering_best_effort_12_14() {
    let mut port = Port::fresh(table());
    refused(&mut port, |port| port.offer_best(1501).err(), 12);
    for _ in 0..16 {
        assert_eq!(port.offer_best(1500), Ok(()));
    }
    refused(&mut port, |port| port.offer_best(1501).err(), 12);
    refused(&mut port, |port| port.offer_best(0).err(), 14);
    // One more while one is on the wire.
    port.advance(1).unwrap();
    assert_eq!(port.offer_best(0), Ok(()));
    refused(&mut port, |port| port.offer_best(0).err(), 14);
}

#[test]
fn advancing_15_16() {
    let mut port = Port::fresh(table());
    refused(&mut port, |port| port.advance(65_536).err(), 15);
    refused(&mut port, |port| port.advance(u64::MAX).err(), 15);
    port.clock = 1_099_511_627_775 - 10;
    refused(&mut port, |port| port.advance(65_536).err(), 15);
    refused(&mut port, |port| port.advance(11).err(), 16);
    assert_eq!(port.advance(10).unwrap().passed, 10);
    assert_eq!(port.clock, 1_099_511_627_775);
    refused(&mut port, |port| port.advance(1).err(), 16);
    assert_eq!(port.advance(0).unwrap().passed, 0);
    // Refused by n, though a frame would be reported sooner, and then though
    // the wire would be free sooner.
    port.clock -= 100;
    assert_eq!(port.offer(0, 0), Ok(()));
    refused(&mut port, |port| port.advance(101).err(), 16);
    assert_eq!(port.advance(100).unwrap().passed, 72);
    refused(&mut port, |port| port.advance(29).err(), 16);
    assert_eq!(port.advance(28).unwrap().passed, 28);
    assert_eq!(port.clock, 1_099_511_627_775);
}

#[test]
fn all_calls_18_before_all_else() {
    let mut port = Port::fresh(table());
    port.credit_a = i64::MIN;
    refused(&mut port, |port| port.offer(0, 0).err(), 18);
    refused(&mut port, |port| port.offer(99, 9999).err(), 18);
    refused(&mut port, |port| port.offer_best(0).err(), 18);
    refused(&mut port, |port| port.offer_best(9999).err(), 18);
    refused(&mut port, |port| port.advance(0).err(), 18);
    refused(&mut port, |port| port.advance(65_536).err(), 18);
}
