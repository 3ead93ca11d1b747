//! C-11: rows that name a sample rate.

use crate::avb1::{file_of, read, write};
use crate::refusals::{one_row, refusal, refused_open, refused_read, with};
use cases::rates::{self, FILE};
use cases::specimen::table;
use cases::tables::{rated, row};
use simulator::table::{PERIOD_RANGE, SECOND};
use simulator::{bounds, open, portsheet, Class, Pace, Port, Table};

fn period(samples: u64, rate: u64) -> u64 {
    Pace::Rated { rate, samples }.period()
}

#[test]
fn a_period_is_rounded_down() {
    // "six samples at 44,100 give 17,006": 17,006.8.
    assert_eq!(period(6, 44_100), 17_006);
    assert_eq!(period(7, 44_100), 19_841);
    assert_eq!(period(6, 48_000), 15_625);
    assert_eq!(period(12, 48_000), 31_250);
    assert_eq!(period(1, 200_000), 625);
    assert_eq!(period(255, 200_000), 159_375);
    assert_eq!(period(1, 1_000), 125_000);
    assert_eq!(period(255, 1_000), 31_875_000);
    for rate in (1_000..=200_000).step_by(199) {
        for samples in 1..=255 {
            let period = period(samples, rate);
            assert!(PERIOD_RANGE.contains(&period));
            assert!(period * rate <= samples * SECOND);
            assert!(samples * SECOND < (period + 1) * rate);
        }
    }
}

/// The specimen with another pace of row 1 and, as its deadline, the period.
fn paced(table: &mut Table, samples: u64, rate: u64) {
    table.rows[1] = rated(Class::A, 258, rate, samples);
}

#[test]
fn opening_5_rate_or_samples() {
    for rate in [0, 1, 999, 200_001, 1 << 32, u64::MAX] {
        refused_open(|table| paced(table, 6, rate), 5, 1);
        refused_open(|table| paced(table, 255, rate), 5, 1);
    }
    for samples in [0, 256, 512, u64::MAX] {
        refused_open(|table| paced(table, samples, 1_000), 5, 1);
        refused_open(|table| paced(table, samples, 200_000), 5, 1);
    }
    let opens = |samples, rate| {
        let mut table = table();
        paced(&mut table, samples, rate);
        assert_eq!(open(&table), Ok(()));
    };
    opens(1, 1_000);
    opens(255, 1_000);
    opens(255, 200_000);
    // In range, but its share is 480,000.
    refused_open(|table| paced(table, 1, 200_000), 9, 0);
    // The header first, then the lowest row.
    refused_open(
        |table| {
            paced(table, 0, 0);
            table.best_payload = 1501;
        },
        5,
        32,
    );
    refused_open(
        |table| {
            paced(table, 0, 0);
            table.rows[2].payload = 1501;
        },
        5,
        1,
    );
}

#[test]
fn opening_judges_by_the_rounded_period() {
    let deadline = |table: &mut Table, deadline| {
        paced(table, 6, 44_100);
        table.rows[1].deadline = deadline;
    };
    refused_open(|table| deadline(table, 0), 5, 1);
    refused_open(|table| deadline(table, 3_129), 10, 1);
    let mut table = table();
    deadline(&mut table, 17_006);
    assert_eq!(bounds(&table).unwrap()[..3], [3730, 3130, 4844]);
    // One sample at 150,001 is 833.3 byte-times, which would have a share of 1,850,413.
    assert_eq!(rated(Class::A, 1500, 150_001, 1).share(), 1_851_141);
    // A share of 17,641, one more than at 17,007.
    assert_eq!(table.rows[1].share(), 17_641);
    table.rows.truncate(2);
    (table.idle_a, table.idle_b) = (6_400 + 17_641, 0);
    table.rows[1].deadline = 1;
    assert_eq!(open(&table), Err(refusal(10, 0)));
    table.idle_a -= 1;
    assert_eq!(open(&table), Err(refusal(9, 0)));
}

#[test]
fn early_by_the_rounded_period() {
    let mut port = Port::fresh(rates::table());
    for row in [0, 2] {
        assert_eq!(port.offer(row, 72), Ok(()));
    }
    while port.clock < 17_005 {
        port.advance(17_005 - port.clock).unwrap();
    }
    for row in [0, 2] {
        assert_eq!(port.offer(row, 72), Err(refusal(13, 0)));
    }
    port.advance(1).unwrap();
    for row in [0, 2] {
        assert_eq!(port.offer(row, 72), Ok(()));
    }
}

#[test]
fn a_sheet_prints_the_rounded_period() {
    assert_eq!(
        portsheet(&FILE),
        "row class wire period deadline bound\n\
         0 A 114 17006 16750 2442\n\
         1 B 84 31250 31250 2578\n\
         2 A 114 17006 17006 2442\n"
    );
}

#[test]
fn the_table_remembers_which_way() {
    assert_eq!(read(&FILE), Ok(rates::table()));
    let mut buffer = [0xEE; 42];
    assert_eq!(write(&rates::table(), &mut buffer), Ok(40));
    assert_eq!(buffer[..40], FILE);
    assert_eq!(buffer[40..], [0xEE; 2], "bytes behind the file");
    // The same period by itself is another row, another table and another port.
    let mut other = rates::table();
    other.rows[1] = row(Class::B, 42, 31_250, 31_250);
    assert_ne!(other, rates::table());
    assert_ne!(Port::fresh(other.clone()), Port::fresh(rates::table()));
    assert_eq!(file_of(&other).len(), 35);
    assert_eq!(read(&file_of(&other)), Ok(other));
}

#[test]
fn a_rated_row_has_bit_3_and_never_bit_1() {
    let written = |row| {
        let table = Table {
            rows: vec![row],
            ..table()
        };
        let mut buffer = [0; 30];
        let size = write(&table, &mut buffer).unwrap();
        assert_eq!(read(&buffer[..size]), Ok(table));
        buffer[15..size].to_vec()
    };
    let mut row = rated(Class::A, 42, 44_100, 6);
    assert_eq!(written(row), [0x08, 0, 0, 0xAC, 0x44, 6]);
    row.payload = 43;
    assert_eq!(written(row), [0x09, 0, 43, 0, 0, 0xAC, 0x44, 6]);
    row.class = Class::B;
    row.deadline = 17_005;
    let all = [0x8D, 0, 43, 0, 0, 0x42, 0x6D, 0, 0, 0xAC, 0x44, 6];
    assert_eq!(written(row), all);
    // A default period, of this class and of the other.
    for class in [0x00, 0x80] {
        let row = |rate, samples| match class {
            0 => rated(Class::A, 42, rate, samples),
            _ => rated(Class::B, 42, rate, samples),
        };
        let map = class | 0x08;
        assert_eq!(written(row(48_000, 6)), [map, 0, 0, 0xBB, 0x80, 6]);
        assert_eq!(written(row(48_000, 12)), [map, 0, 0, 0xBB, 0x80, 12]);
    }
}

#[test]
fn the_longest_file_has_399_bytes() {
    let mut longest = rated(Class::A, 1500, 1_000, 255);
    longest.deadline -= 1;
    let table = Table {
        rows: vec![longest; 32],
        ..table()
    };
    let mut buffer = [0; 399];
    assert_eq!(write(&table, &mut buffer[..398]), Err(refusal(17, 0)));
    assert_eq!(buffer, [0; 399]);
    assert_eq!(write(&table, &mut buffer), Ok(399));
    assert_eq!(read(&buffer), Ok(table));
}

#[test]
fn writing_5_rate_or_samples() {
    let mut buffer = [0xEE; 100];
    for (rate, samples) in [(999, 6), (200_001, 6), (44_100, 0), (44_100, 256)] {
        let mut table = table();
        paced(&mut table, samples, rate);
        assert_eq!(write(&table, &mut buffer), Err(refusal(5, 1)));
        assert_eq!(write(&table, &mut []), Err(refusal(5, 1)));
    }
    assert_eq!(buffer, [0xEE; 100]);
}

#[test]
fn reading_1_in_a_rated_row() {
    // Row 0: map at 15, payload at 16, deadline at 18, rate at 22, samples at 26.
    for (from, place) in [(15, 15), (16, 16), (18, 18), (22, 22), (26, 26)] {
        refused_read(&FILE[..from], 1, place);
    }
    for size in 18..22 {
        refused_read(&FILE[..size], 1, 18);
    }
    for size in 22..26 {
        refused_read(&FILE[..size], 1, 22);
    }
    // Row 1: map at 27, rate at 28, samples at 32.
    for size in 28..32 {
        refused_read(&FILE[..size], 1, 28);
    }
    refused_read(&FILE[..32], 1, 32);
    // A deadline out of range is judged later.
    refused_read(&one_row(&[0x0C, 0, 0, 0, 0]), 1, 20);
    refused_read(&one_row(&[0x0C, 0, 0, 0, 0, 0, 0, 0xAC, 0x44]), 1, 24);
}

/// A row that states a rate, in four bytes, and its samples.
fn of_rate(rate: u32, samples: u8) -> Vec<u8> {
    let rate = rate.to_be_bytes();
    one_row(&[&[0x08], &rate[..], &[samples]].concat())
}

/// The same with a deadline.
fn with_deadline(deadline: u32, rate: u32, samples: u8) -> Vec<u8> {
    let (deadline, rate) = (deadline.to_be_bytes(), rate.to_be_bytes());
    one_row(&[&[0x0C], &deadline[..], &rate[..], &[samples]].concat())
}

#[test]
fn reading_5_rate_or_samples() {
    for rate in [0, 1, 999, 200_001, u32::MAX] {
        refused_read(&of_rate(rate, 6), 5, 16);
        refused_read(&of_rate(rate, 0), 5, 16);
        // Before the missing samples.
        let file = of_rate(rate, 6);
        refused_read(&file[..20], 5, 16);
    }
    for rate in [1_000, 44_100, 200_000] {
        refused_read(&of_rate(rate, 0), 5, 20);
        for samples in [1, 6, 255] {
            let table = read(&of_rate(rate, samples)).unwrap();
            let meant = rated(Class::A, 42, rate.into(), samples.into());
            assert_eq!(table.rows, [meant]);
        }
    }
}

#[test]
fn reading_5_and_6_of_a_rated_rows_deadline() {
    let reads = |deadline: u32, rate: u32, samples: u8| {
        let table = read(&with_deadline(deadline, rate, samples)).unwrap();
        let mut meant = rated(Class::A, 42, rate.into(), samples.into());
        meant.deadline = deadline.into();
        assert_eq!(table.rows, [meant]);
    };
    for (rate, samples) in [(44_100, 6), (200_000, 1), (1_000, 255), (48_000, 6)] {
        let period = period(samples.into(), rate.into()) as u32;
        for deadline in [1, period - 1, period + 1, 1_000_000_000] {
            reads(deadline, rate, samples);
        }
        refused_read(&with_deadline(0, rate, samples), 5, 16);
        refused_read(&with_deadline(period, rate, samples), 6, 16);
        refused_read(&with_deadline(1_000_000_001, rate, samples), 5, 16);
        refused_read(&with_deadline(u32::MAX, rate, samples), 5, 16);
    }
    // The class's default period is nothing to a rated row.
    reads(15_625, 44_100, 6);
    reads(31_250, 44_100, 12);
    // Rate and samples come first.
    for deadline in [0, 17_006, u32::MAX] {
        refused_read(&with_deadline(deadline, 999, 6), 5, 20);
        refused_read(&with_deadline(deadline, 200_001, 0), 5, 20);
        refused_read(&with_deadline(deadline, 44_100, 0), 5, 24);
    }
}

#[test]
fn reading_6_never_of_rate_or_samples() {
    let read_row = |row: &[u8]| read(&one_row(row)).unwrap().rows[0];
    let of_a = read_row(&[0x08, 0, 0, 0xBB, 0x80, 6]);
    assert_eq!(of_a, rated(Class::A, 42, 48_000, 6));
    assert_eq!(of_a.period(), 15_625);
    let of_b = read_row(&[0x88, 0, 0, 0xBB, 0x80, 12]);
    assert_eq!(of_b, rated(Class::B, 42, 48_000, 12));
    assert_eq!(of_b.period(), 31_250);
}

#[test]
fn reading_19_bits_1_and_3() {
    for map in [0x0A, 0x0B, 0x0E, 0x0F, 0x8A, 0x8F] {
        refused_read(&one_row(&[map]), 19, 15);
        refused_read(&with(25, &[map]), 19, 25);
        // After 4.
        for bit in 4..=6 {
            refused_read(&one_row(&[map | 1 << bit]), 4, 15);
        }
    }
    // Before the row's fields, and behind those of the rows ahead of it.
    refused_read(&with(18, &[0x0B, 0xFF, 0xFF]), 19, 18);
    refused_read(&with(16, &[0, 42, 0x0B]), 6, 16);
}
