//! The scope's own numbers.

use crate::avb1::{read, write};
use crate::frames::{best, ended, frame, none};
use cases::specimen::{table, FILE};
use cases::tables::row;
use simulator::{bounds, open, portrun, portsheet, wire_size, Class, Port, Refusal, Table, Wire};

#[test]
fn specimen_reads() {
    assert_eq!(read(&FILE), Ok(table()));
    assert_eq!(include_bytes!("../../../../tables/specimen.avb"), &FILE);
}

#[test]
fn specimen_writes() {
    let mut buffer = [0xEE; 40];
    assert_eq!(write(&table(), &mut buffer), Ok(28));
    assert_eq!(buffer[..28], FILE);
    assert_eq!(buffer[28..], [0xEE; 12], "bytes behind the file");
    let mut exact = [0xEE; 28];
    assert_eq!(write(&table(), &mut exact), Ok(28));
    assert_eq!(exact, FILE);
}

#[test]
fn specimen_sheet() {
    assert_eq!(
        portsheet(&FILE),
        "row class wire period deadline bound\n\
         0 A 100 15625 15625 3730\n\
         1 A 300 15625 6000 3130\n\
         2 B 500 31250 31250 4844\n"
    );
}

#[test]
fn specimen_blocking() {
    assert_eq!(table().blocking(Class::A), 1542);
    assert_eq!(table().blocking(Class::B), 2356);
    let a = table().figures(Class::A);
    assert_eq!(
        (a.idle, a.send, a.largest, a.sum),
        (250_000, 750_000, 300, 400)
    );
    let b = table().figures(Class::B);
    assert_eq!(
        (b.idle, b.send, b.largest, b.sum),
        (200_000, 800_000, 500, 500)
    );
}

#[test]
fn fact_a_bounds() {
    let mut expected = [0; 32];
    expected[..3].copy_from_slice(&[3730, 3130, 4844]);
    assert_eq!(bounds(&table()), Ok(expected));
}

#[test]
fn fact_b_shares() {
    let shares: Vec<u64> = table().rows.iter().map(|row| row.share()).collect();
    assert_eq!(shares, [6400, 19_200, 16_000]);
    assert_eq!(table().figures(Class::A).shares, 25_600);
    assert_eq!(table().figures(Class::B).shares, 16_000);
    // Rounded up.
    assert_eq!(row(Class::A, 42, 999_999_999, 1).share(), 1);
    assert_eq!(row(Class::A, 0, 84, 84).share(), 1_000_000);
    assert_eq!(row(Class::A, 0, 85, 84).share(), 988_236);
}

#[test]
fn fact_c_wire_sizes() {
    assert_eq!(wire_size(0), 84);
    assert_eq!(wire_size(42), 84);
    assert_eq!(wire_size(43), 85);
    assert_eq!(wire_size(1500), 1542);
}

#[test]
fn fact_d_best_effort_one_byte_ahead() {
    let mut port = Port::fresh(table());
    assert_eq!(port.offer_best(1500), Ok(()));
    assert_eq!(port.advance(1), none(1));
    assert_eq!(port.offer(0, 58), Ok(()));
    assert_eq!(port.advance(5000), ended(1529, best(1542, 0)));
    // Credit does not stop at 0 while a frame waits.
    assert_eq!(port.credit_a, 1529 * 250_000);
    assert_eq!(port.advance(5000), ended(100, frame(0, 100, 1)));
    assert_eq!(port.advance(12), none(12));
    assert_eq!(port.credit_a, 0);
    assert_eq!(port.clock, 1642);
}

#[test]
fn fact_e_credit_stays_below_zero() {
    let mut port = Port::fresh(table());
    assert_eq!(port.offer(0, 58), Ok(()));
    assert_eq!(port.advance(5000), ended(88, frame(0, 100, 0)));
    assert_eq!(port.advance(12), none(12));
    assert_eq!(port.credit_a, -75_000_000);
    assert_eq!(port.offer(1, 258), Ok(()));
    // With credit set to 0 on the empty queue it would be 288.
    assert_eq!(port.advance(1000), ended(588, frame(1, 300, 100)));
    assert_eq!(port.clock, 688);
}

#[test]
fn fact_f_deadline_at_the_bound() {
    let mut table = table();
    table.rows[1].deadline = 3130;
    assert_eq!(open(&table), Ok(()));
    table.rows[1].deadline = 3129;
    let refusal = Refusal {
        number: 10,
        place: 1,
    };
    assert_eq!(open(&table), Err(refusal));
}

#[test]
fn fact_g_early() {
    let early = Err(Refusal {
        number: 13,
        place: 0,
    });
    let mut port = Port::fresh(table());
    assert_eq!(port.offer(0, 58), Ok(()));
    assert_eq!(port.advance(20_000), ended(88, frame(0, 100, 0)));
    assert_eq!(port.advance(15_536), none(15_536));
    // A refused offer moves nothing, the row's last instant included.
    let before = port.clone();
    assert_eq!(port.offer(0, 58), early);
    assert_eq!(port, before);
    assert_eq!(port.last[0], Some(0));
    assert_eq!(port.advance(1), none(1));
    assert_eq!(port.offer(0, 58), Ok(()));
    assert_eq!(port.last[0], Some(15_625));
}

#[test]
fn defaults() {
    // Both rows with a map alone.
    let mut file = b"AVB1".to_vec();
    file.extend_from_slice(&[0, 3, 0x0D, 0x40, 0, 3, 0x0D, 0x40, 0, 0, 2, 0x00, 0x80]);
    let table = Table {
        idle_a: 200_000,
        idle_b: 200_000,
        best_payload: 0,
        rows: vec![
            row(Class::A, 42, 15_625, 15_625),
            row(Class::B, 42, 31_250, 31_250),
        ],
    };
    assert_eq!(read(&file), Ok(table.clone()));
    let mut buffer = [0; 17];
    assert_eq!(write(&table, &mut buffer), Ok(17));
    assert_eq!(buffer[..], file[..]);
}

#[test]
fn default_deadline_is_the_stated_period() {
    let mut file = b"AVB1".to_vec();
    file.extend_from_slice(&[0, 3, 0x0D, 0x40, 0, 0, 0, 0, 0, 0, 1]);
    file.extend_from_slice(&[0x02, 0, 0, 0x27, 0x10]);
    let read = read(&file).unwrap();
    assert_eq!(read.rows, [row(Class::A, 42, 10_000, 10_000)]);
    let mut buffer = [0; 20];
    assert_eq!(write(&read, &mut buffer), Ok(20));
    assert_eq!(buffer[..], file[..]);
}

#[test]
fn all_fields() {
    let mut file = b"AVB1".to_vec();
    file.extend_from_slice(&[0, 0, 0, 0, 0, 3, 0x0D, 0x40, 0, 0, 1]);
    file.extend_from_slice(&[0x87, 0x05, 0xDC, 0x3B, 0x9A, 0xCA, 0x00, 0, 0, 0, 1]);
    let read = read(&file).unwrap();
    assert_eq!(read.rows, [row(Class::B, 1500, 1_000_000_000, 1)]);
    let mut buffer = [0; 26];
    assert_eq!(write(&read, &mut buffer), Ok(26));
    assert_eq!(buffer[..], file[..]);
}

#[test]
fn blocking_of_a_by_class_b() {
    let mut table = table();
    table.best_payload = 0;
    assert_eq!(table.blocking(Class::A), 500);
}

#[test]
fn blocking_of_b_by_an_a_burst() {
    // LA and the best-effort part: 300 + 1542 / 0.75.
    assert_eq!(table().blocking(Class::B), 300 + 2056);
    // With best effort of 84 bytes B's own largest frame blocks longer: 300 + 250,000 × 500 / 750,000.
    let mut table = table();
    table.best_payload = 0;
    assert_eq!(
        table.blocking(Class::B),
        300 + 167,
        "IA × LB / SA, rounded up"
    );
    table.rows[2].payload = 42;
    assert_eq!(table.blocking(Class::B), 300 + 112, "D × LC / SA");
    // No class A: best effort once.
    table.rows.drain(..2);
    table.idle_a = 0;
    assert_eq!(table.blocking(Class::B), 84);
}

#[test]
fn bound_is_rounded_down() {
    // 450,000 × 84 / 550,000 is 68.7.
    let table = Table {
        idle_a: 550_000,
        idle_b: 0,
        best_payload: 0,
        rows: vec![row(Class::A, 42, 10_000, 10_000)],
    };
    assert_eq!(bounds(&table).unwrap()[0], 84 + 84 + 68 - 12);
}

#[test]
fn credit_moves_by_the_four_steps() {
    let mut port = Port::fresh(table());
    port.offer(1, 258).unwrap();
    port.offer(0, 0).unwrap();
    port.offer(2, 458).unwrap();
    // Row 1 goes out at once; A loses S though row 0 waits, B gains I.
    assert_eq!(port.byte_time(), None);
    assert_eq!((port.credit_a, port.credit_b), (-750_000, 200_000));
    assert_eq!(port.queue_a.len(), 1);
    assert!(matches!(port.wire, Wire::Sending(_, 299)));
    assert_eq!(port.advance(1000), ended(287, frame(1, 300, 0)));
    assert_eq!((port.credit_a, port.credit_b), (-216_000_000, 57_600_000));
    // The gap is paid for as the bytes before it.
    assert_eq!(port.advance(12), none(12));
    assert_eq!((port.credit_a, port.credit_b), (-225_000_000, 60_000_000));
    // A is below 0, so row 2 goes out; A's waiting frame gains I.
    assert_eq!(port.advance(1000), ended(488, frame(2, 500, 0)));
    assert_eq!((port.credit_a, port.credit_b), (-103_000_000, -330_400_000));
    assert_eq!(port.advance(12), none(12));
    assert_eq!((port.credit_a, port.credit_b), (-100_000_000, -340_000_000));
    // 400 byte-times to A's credit 0, then 84 bytes; B climbs with no frame.
    assert_eq!(port.advance(1000), ended(472, frame(0, 84, 0)));
    assert_eq!((port.credit_a, port.credit_b), (-54_000_000, -245_600_000));
    assert_eq!(port.advance(12), none(12));
    assert_eq!((port.credit_a, port.credit_b), (-63_000_000, -243_200_000));
    // Both climb to 0 and not above.
    assert_eq!(port.advance(2000), none(2000));
    assert_eq!((port.credit_a, port.credit_b), (0, 0));
}

#[test]
fn credit_climbing_stops_at_zero_when_slope_does_not_divide() {
    let mut table = table();
    table.idle_a = 300_000;
    let mut port = Port::fresh(table);
    port.offer(0, 58).unwrap();
    assert_eq!(port.advance(100), ended(88, frame(0, 100, 0)));
    assert_eq!(port.advance(12), none(12));
    assert_eq!(port.credit_a, -70_000_000);
    assert_eq!(port.advance(233), none(233));
    assert_eq!(port.credit_a, -100_000);
    assert_eq!(port.advance(1), none(1));
    assert_eq!(port.credit_a, 0);
}

#[test]
fn advance_by_nothing() {
    let mut port = Port::fresh(table());
    port.offer(0, 58).unwrap();
    let before = port.clone();
    assert_eq!(port.advance(0), none(0));
    assert_eq!(port, before);
}

#[test]
fn ports_are_compared_by_their_parts() {
    let port = Port::fresh(table());
    let mut other = port.clone();
    other.last[3] = Some(7);
    assert_eq!(port, other, "a row place not in use");
    other.last[2] = Some(7);
    assert_ne!(port, other);
}

#[test]
fn run_of_facts_d_e_and_g() {
    let d = "b 1500\na 1\no 0 58\na 5000\na 5000\n";
    assert_eq!(
        portrun(&FILE, d.as_bytes()),
        "0 0 33\n0 1 33\n0 0 33\n0 1529 32\n0 100 0\n"
    );
    let e = "o 0 58\na 5000\na 12\no 1 258\na 1000";
    assert_eq!(
        portrun(&FILE, e.as_bytes()),
        "0 0 33\n0 88 0\n0 12 33\n0 0 33\n0 588 1\n"
    );
    let g = "o 0 58\na 20000\na 15536\no 0 58\na 1\no 0 58\n";
    assert_eq!(
        portrun(&FILE, g.as_bytes()),
        "0 0 33\n0 88 0\n0 15536 33\nrefused 13 0\n0 1 33\n0 0 33\n"
    );
}

#[test]
fn run_stops_at_any_other_line() {
    assert_eq!(portrun(&FILE, b""), "");
    assert_eq!(portrun(&FILE, b"\na 1\n"), "");
    assert_eq!(portrun(&FILE, b"a 1\na  1\na 1\n"), "0 1 33\n");
    assert_eq!(portrun(&FILE, b"a 1\r\na 1\n"), "");
    assert_eq!(portrun(&FILE, b"a 1\n\xFF\n"), "0 1 33\n");
}

#[test]
fn run_goes_on_after_a_refusal() {
    let calls = "o 3 0\no 0 59\nb 1501\na 65536\na 65535\n\
                 o 99999999999999999999999 0\n\
                 o 0 99999999999999999999999\n\
                 b 99999999999999999999999\n\
                 a 99999999999999999999999\n\
                 a 00000000000000000000000000007\n";
    assert_eq!(
        portrun(&FILE, calls.as_bytes()),
        "refused 11 0\nrefused 12 0\nrefused 12 0\nrefused 15 0\n0 65535 33\n\
         refused 11 0\nrefused 12 0\nrefused 12 0\nrefused 15 0\n0 7 33\n"
    );
}

#[test]
fn refused_file_is_one_line() {
    let mut deadline = FILE;
    deadline[23..25].copy_from_slice(&[0x0C, 0x39]);
    assert_eq!(portsheet(&deadline), "refused 10 1\n");
    assert_eq!(portrun(&deadline, b"a 1\n"), "refused 10 1\n");
    assert_eq!(portsheet(&FILE[..27]), "refused 1 26\n");
    assert_eq!(portrun(&FILE[..27], b"a 1\n"), "refused 1 26\n");
    assert_eq!(portsheet(b""), "refused 1 0\n");
    assert_eq!(portrun(b"", b"a 1\n"), "refused 1 0\n");
}
