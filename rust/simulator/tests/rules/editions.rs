//! C-16: files of the editions AVB1 and AVB2.

use crate::refusals::{refusal, refused_read};
use crate::tags::untagged;
use cases::crowds;
use cases::files::OF_NO_EDITION;
use cases::random::Random;
use cases::specimen;
use cases::tables::{rated, row, tagged};
use cases::tags::{table, FILE};
use simulator::file::{default_payload, default_period, file_stating};
use simulator::{file_of, portrun, portsheet, read, write, Class, Edition, Pace, Row, Table};

/// A table's file in an edition, held to `write`.
fn written(edition: Edition, table: &Table) -> Vec<u8> {
    let mut buffer = [0xEE; 410];
    let size = write(edition, table, &mut buffer).unwrap();
    assert!(buffer[size..].iter().all(|&byte| byte == 0xEE));
    assert_eq!(buffer[..size], file_of(edition, table));
    buffer[..size].to_vec()
}

/// A file of one row in an edition.
fn one_row(edition: Edition, row: &[u8]) -> Vec<u8> {
    let header = &FILE[4..14];
    [&edition.letters()[..], header, &[1], row].concat()
}

/// The row of such a file.
fn read_row(edition: Edition, row: &[u8]) -> Row {
    let (found, table) = read(&one_row(edition, row)).unwrap();
    assert_eq!(found, edition);
    assert_eq!(written(edition, &table), one_row(edition, row));
    table.rows[0]
}

#[test]
fn an_avb2_file_reads_and_writes() {
    assert_eq!(read(&FILE), Ok((Edition::Avb2, table())));
    assert_eq!(written(Edition::Avb2, &table()), FILE);
    for size in 0..FILE.len() {
        let mut buffer = vec![0xEE; size];
        let refused = write(Edition::Avb2, &table(), &mut buffer);
        assert_eq!(refused, Err(refusal(17, 0)));
        assert_eq!(buffer, vec![0xEE; size], "untouched");
    }
    // Where it ends early: the map or field that is not whole.
    let fields = [15, 16, 18, 22, 23, 25, 29, 30, 32, 36, 37, 41, 45];
    for size in 15..FILE.len() {
        let place = fields.into_iter().rev().find(|&field| field <= size);
        refused_read(&FILE[..size], 1, place.unwrap() as u64);
    }
    for size in 0..15 {
        refused_read(&FILE[..size], 1, 0);
    }
    refused_read(&[&FILE[..], &[0]].concat(), 7, 46);
}

#[test]
fn the_edition_is_in_the_letters() {
    assert_eq!(Edition::Avb1.letters(), b"AVB1");
    assert_eq!(Edition::Avb2.letters(), b"AVB2");
    for letters in OF_NO_EDITION {
        for file in [&FILE[..], &specimen::FILE] {
            let mut file = file.to_vec();
            file[..4].copy_from_slice(letters);
            refused_read(&file, 2, 0);
            // Before a value out of range, and after the header's end.
            file[4] = 0xFF;
            refused_read(&file, 2, 0);
            refused_read(&file[..14], 1, 0);
        }
    }
    // A table that states its deadlines: its files differ in their letters alone.
    let table = untagged(table());
    let [first, second] = Edition::ALL.map(|edition| written(edition, &table));
    assert_eq!(first[..4], *b"AVB1");
    assert_eq!(second[..4], *b"AVB2");
    assert_eq!(first[4..], second[4..]);
    assert_eq!(read(&first), Ok((Edition::Avb1, table.clone())));
    assert_eq!(read(&second), Ok((Edition::Avb2, table)));
}

#[test]
fn reading_4_by_the_edition() {
    for map in [0x00, 0x01, 0x84, 0x8D] {
        // Bit 4 in AVB1, and with the tag's bit the others.
        for others in [0x10, 0x20, 0x40, 0x30, 0x50, 0x60, 0x70] {
            refused_read(&one_row(Edition::Avb1, &[map | others]), 4, 15);
        }
        for others in [0x20, 0x40, 0x30, 0x50, 0x60, 0x70] {
            refused_read(&one_row(Edition::Avb2, &[map | others]), 4, 15);
        }
        // In AVB2 bit 4 is none of them.
        let ends = one_row(Edition::Avb2, &[0x04 | map | 0x10]);
        refused_read(&ends, 1, 16);
    }
    // Rows behind the first one, the others being as they are.
    let mut file = FILE;
    file[3] = b'1';
    refused_read(&file, 4, 15);
    file[15] ^= 0x10;
    refused_read(&file, 4, 29);
    file[29] ^= 0x10;
    refused_read(&file, 4, 36);
    file[36] ^= 0x10;
    assert!(read(&file).is_ok());
    for at in [15, 22, 29, 36] {
        for bit in [5, 6] {
            let mut file = FILE;
            file[at] ^= 1 << bit;
            refused_read(&file, 4, at as u64);
        }
    }
}

#[test]
fn reading_19_in_avb2() {
    for map in [0x0A, 0x1A, 0x1F, 0x8B, 0x9A, 0x9F] {
        refused_read(&one_row(Edition::Avb2, &[map]), 19, 15);
        // After 4.
        refused_read(&one_row(Edition::Avb2, &[map | 0x20]), 4, 15);
    }
    refused_read(&one_row(Edition::Avb1, &[0x1A]), 4, 15);
}

#[test]
fn a_tagged_rows_default_payload_is_36() {
    let of = |payload| row(Class::A, payload, 15_625, 12_000);
    let deadline = [0x00, 0x00, 0x2E, 0xE0];
    let left_out = |map: u8| [&[map][..], &deadline].concat();
    let stated = |map: u8, payload: u8| [&[map, 0, payload][..], &deadline].concat();
    assert_eq!(read_row(Edition::Avb2, &left_out(0x14)), tagged(of(36)));
    for edition in Edition::ALL {
        assert_eq!(read_row(edition, &left_out(0x04)), of(42));
        // 36 is a value for a row without a tag.
        assert_eq!(read_row(edition, &stated(0x05, 36)), of(36));
        refused_read(&one_row(edition, &stated(0x05, 42)), 6, 16);
    }
    // 42 is one for a tagged row, of 90 bytes.
    let of_42 = read_row(Edition::Avb2, &stated(0x15, 42));
    assert_eq!(of_42, tagged(of(42)));
    assert_eq!(of_42.size(), 90);
    for payload in [0, 35, 37, 43] {
        let read = read_row(Edition::Avb2, &stated(0x15, payload));
        assert_eq!(read, tagged(of(payload.into())));
    }
    refused_read(&one_row(Edition::Avb2, &stated(0x15, 36)), 6, 16);
    // In class B, and with a rate.
    refused_read(&one_row(Edition::Avb2, &stated(0x95, 36)), 6, 16);
    refused_read(&one_row(Edition::Avb2, &[0x19, 0, 36]), 6, 16);
    // Out of range comes first, and a field that is not whole.
    refused_read(&one_row(Edition::Avb2, &[0x11, 0x05, 0xDD]), 5, 16);
    refused_read(&one_row(Edition::Avb2, &[0x11, 0]), 1, 16);
    assert_eq!((default_payload(true), default_payload(false)), (36, 42));
}

/// "A file that starts AVB2 has the AVB1 layout": the other defaults are AVB1's.
#[test]
fn the_other_defaults_in_avb2() {
    for (map, class) in [(0x00, Class::A), (0x80, Class::B)] {
        let period = default_period(class);
        let bytes = (period as u32).to_be_bytes();
        for (map, is_tagged) in [(map, false), (map | 0x10, true)] {
            let payload = default_payload(is_tagged);
            let of = |period, deadline| Row {
                tagged: is_tagged,
                ..row(class, payload, period, deadline)
            };
            assert_eq!(read_row(Edition::Avb2, &[map]), of(period, period));
            let of_1000 = [map | 0x02, 0, 0, 0x03, 0xE8];
            assert_eq!(read_row(Edition::Avb2, &of_1000), of(1000, 1000));
            let stated = [&[map | 0x02][..], &bytes].concat();
            refused_read(&one_row(Edition::Avb2, &stated), 6, 16);
            let stated = [&[map | 0x04][..], &bytes].concat();
            refused_read(&one_row(Edition::Avb2, &stated), 6, 16);
            // Of a rate the rounded period, behind the samples.
            let by_rate = [map | 0x08, 0, 0, 0xAC, 0x44, 6];
            let pace = Pace::Rated {
                rate: 44_100,
                samples: 6,
            };
            let meant = Row {
                pace,
                ..of(0, 17_006)
            };
            assert_eq!(read_row(Edition::Avb2, &by_rate), meant);
            let stated = [map | 0x0C, 0, 0, 0x42, 0x6E, 0, 0, 0xAC, 0x44, 6];
            refused_read(&one_row(Edition::Avb2, &stated), 6, 16);
        }
    }
}

fn refused_write(edition: Edition, table: &Table, size: usize, number: u8, place: u64) {
    let mut buffer = vec![0xEE; size];
    let refused = write(edition, table, &mut buffer);
    assert_eq!(refused, Err(refusal(number, place)), "{table:?}");
    assert_eq!(buffer, vec![0xEE; size], "untouched");
}

#[test]
fn writing_23_a_tagged_row_as_avb1() {
    // The lowest such row, before a buffer that is too short.
    for size in [0, 1, 45, 46, 100] {
        refused_write(Edition::Avb1, &table(), size, 23, 0);
    }
    let mut table = table();
    for place in [2, 3] {
        let lowest = table.rows.iter().position(|row| row.tagged).unwrap();
        table.rows[lowest].tagged = false;
        refused_write(Edition::Avb1, &table, 100, 23, place);
        refused_write(Edition::Avb1, &table, 0, 23, place);
        assert!(write(Edition::Avb2, &table, &mut [0; 100]).is_ok());
    }
    table.rows[3].tagged = false;
    refused_write(Edition::Avb1, &table, 0, 17, 0);
    assert!(write(Edition::Avb1, &table, &mut [0; 100]).is_ok());
    // In each place of a full table.
    for place in 0..32 {
        let mut table = crowds::two_of_each();
        table.rows[place].tagged = true;
        table.rows[31].tagged = true;
        refused_write(Edition::Avb1, &table, 399, 23, place as u64);
    }
}

#[test]
fn writing_3_and_5_before_23() {
    for edition in Edition::ALL {
        let mut none = table();
        none.rows.clear();
        refused_write(edition, &none, 0, 3, 0);
        let mut many = table();
        many.rows.resize(33, many.rows[0]);
        refused_write(edition, &many, 500, 3, 0);
        let mut header = table();
        header.best_payload = 1501;
        refused_write(edition, &header, 0, 5, 32);
        // A row behind the tagged ones.
        let mut value = table();
        value.rows[3].deadline = 0;
        refused_write(edition, &value, 100, 5, 3);
        let mut empty = table();
        empty.rows[1] = Row::EMPTY;
        refused_write(edition, &empty, 100, 5, 1);
    }
    // The slope rules, shares and bounds are not asked, but the tag is.
    let mut unopened = table();
    unopened.idle_b = 0;
    refused_write(Edition::Avb1, &unopened, 100, 23, 0);
    assert!(write(Edition::Avb2, &unopened, &mut [0; 100]).is_ok());
}

/// Rows with each class, tag, payload, pace and deadline about the defaults.
fn rows_about_defaults() -> Vec<Row> {
    let paces = [15_625, 31_250, 84].map(Pace::Period);
    let rated = [(48_000, 6), (48_000, 12), (44_100, 6)];
    let rated = rated.map(|(rate, samples)| Pace::Rated { rate, samples });
    let mut rows = Vec::new();
    for pace in paces.into_iter().chain(rated) {
        for class in [Class::A, Class::B] {
            for payload in [0, 36, 37, 42, 43, 1500] {
                for deadline in [pace.period(), 1, 15_625, 31_250] {
                    for tagged in [false, true] {
                        rows.push(Row {
                            class,
                            tagged,
                            payload,
                            pace,
                            deadline,
                        });
                    }
                }
            }
        }
    }
    rows
}

#[test]
fn each_way_undoes_the_other_within_an_edition() {
    for row in rows_about_defaults() {
        // Alone, and behind others, with its map at 15 or at 48.
        let alone = Table {
            rows: vec![row],
            ..table()
        };
        let mut behind = untagged(table());
        behind.rows.push(row);
        for (place, map, table) in [(0, 15, alone), (4, 48, behind)] {
            for edition in Edition::ALL {
                if row.tagged && edition == Edition::Avb1 {
                    refused_write(edition, &table, 100, 23, place);
                    refused_read(&file_of(edition, &table), 4, map);
                    continue;
                }
                let file = written(edition, &table);
                assert_eq!(read(&file), Ok((edition, table.clone())));
            }
        }
    }
}

/// Every map byte that an edition lets pass, with fields of any value.
#[test]
fn a_file_that_reads_is_written_with_its_own_bytes() {
    let mut random = Random::new(31);
    let mut read_back = [0; 2];
    for edition in Edition::ALL {
        for map in 0..=255 {
            for _ in 0..200 {
                let mut bytes = vec![map];
                let most = [1500, 1_000_000_000, 1_000_000_000, 200_000, 255];
                let sizes = [2, 4, 4, 4, 1];
                let bits = [0x01, 0x02, 0x04, 0x08, 0x08];
                for ((most, size), bit) in most.into_iter().zip(sizes).zip(bits) {
                    if map & bit != 0 {
                        let near = random.between(0, 100);
                        let any = random.between(0, most);
                        let value = random.pick(&[near.min(most), any, 36, 42]);
                        bytes.extend(&value.to_be_bytes()[8 - size..]);
                    }
                }
                let file = one_row(edition, &bytes);
                if let Ok((found, table)) = read(&file) {
                    assert_eq!(found, edition);
                    assert_eq!(written(edition, &table), file);
                    assert_eq!(table.rows[0].tagged, map & 0x10 != 0);
                    read_back[usize::from(table.rows[0].tagged)] += 1;
                }
            }
        }
    }
    assert!(
        read_back.into_iter().all(|count| count > 1000),
        "{read_back:?}"
    );
}

#[test]
fn the_longest_file_has_399_bytes_in_avb2_too() {
    let mut longest = tagged(rated(Class::B, 1500, 1_000, 255));
    longest.deadline -= 1;
    let mut table = table();
    table.rows = vec![longest; 32];
    let file = written(Edition::Avb2, &table);
    assert_eq!(file.len(), 399);
    assert_eq!(read(&file), Ok((Edition::Avb2, table.clone())));
    refused_write(Edition::Avb2, &table, 398, 17, 0);
}

#[test]
fn a_stated_default_is_refused_in_each_edition() {
    for edition in Edition::ALL {
        let table = match edition {
            Edition::Avb1 => untagged(table()),
            Edition::Avb2 => table(),
        };
        let mut row = table.rows[0];
        row.payload = default_payload(row.tagged);
        let table = Table {
            rows: vec![row],
            ..table
        };
        refused_read(&file_stating(edition, &table, || true), 6, 16);
    }
}

#[test]
fn the_programs_read_either_edition() {
    assert_eq!(
        portsheet(&FILE),
        "row class wire period deadline bound\n\
         0 A 106 15625 12000 3736\n\
         1 A 300 15625 6000 3154\n\
         2 B 506 31250 20000 5294\n\
         3 B 84 31250 20000 6982\n"
    );
    let mut specimen = specimen::FILE;
    let sheet = portsheet(&specimen);
    specimen[3] = b'2';
    assert_eq!(portsheet(&specimen), sheet);
    let calls = b"o 0 58\na 5000\na 12\no 1 258\na 1000\no 3 37\n";
    assert_eq!(
        portrun(&FILE, calls),
        "0 0 33\n0 94 0\n0 12 33\n0 0 33\n0 606 1\nrefused 12 0\n"
    );
    let mut as_avb1 = FILE;
    as_avb1[3] = b'1';
    assert_eq!(portsheet(&as_avb1), "refused 4 15\n");
    assert_eq!(portrun(&as_avb1, calls), "refused 4 15\n");
    let mut as_avb3 = FILE;
    as_avb3[3] = b'3';
    assert_eq!(portsheet(&as_avb3), "refused 2 0\n");
    assert_eq!(portrun(&as_avb3, calls), "refused 2 0\n");
}
