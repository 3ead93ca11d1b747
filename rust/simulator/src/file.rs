//! Table files.

use std::ops::RangeInclusive;

use crate::refusal::{refuse, Refusal};
use crate::table::{
    check_ranges, Class, Pace, Row, Table, DEADLINE_RANGE, IDLE_RANGE, MOST_ROWS, PAYLOAD_RANGE,
    PERIOD_RANGE, RATE_RANGE, SAMPLES_RANGE,
};

/// "The header, 15 bytes"
pub const HEADER_SIZE: usize = 15;

/// C-16: "A file that starts AVB2 has the AVB1 layout and map bit 4, without a
/// field, for a tagged row."
#[derive(Clone, Copy, Debug, PartialEq, Eq)]
pub enum Edition {
    Avb1,
    Avb2,
}

impl Edition {
    /// Both, the older first.
    pub const ALL: [Edition; 2] = [Edition::Avb1, Edition::Avb2];

    /// "opens with the four letters AVB1", or by C-16 AVB2
    pub fn letters(self) -> &'static [u8; 4] {
        match self {
            Edition::Avb1 => b"AVB1",
            Edition::Avb2 => b"AVB2",
        }
    }

    /// The edition whose letters these are.
    fn of(letters: &[u8]) -> Option<Edition> {
        let mut editions = Edition::ALL.into_iter();
        editions.find(|edition| edition.letters()[..] == *letters)
    }

    /// C-11: "Map bits 4 to 6 stay with 4". C-16: in AVB2 bit 4 has a meaning.
    fn unused_bits(self) -> u8 {
        match self {
            Edition::Avb1 => 0b0111_0000,
            Edition::Avb2 => 0b0110_0000,
        }
    }
}

/// "bit 0 payload u16"
const PAYLOAD_BIT: u8 = 1 << 0;
/// "bit 1 period u32"
const PERIOD_BIT: u8 = 1 << 1;
/// "bit 2 deadline u32"
const DEADLINE_BIT: u8 = 1 << 2;
/// C-11: "map bit 3 in place of bit 1: rate u32 ... and samples per frame u8
/// ..., after the deadline field"
const RATE_BIT: u8 = 1 << 3;
/// C-16: "map bit 4, without a field, for a tagged row"
const TAG_BIT: u8 = 1 << 4;
/// "bit 7 set for class B, without a field"
const CLASS_B_BIT: u8 = 1 << 7;

/// "Defaults: payload 42". C-16, of a tagged row: "Its default payload is 36."
pub fn default_payload(tagged: bool) -> u64 {
    if tagged {
        36
    } else {
        42
    }
}

/// "period 15,625 for A (125 µs), 31,250 for B"
pub fn default_period(class: Class) -> u64 {
    match class {
        Class::A => 15_625,
        Class::B => 31_250,
    }
}

/// "Fields are unsigned and big-endian"
fn big_endian(bytes: &[u8]) -> u64 {
    bytes
        .iter()
        .fold(0, |value, byte| value << 8 | u64::from(*byte))
}

/// "Reading a file: in file order, place the offset of the byte at fault or
/// of the first byte of the field at fault." It finds the edition in the file
/// and hands it out beside the table.
pub fn read(file: &[u8]) -> Result<(Edition, Table), Refusal> {
    // "1, the file ends inside the header (place 0, tested before all else)"
    if file.len() < HEADER_SIZE {
        return refuse(1, 0);
    }
    // "2, wrong first four bytes (place 0)."
    let Some(edition) = Edition::of(&file[0..4]) else {
        return refuse(2, 0);
    };
    // "then IA u32, IB u32, best-effort payload u16, row count u8"; "5, out of
    // range. 3, row count."
    let idle_a = big_endian(&file[4..8]);
    if !IDLE_RANGE.contains(&idle_a) {
        return refuse(5, 4);
    }
    let idle_b = big_endian(&file[8..12]);
    if !IDLE_RANGE.contains(&idle_b) {
        return refuse(5, 8);
    }
    let best_payload = big_endian(&file[12..14]);
    if !PAYLOAD_RANGE.contains(&best_payload) {
        return refuse(5, 12);
    }
    let count = usize::from(file[14]);
    if !(1..=MOST_ROWS).contains(&count) {
        return refuse(3, 14);
    }
    let mut at = HEADER_SIZE;
    let mut rows = Vec::with_capacity(count);
    for _ in 0..count {
        rows.push(read_row(edition, file, &mut at)?);
    }
    // "7, bytes after the last row."
    if at < file.len() {
        return refuse(7, at);
    }
    let table = Table {
        idle_a,
        idle_b,
        best_payload,
        rows,
    };
    Ok((edition, table))
}

/// "Each row opens with a map byte ... Only fields whose bit stands follow, in
/// bit order."
fn read_row(edition: Edition, file: &[u8], at: &mut usize) -> Result<Row, Refusal> {
    // "1, the file ends inside ... a row's map"
    let Some(&map) = file.get(*at) else {
        return refuse(1, *at);
    };
    // "4, a map bit of 3 to 6", by C-11 of 4 to 6, by C-16 in AVB2 of 5 and 6.
    if map & edition.unused_bits() != 0 {
        return refuse(4, *at);
    }
    // C-11: "19, bits 1 and 3 both set, after 4, at the map byte."
    if map & PERIOD_BIT != 0 && map & RATE_BIT != 0 {
        return refuse(19, *at);
    }
    *at += 1;
    let class = if map & CLASS_B_BIT != 0 {
        Class::B
    } else {
        Class::A
    };
    let tagged = map & TAG_BIT != 0;

    let mut payload = default_payload(tagged);
    if map & PAYLOAD_BIT != 0 {
        let field = Field::read(file, at, 2)?.within(PAYLOAD_RANGE)?;
        payload = field.other_than(payload)?;
    }
    let mut pace = Pace::Period(default_period(class));
    if map & PERIOD_BIT != 0 {
        let field = Field::read(file, at, 4)?.within(PERIOD_RANGE)?;
        pace = Pace::Period(field.other_than(default_period(class))?);
    }
    let mut stated_deadline = None;
    if map & DEADLINE_BIT != 0 {
        stated_deadline = Some(Field::read(file, at, 4)?);
    }
    if map & RATE_BIT != 0 {
        let rate = Field::read(file, at, 4)?.within(RATE_RANGE)?.value;
        let samples = Field::read(file, at, 1)?.within(SAMPLES_RANGE)?.value;
        pace = Pace::Rated { rate, samples };
    }
    // "deadline the row's period". C-11: "The deadline's range and default are
    // then judged after the samples field, at the deadline's own offset." C-12:
    // "its default stays the period".
    let period = pace.period();
    let mut deadline = period;
    if let Some(field) = stated_deadline {
        deadline = field.within(DEADLINE_RANGE)?.other_than(period)?;
    }
    Ok(Row {
        class,
        tagged,
        payload,
        pace,
        deadline,
    })
}

/// A field of a row that stands in the file.
struct Field {
    at: usize,
    value: u64,
}

impl Field {
    /// "1, the file ends inside ... a field."
    fn read(file: &[u8], at: &mut usize, size: usize) -> Result<Field, Refusal> {
        let Some(bytes) = file.get(*at..*at + size) else {
            return refuse(1, *at);
        };
        let field = Field {
            at: *at,
            value: big_endian(bytes),
        };
        *at += size;
        Ok(field)
    }

    /// "5, out of range."
    fn within(self, range: RangeInclusive<u64>) -> Result<Field, Refusal> {
        if !range.contains(&self.value) {
            return refuse(5, self.at);
        }
        Ok(self)
    }

    /// "6, a field stating its default."
    fn other_than(self, default: u64) -> Result<u64, Refusal> {
        if self.value == default {
            return refuse(6, self.at);
        }
        Ok(self.value)
    }
}

/// Writing gives the file's size. C-16: "Writing is told the edition".
pub fn write(edition: Edition, table: &Table, buffer: &mut [u8]) -> Result<usize, Refusal> {
    // "3 and 5 as at opening."
    check_ranges(table)?;
    // C-16: "23, a tagged row to be written as AVB1, after 5, place the lowest
    // such row."
    let lowest = table.rows.iter().position(|row| row.tagged);
    if let (Edition::Avb1, Some(place)) = (edition, lowest) {
        return refuse(23, place);
    }
    let file = file_of(edition, table);
    // "17, buffer shorter than the file."
    if buffer.len() < file.len() {
        return refuse(17, 0);
    }
    // "bytes behind the file keep their values"
    buffer[..file.len()].copy_from_slice(&file);
    Ok(file.len())
}

/// The file of a table in an edition. Of values out of range it has what their
/// fields hold. A tagged row has its map bit in AVB1 too: reading refuses it.
pub fn file_of(edition: Edition, table: &Table) -> Vec<u8> {
    file_stating(edition, table, || false)
}

/// The same, with a field that has its default where `stated` says so. Reading
/// refuses such a field.
pub fn file_stating(edition: Edition, table: &Table, mut stated: impl FnMut() -> bool) -> Vec<u8> {
    let mut file = Vec::new();
    file.extend_from_slice(edition.letters());
    file.extend_from_slice(&(table.idle_a as u32).to_be_bytes());
    file.extend_from_slice(&(table.idle_b as u32).to_be_bytes());
    file.extend_from_slice(&(table.best_payload as u16).to_be_bytes());
    file.push(table.rows.len() as u8);
    for row in &table.rows {
        let map_at = file.len();
        let mut map = 0;
        file.push(map);
        if row.class == Class::B {
            map |= CLASS_B_BIT;
        }
        if row.tagged {
            map |= TAG_BIT;
        }
        if row.payload != default_payload(row.tagged) || stated() {
            map |= PAYLOAD_BIT;
            file.extend_from_slice(&(row.payload as u16).to_be_bytes());
        }
        if let Pace::Period(period) = row.pace {
            if period != default_period(row.class) || stated() {
                map |= PERIOD_BIT;
                file.extend_from_slice(&(period as u32).to_be_bytes());
            }
        }
        if row.deadline != row.period() || stated() {
            map |= DEADLINE_BIT;
            file.extend_from_slice(&(row.deadline as u32).to_be_bytes());
        }
        // A rate and its samples have no default.
        if let Pace::Rated { rate, samples } = row.pace {
            map |= RATE_BIT;
            file.extend_from_slice(&(rate as u32).to_be_bytes());
            file.push(samples as u8);
        }
        file[map_at] = map;
    }
    file
}
