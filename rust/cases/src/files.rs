//! Table files of both editions: of any table, and damaged ones.

use simulator::file::{file_of, file_stating, HEADER_SIZE};
use simulator::{Edition, Table};

use crate::random::Random;
use crate::{specimen, tables};

/// Letters of no edition.
pub const OF_NO_EDITION: [&[u8; 4]; 9] = [
    b"AVB0", b"AVB3", b"AVB\x02", b"AVB ", b"AVb2", b"avb2", b"AVA2", b"BVB2", b"2BVA",
];

/// An edition that a table can be written in: AVB2 where a row is tagged, else
/// either.
pub fn any_edition(random: &mut Random, table: &Table) -> Edition {
    match table.rows.iter().any(|row| row.tagged) {
        true => Edition::Avb2,
        false => random.pick(&Edition::ALL),
    }
}

/// A table's file in such an edition.
pub fn file_in_any(random: &mut Random, table: &Table) -> Vec<u8> {
    file_of(any_edition(random, table), table)
}

/// A file of an accepted table or of one at an edge, at times with defaults and
/// with fields that state them, and at times with the letters of the other
/// edition.
pub fn any_file(random: &mut Random) -> Vec<u8> {
    let mut table = match random.below(3) {
        0 => tables::accepted(random),
        _ => tables::edge(random),
    };
    if random.one_in(4) {
        tables::set_defaults(random, &mut table);
    }
    let edition = match random.below(8) {
        0 => random.pick(&Edition::ALL),
        _ => any_edition(random, &table),
    };
    match random.below(3) {
        0 => file_stating(edition, &table, || random.one_in(8)),
        _ => file_of(edition, &table),
    }
}

/// A file with a few bytes changed, at times its letters or bits of its first
/// map, and at times cut or with a tail.
pub fn damaged(random: &mut Random, file: &[u8]) -> Vec<u8> {
    let mut file = file.to_vec();
    for _ in 0..random.between(0, 3) {
        let at = random.below(file.len());
        file[at] = match random.below(3) {
            0 => random.word() as u8,
            1 => file[at] ^ 1 << random.below(8),
            _ => random.between(0, 16) as u8,
        };
    }
    if random.one_in(8) {
        let (edition, other) = (random.pick(&Edition::ALL), random.pick(&OF_NO_EDITION));
        let letters = random.pick(&[edition.letters(), other]);
        file[..4].copy_from_slice(letters);
    }
    if random.one_in(8) {
        if let Some(map) = file.get_mut(HEADER_SIZE) {
            *map ^= 1 << random.between(4, 6);
        }
    }
    if random.one_in(4) {
        file.truncate(random.below(file.len() + 1));
    }
    if random.one_in(4) {
        let tail = random.between(1, 12) as usize;
        file.extend(random.bytes(tail));
    }
    file
}

/// Random bytes, at times behind the right letters or a right header.
pub fn noise(random: &mut Random) -> Vec<u8> {
    let len = random.between(0, 430) as usize;
    let mut file = random.bytes(len);
    let mut right = specimen::FILE;
    right[..4].copy_from_slice(random.pick(&Edition::ALL).letters());
    let count = random.pick(&[0, 4, 14, 15, 16]).min(len);
    file[..count].copy_from_slice(&right[..count]);
    file
}
