//! Table files of both editions: valid, damaged, and noise. Each is written again
//! in either edition, and at times in one that does not exist.

use cases::files::{any_file, damaged, noise, OF_NO_EDITION};
use cases::random::Random;
use cases::specimen::FILE;
use cases::{crowds, rates, tables, tags};
use ithumeco::number_of;
use simulator::{file_of, opened, Edition, Pace};

use crate::bench::Bench;

/// Numbers of no edition.
const OF_NONE: [u64; 9] = [
    0,
    3,
    4,
    255,
    256 + 1,
    1 << 32,
    (1 << 32) + 1,
    (1 << 32) + 2,
    u64::MAX,
];

/// The numbers of the editions.
fn numbers() -> impl Iterator<Item = u64> {
    Edition::ALL.into_iter().map(number_of)
}

pub fn run(bench: &mut Bench) {
    let mut random = Random::new(1);
    let largest = Edition::ALL.map(|edition| largest_file(&mut random, edition));
    let fixed = [&FILE[..], &rates::FILE, &tags::FILE];
    for file in fixed.into_iter().chain(largest.iter().map(Vec::as_slice)) {
        every_room(bench, file);
        every_byte(bench, file);
        every_cut(bench, file);
        every_letter(bench, file);
    }
    every_tagged_row(bench);
    for _ in 0..bench.times(100) {
        let file = any_file(&mut random);
        every_room(bench, &file);
        every_cut(bench, &file);
    }
    for _ in 0..bench.times(6) {
        let file = bench.file(&tables::accepted(&mut random));
        every_byte(bench, &file);
    }
    for _ in 0..bench.times(400_000) {
        let file = any_file(&mut random);
        for _ in 0..4 {
            let file = damaged(&mut random, &file);
            both(bench, &mut random, &file);
        }
    }
    for _ in 0..bench.times(200_000) {
        let file = noise(&mut random);
        both(bench, &mut random, &file);
    }
}

/// A file of 32 rows with rates, every field stated: as long as a file may be. In
/// AVB2 rows may be tagged.
fn largest_file(random: &mut Random, edition: Edition) -> Vec<u8> {
    loop {
        let mut table = tables::full(random);
        for row in &mut table.rows {
            row.tagged &= edition == Edition::Avb2;
            if let Pace::Period(_) = row.pace {
                let (rate, samples) = (1_000, 255);
                row.pace = Pace::Rated { rate, samples };
            }
            row.deadline = row.deadline.min(row.period() - 1);
        }
        let file = file_of(edition, &table);
        if file.len() == 15 + 32 * 12 && opened(&file).is_ok() {
            return file;
        }
    }
}

/// Both calls with room for what they write, and at times too little.
fn both(bench: &mut Bench, random: &mut Random, file: &[u8]) {
    let told = random.pick(&[number_of(Edition::Avb1), number_of(Edition::Avb2)]);
    let none = random.pick(&OF_NONE);
    let edition = if random.one_in(16) { none } else { told };
    let room = file.len() + random.below(4);
    bench.rewrite(file, edition, random.pick(&[room, room, room, room / 2]));
    bench.bounds(file, 256 + random.below(4));
}

/// Buffers of every length up to a little more than what is written, and some of
/// them for no edition.
fn every_room(bench: &mut Bench, file: &[u8]) {
    for room in 0..=file.len() + 3 {
        numbers().for_each(|edition| bench.rewrite(file, edition, room));
    }
    for edition in OF_NONE {
        for room in [0, file.len() - 1, file.len()] {
            bench.rewrite(file, edition, room);
        }
    }
    for room in (0..4).chain(250..262) {
        bench.bounds(file, room);
    }
}

/// Every change of a single byte.
fn every_byte(bench: &mut Bench, file: &[u8]) {
    let mut file = file.to_vec();
    for at in 0..file.len() {
        let right = file[at];
        for value in 0..=255 {
            file[at] = value;
            numbers().for_each(|edition| bench.rewrite(&file, edition, file.len()));
            bench.bounds(&file, 256);
        }
        file[at] = right;
    }
}

/// Other first letters, also where the file ends inside the header.
fn every_letter(bench: &mut Bench, file: &[u8]) {
    let editions = Edition::ALL.map(Edition::letters);
    for letters in OF_NO_EDITION.into_iter().chain(editions) {
        let mut file = file.to_vec();
        file[..4].copy_from_slice(letters);
        for len in [4, 14, file.len()] {
            numbers().for_each(|edition| bench.rewrite(&file[..len], edition, len));
            bench.bounds(&file[..len], 256);
        }
    }
}

/// A full table with one tagged row and with two, the lowest of them at each
/// number: 23 in AVB1, also where there is no room.
fn every_tagged_row(bench: &mut Bench) {
    for lowest in 0..32 {
        for other in [31, lowest] {
            let mut table = crowds::two_of_each();
            table.rows[lowest].tagged = true;
            table.rows[other].tagged = true;
            // In AVB1 it is a map bit.
            for edition in Edition::ALL {
                let file = file_of(edition, &table);
                for room in [0, file.len() - 1, file.len()] {
                    numbers().for_each(|edition| bench.rewrite(&file, edition, room));
                }
                bench.bounds(&file, 256);
            }
        }
    }
}

/// Every cut, and tails.
fn every_cut(bench: &mut Bench, file: &[u8]) {
    for len in 0..file.len() {
        let part = &file[..len];
        numbers().for_each(|edition| bench.rewrite(part, edition, file.len()));
        bench.bounds(part, 256);
        bench.rewrite(part, OF_NONE[len % OF_NONE.len()], file.len());
    }
    for tail in [&[0][..], &[1, 2], b"AVB1", b"AVB2", &[0; 600]] {
        let file = [file, tail].concat();
        numbers().for_each(|edition| bench.rewrite(&file, edition, file.len()));
        bench.bounds(&file, 256);
    }
}
