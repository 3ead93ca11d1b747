//! Opening a table file into a record.

use std::collections::BTreeSet;

use cases::files::any_edition;
use cases::random::Random;
use cases::specimen::FILE;
use cases::tags::{self, twins};
use cases::{crowds, rates, tables};
use ithumeco::{number_of, BOUNDS_SIZE, RECORD_SIZE};
use simulator::file::file_stating;
use simulator::{file_of, Edition, Pace, Refusal, Table};

use crate::bench::Bench;

/// The bytes of the longest file.
const MOST_FILE: usize = 399;

/// The numbers and places of the refusals that were seen.
type Seen = BTreeSet<(u8, u64)>;

pub fn run(bench: &mut Bench) {
    let mut random = Random::new(2);
    let mut seen = Seen::new();
    every_room(bench, &FILE);
    for _ in 0..bench.times(20_000) {
        let file = bench.file(&tables::accepted(&mut random));
        assert_eq!(bench.open(&file, RECORD_SIZE), Ok(()));
    }
    for _ in 0..bench.times(200_000) {
        let table = tables::edge(&mut random);
        let edition = any_edition(&mut random, &table);
        let file = match random.below(16) {
            0 => file_stating(edition, &table, || random.one_in(8)),
            1 => file_of(random.pick(&Edition::ALL), &table),
            _ => file_of(edition, &table),
        };
        open(bench, &mut random, &mut seen, &file);
        if random.one_in(500) {
            every_room(bench, &file);
        }
    }
    late_rows(bench, &mut random, &mut seen);
    full_classes(bench, &mut random, &mut seen);
    covered(&seen);
    rated_rows(bench, &mut random);
    tagged_rows(bench, &mut random);
}

fn open(bench: &mut Bench, random: &mut Random, seen: &mut Seen, file: &[u8]) {
    let room = RECORD_SIZE + random.pick(&[0, 1, 24]);
    if let Err(refusal) = bench.open(file, room) {
        seen.insert((refusal.number, refusal.place));
    }
}

/// Buffers around a record's size.
fn every_room(bench: &mut Bench, file: &[u8]) {
    for room in (0..3).chain(RECORD_SIZE - 3..RECORD_SIZE + 4) {
        let _ = bench.open(file, room);
    }
}

/// Each row's deadline at its bound, and one below.
fn late_rows(bench: &mut Bench, random: &mut Random, seen: &mut Seen) {
    let table = tables::full(random);
    for place in 0..table.rows.len() {
        for off in [0, 1] {
            let mut table = table.clone();
            tables::late(&mut table, place, off);
            let file = bench.file(&table);
            open(bench, random, seen, &file);
        }
    }
}

/// Counts of frames that sum to 64 in a class, to one more, and to any above.
fn full_classes(bench: &mut Bench, random: &mut Random, seen: &mut Seen) {
    let with_twins = |table: Table| [table.clone(), twins(table)];
    for table in crowds::all().into_iter().flat_map(with_twins) {
        let file = bench.file(&table);
        assert_eq!(bench.open(&file, RECORD_SIZE), Ok(()));
    }
    for table in with_twins(crowds::one_too_many()) {
        refused_with_20(bench, &table, 1);
    }
    // Both classes at 64, then one or both of them at 65.
    for (places, class) in [(&[0][..], 0), (&[4], 1), (&[0, 4], 0)] {
        let mut table = crowds::full_classes();
        for &place in places {
            let period = table.rows[place].period();
            table.rows[place].pace = Pace::Period(period - 1);
        }
        for table in with_twins(table) {
            refused_with_20(bench, &table, class);
        }
    }
    for _ in 0..bench.times(2000) {
        let file = bench.file(&tables::overfull(random));
        open(bench, random, seen, &file);
        bounds_and_copies(bench, &file);
    }
    for _ in 0..bench.times(2000) {
        let mut table = tables::crowded(random, u64::MAX);
        let place = random.below(table.rows.len());
        let off = random.between(0, 1);
        tables::crowd(random, &mut table, place, off);
        let file = bench.file(&table);
        open(bench, random, seen, &file);
    }
}

fn refused_with_20(bench: &mut Bench, table: &Table, place: u64) {
    let file = bench.file(table);
    let refused = Err(Refusal { number: 20, place });
    assert_eq!(bench.open(&file, RECORD_SIZE), refused);
    bounds_and_copies(bench, &file);
}

/// A file's bounds, and the file written again in each edition.
fn bounds_and_copies(bench: &mut Bench, file: &[u8]) {
    bench.bounds(file, BOUNDS_SIZE);
    for edition in Edition::ALL {
        bench.rewrite(file, number_of(edition), MOST_FILE);
    }
}

/// The places of a file's header, of a class and of each late row.
fn covered(seen: &Seen) {
    let fixed = [(3, 14), (5, 4), (5, 8), (5, 12), (8, 0)];
    let of_class = [(9, 0), (9, 1), (20, 0), (20, 1)];
    let late = (0..32).map(|row| (10, row));
    all_in(seen, fixed.into_iter().chain(of_class).chain(late));
}

/// Every cut of a file, and every change of a single byte.
fn cut_and_changed(bench: &mut Bench, random: &mut Random, file: &[u8]) -> Seen {
    let mut seen = Seen::new();
    let mut file = file.to_vec();
    for at in 0..file.len() {
        open(bench, random, &mut seen, &file[..at]);
        let right = file[at];
        for value in 0..=255 {
            file[at] = value;
            open(bench, random, &mut seen, &file);
        }
        file[at] = right;
    }
    seen
}

/// Each refusal of a map, a rate, its samples and its deadline, at its place.
fn rated_rows(bench: &mut Bench, random: &mut Random) {
    let seen = cut_and_changed(bench, random, &rates::FILE);
    // Row 0 has its deadline at 18, rate at 22 and samples at 26, row 1 its rate
    // at 28 and samples at 32.
    let fields = [18, 22, 26, 28, 32].into_iter();
    let fields = fields.flat_map(|field| [(1, field), (5, field)]);
    let maps = [15, 27, 33].into_iter();
    let maps = maps.flat_map(|map| [(4, map), (19, map)]);
    all_in(&seen, fields.chain(maps).chain([(6, 18)]));
}

/// Each refusal of a tagged row's map and of its payload, at its place. With the
/// letters AVB1 it is the first tagged row's map.
fn tagged_rows(bench: &mut Bench, random: &mut Random) {
    let seen = cut_and_changed(bench, random, &tags::FILE);
    let fields = [16, 18, 23, 25, 30, 32, 37, 41, 45].into_iter();
    let fields = fields.flat_map(|field| [(1, field), (5, field)]);
    let maps = [15, 22, 29, 36].into_iter();
    let maps = maps.flat_map(|map| [(1, map), (4, map), (19, map)]);
    all_in(&seen, fields.chain(maps).chain([(2, 0), (6, 16)]));
    for edition in Edition::ALL {
        let mut seen = Seen::new();
        let file = file_of(edition, &tags::table());
        open(bench, random, &mut seen, &file);
        let refused = (edition == Edition::Avb1).then_some((4, 15));
        assert!(seen.into_iter().eq(refused));
    }
}

fn all_in(seen: &Seen, mut refusals: impl Iterator<Item = (u8, u64)>) {
    let unseen = refusals.find(|refusal| !seen.contains(refusal));
    assert_eq!(unseen, None, "a refusal that is not seen");
}
