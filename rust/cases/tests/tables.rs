//! What the random tables have in them.

use std::collections::BTreeSet;

use cases::files::any_edition;
use cases::random::Random;
use cases::tables;
use simulator::table::accept;
use simulator::{open, Class, Edition, Pace, Row};

fn is_rated(row: &Row) -> bool {
    matches!(row.pace, Pace::Rated { .. })
}

#[test]
fn accepted_tables_have_rows_of_each_pace() {
    let mut random = Random::new(10);
    let (mut rows, mut rated, mut mixed) = (0, 0, 0);
    for _ in 0..1000 {
        let table = tables::lively(&mut random);
        let count = table.rows.iter().filter(|row| is_rated(row)).count();
        rows += table.rows.len();
        rated += count;
        mixed += usize::from((1..table.rows.len()).contains(&count));
    }
    println!("{rated} of {rows} rows name a rate; {mixed} of 1000 tables have both");
    assert!(rated > rows / 4 && rows - rated > rows / 4);
    assert!(mixed > 400);
}

#[test]
fn accepted_tables_have_tagged_rows_in_half_of_them() {
    let mut random = Random::new(23);
    let (mut rows, mut of_avb1, mut of_avb2) = (0, 0, 0);
    let (mut tagged, mut largest) = ([0; 2], [0; 2]);
    for _ in 0..2000 {
        let table = tables::lively(&mut random);
        match any_edition(&mut random, &table) {
            Edition::Avb1 => of_avb1 += 1,
            Edition::Avb2 => of_avb2 += 1,
        }
        rows += table.rows.len();
        for row in table.rows.iter().filter(|row| row.tagged) {
            tagged[row.class as usize] += 1;
            // A tag that the largest frame of the class has.
            let is_largest = row.size() == table.largest(row.class) && row.size() > 84;
            largest[row.class as usize] += usize::from(is_largest);
        }
    }
    println!("{of_avb1} tables for AVB1, {of_avb2} for AVB2");
    println!("of {rows} rows {tagged:?} are tagged in A and B, {largest:?} the largest");
    assert!(of_avb1 > 500 && of_avb2 > 800);
    let both: usize = tagged.iter().sum();
    assert!((rows / 9..rows / 4).contains(&both));
    assert!(tagged.iter().chain(&largest).all(|&count| count > 150));
}

#[test]
fn accepted_tables_have_rows_of_one_frame_and_of_several() {
    let mut random = Random::new(11);
    let (mut rows, mut several, mut above) = (0, 0, 0);
    let mut seen = BTreeSet::new();
    for _ in 0..5000 {
        let table = tables::lively(&mut random);
        let most = accept(&table).unwrap().most;
        for (row, most) in table.rows.iter().zip(most) {
            rows += 1;
            several += u64::from(most > 1);
            above += u64::from(row.deadline > row.period());
            seen.insert(most);
        }
    }
    println!("{several} of {rows} rows have several frames, {above} a deadline above the period");
    println!("frames of a row: {seen:?}");
    assert!(several > rows / 8 && above > rows / 4);
    assert!((1..=20).all(|most| seen.contains(&most)));
}

#[test]
fn tables_are_refused_with_20_for_each_class() {
    let mut random = Random::new(12);
    let mut seen = BTreeSet::new();
    for _ in 0..100 {
        let refusal = open(&tables::overfull(&mut random)).unwrap_err();
        assert_eq!(refusal.number, 20);
        seen.insert(refusal.place);
    }
    assert!(seen.into_iter().eq([0, 1]));
}

#[test]
fn crowded_tables_have_a_row_of_several_frames() {
    let mut random = Random::new(13);
    for class in [Class::A, Class::B] {
        for _ in 0..200 {
            let tight = tables::tight_crowded(&mut random, class);
            let crowded = tables::crowded(&mut random, 200_000);
            for table in [tight, crowded] {
                assert!(accept(&table).unwrap().most.iter().any(|&most| most > 1));
            }
        }
    }
}
