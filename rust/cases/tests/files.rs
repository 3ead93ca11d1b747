//! What the random files have in them.

use std::collections::BTreeMap;

use cases::files::{any_file, damaged, noise};
use cases::random::Random;
use cases::{rates, specimen, tags};
use simulator::{read, write, Edition};

/// What reading makes of a file: its edition with whether a row is tagged, or its
/// letters with the refusal's number.
fn kind(file: &[u8]) -> String {
    let edition = |edition| match edition {
        Edition::Avb1 => "AVB1",
        Edition::Avb2 => "AVB2",
    };
    let letters = Edition::ALL.into_iter();
    let mut letters = letters.filter(|edition| file.starts_with(edition.letters()));
    match (read(file), letters.next()) {
        (Ok((found, table)), _) => {
            let tagged = table.rows.iter().any(|row| row.tagged);
            let with = if tagged { " with tags" } else { "" };
            format!("{}{with}", edition(found))
        }
        (Err(refusal), Some(found)) => format!("{} refused {}", edition(found), refusal.number),
        (Err(refusal), None) => format!("refused {}", refusal.number),
    }
}

#[test]
fn files_are_of_both_editions_and_meet_every_refusal() {
    let mut random = Random::new(24);
    let mut seen: BTreeMap<String, u32> = BTreeMap::new();
    for time in 0..20_000 {
        let fixed = random.pick(&[&specimen::FILE[..], &rates::FILE, &tags::FILE]);
        let file = match time % 4 {
            0 => any_file(&mut random),
            1 => damaged(&mut random, fixed),
            2 => noise(&mut random),
            _ => {
                let file = any_file(&mut random);
                damaged(&mut random, &file)
            }
        };
        *seen.entry(kind(&file)).or_default() += 1;
    }
    println!("{seen:?}");
    let of_both = ["", " refused 1", " refused 3", " refused 4", " refused 5"];
    let of_both = of_both.into_iter();
    let of_both = of_both.chain([" refused 6", " refused 7", " refused 19"]);
    let of_both = of_both.flat_map(|kind| ["AVB1", "AVB2"].map(|of| format!("{of}{kind}")));
    let others = ["AVB2 with tags", "refused 1", "refused 2"].map(String::from);
    for kind in of_both.chain(others) {
        let count = seen.remove(&kind).unwrap_or(0);
        assert!(count >= 30, "{kind}: {count}");
    }
    assert!(seen.is_empty(), "{seen:?}");
}

/// A file's table in the other edition: 23 where it has a tagged row, which AVB1
/// cannot have, else a file of the same table.
#[test]
fn files_are_written_in_the_other_edition_or_refused_with_23() {
    let mut random = Random::new(25);
    let (mut written, mut refused) = ([0; 2], 0);
    for _ in 0..4000 {
        let file = any_file(&mut random);
        let Ok((edition, table)) = read(&file) else {
            continue;
        };
        let other = match edition {
            Edition::Avb1 => Edition::Avb2,
            Edition::Avb2 => Edition::Avb1,
        };
        let mut buffer = [0; 399];
        match write(other, &table, &mut buffer) {
            Ok(size) => {
                assert_eq!(read(&buffer[..size]), Ok((other, table)));
                written[other as usize] += 1;
            }
            Err(refusal) => {
                assert_eq!((other, refusal.number), (Edition::Avb1, 23));
                refused += 1;
            }
        }
    }
    println!("{written:?} written in the editions, {refused} refused with 23");
    assert!(written.iter().all(|&count| count > 200) && refused > 200);
}
