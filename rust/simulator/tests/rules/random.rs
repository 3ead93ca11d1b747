//! Random tables, call lists and files. The seeds are fixed.

use std::collections::BTreeSet;

use cases::crowds;
use cases::driver::{left_on, Driver};
use cases::files::{any_edition, damaged};
use cases::hunt::Hunt;
use cases::ports;
use cases::random::Random;
use cases::rates;
use cases::specimen::{table, FILE};
use cases::tables;
use cases::tags;
use cases::traffic::{any_call, any_patch, dense_calls, patched_calls, random_lines};
use cases::watch::{Reported, Watch};
use simulator::port::CLAUSES;
use simulator::refusal::refuse;
use simulator::{
    bounds, broken, file_of, portrun, read, write, Advance, Call, Class, Edition, Mark, Port,
    Refusal, Row, Table,
};

/// The longest period of a table in dense traffic.
const LONGEST: u64 = 200_000;

/// A list that the simulator has played, held to the promise.
fn watched(driver: Driver) -> Watch {
    assert_eq!(broken(&driver.port), None);
    let bounds = bounds(&driver.opened).unwrap();
    let mut watch = Watch::new(&driver.opened, &bounds);
    let steps = driver.calls.into_iter().zip(driver.answers);
    assert_eq!(watch.see_all(steps), Ok(()));
    assert_eq!(watch.clock, driver.port.clock);
    watch
}

/// The age nearest to its limit, in thousandths.
fn closest<'a>(frames: impl Iterator<Item = &'a Reported>) -> u64 {
    let ages = frames.map(|frame| frame.age * 1000 / frame.limit);
    ages.max().unwrap_or(0)
}

#[test]
fn dense_lists_keep_the_promise() {
    let mut random = Random::new(1);
    let (mut reported, mut nearest) = (0, 0);
    let (mut with_tag, mut nearest_with_tag) = (0, 0);
    for _ in 0..400 {
        let mut driver = Driver::new(tables::within(&mut random, LONGEST));
        dense_calls(&mut random, &mut driver, 1300);
        driver.drain();
        let watch = watched(driver);
        reported += watch.reported.len();
        nearest = closest(watch.reported.iter()).max(nearest);
        let tagged = watch.reported.iter().filter(|frame| frame.tagged);
        with_tag += tagged.clone().count();
        nearest_with_tag = closest(tagged).max(nearest_with_tag);
    }
    println!("{reported} frames reported, the oldest at {nearest}/1000 of its bound; {with_tag} with a tag, the oldest at {nearest_with_tag}/1000");
    assert!(reported > 40_000 && with_tag > 4000);
    assert!(nearest > 950 && nearest_with_tag > 900);
}

/// Rows with several frames in the port, hunted for the oldest of them.
#[test]
fn several_frames_of_a_row_keep_the_promise() {
    let mut random = Random::new(6);
    let (mut beside, mut most, mut nearest) = (0, 0, 0);
    let random_tables = (0..60).flat_map(|_| {
        let tight = [Class::A, Class::B].map(|class| tables::tight_crowded(&mut random, class));
        tight
            .into_iter()
            .chain([tables::crowded(&mut random, LONGEST)])
    });
    let tables: Vec<Table> = crowds::all().into_iter().chain(random_tables).collect();
    for table in tables {
        for hunt in Hunt::all(&table) {
            let mut driver = Driver::new(table.clone());
            hunt.run(&mut driver);
            let watch = watched(driver);
            let frames = watch.reported.iter().filter(|frame| frame.together > 1);
            beside += frames.clone().count();
            nearest = closest(frames).max(nearest);
            most = watch.most.into_iter().max().unwrap_or(0).max(most);
        }
    }
    println!("{beside} frames beside another of their row, the oldest at {nearest}/1000 of its bound; at most {most} at once");
    assert!(beside > 20_000 && nearest > 980);
    assert!(most > 55);
}

/// Frames that were held to more than their row's bound when they were taken,
/// since a join has raised it.
fn raised(reported: &[Reported]) -> impl Iterator<Item = &Reported> + Clone {
    let frames = reported.iter();
    frames.filter(|frame| frame.limit > frame.bound)
}

#[test]
fn lists_with_joins_and_leaves_keep_the_promise() {
    let mut random = Random::new(7);
    let (mut reported, mut of_raised, mut nearest) = (0, 0, 0);
    for _ in 0..400 {
        let mut driver = Driver::new(tables::within(&mut random, LONGEST));
        patched_calls(&mut random, &mut driver, 1300);
        driver.drain();
        let watch = watched(driver);
        reported += watch.reported.len();
        of_raised += raised(&watch.reported).count();
        nearest = closest(watch.reported.iter()).max(nearest);
    }
    println!("{reported} frames reported, {of_raised} with a bound that a join had raised, the oldest at {nearest}/1000 of its limit");
    assert!(reported > 30_000 && of_raised > 5000);
    assert!(nearest > 950);
}

/// Frames that are hunted for while rows join.
#[test]
fn frames_that_wait_while_rows_join_keep_the_promise() {
    let mut random = Random::new(8);
    let mut tables = vec![table(), rates::table(), tags::table()];
    tables.extend(crowds::all());
    for _ in 0..15 {
        for class in [Class::A, Class::B] {
            tables.push(tables::tight(&mut random, class));
            tables.push(tables::tight_crowded(&mut random, class));
        }
        tables.push(tables::within(&mut random, LONGEST));
    }
    let (mut reported, mut of_raised, mut older, mut nearest) = (0, 0, 0, 0);
    for table in tables {
        for hunt in Hunt::all_with_joins(&table) {
            let mut driver = Driver::new(table.clone());
            hunt.run(&mut driver);
            assert_eq!(driver.port.table, table, "all rows are back");
            let watch = watched(driver);
            let raised = raised(&watch.reported);
            reported += watch.reported.len();
            of_raised += raised.clone().count();
            older += raised
                .clone()
                .filter(|frame| frame.age > frame.bound)
                .count();
            nearest = closest(raised).max(nearest);
        }
    }
    println!("{reported} frames reported, {of_raised} with a bound that a join had raised, {older} of them older than it was before, the oldest at {nearest}/1000 of its limit");
    assert!(of_raised > 50_000 && older > 300);
    assert!(nearest > 970);
}

/// A table without its empty numbers, which opening accepts.
fn compact(table: &Table) -> Table {
    Table {
        rows: table.in_use().map(|(_, row)| *row).collect(),
        ..table.clone()
    }
}

/// A port's bounds by what opening makes of its rows.
fn bounds_afresh(table: &Table) -> Vec<u64> {
    let mut of_rows = bounds(&compact(table)).unwrap().into_iter();
    let of_number = |number| match table.row(number) {
        Some(_) => of_rows.next().unwrap(),
        None => 0,
    };
    (0..table.rows.len()).map(of_number).collect()
}

/// A sound port that rows may leave, at times.
fn settled(random: &mut Random) -> Port {
    let mut driver = Driver::new(tables::lively(random));
    let count = random.below(100);
    patched_calls(random, &mut driver, count);
    driver.settle(20);
    driver.port
}

#[test]
fn a_join_or_a_leave_changes_its_number_alone() {
    let mut random = Random::new(9);
    let (mut joins, mut leaves) = (0, 0);
    for _ in 0..2000 {
        let sound = match random.below(2) {
            0 => ports::sound(&mut random),
            _ => settled(&mut random),
        };
        for _ in 0..20 {
            let call = any_patch(&mut random, &sound.table);
            let mut port = sound.clone();
            if port.make(call).is_err() {
                assert_eq!(port, sound, "a refusal changes nothing");
                continue;
            }
            let (number, row) = match call {
                Call::Join(number, row) => (number as usize, Some(row)),
                Call::Leave(number) => (number as usize, None),
                _ => panic!("{call} is no join or leave"),
            };
            joins += usize::from(row.is_some());
            leaves += usize::from(row.is_none());
            assert_eq!(port.table.row(number), row.as_ref());
            assert!(row.is_none() || port.last[number].is_none());
            for other in (0..32).filter(|&other| other != number) {
                let in_use = sound.table.row(other);
                assert_eq!(port.table.row(other), in_use);
                assert!(in_use.is_none() || port.last[other] == sound.last[other]);
            }
            assert_ne!(port.table.rows.last(), Some(&Row::EMPTY));
            let kept = &port.bounds[..port.table.rows.len()];
            assert_eq!(kept, bounds_afresh(&port.table));
            assert_eq!(broken(&port), None);
            // Nothing else has changed.
            port.table = sound.table.clone();
            port.bounds = sound.bounds;
            port.last.clone_from(&sound.last);
            assert_eq!(port, sound);
        }
    }
    println!("{joins} joins and {leaves} leaves taken");
    assert!(joins > 4000 && leaves > 600);
}

#[test]
fn a_broken_record_refuses_every_call() {
    let mut random = Random::new(5);
    let mut seen = BTreeSet::new();
    for _ in 0..500 {
        let sound = ports::sound(&mut random);
        assert_eq!(broken(&sound), None);
        for _ in 0..100 {
            let mut port = sound.clone();
            for _ in 0..random.between(1, 3) {
                ports::change(&mut random, &mut port);
            }
            let before = port.clone();
            let clause = broken(&port);
            let call = any_call(&mut random, &sound.table, left_on(&port.wire));
            let answer = port.make(call);
            assert_eq!(answer == refuse(18, 0), clause.is_some());
            assert!(
                answer.is_ok() || port == before,
                "a refusal changes nothing"
            );
            seen.insert(clause);
        }
    }
    let clauses = CLAUSES.into_iter().map(Some);
    assert!(clauses.chain([None]).all(|clause| seen.contains(&clause)));
}

#[test]
fn written_files_read_back() {
    let mut random = Random::new(2);
    let mut of_avb1 = 0;
    for _ in 0..2000 {
        let mut table = tables::accepted(&mut random);
        tables::set_defaults(&mut random, &mut table);
        let lowest = table.rows.iter().position(|row| row.tagged);
        for edition in Edition::ALL {
            let mut buffer = [0xEE; 15 + 32 * 12 + 10];
            let written = write(edition, &table, &mut buffer);
            if let (Edition::Avb1, Some(lowest)) = (edition, lowest) {
                assert_eq!(written, refuse(23, lowest));
                assert_eq!(buffer, [0xEE; 15 + 32 * 12 + 10]);
                continue;
            }
            of_avb1 += usize::from(edition == Edition::Avb1);
            let size = written.unwrap();
            assert!(buffer[size..].iter().all(|&byte| byte == 0xEE));
            assert_eq!(read(&buffer[..size]), Ok((edition, table.clone())));
        }
    }
    println!("{of_avb1} of 2000 tables have no tagged row");
    assert!((700..1500).contains(&of_avb1));
}

#[test]
fn a_file_that_reads_is_the_one_that_is_written() {
    let mut random = Random::new(3);
    let mut accepted = [0; 2];
    let mut seen = BTreeSet::new();
    for _ in 0..100_000 {
        let file = random.pick(&[&FILE[..], &rates::FILE, &tags::FILE]);
        let file = damaged(&mut random, file);
        match read(&file) {
            Ok((edition, table)) => {
                let mut buffer = vec![0; file.len()];
                assert_eq!(write(edition, &table, &mut buffer), Ok(file.len()));
                assert_eq!(buffer, file);
                accepted[edition as usize] += 1;
            }
            Err(refusal) => {
                assert!(refusal.place <= file.len() as u64);
                seen.insert(refusal.number);
            }
        }
    }
    println!("{accepted:?} files of the editions read");
    assert!(accepted.iter().all(|&count| count > 1000));
    assert!(seen.into_iter().eq((1..=7).chain([19])));
}

#[test]
fn a_run_prints_what_the_calls_answer() {
    let mut random = Random::new(4);
    for table in [table(), tags::table()] {
        let edition = any_edition(&mut random, &table);
        let file = file_of(edition, &table);
        let mut driver = Driver::new(table);
        random_lines(&mut random, &mut driver, 2500);
        dense_calls(&mut random, &mut driver, 2500);
        let calls: String = driver
            .calls
            .iter()
            .map(|call| format!("{call}\n"))
            .collect();
        let expected: String = driver.answers.into_iter().map(line).collect();
        assert_eq!(portrun(&file, calls.as_bytes()), expected);
        for number in 11..=15 {
            assert!(expected.contains(&format!("refused {number} 0\n")));
        }
    }
}

/// The line that an answer prints.
fn line(answer: Result<Advance, Refusal>) -> String {
    match answer {
        Ok(Advance { passed, ended }) => {
            let row = match ended.map(|frame| frame.mark) {
                Some(Mark::Row(row)) => row,
                Some(Mark::BestEffort) => 32,
                None => 33,
            };
            format!("0 {passed} {row}\n")
        }
        Err(refusal) => format!("refused {} {}\n", refusal.number, refusal.place),
    }
}
