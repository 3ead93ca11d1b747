//! How often random lists, records and tables are about rows that come and go.

use std::collections::BTreeMap;

use cases::driver::Driver;
use cases::patches::Kinds;
use cases::random::Random;
use cases::traffic::{any_patch, TRAFFIC};
use cases::{ports, tables};
use simulator::refusal::refuse;
use simulator::table::accept;
use simulator::{broken, open, Call, Port, Row};

#[test]
fn lists_have_joins_and_leaves_of_every_kind() {
    let mut random = Random::new(19);
    let mut kinds = Kinds::default();
    for traffic in TRAFFIC {
        for _ in 0..200 {
            let mut driver = Driver::new(tables::lively(&mut random));
            traffic(&mut random, &mut driver, 300);
            kinds.see_list(&driver);
        }
    }
    for (kind, count) in kinds.counts() {
        println!("{count:>7} {kind}");
    }
    assert!(kinds.rarest().1 >= 20, "{:?}", kinds.rarest());
}

/// 8 and 20 are rare in lists: a table has both classes most of the time, and
/// few rows have many frames.
#[test]
fn joins_meet_every_refusal_of_a_table() {
    let mut random = Random::new(20);
    let mut seen: BTreeMap<u8, u32> = BTreeMap::new();
    for _ in 0..20_000 {
        let table = match random.below(2) {
            0 => tables::lively(&mut random),
            _ => tables::patched(&mut random),
        };
        let call = any_patch(&mut random, &table);
        let number = match Port::fresh(table).make(call) {
            Err(refusal) => refusal.number,
            Ok(_) => 0,
        };
        if matches!(call, Call::Join(..)) {
            *seen.entry(number).or_default() += 1;
        }
    }
    println!("{seen:?}");
    assert!(seen.keys().copied().eq([0, 5, 8, 9, 10, 20, 22]));
    assert!(seen.values().all(|&count| count >= 50), "{seen:?}");
}

#[test]
fn records_have_empty_numbers_and_junk() {
    let mut random = Random::new(21);
    let (mut empty, mut after_the_clock, mut junk_bounds) = (0, 0, 0);
    for _ in 0..1000 {
        let table = tables::patched(&mut random);
        let port = ports::made_up(&mut random, table);
        assert_eq!(broken(&port), None);
        let count = port.table.rows.len();
        for number in (0..count).filter(|&number| port.table.row(number).is_none()) {
            empty += 1;
            after_the_clock += u32::from(port.last[number] > Some(port.clock));
            assert_eq!(port.bounds[number], 0);
            assert_eq!(
                port.clone().make(Call::Offer(number as u64, 0)),
                refuse(11, 0)
            );
        }
        junk_bounds += u32::from(port.bounds[count..].iter().any(|&bound| bound > 0));
    }
    println!("{empty} empty numbers, {after_the_clock} with an instant after the clock");
    println!("{junk_bounds} records with junk behind the row count");
    assert!(empty > 5000 && after_the_clock > 1000 && junk_bounds > 300);
}

#[test]
fn patched_tables_are_accepted_and_not_opened() {
    let mut random = Random::new(22);
    let mut with_empty = 0;
    for _ in 0..1000 {
        let table = tables::patched(&mut random);
        assert!(accept(&table).is_ok());
        assert_eq!(table.rows.len(), table.count_in_use());
        if let Some(first) = table.rows.iter().position(|row| *row == Row::EMPTY) {
            with_empty += 1;
            assert_eq!(open(&table), refuse(5, first));
        }
    }
    assert!(with_empty > 800, "{with_empty}");
}
