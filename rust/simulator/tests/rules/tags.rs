//! C-16: rows whose frames have a tag. Files are in `editions`.

use crate::frames::{best, ended, frame, none};
use crate::refusals::refusal;
use cases::crowds;
use cases::driver::Driver;
use cases::random::Random;
use cases::specimen::{self, FOURTH};
use cases::tables::{self, rated, row, tagged};
use cases::tags::{table, twin, TAG};
use cases::traffic::{dense_calls, patched_calls};
use simulator::table::{accept, PAYLOAD_RANGE};
use simulator::{
    bounds, broken, open, tagged_size, wire_size, write, Call, Class, Edition, Mark, Pace, Port,
    Row, Table, Wire, TAKEN,
};

/// The table without its tags.
pub fn untagged(mut table: Table) -> Table {
    table.rows.iter_mut().for_each(|row| row.tagged = false);
    table
}

/// The table with tags in all its rows.
fn all_tagged(mut table: Table) -> Table {
    table.rows.iter_mut().for_each(|row| row.tagged = true);
    table
}

#[test]
fn a_tagged_rows_wire_size() {
    let sizes = [
        (0, 84, 84),
        (35, 84, 84),
        (36, 84, 84),
        (37, 85, 84),
        (42, 90, 84),
        (43, 91, 85),
        (58, 106, 100),
        (1500, 1548, 1542),
    ];
    for (payload, with_tag, without) in sizes {
        assert_eq!(tagged_size(payload), with_tag);
        assert_eq!(wire_size(payload), without);
        for class in [Class::A, Class::B] {
            let row = row(class, payload, 15_625, 15_625);
            assert_eq!(row.size(), without);
            assert_eq!(tagged(row).size(), with_tag);
        }
        // Of a frame with that payload.
        let full = row(Class::A, 1500, 15_625, 15_625);
        assert_eq!(full.size_of(payload), without);
        assert_eq!(tagged(full).size_of(payload), with_tag);
    }
    let all = PAYLOAD_RANGE.map(tagged_size);
    assert_eq!((all.clone().min(), all.max()), (Some(84), Some(1548)));
}

/// A's sum of C is 406 and its largest 300, B's 590 and 506: so row 0 has 106 +
/// 1542 + (300 + 0.75 × 300) / 0.25 = 3748, row 1 300 + 1542 + (106 + 225) / 0.25
/// = 3166, row 2 506 + 2356 + (84 + 0.8 × 506) / 0.2 = 5306 and row 3 84 + 2356 +
/// (506 + 404.8) / 0.2 = 6994. The bounds are 12 less.
#[test]
fn figures_take_the_size_from_the_row() {
    let of = |table: &Table, figure: fn(&Row) -> u64| -> Vec<u64> {
        table.rows.iter().map(figure).collect()
    };
    let table = table();
    assert_eq!(of(&table, Row::size), [106, 300, 506, 84]);
    assert_eq!(of(&table, Row::share), [6784, 19_200, 16_192, 2688]);
    let (a, b) = (table.figures(Class::A), table.figures(Class::B));
    assert_eq!((a.largest, a.sum, a.shares), (300, 406, 25_984));
    assert_eq!((b.largest, b.sum, b.shares), (506, 590, 18_880));
    assert_eq!((a.blocking, b.blocking), (1542, 2356));
    assert_eq!(bounds(&table).unwrap()[..5], [3736, 3154, 5294, 6982, 0]);
    // Without the tags.
    let table = untagged(table);
    assert_eq!(of(&table, Row::size), [100, 300, 500, 84]);
    assert_eq!(of(&table, Row::share), [6400, 19_200, 16_000, 2688]);
    assert_eq!(bounds(&table).unwrap()[..5], [3730, 3130, 5264, 6928, 0]);
}

#[test]
fn a_share_is_the_tagged_sizes() {
    // 1548 bytes in as many byte-times, and in the longest period: 1.548.
    assert_eq!(tagged(row(Class::A, 1500, 1548, 1)).share(), 1_000_000);
    let longest = tagged(row(Class::A, 1500, 1_000_000_000, 1));
    assert_eq!(longest.share(), 2);
    assert_eq!(tagged(row(Class::A, 36, 84, 1)).share(), 1_000_000);
    assert_eq!(tagged(row(Class::A, 37, 85, 1)).share(), 1_000_000);
    assert_eq!(tagged(rated(Class::B, 58, 48_000, 6)).share(), 6784);
}

#[test]
fn blocking_by_tagged_frames() {
    // A tagged frame of B is longer than best effort's.
    let mut table = specimen::table();
    table.rows[2].payload = 1500;
    assert_eq!(table.blocking(Class::A), 1542);
    table.rows[2].tagged = true;
    assert_eq!(table.blocking(Class::A), 1548);
    // LA for B, and the best-effort part: 1542 / 0.75.
    table.rows[1] = tagged(row(Class::A, 1500, 15_625, 15_625));
    assert_eq!(table.blocking(Class::B), 1548 + 2056);
    // IA × LB / SA: 0.25 × 1548 / 0.75, and 0.25 × 1542 / 0.75.
    table.best_payload = 0;
    assert_eq!(table.blocking(Class::B), 1548 + 516);
    table.rows[2].tagged = false;
    assert_eq!(table.blocking(Class::B), 1548 + 514);
    table.rows[1].tagged = false;
    assert_eq!(table.blocking(Class::B), 1542 + 514);
    // LA and LB are the largest C, not the C of the largest payload.
    let mut table = specimen::table();
    table.rows[0] = tagged(row(Class::A, 253, 15_625, 15_625));
    assert_eq!(table.largest(Class::A), 301);
}

#[test]
fn best_effort_has_no_tag() {
    for (payload, size) in [
        (0, 84),
        (36, 84),
        (37, 84),
        (42, 84),
        (43, 85),
        (1500, 1542),
    ] {
        let mut table = all_tagged(specimen::table());
        table.best_payload = payload;
        assert_eq!(table.best_size(), size);
        let mut port = Port::fresh(table);
        assert_eq!(port.offer_best(payload), Ok(()));
        assert_eq!(port.queue_best, [best(size, 0)]);
        assert_eq!(broken(&port), None);
        assert_eq!(port.advance(5000), ended(size - 12, best(size, 0)));
        port.queue_best.push_back(best(size + 1, 0));
        assert_eq!(broken(&port), Some("a frame's size is out of range"));
    }
}

#[test]
fn opening_9_by_the_tag() {
    // Shares of 6,400 and 19,200, with a tag in row 0 of 6,784 and 19,200.
    let mut table = specimen::table();
    table.rows[0].tagged = true;
    table.idle_a = 25_983;
    assert_eq!(open(&table), Err(refusal(9, 0)));
    assert_eq!(open(&untagged(table.clone())), Err(refusal(10, 0)));
    table.idle_a = 25_984;
    assert_eq!(open(&table), Err(refusal(10, 0)));
    // 16,000, and 16,192.
    let mut table = specimen::table();
    table.rows[2].tagged = true;
    table.idle_b = 16_191;
    assert_eq!(open(&table), Err(refusal(9, 1)));
    assert_eq!(open(&untagged(table.clone())), Err(refusal(10, 2)));
    table.idle_b = 16_192;
    assert_eq!(open(&table), Err(refusal(10, 2)));
}

#[test]
fn opening_10_by_the_tag() {
    for (place, bound) in [(0, 3736), (1, 3154), (2, 5294), (3, 6982)] {
        let mut table = table();
        table.rows[place].deadline = bound;
        assert_eq!(open(&table), Ok(()));
        table.rows[place].deadline = bound - 1;
        assert_eq!(open(&table), Err(refusal(10, place as u64)));
        assert_eq!(open(&untagged(table)), Ok(()));
    }
}

/// 32 rows with a residence of 5,126; with 90 bytes in place of 84 in row 0 it
/// has 90 + 1542 + (2604 + 0.25 × 90) / 0.75 = 5134, more than twice 2,565.
#[test]
fn opening_20_by_the_tag() {
    let mut table = crowds::two_of_each();
    for row in &mut table.rows {
        row.deadline = 1_000_000_000;
    }
    table.rows[0].pace = Pace::Period(2_565);
    assert_eq!(accept(&table).unwrap().most[..2], [2, 2]);
    table.rows[0].tagged = true;
    assert_eq!(open(&table), Err(refusal(20, 0)));
    table.rows[0].pace = Pace::Period(2_567);
    assert_eq!(accept(&table).unwrap().residences[0], 5_134);
    assert_eq!(accept(&table).unwrap().most[..2], [2, 2]);
    // A tag that the padding makes room for.
    table.rows[0].pace = Pace::Period(2_565);
    table.rows[0].payload = 36;
    assert_eq!(accept(&table).unwrap().residences[0], 5_126);
}

#[test]
fn an_offer_gets_the_tagged_size() {
    let offers = [
        (0, 0, 84),
        (0, 36, 84),
        (0, 37, 85),
        (0, 42, 90),
        (0, 58, 106),
        (1, 37, 84),
        (1, 43, 85),
        (1, 258, 300),
        (2, 0, 84),
        (2, 458, 506),
        (3, 0, 84),
        (3, 36, 84),
    ];
    for (row, payload, size) in offers {
        let mut port = Port::fresh(table());
        assert_eq!(port.offer(row, payload), Ok(()));
        let sent = frame(row as usize, size, 0);
        let queue = match row {
            0 | 1 => &port.queue_a,
            _ => &port.queue_b,
        };
        assert_eq!(*queue, [sent]);
        assert_eq!(broken(&port), None);
        assert_eq!(port.advance(5000), ended(size - 12, sent));
        assert_eq!(port.advance(11), none(11));
        assert_eq!(port.wire, Wire::Sending(sent, 1));
        assert_eq!(port.advance(1), none(1));
        assert_eq!(port.wire, Wire::Free);
    }
    // 12 asks for the payload, not for its size.
    let mut port = Port::fresh(table());
    for (row, payload) in [(0, 59), (1, 259), (2, 459), (3, 37)] {
        assert_eq!(port.offer(row, payload), Err(refusal(12, 0)));
    }
}

#[test]
fn the_tag_costs_credit_and_time() {
    // Fact (e) with a tag in row 0's frame: 318 byte-times give 106 × 0.75 back.
    let mut port = Port::fresh(table());
    port.offer(0, 58).unwrap();
    assert_eq!(port.advance(5000), ended(94, frame(0, 106, 0)));
    assert_eq!(port.advance(12), none(12));
    assert_eq!(port.credit_a, -79_500_000);
    port.offer(1, 258).unwrap();
    assert_eq!(port.advance(1000), ended(318 + 288, frame(1, 300, 106)));
    // Fact (d): credit A is 0 behind it.
    let mut port = Port::fresh(table());
    port.offer_best(1500).unwrap();
    assert_eq!(port.advance(1), none(1));
    port.offer(0, 58).unwrap();
    assert_eq!(port.advance(5000), ended(1529, best(1542, 0)));
    assert_eq!(port.advance(5000), ended(106, frame(0, 106, 1)));
    assert_eq!(port.advance(12), none(12));
    assert_eq!(port.credit_a, 0);
}

/// A sound record: row 0 on the wire, rows 1 to 3 and best effort waiting, each
/// with its largest frame.
fn sound() -> Port {
    let mut port = Port::fresh(table());
    port.clock = 1000;
    port.last[..4].copy_from_slice(&[Some(950), Some(960), Some(970), Some(980)]);
    port.wire = Wire::Sending(frame(0, 106, 950), 106);
    port.queue_a.push_back(frame(1, 300, 960));
    port.queue_b.push_back(frame(2, 506, 970));
    port.queue_b.push_back(frame(3, 84, 980));
    port.queue_best.push_back(best(1542, 0));
    assert_eq!(broken(&port), None);
    port
}

fn after(change: impl Fn(&mut Port)) -> Option<&'static str> {
    let mut port = sound();
    change(&mut port);
    let clause = broken(&port);
    let refused = port.advance(0) == Err(refusal(18, 0));
    assert_eq!(refused, clause.is_some());
    clause
}

/// Another tag of a row, with the bounds worked out afresh.
fn retagged(port: &mut Port, row: usize, tagged: bool) {
    port.table.rows[row].tagged = tagged;
    port.bounds = bounds(&port.table).unwrap();
}

#[test]
fn a_record_has_sizes_up_to_its_rows() {
    let name = Some("a frame's size is out of range");
    assert_eq!(
        after(|port| port.wire = Wire::Sending(frame(0, 84, 950), 84)),
        None
    );
    assert_eq!(
        after(|port| port.wire = Wire::Sending(frame(0, 83, 950), 83)),
        name
    );
    assert_eq!(
        after(|port| port.wire = Wire::Sending(frame(0, 107, 950), 84)),
        name
    );
    assert_eq!(after(|port| port.queue_a[0].size += 1), name);
    assert_eq!(after(|port| port.queue_b[0].size += 1), name);
    assert_eq!(after(|port| port.queue_b[0].size = 84), None);
    assert_eq!(after(|port| port.queue_b[0].size = 83), name);
    assert_eq!(after(|port| port.queue_b[1].size += 1), name);
    assert_eq!(after(|port| port.queue_best[0].size += 1), name);
}

#[test]
fn a_record_with_another_tag() {
    let size = Some("a frame's size is out of range");
    let bound = Some("a bound is not the one worked out afresh");
    // Without row 0's tag its frame is 6 bytes too long, up to 100 it is not.
    assert_eq!(after(|port| retagged(port, 0, false)), size);
    for (bytes, clause) in [(101, size), (100, None)] {
        let shorter = |port: &mut Port| {
            retagged(port, 0, false);
            port.wire = Wire::Sending(frame(0, bytes, 950), 70);
        };
        assert_eq!(after(shorter), clause);
    }
    assert_eq!(after(|port| retagged(port, 2, false)), size);
    // With a tag in row 1 it may be 6 bytes longer.
    for (bytes, clause) in [(300, None), (306, None), (307, size)] {
        let longer = |port: &mut Port| {
            retagged(port, 1, true);
            port.queue_a[0].size = bytes;
        };
        assert_eq!(after(longer), clause);
    }
    // Row 3's payload of 36 has the size 84 with a tag and without, so that the
    // bounds are the same.
    assert_eq!(after(|port| port.table.rows[3].tagged = false), None);
    // The bounds of the others are not.
    for row in 0..3 {
        assert_eq!(after(|port| port.table.rows[row].tagged ^= true), bound);
    }
}

#[test]
fn a_records_credits_by_the_tagged_sizes() {
    // A: −750,000 × 300 to 250,000 × 1542. B: −800,000 × 506 to 200,000 × 2356.
    let (of_a, of_b) = (
        Some("credit of A out of range"),
        Some("credit of B out of range"),
    );
    assert_eq!(after(|port| port.credit_b = -404_800_000), None);
    assert_eq!(after(|port| port.credit_b = -404_800_001), of_b);
    assert_eq!(after(|port| port.credit_a = -225_000_000), None);
    assert_eq!(after(|port| port.credit_a = -225_000_001), of_a);
    let tagged = |port: &mut Port, credit| {
        retagged(port, 1, true);
        port.credit_a = credit;
    };
    assert_eq!(after(|port| tagged(port, -229_500_000)), None);
    assert_eq!(after(|port| tagged(port, -229_500_001)), of_a);
    // HB is 6 more with LA 306.
    let saved = |port: &mut Port, credit| {
        retagged(port, 1, true);
        port.credit_b = credit;
    };
    assert_eq!(after(|port| port.credit_b = 471_200_001), of_b);
    assert_eq!(after(|port| saved(port, 472_400_000)), None);
    assert_eq!(after(|port| saved(port, 472_400_001)), of_b);
}

#[test]
fn ports_are_compared_by_their_tags() {
    let (mut port, other) = (sound(), sound());
    port.table.rows[3].tagged = false;
    assert_eq!(port.bounds, other.bounds);
    assert_ne!(port, other);
}

fn taken(port: &mut Port, call: Call) {
    assert_eq!(port.make(call), Ok(TAKEN), "{call}");
}

/// With 406 bytes beside the specimen's A's sum of C becomes 806 and LA 406: row 0
/// has 100 + 1542 + (706 + 0.75 × 406) / 0.25 = 5684, row 1 300 + 1542 + (506 +
/// 304.5) / 0.25 = 5084 and row 3 406 + 1542 + (400 + 304.5) / 0.25 = 4766. HB
/// becomes 406 + 2056: row 2 has 500 + 2462 + 2000 = 4962.
#[test]
fn a_tagged_row_joins_and_leaves() {
    let mut port = Port::fresh(specimen::table());
    taken(&mut port, Call::Join(3, tagged(FOURTH)));
    assert_eq!(port.bounds[..5], [5672, 5072, 4950, 4754, 0]);
    taken(&mut port, Call::Offer(3, 358));
    assert_eq!(port.queue_a, [frame(3, 406, 0)]);
    assert_eq!(port.advance(5000), ended(394, frame(3, 406, 0)));
    // 1,218 byte-times give 406 × 0.75 back.
    assert_eq!(port.advance(12 + 1217), none(1229));
    assert_eq!(port.make(Call::Leave(3)), Err(refusal(21, 0)));
    assert_eq!(port.advance(1), none(1));
    taken(&mut port, Call::Leave(3));
    assert_eq!(port.bounds[..3], [3730, 3130, 4844]);
    // The number is used again by rows of the other kind and of this one.
    for (row, size) in [(FOURTH, 400), (tagged(FOURTH), 406)] {
        let mut port = port.clone();
        taken(&mut port, Call::Join(3, row));
        taken(&mut port, Call::Offer(3, 358));
        assert_eq!(port.queue_a, [frame(3, size, 1624)]);
        assert_eq!(broken(&port), None);
    }
}

#[test]
fn a_join_is_judged_by_the_tagged_size() {
    // A has 224,400 left: 90 bytes in 402 byte-times are 223,881, in 401 224,439.
    let mut port = Port::fresh(specimen::table());
    let join = |payload, period| {
        let joining = row(Class::A, payload, period, 15_625);
        Call::Join(3, tagged(joining))
    };
    assert_eq!(port.make(join(42, 401)), Err(refusal(9, 0)));
    taken(&mut port.clone(), join(42, 402));
    // 84 bytes with 36 of payload, in 374 one too many.
    assert_eq!(port.make(join(36, 374)), Err(refusal(9, 0)));
    taken(&mut port.clone(), join(36, 375));
    // Row 3's bound with 106 bytes: 106 + 1542 + (400 + 225) / 0.25 − 12.
    let late = |deadline| Call::Join(3, tagged(row(Class::A, 58, 15_625, deadline)));
    assert_eq!(port.make(late(4135)), Err(refusal(10, 3)));
    taken(&mut port, late(4136));
}

#[test]
fn a_row_with_its_tag_alone_is_in_use_and_out_of_range() {
    let only_tag = tagged(Row::EMPTY);
    assert_ne!(only_tag, Row::EMPTY);
    assert!(!only_tag.in_range());
    let mut table = specimen::table();
    table.rows.push(only_tag);
    assert_eq!(table.count_in_use(), 4);
    assert_eq!(table.row(3), Some(&only_tag));
    assert_eq!(accept(&table), Err(refusal(5, 3)));
    for edition in Edition::ALL {
        assert_eq!(write(edition, &table, &mut [0; 100]), Err(refusal(5, 3)));
    }
    assert_eq!(broken(&Port::fresh(table)), Some("table not accepted"));
}

/// Which rows of a port are their twins, and what a call is to it: the bytes of a
/// tag fewer where it speaks of a twin's payload.
struct Twins {
    port: Port,
    is_twin: [bool; 32],
}

impl Twins {
    fn new(table: &Table, chosen: impl Fn(usize) -> bool) -> Twins {
        let mut twins = table.clone();
        let mut is_twin = [false; 32];
        for (place, row) in twins.rows.iter_mut().enumerate() {
            let before = *row;
            if chosen(place) {
                *row = twin(before);
            }
            is_twin[place] = *row != before;
        }
        let port = Port::fresh(twins);
        Twins { port, is_twin }
    }

    fn call(&self, call: Call) -> Call {
        let is_twin = |number: u64| self.is_twin.get(number as usize) == Some(&true);
        match call {
            Call::Offer(row, payload) if is_twin(row) => {
                Call::Offer(row, payload.saturating_sub(TAG))
            }
            Call::Join(number, row) => Call::Join(number, twin(row)),
            other => other,
        }
    }

    /// Makes a call's twin, and gives whether its answer is the call's.
    fn is_same(&mut self, driver: &Driver, place: usize) -> bool {
        let call = driver.calls[place];
        let said = self.port.make(self.call(call));
        if let (Call::Join(number, row), Ok(_)) = (call, said) {
            self.is_twin[number as usize] = twin(row) != row;
        }
        said == driver.answers[place]
    }
}

/// A tag in place of 6 bytes of payload changes no figure and no answer.
#[test]
fn a_tag_is_as_six_bytes_of_payload() {
    let mut random = Random::new(32);
    let (mut twins_seen, mut reported) = (0, 0);
    for time in 0..400 {
        let table = tables::lively(&mut random);
        let mask = random.word();
        let mut twins = Twins::new(&table, |place| mask >> place & 1 == 1);
        twins_seen += twins.is_twin.iter().filter(|&&is| is).count();
        assert_eq!(bounds(&twins.port.table), bounds(&table));
        for class in [Class::A, Class::B] {
            assert_eq!(twins.port.table.figures(class), table.figures(class));
        }
        let mut driver = Driver::new(table);
        match time % 2 {
            0 => dense_calls(&mut random, &mut driver, 300),
            _ => patched_calls(&mut random, &mut driver, 300),
        }
        for place in 0..driver.calls.len() {
            assert!(twins.is_same(&driver, place), "call {place}");
            let ended = driver.answers[place].ok().and_then(|answer| answer.ended);
            if let Some(Mark::Row(row)) = ended.map(|frame| frame.mark) {
                reported += usize::from(twins.is_twin[row]);
            }
        }
        assert_eq!(twins.port.clock, driver.port.clock);
        assert_eq!(twins.port.credit_a, driver.port.credit_a);
        assert_eq!(twins.port.credit_b, driver.port.credit_b);
        assert_eq!(twins.port.wire, driver.port.wire);
    }
    println!("{twins_seen} rows with a twin, {reported} of the twins' frames reported");
    assert!(twins_seen > 500 && reported > 3000);
}
