//! Changes to a sound record by the clauses of document 01's "broken", and of the
//! requests that followed: changes that make a clause hold, and changes up to its
//! edge that do not.

use differential::readable::port_of;
use ithumeco::{FrameWords, LastWords, QueueWords, Record, RowWords, WireWords};
use simulator::port::{BEST_EFFORT, LAST_CLOCK};
use simulator::table::{accept, Accepted, Figures, GAP};

pub type Damage = fn(&mut Record, &Accepted);

pub const DAMAGES: &[Damage] = &[
    // another version, or one that had none
    |record, _| record.version += 1,
    |record, _| record.version -= 1,
    |record, _| record.version = record.idle_a,
    // "its table isn't accepted"
    |record, _| record.count = 0,
    |record, _| record.count = 33,
    |record, _| record.count = 200,
    |record, _| record.count = u64::MAX,
    |record, _| record.idle_a = 0,
    |record, _| record.idle_b = 750_001,
    |record, _| record.best_payload = 1501,
    |record, _| by_period(record).pace = 83,
    |record, _| by_period(record).pace += 1,
    |record, _| by_period(record).pace += 1 << 32,
    |record, plan| record.rows[idle_row(record)].deadline = plan.bounds()[idle_row(record)] - 1,
    |record, plan| record.rows[idle_row(record)].deadline = plan.bounds()[idle_row(record)],
    // a rate and its samples: "(1,000 to 200,000 Hz)", "(1 to 255)"
    |record, _| by_rate(record).pace = 0,
    |record, _| by_rate(record).pace = 999,
    |record, _| by_rate(record).pace = 1_000,
    |record, _| by_rate(record).pace = 200_000,
    |record, _| by_rate(record).pace = 200_001,
    |record, _| by_rate(record).pace += 1 << 32,
    |record, _| by_rate(record).samples = 0,
    |record, _| by_rate(record).samples = 1,
    |record, _| by_rate(record).samples = 255,
    |record, _| by_rate(record).samples = 256,
    |record, _| by_rate(record).samples += 256,
    |record, _| by_rate(record).samples = u64::MAX,
    // which of the two a row names
    |record, _| by_rate(record).rated = 0,
    |record, _| by_rate(record).rated = 2,
    |record, _| by_rate(record).rated = u64::MAX,
    |record, _| by_period(record).rated = 1,
    |record, _| by_period(record).rated = 2,
    |record, _| by_period(record).rated = 1 << 32,
    |record, _| of_48_000(by_period(record)),
    |record, _| of_48_000(by_rate(record)),
    // the samples of a row that names a period are no part
    |record, _| by_period(record).samples = 1,
    |record, _| by_period(record).samples = 256,
    |record, _| by_period(record).samples = u64::MAX,
    // C-16: a tag or none; another gives other sizes, so that with the bounds
    // worked out afresh a frame may be too long
    |record, _| tagged(record).tagged = 0,
    |record, _| tagged(record).tagged = 2,
    |record, _| tagged(record).tagged += 1 << 32,
    |record, _| untagged(record).tagged = 1,
    |record, _| untagged(record).tagged = 2,
    |record, _| untagged(record).tagged = 1 << 32,
    |record, _| untagged(record).tagged = u64::MAX,
    |record, _| afresh(record, |record| tagged(record).tagged = 0),
    |record, _| afresh(record, |record| untagged(record).tagged = 1),
    |record, _| afresh(record, |record| retag(record, |_| 0)),
    |record, _| afresh(record, |record| retag(record, |_| 1)),
    |record, _| afresh(record, |record| retag(record, |tag| 1 - tag)),
    // C-15: "A record with other bounds ... is broken."
    |record, _| record.bounds[idle_row(record)] += 1,
    |record, _| record.bounds[idle_row(record)] -= 1,
    |record, _| record.bounds[idle_row(record)] += 1 << 32,
    |record, _| record.bounds[idle_row(record)] = 0,
    |record, plan| record.bounds[idle_row(record)] = plan.residences[idle_row(record)],
    |record, _| record.bounds[waiting_row(record)] += 1,
    |record, _| record.bounds[top(record)] -= 1,
    |record, _| record.bounds[top(record)] = u64::MAX,
    |record, _| record.bounds.fill(0),
    |record, _| at_empty(record, |record, n| record.bounds[n] = 1),
    |record, _| at_empty(record, |record, n| record.bounds[n] = GAP),
    |record, _| at_empty(record, |record, n| record.bounds[n] = GAP.wrapping_neg()),
    |record, _| at_empty(record, |record, n| record.bounds[n] = u64::MAX),
    // "or another row count": with an empty number at the top, or without the row
    // that stands there
    |record, _| record.count += 1,
    |record, _| record.count += 2,
    |record, _| record.count = 32,
    |record, _| {
        record.bounds[record.count as usize] = 1;
        record.count += 1;
    },
    |record, _| record.count -= 1,
    |record, _| afresh(record, |record| record.count -= 1),
    // an emptied number: with the bounds worked out afresh it is sound where it has
    // no frame, is not the highest and not alone in its class
    |record, _| empty(record, idle_row(record)),
    |record, _| {
        record.bounds[idle_row(record)] = 0;
        empty(record, idle_row(record));
    },
    |record, _| afresh(record, |record| empty(record, idle_row(record))),
    |record, _| afresh(record, |record| empty(record, waiting_row(record))),
    |record, _| afresh(record, |record| empty(record, top(record))),
    |record, _| {
        afresh(record, |record| {
            empty(record, top(record));
            record.count = top(record) as u64 + 1;
        })
    },
    |record, _| record.rows.fill(RowWords::default()),
    // an empty number is zeros, but for its samples
    |record, _| at_empty(record, |record, n| record.rows[n].class = 1),
    |record, _| at_empty(record, |record, n| record.rows[n].tagged = 1),
    |record, _| at_empty(record, |record, n| record.rows[n].tagged = 2),
    |record, _| at_empty(record, |record, n| record.rows[n].payload = 1),
    |record, _| at_empty(record, |record, n| record.rows[n].deadline = 1),
    |record, _| at_empty(record, |record, n| record.rows[n].rated = 1),
    |record, _| at_empty(record, |record, n| record.rows[n].pace = 1),
    |record, _| at_empty(record, |record, n| record.rows[n].pace = 1 << 32),
    |record, _| at_empty(record, |record, n| record.rows[n].samples = 1),
    |record, _| at_empty(record, |record, n| record.rows[n].samples = u64::MAX),
    // its mark and instant are no part
    |record, _| at_empty(record, |record, n| record.last[n] = at(0)),
    |record, _| at_empty(record, |record, n| record.last[n] = at(u64::MAX)),
    |record, _| at_empty(record, |record, n| record.last[n].known = 2),
    |record, _| at_empty(record, |record, n| record.last[n].known = u64::MAX),
    // and neither is anything behind the row count
    |record, _| record.rows[record.count as usize] = record.rows[idle_row(record)],
    |record, _| behind(record, |record, n| record.rows[n].class = 2),
    |record, _| behind(record, |record, n| record.rows[n].tagged = 2),
    |record, _| behind(record, |record, n| record.rows[n].tagged = u64::MAX),
    |record, _| behind(record, |record, n| record.rows[n].payload = u64::MAX),
    |record, _| behind(record, |record, n| record.last[n].known = u64::MAX),
    |record, _| behind(record, |record, n| record.last[n] = at(u64::MAX)),
    |record, _| behind(record, |record, n| record.bounds[n] = u64::MAX),
    // "its clock or a credit is out of range (−S × L to I × H)"
    |record, _| record.clock = LAST_CLOCK,
    |record, _| record.clock = LAST_CLOCK + 1,
    |record, _| record.clock = u64::MAX,
    |record, plan| record.credit_a = lowest(&plan.a),
    |record, plan| record.credit_a = lowest(&plan.a) - 1,
    |record, plan| record.credit_a = highest(&plan.a),
    |record, plan| record.credit_a = highest(&plan.a) + 1,
    |record, _| record.credit_a = i64::MIN as u64,
    |record, plan| record.credit_b = lowest(&plan.b),
    |record, plan| record.credit_b = lowest(&plan.b) - 1,
    |record, plan| record.credit_b = highest(&plan.b),
    |record, plan| record.credit_b = highest(&plan.b) + 1,
    |record, _| record.credit_b = i64::MAX as u64,
    // "more than 16 best-effort frames wait"
    |record, _| fill_best(record, 16),
    |record, _| fill_best(record, 17),
    |record, _| fill_best(record, 200),
    |record, _| fill_best(record, u64::MAX),
    // "a frame names no row of the table"
    |record, _| record.queue_a.count = 64,
    |record, _| record.queue_a.count = 65,
    |record, _| record.queue_b.count = 64,
    |record, _| record.queue_b.count = 65,
    |record, _| record.queue_b.count = u64::MAX,
    |record, _| record.queue_a.frames[0].source = record.count,
    |record, _| record.queue_b.frames[0].source = 33,
    |record, _| record.queue_best.frames[0].source = record.count,
    |record, _| send(record, BEST_EFFORT),
    |record, _| send(record, 33),
    |record, _| send(record, record.count),
    |record, _| at_empty(record, |record, n| send(record, n as u64)),
    |record, _| {
        at_empty(record, |record, n| {
            record.last[n] = at(record.clock);
            send(record, n as u64);
        })
    },
    |record, _| {
        at_empty(record, |record, n| {
            record.queue_a.frames[0].source = n as u64
        })
    },
    // "is in the wrong queue"
    |record, _| std::mem::swap(&mut record.queue_a, &mut record.queue_b),
    |record, _| move_from_a_to_b(record),
    |record, _| move_from_a_to_best(record),
    |record, _| record.queue_a.frames[0].source = BEST_EFFORT,
    |record, _| record.queue_b.frames[0].source = BEST_EFFORT,
    // "or has a size outside 84 to its row's C (best effort: LC)"
    |record, _| record.queue_a.frames[0].size = 83,
    |record, _| record.queue_a.frames[0].size = 84,
    |record, _| record.queue_a.frames[0].size += 1,
    |record, _| record.queue_b.frames[0].size = 0,
    |record, _| record.queue_b.frames[0].size += 1,
    |record, _| record.queue_best.frames[0].size = 83,
    |record, _| record.queue_best.frames[0].size += 1,
    |record, _| record.wire.frame.size = 83,
    |record, _| record.wire.frame.size = 1543,
    |record, _| record.wire.frame.size = 1549,
    |record, _| resize(&mut record.queue_a, &record.rows, 0),
    |record, _| resize(&mut record.queue_a, &record.rows, 1),
    |record, _| resize(&mut record.queue_b, &record.rows, 0),
    |record, _| resize(&mut record.queue_b, &record.rows, 1),
    // "bytes left are 0 or above the size"; those of the gap are neither
    |record, _| record.wire.left = 0,
    |record, _| record.wire.left = 1,
    |record, _| record.wire.left = 11,
    |record, _| record.wire.left = 12,
    |record, _| record.wire.left = 13,
    |record, _| record.wire.left = 14,
    |record, _| record.wire.left = record.wire.frame.size,
    |record, _| record.wire.left = record.wire.frame.size + 1,
    // "an instant of a frame or of a row in use is after the clock"
    |record, _| record.queue_best.frames[0].taken = record.clock,
    |record, _| record.queue_best.frames[0].taken = record.clock + 1,
    |record, _| record.wire.frame.taken = record.clock + 1,
    |record, _| retake(record, record.clock),
    |record, _| retake(record, record.clock + 1),
    |record, _| record.last[idle_row(record)] = at(record.clock),
    |record, _| record.last[idle_row(record)] = at(record.clock + 1),
    |record, _| record.last[idle_row(record)] = at(u64::MAX),
    // "a row has two frames in the port", by C-12 "more than that many, or two
    // taken less than a period apart"
    |record, _| push_first(&mut record.queue_a),
    |record, _| push_first(&mut record.queue_b),
    |record, _| record.queue_a.frames[0] = record.wire.frame,
    |record, plan| add_older(record, plan, 0),
    |record, plan| add_older(record, plan, 1),
    |record, _| apart(record, 0, 0),
    |record, _| apart(record, 0, 1),
    |record, _| apart(record, 1, 0),
    |record, _| apart(record, 1, 1),
    // any order is sound
    |record, _| swap_pair(record, 0),
    |record, _| swap_pair(record, 1),
    |record, _| reverse(&mut record.queue_a),
    |record, _| reverse(&mut record.queue_b),
    |record, _| {
        reverse(&mut record.queue_a);
        reverse(&mut record.queue_b);
    },
    // "a row's frame wasn't taken at the row's last instant", by C-12 "the
    // newest must have the row's last instant"
    |record, _| last_of_older(record, 0),
    |record, _| last_of_older(record, 1),
    |record, _| drop_newest(record, 0),
    |record, _| drop_newest(record, 1),
    |record, _| record.queue_a.frames[0].taken = record.clock - 1,
    |record, _| record.queue_b.frames[0].taken = record.clock - 1,
    |record, _| record.wire.frame.taken = record.clock - 2,
    |record, _| record.last[waiting_row(record)] = LastWords::default(),
    // "a row's frame is as old as its bound or older", by C-13 the old figure
    |record, plan| retake_aged(record, plan.bounds()[waiting_row(record)] - 1),
    |record, plan| retake_aged(record, plan.bounds()[waiting_row(record)]),
    |record, plan| retake_aged(record, plan.residences[waiting_row(record)] - 1),
    |record, plan| retake_aged(record, plan.residences[waiting_row(record)]),
    |record, plan| send_aged(record, plan, 13, 13),
    |record, plan| send_aged(record, plan, 12, 13),
    |record, plan| send_aged(record, plan, 12, 12),
    |record, plan| send_aged(record, plan, 11, 12),
    |record, plan| send_aged(record, plan, 1, 1),
    |record, plan| send_aged(record, plan, 1, 84),
    |record, plan| send_aged(record, plan, 0, 1),
    |record, plan| send_aged(record, plan, 0, 12),
    |record, _| retake(record, 0),
];

/// The first row that names a period.
fn by_period(record: &mut Record) -> &mut RowWords {
    paced(record, 0)
}

/// The first row that names a rate.
fn by_rate(record: &mut Record) -> &mut RowWords {
    paced(record, 1)
}

fn paced(record: &mut Record, rated: u64) -> &mut RowWords {
    let mut rows = record.rows.iter_mut().filter(|row| !is_empty(row));
    let row = rows.find(|row| row.rated == rated);
    row.expect("a row of each pace")
}

/// The first row with a tag, and the first without.
fn tagged(record: &mut Record) -> &mut RowWords {
    of_tag(record, 1)
}

fn untagged(record: &mut Record) -> &mut RowWords {
    of_tag(record, 0)
}

fn of_tag(record: &mut Record, tag: u64) -> &mut RowWords {
    let mut rows = record.rows.iter_mut().filter(|row| !is_empty(row));
    let row = rows.find(|row| row.tagged == tag);
    row.expect("a row with a tag and one without")
}

/// Another tag for each row.
fn retag(record: &mut Record, tag: fn(u64) -> u64) {
    for row in record.rows.iter_mut().filter(|row| !is_empty(row)) {
        row.tagged = tag(row.tagged);
    }
}

/// Each frame of a queue as long as its row's may be, or longer by some bytes.
fn resize(queue: &mut QueueWords<64>, rows: &[RowWords; 32], more: u64) {
    for frame in &mut queue.frames[..queue.count as usize] {
        let row = &rows[frame.source as usize];
        frame.size = more
            + match row.tagged {
                0 => 42 + row.payload.max(42),
                _ => 48 + row.payload.max(36),
            };
    }
}

/// Whether a row's words are those of an empty number.
fn is_empty(row: &RowWords) -> bool {
    RowWords { samples: 0, ..*row } == RowWords::default()
}

/// The numbers below the row count.
fn numbers(record: &Record) -> impl DoubleEndedIterator<Item = usize> {
    0..record.count as usize
}

/// The first row of a class.
fn first_of(record: &Record, class: u64) -> usize {
    let rows = record.rows.iter();
    let first = rows
        .enumerate()
        .find(|(_, row)| row.class == class && !is_empty(row));
    first.expect("a row of each class").0
}

/// The first row of class A. Where rows are offered to, it is not.
fn idle_row(record: &Record) -> usize {
    first_of(record, 0)
}

/// The highest number in use.
fn top(record: &Record) -> usize {
    let mut numbers = numbers(record);
    let highest = numbers.rfind(|&number| !is_empty(&record.rows[number]));
    highest.expect("a number in use")
}

/// A change at the first empty number, if there is one.
fn at_empty(record: &mut Record, change: impl Fn(&mut Record, usize)) {
    let first = numbers(record).find(|&number| is_empty(&record.rows[number]));
    if let Some(number) = first {
        change(record, number);
    }
}

/// A change at each number behind the row count.
fn behind(record: &mut Record, change: impl Fn(&mut Record, usize)) {
    for number in record.count as usize..record.rows.len() {
        change(record, number);
    }
}

fn empty(record: &mut Record, number: usize) {
    record.rows[number] = RowWords::default();
}

/// A change, and the bounds worked out afresh if the table is then accepted.
fn afresh(record: &mut Record, change: impl Fn(&mut Record)) {
    change(record);
    let plan = port_of(record).and_then(|port| accept(&port.table).ok());
    if let Some(plan) = plan {
        record.bounds = plan.bounds();
    }
}

/// A rate of 48,000 Hz with a period that is no shorter than the row's.
fn of_48_000(row: &mut RowWords) {
    let period = period(row);
    row.rated = 1;
    row.pace = 48_000;
    row.samples = (period * 48_000).div_ceil(125_000_000);
}

/// The period of a row that is in range.
fn period(row: &RowWords) -> u64 {
    match row.rated {
        0 => row.pace,
        _ => row.samples * 125_000_000 / row.pace,
    }
}

fn lowest(class: &Figures) -> u64 {
    *class.credit_range().start() as u64
}

fn highest(class: &Figures) -> u64 {
    *class.credit_range().end() as u64
}

fn fill_best(record: &mut Record, count: u64) {
    record.queue_best.count = count;
    record.queue_best.frames.fill(FrameWords {
        source: BEST_EFFORT,
        size: 84,
        taken: 0,
    });
}

/// A frame on the wire that best effort could have.
fn send(record: &mut Record, source: u64) {
    record.wire = WireWords {
        sending: 1,
        frame: FrameWords {
            source,
            size: 84,
            taken: record.clock,
        },
        left: 84,
    };
}

fn last_of_a(record: &mut Record) -> Option<FrameWords> {
    record.queue_a.count = record.queue_a.count.checked_sub(1)?;
    Some(record.queue_a.frames[record.queue_a.count as usize])
}

fn move_from_a_to_b(record: &mut Record) {
    if let Some(frame) = last_of_a(record) {
        push(&mut record.queue_b, frame);
    }
}

fn move_from_a_to_best(record: &mut Record) {
    if let Some(frame) = last_of_a(record) {
        record.queue_best.frames[0] = FrameWords { size: 84, ..frame };
    }
}

/// Puts a frame behind the last one of a queue, if there is a place.
fn push<const PLACES: usize>(queue: &mut QueueWords<PLACES>, frame: FrameWords) {
    if let Some(place) = queue.frames.get_mut(queue.count as usize) {
        *place = frame;
    }
    queue.count += 1;
}

/// The first frame once more.
fn push_first<const PLACES: usize>(queue: &mut QueueWords<PLACES>) {
    push(queue, queue.frames[0]);
}

fn reverse<const PLACES: usize>(queue: &mut QueueWords<PLACES>) {
    queue.frames[..queue.count as usize].reverse();
}

/// The queue of A or of B.
fn queue(record: &mut Record, class: usize) -> &mut QueueWords<64> {
    match class {
        0 => &mut record.queue_a,
        _ => &mut record.queue_b,
    }
}

/// The places of the two newest frames of the first row that has two in a
/// class's queue: the older, the newest.
fn pair(record: &mut Record, class: usize) -> Option<(usize, usize)> {
    let queue = queue(record, class);
    let waiting = &queue.frames[..queue.count as usize];
    (0..32).find_map(|row| {
        let places = (0..waiting.len()).filter(|&place| waiting[place].source == row);
        let mut places: Vec<usize> = places.collect();
        places.sort_by_key(|&place| waiting[place].taken);
        let [.., older, newest] = places[..] else {
            return None;
        };
        Some((older, newest))
    })
}

/// Takes the newest of the two so long after the older: a period, or less by
/// `off`.
fn apart(record: &mut Record, class: usize, off: u64) {
    let Some((older, newest)) = pair(record, class) else {
        return;
    };
    let older = queue(record, class).frames[older];
    let row = older.source as usize;
    let taken = older.taken + period(&record.rows[row]) - off;
    queue(record, class).frames[newest].taken = taken;
    record.last[row] = at(taken);
}

fn swap_pair(record: &mut Record, class: usize) {
    if let Some((older, newest)) = pair(record, class) {
        queue(record, class).frames.swap(older, newest);
    }
}

/// The older's instant as the row's last.
fn last_of_older(record: &mut Record, class: usize) {
    if let Some((older, _)) = pair(record, class) {
        let older = queue(record, class).frames[older];
        record.last[older.source as usize] = at(older.taken);
    }
}

/// The newest leaves the queue.
fn drop_newest(record: &mut Record, class: usize) {
    if let Some((_, newest)) = pair(record, class) {
        let queue = queue(record, class);
        queue.frames.copy_within(newest + 1.., newest);
        queue.count -= 1;
    }
}

/// Adds a frame of the first waiting frame's row, a period older than the
/// oldest: one too many where the row has as many as it may.
fn add_older(record: &mut Record, plan: &Accepted, class: usize) {
    let queue = queue(record, class);
    let first = queue.frames[0];
    let row = first.source as usize % 32;
    let waiting = queue.frames[..queue.count as usize].iter();
    let of_row = waiting.filter(|frame| frame.source == first.source);
    let oldest = of_row.map(|frame| frame.taken).min().unwrap_or(0);
    let period = period(&record.rows[row]);
    let taken = oldest.saturating_sub(period.min(plan.residences[row]));
    push(self::queue(record, class), FrameWords { taken, ..first });
}

fn at(taken: u64) -> LastWords {
    LastWords { known: 1, taken }
}

/// The row whose frame is first in the queue of B, or where none waits the first
/// of B.
fn waiting_row(record: &Record) -> usize {
    match record.queue_b.count {
        0 => first_of(record, 1),
        _ => record.queue_b.frames[0].source as usize,
    }
}

/// Another age for that frame and its row.
fn retake_aged(record: &mut Record, age: u64) {
    retake(record, record.clock.wrapping_sub(age));
}

/// Another instant for that frame and its row.
fn retake(record: &mut Record, taken: u64) {
    record.last[waiting_row(record)] = at(taken);
    record.queue_b.frames[0].taken = taken;
}

/// The last row of class B sends its smallest frame, its only one in the port,
/// so much younger than its residence and with so many bytes left.
fn send_aged(record: &mut Record, plan: &Accepted, younger: u64, left: u64) {
    let rows = &record.rows[..record.count as usize];
    let row = rows.iter().rposition(|row| row.class == 1);
    let row = row.expect("a row of class B");
    let queue = &mut record.queue_b;
    let mut waiting = queue.frames[..queue.count as usize].to_vec();
    waiting.retain(|frame| frame.source != row as u64);
    queue.frames[..waiting.len()].copy_from_slice(&waiting);
    queue.count = waiting.len() as u64;
    let age = plan.residences[row] - younger;
    let taken = record.clock.wrapping_sub(age);
    record.last[row] = at(taken);
    record.wire = WireWords {
        sending: 1,
        frame: FrameWords {
            source: row as u64,
            size: 84,
            taken,
        },
        left,
    };
}
