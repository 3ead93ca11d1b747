//! Port records: those that lists of calls have led to, and changed ones.

use std::collections::VecDeque;

use simulator::port::{LAST_CLOCK, LEAST_SIZE, MOST_BEST};
use simulator::table::{accept, Accepted, GAP, MOST_ROWS};
use simulator::{Call, Class, Frame, Mark, Port, Row, Table, Wire};

use crate::driver::Driver;
use crate::random::Random;
use crate::tables;
use crate::traffic::{gap_count, TRAFFIC};

/// Bytes left in a frame's gap, at its report and ahead of it.
const ABOUT_THE_REPORT: [u64; 5] = [1, 11, 12, 13, 14];

/// A port that a list of calls has led to.
pub fn reached(random: &mut Random) -> Port {
    let mut driver = Driver::new(tables::lively(random));
    let count = random.below(100);
    random.pick(&TRAFFIC)(random, &mut driver, count);
    driver.make(Call::Advance(random.between(0, 300)));
    if random.one_in(2) {
        let n = gap_count(random, driver.left());
        driver.make(Call::Advance(n));
    }
    driver.port
}

/// A sound record: one that a list of calls has led to, or one that is made up,
/// of a table with empty numbers or without.
pub fn sound(random: &mut Random) -> Port {
    let table = match random.below(4) {
        0 => tables::lively(random),
        1 => tables::patched(random),
        _ => return reached(random),
    };
    made_up(random, table)
}

/// A sound record of a table, made up and not led to: every row has as many
/// frames as it may have, the newest taken now, in the order of their instants.
pub fn full(table: Table) -> Port {
    let plan = accept(&table).expect("an accepted table");
    let mut port = Port::fresh(table);
    port.clock = 1 << 32;
    for (place, row) in port.table.in_use() {
        let queue = match row.class {
            Class::A => &mut port.queue_a,
            Class::B => &mut port.queue_b,
        };
        queue.extend((0..plan.most[place]).map(|behind| Frame {
            mark: Mark::Row(place),
            size: row.size(),
            instant: port.clock - behind * row.period(),
        }));
        port.last[place] = Some(port.clock);
    }
    for queue in [&mut port.queue_a, &mut port.queue_b] {
        queue.make_contiguous().sort_by_key(|frame| frame.instant);
    }
    port
}

/// The same, with the queues the other way round.
pub fn full_reversed(table: Table) -> Port {
    let mut port = full(table);
    for queue in [&mut port.queue_a, &mut port.queue_b] {
        queue.make_contiguous().reverse();
    }
    port
}

/// A sound record of a table, made up and not led to: rows have as many frames
/// as they may, or fewer, in any order and a period apart or more, and the
/// places that belong to no part hold anything.
pub fn made_up(random: &mut Random, table: Table) -> Port {
    let plan = accept(&table).expect("an accepted table");
    let mut port = Port::fresh(table);
    port.clock = random.between(1 << 31, 1 << 33);
    for (class, credit) in [(&plan.a, &mut port.credit_a), (&plan.b, &mut port.credit_b)] {
        let (lowest, highest) = class.credit_range().into_inner();
        *credit = lowest + random.between(0, (highest - lowest) as u64) as i64;
    }
    let fill = random.pick(&[Fill::Full, Fill::Full, Fill::Some]);
    for number in 0..MOST_ROWS {
        match port.table.row(number).copied() {
            Some(row) => put_frames(random, &mut port, &plan, (number, row), fill),
            None => put_junk(random, &mut port, number),
        }
    }
    for _ in 0..random.below(MOST_BEST + 1) {
        let size = random.between(LEAST_SIZE, port.table.best_size());
        let instant = port.clock - random.between(0, 1 << 31);
        port.queue_best.push_back(Frame {
            mark: Mark::BestEffort,
            size,
            instant,
        });
    }
    if random.one_in(2) {
        let queues = [&mut port.queue_a, &mut port.queue_b, &mut port.queue_best];
        for queue in queues {
            random.shuffle(queue.make_contiguous());
        }
    }
    if random.one_in(2) {
        let frame = any_queue(random, &mut port).pop_front();
        port.wire = frame.map_or(Wire::Free, |frame| {
            let left = match random.below(2) {
                0 => random.between(1, frame.size),
                _ => random.pick(&ABOUT_THE_REPORT),
            };
            Wire::Sending(frame, left)
        });
    }
    port
}

/// How many frames a row gets.
#[derive(Clone, Copy, PartialEq, Eq)]
enum Fill {
    /// As many as it may have.
    Full,
    /// Any count of them.
    Some,
}

/// Puts anything into the places of a number that is not in use, but for the
/// bound of an empty number.
fn put_junk(random: &mut Random, port: &mut Port, number: usize) {
    let instants = [port.clock, port.clock + 1, random.word()];
    port.last[number] = (!random.one_in(4)).then(|| random.pick(&instants));
    if number >= port.table.rows.len() {
        let any = random.word();
        port.bounds[number] = random.pick(&[port.bounds[0], any]);
    }
}

/// Puts frames of a row into its queue, the newest at the row's last instant.
fn put_frames(
    random: &mut Random,
    port: &mut Port,
    plan: &Accepted,
    (place, row): (usize, Row),
    fill: Fill,
) {
    let (most, residence) = (plan.most[place], plan.residences[place]);
    let count = match fill {
        Fill::Full => most,
        Fill::Some => random.between(0, most),
    };
    // How much older the oldest is than when the frames are a period apart, in
    // parts between them and behind the newest: up to the residence, at times
    // about the bound.
    let least = count.saturating_sub(1) * row.period();
    let most_slack = residence - 1 - least;
    let mut slack = match random.below(4) {
        0 => 0,
        1 => most_slack,
        2 => most_slack.saturating_sub(random.between(GAP - 2, GAP + 1)),
        _ => random.between(0, most_slack),
    };
    let mut instant = port.clock - least - slack;
    for behind in (0..count).rev() {
        let frame = Frame {
            mark: Mark::Row(place),
            size: random.between(LEAST_SIZE, row.size()),
            instant,
        };
        match row.class {
            Class::A => port.queue_a.push_back(frame),
            Class::B => port.queue_b.push_back(frame),
        }
        port.last[place] = Some(instant);
        if behind > 0 {
            let part = random.between(0, slack);
            let wait = random.pick(&[0, slack, part]);
            slack -= wait;
            instant += row.period() + wait;
        }
    }
    if count == 0 && random.one_in(2) {
        port.last[place] = Some(port.clock - random.between(0, 1 << 31));
    }
}

/// The same port at a later clock.
pub fn moved(mut port: Port, clock: u64) -> Port {
    let by = clock - port.clock;
    port.clock = clock;
    for frame in frames(&mut port) {
        frame.instant += by;
    }
    for last in port.last.iter_mut().flatten() {
        *last = last.wrapping_add(by);
    }
    port
}

/// Changes a part of a port, to an edge of the rules for records or across it.
/// A port whose table is not accepted stays as it is.
pub fn change(random: &mut Random, port: &mut Port) {
    let Ok(plan) = accept(&port.table) else {
        return;
    };
    match random.below(18) {
        0 | 12 => change_table(random, port),
        1 => {
            let next = port.clock.wrapping_add(1);
            port.clock = random.pick(&[next, LAST_CLOCK, LAST_CLOCK + 1, u64::MAX]);
        }
        2 => change_credit(random, port, &plan),
        3 => change_last(random, port),
        4 => change_wire(random, port),
        5 => {
            let copied = any_frame(random, port);
            put(random, port, copied);
        }
        6 => {
            let moved = any_queue(random, port).pop_front();
            put(random, port, moved);
        }
        7 => drop(any_queue(random, port).pop_back()),
        8 => {
            let queue = any_queue(random, port);
            random.shuffle(queue.make_contiguous());
        }
        9..=11 => add_frame(random, port),
        13 => change_bound(random, port, &plan),
        _ => change_frame(random, port, &plan),
    }
}

/// Moves a value of the table to an edge or empties a number, and at times works
/// the bounds out afresh.
fn change_table(random: &mut Random, port: &mut Port) {
    match random.below(2) {
        0 => tables::change(random, &mut port.table),
        _ => {
            let number = random.below(port.table.rows.len());
            port.table = port.table.without(number);
        }
    }
    if random.one_in(2) {
        port.bounds = Port::fresh(port.table.clone()).bounds;
    }
}

/// The bound of a number below the row count, or of the next, where it is no
/// part.
fn change_bound(random: &mut Random, port: &mut Port, plan: &Accepted) {
    let number = random.below((port.table.rows.len() + 1).min(MOST_ROWS));
    let bound = port.bounds[number];
    let about = [bound.wrapping_add(1), bound.wrapping_sub(1)];
    let edges = [about[0], about[1], 0, plan.residences[number], u64::MAX];
    port.bounds[number] = random.pick(&edges);
}

fn change_credit(random: &mut Random, port: &mut Port, plan: &Accepted) {
    let (class, credit) = match random.below(2) {
        0 => (&plan.a, &mut port.credit_a),
        _ => (&plan.b, &mut port.credit_b),
    };
    let (lowest, highest) = class.credit_range().into_inner();
    let edges = [lowest - 1, lowest, highest, highest + 1, 0, 1, -1];
    *credit = random.pick(&edges);
}

fn change_last(random: &mut Random, port: &mut Port) {
    let last = &mut port.last[random.below(port.table.rows.len())];
    let clock = port.clock;
    let known = last.unwrap_or(clock);
    let edges = [clock, clock.wrapping_add(1), known.wrapping_sub(1)];
    *last = (!random.one_in(4)).then(|| random.pick(&edges));
}

fn change_wire(random: &mut Random, port: &mut Port) {
    match &mut port.wire {
        Wire::Sending(frame, left) => {
            let edges = [0, frame.size, frame.size + 1, left.wrapping_sub(1)];
            *left = match random.below(2) {
                0 => random.pick(&edges),
                _ => random.pick(&ABOUT_THE_REPORT),
            };
        }
        Wire::Free => {
            let frame = any_frame(random, port);
            port.wire = frame.map_or(Wire::Free, |frame| Wire::Sending(frame, frame.size));
        }
    }
}

/// The frames in the queues and on the wire.
fn frames(port: &mut Port) -> Vec<&mut Frame> {
    let on_wire = match &mut port.wire {
        Wire::Sending(frame, _) => Some(frame),
        Wire::Free => None,
    };
    let queues = [&mut port.queue_a, &mut port.queue_b, &mut port.queue_best];
    queues.into_iter().flatten().chain(on_wire).collect()
}

fn any_frame(random: &mut Random, port: &mut Port) -> Option<Frame> {
    let frames = frames(port);
    (!frames.is_empty()).then(|| *frames[random.below(frames.len())])
}

fn any_queue<'a>(random: &mut Random, port: &'a mut Port) -> &'a mut VecDeque<Frame> {
    match random.below(3) {
        0 => &mut port.queue_a,
        1 => &mut port.queue_b,
        _ => &mut port.queue_best,
    }
}

/// Puts a frame at an end of a queue.
fn put(random: &mut Random, port: &mut Port, frame: Option<Frame>) {
    let at_the_back = random.one_in(2);
    let queue = any_queue(random, port);
    match frame {
        Some(frame) if at_the_back => queue.push_back(frame),
        Some(frame) => queue.push_front(frame),
        None => (),
    }
}

/// Adds a frame of a row that has one in the port, about a period older or
/// newer, and at times makes its instant the row's last.
fn add_frame(random: &mut Random, port: &mut Port) {
    let Some(frame) = any_frame(random, port) else {
        return;
    };
    let Mark::Row(place) = frame.mark else {
        return;
    };
    let Some(row) = port.table.row(place).copied() else {
        return;
    };
    let apart = row.period().wrapping_add(random.pick(&[0, 1, u64::MAX]));
    let older = frame.instant.wrapping_sub(apart);
    let instant = random.pick(&[older, frame.instant.wrapping_add(apart)]);
    let added = Frame { instant, ..frame };
    match row.class {
        Class::A => port.queue_a.push_back(added),
        Class::B => port.queue_b.push_back(added),
    }
    if random.one_in(2) {
        port.last[place] = Some(instant);
    }
}

/// Changes a frame, and at times its row's last instant with it.
fn change_frame(random: &mut Random, port: &mut Port, plan: &Accepted) {
    let count = frames(port).len();
    if count == 0 {
        return;
    }
    let place = random.below(count);
    let mut frame = *frames(port)[place];
    match random.below(4) {
        0 => frame.mark = any_mark(random, port),
        1 => {
            let most = match frame.mark {
                Mark::Row(row) => port.table.row(row).map_or(0, |row| row.size()),
                Mark::BestEffort => port.table.best_size(),
            };
            frame.size = random.pick(&[83, 84, most, most + 1, frame.size + 1]);
        }
        2 => frame.instant = any_instant(random, port, plan, frame),
        _ => frame = *frames(port)[random.below(count)],
    }
    *frames(port)[place] = frame;
    if let Mark::Row(row) = frame.mark {
        if row < MOST_ROWS && random.one_in(2) {
            port.last[row] = Some(frame.instant);
        }
    }
}

fn any_mark(random: &mut Random, port: &Port) -> Mark {
    let rows = port.table.rows.len();
    match random.below(4) {
        0 => Mark::BestEffort,
        1 => Mark::Row(random.pick(&[rows, MOST_ROWS + 1, u32::MAX as usize])),
        _ => Mark::Row(random.below(rows)),
    }
}

/// Instants about the clock, the frame's own, a period from its row's last and
/// the end of its row's bound and residence.
fn any_instant(random: &mut Random, port: &Port, plan: &Accepted, frame: Frame) -> u64 {
    let figures = random.pick(&[plan.bounds(), plan.residences]);
    let age = match frame.mark {
        Mark::Row(row) => figures.get(row).copied().unwrap_or(0),
        Mark::BestEffort => port.clock,
    };
    let apart = match frame.mark {
        Mark::Row(row) => port.table.row(row).map_or(0, |row| row.period()),
        Mark::BestEffort => 0,
    };
    let last = match frame.mark {
        Mark::Row(row) => port.last.get(row).copied().flatten(),
        Mark::BestEffort => None,
    };
    let last = last.unwrap_or(frame.instant);
    let instant = random.pick(&[
        port.clock,
        frame.instant,
        port.clock.wrapping_sub(age),
        last.wrapping_sub(apart),
    ]);
    instant.wrapping_add(random.pick(&[0, 1, u64::MAX]))
}
