//! A port of the simulator as a record, and back.

use std::collections::VecDeque;

use simulator::table::MOST_ROWS;
use simulator::Mark;

use crate::record::{Frame, Pace, Port, Queue, Row, Table, Wire};

impl Port {
    /// The fresh port of a table, none if the table does not fit.
    pub fn fresh(table: &simulator::Table) -> Option<Port> {
        Port::of(&simulator::Port::fresh(table.clone()))
    }

    /// The record of a port, none if a number does not fit its field or there are
    /// more rows or frames than places.
    pub fn of(port: &simulator::Port) -> Option<Port> {
        let mut last = [None; MOST_ROWS];
        for (place, instant) in last.iter_mut().zip(&port.last) {
            *place = *instant;
        }
        Some(Port {
            table: table_of(&port.table)?,
            clock: port.clock,
            credit_a: port.credit_a,
            credit_b: port.credit_b,
            queue_a: queue_of(&port.queue_a)?,
            queue_b: queue_of(&port.queue_b)?,
            queue_best: queue_of(&port.queue_best)?,
            bounds: port.bounds,
            last,
            wire: match &port.wire {
                simulator::Wire::Free => Wire::Free,
                simulator::Wire::Sending(frame, left) => {
                    Wire::Sending(frame_of(frame)?, (*left).try_into().ok()?)
                }
            },
        })
    }
}

fn table_of(table: &simulator::Table) -> Option<Table> {
    let count = table.rows.len();
    let mut rows = [Row::EMPTY; MOST_ROWS];
    for (place, row) in rows.get_mut(..count)?.iter_mut().zip(&table.rows) {
        *place = row_of(row)?;
    }
    Some(Table {
        idle_a: table.idle_a.try_into().ok()?,
        idle_b: table.idle_b.try_into().ok()?,
        best_payload: table.best_payload.try_into().ok()?,
        count,
        rows,
    })
}

pub(crate) fn row_of(row: &simulator::Row) -> Option<Row> {
    Some(Row {
        class: row.class,
        tagged: row.tagged,
        payload: row.payload.try_into().ok()?,
        pace: match row.pace {
            simulator::Pace::Period(period) => Pace::Period(period.try_into().ok()?),
            simulator::Pace::Rated { rate, samples } => Pace::Rated {
                rate: rate.try_into().ok()?,
                samples: samples.try_into().ok()?,
            },
        },
        deadline: row.deadline.try_into().ok()?,
    })
}

/// A row 32 has no number: that stands for best effort.
fn frame_of(frame: &simulator::Frame) -> Option<Frame> {
    let source = frame.mark.number();
    (Mark::of(source) == frame.mark).then_some(())?;
    Some(Frame {
        source: source.try_into().ok()?,
        size: frame.size.try_into().ok()?,
        taken: frame.instant,
    })
}

fn queue_of<const PLACES: usize>(waiting: &VecDeque<simulator::Frame>) -> Option<Queue<PLACES>> {
    let count = waiting.len();
    let mut frames = [Frame::default(); PLACES];
    for (place, frame) in frames.get_mut(..count)?.iter_mut().zip(waiting) {
        *place = frame_of(frame)?;
    }
    Some(Queue { count, frames })
}

/// The port that a record names. Its counts are no larger than its places.
impl From<&Port> for simulator::Port {
    fn from(port: &Port) -> simulator::Port {
        simulator::Port {
            table: (&port.table).into(),
            bounds: port.bounds,
            clock: port.clock,
            credit_a: port.credit_a,
            credit_b: port.credit_b,
            queue_a: (&port.queue_a).into(),
            queue_b: (&port.queue_b).into(),
            queue_best: (&port.queue_best).into(),
            last: port.last.to_vec(),
            wire: match port.wire {
                Wire::Free => simulator::Wire::Free,
                Wire::Sending(frame, left) => simulator::Wire::Sending(frame.into(), left.into()),
            },
        }
    }
}

impl From<&Table> for simulator::Table {
    fn from(table: &Table) -> simulator::Table {
        let rows = table.rows[..table.count].iter();
        simulator::Table {
            idle_a: table.idle_a.into(),
            idle_b: table.idle_b.into(),
            best_payload: table.best_payload.into(),
            rows: rows.map(|&row| row.into()).collect(),
        }
    }
}

impl From<Row> for simulator::Row {
    fn from(row: Row) -> simulator::Row {
        simulator::Row {
            class: row.class,
            tagged: row.tagged,
            payload: row.payload.into(),
            pace: match row.pace {
                Pace::Period(period) => simulator::Pace::Period(period.into()),
                Pace::Rated { rate, samples } => simulator::Pace::Rated {
                    rate: rate.into(),
                    samples: samples.into(),
                },
            },
            deadline: row.deadline.into(),
        }
    }
}

impl From<Frame> for simulator::Frame {
    fn from(frame: Frame) -> simulator::Frame {
        simulator::Frame {
            mark: Mark::of(frame.source.into()),
            size: frame.size.into(),
            instant: frame.taken,
        }
    }
}

impl<const PLACES: usize> From<&Queue<PLACES>> for VecDeque<simulator::Frame> {
    fn from(queue: &Queue<PLACES>) -> VecDeque<simulator::Frame> {
        let waiting = queue.frames[..queue.count].iter();
        waiting.map(|&frame| frame.into()).collect()
    }
}
