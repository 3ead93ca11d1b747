//! The port that a record's words name, and the row that a join's do.

use std::collections::VecDeque;

use ithumeco::{
    words, FrameWords, LastWords, QueueWords, Record, RowWords, WireWords, RECORD_SIZE, ROW_WORDS,
    VERSION, WORD_SIZE,
};
use simulator::table::MOST_ROWS;
use simulator::{Class, Frame, Mark, Pace, Port, Row, Table, Wire};

const U8: u64 = u8::MAX as u64;
const U16: u64 = u16::MAX as u64;
const U32: u64 = u32::MAX as u64;

/// A record's last words: the wire's mark, the frame's three and its bytes left.
const WIRE_WORDS: usize = 5;

/// Where a record has its row count, in words. Its rows are behind it.
const COUNT_WORD: usize = 4;

/// The bytes left on a record's wire, 0 where it is free or there is no record.
pub fn left_of(record: &[u8]) -> u64 {
    let Some(record) = record.first_chunk::<RECORD_SIZE>() else {
        return 0;
    };
    let mut wire = words(&record[RECORD_SIZE - WIRE_WORDS * WORD_SIZE..]);
    match (wire.next(), wire.last()) {
        (Some(1), Some(left)) => left,
        _ => 0,
    }
}

/// The words of a record's rows below its row count, none if there is no record.
pub fn rows_in(record: &[u8]) -> impl Iterator<Item = RowWords> + '_ {
    let record = record.first_chunk::<RECORD_SIZE>();
    let mut words = record.into_iter().flat_map(|record| words(record));
    let count = words.nth(COUNT_WORD).unwrap_or(0).min(MOST_ROWS as u64);
    (0..count).map_while(move |_| {
        let mut row = [0; ROW_WORDS];
        for place in &mut row {
            *place = words.next()?;
        }
        Some(RowWords::of(row))
    })
}

/// The row at a number of a record, none if the words there name none.
pub fn row_in(record: &[u8], number: usize) -> Option<Row> {
    rows_in(record).nth(number).and_then(|row| row_of(&row))
}

/// The port that a record names, none if a word in use does not fit its field. A
/// clock, a credit, an instant and a bound take any word.
pub fn port_of(record: &Record) -> Option<Port> {
    if record.version != VERSION {
        return None;
    }
    let rows = in_use(&record.rows, record.count)?.iter();
    let table = Table {
        idle_a: fitting(record.idle_a, U32)?,
        idle_b: fitting(record.idle_b, U32)?,
        best_payload: fitting(record.best_payload, U16)?,
        rows: rows.map(row_of).collect::<Option<_>>()?,
    };
    let last = record.last.iter().enumerate();
    let last = last.map(|(number, last)| last_of(last, table.row(number).is_some()));
    Some(Port {
        bounds: record.bounds,
        clock: record.clock,
        credit_a: record.credit_a as i64,
        credit_b: record.credit_b as i64,
        queue_a: queue_of(&record.queue_a)?,
        queue_b: queue_of(&record.queue_b)?,
        queue_best: queue_of(&record.queue_best)?,
        last: last.collect::<Option<_>>()?,
        wire: wire_of(&record.wire)?,
        table,
    })
}

/// The row that a join's words name. All of them are in use: samples of a row
/// that names a period are 0.
pub fn joining_of(row: &RowWords) -> Option<Row> {
    if row.rated == 0 && row.samples != 0 {
        return None;
    }
    row_of(row)
}

fn fitting(word: u64, largest: u64) -> Option<u64> {
    (word <= largest).then_some(word)
}

/// The first places, as many as a count says; none if it says more.
fn in_use<T>(places: &[T], count: u64) -> Option<&[T]> {
    places.get(..usize::try_from(count).ok()?)
}

fn row_of(row: &RowWords) -> Option<Row> {
    Some(Row {
        class: match row.class {
            0 => Class::A,
            1 => Class::B,
            _ => return None,
        },
        tagged: match row.tagged {
            0 => false,
            1 => true,
            _ => return None,
        },
        payload: fitting(row.payload, U16)?,
        pace: match row.rated {
            0 => Pace::Period(fitting(row.pace, U32)?),
            1 => Pace::Rated {
                rate: fitting(row.pace, U32)?,
                samples: fitting(row.samples, U8)?,
            },
            _ => return None,
        },
        deadline: fitting(row.deadline, U32)?,
    })
}

/// A number's last instant. Where the number is not in use it is no part, and
/// its mark may be anything.
fn last_of(last: &LastWords, in_use: bool) -> Option<Option<u64>> {
    match last.known {
        0 => Some(None),
        1 => Some(Some(last.taken)),
        _ => (!in_use).then_some(None),
    }
}

fn frame_of(frame: &FrameWords) -> Option<Frame> {
    Some(Frame {
        mark: Mark::of(fitting(frame.source, U32)?),
        size: fitting(frame.size, U32)?,
        instant: frame.taken,
    })
}

fn queue_of<const PLACES: usize>(queue: &QueueWords<PLACES>) -> Option<VecDeque<Frame>> {
    let frames = in_use(&queue.frames, queue.count)?;
    frames.iter().map(frame_of).collect()
}

fn wire_of(wire: &WireWords) -> Option<Wire> {
    match wire.sending {
        0 => Some(Wire::Free),
        1 => Some(Wire::Sending(
            frame_of(&wire.frame)?,
            fitting(wire.left, U32)?,
        )),
        _ => None,
    }
}
