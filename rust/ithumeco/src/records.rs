//! A port record as bytes.

use std::collections::VecDeque;

use simulator::{Class, Frame, Pace, Port, Row, Wire};

use crate::words::{put_words, words, WORD_SIZE};

/// The version of the layout and of what its words say, a record's first word.
pub const VERSION: u64 = 1_000_006;

/// The size of a record in words.
pub const RECORD_WORDS: usize = 768;

/// The size of a record in bytes.
pub const RECORD_SIZE: usize = RECORD_WORDS * WORD_SIZE;

/// A row: class (0 A, 1 B); a mark, 1 if it is tagged, else 0; payload, deadline;
/// a mark, 1 if it names a sample rate, else 0; the rate or the period; and behind
/// a rate the samples. Those of an empty number are zeros, the samples anything.
#[derive(Clone, Copy, Debug, Default, PartialEq, Eq)]
pub struct RowWords {
    pub class: u64,
    pub tagged: u64,
    pub payload: u64,
    pub deadline: u64,
    pub rated: u64,
    pub pace: u64,
    pub samples: u64,
}

/// The size of a row in words.
pub const ROW_WORDS: usize = 7;

impl RowWords {
    /// The words in their order, by name.
    pub fn of(words: [u64; ROW_WORDS]) -> RowWords {
        let [class, tagged, payload, deadline, rated, pace, samples] = words;
        RowWords {
            class,
            tagged,
            payload,
            deadline,
            rated,
            pace,
            samples,
        }
    }
}

/// A frame: its row or 32 for best effort, wire size, instant taken.
#[derive(Clone, Copy, Debug, Default, PartialEq, Eq)]
pub struct FrameWords {
    pub source: u64,
    pub size: u64,
    pub taken: u64,
}

/// A queue: how many frames wait, and its places.
#[derive(Clone, Copy, Debug, PartialEq, Eq)]
pub struct QueueWords<const PLACES: usize> {
    pub count: u64,
    pub frames: [FrameWords; PLACES],
}

/// A row's last instant: a mark, 1 if it has one, else 0; and the instant.
#[derive(Clone, Copy, Debug, Default, PartialEq, Eq)]
pub struct LastWords {
    pub known: u64,
    pub taken: u64,
}

/// The wire: 0 when free; 1, the frame and its bytes left.
#[derive(Clone, Copy, Debug, Default, PartialEq, Eq)]
pub struct WireWords {
    pub sending: u64,
    pub frame: FrameWords,
    pub left: u64,
}

/// A record's words by name. Each may hold any value.
#[derive(Clone, Debug, PartialEq, Eq)]
pub struct Record {
    pub version: u64,
    pub idle_a: u64,
    pub idle_b: u64,
    pub best_payload: u64,
    pub count: u64,
    pub rows: [RowWords; 32],
    pub clock: u64,
    /// Credits are in two's complement.
    pub credit_a: u64,
    pub credit_b: u64,
    pub queue_a: QueueWords<64>,
    pub queue_b: QueueWords<64>,
    pub queue_best: QueueWords<16>,
    pub last: [LastWords; 32],
    /// The bounds that the port keeps.
    pub bounds: [u64; 32],
    pub wire: WireWords,
}

impl FrameWords {
    fn each(&mut self, visit: &mut impl FnMut(&mut u64)) {
        visit(&mut self.source);
        visit(&mut self.size);
        visit(&mut self.taken);
    }
}

impl<const PLACES: usize> QueueWords<PLACES> {
    const EMPTY: QueueWords<PLACES> = QueueWords {
        count: 0,
        frames: [FrameWords {
            source: 0,
            size: 0,
            taken: 0,
        }; PLACES],
    };

    fn each(&mut self, visit: &mut impl FnMut(&mut u64)) {
        visit(&mut self.count);
        for frame in &mut self.frames {
            frame.each(visit);
        }
    }
}

impl Record {
    /// A record of zeros.
    pub fn zeros() -> Record {
        Record {
            version: 0,
            idle_a: 0,
            idle_b: 0,
            best_payload: 0,
            count: 0,
            rows: Default::default(),
            clock: 0,
            credit_a: 0,
            credit_b: 0,
            queue_a: QueueWords::EMPTY,
            queue_b: QueueWords::EMPTY,
            queue_best: QueueWords::EMPTY,
            last: Default::default(),
            bounds: [0; 32],
            wire: WireWords::default(),
        }
    }

    /// The words in their order.
    fn each(&mut self, visit: &mut impl FnMut(&mut u64)) {
        visit(&mut self.version);
        visit(&mut self.idle_a);
        visit(&mut self.idle_b);
        visit(&mut self.best_payload);
        visit(&mut self.count);
        for row in &mut self.rows {
            visit(&mut row.class);
            visit(&mut row.tagged);
            visit(&mut row.payload);
            visit(&mut row.deadline);
            visit(&mut row.rated);
            visit(&mut row.pace);
            visit(&mut row.samples);
        }
        visit(&mut self.clock);
        visit(&mut self.credit_a);
        visit(&mut self.credit_b);
        self.queue_a.each(visit);
        self.queue_b.each(visit);
        self.queue_best.each(visit);
        for last in &mut self.last {
            visit(&mut last.known);
            visit(&mut last.taken);
        }
        for bound in &mut self.bounds {
            visit(bound);
        }
        visit(&mut self.wire.sending);
        self.wire.frame.each(visit);
        visit(&mut self.wire.left);
    }

    pub fn bytes(&self) -> [u8; RECORD_SIZE] {
        let mut bytes = [0; RECORD_SIZE];
        let mut places = bytes.chunks_exact_mut(WORD_SIZE);
        self.clone().each(&mut |word| {
            put_words(&[*word], places.next().expect("a place for each word"));
        });
        bytes
    }

    pub fn from_bytes(bytes: &[u8; RECORD_SIZE]) -> Record {
        let mut record = Record::zeros();
        let mut words = words(bytes);
        record.each(&mut |word| *word = words.next().expect("a word for each place"));
        record
    }
}

fn frame_words(frame: &Frame) -> FrameWords {
    FrameWords {
        source: frame.mark.number(),
        size: frame.size,
        taken: frame.instant,
    }
}

impl RowWords {
    fn store(&mut self, row: &Row) {
        self.class = match row.class {
            Class::A => 0,
            Class::B => 1,
        };
        self.tagged = row.tagged.into();
        self.payload = row.payload;
        self.deadline = row.deadline;
        match row.pace {
            Pace::Period(period) => (self.rated, self.pace) = (0, period),
            Pace::Rated { rate, samples } => {
                (self.rated, self.pace, self.samples) = (1, rate, samples)
            }
        }
    }
}

/// A row's words: zeros in the samples of one that names a period.
impl From<&Row> for RowWords {
    fn from(row: &Row) -> RowWords {
        let mut words = RowWords::default();
        words.store(row);
        words
    }
}

impl<const PLACES: usize> QueueWords<PLACES> {
    fn store(&mut self, waiting: &VecDeque<Frame>) {
        self.count = waiting.len() as u64;
        for (place, frame) in self.frames.iter_mut().zip(waiting) {
            *place = frame_words(frame);
        }
    }
}

impl Record {
    /// Stores a port's parts. Words that belong to no part keep their values.
    pub fn store(&mut self, port: &Port) {
        let table = &port.table;
        self.version = VERSION;
        self.idle_a = table.idle_a;
        self.idle_b = table.idle_b;
        self.best_payload = table.best_payload;
        self.count = table.rows.len() as u64;
        for (place, row) in self.rows.iter_mut().zip(&table.rows) {
            place.store(row);
        }
        self.clock = port.clock;
        self.credit_a = port.credit_a as u64;
        self.credit_b = port.credit_b as u64;
        self.queue_a.store(&port.queue_a);
        self.queue_b.store(&port.queue_b);
        self.queue_best.store(&port.queue_best);
        for (number, (place, last)) in self.last.iter_mut().zip(&port.last).enumerate() {
            if table.row(number).is_some() {
                place.known = u64::from(last.is_some());
                place.taken = last.unwrap_or(place.taken);
            }
        }
        let kept = table.rows.len().min(self.bounds.len());
        self.bounds[..kept].copy_from_slice(&port.bounds[..kept]);
        match &port.wire {
            Wire::Free => self.wire.sending = 0,
            Wire::Sending(frame, left) => {
                self.wire = WireWords {
                    sending: 1,
                    frame: frame_words(frame),
                    left: *left,
                }
            }
        }
    }
}

/// A port's record: zeros in the words that belong to no part.
impl From<&Port> for Record {
    fn from(port: &Port) -> Record {
        let mut record = Record::zeros();
        record.store(port);
        record
    }
}
