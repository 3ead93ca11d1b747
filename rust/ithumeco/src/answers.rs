//! An answer as bytes.

use simulator::port::NO_FRAME;
use simulator::refusal::refuse;
use simulator::{Advance, Frame, Mark, Refusal};

use crate::words::{put_words, words};

/// The size of an answer in bytes.
pub const ANSWER_SIZE: usize = 40;

/// The words of an answer. Each may hold any value.
#[derive(Clone, Copy, Debug, PartialEq, Eq)]
pub struct Answer {
    /// The refusal's number, or 0.
    pub number: u64,
    /// The byte-times passed, or the refusal's place.
    pub passed_or_place: u64,
    /// The row of the frame reported ended; 32 for best effort, 33 for none.
    pub source: u64,
    /// That frame's wire size.
    pub size: u64,
    /// The instant at which it was taken.
    pub taken: u64,
}

impl Answer {
    /// The answer to an offer, a join or a leave that is taken.
    pub const TAKEN: Answer = Answer::passed(0);

    /// The answer to a call that is refused.
    pub const fn refused(number: u64, place: u64) -> Answer {
        Answer {
            number,
            passed_or_place: place,
            ..Answer::TAKEN
        }
    }

    /// The answer to an advance in which no frame was reported.
    pub const fn passed(n: u64) -> Answer {
        Answer {
            number: 0,
            passed_or_place: n,
            source: NO_FRAME,
            size: 0,
            taken: 0,
        }
    }

    /// What the words say.
    pub fn said(self) -> Result<Advance, Refusal> {
        if self.number != 0 {
            return refuse(self.number as u8, self.passed_or_place as usize);
        }
        let frame = Frame {
            mark: Mark::of(self.source),
            size: self.size,
            instant: self.taken,
        };
        Ok(Advance {
            passed: self.passed_or_place,
            ended: (self.source != NO_FRAME).then_some(frame),
        })
    }

    pub fn from_bytes(bytes: &[u8; ANSWER_SIZE]) -> Answer {
        let mut words = words(bytes);
        let mut next = || words.next().expect("five words");
        Answer {
            number: next(),
            passed_or_place: next(),
            source: next(),
            size: next(),
            taken: next(),
        }
    }

    /// The answers in some bytes.
    pub fn list(bytes: &[u8]) -> impl Iterator<Item = Answer> + '_ {
        bytes
            .chunks_exact(ANSWER_SIZE)
            .map(|answer| Answer::from_bytes(answer.try_into().expect("a chunk of 40 bytes")))
    }

    pub fn bytes(self) -> [u8; ANSWER_SIZE] {
        let words = [
            self.number,
            self.passed_or_place,
            self.source,
            self.size,
            self.taken,
        ];
        let mut bytes = [0; ANSWER_SIZE];
        put_words(&words, &mut bytes);
        bytes
    }
}

impl From<Result<Advance, Refusal>> for Answer {
    fn from(said: Result<Advance, Refusal>) -> Answer {
        match said {
            Err(refusal) => Answer::refused(refusal.number.into(), refusal.place),
            Ok(Advance { passed, ended }) => ended.map_or(Answer::passed(passed), |frame| Answer {
                number: 0,
                passed_or_place: passed,
                source: frame.mark.number(),
                size: frame.size,
                taken: frame.instant,
            }),
        }
    }
}
