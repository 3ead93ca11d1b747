//! Frames by their parts, and what advances answer.

use simulator::{Advance, Frame, Mark, Refusal};

pub fn frame(row: usize, size: u64, instant: u64) -> Frame {
    Frame {
        mark: Mark::Row(row),
        size,
        instant,
    }
}

pub fn best(size: u64, instant: u64) -> Frame {
    Frame {
        mark: Mark::BestEffort,
        size,
        instant,
    }
}

/// An advance in which a frame is reported ended.
pub fn ended(passed: u64, frame: Frame) -> Result<Advance, Refusal> {
    let ended = Some(frame);
    Ok(Advance { passed, ended })
}

/// An advance in which none is.
pub fn none(passed: u64) -> Result<Advance, Refusal> {
    let ended = None;
    Ok(Advance { passed, ended })
}
