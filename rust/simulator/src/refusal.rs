//! How an operation says no.

use std::fmt;

/// "A refusal carries the number and a place (0 unless said), and changes
/// nothing."
#[derive(Clone, Copy, Debug, PartialEq, Eq)]
pub struct Refusal {
    pub number: u8,
    pub place: u64,
}

/// The line that the programs print for a refusal, without its newline.
impl fmt::Display for Refusal {
    fn fmt(&self, out: &mut fmt::Formatter<'_>) -> fmt::Result {
        write!(out, "refused {} {}", self.number, self.place)
    }
}

/// A refusal at a place.
pub fn refuse<T>(number: u8, place: usize) -> Result<T, Refusal> {
    Err(Refusal {
        number,
        place: place as u64,
    })
}
