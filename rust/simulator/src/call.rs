//! A call of a list: as a value, made on a port, and as a line of `portrun`.

use std::fmt;

use crate::port::{Advance, Port};
use crate::refusal::Refusal;
use crate::table::Row;

/// "These three are the calls in the lists of demand 3." C-15: "Lists now hold
/// joins and leaves too".
#[derive(Clone, Copy, Debug, PartialEq, Eq)]
pub enum Call {
    /// An offer to a row: row, payload.
    Offer(u64, u64),
    /// An offer of best effort: payload.
    OfferBest(u64),
    /// An advance by a count of byte-times.
    Advance(u64),
    /// A join: number, row.
    Join(u64, Row),
    /// A leave: number.
    Leave(u64),
}

/// "An offer taken prints `0 0 33`": no byte-time passed and no frame ended. It
/// is the answer to a join or a leave that is taken too.
pub const TAKEN: Advance = Advance {
    passed: 0,
    ended: None,
};

impl Port {
    /// Makes a call.
    pub fn make(&mut self, call: Call) -> Result<Advance, Refusal> {
        match call {
            Call::Offer(row, payload) => self.offer(row, payload).map(|()| TAKEN),
            Call::OfferBest(payload) => self.offer_best(payload).map(|()| TAKEN),
            Call::Advance(n) => self.advance(n),
            Call::Join(number, row) => self.join(number, row).map(|()| TAKEN),
            Call::Leave(number) => self.leave(number).map(|()| TAKEN),
        }
    }
}

/// The line that states a call, without its newline: "`o ROW PAYLOAD`, `b
/// PAYLOAD`, `a N`". No line states a join or a leave: `portrun` stops at their
/// words.
impl fmt::Display for Call {
    fn fmt(&self, out: &mut fmt::Formatter<'_>) -> fmt::Result {
        match self {
            Call::Offer(row, payload) => write!(out, "o {row} {payload}"),
            Call::OfferBest(payload) => write!(out, "b {payload}"),
            Call::Advance(n) => write!(out, "a {n}"),
            Call::Join(number, row) => write!(out, "join {number}, {row:?}"),
            Call::Leave(number) => write!(out, "leave {number}"),
        }
    }
}

/// The call that a line states, none for a line of any other form.
pub(crate) fn call_of(line: &[u8]) -> Option<Call> {
    let words: Vec<&[u8]> = line.split(|&byte| byte == b' ').collect();
    match words[..] {
        [b"o", row, payload] => Some(Call::Offer(number(row)?, number(payload)?)),
        [b"b", payload] => Some(Call::OfferBest(number(payload)?)),
        [b"a", n] => Some(Call::Advance(number(n)?)),
        _ => None,
    }
}

/// The number that decimal digits state. One too large for 64 bits becomes the
/// largest there is: every rule refuses both alike.
fn number(digits: &[u8]) -> Option<u64> {
    if digits.is_empty() || !digits.iter().all(u8::is_ascii_digit) {
        return None;
    }
    Some(digits.iter().fold(0, |value: u64, digit| {
        value
            .saturating_mul(10)
            .saturating_add(u64::from(digit - b'0'))
    }))
}

#[cfg(test)]
mod tests {
    use super::*;

    #[test]
    fn a_call_has_one_form() {
        assert_eq!(call_of(b"o 0 58"), Some(Call::Offer(0, 58)));
        assert_eq!(call_of(b"b 1500"), Some(Call::OfferBest(1500)));
        assert_eq!(call_of(b"a 007"), Some(Call::Advance(7)));
        for line in cases::lines::OF_NO_FORM {
            assert_eq!(call_of(line.as_bytes()), None, "{line:?}");
        }
    }

    #[test]
    fn a_join_and_a_leave_have_none() {
        for call in [Call::Join(3, Row::EMPTY), Call::Leave(3)] {
            assert_eq!(call_of(call.to_string().as_bytes()), None);
        }
    }

    #[test]
    fn a_number_has_any_length() {
        assert_eq!(number(b"18446744073709551615"), Some(u64::MAX));
        assert_eq!(number(b"18446744073709551616"), Some(u64::MAX));
        assert_eq!(number(&[b'9'; 1000]), Some(u64::MAX));
        assert_eq!(number(&[b'0'; 1000]), Some(0));
        assert_eq!(number(b""), None);
    }
}
