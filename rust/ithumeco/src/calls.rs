//! A call as bytes.

use simulator::Call;

use crate::records::RowWords;
use crate::words::{put_words, WORD_SIZE};

/// The size of a call in words.
pub const CALL_WORDS: usize = 9;

/// The size of a call in bytes.
pub const CALL_SIZE: usize = CALL_WORDS * WORD_SIZE;

/// The bytes of a call: zeros in the words that it does not use.
pub fn call_bytes(call: Call) -> [u8; CALL_SIZE] {
    let mut bytes = [0; CALL_SIZE];
    let mut put = |words: &[u64]| put_words(words, &mut bytes);
    match call {
        Call::Offer(row, payload) => put(&[0, row, payload]),
        Call::OfferBest(payload) => put(&[1, payload]),
        Call::Advance(n) => put(&[2, n]),
        Call::Join(number, row) => {
            let RowWords {
                class,
                tagged,
                payload,
                deadline,
                rated,
                pace,
                samples,
            } = RowWords::from(&row);
            put(&[
                3, number, class, tagged, payload, deadline, rated, pace, samples,
            ]);
        }
        Call::Leave(number) => put(&[4, number]),
    }
    bytes
}

/// The bytes of a list of calls.
pub fn list_bytes(calls: &[Call]) -> Vec<u8> {
    calls.iter().copied().flat_map(call_bytes).collect()
}
