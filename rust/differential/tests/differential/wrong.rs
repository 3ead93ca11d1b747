//! Calls that cannot be read, and joins that only just can.

use ithumeco::{put_words, CALL_SIZE, CALL_WORDS, ROW_WORDS};

type Words = [u64; CALL_WORDS];

/// A call with another word at a place.
type Change = (Words, usize, u64);

const U8: u64 = u8::MAX as u64;
const U16: u64 = u16::MAX as u64;
const U32: u64 = u32::MAX as u64;

/// A call of each kind but a join, and how many of its words it uses.
const SHORT: [(Words, usize); 4] = [
    ([0, 0, 58, 0, 0, 0, 0, 0, 0], 3),
    ([1, 42, 0, 0, 0, 0, 0, 0, 0], 2),
    ([2, 7, 0, 0, 0, 0, 0, 0, 0], 2),
    ([4, 0, 0, 0, 0, 0, 0, 0, 0], 2),
];

/// Joins of a row that names a period and of a tagged one that names a rate, and
/// the largest word of each of the row's fields.
const BY_PERIOD: (Words, [u64; ROW_WORDS]) = (
    [3, 3, 0, 0, 58, 15_625, 0, 15_625, 0],
    [1, 1, U16, U32, 1, U32, 0],
);
const BY_RATE: (Words, [u64; ROW_WORDS]) = (
    [3, 3, 0, 1, 58, 15_625, 1, 48_000, 6],
    [1, 1, U16, U32, 1, U32, U8],
);

/// The places of a join's row, and of its pace's mark.
const ROW: usize = 2;
const MARK: usize = ROW + 4;

/// Each word of a join's row as large as its field.
fn largest() -> impl Iterator<Item = Change> {
    [BY_PERIOD, BY_RATE]
        .into_iter()
        .flat_map(|(join, largest)| {
            let words = largest.into_iter().enumerate();
            words.map(move |(place, word)| (join, ROW + place, word))
        })
}

/// Calls that cannot be read: of no kind, with a word other than 0 that they do
/// not use, or with a word of a row that does not fit its field.
pub fn wrong_calls() -> Vec<[u8; CALL_SIZE]> {
    let of_no_kind = [5, 255, 256, 1 << 32, u64::MAX].map(|kind| (SHORT[3].0, 0, kind));
    let unused = SHORT.into_iter().flat_map(|(call, used)| {
        let places = used..CALL_WORDS;
        places.flat_map(move |place| [1, 1 << 63].map(|word| (call, place, word)))
    });
    let too_large = largest().flat_map(|(join, place, largest)| {
        [largest + 1, largest + (1 << 32), u64::MAX].map(|word| (join, place, word))
    });
    // A period with samples.
    let with_samples = (BY_RATE.0, MARK, 0);
    let changes = of_no_kind.into_iter().chain(unused).chain(too_large);
    changes.chain([with_samples]).map(changed).collect()
}

/// Joins with the largest word that fits each field of their row.
pub fn edge_joins() -> Vec<[u8; CALL_SIZE]> {
    largest().map(changed).collect()
}

fn changed((mut call, place, word): Change) -> [u8; CALL_SIZE] {
    call[place] = word;
    let mut bytes = [0; CALL_SIZE];
    put_words(&call, &mut bytes);
    bytes
}
