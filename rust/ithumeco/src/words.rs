//! Words of 64 bits as bytes, little-endian.

/// The size of a word in bytes.
pub const WORD_SIZE: usize = 8;

/// Words at the front of a buffer that has room for them.
pub fn put_words(words: &[u64], out: &mut [u8]) {
    for (word, place) in words.iter().zip(out.chunks_exact_mut(WORD_SIZE)) {
        place.copy_from_slice(&word.to_le_bytes());
    }
}

/// The whole words of some bytes.
pub fn words(bytes: &[u8]) -> impl Iterator<Item = u64> + '_ {
    bytes
        .chunks_exact(WORD_SIZE)
        .map(|word| u64::from_le_bytes(word.try_into().expect("a chunk of 8 bytes")))
}
