//! The static library's five calls on slices, and the bytes that they take and
//! give. docs/ENCODING.md says what the bytes mean.

mod answers;
mod calls;
mod library;
mod records;
mod words;

pub use answers::{Answer, ANSWER_SIZE};
pub use calls::{call_bytes, list_bytes, CALL_SIZE, CALL_WORDS};
pub use library::{bounds, call, number_of, open, replay, rewrite, BOUNDS_SIZE};
pub use records::{
    FrameWords, LastWords, QueueWords, Record, RowWords, WireWords, RECORD_SIZE, RECORD_WORDS,
    ROW_WORDS, VERSION,
};
pub use words::{put_words, words, WORD_SIZE};
