//! The static library's functions, on slices.

use simulator::{Edition, Refusal};

/// The size of 32 bounds in bytes.
pub const BOUNDS_SIZE: usize = 256;

extern "C" {
    fn ithumeco_replay(
        file: *const u8,
        file_size: usize,
        calls: *const u8,
        calls_size: usize,
        answers: *mut u8,
        answers_size: usize,
    ) -> u64;

    fn ithumeco_open(file: *const u8, file_size: usize, record: *mut u8, record_size: usize)
        -> u64;

    fn ithumeco_call(
        record: *mut u8,
        record_size: usize,
        call: *const u8,
        call_size: usize,
        answer: *mut u8,
        answer_size: usize,
    ) -> u64;

    fn ithumeco_bounds(
        file: *const u8,
        file_size: usize,
        bounds: *mut u8,
        bounds_size: usize,
    ) -> u64;

    fn ithumeco_rewrite(
        file: *const u8,
        file_size: usize,
        edition: u64,
        copy: *mut u8,
        copy_size: usize,
    ) -> u64;
}

/// The number of an edition.
pub fn number_of(edition: Edition) -> u64 {
    match edition {
        Edition::Avb1 => 1,
        Edition::Avb2 => 2,
    }
}

/// A code is a refusal's number and 256 times its place. Where nothing is refused
/// the number is 0, and in the place stands what the function tells.
fn told(code: u64) -> Result<u64, Refusal> {
    match (code % 256) as u8 {
        0 => Ok(code / 256),
        number => Err(Refusal {
            number,
            place: code / 256,
        }),
    }
}

/// The code of a function that tells nothing more.
fn outcome(code: u64) -> Result<(), Refusal> {
    let more = told(code)?;
    assert_eq!(more, 0, "a code without a refusal");
    Ok(())
}

/// Makes a list of calls on the fresh port of a table file.
pub fn replay(file: &[u8], calls: &[u8], answers: &mut [u8]) -> Result<(), Refusal> {
    // SAFETY: each pointer has its length, and only `answers` is written.
    outcome(unsafe {
        ithumeco_replay(
            file.as_ptr(),
            file.len(),
            calls.as_ptr(),
            calls.len(),
            answers.as_mut_ptr(),
            answers.len(),
        )
    })
}

/// Writes the fresh port of a table file as a record.
pub fn open(file: &[u8], record: &mut [u8]) -> Result<(), Refusal> {
    // SAFETY: each pointer has its length, and only `record` is written.
    outcome(unsafe { ithumeco_open(file.as_ptr(), file.len(), record.as_mut_ptr(), record.len()) })
}

/// Makes one call on a record.
pub fn call(record: &mut [u8], call: &[u8], answer: &mut [u8]) -> Result<(), Refusal> {
    // SAFETY: each pointer has its length, and `call` is not written.
    outcome(unsafe {
        ithumeco_call(
            record.as_mut_ptr(),
            record.len(),
            call.as_ptr(),
            call.len(),
            answer.as_mut_ptr(),
            answer.len(),
        )
    })
}

/// Writes the 32 bounds of a table file.
pub fn bounds(file: &[u8], bounds: &mut [u8]) -> Result<(), Refusal> {
    // SAFETY: each pointer has its length, and only `bounds` is written.
    outcome(unsafe {
        ithumeco_bounds(file.as_ptr(), file.len(), bounds.as_mut_ptr(), bounds.len())
    })
}

/// Reads a table file and writes it again, in the edition that has a number. Tells
/// the length of what is written.
pub fn rewrite(file: &[u8], edition: u64, copy: &mut [u8]) -> Result<u64, Refusal> {
    // SAFETY: each pointer has its length, and only `copy` is written.
    told(unsafe {
        ithumeco_rewrite(
            file.as_ptr(),
            file.len(),
            edition,
            copy.as_mut_ptr(),
            copy.len(),
        )
    })
}
