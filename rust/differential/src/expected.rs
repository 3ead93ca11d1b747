//! What the library's five calls must return and leave in their buffers, by
//! the simulator.

use ithumeco::{
    number_of, put_words, words, Answer, Record, RowWords, ANSWER_SIZE, BOUNDS_SIZE, CALL_SIZE,
    RECORD_SIZE,
};
use simulator::refusal::refuse;
use simulator::{opened, Call, Edition, Port, Refusal};

use crate::readable::{joining_of, port_of};

pub type Outcome = Result<(), Refusal>;

/// 103, a buffer with too little room.
fn room(buffer: &[u8], size: usize) -> Outcome {
    if buffer.len() < size {
        return refuse(103, 0);
    }
    Ok(())
}

pub fn rewrite(file: &[u8], edition: u64, copy: &mut [u8]) -> Result<u64, Refusal> {
    // 104, a number of no edition.
    let mut editions = Edition::ALL.into_iter();
    let Some(edition) = editions.find(|&one| number_of(one) == edition) else {
        return refuse(104, 0);
    };
    let (_, table) = simulator::read(file)?;
    let size = simulator::write(edition, &table, copy)?;
    Ok(size as u64)
}

pub fn bounds(file: &[u8], out: &mut [u8]) -> Outcome {
    room(out, BOUNDS_SIZE)?;
    let (_, table) = simulator::read(file)?;
    put_words(&simulator::bounds(&table)?, out);
    Ok(())
}

pub fn open(file: &[u8], record: &mut [u8]) -> Outcome {
    room(record, RECORD_SIZE)?;
    let port = Port::fresh(opened(file)?);
    record[..RECORD_SIZE].copy_from_slice(&Record::from(&port).bytes());
    Ok(())
}

pub fn replay(file: &[u8], calls: &[u8], answers: &mut [u8]) -> Outcome {
    let calls = calls.chunks_exact(CALL_SIZE);
    if !calls.remainder().is_empty() {
        return refuse(101, 0);
    }
    let calls: Vec<Option<Call>> = calls.map(call_of).collect();
    if let Some(place) = calls.iter().position(Option::is_none) {
        return refuse(102, place);
    }
    room(answers, calls.len() * ANSWER_SIZE)?;
    let mut port = Port::fresh(opened(file)?);
    for (call, place) in calls.iter().flatten().zip(answers.chunks_mut(ANSWER_SIZE)) {
        place.copy_from_slice(&Answer::from(port.make(*call)).bytes());
    }
    Ok(())
}

pub fn call(saved: &mut [u8], call: &[u8], out: &mut [u8]) -> Outcome {
    let Some(call) = call_of(call) else {
        return refuse(102, 0);
    };
    room(out, ANSWER_SIZE)?;
    let said = answer_on(saved, call);
    out[..ANSWER_SIZE].copy_from_slice(&said.bytes());
    Ok(())
}

/// One call on bytes that may be a record.
fn answer_on(saved: &mut [u8], call: Call) -> Answer {
    let broken = Answer::refused(18, 0);
    let Some(saved) = saved.first_chunk_mut::<RECORD_SIZE>() else {
        return broken;
    };
    let mut record = Record::from_bytes(saved);
    let Some(mut port) = port_of(&record) else {
        return broken;
    };
    let said = Answer::from(port.make(call));
    if said.number == 0 {
        record.store(&port);
        *saved = record.bytes();
    }
    said
}

/// The call that bytes name: the words that it does not use are 0.
pub fn call_of(bytes: &[u8]) -> Option<Call> {
    let words: Vec<u64> = words(bytes).collect();
    match words[..] {
        _ if bytes.len() != CALL_SIZE => None,
        [0, row, payload, 0, 0, 0, 0, 0, 0] => Some(Call::Offer(row, payload)),
        [1, payload, 0, 0, 0, 0, 0, 0, 0] => Some(Call::OfferBest(payload)),
        [2, n, 0, 0, 0, 0, 0, 0, 0] => Some(Call::Advance(n)),
        [3, number, ref row @ ..] => {
            let row = joining_of(&RowWords::of(row.try_into().ok()?));
            Some(Call::Join(number, row?))
        }
        [4, number, 0, 0, 0, 0, 0, 0, 0] => Some(Call::Leave(number)),
        _ => None,
    }
}
