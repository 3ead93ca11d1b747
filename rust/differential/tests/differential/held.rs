//! A record held to the simulator's port, call by call.

use cases::random::Random;
use differential::readable::port_of;
use ithumeco::{call_bytes, put_words, Answer, Record, RECORD_SIZE, RECORD_WORDS};
use simulator::{Advance, Call, Port, Refusal};

use crate::bench::Bench;

/// A port's record over random words, at times such as fields can hold.
pub fn over_junk(random: &mut Random, port: &Port) -> [u8; RECORD_SIZE] {
    let shift = random.pick(&[0, 32, 48, 63]);
    let words: [u64; RECORD_WORDS] = std::array::from_fn(|_| random.word() >> shift);
    let mut bytes = [0; RECORD_SIZE];
    put_words(&words, &mut bytes);
    let mut record = Record::from_bytes(&bytes);
    record.store(port);
    record.bytes()
}

/// A record, and the port that the simulator leads through the same calls.
pub struct Held {
    pub record: Vec<u8>,
    pub port: Port,
}

impl Held {
    /// Makes a call on both, with so many bytes of room for the answer: the port
    /// gives the answer, and the record names the port behind it.
    pub fn make(&mut self, bench: &mut Bench, call: Call, room: usize) -> Result<Advance, Refusal> {
        let said = bench.call(&mut self.record, &call_bytes(call), room);
        let answer = self.port.make(call);
        assert_eq!(said, Some(Answer::from(answer)));
        let bytes = self.record.first_chunk().expect("a record");
        let named = port_of(&Record::from_bytes(bytes));
        assert!(named.as_ref() == Some(&self.port), "the port's record");
        answer
    }
}
