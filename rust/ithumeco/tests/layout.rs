//! The words of calls, answers and records at the places that docs/ENCODING.md
//! gives them.

use cases::specimen;
use cases::tables::{rated, row, tagged};
use ithumeco::{
    call_bytes, put_words, words, Answer, Record, ANSWER_SIZE, CALL_SIZE, RECORD_SIZE, RECORD_WORDS,
};
use simulator::refusal::refuse;
use simulator::{Call, Class, Frame, Mark, Port, Row, Wire};

fn all(bytes: &[u8]) -> Vec<u64> {
    words(bytes).collect()
}

#[test]
fn sizes() {
    assert_eq!((CALL_SIZE, ANSWER_SIZE, RECORD_SIZE), (72, 40, 6144));
}

#[test]
fn calls() {
    let of = |call| all(&call_bytes(call));
    assert_eq!(of(Call::Offer(7, 58)), [0, 7, 58, 0, 0, 0, 0, 0, 0]);
    assert_eq!(of(Call::OfferBest(58)), [1, 58, 0, 0, 0, 0, 0, 0, 0]);
    assert_eq!(of(Call::Advance(58)), [2, 58, 0, 0, 0, 0, 0, 0, 0]);
    assert_eq!(of(Call::Leave(7)), [4, 7, 0, 0, 0, 0, 0, 0, 0]);
    let by_period = row(Class::B, 58, 15_625, 6000);
    let by_rate = rated(Class::A, 58, 44_100, 6);
    for (tag, tag_of) in [(0, (|row| row) as fn(Row) -> Row), (1, tagged)] {
        assert_eq!(
            of(Call::Join(7, tag_of(by_period))),
            [3, 7, 1, tag, 58, 6000, 0, 15_625, 0]
        );
        assert_eq!(
            of(Call::Join(7, tag_of(by_rate))),
            [3, 7, 0, tag, 58, 17_006, 1, 44_100, 6]
        );
        assert_eq!(
            of(Call::Join(7, tag_of(Row::EMPTY))),
            [3, 7, 0, tag, 0, 0, 0, 0, 0]
        );
    }
}

#[test]
fn answers() {
    for (number, place) in [(5, 31), (9, 1), (21, 0)] {
        let answer = Answer::from(refuse(number, place));
        let words = [number.into(), place as u64, 33, 0, 0];
        assert_eq!(all(&answer.bytes()), words);
        assert_eq!(answer.said(), refuse(number, place));
    }
}

/// A port with a frame in each place, numbers 3 and 4 empty and row 5 tagged.
fn busy() -> Port {
    let mut port = Port::fresh(specimen::table());
    let joining = tagged(specimen::FOURTH);
    port.make(Call::Join(5, joining)).expect("a join");
    let mark = Mark::Row(5);
    let frame = |size, instant| Frame {
        mark,
        size,
        instant,
    };
    port.clock = 1000;
    (port.credit_a, port.credit_b) = (-1, 2);
    port.queue_a.push_back(frame(84, 1));
    port.queue_b.push_back(frame(85, 2));
    port.queue_best.push_back(frame(86, 3));
    port.last[5] = Some(4);
    port.wire = Wire::Sending(frame(87, 5), 6);
    port
}

#[test]
fn a_record() {
    let words = all(&Record::from(&busy()).bytes());
    assert_eq!(words[..5], [1_000_006, 250_000, 200_000, 1500, 6]);
    assert_eq!(words[5 + 7..][..7], [0, 0, 258, 6000, 0, 15_625, 0]);
    assert_eq!(words[5 + 7 * 2..][..7], [1, 0, 458, 31_250, 0, 31_250, 0]);
    assert_eq!(words[5 + 7 * 3..5 + 7 * 5], [0; 14]);
    assert_eq!(words[5 + 7 * 5..][..7], [0, 1, 358, 15_625, 0, 15_625, 0]);
    assert_eq!(words[229..232], [1000, u64::MAX, 2]);
    assert_eq!(words[232..236], [1, 5, 84, 1]);
    assert_eq!(words[425..429], [1, 5, 85, 2]);
    assert_eq!(words[618..622], [1, 5, 86, 3]);
    assert_eq!(words[667 + 2 * 5..][..2], [1, 4]);
    assert_eq!(words[731..738], [5672, 5072, 4950, 0, 0, 4754, 0]);
    assert_eq!(words[763..], [1, 5, 87, 5, 6]);
}

/// The words that belong to no part keep what they hold.
#[test]
fn a_record_over_junk() {
    const JUNK: u64 = u64::MAX / 3;
    let mut bytes = [0; RECORD_SIZE];
    put_words(&[JUNK; RECORD_WORDS], &mut bytes);
    let mut record = Record::from_bytes(&bytes);
    record.store(&busy());
    let kept = all(&record.bytes());
    let clean = all(&Record::from(&busy()).bytes());
    let is_kept = |word: &usize| kept[*word] == JUNK;
    assert!((0..RECORD_WORDS).all(|word| is_kept(&word) || kept[word] == clean[word]));
    let of = |from, to| (from..to).filter(is_kept).count();
    // Of rows 0 to 5 the samples, and all of the others.
    assert_eq!(of(5, 229), 6 + 7 * 26);
    assert_eq!(of(232, 667), 3 * (63 + 63 + 15));
    // Of rows 0 to 2, without a last instant, the instant; both words of 3 and 4.
    assert_eq!(of(667, 731), 3 + 2 * 2 + 2 * 26);
    assert_eq!(of(731, 763), 26);
    assert_eq!(of(0, 5) + of(229, 232) + of(763, 768), 0);
}
