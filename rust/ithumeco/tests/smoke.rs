//! Document 01's facts (d), (e) and (g) on the specimen port, through the
//! static library, a row that comes and goes, and tagged rows in files of both
//! editions. The numbers of the facts are the documents', with C-13's for (d) and
//! (e).

use cases::specimen::{FILE, FOURTH};
use cases::tables::tagged;
use cases::tags;
use ithumeco::{
    bounds, call, call_bytes, list_bytes, open, replay, rewrite, words, Answer, Record,
    ANSWER_SIZE, BOUNDS_SIZE, RECORD_SIZE,
};
use simulator::refusal::refuse;
use simulator::{Call, Row};

/// The answer to an advance in which a frame was reported ended.
fn ended(passed: u64, source: u64, size: u64, taken: u64) -> Answer {
    Answer {
        number: 0,
        passed_or_place: passed,
        source,
        size,
        taken,
    }
}

/// Makes the calls as a list and one by one, holds the answers of both to the
/// document's, and gives the record that the calls lead to.
fn record_after(steps: &[(Call, Answer)]) -> Record {
    record_of(&FILE, steps)
}

/// The same on another file's port.
fn record_of(file: &[u8], steps: &[(Call, Answer)]) -> Record {
    let (calls, expected): (Vec<Call>, Vec<Answer>) = steps.iter().copied().unzip();
    let mut answers = vec![0; ANSWER_SIZE * steps.len()];
    assert_eq!(replay(file, &list_bytes(&calls), &mut answers), Ok(()));
    assert_eq!(Answer::list(&answers).collect::<Vec<_>>(), expected);

    let mut record = [0; RECORD_SIZE];
    assert_eq!(open(file, &mut record), Ok(()));
    for (made, expected) in steps {
        let mut answer = [0; ANSWER_SIZE];
        assert_eq!(call(&mut record, &call_bytes(*made), &mut answer), Ok(()));
        assert_eq!(Answer::from_bytes(&answer), *expected, "{made:?}");
    }
    Record::from_bytes(&record)
}

fn credit_a_after(steps: &[(Call, Answer)]) -> i64 {
    record_after(steps).credit_a as i64
}

#[test]
fn fact_d() {
    let credit = credit_a_after(&[
        (Call::OfferBest(1500), Answer::TAKEN),
        (Call::Advance(1), Answer::passed(1)),
        (Call::Offer(0, 58), Answer::TAKEN),
        (Call::Advance(5000), ended(1529, 32, 1542, 0)),
        (Call::Advance(5000), ended(100, 0, 100, 1)),
        (Call::Advance(12), Answer::passed(12)),
    ]);
    assert_eq!(credit, 0);
}

#[test]
fn fact_e() {
    let first = [
        (Call::Offer(0, 58), Answer::TAKEN),
        (Call::Advance(5000), ended(88, 0, 100, 0)),
        (Call::Advance(12), Answer::passed(12)),
    ];
    assert_eq!(credit_a_after(&first), -75_000_000);
    let then = [
        (Call::Offer(1, 258), Answer::TAKEN),
        (Call::Advance(1000), ended(588, 1, 300, 100)),
    ];
    credit_a_after(&[&first[..], &then].concat());
}

#[test]
fn fact_g() {
    credit_a_after(&[
        (Call::Offer(0, 58), Answer::TAKEN),
        (Call::Advance(15_624), ended(88, 0, 100, 0)),
        (Call::Advance(15_536), Answer::passed(15_536)),
        (Call::Offer(0, 58), Answer::refused(13, 0)),
        (Call::Advance(1), Answer::passed(1)),
        (Call::Offer(0, 58), Answer::TAKEN),
    ]);
}

/// A row of 400 bytes joins the specimen's at number 5, and the bounds of A and of
/// B rise. Its frame costs 0.75 of credit a byte, and a byte-time gives 0.25 back:
/// it may leave 1,200 byte-times behind the frame, at 1,600. The count falls to 3.
#[test]
fn a_row_comes_and_goes() {
    let (join, leave) = (Call::Join(5, FOURTH), Call::Leave(5));
    let joined = [
        (Call::Join(2, FOURTH), Answer::refused(22, 0)),
        (Call::Join(5, Row::EMPTY), Answer::refused(5, 5)),
        (join, Answer::TAKEN),
        (Call::Offer(4, 0), Answer::refused(11, 0)),
        (Call::Offer(5, 358), Answer::TAKEN),
        (leave, Answer::refused(21, 0)),
    ];
    let record = record_after(&joined);
    assert_eq!(record.count, 6);
    assert_eq!(record.bounds[..7], [5630, 5030, 4944, 0, 0, 4730, 0]);
    let left = [
        (Call::Advance(5000), ended(388, 5, 400, 0)),
        (Call::Advance(12 + 1199), Answer::passed(1211)),
        (leave, Answer::refused(21, 0)),
        (Call::Advance(1), Answer::passed(1)),
        (leave, Answer::TAKEN),
        (Call::Offer(5, 358), Answer::refused(11, 0)),
        (Call::Leave(2), Answer::refused(8, 0)),
    ];
    let left = [&joined[..], &left].concat();
    let record = record_after(&left);
    assert_eq!(record.count, 3);
    assert_eq!(record.bounds[..3], [3730, 3130, 4844]);
    // The number is used again, and its row may be offered to at once.
    let again = [
        (join, Answer::TAKEN),
        (Call::Offer(5, 358), Answer::TAKEN),
        (Call::Offer(5, 358), Answer::refused(13, 0)),
        (Call::Advance(5000), ended(388, 5, 400, 1600)),
    ];
    record_after(&[&left[..], &again].concat());
}

/// Rows 0, 2 and 3 of the table are tagged: 58 bytes of payload are 106 on the
/// wire, and best effort has no tag. The bounds are worked out in the simulator's
/// tests.
#[test]
fn tagged_rows() {
    let mut of_rows = [0; BOUNDS_SIZE];
    assert_eq!(bounds(&tags::FILE, &mut of_rows), Ok(()));
    let of_rows: Vec<u64> = words(&of_rows).take(5).collect();
    assert_eq!(of_rows, [3736, 3154, 5294, 6982, 0]);
    let record = record_of(
        &tags::FILE,
        &[
            (Call::Offer(0, 58), Answer::TAKEN),
            (Call::Advance(5000), ended(94, 0, 106, 0)),
            (Call::Advance(12), Answer::passed(12)),
            (Call::Offer(1, 258), Answer::TAKEN),
            (Call::Advance(1000), ended(318 + 288, 1, 300, 106)),
            (Call::Advance(12), Answer::passed(12)),
            (Call::Offer(2, 37), Answer::TAKEN),
            (Call::Advance(1000), ended(73, 2, 85, 724)),
            (Call::OfferBest(1500), Answer::TAKEN),
            (Call::Advance(5000), ended(1542, 32, 1542, 797)),
        ],
    );
    let tags: Vec<u64> = record.rows.iter().map(|row| row.tagged).take(5).collect();
    assert_eq!(tags, [1, 0, 1, 1, 0]);
    // A tagged row joins the specimen's.
    let record = record_after(&[
        (Call::Join(3, tagged(Row::EMPTY)), Answer::refused(5, 3)),
        (Call::Join(3, tagged(FOURTH)), Answer::TAKEN),
        (Call::Offer(3, 358), Answer::TAKEN),
        (Call::Advance(5000), ended(394, 3, 406, 0)),
    ]);
    assert_eq!(record.bounds[..4], [5672, 5072, 4950, 4754]);
    assert_eq!(record.rows[3].tagged, 1);
}

/// The edition that a copy is written in is told; 104, reading, 23 and 17 refuse
/// it in this order, and no byte is written then.
#[test]
fn files_of_both_editions() {
    let rewritten = |file: &[u8], edition, room: usize| {
        let mut copy = vec![0xEE; room];
        let said = rewrite(file, edition, &mut copy);
        assert!(said.is_ok() || copy.iter().all(|&byte| byte == 0xEE));
        said.map(|size| copy[..size as usize].to_vec())
    };
    // Row 1 of the tagged rows alone, which has no tag and states its deadline, and
    // the slope of A alone.
    let file = tags::FILE;
    let mut as_avb1 = [&file[..15], &file[22..29]].concat();
    as_avb1[3] = b'1';
    as_avb1[8..12].fill(0);
    as_avb1[14] = 1;
    let mut as_avb2 = as_avb1.clone();
    as_avb2[3] = b'2';
    for file in [&as_avb1, &as_avb2] {
        assert_eq!(rewritten(file, 1, 22), Ok(as_avb1.clone()));
        assert_eq!(rewritten(file, 1, 30), Ok(as_avb1.clone()));
        assert_eq!(rewritten(file, 2, 22), Ok(as_avb2.clone()));
        assert_eq!(rewritten(file, 2, 21), refuse(17, 0));
    }
    assert_eq!(rewritten(&file, 2, 46), Ok(file.to_vec()));
    assert_eq!(rewritten(&file, 2, 45), refuse(17, 0));
    assert_eq!(rewritten(&file, 1, 46), refuse(23, 0));
    assert_eq!(rewritten(&file, 1, 0), refuse(23, 0));
    let mut later = file;
    later[15] ^= 0x10;
    assert_eq!(rewritten(&later, 1, 46), refuse(23, 2));
    assert_eq!(rewritten(&file[..45], 1, 46), refuse(1, 45));
    let mut as_avb1 = file;
    as_avb1[3] = b'1';
    assert_eq!(rewritten(&as_avb1, 1, 46), refuse(4, 15));
    for edition in [0, 3, 255, 1 << 32 | 1, u64::MAX] {
        for file in [&FILE[..], &file, &file[..3], &[]] {
            assert_eq!(rewritten(file, edition, 46), refuse(104, 0));
            assert_eq!(rewritten(file, edition, 0), refuse(104, 0));
        }
    }
}
