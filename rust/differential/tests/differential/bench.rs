//! Runs the library and the simulator on equal buffers, holds one to the other
//! and counts.

use std::fmt::{self, Debug};

use cases::driver::{row_about, Driver};
use cases::files::file_in_any;
use cases::random::Random;
use cases::watch::{Reported, Watch};
use differential::expected::{self, call_of, Outcome};
use differential::guarded::Guarded;
use differential::readable::{left_of, row_in, rows_in};
use ithumeco::{list_bytes, words, Answer, RowWords, BOUNDS_SIZE, CALL_SIZE};
use simulator::{Advance, Call, Refusal, Table};

use crate::editions::{Editions, Handed};
use crate::kinds::{Kinds, Step, Way};
use crate::tally::Counts;

/// What a list showed that the simulator and the library have played.
pub struct Played {
    /// The rows' frames that were reported ended.
    pub reported: Vec<Reported>,
    /// The most frames that each row, and each class, had in the port.
    pub most: Vec<usize>,
    pub most_in_class: [usize; 2],
}

pub struct Bench {
    factor: usize,
    random: Random,
    pub cases: u64,
    pub numbers: Counts,
    /// The joins and the leaves that were taken.
    pub patches: [u64; 2],
    pub kinds: Kinds,
    pub editions: Editions,
}

impl Bench {
    pub fn new(factor: usize) -> Bench {
        Bench {
            factor,
            random: Random::new(0),
            cases: 0,
            numbers: [0; 256],
            patches: [0; 2],
            kinds: Kinds::default(),
            editions: Editions::default(),
        }
    }

    /// How many cases to run, where a short run has `count`.
    pub fn times(&self, count: usize) -> usize {
        count * self.factor
    }

    /// A table's file, in an edition that can have it.
    pub fn file(&mut self, table: &Table) -> Vec<u8> {
        file_in_any(&mut self.random, table)
    }

    /// A guarded copy of some bytes, at any alignment.
    fn lend(&mut self, content: &[u8]) -> Guarded {
        Guarded::new(content, self.random.below(8))
    }

    /// A guarded buffer of random bytes.
    fn buffer(&mut self, room: usize) -> Guarded {
        let bytes = self.random.bytes(room);
        self.lend(&bytes)
    }

    /// Counts a number that the product has said, 0 where it did not refuse.
    pub fn saw(&mut self, number: usize) {
        self.numbers[number] += 1;
    }

    /// Counts the number that a call was answered with, and a join or a leave that
    /// was taken.
    fn saw_answer(&mut self, call: Call, said: Result<Advance, Refusal>) {
        self.saw(said.map_or_else(|refusal| refusal.number.into(), |_| 0));
        let taken = u64::from(said.is_ok());
        match call {
            Call::Join(..) => self.patches[0] += taken,
            Call::Leave(_) => self.patches[1] += taken,
            _ => (),
        }
    }

    fn count(&mut self, outcome: Outcome) {
        self.cases += 1;
        self.saw(outcome.map_or_else(|refusal| refusal.number.into(), |()| 0));
    }

    /// A file written again in the edition that is told.
    pub fn rewrite(&mut self, file: &[u8], edition: u64, room: usize) {
        let outcome = self.fill(
            format_args!("rewrite as {edition}"),
            |file, copy| ithumeco::rewrite(file, edition, copy),
            |file, copy| expected::rewrite(file, edition, copy),
            file,
            room,
        );
        let told = Some((edition, room));
        let outcome = outcome.map(|_| ());
        self.editions.see(&Handed::new(file, told, outcome));
    }

    pub fn bounds(&mut self, file: &[u8], room: usize) {
        let name = format_args!("bounds");
        let outcome = self.fill(name, ithumeco::bounds, expected::bounds, file, room);
        self.editions.see(&Handed::new(file, None, outcome));
    }

    pub fn open(&mut self, file: &[u8], room: usize) -> Outcome {
        let name = format_args!("open");
        let outcome = self.fill(name, ithumeco::open, expected::open, file, room);
        self.editions.see(&Handed::new(file, None, outcome));
        outcome
    }

    /// A call of the library that fills a buffer from a table file, and may tell
    /// something of it.
    fn fill<T: Copy + Debug + PartialEq>(
        &mut self,
        name: fmt::Arguments,
        library: impl Fn(&[u8], &mut [u8]) -> Result<T, Refusal>,
        simulator: impl Fn(&[u8], &mut [u8]) -> Result<T, Refusal>,
        file: &[u8],
        room: usize,
    ) -> Result<T, Refusal> {
        let given = self.lend(file);
        let mut out = self.buffer(room);
        let mut meant = out.get().to_vec();
        let outcome = library(given.get(), out.get_mut());
        let context = || format!("{name}, room {room}, file {file:02X?}");
        hold_outcome(outcome, simulator(file, &mut meant), &context);
        hold("buffer", &out, &meant, &context);
        hold("file", &given, file, &context);
        self.count(outcome.map(|_| ()));
        outcome
    }

    /// A list against what the simulator makes of it.
    pub fn replay(&mut self, file: &[u8], calls: &[u8], room: usize) {
        let before = self.random.bytes(room);
        let mut meant = before.clone();
        let outcome = expected::replay(file, calls, &mut meant);
        self.list(file, calls, &before, outcome, &meant);
    }

    /// A list that the simulator has played, with some bytes of room more than
    /// the answers need. The library's answers are held to the simulator's, and
    /// to demand 3 by the library's bounds.
    pub fn replay_played(&mut self, driver: &Driver, more: usize) -> Played {
        let table = &driver.opened;
        let file = self.file(table);
        let calls = list_bytes(&driver.calls);
        let answers = driver.answers.iter().copied().map(Answer::from);
        let mut meant: Vec<u8> = answers.flat_map(Answer::bytes).collect();
        let written = meant.len();
        let before = self.random.bytes(written + more);
        meant.extend(&before[written..]);
        let answers = self.list(&file, &calls, &before, Ok(()), &meant);
        self.kinds.see_list(Way::InAList, driver);

        let bounds = bounds_of(&file);
        let mut watch = Watch::new(table, &bounds);
        let said = Answer::list(&answers.get()[..written]).map(Answer::said);
        let steps = driver.calls.iter().copied().zip(said);
        let seen = watch.see_all(steps.inspect(|&(call, said)| self.saw_answer(call, said)));
        assert!(seen.is_ok(), "{seen:?}, file {file:02X?}");
        let (reported, most) = (watch.reported, watch.most);
        let most_in_class = watch.most_in_class;
        Played {
            reported,
            most,
            most_in_class,
        }
    }

    fn list(
        &mut self,
        file: &[u8],
        calls: &[u8],
        before: &[u8],
        meant_outcome: Outcome,
        meant: &[u8],
    ) -> Guarded {
        let given_file = self.lend(file);
        let given_calls = self.lend(calls);
        let mut answers = self.lend(before);
        let outcome = ithumeco::replay(given_file.get(), given_calls.get(), answers.get_mut());
        let context = || {
            let (size, room) = (calls.len(), before.len());
            let wrong = first_wrong(calls, answers.get(), meant);
            format!("replay, calls of {size} bytes, room {room}, file {file:02X?}{wrong}")
        };
        hold_outcome(outcome, meant_outcome, &context);
        hold("answers", &answers, meant, &context);
        hold("file", &given_file, file, &context);
        hold("calls", &given_calls, calls, &context);
        self.count(outcome);
        answers
    }

    /// One call on a record's bytes, which are then those that it leaves. Gives
    /// the answer if the call was made.
    pub fn call(&mut self, record: &mut [u8], call: &[u8], room: usize) -> Option<Answer> {
        let ahead = left_of(record);
        let mut saved = self.lend(record);
        let given = self.lend(call);
        let mut out = self.buffer(room);
        let mut meant_record = record.to_vec();
        let mut meant = out.get().to_vec();
        let outcome = ithumeco::call(saved.get_mut(), given.get(), out.get_mut());
        let meant_outcome = expected::call(&mut meant_record, call, &mut meant);
        let context = || {
            let words = shown(record);
            format!("call {call:02X?}, room {room}, record with {words}")
        };
        hold_outcome(outcome, meant_outcome, &context);
        hold("answer", &out, &meant, &context);
        hold("record", &saved, &meant_record, &context);
        hold("call", &given, call, &context);
        self.count(outcome);
        record.copy_from_slice(saved.get());
        outcome.ok()?;
        let answer = Answer::list(out.get()).next()?;
        let (made, said) = (call_of(call)?, answer.said());
        let step = Step {
            ahead,
            call: made,
            said,
            behind: left_of(record),
            row: row_about(made, said, |number| row_in(record, number)),
            wrong_tag: rows_in(record).any(|row| row.tagged > 1),
            tag_alone: rows_in(record).any(|row| is_tag_alone(&row)),
        };
        self.saw_answer(step.call, step.said);
        self.kinds.see(Way::OnBytes, step);
        Some(answer)
    }
}

/// Whether a row's words are those of an empty number but for its tag.
fn is_tag_alone(row: &RowWords) -> bool {
    let alone = RowWords {
        tagged: 1,
        samples: row.samples,
        ..RowWords::default()
    };
    *row == alone
}

/// A file's bounds by the library.
fn bounds_of(file: &[u8]) -> Vec<u64> {
    let mut bounds = [0; BOUNDS_SIZE];
    assert_eq!(ithumeco::bounds(file, &mut bounds), Ok(()));
    words(&bounds).collect()
}

fn hold_outcome<T: Debug + PartialEq>(
    said: Result<T, Refusal>,
    meant: Result<T, Refusal>,
    context: &dyn Fn() -> String,
) {
    assert!(said == meant, "{said:?}, not {meant:?}: {}", context());
}

/// The first wrong answer of a list.
fn first_wrong(calls: &[u8], said: &[u8], meant: &[u8]) -> String {
    let mut both = Answer::list(said).zip(Answer::list(meant));
    let mut calls = calls.chunks(CALL_SIZE).map(call_of).enumerate();
    let wrong = calls.find_map(|(number, call)| {
        let (said, meant) = both.next()?;
        (said != meant).then(|| format!(", call {number}, {call:?}: {said:?}, not {meant:?}"))
    });
    wrong.unwrap_or_default()
}

/// A record's length and its words other than 0.
fn shown(record: &[u8]) -> String {
    let mut text = format!("{} bytes", record.len());
    for (place, word) in words(record).enumerate().filter(|(_, word)| *word != 0) {
        text += &format!(", {word} at {place}");
    }
    text
}

/// Holds a buffer and its guards to the bytes that it must have.
fn hold(name: &str, buffer: &Guarded, meant: &[u8], context: &dyn Fn() -> String) {
    let said = buffer.get();
    if said != meant {
        let at = (0..meant.len()).find(|&at| said[at] != meant[at]);
        let at = at.expect("buffers of one length");
        let (found, right) = (said[at], meant[at]);
        panic!(
            "byte {at} of the {name} is {found}, not {right}: {}",
            context()
        );
    }
    assert!(buffer.stands(), "a write outside the {name}: {}", context());
}
