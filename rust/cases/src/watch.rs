//! Holds a list with its answers to demand 3 and to the rules of refusals, by
//! the list alone: no port is asked.

use std::collections::VecDeque;

use simulator::port::{LAST_CLOCK, MOST_ADVANCE, MOST_BEST};
use simulator::refusal::refuse;
use simulator::table::{accept, check_slopes, GAP, MOST_IN_CLASS, MOST_ROWS};
use simulator::{wire_size, Advance, Call, Class, Frame, Mark, Refusal, Row, Table, TAKEN};

type Answer = Result<Advance, Refusal>;

/// What a watch has to say: nothing, or what is wrong.
pub type Seen = Result<(), String>;

pub struct Watch {
    /// The table and its bounds, after the joins and leaves that were taken.
    table: Table,
    bounds: Vec<u64>,
    /// The sum of the counts passed.
    pub clock: u64,
    /// Each row's last taken instant.
    last: Vec<Option<u64>>,
    /// Each row's frames that are taken and not reported, the first taken first.
    waiting: Vec<VecDeque<Taken>>,
    /// The same of best effort.
    waiting_best: VecDeque<Frame>,
    /// The frame reported last, and the clock at which its gap is over.
    sent: Option<(Frame, u64)>,
    /// The clock at which the credits that the reported frames have cost are
    /// back at the latest.
    paid: u64,
    /// The rows' frames that were reported.
    pub reported: Vec<Reported>,
    /// The most frames that each number, and the rows of A and of B, had in the
    /// port at once.
    pub most: Vec<usize>,
    pub most_in_class: [usize; 2],
}

/// A row's frame that is taken and not reported.
#[derive(Clone, Copy)]
struct Taken {
    frame: Frame,
    /// Its row's bound when it was taken.
    bound: u64,
    /// The largest bound that its row has had since.
    limit: u64,
}

/// A row's frame that was reported.
#[derive(Clone, Copy, Debug, PartialEq, Eq)]
pub struct Reported {
    pub row: usize,
    pub class: Class,
    pub tagged: bool,
    /// The byte-times from its offer to its report.
    pub age: u64,
    /// Its row's bound when it was taken, and the largest from then on.
    pub bound: u64,
    pub limit: u64,
    /// How many frames of its row were in the port, this one among them.
    pub together: usize,
}

fn hold(right: bool, wrong: impl FnOnce() -> String) -> Seen {
    if right {
        return Ok(());
    }
    Err(wrong())
}

fn same(answer: Answer, meant: Answer) -> Seen {
    hold(answer == meant, || format!("{answer:?}, not {meant:?}"))
}

impl Watch {
    /// A watch over a list on the port of a table that opening has accepted with
    /// these bounds. Those after a join or a leave it works out itself.
    pub fn new(table: &Table, bounds: &[u64]) -> Watch {
        Watch {
            table: table.clone(),
            bounds: bounds.to_vec(),
            clock: 0,
            last: vec![None; MOST_ROWS],
            waiting: vec![VecDeque::new(); MOST_ROWS],
            waiting_best: VecDeque::new(),
            sent: None,
            paid: 0,
            reported: Vec::new(),
            most: vec![0; MOST_ROWS],
            most_in_class: [0; 2],
        }
    }

    /// A list with its answers, from the fresh port on.
    pub fn see_all(&mut self, steps: impl Iterator<Item = (Call, Answer)>) -> Seen {
        for (place, (call, answer)) in steps.enumerate() {
            self.see(call, answer)
                .map_err(|wrong| format!("call {place}, `{call}`: {wrong}"))?;
        }
        Ok(())
    }

    fn see(&mut self, call: Call, answer: Answer) -> Seen {
        match call {
            Call::Offer(row, payload) => self.see_offer(row as usize, payload, answer),
            Call::OfferBest(payload) => self.see_offer_best(payload, answer),
            Call::Advance(n) => self.see_advance(n, answer),
            Call::Join(number, row) => self.see_join(number as usize, row, answer),
            Call::Leave(number) => self.see_leave(number as usize, answer),
        }
    }

    /// A frame that is taken now, its size worked out from the payload and, with
    /// its tag or without, from the row that has the number.
    fn frame(&self, mark: Mark, payload: u64) -> Frame {
        let size = match mark {
            Mark::Row(row) => self.table.rows[row].size_of(payload),
            Mark::BestEffort => wire_size(payload),
        };
        Frame {
            mark,
            size,
            instant: self.clock,
        }
    }

    /// 11, 12 and 13 judged by their rules: an offer that they let pass is
    /// taken.
    fn judge_offer(&self, place: usize, payload: u64) -> Answer {
        match self.table.row(place) {
            None => refuse(11, 0),
            Some(row) if payload > row.payload => refuse(12, 0),
            Some(row) => match self.last[place] {
                Some(last) if self.clock - last < row.period() => refuse(13, 0),
                _ => Ok(TAKEN),
            },
        }
    }

    fn see_offer(&mut self, row: usize, payload: u64, answer: Answer) -> Seen {
        same(answer, self.judge_offer(row, payload))?;
        if answer.is_ok() {
            let frame = self.frame(Mark::Row(row), payload);
            let bound = self.bounds[row];
            self.waiting[row].push_back(Taken {
                frame,
                bound,
                limit: bound,
            });
            self.last[row] = Some(self.clock);
            self.see_room(row)?;
        }
        Ok(())
    }

    /// The frame that is reported and whose gap is not over.
    fn in_gap(&self) -> Option<Frame> {
        let (frame, over) = self.sent?;
        (self.clock < over).then_some(frame)
    }

    /// How many frames of a row are in the port: those that are not reported,
    /// and one in its gap.
    fn in_port(&self, row: usize) -> usize {
        let in_gap = self.in_gap().map(|frame| frame.mark);
        self.waiting[row].len() + usize::from(in_gap == Some(Mark::Row(row)))
    }

    /// A row's frames in the port are at most as many as the old figure, 12
    /// more than its bound, divided by its period, rounded up, and those of a
    /// class at most 64.
    fn see_room(&mut self, row: usize) -> Seen {
        let count = self.in_port(row);
        let residence = self.bounds[row] + GAP;
        let most = residence.div_ceil(self.table.rows[row].period());
        hold(count as u64 <= most, || {
            format!("{count} frames of row {row} are in the port")
        })?;
        self.most[row] = self.most[row].max(count);
        let class = self.table.rows[row].class;
        let of_class = self.table.in_use().filter(|(_, row)| row.class == class);
        let count: usize = of_class.map(|(row, _)| self.in_port(row)).sum();
        hold(count as u64 <= MOST_IN_CLASS, || {
            format!("{count} frames of {class:?} are in the port")
        })?;
        let most = &mut self.most_in_class[class as usize];
        *most = count.max(*most);
        Ok(())
    }

    /// Of the frames that are taken and not reported one may be on the wire, but
    /// not while another is in its gap: 16 of them are 15 or 16 that wait.
    fn see_offer_best(&mut self, payload: u64, answer: Answer) -> Seen {
        match self.waiting_best.len() {
            _ if payload > self.table.best_payload => same(answer, refuse(12, 0))?,
            MOST_BEST if answer == Ok(TAKEN) && self.in_gap().is_none() => (),
            more if more >= MOST_BEST => same(answer, refuse(14, 0))?,
            _ => same(answer, Ok(TAKEN))?,
        }
        if answer.is_ok() {
            let frame = self.frame(Mark::BestEffort, payload);
            self.waiting_best.push_back(frame);
        }
        Ok(())
    }

    fn see_advance(&mut self, n: u64, answer: Answer) -> Seen {
        if n > MOST_ADVANCE {
            return same(answer, refuse(15, 0));
        }
        if self.clock + n > LAST_CLOCK {
            return same(answer, refuse(16, 0));
        }
        let Ok(Advance { passed, ended }) = answer else {
            return Err(format!("{answer:?}"));
        };
        let right = match ended {
            None => passed == n,
            Some(_) => (1..=n).contains(&passed),
        };
        hold(right, || format!("{passed} passed"))?;
        self.clock += passed;
        ended.map_or(Ok(()), |frame| self.see_end(frame))?;
        self.none_late()
    }

    /// A reported frame is the first taken of its row or of best effort, by its
    /// mark, wire size and instant, and is not older than its limit. All its
    /// bytes but the gap have passed, and none of them in another's gap.
    fn see_end(&mut self, frame: Frame) -> Seen {
        let (taken, of_row) = match frame.mark {
            Mark::Row(row) => {
                let taken = self.waiting.get_mut(row).and_then(VecDeque::pop_front);
                (taken.map(|taken| taken.frame), Some(row).zip(taken))
            }
            Mark::BestEffort => (self.waiting_best.pop_front(), None),
        };
        hold(taken == Some(frame), || {
            format!("{frame:?} reported, {taken:?} taken")
        })?;
        let free = self.sent.map_or(0, |(_, over)| over);
        let sent = self.clock.saturating_sub(free.max(frame.instant));
        hold(sent >= frame.size - GAP, || {
            format!("{frame:?} reported after {sent} of its bytes")
        })?;
        self.sent = Some((frame, self.clock + GAP));
        of_row.map_or(Ok(()), |(row, taken)| self.see_age(row, taken))
    }

    /// A row's frame is reported no later than the largest bound that its row
    /// has had since it was taken.
    fn see_age(&mut self, row: usize, taken: Taken) -> Seen {
        let Taken {
            frame,
            bound,
            limit,
        } = taken;
        let age = self.clock - frame.instant;
        hold(age <= limit, || {
            format!("row {row}'s frame is reported at {age}, its limit is {limit}")
        })?;
        let Row { class, tagged, .. } = self.table.rows[row];
        let cost = self.table.send(class) * frame.size;
        let back = self.clock + GAP + cost.div_ceil(self.table.idle(class));
        self.paid = self.paid.max(back);
        self.reported.push(Reported {
            row,
            class,
            tagged,
            age,
            bound,
            limit,
            together: self.in_port(row),
        });
        Ok(())
    }

    /// A frame that is not reported is younger than its limit.
    fn none_late(&self) -> Seen {
        let mut waiting = self.waiting.iter().flatten();
        let late = waiting.find(|taken| self.clock - taken.frame.instant >= taken.limit);
        let late = late.map(|taken| taken.frame);
        hold(late.is_none(), || format!("{late:?} is not reported"))
    }

    /// 22, 5, 8, 9, 10 and 20 judged by their rules: a join that they let pass is
    /// taken. Gives the enlarged table.
    fn judge_join(&self, number: usize, row: Row) -> Result<Table, Refusal> {
        if number >= MOST_ROWS || self.table.row(number).is_some() {
            return refuse(22, 0);
        }
        if !row.in_range() {
            return refuse(5, number);
        }
        let enlarged = self.table.with(number, row);
        accept(&enlarged).map(|_| enlarged)
    }

    fn see_join(&mut self, number: usize, row: Row, answer: Answer) -> Seen {
        let judged = self.judge_join(number, row);
        same(answer, judged.clone().map(|_| TAKEN))?;
        if let Ok(enlarged) = judged {
            self.change_table(enlarged);
            self.last[number] = None;
        }
        Ok(())
    }

    /// 11, 21 by the frames in the port, and 8. Gives the table without the row.
    fn judge_leave(&self, number: usize) -> Result<Table, Refusal> {
        if self.table.row(number).is_none() {
            return refuse(11, 0);
        }
        let mut of_rows = self.waiting.iter().flatten();
        if of_rows.next().is_some() || !self.waiting_best.is_empty() || self.in_gap().is_some() {
            return refuse(21, 0);
        }
        let rest = self.table.without(number);
        check_slopes(&rest).map(|()| rest)
    }

    /// A list does not tell the credits: until they must be back, 21 may be the
    /// answer. A row whose leave is taken has no frame that is not reported.
    fn see_leave(&mut self, number: usize, answer: Answer) -> Seen {
        let judged = self.judge_leave(number);
        let may_owe = self.clock < self.paid && judged != refuse(11, 0);
        if may_owe && answer == refuse(21, 0) {
            return Ok(());
        }
        same(answer, judged.clone().map(|_| TAKEN))?;
        if let Ok(rest) = judged {
            self.change_table(rest);
        }
        Ok(())
    }

    /// The table after a join or a leave. The limits of frames rise with their
    /// rows' bounds.
    fn change_table(&mut self, table: Table) {
        let plan = accept(&table).expect("an accepted table");
        self.table = table;
        self.bounds = plan.bounds().to_vec();
        for (frames, &bound) in self.waiting.iter_mut().zip(&self.bounds) {
            for taken in frames {
                taken.limit = taken.limit.max(bound);
            }
        }
    }
}
