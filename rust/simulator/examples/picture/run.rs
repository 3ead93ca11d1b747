//! The run: the last row's frame is taken behind one of every other row, and
//! one byte-time before its turn a best-effort frame begins.

use simulator::table::{Figures, GAP};
use simulator::{bounds, read, Class, Mark, Port, Refusal, Wire};

/// A frame that was sent: the clock when it was taken, when its first byte
/// went out, when it was reported ended and when its gap was over.
pub struct Sent {
    pub mark: Mark,
    pub taken: u64,
    pub begun: u64,
    pub reported: u64,
    pub over: u64,
}

pub struct Run {
    pub figures: Figures,
    /// The last row and its bound.
    pub row: usize,
    pub bound: u64,
    pub sent: Vec<Sent>,
    /// The credit of class A at each clock from 0 to the bound.
    pub credit: Vec<i64>,
}

impl Run {
    /// The run of a table file of class A alone.
    pub fn of(file: &[u8]) -> Result<Run, Refusal> {
        let (_, table) = read(file)?;
        let row = table.rows.len() - 1;
        let mut run = Run {
            figures: table.figures(Class::A),
            row,
            bound: bounds(&table)?[row],
            sent: vec![],
            credit: vec![0],
        };
        let mut port = Port::fresh(table.clone());
        for (place, row) in (0..).zip(&table.rows) {
            port.offer(place, row.payload)?;
        }
        let idle = run.figures.idle as i64;
        while port.queue_a.len() > 1 || port.wire != Wire::Free || port.credit_a + idle < 0 {
            run.byte_time(&mut port)?;
        }
        port.offer_best(table.best_payload)?;
        while port.clock < run.bound {
            run.byte_time(&mut port)?;
        }
        Ok(run)
    }

    fn byte_time(&mut self, port: &mut Port) -> Result<(), Refusal> {
        let ended = port.advance(1)?.ended;
        self.sent.extend(ended.map(|frame| Sent {
            mark: frame.mark,
            taken: frame.instant,
            begun: port.clock + GAP - frame.size,
            reported: port.clock,
            over: port.clock + GAP,
        }));
        self.credit.push(port.credit_a);
        Ok(())
    }

    /// The last row's frame.
    pub fn own(&self) -> &Sent {
        &self.sent[self.sent.len() - 1]
    }

    /// The best-effort frame.
    pub fn best(&self) -> &Sent {
        &self.sent[self.sent.len() - 2]
    }

    /// Byte-times from the end of a row's gap to the next row's frame.
    pub fn pause(&self) -> u64 {
        self.sent[1].begun - self.sent[0].over
    }
}
