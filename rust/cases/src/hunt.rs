//! Traffic that makes one row's frame as old as it can become, the other rows in
//! the port from the start or joining while frames wait.

use simulator::port::{LEAST_SIZE, MOST_ADVANCE};
use simulator::table::accept;
use simulator::{Call, Class, Frame, Mark, Table, Wire};

use crate::driver::Driver;

/// What holds a row's frame up, besides its neighbours.
#[derive(Clone, Copy, PartialEq, Eq)]
pub enum Way {
    /// A blocking frame begins one byte-time before the frame's turn.
    Blocked,
    /// The same, and the class's largest frame has just been sent. Its row
    /// cannot be offered to again so soon, so one neighbour fewer waits.
    InDebt,
    /// For B: while the neighbour ahead is sent, a backlog of A builds up.
    BehindItsOwn,
}

impl Way {
    /// The ways in which a frame of a class is held up.
    pub fn of(class: Class) -> &'static [Way] {
        match class {
            Class::A => &[Way::Blocked, Way::InDebt],
            Class::B => &[Way::Blocked, Way::InDebt, Way::BehindItsOwn],
        }
    }
}

/// A hunt for the oldest frame of a row.
#[derive(Clone, Copy)]
pub struct Hunt {
    pub row: usize,
    pub way: Way,
    /// Whether the rows of its class are offered to again as soon as they may
    /// be, until the frame is gone; and how many frames of its own row then go
    /// ahead of it.
    pub again: Option<usize>,
    /// Whether the other rows leave first, but for one of the other class. Each
    /// joins again when it is first offered to.
    pub joins: bool,
}

impl Hunt {
    /// The hunts on an accepted table: each row with each way to hold its frame
    /// up, and where a row may have several frames in the port also with others
    /// of them behind it and ahead of it.
    pub fn all(table: &Table) -> Vec<Hunt> {
        let plan = accept(table).expect("an accepted table");
        let mut hunts = Vec::new();
        for (row, of_table) in table.in_use() {
            let most = plan.most[row] as usize;
            for &way in Way::of(of_table.class) {
                let hunt = |again| Hunt {
                    row,
                    way,
                    again,
                    joins: false,
                };
                hunts.push(hunt(None));
                if most > 1 {
                    hunts.extend([0, most].map(Some).map(hunt));
                }
            }
        }
        hunts
    }

    /// The same with rows that join while frames wait.
    pub fn all_with_joins(table: &Table) -> Vec<Hunt> {
        let hunts = Hunt::all(table).into_iter();
        hunts
            .map(|hunt| Hunt {
                joins: true,
                ..hunt
            })
            .collect()
    }

    /// Offers the frame behind all its neighbours in the same instant, with the
    /// credit of its class as low as it can be.
    pub fn run(self, driver: &mut Driver) {
        quiet(driver);
        let mut field = Field::new(driver);
        if self.joins {
            field.clear(self.row);
        }
        self.run_on(&mut field);
        field.join_all();
    }

    fn run_on(self, field: &mut Field) {
        let class = field.table.rows[self.row].class;
        let mut neighbours = field.of_class(class);
        neighbours.retain(|&other| other != self.row);
        let alone = neighbours.is_empty() && self.again.is_none_or(|ahead| ahead == 0);
        if self.way == Way::InDebt {
            if let Some(largest) = neighbours.pop() {
                field.offer(largest);
                field.driver.make(Call::Advance(MOST_ADVANCE));
                field.driver.until_free();
            }
        }
        if alone {
            field.block(class);
        }
        for other in neighbours {
            field.offer(other);
        }
        field.offer(self.row);
        for _ in 0..self.again.unwrap_or(0) {
            let before = field.driver.port.last[self.row];
            while field.driver.port.last[self.row] == before {
                self.pass(field, MOST_ADVANCE);
            }
        }
        let frame = newest(field.driver, self.row, class);
        if self.way == Way::BehindItsOwn {
            self.until_next(field, frame);
            field.backlog();
        } else if !alone {
            self.until_turn(field, frame, class);
            field.block(class);
        }
        while self.again.is_some() && in_port(field.driver, frame) {
            self.pass(field, MOST_ADVANCE);
        }
        field.driver.drain();
    }

    /// Advances by at most n. Where rows are offered to again, it is no further
    /// than to the next offer to a row of the class, which is made.
    fn pass(self, field: &mut Field, n: u64) {
        let class = field.table.rows[self.row].class;
        let mut rows = match self.again {
            Some(_) => field.of_class(class),
            None => vec![],
        };
        rows.sort_by_key(|&row| row == self.row);
        let waits = rows.iter().map(|&row| field.driver.wait(row));
        let wait = waits.min().unwrap_or(n).max(1);
        field.driver.make(Call::Advance(n.min(wait)));
        for row in rows {
            if field.driver.wait(row) == 0 {
                field.offer(row);
            }
        }
    }

    /// Advances to the last byte-time before a frame may go out.
    fn until_turn(self, field: &mut Field, frame: Frame, class: Class) {
        while in_port(field.driver, frame) {
            let port = &field.driver.port;
            let (queue, credit) = match class {
                Class::A => (&port.queue_a, port.credit_a),
                Class::B => (&port.queue_b, port.credit_b),
            };
            let wait = match port.wire {
                Wire::Sending(_, left) => left as i64,
                Wire::Free if queue.front() == Some(&frame) => {
                    (-credit - 1) / port.table.idle(class) as i64
                }
                Wire::Free => i64::MAX,
            };
            if wait <= 0 {
                return;
            }
            self.pass(field, (wait as u64).min(MOST_ADVANCE));
        }
    }

    /// Advances until a frame is the next of class B, and the one ahead of it
    /// has begun.
    fn until_next(self, field: &mut Field, frame: Frame) {
        while in_port(field.driver, frame) {
            let port = &field.driver.port;
            if port.queue_b.front() == Some(&frame) {
                return;
            }
            let wait = match port.wire {
                Wire::Sending(_, left) => left,
                Wire::Free => (-port.credit_b).max(0) as u64 / port.table.idle(Class::B),
            };
            self.pass(field, wait.clamp(1, MOST_ADVANCE));
        }
    }
}

/// A driver, and the table with all its rows: those that have left too.
struct Field<'a> {
    driver: &'a mut Driver,
    table: Table,
}

impl Field<'_> {
    fn new(driver: &mut Driver) -> Field<'_> {
        let table = driver.port.table.clone();
        Field { driver, table }
    }

    /// The rows of a class, the largest last.
    fn of_class(&self, class: Class) -> Vec<usize> {
        let rows = self.table.in_use();
        let of_class = rows.filter(|(_, row)| row.class == class);
        let mut of_class: Vec<usize> = of_class.map(|(number, _)| number).collect();
        of_class.sort_by_key(|&row| self.table.rows[row].size());
        of_class
    }

    /// All rows leave but one and the smallest of the other class.
    fn clear(&mut self, stays: usize) {
        for class in [Class::A, Class::B] {
            let mut rows = self.of_class(class);
            rows.sort_by_key(|&row| row != stays);
            for row in rows.into_iter().skip(1) {
                self.driver.make(Call::Leave(row as u64));
            }
        }
    }

    /// A row that has left joins again.
    fn join(&mut self, row: usize) {
        if self.driver.port.table.row(row).is_none() {
            let joining = self.table.rows[row];
            self.driver.make(Call::Join(row as u64, joining));
        }
    }

    fn join_all(&mut self) {
        for class in [Class::A, Class::B] {
            for row in self.of_class(class) {
                self.join(row);
            }
        }
    }

    /// Offers a row's largest frame.
    fn offer(&mut self, row: usize) {
        self.join(row);
        self.driver.offer(row);
    }

    /// Begins the frame that blocks a class longest: best effort's or, for A,
    /// that of the largest row of B. For B a backlog of A stands behind it.
    fn block(&mut self, class: Class) {
        let longer_b = self.table.largest(Class::B) > self.table.best_size();
        match self.of_class(Class::B).pop() {
            Some(row) if class == Class::A && longer_b => self.offer(row),
            _ => self.driver.offer_best(),
        }
        self.driver.make(Call::Advance(1));
        if class == Class::B {
            self.backlog();
        }
    }

    /// Frames of A that go out one behind the other on the credit that A gains
    /// while the frame on the wire is sent: as many bytes as the credit lasts
    /// for, then the largest frame.
    fn backlog(&mut self) {
        let Wire::Sending(_, left) = self.driver.port.wire else {
            return;
        };
        let mut bytes = self.table.idle(Class::A) * left / self.table.send(Class::A);
        let mut rows = self.of_class(Class::A);
        let largest = rows.pop();
        for row in rows.into_iter().rev() {
            let most = self.table.rows[row];
            let size = most.size().min(bytes);
            if size >= LEAST_SIZE {
                self.join(row);
                let around = if most.tagged { 48 } else { 42 };
                let payload = most.payload.min(size - around);
                self.driver.make(Call::Offer(row as u64, payload));
                bytes -= size;
            }
        }
        if let Some(row) = largest {
            self.offer(row);
        }
    }
}

/// The frame of a row that was offered last.
fn newest(driver: &Driver, row: usize, class: Class) -> Frame {
    let queue = match class {
        Class::A => &driver.port.queue_a,
        Class::B => &driver.port.queue_b,
    };
    let mut of_row = queue
        .iter()
        .rev()
        .filter(|frame| frame.mark == Mark::Row(row));
    *of_row.next().expect("a frame that was offered")
}

/// Whether a frame waits or is on the wire.
fn in_port(driver: &Driver, frame: Frame) -> bool {
    let port = &driver.port;
    let on_wire = matches!(port.wire, Wire::Sending(sent, _) if sent == frame);
    on_wire || port.queue_a.contains(&frame) || port.queue_b.contains(&frame)
}

/// Advances until nothing is in the port, the credits are 0 and every row may
/// be offered to.
fn quiet(driver: &mut Driver) {
    loop {
        let waits = driver.numbers().into_iter().map(|row| driver.wait(row));
        let wait = waits.max().unwrap_or(0);
        if driver.is_settled() && wait == 0 {
            return;
        }
        driver.make(Call::Advance(wait.clamp(1000, MOST_ADVANCE)));
    }
}
