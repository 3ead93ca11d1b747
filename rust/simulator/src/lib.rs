//! A byte-time simulator of one gigabit output port with credit-based
//! shaping, its planner, its table files and its two programs.
//!
//! The simulator follows the rules of the full scope one by one, and of the
//! requests that came after it. In the modules each rule stands in quotation
//! marks above the lines that do it, one of a request behind its number.

pub mod call;
pub mod file;
pub mod port;
pub mod programs;
pub mod refusal;
pub mod table;

pub use call::{Call, TAKEN};
pub use file::{file_of, read, write, Edition};
pub use port::{broken, Advance, Frame, Mark, Port, Wire};
pub use programs::{opened, portrun, portsheet};
pub use refusal::Refusal;
pub use table::{bounds, open, tagged_size, wire_size, Class, Pace, Row, Table};
