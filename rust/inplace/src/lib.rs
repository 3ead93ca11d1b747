//! The port of the simulator written for speed: one record of fixed size, its
//! fields as narrow as the library's, that the calls change where it lies.
//!
//! Each call makes every check of the simulator's, anew. Nothing is proved; the
//! tests hold the answers and the ports to the simulator's. The benchmarks time
//! the library beside it.

mod calls;
mod check;
mod convert;
mod record;

pub use record::{Frame, Pace, Port, Queue, Row, Table, Wire};
