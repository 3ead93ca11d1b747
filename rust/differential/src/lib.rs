//! What the library must answer by the simulator, and buffers that show a write
//! outside them.

pub mod expected;
pub mod guarded;
pub mod readable;
