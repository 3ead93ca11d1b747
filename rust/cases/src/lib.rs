//! What the tests and benchmarks are made of: tables, files of both editions,
//! lines, lists of calls and port records from a deterministic generator, hunts
//! for a row's oldest frame, kinds of calls about rows that come and go, and the
//! watch that holds a list with its answers to document 01's demand 3.

pub mod crowds;
pub mod driver;
pub mod files;
pub mod hunt;
pub mod lines;
pub mod patches;
pub mod ports;
pub mod random;
pub mod rates;
pub mod specimen;
pub mod tables;
pub mod tags;
pub mod traffic;
pub mod watch;
