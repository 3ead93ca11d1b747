//! The simulator held to the scope's rules and numbers.

mod avb1;
mod crowds;
mod document;
mod editions;
mod frames;
mod gap;
mod patches;
mod random;
mod rates;
mod records;
mod refusals;
mod tags;
