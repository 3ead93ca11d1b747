//! Prints the picture of a run that brings a frame near its bound, docs/run.svg:
//!
//!     cargo run --manifest-path rust/Cargo.toml --example picture > docs/run.svg

#[path = "picture/drawing.rs"]
mod drawing;

fn main() {
    print!("{}", drawing::picture().expect("the run has no refusal"));
}
