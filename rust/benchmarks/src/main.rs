//! The static library's speed beside the simulator's and beside that of a port
//! changed in place: the same input, the same run, all built for release.
//! docs/BENCHMARKS.md says how to read the tables. Ends with status 1 if a target
//! is missed.

mod clock;
mod lines;
mod lists;
mod report;
mod tables;

use std::process::ExitCode;

use report::print;

fn main() -> ExitCode {
    let (simulator, in_place) = ("simulator's ns", "in place, ns");
    let lists = lines::byte_times()
        .into_iter()
        .chain(lines::long_advances())
        .chain(lines::short_calls())
        .chain(lines::files());
    let mut missed = print("what", [simulator, in_place], lists);
    missed += print(
        "one call on a record's bytes",
        [simulator, in_place, "ns in a list"],
        lines::calls_on_bytes(),
    );
    missed += print(
        "advance by 0 on a fresh port of 3 rows",
        ["of 32 rows, ns"],
        lines::few_rows(),
    );
    let crowded = lines::calls_behind_many_frames().into_iter();
    missed += print(
        "one call beside many frames of a class",
        [simulator, in_place],
        crowded.chain(lines::calls_on_full_ports()),
    );
    println!("{missed} missed");
    ExitCode::from(u8::from(missed > 0))
}
