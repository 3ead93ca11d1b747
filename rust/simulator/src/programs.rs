//! What the programs `portsheet` and `portrun` print.

use std::fmt::Write;

use crate::call::call_of;
use crate::file::read;
use crate::port::{Advance, Port, NO_FRAME};
use crate::refusal::Refusal;
use crate::table::{bounds, open, Class, Table};

/// "The program `portsheet` reads a file", of either edition, "on standard input
/// and prints" the sheet. "On a refusal by reading or opening it prints one line only:
/// `refused`, number, place."
pub fn portsheet(input: &[u8]) -> String {
    match sheet(input) {
        Ok(text) => text,
        Err(refusal) => format!("{refusal}\n"),
    }
}

/// "After the class letter come bytes on the wire, then three byte-time
/// counts, single spaces between."
fn sheet(input: &[u8]) -> Result<String, Refusal> {
    let (_, table) = read(input)?;
    let bounds = bounds(&table)?;
    let mut text = String::from("row class wire period deadline bound\n");
    for (place, row) in table.rows.iter().enumerate() {
        let class = match row.class {
            Class::A => 'A',
            Class::B => 'B',
        };
        let (size, period, deadline) = (row.size(), row.period(), row.deadline);
        let bound = bounds[place];
        writeln!(text, "{place} {class} {size} {period} {deadline} {bound}").unwrap();
    }
    Ok(text)
}

/// "`portrun` opens the file `table.avb`, reads a call a line and prints a line
/// for each." The arguments are the file's bytes and the calls' bytes.
pub fn portrun(table: &[u8], calls: &[u8]) -> String {
    // "If the file is refused by reading or opening, `portrun` prints that one
    // line and stops"
    let mut port = match opened(table) {
        Ok(table) => Port::fresh(table),
        Err(refusal) => return format!("{refusal}\n"),
    };
    let mut text = String::new();
    for line in lines(calls) {
        // "at a line of any other form it stops"
        let Some(call) = call_of(line) else {
            break;
        };
        // "`refused`, number, place; or `0`, byte-times passed, ended frame's
        // row (32 best effort, 33 none)"
        match port.make(call) {
            Ok(Advance { passed, ended }) => {
                let row = ended.map_or(NO_FRAME, |frame| frame.mark.number());
                writeln!(text, "0 {passed} {row}").unwrap();
            }
            Err(refusal) => writeln!(text, "{refusal}").unwrap(),
        }
    }
    text
}

/// The table of a file, of either edition, that reading and opening let pass.
pub fn opened(file: &[u8]) -> Result<Table, Refusal> {
    let (_, table) = read(file)?;
    open(&table)?;
    Ok(table)
}

/// The lines of a text, without their newlines. The last may lack its newline.
fn lines(text: &[u8]) -> impl Iterator<Item = &[u8]> {
    text.split_inclusive(|&byte| byte == b'\n')
        .map(|line| line.strip_suffix(b"\n").unwrap_or(line))
}

#[cfg(test)]
mod tests {
    use super::*;

    #[test]
    fn the_last_line_may_lack_its_newline() {
        let all = |text: &'static str| lines(text.as_bytes()).collect::<Vec<_>>();
        assert_eq!(all(""), Vec::<&[u8]>::new());
        assert_eq!(all("a 1"), [b"a 1"]);
        assert_eq!(all("a 1\n"), [b"a 1"]);
        assert_eq!(all("a 1\n\na 2"), [&b"a 1"[..], b"", b"a 2"]);
    }
}
