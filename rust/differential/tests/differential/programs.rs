//! The programs `portsheet` and `portrun`, as processes.

use std::fs;
use std::io::Write;
use std::os::fd::OwnedFd;
use std::os::unix::net::UnixDatagram;
use std::os::unix::process::ExitStatusExt;
use std::path::{Path, PathBuf};
use std::process::{self, Child, Command, Output, Stdio};
use std::thread;

use cases::driver::Driver;
use cases::files::{any_file, damaged, noise};
use cases::lines;
use cases::random::Random;
use cases::specimen::{self, FILE};
use cases::traffic::{random_lines, LINES};
use cases::{crowds, rates, tables, tags};
use simulator::{file_of, Edition};

use crate::bench::Bench;
use crate::gaps;
use crate::kinds::Way;

pub fn run(bench: &mut Bench) {
    let folder = format!("programs-{}", process::id());
    let folder = Path::new(env!("CARGO_TARGET_TMPDIR")).join(folder);
    fs::create_dir_all(&folder).expect("a folder to run in");
    let mut random = Random::new(7);
    let programs = Programs {
        portsheet: program("portsheet"),
        portrun: program("portrun"),
        folder,
    };
    for by_bytes in [false, true] {
        programs.sheet(bench, &FILE, by_bytes);
        programs.sheet(bench, &rates::FILE, by_bytes);
        programs.sheet(bench, &tags::FILE, by_bytes);
        for edition in Edition::ALL {
            for table in [crowds::with_two_neighbours(), crowds::one_too_many()] {
                programs.sheet(bench, &file_of(edition, &table), by_bytes);
            }
            // In AVB1 a map bit: refused.
            let file = file_of(edition, &tags::table());
            programs.sheet(bench, &file, by_bytes);
            programs.list(bench, &file, b"o 0 58\na 5000\na 12\no 3 36\n", by_bytes);
        }
        programs.sheet(bench, &[], by_bytes);
        programs.sheet(bench, &[&FILE[..], &[0; 2000]].concat(), by_bytes);
        programs.list(bench, &FILE, b"", by_bytes);
        programs.list(bench, &[&FILE[..], &[0; 2000]].concat(), b"a 5\n", by_bytes);
        for line in lines::OF_NO_FORM.iter().chain(&lines::OF_ODD_NUMBERS) {
            let text = format!("a 5\n{line}\na 5\n");
            programs.list(bench, &FILE, text.as_bytes(), by_bytes);
        }
    }
    for _ in 0..bench.times(1000) {
        let file = mostly_accepted(bench, &mut random);
        programs.sheet(bench, &file, random.one_in(4));
    }
    for _ in 0..bench.times(1000) {
        let file = mostly_accepted(bench, &mut random);
        let text = any_text(&mut random, &file);
        programs.list(bench, &file, &text, random.one_in(4));
    }
    for mut driver in gaps::lists(&specimen::table()) {
        random_lines(&mut random, &mut driver, 20);
        programs.played(bench, &driver, random.one_in(4));
    }
    for _ in 0..bench.times(200) {
        let mut driver = Driver::new(tables::lively(&mut random));
        random.pick(&LINES)(&mut random, &mut driver, 200);
        programs.played(bench, &driver, random.one_in(4));
    }
    programs.without_table(bench);
    fs::remove_dir_all(&programs.folder).expect("a folder that was made");
}

/// A program that the Rattle kit has built.
fn program(name: &str) -> PathBuf {
    let crates = Path::new(env!("CARGO_MANIFEST_DIR")).join("../../crates");
    let path = crates.join(name).join("out").join(name);
    assert!(
        path.exists(),
        "crates/{name}/out/{name} is missing: run `rt run` in crates/{name}"
    );
    path
}

struct Programs {
    portsheet: PathBuf,
    portrun: PathBuf,
    folder: PathBuf,
}

impl Programs {
    fn sheet(&self, bench: &mut Bench, file: &[u8], by_bytes: bool) {
        let said = self.output(&self.portsheet, file, by_bytes);
        let meant = simulator::portsheet(file);
        assert!(said == meant, "{said}not\n{meant}for {file:02X?}");
        count(bench, &said);
    }

    fn list(&self, bench: &mut Bench, file: &[u8], calls: &[u8], by_bytes: bool) {
        fs::write(self.folder.join("table.avb"), file).expect("a table file");
        let said = self.output(&self.portrun, calls, by_bytes);
        let meant = simulator::portrun(file, calls);
        let text = String::from_utf8_lossy(calls);
        assert!(said == meant, "{said}not\n{meant}for {file:02X?}\n{text}");
        count(bench, &said);
    }

    /// A list that the simulator has played, a call a line.
    fn played(&self, bench: &mut Bench, driver: &Driver, by_bytes: bool) {
        let file = bench.file(&driver.opened);
        self.list(bench, &file, &text_of(driver), by_bytes);
        bench.kinds.see_list(Way::AsALine, driver);
    }

    /// Without a table file `portrun` prints one line of error and no answer.
    fn without_table(&self, bench: &mut Bench) {
        fs::remove_file(self.folder.join("table.avb")).expect("a table file");
        let output = fed_whole(self.started(&self.portrun, Stdio::piped()), b"a 5\n");
        let errors = String::from_utf8(output.stderr).expect("plain text");
        assert!(
            output.stdout.is_empty() && errors.lines().count() == 1,
            "{errors}"
        );
        bench.cases += 1;
    }

    /// What a program prints.
    fn output(&self, program: &Path, input: &[u8], by_bytes: bool) -> String {
        let output = if by_bytes {
            let (ours, theirs) = UnixDatagram::pair().expect("two sockets");
            fed_by_bytes(
                self.started(program, OwnedFd::from(theirs).into()),
                ours,
                input,
            )
        } else {
            fed_whole(self.started(program, Stdio::piped()), input)
        };
        let errors = String::from_utf8_lossy(&output.stderr);
        assert!(errors.is_empty(), "{}: {errors}", program.display());
        assert_eq!(output.status.signal(), None, "{}", program.display());
        String::from_utf8(output.stdout).expect("plain text")
    }

    fn started(&self, program: &Path, input: Stdio) -> Child {
        Command::new(program)
            .current_dir(&self.folder)
            .stdin(input)
            .stdout(Stdio::piped())
            .stderr(Stdio::piped())
            .spawn()
            .expect("a program")
    }
}

/// Input through a pipe. A program may end before it has read all of it.
fn fed_whole(mut child: Child, input: &[u8]) -> Output {
    let mut pipe = child.stdin.take().expect("a pipe");
    thread::scope(|scope| {
        scope.spawn(move || pipe.write_all(input));
        child.wait_with_output().expect("an output")
    })
}

/// Input a byte at a read: each read takes one datagram, and an empty one is
/// the end.
fn fed_by_bytes(child: Child, socket: UnixDatagram, input: &[u8]) -> Output {
    thread::scope(|scope| {
        scope.spawn(move || {
            let sent = input.iter().all(|&byte| socket.send(&[byte]).is_ok());
            sent && socket.send(&[]).is_ok()
        });
        child.wait_with_output().expect("an output")
    })
}

/// Counts a case and the numbers that a program printed.
fn count(bench: &mut Bench, text: &str) {
    bench.cases += 1;
    for line in text.lines() {
        let number = match line.strip_prefix("refused ") {
            Some(words) => words.split(' ').next().and_then(|word| word.parse().ok()),
            None => Some(0),
        };
        bench.saw(number.expect("a number"));
    }
}

/// A file, of an accepted table most of the time.
fn mostly_accepted(bench: &mut Bench, random: &mut Random) -> Vec<u8> {
    match random.below(10) {
        0 => damaged(random, &FILE),
        1 => damaged(random, &rates::FILE),
        2 => damaged(random, &tags::FILE),
        3 => any_file(random),
        4 => noise(random),
        _ => bench.file(&tables::lively(random)),
    }
}

/// A list's calls, a line each.
fn text_of(driver: &Driver) -> Vec<u8> {
    let lines = driver.calls.iter().map(|call| format!("{call}\n"));
    lines.collect::<String>().into_bytes()
}

/// A list of calls on a file's port as text, at times with a byte changed or
/// the end missing.
fn any_text(random: &mut Random, file: &[u8]) -> Vec<u8> {
    let table = simulator::opened(file).unwrap_or_else(|_| specimen::table());
    let mut driver = Driver::new(table);
    let count = random.below(120);
    random.pick(&LINES)(random, &mut driver, count);
    let mut text = text_of(&driver);
    if !text.is_empty() && random.one_in(4) {
        let at = random.below(text.len());
        text[at] = random.pick(b"0 \nabo\xFF");
    }
    if random.one_in(4) {
        text.truncate(random.below(text.len() + 1));
    }
    text
}
