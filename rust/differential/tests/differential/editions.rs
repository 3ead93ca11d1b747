//! What files are about editions and tags, and how often it was met.

use differential::expected::Outcome;
use ithumeco::number_of;
use simulator::{read, Class, Edition, Refusal, Row, Table};

/// A file that the library was handed, and what came of it.
pub struct Handed<'a> {
    file: &'a [u8],
    /// The edition in which it was to be written again, and the room for it.
    told: Option<(u64, usize)>,
    outcome: Outcome,
    /// What the file is read as.
    read: Result<(Edition, Table), Refusal>,
}

impl Handed<'_> {
    pub fn new(file: &[u8], told: Option<(u64, usize)>, outcome: Outcome) -> Handed<'_> {
        Handed {
            file,
            told,
            outcome,
            read: read(file),
        }
    }

    fn refused(&self, number: u8) -> bool {
        self.outcome.is_err_and(|refusal| refusal.number == number)
    }

    /// Whether it was read, as an edition and with a row of some kind.
    fn has(&self, edition: Edition, is: fn(&Row) -> bool) -> bool {
        let by_reading = |refusal: Refusal| matches!(refusal.number, 1..=7 | 19 | 103 | 104);
        let was_read = !self.outcome.is_err_and(by_reading);
        let read = self.read.as_ref();
        let right =
            |(found, table): &(Edition, Table)| *found == edition && table.rows.iter().any(is);
        was_read && read.is_ok_and(right)
    }

    /// Whether it was written again, from an edition in an edition.
    fn rewritten(&self, from: Edition, to: Edition) -> bool {
        let told = self.told.is_some_and(|(told, _)| told == number_of(to));
        told && self.outcome.is_ok() && self.has(from, |_| true)
    }

    /// Whether it was refused with 4 at a map, of an edition, that has these of a
    /// mask's bits.
    fn map_refused(&self, edition: Edition, mask: u8, bits: u8) -> bool {
        let Err(Refusal { number: 4, place }) = self.outcome else {
            return false;
        };
        self.file.starts_with(edition.letters()) && self.file[place as usize] & mask == bits
    }
}

/// A kind's name, and what it is.
type Kind = (&'static str, fn(&Handed) -> bool);

/// The map bits that AVB1 has no meaning for.
const BITS: u8 = 0b0111_0000;

const KINDS: [Kind; 22] = [
    ("AVB1 read", |handed| handed.has(Edition::Avb1, |_| true)),
    ("AVB2 read", |handed| handed.has(Edition::Avb2, |_| true)),
    ("a tagged row of A read", |handed| {
        handed.has(Edition::Avb2, |row| row.tagged && row.class == Class::A)
    }),
    ("a tagged row of B read", |handed| {
        handed.has(Edition::Avb2, |row| row.tagged && row.class == Class::B)
    }),
    ("a tagged row with its default payload read", |handed| {
        handed.has(Edition::Avb2, |row| row.tagged && row.payload == 36)
    }),
    ("a tagged row that states 42 read", |handed| {
        handed.has(Edition::Avb2, |row| row.tagged && row.payload == 42)
    }),
    ("AVB1 rewritten as AVB1", |handed| {
        handed.rewritten(Edition::Avb1, Edition::Avb1)
    }),
    ("AVB1 rewritten as AVB2", |handed| {
        handed.rewritten(Edition::Avb1, Edition::Avb2)
    }),
    ("AVB2 rewritten as AVB1", |handed| {
        handed.rewritten(Edition::Avb2, Edition::Avb1)
    }),
    ("AVB2 rewritten as AVB2", |handed| {
        handed.rewritten(Edition::Avb2, Edition::Avb2)
    }),
    ("23 at row 0", |handed| handed.outcome == refused_with_23(0)),
    ("23 at the last of 32 rows", |handed| {
        handed.outcome == refused_with_23(31)
    }),
    ("23, and the copy is too short", |handed| {
        handed.refused(23)
            && handed
                .told
                .is_some_and(|(_, room)| room < handed.file.len())
    }),
    ("17 of AVB2", |handed| {
        handed.refused(17) && handed.has(Edition::Avb2, |_| true)
    }),
    ("4 for bit 4 alone in AVB1", |handed| {
        handed.map_refused(Edition::Avb1, BITS, 0b0001_0000)
    }),
    ("4 for bit 5 in AVB2", |handed| {
        handed.map_refused(Edition::Avb2, 0b0110_0000, 0b0010_0000)
    }),
    ("4 for bit 6 in AVB2", |handed| {
        handed.map_refused(Edition::Avb2, 0b0110_0000, 0b0100_0000)
    }),
    ("4 for bit 5 of a tagged row", |handed| {
        handed.map_refused(Edition::Avb2, BITS, 0b0011_0000)
    }),
    ("6 for a tagged first row's payload of 36", |handed| {
        let states_36 = matches!(handed.file.get(15..18), Some([map, 0, 36]) if map & 0x11 == 0x11);
        handed
            .outcome
            .is_err_and(|refusal| (refusal.number, refusal.place) == (6, 16))
            && states_36
    }),
    ("2 for AVB and another letter", |handed| {
        handed.refused(2) && handed.file.starts_with(b"AVB")
    }),
    ("104 for a file that can be read", |handed| {
        handed.refused(104) && handed.read.is_ok()
    }),
    ("104 for one that cannot", |handed| {
        handed.refused(104) && handed.read.is_err()
    }),
];

fn refused_with_23(place: u64) -> Outcome {
    let number = 23;
    Err(Refusal { number, place })
}

/// How often each kind was met.
#[derive(Clone, Default)]
pub struct Editions([u64; KINDS.len()]);

impl Editions {
    pub fn see(&mut self, handed: &Handed) {
        for (count, (_, is)) in self.0.iter_mut().zip(KINDS) {
            *count += u64::from(is(handed));
        }
    }

    pub fn add(&mut self, other: &Editions) {
        for (count, more) in self.0.iter_mut().zip(other.0) {
            *count += more;
        }
    }

    pub fn print(&self) {
        println!("{:<42} {:>9}", "about editions", "files");
        for ((name, _), count) in KINDS.iter().zip(self.0) {
            println!("{name:<42} {count:>9}");
        }
    }

    /// The kinds that were not met.
    pub fn unmet(&self) -> Vec<String> {
        let kinds = KINDS.iter().zip(self.0);
        let none = kinds.filter(|(_, count)| *count == 0);
        none.map(|((name, _), _)| format!("not met: {name}"))
            .collect()
    }
}
