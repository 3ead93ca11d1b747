//! Lines for `portrun`.

/// Lines of no call's form: `portrun` stops there.
pub const OF_NO_FORM: [&str; 33] = [
    "",
    " ",
    "a",
    "a ",
    "a  5",
    " a 5",
    "a 5 ",
    "a\t5",
    "a 5\r",
    "a +5",
    "a -5",
    "a 0x5",
    "a 5 5",
    "a 5,",
    "a \u{0665}",
    "aa 5",
    "A 5",
    "o",
    "o 1",
    "o 1 ",
    "o  1 2",
    "o 1  2",
    "o 0  58",
    "o 0 58 ",
    "o 1 2 3",
    "o 0 58 0",
    "b",
    "b ",
    "b 1 2",
    "c 5",
    "l 0",
    "leave 0",
    "join 3 58",
];

/// Calls with numbers that begin with a 0, or of more than 64 bits, or with
/// the largest of 64.
pub const OF_ODD_NUMBERS: [&str; 6] = [
    "a 007",
    "a 00000000000000000000005",
    "a 18446744073709551616",
    "b 99999999999999999999999999999999",
    "o 18446744073709551615 0",
    "o 0 058",
];
