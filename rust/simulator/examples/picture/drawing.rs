//! The picture of a run that brings a frame near its bound. The numbers that
//! it states are the simulator's.

mod run;
mod svg;

use run::Run;
use simulator::table::{D, GAP};
use simulator::{Mark, Refusal};
use svg::{Colours, Svg, BAR, DARK, MARGIN, WHITE};

const NAME: &str = "tables/class-a-microphones.avb";
const TABLE: &[u8] = include_bytes!("../../../../tables/class-a-microphones.avb");

/// Byte-times in a microsecond: one is 8 ns.
const MICROSECOND: f64 = 125.0;
/// Byte-times, and credit, between two ticks of an axis.
const TIME_STEP: usize = 500;
const CREDIT_STEP: usize = 500_000_000;

// Places, in pixels.
const LEFT: f64 = 112.0;
const FRAMES: f64 = 138.0;
const LANE: f64 = 26.0;
const ZERO_LINE: f64 = 546.0;
const TERMS: f64 = 634.0;
const HEIGHT: f64 = 796.0;

const THIN: &str = "#8a8f94";
const GUIDE: &str = "#c3c8cd";
const WAITING: Colours = ("#e8edf2", DARK);
const AHEAD: Colours = ("#8db4dc", DARK);
const BLOCKING: Colours = ("#c3c8cd", DARK);
const OWN: Colours = ("#0b3c6f", WHITE);
const UNUSED: Colours = ("#f2b36b", DARK);
const GAP_COLOUR: &str = THIN;

fn x(clock: u64) -> f64 {
    LEFT + 0.25 * clock as f64
}

fn y(credit: i64) -> f64 {
    ZERO_LINE - 0.16 * credit as f64 / 1e6
}

fn millions(credit: i64) -> String {
    (credit as f64 / 1e6).to_string().replace('-', "−")
}

/// Lines down from where a term of the bound begins or ends in the run.
fn draw_guides(svg: &mut Svg, run: &Run) {
    let (best, own, bound) = (run.best(), run.own(), run.bound);
    let (top, bottom) = (FRAMES - 18.0, TERMS - BAR / 2.0);
    for clock in [own.taken, best.begun, own.begun, own.reported] {
        svg.line(&[(x(clock), top), (x(clock), bottom)], GUIDE, 1.0);
    }
    svg.line(&[(x(bound), top), (x(bound), bottom)], DARK, 2.0);
    let microseconds = bound as f64 / MICROSECOND;
    let words = format!("bound of row {}: {bound} = {microseconds} µs", run.row);
    svg.tell("end", x(bound), top - 8.0, &words);
}

/// 1. Each frame: how long it waits, and when it is on the wire, its gap apart.
fn draw_frames(svg: &mut Svg, run: &Run) {
    let words = format!("Frames waiting (light) and on the wire, their gap of {GAP} in dark grey");
    svg.heading(FRAMES - 26.0, 13, &words);
    let mut lane = FRAMES;
    for sent in &run.sent {
        let (name, colours) = match sent.mark {
            Mark::BestEffort => ("best effort".into(), BLOCKING),
            Mark::Row(row) if row == run.row => (format!("row {row}"), OWN),
            Mark::Row(row) => (format!("row {row}"), AHEAD),
        };
        let (taken, begun, over) = (sent.taken, sent.begun, sent.over);
        let waits = format!("waits {}", begun - taken);
        svg.bar((x(taken), x(begun)), lane, WAITING, &waits);
        let size = (over - begun).to_string();
        svg.bar((x(begun), x(over)), lane, colours, &size);
        let gap = [(x(sent.reported), lane), (x(over), lane)];
        svg.line(&gap, GAP_COLOUR, BAR);
        svg.words("start", MARGIN, lane + 4.5, &name);
        let reported = sent.reported;
        svg.told += &format!(
            " {name}: {waits}, on the wire from {begun} to {over}, reported at {reported}."
        );
        lane += LANE;
    }
    let (begun, reported) = (run.best().begun, run.own().reported);
    let (row, turn) = (run.row, begun + 1);
    let words = format!("begins at {begun}: row {row} could go out at {turn}");
    svg.tell("start", x(begun) + 8.0, lane - 3.0 * LANE + 4.5, &words);
    let before = run.bound - reported;
    let words = format!("reported at {reported}, {before} before its bound");
    svg.tell("end", x(reported), lane, &words);
}

/// 2. The credit of the class.
fn draw_credit(svg: &mut Svg, run: &Run) {
    let (credit, own) = (&run.credit, run.own());
    let low = credit.iter().copied().min().unwrap_or(0);
    let high = credit.iter().copied().max().unwrap_or(0);
    svg.line(&[(LEFT, y(low)), (LEFT, y(high))], THIN, 1.0);
    for tick in (0..=high).step_by(CREDIT_STEP) {
        svg.line(&[(LEFT - 5.0, y(tick)), (LEFT, y(tick))], THIN, 1.0);
        svg.words("end", LEFT - 9.0, y(tick) + 4.5, millions(tick));
    }
    svg.line(&[(LEFT, y(0)), (x(run.bound), y(0))], THIN, 1.0);
    let last = credit.len() - 1;
    let bends = |&t: &usize| credit[t] - credit[t - 1] != credit[t + 1] - credit[t];
    let mut points = vec![(LEFT, y(credit[0]))];
    points.extend((1..last).filter(bends).map(|t| (x(t as u64), y(credit[t]))));
    points.push((x(run.bound), y(credit[last])));
    svg.line(&points, OWN.0, 2.0);

    let (idle, send) = (run.figures.idle as i64, run.figures.send as i64);
    let (idle, send, largest) = (millions(idle), millions(send), run.figures.largest);
    let (low_told, high_told) = (millions(low), millions(high));
    svg.heading(y(high) - 40.0, 13, "Credit of class A, in millions");
    let words = format!(
        "A class may send at credit 0 or more. A byte-time of waiting adds I = {idle}, \
         one of sending takes S = D − I = {send} (D is 1)."
    );
    svg.tell("start", MARGIN, y(high) - 21.0, &words);
    let words = format!("down to {low_told} (−S × L) when {largest} bytes have been sent");
    svg.tell("start", LEFT + 8.0, y(low) + 18.0, &words);
    let (row, pause) = (run.row, run.pause());
    let words = format!("at 0 again {pause} byte-times later: the next goes out");
    svg.tell("start", LEFT + 8.0, y(0) - 8.0, &words);
    let words = format!("up to {high_told}: row {row} waits, but the wire is taken");
    svg.tell("end", x(own.begun) - 16.0, y(high) + 4.5, &words);
    let words = "no frame left: back to 0";
    svg.tell("end", x(own.over) - 8.0, y(0) - 8.0, words);
}

/// 3. The terms of the bound, each where it stands in the run.
fn draw_terms(svg: &mut Svg, run: &Run) {
    let (class, row, own, pause) = (run.figures, run.row, run.own(), run.pause());
    let (bound, size, largest) = (run.bound, own.over - own.begun, class.largest);
    let ahead = D * (class.sum - size) / class.idle;
    let debt = bound + GAP - size - class.blocking - ahead;
    let formula = format!("C + H + (D × (sum of C − C) + S × L) / I − {GAP}");
    let words = format!("The bound of row {row}: {formula} = {bound}");
    svg.heading(TERMS - 28.0, 13, &words);
    let but_the_gap = format!("C − {GAP}");
    let terms = [
        ("D × (sum of C − C) / I", ahead, AHEAD),
        ("H", class.blocking, BLOCKING),
        (&but_the_gap, size - GAP, OWN),
        ("S × L / I", debt, UNUSED),
    ];
    let meanings = [
        format!(
            "the frames ahead: {row} times {largest} bytes \
             and {pause} byte-times until the credit is at 0 again"
        ),
        format!("blocking: a full best-effort frame, begun one byte-time before row {row}'s turn"),
        format!("the frame's own bytes but its gap: it is reported when these {GAP} are left"),
        "a debt of credit, had a largest frame been sent just before: \
         here none was, so this is left over"
            .into(),
    ];
    let (mut from, mut line) = (own.taken, TERMS + 78.0);
    for ((term, value, colours), meaning) in terms.into_iter().zip(meanings) {
        let to = from + value;
        svg.bar((x(from), x(to)), TERMS, colours, &value.to_string());
        let square = [(MARGIN, line - 4.5), (MARGIN + 12.0, line - 4.5)];
        svg.line(&square, colours.0, 12.0);
        svg.tell("start", MARGIN + 20.0, line, &format!("{term} = {value}"));
        svg.tell("start", MARGIN + 232.0, line, &meaning);
        from = to;
        line += 21.0;
    }
}

fn draw_time(svg: &mut Svg, end: u64, y: f64) {
    svg.line(&[(LEFT, y), (x(end), y)], THIN, 1.0);
    svg.words("start", MARGIN, y + 18.0, "byte-times");
    svg.words("start", MARGIN, y + 35.0, "µs");
    for clock in (0..=end).step_by(TIME_STEP) {
        svg.line(&[(x(clock), y), (x(clock), y + 5.0)], THIN, 1.0);
        svg.words("middle", x(clock), y + 18.0, clock);
        svg.words("middle", x(clock), y + 35.0, clock as f64 / MICROSECOND);
    }
}

pub fn picture() -> Result<String, Refusal> {
    let run = Run::of(TABLE)?;
    let (own, row, bound) = (run.own(), run.row, run.bound);
    let age = own.reported - own.taken;
    let title = format!("A frame near its bound: it is reported after {age} of {bound} byte-times");
    let mut svg = Svg::default();
    svg.heading(36.0, 18, &title);
    let words = format!(
        "Every row of {NAME} is offered a frame at 0, row {row} last. \
         One byte-time before its turn a best-effort frame begins."
    );
    svg.tell("start", MARGIN, 60.0, &words);
    let words = format!(
        "So row {row}'s frame waits for all that its bound counts \
         but that byte-time and the last term."
    );
    svg.tell("start", MARGIN, 78.0, &words);
    draw_guides(&mut svg, &run);
    draw_frames(&mut svg, &run);
    draw_credit(&mut svg, &run);
    draw_terms(&mut svg, &run);
    draw_time(&mut svg, bound, TERMS + 14.0);
    Ok(svg.file(HEIGHT, &title))
}
