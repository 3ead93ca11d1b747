//! Lines, bars and words of an SVG.

use std::fmt::{Display, Write};

pub const WHITE: &str = "#ffffff";
pub const DARK: &str = "#333333";
/// The colours of a bar and of the words on it.
pub type Colours = (&'static str, &'static str);

// Pixels.
const WIDTH: u32 = 960;
pub const MARGIN: f64 = 24.0;
pub const BAR: f64 = 20.0;
const LETTER: f64 = 7.5;

/// What is drawn, and what is told to a reader who cannot see it.
#[derive(Default)]
pub struct Svg {
    drawn: String,
    pub told: String,
}

impl Svg {
    pub fn line(&mut self, points: &[(f64, f64)], colour: &str, width: f64) {
        let points = points.iter().map(|(x, y)| format!("{x:.1},{y:.1}"));
        let points = points.collect::<Vec<_>>().join(" ");
        let style = format!(r#"fill="none" stroke="{colour}" stroke-width="{width}""#);
        writeln!(self.drawn, r#"<polyline points="{points}" {style}/>"#).unwrap();
    }

    /// Words that start at a point, have their middle there or end there.
    pub fn words(&mut self, anchor: &str, x: f64, y: f64, words: impl Display) {
        let place = format!(r#"x="{x:.1}" y="{y:.1}" text-anchor="{anchor}""#);
        writeln!(self.drawn, "<text {place}>{words}</text>").unwrap();
    }

    /// Words with a white edge, which keeps a line behind them off.
    pub fn label(&mut self, anchor: &str, x: f64, y: f64, words: &str) {
        let edge = format!(r#"stroke="{WHITE}" stroke-width="4""#);
        self.words(anchor, x, y, format!("<tspan {edge}>{words}</tspan>"));
        self.words(anchor, x, y, words);
    }

    /// A label that is told as well.
    pub fn tell(&mut self, anchor: &str, x: f64, y: f64, words: &str) {
        self.label(anchor, x, y, words);
        self.told += &format!(" {}.", words.trim_end_matches('.'));
    }

    pub fn heading(&mut self, y: f64, size: u32, words: &str) {
        let style = format!(r#"font-size="{size}" font-weight="bold""#);
        let words = format!("<tspan {style}>{words}</tspan>");
        self.label("start", MARGIN, y, &words);
    }

    /// A bar between two places, with the words on it that it has room for.
    pub fn bar(&mut self, (from, to): (f64, f64), y: f64, colours: Colours, words: &str) {
        let (ground, ink) = colours;
        self.line(&[(from, y), (to, y)], ground, BAR);
        if LETTER * words.len() as f64 <= to - from {
            let words = format!(r#"<tspan fill="{ink}">{words}</tspan>"#);
            self.words("middle", (from + to) / 2.0, y + 4.5, words);
        }
    }

    pub fn file(&self, height: f64, title: &str) -> String {
        let Svg { drawn, told } = self;
        format!(
            r#"<svg xmlns="http://www.w3.org/2000/svg" width="{WIDTH}" height="{height}" viewBox="0 0 {WIDTH} {height}" role="img" aria-labelledby="title desc">
<title id="title">{title}</title>
<desc id="desc">{}</desc>
<rect width="{WIDTH}" height="{height}" fill="{WHITE}"/>
<g font-family="sans-serif" font-size="13" fill="{DARK}" stroke-linejoin="round">
{drawn}</g>
</svg>
"#,
            told.trim()
        )
    }
}
