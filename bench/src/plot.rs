//! The plot of the decode table, as SVG: the time of one call for each code, on words that are lightly damaged.

use common::questions::{ALPHABETS, CODES, GREATEST_M, LEAST_M};

use crate::inputs::{Kind, KINDS};
use crate::tables::{self, Times};

const COMPETITORS: usize = 4;
const NAMES: [&str; COMPETITORS] =
    ["the proved code", "(a) Rust, plain", "(b) Rust, a body for each code", "(c) Rust, one body for all codes"];
const COLOURS: [&str; COMPETITORS] = ["#1f5fa8", "#6b7785", "#b3541e", "#2f7d4f"];

const NOTE: &str = "Words lightly damaged: a sixteenth of the symbols, none at m 2. Logarithmic; lower is faster.";

const WIDTH: f64 = 1000.0;
const HEIGHT: f64 = 520.0;
const LEFT: f64 = 76.0;
const TOP: f64 = 104.0;
const BOTTOM: f64 = HEIGHT - 66.0;
const PANEL: f64 = 284.0;
const BETWEEN: f64 = 20.0;
const INSET: f64 = 26.0;

const STYLE: &str = "
  text { font-family: sans-serif; font-size: 13px; fill: #1d2733; }
  .title { font-size: 18px; font-weight: bold; }
  .note { fill: #4a5563; }
  .start { text-anchor: start; }
  .middle { text-anchor: middle; }
  .end { text-anchor: end; }
  .panel { fill: #f4f6f9; }
  .grid { stroke: #d5dbe3; }
  polyline { fill: none; }
  .proved { stroke-width: 2.6; }
  .rust { stroke-width: 1.6; }
";

/// Heights for times, on a logarithmic scale from one round number to another.
struct Scale {
    low: f64,
    high: f64,
}

impl Scale {
    /// The narrowest scale that has all of these times.
    fn around(times: &[Times<COMPETITORS>]) -> Option<Scale> {
        let least = times.iter().flatten().copied().reduce(f64::min)?;
        let most = times.iter().flatten().copied().reduce(f64::max)?;
        Some(Scale {
            low: round_numbers().filter(|&number| number <= least).last()?,
            high: round_numbers().find(|&number| number >= most)?,
        })
    }

    fn y(&self, time: f64) -> f64 {
        BOTTOM - (BOTTOM - TOP) * (time / self.low).ln() / (self.high / self.low).ln()
    }

    fn ticks(&self) -> impl Iterator<Item = f64> + '_ {
        round_numbers().filter(|number| (self.low..=self.high).contains(number))
    }
}

/// 1, 2, 5, 10, 20, 50 and so on, as far as a time of one call can go.
fn round_numbers() -> impl Iterator<Item = f64> {
    (0..8).flat_map(|zeros| [1.0, 2.0, 5.0].map(|digit| digit * 10f64.powi(zeros)))
}

/// The left end of the panel of an alphabet.
fn panel_left(panel: usize) -> f64 {
    LEFT + panel as f64 * (PANEL + BETWEEN)
}

/// Where a code stands in its panel.
fn code_x(panel: usize, m: u32) -> f64 {
    let step = (PANEL - 2.0 * INSET) / f64::from(GREATEST_M - LEAST_M);
    panel_left(panel) + INSET + step * f64::from(m - LEAST_M)
}

fn text(class: &str, x: f64, y: f64, words: &str) -> String {
    format!(r#"<text class="{class}" x="{x:.1}" y="{y:.1}">{words}</text>"#) + "\n"
}

/// Points as SVG writes them.
fn list(points: &[(f64, f64)]) -> String {
    points.iter().map(|(x, y)| format!("{x:.1},{y:.1}")).collect::<Vec<_>>().join(" ")
}

/// The mark of a competitor at a point, each of another shape: a disc, a square, and triangles that point up or down.
fn mark(competitor: usize, x: f64, y: f64) -> String {
    let colour = COLOURS[competitor];
    let corners: &[(f64, f64)] = match competitor {
        0 => return format!(r#"<circle cx="{x:.1}" cy="{y:.1}" r="4.5" fill="{colour}"/>"#) + "\n",
        1 => &[(-4.0, -4.0), (4.0, -4.0), (4.0, 4.0), (-4.0, 4.0)],
        2 => &[(0.0, -5.0), (5.0, 4.0), (-5.0, 4.0)],
        _ => &[(0.0, 5.0), (5.0, -4.0), (-5.0, -4.0)],
    };
    let points: Vec<(f64, f64)> = corners.iter().map(|(right, down)| (x + right, y + down)).collect();
    format!(r#"<polygon points="{}" fill="{colour}"/>"#, list(&points)) + "\n"
}

/// The line of a competitor through points.
fn line(competitor: usize, points: &[(f64, f64)]) -> String {
    let class = if competitor == 0 { "proved" } else { "rust" };
    format!(r#"<polyline class="{class}" stroke="{}" points="{}"/>"#, COLOURS[competitor], list(points)) + "\n"
}

fn heading() -> String {
    let mut svg = format!(
        r##"<svg xmlns="http://www.w3.org/2000/svg" width="{WIDTH}" height="{HEIGHT}" viewBox="0 0 {WIDTH} {HEIGHT}">
<title>Decode: nanoseconds of one call, by code</title><style>{STYLE}</style>
<rect width="{WIDTH}" height="{HEIGHT}" rx="8" fill="#ffffff"/>
"##
    );
    svg += &text("title", 24.0, 34.0, "Decode: nanoseconds of one call, by code");
    svg += &text("note", 24.0, 56.0, NOTE);
    let mut x = 24.0;
    for (competitor, name) in NAMES.iter().enumerate() {
        svg += &line(competitor, &[(x, 79.0), (x + 30.0, 79.0)]);
        svg += &mark(competitor, x + 15.0, 79.0);
        svg += &text("start", x + 38.0, 83.5, name);
        x += 66.0 + 7.2 * name.len() as f64;
    }
    svg
}

/// The panel of an alphabet: the grid, and the codes below it.
fn panel(number: usize, q: u32, scale: &Scale) -> String {
    let left = panel_left(number);
    let height = BOTTOM - TOP;
    let mut svg = format!(r#"<rect class="panel" x="{left}" y="{TOP}" width="{PANEL}" height="{height}"/>"#) + "\n";
    for tick in scale.ticks() {
        let (y, right) = (scale.y(tick), left + PANEL);
        svg += &(format!(r#"<line class="grid" x1="{left}" y1="{y:.1}" x2="{right}" y2="{y:.1}"/>"#) + "\n");
        if number == 0 {
            svg += &text("end", left - 8.0, y + 4.5, &tick.to_string());
        }
    }
    for m in LEAST_M..=GREATEST_M {
        svg += &text("middle", code_x(number, m), BOTTOM + 20.0, &m.to_string());
    }
    svg + &text("middle", left + PANEL / 2.0, BOTTOM + 44.0, &format!("q {q}, by m"))
}

/// Draws the times that the decode table has kept.
pub fn decode() -> Result<String, String> {
    let rows =
        tables::kept::<COMPETITORS>("decode").ok_or("no times are kept: decode keeps them where BENCH_TIMES says")?;
    let light = KINDS.iter().position(|kind| matches!(kind, Kind::Light)).expect("a kind of words");
    let times: Vec<Times<COMPETITORS>> =
        rows.chunks(KINDS.len()).filter_map(|kinds| kinds.get(light).copied()).collect();
    if times.len() != CODES.len() {
        return Err(format!("times of {} codes are kept, and there are {}", times.len(), CODES.len()));
    }
    let scale = Scale::around(&times).ok_or("a time is too short or too long for the scale")?;
    let mut svg = heading();
    for (number, q) in ALPHABETS.into_iter().enumerate() {
        svg += &panel(number, q, &scale);
        for competitor in (0..COMPETITORS).rev() {
            let own = CODES.iter().zip(&times).filter(|((of, _), _)| *of == q);
            let points: Vec<(f64, f64)> =
                own.map(|(&(_, m), times)| (code_x(number, m), scale.y(times[competitor]))).collect();
            svg += &line(competitor, &points);
            svg.extend(points.iter().map(|&(x, y)| mark(competitor, x, y)));
        }
    }
    Ok(svg + "</svg>\n")
}
