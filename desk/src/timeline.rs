//! The timeline of a run: one lane a port, one mark a cue at its step: black, or white where the mask is 0.

use crate::markup::escape;

/// A cue as the picture has it.
#[derive(Clone, Copy, Debug, PartialEq, Eq)]
pub struct Mark {
    /// the number of the instruction that puts it out, from 1
    pub step: u64,
    pub port: u8,
    pub mask: u8,
}

const WIDTH: f64 = 1000.0;
const LEFT: f64 = 90.0;
const RIGHT: f64 = 40.0;
const TOP: f64 = 30.0;
const LANE: f64 = 40.0;
/// A label needs so much room.
const LABEL: f64 = 24.0;

/// A picture of marks, in SVG. `end` is the last step.
pub fn svg(marks: &[Mark], end: u64, title: &str) -> String {
    let title = escape(title);
    let mut ports: Vec<u8> = marks.iter().map(|mark| mark.port).collect();
    ports.sort_unstable();
    ports.dedup();
    let end = marks.iter().map(|mark| mark.step).max().unwrap_or(0).max(end).max(1);
    let x = |step: u64| LEFT + (WIDTH - LEFT - RIGHT) * step as f64 / end as f64;
    let y = |port: u8| TOP + LANE * (ports.iter().position(|&one| one == port).unwrap_or(0) as f64 + 0.5);
    let bottom = TOP + LANE * ports.len().max(1) as f64;
    let mut out = format!(
        "<svg xmlns=\"http://www.w3.org/2000/svg\" viewBox=\"0 0 {WIDTH} {}\" role=\"img\" font-family=\"sans-serif\" font-size=\"12\">\n<title>{title}</title>\n",
        bottom + 40.0
    );
    out.push_str(&format!(
        "<rect width=\"{WIDTH}\" height=\"{}\" fill=\"#fff\"/>\n<text x=\"{LEFT}\" y=\"20\" font-size=\"14\">{title}</text>\n",
        bottom + 40.0
    ));
    let tick = tick(end);
    for step in (0..=end / tick).map(|n| n * tick) {
        out.push_str(&format!(
            "<path d=\"M{0:.1} {TOP}V{bottom}\" stroke=\"#ddd\"/><text x=\"{0:.1}\" y=\"{1}\" text-anchor=\"middle\" fill=\"#555\">{step}</text>\n",
            x(step),
            bottom + 16.0
        ));
    }
    out.push_str(&format!("<text x=\"{}\" y=\"{}\" text-anchor=\"end\" fill=\"#555\">steps</text>\n", WIDTH - RIGHT, bottom + 32.0));
    for &port in &ports {
        let y = y(port);
        out.push_str(&format!(
            "<path d=\"M{LEFT} {y}H{}\" stroke=\"#888\"/><text x=\"{}\" y=\"{}\" text-anchor=\"end\">port {port}</text>\n",
            WIDTH - RIGHT,
            LEFT - 12.0,
            y + 4.0
        ));
        // A mark whose label would stand in that of the one before has none.
        let mut free = 0.0;
        for mark in marks.iter().filter(|mark| mark.port == port) {
            let x = x(mark.step);
            let label = if x >= free {
                format!("<text x=\"{x:.1}\" y=\"{}\" text-anchor=\"middle\">{:02X}</text>", y - 11.0, mark.mask)
            } else {
                String::new()
            };
            if x >= free {
                free = x + LABEL;
            }
            out.push_str(&format!(
                "<g><title>step {}, port {port}, mask {:02X}</title><rect x=\"{:.1}\" y=\"{}\" width=\"3\" height=\"14\" fill=\"{}\" stroke=\"#000\"/>{label}</g>\n",
                mark.step,
                mark.mask,
                x - 1.5,
                y - 7.0,
                if mark.mask == 0 { "#fff" } else { "#000" }
            ));
        }
    }
    out.push_str("</svg>\n");
    out
}

/// A step of 1, 2 or 5 times a power of ten, so that there are at most ten.
fn tick(end: u64) -> u64 {
    let mut power = 1;
    loop {
        for tick in [power, 2 * power, 5 * power] {
            if end / tick <= 10 {
                return tick;
            }
        }
        power *= 10;
    }
}
