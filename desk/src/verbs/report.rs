//! `fsq report`: a show as one page.

use crate::answer::Answer as Said;
use crate::cue::{cues_in, marks, steps};
use crate::landing::{targets, Landing, Target};
use crate::markup::escape;
use crate::sheet::{rows, Answer, Row};
use crate::timeline;
use crate::verbs::check::{check, Quoted};
use fsq::Show;

/// The height of a row, and what a lane of arcs takes.
const ROW: usize = 22;
const LANE: usize = 9;
/// Arcs in further lanes are not drawn; their targets stand in the text.
const MOST_LANES: usize = 24;

/// One page of HTML with all that it needs: the listing, an arc from each near branch to its target, and what is wrong in red. It is written for a refused
/// file too, and then a fault.
pub fn report(file: &[u8], name: &str, source: Option<Quoted>) -> Said {
    let verdict = check(file, name, source);
    let words = if verdict.fault {
        verdict.said.clone()
    } else {
        String::from_utf8_lossy(verdict.output.as_deref().unwrap_or_default()).into_owned()
    };
    let show = Show::load(file).ok();
    // From origin 0 on an image of cues is one that a module runs.
    let cues = show.as_ref().filter(|show| show.origin() == 0).and_then(|show| cues_in(show.image())).filter(|cues| !cues.is_empty());
    let picture = cues.map_or(String::new(), |cues| format!("<figure>\n{}</figure>\n", timeline::svg(&marks(&cues), steps(&cues), name)));
    let listing = rows(file).map_or(String::new(), |rows| listing(show.as_ref(), &rows));
    let title = escape(name);
    let class = if verdict.fault { "refused" } else { "right" };
    let page = format!(
        "<!DOCTYPE html>\n<html lang=\"en\">\n<head>\n<meta charset=\"utf-8\">\n<meta name=\"viewport\" content=\"width=device-width, initial-scale=1\">\n\
         <title>{title}</title>\n<style>\n{STYLE}</style>\n</head>\n<body>\n<h1>{title}</h1>\n<pre class=\"{class}\">{}</pre>\n{picture}{listing}</body>\n</html>\n",
        escape(&words)
    );
    verdict.with(page)
}

const STYLE: &str = "\
body { font-family: sans-serif; margin: 1.5em; color: #000; background: #fff; }
h1 { font-size: 1.3em; overflow-wrap: anywhere; }
pre { padding: .6em .8em; white-space: pre-wrap; overflow-wrap: anywhere; border-left: 5px solid; }
pre.right { border-color: #2a7a2a; background: #f0f7f0; }
pre.refused, tr.refused td { color: #b00000; }
pre.refused { border-color: #b00000; background: #fdf0f0; }
.wide { overflow-x: auto; }
table { border-collapse: collapse; font-family: monospace; font-size: 14px; }
th { text-align: left; font-family: sans-serif; font-size: 12px; font-weight: normal; color: #555; padding: 0 .8em; }
td { padding: 0 .8em; height: 22px; line-height: 22px; white-space: nowrap; }
td.arcs { padding: 0; }
td.arcs svg { display: block; }
figure { margin: 1em 0; min-width: 0; overflow-x: auto; }
figure svg { width: 100%; min-width: 36em; height: auto; }
tr:target td, tbody tr:hover td { background: #fff6c8; }
td.arcs path { fill: none; stroke: #3060a0; stroke-width: 1.4; }
td.arcs path.astray { stroke: #b00000; stroke-dasharray: 3 2; }
a { color: inherit; }
@media (max-width: 40em) { body { margin: .6em; } table { font-size: 12px; } td, th { padding: 0 .4em; } }
@media print { body { margin: 0; } .wide, figure { overflow: visible; } figure svg { min-width: 0; } thead { display: table-header-group; } tr { break-inside: avoid; } pre { border: 1px solid; } table { font-size: 9pt; } }
";

/// The lines of arcs that go to one place.
struct Arcs {
    target: usize,
    from: Vec<usize>,
    astray: bool,
    lane: usize,
}

impl Arcs {
    fn first(&self) -> usize {
        self.from.iter().copied().fold(self.target, usize::min)
    }

    fn last(&self) -> usize {
        self.from.iter().copied().fold(self.target, usize::max)
    }
}

/// The row that a target stands in; that of the end is behind the last.
fn row_of(target: &Target, end: usize) -> Option<usize> {
    match target.landing {
        Landing::Record(record) | Landing::Inside { record, .. } => Some(record),
        Landing::End => Some(end),
        Landing::Outside => None,
    }
}

/// The arcs, in lanes in which no two overlap, the short ones nearest to the listing.
fn arcs(targets: &[Option<Target>]) -> Vec<Arcs> {
    let mut all: Vec<Arcs> = Vec::new();
    for (from, target) in targets.iter().enumerate() {
        let Some(target) = target else { continue };
        let Some(row) = row_of(target, targets.len()) else { continue };
        let astray = !target.landing.is_right();
        match all.iter_mut().find(|arcs| arcs.target == row && arcs.astray == astray) {
            Some(arcs) => arcs.from.push(from),
            None => all.push(Arcs { target: row, from: vec![from], astray, lane: 0 }),
        }
    }
    all.sort_by_key(|arcs| (arcs.last() - arcs.first(), arcs.target));
    let mut lanes: Vec<Vec<(usize, usize)>> = Vec::new();
    for arcs in &mut all {
        let (first, last) = (arcs.first(), arcs.last());
        let is_free = |lane: &Vec<(usize, usize)>| lane.iter().all(|&(from, to)| last < from || to < first);
        arcs.lane = lanes.iter().position(is_free).unwrap_or(lanes.len());
        if arcs.lane == lanes.len() {
            lanes.push(Vec::new());
        }
        lanes[arcs.lane].push((first, last));
    }
    all.retain(|arcs| arcs.lane < MOST_LANES);
    all
}

/// The part of all arcs that stands in a row, drawn from the left edge of the listing to the left.
fn drawn(arcs: &[&Arcs], row: usize, lanes: usize) -> String {
    let width = lanes * LANE + 8;
    let mut out = format!("<svg width=\"{width}\" height=\"{ROW}\">");
    let middle = ROW / 2;
    for arcs in arcs {
        let (first, last) = (arcs.first(), arcs.last());
        let x = width - 8 - arcs.lane * LANE - LANE / 2;
        let mut path = String::new();
        if first < row && row < last {
            path.push_str(&format!("M{x} 0V{ROW}"));
        }
        if arcs.target == row || arcs.from.contains(&row) {
            if row > first {
                path.push_str(&format!("M{x} 0V{}Q{x} {middle} {} {middle}H{width}", middle - 4, x + 4));
            }
            if row < last {
                path.push_str(&format!("M{x} {ROW}V{}Q{x} {middle} {} {middle}H{width}", middle + 4, x + 4));
            }
            if first == last {
                path.push_str(&format!(
                    "M{width} {}H{}Q{x} {} {x} {middle}Q{x} {} {} {}H{width}",
                    middle - 5,
                    x + 4,
                    middle - 5,
                    middle + 5,
                    x + 4,
                    middle + 5
                ));
            }
        }
        if arcs.target == row {
            let tip = if first == last { middle + 5 } else { middle };
            path.push_str(&format!("M{} {}L{width} {tip}L{} {}", width - 5, tip - 3, width - 5, tip + 3));
        }
        let class = if arcs.astray { " class=\"astray\"" } else { "" };
        out.push_str(&format!("<path{class} d=\"{path}\"/>"));
    }
    out.push_str("</svg>");
    out
}

fn listing(show: Option<&Show>, rows: &[Row]) -> String {
    let targets = show.map_or(vec![None; rows.len()], targets);
    let arcs = arcs(&targets);
    let lanes = arcs.iter().map(|arcs| arcs.lane + 1).max().unwrap_or(0);
    let mut out = String::from("<div class=\"wide\">\n<table>\n<thead><tr><th></th><th>record</th><th>offset</th><th>bytes</th><th>instruction</th><th>target</th></tr></thead>\n<tbody>\n");
    let end = rows.len();
    // By row, so that a long show is drawn in one pass.
    let mut starting: Vec<Vec<&Arcs>> = vec![Vec::new(); end + 1];
    for arcs in &arcs {
        starting[arcs.first()].push(arcs);
    }
    let mut open: Vec<&Arcs> = Vec::new();
    for row in 0..=end {
        open.retain(|arcs| arcs.last() >= row);
        open.append(&mut starting[row]);
        let arcs = drawn(&open, row, lanes);
        let Some(line) = rows.get(row) else {
            if let Some(show) = show {
                let offset = show.origin().wrapping_add(show.image().len() as u16);
                out.push_str(&format!(
                    "<tr id=\"r{row}\"><td class=\"arcs\">{arcs}</td><td></td><td>{offset:04X}</td><td></td><td>end</td><td></td></tr>\n"
                ));
            }
            continue;
        };
        let (answer, mut wrong) = match &line.answer {
            Answer::Bytes(bytes) => (bytes.to_string(), false),
            Answer::Refused(refusal) => (format!("refused {}: {}", refusal.number(), refusal.reason), true),
            Answer::Open => ("open: its offset is not known".into(), false),
        };
        let text = line.instruction.as_ref().map_or(String::new(), |instruction| {
            line.offset.and_then(|offset| instruction.plain(offset).ok()).as_ref().unwrap_or(instruction).to_string()
        });
        let target = targets[row].as_ref().map_or(String::new(), |target| {
            wrong |= !target.landing.is_right();
            let linked = |words: String| row_of(target, end).map_or(words.clone(), |row| format!("<a href=\"#r{row}\">{words}</a>"));
            linked(match target.landing {
                Landing::Record(record) => format!("record {record}"),
                Landing::End => "the end".into(),
                Landing::Inside { record, .. } => format!("{:04X}, inside record {record}", target.target),
                Landing::Outside => format!("{:04X}, outside the show", target.target),
            })
        });
        let offset = line.offset.map_or("?".into(), |offset| format!("{offset:04X}"));
        let class = if wrong { " class=\"refused\"" } else { "" };
        out.push_str(&format!(
            "<tr id=\"r{row}\"{class}><td class=\"arcs\">{arcs}</td><td>{row}</td><td>{offset}</td><td>{}</td><td>{}</td><td>{target}</td></tr>\n",
            escape(&answer),
            escape(&text)
        ));
    }
    out.push_str("</tbody>\n</table>\n</div>\n");
    out
}
