//! Checks what `densfill fill` or the passes of a deck have written, from the bytes alone: what counts is the design's with the script's edits
//! carried out in their order, kept as rectangles that share no square (pieces.rs), and everything is counted anew. It takes sound rules, a
//! sound design and a sound script for granted, and of OUT and REPORT nothing. It verifies:
//!
//! - OUT is the fill library of its format to the last byte: the design's dates and units, the names, layer and box of the rules, and
//!   references that place boxes on the raster, within the frame, none twice, row by row, in runs as long as can be.
//! - Each box keeps the spacing to the final metal and the fill spacing to existing fill and to other boxes, and stands over no keep-out.
//! - Each line of REPORT is that of the final metal, the existing fill and the boxes: exact areas of what is drawn, of boxes, their total, its
//!   share and its state.
//! - Each box was wanted, and none is missing: of one run as once.rs says, of a deck's passes as passes.rs does.
//!
//! It prints a line of numbers and ends with status 0, or the first wrong thing with status 1.
//!
//! usage: verify RULES DESIGN SCRIPT OUT REPORT [PASS..]
//!
//! RULES is a rule file, of a deck's layer that of its first pass. PASS is one for each pass, in their order, with what the pass has in place of
//! it: `box_w`, `box_h`, `step_x`, `step_y`, `origin_x`, `origin_y`, `spacing`, `fill_spacing`, and `origins` and `gradual` as a deck has them.
mod design;
mod drawn;
mod library;
mod once;
mod passes;
mod pieces;
mod rules;
mod sweep;
mod threads;

use design::head;
use drawn::{read_script, Covered, Edit};
use pieces::{Axis, Grid};
use rules::{Lines, Rules};

/// What is judged, and what it is judged by.
pub struct Inputs {
    rules: Rules,
    design: Vec<u8>,
    edits: Vec<Edit>,
    out: Vec<u8>,
}

impl Inputs {
    /// The units and the dates of the design.
    fn head(&self) -> (&[u8], &[u8]) {
        head(&self.design)
    }
}

/// The places of a raster along one axis: those whose box lies in the frame, of every so manieth step from the origin moved by so much.
fn raster_axis(rules: &Rules, [low, high, origin, step, size]: [&str; 5], each: i32, moved: i32) -> Axis {
    let [low, high, origin, step, size] = [low, high, origin, step, size].map(|name| i64::from(rules.key(name)));
    let step = step * i64::from(each);
    let first = low + (origin + i64::from(moved) - low).rem_euclid(step);
    let count = if first + size > high { 0 } else { (high - size - first) / step + 1 };
    Axis::new(first as i32, step as i32, count as usize, size as i32)
}

/// The raster of the rules, or every so manieth column and row of it from an origin that is moved on.
fn raster(rules: &Rules, each: i32, (right, up): (i32, i32)) -> Grid {
    let across = raster_axis(rules, ["frame_x1", "frame_x2", "origin_x", "step_x", "box_w"], each, right);
    Grid { across, up: raster_axis(rules, ["frame_y1", "frame_y2", "origin_y", "step_y", "box_h"], each, up) }
}

/// Checks the lines of the report; answers how many windows are low.
fn check_report(lines: &Lines, drawn: &Covered, boxes: &Covered, report: &[u8]) -> Result<usize, String> {
    let (mut found, mut low) = (report.split_inclusive(|byte| *byte == b'\n'), 0);
    for k in 0..drawn.windows.count() {
        let mut counted = Vec::new();
        lines.put(k, drawn.area(k), boxes.area(k), &mut counted);
        let line = found.next().unwrap_or_default();
        if line != counted {
            let [line, counted] = [line, &counted].map(|text| String::from_utf8_lossy(text).trim_end().to_string());
            return Err(format!("REPORT, line {}: {line} where {counted} is counted", k + 1));
        }
        low += usize::from(lines.is_low(k, drawn.area(k) + boxes.area(k)));
    }
    match found.next() {
        Some(_) => Err("REPORT: lines behind the last window".to_string()),
        None => Ok(low),
    }
}

/// Whether the steps of the rules keep boxes apart.
fn check_pitch(rules: &Rules) -> Result<(), String> {
    let keeps = |step: &str, side: &str| rules.key(step) >= rules.key(side) + rules.key("fill_spacing");
    if keeps("step_x", "box_w") && keeps("step_y", "box_h") { Ok(()) } else { Err("RULES: boxes too near to boxes".to_string()) }
}

/// Checks all; answers the line of numbers.
fn verify(paths: &[String]) -> Result<String, String> {
    let [rules, design, script, out, report, passes @ ..] = paths else {
        panic!("usage: verify RULES DESIGN SCRIPT OUT REPORT [PASS..]");
    };
    let read = |path: &String| std::fs::read(path).expect("an input");
    let inputs = Inputs { rules: Rules::read(rules), design: read(design), edits: read_script(script), out: read(out) };
    let passes: Vec<Rules> = passes.iter().map(|path| inputs.rules.with(path)).collect();
    std::iter::once(&inputs.rules).chain(&passes).try_for_each(check_pitch)?;
    let report = read(report);
    let (boxes, low) = if passes.is_empty() { once::check(&inputs, &report)? } else { passes::check(&inputs, &passes, &report)? };
    let windows = report.iter().filter(|byte| **byte == b'\n').count();
    Ok(format!("{boxes} boxes, {windows} windows ({low} low), {} edits", inputs.edits.len()))
}

fn main() {
    match verify(&std::env::args().skip(1).collect::<Vec<String>>()) {
        Ok(numbers) => println!("{numbers}"),
        Err(fault) => {
            println!("{fault}");
            std::process::exit(1);
        }
    }
}
