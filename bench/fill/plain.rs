//! `densfill fill` with an empty script and one worker, without proofs, for the benchmark alone: the same algorithms as the program's.
//! It checks the records of the design, and takes all else for sound.
#[path = "../../tools/verify/design.rs"]
mod design;
#[path = "../../tools/verify/rules.rs"]
mod rules;
#[path = "../../tools/verify/sweep.rs"]
mod sweep;
#[path = "../../tools/verify/threads.rs"]
mod threads;

use design::{flatten, head, read_library};
use rules::{Lines, Rules};
use std::io::Write;
use std::ops::Range;
use sweep::{clip, from_rects, mark_met, measure_all, Bands, Rect};

/// One axis of a raster: places from the first to the last whose box lies in the frame, in groups of tiles.
struct Axis {
    origin: i32,
    step: i32,
    size: i32,
    places: Range<i32>,
    group: i32,
}

impl Axis {
    fn read(rules: &Rules, [low, high, origin, step, size, group]: [&str; 6]) -> Axis {
        let [low, high, origin, step, size, group] = [low, high, origin, step, size, group].map(|name| rules.key(name));
        let first = -((origin - low).div_euclid(step));
        let past = (high - size - origin).div_euclid(step) + 1;
        Axis { origin, step, size, places: first..past.max(first), group }
    }

    fn edge(&self, place: i32) -> i32 {
        self.origin + place * self.step
    }

    fn groups(&self) -> i32 {
        (self.places.len() as i32 + self.group - 1) / self.group
    }

    fn places_of(&self, group: i32) -> Range<i32> {
        let first = self.places.start + group * self.group;
        first..self.places.end.min(first + self.group)
    }

    /// The places whose box shares a number with the range.
    fn near(&self, low: i32, high: i32) -> Range<i32> {
        let first = (low - self.size - self.origin).div_euclid(self.step) + 1;
        let past = -((self.origin - high).div_euclid(self.step));
        first.max(self.places.start)..past.min(self.places.end)
    }
}

/// The windows of one axis that hold the range.
fn containing((origin, size, step, count): (i32, i32, i32, usize), low: i32, high: i32) -> Range<usize> {
    let first = -((origin + size - high).div_euclid(step));
    let past = (low - origin).div_euclid(step) + 1;
    first.max(0) as usize..past.clamp(0, count as i32) as usize
}

/// The raster and what is filled of it, tile by tile, each with its bits.
struct Fill {
    across: Axis,
    up: Axis,
    tiles: Vec<Vec<u64>>,
}

impl Fill {
    fn read(rules: &Rules) -> Fill {
        let across = Axis::read(rules, ["frame_x1", "frame_x2", "origin_x", "step_x", "box_w", "tile_nx"]);
        let up = Axis::read(rules, ["frame_y1", "frame_y2", "origin_y", "step_y", "box_h", "tile_ny"]);
        Fill { across, up, tiles: Vec::new() }
    }

    fn rect(&self, i: i32, j: i32) -> Rect {
        let (x1, y1) = (self.across.edge(i), self.up.edge(j));
        Rect { x1, y1, x2: x1 + self.across.size, y2: y1 + self.up.size }
    }

    /// Whether a place is filled: its tile and its bit are found anew.
    fn has(&self, i: i32, j: i32) -> bool {
        let (a, b) = ((i - self.across.places.start) / self.across.group, (j - self.up.places.start) / self.up.group);
        let columns = self.across.places_of(a);
        let bit = (j - self.up.places_of(b).start) as usize * columns.len() + (i - columns.start) as usize;
        self.tiles[(b * self.across.groups() + a) as usize][bit / 64] >> (bit % 64) & 1 == 1
    }

    /// Fills the wanted places of the next tile.
    fn bring(&mut self, metal: &Bands, low: &[bool], lines: &Lines, spacing: i32) {
        let tile = self.tiles.len() as i32;
        let columns = self.across.places_of(tile % self.across.groups());
        let rows = self.up.places_of(tile / self.across.groups());
        let (first, last) = (self.rect(columns.start, rows.start), self.rect(columns.end - 1, rows.end - 1));
        let halo = Rect { x1: first.x1 - spacing, y1: first.y1 - spacing, x2: last.x2 + spacing, y2: last.y2 + spacing };
        let metal = clip(metal, &halo);
        let windows = &lines.windows;
        let mut marks = vec![0u64; (columns.len() * rows.len()).div_ceil(64)];
        let reach = |edge: i32, size: i32| (edge - spacing, edge + size + spacing);
        let reaches: Vec<_> = columns.clone().map(|i| reach(self.across.edge(i), self.across.size)).collect();
        let mut near = vec![false; reaches.len()];
        for j in rows.clone() {
            near.fill(false);
            let (y1, y2) = reach(self.up.edge(j), self.up.size);
            mark_met(&metal, &reaches, y1, y2, &mut near);
            for i in columns.clone().filter(|i| !near[(i - columns.start) as usize]) {
                let place = self.rect(i, j);
                let across = (windows.origin.0, windows.size.0, windows.step.0, windows.columns);
                let up = (windows.origin.1, windows.size.1, windows.step.1, windows.rows);
                let held = containing(across, place.x1, place.x2);
                let mut lines = containing(up, place.y1, place.y2);
                if lines.any(|b| held.clone().any(|a| low[b * windows.columns + a])) {
                    let bit = (j - rows.start) as usize * columns.len() + (i - columns.start) as usize;
                    marks[bit / 64] |= 1 << (bit % 64);
                }
            }
        }
        self.tiles.push(marks);
    }

    /// How many squares of a window the boxes hold.
    fn area_in(&self, window: &Rect) -> i64 {
        let columns = self.across.near(window.x1, window.x2);
        let shared = |low: i32, high: i32, from: i32, to: i32| i64::from(high.min(to) - low.max(from));
        let row = |j: i32| -> i64 {
            let of = |i: i32| {
                let place = self.rect(i, j);
                shared(place.x1, place.x2, window.x1, window.x2) * shared(place.y1, place.y2, window.y1, window.y2)
            };
            columns.clone().filter(|i| self.has(*i, j)).map(of).sum()
        };
        self.up.near(window.y1, window.y2).map(row).sum()
    }

    /// The runs of a row, from left to right.
    fn runs(&self, j: i32) -> Vec<Range<i32>> {
        let mut runs: Vec<Range<i32>> = Vec::new();
        for i in self.across.places.clone().filter(|i| self.has(*i, j)) {
            match runs.last_mut() {
                Some(run) if run.end == i && run.len() < 32_767 => run.end = i + 1,
                _ => runs.push(i..i + 1),
            }
        }
        runs
    }
}

fn put(out: &mut Vec<u8>, kind: u8, form: u8, body: &[u8]) {
    out.extend_from_slice(&((body.len() + 4) as u16).to_be_bytes());
    out.extend_from_slice(&[kind, form]);
    out.extend_from_slice(body);
}

fn put_name(out: &mut Vec<u8>, kind: u8, name: &[u8]) {
    let mut padded = name.to_vec();
    padded.resize(name.len().next_multiple_of(2), 0);
    put(out, kind, 0x06, &padded);
}

fn put_points(out: &mut Vec<u8>, points: &[(i32, i32)]) {
    let body: Vec<u8> = points.iter().flat_map(|(x, y)| [x.to_be_bytes(), y.to_be_bytes()].concat()).collect();
    put(out, 0x10, 0x03, &body);
}

/// How many boxes an array has in a row, and how many rows.
const LONGEST: usize = 32_767;

fn has_piece(row: &[Range<i32>], piece: &Range<i32>) -> bool {
    row.binary_search_by_key(&piece.start, |other| other.start).is_ok_and(|k| row[k] == *piece)
}

/// How many rows below a piece have it, over the length of a stack.
fn level(below: &[(Range<i32>, usize)], piece: &Range<i32>) -> usize {
    match below.binary_search_by_key(&piece.start, |(other, _)| other.start) {
        Ok(k) if below[k].0 == *piece => (below[k].1 + 1) % LONGEST,
        _ => 0,
    }
}

fn put_stack(out: &mut Vec<u8>, cell: &[u8], (x, y): (i32, i32), (columns, rows): (i32, i32), step: (i32, i32)) {
    let is_array = columns > 1 || rows > 1;
    put(out, if is_array { 0x0b } else { 0x0a }, 0x00, &[]);
    put_name(out, 0x12, cell);
    if is_array {
        put(out, 0x13, 0x02, &[(columns as u16).to_be_bytes(), (rows as u16).to_be_bytes()].concat());
        put_points(out, &[(x, y), (x + columns * step.0, y), (x, y + rows * step.1)]);
    } else {
        put_points(out, &[(x, y)]);
    }
    put(out, 0x11, 0x00, &[]);
}

/// The fill library.
fn library(rules: &Rules, fill: &Fill, units: &[u8], dates: &[u8]) -> Vec<u8> {
    let (width, height, step) = (fill.across.size, fill.up.size, (fill.across.step, fill.up.step));
    let cell = rules.text("fill_cell");
    let mut out = Vec::new();
    put(&mut out, 0x00, 0x02, &600u16.to_be_bytes());
    put(&mut out, 0x01, 0x02, dates);
    put_name(&mut out, 0x02, rules.text("fill_lib"));
    put(&mut out, 0x03, 0x05, units);
    put(&mut out, 0x05, 0x02, dates);
    put_name(&mut out, 0x06, cell);
    put(&mut out, 0x08, 0x00, &[]);
    put(&mut out, 0x0d, 0x02, &(rules.key("fill_layer") as u16).to_be_bytes());
    put(&mut out, 0x0e, 0x02, &(rules.key("fill_datatype") as u16).to_be_bytes());
    put_points(&mut out, &[(0, 0), (0, height), (width, height), (width, 0), (0, 0)]);
    put(&mut out, 0x11, 0x00, &[]);
    put(&mut out, 0x07, 0x00, &[]);
    put(&mut out, 0x05, 0x02, dates);
    put_name(&mut out, 0x06, rules.text("fill_top"));
    let pieces: Vec<Vec<Range<i32>>> = fill.up.places.clone().map(|j| fill.runs(j)).collect();
    let mut levels: Vec<(Range<i32>, usize)> = Vec::new();
    for (j, row) in fill.up.places.clone().zip(0..) {
        let here: Vec<_> = pieces[row].iter().map(|piece| (piece.clone(), level(&levels, piece))).collect();
        for (piece, _) in here.iter().filter(|(_, level)| *level == 0) {
            let above = pieces[row..].iter().take(LONGEST).take_while(|others| has_piece(others, piece));
            let (x, y) = (fill.across.edge(piece.start), fill.up.edge(j));
            let (columns, rows) = (piece.len() as i32, above.count() as i32);
            put_stack(&mut out, cell, (x, y), (columns, rows), step);
        }
        levels = here;
    }
    put(&mut out, 0x07, 0x00, &[]);
    put(&mut out, 0x04, 0x00, &[]);
    out
}

fn main() {
    let paths: Vec<String> = std::env::args().skip(1).collect();
    let [rules, design, out] = paths.as_slice() else { panic!("usage: plain RULES DESIGN OUT") };
    let rules = Rules::read(rules);
    let bytes = std::fs::read(design).expect("the design");
    let (units, dates) = head(&bytes);
    let (units, dates) = (units.to_vec(), dates.to_vec());
    let metal = from_rects(&flatten(read_library(bytes, rules.layer()).0, rules.text("top")).concat());
    let lines = Lines::of(&rules);
    let areas = measure_all(&metal, &lines.windows);
    let low: Vec<bool> = areas.iter().enumerate().map(|(k, area)| lines.is_low(k, *area)).collect();
    let mut fill = Fill::read(&rules);
    for _ in 0..fill.across.groups() * fill.up.groups() {
        fill.bring(&metal, &low, &lines, rules.key("spacing"));
    }
    let library = library(&rules, &fill, &units, &dates);
    let mut report = Vec::new();
    for (k, area) in areas.iter().enumerate() {
        let windows = &lines.windows;
        let x1 = windows.origin.0 + (k % windows.columns) as i32 * windows.step.0;
        let y1 = windows.origin.1 + (k / windows.columns) as i32 * windows.step.1;
        let window = Rect { x1, y1, x2: x1 + windows.size.0, y2: y1 + windows.size.1 };
        lines.put(k, *area, fill.area_in(&window), &mut report);
    }
    std::fs::write(out, library).expect("the library");
    std::io::stdout().write_all(&report).expect("the report");
}
