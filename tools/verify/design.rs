//! Designs in plain Rust, for the checker of fills and the benchmarks alone: reads a GDSII library and carries the shapes of a layer to their copies. Records are
//! checked as `gds_grammar` checks them, each by itself and as they stand in an element; the order of the records around elements, shapes and references are taken for sound.
#![allow(dead_code)] // no benchmark uses all of it

use crate::sweep::Rect;
use crate::threads::{beside, let_go, share_out};
use std::collections::HashMap;

/// The elements of a cell are filled in at most so many runs, each of so many or of all that are left.
const MOST_RUNS: usize = 16;
const LEAST_RUN: usize = 8_192;

/// The copies are carried in at most so many shares, each of so many or of all that are left.
const MOST_SHARES: usize = 16;
const LEAST_SHARE: usize = 4_096;

/// So many bytes, or elements of one cell, take longer to give back than a thread takes to begin.
const MANY_BYTES: usize = 4_194_304;
const MANY_ELEMENTS: usize = 65_536;

type Point = (i64, i64);

/// Where a reference carries: swapped first, then each coordinate negated or not, then moved.
#[derive(Clone, Copy)]
struct Placement {
    swapped: bool,
    flip_x: bool,
    flip_y: bool,
    x: i64,
    y: i64,
}

fn signed(flip: bool, v: i64) -> i64 {
    if flip { -v } else { v }
}

impl Placement {
    fn shift(x: i64, y: i64) -> Placement {
        Placement { swapped: false, flip_x: false, flip_y: false, x, y }
    }

    fn of(reflected: bool, turns: u8, (x, y): Point) -> Placement {
        let (swapped, flip_x, flip_y) = match turns {
            0 => (false, false, reflected),
            1 => (true, !reflected, false),
            2 => (false, true, !reflected),
            _ => (true, reflected, true),
        };
        Placement { swapped, flip_x, flip_y, x, y }
    }

    fn point(&self, (x, y): Point) -> Point {
        let (a, b) = if self.swapped { (y, x) } else { (x, y) };
        (signed(self.flip_x, a) + self.x, signed(self.flip_y, b) + self.y)
    }

    fn after(&self, inner: &Placement) -> Placement {
        let (fx, fy) = if self.swapped { (inner.flip_y, inner.flip_x) } else { (inner.flip_x, inner.flip_y) };
        let (x, y) = self.point((inner.x, inner.y));
        let swapped = self.swapped != inner.swapped;
        Placement { swapped, flip_x: self.flip_x != fx, flip_y: self.flip_y != fy, x, y }
    }

    fn rect(&self, r: &Rect) -> Rect {
        let (a, b) = self.point((r.x1.into(), r.y1.into()));
        let (c, d) = self.point((r.x2.into(), r.y2.into()));
        Rect { x1: a.min(c) as i32, y1: b.min(d) as i32, x2: a.max(c) as i32, y2: b.max(d) as i32 }
    }
}

#[derive(Clone)]
pub struct Link {
    name: Vec<u8>,
    placement: Placement,
    columns: i64,
    rows: i64,
    column_step: Point,
    row_step: Point,
}

/// Shapes of neighbouring elements, filled.
#[derive(Default)]
struct Run {
    pieces: Vec<Rect>,
    /// How many pieces the shapes have up to each one.
    ends: Vec<usize>,
}

#[derive(Default)]
pub struct Cell {
    /// One run of all elements, or several that threads filled.
    runs: Vec<Run>,
    links: Vec<Link>,
}

#[derive(Default)]
struct Draft<'a> {
    layer: u16,
    data_type: u16,
    path_type: u16,
    width: i32,
    begin: i32,
    end: i32,
    cell: &'a [u8],
    flags: u16,
    angle: f64,
    columns: u16,
    rows: u16,
    xy: &'a [u8],
}

pub fn word(b: &[u8]) -> u16 {
    u16::from_be_bytes([b[0], b[1]])
}

fn number(b: &[u8]) -> i32 {
    i32::from_be_bytes([b[0], b[1], b[2], b[3]])
}

fn real(b: &[u8]) -> f64 {
    let fraction = b[1..8].iter().fold(0u64, |sum, byte| sum << 8 | u64::from(*byte)) as f64;
    let size = fraction / 2f64.powi(56) * 16f64.powi(i32::from(b[0] & 0x7f) - 64);
    if b[0] >> 7 == 1 { -size } else { size }
}

fn name(mut b: &[u8]) -> Vec<u8> {
    while let [front @ .., 0] = b {
        b = front;
    }
    b.to_vec()
}

fn points(xy: &[u8]) -> Vec<Point> {
    xy.chunks_exact(8).map(|b| (number(b).into(), number(&b[4..]).into())).collect()
}

/// Whether a record has the data type and the amount of data that the manual gives its kind. Some kinds are skipped whatever they have.
fn is_well(kind: u8, form: u8, body: &[u8]) -> bool {
    let wanted = match kind {
        0x04 | 0x07..=0x0c | 0x11 | 0x15 | 0x2d | 0x38 => 0,
        0x17 | 0x1a | 0x26 => 1,
        0x00 | 0x01 | 0x05 | 0x0d | 0x0e | 0x13 | 0x16 | 0x21 | 0x22 | 0x2a | 0x2b | 0x2e | 0x36 => 2,
        0x0f | 0x10 | 0x2f | 0x30 | 0x31 => 3,
        0x03 | 0x1b | 0x1c => 5,
        0x02 | 0x06 | 0x12 | 0x19 | 0x1f | 0x20 | 0x23 | 0x2c | 0x37 => 6,
        0x34 | 0x39 | 0x3a | 0x3b => form,
        _ => return false,
    };
    let has_size = match kind {
        0x0d | 0x0e | 0x1a | 0x21 => body.len() == 2,
        0x0f | 0x13 | 0x30 | 0x31 => body.len() == 4,
        0x1b | 0x1c => body.len() == 8,
        0x03 => body.len() == 16,
        0x01 | 0x05 => body.len() == 24,
        0x06 | 0x12 => body.iter().any(|byte| *byte != 0),
        _ => true,
    };
    wanted == form && has_size
}

#[inline(always)]
pub fn next<'a>(bytes: &'a [u8], at: &mut usize) -> (u8, &'a [u8]) {
    let len = word(&bytes[*at..]) as usize;
    assert!(len >= 4 && len % 2 == 0, "a record's length is odd or too short");
    let (kind, form) = (bytes[*at + 2], bytes[*at + 3]);
    let body = &bytes[*at + 4..*at + len];
    assert!(is_well(kind, form, body), "a record is not as its kind");
    *at += len;
    (kind, body)
}

/// The units and the dates of a library.
pub fn head(bytes: &[u8]) -> (&[u8], &[u8]) {
    let (mut at, mut dates): (usize, &[u8]) = (0, &[]);
    loop {
        match next(bytes, &mut at) {
            (0x01, body) => dates = body,
            (0x03, body) => return (body, dates),
            _ => {}
        }
    }
}

/// The rectangles of a rectilinear polygon, by its vertical edges and winding numbers.
fn fill(points: &[Point], out: &mut Vec<Rect>) {
    let edges: Vec<_> = points
        .windows(2)
        .filter(|p| p[0].0 == p[1].0 && p[0].1 != p[1].1)
        .map(|p| (p[0].0, p[0].1.min(p[1].1), p[0].1.max(p[1].1), if p[0].1 < p[1].1 { 1 } else { -1 }))
        .collect();
    if let ([a, b], 5) = (edges.as_slice(), points.len()) {
        out.push(Rect { x1: a.0.min(b.0) as i32, y1: a.1 as i32, x2: a.0.max(b.0) as i32, y2: a.2 as i32 });
        return;
    }
    let mut lines: Vec<i64> = edges.iter().flat_map(|e| [e.1, e.2]).collect();
    lines.sort_unstable();
    lines.dedup();
    for line in lines.windows(2) {
        let mut row: Vec<_> = edges.iter().filter(|e| e.1 <= line[0] && line[1] <= e.2).map(|e| (e.0, e.3)).collect();
        row.sort_unstable();
        let mut winding = 0;
        for pair in row.windows(2) {
            winding += pair[0].1;
            if winding != 0 && pair[0].0 < pair[1].0 {
                out.push(Rect { x1: pair[0].0 as i32, y1: line[0] as i32, x2: pair[1].0 as i32, y2: line[1] as i32 });
            }
        }
    }
}

/// The numbers of a path: its type, its width and its two extensions.
#[derive(Clone, Copy)]
pub struct Numbers {
    path_type: u16,
    width: i32,
    begin: i32,
    end: i32,
}

/// The rectangles of a path's segments; its points are corners.
fn wire(numbers: Numbers, corners: &[Point], out: &mut Vec<Rect>) {
    let half = i64::from(numbers.width.abs() / 2);
    let ends = match numbers.path_type {
        0 => (0, 0),
        2 => (half, half),
        _ => (numbers.begin.into(), numbers.end.into()),
    };
    let last = corners.len() - 2;
    for (k, pair) in corners.windows(2).enumerate() {
        let mut before = if k == 0 { ends.0 } else { half };
        let mut behind = if k == last { ends.1 } else { half };
        let (mut a, mut b) = (pair[0], pair[1]);
        if b < a {
            (a, b, before, behind) = (b, a, behind, before);
        }
        let (x1, y1, x2, y2) = if a.1 == b.1 {
            (a.0 - before, a.1 - half, b.0 + behind, a.1 + half)
        } else {
            (a.0 - half, a.1 - before, a.0 + half, b.1 + behind)
        };
        out.push(Rect { x1: x1 as i32, y1: y1 as i32, x2: x2 as i32, y2: y2 as i32 });
    }
}

fn link(draft: &Draft, array: bool) -> Link {
    let points = points(draft.xy);
    let turns = (draft.angle / 90.0).rem_euclid(4.0) as u8;
    let placement = Placement::of(draft.flags >> 15 == 1, turns, points[0]);
    let (columns, rows) = if array { (draft.columns.into(), draft.rows.into()) } else { (1, 1) };
    let step = |k: usize, n: i64| {
        if array { ((points[k].0 - points[0].0) / n, (points[k].1 - points[0].1) / n) } else { (0, 0) }
    };
    let (column_step, row_step) = (step(1, columns), step(2, rows));
    Link { name: name(draft.cell), placement, columns, rows, column_step, row_step }
}

/// The kinds of records that an element of a kind needs before its points, and those that it may have, each as a set of bits.
fn kinds_before(element: u8) -> (u64, u64) {
    let set = |kinds: &[u8]| kinds.iter().fold(0, |set, kind| set | 1 << *kind);
    match element {
        0x08 => (set(&[0x0d, 0x0e]), 0),
        0x09 => (set(&[0x0d, 0x0e]), set(&[0x21, 0x0f, 0x30, 0x31])),
        0x0a => (set(&[0x12]), set(&[0x1a, 0x1b, 0x1c])),
        0x0b => (set(&[0x12, 0x13]), set(&[0x1a, 0x1b, 0x1c])),
        0x0c => (set(&[0x0d, 0x16]), set(&[0x17, 0x21, 0x0f, 0x1a, 0x1b, 0x1c])),
        0x15 => (set(&[0x0d, 0x2a]), 0),
        0x2d => (set(&[0x0d, 0x2e]), 0),
        _ => panic!("no element begins so"),
    }
}

/// Whether an element of a kind has these points: whole ones, as many as it needs, and a boundary's last is its first.
fn is_body(element: u8, xy: &[u8]) -> bool {
    let count = xy.len() / 8;
    let has_count = match element {
        0x08 => count > 3 && xy[..8] == xy[xy.len() - 8..],
        0x0a => count == 1,
        0x0b => count == 3,
        _ => count > 0,
    };
    xy.len() % 8 == 0 && has_count
}

/// The records of an element up to its end: those before its points in any order, each once, but flags and plex first.
fn draft<'a>(element: u8, bytes: &'a [u8], at: &mut usize) -> Draft<'a> {
    let mut draft = Draft::default();
    let (needed, other) = kinds_before(element);
    let mut seen = 0u64;
    loop {
        let (record, body) = next(bytes, at);
        if record == 0x10 {
            assert!(seen & needed == needed && is_body(element, body), "an element has other records or points");
            draft.xy = body;
            break;
        }
        let may_stand = match record {
            0x26 => seen == 0,
            0x2f => seen & !(1 << 0x26) == 0,
            _ => (needed | other) >> record & 1 == 1 && seen >> record & 1 == 0,
        };
        assert!(may_stand, "a record where it may not stand");
        seen |= 1 << record;
        match record {
            0x0d => draft.layer = word(body),
            0x0e => draft.data_type = word(body),
            0x0f => draft.width = number(body),
            0x12 => draft.cell = body,
            0x13 => (draft.columns, draft.rows) = (word(body), word(&body[2..])),
            0x1a => draft.flags = word(body),
            0x1c => draft.angle = real(body),
            0x21 => draft.path_type = word(body),
            0x30 => draft.begin = number(body),
            0x31 => draft.end = number(body),
            _ => {}
        }
    }
    assert!(element != 0x0c || next(bytes, at).0 == 0x19, "a text without a string");
    loop {
        match next(bytes, at).0 {
            0x2b => assert_eq!(next(bytes, at).0, 0x2c, "a property without a value"),
            0x11 => return draft,
            _ => panic!("a record behind an element's points"),
        }
    }
}

impl Draft<'_> {
    fn numbers(&self) -> Numbers {
        Numbers { path_type: self.path_type, width: self.width, begin: self.begin, end: self.end }
    }
}

/// An element as a value of its own, as a library keeps it.
pub enum Element {
    Boundary { layer: u16, data_type: u16, points: Vec<Point> },
    Path { layer: u16, data_type: u16, numbers: Numbers, points: Vec<Point> },
    Link(Link),
    Other,
}

impl Element {
    fn of(kind: u8, draft: &Draft) -> Element {
        let (layer, data_type) = (draft.layer, draft.data_type);
        match kind {
            0x08 => Element::Boundary { layer, data_type, points: points(draft.xy) },
            0x09 => Element::Path { layer, data_type, numbers: draft.numbers(), points: points(draft.xy) },
            0x0a | 0x0b => Element::Link(link(draft, kind == 0x0b)),
            _ => Element::Other,
        }
    }
}

impl Run {
    fn put_boundary(&mut self, points: &[Point]) {
        fill(points, &mut self.pieces);
        self.ends.push(self.pieces.len());
    }

    fn put_path(&mut self, numbers: Numbers, points: &[Point]) {
        wire(numbers, points, &mut self.pieces);
        self.ends.push(self.pieces.len());
    }

    /// The pieces of the shapes from one to another.
    fn pieces_of(&self, from: usize, to: usize) -> &[Rect] {
        let begin = |shape: usize| if shape == 0 { 0 } else { self.ends[shape - 1] };
        &self.pieces[begin(from)..begin(to)]
    }
}

impl Cell {
    /// The run that elements are put into.
    fn run(&mut self) -> &mut Run {
        if self.runs.is_empty() {
            self.runs.push(Run::default());
        }
        &mut self.runs[0]
    }

    /// How many shapes it has.
    fn own(&self) -> usize {
        self.runs.iter().map(|run| run.ends.len()).sum()
    }

    /// Puts an element into the cell as it is read.
    fn put_draft(&mut self, kind: u8, draft: &Draft, wanted: (u16, u16)) {
        let is_wanted = (draft.layer, draft.data_type) == wanted;
        match kind {
            0x08 if is_wanted => self.run().put_boundary(&points(draft.xy)),
            0x09 if is_wanted => self.run().put_path(draft.numbers(), &points(draft.xy)),
            0x0a | 0x0b => self.links.push(link(draft, kind == 0x0b)),
            _ => {}
        }
    }

    /// Puts an element of a library into the cell.
    fn put_element(&mut self, element: &Element, wanted: (u16, u16)) {
        match element {
            Element::Boundary { layer, data_type, points } if (*layer, *data_type) == wanted => self.run().put_boundary(points),
            Element::Path { layer, data_type, numbers, points } if (*layer, *data_type) == wanted => {
                self.run().put_path(*numbers, points);
            }
            Element::Link(link) => self.links.push(link.clone()),
            _ => {}
        }
    }

    /// The cell of these elements, whose runs threads fill.
    fn of(elements: &[Element], wanted: (u16, u16)) -> Cell {
        let filled = |elements: &[Element]| {
            let mut cell = Cell::default();
            elements.iter().for_each(|element| cell.put_element(element, wanted));
            cell
        };
        if elements.len() <= LEAST_RUN {
            return filled(elements);
        }
        let size = elements.len().div_ceil(MOST_RUNS).max(LEAST_RUN);
        let mut parts: Vec<Cell> = (0..elements.len().div_ceil(size)).map(|_| Cell::default()).collect();
        share_out(elements.chunks(size).zip(&mut parts), |(elements, part)| *part = filled(elements));
        let mut cell = Cell::default();
        for part in parts {
            cell.runs.extend(part.runs);
            cell.links.extend(part.links);
        }
        cell
    }
}

/// The cells, each by `take` of its elements, and their names, in the order of the file.
fn read<'a, C: Default>(bytes: &'a [u8], take: impl Fn(&mut C, u8, Draft<'a>)) -> (Vec<C>, HashMap<Vec<u8>, usize>) {
    let (mut cells, mut indices, mut at) = (Vec::new(), HashMap::new(), 0);
    loop {
        match next(bytes, &mut at).0 {
            0x05 => {
                assert!(indices.insert(name(next(bytes, &mut at).1), cells.len()).is_none(), "two cells of one name");
                let mut cell = C::default();
                loop {
                    match next(bytes, &mut at).0 {
                        0x07 => break,
                        0x34 => {}
                        kind => take(&mut cell, kind, draft(kind, bytes, &mut at)),
                    }
                }
                cells.push(cell);
            }
            0x04 => return (cells, indices),
            _ => {}
        }
    }
}

/// The cells' rectangles of the layer and their references, filled as they are read.
pub fn read_cells(bytes: &[u8], layer: (u16, u16)) -> Cells {
    read(bytes, |cell: &mut Cell, kind, draft| cell.put_draft(kind, &draft, layer))
}

/// The elements of each cell.
pub type Library = Vec<Vec<Element>>;

/// Cells, and their places by name.
pub type Cells = (Vec<Cell>, HashMap<Vec<u8>, usize>);

/// The same by way of a library: each element of each layer is a value before one shape is filled. The library is answered too, for whoever lets
/// go of it. Another thread lets go of many bytes while the shapes are filled.
pub fn read_library(bytes: Vec<u8>, layer: (u16, u16)) -> (Cells, Library) {
    let (library, indices) = read(&bytes, |cell: &mut Vec<Element>, kind, draft| cell.push(Element::of(kind, &draft)));
    let is_large = bytes.len() >= MANY_BYTES;
    let cells = beside(bytes, is_large, || library.iter().map(|elements| Cell::of(elements, layer)).collect());
    ((cells, indices), library)
}

/// Whether a cell of the library has many elements: to give them back takes long.
pub fn is_large(library: &Library) -> bool {
    library.iter().any(|elements| elements.len() >= MANY_ELEMENTS)
}

struct Design {
    cells: Vec<Cell>,
    targets: Vec<Vec<usize>>,
    counts: Vec<Option<usize>>,
}

impl Design {
    fn count(&mut self, cell: usize) -> usize {
        if let Some(count) = self.counts[cell] {
            return count;
        }
        let mut total = self.cells[cell].own();
        for k in 0..self.targets[cell].len() {
            let each = self.count(self.targets[cell][k]);
            let link = &self.cells[cell].links[k];
            total += (link.columns * link.rows) as usize * each;
        }
        self.counts[cell] = Some(total);
        total
    }

    /// Carries the copies of a cell from one number up to another.
    fn carry(&self, cell: usize, at: &Placement, (from, to): (usize, usize), out: &mut Vec<Rect>) {
        let (mut from, mut to) = (from, to);
        for run in &self.cells[cell].runs {
            let own = run.ends.len();
            out.extend(run.pieces_of(from.min(own), to.min(own)).iter().map(|piece| at.rect(piece)));
            (from, to) = (from.saturating_sub(own), to.saturating_sub(own));
        }
        for (link, target) in self.cells[cell].links.iter().zip(&self.targets[cell]) {
            if to == 0 {
                return;
            }
            let each = self.counts[*target].expect("counted");
            let turns = if each == 0 { 0 } else { (link.columns * link.rows) as usize };
            if from < turns * each {
                self.carry_turns(link, *target, each, at, (from, to.min(turns * each)), out);
            }
            from = from.saturating_sub(turns * each);
            to = to.saturating_sub(turns * each);
        }
    }

    fn carry_turns(&self, link: &Link, target: usize, each: usize, at: &Placement, (from, to): (usize, usize), out: &mut Vec<Rect>) {
        for turn in from / each..to.div_ceil(each) {
            let (column, row) = (turn as i64 % link.columns, turn as i64 / link.columns);
            let x = link.placement.x + column * link.column_step.0 + row * link.row_step.0;
            let y = link.placement.y + column * link.column_step.1 + row * link.row_step.1;
            let share = (from.saturating_sub(turn * each), (to - turn * each).min(each));
            self.carry(target, &at.after(&Placement { x, y, ..link.placement }), share, out);
        }
    }
}

/// The rectangles of the top in lists, each of a share of its copies.
pub fn flatten((cells, indices): Cells, top: &[u8]) -> Vec<Vec<Rect>> {
    let targets = cells.iter().map(|cell| cell.links.iter().map(|link| indices[&link.name]).collect()).collect();
    let counts = vec![None; cells.len()];
    let mut design = Design { cells, targets, counts };
    let (top, count) = (indices[top], design.count(indices[top]));
    let size = count.div_ceil(MOST_SHARES).max(LEAST_SHARE);
    let mut lists = vec![Vec::new(); count.div_ceil(size)];
    share_out(lists.iter_mut().enumerate(), |(k, list)| {
        let share = (k * size, count.min((k + 1) * size));
        let mut rects = Vec::with_capacity(share.1 - share.0);
        design.carry(top, &Placement::shift(0, 0), share, &mut rects);
        *list = rects;
    });
    design.cells.into_iter().filter(|cell| cell.runs.len() > 1).for_each(|cell| let_go(cell.runs));
    lists
}
