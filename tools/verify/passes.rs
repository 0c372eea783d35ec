//! A fill in a deck's passes, in plain Rust. Each pass takes its raster at one origin or at several, and each of these as it is or in coarser
//! ones between one another: a turn of the program for each, after which its boxes are existing fill. It verifies:
//!
//! - OUT has the boxes turn by turn: by passes in their order, and in a pass by origins, that which has most places to fill first and the
//!   others row by row. The boxes of a turn stand together, in the stacks that they make.
//! - A turn has a box on each of its places that is allowed and lies in a window that is low before it, and on no other. So each box
//!   keeps its pass's fill spacing to all boxes before it, and lies in a window that was low without the boxes of its pass.
//! - Behind a pass no place of its raster, at any of its origins, is allowed and lies in a window that is still low: so none is once all is
//!   done, since later boxes only take room.
use crate::drawn::{Covered, Drawn};
use crate::library::{filled_by, read, Cell, Reference};
use crate::pieces::Grid;
use crate::rules::{Lines, Rules};
use crate::sweep::Rect;
use crate::{check_report, raster, Inputs};

/// A pass: its rules, at which distances from its origin its raster is taken, and of every how manieth column and row each time.
struct Pass<'a> {
    rules: &'a Rules,
    right: Vec<i32>,
    up: Vec<i32>,
    each: i32,
}

impl Pass<'_> {
    fn of(rules: &Rules) -> Pass<'_> {
        let origins = rules.key_or("origins", 1);
        let parts = |step: &str| {
            let mut found: Vec<i32> = (0..origins).map(|k| (i64::from(k) * i64::from(rules.key(step)) / i64::from(origins)) as i32).collect();
            found.dedup();
            found
        };
        let each = (1..=4).find(|each| each * each == rules.key_or("gradual", 1)).expect("a square");
        Pass { rules, right: parts("step_x"), up: parts("step_y"), each }
    }

    fn spacings(&self) -> (i32, i32) {
        (self.rules.key("spacing"), self.rules.key("fill_spacing"))
    }

    fn origins(&self) -> impl Iterator<Item = (i32, i32)> + '_ {
        self.up.iter().flat_map(|up| self.right.iter().map(|right| (*right, *up)))
    }

    /// On which of its rasters a box stands: how far that of the origin is moved, and how far its coarser one beyond.
    fn turn_of(&self, reference: &Reference) -> Result<Turn, String> {
        let part = |at: i32, origin: &str, step: &str, moves: &[i32]| {
            let (step, origin) = (i64::from(self.rules.key(step)), i64::from(self.rules.key(origin)));
            let beyond = (i64::from(at) - origin).rem_euclid(step * i64::from(self.each));
            let moved = moves.iter().position(|moved| i64::from(*moved) == beyond % step)?;
            Some((moved, beyond as i32))
        };
        let Reference { x, y, .. } = reference;
        match (part(*x, "origin_x", "step_x", &self.right), part(*y, "origin_y", "step_y", &self.up)) {
            (Some((column, right)), Some((row, up))) => Ok(Turn { origin: row * self.right.len() + column, moved: (right, up) }),
            _ => Err(format!("OUT: the box at {x},{y} stands off the raster or the frame")),
        }
    }
}

/// A turn of a pass: the number of its origin, and how far its raster is moved in all.
#[derive(Clone, Copy, PartialEq)]
struct Turn {
    origin: usize,
    moved: (i32, i32),
}

/// The references of a pass, by turns.
type Turns<'a> = Vec<(Turn, &'a [Reference])>;

/// The design with the boxes of the turns so far.
struct Filled {
    drawn: Drawn,
    boxes: Covered,
    lines: Lines,
    count: usize,
}

impl Filled {
    fn is_low(&self, window: usize) -> bool {
        self.lines.is_low(window, self.drawn.covered.area(window) + self.boxes.area(window))
    }

    /// Whether a box has room, and lies in a low window.
    fn wants(&self, rect: &Rect, pass: &Pass) -> bool {
        let mut around = self.boxes.windows.holding(rect);
        around.any(|window| self.is_low(window)) && self.drawn.why_not(rect, pass.spacings()).is_none()
    }

    /// How many places of a raster are wanted, and the first of them.
    fn wanted(&self, places: &Grid, pass: &Pass) -> (usize, Option<Rect>) {
        let mut wanted = (0..places.count()).map(|place| places.rect(place)).filter(|rect| self.wants(rect, pass));
        let first = wanted.next();
        (usize::from(first.is_some()) + wanted.count(), first)
    }

    /// Takes the boxes of a turn, which are just those that are wanted.
    fn take(&mut self, pass: &Pass, turn: Turn, references: &[Reference]) -> Result<(), String> {
        let places = raster(pass.rules, pass.each, turn.moved);
        let filled = filled_by(references, &places)?;
        for (place, filled) in filled.iter().enumerate() {
            let rect = places.rect(place);
            match (filled, self.wants(&rect, pass)) {
                (true, false) => return Err(self.why_unwanted(&rect, pass)),
                (false, true) => return Err(format!("the box at {},{} is missing beside those of its turn", rect.x1, rect.y1)),
                _ => {}
            }
        }
        for rect in (0..filled.len()).filter(|place| filled[*place]).map(|place| places.rect(place)) {
            self.drawn.place(&rect);
            self.boxes.put(&rect, 1);
            self.count += 1;
        }
        Ok(())
    }

    fn why_unwanted(&self, rect: &Rect, pass: &Pass) -> String {
        let why = self.drawn.why_not(rect, pass.spacings()).unwrap_or("lies in no window that was low");
        format!("the box at {},{} {why}", rect.x1, rect.y1)
    }

    /// Takes the boxes of a pass, whose first origin is one with most places to fill.
    fn take_pass(&mut self, pass: &Pass, turns: Turns) -> Result<(), String> {
        let wanted = |filled: &Filled| -> Vec<usize> {
            pass.origins().map(|moved| filled.wanted(&raster(pass.rules, 1, moved), pass).0).collect()
        };
        if let (Some((first, _)), true) = (turns.first(), pass.origins().count() > 1) {
            let counts = wanted(self);
            if counts.iter().any(|count| *count > counts[first.origin]) {
                return Err(format!("origin {} of a pass comes first, of {counts:?} places to fill", first.origin + 1));
            }
        }
        turns.into_iter().try_for_each(|(turn, references)| self.take(pass, turn, references))?;
        match pass.origins().find_map(|moved| self.wanted(&raster(pass.rules, 1, moved), pass).1) {
            Some(rect) => Err(format!("the box at {},{} is missing in a window that is low", rect.x1, rect.y1)),
            None => Ok(()),
        }
    }
}

/// The turns of a pass: those of an origin together, the origins but for the first one in their order, none twice.
fn turns_of<'a>(pass: &Pass, references: &'a [Reference]) -> Result<Turns<'a>, String> {
    let all = references.iter().map(|reference| pass.turn_of(reference)).collect::<Result<Vec<Turn>, String>>()?;
    let mut turns: Turns = Vec::new();
    let mut from = 0;
    for group in all.chunk_by(|one, next| one == next) {
        if turns.iter().any(|(turn, _)| *turn == group[0]) {
            return Err("OUT: the boxes of a turn stand apart".to_string());
        }
        turns.push((group[0], &references[from..from + group.len()]));
        from += group.len();
    }
    let mut origins: Vec<usize> = turns.iter().map(|(turn, _)| turn.origin).collect();
    origins.dedup();
    let is_in_order = origins.get(1..).is_none_or(|others| others.is_sorted_by(|one, next| one < next) && !others.contains(&origins[0]));
    if is_in_order { Ok(turns) } else { Err("OUT: the origins of a pass stand in another order".to_string()) }
}

/// The name of a pass's cell.
fn name_of(rules: &Rules, number: usize) -> Vec<u8> {
    let mut name = rules.text("fill_cell").to_vec();
    name.extend((number > 1).then(|| format!("_P{number}").into_bytes()).unwrap_or_default());
    name
}

/// Checks a fill in passes; answers how many boxes it has, and how many windows it leaves low.
pub fn check(inputs: &Inputs, passes: &[Rules], report: &[u8]) -> Result<(usize, usize), String> {
    let rules = &inputs.rules;
    let mut drawn = Drawn::open(rules, &inputs.design, &inputs.edits);
    inputs.edits.iter().for_each(|edit| drawn.edit(edit));
    let mut filled = Filled { drawn, boxes: Covered::none(rules), lines: Lines::of(rules), count: 0 };
    let passes: Vec<Pass> = passes.iter().map(Pass::of).collect();
    let cells: Vec<Cell> = (1..).zip(&passes).map(|(number, pass)| Cell::of(pass.rules, name_of(rules, number), pass.each)).collect();
    let library = read(&inputs.out, rules, &cells, inputs.head())?;
    let by_pass: Vec<&[Reference]> = library.references.chunk_by(|one, next| one.cell == next.cell).collect();
    if by_pass.iter().map(|references| references[0].cell).ne(library.cells) {
        return Err("OUT: the passes stand in another order, or a cell has no box".to_string());
    }
    for (number, pass) in passes.iter().enumerate() {
        let references = by_pass.iter().find(|references| references[0].cell == number).copied().unwrap_or_default();
        filled.take_pass(pass, turns_of(pass, references)?)?;
    }
    let low = check_report(&filled.lines, &filled.drawn.covered, &filled.boxes, report)?;
    Ok((filled.count, low))
}
