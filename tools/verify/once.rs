//! A fill by one run, whose workers may have filled while edits came, in plain Rust. It verifies:
//!
//! - Each box is one that some version could want. Workers bring the tiles of a version in one by one, each with all boxes of it that are
//!   wanted then, and only of the last version all tiles are sure to be in; when the edits came is not in the bytes. So for each box there
//!   must be a version, since when it has been allowed, and a window around it that was low in metal then, with this: no place of the same
//!   tile that lies in that window and has been allowed since then lacks its box, and for the last version no allowed place of any tile in
//!   that window does.
//! - No box is missing. The last version opened with no more boxes than those that a version before it could want; where a window is
//!   low in the final metal and these together, each allowed place in it has its box. So does each in a window that REPORT calls low.
//!
//! With an empty script there is one version, and these two say that the boxes are exactly the allowed ones of the windows that are low in
//! metal. Existing fill counts as metal does.
use crate::drawn::{grown, Covered, Drawn, Edit};
use crate::library::{filled_by, read, Cell};
use crate::pieces::Grid;
use crate::rules::{Lines, Rules};
use crate::{check_report, raster, Inputs};
use std::collections::HashMap;
use std::ops::Range;

/// The metal as the edits have left it so far, and what its versions were to the windows and the places of the rules. A version lasts
/// from one edit to the next; the design's metal is version 0.
struct History {
    places: Grid,
    lines: Lines,
    /// To metal, and to existing fill.
    spacings: (i32, i32),
    drawn: Drawn,
    /// By window: the versions in which it is low in metal.
    low: Vec<Vec<Range<u32>>>,
    /// By place: the version since when it has been allowed.
    since: Vec<Option<u32>>,
}

impl History {
    fn open(rules: &Rules, drawn: Drawn) -> History {
        let (places, windows) = (raster(rules, 1, (0, 0)), drawn.covered.windows.count());
        let mut history = History {
            lines: Lines::of(rules),
            spacings: (rules.key("spacing"), rules.key("fill_spacing")),
            low: vec![Vec::new(); windows],
            since: vec![None; places.count()],
            drawn,
            places,
        };
        (0..windows).for_each(|window| history.judge_window(0, window));
        (0..history.places.count()).for_each(|place| history.judge_place(0, place));
        history
    }

    /// Carries an edit out; the version it leads to looks anew at the windows and the places that it can have changed.
    fn edit(&mut self, version: u32, edit: &Edit) {
        self.drawn.edit(edit);
        let touched: Vec<usize> = self.drawn.covered.windows.meeting(&edit.rect).collect();
        touched.into_iter().for_each(|window| self.judge_window(version, window));
        let near: Vec<usize> = self.places.meeting(&grown(&edit.rect, self.spacings.0)).collect();
        near.into_iter().for_each(|place| self.judge_place(version, place));
    }

    fn judge_window(&mut self, version: u32, window: usize) {
        let is_low = self.lines.is_low(window, self.drawn.covered.area(window));
        let versions = &mut self.low[window];
        match versions.last_mut().filter(|last| last.end == u32::MAX) {
            Some(last) if !is_low => last.end = version,
            None if is_low => versions.push(version..u32::MAX),
            _ => {}
        }
    }

    fn judge_place(&mut self, version: u32, place: usize) {
        let is_allowed = self.drawn.why_not(&self.places.rect(place), self.spacings).is_none();
        self.since[place] = is_allowed.then(|| self.since[place].unwrap_or(version));
    }

    /// Whether a window was low in metal in one of the versions.
    fn was_low(&self, window: usize, versions: Range<u32>) -> bool {
        self.low[window].iter().any(|low| low.start.max(versions.start) < low.end.min(versions.end))
    }

    fn box_name(&self, place: usize) -> String {
        let rect = self.places.rect(place);
        format!("the box at {},{}", rect.x1, rect.y1)
    }
}

/// What is missing of the allowed boxes.
struct Missing {
    /// By window: an allowed place within it without its box.
    of_window: Vec<Option<usize>>,
    /// By tile and window: the first version since when such a place has been allowed.
    of_tile: HashMap<(usize, usize), u32>,
}

/// The boxes of OUT, beside the history of the metal.
struct Fill<'a> {
    history: &'a History,
    filled: Vec<bool>,
    /// The last version.
    edits: u32,
    /// How many columns and rows of places a tile has.
    tile: (usize, usize),
}

impl Fill<'_> {
    fn boxes(&self) -> impl Iterator<Item = usize> + '_ {
        (0..self.filled.len()).filter(|place| self.filled[*place])
    }

    /// The windows that the whole of a box lies in.
    fn around(&self, place: usize) -> impl Iterator<Item = usize> + '_ {
        self.history.drawn.covered.windows.holding(&self.history.places.rect(place))
    }

    fn tile_of(&self, place: usize) -> usize {
        let (column, row) = self.history.places.column_and_row(place);
        row / self.tile.1 * self.history.places.across.lows.len() + column / self.tile.0
    }

    fn check_spacing(&self) -> Result<(), String> {
        let History { places, drawn, spacings, .. } = self.history;
        let wrong = |place: usize| drawn.why_not(&places.rect(place), *spacings).map(|why| (place, why));
        match self.boxes().find_map(wrong) {
            Some((place, why)) => Err(format!("{} {why}", self.history.box_name(place))),
            None => Ok(()),
        }
    }

    fn missing(&self) -> Missing {
        let mut missing = Missing { of_window: vec![None; self.history.low.len()], of_tile: HashMap::new() };
        for place in (0..self.filled.len()).filter(|place| !self.filled[*place]) {
            let Some(since) = self.history.since[place] else { continue };
            for window in self.around(place) {
                missing.of_window[window].get_or_insert(place);
                let first = missing.of_tile.entry((self.tile_of(place), window)).or_insert(since);
                *first = since.min(*first);
            }
        }
        missing
    }

    /// The boxes that some version before the last could want.
    fn early(&self, missing: &Missing) -> Vec<usize> {
        let is_early = |place: &usize| {
            let Some(since) = self.history.since[*place] else { return false };
            let tile = self.tile_of(*place);
            self.around(*place).any(|window| {
                let first_missing = missing.of_tile.get(&(tile, window)).map_or(self.edits, |first| self.edits.min(*first));
                self.history.was_low(window, since..first_missing)
            })
        };
        self.boxes().filter(is_early).collect()
    }

    /// Checks that no box is missing in a window that is low whatever boxes the last version began with.
    fn check_complete(&self, rules: &Rules, missing: &Missing, early: &[usize]) -> Result<(), String> {
        let History { places, lines, drawn, .. } = self.history;
        let mut most = Covered::none(rules);
        early.iter().for_each(|place| most.put(&places.rect(*place), 1));
        for (window, place) in missing.of_window.iter().enumerate() {
            if let Some(place) = place.filter(|_| lines.is_low(window, drawn.covered.area(window) + most.area(window))) {
                let (a, b) = most.windows.column_and_row(window);
                return Err(format!("{} is missing in window {a},{b}, which is low", self.history.box_name(place)));
            }
        }
        Ok(())
    }

    /// Checks that the last version could want each box that isn't early.
    fn check_wanted(&self, missing: &Missing, early: &[usize]) -> Result<(), String> {
        let wants = |window: usize| {
            missing.of_window[window].is_none() && self.history.was_low(window, self.edits..self.edits + 1)
        };
        let is_early = |place: &usize| early.binary_search(place).is_ok();
        match self.boxes().find(|place| !is_early(place) && !self.around(*place).any(wants)) {
            Some(place) => Err(format!("{} was wanted in no version", self.history.box_name(place))),
            None => Ok(()),
        }
    }
}

/// Checks a fill by one run; answers how many boxes it has, and how many windows it leaves low.
pub fn check(inputs: &Inputs, report: &[u8]) -> Result<(usize, usize), String> {
    let rules = &inputs.rules;
    let mut history = History::open(rules, Drawn::open(rules, &inputs.design, &inputs.edits));
    (1..).zip(&inputs.edits).for_each(|(version, edit)| history.edit(version, edit));
    let cells = [Cell::of(rules, rules.text("fill_cell").to_vec(), 1)];
    let library = read(&inputs.out, rules, &cells, inputs.head())?;
    if library.cells.is_empty() {
        return Err("OUT: the cell of the box is missing".to_string());
    }
    let filled = filled_by(&library.references, &history.places)?;
    let tile = (rules.key("tile_nx") as usize, rules.key("tile_ny") as usize);
    let fill = Fill { history: &history, filled, edits: inputs.edits.len() as u32, tile };
    fill.check_spacing()?;
    let mut boxes = Covered::none(rules);
    fill.boxes().for_each(|place| boxes.put(&history.places.rect(place), 1));
    let low = check_report(&history.lines, &history.drawn.covered, &boxes, report)?;
    let missing = fill.missing();
    let early = fill.early(&missing);
    fill.check_complete(rules, &missing, &early)?;
    fill.check_wanted(&missing, &early)?;
    Ok((fill.boxes().count(), low))
}
