//! What a design draws and a script changes, in plain Rust: metal, existing fill and keep-outs, each as rectangles that share no square.
use crate::design::{flatten, read_cells};
use crate::pieces::{shared, Areas, Axis, Grid, Metal};
use crate::rules::{On, Rules};
use crate::sweep::Rect;

/// What an edit of a script does with its rectangle.
#[derive(Clone, Copy, PartialEq)]
pub enum Kind {
    Add,
    Cut,
    Keep,
}

/// An edit of a script.
pub struct Edit {
    pub kind: Kind,
    pub rect: Rect,
}

pub fn read_script(path: &str) -> Vec<Edit> {
    let text = std::fs::read_to_string(path).expect("the script");
    let edit = |line: &str| {
        let (word, corners) = line.split_once(',').expect("an edit");
        let corners: Vec<i32> = corners.split(',').map(|number| number.parse().expect("a number")).collect();
        let &[x1, y1, x2, y2] = corners.as_slice() else { panic!("an edit of another form") };
        let kind = match word {
            "add" => Kind::Add,
            "cut" => Kind::Cut,
            "keep" => Kind::Keep,
            _ => panic!("an edit of another kind"),
        };
        Edit { kind, rect: Rect { x1, y1, x2, y2 } }
    };
    text.lines().filter(|line| !line.is_empty()).map(edit).collect()
}

/// A rectangle, grown to all sides.
pub fn grown(rect: &Rect, by: i32) -> Rect {
    Rect { x1: rect.x1 - by, y1: rect.y1 - by, x2: rect.x2 + by, y2: rect.y2 + by }
}

/// How many squares of what counts of each window are covered.
pub struct Covered {
    pub windows: Grid,
    clip: Option<Rect>,
    areas: Areas,
}

impl Covered {
    pub fn none(rules: &Rules) -> Covered {
        let axis = |[first, step, count, size]: [&str; 4]| {
            Axis::new(rules.key(first), rules.key(step), rules.key(count) as usize, rules.key(size))
        };
        let across = axis(["win_x", "win_step_x", "win_nx", "win_w"]);
        let windows = Grid { across, up: axis(["win_y", "win_step_y", "win_ny", "win_h"]) };
        Covered { areas: Areas(vec![0; windows.count()]), clip: rules.clip(), windows }
    }

    /// Counts a piece that comes, or goes.
    pub fn put(&mut self, piece: &Rect, sign: i64) {
        if let Some(part) = self.clip.map_or(Some(*piece), |clip| shared(&clip, piece)) {
            self.areas.put(&self.windows, &part, sign);
        }
    }

    /// Counts a piece of metal that comes, or goes: what of it lies over existing fill is covered all the same.
    fn put_beside(&mut self, fill: &Metal, piece: &Rect, sign: i64) {
        self.put(piece, sign);
        fill.parts_in(piece).for_each(|part| self.put(&part, -sign));
    }

    pub fn area(&self, window: usize) -> i64 {
        self.areas.0[window]
    }
}

/// What counts of a design, and what boxes keep clear of.
pub struct Drawn {
    metal: Metal,
    fill: Metal,
    keep: Metal,
    /// The squares of metal and existing fill.
    pub covered: Covered,
}

impl Drawn {
    /// What a design draws, with room for the edits of a script.
    pub fn open(rules: &Rules, bytes: &[u8], edits: &[Edit]) -> Drawn {
        let rects_on = |layers: Vec<On>| -> Vec<Rect> {
            layers.iter().flat_map(|on| flatten(read_cells(bytes, *on), rules.text("top")).concat()).collect()
        };
        let [metal, fill, keep] = [rules.metal(), rules.existing_fill(), rules.keep_outs()].map(rects_on);
        let added = edits.iter().map(|edit| edit.rect);
        let room: Vec<Rect> = metal.iter().chain(&fill).chain(&keep).copied().chain(added).chain([rules.frame()]).collect();
        let none = || Metal::none(&room);
        let mut drawn = Drawn { metal: none(), fill: none(), keep: none(), covered: Covered::none(rules) };
        for rect in &fill {
            let covered = &mut drawn.covered;
            drawn.fill.add(rect, |piece, sign| covered.put(piece, sign));
        }
        keep.iter().for_each(|rect| drawn.edit(&Edit { kind: Kind::Keep, rect: *rect }));
        metal.iter().for_each(|rect| drawn.edit(&Edit { kind: Kind::Add, rect: *rect }));
        drawn
    }

    pub fn edit(&mut self, edit: &Edit) {
        let Drawn { metal, fill, keep, covered } = self;
        match edit.kind {
            Kind::Add => metal.add(&edit.rect, |piece, sign| covered.put_beside(fill, piece, sign)),
            Kind::Cut => metal.cut(&edit.rect, |piece| covered.put_beside(fill, piece, -1)),
            Kind::Keep => keep.add(&edit.rect, |_, _| {}),
        }
    }

    /// From here on boxes keep clear of a box as of existing fill. What it covers is counted by whoever places it.
    pub fn place(&mut self, rect: &Rect) {
        self.fill.add(rect, |_, _| {});
    }

    /// Why no box may stand in a rectangle, by its spacings to metal and to fill, if it may not.
    pub fn why_not(&self, rect: &Rect, (spacing, fill_spacing): (i32, i32)) -> Option<&'static str> {
        if !self.metal.is_clear(&grown(rect, spacing)) {
            Some("is too near to metal")
        } else if !self.fill.is_clear(&grown(rect, fill_spacing)) {
            Some("is too near to fill")
        } else {
            (!self.keep.is_clear(rect)).then_some("stands over a keep-out")
        }
    }
}
