//! Metal as rectangles that share no square, and grids of equal rectangles, in plain Rust: for checks that share no algorithm with
//! the sweep of the program.
use crate::sweep::Rect;
use std::ops::Range;

/// The rectangle of the squares that two rectangles share.
pub fn shared(a: &Rect, b: &Rect) -> Option<Rect> {
    let both = Rect { x1: a.x1.max(b.x1), y1: a.y1.max(b.y1), x2: a.x2.min(b.x2), y2: a.y2.min(b.y2) };
    (both.x1 < both.x2 && both.y1 < both.y2).then_some(both)
}

/// How many squares a rectangle has.
pub fn area(rect: &Rect) -> i64 {
    (i64::from(rect.x2) - i64::from(rect.x1)) * (i64::from(rect.y2) - i64::from(rect.y1))
}

/// Ranges of one length, by their lower ends in ascending order.
pub struct Axis {
    pub lows: Vec<i32>,
    pub size: i32,
}

impl Axis {
    pub fn new(first: i32, step: i32, count: usize, size: i32) -> Axis {
        Axis { lows: (0..count).map(|k| first + k as i32 * step).collect(), size }
    }

    /// Those that share a number with the range.
    fn meeting(&self, low: i32, high: i32) -> Range<usize> {
        self.lows.partition_point(|own| own + self.size <= low)..self.lows.partition_point(|own| *own < high)
    }

    /// Those that the range lies within.
    fn holding(&self, low: i32, high: i32) -> Range<usize> {
        let first = self.lows.partition_point(|own| own + self.size < high);
        first..self.lows.partition_point(|own| *own <= low).max(first)
    }
}

/// Rectangles of one size in columns and rows, numbered row by row from the lowest.
pub struct Grid {
    pub across: Axis,
    pub up: Axis,
}

impl Grid {
    /// So many columns and rows of cells, side by side, that cover the rectangle.
    fn over(bounds: &Rect, each_way: usize) -> Grid {
        let axis = |low: i32, high: i32| {
            let size = (i64::from(high) - i64::from(low)) / each_way as i64 + 1;
            Axis::new(low, size as i32, each_way, size as i32)
        };
        Grid { across: axis(bounds.x1, bounds.x2), up: axis(bounds.y1, bounds.y2) }
    }

    pub fn count(&self) -> usize {
        self.across.lows.len() * self.up.lows.len()
    }

    pub fn column_and_row(&self, number: usize) -> (usize, usize) {
        (number % self.across.lows.len(), number / self.across.lows.len())
    }

    pub fn rect(&self, number: usize) -> Rect {
        let (column, row) = self.column_and_row(number);
        let (x1, y1) = (self.across.lows[column], self.up.lows[row]);
        Rect { x1, y1, x2: x1 + self.across.size, y2: y1 + self.up.size }
    }

    fn numbers(&self, columns: Range<usize>, rows: Range<usize>) -> impl Iterator<Item = usize> {
        let width = self.across.lows.len();
        rows.flat_map(move |row| columns.clone().map(move |column| row * width + column))
    }

    /// The numbers of those that share a square with a rectangle.
    pub fn meeting(&self, rect: &Rect) -> impl Iterator<Item = usize> {
        self.numbers(self.across.meeting(rect.x1, rect.x2), self.up.meeting(rect.y1, rect.y2))
    }

    /// The numbers of those that hold the whole of a rectangle.
    pub fn holding(&self, rect: &Rect) -> impl Iterator<Item = usize> {
        self.numbers(self.across.holding(rect.x1, rect.x2), self.up.holding(rect.y1, rect.y2))
    }
}

/// How many squares of each rectangle of a grid are covered, where those that come and go are told piece by piece.
pub struct Areas(pub Vec<i64>);

impl Areas {
    pub fn put(&mut self, grid: &Grid, piece: &Rect, sign: i64) {
        for number in grid.meeting(piece) {
            self.0[number] += sign * shared(&grid.rect(number), piece).map_or(0, |part| area(&part));
        }
    }
}

/// Metal: rectangles of which no two share a square, each in the cell of a grid that it lies in.
pub struct Metal {
    cells: Grid,
    pieces: Vec<Vec<Rect>>,
}

impl Metal {
    /// No metal yet, with room for that of these rectangles.
    pub fn none(rects: &[Rect]) -> Metal {
        let wider = |all: Rect, rect: &Rect| Rect {
            x1: all.x1.min(rect.x1),
            y1: all.y1.min(rect.y1),
            x2: all.x2.max(rect.x2),
            y2: all.y2.max(rect.y2),
        };
        let bounds = rects.iter().fold(Rect { x1: 0, y1: 0, x2: 1, y2: 1 }, wider);
        let cells = Grid::over(&bounds, ((rects.len() as f64).sqrt() as usize).clamp(4, 1024));
        let pieces = (0..cells.count()).map(|_| Vec::new()).collect();
        Metal { cells, pieces }
    }

    /// Takes the squares of a rectangle off and tells of each piece that goes.
    pub fn cut(&mut self, rect: &Rect, mut gone: impl FnMut(&Rect)) {
        for cell in self.cells.meeting(rect) {
            if self.pieces[cell].iter().all(|piece| shared(piece, rect).is_none()) {
                continue;
            }
            for piece in std::mem::take(&mut self.pieces[cell]) {
                let Some(part) = shared(&piece, rect) else {
                    self.pieces[cell].push(piece);
                    continue;
                };
                gone(&part);
                let below = Rect { y2: part.y1, ..piece };
                let above = Rect { y1: part.y2, ..piece };
                let left = Rect { x2: part.x1, y1: part.y1, y2: part.y2, ..piece };
                let right = Rect { x1: part.x2, y1: part.y1, y2: part.y2, ..piece };
                let rest = [below, above, left, right];
                self.pieces[cell].extend(rest.into_iter().filter(|rect| rect.x1 < rect.x2 && rect.y1 < rect.y2));
            }
        }
    }

    /// Adds the squares of a rectangle; tells of each piece that goes, and then of each that comes.
    pub fn add(&mut self, rect: &Rect, mut told: impl FnMut(&Rect, i64)) {
        self.cut(rect, |piece| told(piece, -1));
        for cell in self.cells.meeting(rect) {
            if let Some(part) = shared(&self.cells.rect(cell), rect) {
                told(&part, 1);
                self.pieces[cell].push(part);
            }
        }
    }

    /// What of it lies in a rectangle, piece by piece.
    pub fn parts_in<'a>(&'a self, rect: &'a Rect) -> impl Iterator<Item = Rect> + 'a {
        self.cells.meeting(rect).flat_map(|cell| self.pieces[cell].iter()).filter_map(|piece| shared(piece, rect))
    }

    /// Whether there is no metal in a rectangle.
    pub fn is_clear(&self, rect: &Rect) -> bool {
        self.cells.meeting(rect).all(|cell| self.pieces[cell].iter().all(|piece| shared(piece, rect).is_none()))
    }
}
