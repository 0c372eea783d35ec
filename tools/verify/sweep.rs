//! Regions and windows in plain Rust, for the checker of fills and the benchmarks alone: the union of rectangles by a sweep over y, areas of
//! windows on all processors, and clearances. The algorithms are those of the proved crates.
#![allow(dead_code)] // no benchmark uses all of it

use std::sync::Mutex;

#[derive(Clone, Copy)]
pub struct Rect {
    pub x1: i32,
    pub y1: i32,
    pub x2: i32,
    pub y2: i32,
}

/// The bands upwards, each with its bottom and its rising edges.
pub type Bands = Vec<(i32, Vec<i32>)>;

/// Keeps the rectangles of `active` that end above `y`, merges in those of `started`, both sorted by their left side,
/// and writes the edges of the row and the least upper edge.
fn advance(active: &[Rect], started: &[Rect], y: i32, kept: &mut Vec<Rect>, row: &mut Vec<i32>) -> i32 {
    kept.clear();
    row.clear();
    let mut least_top = i32::MAX;
    let mut end = i32::MIN;
    let mut begin = i32::MIN;
    let mut rest = started.iter().peekable();
    let mut put = |rect: Rect| {
        least_top = least_top.min(rect.y2);
        if rect.x1 > end {
            if begin < end {
                row.push(begin);
                row.push(end);
            }
            begin = rect.x1;
            end = rect.x2;
        } else {
            end = end.max(rect.x2);
        }
        kept.push(rect);
    };
    for rect in active.iter().filter(|rect| rect.y2 > y) {
        while let Some(new) = rest.next_if(|new| new.x1 < rect.x1) {
            put(*new);
        }
        put(*rect);
    }
    rest.for_each(|new| put(*new));
    if begin < end {
        row.push(begin);
        row.push(end);
    }
    least_top
}

/// The region of the rectangles, by a sweep over y.
pub fn from_rects(rects: &[Rect]) -> Bands {
    let mut sorted = rects.to_vec();
    sorted.sort_unstable_by_key(|rect| (rect.y1, rect.x1));
    let mut bands: Bands = Vec::new();
    let (mut active, mut kept, mut row) = (Vec::new(), Vec::new(), Vec::new());
    let mut from = 0;
    let mut least_top = i32::MAX;
    loop {
        let next = sorted.get(from).map_or(i32::MAX, |rect| rect.y1);
        let y = next.min(least_top);
        if y == i32::MAX {
            return bands;
        }
        let count = sorted[from..].iter().take_while(|rect| rect.y1 == y).count();
        least_top = advance(&active, &sorted[from..from + count], y, &mut kept, &mut row);
        from += count;
        std::mem::swap(&mut active, &mut kept);
        if bands.last().map_or(!row.is_empty(), |last| last.1 != row) {
            bands.push((y, row.as_slice().to_vec()));
        }
    }
}

/// The place of the first item that does not pass. Unlike `partition_point` it branches: consecutive searches for areas
/// go nearly the same way, so the processor guesses the turns and loads ahead.
pub fn first_not<T>(items: &[T], passes: impl Fn(&T) -> bool) -> usize {
    let (mut low, mut high) = (0, items.len());
    while low < high {
        let mid = low + (high - low) / 2;
        if passes(&items[mid]) {
            low = mid + 1;
        } else {
            high = mid;
        }
    }
    low
}

/// How far a walk along the edges of a row has come. `sum` has the edges so far with signs by turns, the last one added.
#[derive(Clone, Copy)]
struct Walk {
    next: usize,
    sum: i64,
}

impl Walk {
    fn begin(edges: &[i32], start: i64) -> Walk {
        let next = first_not(edges, |edge| i64::from(*edge) <= start);
        Walk { next, sum: if next % 2 == 1 { start } else { 0 } }
    }

    /// The walk, gone on to `to`.
    fn advanced(self, edges: &[i32], to: i64) -> Walk {
        let Walk { mut next, mut sum } = self;
        while next < edges.len() && i64::from(edges[next]) < to {
            sum = i64::from(edges[next]) - sum;
            next += 1;
        }
        Walk { next, sum }
    }

    /// How many numbers of the row lie from the start on and below `at`, to which the walk has come.
    fn counted(self, at: i64) -> i64 {
        if self.next % 2 == 1 { at - self.sum } else { self.sum }
    }
}

/// Windows of one size, in columns and rows.
#[derive(Clone, Copy)]
pub struct Windows {
    pub origin: (i32, i32),
    pub size: (i32, i32),
    pub step: (i32, i32),
    pub columns: usize,
    pub rows: usize,
}

impl Windows {
    /// Adds to each number `height` times what the row has in the windows of its column.
    fn add_lengths(&self, edges: &[i32], height: i64, sums: &mut [i64]) {
        let mut behind = Walk::begin(edges, i64::from(self.origin.0));
        let mut ahead = behind;
        for (a, sum) in sums.iter_mut().enumerate() {
            let left = i64::from(self.origin.0) + a as i64 * i64::from(self.step.0);
            let right = left + i64::from(self.size.0);
            behind = behind.advanced(edges, left);
            ahead = ahead.advanced(edges, right);
            *sum += height * (ahead.counted(right) - behind.counted(left));
        }
    }

    /// Adds what the windows of one row have in one of so many strips.
    fn measure_strip(&self, bands: &Bands, row: usize, strips: i32, strip: i32, sums: &mut [i64]) {
        let bottom = self.origin.1 + row as i32 * self.step.1;
        let lines = self.size.1 / strips + 1;
        let mut from = self.size.1.min(strip * lines) + bottom;
        let to = self.size.1.min((strip + 1) * lines) + bottom;
        let first = first_not(bands, |band| band.0 <= from);
        for k in first..=bands.len() {
            let top = bands.get(k).map_or(to, |band| band.0.min(to));
            if k > 0 {
                self.add_lengths(&bands[k - 1].1, i64::from(top - from), sums);
            }
            if top == to {
                break;
            }
            from = top;
        }
    }
}

/// The area in every window: strips of rows of windows are taken one by one by each processor.
pub fn measure_all(bands: &Bands, windows: &Windows) -> Vec<i64> {
    let count = windows.columns * windows.rows;
    let strips = (131_072 / count).clamp(1, 64);
    let threads = std::thread::available_parallelism().map_or(1, |n| n.get());
    let mut sums = vec![0; count * strips];
    let pieces = Mutex::new(sums.chunks_mut(windows.columns).enumerate());
    std::thread::scope(|scope| {
        for _ in 0..threads {
            scope.spawn(|| loop {
                let Some((piece, sums)) = pieces.lock().unwrap().next() else { break };
                let (strip, row) = (piece / windows.rows, piece % windows.rows);
                windows.measure_strip(bands, row, strips as i32, strip as i32, sums);
            });
        }
    });
    let (areas, rest) = sums.split_at_mut(count);
    for part in rest.chunks_exact(count) {
        areas.iter_mut().zip(part).for_each(|(area, more)| *area += more);
    }
    sums.truncate(count);
    sums
}

/// The part of the region in a rectangle.
pub fn clip(bands: &Bands, to: &Rect) -> Bands {
    let mut part: Bands = Vec::new();
    let first = first_not(bands, |band| band.0 <= to.y1).saturating_sub(1);
    for band in bands[first..].iter().take_while(|band| band.0 < to.y2) {
        let begin = first_not(&band.1, |edge| *edge <= to.x1);
        let end = first_not(&band.1, |edge| *edge < to.x2);
        let mut row = Vec::with_capacity(end - begin + 2);
        row.extend((begin % 2 == 1).then_some(to.x1));
        row.extend_from_slice(&band.1[begin..end]);
        row.extend((end % 2 == 1).then_some(to.x2));
        if part.last().map_or(!row.is_empty(), |last| last.1 != row) {
            part.push((band.0.max(to.y1), row));
        }
    }
    if part.last().is_some_and(|last| !last.1.is_empty()) {
        part.push((to.y2, Vec::new()));
    }
    part
}

/// Whether some number from `x1` on and below `x2` is in the row.
fn meets(edges: &[i32], x1: i32, x2: i32) -> bool {
    let first = edges.partition_point(|edge| *edge <= x1);
    first % 2 == 1 || edges.get(first).is_some_and(|edge| *edge < x2)
}

/// Whether no square of the region is nearer to the box than the spacing.
pub fn is_clear(bands: &Bands, place: &Rect, spacing: i32) -> bool {
    let (x1, x2) = (place.x1 - spacing, place.x2 + spacing);
    let (y1, y2) = (place.y1 - spacing, place.y2 + spacing);
    let above = bands.partition_point(|band| band.0 <= y1);
    let near = bands[above.saturating_sub(1)..].iter().take_while(|band| band.0 < y2);
    near.into_iter().all(|band| !meets(&band.1, x1, x2))
}

/// Marks the ranges of columns that have a square of the region between two lines, by one walk along each band.
pub fn mark_met(bands: &Bands, ranges: &[(i32, i32)], bottom: i32, top: i32, marks: &mut [bool]) {
    let above = bands.partition_point(|band| band.0 <= bottom);
    for (_, edges) in bands[above.saturating_sub(1)..].iter().take_while(|band| band.0 < top) {
        let mut next = 0;
        for (mark, (lo, hi)) in marks.iter_mut().zip(ranges).filter(|(mark, _)| !**mark) {
            while next < edges.len() && edges[next] <= *lo {
                next += 1;
            }
            *mark = next % 2 == 1 || edges.get(next).is_some_and(|edge| edge < hi);
        }
        if marks.iter().all(|mark| *mark) {
            return;
        }
    }
}

/// The rectangles of a layer's file: the left, lower, right and upper edge of each, in four bytes each.
pub fn read(path: &str) -> Vec<Rect> {
    let bytes = std::fs::read(path).expect("the file");
    let number = |b: &[u8]| i32::from_le_bytes([b[0], b[1], b[2], b[3]]);
    let rect = |b: &[u8]| Rect { x1: number(b), y1: number(&b[4..]), x2: number(&b[8..]), y2: number(&b[12..]) };
    bytes.chunks_exact(16).map(rect).collect()
}
