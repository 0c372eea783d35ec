//! The bytes of a fill library, record by record, in plain Rust: nothing in them is taken for granted.
use crate::pieces::Grid;
use crate::rules::Rules;

/// More boxes than these stand in no reference.
const LONGEST: usize = 32_767;

/// A cell of a box: its name, the size of the box, and the steps from a box to the next.
pub struct Cell {
    pub name: Vec<u8>,
    pub size: (i32, i32),
    pub steps: (i32, i32),
}

impl Cell {
    /// That of a rule file, by a name, with the steps of every so manieth column and row of its raster.
    pub fn of(rules: &Rules, name: Vec<u8>, each: i32) -> Cell {
        let [width, height, across, up] = ["box_w", "box_h", "step_x", "step_y"].map(|key| rules.key(key));
        Cell { name, size: (width, height), steps: (each * across, each * up) }
    }
}

/// A reference: its cell, the corner of its first box, and its columns and rows of boxes.
#[derive(Clone, Copy)]
pub struct Reference {
    pub cell: usize,
    pub x: i32,
    pub y: i32,
    pub columns: usize,
    pub rows: usize,
}

/// What a library has: which of the cells of boxes, in their order, and its references.
pub struct Library {
    pub cells: Vec<usize>,
    pub references: Vec<Reference>,
}

/// The records of a library, taken one by one.
struct Records<'a> {
    bytes: &'a [u8],
    at: usize,
}

impl<'a> Records<'a> {
    fn wrong<T>(&self, what: &str) -> Result<T, String> {
        Err(format!("OUT, byte {}: {what}", self.at))
    }

    /// The next record: its kind, the type of its data, and these.
    fn take(&mut self) -> Result<(u8, u8, &'a [u8]), String> {
        let rest = &self.bytes[self.at..];
        let &[high, low, kind, form, ..] = rest else { return self.wrong("no record") };
        let length = usize::from(u16::from_be_bytes([high, low]));
        if length % 2 == 1 || length < 4 || length > rest.len() {
            return self.wrong("a record of another length");
        }
        self.at += length;
        Ok((kind, form, &rest[4..length]))
    }

    /// Takes the one record that may stand here.
    fn expect(&mut self, kind: u8, form: u8, body: &[u8]) -> Result<(), String> {
        let at = self.at;
        match self.take()? {
            found if found == (kind, form, body) => Ok(()),
            found => Err(format!("OUT, byte {at}: {found:02x?} where {:02x?} belongs", (kind, form, body))),
        }
    }

    fn expect_name(&mut self, kind: u8, name: &[u8]) -> Result<(), String> {
        self.expect(kind, 0x06, &padded(name))
    }

    fn expect_points(&mut self, points: &[(i32, i32)]) -> Result<(), String> {
        let body: Vec<u8> = points.iter().flat_map(|(x, y)| [x.to_be_bytes(), y.to_be_bytes()].concat()).collect();
        self.expect(0x10, 0x03, &body)
    }

    /// Everything before the first structure.
    fn expect_front(&mut self, rules: &Rules, units: &[u8], dates: &[u8]) -> Result<(), String> {
        self.expect(0x00, 0x02, &600u16.to_be_bytes())?;
        self.expect(0x01, 0x02, dates)?;
        self.expect_name(0x02, rules.text("fill_lib"))?;
        self.expect(0x03, 0x05, units)
    }

    /// Behind the name of a cell of a box, the rest of it.
    fn expect_box(&mut self, rules: &Rules, (width, height): (i32, i32)) -> Result<(), String> {
        self.expect(0x08, 0x00, &[])?;
        self.expect(0x0d, 0x02, &(rules.key("fill_layer") as u16).to_be_bytes())?;
        self.expect(0x0e, 0x02, &(rules.key("fill_datatype") as u16).to_be_bytes())?;
        self.expect_points(&[(0, 0), (0, height), (width, height), (width, 0), (0, 0)])?;
        self.expect(0x11, 0x00, &[])?;
        self.expect(0x07, 0x00, &[])
    }

    /// Takes a name, and answers which cell has it.
    fn take_name(&mut self, kind: u8, cells: &[Cell]) -> Result<usize, String> {
        let at = self.at;
        let (found, form, body) = self.take()?;
        let place = cells.iter().position(|cell| (found, form, body) == (kind, 0x06, &padded(&cell.name)[..]));
        place.ok_or_else(|| format!("OUT, byte {at}: no name of a cell"))
    }

    /// Takes the cells of boxes, and what the top begins with.
    fn take_cells(&mut self, rules: &Rules, cells: &[Cell], dates: &[u8]) -> Result<Vec<usize>, String> {
        let mut found = Vec::new();
        loop {
            self.expect(0x05, 0x02, dates)?;
            let mut ahead = Records { ..*self };
            if ahead.expect_name(0x06, rules.text("fill_top")).is_ok() {
                self.at = ahead.at;
                return Ok(found);
            }
            let cell = self.take_name(0x06, cells)?;
            if found.last().is_some_and(|last| *last >= cell) {
                return self.wrong("a cell stands twice, or behind that of a later pass, before");
            }
            self.expect_box(rules, cells[cell].size)?;
            found.push(cell);
        }
    }

    /// The next reference, or none behind the last one.
    fn take_reference(&mut self, cells: &[Cell]) -> Result<Option<Reference>, String> {
        let is_array = match self.take()? {
            (0x0a, 0x00, []) => false,
            (0x0b, 0x00, []) => true,
            (0x07, 0x00, []) => return Ok(None),
            _ => return self.wrong("no reference before"),
        };
        let cell = self.take_name(0x12, cells)?;
        let (columns, rows) = match is_array.then(|| self.take()).transpose()? {
            None => (1, 1),
            Some((0x13, 0x02, &[a, b, c, d])) => (u16::from_be_bytes([a, b]), u16::from_be_bytes([c, d])),
            Some(_) => return self.wrong("no COLROW before"),
        };
        let mut ahead = Records { ..*self };
        let (_, _, &[a, b, c, d, e, f, g, h, ..]) = ahead.take()? else { return self.wrong("no point") };
        let (x, y) = (i32::from_be_bytes([a, b, c, d]), i32::from_be_bytes([e, f, g, h]));
        let right = i64::from(x) + i64::from(columns) * i64::from(cells[cell].steps.0);
        let top = i64::from(y) + i64::from(rows) * i64::from(cells[cell].steps.1);
        let points = [(x, y), (right as i32, y), (x, top as i32)];
        self.expect_points(if is_array { &points } else { &points[..1] })?;
        self.expect(0x11, 0x00, &[])?;
        if is_array && columns == 1 && rows == 1 {
            return self.wrong("an array of one box before");
        }
        Ok(Some(Reference { cell, x, y, columns: columns.into(), rows: rows.into() }))
    }
}

/// A name as a record has it, of even length.
fn padded(name: &[u8]) -> Vec<u8> {
    let mut padded = name.to_vec();
    padded.resize(name.len().next_multiple_of(2), 0);
    padded
}

/// Reads a whole library of some of these cells of boxes, with the units and dates of the design.
pub fn read(bytes: &[u8], rules: &Rules, cells: &[Cell], (units, dates): (&[u8], &[u8])) -> Result<Library, String> {
    let mut records = Records { bytes, at: 0 };
    records.expect_front(rules, units, dates)?;
    let found = records.take_cells(rules, cells, dates)?;
    let mut references = Vec::new();
    while let Some(reference) = records.take_reference(cells)? {
        if !found.contains(&reference.cell) {
            return records.wrong("a reference to a cell that isn't there before");
        }
        references.push(reference);
    }
    records.expect(0x04, 0x00, &[])?;
    if records.at == bytes.len() { Ok(Library { cells: found, references }) } else { records.wrong("bytes behind the library") }
}

/// A stack of boxes: its lowest row, its first column, its columns and its rows.
type Stack = (usize, usize, usize, usize);

/// Which places of a raster these references fill: all in it, none twice, in the stacks that they make, in their order.
pub fn filled_by(references: &[Reference], places: &Grid) -> Result<Vec<bool>, String> {
    let mut filled = vec![false; places.count()];
    let (columns, lines) = (places.across.lows.len(), places.up.lows.len());
    let mut stacks: Vec<Stack> = Vec::new();
    for Reference { x, y, columns: wide, rows: tall, .. } in references {
        let (Ok(column), Ok(row)) = (places.across.lows.binary_search(x), places.up.lows.binary_search(y)) else {
            return Err(format!("OUT: the box at {x},{y} stands off the raster or the frame"));
        };
        if column + wide > columns || row + tall > lines {
            return Err(format!("OUT: the boxes from {x},{y} leave the frame"));
        }
        for line in row..row + tall {
            let piece = line * columns + column..line * columns + column + wide;
            if filled[piece.clone()].contains(&true) {
                return Err(format!("OUT: a box of those from {x},{y} stands twice"));
            }
            filled[piece].fill(true);
        }
        stacks.push((row, column, *wide, *tall));
    }
    if stacks == stacks_of(&filled, columns) {
        Ok(filled)
    } else {
        Err("OUT: the stacks are others than those of the fill, or in another order".to_string())
    }
}

/// The stacks that a fill has, in their order: equal pieces of rows that follow one another, as many as can be.
fn stacks_of(filled: &[bool], columns: usize) -> Vec<Stack> {
    let pieces: Vec<Vec<(usize, usize)>> = filled.chunks(columns.max(1)).map(pieces_of).collect();
    let mut stacks = Vec::new();
    let mut levels: Vec<((usize, usize), usize)> = Vec::new();
    for (row, row_pieces) in pieces.iter().enumerate() {
        let level_of = |piece: &(usize, usize)| {
            levels.binary_search_by_key(piece, |(below, _)| *below).map_or(0, |k| (levels[k].1 + 1) % LONGEST)
        };
        let here: Vec<_> = row_pieces.iter().map(|piece| (*piece, level_of(piece))).collect();
        for (piece, _) in here.iter().filter(|(_, level)| *level == 0) {
            let above = pieces[row..].iter().take(LONGEST).take_while(|others| others.binary_search(piece).is_ok());
            stacks.push((row, piece.0, piece.1, above.count()));
        }
        levels = here;
    }
    stacks
}

/// The first columns and the lengths of the pieces of a row.
fn pieces_of(row: &[bool]) -> Vec<(usize, usize)> {
    let mut pieces: Vec<(usize, usize)> = Vec::new();
    for column in (0..row.len()).filter(|column| row[*column]) {
        match pieces.last_mut() {
            Some((start, count)) if *start + *count == column && *count < LONGEST => *count += 1,
            _ => pieces.push((column, 1)),
        }
    }
    pieces
}
