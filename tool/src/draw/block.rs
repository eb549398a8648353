//! Cells on a grid, and the frames around those of a statement.

use std::ops::Range;

/// A cell's place: its column and row.
#[derive(Clone, Copy, Debug, PartialEq, Eq)]
pub struct Placed {
    pub cell: u16,
    pub column: usize,
    pub row: usize,
}

/// A rectangle of the grid with a title.
#[derive(Clone, Debug, PartialEq, Eq)]
pub struct Frame {
    pub title: String,
    pub columns: Range<usize>,
    pub rows: Range<usize>,
}

impl Frame {
    /// Whether another frame is inside this one.
    pub fn holds(&self, inner: &Frame) -> bool {
        let holds = |outer: &Range<usize>, inner: &Range<usize>| {
            outer.start <= inner.start && inner.end <= outer.end
        };
        self != inner && holds(&self.columns, &inner.columns) && holds(&self.rows, &inner.rows)
    }
}

/// Part of a picture, from column 0 and row 0.
#[derive(Clone, Debug, Default)]
pub struct Block {
    pub width: usize,
    pub height: usize,
    pub cells: Vec<Placed>,
    /// A frame stands before those in it.
    pub frames: Vec<Frame>,
}

impl Block {
    pub fn cell(cell: u16) -> Block {
        Block::default().with(cell, 0, 0)
    }

    /// With one cell more.
    pub fn with(mut self, cell: u16, column: usize, row: usize) -> Block {
        self.cells.push(Placed { cell, column, row });
        self.width = self.width.max(column + 1);
        self.height = self.height.max(row + 1);
        self
    }

    /// With another part in it, which begins at this column and row.
    pub fn and(mut self, part: Block, column: usize, row: usize) -> Block {
        if part.cells.is_empty() {
            return self;
        }
        self.width = self.width.max(column + part.width);
        self.height = self.height.max(row + part.height);
        self.cells
            .extend(part.cells.into_iter().map(|placed| Placed {
                column: placed.column + column,
                row: placed.row + row,
                ..placed
            }));
        self.frames
            .extend(part.frames.into_iter().map(|frame| Frame {
                columns: frame.columns.start + column..frame.columns.end + column,
                rows: frame.rows.start + row..frame.rows.end + row,
                ..frame
            }));
        self
    }

    pub fn beside(self, right: Block) -> Block {
        let column = self.width;
        self.and(right, column, 0)
    }

    pub fn below(self, lower: Block) -> Block {
        let row = self.height;
        self.and(lower, 0, row)
    }

    /// With a frame around all of it.
    pub fn framed(mut self, title: String) -> Block {
        if !self.cells.is_empty() {
            let frame = Frame {
                title,
                columns: 0..self.width,
                rows: 0..self.height,
            };
            self.frames.insert(0, frame);
        }
        self
    }

    /// With a frame around all of it, or with its title before that of the frame
    /// that is there already.
    pub fn named(mut self, title: String) -> Block {
        let (columns, rows) = (0..self.width, 0..self.height);
        match self.frames.first_mut() {
            Some(frame) if frame.columns == columns && frame.rows == rows => {
                frame.title = format!("{title}, {}", frame.title);
                self
            }
            _ => self.framed(title),
        }
    }

    /// The smallest frame that holds all of these places.
    pub fn frame_of(&self, places: &[Placed]) -> Option<usize> {
        let holds = |frame: &Frame| {
            let inside =
                |p: &Placed| frame.columns.contains(&p.column) && frame.rows.contains(&p.row);
            places.iter().all(inside)
        };
        // Those further inside stand further back.
        self.frames.iter().rposition(holds)
    }
}
