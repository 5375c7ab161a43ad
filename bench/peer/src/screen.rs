//! The grid and the cursor, as in crates/examples/src/screen.rt, which says why.

use std::cmp::Ordering;
use std::str::Chars;

use crate::cell::{Cell, Style};
use crate::checksum::Checksum;

pub const COLUMNS: usize = 80;
pub const ROWS: usize = 24;

pub struct Screen {
    // A ring of rows, so that scrolling moves no cell. The first row is `lines[top]`.
    lines: [[Cell; COLUMNS]; ROWS],
    top: usize,
    row: usize,
    // COLUMNS after a character in the last column: the next one goes to the next row.
    column: usize,
    pub style: Style,
}

impl Screen {
    pub fn new() -> Self {
        let (character, style) = (' ', Style::PLAIN);
        Screen {
            lines: [[Cell { character, style }; COLUMNS]; ROWS],
            top: 0,
            row: 0,
            column: 0,
            style,
        }
    }

    /// Folds the cursor and each cell.
    pub fn checksum(self) -> Checksum {
        let mut checksum = Checksum::default();
        let (row, column) = self.cursor();
        checksum.fold(row as u64);
        checksum.fold(column as u64);
        for row in 0..ROWS {
            for cell in &self.lines[self.line_of(row)] {
                cell.fold(&mut checksum);
            }
        }
        checksum
    }

    fn line_of(&self, row: usize) -> usize {
        let line = self.top + row;
        if line < ROWS { line } else { line - ROWS }
    }

    pub fn cursor(&self) -> (usize, usize) {
        (self.row, self.column.min(COLUMNS - 1))
    }

    pub fn move_to(&mut self, row: usize, column: usize) {
        self.row = row.min(ROWS - 1);
        self.column = column.min(COLUMNS - 1);
    }

    #[inline]
    fn wrap(&mut self) {
        if self.column == COLUMNS {
            self.line_feed();
            self.column = 0;
        }
    }

    #[inline]
    pub fn draw(&mut self, character: char) {
        self.wrap();
        let (line, style) = (self.line_of(self.row), self.style);
        self.lines[line][self.column] = Cell { character, style };
        self.column += 1;
    }

    #[inline(always)]
    pub fn draw_text(&mut self, text: &str) {
        let mut characters = text.chars();
        match characters.next() {
            Some(character) if characters.as_str().is_empty() => self.draw(character),
            _ => self.draw_run(text),
        }
    }

    #[inline(never)]
    fn draw_run(&mut self, text: &str) {
        if text.is_ascii() {
            self.draw_bytes(text.as_bytes());
        } else {
            self.draw_characters(text);
        }
    }

    fn draw_characters(&mut self, text: &str) {
        let mut characters = text.chars();
        for _ in 0..text.len() {
            if characters.as_str().is_empty() {
                return;
            }
            self.wrap();
            let (line, column, style) = (self.line_of(self.row), self.column, self.style);
            let cells = &mut self.lines[line];
            self.column += take_characters(&mut cells[column..], &mut characters, style);
        }
    }

    #[inline]
    fn draw_bytes(&mut self, bytes: &[u8]) {
        let room = COLUMNS - self.column;
        if bytes.len() <= room {
            return self.fill(bytes);
        }
        let (first, others) = bytes.split_at(room);
        self.fill(first);
        for part in others.chunks(COLUMNS) {
            self.wrap();
            self.fill(part);
        }
    }

    #[inline]
    fn fill(&mut self, bytes: &[u8]) {
        let (line, column, style) = (self.line_of(self.row), self.column, self.style);
        let fitting = &bytes[..bytes.len().min(COLUMNS - column)];
        let cells = &mut self.lines[line];
        set_characters(&mut cells[column..column + fitting.len()], fitting, style);
        self.column += fitting.len();
    }

    #[inline(never)]
    pub fn line_feed(&mut self) {
        if self.row + 1 == ROWS {
            self.top = self.line_of(1);
            self.erase(2, self.row, ROWS);
        }
        self.move_to(self.row + 1, self.column);
    }

    /// Erases rows up to `end`: what is after the cursor (0), before it (1), or all (2).
    pub fn erase(&mut self, part: u16, start: usize, end: usize) {
        let (cursor_row, cursor_column) = self.cursor();
        let (character, mut style) = (' ', self.style);
        style.attributes = 0;
        for row in start..end {
            let (from, to) = match (part, row.cmp(&cursor_row)) {
                (0, Ordering::Equal) => (cursor_column, COLUMNS),
                (1, Ordering::Equal) => (0, cursor_column + 1),
                (0, Ordering::Greater) | (1, Ordering::Less) | (2, _) => (0, COLUMNS),
                _ => (0, 0),
            };
            let line = self.line_of(row);
            let cells = &mut self.lines[line];
            cells[from..to].fill(Cell { character, style });
        }
    }
}

#[inline]
fn set_characters(cells: &mut [Cell], bytes: &[u8], style: Style) {
    for (cell, byte) in cells.iter_mut().zip(bytes) {
        cell.show(char::from(*byte), style);
    }
}

/// Returns how many cells it set.
#[inline]
fn take_characters(cells: &mut [Cell], characters: &mut Chars<'_>, style: Style) -> usize {
    let count = cells.len();
    for (index, cell) in cells.iter_mut().enumerate() {
        match characters.next() {
            Some(character) => cell.show(character, style),
            None => return index,
        }
    }
    count
}
