//! The screen as a parser's performer and as a processor's handler.

use vte::ansi::{Attr, ClearMode, Handler, LineClearMode};
use vte::{Params, Perform};

use crate::screen::{ROWS, Screen};

impl Perform for Screen {
    #[inline]
    fn print(&mut self, c: char) {
        self.draw(c);
    }

    fn execute(&mut self, byte: u8) {
        let (row, column) = self.cursor();
        match byte {
            0x08 => self.move_to(row, column.saturating_sub(1)),
            b'\n' | 0x0b | 0x0c => self.line_feed(),
            b'\r' => self.move_to(row, 0),
            _ => {}
        }
    }

    fn csi_dispatch(&mut self, params: &Params, intermediates: &[u8], ignore: bool, action: char) {
        if action == 'm' && !ignore && intermediates.is_empty() {
            return self.style.select_all(params);
        }
        let mut numbers = params.iter().flatten().copied();
        let (first, second) = (numbers.next().unwrap_or(0), numbers.next().unwrap_or(0));
        // 0 and a missing number stand for 1
        let (count, other) = (usize::from(first.max(1)), usize::from(second.max(1)));
        let (row, column) = self.cursor();
        match action {
            _ if ignore || !intermediates.is_empty() => {}
            'A' => self.move_to(row.saturating_sub(count), column),
            'B' => self.move_to(row + count, column),
            'C' => self.move_to(row, column + count),
            'D' => self.move_to(row, column.saturating_sub(count)),
            'G' => self.move_to(row, count - 1),
            'H' | 'f' => self.move_to(count - 1, other - 1),
            'J' => self.erase(first, 0, ROWS),
            'K' => self.erase(first, row, row + 1),
            'd' => self.move_to(count - 1, column),
            _ => {}
        }
    }
}

#[cfg(runs)]
impl vte::PerformText for Screen {
    #[inline(always)]
    fn print_text(&mut self, text: &str) {
        self.draw_text(text);
    }
}

impl Handler for Screen {
    #[inline]
    fn input(&mut self, c: char) {
        self.draw(c);
    }

    #[inline]
    fn linefeed(&mut self) {
        self.line_feed();
    }

    #[inline]
    fn carriage_return(&mut self) {
        self.move_to(self.cursor().0, 0);
    }

    #[inline]
    fn backspace(&mut self) {
        let (row, column) = self.cursor();
        self.move_to(row, column.saturating_sub(1));
    }

    #[inline]
    fn goto(&mut self, line: i32, column: usize) {
        self.move_to(line.max(0) as usize, column);
    }

    #[inline]
    fn goto_line(&mut self, line: i32) {
        self.move_to(line.max(0) as usize, self.cursor().1);
    }

    #[inline]
    fn goto_col(&mut self, column: usize) {
        self.move_to(self.cursor().0, column);
    }

    #[inline]
    fn move_up(&mut self, rows: usize) {
        let (row, column) = self.cursor();
        self.move_to(row.saturating_sub(rows), column);
    }

    #[inline]
    fn move_down(&mut self, rows: usize) {
        let (row, column) = self.cursor();
        self.move_to(row.saturating_add(rows), column);
    }

    #[inline]
    fn move_forward(&mut self, columns: usize) {
        let (row, column) = self.cursor();
        self.move_to(row, column.saturating_add(columns));
    }

    #[inline]
    fn move_backward(&mut self, columns: usize) {
        let (row, column) = self.cursor();
        self.move_to(row, column.saturating_sub(columns));
    }

    // the modes stand in the order of their numbers
    #[inline]
    fn clear_line(&mut self, mode: LineClearMode) {
        let (row, _) = self.cursor();
        self.erase(mode as u16, row, row + 1);
    }

    #[inline]
    fn clear_screen(&mut self, mode: ClearMode) {
        self.erase(mode as u16, 0, ROWS);
    }

    #[inline]
    fn terminal_attribute(&mut self, attribute: Attr) {
        match attribute {
            Attr::Foreground(color) => self.style.foreground = color,
            Attr::Background(color) => self.style.background = color,
            Attr::Reset => self.style.select(&[0]),
            Attr::Bold => self.style.select(&[1]),
            Attr::Italic => self.style.select(&[3]),
            Attr::Underline => self.style.select(&[4]),
            Attr::Reverse => self.style.select(&[7]),
            Attr::CancelBoldDim => self.style.select(&[22]),
            Attr::CancelItalic => self.style.select(&[23]),
            Attr::CancelUnderline => self.style.select(&[24]),
            Attr::CancelReverse => self.style.select(&[27]),
            _ => {}
        }
    }
}

#[cfg(runs)]
impl vte::ansi::HandlerText for Screen {
    #[inline(always)]
    fn input_text(&mut self, text: &str) {
        self.draw_text(text);
    }
}
