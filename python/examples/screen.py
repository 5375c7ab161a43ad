"""A screen of 80 by 24 characters, kept from the calls of a processor.

Shows the one that its standard input leaves. It knows text, the cursor and erasing.
"""
import itertools
import sys

import vte
from vte import calls

COLUMNS, ROWS = 80, 24


class Screen:
    """A grid of characters, and a cursor that never leaves it."""

    def __init__(self):
        self.lines = [[" "] * COLUMNS for _ in range(ROWS)]
        # the column is COLUMNS after a character in the last one: the next goes to the next row
        self._row = self._column = 0

    def __str__(self):
        """The characters of all rows, without blanks at their ends."""
        return "".join("".join(line).rstrip() + "\n" for line in self.lines)

    def take(self, call):
        """Does what a call asks for."""
        row, column = self._row, min(self._column, COLUMNS - 1)
        match call:
            case calls.Input(text):
                self._show(text)
            case calls.Linefeed():
                self._feed_line()
            case calls.CarriageReturn():
                self._move(row, 0)
            case calls.Backspace():
                self._move(row, column - 1)
            case calls.Goto(line, col):
                self._move(line, col)
            case calls.GotoLine(line):
                self._move(line, column)
            case calls.GotoCol(col):
                self._move(row, col)
            case calls.MoveUp(lines):
                self._move(row - lines, column)
            case calls.MoveDown(lines):
                self._move(row + lines, column)
            case calls.MoveForward(cols):
                self._move(row, column + cols)
            case calls.MoveBackward(cols):
                self._move(row, column - cols)
            case calls.ClearLine(part):
                self._erase(part, range(row, row + 1))
            case calls.ClearScreen(part):
                self._erase(part, range(ROWS))

    def _move(self, row, column):
        self._row = max(0, min(row, ROWS - 1))
        self._column = max(0, min(column, COLUMNS - 1))

    def _show(self, text):
        for character in text:
            if self._column == COLUMNS:
                self._feed_line()
                self._column = 0
            self.lines[self._row][self._column] = character
            self._column += 1

    def _feed_line(self):
        if self._row + 1 == ROWS:
            self.lines.append([" "] * COLUMNS)
            del self.lines[0]
        self._move(self._row + 1, self._column)

    def _erase(self, part, rows):
        """Blanks what is after the cursor, before it, or everything, of some rows."""
        cursor = self._row, min(self._column, COLUMNS - 1)
        for position in itertools.product(rows, range(COLUMNS)):
            if part == 2 or part == 0 and position >= cursor or part == 1 and position <= cursor:
                self.lines[position[0]][position[1]] = " "


if __name__ == "__main__":
    processor, screen = vte.Processor(), Screen()
    while data := sys.stdin.buffer.read1(4096):
        for call in processor.feed(data):
            screen.take(call)
    # what an update that didn't end holds
    for call in processor.stop_sync():
        screen.take(call)
    print(screen, end="")
