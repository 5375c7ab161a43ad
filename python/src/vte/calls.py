"""What a stream asks of a terminal: the calls that `vte.Processor` returns.

docs/CALLS.md says which sequences make which. Lines and columns are counted from 0, those of a
scrolling region from 1. Modes and the bits of keyboard modes are numbers. A call equals another of
the same type with the same values.
"""
# a field may have the name of a method of tuples
# mypy: disable-error-code="assignment"
import enum
from typing import NamedTuple, Union, get_args

from ._events import _distinct


class _Named(enum.IntEnum):
    def __repr__(self) -> str:
        return self.name


class Rgb(NamedTuple):
    """A colour by red, green and blue."""
    red: int
    green: int
    blue: int


class NamedColor(_Named):
    """A colour of the palette, of text or of the cursor, or its bright or dim form, by its name."""
    Black, Red, Green, Yellow, Blue, Magenta, Cyan, White = range(8)
    BrightBlack, BrightRed, BrightGreen, BrightYellow = range(8, 12)
    BrightBlue, BrightMagenta, BrightCyan, BrightWhite = range(12, 16)
    Foreground, Background, Cursor = range(256, 259)
    DimBlack, DimRed, DimGreen, DimYellow, DimBlue, DimMagenta, DimCyan, DimWhite = range(259, 267)
    BrightForeground, DimForeground = range(267, 269)


# by name, by red, green and blue, or the index in the palette
Color = Union[NamedColor, Rgb, int]


class Attribute(_Named):
    """What a `TerminalAttribute` changes."""
    Reset, Bold, Dim, Italic = range(4)
    Underline, DoubleUnderline, Undercurl, DottedUnderline, DashedUnderline = range(4, 9)
    BlinkSlow, BlinkFast, Reverse, Hidden, Strike = range(9, 14)
    CancelBold, CancelBoldDim, CancelItalic, CancelUnderline = range(14, 18)
    CancelBlink, CancelReverse, CancelHidden, CancelStrike = range(18, 22)
    Foreground, Background, UnderlineColor = range(22, 25)


class LinePart(_Named):
    """A part of the line: from the cursor to its end, from its start to the cursor, all of it."""
    Right, Left, All = range(3)


class ScreenPart(_Named):
    """A part of the screen: below the cursor, above it, all of it, or the scrollback."""
    Below, Above, All, Saved = range(4)


class Tabs(_Named):
    """The tab stop in the cursor's column, or all of them."""
    Current, All = range(2)


class Shape(_Named):
    """The cursor's shape."""
    Block, Underline, Beam, HollowBlock, Hidden = range(5)


class Charset(_Named):
    """A character set: ASCII, or DEC Special Graphics."""
    Ascii, SpecialCharacterAndLineDrawing = range(2)


class Path(_Named):
    """The direction of characters: the terminal's own, from left to right, from right to left."""
    Default, LTR, RTL = range(3)


class Update(_Named):
    """What follows the direction: as the terminal decides, what is shown, or the data."""
    ImplementationDependant, DataToPresentation, PresentationToData = range(3)


class Behavior(_Named):
    """What happens to the keyboard modes that are set."""
    Replace, Union, Difference = range(3)


class OtherKeys(_Named):
    """Which keys are sent with their modifiers."""
    Reset, EnableExceptWellDefined, EnableAll = range(3)


class Input(NamedTuple):
    """Shows characters."""
    text: str


class Bell(NamedTuple):
    """Rings or blinks (BEL)."""


class Backspace(NamedTuple):
    """Moves the cursor one column to the left, not past the first (BS)."""


class PutTab(NamedTuple):
    """Moves the cursor to the next tab stop (HT); `count` is 1."""
    count: int


class Linefeed(NamedTuple):
    """Moves the cursor a line down, or the text up at the region's bottom (LF, VT, FF, `ESC D`)."""


class CarriageReturn(NamedTuple):
    """Moves the cursor to the first column (CR, and a part of NEL, `ESC E`)."""


class Newline(NamedTuple):
    """Makes a line feed and a carriage return in one. No sequence makes it."""


class Substitute(NamedTuple):
    """Stands for a character that was lost (SUB)."""


class Goto(NamedTuple):
    """Moves the cursor to a line and a column (CUP, `CSI H`, and HVP, `CSI f`)."""
    line: int
    col: int


class GotoLine(NamedTuple):
    """Moves the cursor to a line (VPA, `CSI d`)."""
    line: int


class GotoCol(NamedTuple):
    """Moves the cursor to a column of the line (CHA, `CSI G`, and HPA, `` CSI ` ``)."""
    col: int


class MoveUp(NamedTuple):
    """Moves the cursor some lines up (CUU, `CSI A`)."""
    lines: int


class MoveDown(NamedTuple):
    """Moves the cursor some lines down (CUD, `CSI B`, and VPR, `CSI e`)."""
    lines: int


class MoveForward(NamedTuple):
    """Moves the cursor some columns to the right (CUF, `CSI C`, and HPR, `CSI a`)."""
    cols: int


class MoveBackward(NamedTuple):
    """Moves the cursor some columns to the left (CUB, `CSI D`)."""
    cols: int


class MoveDownAndCr(NamedTuple):
    """Moves the cursor to the first column, some lines down (CNL, `CSI E`)."""
    lines: int


class MoveUpAndCr(NamedTuple):
    """Moves the cursor to the first column, some lines up (CPL, `CSI F`)."""
    lines: int


class SaveCursorPosition(NamedTuple):
    """Saves the cursor's position, rendition, character sets (DECSC, `ESC 7`, SCOSC, `CSI s`)."""


class RestoreCursorPosition(NamedTuple):
    """Restores what was saved last (DECRC, `ESC 8`, and SCORC, `CSI u`)."""


class ReverseIndex(NamedTuple):
    """Moves the cursor a line up, or the text down at the region's top (RI, `ESC M`)."""


class ScrollUp(NamedTuple):
    """Moves the text of the scrolling region up (SU, `CSI S`)."""
    lines: int


class ScrollDown(NamedTuple):
    """Moves the text of the scrolling region down (SD, `CSI T`)."""
    lines: int


class SetScrollingRegion(NamedTuple):
    """Sets the lines that scroll (DECSTBM, `CSI r`). A bottom of None is the last line."""
    top: int
    bottom: int | None


class SetHorizontalTabstop(NamedTuple):
    """Sets a tab stop in the cursor's column (HTS, `ESC H`)."""


class ClearTabs(NamedTuple):
    """Clears the tab stop in the cursor's column, or all of them (TBC, `CSI g`)."""
    which: Tabs


class SetTabs(NamedTuple):
    """Sets a tab stop at each eighth column (DECST8C, `CSI ? 5 W`); `interval` is 8."""
    interval: int


class MoveForwardTabs(NamedTuple):
    """Moves the cursor some tab stops forward (CHT, `CSI I`)."""
    count: int


class MoveBackwardTabs(NamedTuple):
    """Moves the cursor some tab stops back (CBT, `CSI Z`)."""
    count: int


class InsertBlank(NamedTuple):
    """Inserts blanks at the cursor; the rest of the line moves right (ICH, `CSI @`)."""
    cols: int


class InsertBlankLines(NamedTuple):
    """Inserts blank lines at the cursor's line; those below move down (IL, `CSI L`)."""
    lines: int


class DeleteChars(NamedTuple):
    """Deletes characters from the cursor on; the rest of the line moves left (DCH, `CSI P`)."""
    cols: int


class DeleteLines(NamedTuple):
    """Deletes lines from the cursor's on; those below move up (DL, `CSI M`)."""
    lines: int


class EraseChars(NamedTuple):
    """Blanks characters from the cursor on; none moves (ECH, `CSI X`)."""
    cols: int


class ClearLine(NamedTuple):
    """Blanks a part of the line (EL, `CSI K`)."""
    part: LinePart


class ClearScreen(NamedTuple):
    """Blanks a part of the screen, or clears the scrollback (ED, `CSI J`)."""
    part: ScreenPart


class Decaln(NamedTuple):
    """Fills the screen with `E` (DECALN, `ESC # 8`)."""


class TerminalAttribute(NamedTuple):
    """Sets one attribute of the characters that follow (SGR, `CSI m`).

    `Foreground`, `Background` and `UnderlineColor` have a colour; None, of the last, is the text's.
    """
    attribute: Attribute
    color: Color | None


class SetColor(NamedTuple):
    """Sets a colour: palette, 256 text, 257 background, 258 cursor (OSC 4, 10, 11, 12)."""
    index: int
    color: Rgb


class ResetColor(NamedTuple):
    """Resets the colour of an index to its first value (OSC 104, 110, 111, 112)."""
    index: int


class DynamicColorSequence(NamedTuple):
    """Reports the colour of an index (OSC 4, 10, 11, 12 with `?`).

    The answer is `ESC ]`, the prefix, `;`, the colour and the terminator.
    """
    prefix: str
    index: int
    terminator: str


class SetHyperlink(NamedTuple):
    """Makes the characters that follow a link; a URI of None ends it (OSC 8)."""
    id: str | None
    uri: str | None


class SetCursorStyle(NamedTuple):
    """Sets the cursor's style (DECSCUSR, `CSI SP q`). A shape of None is the terminal's own."""
    shape: Shape | None
    blinking: bool


class SetCursorShape(NamedTuple):
    """Sets the cursor's shape alone (OSC 50, `CursorShape=`)."""
    shape: Shape


class SetMouseCursorIcon(NamedTuple):
    """Sets the mouse pointer's shape, by its keyword in CSS (OSC 22)."""
    keyword: str


class SetActiveCharset(NamedTuple):
    """Takes characters from the set G0 or G1 (SI and SO)."""
    index: int


class ConfigureCharset(NamedTuple):
    """Chooses what the set G0, G1, G2 or G3 is (SCS, `ESC (`, `)`, `*` or `+`, and `B` or `0`)."""
    index: int
    charset: Charset


class SetScp(NamedTuple):
    """Sets the direction of characters, and how what is shown follows it (SCP, `CSI SP k`)."""
    path: Path
    update: Update


class SetMode(NamedTuple):
    """Sets a mode (SM, `CSI h`)."""
    mode: int


class UnsetMode(NamedTuple):
    """Resets a mode (RM, `CSI l`)."""
    mode: int


class ReportMode(NamedTuple):
    """Reports whether a mode is set (DECRQM, `CSI $ p`)."""
    mode: int


class SetPrivateMode(NamedTuple):
    """Sets a private mode (DECSET, `CSI ? h`)."""
    mode: int


class UnsetPrivateMode(NamedTuple):
    """Resets a private mode (DECRST, `CSI ? l`)."""
    mode: int


class ReportPrivateMode(NamedTuple):
    """Reports whether a private mode is set (DECRQM, `CSI ? $ p`)."""
    mode: int


class ResetState(NamedTuple):
    """Resets everything to its state when the terminal was switched on (RIS, `ESC c`)."""


class SetKeypadApplicationMode(NamedTuple):
    """Makes the keypad's keys send sequences (DECKPAM, `ESC =`)."""


class UnsetKeypadApplicationMode(NamedTuple):
    """Makes the keypad's keys send digits (DECKPNM, `ESC >`)."""


class PushKeyboardMode(NamedTuple):
    """Pushes keyboard modes onto their stack, and sets them (`CSI > u`; kitty's protocol)."""
    modes: int


class PopKeyboardModes(NamedTuple):
    """Pops keyboard modes off their stack (`CSI < u`)."""
    count: int


class SetKeyboardMode(NamedTuple):
    """Replaces the keyboard modes, adds to them, or removes some (`CSI = u`)."""
    modes: int
    behavior: Behavior


class ReportKeyboardMode(NamedTuple):
    """Reports the keyboard modes that are set (`CSI ? u`)."""


class SetModifyOtherKeys(NamedTuple):
    """Sets how modified keys are sent (XTMODKEYS, `CSI > 4 m`)."""
    keys: OtherKeys


class ReportModifyOtherKeys(NamedTuple):
    """Reports how modified keys are sent (XTQMODKEYS, `CSI ? 4 m`)."""


class SetTitle(NamedTuple):
    """Sets the window's title, without white space at both ends (OSC 0 and 2)."""
    title: str


class PushTitle(NamedTuple):
    """Pushes the title onto a stack (XTWINOPS, `CSI 22 t`)."""


class PopTitle(NamedTuple):
    """Pops the title off the stack (XTWINOPS, `CSI 23 t`)."""


class ClipboardStore(NamedTuple):
    """Stores data, which should be base64, in a clipboard, named by a letter (OSC 52)."""
    clipboard: str
    data: bytes


class ClipboardLoad(NamedTuple):
    """Reports what a clipboard holds (OSC 52 with `?`). The answer ends with the terminator."""
    clipboard: str
    terminator: str


class DeviceStatus(NamedTuple):
    """Makes a report by its number (DSR, `CSI n`): 5 is the status, 6 the cursor's position."""
    kind: int


class IdentifyTerminal(NamedTuple):
    """Reports what terminal this is (DA, `CSI c`, and `ESC Z`).

    None asks for the primary attributes, `>` for the secondary, `=` for the tertiary.
    """
    intermediate: str | None


class TextAreaSizePixels(NamedTuple):
    """Reports the text area's size in pixels (XTWINOPS, `CSI 14 t`)."""


class TextAreaSizeChars(NamedTuple):
    """Reports the text area's size in characters (XTWINOPS, `CSI 18 t`)."""


Call = Union[
    Input, Bell, Backspace, PutTab, Linefeed, CarriageReturn, Newline, Substitute, Goto, GotoLine,
    GotoCol, MoveUp, MoveDown, MoveForward, MoveBackward, MoveDownAndCr, MoveUpAndCr,
    SaveCursorPosition, RestoreCursorPosition, ReverseIndex, ScrollUp, ScrollDown,
    SetScrollingRegion, SetHorizontalTabstop, ClearTabs, SetTabs, MoveForwardTabs,
    MoveBackwardTabs, InsertBlank, InsertBlankLines, DeleteChars, DeleteLines, EraseChars,
    ClearLine, ClearScreen, Decaln, TerminalAttribute, SetColor, ResetColor, DynamicColorSequence,
    SetHyperlink, SetCursorStyle, SetCursorShape, SetMouseCursorIcon, SetActiveCharset,
    ConfigureCharset, SetScp, SetMode, UnsetMode, ReportMode, SetPrivateMode, UnsetPrivateMode,
    ReportPrivateMode, ResetState, SetKeypadApplicationMode, UnsetKeypadApplicationMode,
    PushKeyboardMode, PopKeyboardModes, SetKeyboardMode, ReportKeyboardMode, SetModifyOtherKeys,
    ReportModifyOtherKeys, SetTitle, PushTitle, PopTitle, ClipboardStore, ClipboardLoad,
    DeviceStatus, IdentifyTerminal, TextAreaSizePixels, TextAreaSizeChars,
]
# all of them
KINDS: tuple[type, ...] = get_args(Call)
_distinct(*KINDS)
