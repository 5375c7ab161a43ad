//! What a stream asks of a terminal, and the classes of all objects.

use crate::tape::{fields, Field, Tag, Tape, Value};
use vte::ansi::cursor_icon::CursorIcon;
use vte::ansi::lent::{HandlerCall, Hyperlink, TakeCall, TakeText};
use vte::ansi::{
    Attr, CharsetIndex, ClearMode, Color, CursorShape, CursorStyle, KeyboardModes,
    KeyboardModesApplyBehavior, LineClearMode, Mode, ModifyOtherKeys, NamedColor, PrivateMode, Rgb,
    ScpCharPath, ScpUpdateMode, StandardCharset, TabulationClearMode,
};

/// Lists the classes of objects, and records each call as an object of the class with its name.
macro_rules! classes {
    ($($other:ident)+; $($call:ident$(($($argument:ident),+))?)+) => {
        /// The classes of objects. Those of events are the first.
        #[derive(Clone, Copy, PartialEq)]
        pub enum Kind { $($other,)+ $($call),+ }

        pub const NAMES: &[&str] = &[$(stringify!($other),)+ $(stringify!($call)),+];

        impl TakeCall for Tape {
            fn take(&mut self, call: HandlerCall<'_>) {
                match call {
                    HandlerCall::Input(c) => self.take_text(c.encode_utf8(&mut [0; 4])),
                    $(HandlerCall::$call$(($($argument),+))? => {
                        self.begin(Kind::$call)$($(.add_field($argument))+)?;
                    })+
                }
            }
        }
    };
}

classes! {
    Text Execute Hook Put Unhook Osc Csi Esc Data
    Rgb NamedColor Attribute LinePart ScreenPart Tabs Shape Charset Path Update Behavior
    OtherKeys Input;
    Bell Backspace PutTab(count) Linefeed CarriageReturn Newline Substitute Goto(line, col)
    GotoLine(line) GotoCol(col) MoveUp(lines) MoveDown(lines) MoveForward(cols) MoveBackward(cols)
    MoveDownAndCr(lines) MoveUpAndCr(lines) SaveCursorPosition RestoreCursorPosition ReverseIndex
    ScrollUp(lines) ScrollDown(lines) SetScrollingRegion(top, bottom) SetHorizontalTabstop
    ClearTabs(which) SetTabs(interval) MoveForwardTabs(count) MoveBackwardTabs(count)
    InsertBlank(cols) InsertBlankLines(lines) DeleteChars(cols) DeleteLines(lines) EraseChars(cols)
    ClearLine(part) ClearScreen(part) Decaln TerminalAttribute(attribute) SetColor(index, color)
    ResetColor(index) DynamicColorSequence(prefix, index, terminator) SetHyperlink(link)
    SetCursorStyle(style) SetCursorShape(shape) SetMouseCursorIcon(keyword) SetActiveCharset(index)
    ConfigureCharset(index, charset) SetScp(path, update) SetMode(mode) UnsetMode(mode)
    ReportMode(mode) SetPrivateMode(mode) UnsetPrivateMode(mode) ReportPrivateMode(mode) ResetState
    SetKeypadApplicationMode UnsetKeypadApplicationMode PushKeyboardMode(modes)
    PopKeyboardModes(count) SetKeyboardMode(modes, behavior) ReportKeyboardMode
    SetModifyOtherKeys(keys) ReportModifyOtherKeys SetTitle(title) PushTitle PopTitle
    ClipboardStore(clipboard, data) ClipboardLoad(clipboard, terminator) DeviceStatus(kind)
    IdentifyTerminal(intermediate) TextAreaSizePixels TextAreaSizeChars
}

impl TakeText for Tape {
    fn take_text(&mut self, text: &str) {
        self.add_run(Kind::Input, text.as_bytes());
    }
}

fields! {
    Kind: kind => Value::with_kind(Tag::Object, kind, 0);
    // the letter of a clipboard
    u8: byte => char::from(byte);
    u16: number => Value::new(Tag::Number, number.into());
    i32: number => Value::new(Tag::Number, number.into());
    CharsetIndex: index => index as u16;
    CursorIcon: icon => icon.name();
    Mode: mode => mode.raw();
    PrivateMode: mode => mode.raw();
    KeyboardModes: modes => u16::from(modes.bits());
    Rgb: rgb => Kind::Rgb, u16::from(rgb.r), u16::from(rgb.g), u16::from(rgb.b);
    Option<CursorStyle>: style =>
        style.map(|style| style.shape), style.map_or(false, |style| style.blinking);
    Option<Hyperlink<'_>>: link => link.and_then(|link| link.id), link.map(|link| link.uri);
}

/// Says for enumerations of which classes their members are, which have numbers.
macro_rules! members {
    ($($type:ident $kind:ident;)+) => {
        fields! { $($type: member => Value::with_kind(Tag::Member, Kind::$kind, member as i64);)+ }
    };
}

members! {
    NamedColor NamedColor; LineClearMode LinePart; ClearMode ScreenPart; TabulationClearMode Tabs;
    CursorShape Shape; StandardCharset Charset; ScpCharPath Path; ScpUpdateMode Update;
    KeyboardModesApplyBehavior Behavior; ModifyOtherKeys OtherKeys; Number Attribute;
}

impl Field for Color {
    fn record(self, tape: &mut Tape) {
        match self {
            Color::Named(color) => color.record(tape),
            Color::Spec(rgb) => rgb.record(tape),
            Color::Indexed(index) => u16::from(index).record(tape),
        }
    }
}

macro_rules! attributes {
    ($($plain:ident)+; $($color:ident)+) => {
        /// The numbers of attributes.
        enum Number { $($plain,)+ $($color),+ }

        impl Field for Attr {
            fn record(self, tape: &mut Tape) {
                let (number, color) = match self {
                    $(Attr::$plain => (Number::$plain, None),)+
                    Attr::Foreground(color) => (Number::Foreground, Some(color)),
                    Attr::Background(color) => (Number::Background, Some(color)),
                    Attr::UnderlineColor(color) => (Number::UnderlineColor, color),
                };
                tape.add_field(number).add_field(color);
            }
        }
    };
}

attributes! {
    Reset Bold Dim Italic Underline DoubleUnderline Undercurl DottedUnderline DashedUnderline
    BlinkSlow BlinkFast Reverse Hidden Strike CancelBold CancelBoldDim CancelItalic CancelUnderline
    CancelBlink CancelReverse CancelHidden CancelStrike; Foreground Background UnderlineColor
}
