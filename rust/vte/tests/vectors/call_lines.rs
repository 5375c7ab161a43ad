//! One line per handler call, in the form of crates/call_vectors: the method's name and arguments.
//!
//! rust/vte/fuzz has this file too, without features, over the crate `vte`, which knows neither
//! lent texts nor runs.

use std::cell::RefCell;
use std::fmt::{self, Write};
use std::rc::Rc;

use vte::ansi::cursor_icon::CursorIcon;
#[cfg(feature = "ansi")]
use vte::ansi::{lent, HandlerText};
use vte::ansi::{
    Attr, CharsetIndex, ClearMode, CursorShape, CursorStyle, Handler, Hyperlink, KeyboardModes,
    KeyboardModesApplyBehavior, LineClearMode, Mode, ModifyOtherKeys, PrivateMode, Rgb,
    ScpCharPath, ScpUpdateMode, StandardCharset, TabulationClearMode,
};

/// Writes a line for each call, as a handler of owned texts.
#[derive(Default)]
pub struct CallLines {
    /// The lines, which a timeout may write too.
    pub text: Rc<RefCell<String>>,
    /// The runs, whose characters have lines too.
    #[cfg(feature = "ansi")]
    pub runs: Vec<String>,
    /// The character of the last `input`, and its line: some vectors repeat it two million times.
    input: (char, String),
}

/// A text in quotes, with everything but 20..7E as `\u{7}`.
struct Quoted<'a>(&'a str);

impl fmt::Debug for Quoted<'_> {
    fn fmt(&self, f: &mut fmt::Formatter<'_>) -> fmt::Result {
        f.write_char('"')?;
        for c in self.0.chars() {
            match c {
                '"' | '\\' => write!(f, "\\{c}")?,
                ' '..='~' => f.write_char(c)?,
                _ => write!(f, "\\u{{{:x}}}", u32::from(c))?,
            }
        }
        f.write_char('"')
    }
}

impl CallLines {
    /// The lines since the last `take`.
    pub fn take(&mut self) -> String {
        self.text.take()
    }

    pub fn push(&mut self, line: fmt::Arguments<'_>) {
        writeln!(self.text.borrow_mut(), "{line}").unwrap();
    }

    fn push_call(&mut self, name: &str, arguments: &[&dyn fmt::Debug]) {
        let arguments: String = arguments.iter().map(|one| format!(" {one:?}")).collect();
        self.push(format_args!("{name}{arguments}"));
    }

    fn add_title(&mut self, title: Option<&str>) {
        self.push(format_args!("set_title {:?}", title.map(Quoted)));
    }

    fn add_question(&mut self, prefix: &str, index: usize, terminator: &str) {
        let arguments: [&dyn fmt::Debug; 3] = [&Quoted(prefix), &index, &Quoted(terminator)];
        self.push_call("dynamic_color_sequence", &arguments);
    }

    fn add_link(&mut self, link: Option<(Option<&str>, &str)>) {
        match link {
            None => self.push(format_args!("set_hyperlink None")),
            Some((id, uri)) => self.push(format_args!(
                "set_hyperlink Some(Hyperlink {{ id: {:?}, uri: {:?} }})",
                id.map(Quoted),
                Quoted(uri)
            )),
        }
    }
}

fn behavior_name(behavior: &KeyboardModesApplyBehavior) -> &'static str {
    match behavior {
        KeyboardModesApplyBehavior::Replace => "Replace",
        KeyboardModesApplyBehavior::Union => "Union",
        KeyboardModesApplyBehavior::Difference => "Difference",
    }
}

macro_rules! calls {
    ($($call:ident($($name:ident: $kind:ty),*)),* $(,)?) => {
        $(
            fn $call(&mut self, $($name: $kind),*) {
                let arguments: &[&dyn fmt::Debug] = &[$(&$name),*];
                self.push_call(stringify!($call), arguments);
            }
        )*
    };
}

/// The methods whose parameters are the same in both traits.
macro_rules! common_calls {
    () => {
        calls! {
            backspace(), carriage_return(), linefeed(), bell(), substitute(), newline(),
            set_horizontal_tabstop(), save_cursor_position(), restore_cursor_position(),
            reset_state(), reverse_index(), set_keypad_application_mode(),
            unset_keypad_application_mode(), decaln(), push_title(), pop_title(),
            text_area_size_pixels(), text_area_size_chars(), report_keyboard_mode(),
            report_modify_other_keys(), goto_col(column: usize), insert_blank(count: usize),
            move_up(count: usize), move_down(count: usize), device_status(kind: usize),
            move_forward(count: usize), move_backward(count: usize),
            move_down_and_cr(count: usize), move_up_and_cr(count: usize), scroll_up(count: usize),
            scroll_down(count: usize), insert_blank_lines(count: usize),
            delete_lines(count: usize), erase_chars(count: usize), delete_chars(count: usize),
            reset_color(index: usize), put_tab(count: u16), move_backward_tabs(count: u16),
            move_forward_tabs(count: u16), set_tabs(interval: u16),
            pop_keyboard_modes(count: u16), set_cursor_style(style: Option<CursorStyle>),
            set_cursor_shape(shape: CursorShape), goto(line: i32, column: usize),
            goto_line(line: i32), identify_terminal(intermediate: Option<char>),
            clear_line(part: LineClearMode), clear_screen(part: ClearMode),
            clear_tabs(which: TabulationClearMode), terminal_attribute(attribute: Attr),
            set_mode(mode: Mode), unset_mode(mode: Mode), report_mode(mode: Mode),
            set_private_mode(mode: PrivateMode), unset_private_mode(mode: PrivateMode),
            report_private_mode(mode: PrivateMode),
            set_scrolling_region(top: usize, bottom: Option<usize>),
            set_active_charset(index: CharsetIndex),
            configure_charset(index: CharsetIndex, charset: StandardCharset),
            set_color(index: usize, color: Rgb), set_mouse_cursor_icon(icon: CursorIcon),
            set_modify_other_keys(keys: ModifyOtherKeys),
            set_scp(path: ScpCharPath, update: ScpUpdateMode),
        }

        fn input(&mut self, c: char) {
            if self.input.0 != c || self.input.1.is_empty() {
                self.input = (c, format!("input {:04x}\n", u32::from(c)));
            }
            self.text.borrow_mut().push_str(&self.input.1);
        }

        fn clipboard_store(&mut self, clipboard: u8, data: &[u8]) {
            let data: String = data.iter().map(|byte| format!("{byte:02x}")).collect();
            let data = if data.is_empty() { "-" } else { &data };
            self.push(format_args!("clipboard_store {clipboard:02x} {data}"));
        }

        fn clipboard_load(&mut self, clipboard: u8, terminator: &str) {
            let end = Quoted(terminator);
            self.push(format_args!("clipboard_load {clipboard:02x} {end:?}"));
        }

        fn push_keyboard_mode(&mut self, modes: KeyboardModes) {
            self.push(format_args!("push_keyboard_mode {}", modes.bits()));
        }

        fn set_keyboard_mode(
            &mut self,
            modes: KeyboardModes,
            behavior: KeyboardModesApplyBehavior,
        ) {
            let (bits, behavior) = (modes.bits(), behavior_name(&behavior));
            self.push(format_args!("set_keyboard_mode {bits} {behavior}"));
        }
    };
}

impl Handler for CallLines {
    common_calls!();

    fn set_title(&mut self, title: Option<String>) {
        self.add_title(title.as_deref());
    }

    fn dynamic_color_sequence(&mut self, prefix: String, index: usize, terminator: &str) {
        self.add_question(&prefix, index, terminator);
    }

    fn set_hyperlink(&mut self, link: Option<Hyperlink>) {
        let link = link.as_ref();
        self.add_link(link.map(|link| (link.id.as_deref(), link.uri.as_str())));
    }
}

/// The same as a handler of lent texts.
#[cfg(feature = "ansi")]
pub struct Lent<'a>(pub &'a mut CallLines);

#[cfg(feature = "ansi")]
impl std::ops::Deref for Lent<'_> {
    type Target = CallLines;

    fn deref(&self) -> &CallLines {
        self.0
    }
}

#[cfg(feature = "ansi")]
impl std::ops::DerefMut for Lent<'_> {
    fn deref_mut(&mut self) -> &mut CallLines {
        self.0
    }
}

#[cfg(feature = "ansi")]
impl lent::Handler for Lent<'_> {
    common_calls!();

    fn set_title(&mut self, title: Option<&str>) {
        self.add_title(title);
    }

    fn dynamic_color_sequence(&mut self, prefix: &str, index: usize, terminator: &str) {
        self.add_question(prefix, index, terminator);
    }

    fn set_hyperlink(&mut self, link: Option<lent::Hyperlink<'_>>) {
        self.add_link(link.map(|link| (link.id, link.uri)));
    }
}

#[cfg(feature = "ansi")]
impl HandlerText for CallLines {
    fn input_text(&mut self, text: &str) {
        assert!(!text.is_empty(), "a run without a character");
        let is_control = |c| matches!(c, '\0'..='\u{1f}' | '\u{80}'..='\u{9f}');
        assert!(!text.contains(is_control), "a control in {text:?}");
        text.chars().for_each(|c| Handler::input(self, c));
        self.runs.push(text.to_owned());
    }
}

#[cfg(feature = "ansi")]
impl HandlerText for Lent<'_> {
    fn input_text(&mut self, text: &str) {
        self.0.input_text(text);
    }
}
