//! One line per event.
//!
//! rust/vte/fuzz has this file too, without features, over the crate `vte`, which has no runs.

use std::cell::Cell;
use std::fmt::{Arguments, Write};

#[cfg(any(test, feature = "ansi"))]
use vte::PerformText;
use vte::{Params, Perform};

/// When a performer is terminated.
#[derive(Clone, Copy, Default, PartialEq, Eq)]
pub enum Stop {
    #[default]
    Never,
    AfterPrint,
    AfterEscape,
    /// After each event, until `is_terminated` is set back.
    AfterEach,
    /// Once this many events had no character to print.
    AfterOthers(usize),
}

impl Stop {
    pub fn named(name: &str) -> Self {
        match name {
            "never" => Stop::Never,
            "from the start" => Stop::AfterOthers(0),
            "after print 1" => Stop::AfterPrint,
            "after esc 1" => Stop::AfterEscape,
            _ => panic!("no such stop: {name}"),
        }
    }
}

/// Writes a line for each event, and is terminated as `stop` says. With `KEEPS` its runs may hold
/// HT, LF and CR.
#[derive(Default)]
pub struct EventLines<const KEEPS: bool = false> {
    pub text: String,
    /// How many events had no character to print.
    pub others: usize,
    pub stop: Stop,
    pub is_terminated: bool,
    /// The runs and slices, whose characters and bytes have lines too.
    pub runs: Vec<String>,
    pub slices: Vec<Vec<u8>>,
    /// Whether it was asked if it keeps the layout, and if it is terminated.
    pub asked: Cell<(bool, bool)>,
}

impl<const KEEPS: bool> EventLines<KEEPS> {
    pub fn new(stop: Stop) -> Self {
        EventLines {
            stop,
            is_terminated: stop == Stop::AfterOthers(0),
            ..Self::default()
        }
    }

    pub fn push(&mut self, line: Arguments<'_>) {
        writeln!(self.text, "{line}").unwrap();
        self.others += 1;
        self.is_terminated |=
            self.stop == Stop::AfterEach || self.stop == Stop::AfterOthers(self.others);
    }

    fn push_sequence(
        &mut self,
        word: &str,
        params: &Params,
        intermediates: &[u8],
        ignore: bool,
        action: char,
    ) {
        // an iterator that doesn't end would give more
        let groups = params.iter().take(33).map(|group| join(group, ":"));
        let groups: Vec<String> = groups.collect();
        assert!(groups.len() < 33, "the iterator gives more than 32 groups");
        let (groups, bytes, end) = (groups.join(";"), hex(intermediates), u32::from(action));
        self.push(format_args!("{word} [{groups}] {bytes} {ignore} {end:02x}"));
    }
}

fn join(numbers: &[u16], separator: &str) -> String {
    let numbers: Vec<String> = numbers.iter().map(u16::to_string).collect();
    numbers.join(separator)
}

/// Two digits per byte, or `-` for none.
fn hex(bytes: &[u8]) -> String {
    if bytes.is_empty() {
        return "-".to_owned();
    }
    bytes.iter().map(|byte| format!("{byte:02x}")).collect()
}

impl<const KEEPS: bool> Perform for EventLines<KEEPS> {
    fn print(&mut self, c: char) {
        writeln!(self.text, "print {:04x}", u32::from(c)).unwrap();
        self.is_terminated |= matches!(self.stop, Stop::AfterPrint | Stop::AfterEach);
    }

    fn execute(&mut self, byte: u8) {
        self.push(format_args!("execute {byte:02x}"));
    }

    fn hook(&mut self, params: &Params, intermediates: &[u8], ignore: bool, action: char) {
        self.push_sequence("hook", params, intermediates, ignore, action);
    }

    fn put(&mut self, byte: u8) {
        self.push(format_args!("put {byte:02x}"));
    }

    fn unhook(&mut self) {
        self.push(format_args!("unhook"));
    }

    fn osc_dispatch(&mut self, params: &[&[u8]], bell_terminated: bool) {
        let pieces: String = params.iter().map(|it| format!(" {}", hex(it))).collect();
        let count = params.len();
        self.push(format_args!("osc {bell_terminated} {count}{pieces}"));
    }

    fn csi_dispatch(&mut self, params: &Params, intermediates: &[u8], ignore: bool, action: char) {
        self.push_sequence("csi", params, intermediates, ignore, action);
    }

    fn esc_dispatch(&mut self, intermediates: &[u8], ignore: bool, byte: u8) {
        let intermediates = hex(intermediates);
        self.push(format_args!("esc {intermediates} {ignore} {byte:02x}"));
        self.is_terminated |= self.stop == Stop::AfterEscape;
    }

    #[cfg(any(test, feature = "ansi"))]
    fn terminated(&self) -> bool {
        self.asked.set((self.asked.get().0, true));
        self.is_terminated
    }
}

/// Checks what a run and a slice promise, and writes their characters and bytes one by one.
#[cfg(any(test, feature = "ansi"))]
impl<const KEEPS: bool> PerformText for EventLines<KEEPS> {
    fn keeps_layout(&self) -> bool {
        self.asked.set((true, self.asked.get().1));
        KEEPS
    }

    fn print_text(&mut self, text: &str) {
        assert!(!text.is_empty(), "a run without a character");
        assert!(!self.is_terminated, "a run after a stop");
        assert_eq!(std::str::from_utf8(text.as_bytes()), Ok(text));
        for c in text.chars() {
            match c {
                '\t' | '\n' | '\r' if KEEPS => self.execute(c as u8),
                // what `execute` receives, by rows 00 to 1F and 80 to 9F of Unicode
                '\0'..='\u{1f}' | '\u{80}'..='\u{9f}' => panic!("{c:?} in a run"),
                _ => self.print(c),
            }
        }
        self.runs.push(text.to_owned());
    }

    fn put_slice(&mut self, bytes: &[u8]) {
        assert!(!bytes.is_empty(), "a slice without a byte");
        bytes.iter().for_each(|byte| self.put(*byte));
        self.slices.push(bytes.to_owned());
    }
}
