//! Writes one line per event of what it reads: `ls --color=always | cargo run --example parselog`

use std::io::{self, Read, Write};

use vte::{Params, Parser, Perform};

/// Writes events, and keeps the first error.
struct Log<W> {
    output: W,
    result: io::Result<()>,
}

impl<W: Write> Log<W> {
    fn line(&mut self, line: std::fmt::Arguments<'_>) {
        if self.result.is_ok() {
            self.result = writeln!(self.output, "{line}");
        }
    }
}

impl<W: Write> Perform for Log<W> {
    fn print(&mut self, c: char) {
        self.line(format_args!("print {c:?}"));
    }

    fn execute(&mut self, byte: u8) {
        self.line(format_args!("execute {byte:02x}"));
    }

    fn hook(&mut self, params: &Params, intermediates: &[u8], ignore: bool, action: char) {
        let intermediates = String::from_utf8_lossy(intermediates);
        self.line(format_args!(
            "hook {params:?} {intermediates:?} {action:?} ignore: {ignore}"
        ));
    }

    fn put(&mut self, byte: u8) {
        self.line(format_args!("put {byte:02x}"));
    }

    fn unhook(&mut self) {
        self.line(format_args!("unhook"));
    }

    fn osc_dispatch(&mut self, params: &[&[u8]], bell_terminated: bool) {
        let pieces: Vec<_> = params
            .iter()
            .map(|piece| String::from_utf8_lossy(piece))
            .collect();
        self.line(format_args!("osc {pieces:?} bell: {bell_terminated}"));
    }

    fn csi_dispatch(&mut self, params: &Params, intermediates: &[u8], ignore: bool, action: char) {
        let intermediates = String::from_utf8_lossy(intermediates);
        self.line(format_args!(
            "csi {params:?} {intermediates:?} {action:?} ignore: {ignore}"
        ));
    }

    fn esc_dispatch(&mut self, intermediates: &[u8], ignore: bool, byte: u8) {
        let intermediates = String::from_utf8_lossy(intermediates);
        let byte = char::from(byte);
        self.line(format_args!(
            "esc {intermediates:?} {byte:?} ignore: {ignore}"
        ));
    }

    fn terminated(&self) -> bool {
        self.result.is_err()
    }
}

/// Writes a line for each event.
pub fn write_events(mut input: impl Read, output: impl Write) -> io::Result<()> {
    let mut parser = Parser::new();
    let mut log = Log {
        output: io::BufWriter::new(output),
        result: Ok(()),
    };
    let mut room = [0; 4096];
    loop {
        let count = input.read(&mut room)?;
        let read = parser.advance_until_terminated(&mut log, &room[..count]);
        if count == 0 || read < count {
            log.result?;
            return log.output.flush();
        }
    }
}

fn main() -> io::Result<()> {
    write_events(io::stdin().lock(), io::stdout().lock())
}
