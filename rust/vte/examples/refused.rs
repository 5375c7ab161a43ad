//! Writes the operating system commands of standard input, a line for each.
//!
//! `printf '\033]0;title\a' | cargo run --example refused`

use std::io::{self, Read, Write};

use vte::{LongParser, Perform, Refused};

/// A parser that drops the rest of a command for which memory is refused.
#[derive(Default)]
pub struct CuttingParser {
    parser: LongParser,
    is_cut: bool,
}

impl CuttingParser {
    pub fn advance<P: Perform>(&mut self, performer: &mut P, mut bytes: &[u8]) {
        loop {
            if self.is_cut {
                let ends = |byte: &u8| matches!(byte, 0x07 | 0x18 | 0x1a | 0x1b);
                let end = bytes.iter().position(ends).unwrap_or(bytes.len());
                bytes = &bytes[end..];
            }
            if bytes.is_empty() {
                return;
            }
            // The same parser reads what ends the command: to a new one, the rest would be text.
            match self.parser.advance(performer, bytes) {
                Ok(()) => bytes = &[],
                Err(Refused { read }) => bytes = &bytes[read..],
            }
            self.is_cut = !bytes.is_empty();
        }
    }
}

/// The commands that were read since they were last written.
#[derive(Default)]
struct Commands(Vec<u8>);

impl Perform for Commands {
    fn osc_dispatch(&mut self, params: &[&[u8]], _: bool) {
        self.0.extend(params.join(&b';'));
        self.0.push(b'\n');
    }
}

/// Writes the commands of what is read.
pub fn write_commands(mut input: impl Read, mut output: impl Write) -> io::Result<()> {
    let (mut parser, mut commands) = (CuttingParser::default(), Commands::default());
    let mut room = [0; 4096];
    loop {
        let count = input.read(&mut room)?;
        if count == 0 {
            return Ok(());
        }
        parser.advance(&mut commands, &room[..count]);
        output.write_all(&commands.0)?;
        commands.0.clear();
    }
}

fn main() -> io::Result<()> {
    write_commands(io::stdin().lock(), io::stdout().lock())
}
