//! Writes what it reads without escape sequences and controls: `ls --color=always | cargo run
//! --example strip`

use std::io::{self, Read, Write};

use vte::{Parser, Perform, PerformText};

/// The text that was read since it was last written.
#[derive(Default)]
struct Text(String);

// `advance_text` makes none of these calls; without them, every other call would lose the text.
impl Perform for Text {
    fn print(&mut self, c: char) {
        self.0.push(c);
    }

    fn execute(&mut self, byte: u8) {
        if matches!(byte, b'\t' | b'\n' | b'\r') {
            self.0.push(char::from(byte));
        }
    }
}

impl PerformText for Text {
    fn keeps_layout(&self) -> bool {
        true
    }

    fn print_text(&mut self, text: &str) {
        self.0.push_str(text);
    }
}

/// Writes the text of what is read.
pub fn strip(mut input: impl Read, mut output: impl Write) -> io::Result<()> {
    let (mut parser, mut text, mut room) = (Parser::new(), Text::default(), [0; 4096]);
    loop {
        let count = input.read(&mut room)?;
        if count == 0 {
            return Ok(());
        }
        parser.advance_text(&mut text, &room[..count]);
        output.write_all(text.0.as_bytes())?;
        text.0.clear();
    }
}

fn main() -> io::Result<()> {
    strip(io::stdin().lock(), io::stdout().lock())
}
