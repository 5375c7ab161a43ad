//! Writes a file without escape sequences and controls, by several threads:
//! `cargo run --release --example parallel_strip -- FILE [THREADS]`

use std::io::{self, Write};
use std::{env, fs, thread};

use vte::{Parser, Perform, PerformText};

/// The text so far.
#[derive(Default)]
struct Text(String);

// `advance_text` makes none of these calls; without them, every other call would lose the text.
impl Perform for Text {
    fn print(&mut self, c: char) {
        self.0.push(c);
    }

    fn execute(&mut self, byte: u8) {
        if matches!(byte, b'\n' | b'\r' | b'\t') {
            self.0.push(char::from(byte));
        }
    }
}

impl PerformText for Text {
    fn keeps_layout(&self) -> bool {
        true
    }

    fn print_text(&mut self, text: &str) {
        self.0.push_str(text);
    }
}

fn text_of(stream: &[u8]) -> String {
    let (mut parser, mut text) = (Parser::new(), Text::default());
    parser.advance_text(&mut text, stream);
    text.0
}

/// Writes the text of a stream, of which each thread reads a part.
pub fn strip(stream: &[u8], threads: usize, mut output: impl Write) -> io::Result<()> {
    thread::scope(|scope| {
        let readers: Vec<_> = vte::parts(stream, stream.len() / threads.max(1) + 1)
            .map(|part| scope.spawn(move || text_of(part)))
            .collect();
        for reader in readers {
            let text = reader.join().expect("a thread panicked");
            output.write_all(text.as_bytes())?;
        }
        Ok(())
    })
}

fn main() -> io::Result<()> {
    let mut words = env::args().skip(1);
    let file = words.next().expect("the name of a file");
    let threads = match words.next() {
        Some(word) => word.parse().expect("a number of threads"),
        None => thread::available_parallelism()?.get(),
    };
    strip(&fs::read(file)?, threads, io::stdout().lock())
}
