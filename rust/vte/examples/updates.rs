//! Counts what synchronized updates do: the calls that each update makes come together, when it
//! ends.
//!
//! `printf 'a\033[?2026hbc\033[?2026l' | cargo run --example updates --features ansi`

use std::io::{self, Read, Write};

use vte::ansi::{Handler, NamedPrivateMode, PrivateMode, Processor};

/// Counts the characters that each update writes.
#[derive(Default)]
struct Updates {
    is_open: bool,
    characters: usize,
    updates: Vec<usize>,
}

impl Handler for Updates {
    fn input(&mut self, _: char) {
        self.characters += 1;
    }

    fn set_private_mode(&mut self, mode: PrivateMode) {
        if mode == PrivateMode::Named(NamedPrivateMode::SyncUpdate) {
            self.is_open = true;
            self.characters = 0;
        }
    }

    fn unset_private_mode(&mut self, mode: PrivateMode) {
        // The end of an update is called once for its sequence, and once when its bytes have been
        // parsed.
        if mode == PrivateMode::Named(NamedPrivateMode::SyncUpdate) && self.is_open {
            self.is_open = false;
            self.updates.push(self.characters);
        }
    }
}

/// Writes a line for each update.
pub fn write_updates(mut input: impl Read, mut output: impl Write) -> io::Result<()> {
    let mut processor: Processor = Processor::new();
    let mut updates = Updates::default();
    let mut room = [0; 4096];
    loop {
        let count = input.read(&mut room)?;
        if count == 0 {
            break;
        }
        processor.advance(&mut updates, &room[..count]);
    }
    // An update that hasn't ended when the input does is stopped, as after its timeout.
    processor.stop_sync(&mut updates);
    for (index, characters) in updates.updates.iter().enumerate() {
        writeln!(output, "update {}: {characters} characters", index + 1)?;
    }
    Ok(())
}

fn main() -> io::Result<()> {
    write_updates(io::stdin().lock(), io::stdout().lock())
}
