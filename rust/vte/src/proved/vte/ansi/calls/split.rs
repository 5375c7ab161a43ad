// Written by tools/erase from crates/vte/src/ansi/calls/split.rt: edit that one.
//! Prefixes of texts, and texts between separators.

/// Returns what follows a word at the start of the text, or `None` if the text doesn't start with
/// it.
pub(crate) fn strip_word<'a>(text: &'a [u8], word: &[u8]) -> Option<&'a [u8]> {
    text.strip_prefix(word)
}

/// Splits a text at its first separator. Returns what is before the separator, and what follows it
/// if there is one.
pub(crate) fn split_at_first(text: &[u8], separator: u8) -> (&[u8], Option<&[u8]>) {
    match text.iter().position(|byte| *byte == separator) {
        Some(position) => (&text[..position], Some(&text[position + 1..])),
        None => (text, None),
    }
}

/// Returns what follows `id=` in the first parameter of a link that starts with it.
pub(crate) fn find_link_id(parameters: &[u8]) -> Option<&[u8]> {
    let mut left = Some(parameters);
    while let Some(text) = left {
        let (part, rest) = split_at_first(text, b':');
        let id = strip_word(part, b"id=");
        if id.is_some() {
            return id;
        }
        left = rest;
    }
    None
}
