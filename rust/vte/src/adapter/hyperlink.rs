//! Links with owned texts.
use alloc::borrow::ToOwned;
use alloc::string::String;

use crate::proved::vte_handler::Hyperlink as LentHyperlink;

/// A link of the characters that follow (OSC 8).
///
/// Characters with the same URI and the same id are one link, wherever they are on the screen. A
/// link without an id is a link of its own.
#[derive(Clone, Debug, PartialEq, Eq, Hash)]
pub struct Hyperlink {
    /// Distinguishes links with the same URI.
    pub id: Option<String>,
    /// The URI, which is never empty.
    pub uri: String,
}

impl LentHyperlink<'_> {
    /// Copies its texts.
    pub(crate) fn owned(self) -> Hyperlink {
        Hyperlink {
            id: self.id.map(ToOwned::to_owned),
            uri: self.uri.to_owned(),
        }
    }
}
