//! The flags of the keyboard, by the macro of `bitflags`.
use bitflags::bitflags;

bitflags! {
    /// What a program asks the keyboard to report: the flags of the kitty keyboard protocol, one
    /// bit per flag.
    #[derive(Debug, Clone, Copy, Default, PartialEq, Eq, Hash)]
    pub struct KeyboardModes: u8 {
        /// No flag.
        const NO_MODE = 0;
        /// Keys that would send a control or something like an escape sequence send an unambiguous
        /// sequence.
        const DISAMBIGUATE_ESC_CODES = 1;
        /// Key repeats and releases are reported too.
        const REPORT_EVENT_TYPES = 1 << 1;
        /// The key's shifted form and its position on the standard layout are reported too.
        const REPORT_ALTERNATE_KEYS = 1 << 2;
        /// Keys that produce text send sequences too.
        const REPORT_ALL_KEYS_AS_ESC = 1 << 3;
        /// The text that a key produces is reported with it.
        const REPORT_ASSOCIATED_TEXT = 1 << 4;
    }
}
