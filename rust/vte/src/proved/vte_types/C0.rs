// Written by tools/erase from crates/vte_types/src/C0.rt: edit that one.
//! The controls of the set C0, one byte each (ECMA-48, section 8.2; ISO 646), by the names of
//! ASCII; and DEL.

/// Null.
pub const NUL: u8 = 0x00;

/// Start of heading.
pub const SOH: u8 = 0x01;

/// Start of text.
pub const STX: u8 = 0x02;

/// End of text.
pub const ETX: u8 = 0x03;

/// End of transmission.
pub const EOT: u8 = 0x04;

/// Enquiry.
pub const ENQ: u8 = 0x05;

/// Acknowledge.
pub const ACK: u8 = 0x06;

/// Bell.
pub const BEL: u8 = 0x07;

/// Backspace.
pub const BS: u8 = 0x08;

/// Horizontal tabulation.
pub const HT: u8 = 0x09;

/// Line feed.
pub const LF: u8 = 0x0a;

/// Vertical tabulation.
pub const VT: u8 = 0x0b;

/// Form feed.
pub const FF: u8 = 0x0c;

/// Carriage return.
pub const CR: u8 = 0x0d;

/// Shift out: G1 is invoked.
pub const SO: u8 = 0x0e;

/// Shift in: G0 is invoked.
pub const SI: u8 = 0x0f;

/// Data link escape.
pub const DLE: u8 = 0x10;

/// Device control one: transmission goes on.
pub const XON: u8 = 0x11;

/// Device control two.
pub const DC2: u8 = 0x12;

/// Device control three: transmission is held.
pub const XOFF: u8 = 0x13;

/// Device control four.
pub const DC4: u8 = 0x14;

/// Negative acknowledge.
pub const NAK: u8 = 0x15;

/// Synchronous idle.
pub const SYN: u8 = 0x16;

/// End of transmission block.
pub const ETB: u8 = 0x17;

/// Cancel: ends what is open.
pub const CAN: u8 = 0x18;

/// End of medium.
pub const EM: u8 = 0x19;

/// Substitute: ends what is open.
pub const SUB: u8 = 0x1a;

/// Escape.
pub const ESC: u8 = 0x1b;

/// Information separator four: file separator.
pub const FS: u8 = 0x1c;

/// Information separator three: group separator.
pub const GS: u8 = 0x1d;

/// Information separator two: record separator.
pub const RS: u8 = 0x1e;

/// Information separator one: unit separator.
pub const US: u8 = 0x1f;

/// Delete. ECMA-48 doesn't count it among the controls of C0.
pub const DEL: u8 = 0x7f;
