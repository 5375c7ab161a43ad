// Written by tools/erase from crates/vte_c/src/event_writer/data.rt: edit that one.
//! The data of events: the groups of a sequence and the pieces of a command, written into the
//! caller's area.

use super::{encode_single_number, EventWriter};
use crate::proved::vte_c::event::count_byte;
use vte::Params;

impl EventWriter<'_> {
    /// Writes groups into the area. Returns where they end.
    pub(super) fn write_groups(&mut self, params: &Params) -> usize {
        let mut end = self.data_used;
        for group in params {
            end = self.write_group(end, group);
        }
        end
    }

    /// Writes a group into the area at `start`: its count of numbers, and two bytes for each.
    fn write_group(&mut self, start: usize, group: &[u16]) -> usize {
        // Most groups have one number.
        if let [number] = group {
            return self.write(start, &encode_single_number(*number));
        }
        let mut end = self.write(start, &[count_byte(group.len())]);
        for number in group {
            end = self.write(end, &[(*number % 256) as u8, (*number / 256) as u8]);
        }
        end
    }

    /// Writes the pieces of a command into the area. Returns where they end.
    pub(super) fn write_pieces(&mut self, pieces: &[&[u8]]) -> usize {
        let mut end = self.data_used;
        for piece in pieces {
            end = self.write_piece(end, piece);
        }
        end
    }

    /// Writes a piece into the area at `start`, after four bytes with its length.
    fn write_piece(&mut self, start: usize, piece: &[u8]) -> usize {
        let length = piece.len().min(u32::MAX as usize);
        let bytes = [
            (length % 256) as u8,
            (length / 256 % 256) as u8,
            (length / 65536 % 256) as u8,
            (length / 16777216) as u8,
        ];
        let end = self.write(start, &bytes);
        self.write(end, piece)
    }

    /// Writes bytes into the area at `start`, if they fit. Returns where they end, or would end.
    #[inline(always)]
    pub(super) fn write(&mut self, start: usize, bytes: &[u8]) -> usize {
        let end = start.saturating_add(bytes.len());
        if end <= self.data_capacity {
            self.area[start..end].copy_from_slice(bytes);
        }
        end
    }
}
