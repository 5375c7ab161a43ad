// Written by tools/erase from crates/vte_core/src/parser/device_control.rt: edit that one.
//! Device control strings.

use crate::proved::vte_core::buffer::Buffer;
use crate::proved::vte_core::class::{ends_sequence, is_device_data, is_final};
use crate::proved::vte_core::head::HeadProgress;
use crate::proved::vte_core::parser::{Machine, OpenCharacter, State};
use crate::proved::vte_core::reader::{CountedPerform, Granularity, Reader};

/// The one 8-bit control that is read: ST, the end of the data.
const STRING_TERMINATOR: u8 = 0x9c;

impl<B: Buffer> Machine<B> {
    /// Reads the rest of the head of a device control string, and its final byte.
    /// Controls in it are dropped.
    #[inline(never)]
    pub(crate) fn read_device_control<
        P: CountedPerform<G> + ?Sized,
        G: Granularity,
        const MAY_STOP: bool,
    >(
        &mut self,
        reader: Reader,
        performer: &mut P,
        input: &[u8],
        from: usize,
        reached: HeadProgress,
    ) -> usize {
        let head = self.collected.read_head(reader, input, from, reached);
        self.state = State::DeviceControl(head.progress);
        if let Some(byte) = head.next_byte {
            if is_final(byte) {
                self.hook(reader, performer, head.progress, byte);
            } else if ends_sequence(byte) {
                self.end_sequence(reader, performer, byte);
            }
            // Plain controls, DEL and 80..FF are dropped.
            return head.position + 1;
        }
        head.position
    }

    /// Hooks the string at the final byte of its head, or ignores it if the head is ill-shaped.
    fn hook<P: CountedPerform<G> + ?Sized, G: Granularity>(
        &mut self,
        reader: Reader,
        performer: &mut P,
        reached: HeadProgress,
        final_byte: u8,
    ) {
        if let HeadProgress::IllShaped = reached {
            self.state = State::IgnoredString;
            return;
        }
        let joined = self.collected.joined;
        let ignore = self.collected.end_head(joined);
        performer.hook(reader, &self.collected, ignore, final_byte);
        self.state = State::DeviceData;
    }

    /// Reads the data of a device control string, and the byte that ends it. If data come in
    /// slices and the call can't stop, it reads either a slice, up to the next byte that isn't
    /// data, or that byte.
    pub(crate) fn read_device_data<
        P: CountedPerform<G> + ?Sized,
        G: Granularity,
        const MAY_STOP: bool,
    >(
        &mut self,
        reader: Reader,
        performer: &mut P,
        input: &[u8],
        from: usize,
    ) -> usize {
        for position in from..input.len() {
            let byte = reader.byte_at(input, position);
            if !is_device_data(byte) {
                return self.end_data_or_drop_byte::<P, G, MAY_STOP>(
                    reader, performer, input, position, byte,
                );
            }
            if G::IN_RUNS && !MAY_STOP {
                let end = reader.find_device_data_end(input, position + 1);
                reader.report_data(performer, input, position, end);
                return end;
            }
            performer.put_byte(reader, byte);
            if MAY_STOP && performer.terminated() {
                return position + 1;
            }
        }
        input.len()
    }

    /// Reads a byte that isn't put: it ends the data, or is dropped.
    #[inline(never)]
    pub(crate) fn end_data_or_drop_byte<
        P: CountedPerform<G> + ?Sized,
        G: Granularity,
        const MAY_STOP: bool,
    >(
        &mut self,
        reader: Reader,
        performer: &mut P,
        input: &[u8],
        from: usize,
        byte: u8,
    ) -> usize {
        if ends_sequence(byte) {
            return self.read_ending_byte::<P, G, MAY_STOP>(reader, performer, input, from, byte);
        }
        if byte == STRING_TERMINATOR {
            performer.unhook(reader);
            self.state = State::Text(OpenCharacter::Empty);
        }
        from + 1
    }
}
