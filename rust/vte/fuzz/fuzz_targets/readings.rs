//! However a stream is read, it has the same events and calls.
//!
//! The first two bytes of the input say where the stream, which follows them, is cut.
#![no_main]

#[path = "../../tests/vectors/call_lines.rs"]
mod call_lines;
#[path = "../cutting.rs"]
mod cutting;
#[allow(dead_code)]
#[path = "../../tests/vectors/event_lines.rs"]
mod event_lines;
#[path = "../parser_readings.rs"]
mod parser_readings;
#[path = "../processor_readings.rs"]
mod processor_readings;

use libfuzzer_sys::fuzz_target;

fuzz_target!(|input: &[u8]| {
    if let [size, seed, stream @ ..] = input {
        let chunks = cutting::chunks(stream, *size, *seed);
        parser_readings::compare(stream, &chunks);
        processor_readings::compare(stream, &chunks);
    }
});
