//! `vtlog` reads what is sent to a terminal and prints one line per event, or with the argument
//! `text` the text alone.
#![forbid(unsafe_code)]

#[path = "../../vte/src/adapter/array_vec.rs"]
mod array_vec;
mod prelude;
mod proved;

fn main() -> std::process::ExitCode {
    proved::vtlog::main(prelude::HostRuntime)
}
