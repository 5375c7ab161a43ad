//! All tests but those of memory.

#[cfg(feature = "ansi")]
mod support;
mod vectors;

mod advance_to_run;
#[cfg(feature = "ansi")]
mod ansi;
#[cfg(all(feature = "ansi", feature = "std"))]
mod examples;
mod ignored;
mod objects;
mod parser;
mod parts;
mod programs;
#[cfg(feature = "ansi")]
mod runs;
mod traits;

/// A file that has no line above wouldn't be tested.
#[test]
fn each_file_is_named() {
    let folder = std::path::Path::new(env!("CARGO_MANIFEST_DIR")).join("tests");
    for file in std::fs::read_dir(folder).unwrap() {
        let name = file.unwrap().file_name().into_string().unwrap();
        let line = format!("\nmod {};\n", name.trim_end_matches(".rs"));
        let is_named = include_str!("main.rs").contains(&line);
        let is_other = ["main.rs", "memory", "memory.rs"].contains(&&*name);
        assert!(is_named || is_other, "{name}");
    }
}
