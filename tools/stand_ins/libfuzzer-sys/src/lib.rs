//! Stands in for the crate `libfuzzer-sys`: tools/fuzz links clang's libFuzzer.

/// Defines the function that libFuzzer calls. A panic ends the program, which libFuzzer reports.
#[macro_export]
macro_rules! fuzz_target {
    (|$input:ident: &[u8]| $body:block) => {
        fn try_input($input: &[u8]) $body

        #[no_mangle]
        extern "C" fn LLVMFuzzerTestOneInput(bytes: *const u8, count: usize) -> i32 {
            // SAFETY: libFuzzer passes an array, which has a place even if it is empty
            try_input(unsafe { std::slice::from_raw_parts(bytes, count) });
            0
        }
    };
}
