//! A parser of the bytes that programs send to a terminal, as a library for C.
//!
//! `src/proved` is the text of the proved library (`crates/vte_c`), without contracts; the parser
//! is that of the crate `vte`. `c/include/vte.h` declares the functions for C, and
//! docs/C.md says how to use them.
#![cfg_attr(not(any(test, feature = "std")), no_std)]
#![deny(unsafe_code, unsafe_op_in_unsafe_fn)]
#![warn(clippy::undocumented_unsafe_blocks)]

extern crate alloc;

mod ffi;
mod long;
mod memory;
mod processor;
mod proved;
