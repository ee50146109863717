//! Crate root for the Rust text: its two files stand beside a copy of this one in target/compare.

#[allow(dead_code, unused_imports)]
pub mod byteorder;
#[allow(dead_code, unused_imports)]
pub mod caf;
