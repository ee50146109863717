//! The files that are read: small ones, and ones of many small chunks.

use harness::answer::Side;
use harness::files::{HEADS, chunk, format_body};
use harness::known;
use harness::oracle::Rust;

/// Head, format and no chunk before the data: 68 bytes.
fn front() -> Vec<u8> {
    [HEADS[0], &chunk(b"desc", 32, &format_body(48000f64.to_bits(), [0; 6]))].concat()
}

fn free_chunks(count: usize) -> Vec<u8> {
    chunk(b"free", 4, &[0; 4]).repeat(count)
}

pub fn chunks_before(count: usize) -> Vec<u8> {
    [front(), free_chunks(count), chunk(b"data", -1, &[0; 4])].concat()
}

pub fn chunks_after(count: usize) -> Vec<u8> {
    [front(), chunk(b"data", 4, &[0; 4]), free_chunks(count)].concat()
}

/// 01's example, 98 bytes: two channels named by a tag, one frame.
pub fn example() -> Vec<u8> {
    Rust.run(&known::example_script()).pop().expect("a file").file
}
