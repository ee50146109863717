//! Two films compared, beside memcmp and beside what one writes in Rust for speed alone.

use std::hint::black_box;

use crate::MIB;
use crate::linked;
use crate::race::{Goal, Table};
use crate::timed::repeated;

const CHANNELS: usize = 6;
/// Whole frames of some 64 MiB.
const PAYLOAD: usize = 64 * MIB / (3 * CHANNELS) * (3 * CHANNELS);

unsafe extern "C" {
    fn memcmp(one: *const u8, two: *const u8, len: usize) -> i32;
}

/// What one writes in Rust for speed alone: a count for each channel, and the first frame that differs.
fn plain_count(one: &[u8], two: &[u8], is_turned: bool, counts: &mut [u64]) -> Option<usize> {
    let size = 3 * counts.len();
    let mut first = None;
    counts.fill(0);
    for (i, (a, b)) in one.chunks_exact(size).zip(two.chunks_exact(size)).enumerate() {
        let mut any = false;
        for ((count, x), y) in counts.iter_mut().zip(a.chunks_exact(3)).zip(b.chunks_exact(3)) {
            let differs = if is_turned { x != [y[2], y[1], y[0]] } else { x != y };
            *count += u64::from(differs);
            any |= differs;
        }
        if any && first.is_none() {
            first = Some(i);
        }
    }
    first
}

fn turned(audio: &[u8]) -> Vec<u8> {
    audio.chunks_exact(3).flat_map(|b| [b[2], b[1], b[0]]).collect()
}

/// Ours beside plain Rust: one film big-endian, the other in either order.
fn counted(table: &Table, what: &str, one: &[u8], two: &[u8], is_turned: bool) {
    let Some(row) = table.row(what, "plain optimised Rust", Goal::Ratio(1.0)) else { return };
    let [mut ours, mut theirs] = [[0; CHANNELS]; 2];
    let [mut a, mut b] = [None; 2];
    row.race(
        repeated(|| a = linked::compare(black_box(one), black_box(two), is_turned, black_box(&mut ours))),
        repeated(|| b = plain_count(black_box(one), black_box(two), is_turned, black_box(&mut theirs))),
    );
    assert_eq!((a, ours), (b, theirs));
}

pub fn compared(table: &Table) {
    let one: Vec<u8> = (0..PAYLOAD).map(|i| (i.wrapping_mul(0x9e37_79b9) >> 13) as u8).collect();
    let same = one.clone();
    if let Some(row) = table.row("films of 64 MiB compared, the same", "memcmp", Goal::Ratio(1.5)) {
        let mut counts = [0; CHANNELS];
        row.race(
            repeated(|| assert_eq!(linked::compare(black_box(&one), black_box(&same), false, &mut counts), None)),
            // Safety: both are of that length
            repeated(|| assert_eq!(unsafe { memcmp(black_box(one.as_ptr()), black_box(same.as_ptr()), PAYLOAD) }, 0)),
        );
    }
    counted(table, "films of 64 MiB compared, the same in two orders", &one, &turned(&one), true);
    let other: Vec<u8> = one.iter().map(|byte| !byte).collect();
    counted(table, "films of 64 MiB compared, every sample another", &one, &other, false);
    counted(table, "films of 64 MiB compared, every sample another and in two orders", &one, &turned(&other), true);
}
