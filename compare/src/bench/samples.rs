//! 24-bit samples, beside what one writes in Rust for speed alone.

use std::hint::black_box;

use crate::linked;
use crate::race::{Goal, Table};
use crate::timed::repeated;

const SAMPLES: usize = 4096;

/// What one writes in Rust for speed alone.
fn plain_pack(samples: &[i32], little: bool, out: &mut [u8]) {
    for (place, sample) in out.chunks_exact_mut(3).zip(samples) {
        if little {
            place.copy_from_slice(&sample.to_le_bytes()[..3]);
        } else {
            place.copy_from_slice(&sample.to_be_bytes()[1..]);
        }
    }
}

fn plain_unpack(bytes: &[u8], little: bool, out: &mut [i32]) {
    for (place, b) in out.iter_mut().zip(bytes.chunks_exact(3)) {
        let [low, middle, high] = if little { [b[0], b[1], b[2]] } else { [b[2], b[1], b[0]] };
        // to the top and back, so that the sign comes along
        *place = i32::from_le_bytes([0, low, middle, high]) >> 8;
    }
}

pub fn packing(table: &Table) {
    let samples: Vec<i32> = (0..SAMPLES as i32).map(|i| i.wrapping_mul(0x9e37_79b9u32 as i32) >> 8).collect();
    for (order, little) in [("big", false), ("little", true)] {
        let [mut a, mut b] = [(); 2].map(|_| vec![0xa5; 3 * SAMPLES]);
        let [mut c, mut d] = [(); 2].map(|_| vec![0x5a; SAMPLES]);
        let what = format!("pack {SAMPLES} samples, {order}-endian");
        if let Some(row) = table.row(what, "plain optimised Rust", Goal::Ratio(0.9)) {
            row.race(
                repeated(|| assert_eq!(linked::pack(black_box(&samples), little, black_box(&mut a)), 0)),
                repeated(|| plain_pack(black_box(&samples), little, black_box(&mut b))),
            );
            assert_eq!(a, b);
        }
        plain_pack(&samples, little, &mut b);
        let what = format!("unpack {SAMPLES} samples, {order}-endian");
        if let Some(row) = table.row(what, "plain optimised Rust", Goal::Ratio(0.9)) {
            row.race(
                repeated(|| assert_eq!(linked::unpack(black_box(&b), little, black_box(&mut c)), 0)),
                repeated(|| plain_unpack(black_box(&b), little, black_box(&mut d))),
            );
            assert_eq!((&c, &d), (&samples, &samples));
        }
    }
}
