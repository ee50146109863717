//! A film delivered as WAVE, beside what its samples cost alone.

use std::hint::black_box;

use harness::files::{HEADS, LPCM, chunk, format_body};

use crate::MIB;
use crate::linked;
use crate::race::{Goal, Table};

/// Whole samples, 64 MiB but for a byte.
const PAYLOAD: usize = 64 * MIB / 3 * 3;
const HEAD: usize = 68;

/// Mono, by the tag 100 with one channel.
fn film(little: bool, samples: &[u8]) -> Vec<u8> {
    let format = [LPCM, if little { 2 } else { 0 }, 3, 1, 1, 24];
    let layout = [[0, 100, 0, 1], [0; 4], [0; 4]].concat();
    let audio = [&[0; 4], samples].concat();
    [
        HEADS[0],
        &chunk(b"desc", 32, &format_body(48000f64.to_bits(), format)),
        &chunk(b"chan", 12, &layout),
        &chunk(b"data", audio.len() as i64, &audio),
    ]
    .concat()
}

/// What one writes in Rust for speed alone.
fn plain_turn(samples: &[u8], out: &mut [u8]) {
    for (place, sample) in out.chunks_exact_mut(3).zip(samples.chunks_exact(3)) {
        place.copy_from_slice(&[sample[2], sample[1], sample[0]]);
    }
}

fn plain_copy(samples: &[u8], out: &mut [u8]) {
    out.copy_from_slice(samples);
}

pub fn delivered(table: &Table) {
    let samples: Vec<u8> = (0..PAYLOAD).map(|i| (i.wrapping_mul(0x9e37_79b9) >> 16) as u8).collect();
    for (order, little, beside, goal, plain) in [
        ("big", false, "the turn in plain optimised Rust", 1.0, plain_turn as fn(&[u8], &mut [u8])),
        ("little", true, "memcpy", 1.1, plain_copy),
    ] {
        let what = format!("64 MiB delivered as WAVE, {order}-endian");
        let Some(row) = table.row(what, beside, Goal::Ratio(goal)) else { continue };
        let film = film(little, &samples);
        // an odd payload has a pad byte
        let [mut a, mut b] = [(); 2].map(|_| vec![0xa5; HEAD + PAYLOAD + PAYLOAD % 2]);
        row.race(
            Box::new(|timed| timed.window(1, || assert_eq!(linked::to_wave(black_box(&film), black_box(&mut a)), 0))),
            Box::new(|timed| timed.window(1, || plain(black_box(&samples), black_box(&mut b[HEAD..HEAD + PAYLOAD])))),
        );
        assert_eq!(a[HEAD..HEAD + PAYLOAD], b[HEAD..HEAD + PAYLOAD]);
    }
}
