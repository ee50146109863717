//! The overview of a film in memory, beside what one writes in Rust for speed alone and beside a copy of the payload.

use std::hint::black_box;

use crate::MIB;
use crate::linked::Writer;
use crate::race::{Goal, Side, Table};
use crate::timed::Windows;
use crate::writing::HEADER;

const GROUP: usize = 4096;

/// A finished film of 24-bit samples, big-endian, in a buffer with room for its overview.
struct Film {
    writer: Writer,
    data_len: usize,
    buffer: Vec<u8>,
}

impl Film {
    fn new(channels: usize) -> Self {
        let frame = 3 * channels;
        let payload: Vec<u8> =
            (0..(64 * MIB / frame * frame) as u32).map(|i| (i.wrapping_mul(0x9e37_79b9) >> 24) as u8).collect();
        let chunk = 20 + 4 * channels * (payload.len() / frame).div_ceil(GROUP);
        let (mut writer, mut buffer) = (Writer::new(), vec![0xa5; HEADER + payload.len() + chunk]);
        assert_eq!(writer.set_format(48000.0, channels as u32, 24, false, false), 0);
        assert_eq!(writer.set_overview_group(GROUP as u32), 0);
        assert_eq!(writer.header(&mut buffer), 0);
        assert_eq!(writer.data(&mut buffer, &payload), 0);
        assert_eq!(writer.finish(&mut buffer), 0);
        Film { writer, data_len: payload.len(), buffer }
    }

    fn payload(&self) -> &[u8] {
        &self.buffer[HEADER..HEADER + self.data_len]
    }

    /// The pairs of the overview, which end the buffer.
    fn pairs(&self) -> &[u8] {
        &self.buffer[HEADER + self.data_len + 20..]
    }

    /// Appended again and again, each time by a copy of the record.
    fn appended(&mut self) -> Side<'_> {
        Box::new(|timed: &mut Windows| {
            let mut writer = self.writer.clone();
            timed.window(1, || assert_eq!(writer.append_overview(black_box(&mut self.buffer)), 0));
        })
    }
}

/// What one writes in Rust for speed alone: one pass, with the least and the greatest of each channel kept beside it.
fn plain_overview(payload: &[u8], channels: usize, out: &mut Vec<u8>) {
    let mut pairs = vec![(0i16, 0i16); channels];
    for group in payload.chunks(GROUP * 3 * channels) {
        pairs.fill((i16::MAX, i16::MIN));
        for frame in group.chunks_exact(3 * channels) {
            for (pair, sample) in pairs.iter_mut().zip(frame.chunks_exact(3)) {
                let height = i16::from_be_bytes([sample[0], sample[1]]);
                *pair = (pair.0.min(height), pair.1.max(height));
            }
        }
        for (least, greatest) in &pairs {
            out.extend_from_slice(&least.to_be_bytes());
            out.extend_from_slice(&greatest.to_be_bytes());
        }
    }
}

fn plain<'a>(payload: &'a [u8], channels: usize, out: &'a mut Vec<u8>) -> Side<'a> {
    Box::new(move |timed: &mut Windows| {
        timed.window(1, || {
            out.clear();
            plain_overview(black_box(payload), channels, out);
        })
    })
}

fn name(channels: &str) -> String {
    format!("overview of 64 MiB, {channels}, {GROUP} frames a sample")
}

pub fn appended(table: &Table) {
    for (words, channels) in [("stereo", 2), ("6 channels", 6)] {
        let Some(row) = table.row(name(words), "plain optimised Rust", Goal::Ratio(1.0)) else { continue };
        let mut film = Film::new(channels);
        let (payload, mut pairs) = (film.payload().to_vec(), Vec::with_capacity(film.pairs().len()));
        row.race(film.appended(), plain(&payload, channels, &mut pairs));
        assert_eq!(film.pairs(), pairs);
    }
}

/// For information: the least that reading the payload once and storing as much takes.
pub fn copied(table: &Table) {
    for (words, channels) in [("stereo", 2), ("6 channels", 6)] {
        let Some(row) = table.row(name(words), "memcpy of the payload", Goal::None) else { continue };
        let mut film = Film::new(channels);
        let payload = film.payload().to_vec();
        let mut copy = vec![0xa5; payload.len()];
        row.race(
            film.appended(),
            Box::new(|timed| timed.window(1, || black_box(&mut copy).copy_from_slice(black_box(&payload)))),
        );
    }
}
