//! Clips in a tray, read in one call, beside a call for each of them.

use std::hint::black_box;

use crate::files::example;
use crate::linked::{self, Clip};
use crate::race::{Goal, Row, Side, Table};
#[cfg(sndfile)]
use crate::readings::sndfile_channels;
use crate::timed::Windows;

const CLIPS: usize = 4096;
/// What is to be found in each: number, chunk headers, payload and frames.
const FOUND: Clip = [0, 3, 6, 1];

/// A tray of the same clip many times.
fn tray() -> Vec<u8> {
    let clip = example();
    linked::tray(&clip.repeat(CLIPS), &[clip.len() as u64; CLIPS])
}

/// The clips, where they stand in it.
fn clips(tray: &[u8]) -> Vec<&[u8]> {
    let clip = example().len();
    tray[tray.len() - CLIPS * clip..].chunks(clip).collect()
}

/// The row of one clip of a tray. Both sides read the bytes where they stand in it.
fn race(row: Row, other: impl for<'a> FnOnce(&'a [u8]) -> Side<'a>) {
    let tray = tray();
    let mut found = vec![Clip::default(); CLIPS];
    let ours = |timed: &mut Windows| {
        timed.window(CLIPS, || assert_eq!(linked::read_tray(black_box(&tray), &mut found), 0));
        assert!(found.iter().all(|clip| *clip == FOUND));
    };
    row.race(Box::new(ours), other(&tray));
}

/// The numbers that a tray's row has, by a call for the clip.
fn strict(clip: &[u8], places: &mut linked::Found) -> Clip {
    let number = linked::strict(clip, places);
    [number.into(), places[0], places[10], places[12]]
}

/// A call for each clip of which the caller has the bytes at hand.
fn at_hand(tray: &[u8]) -> Side<'_> {
    let clips = clips(tray);
    let (mut places, mut found) = (linked::Found::default(), vec![Clip::default(); CLIPS]);
    Box::new(move |timed| {
        timed.window(CLIPS, || {
            for (clip, numbers) in black_box(&clips).iter().zip(&mut found) {
                *numbers = strict(clip, &mut places);
            }
        });
        assert!(found.iter().all(|clip| *clip == FOUND));
    })
}

/// A number of eight bytes in a tray's table.
fn number_at(tray: &[u8], at: usize) -> usize {
    u64::from_be_bytes(tray[at..at + 8].try_into().unwrap()) as usize
}

/// The same work as the one call does: the clips of a tray, by its table.
fn by_table(tray: &[u8]) -> Side<'_> {
    let (mut places, mut found) = (linked::Found::default(), vec![Clip::default(); CLIPS]);
    Box::new(move |timed| {
        timed.window(CLIPS, || {
            let tray = black_box(tray);
            for (i, numbers) in found.iter_mut().enumerate() {
                let (start, size) = (number_at(tray, 4 + 16 * i), number_at(tray, 12 + 16 * i));
                *numbers = strict(&tray[start..start + size], &mut places);
            }
        });
        assert!(found.iter().all(|clip| *clip == FOUND));
    })
}

const WHAT: &str = "a clip of 98 bytes among 4096 in a tray";

pub fn called(table: &Table) {
    if let Some(row) = table.row(WHAT, "caf_read_strict of each", Goal::Ratio(1.0)) {
        race(row, at_hand);
    }
    if let Some(row) = table.row(WHAT, "caf_read_strict of each, by the tray's table", Goal::None) {
        race(row, by_table);
    }
}

#[cfg(sndfile)]
fn opened_each(tray: &[u8]) -> Side<'_> {
    let clips = clips(tray);
    Box::new(move |timed| {
        timed.window(CLIPS, || clips.iter().for_each(|clip| assert_eq!(sndfile_channels(black_box(clip)), 2)))
    })
}

#[cfg(sndfile)]
pub fn opened(table: &Table) {
    if let Some(row) = table.row(WHAT, "libsndfile's sf_open_virtual of each", Goal::None) {
        race(row, opened_each);
    }
}

#[cfg(not(sndfile))]
pub fn opened(_: &Table) {}
