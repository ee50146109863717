//! Readings of files in memory, beside the Rust's and beside libsndfile's opening of one.

use std::hint::black_box;
use std::io::Cursor;

use oracle::caf::parse_caf_file;

use crate::files::{chunks_after, chunks_before, example};
use crate::linked;
use crate::race::{Goal, Side, Table};
use crate::timed::repeated;

fn parse(file: &[u8]) -> Side<'_> {
    repeated(move || {
        let _ = black_box(parse_caf_file(Cursor::new(black_box(file))));
    })
}

fn plain(file: &[u8]) -> Side<'_> {
    let mut found = linked::Found::default();
    repeated(move || {
        black_box(linked::plain(black_box(file), &mut found));
        black_box(&found);
    })
}

fn strict(file: &[u8]) -> Side<'_> {
    let mut found = linked::Found::default();
    assert_eq!(linked::strict(file, &mut found), 0);
    repeated(move || {
        black_box(linked::strict(black_box(file), &mut found));
        black_box(&found);
    })
}

pub fn small_files(table: &Table) {
    for file in [chunks_before(0), example()] {
        let length = file.len();
        if let Some(row) = table.row(format!("plain reading, {length} bytes"), "the Rust's parse", Goal::Ratio(1.1)) {
            row.race(plain(&file), parse(&file));
        }
        if let Some(row) = table.row(format!("strict reading, {length} bytes"), "the Rust's parse", Goal::Ratio(1.1)) {
            row.race(strict(&file), parse(&file));
        }
    }
}

/// The Rust reads no chunk after the data, so that both are held to its time for as many before them.
pub fn many_chunks(table: &Table) {
    for count in [100, 1000] {
        let (before, after) = (chunks_before(count), chunks_after(count));
        if let Some(row) =
            table.row(format!("plain reading, {count} chunks before the data"), "the Rust's parse", Goal::Ratio(0.9))
        {
            row.race(plain(&before), parse(&before));
        }
        for (place, file) in [("before", &before), ("after", &after)] {
            let what = format!("strict reading, {count} chunks {place} the data");
            if let Some(row) = table.row(what, "the Rust's parse of as many before", Goal::Ratio(0.9)) {
                row.race(strict(file), parse(&before));
            }
        }
    }
}

/// The count of channels that libsndfile finds when it opens the file.
#[cfg(sndfile)]
pub fn sndfile_channels(file: &[u8]) -> i32 {
    unsafe extern "C" {
        #[link_name = "sndfile_channels"]
        fn channels(bytes: *const u8, count: usize) -> i32;
    }
    // Safety: the slice is lent with its own length
    unsafe { channels(file.as_ptr(), file.len()) }
}

#[cfg(sndfile)]
pub fn opened(table: &Table) {
    let file = example();
    if let Some(row) = table.row("open of a small file", "libsndfile's sf_open_virtual", Goal::Ratio(0.02)) {
        row.race(strict(&file), repeated(|| assert_eq!(sndfile_channels(black_box(&file)), 2)));
    }
}

#[cfg(not(sndfile))]
pub fn opened(_: &Table) {}
