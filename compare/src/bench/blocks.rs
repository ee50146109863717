//! Films that come in blocks: what a block costs for its chunk headers and for its data.

use std::env;
use std::fs::{self, File};
use std::hint::black_box;
use std::io::Read;

use crate::files::chunks_before;
use crate::linked::{self, Feeder};
use crate::race::{Goal, Table};
use crate::timed::{Windows, repeated};
use crate::{KIB, MIB};

/// A file of small chunks, fed in blocks.
pub fn fed_chunks(table: &Table) {
    const CHUNKS: usize = 8_000;
    let file = chunks_before(CHUNKS);
    for (name, size) in [("4 KiB", 4 * KIB), ("64 KiB", 64 * KIB)] {
        let what = format!("fed in blocks of {name}: a small chunk");
        let Some(row) = table.row(what, "strict reading in memory", Goal::Ratio(4.0)) else { continue };
        let fed = |timed: &mut Windows| {
            timed.window(CHUNKS, || {
                let mut feeder = Feeder::new();
                black_box(&file).chunks(size).for_each(|block| assert_eq!(feeder.feed(block), 0));
                assert_eq!(feeder.end().1[0], CHUNKS as u64 + 2);
            })
        };
        let strict = |timed: &mut Windows| {
            timed.window(CHUNKS, || {
                let mut found = linked::Found::default();
                linked::strict(black_box(&file), &mut found);
                assert_eq!(found[0], CHUNKS as u64 + 2);
            })
        };
        row.race(Box::new(fed), Box::new(strict));
    }
}

pub fn fed_data(table: &Table) {
    let fed = |size: usize| {
        let mut feeder = Feeder::new();
        assert_eq!(feeder.feed(&chunks_before(0)), 0);
        let block = vec![0xa5; size];
        repeated(move || assert_eq!(feeder.feed(black_box(&block)), 0))
    };
    if let Some(row) = table.row("a block of 1 MiB of data fed", "a block of 4 KiB", Goal::None) {
        row.race(fed(MIB), fed(4 * KIB));
    }
}

/// An open film with a hole for its payload: the system makes its zeros as they are read.
fn long_film(length: usize) -> File {
    let path = env::temp_dir().join(format!("caf-bench-{}", std::process::id()));
    fs::write(&path, chunks_before(0)).expect("a folder for the film");
    let film = File::options().read(true).write(true).open(&path).expect("the film");
    // the name goes, and the film with it when it is closed
    fs::remove_file(&path).expect("its name");
    film.set_len(length as u64).expect("a file system with holes");
    film
}

/// Reads the whole film in blocks of 64 KiB, and does the same with each.
fn in_blocks(length: usize, timed: &mut Windows, mut each: impl FnMut(&[u8])) {
    const BLOCKS: usize = 64;
    let (mut film, mut block) = (long_film(length), vec![0; 64 * KIB]);
    for _ in 0..length / block.len() / BLOCKS {
        timed.window(BLOCKS, || {
            for _ in 0..BLOCKS {
                film.read_exact(&mut block).expect("a block");
                each(black_box(&block));
            }
        });
    }
}

pub fn streams(table: &Table) {
    const LENGTH: usize = 4 << 30;
    let what = "4 GiB read from a file and fed, a block of 64 KiB";
    let Some(row) = table.row(what, "reading and doing nothing", Goal::None) else { return };
    let ours = |timed: &mut Windows| {
        let mut feeder = Feeder::new();
        in_blocks(LENGTH, timed, |block| assert_eq!(feeder.feed(block), 0));
        let (number, found) = feeder.end();
        assert_eq!((number, found[10]), (0, (LENGTH - chunks_before(0).len()) as u64));
    };
    row.race(Box::new(ours), Box::new(|timed| in_blocks(LENGTH, timed, |_| ())));
}
