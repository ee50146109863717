//! The writer's calls and its lookup of labels, beside the Rust's.

use std::cell::RefCell;
use std::hint::black_box;
use std::io::Cursor;
use std::mem::ManuallyDrop;

use oracle::caf::{CAFWriter, ChannelLabel, ChannelLayoutTag, Endianness, PCMDataType};

use crate::files::example;
use crate::linked::{self, Writer};
use crate::race::{Goal, Row, Side, Table};
use crate::timed::{Windows, repeated};
use crate::{KIB, MIB};

/// Head, format and the start of the data.
pub const HEADER: usize = 68;

/// A writer of the text that has just written its header; it is not dropped, since that would finish it.
fn rust_writer(buffer: &mut [u8]) -> ManuallyDrop<CAFWriter<Cursor<&mut [u8]>>> {
    let mut writer = ManuallyDrop::new(CAFWriter::new(Cursor::new(buffer)));
    writer
        .set_audio_format_with_options(48000.0, 2, 24, PCMDataType::SignedInteger, Endianness::BigEndian)
        .expect("a format");
    writer.write_header().expect("a header");
    writer
}

fn our_writer(buffer: &mut [u8]) -> Writer {
    let mut writer = Writer::new();
    assert_eq!(writer.set_format(48000.0, 2, 24, false, false), 0);
    assert_eq!(writer.header(buffer), 0);
    writer
}

/// A block of bytes for data calls, and how often it is written. `made`: it is filled before each call, as a decoder fills it.
struct Block {
    bytes: Vec<u8>,
    made: bool,
    calls: usize,
    windows: usize,
}

impl Block {
    fn written(&mut self, timed: &mut Windows, mut call: impl FnMut(&[u8])) {
        for _ in 0..self.windows {
            timed.window(self.calls, || {
                for i in 0..self.calls {
                    if self.made {
                        self.bytes.fill(i as u8);
                    }
                    call(black_box(&self.bytes));
                }
            });
        }
    }
}

/// Data calls go through a region that no cache of a core holds, from its start to its end, and again. Both sides go through the same one
/// with the same block, so that how their memory lies tells for both.
fn data_call(row: Row, size: usize, made: bool) {
    const REGION: usize = 16 * MIB;
    const A_WINDOW: usize = 2 * MIB;
    let bytes = (0..size).map(|i| i as u8).collect();
    let (calls, windows) = ((A_WINDOW / size).max(1), REGION.max(size) / A_WINDOW.max(size));
    let memory = RefCell::new((vec![0xa5; HEADER + REGION.max(size)], Block { bytes, made, calls, windows }));
    let ours = |timed: &mut Windows| {
        let (buffer, block) = &mut *memory.borrow_mut();
        let mut writer = our_writer(buffer);
        block.written(timed, |bytes| assert_eq!(writer.data(buffer, bytes), 0));
    };
    let rust = |timed: &mut Windows| {
        let (buffer, block) = &mut *memory.borrow_mut();
        let mut writer = rust_writer(buffer);
        block.written(timed, |bytes| writer.write_data(bytes).expect("room"));
    };
    row.race(Box::new(ours), Box::new(rust));
    let (buffer, block) = memory.into_inner();
    assert!(made || buffer[HEADER..].chunks(size).all(|written| written == block.bytes));
}

pub fn data_calls(table: &Table) {
    for (name, size, most) in
        [("4 KiB", 4 * KIB, 0.9), ("64 KiB", 64 * KIB, 0.8), ("1 MiB", MIB, 1.05), ("64 MiB", 64 * MIB, 1.0)]
    {
        if let Some(row) = table.row(format!("data call of {name}"), "the Rust writer", Goal::Ratio(most)) {
            data_call(row, size, false);
        }
    }
    for (name, size) in [("4 KiB", 4 * KIB), ("64 KiB", 64 * KIB)] {
        if let Some(row) = table.row(format!("{name} made and written"), "the Rust writer", Goal::None) {
            data_call(row, size, true);
        }
    }
}

/// What a call costs that does nothing, on a writer of 64 channels with this layout: the record that it is lent is looked at all the same.
fn empty_call<'a>(set_layout: impl FnOnce(&mut Writer) -> u32) -> Side<'a> {
    let (mut writer, mut file) = (Writer::new(), vec![0; 2 * KIB]);
    assert_eq!(writer.set_format(48000.0, 64, 24, false, false), 0);
    assert_eq!(set_layout(&mut writer), 0);
    assert_eq!(writer.header(&mut file), 0);
    repeated(move || assert_eq!(writer.data(black_box(&mut file), &[]), 0))
}

pub fn empty_calls(table: &Table) {
    let by_tag = |tag: ChannelLayoutTag| empty_call(move |writer| writer.set_tag(tag as u32));
    let stereo = || by_tag(ChannelLayoutTag::Stereo);
    if let Some(row) = table.row("empty data call, layout by tag", "the Rust writer", Goal::Nanoseconds(40.0)) {
        let mut file = vec![0; 2 * KIB];
        let mut writer = rust_writer(&mut file);
        row.race(stereo(), repeated(move || writer.write_data(black_box(&[])).expect("room")));
    }
    if let Some(row) =
        table.row("empty data call, the last of the tags", "the same by the tag of stereo", Goal::Ratio(1.1))
    {
        row.race(by_tag(ChannelLayoutTag::ReservedDoNotUse), stereo());
    }
    let labels: Vec<_> = (0..64).map(|i| ChannelLabel::AmbisonicW as u32 + i % 8).collect();
    for count in [8, 64] {
        let what = format!("empty data call, {count} labels described");
        if let Some(row) = table.row(what, "the same by the tag of stereo", Goal::Ratio(1.1)) {
            row.race(empty_call(|writer| writer.set_labels(&labels[..count])), stereo());
        }
    }
}

pub fn small_samples(table: &Table) {
    const CALLS: usize = 2_000;
    let Some(row) = table.row("samples call of two", "the Rust writer", Goal::Ratio(2.0)) else { return };
    let [mut a, mut b] = [(); 2].map(|_| vec![0xa5; HEADER + CALLS * 6]);
    let ours = |timed: &mut Windows| {
        let mut writer = our_writer(&mut a);
        timed.window(CALLS, || (0..CALLS).for_each(|_| assert_eq!(writer.samples(&mut a, black_box(&[1, -1])), 0)));
    };
    let rust = |timed: &mut Windows| {
        let mut writer = rust_writer(&mut b);
        timed.window(CALLS, || {
            (0..CALLS).for_each(|_| writer.write_pcm_24bit_as_packed(black_box(&[1, -1])).expect("room"))
        });
    };
    row.race(Box::new(ours), Box::new(rust));
    assert_eq!(a, b);
}

/// From a fresh writer to a closed file of one frame.
pub fn clip(table: &Table) {
    let Some(row) = table.row("whole clip of 98 bytes", "the Rust writer", Goal::Ratio(1.1)) else { return };
    let [mut a, mut b] = [(); 2].map(|_| vec![0xa5u8; 98]);
    let ours = || {
        let mut writer = Writer::new();
        assert_eq!(writer.configure(48000.0, 2, 24, &[1, 2]), 0);
        assert_eq!(writer.header(&mut a), 0);
        assert_eq!(writer.samples(&mut a, &[1, -1]), 0);
        assert_eq!(writer.finish(&mut a), 0);
        black_box(&mut a);
    };
    let rust = || {
        let mut writer = ManuallyDrop::new(CAFWriter::new(Cursor::new(&mut b[..])));
        let labels = [ChannelLabel::Left, ChannelLabel::Right];
        writer.configure_audio_format(48000, 2, 24, &labels).expect("a format");
        writer.write_header().expect("a header");
        writer.write_pcm_24bit_as_packed(&[1, -1]).expect("room");
        writer.finish().expect("finish");
        // its own memory is given back, its finish is done
        drop(ManuallyDrop::into_inner(writer));
        black_box(&mut b);
    };
    row.race(repeated(ours), repeated(rust));
    assert_eq!(a, b);
}

/// Calls by themselves, beside those above. Each is for a session or a question, and no decoder's loop makes it.
pub fn single_calls(table: &Table) {
    let row = |what| table.row(what, "the Rust writer", Goal::None);
    let [mut a, mut b] = [(); 2].map(|_| example());
    if let Some(row) = row("format and header on a fresh writer") {
        row.race(
            repeated(|| {
                black_box(our_writer(&mut a).stats());
            }),
            repeated(|| {
                black_box(rust_writer(&mut b).stats());
            }),
        );
    }
    let [mut a, mut b] = [(); 2].map(|_| example());
    if let Some(row) = row("resume of 98 bytes") {
        let mut writer = Writer::new();
        row.race(
            repeated(|| assert_eq!(writer.resume(black_box(&mut a)), 0)),
            repeated(|| {
                let resumed = CAFWriter::from_existing_file(Cursor::new(&mut black_box(&mut b)[..]));
                black_box(ManuallyDrop::new(resumed.expect("a file")).stats());
            }),
        );
    }
    if let Some(row) = row("stats") {
        let (ours, rust) = (our_writer(&mut a), rust_writer(&mut b));
        row.race(
            repeated(|| {
                black_box(black_box(&ours).stats());
            }),
            repeated(|| {
                black_box(black_box(&rust).stats());
            }),
        );
    }
}

/// The tag for labels that the first row has, the last, and none.
pub fn lookups(table: &Table) {
    use ChannelLabel::*;
    let last = [Center, Left, Right, LeftSurround, RightSurround, RearSurroundLeft, RearSurroundRight, CenterSurround];
    let mut none = last;
    none.reverse();
    for (name, labels) in [("first row", &[Center][..]), ("last row", &last), ("miss", &none)] {
        let Some(row) = table.row(format!("lookup, {name}"), "the Rust", Goal::Ratio(4.0)) else { continue };
        let numbers: Vec<_> = labels.iter().map(|&label| label as u32).collect();
        let tag = ChannelLayoutTag::for_channel_labels(labels).map_or(0, |tag| tag as u64);
        assert_eq!(linked::layout_tag(&numbers), tag);
        row.race(
            repeated(|| {
                black_box(linked::layout_tag(black_box(&numbers)));
            }),
            repeated(|| {
                black_box(ChannelLayoutTag::for_channel_labels(black_box(labels)));
            }),
        );
    }
}
