//! The Rust text as one side of the comparison, over a `Cursor` that watches what the text does.
//!
//! The watching stops the text at the two places that 01 leaves out of the comparison and where it would go on
//! (a skip of 2^63 or more, which it takes for a step back and may repeat for ever; a rate that is no number),
//! and counts the chunk headers that it reads. All of this is seen in the text's own reads and seeks:
//! there is no second parser here. Two numbers are not the text's own: where a setting's bits are no whole bytes, the
//! header's bytes per packet are 02's (T-02); and after a resume the data size is -1 (T-04), until the text finishes the
//! file. So ours are held to these, and every other byte to the text.

use std::cell::RefCell;
use std::io::{self, Cursor, Error, ErrorKind, Read, Seek, SeekFrom, Write};
use std::mem;
use std::rc::Rc;

use oracle::caf::{self, CAFFileInfo, CAFWriter, ChannelLayout, Endianness, PCMDataType};

use crate::answer::*;
use crate::names;
use crate::script::{Call, Past, Script, tail_outside};

/// What the reads of `parse_caf_file` tell: a type is 4 bytes and its size 8, so a read of 8 after one of 4 ends a
/// chunk header; a read of 8 after one of 8 is a rate, and six reads of 4 end its body.
#[derive(Default)]
struct Watch {
    last_read: usize,
    chunks: u64,
    rate_is_nan: bool,
    body_reads_left: u32,
    outside: Option<u32>,
}

impl Watch {
    fn read(&mut self, bytes: &[u8]) -> io::Result<()> {
        match (self.last_read, bytes.len()) {
            (4, 8) => self.chunks += 1,
            (8, 8) => {
                self.rate_is_nan = f64::from_be_bytes(bytes.try_into().unwrap()).is_nan();
                self.body_reads_left = 6;
            }
            (_, 4) if self.body_reads_left > 0 => {
                self.body_reads_left -= 1;
                if self.body_reads_left == 0 && self.rate_is_nan {
                    return self.stop(BAD_RATE);
                }
            }
            _ => {}
        }
        self.last_read = bytes.len();
        Ok(())
    }

    fn seek(&mut self, to: SeekFrom) -> io::Result<()> {
        match to {
            SeekFrom::Current(by) if by < 0 => self.stop(BAD_SIZE),
            _ => Ok(()),
        }
    }

    fn stop(&mut self, number: u32) -> io::Result<()> {
        self.outside = Some(number);
        Err(Error::other("outside the domain"))
    }
}

/// Where a header of ours has its bytes per packet.
const PACKET_PLACE: usize = 36;

struct Disk {
    cursor: Cursor<Vec<u8>>,
    /// bytes that can still be stored before the disk fails
    budget: u64,
    watch: Watch,
}

/// The file, which the writer and the comparison both hold.
#[derive(Clone)]
struct Shared(Rc<RefCell<Disk>>);

impl Shared {
    fn new(file: Vec<u8>) -> Self {
        let cursor = Cursor::new(file);
        Shared(Rc::new(RefCell::new(Disk { cursor, budget: u64::MAX, watch: Watch::default() })))
    }

    fn file(&self) -> Vec<u8> {
        self.0.borrow().cursor.get_ref().clone()
    }

    /// Puts other bytes into the file, as far as it reaches.
    fn put(&self, at: usize, bytes: &[u8]) {
        let file = &mut *self.0.borrow_mut();
        for (place, &byte) in file.cursor.get_mut().iter_mut().skip(at).zip(bytes) {
            *place = byte;
        }
    }

    /// Puts -1 into the size field, where the text finds it.
    fn put_open(&self) {
        let info = caf::parse_caf_file(Cursor::new(self.file())).expect("a file that was resumed");
        self.put(info.data_size_position as usize, &[0xff; 8]);
    }

    fn reading(&self, parsed: io::Result<()>) -> (u32, u64) {
        let disk = self.0.borrow();
        let number = match parsed {
            Ok(()) => DONE,
            Err(error) => disk.watch.outside.unwrap_or_else(|| number_of(&error)),
        };
        (number, disk.watch.chunks)
    }
}

impl Read for Shared {
    fn read(&mut self, buf: &mut [u8]) -> io::Result<usize> {
        self.0.borrow_mut().cursor.read(buf)
    }

    fn read_exact(&mut self, buf: &mut [u8]) -> io::Result<()> {
        let disk = &mut *self.0.borrow_mut();
        disk.cursor.read_exact(buf)?;
        disk.watch.read(buf)
    }
}

impl Write for Shared {
    fn write(&mut self, buf: &[u8]) -> io::Result<usize> {
        let disk = &mut *self.0.borrow_mut();
        let n = disk.budget.min(buf.len() as u64) as usize;
        if n == 0 && !buf.is_empty() {
            return Err(Error::other("the disk failed"));
        }
        disk.budget -= n as u64;
        disk.cursor.write(&buf[..n])
    }

    fn flush(&mut self) -> io::Result<()> {
        Ok(())
    }
}

impl Seek for Shared {
    fn seek(&mut self, to: SeekFrom) -> io::Result<u64> {
        let disk = &mut *self.0.borrow_mut();
        disk.watch.seek(to)?;
        disk.cursor.seek(to)
    }
}

/// 01's number for an error of the Rust text.
fn number_of(error: &Error) -> u32 {
    if error.kind() == ErrorKind::UnexpectedEof {
        return CUT_SHORT;
    }
    match error.to_string().as_str() {
        "Not a valid CAF file - missing 'caff' signature" => NOT_CAF,
        "CAF file does not contain a data chunk" => NO_DATA,
        "Writer already finished" => FINISHED,
        "Must call write_header() before this operation" => NO_HEADER,
        "Must call write_header() before finish()" => NO_HEADER,
        "Audio format must be set before writing header" => NO_FORMAT,
        other => panic!("the Rust text has an error that 01 gives no number: {other}"),
    }
}

fn found(info: &CAFFileInfo) -> Found {
    assert!(info.channel_layout.is_none(), "the Rust text reads no layout");
    Found {
        format: info.audio_format.as_ref().map(|format| Format {
            rate_bits: format.sample_rate.to_bits(),
            id: format.format_id,
            flags: format.format_flags,
            packet_bytes: format.bytes_per_packet,
            packet_frames: format.frames_per_packet,
            channels: format.channels_per_frame,
            bits: format.bits_per_channel,
        }),
        little: info.endianness == Endianness::LittleEndian,
        size_position: info.data_size_position,
        data_start: info.data_chunk_start,
    }
}

fn endianness(little: bool) -> Endianness {
    if little { Endianness::LittleEndian } else { Endianness::BigEndian }
}

fn labels_of(numbers: &[u32]) -> Vec<caf::ChannelLabel> {
    numbers.iter().map(|&number| names::label(number).expect("a known label")).collect()
}

type Writer = CAFWriter<Shared>;

/// A writer of the text and its file. The writer is never dropped, since that would finish it.
struct Session {
    disk: Shared,
    writer: Option<mem::ManuallyDrop<Writer>>,
    past: Past,
    /// of the format that is set, where they are not the text's own
    packet: Option<u32>,
}

impl Session {
    fn new() -> Self {
        let disk = Shared::new(Vec::new());
        let writer = Some(mem::ManuallyDrop::new(CAFWriter::new(disk.clone())));
        Session { disk, writer, past: Past::default(), packet: None }
    }

    fn step(&mut self, call: &Call) -> Step {
        let (number, count) = match self.past.outside(call) {
            Some(number) => (number, 0),
            None => self.call(call),
        };
        self.past.answered(call, number);
        if number == DONE {
            self.round_up(call);
        }
        let stats = self.writer.as_ref().map(|writer| writer.stats());
        Step {
            number,
            count,
            data_count: stats.as_ref().map_or(0, |stats| stats.data_written),
            finished: stats.is_some_and(|stats| stats.finished),
            file: self.disk.file(),
        }
    }

    fn round_up(&mut self, call: &Call) {
        if call.sets_format() {
            self.packet = call.rounded_up();
        }
        if let Some(bytes) = self.packet.filter(|_| call.is_header()) {
            self.disk.put(PACKET_PLACE, &bytes.to_be_bytes());
        }
    }

    fn call(&mut self, call: &Call) -> (u32, u64) {
        match call {
            Call::Resume => self.resume(self.disk.file()),
            Call::ResumeFrom(file) => self.resume(file.clone()),
            Call::Cut(call, n) => self.cut(call, *n),
            _ => (self.write(call), 0),
        }
    }

    fn write(&mut self, call: &Call) -> u32 {
        match apply(self.writer.as_mut().expect("a writer"), call) {
            Ok(()) => DONE,
            Err(error) => number_of(&error),
        }
    }

    /// A refused resume leaves a fresh writer on an empty file.
    fn resume(&mut self, file: Vec<u8>) -> (u32, u64) {
        let reading = Rust.parse(&file);
        if let Some(number) = reading.found.and_then(|found| tail_outside(&file, &found)) {
            *self = Session::new();
            return (number, reading.chunks);
        }
        let disk = Shared::new(file);
        let resumed = CAFWriter::from_existing_file(disk.clone());
        let (resumed, writer) = match resumed {
            Ok(writer) => (Ok(()), Some(writer)),
            Err(error) => (Err(error), None),
        };
        let answer = disk.reading(resumed);
        *self = match writer {
            Some(writer) => {
                disk.put_open();
                let past = Past { formatless: reading.found.is_some_and(|found| found.format.is_none()), ..self.past };
                Session { disk, writer: Some(mem::ManuallyDrop::new(writer)), past, packet: None }
            }
            None => Session::new(),
        };
        answer
    }

    /// The call on a disk that fails after `n` bytes. A refused one stores nothing and leaves the writer.
    fn cut(&mut self, call: &Call, n: u64) -> (u32, u64) {
        self.disk.0.borrow_mut().budget = n;
        let result = apply(self.writer.as_mut().expect("a writer"), call);
        let stored = n - mem::replace(&mut self.disk.0.borrow_mut().budget, u64::MAX);
        match result {
            Err(error) if error.kind() == ErrorKind::InvalidInput => (number_of(&error), 0),
            _ => {
                self.writer = None;
                (DONE, stored)
            }
        }
    }
}

fn apply(writer: &mut Writer, call: &Call) -> io::Result<()> {
    match call {
        Call::Format { rate_bits, channels, bits, float, little } => writer.set_audio_format_with_options(
            f64::from_bits(*rate_bits),
            *channels,
            *bits,
            if *float { PCMDataType::Float } else { PCMDataType::SignedInteger },
            endianness(*little),
        ),
        Call::Tag(tag) => {
            writer.set_channel_layout(ChannelLayout::with_tag(names::tag(*tag).expect("a known tag")));
            Ok(())
        }
        Call::Labels { labels, channels } => {
            writer.set_channel_layout_for_labels(&labels_of(labels), *channels);
            Ok(())
        }
        Call::Configure { rate, channels, bits, labels } => {
            writer.configure_audio_format(*rate, *channels, *bits, &labels_of(labels))
        }
        Call::Header => writer.write_header(),
        Call::Data(bytes) => writer.write_data(bytes),
        Call::Samples(samples) => writer.write_pcm_24bit_as_packed(samples),
        Call::Finish => writer.finish(),
        Call::Resume | Call::ResumeFrom(_) | Call::Cut(..) => unreachable!("these are no calls of a writer"),
    }
}

pub struct Rust;

impl Side for Rust {
    fn parse(&self, file: &[u8]) -> Reading {
        let disk = Shared::new(file.to_vec());
        let parsed = caf::parse_caf_file(disk.clone());
        let (parsed, found) = match parsed {
            Ok(info) => (Ok(()), Some(found(&info))),
            Err(error) => (Err(error), None),
        };
        let (number, chunks) = disk.reading(parsed);
        Reading { number, chunks, found }
    }

    fn layout(&self, labels: &[u32]) -> Layout {
        let layout = ChannelLayout::for_channel_labels(&labels_of(labels));
        Layout { tag: layout.channel_layout_tag as u32, described: layout.number_channel_descriptions }
    }

    /// The bytes that a writer of that order stores for the samples.
    fn pack(&self, samples: &[i32], little: bool) -> Vec<u8> {
        let mut session = Session::new();
        let format = Call::Format { rate_bits: 0, channels: 1, bits: 24, float: false, little };
        for call in [format, Call::Header, Call::Samples(samples.to_vec())] {
            assert_eq!(session.write(&call), DONE);
        }
        let file = session.disk.file();
        file[file.len() - samples.len() * 3..].to_vec()
    }

    fn run(&self, script: &Script) -> Vec<Step> {
        let mut session = Session::new();
        script.iter().map(|call| session.step(call)).collect()
    }
}
