//! Our code called straight from Rust, for the times: what include/caf.h declares, over slices.
//! Safety of every call here: each slice is lent with its own length, and none overlaps another.

unsafe extern "C" {
    fn caf_parse(file: *const u8, file_len: usize, out: *mut u64, out_len: usize) -> u32;
    fn caf_read_strict(file: *const u8, file_len: usize, out: *mut u64, out_len: usize) -> u32;
    fn caf_read_tray(tray: *const u8, tray_len: usize, out: *mut u64, out_len: usize) -> u32;
    fn caf_write_tray(
        bodies: *const u8,
        bodies_len: usize,
        lengths: *const u64,
        clip_count: usize,
        out: *mut u8,
        out_len: usize,
    ) -> u32;
    fn caf_layout_for_labels(labels: *const u32, count: usize, out: *mut u64, out_len: usize) -> u32;
    fn caf_pack_24(samples: *const i32, count: usize, little: bool, out: *mut u8, out_len: usize) -> u32;
    fn caf_unpack_24(bytes: *const u8, count: usize, little: bool, out: *mut i32, out_len: usize) -> u32;
    fn caf_to_wave(
        file: *const u8,
        file_len: usize,
        wave: *mut u8,
        wave_len: usize,
        length: *mut u64,
        length_len: usize,
    ) -> u32;
    fn caf_new(record: *mut u64, record_len: usize) -> u32;
    fn caf_set_format(
        record: *mut u64,
        record_len: usize,
        rate: f64,
        channels: u32,
        bits: u32,
        is_float: bool,
        little: bool,
    ) -> u32;
    fn caf_set_layout_tag(record: *mut u64, record_len: usize, tag: u32) -> u32;
    fn caf_set_layout_for_labels(
        record: *mut u64,
        record_len: usize,
        labels: *const u32,
        label_count: usize,
        channels: u32,
    ) -> u32;
    fn caf_configure_format(
        record: *mut u64,
        record_len: usize,
        rate: f64,
        channels: u32,
        bits: u32,
        labels: *const u32,
        label_count: usize,
    ) -> u32;
    fn caf_set_overview_group(record: *mut u64, record_len: usize, group: u32) -> u32;
    fn caf_write_header(record: *mut u64, record_len: usize, buf: *mut u8, buf_len: usize) -> u32;
    fn caf_write_data(
        record: *mut u64,
        record_len: usize,
        buf: *mut u8,
        buf_len: usize,
        bytes: *const u8,
        count: usize,
    ) -> u32;
    fn caf_write_samples(
        record: *mut u64,
        record_len: usize,
        buf: *mut u8,
        buf_len: usize,
        samples: *const i32,
        count: usize,
    ) -> u32;
    fn caf_finish(record: *mut u64, record_len: usize, buf: *mut u8, buf_len: usize) -> u32;
    fn caf_append_overview(record: *mut u64, record_len: usize, buf: *mut u8, buf_len: usize) -> u32;
    fn caf_resume(
        buf: *mut u8,
        buf_len: usize,
        file_len: u64,
        record: *mut u64,
        record_len: usize,
        chunks: *mut u64,
        chunks_len: usize,
    ) -> u32;
    fn caf_stats(record: *const u64, record_len: usize, out: *mut u64, out_len: usize) -> u32;
    fn caf_feed_begin(feeder: *mut u64, feeder_len: usize) -> u32;
    fn caf_feed(feeder: *mut u64, feeder_len: usize, block: *const u8, block_len: usize) -> u32;
    fn caf_feed_end(feeder: *const u64, feeder_len: usize, out: *mut u64, out_len: usize) -> u32;
    fn caf_compare_samples(
        one: *const u8,
        one_len: usize,
        one_little: bool,
        two: *const u8,
        two_len: usize,
        two_little: bool,
        counts: *mut u64,
        count_len: usize,
        out: *mut u64,
        out_len: usize,
    ) -> u32;
}

/// Places that a reading fills, as a caller in C keeps them.
pub type Found = [u64; 13];

/// The number of the plain reading; what it found goes into the lent places.
pub fn plain(file: &[u8], found: &mut Found) -> u32 {
    unsafe { caf_parse(file.as_ptr(), file.len(), found.as_mut_ptr(), found.len()) }
}

pub fn strict(file: &[u8], found: &mut Found) -> u32 {
    unsafe { caf_read_strict(file.as_ptr(), file.len(), found.as_mut_ptr(), found.len()) }
}

/// Number, chunk headers, payload and frames of a clip.
pub type Clip = [u64; 4];

/// The number of the tray; what is found goes into as many places as it has clips.
pub fn read_tray(tray: &[u8], clips: &mut [Clip]) -> u32 {
    let places = clips.as_flattened_mut();
    unsafe { caf_read_tray(tray.as_ptr(), tray.len(), places.as_mut_ptr(), places.len()) }
}

/// The tray of clips that stand joined.
pub fn tray(bodies: &[u8], lengths: &[u64]) -> Vec<u8> {
    let mut tray = vec![0; 4 + 16 * lengths.len() + bodies.len()];
    let (clips, count, out) = (lengths.as_ptr(), lengths.len(), tray.as_mut_ptr());
    assert_eq!(unsafe { caf_write_tray(bodies.as_ptr(), bodies.len(), clips, count, out, tray.len()) }, 0);
    tray
}

/// The tag for these labels, or 0.
pub fn layout_tag(labels: &[u32]) -> u64 {
    let mut found = [0; 2];
    assert_eq!(unsafe { caf_layout_for_labels(labels.as_ptr(), labels.len(), found.as_mut_ptr(), 2) }, 0);
    found[1]
}

pub fn pack(samples: &[i32], little: bool, out: &mut [u8]) -> u32 {
    unsafe { caf_pack_24(samples.as_ptr(), samples.len(), little, out.as_mut_ptr(), out.len()) }
}

pub fn unpack(bytes: &[u8], little: bool, out: &mut [i32]) -> u32 {
    unsafe { caf_unpack_24(bytes.as_ptr(), bytes.len(), little, out.as_mut_ptr(), out.len()) }
}

/// The first frame of two payloads that differs, the first of them big-endian; how many samples differ goes to the
/// counts, one for each channel.
pub fn compare(one: &[u8], two: &[u8], little: bool, counts: &mut [u64]) -> Option<usize> {
    let ((a, m), (b, n)) = ((one.as_ptr(), one.len()), (two.as_ptr(), two.len()));
    let (counts, channels, mut found) = (counts.as_mut_ptr(), counts.len(), [0; 2]);
    let number = unsafe { caf_compare_samples(a, m, false, b, n, little, counts, channels, found.as_mut_ptr(), 2) };
    assert_eq!(number, 0);
    (found[0] == 1).then_some(found[1] as usize)
}

pub fn to_wave(file: &[u8], wave: &mut [u8]) -> u32 {
    let mut length = 0;
    unsafe { caf_to_wave(file.as_ptr(), file.len(), wave.as_mut_ptr(), wave.len(), &mut length, 1) }
}

const FEEDER: usize = 18;

/// A feeding record as a caller in C keeps it.
pub struct Feeder([u64; FEEDER]);

impl Feeder {
    pub fn new() -> Self {
        let mut feeder = [0; FEEDER];
        assert_eq!(unsafe { caf_feed_begin(feeder.as_mut_ptr(), FEEDER) }, 0);
        Feeder(feeder)
    }

    pub fn feed(&mut self, block: &[u8]) -> u32 {
        unsafe { caf_feed(self.0.as_mut_ptr(), FEEDER, block.as_ptr(), block.len()) }
    }

    pub fn end(&self) -> (u32, Found) {
        let mut found = Found::default();
        let number = unsafe { caf_feed_end(self.0.as_ptr(), FEEDER, found.as_mut_ptr(), found.len()) };
        (number, found)
    }
}

const RECORD: usize = 84;

/// A writer record as a caller in C keeps it.
#[derive(Clone)]
pub struct Writer([u64; RECORD]);

impl Writer {
    pub fn new() -> Self {
        let mut record = [0; RECORD];
        assert_eq!(unsafe { caf_new(record.as_mut_ptr(), RECORD) }, 0);
        Writer(record)
    }

    /// Of the file that fills the buffer; its number.
    pub fn resume(&mut self, buf: &mut [u8]) -> u32 {
        let (record, len, mut chunks) = (self.0.as_mut_ptr(), buf.len(), 0);
        unsafe { caf_resume(buf.as_mut_ptr(), len, len as u64, record, RECORD, &mut chunks, 1) }
    }

    /// Data bytes of the session, and whether it is finished.
    pub fn stats(&self) -> [u64; 2] {
        let mut found = [0; 2];
        assert_eq!(unsafe { caf_stats(self.0.as_ptr(), RECORD, found.as_mut_ptr(), 2) }, 0);
        found
    }

    pub fn set_format(&mut self, rate: f64, channels: u32, bits: u32, is_float: bool, little: bool) -> u32 {
        unsafe { caf_set_format(self.0.as_mut_ptr(), RECORD, rate, channels, bits, is_float, little) }
    }

    pub fn set_tag(&mut self, tag: u32) -> u32 {
        unsafe { caf_set_layout_tag(self.0.as_mut_ptr(), RECORD, tag) }
    }

    /// For as many channels as there are labels.
    pub fn set_labels(&mut self, labels: &[u32]) -> u32 {
        let (record, count) = (self.0.as_mut_ptr(), labels.len());
        unsafe { caf_set_layout_for_labels(record, RECORD, labels.as_ptr(), count, count as u32) }
    }

    pub fn configure(&mut self, rate: f64, channels: u32, bits: u32, labels: &[u32]) -> u32 {
        let record = self.0.as_mut_ptr();
        unsafe { caf_configure_format(record, RECORD, rate, channels, bits, labels.as_ptr(), labels.len()) }
    }

    pub fn set_overview_group(&mut self, group: u32) -> u32 {
        unsafe { caf_set_overview_group(self.0.as_mut_ptr(), RECORD, group) }
    }

    pub fn header(&mut self, buf: &mut [u8]) -> u32 {
        unsafe { caf_write_header(self.0.as_mut_ptr(), RECORD, buf.as_mut_ptr(), buf.len()) }
    }

    pub fn data(&mut self, buf: &mut [u8], bytes: &[u8]) -> u32 {
        let record = self.0.as_mut_ptr();
        unsafe { caf_write_data(record, RECORD, buf.as_mut_ptr(), buf.len(), bytes.as_ptr(), bytes.len()) }
    }

    pub fn samples(&mut self, buf: &mut [u8], samples: &[i32]) -> u32 {
        let record = self.0.as_mut_ptr();
        unsafe { caf_write_samples(record, RECORD, buf.as_mut_ptr(), buf.len(), samples.as_ptr(), samples.len()) }
    }

    pub fn finish(&mut self, buf: &mut [u8]) -> u32 {
        unsafe { caf_finish(self.0.as_mut_ptr(), RECORD, buf.as_mut_ptr(), buf.len()) }
    }
    pub fn append_overview(&mut self, buf: &mut [u8]) -> u32 {
        unsafe { caf_append_overview(self.0.as_mut_ptr(), RECORD, buf.as_mut_ptr(), buf.len()) }
    }
}
