// Writes the example film to standard output, from Rust.
use std::io::Write;

const RECORD: usize = 84;
const FILE_LEN: usize = 79;

#[link(name = "caf")]
unsafe extern "C" {
    fn caf_new(record: *mut u64, record_len: usize) -> u32;
    fn caf_configure_format(
        record: *mut u64,
        record_len: usize,
        rate: f64,
        channels: u32,
        bits: u32,
        labels: *const u32,
        label_count: usize,
    ) -> u32;
    fn caf_write_header(record: *mut u64, record_len: usize, buf: *mut u8, buf_len: usize) -> u32;
    fn caf_write_samples(
        record: *mut u64,
        record_len: usize,
        buf: *mut u8,
        buf_len: usize,
        samples: *const i32,
        sample_count: usize,
    ) -> u32;
    fn caf_finish(record: *mut u64, record_len: usize, buf: *mut u8, buf_len: usize) -> u32;
}

fn main() {
    let (mut record, mut file) = ([0u64; RECORD], [0u8; 1400]);
    let (labels, samples) = ([1u32, 2], [1i32, -1]);
    let (r, f) = (record.as_mut_ptr(), file.as_mut_ptr());
    let numbers = unsafe {
        [
            caf_new(r, RECORD),
            caf_configure_format(r, RECORD, 48000.0, 2, 24, labels.as_ptr(), labels.len()),
            caf_write_header(r, RECORD, f, 1400),
            caf_write_samples(r, RECORD, f, 1400, samples.as_ptr(), samples.len()),
            caf_finish(r, RECORD, f, 1400),
        ]
    };
    assert_eq!(numbers, [0; 5]);
    std::io::stdout().write_all(&file[..record[FILE_LEN] as usize]).unwrap();
}
