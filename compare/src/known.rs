//! A few answers worked out by hand from CAF and 01, which every side has to give before it is compared with another.

use crate::answer::*;
use crate::files::{HEADS, LPCM, bare, chunk};
use crate::script::Call;

/// 01's example: 48000 Hz, two channels, 24 bits, Stereo, samples 1 and -1, finished.
pub const EXAMPLE: [&str; 5] = [
    "63616666 0001 0000",
    "64657363 0000000000000020 40e7700000000000 6c70636d 00000000 00000006 00000001 00000002 00000018",
    "6368616e 000000000000000c 00650002 00000000 00000000",
    "64617461 000000000000000a 00000000",
    "000001 ffffff",
];

pub fn example_script() -> Vec<Call> {
    vec![
        Call::Configure { rate: 48000, channels: 2, bits: 24, labels: vec![1, 2] },
        Call::Header,
        Call::Samples(vec![1, -1]),
        Call::Finish,
    ]
}

fn check<T: PartialEq + std::fmt::Debug>(what: &str, given: T, wanted: T) {
    assert!(given == wanted, "{what}\n given  {given:?}\n wanted {wanted:?}");
}

pub fn check_all(side: &dyn Side) {
    let last = side.run(&example_script()).pop().expect("four answers");
    check("the example's bytes", hex(&last.file), EXAMPLE.concat().replace(' ', ""));
    check("the example's length", last.file.len(), 98);
    check("the example's stats", (last.data_count, last.finished), (6, true));

    let format = Format {
        rate_bits: 0x40e7_7000_0000_0000,
        id: LPCM,
        flags: 0,
        packet_bytes: 6,
        packet_frames: 1,
        channels: 2,
        bits: 24,
    };
    let found = Found { format: Some(format), little: false, size_position: 80, data_start: 92 };
    check("the example read", side.parse(&last.file), Reading { number: DONE, chunks: 3, found: Some(found) });

    let twenty = Call::Configure { rate: 48000, channels: 2, bits: 20, labels: vec![1, 2] };
    let last = side.run(&vec![twenty, Call::Header]).pop().expect("two answers");
    check("20 bits of two channels take six bytes", hex(&last.file[36..40]), "00000006".to_string());

    let mut reopened = example_script();
    reopened.extend([Call::Resume, Call::Data(vec![8])]);
    let last = side.run(&reopened).pop().expect("six answers");
    check("a resumed film is open", hex(&last.file[80..]), "ffffffffffffffff00000000000001ffffff08".to_string());

    let mut after_header = example_script()[..2].to_vec();
    after_header.push(Call::Tag(6619138));
    check("a setting after the header", side.run(&after_header).pop().map(|step| step.number), Some(HEADER_ALREADY));

    let found = Found { format: None, little: false, size_position: 12, data_start: 24 };
    check("audio alone", side.parse(&bare()), Reading { number: DONE, chunks: 1, found: Some(found) });
    let resumed = vec![Call::ResumeFrom(bare()), Call::Samples(vec![])];
    check("samples without a format", side.run(&resumed).pop().map(|step| step.number), Some(NO_FORMAT));

    let refused = |number, chunks| Reading { number, chunks, found: None };
    check("a head alone", side.parse(HEADS[0]), refused(NO_DATA, 0));
    let back = [HEADS[0], &chunk(b"free", -12, &[])].concat();
    check("a step back", side.parse(&back), refused(BAD_SIZE, 1));

    let tag = |tag| Layout { tag, described: 0 };
    check("[Center]", side.layout(&[3]), tag(6553601));
    check("[Left, Right]", side.layout(&[1, 2]), tag(6619138));
    check("quadraphonic", side.layout(&[1, 2, 5, 6]), tag(7077892));
    check("hexagonal", side.layout(&[1, 2, 5, 6, 3, 9]), tag(7208966));
    check("[Right, Left]", side.layout(&[2, 1]), Layout { tag: 0, described: 2 });
    check("no labels", side.layout(&[]), Layout { tag: 0, described: 0 });

    check("big-endian", side.pack(&[1, -8388608, 8388608], false), vec![0, 0, 1, 0x80, 0, 0, 0x80, 0, 0]);
    check("little-endian", side.pack(&[1], true), vec![1, 0, 0]);
}
