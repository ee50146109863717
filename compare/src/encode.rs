//! The bytes of a fixed sample of answers (compare/README.md says what each means). Numbers are big-endian.

use crate::answer::{Layout, Reading, Step};
use crate::script::Call;

pub const READING: u8 = b'R';
pub const LABELS: u8 = b'L';
pub const SAMPLES: u8 = b'S';
pub const SCRIPT: u8 = b'W';

#[derive(Default)]
pub struct Bytes(pub Vec<u8>);

impl Bytes {
    pub fn one(&mut self, number: impl Into<u8>) -> &mut Self {
        self.0.push(number.into());
        self
    }

    pub fn four(&mut self, number: u64) -> &mut Self {
        let number = u32::try_from(number).expect("the sample keeps to short numbers");
        self.0.extend(number.to_be_bytes());
        self
    }

    pub fn eight(&mut self, number: u64) -> &mut Self {
        self.0.extend(number.to_be_bytes());
        self
    }

    /// A length and so many bytes.
    pub fn bytes(&mut self, bytes: &[u8]) -> &mut Self {
        self.four(bytes.len() as u64);
        self.0.extend(bytes);
        self
    }

    /// A count and so many numbers.
    pub fn numbers(&mut self, numbers: impl ExactSizeIterator<Item = u32>) -> &mut Self {
        self.four(numbers.len() as u64);
        for number in numbers {
            self.four(number.into());
        }
        self
    }
}

fn case(kind: u8, body: Bytes) -> Vec<u8> {
    let mut case = Bytes::default();
    case.one(kind).bytes(&body.0);
    case.0
}

pub fn reading(file: &[u8], reading: &Reading) -> Vec<u8> {
    let mut body = Bytes::default();
    body.bytes(file).one(reading.number as u8).four(reading.chunks);
    if let Some(found) = &reading.found {
        body.eight(found.size_position).eight(found.data_start).one(found.little).one(found.format.is_some());
        if let Some(format) = &found.format {
            body.eight(format.rate_bits);
            for number in
                [format.id, format.flags, format.packet_bytes, format.packet_frames, format.channels, format.bits]
            {
                body.four(number.into());
            }
        }
    }
    case(READING, body)
}

pub fn labels(labels: &[u32], layout: &Layout) -> Vec<u8> {
    let mut body = Bytes::default();
    body.numbers(labels.iter().copied()).four(layout.tag.into()).four(layout.described.into());
    case(LABELS, body)
}

pub fn samples(samples: &[i32], little: bool, packed: &[u8]) -> Vec<u8> {
    let mut body = Bytes::default();
    body.one(little).numbers(samples.iter().map(|&sample| sample as u32)).bytes(packed);
    case(SAMPLES, body)
}

pub fn call(bytes: &mut Bytes, call: &Call) {
    match call {
        Call::Format { rate_bits, channels, bits, float, little } => {
            bytes.one(1).eight(*rate_bits).four((*channels).into()).four((*bits).into()).one(*float).one(*little)
        }
        Call::Tag(tag) => bytes.one(2).four((*tag).into()),
        Call::Labels { labels, channels } => bytes.one(3).four((*channels).into()).numbers(labels.iter().copied()),
        Call::Configure { rate, channels, bits, labels } => bytes
            .one(4)
            .eight(f64::from(*rate).to_bits())
            .four((*channels).into())
            .four((*bits).into())
            .numbers(labels.iter().copied()),
        Call::Header => bytes.one(5),
        Call::Data(data) => bytes.one(6).bytes(data),
        Call::Samples(samples) => bytes.one(7).numbers(samples.iter().map(|&sample| sample as u32)),
        Call::Finish => bytes.one(8),
        Call::Resume => bytes.one(9),
        Call::ResumeFrom(file) => bytes.one(10).bytes(file),
        Call::Cut(cut, n) => {
            bytes.one(11).four(*n);
            return self::call(bytes, cut);
        }
    };
}

pub fn script(script: &[Call], steps: &[Step]) -> Vec<u8> {
    let mut body = Bytes::default();
    body.four(script.len() as u64);
    for (made, step) in script.iter().zip(steps) {
        call(&mut body, made);
        body.one(step.number as u8).four(step.count).four(step.data_count).one(step.finished);
        body.four(step.file.len() as u64);
    }
    body.0.extend(&steps.last().expect("a script has calls").file);
    case(SCRIPT, body)
}
