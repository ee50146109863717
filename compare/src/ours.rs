//! Our code as the other side of the comparison: requests to the program of compare/ours.c, and its answers.

use std::cell::RefCell;
use std::io::{BufReader, Read, Write};
use std::process::{Child, ChildStdin, ChildStdout, Command, Stdio};

use crate::answer::*;
use crate::encode::{self, Bytes};
use crate::script::{self, Call, Past, Script};

/// What lent places hold before a call.
const UNTOUCHED: u64 = 0xa5a5_a5a5_a5a5_a5a5;
/// Places after what a script can fill.
const BEYOND: usize = 16;

const PLAIN_PLACES: usize = 12;
const STRICT_PLACES: usize = 13;

struct Pipe {
    to: ChildStdin,
    from: BufReader<ChildStdout>,
}

impl Pipe {
    fn ask(&mut self, request: &Bytes) {
        self.to.write_all(&request.0).expect("our program takes requests");
    }

    fn bytes(&mut self, n: usize) -> Vec<u8> {
        let mut bytes = vec![0; n];
        self.from.read_exact(&mut bytes).expect("our program answers");
        bytes
    }

    fn number(&mut self, width: usize) -> u64 {
        self.bytes(width).iter().fold(0, |value, &byte| value << 8 | u64::from(byte))
    }

    fn list(&mut self) -> Vec<u8> {
        let n = self.number(4) as usize;
        self.bytes(n)
    }
}

pub struct Ours {
    pipe: RefCell<Pipe>,
    child: Child,
}

impl Ours {
    /// Starts the program.
    pub fn start(program: &str) -> Self {
        let mut child = Command::new(program)
            .stdin(Stdio::piped())
            .stdout(Stdio::piped())
            .spawn()
            .expect("our program starts");
        let to = child.stdin.take().expect("a pipe");
        let from = BufReader::new(child.stdout.take().expect("a pipe"));
        Ours { pipe: RefCell::new(Pipe { to, from }), child }
    }

    fn reading<const PLACES: usize>(&self, kind: u8, file: &[u8]) -> (u32, [u64; PLACES]) {
        let mut request = Bytes::default();
        request.one(kind).bytes(file);
        let pipe = &mut *self.pipe.borrow_mut();
        pipe.ask(&request);
        let number = pipe.number(4) as u32;
        let places = [0; PLACES].map(|_| pipe.number(8));
        if number != DONE {
            assert!(places[1..].iter().all(|&place| place == UNTOUCHED), "a refused reading gives its count alone");
        }
        (number, places)
    }
}

impl Drop for Ours {
    fn drop(&mut self) {
        let _ = self.child.kill();
        let _ = self.child.wait();
    }
}

fn format(numbers: &[u64]) -> Format {
    let [rate_bits, id, flags, packet_bytes, packet_frames, channels, bits] = *numbers else {
        unreachable!("a format is seven numbers");
    };
    let short = |number: u64| u32::try_from(number).expect("a 32-bit number");
    Format {
        rate_bits,
        id: short(id),
        flags: short(flags),
        packet_bytes: short(packet_bytes),
        packet_frames: short(packet_frames),
        channels: short(channels),
        bits: short(bits),
    }
}

impl Side for Ours {
    fn parse(&self, file: &[u8]) -> Reading {
        let (number, places) = self.reading::<PLAIN_PLACES>(b'R', file);
        let found = (number == DONE).then(|| Found {
            format: (places[1] == 1).then(|| format(&places[2..9])),
            little: places[9] == 1,
            size_position: places[10],
            data_start: places[11],
        });
        Reading { number, chunks: places[0], found }
    }

    fn strict(&self, file: &[u8]) -> Option<Found> {
        let (number, places) = self.reading::<STRICT_PLACES>(b'T', file);
        (number == DONE).then(|| {
            let format = format(&places[1..8]);
            Found {
                format: Some(format),
                little: format.flags & 2 != 0,
                size_position: places[8],
                data_start: places[9],
            }
        })
    }

    fn layout(&self, labels: &[u32]) -> Layout {
        let mut request = Bytes::default();
        request.one(b'L').numbers(labels.iter().copied());
        let pipe = &mut *self.pipe.borrow_mut();
        pipe.ask(&request);
        assert_eq!(pipe.number(4) as u32, DONE, "known labels, one to a channel");
        Layout { tag: pipe.number(4) as u32, described: pipe.number(4) as u32 }
    }

    fn pack(&self, samples: &[i32], little: bool) -> Vec<u8> {
        let mut request = Bytes::default();
        request.one(b'S').one(little).numbers(samples.iter().map(|&sample| sample as u32));
        let pipe = &mut *self.pipe.borrow_mut();
        pipe.ask(&request);
        assert_eq!(pipe.number(4) as u32, DONE, "packing with room");
        let packed = pipe.list();
        assert_eq!(pipe.number(4) as u32, DONE, "unpacking with room");
        for &sample in samples {
            // unpacking gives the low 24 bits back, with their sign
            assert_eq!(pipe.number(4) as i32, sample << 8 >> 8);
        }
        packed
    }

    fn run(&self, script: &Script) -> Vec<Step> {
        let mut request = Bytes::default();
        request.one(b'N').four((script::room(script) + BEYOND) as u64);
        self.pipe.borrow_mut().ask(&request);
        let mut past = Past::default();
        let mut file = Vec::new();
        script.iter().map(|call| self.step(call, &mut past, &mut file)).collect()
    }
}

impl Ours {
    /// One call of a script. `past` is only used to see that a writer is left, `file` is what the last call left.
    fn step(&self, call: &Call, past: &mut Past, file: &mut Vec<u8>) -> Step {
        if past.no_writer && past.outside(call) == Some(NO_WRITER) {
            return Step { number: NO_WRITER, count: 0, data_count: 0, finished: false, file: file.clone() };
        }
        let mut request = Bytes::default();
        encode::call(&mut request, call);
        let pipe = &mut *self.pipe.borrow_mut();
        pipe.ask(&request);
        let step = Step {
            number: pipe.number(4) as u32,
            count: pipe.number(8),
            data_count: pipe.number(8),
            finished: pipe.number(1) == 1,
            file: pipe.list(),
        };
        past.answered(call, step.number);
        *file = step.file.clone();
        step
    }
}
