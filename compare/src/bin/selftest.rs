//! Tries the comparison on itself: the Rust text against a copy of it that lies in one place.
//! Each lie has to be found, and its input made small.

use harness::answer::*;
use harness::compare::Comparison;
use harness::known;
use harness::oracle::Rust;
use harness::script::{Call, Script};

#[derive(Clone, Copy, Debug)]
enum Lie {
    /// the data starts one byte later when a chunk was skipped
    DataStart,
    /// one chunk header more after a cut
    ChunkCount,
    /// the last equal row in the place of the first
    LastRow,
    /// the sign kept where 24 bits cannot hold it
    Saturated,
    /// the data count of the session before goes on after a resume
    CountAfterResume,
    /// finish from the low byte
    LowByteFirst,
    /// a second finish is refused
    SecondFinish,
    /// chunks after the data are taken for audio, as the text has it
    TailResumed,
    /// bytes per packet rounded down for bits that are no whole bytes, as the text has it
    RoundedDown,
    /// the old size is kept after a resume, as the text has it
    OldSize,
}

struct Liar(Lie);

impl Side for Liar {
    fn parse(&self, file: &[u8]) -> Reading {
        let mut reading = Rust.parse(file);
        match (self.0, &mut reading.found) {
            (Lie::DataStart, Some(found)) if reading.chunks > 2 => found.data_start += 1,
            (Lie::ChunkCount, None) if reading.number == CUT_SHORT && file.len() > 20 => reading.chunks += 1,
            _ => {}
        }
        reading
    }

    fn layout(&self, labels: &[u32]) -> Layout {
        let layout = Rust.layout(labels);
        match self.0 {
            Lie::LastRow if labels == [1, 2, 5, 6] => Layout { tag: (132 << 16) | 4, ..layout },
            _ => layout,
        }
    }

    fn pack(&self, samples: &[i32], little: bool) -> Vec<u8> {
        match self.0 {
            Lie::Saturated => {
                let held: Vec<i32> = samples.iter().map(|&sample| sample.clamp(-8388608, 8388607)).collect();
                Rust.pack(&held, little)
            }
            _ => Rust.pack(samples, little),
        }
    }

    fn run(&self, script: &Script) -> Vec<Step> {
        let mut steps = Rust.run(script);
        let mut past = 0;
        let mut file = Vec::new();
        for (call, step) in script.iter().zip(&mut steps) {
            match (self.0, call) {
                (Lie::CountAfterResume, Call::Resume) if step.number == DONE => step.data_count = past,
                (Lie::TailResumed, Call::ResumeFrom(_)) if step.number == TAIL_AFTER_DATA => step.number = DONE,
                (Lie::LowByteFirst, Call::Cut(..)) if step.number == DONE => {
                    let end = step.file.len();
                    if end > 11 && step.file[end - 12..end - 4] == [0, 0, 0, 0, 0, 0, 0, 0xff] {
                        step.file[end - 12..end - 4].copy_from_slice(&[0xff, 0, 0, 0, 0, 0, 0, 4]);
                    }
                }
                (Lie::SecondFinish, Call::Finish) if past == u64::MAX => step.number = FINISHED,
                (Lie::RoundedDown, Call::Header) if step.number == DONE && step.file[51] == 20 => {
                    step.file[39] = 2 * step.file[47];
                }
                (Lie::OldSize, Call::Resume) if step.number == DONE => step.file = file,
                _ => {}
            }
            file = step.file.clone();
            past = if step.finished { u64::MAX } else { step.data_count };
        }
        steps
    }
}

fn main() {
    known::check_all(&Rust);
    println!("the Rust text gives the answers worked out by hand");
    if let Err(report) = Comparison::new(&Rust, &Rust).all(1, 200) {
        panic!("the Rust text differs from itself: {report}");
    }
    for lie in [
        Lie::DataStart,
        Lie::ChunkCount,
        Lie::LastRow,
        Lie::Saturated,
        Lie::CountAfterResume,
        Lie::LowByteFirst,
        Lie::SecondFinish,
        Lie::TailResumed,
        Lie::RoundedDown,
        Lie::OldSize,
    ] {
        match Comparison::new(&Liar(lie), &Rust).all(1, 200) {
            Ok(()) => panic!("{lie:?} was not found"),
            Err(report) => println!("\n{lie:?} is found:\n{report}"),
        }
    }
}
