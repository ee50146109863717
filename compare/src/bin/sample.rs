//! Writes the cases of some kinds of a sample of the Rust text's answers to standard output, as compare/README.md lays it
//! out: sample KINDS [SEED]. Only inputs inside 01's domain of equality are in it, so every answer is the text's own.

use std::io::Write;

use harness::answer::*;
use harness::encode;
use harness::files;
use harness::known;
use harness::names;
use harness::oracle::Rust;
use harness::random::Random;
use harness::script::{Call, Past, Script};
use harness::scripts;

/// Of the sample that is kept: the first seed whose sample has a cut of each writing call.
const SEED: u64 = 3;
const RANDOM_FILES: usize = 35;
const RANDOM_SCRIPTS: usize = 150;
const RANDOM_SAMPLES: usize = 20;

/// What a replaying program can hold; so much, or less, has the whole sample.
const LONGEST: usize = 65536;

/// The cases so far, and their length.
struct Sample {
    cases: Vec<Vec<u8>>,
    length: usize,
}

impl Sample {
    fn keep(&mut self, case: Vec<u8>) {
        if self.length + case.len() <= LONGEST {
            self.length += case.len();
            self.cases.push(case);
        }
    }

    fn file(&mut self, file: Vec<u8>) {
        let reading = Rust.parse(&file);
        if !outside(reading.number) {
            self.keep(encode::reading(&file, &reading));
        }
    }

    fn labels(&mut self, labels: Vec<u32>) {
        self.keep(encode::labels(&labels, &Rust.layout(&labels)));
    }

    fn samples(&mut self, samples: Vec<i32>) {
        for little in [false, true] {
            self.keep(encode::samples(&samples, little, &Rust.pack(&samples, little)));
        }
    }

    fn script(&mut self, mut script: Script) {
        script.extend(ending(&script));
        let steps = Rust.run(&script);
        let inside = script.iter().zip(&steps).all(|(call, step)| !call.is_outside(step.number));
        let own = script.iter().all(|call| call.rounded_up().is_none());
        if inside && own && !script.is_empty() {
            self.keep(encode::script(&script, &steps));
        }
    }
}

/// The calls that a script wants so that its last file is the text's own. From a resume to the next finish the size
/// field is not.
fn ending(script: &Script) -> Script {
    let mut past = Past::default();
    for (call, step) in script.iter().zip(Rust.run(script)) {
        past.answered(call, step.number);
    }
    match (past.reopened, past.no_writer) {
        (false, _) => vec![],
        (true, false) => vec![Call::Finish],
        (true, true) => vec![Call::Resume, Call::Finish],
    }
}

fn main() {
    known::check_all(&Rust);
    let mut sample = Sample { cases: Vec::new(), length: 0 };
    let rows = names::rows();
    let kinds = std::env::args().nth(1).expect("letters of kinds");
    let seed = std::env::args().nth(2).map_or(SEED, |arg| arg.parse().expect("a number"));
    let random = &mut Random(seed);

    for head in files::HEADS {
        sample.file(head.to_vec());
    }
    files::joined(files::HEADS[0], 2, &mut |file| sample.file(file));
    for _ in 0..RANDOM_FILES {
        let good = files::good(random);
        sample.file(files::damaged(random, &good));
        sample.file(good);
    }

    sample.labels(Vec::new());
    for row in &rows {
        sample.labels(row.clone());
        sample.labels(row.iter().rev().copied().collect());
        sample.labels(row[1..].to_vec());
    }
    for label in names::LABELS {
        sample.labels(vec![label as u32]);
    }

    for _ in 0..RANDOM_SAMPLES {
        sample.samples(scripts::samples(random));
    }

    sample.script(known::example_script());
    scripts::all(2, &mut |script| sample.script(script));
    for _ in 0..RANDOM_SCRIPTS {
        sample.script(scripts::random(random, &rows));
    }

    sample.cases.retain(|case| kinds.as_bytes().contains(&case[0]));
    std::io::stdout().write_all(&sample.cases.concat()).expect("standard output takes the sample");
    eprintln!("{} cases", sample.cases.len());
}
