//! The comparison itself: every input to both sides, the first difference made small.

use std::collections::BTreeMap;
use std::fmt::Debug;

use crate::answer::{Side, outside};
use crate::files;
use crate::names;
use crate::random::Random;
use crate::script::{Call, Script};
use crate::scripts;
use crate::shrink::{Shrink, shrink};

/// How many inputs of each kind were tried and what came of them.
#[derive(Default)]
pub struct Tally {
    pub inputs: BTreeMap<&'static str, u64>,
    /// per number of 01: answers of the plain reading, then answers of calls
    pub readings: BTreeMap<u32, u64>,
    pub calls: BTreeMap<u32, u64>,
}

impl Tally {
    pub fn total(&self) -> u64 {
        self.inputs.values().sum()
    }

    pub fn print(&self) {
        let line = |what: &str, counts: &BTreeMap<u32, u64>| {
            let (out, inside): (Vec<_>, Vec<_>) = counts.iter().partition(|(number, _)| outside(**number));
            let list = |part: Vec<(&u32, &u64)>| {
                part.iter().map(|(number, count)| format!("{number}: {count}")).collect::<Vec<_>>().join(", ")
            };
            println!("{what} by number: {}; outside the domain: {}", list(inside), list(out));
        };
        for (kind, count) in &self.inputs {
            println!("{kind}: {count}");
        }
        line("readings", &self.readings);
        line("calls", &self.calls);
        println!("{} inputs, no difference", self.total());
    }
}

pub struct Comparison<'a> {
    pub ours: &'a dyn Side,
    pub rust: &'a dyn Side,
    pub tally: Tally,
}

/// Where the sides differ: the report of a small input.
pub type Compared = Result<(), String>;

fn judge<T: Shrink + Debug + Clone, A: PartialEq + Debug>(
    kind: &str,
    input: &T,
    ours: impl Fn(&T) -> A,
    rust: impl Fn(&T) -> A,
) -> Compared {
    if ours(input) == rust(input) {
        return Ok(());
    }
    let small = shrink(input.clone(), |input| ours(input) != rust(input));
    Err(format!("{kind} {small:02x?}\n ours {:?}\n rust {:?}", ours(&small), rust(&small)))
}

impl<'a> Comparison<'a> {
    pub fn new(ours: &'a dyn Side, rust: &'a dyn Side) -> Self {
        Comparison { ours, rust, tally: Tally::default() }
    }

    fn count(&mut self, kind: &'static str) {
        *self.tally.inputs.entry(kind).or_default() += 1;
    }

    pub fn file(&mut self, file: Vec<u8>) -> Compared {
        self.count("files read");
        let reading = self.rust.parse(&file);
        *self.tally.readings.entry(reading.number).or_default() += 1;
        judge("file", &file, |file| self.ours.parse(file), |file| self.rust.parse(file))?;
        // whatever the strict reading accepts, the Rust finds the same in it
        let accepted = |file: &Vec<u8>| self.ours.strict(file);
        judge("strictly read file", &file, accepted, |file| accepted(file).and(self.rust.parse(file).found))
    }

    pub fn labels(&mut self, labels: Vec<u32>) -> Compared {
        self.count("label lists");
        judge("labels", &labels, |labels| self.ours.layout(labels), |labels| self.rust.layout(labels))
    }

    pub fn samples(&mut self, samples: Vec<i32>) -> Compared {
        for little in [false, true] {
            self.count("sample lists");
            let ours = |samples: &Vec<i32>| self.ours.pack(samples, little);
            judge("samples", &samples, ours, |samples| self.rust.pack(samples, little))?;
        }
        Ok(())
    }

    pub fn script(&mut self, script: Script) -> Compared {
        self.count("scripts of calls");
        let (ours, rust) = (self.ours.run(&script), self.rust.run(&script));
        for step in &rust {
            *self.tally.calls.entry(step.number).or_default() += 1;
        }
        let Some(at) = (0..script.len()).find(|&at| ours[at] != rust[at]) else {
            return Ok(());
        };
        // the calls after the first that differs show nothing more
        let script = script[..=at].to_vec();
        judge("script", &script, |script| self.ours.run(script).pop(), |script| self.rust.run(script).pop())
    }

    /// All the inputs of a run: what is tried exhaustively, then `rounds` random ones of each kind.
    pub fn all(&mut self, seed: u64, rounds: u64) -> Compared {
        let rows = names::rows();
        self.short_files()?;
        self.short_scripts()?;
        self.near_rows(&rows)?;
        let random = &mut Random(seed);
        for _ in 0..rounds {
            let good = files::good(random);
            self.file(files::damaged(random, &good))?;
            self.file(files::wild(random))?;
            let tailed = files::tailed(random);
            self.file(tailed.clone())?;
            self.script(vec![Call::ResumeFrom(tailed), Call::Data(vec![1]), Call::Finish])?;
            self.script(scripts::random(random, &rows))?;
            self.labels(scripts::labels(random, &rows))?;
            self.samples(scripts::samples(random))?;
        }
        Ok(())
    }

    fn short_files(&mut self) -> Compared {
        let mut found = Ok(());
        let mut visit = |file| {
            if found.is_ok() {
                found = self.file(file);
            }
        };
        for (i, head) in files::HEADS.iter().enumerate() {
            files::joined(head, if i == 0 { 4 } else { 2 }, &mut visit);
        }
        for seed in 0..8 {
            let file = files::good(&mut Random(seed));
            files::neighbours(&file, &[0, 1, 2, 3, 4, 12, 32, 0x7f, 0x80, 0xf4, 0xff, b'd', b'a', b't'], &mut visit);
        }
        found
    }

    fn short_scripts(&mut self) -> Compared {
        let mut found = Ok(());
        scripts::all(4, &mut |script| {
            if found.is_ok() {
                found = self.script(script);
            }
        });
        found
    }

    /// Every list of at most two labels, and every row of the table with one label changed, left out or put in.
    fn near_rows(&mut self, rows: &[Vec<u32>]) -> Compared {
        let known: Vec<u32> = names::LABELS.iter().map(|&label| label as u32).collect();
        self.labels(Vec::new())?;
        for &first in &known {
            self.labels(vec![first])?;
            for &second in &known {
                self.labels(vec![first, second])?;
            }
        }
        for row in rows {
            self.labels(row.clone())?;
            for at in 0..row.len() {
                for &label in &known {
                    let mut changed = row.clone();
                    changed[at] = label;
                    self.labels(changed)?;
                }
                let mut shorter = row.clone();
                shorter.remove(at);
                self.labels(shorter)?;
            }
            for &label in &known {
                self.labels([&row[..], &[label]].concat())?;
            }
        }
        Ok(())
    }
}
