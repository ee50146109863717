//! Sides measured by the clock.
//!
//! The sides take turns, each in many short windows of its thread's CPU time. The value is the ratio of their best windows, so that a
//! machine with other work on it does not lie; the ratio of their medians stands beside it.

use std::io::{Write, stdout};

use crate::race::{Goal, Row, Side};

/// Windows of a side, as many as that unless the row takes longer than `LONGEST`.
const WINDOWS: usize = 200;
/// The least length of a window of repeated work, in nanoseconds.
const WINDOW: f64 = 100e3;
const LONGEST: f64 = 4e9;

#[repr(C)]
struct Time {
    seconds: i64,
    nanoseconds: i64,
}

unsafe extern "C" {
    fn clock_gettime(clock: i32, time: *mut Time) -> i32;
}

/// CLOCK_THREAD_CPUTIME_ID of Linux.
const THREAD: i32 = 3;

fn cpu_time() -> f64 {
    let mut time = Time { seconds: 0, nanoseconds: 0 };
    // Safety: the place is a whole `timespec` of 64-bit Linux
    assert_eq!(unsafe { clock_gettime(THREAD, &mut time) }, 0);
    time.seconds as f64 * 1e9 + time.nanoseconds as f64
}

/// The windows of one side, each in nanoseconds for a unit of work.
pub struct Windows(Vec<f64>);

impl Windows {
    /// Times one window of so many units.
    pub fn window(&mut self, units: usize, work: impl FnOnce()) {
        let start = cpu_time();
        work();
        self.0.push((cpu_time() - start) / units as f64);
    }

    fn best(&self) -> f64 {
        self.0[0]
    }

    fn median(&self) -> f64 {
        self.0[self.0.len() / 2]
    }
}

/// A side whose work is short and leaves no trace: it is repeated as often as a window takes.
pub fn repeated<'a>(mut work: impl FnMut() + 'a) -> Side<'a> {
    let mut times = 1;
    Box::new(move |windows| {
        loop {
            windows.window(times, || (0..times).for_each(|_| work()));
            if windows.0.last().is_some_and(|unit| unit * times as f64 >= WINDOW) {
                return;
            }
            windows.0.pop();
            times *= 2;
        }
    })
}

pub fn begin() {
    println!("| what | beside | goal | value | verdict |\n|---|---|---|---|---|");
}

pub fn race(row: &Row, sides: [Side; 2]) {
    let mut sides = sides.map(|side| (side, Windows(Vec::new())));
    let start = cpu_time();
    while cpu_time() - start < LONGEST && sides.iter().any(|(_, windows)| windows.0.len() < WINDOWS) {
        for (side, windows) in &mut sides {
            side(windows);
        }
    }
    let [ours, theirs] = sides.map(|(_, mut windows)| {
        windows.0.sort_by(f64::total_cmp);
        windows
    });
    print(row, &ours, &theirs);
}

fn print(row: &Row, ours: &Windows, theirs: &Windows) {
    let ratio = ours.best() / theirs.best();
    let met = match row.goal {
        Goal::Ratio(most) => Some(ratio <= most),
        Goal::Nanoseconds(most) => Some(ours.best() <= most),
        Goal::None => None,
    };
    let verdict = met.map_or("", |met| if met { "met" } else { "missed" });
    let times =
        format!("{} to {}; medians {:.2}", time(ours.best()), time(theirs.best()), ours.median() / theirs.median());
    println!("| {} | {} | {} | {ratio:.3} ({times}) | {verdict} |", row.what, row.beside, row.goal.words());
    stdout().flush().expect("standard output");
}

fn time(nanoseconds: f64) -> String {
    match nanoseconds {
        n if n < 1e3 => format!("{n:.1} ns"),
        n if n < 1e6 => format!("{:.2} µs", n / 1e3),
        n => format!("{:.2} ms", n / 1e6),
    }
}
