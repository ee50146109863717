//! The rows of a table: two sides of work held against each other, and what comes of it.

use crate::timed::{self, Windows};

/// One side of a race: some windows of its work.
pub type Side<'a> = Box<dyn FnMut(&mut Windows) + 'a>;

/// What a row has to be.
#[derive(Clone, Copy)]
pub enum Goal {
    /// at most so many times the other side's time
    Ratio(f64),
    /// at most so many nanoseconds, whatever the other side takes
    Nanoseconds(f64),
    /// reported only
    None,
}

impl Goal {
    pub fn words(self) -> String {
        match self {
            Goal::Ratio(most) => format!("≤ {most}"),
            Goal::Nanoseconds(most) => format!("≤ {most} ns"),
            Goal::None => String::new(),
        }
    }
}

/// Rows that are asked for: those whose name has one of these in it, or all.
pub struct Table(Vec<String>);

impl Table {
    pub fn new(asked: Vec<String>) -> Self {
        timed::begin();
        Table(asked)
    }

    /// The row of this name, if it is asked for.
    pub fn row(&self, what: impl Into<String>, beside: &'static str, goal: Goal) -> Option<Row> {
        let what = what.into();
        let asked = self.0.is_empty() || self.0.iter().any(|part| what.contains(part));
        asked.then_some(Row { what, beside, goal })
    }
}

pub struct Row {
    pub what: String,
    pub beside: &'static str,
    pub goal: Goal,
}

impl Row {
    pub fn race(self, ours: Side, theirs: Side) {
        timed::race(&self, [ours, theirs]);
    }
}
