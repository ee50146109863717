//! Making a failing input small: take parts away as long as it still fails.

use crate::script::Call;

pub trait Shrink: Sized {
    /// Inputs that are smaller by one simple step, the boldest first.
    fn smaller(&self) -> Vec<Self>;
}

pub fn shrink<T: Shrink>(mut input: T, fails: impl Fn(&T) -> bool) -> T {
    while let Some(next) = input.smaller().into_iter().find(|input| fails(input)) {
        input = next;
    }
    input
}

/// The list without one run of elements, long runs first.
fn without_runs<T: Clone>(list: &[T]) -> Vec<Vec<T>> {
    let mut all = Vec::new();
    let mut run = list.len();
    while run > 0 {
        for start in (0..list.len()).step_by(run) {
            let end = (start + run).min(list.len());
            all.push([&list[..start], &list[end..]].concat());
        }
        run /= 2;
    }
    all
}

/// The list with one element replaced by `simple`.
fn simpler<T: Clone + PartialEq>(list: &[T], simple: T) -> Vec<Vec<T>> {
    let places = (0..list.len()).filter(|&i| list[i] != simple);
    places
        .map(|i| {
            let mut copy = list.to_vec();
            copy[i] = simple.clone();
            copy
        })
        .collect()
}

impl Shrink for Vec<u8> {
    fn smaller(&self) -> Vec<Self> {
        [without_runs(self), simpler(self, 0)].concat()
    }
}

impl Shrink for Vec<i32> {
    fn smaller(&self) -> Vec<Self> {
        [without_runs(self), simpler(self, 0)].concat()
    }
}

impl Shrink for Vec<u32> {
    fn smaller(&self) -> Vec<Self> {
        [without_runs(self), simpler(self, 1)].concat()
    }
}

impl Shrink for Vec<Call> {
    fn smaller(&self) -> Vec<Self> {
        let mut all = without_runs(self);
        for (i, call) in self.iter().enumerate() {
            for smaller in call.smaller() {
                let mut copy = self.clone();
                copy[i] = smaller;
                all.push(copy);
            }
        }
        all
    }
}

impl Shrink for Call {
    fn smaller(&self) -> Vec<Self> {
        match self {
            Call::Data(bytes) => bytes.smaller().into_iter().map(Call::Data).collect(),
            Call::Samples(samples) => samples.smaller().into_iter().map(Call::Samples).collect(),
            Call::ResumeFrom(file) => file.smaller().into_iter().map(Call::ResumeFrom).collect(),
            Call::Labels { labels, channels } => {
                let fewer = labels.smaller().into_iter();
                fewer.map(|labels| Call::Labels { labels, channels: *channels }).collect()
            }
            Call::Configure { rate, channels, bits, labels } => {
                let (rate, channels, bits) = (*rate, *channels, *bits);
                let fewer = labels.smaller().into_iter();
                fewer.map(|labels| Call::Configure { rate, channels, bits, labels }).collect()
            }
            Call::Cut(call, n) => {
                let inner = call.smaller().into_iter();
                inner.map(|call| Call::Cut(Box::new(call), *n)).collect()
            }
            _ => Vec::new(),
        }
    }
}
