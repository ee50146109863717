//! How long our code takes beside the Rust text, plain Rust and, where it was built with it, libsndfile: a table of ratios and goals.
//!
//!     bench [PART..]    the rows whose name has one of the parts in it, or all
//!
//! Every buffer is written once before anything is timed and is not cleared between windows; each side has its own, but for data calls.

#[path = "../bench/blocks.rs"]
mod blocks;
#[path = "../bench/files.rs"]
mod files;
#[path = "../bench/films.rs"]
mod films;
#[path = "../bench/linked.rs"]
mod linked;
#[path = "../bench/overviews.rs"]
mod overviews;
#[path = "../bench/race.rs"]
mod race;
#[path = "../bench/readings.rs"]
mod readings;
#[path = "../bench/samples.rs"]
mod samples;
#[path = "../bench/timed.rs"]
mod timed;
#[path = "../bench/trays.rs"]
mod trays;
#[path = "../bench/waves.rs"]
mod waves;
#[path = "../bench/writing.rs"]
mod writing;

const KIB: usize = 1 << 10;
const MIB: usize = 1 << 20;

fn main() {
    let table = race::Table::new(std::env::args().skip(1).collect());
    readings::small_files(&table);
    readings::many_chunks(&table);
    samples::packing(&table);
    writing::data_calls(&table);
    writing::empty_calls(&table);
    writing::small_samples(&table);
    writing::clip(&table);
    writing::lookups(&table);
    writing::single_calls(&table);
    overviews::appended(&table);
    overviews::copied(&table);
    waves::delivered(&table);
    blocks::fed_chunks(&table);
    trays::called(&table);
    readings::opened(&table);
    trays::opened(&table);
    blocks::fed_data(&table);
    blocks::streams(&table);
    films::compared(&table);
}
