//! What the comparing programs share: the Rust text behind one face, the inputs, and how a failing one is made small.

pub mod answer;
pub mod compare;
pub mod encode;
pub mod files;
pub mod known;
pub mod names;
pub mod oracle;
pub mod ours;
pub mod random;
pub mod script;
pub mod scripts;
pub mod shrink;
