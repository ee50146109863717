//! Stand-in for the crate `log`: the Rust text only calls `debug!`, whose message nobody reads here.

#[macro_export]
macro_rules! debug {
    ($($part:tt)*) => {
        ()
    };
}
