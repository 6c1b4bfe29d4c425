//! Stands for log: traces are dropped; a warning or an error stops the run.
//!
//! Assumes: over these stand-ins sled has nothing to warn of.
#![forbid(unsafe_code)]

#[macro_export]
macro_rules! trace {
    ($($word:tt)*) => {
        // Checked by the compiler, so that what it mentions counts as used.
        if false {
            let _ = format_args!($($word)*);
        }
    };
}

#[macro_export]
macro_rules! warn {
    ($($word:tt)*) => { $crate::stop(format_args!($($word)*)) };
}

#[macro_export]
macro_rules! error {
    ($($word:tt)*) => { $crate::stop(format_args!($($word)*)) };
}

pub fn stop(message: std::fmt::Arguments<'_>) {
    panic!("sled says: {message}");
}
