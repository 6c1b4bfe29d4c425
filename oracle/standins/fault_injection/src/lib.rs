//! Stands for fault-injection: notes where an error passed.
//!
//! Assumes: the note is of no use here, the error goes on as it came.

#[macro_export]
macro_rules! annotate {
    ($error:expr) => {
        $error
    };
}
