//! Stands for the crate `log`: does what its public documentation says with no
//! logger installed, and only what the carried files use (`trace!`, `warn!`).
//! Arguments are checked by the compiler and never evaluated.

/// Logs nothing
#[macro_export]
macro_rules! trace {
    ($($arg:tt)+) => {
        if false {
            let _ = ::core::format_args!($($arg)+);
        }
    };
}

/// Logs nothing
#[macro_export]
macro_rules! warn {
    ($($arg:tt)+) => {
        if false {
            let _ = ::core::format_args!($($arg)+);
        }
    };
}
