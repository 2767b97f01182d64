//! Stands in for the crate `log`. Its macros type-check their arguments and never evaluate them,
//! as those of `log` do where no logger is installed.

#[macro_export]
macro_rules! trace {
    ($($argument:tt)*) => {
        if false {
            let _ = format_args!($($argument)*);
        }
    };
}

#[macro_export]
macro_rules! debug {
    ($($argument:tt)*) => { $crate::trace!($($argument)*) };
}

#[macro_export]
macro_rules! info {
    ($($argument:tt)*) => { $crate::trace!($($argument)*) };
}

#[macro_export]
macro_rules! warn {
    ($($argument:tt)*) => { $crate::trace!($($argument)*) };
}

#[macro_export]
macro_rules! error {
    ($($argument:tt)*) => { $crate::trace!($($argument)*) };
}
