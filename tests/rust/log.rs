//! A stand-in for the crate `log`: the two macros that the original imports. Their arguments are checked and thrown away.
#[macro_export]
macro_rules! info { ($($t:tt)*) => { { let _ = format_args!($($t)*); } } }
#[macro_export]
macro_rules! warn { ($($t:tt)*) => { { let _ = format_args!($($t)*); } } }
