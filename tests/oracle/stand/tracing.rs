//! Type. The macros check their format text and write nothing.
#[macro_export]
macro_rules! trace { ($($words:tt)*) => { if false { let _ = ::std::format_args!($($words)*); } } }
#[macro_export]
macro_rules! warn { ($($words:tt)*) => { if false { let _ = ::std::format_args!($($words)*); } } }
#[macro_export]
macro_rules! error { ($($words:tt)*) => { if false { let _ = ::std::format_args!($($words)*); } } }
