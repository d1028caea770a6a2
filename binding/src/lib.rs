//! The proved service from Rust: its calls, all the unsafe code there is, and the table's layout.

#[cfg(feature = "host")]
pub mod call;
pub mod layout;
#[cfg(feature = "list_probe")]
pub mod probe;
#[cfg(feature = "reading_probe")]
pub mod reading_probe;
