//! The service from outside: its two calls behind a trait, a model of it in plain Rust, a checker
//! of a table's bytes, and a desk that compares every call with the site book.

pub mod bytes;
pub mod damage;
pub mod desk;
pub mod draw;
pub mod faults;
pub mod hearing;
pub mod history;
pub mod model;
#[cfg(feature = "proved")]
pub mod proved;
pub mod shape;
pub mod table;
pub mod written_out;
pub mod wrong;

pub use model::Model;
#[cfg(feature = "proved")]
pub use proved::Proved;

/// The reason for a table that breaks a rule on layout, sites, tour or tree; the site book has
/// those that are not the table's.
pub const BROKEN_TABLE: u32 = 65;
/// The reason where only the standing leg or list is wrong, so that the sites can be read.
pub const BROKEN_STANDING: u32 = 69;

/// Reason, command bytes used and report bytes written.
pub type Answer = (u32, usize, usize);

/// The two calls of document 01 ("Buffers and batches").
pub trait Service {
    /// Returns the reason.
    fn lay_out(&self, table: &mut [u8]) -> u32;

    fn batch(
        &self,
        table: &mut [u8],
        work: &mut [u8],
        commands: &[u8],
        report: &mut [u8],
    ) -> Answer;
}

/// Makes a test of each named function, which takes a service: one against the model and, with
/// the feature `proved`, one against the proved service.
#[macro_export]
macro_rules! on_each_service {
    ($($test:ident),* $(,)?) => {
        mod model {
            $(#[test]
            fn $test() {
                super::$test(&$crate::Model);
            })*
        }
        #[cfg(feature = "proved")]
        mod proved {
            $(#[test]
            fn $test() {
                super::$test(&$crate::Proved);
            })*
        }
    };
}
