//! Tests and measurements beside the proved solver, in plain Rust: a reading of the documents to compare with, an unproved fast
//! solver to measure against, and a generator of inputs. Nothing here is proved, and the proved code uses none of it.

pub mod clock;
pub mod count;
#[cfg(feature = "proved")]
pub mod exported;
pub mod generate;
pub mod generate_text;
pub mod import;
pub mod met;
pub mod plain;
pub mod plain_import;
#[cfg(feature = "proved")]
pub mod proved;
pub mod reading;
pub mod smt;
pub mod vectors;
