//! Stands in for the crate of this name, of which only some files are published: it mounts the original ones here at
//! their own module paths.

// The originals stay as they are: neither formatted nor linted.
#[rustfmt::skip]
#[allow(warnings, clippy::all)]
#[path = "../../../original/crates/dali2rust-domain/src/dali"]
pub mod dali {
    pub mod banks;
}

#[rustfmt::skip]
#[allow(warnings, clippy::all)]
#[path = "../../../original/crates/dali2rust-domain/src/registry"]
pub mod registry {
    mod attributes;

    pub use attributes::{BankReading, LuminaireValue};
}
