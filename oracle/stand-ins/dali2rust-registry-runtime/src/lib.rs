//! Stands in for the crate of this name, of which only some files are published: it mounts an original one here, with a
//! module in it that hands out what the original keeps private.

// The original stays as it is, without lints.
#[allow(warnings, clippy::all)]
pub mod memory_bank_parser {
    include!("../../../original/crates/dali2rust-registry-runtime/src/runtime/registry/memory_bank_parser.rs");

    pub mod asked;
}
