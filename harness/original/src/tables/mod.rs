//! The original's tables and the stand-ins beside them.

pub mod memw_register;
pub mod page;
pub mod register;
pub mod residues;
pub mod trace_builder;
pub mod types;

// `copy` and `memw`, at their own path.
include!(concat!(env!("OUT_DIR"), "/tables.rs"));

/// Named by memw.rs and used by no part that document 01 covers.
pub mod max_rows {
    pub const MEMW: usize = 1 << 20;
}
