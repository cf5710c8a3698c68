//! The published Rust, unchanged, behind stand-ins for what it calls from elsewhere.
//! The module paths are those that its own `use` lines name.

pub mod constraints {
    pub mod templates;
}
pub mod paged_mem;
pub mod tables;

/// The original's error. Its text is kept for messages only: document 01's layer
/// refuses by number before the original can err.
#[derive(Debug)]
pub enum Error {
    Prover(String),
}
