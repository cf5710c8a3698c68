//! Stand-in for the prover library: a table of elements, constraints evaluated on
//! one row, and the names of the bus types (never evaluated: document 01 leaves bus
//! interactions out).

pub mod constraints {
    pub mod builder;
}
pub mod lookup;
pub mod table;
pub mod trace;
