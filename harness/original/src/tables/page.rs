//! Stand-in for the page table's constants.

/// A mark, not an address: the original has a constant where document 01 has an
/// input. `trace_builder::new_register_state` puts the stack top in its place.
pub const STACK_TOP: u64 = 0x5354_4143_4B20_544F;
